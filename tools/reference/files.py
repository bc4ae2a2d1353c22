"""What the files of a plant hold, or the line that refuses them, by docs/PLANT.md.

Of a plant file, C1 is what Python's own reader of TOML says, where Python has one (3.11). Names, kinds, constants and the limits on them (C6 to C9, TURNS
and what follows it) aren't judged here.
"""

import datetime
import re

from grammar import fault
from plants import AlarmRow

try:
    import tomllib
except ImportError:
    tomllib = None

MARK = b"\xef\xbb\xbf"
LARGEST_FILE = 16_777_217
FORM, WORD = re.compile("[A-Za-z0-9_.-]{1,32}"), re.compile("[A-Za-z_][A-Za-z0-9_]*")
EPOCH = re.compile("([0-9]{4})-([0-9]{2})-([0-9]{2})T([0-9]{2}):([0-9]{2}):([0-9]{2})Z")
COLUMNS = ["tag", "area", "priority", "condition", "suppress", "latch", "max_shelve_ms", "text"]
COLUMNS_WITH_DELAY = ["tag", "area", "priority", "condition", "suppress", "latch", "max_shelve_ms", "on_delay_ms", "text"]
# The headers that there are: the first is version 1 of the table, the second version 2.
HEADERS = [COLUMNS, COLUMNS_WITH_DELAY]
# The greatest number that stands in a column of milliseconds.
LARGEST = {"max_shelve_ms": 2_592_000_000, "on_delay_ms": 86_400_000}


class Refused(Exception):
    """A plant is refused; the argument is the line."""


class Unknown(Exception):
    """This reading can't tell."""


def refuse(line):
    raise Refused(line)


# ------------------------------------------------------------------------------------------------------------------- the plant file


def is_text(it, most):
    return isinstance(it, str) and 1 <= len(it.encode()) <= most


def are_texts(them, fits):
    return isinstance(them, list) and all(fits(it) for it in them) and len(set(them)) == len(them)


def is_form(it):
    return isinstance(it, str) and FORM.fullmatch(it) is not None


def is_console(it, areas):
    """Whether a table is that of a console, whose areas are among those of the plant."""
    if not isinstance(it, dict) or set(it) != {"number", "areas"}:
        return False
    number = it["number"]
    return type(number) is int and 1 <= number <= 999_999_999 and are_texts(it["areas"], lambda area: isinstance(area, str) and area in areas)


def plant_file(given):
    """The keys of a plant file; C1 or C2."""
    if tomllib is None:
        raise Unknown
    try:
        keys = tomllib.loads(given.removeprefix(MARK).decode())
    except (UnicodeDecodeError, tomllib.TOMLDecodeError):
        refuse("CONFIG C1")
    keys.setdefault("console", [])
    fits = set(keys) == {"name", "epoch", "areas", "sources", "alarms", "console"}
    fits = fits and is_text(keys["name"], 64) and isinstance(keys["epoch"], str) and is_text(keys["alarms"], 255)
    fits = fits and are_texts(keys["areas"], is_form) and are_texts(keys["sources"], lambda it: is_text(it, 255)) and isinstance(keys["console"], list)
    fits = fits and all(is_console(it, keys["areas"]) for it in keys["console"])
    fits = fits and len({it["number"] for it in keys["console"]}) == len(keys["console"])
    return keys if fits else refuse("CONFIG C2")


def is_epoch(text):
    found = EPOCH.fullmatch(text)
    try:
        return found is not None and 1970 <= int(found[1]) <= 2399 and bool(datetime.datetime(*map(int, found.groups())))
    except ValueError:
        return False


# ------------------------------------------------------------------------------------------------------------------------- alarms


def records(given):
    """The records of a table, each a list of fields."""
    found, fields, field, at, quoted, begun = [], [], bytearray(), 0, False, False
    while at < len(given):
        byte = given[at : at + 1]
        at += 1
        if quoted:
            if byte != b'"':
                field += byte
            elif given[at : at + 1] == b'"':
                field += b'"'
                at += 1
            else:
                quoted = False
        elif byte in b"\r\n":
            if begun:
                found.append(fields + [bytes(field)])
            fields, field, begun = [], bytearray(), False
            continue
        elif byte == b",":
            fields.append(bytes(field))
            field = bytearray()
        elif byte == b'"' and not field and given[at - 2 : at - 1] in (b"", b",", b"\r", b"\n"):
            quoted = True
        else:
            field += byte
        begun = True
    return found + ([fields + [bytes(field)]] if begun else [])


def fits_column(column, field):
    """Whether a field has its column's form (C12)."""
    if column == "text":
        try:
            field.decode()
        except UnicodeDecodeError:
            return False
        return len(field) <= 200 and all(byte >= 0x20 and byte != 0x7F for byte in field)
    text = field.decode("latin-1")
    if column in ("tag", "area"):
        return is_form(text)
    if column == "priority":
        return text in ("1", "2", "3", "4")
    if column == "latch":
        return text.upper() in ("TRUE", "FALSE", "1", "0")
    if column in LARGEST:
        return re.fullmatch("[0-9]{1,10}", text) is not None and int(text) <= LARGEST[column]
    return WORD.fullmatch(text) is not None or (column == "suppress" and text == "")


def alarm_file(given, areas, bools):
    """The rows of an alarm file, where the BOOL globals have these names, in small letters; or C11 to C14, and C10 ALARMS."""
    header, *rows = records(given.removeprefix(MARK)) or [[]]
    columns = next((them for them in HEADERS if header == [column.encode() for column in them]), None)
    if columns is None or any(len(row) != len(columns) for row in rows):
        refuse("CONFIG C11")
    if len(rows) > 20_000:
        refuse("CONFIG C10 ALARMS")
    for at, row in enumerate(rows, 1):
        for column, field in zip(columns, row):
            if not fits_column(column, field):
                refuse(f"CONFIG C12 {at} {column}")
    tags = [row[0] for row in rows]
    first = {tag: at for at, tag in reversed(list(enumerate(tags)))}
    for at, tag in enumerate(tags):
        if first[tag] < at:
            refuse(f"CONFIG C13 {at + 1}")
    return [alarm_row(at, dict(zip(columns, [field.decode() for field in row])), areas, bools) for at, row in enumerate(rows, 1)]


def alarm_row(at, row, areas, bools):
    """The alarm of a row whose fields, by their columns, have their forms; or C14. A table without the column of delays has none."""
    if row["area"] not in areas:
        refuse(f"CONFIG C14 {at} area")
    if row["condition"].lower() not in bools:
        refuse(f"CONFIG C14 {at} condition")
    if row["suppress"] and row["suppress"].lower() not in bools:
        refuse(f"CONFIG C14 {at} suppress")
    latching, delay = row["latch"].upper() in ("TRUE", "1"), int(row.get("on_delay_ms", "0"))
    return AlarmRow(row["tag"], row["area"], int(row["priority"]), row["condition"], row["suppress"] or None, latching, int(row["max_shelve_ms"]), delay)


# --------------------------------------------------------------------------------------------------------------------- all of them


def judged(path, found, read=plant_file):
    """The keys of a plant's file, where no rule up to C5 is broken. `found` gives a file's bytes by its name, and None where it can't be read."""
    plant = found(path)
    if plant is None or len(plant) > LARGEST_FILE:
        refuse(f"FILE {path}")
    keys = read(plant)
    names = keys["sources"] + [keys["alarms"]]
    texts = [found(name) for name in names]
    for name, text in zip(names, texts):
        if text is None or len(text) > LARGEST_FILE:
            refuse(f"FILE {name}")
    if not is_epoch(keys["epoch"]):
        refuse("CONFIG C3")
    if len(keys["sources"]) > 64:
        refuse("CONFIG C10 SOURCES")
    if sum(map(len, texts[:-1])) > 4_194_304 or len(plant) > 1_048_576 or len(texts[-1]) > 16_777_216:
        refuse("CONFIG C10 TEXT")
    if len(keys["areas"]) > 64:
        refuse("CONFIG C10 AREAS")
    if len(keys["console"]) > 32:
        refuse("CONFIG C10 CONSOLES")
    for name, text in zip(names, texts[:-1]):
        wrong = fault(text)
        if wrong:
            refuse("CONFIG {} {} {} {}".format(wrong[0], name, *wrong[1:]))
    return keys
