"""Random folders of plants: plants that keep every rule, in as many spellings as their files allow, and what can be wrong with a file."""

import copy
import dataclasses
import os

import files
import misspellings
from language import BOOL, STANDARD, Array, Read
from plants import Maker, Writer

FORM = "ABCDEFGHIJKLMNOPQRSTUVWXYZabcdefghijklmnopqrstuvwxyz0123456789_-."
NAMES = ["{}", "{}", "{}", "a {}", "sub/{}", "./{}", "sub/../{}", "\u00e9{}", 'a"{}', "a'{}", "#{}", "{}" + "x" * 60]
TEXTS = ["", "a text", "Tank too hot, look at the heater", 'a "text"', "\u00e9\u20ac\U0001f600", "x" * 200, "'", ",,,", '"', " "]
COMMENTS = ["", "", "", "// c\n", "(* \u00e9 ; END_VAR *)", "/* \xff \0 */", "\f"]
# Fields of alarms and values of the plant file that are wrong somewhere.
FIELDS = [b"", b"T 1", b"T/1", b"x" * 33, b"0", b"1", b"4", b"5", b"02", b"high", b"1c", b"c-d", b"TRUE", b"FALSE", b"tRUE", b"yes", b"-1", b"2592000000", b"2592000001"]
FIELDS += [b"86400000", b"86400001", b"0086400000", b"00000000000", b"100ms", b"+1", b"1.5", b"on_delay_ms", b"ON_DELAY_MS", b"text"]
FIELDS += [b"00000000001", b"5000ms", b"1_000", b"x" * 200, b"x" * 201, b"\x7f", b"\t", b'"a\nb"', b"\xff", b"\xc3\xa9", b'"', b'""', b'"a"b', b"a\"b", b'"a,b"', b"a,b", b" ", b"_"]
VALUES = ['""', "5", "1.0", "true", "[]", '"x"', "[5]", '[["x"]]', '["x", "x"]', '["a b"]', '[""]', '"' + "x" * 64 + '"', '"' + "x" * 65 + '"', '"' + "x" * 255 + '"', '"' + "x" * 256 + '"']
VALUES += ['"2024-02-30T00:00:00Z"', '"2023-02-29T00:00:00Z"', '"2024-02-29T00:00:00Z"', '"2024-01-01"', '"2400-01-01T00:00:00Z"', '"1969-12-31T23:59:59Z"', '"2024-01-01T24:00:00Z"']
VALUES += ['"2024-01-01T00:00:00z"', '"2024-01-01 00:00:00Z"', '"2024-01-01T00:00:60Z"', "2024-01-01T00:00:00Z", "{}", "0", "999999999", "1000000000", "-1", '"1"', "[[", "'", '"\\q"']
VALUES += ["[" + ", ".join(f'"a{at}"' for at in range(count)) + "]" for count in (64, 65)]


class WideMaker(Maker):
    """Makes plants with more of everything."""

    GLOBALS, BLOCKS, PROGRAMS, ALARMS = range(10, 80), [2, 4, 6], [4, 8, 16, 32], [9, 20, 60]
    GLOBAL_ARRAYS, OWN_ARRAYS = [0, 2, 6, 12], [0, 1, 2, 4]


# ------------------------------------------------------------------------------------------------------------------------- plants


def form(some, taken):
    """A new name of tags and areas; now and then one that differs from another in letter case alone."""
    while True:
        name = "".join(some.choice(FORM) for _ in range(some.choice([1, 2, 3, 5, 8, 32])))
        if taken and some.random() < 0.1:
            name = some.choice(sorted(taken)).swapcase()
        if name not in taken:
            taken.add(name)
            return name


def epoch(some):
    year = some.choice([1970, 2399, 2024, 2000, 2100, some.randrange(1970, 2400)])
    month, day = some.choice([(1, 1), (12, 31), (2, 28), (some.randrange(1, 13), some.randrange(1, 29))])
    hour, minute, second = some.choice([(0, 0, 0), (23, 59, 59), (some.randrange(24), some.randrange(60), some.randrange(60))])
    return f"{year:04}-{month:02}-{day:02}T{hour:02}:{minute:02}:{second:02}Z"


def dress(some, plant):
    """Gives a plant other names of areas and tags, other consoles and another epoch."""
    plant.epoch = epoch(some)
    taken = set()
    areas = {area: form(some, taken) for area in plant.areas}
    plant.areas = list(areas.values()) + [form(some, taken) for _ in range(some.choice([0, 0, 0, 1, 5, 64 - len(areas)]))]
    numbers = some.sample([1, 2, 3, 10, 99, 999_999_999, *some.sample(range(100, 999_999_999), 32)], some.choice([len(plant.consoles)] * 5 + [32]))
    listed = [[areas[area] for area in them] for _, them in plant.consoles]
    plant.consoles = [(number, listed[at] if at < len(listed) else some.sample(plant.areas, some.choice([0, 1]))) for at, number in enumerate(numbers)]
    taken = set()
    for row in plant.alarms:
        row.tag, row.area = form(some, taken), areas[row.area]


def made(some):
    """A random plant."""
    plant = (WideMaker if some.random() < 0.08 else Maker)(some).made()
    if some.random() < 0.6:
        dress(some, plant)
    return plant


# ------------------------------------------------------------------------------------------------------------------------- texts


class Texts(Writer):
    """Writes the files of a plant as bytes. `units` has for each source its sections and routines, each with the place of its end. The plant file has what is new in TOML 1.1 only where it may."""

    def __init__(self, some, plant, may_be_newer=True):
        super().__init__(some)
        self.plant, self.may_be_newer = plant, may_be_newer
        taken = set()
        self.alarms = self.file("alarms.csv", taken)
        self.sources = [self.file(f"s{at}.st", taken) for at in range(some.choice([1, 1, 2, 2, 3, 6]))]
        self.units = {name: [] for name in self.sources}
        self.texts = {name: self.source(name, units) for name, units in zip(self.sources, self.shared_out())}
        self.texts[self.alarms] = self.alarm_table()
        self.texts["plant.toml"], self.is_newer = self.plant_table()

    def file(self, name, taken):
        while True:
            found = self.random.choice(NAMES).format(name)
            if os.path.normpath(found) not in taken:
                taken.add(os.path.normpath(found))
                return found

    # ---- sources

    def shared_out(self):
        """For each source its sections of globals, its blocks and its programs, in an order that keeps that of globals and that of programs."""
        some, plant, number = self.random, self.plant, len(self.sources)
        shares = [[] for _ in range(number)]
        found = list(plant.globals)
        for array in plant.arrays:
            found.insert(some.randrange(len(found) + 1), array)
        cuts = sorted(some.sample(range(len(found) + 1), min(some.choice([0, 0, 1, 3]), len(found))))
        parts = [found[low:high] for low, high in zip([0, *cuts], [*cuts, len(found)])]
        for at, part in zip(self.rising(len(parts)), parts):
            shares[at].append(part)
        routines = [[] for _ in range(number)]
        for at, program in zip(self.rising(len(plant.programs)), plant.programs):
            routines[at].append(program)
        for block in plant.blocks.values():
            at = some.randrange(number)
            routines[at].insert(some.randrange(len(routines[at]) + 1), block)
        return [share + routine for share, routine in zip(shares, routines)]

    def rising(self, count):
        return sorted(self.random.randrange(len(self.sources)) for _ in range(count))

    def source(self, name, units):
        text = self.mark()
        for unit in units:
            text += self.filler()
            text += self.unit(unit).encode()
            self.units[name].append((len(text), unit))
            text += b"\n"
        text += self.filler()
        return text

    def filler(self):
        return self.random.choice(COMMENTS).encode("latin-1" if self.random.random() < 0.5 else "utf-8")

    def unit(self, unit):
        if not isinstance(unit, list):
            text = self.routine(unit).removesuffix("\n")
        else:
            text = "VAR_GLOBAL\n" + "\n".join(self.placed(it) for it in unit) + "\nEND_VAR"
        return text.replace("\n", "\r\n") if self.random.random() < 0.1 else text

    def placed(self, it):
        if isinstance(it, Array):
            return self.declared_array(it)
        name, kind, region, initial = it
        some = self.random
        place = "" if region is None else f" AT %{region}{some.choice(['X', 'D', 'l', ''])}{some.choice(['*', '0', '7.3', str(some.randrange(99))])}"
        return self.declaration(name + place, kind, initial)

    def mark(self):
        return self.random.choice([b"", b"", b"", files.MARK])

    # ---- alarms

    def alarm_table(self):
        some = self.random
        end = some.choice(["\n", "\n", "\r\n", "\r"])
        rows = [files.HEADERS[self.plant.has_delays]] + [self.row(it) for it in self.plant.alarms]
        lines = [",".join(self.quoted(field) for field in row) for row in rows]
        gaps = [end * some.choice([1, 1, 1, 1, 1, 2]) for _ in lines[1:]] + [some.choice([end, end, ""])]
        return self.mark() + some.choice(["", "", end]).encode() + "".join(line + gap for line, gap in zip(lines, gaps)).encode()

    def row(self, it):
        some = self.random
        latch = some.choice(["TRUE", "true", "1"] if it.latching else ["FALSE", "False", "0"])
        longest = f"{it.longest}" if some.random() < 0.8 else f"{it.longest:010}"
        delays = [some.choice([f"{it.delay}", f"{it.delay}", f"{it.delay:010}", f"00{it.delay}"])] if self.plant.has_delays else []
        return [it.tag, it.area, f"{it.priority}", self.named(it.condition), self.named(it.suppress or ""), latch, longest, *delays, some.choice(TEXTS)]

    def quoted(self, field):
        if self.random.random() < 0.2 or any(mark in field for mark in ',"\r\n'):
            return '"' + field.replace('"', '""') + '"'
        return field

    # ---- the plant file

    def plant_table(self, wrong=None):
        """The plant file, and whether it has what is new in TOML 1.1. `wrong` is what is done to one of its keys, or the text of another value for it."""
        some, plant, self.has_new = self.random, self.plant, False
        keys = [("name", self.string(some.choice(["random", "x" * 64, "\u00e9", " ", 'a "b"']))), ("epoch", self.string(plant.epoch))]
        keys += [("areas", self.list(plant.areas)), ("sources", self.list(self.sources)), ("alarms", self.string(self.alarms))]
        consoles = [[("number", self.number(number)), ("areas", self.list(areas))] for number, areas in plant.consoles]
        for it in consoles:
            some.shuffle(it)
        inline = some.random() < 0.4
        if inline and (consoles or some.random() < 0.5):
            keys.append(("console", self.array([self.inline(it) for it in consoles])))
        some.shuffle(keys)
        if wrong is not None:
            tables = [keys] + ([] if inline else consoles)
            self.spoil_key(some.choice(tables), wrong)
        lines = [self.key(*it) for it in keys]
        if not inline:
            for it in consoles:
                lines += [some.choice(["[[console]]", "[[ console ]] # c", " [[console]]"])] + [self.key(*key) for key in it]
        text = "".join(line + some.choice(["", "", "", " # \u00e9", "\n"]) + "\n" for line in lines)
        return self.mark() + (text.replace("\n", "\r\n") if some.random() < 0.1 else text).encode(), self.has_new

    def spoil_key(self, keys, wrong):
        """Drops a key, writes one twice, adds another or gives one a value that is mostly wrong."""
        some, at = self.random, self.random.randrange(len(keys))
        name = keys[at][0]
        keys[at : at + 1] = {"drop": [], "twice": keys[at : at + 1] * 2, "add": [keys[at], ("colour", "1")]}.get(wrong, [(name, wrong)])

    def key(self, name, text):
        some = self.random
        return some.choice([name] * 8 + [f'"{name}"', f"'{name}'"]) + some.choice([" = "] * 5 + ["=", "\t= "]) + text

    def string(self, text):
        some, pick = self.random, self.random.random()
        if pick < 0.15 and "'" not in text:
            return f"'{text}'"
        if pick < 0.20 and "'" not in text:
            return f"'''{text}'''"
        escaped = text.replace("\\", "\\\\").replace('"', '\\"')
        if pick < 0.30 and text:
            escaped = "".join(some.choice([f"\\u{ord(it):04x}", f"\\U{ord(it):08X}"]) if it.isalnum() and some.random() < 0.3 else it for it in escaped)
        if pick < 0.32 and text[:1].isascii() and text[:1].isalnum() and self.may_be_newer:
            self.has_new, escaped = True, f"\\x{ord(text[0]):02x}" + text[1:].replace('"', '\\"')
        return f'"""{escaped}"""' if pick > 0.95 else f'"{escaped}"'

    def list(self, texts):
        return self.array([self.string(text) for text in texts])

    def array(self, items):
        some = self.random
        gap = some.choice([" ", "", "\n  "])
        return "[" + gap + f",{gap}".join(items) + ("," if items and some.random() < 0.1 else "") + gap + "]"

    def inline(self, keys):
        if self.random.random() < 0.05 and self.may_be_newer:
            self.has_new = True
            return "{\n" + ",\n".join(f"{name} = {text}" for name, text in keys) + ",\n}"
        return "{" + ", ".join(f"{name} = {text}" for name, text in keys) + "}"

    def number(self, number):
        return self.random.choice([f"{number}"] * 8 + [f"{number:_}", f"0x{number:x}", f"0o{number:o}", f"0b{number:b}", f"+{number}"])


# ------------------------------------------------------------------------------------------------------------------------ folders


class Folder:
    """A plant's files as they are to lie on the disk, by their names. A text of None can't be read; `how` says what lies there then."""

    def __init__(self, some, texts):
        self.some, self.written, self.texts, self.how, self.said = some, texts, dict(texts.texts), {}, "as it is"
        self.is_newer, self.has_changed_source = texts.is_newer, False

    def write(self, room):
        """Writes the files into an empty folder. The names in `how` get what can't be read."""
        for name, text in self.texts.items():
            at = os.path.join(room, name)
            os.makedirs(os.path.join(room, "sub"), exist_ok=True)
            how = self.how.get(name)
            if how == "folder":
                os.mkdir(at)
            elif how == "loop":
                os.symlink(os.path.basename(name), at)
            elif how == "no target":
                os.symlink("nothing", at)
            elif how == "endless":
                os.symlink("/dev/zero", at)
            elif how == "failing":
                os.symlink("/proc/self/mem", at)
            elif how == "too long":
                with open(at, "wb") as file:
                    file.truncate(files.LARGEST_FILE + 1)
            elif how != "missing":
                with open(at, "wb") as file:
                    file.write(b"x" if text is None else text)
                if how == "locked":
                    os.chmod(at, 0)

    def spoil(self, ways):
        """Spoils a file, or now and then two of them: it is cut, or changed, or can't be read in one of these ways."""
        some, said = self.some, []
        for _ in range(some.choice([1, 1, 1, 2])):
            name = some.choice(["plant.toml", "plant.toml", self.written.alarms, self.written.alarms, *self.written.sources])
            pick = some.random()
            if self.texts[name] is None:
                continue
            if pick < 0.4:
                self.cut(name)
            elif pick < 0.7:
                self.change(name)
            else:
                self.how[name], self.texts[name] = some.choice(ways), None
            said.append(f"{name} {self.how.get(name, 'cut' if pick < 0.4 else 'changed')}")
        self.said = ", ".join(said)

    def cut(self, name):
        """Cuts a file anywhere, and now and then right behind one of its units or lines."""
        some, text = self.some, self.texts[name]
        ends = [end for end, _ in self.written.units.get(name, [])] + [at + 1 for at, byte in enumerate(text) if byte == 10]
        at = some.choice(ends) if ends and some.random() < 0.25 else some.randrange(len(text) + 1)
        self.texts[name] = text[:at]

    def change(self, name):
        """Changes a key of the plant file, a field or a row of the alarms, or bytes of a source."""
        some, text = self.some, self.texts[name]
        if name == "plant.toml":
            self.texts[name], self.is_newer = self.written.plant_table(some.choice(["drop", "twice", "add", *VALUES]))
        elif name == self.written.alarms:
            self.texts[name] = self.changed_alarms(text)
        else:
            self.texts[name] = misspellings.spoiled(some, text.decode("latin-1")).encode("latin-1", "replace")
            self.has_changed_source = True

    def changed_alarms(self, text):
        some = self.some
        rows = text.split(b"\n")
        at = some.randrange(len(rows))
        fields = rows[at].split(b",")
        pick = some.random()
        if pick < 0.7:
            fields[some.randrange(len(fields))] = some.choice(FIELDS)
        elif pick < 0.8:
            rows.insert(some.randrange(len(rows) + 1), rows[at])
        elif pick < 0.9:
            fields = some.choice([fields[:-1], fields + [b""]])
        elif pick < 0.95:
            byte = some.randrange(len(text) + 1)
            return text[:byte] + bytes([some.randrange(256)]) + text[byte + 1 :]
        else:
            at, fields = 0, [column.encode() for column in some.choice(files.HEADERS)]
        return b"\n".join(rows[:at] + [b",".join(fields)] + rows[at + 1 :])

    # ---- what has to be answered

    def judged(self, path):
        """The plant that these files hold, by the second reading. Raises files.Refused with the line, or files.Unknown."""
        keys = files.judged(path, lambda name: self.texts.get("plant.toml" if name == path else name), self.keys)
        if self.has_changed_source:
            raise files.Unknown
        plant = copy.copy(self.written.plant)
        plant.areas, plant.epoch = keys["areas"], keys["epoch"]
        plant.consoles = [(it["number"], it["areas"]) for it in keys["console"]]
        self.keep_units(plant, keys["sources"])
        bools = {name.lower() for name, kind, _, _ in plant.globals if kind == BOOL}
        plant.alarms = files.alarm_file(self.texts[self.written.alarms], plant.areas, bools)
        return plant

    def keys(self, text):
        """The keys of the plant file. Python's reader reads TOML 1.0, so of a newer text nothing is known but that of the plant itself."""
        written = self.written
        if text == written.texts["plant.toml"]:
            consoles = [{"number": number, "areas": areas} for number, areas in written.plant.consoles]
            return {"areas": written.plant.areas, "epoch": written.plant.epoch, "sources": written.sources, "alarms": written.alarms, "console": consoles}
        if self.is_newer:
            raise files.Unknown
        return files.plant_file(text)

    def keep_units(self, plant, sources):
        """Leaves the units that stand whole in what is left of the sources. Raises C6 where one of them names what is gone."""
        left = [(name, unit) for name in sources for end, unit in self.written.units[name] if end <= len(self.texts[name])]
        units = [unit for _, unit in left]
        declared = [it for unit in units if isinstance(unit, list) for it in unit]
        plant.globals, plant.arrays = [it for it in declared if not isinstance(it, Array)], [it for it in declared if isinstance(it, Array)]
        plant.programs = [it for it in plant.programs if any(it is unit for unit in units)]
        plant.blocks = {name: it for name, it in plant.blocks.items() if any(it is unit for unit in units)}
        there = {name.lower() for name, _, _, _ in plant.globals} | {it.place[1] for it in plant.arrays}
        for name, unit in left:
            if not isinstance(unit, list) and not (global_names(unit) <= there and all(block in STANDARD or block in plant.blocks for _, block in unit.instances)):
                files.refuse(f"CONFIG C6 {name} {unit.name}")


def reads(it):
    """All variables and arrays that stand in a tree."""
    if isinstance(it, (Read, Array)):
        yield it
    elif isinstance(it, (list, tuple)):
        for each in it:
            yield from reads(each)
    elif dataclasses.is_dataclass(it):
        for each in vars(it).values():
            yield from reads(each)


def global_names(routine):
    """The globals that a routine names, in small letters."""
    external = {it[0].lower() for it in routine.externals if isinstance(it, tuple)}
    return external | {it.place[1] for it in reads((routine.body, routine.externals)) if it.place[0] == "global"}

