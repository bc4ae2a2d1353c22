"""A `reload`: the sizes that its line gives, what its texts hold, and what goes over from the plant before it.

Written from the rules: sizes past the limits are no command, and then no bytes follow. Of the plant's rules come first those of the plant file by itself (C1, C2), then C2 where another
number of sources came than it lists, then the rest. What keeps its value is told by its path, in any letter case, and its kind.
"""

import re

import files
import trees
from language import BOOL, STANDARD
from plants import Plant

SIZE = re.compile("[0-9]{1,8}")
MOST_PLANT, MOST_ALARMS, MOST_SOURCES, MOST_COUNT = 1_048_576, 16_777_216, 4_194_304, 64


def sizes(words):
    """The sizes that the words of a `reload` line give: of the plant file, of the alarm file, and of each source; None where they are none."""
    if words[:1] != ["reload"] or len(words) < 3 or not all(SIZE.fullmatch(word) for word in words[1:]):
        return None
    plant, alarms, *sources = map(int, words[1:])
    fits = plant <= MOST_PLANT and alarms <= MOST_ALARMS and sum(sources) <= MOST_SOURCES and len(sources) <= MOST_COUNT
    return [plant, alarms, *sources] if fits else None


def texts(body, lengths):
    """The texts of a body: the plant file, the alarm file, and the sources."""
    ends = [sum(lengths[:at]) for at in range(len(lengths) + 1)]
    return [body[low:high] for low, high in zip(ends, ends[1:])]


def command(plant, alarms, sources, end=b"\n"):
    """The line and the body that hand these texts over."""
    words = ["reload", *(str(len(it)) for it in (plant, alarms, *sources))]
    return " ".join(words).encode() + end + b"".join((plant, alarms, *sources))


def read(plant, alarms, *sources):
    """The plant of these texts. Raises files.Refused with the line that refuses it, and files.Unknown."""
    keys = files.plant_file(plant)
    if len(keys["sources"]) != len(sources):
        files.refuse("CONFIG C2")
    found = {"": plant, **dict(zip(keys["sources"], sources))}
    found[keys["alarms"]] = found.get(keys["alarms"], alarms)  # (its size is judged already)
    files.judged("", found.get)
    made = Plant(keys["epoch"], areas=keys["areas"], consoles=[(it["number"], it["areas"]) for it in keys["console"]])
    trees.add_sources(made, list(zip(keys["sources"], sources)))
    bools = {name.lower() for name, kind, _, _ in made.globals if kind == BOOL}
    made.alarms = files.alarm_file(alarms, made.areas, bools)
    made.has_delays = alarms.removeprefix(files.MARK).lstrip(b"\r\n").startswith(b"tag,area,priority,condition,suppress,latch,max_shelve_ms,on_delay_ms")
    return made


# ------------------------------------------------------------------------------------------------------------------- what goes over


def variables(plant):
    """All variables and arrays of a plant, by their paths: of each what has to be equal for its value to stay, and the places of its values."""
    found = {}
    for name, kind, _, _ in plant.globals:
        found["global", name.lower()] = (kind, None, None), [("global", name.lower())]
    for it in plant.arrays:
        add_array(found, it, ())
    for path, routine, block in instances(plant):
        if block in STANDARD:
            for name, kind in STANDARD[block][0]:
                found[path + (name.lower(),)] = (kind, None, None), [path + (name.lower(),)]
            continue
        for name, kind, _, _ in routine.variables:
            found[path + (name.lower(),)] = (kind, None, None), [path + (name.lower(),)]
        for it in routine.arrays:
            add_array(found, it, path)
    return found


def add_array(found, it, path):
    """An array is one thing: its kind and both bounds have to be equal."""
    place = it.place if it.place[0] == "global" else path + it.place[1:]
    found[place] = (it.kind, it.low, it.high), [place + (number,) for number in range(it.low, it.high + 1)]


def instances(plant):
    """Each program and each instance in them: its path, its routine (None of a standard block), and its block type (None of a program)."""
    waiting = [((it.name.lower(),), it, None) for it in plant.programs]
    while waiting:
        path, routine, block = waiting.pop()
        yield path, routine, block
        for name, block in routine.instances if routine else []:
            waiting.append((path + (name.lower(),), plant.blocks.get(block), block))


def standard_blocks(plant):
    """The type of each instance of a standard block, by its path."""
    return {path: block for path, _, block in instances(plant) if block in STANDARD}


def carry(old, new):
    """Gives a server that begins what goes over from another one: values, lists of calls, and the states of alarms. Says how many alarms kept theirs."""
    before, after = variables(old.plant), variables(new.plant)
    for path, (shape, places) in after.items():
        if path in before and before[path][0] == shape:
            new.values.update((place, old.values[place]) for place in places)
    clocks = standard_blocks(old.plant)
    for path, block in standard_blocks(new.plant).items():
        if clocks.get(path) == block:
            new.calls[path] = old.calls[path]
    states, kept = {it.row.tag: it for it in old.alarms}, 0
    for alarm in new.alarms:
        was = states.get(alarm.row.tag)
        if was is not None and was.row.latching == alarm.row.latching:
            alarm.take_over(was)
            kept += 1
    return kept
