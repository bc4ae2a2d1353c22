#!/usr/bin/env python3
"""Cuts each file of a plant after each of its bytes, and compares what `check` says with what the second reading of the rules says (tools/reference).

    python3 tools/simulate/cuts.py PROGRAM [--plants N] [--seed S] [--jobs J]

PROGRAM is the built server (crates/alarmd/out/alarmd). The first plant is that of examples/built_in; N random ones follow (20), from the seed S on (1), J of them
at once (1). A file is cut to its first 0, 1, 2 .. bytes, and last it is whole. The exit status is 0 where all agree.
"""

import argparse
import collections
import multiprocessing
import os
import random
import sys
import tempfile

HERE = os.path.dirname(os.path.abspath(__file__))
sys.path.insert(0, os.path.join(HERE, "..", "reference"))

import files
import folders
import runs
from language import BOOL, DINT, Assign, Binary, Literal, Read, Routine
from plants import AlarmRow, Plant
from runs import Ran
from simulate import is_refusal, unexplained

BUILT_IN = os.path.join(HERE, "..", "..", "examples", "built_in")
SECONDS = 60


class BuiltIn:
    """The files of the built-in plant, and what they hold, written down by hand."""

    def __init__(self):
        ratio = Binary("/", DINT, Literal(DINT, 100, "100"), Read(DINT, ("global", "a"), "a"))
        body = [Assign(Read(BOOL, ("global", "c"), "c"), Binary(">", BOOL, ratio, Literal(DINT, 10, "10")))]
        shared, program = [("a", DINT, "I", None), ("c", BOOL, None, None)], Routine("p", False, body=body)
        consoles, rows = [(1, ["north"]), (2, ["south"])], [AlarmRow("T1", "north", 2, "c", None, False, 5000)]
        self.plant = Plant("2024-01-01T00:00:00Z", shared, [], {}, [program], ["north", "south"], consoles, rows)
        self.alarms, self.sources, self.is_newer = "alarms.csv", ["p.st"], False
        self.texts = {}
        for name in ("plant.toml", "alarms.csv", "p.st"):
            with open(os.path.join(BUILT_IN, name), "rb") as file:
                self.texts[name] = file.read()
        ends = [self.texts["p.st"].index(word) + len(word) for word in (b"END_VAR", b"END_PROGRAM")]
        self.units = {"p.st": [(ends[0], shared), (ends[1], program)]}


def due(folder, path):
    """What `check` has to do; None where the second reading can't tell."""
    try:
        plant = folder.judged(path)
    except files.Refused as refused:
        return Ran(f"{refused.args[0]}\n".encode(), b"", 3)
    except files.Unknown:
        return None
    return Ran(f"ACCEPTED PROGRAMS {len(plant.programs)} ALARMS {len(plant.alarms)}\n".encode(), b"", 0)


class Cuts:
    """All cuts of the files of one plant."""

    def __init__(self, program, name, texts, room):
        self.program, self.name, self.texts, self.room = program, name, texts, room
        self.folder = folders.Folder(random.Random(name), texts)
        self.folder.write(room)
        self.counts = collections.Counter(plants=1)

    def go(self):
        for name, text in self.texts.texts.items():
            for at in range(len(text) + 1):
                self.cut(name, text[:at])
            self.folder.texts[name] = text
        return self.counts

    def cut(self, name, left):
        """Leaves so much of a file, and compares."""
        self.folder.texts[name] = left
        with open(os.path.join(self.room, name), "wb") as file:
            file.write(left)
        words = [self.program, "check", os.path.join(self.room, "plant.toml")]
        wanted = due(self.folder, words[2])
        ran = unexplained(runs.run(words, b"", SECONDS))
        fits = ran == wanted if wanted else is_refusal(ran) or (ran.status, ran.error) == (0, b"")
        self.counts["cuts"] += 1
        self.counts["accepted all the same"] += ran.status == 0
        self.counts["of which the second reading can't tell"] += wanted is None
        self.counts["refused as " + b" ".join(ran.out.split()[1:2]).decode("latin-1")] += ran.status == 3
        if not fits:
            self.counts["differences"] += 1
            print(f"{self.name}: {name} cut to {len(left)} bytes: wanted {wanted}, got {ran}", flush=True)


def cut_plant(asked):
    """Makes a plant, the built-in one for no seed, and cuts its files."""
    program, seed = asked
    with tempfile.TemporaryDirectory(prefix="cuts-") as room:
        some = random.Random(f"cut {seed}")
        texts = BuiltIn() if seed is None else folders.Texts(some, folders.made(some))
        return Cuts(program, "the built-in plant" if seed is None else f"seed {seed}", texts, room).go()


def main():
    parser = argparse.ArgumentParser()
    parser.add_argument("program")
    parser.add_argument("--plants", type=int, default=20)
    parser.add_argument("--seed", type=int, default=1)
    parser.add_argument("--jobs", type=int, default=1)
    options = parser.parse_args()
    asked = [(os.path.abspath(options.program), seed) for seed in [None, *range(options.seed, options.seed + options.plants)]]
    counts = collections.Counter(differences=0)
    with multiprocessing.Pool(options.jobs) as pool:
        for found in pool.imap_unordered(cut_plant, asked):
            counts.update(found)
    for name in ("plants", "cuts", "accepted all the same", "of which the second reading can't tell"):
        print(f"{name:45}{counts.pop(name, 0):10}")
    differences = counts.pop("differences")
    for name in sorted(it for it, number in counts.items() if number):
        print(f"{name:45}{counts[name]:10}")
    print(f"{'differences':45}{differences:10}")
    return 1 if differences else 0


if __name__ == "__main__":
    sys.exit(main())
