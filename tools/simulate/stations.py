#!/usr/bin/env python3
"""Stations on random schedules, held against a model of the rules (rings.py).

    python3 tools/simulate/stations.py crates/try_plants/out/try_plants --stations 1000

Each seed makes a random plant and the rows of a station: turns, scans right and refused, orders of all verbs right and wrong, rings that are filled, answers that are taken late or
never, looks at boards, pages of the archive, workers who are gone after some rounds, and an end with orders left. The built row program plays them, and each line has to be the model's. Beside that the orders and answers are counted by the output
alone: what the archive has of a console, and what is left of it, has to be what it submitted, each once and in order, and its answers the archive's replies.

With `--refuse K` each station is played K times more, and some growths of its memory are refused, at random; with `--each` as often as it has growths, and each is refused
in turn. Its turns and reloads are rows of `once`, mostly, so that one that is refused or stopped is told and the station goes on: the model says what has to come then. A run may also end with status 1 and
write nothing.

| option | what it is | without it |
|---|---|---|
| `--stations N` | how many seeds | 100 |
| `--seed S` | the first seed | 1 |
| `--rows N` | about how many rows for each | 60 |
| `--refuse K`, `--each` | memory is refused, as said above. Needs gcc | it isn't |
| `--reload` | plants are reloaded, with a word of their files changed | they aren't |
| `--full` | one station more, whose history is filled with 1,000,000 events | none |
| `--keep DIR` | where the table and the output of a difference are kept | `simulate-kept` in the folder for temporary files |
| `--jobs J` | how many at once | 1 |

It needs Python 3.10 or later and Linux. The exit status is 0 where all was as it has to be."""

import argparse
import collections
import concurrent.futures
import os
import random
import re
import sys
import tempfile
import time

HERE = os.path.dirname(os.path.abspath(__file__))
HEAD = "== stations\n"
sys.path += [os.path.join(HERE, "..", "reference"), os.path.join(HERE, "..", "refusals")]

import files
import folders
import runs
from lines import Lines
from plants import Writer
from refused import Refuser
from rings import PLACES, Station, changed, texts_in, unbalanced
from server import MOST_EVENTS

NO_ROWS = ["say 1 T1", "list", "ack 1", "once list", "scan x", "once ack 1 T", "shelve 1 T", "repeat 3 list", "room 0", "board 0 T", "answer 0", "answers 0 5", "repeat 5 ack 0 T"]
ORDER = ["stations", "rows", "turns that took orders", "reloads taken", "runs", "runs with memory refused", "of them as the model says", "of them ended, with nothing written", "turns refused for memory", "turns stopped for memory", "reloads refused for memory", "differences"]


class Schedule:
    """A random plant, and random rows for a station of it. A model goes along, so that orders and moments fit."""

    def __init__(self, seed, count, refusing, has_reloads):
        self.some = some = random.Random(f"station {seed}")
        self.name, self.plant, self.rows, self.refusing, self.has_reloads = f"seed {seed}", folders.made(some), [], refusing, has_reloads
        self.files = Writer(some).files(self.plant)
        self.given = given_files(self.files)
        self.model = Station(self.name, self.plant, [], self.given)
        self.lines = Lines(some, self.plant, self.model.server, 0)
        self.numbers = list(self.model.consoles) or [1]
        # How gladly each console takes its answers, and how many orders come between turns.
        self.takes = {number: some.choice([0, 0.2, 1, 1]) for number in self.numbers}
        self.busy = some.choice([0.5, 1, 1, 3])
        if not refusing and some.random() < 0.3:
            self.add(f"workers {some.choice([0, 1, 3, 10, 1_000_000])}")
        while len(self.rows) < count:
            self.add_some()
        self.finish()

    def add(self, row):
        self.rows.append(row)
        self.model.do(row)

    def console(self):
        return self.some.choice(self.numbers)

    def add_some(self):
        some = self.some
        kinds = {self.turn: 3, self.order: 4 * self.busy, self.repeat: 0.6, self.answer: 1.5, self.answers: 0.4, self.board: 1, self.room: 0.5, self.page: 0.3, self.nothing: 0.2}
        kinds[self.reload] = 0.5 if self.has_reloads else 0
        some.choices(list(kinds), list(kinds.values()))[0]()

    def reload(self):
        """A reload with a word changed, mostly one that is taken; and now and then how many a board shows."""
        wanted = self.some.random() < 0.8
        for _ in range(20):
            words = self.change()
            line = self.reloaded(words)
            if line is not None and (line.startswith("RELOADED") or not wanted):
                once = "once " if self.refusing and self.some.random() < 0.9 else ""
                self.add(f"{once}reload {words}".rstrip())
                self.lines.serve(self.model.server.plant)
                break
        if self.some.random() < 0.5:
            self.add(f"reloads {self.console()}")

    def change(self):
        """The words of a reload: a word of the files, and what stands in its place."""
        some, words = self.some, re.findall("[A-Za-z_0-9]+", self.given)
        word = some.choice(words)
        other = some.choice([word.swapcase(), f"{word}_new", some.choice(words), some.choice(words), {"TRUE": "FALSE", "FALSE": "TRUE"}.get(word.upper(), word)])
        return some.choice(["", f"{word} => {other}", f"{word} => {other}", f"{word} => {other}", "FALSE => TRUE", "TRUE => FALSE"])

    def is_told(self, words):
        """Whether the second reading can tell what comes of a change. Of sources it reads names and no kinds: there a change is one of letter case, of a truth value, or of a global's name to
        one that nothing else has. And the table's own lines stay."""
        old, _, new = words.partition(" => ")
        at = self.given.find(old)
        before, line = self.given[:at], self.given.rfind("\n", 0, at) + 1
        if self.given.startswith("file ", line) or new == "file":
            return False
        if len(re.findall("^file ", before, re.MULTILINE)) < 3 or old.lower() == new.lower() or {old, new} == {"TRUE", "FALSE"}:
            return True
        sections = re.findall("VAR_GLOBAL|END_VAR", before, re.IGNORECASE)
        return new == f"{old}_new" and sections[-1:] != [] and sections[-1].upper() == "VAR_GLOBAL"

    def reloaded(self, words):
        """What such a reload would be answered; None where the second reading doesn't know, or the plant file would list other files."""
        if words and not self.is_told(words):
            return None
        given = texts_in(changed(self.given, words))
        try:
            if files.plant_file(given[0])["sources"] != [name for name in self.files if name.endswith(".st")]:
                return None
            return self.model.server.copy().reload(*given)[0]
        except (files.Refused, files.Unknown):
            return None

    def turn(self):
        some, line = self.some, re.sub("^scan[ \t]+", "scan ", self.lines.scan().decode().strip(" \t"))
        once = some.random() < (0.9 if self.refusing else 0.2)
        self.add(f"once {line}" if once else line)
        if self.refusing and some.random() < 0.3:
            some.choice([self.room, self.board, self.answer, lambda: self.add("journal")])()

    def order(self):
        self.add(self.lines.order().decode().strip(" \t"))

    def repeat(self):
        some = self.some
        line = self.lines.order().decode().strip(" \t")
        self.add(f"repeat {some.choice([1, 2, 5, PLACES - 1, PLACES, PLACES, PLACES + 1, 2 * PLACES + 2])} {line}")

    def answer(self):
        number = self.console()
        if self.some.random() < self.takes[number]:
            for _ in range(self.some.choice([1, 1, 2, 5])):
                self.add(f"answer {number}")

    def answers(self):
        number = self.console()
        if self.some.random() < self.takes[number]:
            self.add(f"answers {number} {self.some.choice([1, 5, PLACES - 1, PLACES, PLACES + 1])}")

    def board(self):
        tags = [row.tag for row in self.model.server.plant.alarms] + ["nobody"]
        self.add(f"board {self.console()} {self.some.choice(tags)}")

    def room(self):
        self.add(f"room {self.console()}")

    def page(self):
        some, rows = self.some, len(self.model.server.rows)
        self.add(f"page {max(0, rows + some.choice([-5, -1, 0, 1])) if some.random() < 0.5 else some.randrange(rows + 2)} {some.choice([0, 1, 3, 10])}")

    def nothing(self):
        self.add(self.some.choice(NO_ROWS))

    def finish(self):
        """The last rows: looks, sometimes all answers, and the whole archive."""
        for number in self.numbers:
            if self.some.random() < 0.5:
                rings = self.model.consoles.get(number)
                for _ in range(len(rings.answers) + 1 if rings else 1):
                    self.add(f"answer {number}")
            self.board()
        self.add("journal")
        self.add("page 1 999999999")
        self.model.end()


class Flood:
    """Rows of a station whose history is filled, until its turns are refused."""

    def __init__(self, seed):
        some = random.Random(f"flood {seed}")
        self.name, self.rows = f"flood {seed}", []
        while True:
            self.plant = folders.made(some)
            if len(self.plant.consoles) in (2, 3) and self.plant.alarms and not self.plant.programs:
                break
        self.files = Writer(some).files(self.plant)
        self.model = Station(self.name, self.plant, [])
        tag, numbers = self.plant.alarms[0].tag, list(self.model.consoles)
        while self.model.server.events < MOST_EVENTS:
            for number in numbers:
                self.add(f"repeat 64 ack {number} {tag}")
            self.add(f"scan {self.model.server.moment}")
            for number in numbers:
                self.add(f"answers {number} 64")
        for row in [f"room {numbers[0]}", f"board {numbers[0]} {tag}", f"scan {self.model.server.moment}", "scan 0 nothing=1", f"room {numbers[-1]}", "journal"]:
            self.add(row)
        self.model.end()

    add = Schedule.add


def given_files(texts):
    """Files as a table gives them."""
    names = ["plant.toml", "alarms.csv", *(name for name in texts if name.endswith(".st"))]
    return "\n".join(f"file {name}\n{texts[name]}" for name in names)


def table(schedule):
    """The station's part of a table, behind the line that names it."""
    given = given_files(schedule.files)
    return f"\n{HEAD}\nstation {schedule.name}\n{given}\nbegin\n" + "".join(f"{row}\n" for row in schedule.rows)


def wanted(schedule, came, refused):
    """The lines that have to come, by what came; and the model then."""
    said = []
    model = Station(schedule.name, schedule.plant, said, given_files(schedule.files), came, refused)
    for row in schedule.rows:
        model.do(row)
    model.end()
    return said, model


class Trial:
    """One seed."""

    def __init__(self, options, schedule, refuser):
        self.options, self.schedule, self.refuser = options, schedule, refuser
        self.given, self.counts = table(schedule).encode(), collections.Counter()

    def go(self):
        options, schedule = self.options, self.schedule
        self.counts.update(stations=1, rows=len(schedule.rows))
        if self.refuser is None:
            ran = runs.run([options.program], self.given, 300)
            self.judge(ran, "", False)
            return self.counts
        whole = self.refuser.run([options.program], self.given)
        self.judge(whole, "", False)
        for at in self.places(whole.growths):
            ran = self.refuser.run([options.program], self.given, at=at)
            if ran.refused:
                self.counts["runs with memory refused"] += 1
                self.judge(ran, f"growths {','.join(map(str, at))}: ", True)
        return self.counts

    def places(self, growths):
        if self.options.each:
            return [[at] for at in range(1, growths + 1)]
        some = self.schedule.some
        return [sorted(some.sample(range(1, growths + 1), min(growths, some.choice([1, 1, 2, 3, 5, 10])))) for _ in range(self.options.refuse)]

    def judge(self, ran, detail, refused):
        self.counts["runs"] += 1
        if refused and (ran.status, ran.out) == (1, b""):
            self.counts["of them ended, with nothing written"] += 1
            return
        came = ran.out.decode("utf-8", "replace").removeprefix(HEAD).split("\n")[:-1]
        said, model = wanted(self.schedule, came, refused)
        self.counts["turns refused for memory"] += model.refused
        self.counts["turns stopped for memory"] += model.stopped if refused else 0
        self.counts["reloads refused for memory"] += model.refused_reloads
        self.counts["turns that took orders"] += sum(bool(re.fullmatch("TAKEN [1-9].*", line)) for line in came)
        self.counts["reloads taken"] += sum(line.startswith("RELOADED ") for line in came)
        where = difference(said, came)
        # (After a reload an order's target may have no name, or another one.)
        if isinstance(self.schedule, Schedule) and model.reloads == 0:
            where = where or unbalanced(came, model.named)
        if ran.status != 0:
            where = where or "the output is as wanted"
        if where:
            self.tell(ran, detail + where)
        elif refused:
            self.counts["of them as the model says"] += 1

    def tell(self, ran, where):
        self.counts["differences"] += 1
        place = os.path.join(self.options.keep, f"{self.schedule.name.replace(' ', '-')}-{self.counts['differences']}")
        os.makedirs(place, exist_ok=True)
        for name, text in [("table", self.given), ("got", ran.out)]:
            with open(os.path.join(place, name), "wb") as file:
                file.write(text)
        print(f"{self.schedule.name}: {where}; status {ran.status}, standard error {ran.error[:200]!r}\n  its table and output: {place}", flush=True)


def difference(said, came):
    """The first line in which what came isn't what has to come."""
    for at in range(max(len(said), len(came))):
        one, other = (repr(lines[at][:300]) if at < len(lines) else "nothing" for lines in (said, came))
        if one != other:
            return f"line {at + 1}: wanted {one}, got {other}"
    return None


def read_options():
    reads = argparse.ArgumentParser(usage=__doc__)
    reads.add_argument("program", type=os.path.abspath)
    reads.add_argument("--stations", type=int, default=100)
    reads.add_argument("--seed", type=int, default=1)
    reads.add_argument("--rows", type=int, default=60)
    reads.add_argument("--refuse", type=int, default=0)
    reads.add_argument("--each", action="store_true")
    reads.add_argument("--reload", action="store_true")
    reads.add_argument("--full", action="store_true")
    reads.add_argument("--keep", default=os.path.join(tempfile.gettempdir(), "simulate-kept"))
    reads.add_argument("--jobs", type=int, default=1)
    return reads.parse_args()


def tried(options, seed):
    """The counts of a seed; of a flood where it is None."""
    sys.setrecursionlimit(10_000)
    refusing = (options.each or options.refuse > 0) and seed is not None
    refuser = Refuser() if refusing else None
    try:
        some = random.Random(f"rows {seed}")
        count = max(1, some.choice([options.rows // 4, options.rows // 2, options.rows, options.rows, options.rows * 2]))
        return Trial(options, Flood(options.seed) if seed is None else Schedule(seed, count, refusing, options.reload), refuser).go()
    finally:
        if refuser:
            refuser.close()


def main():
    options, counts, begun = read_options(), collections.Counter(), time.monotonic()
    seeds = [*range(options.seed, options.seed + options.stations)] + [None] * options.full
    with concurrent.futures.ProcessPoolExecutor(options.jobs) as pool:
        for it in pool.map(tried, [options] * len(seeds), seeds):
            counts.update(it)
    for name in ORDER:
        print(f"{counts[name]:>12,}  {name}")
    print(f"{time.monotonic() - begun:>12,.0f}  seconds")
    return 1 if counts["differences"] or not counts["stations"] else 0


if __name__ == "__main__":
    sys.exit(main())
