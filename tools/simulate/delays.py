#!/usr/bin/env python3
"""Plays plants of many alarms whose delays end, and compares each answer with the one that the rule gives.

    python3 tools/simulate/delays.py PROGRAM [--alarms N] [--scans N] [--seed S] [--workers N]

PROGRAM is the built server (crates/alarmd/out/alarmd). There are 20,000 alarms (`--alarms`), as many as a plant may have. They come due

- all in one scan, and again after their condition has dropped;
- one in each scan, in an order that isn't that of the table, and in a scan after a gap all that are left;
- all in one scan, half of them as their shelves end;
- by chance: 40 inputs, delays from 0 to a day, random moments, inputs and orders (`--scans` scans, by the seed), as the second reading of the rules (tools/reference) has it.

The answers of the first three are written from the rule here. The exit status is 0 where all are as they have to be.
"""

import argparse
import os
import random
import sys
import tempfile
import time

sys.path.insert(0, os.path.join(os.path.dirname(os.path.abspath(__file__)), "..", "reference"))

import protocol
from compare import answered, difference
from language import BOOL
from plants import AlarmRow, Plant, Writer
from server import Server

MONTH, DAY = 2_592_000_000, 86_400_000


def plant_of(delays, inputs=1, some=None):
    """The plant whose alarms have these delays. Alarm k is T<k>, and watches input k modulo their number."""
    plant = Plant("2024-01-01T00:00:00Z", areas=["all"], consoles=[(1, ["all"])], has_delays=True)
    plant.globals = [(f"b{at}", BOOL, "I", None) for at in range(inputs)]
    for at, delay in enumerate(delays):
        suppress = f"b{some.randrange(inputs)}" if some and some.random() < 0.1 else None
        latching = some is not None and some.random() < 0.3
        plant.alarms.append(AlarmRow(f"T{at}", "all", 1 + at % 4, f"b{at % inputs}", suppress, latching, MONTH, delay))
    return plant


class Case:
    """A plant, the lines that it is given and what has to be answered."""

    def __init__(self, name, plant):
        self.name, self.plant, self.lines, self.wanted = name, plant, [], []

    def scan(self, moment, given, changes):
        """A scan that changes alarms, each by its number, from one code to another."""
        self.lines.append(f"scan {moment}{given}")
        self.wanted += [f"ALARM {moment} T{at} {old} {new}" for at, old, new in changes] + [f"DONE {moment} {len(changes)}"]


def all_at_once(count):
    case, delay = Case("all in one scan", plant_of([60_000] * count)), 60_000
    changed = lambda old, new: [(at, old, new) for at in range(count)]
    case.scan(0, " b0=1", [])
    case.scan(delay - 1, "", [])
    case.scan(delay, "", changed("NORM", "UNACK"))
    case.scan(delay + 1, " b0=0", changed("UNACK", "RTNUN"))
    case.scan(delay + 2, " b0=1", [])
    case.scan(2 * delay + 1, "", [])
    case.scan(2 * delay + 2, "", changed("RTNUN", "UNACK"))
    return case


def one_each(count):
    """The alarms have the delays 1 to their number, each once. The last hundred come due in a gap."""
    step = 7919 if count % 7919 else 7907
    delays = [at * step % count + 1 for at in range(count)]
    case, number = Case("one in each scan", plant_of(delays)), {delay: at for at, delay in enumerate(delays)}
    case.scan(0, " b0=1", [])
    single = max(0, count - 100)
    for moment in range(1, single + 1):
        case.scan(moment, "", [(number[moment], "NORM", "UNACK")])
    case.scan(count + 5, "", [(at, "NORM", "UNACK") for at, delay in enumerate(delays) if delay > single])
    case.scan(count + 6, " b0=0", [(at, "UNACK", "RTNUN") for at in range(count)])
    return case


def half_shelved(count):
    case, delay = Case("half of them as their shelves end", plant_of([60_000] * count)), 60_000
    case.scan(7, " b0=1", [])
    for at in range(0, count, 2):
        case.lines.append(f"shelve 1 T{at} {delay}")
        case.wanted += ["REPLY OK", f"ALARM 7 T{at} NORM SHELVED"]
    case.scan(delay + 6, "", [])
    case.scan(delay + 7, "", [(at, "NORM" if at % 2 else "SHELVED", "UNACK") for at in range(count)])
    return case


def by_chance(count, scans, seed):
    some = random.Random(f"delays {seed}")
    delays = [some.choice([0, 1, 5, 10, 20, 50, 100, 1000, 60_000, DAY, some.randrange(300)]) for _ in range(count)]
    case = Case(f"by chance, seed {seed}", plant_of(delays, 40, some))
    server = Server(case.plant)
    for _ in range(scans):
        moment = server.moment + some.choice([0, 1, 1, 4, 5, 5, 10, 20, 95, 100, 1000, 60_000])
        given = "".join(f" b{at}={some.choice([0, 1, 1])}" for at in some.sample(range(40), some.choice([0, 0, 0, 1, 1, 2, 5])))
        lines = [f"scan {moment}{given}"]
        for _ in range(some.choice([0, 0, 1, 5])):
            verb = some.choice(["ack", "reset", "shelve", "unshelve", "remove", "return"])
            lines.append(f"{verb} 1 T{some.randrange(count)}" + (f" {some.choice([1, 5, 100, 1000])}" if verb == "shelve" else ""))
        for line in lines:
            case.lines.append(line)
            case.wanted += protocol.answer(server, line.encode())
    return case


def main():
    reads = argparse.ArgumentParser(usage=__doc__)
    reads.add_argument("program", type=os.path.abspath)
    reads.add_argument("--alarms", type=int, default=20_000)
    reads.add_argument("--scans", type=int, default=300)
    reads.add_argument("--seed", type=int, default=1)
    reads.add_argument("--workers", type=int, default=1)
    options, differ = reads.parse_args(), 0
    count = options.alarms
    for make in (lambda: all_at_once(count), lambda: one_each(count), lambda: half_shelved(count), lambda: by_chance(count, options.scans, options.seed)):
        case = make()
        with tempfile.TemporaryDirectory() as folder:
            for name, text in Writer(random.Random(1)).files(case.plant).items():
                with open(os.path.join(folder, name), "w", newline="", encoding="utf-8") as file:
                    file.write(text)
            begun = time.monotonic()
            ran = answered(options.program, folder, case.lines, options.workers)
            seconds = time.monotonic() - begun
        where = difference(ran, case.wanted)
        differ += where is not None
        print(f"{case.name}: {len(case.lines)} lines, {len(case.wanted)} lines of answers, {seconds:.1f} seconds: {where or 'as it has to be'}", flush=True)
    return 1 if differ else 0


if __name__ == "__main__":
    sys.exit(main())
