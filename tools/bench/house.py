#!/usr/bin/env python3
"""Makes a large house for the control room, and a day of it.

    python3 tools/bench/house.py FOLDER [--consoles N] [--alarms N] [--scans N] [--changes N] [--turns N]
    cd FOLDER && time /path/to/crates/try_plants/out/try_plants < stdin

FOLDER gets the plant (house/) and the script (stdin). Each console has an area of its own, and each alarm a condition of its own; in each scan --changes alarms, chosen at
random but the same each time, come up, and those of the scan before return. Each of its four programs has a FOR of so many --turns: a crew keeps rounds that cost less than
20,000 with the caller, so its workers have work from some 600 turns on. What the program prints says whether anything was lost: each console's answers as in the history,
no order left, what it saw within the history.
"""

import argparse
import os
import random

PROGRAM = """PROGRAM p{0}
VAR i : DINT; s : DINT; END_VAR
VAR_EXTERNAL y{0} : DINT; END_VAR
s := 0;
FOR i := 1 TO {1} DO s := s + i MOD 7; END_FOR;
y{0} := s;
END_PROGRAM
"""


def write(folder, name, text):
    with open(os.path.join(folder, name), "w") as file:
        file.write(text)


def plant(folder, consoles, alarms, turns=200):
    os.makedirs(folder, exist_ok=True)
    areas = ", ".join(f'"a{k}"' for k in range(consoles))
    head = f'name = "Large house"\nepoch = "2026-11-23T06:00:00Z"\nareas = [{areas}]\nsources = ["p.st"]\nalarms = "alarms.csv"\n'
    write(folder, "plant.toml", head + "".join(f'\n[[console]]\nnumber = {k + 1}\nareas = ["a{k}"]\n' for k in range(consoles)))
    declared = "".join(f"c{n} AT %IX{n // 8}.{n % 8} : BOOL;\n" for n in range(alarms)) + "".join(f"y{k} AT %QD{k} : DINT;\n" for k in range(4))
    write(folder, "p.st", f"VAR_GLOBAL\n{declared}END_VAR\n" + "".join(PROGRAM.format(k, turns) for k in range(4)))
    rows = "".join(f"T{n},a{n % consoles},{n % 4 + 1},c{n},,FALSE,600000,alarm {n}\n" for n in range(alarms))
    write(folder, "alarms.csv", "tag,area,priority,condition,suppress,latch,max_shelve_ms,text\n" + rows)


def day(alarms, scans, changes):
    dice, up = random.Random(1), set()
    yield "scan 0"
    for scan in range(1, scans + 1):
        before, up = up, set(dice.sample(range(alarms), min(changes, alarms)))
        yield " ".join([f"scan {scan * 1000}"] + [f"c{n}=0" for n in sorted(before - up)] + [f"c{n}=1" for n in sorted(up)])
    yield " ".join([f"scan {(scans + 1) * 1000}"] + [f"c{n}=0" for n in sorted(up)])


def room(lines):
    """The input of try_plants for a control room with this script."""
    return "\n== room\n" + "".join(line + "\n" for line in lines)


def main():
    reads = argparse.ArgumentParser(description="Makes a large house for the control room, and a day of it.")
    reads.add_argument("folder")
    reads.add_argument("--consoles", type=int, default=4, help="how many consoles, each with an area (4)")
    reads.add_argument("--alarms", type=int, default=20000, help="how many alarms (20000)")
    reads.add_argument("--scans", type=int, default=2000, help="how many scans change alarms (2000)")
    reads.add_argument("--changes", type=int, default=200, help="how many alarms come up in each (200)")
    reads.add_argument("--turns", type=int, default=200, help="how many turns each program's FOR has (200)")
    options = reads.parse_args()
    plant(os.path.join(options.folder, "house"), options.consoles, options.alarms, options.turns)
    write(options.folder, "stdin", room(day(options.alarms, options.scans, options.changes)))


if __name__ == "__main__":
    main()
