#!/usr/bin/env python3
"""Counts the processor's instructions of what the built server does for each event, and with --misses also what it misses in the second cache, by
valgrind's callgrind.

    python3 tools/bench/count.py PROGRAM [KIND ..] [--misses] [--keep DIR]

PROGRAM is the built server (crates/alarmd/out/alarmd), KIND one of those below; all of them without a word. Each figure is that of a longer input less
that of a shorter one, divided by what the longer one has more: so what a start costs isn't in it. `check` is a whole run. It takes some ten minutes. With
--keep the plants and inputs stay in DIR, and are used again. Beside `change` and `logic` it counts their yardsticks (yardstick.rs; needs rustc).

With --misses valgrind simulates the first cache of this machine's processor and, as its last level, the second one: a read or a write that misses there
waits for a cache that processors share, or for memory. Two figures follow the instructions: the misses of reads and those of writes.
"""

import argparse
import os
import re
import shutil
import subprocess
import sys
import tempfile

HERE = os.path.dirname(os.path.abspath(__file__))
sys.path.insert(0, HERE)

import inputs

TOTALS = re.compile(rb"Collected : ([0-9 ]+)")
CACHES = "/sys/devices/system/cpu/cpu0/cache"
MINUTE = 60_000
DAY = 86_400_000


def caches():
    """What tells valgrind of the processor's caches of data: the first one, and the second one as the last. Its sizes are powers of two."""
    told = []
    for option, index in (("--D1", 0), ("--LL", 2)):
        numbers = []
        for name in ("size", "ways_of_associativity", "coherency_line_size"):
            with open(f"{CACHES}/index{index}/{name}") as file:
                numbers.append(int(file.read().strip().replace("K", "")))
        size, ways, line = numbers
        sets = 1 << (size * 1024 // (ways * line)).bit_length() - 1
        told.append(f"{option}={sets * ways * line},{ways},{line}")
    return ["--cache-sim=yes", *told]


def counts(words, given, options):
    """The instructions of a run with an input; where caches are simulated, also the reads and writes that the last one misses."""
    with tempfile.TemporaryDirectory() as folder, open(given, "rb") as stdin:
        tool = ["valgrind", "--tool=callgrind", f"--callgrind-out-file={folder}/out", *options]
        run = subprocess.run(tool + words, stdin=stdin, stdout=subprocess.DEVNULL, stderr=subprocess.PIPE, check=True)
    numbers = [int(number) for number in TOTALS.search(run.stderr)[1].split()]
    return [numbers[0], *numbers[7:9]]


def waiting(folder):
    """20,000 alarms whose conditions are met from the first scan on, and whose delays don't end."""
    inputs.plant_file(folder)
    inputs.write(folder, "p.st", "VAR_GLOBAL b AT %IX0.0 : BOOL; END_VAR\n")
    inputs.alarm_file(folder, 20000, lambda n: "b", delay=lambda n: DAY)
    return ["scan 0 b=1"] + [f"scan {n}" for n in range(1, 201)]


def resting(folder):
    """A plant of 20,000 alarms, in which no scan changes anything."""
    inputs.still(folder, 20000, 20000, 0)
    return [f"scan {n}" for n in range(201)]


def built_in(values, restart):
    """Lines for the built-in plant."""
    return lambda folder: [line for n in range(20001) for line in ([f"scan {n} a={values(n)}"] + (["restart 1 p"] if restart else []))]


# a kind: what is told of it, who makes its plant and lines, whether the plant is the built-in one, the lines of the shorter and of the longer input, and
# how many such things the longer one has more
KINDS = {
    "line": ("a line with one change", built_in(lambda n: 50 - 45 * (n % 2), False), True, 2000, 12000, 10000),
    "trap": ("a line whose program traps, with its restart", built_in(lambda n: 0, True), True, 2000, 12000, 5000),
    "restart": ("the same lines where it doesn't trap", built_in(lambda n: 50, True), True, 2000, 12000, 5000),
    "change": ("a change of an alarm, 20,000 in a scan", inputs.changes, False, 2, 12, 200000),
    "change_delayed": ("the same, each with a delay of 60 s", lambda it: inputs.changes(it, delay=lambda n: MINUTE), False, 2, 12, 200000),
    "change_one_delayed": ("the same, one with a delay of 60 s", lambda it: inputs.changes(it, delay=lambda n: MINUTE if n == 0 else 0), False, 2, 12, 200000),
    "order": ("an order", inputs.orders, False, 3001, 13001, 10000),
    "scan": ("a scan of 200 changes with 100 orders", inputs.alarms, False, 1010, 3030, 20),
    "scan_delayed": ("the same, each with a delay of 60 s", lambda it: inputs.alarms(it, delay=lambda n: MINUTE), False, 1010, 3030, 20),
    "scan_some_delayed": ("the same, every tenth with one", lambda it: inputs.alarms(it, delay=lambda n: MINUTE if n % 10 == 0 else 0), False, 1010, 3030, 20),
    "due": ("a scan in which one of 20,000 delays ends", inputs.due, False, 21, 121, 100),
    "waiting": ("a scan in which 20,000 delays wait", waiting, False, 21, 121, 100),
    "resting": ("a scan that changes nothing of 20,000 alarms", resting, False, 21, 121, 100),
    "logic": ("a scan of 64 programs", inputs.logic, False, 1, 101, 100),
}


# the yardsticks of a kind, and what each is called
YARDSTICKS = {
    "change": [("changes", "its yardstick, tags in one text")],
    "logic": [("logic", "its yardstick, trees of closures"), ("code", "its yardstick, code with three operands")],
}


def yardstick(folder):
    """The yardstick, built once; none without rustc."""
    path = os.path.join(folder, "yardstick")
    if not os.path.exists(path) and shutil.which("rustc"):
        subprocess.run(["rustc", "-O", os.path.join(HERE, "yardstick.rs"), "-o", path], check=True)
    return path if os.path.exists(path) else None


def counted(words, folder, kind, options):
    """The counts of one thing of a kind, by a program that is given the kind's lines; the server is given its plant too."""
    _, make, is_built_in, short, long, more = KINDS[kind]
    path = os.path.join(folder, f"count_{kind}")
    made = os.path.join(path, "input.txt")
    if not os.path.exists(made):
        os.makedirs(path, exist_ok=True)
        lines = make(path)
        with open(made, "w") as file:
            file.writelines(f"{line}\n" for line in lines[:long])
    if len(words) == 1 and not is_built_in:
        words = [*words, "run", f"{path}/plant.toml"]
    taken = []
    for count in (short, long):
        given = os.path.join(path, f"input{count}.txt")
        with open(made) as whole, open(given, "w") as file:
            file.writelines(line for line, _ in zip(whole, range(count)))
        taken.append(counts(words, given, options))
    return [(after - before) / more for before, after in zip(*taken)]


def told(name, numbers):
    """Prints counts: instructions as whole numbers, misses with two places."""
    misses = "".join(f" {number:12,.2f}" for number in numbers[1:])
    print(f"{name:<50} {numbers[0]:14,.0f}{misses}", flush=True)


def main():
    parser = argparse.ArgumentParser(description=__doc__, formatter_class=argparse.RawDescriptionHelpFormatter)
    parser.add_argument("program")
    parser.add_argument("kinds", nargs="*", metavar="KIND", help=f"check, {', '.join(KINDS)}")
    parser.add_argument("--misses", action="store_true")
    parser.add_argument("--keep", metavar="DIR")
    options = parser.parse_args()
    wrong = [kind for kind in options.kinds if kind != "check" and kind not in KINDS]
    if wrong:
        parser.error(f"no kind is called {wrong[0]}")
    program = os.path.abspath(options.program)
    simulated = caches() if options.misses else []
    with tempfile.TemporaryDirectory() as other:
        folder = options.keep or other
        for kind in options.kinds or [*KINDS, "check"]:
            if kind != "check":
                told(KINDS[kind][0], counted([program], folder, kind, simulated))
                beside = yardstick(folder) if kind in YARDSTICKS else None
                for word, name in YARDSTICKS[kind] if beside else []:
                    told(name, counted([beside, word], folder, kind, simulated))
                continue
            path = os.path.join(folder, "check")
            if not os.path.isdir(path):
                os.makedirs(path)
                inputs.large(path)
            told("check of 4.2 MB of sources and 14.5 MB of alarms", counts([program, "check", f"{path}/plant.toml"], os.devnull, simulated))


if __name__ == "__main__":
    main()
