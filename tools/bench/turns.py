#!/usr/bin/env python3
"""Measures the station: a turn, its allocations, what its board costs, looks at the board, and the control room with more workers.

    git clone . /tmp/clone && python3 tools/bench/turns.py /tmp/clone [KIND ..] [--repeat N] [--ahead] [--workers N] [--keep DIR]

/tmp/clone is a clone of this repository that is spoiled: the program of tools/bench/turns becomes its crate `turns`, crates that it doesn't need are removed, with all wrong bodies, and `rt ci` proves and builds the rest
there. What a gate has proved on this machine it takes from there: the program itself takes some minutes. KIND is one of these, the first three where none is named:

| kind | what is measured |
|---|---|
| turns | the clock's time of a turn, by the program's own clock: 20,000 alarms, with and without orders and changes of alarms; and of the same events in an engine alone |
| allocations | what such a turn allocates: twice as many turns less so many, divided (tools/allocations/count.c stands before malloc; needs gcc) |
| looks | looks at the board by a console in a thread of its own, beside an owner who turns without pause: the call, with the states of its area until the view is let go, the clock alone, and the owner's turns (least, median, 99th percentile, most) |
| parts | instructions of a turn and of its parts, as valgrind counts them: 40 turns less 20, divided |
| room | the control room on the house of 20,000 alarms, with `--workers` workers (4), of which the owner is one: for this its const is changed in the clone, and try_plants is built |

Times are in microseconds. `--ahead` runs the program ahead of all else (`chrt -f 10`): no run is longer than some seconds. It needs Python 3.9 or later.
"""

import argparse
import os
import random
import re
import shutil
import subprocess
import sys
import tempfile
import time

import house

HERE = os.path.dirname(os.path.abspath(__file__))
ALARMS = 20000
CRATE = "turns: plant_types crew plant_config plant_folder engine_system engine alarm_orders engine_history serve_lines console_link console_operator station try_text\n"
KINDS = ["turns", "allocations", "looks", "parts", "room"]
# name, consoles, of which so many send, orders of each, what comes of them, alarms that change, turns
TURNS = [
    ("no orders, nothing changes, 1 console", 1, 0, 0, "done", 0, 400),
    ("no orders, nothing changes", 32, 0, 0, "done", 0, 400),
    ("no orders, 200 alarms change", 32, 0, 0, "done", 200, 400),
    ("1 console sends 64 orders", 32, 1, 64, "done", 0, 400),
    ("the only console sends 64 orders", 1, 1, 64, "done", 0, 400),
    ("32 consoles send 64 orders each", 32, 32, 64, "done", 0, 400),
    ("the same, all refused", 32, 32, 64, "refused", 0, 400),
    ("32 consoles send 64 orders each, 200 alarms change", 32, 32, 64, "done", 200, 400),
]
# name, whether the area is the whole plant, looks, pause in nanoseconds, consoles that send, alarms that change
LOOKS = [
    ("area of 625, no orders, 200 alarms change", False, 100000, 5000, 0, 200),
    ("area of 625, 31 others send 64 orders each", False, 100000, 5000, 31, 200),
    ("area of 625, the same, no pause", False, 100000, 0, 31, 200),
    ("area of 20,000, no orders, 200 alarms change", True, 20000, 5000, 0, 200),
    ("area of 20,000, 31 others send 64 orders each", True, 20000, 5000, 31, 200),
]


def read(path):
    with open(path) as file:
        return file.read()


def install(clone):
    """Makes the program a crate of the clone."""
    crate, kept = f"{clone}/crates/turns", f"{HERE}/turns"
    if os.path.exists(crate):
        sys.exit("a clone without the crate turns is wanted")
    for folder, _, names in os.walk(kept):
        there = os.path.join(crate, os.path.relpath(folder, kept))
        os.makedirs(there, exist_ok=True)
        for name in names:
            # no .rt or .antt file may stand outside the crates
            shutil.copy(os.path.join(folder, name), os.path.join(there, name.removesuffix(".txt")))
    shutil.copy(f"{clone}/crates/try_room/src/house.rt", f"{crate}/src/house.rt")
    listed = read(f"{clone}/crates.txt")
    if CRATE not in listed:
        house.write(clone, "crates.txt", listed + CRATE)


def reduce(clone, names):
    """Leaves only these crates in the clone, and those below them."""
    below = dict(re.findall(r"^(\w+):(.*)$", read(f"{clone}/crates.txt"), re.M))
    wanted, left = set(), list(names)
    while left:
        name = left.pop()
        if name in below and name not in wanted:
            wanted.add(name)
            left += below[name].split()
    house.write(clone, "crates.txt", "".join(f"{name}:{crates}\n" for name, crates in below.items() if name in wanted))
    for name in os.listdir(f"{clone}/crates"):
        # wrong bodies aren't tried here
        shutil.rmtree(f"{clone}/crates/{name}" + ("/must-fail" if name in wanted else ""), ignore_errors=True)


def build(clone, names):
    """Proves and builds these crates of the clone, each a program."""
    reduce(clone, names)
    log = f"{clone}/rt_ci.log"
    with open(log, "w") as file:
        ended = subprocess.run(["rt", "ci"], cwd=clone, stdin=subprocess.DEVNULL, stdout=file, stderr=subprocess.STDOUT)
    if ended.returncode:
        sys.exit(f"rt ci has failed: {log}")
    return [f"{clone}/crates/{name}/out/{name}" for name in names]


def scans(changes):
    """Scans that change so many alarms, up and down again."""
    if not changes:
        return "scan 0\n"
    chosen = sorted(random.Random(1).sample(range(ALARMS), changes))
    return "".join("scan 0 " + " ".join(f"c{n}={value}" for n in chosen) + "\n" for value in (1, 0))


class Bench:
    """A clone with the program, and a folder for plants."""

    def __init__(self, folder, options):
        self.folder, self.options = folder, options
        self.ahead = ["chrt", "-f", "10"] if options.ahead else []

    def house(self, consoles, whole=False):
        """A folder with a plant of so many consoles; of the first the area may be the whole plant."""
        path = f"{self.folder}/house_{consoles}_{int(whole)}"
        if not os.path.exists(path):
            house.plant(f"{path}/house", consoles, ALARMS)
            if whole:
                plant = f"{path}/house/plant.toml"
                areas = ", ".join(f'"a{k}"' for k in range(consoles))
                house.write(path, "house/plant.toml", read(plant).replace('number = 1\nareas = ["a0"]', f"number = 1\nareas = [{areas}]"))
        return path

    def run(self, place, script, before=(), more=None):
        """What the program prints, by the first word of each line."""
        ran = subprocess.run([*before, self.programs["turns"]], cwd=place, input=script, stdout=subprocess.PIPE, text=True, env={**os.environ, **(more or {})}, check=True)
        return {line.split()[0]: line.split()[1:] for line in ran.stdout.splitlines()}

    def turns(self):
        for name, consoles, senders, orders, fate, changes, most in TURNS:
            turns = most // 2
            for word in ("turns", "engine"):
                times = []
                for _ in range(self.options.repeat):
                    told = self.run(self.house(consoles), f"{word} {turns} {senders} {orders} {fate}\n" + scans(changes), self.ahead)
                    if told["TAKEN"] != [str(turns * senders * orders), "WHOLE"]:
                        sys.exit(f"{name}: {told}")
                    times.append([int(it) / 1000 for it in told["TURN"]])
                    time.sleep(self.options.rest)
                _, best, medians, late, most, sums = zip(*sorted(times, key=lambda it: it[2]))
                shown = f"best {min(best):.1f}  medians {', '.join(f'{it:.1f}' for it in medians)}  99 % {min(late):.1f}  most {min(most):.0f}, {max(most):.0f}  mean {min(sums) / turns:.1f}"
                print(f"{name if word == 'turns' else '  in an engine alone':<52} {shown}", flush=True)

    def allocations(self):
        counter, library = f"{self.folder}/counter", f"{self.folder}/count.so"
        subprocess.run(["gcc", "-O2", "-shared", "-fPIC", "-o", library, f"{HERE}/../allocations/count.c", "-ldl"], check=True)
        for name, consoles, senders, orders, fate, changes, turns in TURNS:
            counts = []
            for half in (turns // 4, turns // 2, turns):
                with open(counter, "wb") as file:
                    file.write(bytes(8))
                self.run(self.house(consoles), f"turns {half} {senders} {orders} {fate}\n" + scans(changes), (), {"LD_PRELOAD": library, "COUNT_FILE": counter})
                with open(counter, "rb") as file:
                    counts.append(int.from_bytes(file.read(8), sys.byteorder))
            print(f"{name:<52} {(counts[1] - counts[0]) / (turns // 4):.2f} and {(counts[2] - counts[1]) / (turns // 2):.2f} allocations a turn", flush=True)

    def looks(self):
        for name, whole, looks, pause, senders, changes in LOOKS:
            for _ in range(self.options.repeat):
                told = self.run(self.house(32, whole), f"looks {looks} {pause} {senders} 64 done\n" + scans(changes), self.ahead)
                shown = "  ".join(f"{word.lower()} {', '.join(f'{int(it) / 1000:.2f}' for it in told[word][1:5])}" for word in ("BOARD", "VIEW", "CLOCK", "TURN"))
                print(f"{name:<46} {shown}  turns {told['TURN'][0]}, taken {' '.join(told['TAKEN'])}, none {' '.join(told['NONE']).lower()}", flush=True)
                time.sleep(self.options.rest)

    def parts(self):
        """Instructions of each function, with what it calls, a turn."""
        for name, consoles, senders, orders, fate, changes, _ in TURNS:
            counts = []
            for turns in (20, 40):
                out = f"{self.folder}/callgrind.out"
                self.run(self.house(consoles), f"turns {turns} {senders} {orders} {fate}\n" + scans(changes), ["valgrind", "-q", "--tool=callgrind", f"--callgrind-out-file={out}"])
                told = subprocess.run(["callgrind_annotate", "--inclusive=yes", "--threshold=100", "--show-percs=no", out], stdout=subprocess.PIPE, text=True, check=True).stdout
                counts.append({it[2]: int(it[1].replace(",", "")) for it in re.finditer(r"^\s*([\d,]+)(?: \([^)]*\))?\s+\?\?\?:(.*?)(?: \[.*\])?$", told, re.M)})
            print(f"== {name}", flush=True)
            fewer, more = counts
            grown = sorted(((more[it] - fewer.get(it, 0)) / 20, it) for it in more)
            for count, it in reversed(grown):
                if count * 1000 >= grown[-1][0]:
                    print(f"{count:14,.0f}  {it}", flush=True)

    def room(self):
        """The control room on the house of 20,000 alarms; what it prints says whether anything was lost."""
        for loops in (200, 2000):
            place = f"{self.folder}/room_{loops}"
            house.plant(f"{place}/house", 4, ALARMS, loops)
            house.write(place, "stdin", house.room(house.day(ALARMS, 2000, 200)))
            for _ in range(self.options.repeat):
                with open(f"{place}/stdin") as given:
                    began = time.monotonic()
                    ran = subprocess.run([*self.ahead, self.programs["try_plants"]], cwd=place, stdin=given, stdout=subprocess.PIPE, text=True)
                    took = time.monotonic() - began
                orders = int(re.search(r"AND (\d+) ORDERS", ran.stdout)[1])
                lost = re.findall(r".*(?:LEFT [1-9]|APART [1-9]|ANSWERED ORDER [1-9]|FALSE).*", ran.stdout)
                whole = ran.returncode == 0 and not lost and ran.stdout.endswith("THE SCRIPT IS OVER\n")
                print(f"programs of {loops} turns: {took:.1f} s, {orders} orders, {orders / took:.0f} a second: {'nothing lost' if whole else 'LOST: ' + str(lost)}", flush=True)


def main():
    reads = argparse.ArgumentParser(usage=__doc__)
    reads.add_argument("clone", type=os.path.abspath)
    reads.add_argument("kinds", nargs="*", metavar="KIND")
    reads.add_argument("--repeat", type=int, default=5)
    reads.add_argument("--rest", type=float, default=0.5, help="seconds between runs")
    reads.add_argument("--ahead", action="store_true")
    reads.add_argument("--workers", type=int, default=4)
    reads.add_argument("--keep", help="a folder for plants, which stays")
    options = reads.parse_args()
    kinds = options.kinds or KINDS[:3]
    for kind in kinds:
        if kind not in KINDS:
            reads.error(f"no kind {kind}: they are {', '.join(KINDS)}")
    bench = Bench(options.keep or tempfile.mkdtemp(), options)
    install(options.clone)
    names = ["turns"]
    if "room" in kinds:
        names.append("try_plants")
        source = "crates/try_room/src/lib.rt"
        house.write(options.clone, source, re.sub(r"const WORKERS: u32 = \d+;", f"const WORKERS: u32 = {options.workers};", read(f"{options.clone}/{source}")))
    bench.programs = dict(zip(names, build(options.clone, names)))
    try:
        for kind in kinds:
            getattr(bench, kind)()
    finally:
        if not options.keep:
            shutil.rmtree(bench.folder, ignore_errors=True)


if __name__ == "__main__":
    main()
