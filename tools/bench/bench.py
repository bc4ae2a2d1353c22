#!/usr/bin/env python3
"""Measures the built server.

    python3 tools/bench/bench.py PROGRAM [KIND ..] [--repeat N] [--turns N ..] [--workers N ..] [--scans N] [--keep DIR]

PROGRAM is the built server (crates/alarmd/out/alarmd). KIND is one of these, `lines` where none is named:

| kind | what is measured |
|---|---|
| lines | 1,000,000 scans with one change each, of the built-in plant; beside it the yardstick, a program that only reads such lines (needs rustc) |
| turns | a scan of 10,000 turns of a FOR; beside it the yardstick's own loop |
| logic | 64 programs with nested loops, a CASE, blocks and timers; beside it two yardsticks: trees of closures, and code with three operands |
| alarms | scans that change 200 of 20,000 alarms, with 100 orders each |
| changes | scans that change all of 20,000 alarms; beside it the yardstick, whose tags stand in one text |
| delays | alarms and changes with tables that have no column of delays, delays of 0 and delays of 60 s; and scans in each of which one of 20,000 delays ends |
| orders | 300,000 orders for 20,000 alarms |
| check | `check` of 4.2 MB of sources and 14.5 MB of alarms |
| refused | `check` of that plant, of one with its sources and of one of 30 KB, each with one thing changed for which it is refused, beside the same plant right |
| still | scans that change nothing, by the size of the plant |
| workers | the programs of `logic` by several workers: the clock's time of a scan. A program costs 98, and 105 more for each of `--turns` |
| arrays | what an array of 4,096 elements adds to a program that reads or assigns one of them: the clock's time of a scan by two workers |
| read | `check` of files that are large, or hard to read, at half and whole size |
| commands | lines that are many, or hard to read |

Times are the processor's, the best of `--repeat` runs (3), and of `workers` and `arrays` the clock's, the best and the median; memory is the greatest. It needs Python 3.9 or later. The exit status is 1 where a run didn't end as it should.
"""

import argparse
import os
import shutil
import statistics
import subprocess
import sys
import tempfile

import inputs
import refused
import shapes
from measured import least, run

HERE = os.path.dirname(os.path.abspath(__file__))
PLANTS = {"turns": inputs.turns, "logic": inputs.logic, "alarms": inputs.alarms, "changes": inputs.changes, "orders": inputs.orders}
# the yardsticks of a kind
YARDSTICKS = {"logic": ["logic", "code"], "changes": ["changes"]}
KINDS = ["lines", "turns", "logic", "alarms", "changes", "delays", "orders", "check", "refused", "still", "workers", "arrays", "read", "commands"]
# variables, alarms with a variable each, outputs
STILL = [(2, 0, 0), (16384, 0, 0), (65536, 0, 0), (10000, 10000, 0), (20000, 20000, 0), (0, 0, 32000), (65536, 20000, 0)]


class Bench:
    """A program that is measured, and a folder for plants and inputs."""

    def __init__(self, program, folder, options):
        self.program, self.folder, self.options, self.failed = program, folder, options, False

    def place(self, name):
        """A folder of this name, and whether it is new."""
        path = os.path.join(self.folder, name)
        if os.path.isdir(path):
            return path, False
        os.makedirs(path)
        return path, True

    def filled(self, name, make):
        """A folder with a plant, and the file of its input."""
        path, is_new = self.place(name)
        given = os.path.join(path, "input.txt")
        if is_new:
            lines = make(path) or []
            with open(given, "w") as file:
                file.writelines(line + "\n" for line in lines)
        return path, given

    def told(self, name, it, more=""):
        """Prints what a run took."""
        self.failed |= it.status != 0
        ended = "" if it.status == 0 else f"  STATUS {it.status}"
        print(f"{name:<52} {it.processor:9.3f} s {it.memory:8.1f} MB{more}{ended}", flush=True)

    def best(self, words, given, kept=None):
        return least([run(words, given, kept) for _ in range(self.options.repeat)])

    def yardstick(self):
        """The yardstick, built once."""
        path = os.path.join(self.folder, "yardstick")
        if not os.path.exists(path) and shutil.which("rustc"):
            subprocess.run(["rustc", "-O", os.path.join(HERE, "yardstick.rs"), "-o", path], check=True)
        return path if os.path.exists(path) else None

    def lines(self):
        given = os.path.join(self.folder, "lines.txt")
        if not os.path.exists(given):
            with open(given, "w") as file:
                file.writelines(f"scan {n} a={50 - 45 * (n % 2)}\n" for n in range(1_000_000))
        yardstick = self.yardstick()
        if yardstick:
            self.told("lines: yardstick", self.best([yardstick, "lines"], given))
        self.told("lines", self.best([self.program], given))

    def plant(self, kind):
        """A plant, served."""
        path, given = self.filled(kind, PLANTS[kind])
        with open(given, "rb") as file:
            lines = sum(1 for _ in file)
        it = self.best([self.program, "run", f"{path}/plant.toml"], given)
        yardstick = self.yardstick() if kind in ("turns", *YARDSTICKS) else None
        if yardstick and kind == "turns":
            subprocess.run([yardstick, "turns", "2000"], check=True)
        elif yardstick:
            for name in YARDSTICKS[kind]:
                self.told(f"{kind}: yardstick {name}", self.best([yardstick, name], given))
        self.told(kind, it, f"  {lines / it.processor:11.0f} lines a second")

    def delays(self):
        tables = {"no column": None, "0": lambda n: 0, "60 s": lambda n: 60_000}
        made = {f"delays: {kind.__name__}, {name}": lambda it, kind=kind, delay=delay: kind(it, delay=delay) for kind in (inputs.alarms, inputs.changes) for name, delay in tables.items()}
        for name, make in {**made, "delays: one ends in each scan": inputs.due}.items():
            path, given = self.filled(name.replace(" ", "_").replace(":", "").replace(",", ""), make)
            self.told(name, self.best([self.program, "run", f"{path}/plant.toml"], given))

    def check(self):
        path, _ = self.filled("check", inputs.large)
        self.told("check", self.best([self.program, "check", f"{path}/plant.toml"], "/dev/null"))

    def refused(self):
        for what, make in refused.PLANTS.items():
            path, _ = self.filled("refused_" + "".join(filter(str.isalnum, what)), make)
            right = self.best([self.program, "check", f"{path}/plant.toml"], "/dev/null")
            self.told(what, right)
            source = min(name for name in os.listdir(path) if name.endswith(".st"))
            for change, do in refused.changes(source).items():
                changed = os.path.join(self.folder, "changed")
                shutil.rmtree(changed, ignore_errors=True)
                shutil.copytree(path, changed)
                do(changed)
                it = self.best([self.program, "check", f"{changed}/plant.toml"], "/dev/null")
                self.failed |= it.status != 3
                print(f"    {change:<48} {it.processor:9.3f} s {it.memory:8.1f} MB  {it.processor / right.processor:5.2f} times", flush=True)

    def still(self):
        scans = self.options.scans or 4001
        for variables, alarms, outputs in STILL:
            name = f"still {variables} variables, {alarms} alarms, {outputs} outputs"
            path, _ = self.filled(name.replace(" ", "_"), lambda it: inputs.still(it, variables, alarms, outputs))
            took = []
            for count in (1, scans):
                given = os.path.join(path, f"input{count}.txt")
                with open(given, "w") as file:
                    file.writelines(f"scan {n}\n" for n in range(count))
                took.append(self.best([self.program, "run", f"{path}/plant.toml"], given))
            a_scan = (took[1].processor - took[0].processor) / (scans - 1)
            self.told(name, took[1], f"  {a_scan * 1e6:8.2f} microseconds a scan")

    def workers(self):
        scans = self.options.scans or 3000
        for turns in self.options.turns:
            path, given = self.filled(f"workers_{turns}_{scans}", lambda it: inputs.logic(it, scans, turns))
            one = os.path.join(path, "one.txt")
            with open(given) as whole, open(one, "w") as file:
                file.write(whole.readline())
            times = {number: [] for number in self.options.workers}
            for _ in range(self.options.repeat):
                for number in self.options.workers:
                    words = [self.program, "run", f"{path}/plant.toml", "--workers", str(number)]
                    first, all_of_them = run(words, one), run(words, given)
                    self.failed |= first.status != 0 or all_of_them.status != 0
                    times[number].append((all_of_them.wall - first.wall) / (scans - 1) * 1e6)
            shown = ", ".join(f"{number}: {min(them):.0f} ({statistics.median(them):.0f})" for number, them in times.items())
            print(f"cost {98 + 105 * turns}, microseconds a scan by workers: {shown}", flush=True)

    def arrays(self):
        scans, programs = self.options.scans or 3000, 8
        plants = {touch: self.filled(f"arrays_{touch}_{scans}", lambda it, touch=touch: inputs.arrays(it, programs, touch, scans)) for touch in inputs.TOUCHES}
        times = {touch: [] for touch in plants}
        for _ in range(self.options.repeat):
            for touch, (path, given) in plants.items():
                it = run([self.program, "run", f"{path}/plant.toml", "--workers", "2"], given)
                self.failed |= it.status != 0
                times[touch].append(it.wall / scans * 1e6)
        for touch in ("read", "assigned"):
            best, middle = ((of(times[touch]) - of(times["untouched"])) / programs for of in (min, statistics.median))
            print(f"an array of 4,096, {touch}: {best:.2f} ({middle:.2f}) microseconds a program, of a scan of {min(times['untouched']):.0f}", flush=True)

    def read(self):
        kept = os.path.join(self.folder, "out.txt")
        for make, size in shapes.READ:
            for name, half, whole in zip((name for name, _ in make(size)), make(size // 2), make(size)):
                told = []
                for _, files in (half, whole):
                    path = os.path.join(self.folder, "shape")
                    shutil.rmtree(path, ignore_errors=True)
                    os.makedirs(path)
                    for file, text in files.items():
                        inputs.write(path, file, text)
                    it = self.best([self.program, "check", f"{path}/plant.toml"], "/dev/null", kept)
                    self.failed |= it.status not in (0, 3)
                    answer = it.out.decode(errors="replace").strip() or f"status {it.status}"
                    told.append(f"{answer[:40]:<40} {it.processor:7.2f} s {it.memory:7.0f} MB")
                print(f"{name:<50} {'   '.join(told)}", flush=True)

    def commands(self):
        given = os.path.join(self.folder, "commands.txt")
        for size in (500_000, 1_000_000):
            for name, lines in shapes.commands(size):
                with open(given, "w") as file:
                    file.writelines(lines)
                self.told(f"{name} ({size // 10_000} %)", self.best([self.program], given))


def main():
    parser = argparse.ArgumentParser(description="Measures the built server.")
    parser.add_argument("program")
    parser.add_argument("kinds", nargs="*", metavar="KIND")
    parser.add_argument("--repeat", type=int, default=3)
    parser.add_argument("--turns", type=int, nargs="+", default=[0, 9, 40, 94])
    parser.add_argument("--workers", type=int, nargs="+", default=[1, 2, 3, 4])
    parser.add_argument("--scans", type=int, help="of still and workers")
    parser.add_argument("--keep", help="a folder for plants and inputs, which stays")
    options = parser.parse_args()
    kinds = options.kinds or ["lines"]
    for kind in kinds:
        if kind not in KINDS:
            parser.error(f"no kind {kind}: they are {', '.join(KINDS)}")
    program = os.path.abspath(options.program)
    folder = options.keep or tempfile.mkdtemp()
    os.makedirs(folder, exist_ok=True)
    bench = Bench(program, folder, options)
    try:
        for kind in kinds:
            if kind in PLANTS:
                bench.plant(kind)
            else:
                getattr(bench, kind)()
    finally:
        if not options.keep:
            shutil.rmtree(folder, ignore_errors=True)
    return 1 if bench.failed else 0


if __name__ == "__main__":
    sys.exit(main())
