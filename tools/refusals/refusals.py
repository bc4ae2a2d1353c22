#!/usr/bin/env python3
"""Refuses a built program each growth of its memory in turn, and looks at what comes of it.

    python3 tools/refusals/refusals.py crates/try_plants/out/try_plants --crate crates/try_plants --table plants
    python3 tools/refusals/refusals.py crates/alarmd/out/alarmd --examples examples

A program of rows is run on its stored input (`--crate`), or on one table of it: each run has to write the same as without, or to end with status 1 and write nothing. The server is run on the
plants and commands of the examples (`--examples`): each run has to be the same, or to end with status 1 and `RUN MEMORY` after a beginning of the right answers (with workers
also with `RUN CREW`). The first, second, third .. growth is refused, one a run, until a run needed no more.

| option | what it is | without it |
|---|---|---|
| `--table NAME` | of the stored input only what stands behind its line `== NAME`; `plants`: before the first such line | the whole, with the script of a control room, which isn't played once more |
| `--later` | each growth is refused with all later ones | it alone |
| `--sample N` | so many places of all, chosen at random | each place |
| `--seed S` | what they are chosen by | 1 |
| `--workers N` | the server's workers | 1 |
| `--jobs J` | how many runs at once | 1 |

It needs Python 3.10 or later, gcc, and a program that is linked with the C library as a shared one, as LLVM's builds are. The exit status is 0 where every run was as it has to be."""

import argparse
import collections
import concurrent.futures
import os
import random
import sys
import time

from refused import Refuser, whole

SAME, NOTHING, BEGUN, OTHERWISE = "the same", "status 1, nothing written", "status 1, a beginning of it", "otherwise"


class Target:
    """What is run: a command line, its input, and the folder in which it runs. `begun` is whether a beginning of the output may be written before memory is refused;
    `errors` is what standard error may be then, None for anything."""

    def __init__(self, name, words, given, folder=None, begun=False, errors=None):
        self.name, self.words, self.given, self.folder, self.begun, self.errors = name, words, given, folder, begun, errors

    def judged(self, ran, right):
        """What came of a run. Of a refused plant standard error may say less, or nothing: what it says begins with the refusal's own line."""
        told = ran.error == right.error or (right.status == 3 and (ran.error == b"" or ran.error.startswith(right.out)))
        if (ran.out, ran.status) == (right.out, right.status) and told:
            return SAME
        if ran.status != 1 or (self.errors and ran.error not in self.errors):
            return OTHERWISE
        if ran.out == b"":
            return NOTHING
        return BEGUN if self.begun and right.out.startswith(ran.out) else OTHERWISE


def read(*names):
    with open(os.path.join(*names), "rb") as file:
        return file.read()


def table_of(given, name):
    """The table of a name, as an input of its own: from the line `== NAME` to the next such line; of `plants` what stands before the first."""
    if name == "plants":
        return given.partition(b"\n== ")[0] + b"\n"
    return b"\n== %s\n%s" % (name.encode(), given.partition(b"\n== %s\n" % name.encode())[2].partition(b"\n== ")[0])


def rows(program, crate, table):
    """A row program on its stored input, or on a table of it."""
    given = read(crate, "stdin")
    words = read(crate, "args").decode().split("\n")[:-1] if os.path.exists(os.path.join(crate, "args")) else []
    data = os.path.join(crate, "data")
    return [Target(os.path.basename(program), [program, *words], table_of(given, table) if table else given, data if os.path.isdir(data) else None)]


def examples(program, folder, workers):
    """The server on each example: what it says of the plant, and its answers to the commands."""
    found, crew, errors = [], ["--workers", str(workers)], [b"RUN MEMORY\n"]
    for place, _, names in sorted(os.walk(folder)):
        for name in sorted(it for it in names if it.endswith(".toml")):
            plant = os.path.abspath(os.path.join(place, name))
            found.append(Target(f"check {os.path.relpath(plant, folder)}", [program, "check", plant], b"", errors=errors))
            for given in sorted(it for it in names if "commands" in it):
                told = errors + [b"RUN CREW\n"] * (workers > 1)
                found.append(Target(f"run {os.path.relpath(plant, folder)} < {given}", [program, "run", plant, *crew], read(place, given), begun=True, errors=told))
    return found


def tell(target, number, ran, right):
    """Prints a run that isn't as it has to be."""
    wanted, got = right.out.split(b"\n"), ran.out.split(b"\n")
    at = next((at for at, (one, other) in enumerate(zip(wanted, got)) if one != other), min(len(wanted), len(got)))
    shown = [repr(lines[at][:200])[1:] if at < len(lines) else "nothing" for lines in (wanted, got)]
    status = "it doesn't end" if ran.status is None else f"status {ran.status}"
    print(f"{target.name}: growth {number}: line {at + 1}: wanted {shown[0]}, got {shown[1]}; {status}, standard error {ran.error[:200]!r}", flush=True)


def tried(refuser, pool, target, options):
    """Refuses a target each growth, or those of a sample, and counts what came of it."""
    counts, right = collections.Counter(), whole(refuser, target.words, target.given, target.folder)
    numbers = range(1, right.growths + 1)
    if options.sample and options.sample < right.growths:
        numbers = sorted(random.Random(options.seed).sample(numbers, options.sample))

    def run(number):
        refusal = {"later": number} if options.later else {"at": [number]}
        return number, refuser.run(target.words, target.given, target.folder, **refusal)

    for number, ran in pool.map(run, numbers):
        if not ran.refused:
            continue
        what = target.judged(ran, right)
        counts[what] += 1
        if what == OTHERWISE:
            tell(target, number, ran, right)
    print(f"{target.name}: {right.growths} growths; refused in {sum(counts.values())} runs: " + "; ".join(f"{what} {counts[what]}" for what in (SAME, NOTHING, BEGUN, OTHERWISE) if counts[what]), flush=True)
    return counts


def read_options():
    reads = argparse.ArgumentParser(usage=__doc__)
    reads.add_argument("program", type=os.path.abspath)
    reads.add_argument("--crate", help="the crate of a row program")
    reads.add_argument("--table", help="the table of its input, if not the whole")
    reads.add_argument("--examples", help="the folder of the examples")
    reads.add_argument("--workers", type=int, default=1)
    reads.add_argument("--later", action="store_true")
    reads.add_argument("--sample", type=int)
    reads.add_argument("--seed", type=int, default=1)
    reads.add_argument("--jobs", type=int, default=1)
    options = reads.parse_args()
    if (options.crate is None) == (options.examples is None):
        reads.error("one of --crate and --examples is wanted")
    return options


def main():
    options, counts, begun = read_options(), collections.Counter(), time.monotonic()
    targets = rows(options.program, options.crate, options.table) if options.crate else examples(options.program, options.examples, options.workers)
    refuser = Refuser()
    try:
        with concurrent.futures.ThreadPoolExecutor(options.jobs) as pool:
            for target in targets:
                counts += tried(refuser, pool, target, options)
    finally:
        refuser.close()
    for what in (SAME, NOTHING, BEGUN, OTHERWISE):
        print(f"{counts[what]:>12,}  {what}")
    print(f"{time.monotonic() - begun:>12,.0f}  seconds")
    return 1 if counts[OTHERWISE] or not counts else 0


if __name__ == "__main__":
    sys.exit(main())
