#!/usr/bin/env python3
"""Compares the costs and the levels of the programs of random plants, and the limit of slots, with those of the rules.

    python3 tools/reference/costs.py PROGRAM [FIRST_SEED [COUNT]]

PROGRAM is the built server. What `check` tells at a terminal of each program, its cost and its level, is compared with what docs/LANGUAGE.md and docs/PLANT.md say of the
same plant. Each plant is judged once more with arrays beside it that make its slots just as many as are allowed, and with one more. The exit status is 0 where all agree.
"""

import os
import pty
import random
import subprocess
import sys
import tempfile

from language import STANDARD, Array, Assign, Call, Case, Element, Empty, For, If, Literal, Read, Unary, value
from plants import Maker, Writer

MOST_SLOTS, MOST_ELEMENTS = 65_536, 4096


# -------------------------------------------------------------------------------------------------------------------------- costs


def price(it):
    """What an expression costs: its literals, reads and operators. An element is one more than a variable, and its index."""
    if isinstance(it, (Literal, Read)):
        return 1
    if isinstance(it, Element):
        return 2 + price(it.index)
    return 1 + (price(it.operand) if isinstance(it, Unary) else price(it.left) + price(it.right))


def turns(it):
    """The values of a FOR's control variable."""
    step = 1 if it.step is None else value(it.step, None)
    return range(value(it.first, None), value(it.last, None) + (1 if step > 0 else -1), step)


def cost(plant, body):
    return sum(cost_of(plant, it) for it in body)


def cost_of(plant, it):
    """What a statement costs, with its dearest branch and each turn."""
    below = lambda body: cost(plant, body or [])
    if isinstance(it, Empty):
        return 1
    if isinstance(it, Assign):
        return 1 + price(it.right) + (1 + price(it.target.index) if isinstance(it.target, Element) else 0)
    if isinstance(it, If):
        return 1 + sum(price(test) for test, _ in it.branches) + max([below(body) for _, body in it.branches] + [below(it.otherwise)])
    if isinstance(it, Case):
        labels = sum(len(labels) for labels, _ in it.choices)
        return 1 + price(it.selector) + labels + max([below(body) for _, body in it.choices] + [below(it.otherwise)])
    if isinstance(it, For):
        return 2 + len(turns(it)) * (3 + below(it.body))
    arguments = sum(1 if isinstance(given, tuple) else 1 + price(given) for _, given in it.arguments)
    return 1 + arguments + (1 if it.block in STANDARD else below(plant.blocks[it.block].body))


# ------------------------------------------------------------------------------------------------------------------------- levels


def named(it, found):
    """Puts the globals that stand in an expression into `found`; an array is one name, whatever the index."""
    if isinstance(it, (Read, Array)):
        found.update([it.place[1]] if it.place[0] == "global" else [])
    elif isinstance(it, Element):
        named(it.array, found)
        named(it.index, found)
    elif isinstance(it, Unary):
        named(it.operand, found)
    elif not isinstance(it, Literal):
        named(it.left, found)
        named(it.right, found)


def touched(plant, body, reads, writes):
    """Puts the globals that a body may read or assign into these sets; the body of a FOR without turns counts for nothing."""
    for it in body or []:
        if isinstance(it, Assign):
            assigned(it.target, reads, writes)
            named(it.right, reads)
        elif isinstance(it, (If, Case)):
            for each in [test for test, _ in it.branches] if isinstance(it, If) else [it.selector]:
                named(each, reads)
            for _, branch in it.branches if isinstance(it, If) else it.choices:
                touched(plant, branch, reads, writes)
            touched(plant, it.otherwise, reads, writes)
        elif isinstance(it, For) and turns(it):
            touched(plant, it.body, reads, writes)
        elif isinstance(it, Call):
            for _, given in it.arguments:
                if isinstance(given, tuple):
                    assigned(given[0], reads, writes)
                else:
                    named(given, reads)
            if it.block not in STANDARD:
                touched(plant, plant.blocks[it.block].body, reads, writes)


def assigned(target, reads, writes):
    if isinstance(target, Element):
        named(target.index, reads)
        target = target.array
    named(target, writes)


def levels(plant):
    """The level of each program: 1 more than the greatest of the earlier programs with which it conflicts."""
    found = []
    for program in plant.programs:
        reads, writes = set(), set()
        touched(plant, program.body, reads, writes)
        conflicts = [level for level, its_reads, its_writes in found if writes & (its_reads | its_writes) or reads & its_writes]
        found.append((1 + max(conflicts, default=0), reads, writes))
    return [level for level, _, _ in found]


# -------------------------------------------------------------------------------------------------------------------------- slots


def length(array):
    return array.high - array.low + 1


def slots(plant):
    """Variables and standard blocks, in each instance anew; each element of an array counts."""
    return len(plant.globals) + sum(map(length, plant.arrays)) + sum(slots_in(plant, it) for it in plant.programs)


def slots_in(plant, routine):
    inner = [len(STANDARD[block][0]) + 1 if block in STANDARD else slots_in(plant, plant.blocks[block]) for _, block in routine.instances]
    return len(routine.variables) + sum(map(length, routine.arrays)) + sum(inner)


def filling(count):
    """A source with arrays of so many elements together, none of them too long."""
    lengths = [MOST_ELEMENTS] * (count // MOST_ELEMENTS) + ([count % MOST_ELEMENTS] if count % MOST_ELEMENTS else [])
    return "VAR_GLOBAL\n" + "".join(f"filling_{at} : ARRAY[1..{it}] OF TIME;\n" for at, it in enumerate(lengths)) + "END_VAR\n"


# --------------------------------------------------------------------------------------------------------------------- the server


def told(program, path):
    """What `check` answers, and what it tells at a terminal."""
    ours, theirs = pty.openpty()
    with subprocess.Popen([program, "check", path], stdout=subprocess.PIPE, stderr=theirs) as ran:
        os.close(theirs)
        said = b""
        while part := read_some(ours):
            said += part
        os.close(ours)
        return ran.stdout.read().decode().strip(), said.decode(errors="replace").replace("\r\n", "\n")


def read_some(terminal):
    try:
        return os.read(terminal, 65_536)
    except OSError:
        # (the other end is closed)
        return b""


def table(said):
    """The name, the cost and the level of each program, as they are told."""
    lines = said.split("\n")
    heads = [at for at, line in enumerate(lines) if line.split() == ["program", "cost", "level"]]
    rows = lines[heads[0] + 1 :] if heads else []
    rows = rows[: next((at for at, line in enumerate(rows) if len(line.split()) != 3), len(rows))]
    return [(name, int(cost), int(level)) for name, cost, level in map(str.split, rows)]


def differences(program, seed, folder):
    """What differs of the plant of a seed."""
    some = random.Random(seed)
    plant = Maker(some).made()
    texts = Writer(some).files(plant)
    write(folder, texts)
    path = os.path.join(folder, "plant.toml")
    wanted = [(it.name, cost(plant, it.body), level) for it, level in zip(plant.programs, levels(plant))]
    got = table(told(program, path)[1])
    if got != wanted:
        yield f"wanted {wanted}, got {got}"
    free, listed = MOST_SLOTS - slots(plant), 'sources = ["filling.st", '
    texts["plant.toml"] = texts["plant.toml"].replace("sources = [", listed)
    for count, line in ((free, "ACCEPTED PROGRAMS"), (free + 1, "CONFIG C10 SLOTS")):
        write(folder, texts | {"filling.st": filling(count)})
        got = subprocess.run([program, "check", path], capture_output=True).stdout.decode().strip()
        if not got.startswith(line):
            yield f"with {count} slots beside it: wanted {line}, got {got}"


def write(folder, texts):
    for name, text in texts.items():
        with open(os.path.join(folder, name), "w", newline="", encoding="utf-8") as file:
            file.write(text)


def main(words):
    program = os.path.abspath(words[0])
    first, count = (int(word) for word in (words[1:] + ["1", "1000"][len(words) - 1 :])[:2])
    differ = 0
    with tempfile.TemporaryDirectory() as folder:
        for seed in range(first, first + count):
            found = list(differences(program, seed, folder))
            differ += 1 if found else 0
            for where in found:
                print(f"seed {seed}: {where}", flush=True)
    print(f"{count - differ} plants alike, {differ} not")
    return 1 if differ else 0


if __name__ == "__main__":
    if len(sys.argv) < 2 or len(sys.argv) > 4:
        sys.exit(__doc__)
    sys.exit(main(sys.argv[1:]))
