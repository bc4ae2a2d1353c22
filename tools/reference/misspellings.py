#!/usr/bin/env python3
"""Spoils a source of each random plant here and there, and compares the place of the first fault of spelling or grammar (C4, C5).

    python3 tools/reference/misspellings.py PROGRAM [FIRST_SEED [COUNT]]

PROGRAM is the built server. Bytes or tokens of a source are dropped, doubled, exchanged or put in. The place of the first fault is that of
grammar.py, which was written from docs/LANGUAGE.md. The exit status is 0 where all agree.
"""

import os
import random
import subprocess
import sys
import tempfile

from grammar import KEYWORDS, SYMBOLS, Misspelled, fault, tokens
from plants import Maker, Writer

PIECES = ["2147483648", "-2147483648", "2147483649", "T#1.5s", "T#2s.5ms", "T#1.0005s", "t#1d_2h", "T#1h1d", "TIME #5s", "DINT#-2147483648", "DINT#+5"]
PIECES += ["DINT#2147483648", "BOOL#1", "BOOL#2", "16#FF", "16#FG", "2#12", "1__2", "_a", "a#", "%IX0.0", "%IX0.", "%ZX1", "%I*", "(*", "*)", "/*", "//", "(*)"]
PIECES += ["T#-5ms", "T#5", "T#5ms5", "T#9223372036854775807ms", "T#9223372036854775808ms", "x.y", "..", "\xff", "é", "\x0b", "\f", "#", "08", "1_000"]
PIECES += ["("] * 3 + ["(" * 127 + "b" + ")" * 127, "(" * 128 + "b" + ")" * 128, "- " * 130 + "1", "NOT " * 129 + "b", "b" + " AND b" * 127, "b" + " + b" * 128]
PIECES += ["IF b THEN " * 64, "FOR b := 1 TO 2 DO " * 70, "IF b THEN " * 63 + ";" + " END_IF;" * 63]
PIECES += ["[", "]", "w[", "w[1]", "b[b]", "ARRAY[1..2] OF DINT", "array [-1 .. - 2147483648] of", "ARRAY[1..", "ARRAY[DINT#1..2]", "[-2147483648..2147483648]"]
PIECES += ["w[" * 127 + "1" + "]" * 127, "w[" * 128 + "1" + "]" * 128, "w[" * 128 + "1" + "]" * 128 + " := 1", "w[" * 129 + "1" + "]" * 129 + " := 1"]


def spoiled(some, source):
    """A source with a few changes."""
    for _ in range(some.choice([1, 1, 1, 2, 3])):
        try:
            found = [(it.at, it.kind) for it in tokens(source)]
        except Misspelled:
            found = []
        starts = [at for at, _ in found] or [0]
        at, other = some.choice(starts), some.choice(starts)
        end = min([it for it in starts if it > at], default=len(source))
        pick = some.random()
        if pick < 0.2:
            source = source[:at] + source[end:]
        elif pick < 0.35:
            source = source[:at] + source[at:end] + " " + source[at:]
        elif pick < 0.75:
            piece = some.choice(PIECES if some.random() < 0.5 else sorted(KEYWORDS) + SYMBOLS)
            source = source[:at] + piece + some.choice([" ", ""]) + source[at if some.random() < 0.5 else end :]
        elif pick < 0.85:
            source = source[:at] + source[other : other + 9] + source[end:]
        elif pick < 0.95:
            byte = some.randrange(len(source) + 1)
            source = source[:byte] + source[byte + some.randrange(4) :]
        else:
            source = source[:at]
    return source


def main(words):
    # An expression may be 128 deep, with a call of the parser for each level of its operators.
    sys.setrecursionlimit(10_000)
    program = os.path.abspath(words[0])
    first, count = (int(word) for word in (words[1:] + ["1", "1000"][len(words) - 1 :])[:2])
    differ, faults = 0, {"C4": 0, "C5": 0, "none": 0}
    with tempfile.TemporaryDirectory() as folder:
        for seed in range(first, first + count):
            some = random.Random(seed)
            files = Writer(some).files(Maker(some).made())
            files["s0.st"] = spoiled(some, files["s0.st"].replace("\ufeff", some.choice(["", "\u00ef\u00bb\u00bf"])))
            for name, text in files.items():
                with open(os.path.join(folder, name), "w", newline="", encoding="latin-1" if name == "s0.st" else "utf-8", errors="replace") as file:
                    file.write(text)
            with open(os.path.join(folder, "s0.st"), "rb") as file:
                wanted = fault(file.read())
            faults[wanted[0] if wanted else "none"] += 1
            ran = subprocess.run([program, "check", os.path.join(folder, "plant.toml")], capture_output=True)
            got = ran.stdout.decode().strip()
            line = "CONFIG {} s0.st {} {}".format(*wanted) if wanted else "no C4 and no C5"
            if got != line if wanted else got.startswith(("CONFIG C4", "CONFIG C5")):
                differ += 1
                print(f"seed {seed}: wanted {line}, got {got}", flush=True)
    print(f"{count - differ} sources alike, {differ} not; of these {faults['C4']} C4, {faults['C5']} C5")
    return 1 if differ else 0


if __name__ == "__main__":
    if len(sys.argv) < 2 or len(sys.argv) > 4:
        sys.exit(__doc__)
    sys.exit(main(sys.argv[1:]))
