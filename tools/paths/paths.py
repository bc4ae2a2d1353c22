#!/usr/bin/env python3
"""Lists the lines of crates.txt that the gate walks most often, and the crates in them that may go.

    python3 tools/paths/paths.py            the paths down crates.txt in all, and the crates that may leave a line, with the share of paths that each would spare
    python3 tools/paths/paths.py NAME       the crates in NAME's line, each with its paths and, where it may go, through which others of the line it is reached

Before it proves a library the gate walks every path down crates.txt from it: from a crate to one that its line lists, and so on. A crate may go from a line where
another one of the line stands on it, and passes on what is named of it: `pub use` in its src/lib.rt, specs/Lib.antt or proofs/Lib.antt. One whose impls are used
unnamed has to stay.

It needs Python 3.8 or later. The exit status is 0, or 2 where there is no crate of that name."""

import os
import sys

TOP = os.path.dirname(os.path.dirname(os.path.dirname(os.path.abspath(__file__))))


def lines():
    """By crate, the lowest first: the crates of this repository that its line lists."""
    with open(os.path.join(TOP, "crates.txt"), encoding="utf-8") as file:
        parts = [line.split(":") for line in file if ":" in line and not line.startswith("#")]
    names = {name for name, _ in parts}
    return {name: [low for low in rest.split() if low in names] for name, rest in parts}


def main():
    listed = lines()
    below, down, up = {}, {}, {}
    for crate, lows in listed.items():
        below[crate] = set(lows).union(*(below[low] for low in lows))
        down[crate] = 1 + sum(down[low] for low in lows)
    for crate in reversed(list(listed)):
        up[crate] = up.get(crate, 0) + 1
        for low in listed[crate]:
            up[low] = up.get(low, 0) + up[crate]

    def through(crate, low):
        """The crates of the line that stand on the low one."""
        return [other for other in listed[crate] if low in below[other]]

    total = sum(down.values())
    if len(sys.argv) > 1:
        if sys.argv[1] not in listed:
            print("paths: there is no crate %s" % sys.argv[1], file=sys.stderr)
            return 2
        for low in sorted(listed[sys.argv[1]], key=lambda low: -down[low]):
            print("%8d  %s  %s" % (down[low], low, " ".join(through(sys.argv[1], low))))
        return 0
    print("%d paths" % total)
    spare = [(up[crate] * down[low], crate, low) for crate in listed for low in listed[crate] if through(crate, low)]
    for paths, crate, low in sorted(spare, reverse=True)[:40]:
        print("%5.1f %%  %s: %s, through %s" % (100 * paths / total, crate, low, " or ".join(through(crate, low))))
    return 0


if __name__ == "__main__":
    sys.exit(main())
