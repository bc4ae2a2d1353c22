#!/usr/bin/env python3
"""Lists which functions the proof of a crate spends its time on, the dearest first.

    cd crates/CRATE && rm -rf out/incremental && rt check --jobs 1 && cd ../..
    python3 tools/searches/times.py CRATE

`rt check` keeps what it proves in crates/CRATE/out/incremental, file after file. This reads when each was written, and takes
the time since the one before for what its function cost. So the check has to be one from nothing, by one job: what an
earlier check left is counted as quick, and what two jobs write at once is counted too little. A line for each function, or
what else the crate has (`specs: ..`): seconds, its share, and its path. The last line sums them up.

    --least N   those that took at least N hundredths of the whole (1)

Exit status 0, or 2 where there is nothing to read. It proves nothing and runs nothing."""
import collections
import os
import re
import sys

TOP = os.path.dirname(os.path.dirname(os.path.dirname(os.path.abspath(__file__))))
# A longer time between two files is a pause between two checks.
PAUSE = 200
# The last words of the names of a function's files.
PARTS = "Lts|Tie|Proof|Code|Statement|Met|Answers|Invariants|Goals|is"


def path_of(file):
    """Returns the path of the function whose proof, or code, a file of the folder has."""
    name = re.sub(r"(\.decls)?\.oantt$", "", file)
    kind, _, path = re.sub(r"^Rattle-\w+-?", "", name).partition(".")
    path = re.sub(r"\bfn\.", "", re.sub(rf"\.({PARTS})$", "", path))
    return path if kind == "proofs" else f"{kind}: {path}"


def times_of(folder):
    """Returns the seconds of each path."""
    files = [(os.stat(f"{at}/{name}").st_mtime, name) for at, _, names in os.walk(folder) for name in names if name.endswith(".oantt")]
    files.sort()
    times = collections.Counter()
    for (before, _), (after, name) in zip(files, files[1:]):
        if after - before < PAUSE:
            times[path_of(name)] += after - before
    return times


def main(words):
    if not words or words[0].startswith("-"):
        print(__doc__, file=sys.stderr)
        return 2
    folder = f"{TOP}/crates/{words[0]}/out/incremental"
    if not os.path.isdir(folder):
        print(f"there is no {folder}: run rt check in the crate's folder first", file=sys.stderr)
        return 2
    least = float(words[words.index("--least") + 1]) if "--least" in words else 1
    times = times_of(folder)
    whole = sum(times.values()) or 1
    for path, seconds in times.most_common():
        if 100 * seconds >= least * whole:
            print(f"{seconds:7.1f} s {100 * seconds / whole:5.1f} %  {path}")
    print(f"{len(times)} paths, {whole:.0f} s")
    return 0


if __name__ == "__main__":
    sys.exit(main(sys.argv[1:]))
