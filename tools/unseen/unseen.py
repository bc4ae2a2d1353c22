#!/usr/bin/env python3
"""Lists the lines of the tables of what a person is told that no row sees.

    python3 tools/unseen/unseen.py crates/try_plants/out/try_plants
    python3 tools/unseen/unseen.py crates/try_plants/out/try_plants --show RULES

What is wrong in a plant is told by tables: texts of several lines in the sources of the crates explain_, of which each line has a pattern and behind it what is
said. No clause speaks of them, so rows of try_plants are all that sees a line that is gone or wrong. Each line is taken out in turn: in a copy of the program
its pattern becomes bytes that nothing fits. Then the rows on what a person is told are played, and a line is unseen where the program answers as before. The
program is one that was built with the tables as they are. With `--show` it lists for each line of a table, by the table's name, how many rows see it.

It needs Python 3.9 or later. The exit status is 0 where each line is seen, and else 1. A line that others always answer before is unseen too, and may go."""

import argparse
import concurrent.futures
import glob
import os
import re
import subprocess
import sys
import tempfile
import threading

TOP = os.path.dirname(os.path.dirname(os.path.dirname(os.path.abspath(__file__))))
TABLE = re.compile(r'^const (\w+): &str = "\\\n(.*?)";', re.S | re.M)
ESCAPE = re.compile(r'\\u\{(\w+)\}|\\(["\\])')
ONE_AT_A_TIME = threading.Lock()


def spelled(text):
    """What a text in a source spells."""
    return ESCAPE.sub(lambda m: chr(int(m[1], 16)) if m[1] else m[2], text)


def tables():
    """The tables: of each its name, and its lines."""
    for path in sorted(glob.glob(os.path.join(TOP, "crates", "explain_*", "src", "*.rt"))):
        with open(path, encoding="utf-8") as source:
            for name, lines in TABLE.findall(source.read()):
                yield name, [line.encode() for line in spelled(lines).split("\n") if line]


def pattern_len(line):
    """How many bytes the first pattern of a line has, or all that stands before a `| `."""
    bar = line.find(b"| ")
    return bar if bar > 0 else max(line.find(b" "), 1)


def without(program, line):
    """A program without a line, and how often that stands in it."""
    other, times, at = bytearray(program), 0, program.find(line)
    while at >= 0:
        other[at : at + pattern_len(line)] = b"\x01" * pattern_len(line)
        times, at = times + 1, program.find(line, at + 1)
    return bytes(other), times


def rows():
    """The rows on what a person is told, as an input of their own."""
    with open(os.path.join(TOP, "crates", "try_plants", "stdin"), "rb") as table:
        language = table.read().split(b"\n== language\n")[1].split(b"\n== room\n")[0]
    return b"\n== language\n\n== plants\n" + language.split(b"\n== plants\n")[1]


def answers(program, given):
    """What each row is answered, by its line."""
    with tempfile.TemporaryDirectory() as folder:
        path = os.path.join(folder, "program")
        # (another program that begins while this one is written has it open too, and then it can't be begun)
        with ONE_AT_A_TIME:
            with open(path, "wb") as file:
                file.write(program)
            os.chmod(path, 0o755)
            running = subprocess.Popen([path], stdin=subprocess.PIPE, stdout=subprocess.PIPE, stderr=subprocess.PIPE)
        try:
            printed, _ = running.communicate(given, timeout=600)
        except subprocess.TimeoutExpired:
            running.kill()
            raise
    found, row = {}, b""
    for line in printed.split(b"\n"):
        row = line if line.startswith(b"with ") else row
        found.setdefault(row, []).append(line)
    return found


def main():
    parser = argparse.ArgumentParser(description=__doc__.split("\n")[0])
    parser.add_argument("program")
    parser.add_argument("--show", metavar="TABLE")
    words = parser.parse_args()
    with open(words.program, "rb") as file:
        program = file.read()
    given = rows()
    right = answers(program, given)

    def seen(job):
        name, line = job
        other, times = without(program, line)
        if not times:
            return name, line, -1
        found = answers(other, given)
        return name, line, sum(found.get(row) != right[row] for row in right)

    jobs = [(name, line) for name, lines in tables() for line in lines if words.show in (None, name)]
    unseen = 0
    with concurrent.futures.ThreadPoolExecutor(os.cpu_count()) as pool:
        for name, line, count in pool.map(seen, jobs):
            unseen += count <= 0
            if count < 0:
                print(f"{name}: not in the program: {line.decode()}", flush=True)
            elif count == 0 or words.show:
                print(f"{name}: {count} rows: {line.decode()}", flush=True)
    print(f"{len(jobs)} lines, {unseen} that no row sees")
    sys.exit(unseen > 0)


if __name__ == "__main__":
    main()
