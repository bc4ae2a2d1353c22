"""Runs of a program, with what they took.

It is a program too, which runs another one: a child's memory is counted from its birth on, and so it is born of a small process.
"""

import json
import os
import subprocess
import sys
import time
from dataclasses import dataclass


@dataclass
class Run:
    """What a run took, in seconds and megabytes, and how it ended. `out` is the beginning of what it wrote, where it was kept."""

    wall: float
    processor: float
    memory: float
    status: int
    out: bytes = b""


def run(words, given, kept=None):
    """Runs a program on a file. What it writes goes to a file where one is named, and else nowhere."""
    ran = subprocess.run([sys.executable, "-I", "-S", os.path.abspath(__file__), given, kept or os.devnull, *words], stdout=subprocess.PIPE, check=True)
    took = Run(*json.loads(ran.stdout))
    if kept:
        with open(kept, "rb") as file:
            took.out = file.read(200)
    return took


def least(runs):
    """The best of several runs by processor time, with the greatest memory of all."""
    best = min(runs, key=lambda it: it.processor)
    return Run(best.wall, best.processor, max(it.memory for it in runs), max(it.status for it in runs), best.out)


def main(given, kept, *words):
    began = time.perf_counter()
    child = os.fork()
    if child == 0:
        os.dup2(os.open(given, os.O_RDONLY), 0)
        os.dup2(os.open(kept, os.O_WRONLY | os.O_CREAT | os.O_TRUNC, 0o644), 1)
        os.dup2(os.open(os.devnull, os.O_WRONLY), 2)
        try:
            os.execvp(words[0], words)
        except OSError:
            os._exit(127)
    _, status, took = os.wait4(child, 0)
    wall = time.perf_counter() - began
    print(json.dumps([wall, took.ru_utime + took.ru_stime, took.ru_maxrss / 1024, os.waitstatus_to_exitcode(status)]))


if __name__ == "__main__":
    main(*sys.argv[1:])
