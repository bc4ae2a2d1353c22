#!/usr/bin/env python3
"""How a server's memory grows by reloads of one plant.

    python3 tools/bench/reloads.py PROGRAM [--plant PATH] [--after N ..] [--workers N]
    MALLOC_TRIM_THRESHOLD_=1048576 MALLOC_TOP_PAD_=0 python3 tools/bench/reloads.py PROGRAM

PROGRAM is the built server (crates/alarmd/out/alarmd), PATH a plant file, without it a plant of 20,000 alarms. The server scans once, is handed its own plant again and again, and after so many reloads
(1, 10, 100, 300, 500 and 1,000) its memory is told, in MB: what is resident, and what of that is no file's; what the C library has from the system, and of that the blocks that the program has asked for and
not given back, the rest, which the library keeps, and how much of the rest lies at the end, where it could be given back. It needs Python 3.11 or later, gcc, and a program that is linked with the C library as a shared one, as
LLVM's builds are. What the C library reads in its environment it reads here too.
"""

import argparse
import os
import signal
import struct
import subprocess
import sys
import tempfile
import time
import tomllib

import inputs

TOOLS = os.path.join(os.path.dirname(os.path.abspath(__file__)), os.pardir, "allocations")
KEPT, COUNTED = 6, 3  # how many numbers kept.c tells, and count.c
HEADS = ["reloads", "resident", "no file's", "the library's", "live", "kept", "kept at its end", "seconds"]


def bytes_of(*path):
    with open(os.path.join(*path), "rb") as file:
        return file.read()


def request(plant):
    """A `reload` of a plant's own files."""
    text, folder = bytes_of(plant), os.path.dirname(plant)
    listed = tomllib.loads(text.decode())
    alarms, sources = bytes_of(folder, listed["alarms"]), [bytes_of(folder, name) for name in listed["sources"]]
    sizes = " ".join(str(len(it)) for it in [text, alarms, *sources])
    return f"reload {sizes}\n".encode() + text + alarms + b"".join(sources)


def library(room, name):
    """A library of tools/allocations, built."""
    built = os.path.join(room, f"{name}.so")
    subprocess.run(["gcc", "-O2", "-shared", "-fPIC", "-o", built, os.path.join(TOOLS, f"{name}.c"), "-ldl"], check=True)
    return built


class Told:
    """A file in which a library in the program tells so many numbers."""

    def __init__(self, path, count):
        self.path, self.count = path, count
        with open(path, "wb") as file:
            file.write(bytes(8 * count))

    def numbers(self):
        return struct.unpack(f"={self.count}q", bytes_of(self.path))


class Served:
    """A server of a plant, with the libraries that tell of its memory."""

    def __init__(self, words, room):
        self.kept, self.counted = Told(f"{room}/kept", KEPT), Told(f"{room}/counted", COUNTED)
        preload = f"{library(room, 'kept')} {library(room, 'count')}"
        env = {**os.environ, "LD_PRELOAD": preload, "KEPT_FILE": self.kept.path, "COUNT_FILE": self.counted.path}
        self.child = subprocess.Popen(words, stdin=subprocess.PIPE, stdout=subprocess.PIPE, stderr=subprocess.DEVNULL, env=env)

    def ask(self, given, begins):
        """Gives a request, and waits for the line with which its answer ends."""
        self.child.stdin.write(given)
        self.child.stdin.flush()
        for line in self.child.stdout:
            if line.startswith(begins):
                return
        sys.exit(f"the server ended: no line begins with {begins.decode()}")

    def of_library(self):
        """What the C library has: all, what lives, what it keeps, and what of that lies at the end."""
        times = self.kept.numbers()[0]
        self.child.send_signal(signal.SIGUSR1)
        while self.kept.numbers()[0] == times:
            time.sleep(0.01)
        _, arenas, mapped, _, _, at_end = self.kept.numbers()
        live = self.counted.numbers()[1]
        return arenas + mapped, live, arenas + mapped - live, at_end

    def resident(self):
        """What is resident, and what of that is no file's."""
        lines = dict(line.split(":", 1) for line in bytes_of(f"/proc/{self.child.pid}/status").decode().splitlines())
        return [int(lines[name].split()[0]) * 1024 for name in ("VmRSS", "RssAnon")]

    def end(self):
        self.child.stdin.close()
        self.child.stdout.read()
        return self.child.wait()


def measured(served, given, numbers):
    """Reloads, and tells the memory after each of these numbers of reloads."""
    print("".join(f"{head:>16}" for head in HEADS))
    served.ask(b"scan 0\n", b"DONE")
    done, begun = 0, time.monotonic()
    for number in sorted(numbers):
        for _ in range(number - done):
            served.ask(given, b"RELOADED")
        done = number
        sizes = [*served.resident(), *served.of_library()]
        print(f"{done:>16,}" + "".join(f"{it / 1e6:>16.2f}" for it in sizes) + f"{time.monotonic() - begun:>16.0f}", flush=True)


def main():
    reads = argparse.ArgumentParser(description="How a server's memory grows by reloads of one plant.")
    reads.add_argument("program", type=os.path.abspath)
    reads.add_argument("--plant", type=os.path.abspath, help="a plant file (a plant of 20,000 alarms)")
    reads.add_argument("--after", type=int, nargs="+", default=[1, 10, 100, 300, 500, 1000], help="after how many reloads memory is told")
    reads.add_argument("--workers", type=int, default=1)
    options = reads.parse_args()
    with tempfile.TemporaryDirectory() as room:
        plant = options.plant or f"{room}/plant.toml"
        if options.plant is None:
            inputs.alarms(room, scans=0)
        served = Served([options.program, "run", plant, "--workers", str(options.workers)], room)
        measured(served, request(plant), options.after)
        return served.end()


if __name__ == "__main__":
    sys.exit(main())
