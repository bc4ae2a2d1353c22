#!/usr/bin/env python3
"""count.py PROGRAM [LINES]: how many allocations the built program takes for a line of each kind, on its built-in plant; and for a scan by workers, on plants of many programs.
count.py PROGRAM live [PLANT]: how many bytes live once the built program has read a plant (the large one of tools/bench, where none is named) and served its first scan, and how many lived at the most until then.

Each kind of line is given to the program so many times and twice as often; the difference of the two counts, divided by the number of lines, is what one line takes. So what the program
takes at its beginning is not in it, and vectors that grow (history, journal) show as a part of an allocation. Scans by workers are a tenth as many. Needs gcc.

A byte lives from the allocation of its block until that is given back; what the C library keeps for itself isn't in it, nor are stacks and the program's own text.

Allocations are counted by a library in the place of malloc (count.c), so the program has to be linked with the C library as a shared one, as LLVM's builds are. Of any other it counts none, and says so."""
import os
import struct
import subprocess
import sys
import tempfile

HERE = os.path.dirname(os.path.abspath(__file__))
NUMBERS = 3  # of count.c: allocations, the bytes that live, the most that lived

KINDS = [
    ("a scan that changes nothing", ["scan {t} a=5"]),
    ("a scan that changes one alarm", ["scan {t} a=5", "scan {t} a=50"]),
    ("a scan that faults, and a restart", ["scan {t} a=0", "restart 1 p"]),
    ("an order that is refused", ["ack 1 T9"]),
    ("an order that is taken, with another", ["shelve 1 T1 1000", "unshelve 1 T1"]),
    ("a line that is no command", ["no command"]),
]


# programs, turns of each one's loop, workers: with few turns the caller runs all by itself
CREWS = [(programs, turns, workers) for programs in (16, 64) for turns in (1, 1000) for workers in (1, 2, 4)]

PLANT = """name = "Many"
epoch = "2026-11-23T06:00:00Z"
areas = ["a"]
sources = ["many.st"]
alarms = "alarms.csv"
[[console]]
number = 1
areas = ["a"]
"""

ALARMS = """tag,area,priority,condition,suppress,latch,max_shelve_ms,text
T1,a,1,high,,FALSE,0,One
"""

PROGRAM = """PROGRAM p{number}
  VAR i, x : DINT; late : TON; END_VAR
  FOR i := 1 TO {turns} DO x := (x + a) MOD 1000; END_FOR;
  late(IN := x > 500, PT := T#1s);
END_PROGRAM
"""


def plant(folder, programs, turns):
    """Writes a plant of so many programs, which share nothing but an input, and tells its file."""
    os.makedirs(folder)
    source = "VAR_GLOBAL a AT %ID0 : DINT; high : BOOL; END_VAR\n" + "".join(PROGRAM.format(number=n, turns=turns) for n in range(programs))
    for name, text in ("plant.toml", PLANT), ("alarms.csv", ALARMS), ("many.st", source):
        with open(f"{folder}/{name}", "w") as file:
            file.write(text)
    return f"{folder}/plant.toml"


def counted(preload, counter):
    """The environment in which a run is counted into a file, which is made anew."""
    with open(counter, "wb") as file:
        file.write(bytes(8 * NUMBERS))
    return {**os.environ, "LD_PRELOAD": preload, "COUNT_FILE": counter}


def numbers(program, counter):
    """What the library has counted so far."""
    with open(counter, "rb") as file:
        told = struct.unpack(f"={NUMBERS}q", file.read(8 * NUMBERS))
    if told[0] == 0:
        sys.exit(f"{program} doesn't allocate by the C library's malloc, or is linked with it statically: nothing can be counted")
    return told


def count(program, preload, lines, words=()):
    """The allocations of a run on lines, with these words behind the program's name."""
    given = "".join(f"{line}\n" for line in lines).encode()
    counter = f"{os.path.dirname(preload)}/counter"
    subprocess.run([program, *words], input=given, stdout=subprocess.DEVNULL, env=counted(preload, counter), check=True)
    return numbers(program, counter)[0]


def live(program, preload, plant):
    """The bytes that live once a plant was read and its first scan served, and the most that lived until then."""
    counter = f"{os.path.dirname(preload)}/counter"
    with subprocess.Popen([program, "run", plant], stdin=subprocess.PIPE, stdout=subprocess.PIPE, stderr=subprocess.DEVNULL, env=counted(preload, counter)) as server:
        server.stdin.write(b"scan 0\n")
        server.stdin.flush()
        if not any(line.startswith(b"DONE") for line in server.stdout):
            sys.exit(f"{program} serves no scan of {plant}")
        told = numbers(program, counter)
        server.stdin.close()
        server.stdout.read()
    return told[1:]


def count_lines(program, preload, room, number):
    """Prints what a line of each kind takes, and a scan by workers."""
    for name, lines in KINDS:
        every = [lines[n % len(lines)].format(t=n) for n in range(2 * number)]
        more = count(program, preload, every) - count(program, preload, every[:number])
        print(f"{name}: {more / number:.4f} a line")
    scans = max(1, number // 10)
    every = [f"scan {n} a={n % 100}" for n in range(2 * scans)]
    for programs, turns, workers in CREWS:
        words = ["run", plant(f"{room}/{programs}_{turns}_{workers}", programs, turns), "--workers", str(workers)]
        more = count(program, preload, every, words) - count(program, preload, every[:scans], words)
        print(f"a scan of {programs} programs of {turns} turns by {workers} workers: {more / scans:.4f}")


def count_live(program, preload, room, path):
    """Prints what lives while a plant is served."""
    if path is None:
        sys.path.insert(0, f"{HERE}/../bench")
        import inputs

        os.makedirs(f"{room}/large")
        inputs.large(f"{room}/large")
        path = f"{room}/large/plant.toml"
    here, most = live(program, preload, path)
    print(f"{here:,} bytes live once the plant is served; until then {most:,} at the most")


def main():
    program, words = os.path.abspath(sys.argv[1]), sys.argv[2:]
    with tempfile.TemporaryDirectory() as room:
        preload = f"{room}/count.so"
        subprocess.run(["gcc", "-O2", "-shared", "-fPIC", "-o", preload, f"{HERE}/count.c", "-ldl"], check=True)
        if words[:1] == ["live"]:
            count_live(program, preload, room, words[1] if len(words) > 1 else None)
        else:
            count_lines(program, preload, room, int(words[0]) if words else 100_000)


if __name__ == "__main__":
    main()
