#!/usr/bin/env python3
"""Simulates bad days of the built server, and compares each answer with that of the second reading of its rules (tools/reference).

    python3 tools/simulate/simulate.py PROGRAM [--plants N] [--commands N] [--seed S] [--workers LIST] [--minutes M] [--keep DIR] [--jobs J] [--reload] [--refuse K]

PROGRAM is the built server (crates/alarmd/out/alarmd). README.md says what is tried. The exit status is 0 where all agree.
"""

import argparse
import bisect
import collections
import contextlib
import itertools
import multiprocessing
import os
import random
import shlex
import shutil
import signal
import subprocess
import sys
import tempfile
import time

HERE = os.path.dirname(os.path.abspath(__file__))
sys.path[:0] = [os.path.join(HERE, "..", "reference"), os.path.join(HERE, "..", "refusals")]

import files
import folders
import protocol
import reloads
import runs
from lines import Flood, Lines
from refused import Refuser
from runs import Ran
from server import Server

WAYS = ["missing", "folder", "loop", "no target", "endless", "failing", "too long", "locked"]
FULL_EVERY = 5000
NOBODY = 65_534
# An answer of more bytes may be written in parts.
MOST_AT_ONCE = 65_536
# What stands on standard error where an end fails: the refusal's line, and the system's reason.
INPUT_RESET = b"RUN READ\nstandard input: Connection reset by peer (os error 104)\n"
READER_GONE = b"RUN WRITE\nstandard output: Broken pipe (os error 32)\n"
DISK_FULL = b"RUN WRITE\nstandard output: No space left on device (os error 28)\n"
# The lines of the table at the end.
ORDER = ["plants", "full histories, of 1,000,000 events each", "commands", "whole inputs", "inputs in pieces", "cut inputs", "inputs that fail", "broken pipes", "full disks"]
ORDER += ["inputs with little memory", "inputs without more memory", "folders with little memory", "memory refused", "memory refused before anything was written"]
ORDER += ["memory refused for threads", "inputs with growths refused", "answers whole all the same", "folders with a file that is cut or changed", "folders with a file that can't be read", "folders that are accepted all the same", "folders of which the second reading can't tell", "differences"]


class Trial:
    """One plant, with all that is tried on it. Everything follows from its seed."""

    def __init__(self, bench, seed):
        self.bench, self.seed, self.some = bench, seed, random.Random(f"plant {seed}")
        self.counts, self.differences = collections.Counter(), 0
        self.place = os.path.join(bench.room, "plant")

    def go(self):
        """Tries all, and returns what was counted."""
        some = self.some
        self.plant = folders.made(some)
        self.texts = folders.Texts(some, self.plant)
        self.lay(folders.Folder(some, self.texts))
        self.count("plants")
        self.make_lines()
        for workers in self.bench.workers:
            self.whole(workers)
        if self.bench.refuser:
            self.without_growths()
        else:
            self.all_else()
        return self.counts

    def all_else(self):
        self.paced()
        self.read_failed()
        for way in (self.cut, self.broken, self.little, self.squeezed):
            way()
            way()
        self.full_sink()
        self.spoiled()
        self.spoiled()

    def count(self, what, number=1):
        self.counts[what] += number

    def lay(self, folder):
        shutil.rmtree(self.place, ignore_errors=True)
        os.mkdir(self.place)
        folder.write(self.place)

    def make_lines(self):
        """The input's parts, their answers, and copies of the server before the parts in which the input will be cut."""
        some, mean = self.some, self.bench.commands
        count = max(1, some.choice([mean // 4, mean // 2, mean, mean, mean, mean * 2]))
        if some.random() < 0.002:
            count = mean * 50
        self.cuts = [some.randrange(count), some.randrange(count)]
        if self.seed % FULL_EVERY:
            made = Lines(some, self.plant, Server(self.plant, self.bench.reads), 0.05 if some.random() < 0.02 else 0)
            made.make(count, self.cuts)
        else:
            made = Flood(some, self.plant, Server(self.plant, self.bench.reads))
            self.cuts = list(made.copies) * 2
            self.count("full histories, of 1,000,000 events each")
        self.parts, self.answers, self.copies = made.parts, made.answers, made.copies
        self.ended = len(self.parts) - (not self.parts[-1].endswith(b"\n"))
        self.given, self.wanted = b"".join(self.parts), b"".join(self.answers)
        if self.seed % FULL_EVERY:
            self.count("commands", len(self.parts))

    # ---- what is run, and how it is judged

    def unwarned(self, ran):
        return unwarned(unexplained_reloads(ran) if self.bench.reads else ran)

    def unexplained(self, ran):
        return unexplained(unexplained_reloads(ran) if self.bench.reads and ran.status in (0, 1) else ran)

    def words(self, workers, verb="run"):
        """The words of a command line: sometimes with another path to the same plant file, or without the number of workers where it is 1."""
        path = self.some.choice(["{}/plant.toml"] * 5 + ["{}//plant.toml", "{}/./plant.toml", "{}/../plant/plant.toml"]).format(self.place)
        if verb == "check" or (workers == 1 and self.some.random() < 0.5):
            return [self.bench.program, verb, path]
        return [self.bench.program, verb, path, "--workers", str(workers)]

    def any_workers(self):
        return self.some.choice(self.bench.workers)

    def judge(self, what, detail, words, given, wanted, ran, fits):
        """Counts a run, and tells where it isn't one that fits."""
        self.count(what)
        if not fits:
            self.differences += 1
            self.count("differences")
            Difference(self, f"{what}{detail and ': '}{detail}", words, given, wanted, ran).tell()

    def first(self, at):
        """The first parts of the input, and the answers to them."""
        return b"".join(self.parts[:at]), b"".join(self.answers[:at])

    # ---- inputs

    def whole(self, workers):
        """The whole input at once."""
        words = self.words(workers)
        ran = self.unwarned(runs.run(words, self.given, self.bench.seconds))
        self.judge("whole inputs", "", words, self.given, self.wanted, ran, ran == Ran(self.wanted, b"", 0))

    def paced(self):
        """The input in pieces that are cut anywhere: the answers to the lines that have ended are there before more is given."""
        some, words = self.some, self.words(self.any_workers())
        ends = sorted(some.randrange(len(self.given) + 1) for _ in range(some.choice([1, 2, 5, 10])))
        due, at, behind, pieces = 0, 0, 0, []
        for low, high in zip([0, *ends], [*ends, len(self.given)]):
            while at < self.ended and behind + len(self.parts[at]) <= high:
                due, behind, at = due + len(self.answers[at]), behind + len(self.parts[at]), at + 1
            pieces.append((self.given[low:high], due))
        ran = self.unwarned(runs.paced(words, pieces, self.bench.seconds))
        self.judge("inputs in pieces", f"they end at {ends}", words, self.given, self.wanted, ran, ran == Ran(self.wanted, b"", 0))

    def cut(self):
        """An input that ends after any of its bytes."""
        words, at = self.words(self.any_workers()), self.cuts.pop()
        before, wanted = self.first(at)
        given = before + self.parts[at][: self.some.randrange(max(1, len(self.parts[at])))]
        wanted += protocol.answers(self.copies[at].copy(), given[len(before) :])
        ran = self.unwarned(runs.run(words, given, self.bench.seconds))
        self.judge("cut inputs", "", words, given, wanted, ran, ran == Ran(wanted, b"", 0))

    def read_failed(self):
        """An input that fails after any of its bytes: just the lines that have ended are answered."""
        words, at = self.words(self.any_workers()), self.some.randrange(self.ended + 1)
        given, wanted = self.first(at)
        if at < len(self.parts):
            given += self.parts[at].split(b"\n")[0][: self.some.choice([0, 5, 10**9])]
        ran = self.unwarned(runs.cut_off(words, given, len(wanted), self.bench.seconds))
        self.judge("inputs that fail", "", words, given, wanted, ran, ran == Ran(wanted, INPUT_RESET, 1))

    # ---- outputs

    def broken(self):
        """An output whose other end goes away after any of its bytes, before the rest of the input is given."""
        some, words = self.some, self.words(self.any_workers())
        before, answers = self.first(some.randrange(self.ended + 1))
        most = some.choice([some.randrange(len(answers) + 1), len(answers)])
        wanted = self.wanted[:most]
        ran = self.unwarned(runs.broken(words, before, most, self.given[len(before) :], self.bench.seconds))
        fits = ran == Ran(wanted, READER_GONE, 1) or (len(answers) == len(self.wanted) and ran == Ran(wanted, b"", 0))
        self.judge("broken pipes", f"after {most} bytes, and {len(before)} of the input", words, self.given, wanted, ran, fits)

    def full_sink(self):
        """An output that takes nothing."""
        if self.some.random() < 0.1:
            words = self.words(self.any_workers())
            with open("/dev/full", "wb") as out:
                ran = self.unwarned(runs.run(words, self.given, self.bench.seconds, out=out))
            fits = ran == (Ran(b"", DISK_FULL, 1) if self.wanted else Ran(b"", b"", 0))
            self.judge("full disks", "", words, self.given, b"", ran, fits)

    # ---- memory

    def little(self):
        """Little memory from the beginning."""
        if self.bench.least:
            workers = self.any_workers()
            words, env, most, detail = self.words(workers), *self.limit(12 if workers == 1 else 15)
            ran = self.unwarned(runs.run(words, self.given, self.bench.seconds, most, env))
            self.judge_memory("inputs with little memory", detail, words, workers, ran, 0)

    def limit(self, most):
        """How memory is asked for, a limit on it in bytes, at most 2 to this power of pages more than the program needs at least, and a text that tells it."""
        pages, env = int(2 ** self.some.uniform(0, most)), self.some.choice([runs.BY_PAGES, runs.BY_ALLOCATIONS])
        return env, (self.bench.least + pages) * runs.PAGE, f"{self.bench.least} + {pages} pages {self.asked(env)}"

    def asked(self, env):
        return "for all" if env is runs.BY_PAGES else "for each allocation"

    def squeezed(self):
        """No more memory, or a few pages, from some answer on."""
        answered = [at + 1 for at in range(self.ended) if self.answers[at]]
        if self.bench.least and answered:
            some, workers = self.some, self.any_workers()
            words, pages, env = self.words(workers), some.choice([0, 0, 1, 2, 3, 5, 10, 20, 50]), some.choice([runs.BY_PAGES] + [runs.BY_ALLOCATIONS] * 3)
            before, answers = self.first(some.choice(answered))
            ran = runs.squeezed(words, before, len(answers), pages, self.given[len(before) :], self.bench.seconds, env)
            detail = f"{pages} pages more {self.asked(env)} after {len(before)} bytes"
            self.judge_memory("inputs without more memory", detail, words, workers, ran, len(answers))

    def judge_memory(self, what, detail, words, workers, ran, least):
        """The whole answer; or memory (or a thread) is refused after a beginning of it that has so many bytes at least."""
        ran = self.unwarned(ran)
        refused = ran.status == 1 and (ran.error == b"RUN MEMORY\n" or (ran.error == b"RUN CREW\n" and workers > 1))
        fits = ran == Ran(self.wanted, b"", 0) or (refused and len(ran.out) >= least and self.wanted.startswith(ran.out))
        self.judge(what, detail, words, self.given, self.wanted, ran, fits)
        self.count_refused(ran, refused)

    def without_growths(self):
        """Some growths of memory refused, by their numbers: the whole answer, or memory (or a thread) is refused behind whole answers."""
        some, refuser = self.some, self.bench.refuser
        for workers in self.bench.workers:
            words = self.words(workers)
            begun, growths = (refuser.run(words, given).growths for given in (b"", self.given))
            for _ in range(self.bench.refusals):
                # (Most growths are the beginning's, which reads the plant: those behind them tell more.)
                places = range(1 if begun >= growths or some.random() < 0.2 else begun + 1, growths + 1)
                at = sorted(some.sample(places, min(len(places), some.choice([1, 1, 2, 5]))))
                self.judge_growths(words, workers, at, refuser.run(words, self.given, at=at))

    def judge_growths(self, words, workers, at, came):
        """Counts a run in which these growths were refused, or some of them; none is where by several threads it had fewer."""
        if came.refused:
            ran = self.unwarned(Ran(came.out, came.error, runs.HUNG if came.status is None else came.status))
            refused = ran.status == 1 and (ran.error == b"RUN MEMORY\n" or (ran.error == b"RUN CREW\n" and workers > 1))
            fits = ran == Ran(self.wanted, b"", 0) or (refused and self.wanted.startswith(ran.out) and self.has_whole_answers(ran.out))
            self.judge("inputs with growths refused", f"growths {','.join(map(str, at))}", words, self.given, self.wanted, ran, fits)
            self.count("answers whole all the same", ran.status == 0)
            self.count_refused(ran, refused)

    def has_whole_answers(self, out):
        """Whether a beginning of the answers ends where one does. (A part may have several lines, each answered by itself; a long answer is written in parts.)"""
        ends = list(itertools.accumulate(map(len, self.answers)))
        at = bisect.bisect_left(ends, len(out))
        has_lines = b"\n" in self.parts[at][:-1] and out.endswith(b"\n")
        return out == b"" or ends[at] == len(out) or has_lines or len(self.answers[at]) > MOST_AT_ONCE

    def count_refused(self, ran, refused):
        self.count("memory refused", refused)
        self.count("memory refused before anything was written", refused and not ran.out)
        self.count("memory refused for threads", refused and ran.error == b"RUN CREW\n")

    # ---- files

    def spoiled(self):
        """A folder in which a file is cut or changed, or isn't there, or can't be read."""
        some, bench, workers = self.some, self.bench, self.any_workers()
        folder = folders.Folder(some, self.texts)
        folder.spoil(bench.ways)
        self.lay(folder)
        words = self.words(workers, some.choice(["check", "run"]))
        given, wanted = self.due(folder, words)
        user = NOBODY if "locked" in folder.how.values() and os.geteuid() == 0 else None
        ran = self.unexplained(runs.run(words, given, bench.seconds, user=user))
        fits = ran == wanted if wanted else is_refusal(ran) or (ran.status, ran.error) == (0, b"")
        self.judge("folders with a file that is cut or changed" if not folder.how else "folders with a file that can't be read", folder.said, words, given, wanted.out if wanted else b"", ran, fits)
        self.count("folders that are accepted all the same", ran.status == 0)
        self.count("folders of which the second reading can't tell", wanted is None)
        if wanted and user is None and bench.least and some.random() < 0.2:
            self.spoiled_with_little(folder, words, given, wanted)

    def due(self, folder, words):
        """An input for a folder, and what has to come of it; None where the second reading can't tell."""
        given = b"scan 0\nlist\n"
        try:
            plant = folder.judged(words[2])
        except files.Refused as refused:
            return given, Ran(f"{refused.args[0]}\n".encode(), b"", 3)
        except files.Unknown:
            return given, None
        if words[1] == "check":
            return given, Ran(f"ACCEPTED PROGRAMS {len(plant.programs)} ALARMS {len(plant.alarms)}\n".encode(), b"", 0)
        made = Lines(self.some, plant, Server(plant, self.bench.reads), 0)
        made.make(max(1, self.bench.commands // 4))
        self.count("commands", len(made.parts))
        return b"".join(made.parts), Ran(b"".join(made.answers), b"", 0)

    def spoiled_with_little(self, folder, words, given, wanted):
        """The same with little memory: the same, or memory (or a thread) is refused, before a byte of a line on the plant was written."""
        env, most, detail = self.limit(11)
        ran = self.unexplained(runs.run(words, given, self.bench.seconds, most, env))
        workers = words[1] == "run" and "--workers" in words
        refused = ran.status == 1 and (ran.error == b"RUN MEMORY\n" or (ran.error == b"RUN CREW\n" and workers))
        begun = wanted.out.startswith(ran.out) if wanted.status == 0 and words[1] == "run" else not ran.out
        self.judge("folders with little memory", f"{folder.said}; {detail}", words, given, wanted.out, ran, ran == wanted or (refused and begun))
        self.count_refused(ran, refused)


FULL = b'warning: %d of 1000000 events; after these each scan and each order is REFUSED E6 (docs/OPERATION.md, "A million events, then a new record")\n'


def unwarned(ran):
    """A run without the warnings that the history is nearly full, which have to be there just where it is."""
    events = sum(line.startswith((b"DONE ", b"REPLY ", b"RELOADED ")) for line in ran.out.split(b"\n")) if len(ran.out) > 900_000 else 0
    wanted = b"".join(FULL % least for least in (900_000, 990_000) if least <= events)
    return Ran(ran.out, ran.error[len(wanted):], ran.status) if ran.error.startswith(wanted) else ran


def unexplained_reloads(ran):
    """A run without what a person is told of reloads on standard error: what is left are warnings of the history, and how the run ended."""
    lines = ran.error.splitlines(keepends=True)
    end = next((at for at, line in enumerate(lines) if line.startswith(b"RUN ")), len(lines))
    return Ran(ran.out, b"".join([line for line in lines[:end] if line.startswith(b"warning: ") and b" events; " in line] + lines[end:]), ran.status)


def unexplained(ran):
    """A refusal without what a person is told of it on standard error, which begins with the refusal's own line; and a check of an accepted plant without its warnings."""
    explained = ran.status == 3 and ran.out.startswith((b"CONFIG C", b"FILE ")) and ran.error.startswith(ran.out)
    warned = ran.status == 0 and ran.out.startswith(b"ACCEPTED PROGRAMS ") and b": warning: " in ran.error.split(b"\n")[0]
    return Ran(ran.out, b"", ran.status) if explained or warned else unwarned(ran)


def is_refusal(ran):
    """Whether a plant was refused, in one line."""
    return ran.status == 3 and ran.error == b"" and ran.out.count(b"\n") == 1 and ran.out.endswith(b"\n") and ran.out.startswith((b"CONFIG C", b"FILE "))


class Difference:
    """A run that isn't as it has to be. Its plant, its input and its output are kept."""

    def __init__(self, trial, how, words, given, wanted, ran):
        self.trial, self.how, self.words, self.given, self.wanted, self.ran = trial, how, words, given, wanted, ran
        self.folder = os.path.join(trial.bench.keep, f"seed-{trial.seed}-{trial.differences}")

    def tell(self):
        trial, bench, ran = self.trial, self.trial.bench, self.ran
        shutil.rmtree(self.folder, ignore_errors=True)
        os.makedirs(self.folder)
        with contextlib.suppress(shutil.Error, OSError):
            shutil.copytree(trial.place, os.path.join(self.folder, "plant"), symlinks=True)
        for name, text in [("input", self.given), ("wanted", self.wanted), ("got", ran.out), ("error", ran.error)]:
            with open(os.path.join(self.folder, name), "wb") as file:
                file.write(text)
        words = [it.replace(trial.place, os.path.join(self.folder, "plant")) for it in self.words]
        options = ["--seed", f"{trial.seed}", "--plants", "1", "--commands", f"{bench.commands}", "--workers", ",".join(map(str, bench.workers))] + ["--reload"] * (bench.reads is not None)
        options += ["--refuse", f"{bench.refusals}"] * (bench.refusals > 0)
        lines = [f"seed {trial.seed}, {self.how}: {self.first_line()}; status {ran.status}, standard error {ran.error[:300]!r}"]
        lines += [f"  its plant and input: {self.folder}", f"  by hand: {shlex.join(words)} < {shlex.quote(self.folder)}/input"]
        lines += [f"  again: {shlex.join(['python3', sys.argv[0], bench.program, *options])}"]
        print("\n".join(lines), flush=True)

    def first_line(self):
        wanted, got = self.wanted.split(b"\n"), self.ran.out.split(b"\n")
        for at in range(max(len(wanted), len(got))):
            one, other = (lines[at] if at < len(lines) else None for lines in (wanted, got))
            if one != other:
                shown = ["nothing" if it is None or (it == b"" and at == len(lines) - 1) else repr(it[:300])[1:] for it, lines in ((one, wanted), (other, got))]
                return f"line {at + 1}: wanted {shown[0]}, got {shown[1]}"
        return "the output is as wanted"


class Bench:
    """What all plants of a run have in common."""

    def __init__(self, options, room):
        self.program, self.commands, self.workers = os.path.abspath(options.program), options.commands, options.workers
        self.keep, self.seconds, self.room = os.path.abspath(options.keep), 120, room
        self.reads = reloads.read if options.reload else None
        self.refusals, self.refuser = options.refuse, Refuser() if options.refuse else None
        self.least = None if self.refuser else runs.least_memory(self.program)
        os.chmod(room, 0o755)
        # Root reads every file, so that for a file without rights the program is run by nobody, where it can be.
        self.ways = WAYS if os.geteuid() or self.runs_as_nobody() else WAYS[:-1]

    def runs_as_nobody(self):
        try:
            return runs.run([self.program, "--help"], b"", self.seconds, user=NOBODY).status == 0
        except (OSError, subprocess.SubprocessError):
            return False


def work(options, share, told):
    """The plants of a share of all seeds. What each of them counted is told."""
    end = time.monotonic() + options.minutes * 60
    sys.setrecursionlimit(10_000)
    with tempfile.TemporaryDirectory() as room:
        bench = Bench(options, room)
        if bench.least is None and bench.refuser is None:
            told({"programs that don't start with a limit on memory": 1})
        try:
            for seed in range(options.seed + share, options.seed + options.plants, options.jobs):
                if time.monotonic() >= end:
                    break
                told(Trial(bench, seed).go())
        finally:
            if bench.refuser:
                bench.refuser.close()


def share_out(options, told):
    """The same by several processes."""
    queue = multiprocessing.SimpleQueue()
    shares = [multiprocessing.Process(target=put_all, args=(options, share, queue), daemon=True) for share in range(options.jobs)]
    for it in shares:
        it.start()
    left = len(shares)
    while left:
        counts = queue.get()
        left -= counts is None
        told(counts or {})
    for it in shares:
        it.join()


def put_all(options, share, queue):
    try:
        work(options, share, queue.put)
    finally:
        queue.put(None)


def table(counts, seconds):
    for name in sorted(counts, key=lambda it: (ORDER + [it]).index(it)):
        print(f"{counts[name]:>12,}  {name}")
    print(f"{seconds:>12,.0f}  seconds: {counts['commands'] / max(seconds, 1):,.0f} commands a second")


def read_options():
    reads = argparse.ArgumentParser(description="Simulates bad days of the built server, and compares it with the second reading of its rules.")
    reads.add_argument("program", help="the built server")
    reads.add_argument("--plants", type=int, default=100, help="how many plants (100)")
    reads.add_argument("--commands", type=int, default=50, help="about how many commands for each (50)")
    reads.add_argument("--seed", type=int, default=1, help="the seed of the first plant (1); each has the next one")
    reads.add_argument("--workers", type=lambda text: [int(it) for it in text.split(",")], default=[1], help="numbers of workers, with commas between them (1)")
    reads.add_argument("--minutes", type=float, default=1e6, help="no plant is begun after so many minutes")
    reads.add_argument("--keep", default=os.path.join(tempfile.gettempdir(), "simulate-kept"), help="where plants and inputs of differences are kept")
    reads.add_argument("--jobs", type=int, default=1, help="how many plants at once (1)")
    reads.add_argument("--reload", action="store_true", help="inputs have reloads too: the program has to have this command")
    reads.add_argument("--refuse", type=int, default=0, metavar="K", help="in place of all else, K runs of each plant by each number of workers in which some growths of memory are refused; needs gcc")
    return reads.parse_args()


def interrupt(number, frame):
    raise KeyboardInterrupt


def main():
    options, counts, begun = read_options(), collections.Counter(), time.monotonic()
    # So that the table comes also where the run is ended from outside.
    signal.signal(signal.SIGTERM, interrupt)
    try:
        if options.jobs == 1:
            work(options, 0, counts.update)
        else:
            share_out(options, counts.update)
    except KeyboardInterrupt:
        pass
    table(counts, time.monotonic() - begun)
    return 1 if counts["differences"] or not counts["plants"] else 0


if __name__ == "__main__":
    sys.exit(main())
