"""Runs of the built program, each with a limit of time: how its input comes, how much memory it has, and when its output's other end goes."""

import os
import resource
import select
import socket
import subprocess
import time
from dataclasses import dataclass

PAGE = os.sysconf("SC_PAGE_SIZE")
# How the C library asks the system for memory: page by page as it needs more, or with pages of its own for each allocation, so that a limit is met by each.
BY_PAGES = {**os.environ, "MALLOC_TOP_PAD_": "0", "MALLOC_ARENA_MAX": "1"}
BY_ALLOCATIONS = {**os.environ, "MALLOC_MMAP_THRESHOLD_": "0", "MALLOC_ARENA_MAX": "1"}
HUNG = "no end"


@dataclass
class Ran:
    """What came of a run: its status is HUNG where its time was over, and below 0 where a signal ended it."""

    out: bytes
    error: bytes
    status: object


def limited(most):
    """What a child does before it becomes the program: its address space is limited to so many bytes."""
    return lambda: resource.setrlimit(resource.RLIMIT_AS, (most, most))


def run(words, given, seconds, most=None, env=None, out=subprocess.PIPE, user=None):
    """Gives a program its whole input and reads its whole output. `most` limits its memory; `user` is who runs it."""
    before = None if most is None else limited(most)
    with subprocess.Popen(words, stdin=subprocess.PIPE, stdout=out, stderr=subprocess.PIPE, env=env, user=user, preexec_fn=before) as child:
        try:
            wrote, error = child.communicate(given, timeout=seconds)
            return Ran(wrote or b"", error, child.returncode)
        except subprocess.TimeoutExpired:
            child.kill()
            wrote, error = child.communicate()
            return Ran(wrote or b"", error, HUNG)


class Session:
    """A program that runs, whose input is given bit by bit while its output is read. Its input is a pipe, or a pair of sockets."""

    def __init__(self, words, seconds, pair=None, env=None):
        self.end, pipe = time.monotonic() + seconds, subprocess.PIPE
        theirs = pipe if pair is None else pair[1]
        self.child = subprocess.Popen(words, stdin=theirs, stdout=pipe, stderr=pipe, bufsize=0, env=env)
        self.feed = self.child.stdin if pair is None else pair[0]
        self.wrote, self.rest = {self.child.stdout: bytearray(), self.child.stderr: bytearray()}, b""
        self.opened = [self.child.stdout, self.child.stderr]
        for it in [self.feed, *self.opened]:
            os.set_blocking(it.fileno(), False)

    @property
    def out(self):
        return self.wrote[self.child.stdout]

    def step(self, most):
        """Waits until something can be read or written, and does it. Of the output at most so many bytes are read. False where the time is over."""
        waiting, left = select.poll(), self.end - time.monotonic()
        if left <= 0:
            return False
        for it in self.opened:
            if it is self.child.stderr or len(self.out) < most:
                waiting.register(it.fileno(), select.POLLIN)
        if self.rest:
            waiting.register(self.feed.fileno(), select.POLLOUT)
        ready = [at for at, _ in waiting.poll(left * 1000)]
        for it in [it for it in self.opened if it.fileno() in ready]:
            self.read(it, 65_536 if it is self.child.stderr else min(65_536, most - len(self.out)))
        if self.rest and self.feed.fileno() in ready:
            self.write()
        return True

    def read(self, it, most):
        some = os.read(it.fileno(), most)
        self.wrote[it] += some
        if not some:
            self.opened.remove(it)

    def write(self):
        """Writes what can be written. Where nobody reads any more, nothing is left to be written."""
        try:
            self.rest = self.rest[os.write(self.feed.fileno(), self.rest[:65_536]) :]
        except BlockingIOError:
            pass
        except (BrokenPipeError, ConnectionResetError):
            self.rest = b""

    def give(self, given, until, most=1 << 62):
        """Writes an input and reads, until all of it is written and so many bytes were read; where these may be no more than so many, until they are there.
        False where the time was over, or the program has ended before."""
        self.rest = memoryview(given)
        while (self.rest and len(self.out) < most) or len(self.out) < until:
            if self.child.stdout not in self.opened or not self.step(most):
                return False
        return True

    def turn_away(self, given):
        """Closes the output's other end, and then writes an input."""
        self.child.stdout.close()
        self.opened.remove(self.child.stdout)
        self.rest = memoryview(given)
        while self.rest and self.opened and self.step(0):
            pass

    def close(self):
        """Ends the input, reads what is left, and tells how the program ended."""
        self.feed.close()
        self.rest = b""
        while self.opened and self.step(1 << 62):
            pass
        status = HUNG
        try:
            if not self.opened:
                status = self.child.wait(max(1.0, self.end - time.monotonic()))
        except subprocess.TimeoutExpired:
            pass
        if status is HUNG:
            self.child.kill()
            self.child.wait()
        for it in (self.child.stdout, self.child.stderr):
            it.close()
        return Ran(bytes(self.out), bytes(self.wrote[self.child.stderr]), status)


def paced(words, pieces, seconds):
    """Gives an input piece by piece, and after each waits for the answers that are due by then. A piece is its bytes, and how many bytes all answers have then."""
    session = Session(words, seconds)
    for given, until in pieces:
        if not session.give(given, until):
            break
    return session.close()


def broken(words, before, most, after, seconds):
    """Reads so many bytes of the answers to the first part of an input, closes the output's other end, and then gives the rest."""
    session = Session(words, seconds)
    session.give(before, most, most)
    session.turn_away(bytes(session.rest) + after)
    return session.close()


def cut_off(words, given, until, seconds):
    """Gives an input whose other end is gone after these bytes: it has left a byte unread, so the next read fails."""
    ours, theirs = socket.socketpair()
    with theirs:
        theirs.send(b"x")
        session = Session(words, seconds, (ours, theirs))
    session.give(given, until)
    return session.close()


def squeezed(words, before, until, more, after, seconds, env):
    """Gives the first part of an input, waits for its answers, and leaves so many more pages of memory for the rest."""
    session = Session(words, seconds, env=env)
    session.give(before, until)
    try:
        with open(f"/proc/{session.child.pid}/statm") as file:
            most = (int(file.read().split()[0]) + more) * PAGE
        resource.prlimit(session.child.pid, resource.RLIMIT_AS, (most, most))
    except (OSError, ValueError):
        pass
    session.give(after, 0)
    return session.close()


def least_memory(program):
    """The least limit on memory, in pages, with which the program comes to its own code: below it the system can't even load it. None where 256 MB don't do
    (a program that is built to look for errors of memory takes more than there is)."""

    def fits(pages):
        ran = run([program, "--help"], b"", 120, pages * PAGE, BY_PAGES)
        return ran.status == 0 or (ran.status == 1 and ran.error == b"RUN MEMORY\n")

    low, high = 0, (1 << 28) // PAGE
    if not fits(high):
        return None
    while high - low > 1:
        middle = (low + high) // 2
        low, high = (low, middle) if fits(middle) else (middle, high)
    return high
