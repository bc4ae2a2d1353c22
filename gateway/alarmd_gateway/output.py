"""Lines on standard output by a thread of its own: a reader that doesn't read holds up nothing but these lines."""

from __future__ import annotations

import os
import select
import threading
import time
from collections import defaultdict, deque
from collections.abc import Callable
from typing import Final

ROOM: Final = 4_194_304
"""Characters that may wait for the reader. What comes while there is no room is left out, and the reader is told how much."""

ASLEEP_SECONDS: Final = 5.0
"""A reader that has read nothing for so long isn't waited for."""

PIECE: Final = 65_536
"""Bytes that are written at once: a reader reads as long as he takes these."""


class Way:
    """What those share who write to one descriptor. `turn` is held while lines are written, since a pipe takes a part of what it is given;
    `moved` is when the reader has taken something last."""

    def __init__(self) -> None:
        self.turn = threading.Lock()
        self.moved = time.monotonic()


_WAYS: Final[defaultdict[int, Way]] = defaultdict(Way)


class Output:
    """Writes lines to a descriptor. `fault` is what keeps it from writing, once something does; `broken` is called
    then, by the thread."""

    def __init__(
        self,
        descriptor: int = 1,
        room: int = ROOM,
        broken: Callable[[], object] = lambda: None,
    ) -> None:
        self._descriptor = descriptor
        self._way = _WAYS[descriptor]
        self._broken = broken
        self._room = room
        self._lines: deque[str] = deque()
        self._size = 0
        self._left_out = 0
        self._change = threading.Condition()
        self._ended = False
        self._moved = time.monotonic()
        self.fault: OSError | None = None
        self._thread = threading.Thread(target=self._write, name="output", daemon=True)
        self._thread.start()

    def put(self, line: str) -> None:
        """A line, without its end. Never waits."""
        with self._change:
            if self._size + len(line) > self._room:
                self._left_out += 1
                return
            self._tell_left_out()
            self._add(line)
            self._change.notify_all()

    @property
    def crowded(self) -> bool:
        """Whether half of the room is taken while the reader reads: who has many lines waits, so that none is left out."""
        moved = max(self._moved, self._way.moved)
        reads = time.monotonic() < moved + ASLEEP_SECONDS and self.fault is None
        return reads and self._size > self._room // 2

    def _tell_left_out(self) -> None:
        if self._left_out:
            self._add(f"# {self._left_out} lines were left out: nobody read them")
            self._left_out = 0

    def _add(self, line: str) -> None:
        self._lines.append(line)
        self._size += len(line)

    def _write(self) -> None:
        while True:
            with self._change:
                while not self._lines and not self._ended:
                    self._change.wait()
                if not self._lines:
                    return
                text = "".join(f"{line}\n" for line in self._lines)
                self._lines.clear()
            try:
                self._all(text.encode("utf-8", "surrogateescape"))
            except OSError as fault:
                self.fault = fault
                self._broken()
                return
            with self._change:
                self._size = sum(map(len, self._lines))

    def _all(self, data: bytes) -> None:
        self._moved = time.monotonic()
        left = memoryview(data)
        with self._way.turn:
            while left:
                try:
                    left = left[os.write(self._descriptor, left[:PIECE]) :]
                    self._way.moved = time.monotonic()
                except BlockingIOError:  # whoever shares it has it so that it doesn't wait
                    select.select([], [self._descriptor], [])

    def close(self, seconds: float) -> None:
        """Waits until all is written, at most so long."""
        with self._change:
            self._tell_left_out()
            self._ended = True
            self._change.notify_all()
        self._thread.join(seconds)
