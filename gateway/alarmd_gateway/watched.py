"""Files that are read again where they have changed."""

from __future__ import annotations

from pathlib import Path

Mark = tuple[int, int, int] | None  # of a file: when it was written, its size, which one it is


class Watched:
    """Some files that belong together, which were read a moment ago."""

    def __init__(self, *files: Path) -> None:
        self._files = files
        self._taken = self._seen = self._marks()

    def changed(self) -> bool:
        """Whether they have changed, and since the last look no more: whoever writes them isn't at it still. Each change is told once."""
        before, self._seen = self._seen, self._marks()
        if self._seen == self._taken or self._seen != before:
            return False
        self._taken = self._seen
        return True

    def _marks(self) -> list[Mark]:
        return [mark(file) for file in self._files]


def mark(file: Path) -> Mark:
    """What tells a file from the one that it was; None where there is none."""
    try:
        status = file.stat()
    except OSError:
        return None
    return status.st_mtime_ns, status.st_size, status.st_ino
