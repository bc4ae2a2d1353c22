"""Lines on standard error, of what happens to the server itself."""

from __future__ import annotations

import contextlib
import logging
import sys


def tell(words: str) -> None:
    """A line on standard error, of what happens to the server itself. Where nobody can be told there, it is left out."""
    with contextlib.suppress(OSError, ValueError, AttributeError):
        print(f"SERVER {' '.join(words.split())}", file=sys.stderr, flush=True)


class _Lines(logging.Handler):
    """What libraries have to say, a line each, without tracebacks."""

    def emit(self, record: logging.LogRecord) -> None:
        fault = record.exc_info[1] if record.exc_info else None
        tail = f" ({type(fault).__name__}: {fault})" if fault is not None else ""
        tell(f"{record.name}: {record.getMessage()}{tail}")


def tell_of_libraries() -> None:
    """From now on what libraries say is told as `tell` does, where it is a warning or worse."""
    logging.basicConfig(level=logging.WARNING, handlers=[_Lines()], force=True)
