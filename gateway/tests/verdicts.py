"""What the checker says of each fault that was tried: it was right, or wrong, or there is no verdict, since something didn't come in time."""

from __future__ import annotations

import http.client
import subprocess
from collections.abc import Callable, Sequence
from dataclasses import dataclass
from enum import Enum

from whole_help import NoVerdict

NO_ANSWER = (OSError, ValueError, http.client.HTTPException, subprocess.SubprocessError)


class Said(Enum):
    """What a verdict says."""

    RIGHT = "right"
    WRONG = "wrong"
    NONE = "no verdict"


@dataclass(frozen=True)
class Verdict:
    """With what is wrong, or what didn't come."""

    said: Said
    words: str = ""

    def __str__(self) -> str:
        return f"{self.said.value}: {self.words}" if self.words else self.said.value


def verdict(work: Callable[[], Sequence[str]]) -> Verdict:
    """The verdict on what is done and looked at by `work`, which gives what is wrong, or raises AssertionError where it sees that;
    NoVerdict, or a fault of a process or a connection, where something didn't come."""
    try:
        wrong = work()
    except NoVerdict as late:
        return Verdict(Said.NONE, str(late))
    except AssertionError as bad:
        return Verdict(Said.WRONG, str(bad) or "an assertion doesn't hold")
    except NO_ANSWER as fault:
        return Verdict(Said.NONE, f"{type(fault).__name__}: {fault}")
    return Verdict(Said.WRONG, "; ".join(wrong)) if wrong else Verdict(Said.RIGHT)


class Tally:
    """The verdicts on all faults that were tried, counted apart by what was said."""

    def __init__(self) -> None:
        self._verdicts: list[tuple[str, Verdict]] = []

    def add(self, fault: str, given: Verdict) -> None:
        self._verdicts.append((fault, given))

    def count(self, said: Said, fault: str | None = None) -> int:
        """On how many this was said, of all or of those with a name."""
        return sum(given.said is said for name, given in self._verdicts if fault in (None, name))

    def lines(self) -> list[str]:
        """A line for each fault, and one for all of them."""
        names = sorted({name for name, _ in self._verdicts})
        return [f"{name or 'all'}: {self._counted(name)}" for name in [*names, None]]

    def _counted(self, fault: str | None) -> str:
        return ", ".join(f"{self.count(said, fault)} {said.value}" for said in Said)
