"""What the log in etcd looks like: its keys, its end, its entries, and where a gateway has its copies of them."""

from __future__ import annotations

from dataclasses import dataclass
from pathlib import Path

from .disk import BY
from .etcd import Body, Kept
from .leader import Leader
from .record import Entry
from .texts import walk


@dataclass(frozen=True)
class Marked:
    """An entry of the log, with the mark that its writer gave it, and the number of the parts of its texts. `seen` is the moment up to
    which the alarm of an order that is handed on was read."""

    entry: Entry
    mark: str
    parts: int = 0
    seen: int | None = None


@dataclass(frozen=True)
class Last:
    """The number of the record, the log's own mark, how many entries it has, and the revision at which this was written."""

    record: int
    log: str
    entries: int
    revision: int


@dataclass(frozen=True)
class View:
    """The log at one moment. `fresh` are entries after those that are known, `requests` orders that wait for the leader."""

    last: Last
    leader: Leader | None
    requests: tuple[Marked, ...]
    fresh: tuple[Marked, ...]


class Keys:
    """The keys of a log."""

    def __init__(self, name: str) -> None:
        self.prefix = f"/alarmd/{name}/"
        self.last = f"{self.prefix}last"
        self.leader = f"{self.prefix}leader"
        self.files = f"{self.prefix}files"
        self.program = f"{self.prefix}program"
        self.requests = f"{self.prefix}request/"
        self.olds = f"{self.prefix}old/"
        self.new = f"{self.prefix}new"

    def record(self, record: int) -> str:
        """What the keys of a record's entries begin with."""
        return f"{self.prefix}entry/{record:06}/"

    def entry(self, record: int, number: int) -> str:
        """The key of an entry, counted from 1."""
        return f"{self.record(record)}{number:09}"

    def texts(self, record: int, mark: str = "") -> str:
        """What the keys of a record's texts begin with, those of the reload of this mark, or of all."""
        return f"{self.prefix}texts/{record:06}/" + (f"{mark}/" if mark else "")

    def asked(self, mark: str) -> str:
        """What the keys of the texts of a request begin with."""
        return f"{self.prefix}asked/{mark}/"

    def old(self, record: int) -> str:
        """The key of what is left of a record that doesn't go on."""
        return f"{self.olds}{record:06}"


def value_of(entry: Entry, mark: str, parts: int = 0, seen: int | None = None) -> Body:
    """An entry as its key has it; of a reload with the number of the parts of its texts."""
    value: Body = {"line": entry.line, "user": entry.user, "reason": entry.reason, "mark": mark}
    value |= {"parts": parts} if parts else {}
    return value if seen is None else {**value, "seen": seen}


def marked(kept: Kept) -> Marked:
    """An entry by its key."""
    value = kept.value
    entry = Entry(value["line"], value["user"], value["reason"])
    return Marked(entry, value["mark"], value.get("parts", 0), value.get("seen"))


def last_by(kept: Kept) -> Last:
    """The end of the log by its key."""
    return Last(kept.value["record"], kept.value["log"], kept.value["entries"], kept.modified)


def copy_path(record: Path, number: int) -> Path:
    """Where the copy of a record of the log is kept."""
    return record.with_name(f"{record.name}.{number}")


def newest_copy(record: Path) -> Path:
    """The copy of the newest record that this gateway has; the first where it has none."""
    return copy_path(record, newest_number(record))


def newest_number(record: Path) -> int:
    """The number of that record."""
    beside = (path for path in record.parent.glob("*") if path.stem == record.name)
    tails = (path.suffix[1:] for path in beside)
    numbers = [int(tail) for tail in tails if tail.isascii() and tail.isdigit()]
    return max(numbers, default=1)


def last_of(path: Path) -> tuple[int, str]:
    """How many commands and remarks a record has that were appended, and the last of them, empty where there is none."""
    count, last = 0, b""
    with open(path, "rb", buffering=1 << 20) as file:
        file.readline()
        for head, _ in walk(file):
            if head and not head.startswith(BY.encode()):
                count, last = count + 1, head
    return count, last.decode("utf-8", "surrogateescape")
