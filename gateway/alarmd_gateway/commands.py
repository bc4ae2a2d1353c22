"""Commands as lines: values and names of inputs judged against the plant, scans spelled and read, orders read."""

from __future__ import annotations

import re
from collections.abc import Mapping
from dataclasses import dataclass, field
from typing import Final, TypeAlias

from . import texts
from .model import BadSample, Kind, Order, Plant, Texts, Value, Variable, Verb

VERBS: Final = {verb.value: verb for verb in Verb}
END_MARK: Final = "scan 4000000000001"
"""A command that is always answered `REFUSED E2` and is no event: it marks the end of the answer before it."""

END_ANSWER: Final = "REFUSED E2"
NO_COMMAND: Final = "REFUSED L1"
"""The answer to a line that is no command. To a reload it means that the server has taken what stands behind its line as lines."""

CUT: Final = "REFUSED L2"
"""The answer to a reload whose texts end too early: the server reads no further."""

NO_RELOAD: Final = "reload 0 0"
"""A reload of a plant without a byte, which is refused whatever is served: `CONFIG C2`, or NO_COMMAND where there is no such command."""

_NUMBER: Final = re.compile(r"-?[0-9]{1,19}", re.ASCII)
_WORD: Final = re.compile(r"[!-~]{1,1000}")
_BLANKS: Final = re.compile(r"[ \t]+")
_RANGES: Final = {
    Kind.BOOL: (0, 1),
    Kind.DINT: (-(2**31), 2**31 - 1),
    Kind.TIME: (-(2**63), 2**63 - 1),
}
_WANTED: Final = {
    Kind.BOOL: "TRUE, FALSE, 1 or 0",
    Kind.DINT: "a whole number from -2147483648 to 2147483647",
    Kind.TIME: "a whole number of milliseconds",
}


@dataclass(frozen=True, slots=True)
class Scan:
    """A scan at a moment, with values of inputs by their names as declared."""

    moment: int
    given: Mapping[str, Value]

    def line(self) -> str:
        """The scan as the server's protocol spells it."""
        pairs = "".join(f" {name}={spelled(value)}" for name, value in self.given.items())
        return f"scan {self.moment}{pairs}"


@dataclass(frozen=True, slots=True)
class Reload:
    """The texts of a plant that is to be served from now on, and the plant itself where somebody has read it already."""

    texts: Texts
    plant: Plant | None = field(default=None, repr=False, compare=False)

    def line(self) -> str:
        """The reload's line, behind whose end the texts stand."""
        return texts.line(self.texts)

    def body(self) -> bytes:
        """What stands there."""
        return texts.body(self.texts)


Command: TypeAlias = Scan | Order | Reload


def with_body(line: str, body: bytes) -> bytes:
    """A line and what stands right behind its end, as a server is asked it."""
    return f"{line}\n".encode("utf-8", "surrogateescape") + body


def wire(asked: str | bytes) -> tuple[bytes, bool]:
    """What is written to a server for a command, and whether its answer shows its own end; else a mark does. Behind a reload, which
    comes as bytes, the server is asked for its list too."""
    if isinstance(asked, bytes):
        return asked + f"\nlist\n{END_MARK}\n".encode(), False
    alone = asked.startswith("scan ")
    text = f"{asked}\n" if alone else f"{asked}\n{END_MARK}\n"
    return text.encode("utf-8", "surrogateescape"), alone


def spelled(value: Value) -> str:
    """A value as the server spells it."""
    if isinstance(value, bool):
        return "TRUE" if value else "FALSE"
    return str(value)


def fit(plant: Plant, name: str, value: Value | str) -> tuple[Variable, Value]:
    """The input of a name in any letter case, and the value as its kind has it. Raises BadSample, whose text says why not."""
    variable = plant.inputs.get(name.lower()) if name.isascii() else None
    if variable is None:
        raise BadSample(f"{name!r} is no input of the plant")
    found = _value(variable.kind, value.strip() if isinstance(value, str) else value)
    if found is None:
        wanted = _WANTED[variable.kind]
        raise BadSample(f"{variable.name} takes {wanted}, and {str(value)[:40]!r} isn't")
    return variable, found


def fitted(plant: Plant, name: str, value: Value) -> tuple[str, Value] | None:
    """The same by the input's name; None where it doesn't fit."""
    try:
        variable, found = fit(plant, name, value)
    except BadSample:
        return None
    return variable.name, found


def _value(kind: Kind, value: Value | str) -> Value | None:
    if isinstance(value, str):
        word = value.upper()
        if word in ("TRUE", "FALSE"):
            value = word == "TRUE"
        elif _NUMBER.fullmatch(value):
            value = int(value)
        else:
            return None
    if isinstance(value, bool):
        return value if kind is Kind.BOOL else None
    if not isinstance(value, int):
        return None  # what has no such type can come from JSON
    least, most = _RANGES[kind]
    if not least <= value <= most:
        return None
    return bool(value) if kind is Kind.BOOL else value


def read(plant: Plant, line: str, body: bytes = b"") -> Command | None:
    """The command of a record's line, with what stands behind it; None where the line is none, or one that the server refuses."""
    line = line.removesuffix("\r")  # as the server does
    if body:
        found = texts.of(line, body)
        return None if found is None else Reload(found)
    words = line.split(" ")
    if "" in words or "\t" in line:  # it isn't as the gateway writes it
        words = _BLANKS.split(line.strip(" \t"))
    if len(words) > 1 and words[0] == "scan":
        return _scan(plant, words)
    if words and words[0] in VERBS:
        return order(words)
    return None


def _scan(plant: Plant, words: list[str]) -> Scan | None:
    given: dict[str, Value] = {}
    try:
        for pair in words[2:]:
            name, _, value = pair.partition("=")
            variable, found = fit(plant, name, value)
            given[variable.name] = found
        return Scan(int(words[1]), given)
    except ValueError:
        return None  # the server refuses it


def order(words: list[str]) -> Order | None:
    """The order of words, the first of which is its verb. None where they have another form."""
    verb = VERBS[words[0]]
    count = 4 if verb is Verb.SHELVE else 3
    if len(words) != count or not _digits(words[1], 9):
        return None
    if verb is not Verb.SHELVE:
        return Order(verb, int(words[1]), words[2])
    return Order(verb, int(words[1]), words[2], int(words[3])) if _digits(words[3], 19) else None


def _digits(word: str, most: int) -> bool:
    return word.isascii() and word.isdigit() and len(word) <= most


def check(order: Order) -> None:
    """Raises ValueError where a word of the order can't stand in a line of the protocol."""
    if not _WORD.fullmatch(order.target):
        raise ValueError("a tag or a program's name is one word of at most 1000 letters of ASCII")
    if not 0 <= order.console <= 999_999_999:
        raise ValueError("a console is a number of 1 to 9 digits")
    if (order.milliseconds is None) is (order.verb is Verb.SHELVE):
        raise ValueError("a shelving, and no other order, has milliseconds")
    if order.milliseconds is not None and not 0 <= order.milliseconds < 10**19:
        raise ValueError("a shelving has milliseconds of 1 to 19 digits")
