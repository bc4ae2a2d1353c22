"""Where statement N of a body stands: file and line, by the sources, for what a `FAULT` line names."""

from __future__ import annotations

from collections.abc import Iterable, Mapping
from dataclasses import dataclass, field
from typing import Final

from .model import Plant
from .plant import source_text
from .tokens import BadSource, Token, cut

_SECTIONS: Final = ("VAR", "VAR_INPUT", "VAR_OUTPUT", "VAR_EXTERNAL")
_ENDS: Final = frozenset(
    ("ELSIF", "ELSE", "END_IF", "END_CASE", "END_FOR", "END_PROGRAM", "END_FUNCTION_BLOCK")
)


@dataclass(frozen=True)
class Place:
    """A line of a source, by its name as the plant file has it. Lines count from 1."""

    file: str
    line: int


@dataclass
class Unit:
    """A program or block: the types of its instances by their names in small letters, and the lines of its statements."""

    source: str
    instances: dict[str, str] = field(default_factory=dict)
    lines: list[int] = field(default_factory=list)


class Statements:
    """The statements of a plant's programs and blocks."""

    def __init__(self, units: Mapping[str, Unit]) -> None:
        self._units = units

    def place(self, path: str, statement: int) -> Place | None:
        """The place of a statement by its path (`pumping.p1`) and its number in that body. None where there is none."""
        program, *instances = path.lower().split(".")
        unit = self._units.get(program)
        for name in instances:
            unit = None if unit is None else self._units.get(unit.instances.get(name, ""))
        if unit is None or not 1 <= statement <= len(unit.lines):
            return None
        return Place(unit.source, unit.lines[statement - 1])


def read(plant: Plant) -> Statements:
    """The statements by the plant's sources. Raises OSError where one can't be read, BadSource where it isn't accepted."""
    units: dict[str, Unit] = {}
    for number, source in enumerate(plant.sources):
        tokens = cut(source_text(plant, number))
        try:
            units.update(_Reader(source, tokens).units())
        except IndexError:
            raise BadSource(f"{source} ends too early") from None
    return Statements(units)


class _Reader:
    """Goes through the tokens of one source."""

    def __init__(self, source: str, tokens: list[Token]) -> None:
        self._source = source
        self._tokens = tokens
        self._at = 0

    def units(self) -> dict[str, Unit]:
        """The units of the source, by their names in small letters."""
        found: dict[str, Unit] = {}
        while self._at < len(self._tokens):
            if self._word() in ("PROGRAM", "FUNCTION_BLOCK"):
                self._at += 1
                name = self._tokens[self._at].text.lower()
                self._at += 1
                found[name] = self._unit()
            else:
                self._at += 1  # the globals
        return found

    def _word(self) -> str:
        return self._tokens[self._at].word

    def _past(self, *words: str) -> None:
        """Goes behind the next token that is one of these."""
        while self._word() not in words:
            self._at += 1
        self._at += 1

    def _unit(self) -> Unit:
        unit = Unit(self._source)
        while self._word() in _SECTIONS:
            self._at += 1
            while self._word() != "END_VAR":
                unit.instances.update(self._declared())
            self._at += 1
        self._body(unit)
        self._at += 1
        return unit

    def _declared(self) -> Iterable[tuple[str, str]]:
        """The names of one declaration with the word of their kind, in small letters."""
        begin = self._at
        self._past(":")
        names = [token.text.lower() for token in self._tokens[begin : self._at - 1 : 2]]
        kind = self._word().lower()
        self._past(";")
        return [(name, kind) for name in names]

    def _body(self, unit: Unit) -> None:
        """Statements up to the word that ends their body, or to a label of CASE."""
        while True:
            token = self._tokens[self._at]
            if token.word in _ENDS or token.kind == "integer" or token.text == "-":
                return
            unit.lines.append(token.line)
            if token.word == "IF":
                self._if(unit)
            elif token.word == "CASE":
                self._case(unit)
            elif token.word == "FOR":
                self._past("DO")
                self._body(unit)
            self._past(";")

    def _if(self, unit: Unit) -> None:
        self._past("THEN")
        self._body(unit)
        while self._word() == "ELSIF":
            self._past("THEN")
            self._body(unit)
        self._else(unit)

    def _case(self, unit: Unit) -> None:
        self._past("OF")
        while self._word() not in ("ELSE", "END_CASE"):
            self._past(":")
            self._body(unit)
        self._else(unit)

    def _else(self, unit: Unit) -> None:
        if self._word() == "ELSE":
            self._at += 1
            self._body(unit)
