"""The words of a source in Structured Text, with their lines. Sources are taken to be accepted by `alarmd`."""

from __future__ import annotations

import re
from dataclasses import dataclass
from typing import Final

_TOKEN: Final = re.compile(
    r"""(?P<blank>[\ \t\r\n\f]+ | \(\*.*?\*\) | /\*.*?\*/ | //[^\n]*)
      | (?P<duration>(?:TIME|T)\#-?[0-9][0-9a-z_.]*)
      | (?P<typed>DINT\#[+-]?[0-9][0-9a-f_\#]* | BOOL\#[a-z0-9]+)
      | (?P<integer>(?:2|8|16)\#[0-9a-f_]+ | [0-9][0-9_]*)
      | (?P<word>[a-z_][a-z0-9_]*)
      | (?P<address>%[iqm][a-z]?(?:\*|[0-9]+(?:\.[0-9]+)*))
      | (?P<symbol>:= | => | <= | >= | <> | \.\. | [:;,()\[\].+\-*/&=<>])""",
    re.VERBOSE | re.IGNORECASE | re.DOTALL | re.ASCII,
)
_UNITS: Final = {"d": 86_400_000, "h": 3_600_000, "m": 60_000, "s": 1000, "ms": 1}
_PART: Final = re.compile(r"([0-9_]+)(?:\.([0-9_]+))?(ms|d|h|m|s)_?")
_BOM: Final = b"\xef\xbb\xbf"


class BadSource(ValueError):
    """A source that isn't one that `alarmd` accepts. The text names the line."""


@dataclass(frozen=True, slots=True)
class Token:
    """A token: `kind` is that of a group above but `blank`; `word` is its text in capitals, `text` as it is spelled."""

    kind: str
    text: str
    line: int

    @property
    def word(self) -> str:
        """The text in capitals, as letter case has no meaning."""
        return self.text.upper()


def cut(source: bytes) -> list[Token]:
    """The tokens of a source, without blanks and comments. Lines count from 1. Raises BadSource where no token begins."""
    text = source.removeprefix(_BOM).decode("latin-1")  # bytes outside comments are ASCII
    tokens: list[Token] = []
    at, line = 0, 1
    while at < len(text):
        match = _TOKEN.match(text, at)
        if match is None or match.lastgroup is None:
            raise BadSource(f"no token begins in line {line}")
        if match.lastgroup != "blank":
            tokens.append(Token(match.lastgroup, match.group(), line))
        line += match.group().count("\n")
        at = match.end()
    return tokens


def integer(text: str) -> int:
    """The value of an integer's spelling: `1_000`, `16#FF`."""
    base, mark, digits = text.replace("_", "").rpartition("#")
    return int(digits, int(base)) if mark else int(digits)


def duration(text: str) -> int:
    """The milliseconds of a duration's spelling: `T#1h_30m`, `TIME#-14.7s`."""
    rest = text.lower().partition("#")[2]
    sign, total = (-1, 0) if rest.startswith("-") else (1, 0)
    for whole, part, unit in _PART.findall(rest.removeprefix("-")):
        scale, digits = _UNITS[unit], part.replace("_", "")
        total += int(whole.replace("_", "")) * scale
        total += int(digits) * scale // 10 ** len(digits) if digits else 0
    return sign * total


def literal(token: Token) -> bool | int | None:
    """The value of a literal: a truth, a number, or a duration in milliseconds. None for another token."""
    word = token.word
    if token.kind == "integer":
        return integer(word)
    if token.kind == "duration":
        return duration(word)
    if word in ("TRUE", "FALSE"):
        return word == "TRUE"
    if token.kind == "typed" and word.startswith("BOOL#"):
        return word[5:] in ("TRUE", "1")
    if token.kind == "typed":
        digits = word[5:].lstrip("+-")
        return -integer(digits) if word[5] == "-" else integer(digits)
    return None
