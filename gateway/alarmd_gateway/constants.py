"""The values of constant expressions: initial values of globals, which read no variable."""

from __future__ import annotations

from collections.abc import Callable, Sequence
from typing import Final

from .model import Value
from .tokens import BadSource, Token, literal


def _quotient(left: Value, right: Value) -> Value:
    """The quotient without its fraction."""
    if right == 0:
        raise BadSource("a constant is divided by 0")
    size = abs(left) // abs(right)
    return size if (left < 0) == (right < 0) else -size


def _rest(left: Value, right: Value) -> Value:
    """What is left of a division, with the sign of the left operand; by 0 it is 0."""
    return 0 if right == 0 else left - right * _quotient(left, right)


Operator = Callable[[Value, Value], Value]

_LEVELS: Final[tuple[dict[str, Operator], ...]] = (  # those further down bind tighter
    {"OR": lambda left, right: left | right},
    {"XOR": lambda left, right: left ^ right},
    {"AND": lambda left, right: left & right, "&": lambda left, right: left & right},
    {"=": lambda left, right: left == right, "<>": lambda left, right: left != right},
    {
        "<": lambda left, right: left < right,
        ">": lambda left, right: left > right,
        "<=": lambda left, right: left <= right,
        ">=": lambda left, right: left >= right,
    },
    {"+": lambda left, right: left + right, "-": lambda left, right: left - right},
    {"*": lambda left, right: left * right, "/": _quotient, "MOD": _rest},
)

_LEVEL_OF: Final = {word: level for level, group in enumerate(_LEVELS) for word in group}


class _Reader:
    """Goes through the tokens of one expression."""

    def __init__(self, tokens: Sequence[Token]) -> None:
        self._tokens = tokens
        self._at = 0

    def next(self) -> str:
        """The word of the next token, empty at the end."""
        return self._tokens[self._at].word if self._at < len(self._tokens) else ""

    def chain(self, level: int) -> Value:
        """Operands with operators of this level and of those that bind tighter; those of one level group from the left. Of parentheses
        each takes two calls: a constant may have 127 of them, one in another."""
        value = self.unary()
        while (found := _LEVEL_OF.get(self.next(), -1)) >= level:
            operator = _LEVELS[found][self.next()]
            self._at += 1
            value = operator(value, self.chain(found + 1))
        return value

    def unary(self) -> Value:
        """An operand with the signs before it."""
        word = self.next()
        if not word:
            raise BadSource("a constant ends too early")
        token = self._tokens[self._at]
        self._at += 1
        if word == "-":
            return -self.unary()
        if word == "NOT":
            return not self.unary()
        if word == "(":
            value = self.chain(0)
            self._at += 1
            return value
        value_of = literal(token)
        if value_of is None:
            raise BadSource(f"{token.text!r} in line {token.line} is no constant")
        return value_of

    def ended(self) -> bool:
        """Whether all tokens are read."""
        return self._at == len(self._tokens)


def value(tokens: Sequence[Token]) -> Value:
    """The value of a constant expression. Raises BadSource where it is none."""
    reader = _Reader(tokens)
    found = reader.chain(0)
    if not reader.ended():
        raise BadSource(f"a constant goes on with {reader.next()!r}")
    return found
