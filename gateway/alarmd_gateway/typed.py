"""Lines that somebody types, or a program writes to standard input: what each asks, or what is wrong with it."""

from __future__ import annotations

import difflib
from dataclasses import dataclass
from typing import Final, TypeAlias

from .commands import VERBS, check, order
from .model import Order, Plant, Sample, Verb

FORMS: Final = {
    "ack": "ack CONSOLE TAG",
    "reset": "reset CONSOLE TAG",
    "shelve": "shelve CONSOLE TAG MS",
    "unshelve": "unshelve CONSOLE TAG",
    "remove": "remove CONSOLE TAG",
    "return": "return CONSOLE TAG",
    "restart": "restart CONSOLE PROGRAM",
    "list": "list",
    "journal": "journal [FROM [COUNT]]",
    "values": "values",
    "stopped": "stopped",
    "troubles": "troubles",
    "questions": "questions",
    "confirm": "confirm CONSOLE QUESTION",
    "decline": "decline CONSOLE QUESTION",
    "yes": "yes",
    "no": "no",
    "help": "help",
}
SAMPLES: Final = "NAME=VALUE .."


class Mistake(ValueError):
    """A line that is none of these. The text says what was wrong with it."""


@dataclass(frozen=True)
class Ask:
    """What isn't for the server: its word, and its numbers."""

    word: str
    numbers: tuple[int, ...]


Typed: TypeAlias = Order | Ask | list[Sample]


def read(line: str, source: str) -> Typed | None:
    """What a line asks; None for one without words, and for a remark. `source` names who brings samples. Raises Mistake."""
    words = line.split()
    if not words or words[0].startswith("#"):
        return None
    if words[0] in FORMS:
        return _order(words) if words[0] in VERBS else _ask(words)
    if all("=" in word for word in words):
        pairs = [word.partition("=") for word in words]
        return [Sample(name, value, source) for name, _, value in pairs]
    raise Mistake(_unknown(words))


def _order(words: list[str]) -> Order:
    found = order(words)
    if found is None:
        raise Mistake(
            f"{words[0]} wants another form: {FORMS[words[0]]}, as in {_example(words[0])}"
        )
    try:
        check(found)
    except ValueError as fault:
        raise Mistake(str(fault)) from None
    return found


def _example(word: str) -> str:
    target = "PROGRAM" if VERBS[word] is Verb.RESTART else "LAL-101"
    return f"`{word} 1 {target}" + (" 60000`" if VERBS[word] is Verb.SHELVE else "`")


def _ask(words: list[str]) -> Ask:
    form = FORMS[words[0]]
    most = len(form.split()) - 1
    least = 0 if "[" in form else most
    if not least <= len(words) - 1 <= most or not all(word.isdecimal() for word in words[1:]):
        raise Mistake(f"{words[0]} wants another form: {form}")
    return Ask(words[0], tuple(int(word[:12]) for word in words[1:]))


def _unknown(words: list[str]) -> str:
    shown = words[0][:40]
    near = difflib.get_close_matches(words[0].lower()[:40], FORMS, 1)
    hint = f"; did you mean {near[0]!r} ({FORMS[near[0]]})?" if near else ""
    if "=" in words[0]:
        bad = next(word for word in words if "=" not in word)
        return f"samples are {SAMPLES}, and {bad[:40]!r} has no '='"
    return f"no command is called {shown!r}{hint}; `help` tells all"


def why(reply: str, order: Order, plant: Plant) -> str:
    """What a refusal means for this very order, with the nearest name that could be meant."""
    known = list(plant.by_tag)
    if order.verb is Verb.RESTART:
        known = [program.name for program in plant.programs.values()]
    if reply == "O1":
        near = difflib.get_close_matches(order.target, known, 1, 0.5)
        hint = f"; did you mean {near[0]!r}?" if near else ""
        what = "program" if order.verb is Verb.RESTART else "alarm"
        return f"there is no {what} {order.target!r}{hint}"
    numbers = [console.number for console in plant.consoles]
    if reply == "O2" and order.console not in numbers:
        return f"there is no console {order.console}; there are {', '.join(map(str, numbers)) or 'none'}"
    if reply == "O2":
        return f"console {order.console} isn't for the area {plant.by_tag[order.target].area}"
    if reply == "O4":
        most = plant.by_tag[order.target].max_shelve_ms
        return f"it may be shelved for 1 to {most} ms" if most else "it may not be shelved"
    return ""
