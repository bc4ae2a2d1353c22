"""Orders as they come over HTTP: what a body has to have, from which console an order comes, and that it is given once."""

from __future__ import annotations

import asyncio
from collections import OrderedDict
from collections.abc import Callable, Coroutine
from typing import Any

from .guard import Refused
from .model import LAST_MOMENT, Json, Order, Verb
from .view import View

LONGEST_REASON = 200  # characters
LONGEST_SHELVING = 2_592_000_000  # ms: no alarm may be shelved for longer
LONGEST_MARK = 64  # characters
MOST_MARKS = 2000  # that are kept; the oldest goes first

Giving = Coroutine[Any, Any, Json]
Given = tuple[dict[str, Json], asyncio.Task[Json]]  # an order's body, and what comes of it


def read_order(given: dict[str, Json]) -> tuple[Order, str | None]:
    """The order and the reason of a body; console 0 where none is given. Raises Refused (400)."""
    unknown = set(given) - {"order", "target", "console", "milliseconds", "reason", "seen"}
    if unknown:
        raise Refused(400, f"'{sorted(unknown)[0][:40]}' is no key of an order")
    target, console = given.get("target"), given.get("console", 0)
    try:
        verb = Verb(given.get("order"))
    except ValueError as bad:
        raise Refused(
            400, "order has to be one of " + ", ".join(one.value for one in Verb)
        ) from bad
    if not isinstance(target, str) or not 1 <= len(target) <= 128 or not target.isprintable():
        raise Refused(400, "target has to be a tag, or a program's name")
    if type(console) is not int or not 0 <= console <= 999_999_999:
        raise Refused(400, "console has to be a number")
    milliseconds = given.get("milliseconds")
    if verb is Verb.SHELVE:
        if type(milliseconds) is not int or not 0 <= milliseconds <= LONGEST_SHELVING:
            raise Refused(400, f"milliseconds has to be a number up to {LONGEST_SHELVING}")
    elif milliseconds is not None:
        raise Refused(400, "only shelve has milliseconds")
    reason = read_reason(given.get("reason"))
    if reason is None and verb in (Verb.SHELVE, Verb.REMOVE):
        raise Refused(400, f"{verb.value} wants a reason")
    return Order(verb, console, target, milliseconds if type(milliseconds) is int else None), reason


def read_reason(given: Json) -> str | None:
    """The reason of an order: a text of one line. Raises Refused (400)."""
    if given is None:
        return None
    if not isinstance(given, str) or len(given) > LONGEST_REASON:
        raise Refused(400, f"reason has to be a text of at most {LONGEST_REASON} characters")
    reason = " ".join(given.split())
    if not reason.isprintable():
        raise Refused(400, "reason has a character that can't be printed")
    return reason or None


def with_console(order: Order, view: View) -> Order:
    """The order from the first console that may give it. Raises Refused (403, 404)."""
    console = view.console_for(order)
    if console is None and order.verb is not Verb.RESTART and order.target not in view.plant.by_tag:
        raise Refused(404, "there is no alarm of this tag")
    if console is None:
        raise Refused(403, "none of your consoles is for this alarm's area")
    return Order(order.verb, console.number, order.target, order.milliseconds)


def read_seen(given: dict[str, Json]) -> int | None:
    """The moment up to which whoever acknowledges an alarm has read it; None where none is given. Raises Refused (400)."""
    seen = given.get("seen")
    if seen is None:
        return None
    if given.get("order") != Verb.ACK.value:
        raise Refused(400, "only ack has seen")
    if type(seen) is not int or not 0 <= seen <= LAST_MOMENT:
        raise Refused(400, "seen has to be a moment, as since of an alarm")
    return seen


def read_mark(given: Json) -> str | None:
    """The mark of an order, by which it is known again. Raises Refused (400)."""
    if given is None:
        return None
    if not isinstance(given, str) or not 1 <= len(given) <= LONGEST_MARK:
        raise Refused(400, f"mark has to be a text of 1 to {LONGEST_MARK} characters")
    return given


class Marks:
    """What came of the orders that were given lately, by session and mark.

    Where a connection ends before there is an answer, a browser may send its request again by itself, on another one: such an order
    isn't given a second time, and has the answer of the first. One that was refused wasn't given: its mark is forgotten.
    """

    def __init__(self) -> None:
        self._given: OrderedDict[tuple[str, str], Given] = OrderedDict()

    async def once(
        self, key: tuple[str, str], given: dict[str, Json], give: Callable[[], Giving]
    ) -> Json:
        """What comes of an order with this session and mark, which is given unless it was before. Raises what `give` does, and
        Refused (400) where the mark is another order's."""
        known = self._given.get(key)
        if known is None:
            known = self._given[key] = given, asyncio.create_task(self._first(key, give))
            if len(self._given) > MOST_MARKS:
                self._given.popitem(last=False)
        first, task = known
        if first != given:
            raise Refused(400, "the mark is that of another order")
        return await asyncio.shield(task)

    async def _first(self, key: tuple[str, str], give: Callable[[], Giving]) -> Json:
        try:
            return await give()
        except Refused:
            self._given.pop(key, None)
            raise
