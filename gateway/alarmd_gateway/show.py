"""`gateway state` and `gateway journal`: what stands and what was, by the record alone, also while a gateway serves it.

A server of their own plays the record, without a lock; it takes about as long as a start of the gateway."""

from __future__ import annotations

import asyncio
import dataclasses
import json
from collections.abc import Iterator
from pathlib import Path

from . import config as configs
from . import kept
from . import plant as plants
from .commands import spelled
from .config import Config
from .link import start_server
from .log_view import newest_copy
from .player import Book, play
from .record import peek
from .state import State, time_of
from .words import Words, called, say


def main(words: list[str]) -> int:
    """`state CONFIG [--json]` or `journal CONFIG [--from N] [--count N] [--csv | --json]`, of another record by `--record`."""
    parser = Words(prog=called(words[0]), description=__doc__)
    parser.add_argument("config", type=Path, help="the configuration, gateway.toml")
    parser.add_argument("--record", type=Path, help="another record of this plant, an old one")
    form = parser.add_mutually_exclusive_group()
    form.add_argument("--json", action="store_true")
    if words[0] == "journal":
        form.add_argument("--csv", action="store_true")
        parser.add_argument("--from", type=int, default=1, dest="first", help="the first row")
        parser.add_argument("--count", type=int, help="how many rows")
    given = parser.parse_args(words[1:])
    config = configs.read(given.config)
    beside = config.record
    if given.record is not None:
        config = dataclasses.replace(config, record=given.record)
    elif "etcd" in config.tables:
        config = dataclasses.replace(config, record=newest_copy(config.record))
    book = asyncio.run(played(config, beside))
    if words[0] == "state":
        lines = iter([json.dumps(book.state.json())]) if given.json else told(book.state)
    elif given.json:
        lines = (json.dumps(row) for row in book.journal.json(given.first, given.count))
    elif given.csv:
        lines = (line.rstrip("\r\n") for line in book.journal.csv(given.first, given.count))
    else:
        lines = book.journal.lines(given.first, given.count)
    say(lines)
    return 0


async def played(config: Config, beside: Path) -> Book:
    """The state and the journal of a record; the plant with which it begins may be kept beside the configured one. Raises GatewayFault."""
    first = kept.beginning(config.plant, config.record, beside)
    server = await start_server(config, first)
    try:
        plant = plants.read(first)
        book, last = await play(server, plant, peek(config.record, plant))
        if last is not None:
            book.take(last)
        return book
    finally:
        await server.kill()


def told(state: State) -> Iterator[str]:
    """A state as lines for a person; times are civil, in UTC."""
    plant = state.plant
    scanned = time_of(plant, state.moment) if state.scanned else "no scan yet"
    yield f"{plant.name}: {scanned}, {state.events:,} events, {state.events_left:,} left"
    for alarm in state.alarms:
        if alarm.code.value != "NORM":
            until = time_of(plant, alarm.shelved_until)
            tail = f", until {until}" if until else ""
            by = f" ({alarm.user or 'somebody'}: {alarm.reason or 'no reason'})"
            by = by if alarm.user or alarm.reason else ""
            row = alarm.row
            since = time_of(plant, alarm.since)
            yield f"{alarm.code.value:8}{row.priority}  {row.tag}  {row.text}, since {since}{tail}{by}"
    for one in state.stopped.values():
        place = f"{one.file}, line {one.line}"
        yield f"stopped    {one.program}: {one.kind} in {place}, since {time_of(plant, one.moment)}"
    for name, value in [*state.inputs.items(), *state.outputs.items()]:
        yield f"value      {name} {spelled(value)}"
