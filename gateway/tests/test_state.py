"""The state and the journal by the answers alone, against what the server itself lists."""

from __future__ import annotations

import asyncio
from datetime import datetime
from pathlib import Path

import pytest

from alarmd_gateway import plant as plants
from alarmd_gateway.commands import Scan, spelled
from alarmd_gateway.journal import Journal
from alarmd_gateway.model import Code, Order, Plant
from alarmd_gateway.server import Server
from alarmd_gateway.state import State

from sessions_by_seed import EXAMPLES, session

LONG_PATIENCE = 60_000


def take(state: State, journal: Journal, command: Scan | Order, answer: list[str]) -> None:
    """What the core does with an answer."""
    if isinstance(command, Scan):
        state.scan(command.moment, command.given, answer)
        journal.scan(answer)
    else:
        journal.order(command, state.moment, answer)
        state.order(command, answer)


def by_listings(plant: Plant, listing: list[str], rows: list[str]) -> dict[str, object]:
    """Codes, moments of the last change, ends of shelvings and stopped programs, by the server's own `list` and `journal`."""
    codes = {row.tag: Code.NORM for row in plant.alarms}
    codes |= {line.split()[1]: Code(line.split()[2]) for line in listing if line[:6] == "STATE "}
    since: dict[str, int] = {}
    ends: dict[str, int] = {}
    stopped: dict[str, tuple[str, str, str]] = {}
    for row in rows[:-1]:
        _, time, kind, *words = row.split(" ")
        moment = round(
            (datetime.strptime(time, "%Y-%m-%dT%H:%M:%S.%f%z") - plant.epoch).total_seconds() * 1000
        )
        if kind == "ALARM":
            since[words[0]] = moment
        elif kind == "FAULT":
            stopped[words[0].partition(".")[0]] = (words[0], words[1], words[2])
        elif words[1] == "shelve" and words[-1] == "OK":
            ends[words[2]] = moment + int(words[3])
        elif words[1] == "restart" and words[-1] == "OK":
            del stopped[words[2]]
    ends = {tag: end for tag, end in ends.items() if codes[tag] is Code.SHELVED}
    return {"codes": codes, "since": since, "ends": ends, "stopped": stopped}


def by_answers(state: State) -> dict[str, object]:
    """The same by the state."""
    alarms = state.alarms
    return {
        "codes": {one.row.tag: one.code for one in alarms},
        "since": {one.row.tag: one.since for one in alarms if one.since is not None},
        "ends": {one.row.tag: one.shelved_until for one in alarms if one.shelved_until is not None},
        "stopped": {
            one.program: (one.path, str(one.statement), one.kind) for one in state.stopped.values()
        },
    }


def told_values(line: str, answer: list[str]) -> dict[str, str]:
    """The values that a command and its answer tell, as they are spelled."""
    told = {}
    if answer[-1].startswith("DONE") and line.startswith("scan"):
        told = dict(pair.split("=") for pair in line.split()[2:])
    told |= {line.split()[2]: line.split()[3] for line in answer if line.startswith("OUT ")}
    return told


async def compare(alarmd: Path, path: Path, seed: int, count: int, every: int) -> int:
    """Compares after each `every`th command with a second server that has the same commands, and at the end with a third one
    that was given the record anew."""
    plant = plants.read(path)
    live, second = [await Server.start(alarmd, path, LONG_PATIENCE) for _ in range(2)]
    state, journal = State(plant), Journal(plant)
    record: list[str] = []
    looks = 0
    values: dict[str, str] = {}
    for number, command in enumerate(session(plant, seed, count), 1):
        answer = await live.ask(command.line())
        take(state, journal, command, answer)
        values |= told_values(command.line(), answer)
        record.append(command.line())
        await second.ask(command.line())
        for variable in (*plant.inputs.values(), *plant.outputs.values()):
            found = (state.inputs | state.outputs)[variable.name]
            assert spelled(found) == values.get(variable.name, spelled(variable.initial))
        if number % every == 0:
            await look(second, state, journal)
            looks += 1
    third = await Server.start(alarmd, path, LONG_PATIENCE)
    await third.play([(line, None) for line in record], lambda _, __: None)
    await look(third, state, journal)
    for server in (live, second, third):
        assert await server.close() == 0
    return looks


async def look(server: Server, state: State, journal: Journal) -> None:
    """Compares with what a server lists."""
    listing, rows = await server.ask("list"), await server.ask("journal")
    assert state.listing() == listing
    assert [*journal.lines(), f"END {len(journal)}"] == rows
    assert by_answers(state) == by_listings(state.plant, listing, rows)
    assert all(one.line > 0 for one in state.stopped.values())


@pytest.mark.server
@pytest.mark.parametrize("example", EXAMPLES)
def test_after_any_prefix_the_state_is_that_of_list_and_journal(
    alarmd: Path, examples: Path, example: str
) -> None:
    path = examples / example / "plant.toml"
    seed = 1000 + EXAMPLES.index(example)
    assert asyncio.run(compare(alarmd, path, seed, 400, 5)) == 80
