"""A plant that is changed while it is served: what stays, what is recorded, and what isn't asked."""

from __future__ import annotations

import asyncio
import dataclasses
import json
import os
import shutil
import signal
from collections.abc import Coroutine
from pathlib import Path
from typing import Any

import pytest
from around import config_for, until
from core_help import by_core
from reload_help import READING, WITHOUT, Small, latched, reloads
from test_core import give, served

from alarmd_gateway import plant as plants
from alarmd_gateway import show
from alarmd_gateway.changes import ChangeKind
from alarmd_gateway.commands import Reload
from alarmd_gateway.config import Config
from alarmd_gateway.core import Core
from alarmd_gateway.link import NoReload, entry_of
from alarmd_gateway.model import BadSample, GatewayFault, Order, Sample, ServerGone, Texts, Verb
from alarmd_gateway.record import Entry, FileRecord, peek
from alarmd_gateway.reports import report
from alarmd_gateway.samples import SampleQueue
from alarmd_gateway.server import Server
from alarmd_gateway.view import View

__all__ = ["reloads"]


def run(work: Coroutine[Any, Any, None]) -> None:
    asyncio.run(asyncio.wait_for(work, 400))


@pytest.fixture
def config(reloads: Path, tmp_path: Path) -> Config:
    return config_for(reloads, Small().write(tmp_path / "plant"), yes=True)


@pytest.fixture
def reading(tmp_path: Path) -> Config:
    """With the second reading alone."""
    return config_for(READING, Small().write(tmp_path / "plant"), yes=True)


async def reload(core: Core, plant: Small, folder: Path | None = None) -> str:
    """The files of the plant are these from now on, and they are taken up."""
    texts = plant.texts(folder or core.config.plant.parent)
    return (await core.reload(texts, "anna", "a larger pump")).lines[0]


async def alarm(core: Core) -> None:
    """T1 is an alarm."""
    await give(core, a=5)
    await until(lambda: core.state.by_tag["T1"].code.value == "UNACK")


def code(core: Core, tag: str = "T1") -> str:
    return core.state.by_tag[tag].code.value


async def by_server(config: Config) -> list[str]:
    """What a server of the first plant answers to `list` and `journal` after the record."""
    book = await show.played(config, config.record)
    server = await Server.start(config.alarmd, book.plant.path, config.patience_ms)
    try:
        data = [entry.asked for entry in peek(config.record, plants.read(book.plant.path))]
        for asked in data:
            await server.ask(asked)
        return [*await server.ask("list"), *await server.ask("journal")]
    finally:
        await server.kill()


def test_what_stays_and_what_is_told(config: Config) -> None:
    async def work() -> None:
        async with served(config) as core:
            await alarm(core)
            await core.order(Order(Verb.SHELVE, 1, "T1", 5000), "bert", "known")
            shelved = core.state.by_tag["T1"].shelved_until
            seen, events = core.subscribe(), core.state.events
            rows = ("T1,north,1,c,,FALSE,0,another text", "T2,south,3,c,,FALSE,0,new")
            told = await reload(core, Small(30, rows=rows))
            assert told == "RELOADED KEPT 1 NEW 1"
            assert core.plant.by_tag["T1"].priority == 1 and core.plant is core.state.plant
            one = core.state.by_tag["T1"]
            assert (one.code.value, one.shelved_until) == ("SHELVED", shelved)
            assert (one.user, one.reason, one.row.text) == ("bert", "known", "another text")
            assert code(core, "T2") == "NORM" and core.state.by_tag["T2"].since is None
            assert core.state.events > events
            kinds = [change.kind for change in seen.more(1000)]
            assert ChangeKind.RELOADED in kinds and ChangeKind.ANEW not in kinds
            row = next(row for row in core.journal.rows() if row.words[0] == "RELOAD")
            assert row.json(core.plant)["kept"] == 1 and row.json(core.plant)["user"] == "anna"
            assert (await core.order(Order(Verb.ACK, 2, "T2"))).code == "O3"
        assert by_core(core) == await by_server(config)

    run(work())


def test_a_sample_that_waits_for_room_is_judged_anew_too(config: Config) -> None:
    async def work() -> None:
        async with served(dataclasses.replace(config, period_ms=3_600_000)) as core:
            await alarm(core)
            core._queue = SampleQueue(1)
            await give(core, a=6)
            waiting = asyncio.create_task(give(core, a=7))
            other = Small(variables="b AT %ID0 : DINT; c : BOOL;", body="c := 100 / b > 30;")
            assert await reload(core, other) == "RELOADED KEPT 1 NEW 0"
            with pytest.raises(BadSample, match="'a' is no input"):
                await waiting
            await give(core, b=3)
            await core.drain()
            assert core.state.inputs == {"b": 3} and not len(core.troubles)

    run(work())


def test_another_latch_begins_anew(config: Config) -> None:
    async def work() -> None:
        async with served(config) as core:
            await alarm(core)
            await core.order(Order(Verb.SHELVE, 1, "T1", 5000), "bert", "known")
            assert await reload(core, Small(30, rows=latched())) == "RELOADED KEPT 0 NEW 1"
            one = core.state.by_tag["T1"]
            assert (one.code.value, one.shelved_until, one.since) == ("NORM", None, None)
            assert (one.user, one.reason) == (None, None)
            await give(core, a=2)
            await until(lambda: code(core) == "UNACK")
        assert by_core(core) == await by_server(config)

    run(work())


@pytest.mark.parametrize(
    ("plant", "wanted"),
    [
        (Small(consoles=((1, "north"),)), "REFUSED E7"),
        (Small(consoles=((2, "south"), (1, "north"))), "REFUSED E7"),
        (Small(epoch="2020-01-01T00:00:01Z"), "REFUSED E8"),
        (Small(rows=("T1,north,2,zz,,FALSE,5000,x",)), "CONFIG C14 1 condition"),
        (Small(rows=("T1,north,2,c,,FALSE,5000,x",) * 2), "CONFIG C13 2"),
    ],
)
def test_a_refused_plant_changes_nothing(config: Config, plant: Small, wanted: str) -> None:
    async def work() -> None:
        async with served(config) as core:
            await alarm(core)
            before, rows = core.plant, len(core.journal)
            assert await reload(core, plant) == wanted
            assert core.plant is before and len(core.journal) == rows and code(core) == "UNACK"
            assert await reload(core, Small()) == "RELOADED KEPT 1 NEW 0"
        assert by_core(core) == await by_server(config)

    run(work())


def test_the_record_is_played_with_its_reloads(
    config: Config, capsys: pytest.CaptureFixture[str]
) -> None:
    async def work() -> None:
        async with served(config) as core:
            await alarm(core)
            await reload(core, Small(30, variables=FIRST_WITH_B))
            await give(core, b=True)
            await until(lambda: core.state.inputs["b"])
            await reload(core, Small(10, rows=("T2,south,3,c,,FALSE,0,x",), program="q"))
            await until(lambda: code(core, "T2") == "UNACK")
            await core.order(Order(Verb.REMOVE, 2, "T2"), "bert", "broken")
        before, again = by_core(core), await Core.start(config)
        assert by_core(again) == before
        assert again.state.json() == core.state.json()
        assert again.state.by_tag["T2"].user == "bert"
        again.stop()
        await again.run()
        (config.plant.parent / "p.st").write_text("what nobody has taken up")
        told = await Core.start(config)
        assert by_core(told) == before
        told.stop()
        await told.run()

    run(work())
    assert "SERVER p.st isn't what is served" in capsys.readouterr().err


def test_a_scan_right_behind_a_reload_names_what_is_new(config: Config) -> None:
    first = plants.read(config.plant)
    record = FileRecord(config.record, first)
    texts = Small(variables=FIRST_WITH_B).texts(config.folder / "other")
    entries = [Entry("scan 0 a=5"), entry_of(Reload(texts)), Entry("scan 1 b=TRUE A=2")]
    asyncio.run(record.extend(entries))
    record.close()

    async def work() -> None:
        core = await Core.start(config)
        assert core.last is not None and core.last.answer[-1].startswith("DONE 1")
        assert core.state.inputs == {"a": 2, "b": True} and core.state.events == 3
        core.stop()
        await core.run()

    run(work())


def test_without_the_first_plant_the_record_is_none(config: Config) -> None:
    async def work() -> None:
        async with served(config) as core:
            await alarm(core)
            await reload(core, Small(30))

    run(work())
    shutil.rmtree(f"{config.record}.plants")
    with pytest.raises(GatewayFault, match="p.st has changed") as fault:
        run(play(config))
    assert fault.value.status == 2


async def play(config: Config) -> None:
    core = await Core.start(config)
    core.stop()
    await core.run()


def test_files_outside_of_the_folder_are_not_kept(reading: Config) -> None:
    path = reading.plant
    shutil.move(path.parent / "p.st", path.parent.parent / "p.st")
    path.write_text(path.read_text().replace('"p.st"', '"../p.st"'))

    async def work() -> None:
        async with served(reading) as core:
            await alarm(core)
            with pytest.raises(NoReload, match="outside of its folder"):
                await reload(core, Small(30))
        assert b"\nreload" not in reading.record.read_bytes()

    run(work())


def test_what_the_gateway_cannot_read_is_not_asked(reading: Config) -> None:
    async def work() -> None:
        async with served(reading) as core:
            await alarm(core)
            with pytest.raises(NoReload, match="TOML"):
                await core.reload(Texts(b"[", b"", ()))
        assert b"\nreload" not in reading.record.read_bytes()

    run(work())


def test_a_server_that_knows_no_reload_is_not_asked(
    reading: Config, monkeypatch: pytest.MonkeyPatch
) -> None:
    monkeypatch.setenv(WITHOUT, "1")

    async def work() -> None:
        async with served(reading) as core:
            await alarm(core)
            with pytest.raises(NoReload, match="knows no `reload`"):
                await reload(core, Small(30))
            assert code(core) == "UNACK"
            await until(lambda: core.state.events > 5)
        assert b"\nreload" not in reading.record.read_bytes()

    run(work())


def test_a_record_with_a_reload_wants_a_server_that_knows_it(
    reading: Config, monkeypatch: pytest.MonkeyPatch
) -> None:
    async def work() -> None:
        async with served(reading) as core:
            await alarm(core)
            await reload(core, Small(30, body="(*\nack 1 T1\n*) c := FALSE;"))

    run(work())
    monkeypatch.setenv(WITHOUT, "1")
    with pytest.raises(GatewayFault, match="were read as lines") as fault:
        run(play(reading))
    assert fault.value.status == 2


FORGETFUL = """#!/bin/sh
# Knows `reload` when it is asked for it, and not when it comes.
exec {python} -c "
import sys
sys.path.insert(0, '{folder}')
import protocol
known = protocol.command
protocol.command = lambda line, has=False: known(line, has and line == b'reload 0 0')
import serve
sys.exit(serve.main(sys.argv[1:]))
" "$@"
"""


def test_a_server_that_takes_the_texts_as_lines_is_ended_at_once(
    reading: Config, tmp_path: Path
) -> None:
    program = tmp_path / "forgetful"
    program.write_text(FORGETFUL.format(python="python3", folder=READING.parent))
    program.chmod(0o755)
    object.__setattr__(reading, "alarmd", program)

    async def work() -> None:
        core = await Core.start(reading)
        working = asyncio.create_task(core.run())
        await alarm(core)
        pid = core._link._server.pid
        with pytest.raises(ServerGone, match="read as lines"):
            await reload(core, Small(30))
        with pytest.raises(GatewayFault, match="given up"):
            await working
        assert not os.path.exists(f"/proc/{pid}")

    run(work())


def test_of_a_plant_that_was_not_recorded_it_is_said_that_it_was_not_taken_up(
    config: Config,
) -> None:
    async def work() -> None:
        core = await Core.start(dataclasses.replace(config, restarts=0, period_ms=3_600_000))
        working = asyncio.create_task(core.run())
        await alarm(core)
        pid = core._link._server.pid
        os.kill(pid, signal.SIGSTOP)
        asked = asyncio.create_task(reload(core, Small(30)))
        await until(lambda: not core._jobs and len(asyncio.all_tasks()) > 3)
        os.kill(pid, signal.SIGKILL)
        with pytest.raises(ServerGone, match="so the plant wasn't taken up"):
            await asked
        with pytest.raises(GatewayFault):
            await working
        assert b"\nreload" not in config.record.read_bytes()

    run(work())


def test_a_server_that_is_killed_is_started_with_the_first_plant(config: Config) -> None:
    async def work() -> None:
        async with served(config) as core:
            await alarm(core)
            await reload(core, Small(30, rows=latched()))
            before, old = by_core(core), core.journal
            os.kill(core._link._server.pid, signal.SIGKILL)
            await until(lambda: core.journal is not old)
            assert by_core(core)[: len(before) - 1] == before[:-1]
            assert await reload(core, Small(10)) == "RELOADED KEPT 0 NEW 1"
            await until(lambda: code(core) == "UNACK")
        assert by_core(core) == await by_server(config)

    run(work())


def test_samples_that_wait_are_judged_anew(config: Config) -> None:
    async def work() -> None:
        async with served(config) as core:
            await alarm(core)
            variables = FIRST_WITH_B
            await reload(core, Small(30, variables=variables))
            may_scan = core._may_scan
            core._may_scan = lambda: False  # type: ignore[assignment]
            await give(core, a=1, b=True)
            await give(core, b=False)
            changed = "A AT %ID0 : DINT; b AT %ID1 : TIME; y AT %QD0 : DINT; c : BOOL;"
            await reload(core, Small(30, variables=changed))
            core._may_scan = may_scan  # type: ignore[assignment]
            with pytest.raises(BadSample):
                await core.offer(Sample("b", True, "test"))
            await give(core, b=5)
            await until(lambda: core.state.inputs["b"] == 5)
            assert core.state.inputs["A"] == 1 and "a" not in core.state.inputs
            assert not [one for one in core.troubles if one.kind.value == "refused"]
        assert by_core(core) == await by_server(config)

    run(work())


FIRST_WITH_B = "a AT %ID0 : DINT; b AT %IX0 : BOOL; y AT %QD0 : DINT := 7; c : BOOL;"


def test_values_of_inputs_and_outputs(config: Config) -> None:
    async def work() -> None:
        async with served(config) as core:
            await give(core, a=100)
            await until(lambda: core.state.outputs["y"] not in (0, 7))
            variables = (
                "A AT %QD1 : DINT; Y AT %QD0 : DINT := 3; c AT %QX0 : BOOL; n AT %QD2 : DINT := 9;"
            )
            quiet = Small(variables=f"{variables} t AT %QD3 : TIME := T#2s;", body=";")
            old = core.state
            assert await reload(core, quiet) == "RELOADED KEPT 1 NEW 0"
            now = core.state.outputs
            # c was plain before: what it is nobody has told
            assert now == {"A": 100, "Y": old.outputs["y"], "n": 9, "t": 2000}
            told = Small(variables=variables, body="c := NOT c; n := n + 1;")
            await reload(core, told)
            await until(lambda: "c" in core.state.outputs and core.state.outputs["n"] != 9)
        assert by_core(core) == await by_server(config)

    run(work())


def test_a_new_record_begins_with_the_plant_that_is_served(config: Config) -> None:
    object.__setattr__(config, "rotate_at", 60)

    async def work() -> None:
        async with served(config) as core:
            await alarm(core)
            await reload(core, Small(rows=latched(), variables=FIRST_WITH_B + " z : DINT := 4;"))
            await until(lambda: code(core) == "UNACK")
            await until(lambda: core.questions, "the question of a new record")
            old = core.journal
            await core.answer(core.questions[0].number, True, 1, "carla")
            await until(lambda: core.journal is not old, "the new record")
            assert core.plant.by_tag["T1"].latch and "b" in core.state.inputs
            await until(lambda: code(core) == "UNACK")
        head = json.loads(config.record.read_text().splitlines()[0].partition(" record ")[2])
        first = json.loads(
            Path(f"{config.record}.1").read_text().splitlines()[0].partition(" record ")[2]
        )
        assert head["files"]["p.st"] != first["files"]["p.st"]
        assert all(not entry.body for entry in peek(config.record, core.plant))
        assert by_core(core) == await by_server(config)
        again = await Core.start(config)
        assert by_core(again) == by_core(core)
        again.stop()
        await again.run()
        old_one = dataclasses.replace(config, record=Path(f"{config.record}.1"))
        book = await show.played(old_one, config.record)
        assert any(row.words[0] == "RELOAD" for row in book.journal.rows())

    run(work())


def test_rows_keep_the_plant_of_then(config: Config) -> None:
    async def work() -> None:
        async with served(config) as core:
            await alarm(core)
            await give(core, a=0)
            await until(lambda: core.state.stopped)
            rows = ("T2,south,3,c,,FALSE,0,x",)
            await reload(core, Small(rows=rows, body="\n\n\nc := FALSE;", program="q"))
            assert not core.state.stopped
            assert not [one for one in core.troubles if one.kind.value == "stopped"]
            found = {row["kind"]: row for row in core.journal.json()}
            assert (found["alarm"]["tag"], found["alarm"]["area"]) == ("T1", "north")
            assert (found["fault"]["file"], found["fault"]["line"]) == ("p.st", 3)
            assert "T1" in "".join(core.journal.csv())
            north, south = (View(core.plant, (number,)) for number in (1, 2))
            kinds = [
                [row.words[0] for row in view.rows(core.journal, 1, 99)] for view in (north, south)
            ]
            assert kinds == [["ALARM", "FAULT", "RELOAD"], ["FAULT", "RELOAD"]]

    run(work())


def test_figures_forget_what_a_reload_has_ended(config: Config) -> None:
    async def work() -> None:
        async with served(config) as core:
            await alarm(core)
            end = core.state.moment + 2 * 86_400_000
            before = report(core.plant, core.journal.rows(), 0, end)
            assert [one.tag for one in before.stale] == ["T1"] and before.acknowledgements.waiting
            await reload(core, Small(30, rows=latched()))
            after = report(core.plant, core.journal.rows(), 0, end)
            assert not after.stale and not after.acknowledgements.waiting
            await reload(core, Small(30, rows=latched()))
            assert report(core.plant, core.journal.rows(), 0, end).frequent[0].count == 1

    run(work())
