"""The core with a real alarmd: orders, samples, changes, a server that ends or is silent."""

from __future__ import annotations

import asyncio
import dataclasses
import os
import signal
import threading
import time
from collections.abc import AsyncIterator, Coroutine
from contextlib import asynccontextmanager
from dataclasses import replace
from pathlib import Path
from typing import Any

import pytest
from around import LIMIT, config_for, plant_copy, until
from core_help import by_core, by_record

from alarmd_gateway import link
from alarmd_gateway import plant as plants
from alarmd_gateway import server
from alarmd_gateway.changes import Change, ChangeKind, CutOff
from alarmd_gateway.commands import NO_COMMAND
from alarmd_gateway.config import Config
from alarmd_gateway.core import Core
from alarmd_gateway.jobs import CameAgain
from alarmd_gateway.link import NoReload
from alarmd_gateway.metrics import Annunciations
from alarmd_gateway.model import BadSample, Code, GatewayFault, Order, Sample, ServerGone, Verb
from alarmd_gateway.record import peek
from alarmd_gateway.server import Server
from alarmd_gateway.troubles import TroubleKind

pytestmark = pytest.mark.server


@pytest.fixture
def config(alarmd: Path, tmp_path: Path) -> Config:
    return config_for(alarmd, plant_copy("tank", tmp_path))


@asynccontextmanager
async def served(config: Config) -> AsyncIterator[Core]:
    """A core that works meanwhile."""
    core = await Core.start(config)
    working = asyncio.create_task(core.run())
    try:
        yield core
    finally:
        core.stop()
        await working


async def give(core: Core, **values: int | bool | str) -> None:
    for name, value in values.items():
        await core.offer(Sample(name, value, "test"))


def run(work: Coroutine[Any, Any, None]) -> None:
    asyncio.run(asyncio.wait_for(work, 400))


def kinds(core: Core) -> list[TroubleKind]:
    return [trouble.kind for trouble in core.troubles]


def code_of(core: Core, tag: str) -> str:
    return core.state.by_tag[tag].code.value


def test_samples_alarms_and_orders(config: Config) -> None:
    async def work() -> None:
        async with served(config) as core:
            assert core.state.events == 0
            await give(core, RUNNING="true", level=250, flow=100)
            await until(lambda: core.state.scanned)
            assert code_of(core, "LAL-101") == "UNACK"
            assert core.state.outputs["pump"] is True
            reply = await core.order(Order(Verb.ACK, 1, "LAL-101"), "anna", "seen")
            assert (reply.code, reply.taken) == ("OK", True)
            assert code_of(core, "LAL-101") == "ACKED"
            assert (await core.order(Order(Verb.ACK, 2, "LAL-101"))).code == "O2"
            assert (await core.order(Order(Verb.ACK, 1, "NONE"))).code == "O1"
            with pytest.raises(ValueError):
                await core.order(Order(Verb.ACK, 1, "LAL-101\nscan 4000000000000"))
            row = next(row for row in core.journal.rows() if row.words[0] == "ORDER")
            assert (row.user, row.reason) == ("anna", "seen")

    run(work())


def test_an_alarm_that_has_come_again_since_it_was_read_is_not_acknowledged(config: Config) -> None:
    async def work() -> None:
        async with served(config) as core:
            await give(core, RUNNING="true", level=250, flow=100)
            await until(lambda: core.state.scanned)
            came = core.state.by_tag["LAL-101"].since
            await give(core, level=500)
            await until(lambda: code_of(core, "LAL-101") == "RTNUN")
            seen = core.state.by_tag["LAL-101"].since
            assert came is not None and seen is not None and seen > came
            await give(core, level=250)
            await give(core, level=251)  # so a scan comes before the order
            with pytest.raises(CameAgain):
                await core.order(Order(Verb.ACK, 1, "LAL-101"), "anna", None, seen)
            assert code_of(core, "LAL-101") == "UNACK"
            assert not [row for row in core.journal.rows() if row.words[0] == "ORDER"]
            seen = core.state.by_tag["LAL-101"].since
            await give(core, level=500)  # it has returned meanwhile, and not come again
            assert (await core.order(Order(Verb.ACK, 1, "LAL-101"), "anna", None, seen)).taken
            assert (await core.order(Order(Verb.ACK, 1, "NONE"), "anna", None, 0)).code == "O1"

    run(work())


def test_an_end_of_input_waits_for_no_scan_behind_an_order_that_isnt_given(config: Config) -> None:
    async def work() -> None:
        async with served(replace(config, period_ms=3_600_000)) as core:
            await give(core, RUNNING="true", level=250, flow=100)
            await until(lambda: core.state.scanned)
            unread = asyncio.create_task(core.order(Order(Verb.ACK, 1, "LAL-101"), seen=0))
            await asyncio.sleep(0)  # it waits for its turn
            await asyncio.wait_for(core.drain(), 200)
            with pytest.raises(CameAgain):
                await unread

    run(work())


def test_bad_samples_take_no_others_along(config: Config) -> None:
    async def work() -> None:
        async with served(config) as core:
            bad: dict[str, int | str] = {
                "levl": 1,
                "level": 2**31,
                "running": 2,
                "flow": "1.5",
                "additive": "T#5s",
                "pump": 1,
            }
            for name, value in bad.items():
                with pytest.raises(BadSample, match=name):
                    await core.offer(Sample(name, value, "test"))
            await give(core, level=-(2**31), running=1)
            await until(lambda: core.state.scanned)
            assert core.state.inputs["level"] == -(2**31)
            assert core.state.inputs["running"] is True

    run(work())


def test_each_distinct_value_is_taken_by_a_scan_in_order(config: Config) -> None:
    async def work() -> None:
        async with served(config) as core:
            values = [0, 1, 0, 1, 1, 0, 1]
            for number, value in enumerate(values):
                await give(core, running=value, level=number // 2)
            await until(lambda: core.state.inputs["level"] == 3 and core.state.inputs["running"])
        lines = [entry.line for entry in peek(config.record, core.plant)]
        taken = [word for line in lines for word in line.split() if "running=" in word]
        assert taken == [f"running={word}" for word in "FALSE TRUE FALSE TRUE FALSE TRUE".split()]

    run(work())


def test_what_was_kept_somewhere_does_not_show_that_more_come(config: Config) -> None:
    async def work() -> None:
        async with served(config) as core:
            seen: list[str] = []
            core.sampled = seen.append
            await core.offer(Sample("level", 400, "test", fresh=False))
            await core.offer(Sample("flow", 100, "test"))
            await until(lambda: core.state.inputs["level"] == 400)
            assert seen == ["flow"]

    run(work())


def test_the_moments_are_those_of_the_time_of_day(config: Config) -> None:
    async def work() -> None:
        async with served(config) as core:
            await give(core, level=400)
            await until(lambda: core.state.events >= 3)
            assert abs(core.plant.time(core.state.moment).timestamp() - time.time()) < 30

    run(work())


async def collected(core: Core, room: int = 1000) -> list[Change]:
    subscription = core.subscribe(room)
    return [change async for change in subscription]


def test_a_display_made_of_changes_is_the_state(config: Config) -> None:
    async def work() -> None:
        async with served(config) as core:
            gathering = asyncio.create_task(collected(core))
            await asyncio.sleep(0)
            whole = core.snapshot().json()
            assert (whole["number"], whole["journal"], whole["events"]) == (0, 0, 0)
            for number in range(12):
                level, heat = (100, 400, 900)[number % 3], (700, 850)[number % 2]
                await give(core, running=1, level=level, temperature=heat, flow=number % 2)
                await core.order(Order(Verb.ACK, 1, "TAHH-102"))
                await core.order(Order(Verb.SHELVE, 1, "LAH-101", 5000 + number))
                await core.order(Order(Verb.RESTART, 1, "dose"))
            await core.drain()
            last = core.snapshot().json()
        changes = await gathering
        assert [change.number for change in changes[: core.snapshot().number]] == list(
            range(1, len(changes) + 1)
        )
        alarms = {alarm["tag"]: alarm for alarm in whole["alarms"]}  # type: ignore
        values: dict[str, object] = {**whole["inputs"], **whole["outputs"]}  # type: ignore
        stopped: dict[str, object] = {}
        for change in changes:
            data = dict(change.data)
            if change.kind is ChangeKind.ALARM:
                del data["from"]
                alarms[str(data["tag"])] = data
            elif change.kind in (ChangeKind.OUTPUT, ChangeKind.INPUT):
                values[str(data["name"])] = data["value"]
            elif change.kind is ChangeKind.STOPPED:
                stopped[str(data["program"])] = data
            elif change.kind is ChangeKind.RESTARTED:
                del stopped[str(data["program"])]
        assert list(alarms.values()) == last["alarms"]
        assert values == {**last["inputs"], **last["outputs"]}  # type: ignore
        assert list(stopped.values()) == last["stopped"]
        rows = [change.data["length"] for change in changes if change.kind is ChangeKind.ROWS]
        assert rows[-1] == last["journal"]

    run(work())


def test_a_display_that_does_not_read_is_cut_off_and_told(config: Config) -> None:
    async def work() -> None:
        async with served(config) as core:
            slow = core.subscribe(5)
            await give(core, level=400)
            await until(lambda: core.state.events > 20)
            got = []
            with pytest.raises(CutOff):
                async for change in slow:
                    got.append(change.number)
            assert got == [1, 2, 3, 4, 5]

    run(work())


def test_whoever_asked_may_go(config: Config) -> None:
    async def work() -> None:
        async with served(config) as core:
            await give(core, running=1, level=100)
            await until(lambda: core.state.scanned)
            asked = asyncio.create_task(core.order(Order(Verb.ACK, 1, "LAL-101")))
            await asyncio.sleep(0)
            asked.cancel()
            await until(lambda: core.state.by_tag["LAL-101"].code is Code.ACKED)
            assert (await core.order(Order(Verb.ACK, 1, "LAL-101"))).code == "O3"

    run(work())


def server_pid() -> int:
    """The child of this process that is alarmd."""
    for word in Path(f"/proc/{os.getpid()}/task/{os.getpid()}/children").read_text().split():
        if "\0run\0" in Path(f"/proc/{word}/cmdline").read_text():
            return int(word)
    raise AssertionError("no alarmd runs")


async def busy(core: Core) -> None:
    """A state with something of each kind that only a record brings back."""
    await give(core, running=1, level=100, temperature=850, flow=0, additive=100)
    await core.drain()
    assert (await core.order(Order(Verb.ACK, 1, "TAHH-102"))).taken
    await give(core, temperature=700)
    await core.drain()
    assert (await core.order(Order(Verb.SHELVE, 1, "LAL-101", 3_600_000), "anna", "pump")).taken
    assert (await core.order(Order(Verb.REMOVE, 2, "RAH-104"), "bob", "probe")).taken


def test_a_server_that_is_killed_is_started_again_with_the_same_state(config: Config) -> None:
    async def work() -> None:
        async with served(config) as core:
            await busy(core)
            before, rows = core.state.listing(), list(core.journal.lines())
            assert core.state.by_tag["TAHH-102"].code is Code.LATAK
            seen = core.subscribe()
            os.kill(server_pid(), signal.SIGKILL)
            await until(lambda: list(core.troubles) != [] or core.state.events > 30)
            reply = await core.order(Order(Verb.RESET, 1, "TAHH-102"))
            assert reply.lines[0] == "REPLY OK"
            assert list(core.journal.lines())[: len(rows)] == rows
            wanted = [line for line in before if "TAHH-102" not in line and line[:5] == "STATE"]
            assert [line for line in core.state.listing() if line[:5] == "STATE"] == wanted
            alarm = core.state.by_tag["LAL-101"]
            assert (alarm.user, alarm.reason) == ("anna", "pump")
            kinds = []
            async for change in seen:
                kinds.append(change.kind)
                if change.kind is ChangeKind.ANEW:
                    break
            assert TroubleKind.SERVER not in [trouble.kind for trouble in core.troubles]

    run(work())


def test_what_was_annunciated_is_counted_once_when_the_server_is_started_again(
    config: Config,
) -> None:
    async def work() -> None:
        async with served(config) as core:
            annunciations = Annunciations(core)
            await busy(core)
            annunciations.catch_up()
            counted, old = dict(annunciations.by_priority), core.journal
            assert sum(counted.values()) >= 2
            os.kill(server_pid(), signal.SIGKILL)
            await until(lambda: core.journal is not old and len(core.journal) >= len(old))
            annunciations.catch_up()
            assert annunciations.by_priority == counted

    run(work())


def test_a_server_that_is_killed_while_nothing_is_asked_of_it(config: Config) -> None:
    async def work() -> None:
        async with served(config_for(config.alarmd, config.plant, period_ms=3_600_000)) as core:
            await busy(core)
            before, rows, events = (
                core.state.listing(),
                list(core.journal.lines()),
                core.state.events,
            )
            old = core.state
            os.kill(server_pid(), signal.SIGKILL)
            await until(lambda: core.state is not old and not len(core.troubles) > 1)
            assert core.state.listing() == before
            assert list(core.journal.lines()) == rows
            assert core.state.events == events

    run(work())


def test_an_order_under_way_when_the_server_ends_is_answered(config: Config) -> None:
    async def work() -> None:
        config_slow = config_for(config.alarmd, config.plant, period_ms=60_000)
        async with served(config_slow) as core:
            await give(core, running=1, level=100)
            await core.drain()
            os.kill(server_pid(), signal.SIGSTOP)
            asked = asyncio.create_task(core.order(Order(Verb.ACK, 1, "LAL-101")))
            await asyncio.sleep(0.2)
            os.kill(server_pid(), signal.SIGKILL)
            assert (await asked).lines[1].endswith("LAL-101 UNACK ACKED")
            rows = [line.split(" ", 2)[2] for line in core.journal.lines()]
            assert rows.count("ORDER 1 ack LAL-101 OK") == 1

    run(work())


def test_a_server_that_is_silent_is_started_again(config: Config) -> None:
    async def work() -> None:
        async with served(config) as core:
            await give(core, running=1, level=100)
            await core.drain()
            pid = server_pid()
            core._link._server._slice = 0.1  # the next one has the patience of the configuration
            os.kill(pid, signal.SIGSTOP)
            assert (await core.order(Order(Verb.ACK, 1, "LAL-101"))).taken
            assert server_pid() != pid

    run(work())


def test_a_silence_before_a_reload_that_is_not_asked_ends(
    config: Config, monkeypatch: pytest.MonkeyPatch
) -> None:
    """Also where no scan comes for an hour, which would end it."""

    async def work() -> None:
        async with served(dataclasses.replace(config, period_ms=3_600_000)) as core:
            await give(core, running=1, level=100)
            await until(lambda: core.state.scanned)
            held = core._link._server

            async def slow(command: str | bytes) -> list[str]:
                held.late(3.0)
                assert TroubleKind.SILENCE in kinds(core)
                return [NO_COMMAND]

            monkeypatch.setattr(held, "ask", slow)
            with pytest.raises(NoReload, match="knows no `reload`"):
                await core.reload(plants.texts_of(config.plant))
            assert TroubleKind.SILENCE not in kinds(core)

    run(work())


def alive(pid: int) -> bool:
    """Whether a process is there, and no zombie."""
    try:
        return "State:\tZ" not in Path(f"/proc/{pid}/status").read_text()
    except (FileNotFoundError, ProcessLookupError):
        return False


def test_a_silent_server_behind_a_script_is_ended_too(config: Config, tmp_path: Path) -> None:
    script = tmp_path / "script"
    script.write_text("#!/bin/sh\nsleep 100000 &\necho $! >$0.pid\nwait\n")
    script.chmod(0o755)

    async def work() -> None:
        with pytest.raises(ServerGone, match="no answer in 5 s"):
            await Core.start(config_for(script, config.plant, patience_ms=5000))

    run(work())
    pid = int((tmp_path / "script.pid").read_text())
    end = time.monotonic() + LIMIT
    while alive(pid):
        assert time.monotonic() < end
        time.sleep(0.05)


def test_a_server_that_is_slow_is_told(config: Config, monkeypatch: pytest.MonkeyPatch) -> None:
    """Before it is given up: what is shown meanwhile is old."""

    async def work() -> None:
        async with served(config) as core:
            await give(core, running=1, level=100)
            await core.drain()
            pid = server_pid()
            core._link._server._slice = 0.05
            monkeypatch.setattr(server, "_SLICES", 10_000)
            os.kill(pid, signal.SIGSTOP)
            await until(lambda: TroubleKind.SILENCE in kinds(core))
            events = core.state.events
            os.kill(pid, signal.SIGCONT)
            await until(lambda: core.state.events > events)
            assert TroubleKind.SILENCE not in kinds(core) and server_pid() == pid

    run(work())


def test_what_holds_the_gateway_up_is_no_silence(config: Config) -> None:
    async def work() -> None:
        slow = config_for(config.alarmd, config.plant, period_ms=3_600_000, restarts=0)
        async with served(slow) as core:
            await give(core, running=1, level=100)
            await core.drain()
            core._link._server._slice = 0.5
            asked = asyncio.create_task(core.order(Order(Verb.ACK, 1, "LAL-101")))
            await asyncio.sleep(0)
            await asyncio.sleep(0)
            time.sleep(6)  # the loop stands still for longer than the patience
            assert (await asked).taken

    run(work())


def test_a_server_that_ends_again_and_again_ends_the_core(config: Config) -> None:
    async def work() -> None:
        core = await Core.start(config_for(config.alarmd, config.plant, restarts=0))
        working = asyncio.create_task(core.run())
        await give(core, level=100)
        await core.drain()
        os.kill(server_pid(), signal.SIGKILL)
        with pytest.raises(GatewayFault, match="SIGKILL") as fault:
            await working
        assert fault.value.status == 1
        with pytest.raises(ServerGone):
            await core.order(Order(Verb.ACK, 1, "LAL-101"))

    run(work())


def test_an_end_while_the_record_is_played_waits_for_no_server(
    config: Config, monkeypatch: pytest.MonkeyPatch
) -> None:
    """As one that waits for a reader of its answers."""

    async def work() -> None:
        playing = asyncio.Event()

        async def stuck(server: Server, *_: object) -> None:
            os.kill(server.pid, signal.SIGSTOP)
            playing.set()
            await asyncio.Event().wait()

        monkeypatch.setattr(link, "play", stuck)
        starting = asyncio.create_task(Core.start(config))
        await playing.wait()
        starting.cancel()
        await asyncio.gather(starting, return_exceptions=True)
        assert starting.cancelled()

    run(work())


def test_of_an_order_in_the_record_it_isnt_said_that_it_wasnt_taken(config: Config) -> None:
    """With it the next start goes on."""

    async def work() -> None:
        slow = config_for(config.alarmd, config.plant, restarts=0, period_ms=3_600_000)
        core = await Core.start(slow)
        working = asyncio.create_task(core.run())
        await give(core, level=100)
        await core.drain()
        os.kill(server_pid(), signal.SIGSTOP)
        asked = asyncio.create_task(core.order(Order(Verb.ACK, 1, "LAL-101")))
        await until(lambda: "ack 1 LAL-101" in config.record.read_text())
        os.kill(server_pid(), signal.SIGKILL)
        with pytest.raises(ServerGone, match="SIGKILL, so it isn't known whether the order"):
            await asked
        with pytest.raises(GatewayFault, match="SIGKILL$"):
            await working

    run(work())


def test_where_no_moment_is_known_samples_are_not_waited_for(alarmd: Path, tmp_path: Path) -> None:
    """As at the end of an input at which nobody can answer any more."""

    async def work() -> None:
        config = config_for(alarmd, plant_copy("tank", tmp_path, "2399-01-01T00:00:00Z"))
        async with served(config) as core:
            await give(core, level=100)
            waiting = asyncio.create_task(core.order(Order(Verb.ACK, 1, "LAL-101")))
            await asyncio.sleep(0)
            await core.drain()
            assert (await waiting).code == "O3" and not core.state.scanned

    run(work())


def test_how_often_a_server_is_started_again_is_counted_from_its_last_answer(
    config: Config,
) -> None:
    async def work() -> None:
        async with served(config_for(config.alarmd, config.plant, restarts=1)) as core:
            for number in range(3):
                await give(core, running=number % 2, level=100)
                await core.drain()
                old = core.state
                os.kill(server_pid(), signal.SIGKILL)
                await until(lambda: core.state is not old)
                assert (await core.order(Order(Verb.ACK, 1, "NONE"))).code == "O1"

    run(work())


def test_the_next_start_goes_on_from_the_record(config: Config) -> None:
    async def work() -> None:
        slow = config_for(config.alarmd, config.plant, period_ms=3_600_000)  # the order is last
        async with served(slow) as core:
            await busy(core)
            before = core.state.listing()
            stopped = core.state.stopped
        async with served(slow) as core:
            assert core.state.listing() == before
            assert core.state.stopped == stopped
            assert core.last is not None
            assert core.last.answer[0] == "REPLY OK"
            kinds = [trouble.kind for trouble in core.troubles]
            assert kinds == [TroubleKind.STOPPED]
            assert "control.st, line 21" in list(core.troubles)[0].text
            assert (await core.order(Order(Verb.RESTART, 1, "DOSE"))).taken
            assert list(core.troubles) == []

    run(work())


def test_a_command_is_on_the_disk_before_it_is_sent(
    config: Config, monkeypatch: pytest.MonkeyPatch
) -> None:
    seen: list[str] = []
    sync, ask = os.fsync, Server.ask

    def fsync(descriptor: int) -> None:
        sync(descriptor)
        seen.append(f"disk {config.record.read_text().splitlines()[-1]}")

    async def asked(server: Server, command: str) -> list[str]:
        seen.append(f"sent {command}")
        return await ask(server, command)

    async def work() -> None:
        async with served(config) as core:
            monkeypatch.setattr(os, "fsync", fsync)
            monkeypatch.setattr(Server, "ask", asked)
            await give(core, running=1, level=100)
            await core.drain()
            await core.order(Order(Verb.ACK, 1, "LAL-101"), "anna")

    run(work())
    assert len(seen) > 3
    for disk, sent in zip(seen[::2], seen[1::2], strict=True):
        assert (disk[:5], sent[:5], disk[5:]) == ("disk ", "sent ", sent[5:])


def test_a_disk_that_hangs_is_told(config: Config, monkeypatch: pytest.MonkeyPatch) -> None:
    """As one whose controller tries again for minutes: displays are served meanwhile, and what they show is old."""
    sync, door = os.fsync, threading.Event()

    def fsync(descriptor: int) -> None:
        door.wait(400)
        sync(descriptor)

    async def work() -> None:
        async with served(config) as core:
            await busy(core)
            object.__setattr__(config, "patience_ms", 300)  # alarmd itself goes on with the old one
            monkeypatch.setattr(os, "fsync", fsync)
            await until(lambda: TroubleKind.SILENCE in kinds(core))
            events = core.state.events
            object.__setattr__(config, "patience_ms", 400_000)
            door.set()
            await until(lambda: core.state.events > events)
            assert TroubleKind.SILENCE not in kinds(core)

    try:
        run(work())
    finally:
        door.set()


def test_a_disk_that_hangs_under_a_remark_is_told(
    alarmd: Path, tmp_path: Path, monkeypatch: pytest.MonkeyPatch
) -> None:
    """Nothing is scanned meanwhile either. So it is where a new record is written."""
    sync, door = os.fsync, threading.Event()

    def fsync(descriptor: int) -> None:
        door.wait(400)
        sync(descriptor)

    async def work() -> None:
        config = config_for(alarmd, plant_copy("tank", tmp_path), period_ms=3_600_000)
        async with served(config) as core:
            monkeypatch.setattr(os, "fsync", fsync)
            object.__setattr__(config, "patience_ms", 300)
            noting = asyncio.create_task(core._link.note("a remark"))
            await until(lambda: TroubleKind.SILENCE in kinds(core))
            door.set()
            await noting
            assert TroubleKind.SILENCE not in kinds(core)
            monkeypatch.undo()

    try:
        run(work())
    finally:
        door.set()


def test_a_record_that_is_moved_is_told_and_goes_on(config: Config) -> None:
    async def work() -> None:
        async with served(config) as core:
            await busy(core)
            os.rename(config.record, f"{config.record}.old")
            for other in (False, True):
                if other:  # another file takes its name
                    config.record.touch()
                await until(lambda: TroubleKind.RECORD in kinds(core))
                before, old = core.state.events, core.journal
                os.kill(server_pid(), signal.SIGKILL)
                await until(lambda: core.journal is not old and core.state.events > before)
                assert (await core.order(Order(Verb.ACK, 1, "NONE"))).code == "O1"
                with pytest.raises(GatewayFault, match="isn't the record any more"):
                    await core._link._log.succeed([])
            os.rename(f"{config.record}.old", config.record)
            await until(lambda: TroubleKind.RECORD not in kinds(core))
        assert by_core(core) == by_record(config)

    run(work())


def test_a_server_is_started_again_with_what_was_served(config: Config) -> None:
    """Also where the plant's files have changed by then, as those of an engineer who will ask for a reload."""
    control = config.plant.parent / "control.st"
    text = control.read_bytes()

    async def work() -> None:
        async with served(config) as core:
            await give(core, running=1, level=100)
            await core.drain()
            control.write_text("PROGRAM half")
            for _ in range(2):
                before, old = core.state.events, core.journal
                os.kill(server_pid(), signal.SIGKILL)
                await until(lambda: core.journal is not old and core.state.events > before)
                assert core.state.inputs["level"] == 100
            (kept,) = Path(f"{config.record}.plants").iterdir()
            assert (kept / "control.st").read_bytes() == text
        async with served(config) as core:  # and so is a gateway
            assert core.state.inputs["level"] == 100

    run(work())


def test_a_server_is_not_started_again_with_other_files(config: Config) -> None:
    folder = config.plant.parent
    os.rename(folder / "control.st", folder.parent / "control.st")  # outside it can't be kept
    config.plant.write_text(config.plant.read_text().replace("control.st", "../control.st"))

    async def work() -> None:
        core = await Core.start(config)
        working = asyncio.create_task(core.run())
        await give(core, running=1, level=100)
        await core.drain()
        with open(folder.parent / "control.st", "a") as file:
            file.write("\n")
        os.kill(server_pid(), signal.SIGKILL)
        told = "control.st has changed since the record began.*outside of its folder"
        with pytest.raises(GatewayFault, match=told) as fault:
            await working
        assert fault.value.status == 2

    run(work())
