"""`gateway reload`: the command line, its socket, and a gateway as a process around them."""

from __future__ import annotations

import json
import os
import socket
import stat
import subprocess
import threading
from pathlib import Path

import pytest
from around import ROOT, Gateway, config_file
from reload_help import READING, WITHOUT, Small, latched, reloads

from alarmd_gateway import config as configs
from alarmd_gateway import plant as plants
from alarmd_gateway.reload import ask
from alarmd_gateway.reloading import short, socket_path

__all__ = ["reloads"]


def asked(config: Path, *words: str) -> tuple[int, str, str]:
    """`gateway reload`: its status, and what it printed."""
    done = subprocess.run(
        [ROOT / "gateway" / "gateway", "reload", str(config), *words],
        capture_output=True,
        timeout=600,
        check=False,
    )
    return done.returncode, done.stdout.decode(), done.stderr.decode()


@pytest.fixture
def folder(tmp_path: Path) -> Path:
    return tmp_path / "plant"


def started(program: Path, folder: Path) -> tuple[Path, Gateway]:
    """A gateway whose T1 is an alarm."""
    config = config_file(program, Small().write(folder), console=True)
    gateway = Gateway(config, "--yes")
    gateway.give("a=5\n")
    gateway.wait_for("ALARM .* T1 NORM UNACK")
    return config, gateway


def test_a_changed_plant_is_taken_up(reloads: Path, folder: Path) -> None:
    config, gateway = started(reloads, folder)
    try:
        Small(30, rows=latched()).write(folder)
        assert asked(config, "--reason", "a larger\tpump") == (0, "RELOADED KEPT 0 NEW 1\n", "")
        gateway.wait_for("another plant is served", gateway.err)
        gateway.give("journal\nlist\n")
        gateway.wait_for("RELOAD KEPT 0 NEW 1")
        gateway.wait_for("COUNT north 2 NORM 1")
        path = folder.parent / "record.socket"
        assert stat.S_IMODE(os.stat(path).st_mode) == 0o600
        Small(10, consoles=((1, "north"),)).write(folder)
        status, out, _ = asked(config)
        assert (status, out) == (3, "REFUSED E7\n")
        gateway.end_input()
        assert gateway.wait() == 0
        assert not path.exists()
        text = (folder.parent / "record").read_text()
        assert '"reason": "a larger pump"' in text
    finally:
        gateway.kill()


def test_the_end_of_a_gateway_leaves_the_socket_of_another_one(folder: Path) -> None:
    """Which may be there where the record was moved, and a new one begun."""
    config, first = started(READING, folder)
    try:
        os.rename(folder.parent / "record", folder.parent / "old")
        config, second = started(READING, folder)
        try:
            first.end_input()
            assert first.wait() == 0
            assert asked(config)[:2] == (0, "RELOADED KEPT 1 NEW 0\n")
        finally:
            second.kill()
    finally:
        first.kill()


def test_a_refused_plant_is_told_and_not_asked(reloads: Path, folder: Path) -> None:
    config, gateway = started(reloads, folder)
    try:
        (folder / "p.st").write_text("PROGRAM p (* x")
        status, out, error = asked(config)
        assert (status, out) == (3, "") and "CONFIG C4 p.st 1 11" in error
        os.unlink(folder / "p.st")
        assert asked(config)[0] == 3
    finally:
        gateway.kill()
    assert b"\nreload" not in (folder.parent / "record").read_bytes()


def test_nobody_serves(folder: Path) -> None:
    config = config_file(READING, Small().write(folder))
    status, out, error = asked(config)
    assert (status, out) == (2, "") and "no gateway serves this configuration" in error
    (folder.parent / "record.socket").touch()
    assert asked(config)[0] == 2


@pytest.mark.parametrize("words", [["--reason", "x" * 201], ["--reason", "\x07"], ["--force"], []])
def test_wrong_words(folder: Path, words: list[str]) -> None:
    config = config_file(READING, Small().write(folder))
    given = [str(config), *words] if words else []
    command = [str(ROOT / "gateway" / "gateway"), "reload", *given]
    done = subprocess.run(command, capture_output=True, timeout=600, check=False)
    assert done.returncode == 2 and done.stdout == b""


def test_a_server_without_the_command(folder: Path, monkeypatch: pytest.MonkeyPatch) -> None:
    monkeypatch.setenv(WITHOUT, "1")
    config, gateway = started(READING, folder)
    try:
        status, out, error = asked(config)
        assert (status, out) == (2, "") and "knows no `reload`" in error
        gateway.give("ack 1 T1\n")
        gateway.wait_for("REPLY OK")
    finally:
        gateway.kill()


def test_a_user_without_a_name_is_told_by_number(
    folder: Path, monkeypatch: pytest.MonkeyPatch
) -> None:
    for name in ("LOGNAME", "USER", "LNAME", "USERNAME"):
        monkeypatch.delenv(name, raising=False)
    monkeypatch.setattr("pwd.getpwuid", {}.__getitem__)  # no name of any number
    plant = Small().write(folder)
    config = configs.read(config_file(READING, plant))
    heard: list[dict[str, str | None]] = []

    def gateway(listening: socket.socket) -> None:
        connection, _ = listening.accept()
        with connection, connection.makefile("rwb") as file:
            heard.append(json.loads(file.readline()))
            file.read(sum(map(int, file.readline().split()[1:])))
            file.write(b"RELOADED KEPT 1 NEW 0\n")

    with socket.socket(socket.AF_UNIX) as listening, short(socket_path(config)) as path:
        listening.bind(path)
        listening.listen()
        answering = threading.Thread(target=gateway, args=(listening,), daemon=True)
        answering.start()
        assert ask(config, plants.texts_of(plant), None) == "RELOADED KEPT 1 NEW 0"
        answering.join()
    assert heard == [{"user": str(os.getuid()), "reason": None}]


def test_whoever_connects_and_says_something_else(folder: Path) -> None:
    config, gateway = started(READING, folder)
    whole = b'{"user": "anna"}\nreload 5 0 1\n123456'
    given = [b"", b"x", b"\n\n", b"{}\nscan 5\n", b"[]\nreload 0 0\n", b"{}\nreload 1048577 0\n"]
    given += [b"\xff" * 100_000, *(whole[:at] for at in range(0, len(whole), 5))]
    try:
        for text in given:
            with socket.socket(socket.AF_UNIX) as one:
                one.settimeout(60)
                with short(folder.parent / "record.socket") as path:
                    one.connect(path)
                try:
                    one.sendall(text)
                    one.shutdown(socket.SHUT_WR)
                    assert one.recv(100) == b"", text
                except ConnectionError:
                    pass
        Small(30).write(folder)
        assert asked(config)[:2] == (0, "RELOADED KEPT 1 NEW 0\n")
    finally:
        gateway.kill()


def test_a_long_path_has_a_socket_too(tmp_path: Path) -> None:
    deep = tmp_path / ("x" * 90) / ("y" * 90)
    config, gateway = started(READING, deep / "plant")
    try:
        Small(30).write(deep / "plant")
        assert asked(config)[:2] == (0, "RELOADED KEPT 1 NEW 0\n")
    finally:
        gateway.kill()
