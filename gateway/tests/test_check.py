"""`gateway check CONFIG` and `serve --check`: what is wrong is told before anything is served, with the status of `serve`."""

from __future__ import annotations

import os
import re
import shutil
import subprocess
from pathlib import Path

import pytest
from around import LIMIT, ROOT, Gateway, config_file, plant_copy, run
from http_help import cheap_hash
from reload_help import FIRST, READING, Small

from alarmd_gateway.commands import Reload
from alarmd_gateway.link import entry_of

pytestmark = pytest.mark.server


@pytest.fixture
def plant(tmp_path: Path) -> Path:
    return plant_copy("tank", tmp_path)


@pytest.fixture
def config(alarmd: Path, plant: Path) -> Path:
    return config_file(alarmd, plant)


def check(config: Path) -> tuple[int, str, str]:
    """The status and both outputs of `gateway check`."""
    words = [str(ROOT / "gateway" / "gateway"), "check", str(config)]
    done = subprocess.run(words, capture_output=True, text=True, timeout=LIMIT, check=False)
    return done.returncode, done.stdout, done.stderr


def add(config: Path, text: str) -> None:
    config.write_text(config.read_text() + text)


def test_a_plant_that_can_be_served_is_told_as_accepted(config: Path) -> None:
    assert check(config) == (0, "ACCEPTED PROGRAMS 4 ALARMS 5\n", "")
    assert not (config.parent / "record").exists()  # nothing was begun


def test_its_model_is_judged_too(config: Path, plant: Path) -> None:
    add(config, '[simulate]\nmodel = "plant/model/plant.toml"\n')
    status, out, _ = check(config)
    assert (status, out.splitlines()[1:]) == (0, ["ACCEPTED PROGRAMS 1 ALARMS 0"])
    model = plant.parent / "model" / "model.st"
    model.write_text(re.sub(r"\blevel\b", "height", model.read_text()))
    assert check(config)[0] == 0  # flow and temperature bear names still
    shutil.copy(plant, plant.parent / "model" / "plant.toml")
    assert check(config)[0] == 3  # whose sources aren't there


def test_a_certificate_that_ends_is_told(config: Path) -> None:
    words = "openssl req -x509 -newkey rsa:2048 -nodes -days 3 -subj /CN=page".split()
    files = ["-keyout", str(config.parent / "page.key"), "-out", str(config.parent / "page.pem")]
    subprocess.run([*words, *files], check=True, capture_output=True)
    add(config, '[web]\ncertificate = "page.pem"\nkey = "page.key"\n')
    status, out, said = check(config)
    assert (status, out) == (0, "ACCEPTED PROGRAMS 4 ALARMS 5\n")
    assert said.startswith("warning: the page's certificate ends ") and said.count("\n") == 1


def test_a_fifo_in_the_place_of_the_map_is_refused(config: Path) -> None:
    os.mkfifo(config.parent / "map.toml")
    add(config, '[fields]\nmap = "map.toml"\n')
    status, out, said = check(config)
    assert (status, out) == (2, "") and "map.toml: it is no ordinary file" in said


def test_an_area_that_no_user_sees_is_told(config: Path) -> None:
    """Its alarms would stand on nobody's page."""
    add(config, '[web]\nusers = "users.toml"\n')
    users = config.parent / "users.toml"
    password = f'password = "{cheap_hash("x").text()}"'
    for consoles, told in (("[2]", "tank"), ("[1]", ""), ("[1, 2]", "")):
        users.write_text(f'[[user]]\nname = "anna"\nconsoles = {consoles}\n{password}\n')
        line = f"warning: no user sees the alarms of area '{told}'\n" if told else ""
        assert check(config)[0::2] == (0, line)


def test_warnings_are_told(config: Path, plant: Path) -> None:
    points = plant.parent / "points.st"
    points.write_text(points.read_text().replace("VAR_GLOBAL", "VAR_GLOBAL\n  idle : BOOL;", 1))
    status, out, err = check(config)
    assert status == 0 and out.startswith("ACCEPTED") and "idle" in err


def test_a_refused_plant_is_status_3_with_its_words(config: Path, plant: Path) -> None:
    plant.write_text(plant.read_text().replace('"watch.st"', '"watsch.st"'))
    status, out, err = check(config)
    assert status == 3 and out == ""
    assert "SERVER alarmd refuses the plant: FILE" in err and "watsch.st" in err


WRONG = [
    ("[fields]\nmap = 'map.toml'\n", "map.toml: No such file"),
    ("[web]\nlisten = '192.0.2.1:80'\n", "beyond this machine"),
    ("[web]\nusers = 'users.toml'\n", "users.toml"),
    ("[web]\nlisten = '127.0.0.1'\n", "listen"),
    ("[etcd]\nlog = 'tank'\n", "lacks"),
    ("[wbe]\nlisten = '127.0.0.1:0'\n", "'wbe', unknown"),
    ("[simulate]\nmodel = 'model.toml'\n", "FILE"),
]


@pytest.mark.parametrize("text,told", WRONG)
def test_what_serve_would_refuse_is_refused(config: Path, text: str, told: str) -> None:
    add(config, text)
    status, out, err = check(config)
    assert (status, out) == (3 if "simulate" in text else 2, "")
    assert told in err and err.splitlines()[-1].startswith("SERVER ")


def test_a_missing_alarmd_is_status_2(config: Path, alarmd: Path) -> None:
    config.write_text(config.read_text().replace(str(alarmd), "/nowhere/alarmd"))
    status, _, err = check(config)
    assert status == 2 and "can't be started" in err


def test_a_record_has_to_be_of_this_plant(config: Path, plant: Path) -> None:
    assert run(config, "running=TRUE level=250\n")[0] == 0
    before = (config.parent / "record").read_bytes()
    assert check(config)[0] == 0
    alarms = plant.parent / "alarms.csv"
    alarms.write_text(alarms.read_text() + "\n")
    status, _, err = check(config)
    assert status == 2 and "alarms.csv has changed since it began" in err
    assert (config.parent / "record").read_bytes() == before


def test_a_record_is_a_copy_where_a_log_is_shared_and_else_none(config: Path) -> None:
    assert run(config, "running=TRUE level=250\n")[0] == 0
    record, copy = config.parent / "record", config.parent / "record.1"
    whole, alone = record.read_text(), config.read_text()
    copy.write_text(whole)
    add(config, "[etcd]\nendpoints = ['http://127.0.0.1:1']\nlog = 'l'\ngateway = 'g'\n")
    status, _, err = check(config)
    assert status == 2 and "record.1 is no copy of this log" in err
    copy.write_text(whole.replace('"}}\n', '"}, "log": "a1"}\n', 1))
    assert check(config)[0] == 0  # of which log it is etcd alone knows
    os.rename(copy, record)
    config.write_text(alone)
    status, _, err = check(config)
    assert status == 2 and "is a copy of a log that gateways share" in err
    assert run(config, "list\n")[0] == 2


def test_a_record_without_an_end_is_none(config: Path) -> None:
    config.write_text(config.read_text().replace('"record"', '"/dev/full"'))  # bytes 0, for ever
    words = ["sh", "-c", f"ulimit -v 2000000; exec '{ROOT}/gateway/gateway' check '{config}'"]
    done = subprocess.run(words, capture_output=True, text=True, timeout=LIMIT, check=False)
    assert done.returncode == 2 and "is no record of a gateway" in done.stderr


@pytest.mark.parametrize("torn", ["", "# gat", '# gateway record {"files": {"pla'])
def test_a_record_whose_first_line_is_not_whole_is_begun(config: Path, torn: str) -> None:
    (config.parent / "record").write_text(torn)
    assert check(config)[0] == 0
    assert run(config, "running=TRUE level=250\n", "--check")[0] == 0
    assert check(config)[0] == 0


@pytest.mark.parametrize(
    "etcd", ["", "[etcd]\nendpoints = ['http://127.0.0.1:1']\nlog = 'l'\ngateway = 'g'\n"]
)
def test_a_record_wants_its_folder(config: Path, etcd: str) -> None:
    config.write_text(config.read_text().replace('"record"', '"nowhere/record"') + etcd)
    status, _, err = check(config)
    assert status == 2 and "nowhere/record" in err and "No such file" in err
    if not etcd:
        assert run(config, "")[0] == 2


def test_serve_checks_first_where_it_is_told(config: Path, plant: Path) -> None:
    points = plant.parent / "points.st"
    points.write_text(points.read_text().replace("VAR_GLOBAL", "VAR_GLOBAL\n  idle : BOOL;", 1))
    status, out, err = run(config, "running=TRUE level=250\n", "--check")
    assert status == 0 and "idle" in "\n".join(err)
    assert not any(line.startswith("ACCEPTED") for line in out)
    add(config, "[fields]\nmap = 'map.toml'\n")
    status, out, err = run(config, "", "--check")
    assert status == 2 and not out and "map.toml" in err[-1]


def taken_up(folder: Path, other: Small) -> Path:
    """A configuration of a record in which a plant was taken up, and a gateway that has ended."""
    config = config_file(READING, Small().write(folder / "plant"), console=True)
    gateway = Gateway(config, "--yes")
    gateway.give("a=5\n")
    gateway.wait_for("ALARM .* T1 NORM UNACK")
    other.write(folder / "plant")
    words = [str(ROOT / "gateway" / "gateway"), "reload", str(config)]
    assert subprocess.run(words, timeout=LIMIT, capture_output=True, check=False).returncode == 0
    gateway.end_input()
    assert gateway.wait() == 0
    return config


def test_files_that_are_half_changed_do_no_harm_once_a_plant_was_taken_up(tmp_path: Path) -> None:
    config = taken_up(tmp_path, Small(30))
    assert check(config) == (0, "ACCEPTED PROGRAMS 1 ALARMS 1\n", "")
    (tmp_path / "plant" / "p.st").write_text("PROGRAM p (* x")
    status, out, err = check(config)
    assert (status, out) == (0, "ACCEPTED PROGRAMS 1 ALARMS 1\n")
    assert err.splitlines()[-1].startswith("SERVER alarmd refuses the plant: CONFIG C4 p.st")
    status, lines, told = run(config, "a=2\nlist\n", "--check")
    assert status == 0 and "END 2" in lines, told
    assert any("p.st isn't what is served" in line for line in told)
    shutil.rmtree(tmp_path / "plant")
    assert check(config)[0] == 0 == run(config, "list\n", "--check")[0]
    shutil.rmtree(tmp_path / "record.plants")
    assert check(config)[0] == 3 == run(config, "list\n")[0]


def test_the_map_is_judged_by_the_plant_that_would_be_served(tmp_path: Path) -> None:
    more = f"{FIRST} b AT %ID1 : DINT;"
    config = taken_up(tmp_path, Small(variables=more))
    add(config, '[fields]\nmap = "map.toml"\n')
    map_file = tmp_path / "map.toml"
    for changed in (Small(), Small(variables=f"{more} d AT %ID2 : DINT;")):
        changed.write(tmp_path / "plant")  # and not taken up
        map_file.write_text("[stale_ms]\nb = 60000\n")
        assert check(config)[0] == 0
        gateway = Gateway(config)
        gateway.give("list\n")
        gateway.wait_for("^END 2")
        gateway.process.terminate()
        assert gateway.wait() == 0
        map_file.write_text("[stale_ms]\nd = 60000\n")
        assert check(config)[0] == 2 == run(config, "list\n")[0]


def test_a_reload_that_was_refused_is_no_plant_that_would_be_served(tmp_path: Path) -> None:
    config = taken_up(tmp_path, Small(30))
    other = Small(variables=f"{FIRST} b AT %ID1 : DINT;", consoles=((1, "north"),))
    texts = other.texts(tmp_path / "other")
    with open(tmp_path / "record", "ab") as file:
        file.write(entry_of(Reload(texts)).recorded())
    add(config, '[fields]\nmap = "map.toml"\n')
    (tmp_path / "map.toml").write_text("[stale_ms]\nb = 60000\n")
    assert check(config)[0] == 2 == run(config, "list\n")[0]


def place_of(config: Path, what: str) -> None:
    """Puts something in the place of the record, or beside it, that a gateway can't have there."""
    record, text = config.parent / "record", config.read_text()
    if what.startswith('"'):
        config.write_text(text.replace('"record"', what))
    elif what == "fifo":
        os.mkfifo(record)
    elif what == "folder":
        record.mkdir()
    elif what == "loop":
        record.symlink_to("record2")
        (config.parent / "record2").symlink_to("record")
    elif what == "socket":
        (config.parent / "record.socket").write_text("somebody's")


PLACES = [
    ("fifo", "no ordinary file"),
    ('"/dev/null"', "no ordinary file"),
    ("folder", "no ordinary file"),
    ("loop", "Too many levels"),
    ("socket", "record.socket is no socket"),
    ('"record\\u0000"', "no path has a byte 0"),
    (f'"{"r" * 81}"', "whose last part has 1 to 80 bytes"),
    ('"/"', "whose last part has 1 to 80 bytes"),
]


@pytest.mark.parametrize("what,told", PLACES)
def test_what_no_gateway_can_have_as_its_record(config: Path, what: str, told: str) -> None:
    place_of(config, what)
    status, out, err = check(config)
    assert (status, out) == (2, "") and told in err and err.count("\n") == 1
    status, _, lines = run(config, "running=TRUE level=250\n")
    assert (status, len(lines)) == (2, 1) and told in lines[0]
    assert what != "socket" or (config.parent / "record.socket").read_text() == "somebody's"


def test_a_long_name_is_a_sockets_too(config: Path) -> None:
    folder = config.parent / ("f" * 100)
    folder.mkdir()
    config.write_text(config.read_text().replace('"record"', f'"{folder}/{"r" * 80}"'))
    assert check(config)[0] == 0 == run(config, "running=TRUE level=250\n")[0]
