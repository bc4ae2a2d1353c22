"""`gateway serve` as a process: its input and its output, its ends, its questions at the start."""

from __future__ import annotations

import os
import pty
import re
import resource
import shutil
import signal
import subprocess
import sys
import termios
import time
from pathlib import Path

import pytest
from around import LIMIT, ROOT, Gateway, config_file, plant_copy, run

pytestmark = pytest.mark.server


@pytest.fixture
def plant(tmp_path: Path) -> Path:
    return plant_copy("tank", tmp_path)


@pytest.fixture
def config(alarmd: Path, plant: Path) -> Path:
    return config_file(alarmd, plant)


def server_lines(lines: list[str]) -> list[str]:
    return [line for line in lines if line.startswith("SERVER ")]


def commands(config: Path) -> list[str]:
    lines = (config.parent / "record").read_text().splitlines()
    return [re.sub(r"^scan \d+", "scan", line) for line in lines if not line.startswith("#")]


@pytest.mark.parametrize("end", ["\n", ""])
def test_samples_before_the_end_of_input_are_taken(config: Path, end: str) -> None:
    status, out, err = run(config, f"running=TRUE level=250{end}")
    assert status == 0
    assert commands(config)[0] == "scan running=TRUE level=250"
    moment = (config.parent / "record").read_text().splitlines()[1].split()[1]
    first = [line for line in out if line.split()[1] == moment]
    later = [line.split()[0::2] for line in out if line not in first]
    assert out[: len(first)] == first
    assert [line.split()[0] for line in first] == ["FAULT", "ALARM", "OUT"]
    assert later in ([], [["ALARM", "FAL-103", "UNACK"]])  # of scans that come while it ends
    assert server_lines(err) == err


def test_an_order_without_its_line_end_is_taken(config: Path) -> None:
    status, out, _ = run(config, "running=1 level=250\nack 1 LAL-101")
    assert status == 0
    assert any(line.startswith("REPLY ") for line in out)
    assert "ack 1 LAL-101" in commands(config)


BUSY = """
PROGRAM {}
  VAR i, n : DINT; END_VAR
  FOR i := 1 TO 10000 DO n := i; END_FOR;
END_PROGRAM
"""

ROUNDS = [  # what is given, and what comes of it, without the moments
    ("running=TRUE level=250 flow=100", ["ALARM LAL-101 NORM UNACK", "OUT pump TRUE"]),
    ("ack 1 LAL-101", ["REPLY OK", "ALARM LAL-101 UNACK ACKED"]),
    ("level=420", ["ALARM LAL-101 ACKED NORM", "OUT heater TRUE"]),
    ("additive=3000", ["ALARM RAH-104 NORM UNACK", "OUT ratio 30"]),
    ("flow=0", ["FAULT dose 1 DIVZERO", "ALARM FAL-103 NORM UNACK"]),  # at the second such scan
    ("flow=200", ["ALARM FAL-103 UNACK RTNUN"]),
    ("restart 1 dose", ["REPLY OK", "ALARM RAH-104 UNACK RTNUN", "OUT ratio 15"]),
]


@pytest.mark.parametrize("workers", [1, 2])
def test_answers_are_the_same_whoever_runs_the_programs(
    alarmd: Path, plant: Path, workers: int
) -> None:
    with open(plant.parent / "control.st", "a") as file:  # so much that workers share it
        file.write(BUSY.format("busy") + BUSY.format("as_busy"))
    gateway = Gateway(config_file(alarmd, plant, workers=workers))
    wanted: list[str] = []
    for line, answers in ROUNDS:
        gateway.give(f"{line}\n")
        kind, rest = answers[-1].split(" ", 1)
        gateway.wait_for(rf"^{kind} \d+ {rest}$", after=len(wanted))
        wanted += answers
    assert len(os.listdir(f"/proc/{gateway.server_pid()}/task")) == workers
    gateway.end_input()
    assert gateway.wait() == 0
    assert [re.sub(r"^(\w+) \d+ ", r"\1 ", line) for line in gateway.out] == wanted


def test_the_last_commands_answer_is_shown_at_the_start(config: Path) -> None:
    gateway = Gateway(config)
    gateway.give("running=1 level=250\n")
    gateway.wait_for("LAL-101 NORM UNACK")
    gateway.kill()
    with open(config.parent / "record", "a") as file:
        file.write("ack 1 LAL-101\n")  # as if it had been written, and nobody had seen its answer
    status, out, _ = run(config, "")
    assert status == 0
    assert out[0] == "REPLY OK"
    assert re.fullmatch(r"ALARM \d+ LAL-101 UNACK ACKED", out[1])


ANSWERS = [
    ("akc 1 LAL-101", r"REFUSED L1: no command is called 'akc'; did you mean 'ack'"),
    ("foo", r"REFUSED L1: no command is called 'foo'; `help` tells all"),
    ("ack LAL-101 1", r"REFUSED L1: ack wants another form: ack CONSOLE TAG"),
    ("ack 1", r"REFUSED L1: ack wants another form"),
    ("shelve 1 LAL-101 5s", r"REFUSED L1: shelve wants another form: shelve CONSOLE TAG MS"),
    ("journal x", r"REFUSED L1: journal wants another form"),
    ("list all", r"REFUSED L1: list wants another form"),
    ("scan 5 level=5", r"REFUSED L1: no command is called 'scan'"),
    ("level=5 running", r"REFUSED L1: samples are NAME=VALUE .., and 'running' has no '='"),
    ("levl=5", r"REFUSED sample: 'levl' is no input of the plant"),
    ("level=abc", r"REFUSED sample: level takes a whole number"),
    ("ack 1 LAL-10", r"# there is no alarm 'LAL-10'; did you mean 'LAL-101'\?"),
    ("ack 7 LAL-101", r"# there is no console 7; there are 1, 2"),
    ("ack 2 LAL-101", r"# console 2 isn't for the area tank"),
    ("reset 1 LAL-101", r"# the alarm's state doesn't take this order"),
    ("shelve 1 LAL-101 0", r"# it may be shelved for 1 to 3600000 ms"),
    ("shelve 1 TAHH-102 5", r"# it may not be shelved"),
    ("restart 1 dos", r"# there is no program 'dos'; did you mean 'dose'\?"),
    ("restart 1 fill", r"# the program hasn't stopped"),
    ("confirm 1 3", r"REFUSED L1: no question 3 waits"),
    ("yes", r"REFUSED L1: not one question waits"),
    ("help", r"# shelve CONSOLE TAG MS"),
    ("list", r"END 4"),
    ("journal", r"END 8"),
    ("\xff\x00", r"REFUSED L1: no command"),
]


def test_each_line_is_answered(config: Path) -> None:
    gateway = Gateway(config)
    gateway.give("# nothing\n\n \t\n")
    for line, answer in ANSWERS:
        before = len(gateway.out)
        gateway.give(f"{line}\n")
        gateway.wait_for(answer, after=before)
    gateway.end_input()
    assert gateway.wait() == 0


def test_a_line_that_is_too_long(config: Path) -> None:
    status, out, _ = run(config, "x" * 1_100_000 + "\nhelp\n" + "y" * 1_100_000)
    assert status == 0
    assert out[0] == out[-1] == "REFUSED L1: a line has at most 1048576 bytes"
    assert "# help" in out


@pytest.mark.parametrize("number", [signal.SIGTERM, signal.SIGINT, signal.SIGHUP])
def test_a_signal_ends_in_order(config: Path, number: signal.Signals) -> None:
    gateway = Gateway(config)
    gateway.give("running=TRUE level=250\n")
    gateway.wait_for("ALARM .* LAL-101 NORM UNACK")
    pid = gateway.server_pid()
    gateway.process.send_signal(number)
    assert gateway.wait() == 0
    assert server_lines(gateway.err) == gateway.err
    assert not Path(f"/proc/{pid}").exists()
    assert (config.parent / "record").read_bytes().endswith(b"\n")


def test_under_nohup_a_terminal_may_close(config: Path) -> None:
    words = ["nohup", str(ROOT / "gateway" / "gateway"), "serve", str(config)]
    pipe = subprocess.PIPE
    with subprocess.Popen(words, stdin=pipe, stdout=pipe, stderr=subprocess.DEVNULL) as process:
        assert process.stdin is not None and process.stdout is not None
        process.stdin.write(b"running=TRUE level=250\n")
        process.stdin.flush()
        assert process.stdout.readline()
        process.send_signal(signal.SIGHUP)
        record = config.parent / "record"
        size, end = record.stat().st_size, time.monotonic() + LIMIT
        while record.stat().st_size < size + 300:  # scans go on
            assert process.poll() is None and time.monotonic() < end
            time.sleep(0.05)
        process.terminate()
        assert process.wait(LIMIT) == 0


BACKGROUND = """
import os, signal, subprocess, sys, time
def as_a_shell():
    signal.signal(signal.SIGTTOU, signal.SIG_DFL)
process = subprocess.Popen(
    sys.argv[1:], process_group=0, stderr=subprocess.DEVNULL, preexec_fn=as_a_shell
)
def record():
    try:
        return os.path.getsize("record")
    except OSError:
        return 0
size = record()
while record() < size + 1000:  # it goes on in the background
    time.sleep(0.05)
os.tcsetpgrp(0, process.pid)
process.wait()
print("status", process.returncode, flush=True)
"""


@pytest.mark.parametrize("stops", [False, True])
def test_in_the_background_of_a_terminal_it_goes_on(config: Path, stops: bool) -> None:
    """Also where the terminal stops who writes to it from there, as by `stty tostop`."""
    config.write_text(f'{config.read_text()}[fields]\nmap = "map.toml"\n')
    (config.parent / "map.toml").write_text('[[lines]]\nname = "fifo"\npath = "fifo"\n')
    os.mkfifo(config.parent / "fifo")
    words = [sys.executable, "-c", BACKGROUND, str(ROOT / "gateway" / "gateway"), "serve"]
    pid, ours = pty.fork()
    if pid == 0:
        signal.signal(signal.SIGTTOU, signal.SIG_IGN)
        os.chdir(config.parent)
        os.execv(words[0], [*words, str(config)])
    if stops:
        modes = termios.tcgetattr(ours)
        modes[3] |= termios.TOSTOP
        termios.tcsetattr(ours, termios.TCSANOW, modes)
    with open(config.parent / "fifo", "w") as fifo:
        fifo.write("running=TRUE level=250\n")
    os.write(ours, b"help\n")
    shown = b""
    while b"# help" not in shown:  # once it is in the foreground
        shown += os.read(ours, 1000)
    os.write(ours, b"\x03")
    while b"status 0" not in shown:
        shown += os.read(ours, 1000)
    os.close(ours)
    os.waitpid(pid, 0)


def test_whoever_ignores_the_ends_of_processes_hears_of_them(config: Path, plant: Path) -> None:
    plant.write_text("[")
    for word in ("serve", "check"):
        done = subprocess.run(
            [sys.executable, "-m", "alarmd_gateway", word, str(config)],
            cwd=ROOT / "gateway",
            timeout=LIMIT,
            capture_output=True,
            check=False,
            preexec_fn=lambda: signal.signal(signal.SIGCHLD, signal.SIG_IGN),
        )
        assert done.returncode == 3, done.stderr


@pytest.mark.parametrize("words", ["state", "journal --csv", "check", "help"])
def test_answers_to_a_full_disk(config: Path, words: str) -> None:
    assert run(config, "running=TRUE level=250\n")[0] == 0
    word, *more = words.split()
    named = [] if word == "help" else [str(config)]
    command = [str(ROOT / "gateway" / "gateway"), word, *named, *more]
    with open("/dev/full", "wb") as full:
        done = subprocess.run(command, stdout=full, stderr=-1, timeout=LIMIT, check=False)
    told = done.stderr.decode()
    assert (done.returncode, told) == (1, "SERVER standard output: No space left on device\n")


def test_answers_in_another_character_set(config: Path, plant: Path) -> None:
    alarms = plant.parent / "alarms.csv"
    alarms.write_text(alarms.read_text().replace("Tank level low", "Füllstand \u2264 300"))
    assert run(config, "running=TRUE level=250\n")[0] == 0
    done = subprocess.run(
        [ROOT / "gateway" / "gateway", "state", config],
        env={**os.environ, "PYTHONIOENCODING": "latin1"},
        capture_output=True,
        timeout=LIMIT,
        check=False,
    )
    assert (done.returncode, done.stderr) == (0, b"")
    assert b"F\xfcllstand \\u2264 300" in done.stdout


def test_what_a_source_has_brought_is_scanned_before_the_end(config: Path) -> None:
    config.write_text(config.read_text().replace("period_ms = 50", "period_ms = 3600000"))
    config.write_text(f'{config.read_text()}[fields]\nmap = "map.toml"\n')
    (config.parent / "map.toml").write_text('[[lines]]\nname = "fifo"\npath = "fifo"\n')
    os.mkfifo(config.parent / "fifo")
    gateway = Gateway(config)
    with open(config.parent / "fifo", "wb", buffering=0) as fifo:  # waits for its reader
        fifo.write(b"level=250\n")
        gateway.wait_for("ALARM .* LAL-101|OUT")
        fifo.write(b"running=TRUE level=300\nlevel=250\nbad\n")
        gateway.wait_for("bad", after=len(gateway.out))
    gateway.process.send_signal(signal.SIGTERM)
    assert gateway.wait() == 0
    assert commands(config)[1:] == ["scan running=TRUE level=300", "scan level=250"]


def test_a_signal_while_the_record_is_played(config: Path) -> None:
    run(config, "running=1 level=250\n")
    with open(config.parent / "record", "a") as file:
        moment = 10**12
        file.write("".join(f"scan {moment + number} level={number}\n" for number in range(60_000)))
    gateway = Gateway(config, "--yes")
    gateway.server_pid()
    gateway.process.terminate()
    assert gateway.wait() == 0


def test_a_reader_that_does_not_read_is_no_fault(config: Path) -> None:
    reading, writing = os.pipe()
    gateway = Gateway(config, stdout=writing)
    os.close(writing)
    gateway.give("help\n" * 8000)  # more than a pipe holds
    gateway.give("running=TRUE level=250\n")
    gateway.wait_for("program dose has stopped", gateway.err)
    record = config.parent / "record"
    size, end = record.stat().st_size, time.monotonic() + LIMIT
    while record.stat().st_size < size + 1000:  # scans go on
        assert time.monotonic() < end
        time.sleep(0.05)
    assert gateway.process.poll() is None
    gateway.process.terminate()
    assert gateway.wait() == 0
    os.close(reading)


def test_a_long_answer_is_whole(config: Path) -> None:
    status, out, _ = run(config, "help\n" * 13_000)  # some 5 MB, which is more than may wait
    assert (status, len(out) % 13_000) == (0, 0)
    assert out.count("# help") == 13_000


def test_a_reader_that_has_gone(config: Path) -> None:
    reading, writing = os.pipe()
    gateway = Gateway(config, stdout=writing)
    os.close(writing)
    os.close(reading)
    gateway.give("help\n")
    assert gateway.wait() == 1
    assert gateway.err == ["SERVER standard output: Broken pipe"]


def test_output_to_a_full_disk(config: Path) -> None:
    with open("/dev/full", "wb") as full:
        gateway = Gateway(config, stdout=full.fileno())
        gateway.give("help\n")
        assert gateway.wait() == 1
    assert gateway.err == ["SERVER standard output: No space left on device"]


def test_descriptors_that_do_not_wait(config: Path) -> None:
    """As those that another process has set so, with which it shares them."""
    read_in, write_in = os.pipe()
    read_out, write_out = os.pipe()
    for descriptor in (read_in, write_out):
        os.set_blocking(descriptor, False)
    words = [str(ROOT / "gateway" / "gateway"), "serve", str(config)]
    with subprocess.Popen(words, stdin=read_in, stdout=write_out, stderr=subprocess.DEVNULL) as it:
        os.close(read_in)
        os.close(write_out)
        os.write(write_in, b"running=TRUE level=250\n")
        with open(read_out, "rb") as lines:
            while b"OUT" not in lines.readline():
                pass
            os.write(write_in, b"help\n" * 8000)  # answers are more than a pipe holds
            end = time.monotonic() + LIMIT
            size = (config.parent / "record").stat().st_size
            while (config.parent / "record").stat().st_size < size + 300:
                assert it.poll() is None and time.monotonic() < end
                time.sleep(0.05)
            for _ in range(8000):
                while lines.readline() != b"# help\n":
                    assert it.poll() is None
            os.close(write_in)
        assert it.wait(LIMIT) == 0


def limited(config: Path, size: int) -> subprocess.CompletedProcess[bytes]:
    """A gateway whose files may have so many bytes."""
    return subprocess.run(
        [ROOT / "gateway" / "gateway", "serve", str(config)],
        input=b"running=TRUE level=250 flow=10\nlevel=251\nlevel=252\nlevel=253\n" * 20,
        capture_output=True,
        timeout=LIMIT,
        check=False,
        preexec_fn=lambda: resource.setrlimit(resource.RLIMIT_FSIZE, (size, size)),
    )


@pytest.mark.parametrize("size", [10, 700, 1000, 1003])
def test_a_full_disk_under_the_record(config: Path, size: int) -> None:
    done = limited(config, size)
    err = done.stderr.decode().splitlines()
    assert done.returncode == 1, err
    assert err[-1] == f"SERVER the record {config.parent / 'record'}: File too large"
    assert server_lines(err) == err
    status, out, err = run(config, "list\n")
    assert (status, out[-1][:4]) == (0, "END ")
    assert (config.parent / "record").read_bytes().endswith(b"\n")


def test_closed_descriptors_are_nobody_elses(config: Path) -> None:
    command = f"exec {ROOT / 'gateway' / 'gateway'} serve {config}"
    for closed in ("<&-", "<&- >&-", "<&- >&- 2>&-", ">&- 2>&-"):
        done = subprocess.run(
            ["sh", "-c", f"{command} {closed}"],
            input=b"running=1 level=100\nhelp\n",
            capture_output=True,
            timeout=LIMIT,
            check=False,
        )
        assert done.returncode == 0, (closed, done.stdout, done.stderr)
    lines = (config.parent / "record").read_text().splitlines()
    assert [line.split()[0] for line in lines[1:]] == ["scan"] * (len(lines) - 1)
    assert len(lines) > 1


def test_a_plant_that_is_not_there(config: Path, plant: Path) -> None:
    plant.unlink()
    status, out, err = run(config, "")
    assert (status, out) == (3, [])
    assert server_lines(err) == [f"SERVER alarmd refuses the plant: FILE {plant}"]
    assert "No such file" in "\n".join(err)


def test_a_plant_that_is_refused_is_told_at_the_start(config: Path, plant: Path) -> None:
    for name in ("c5.toml", "c5.st", "alarms.csv"):
        shutil.copy(ROOT / "examples" / "refused" / name, plant.parent)
    shutil.copy(ROOT / "examples" / "refused" / "c5.toml", plant)
    gateway = Gateway(config)
    assert gateway.wait() == 3
    assert gateway.err[-1] == "SERVER alarmd refuses the plant: CONFIG C5 c5.st 9 1"
    assert "c5.st:9:1: found 'END_PROGRAM'" in gateway.err[0]
    assert not (config.parent / "record").exists()


def test_an_alarmd_that_is_not_there(config: Path, alarmd: Path, tmp_path: Path) -> None:
    text = config.read_text()
    config.write_text(text.replace(str(alarmd), str(tmp_path / "nothing")))
    status, _, err = run(config, "")
    assert (status, len(err)) == (2, 1)
    assert err[0].startswith("SERVER alarmd can't be started: ")
    assert err[0].endswith("No such file or directory")
    config.write_text(text.replace(str(alarmd), "/bin/false"))
    status, _, err = run(config, "")
    assert (status, err) == (1, ["SERVER alarmd has ended, status 1"])


@pytest.mark.parametrize(
    ("words", "told"),
    [
        ([], "SERVER a command is wanted: "),
        (["sevre"], "SERVER no command is called 'sevre': "),
        (["serve"], "SERVER gateway serve: the following arguments are required: config"),
        (["serve", "/nowhere/gateway.toml"], "SERVER /nowhere/gateway.toml: No such file"),
        (["serve", "/dev/null", "--what"], "SERVER gateway serve: unrecognized arguments: --what"),
        (["serve", "/dev/null"], "SERVER the configuration lacks 'alarmd'"),
        (["state"], "SERVER gateway state: the following arguments are required: config"),
    ],
)
def test_words_that_are_wrong(words: list[str], told: str) -> None:
    done = subprocess.run(
        [ROOT / "gateway" / "gateway", *words], capture_output=True, timeout=LIMIT, check=False
    )
    assert done.returncode == 2
    lines = done.stderr.decode().splitlines()
    assert len(lines) == 1
    assert lines[0].startswith(told)


@pytest.mark.parametrize(
    ("line", "told"),
    [
        ("period_ms = 0", "'period_ms' has to be a whole number from 1"),
        ("period_ms = true", "'period_ms' has to be a whole number from 1"),
        ("yes = 1", "'yes' has to be true or false"),
        ("colour = 1", "has 'colour', unknown"),
        ("period_ms =", "no TOML"),
        (f"period_ms = 1{'0' * 5000}", "no TOML"),
        (f"period_ms = {'[' * 5000}{']' * 5000}", "no TOML"),
    ],
)
def test_a_configuration_that_is_wrong(config: Path, line: str, told: str) -> None:
    config.write_text(f"{line}\n" + re.sub("period_ms.*", "", config.read_text()))
    status, _, err = run(config, "")
    assert (status, len(err)) == (2, 1)
    assert told in err[0]


def test_another_plants_record(config: Path, plant: Path) -> None:
    run(config, "level=5\n")
    with open(plant.parent / "control.st", "a") as file:
        file.write("\n")
    status, _, err = run(config, "")
    assert (status, len(err)) == (2, 1)
    assert "control.st has changed since it began" in err[0]


def test_two_gateways_with_one_record(config: Path) -> None:
    first = Gateway(config)
    first.give("level=5\nlist\n")
    first.wait_for("^END")
    status, _, err = run(config, "")
    assert (status, len(err)) == (2, 1)
    assert "another gateway has the record" in err[0]
    first.end_input()
    assert first.wait() == 0


def test_a_record_with_the_line_ends_of_another_system(config: Path) -> None:
    text = "running=TRUE level=250\nack 1 LAL-101\nshelve 1 LAL-101 60000\n"
    assert run(config, text)[0] == 0
    record = config.parent / "record"
    record.write_bytes(record.read_bytes().replace(b"\n", b"\r\n"))
    status, out, err = run(config, "list\n")
    assert status == 0 and any("LAL-101 " in line and " SHELVED" in line for line in out), err


def test_a_link_to_the_record(config: Path) -> None:
    """A new record takes the name where the old one lies, and by either name one gateway has it."""
    text = f"rotate_at = 30\n{config.read_text()}"
    config.write_text(text)
    (config.parent / "disk").mkdir()
    (config.parent / "record").symlink_to("disk/kept")
    (config.parent / "other.toml").write_text(text.replace('"record"', '"disk/kept"'))
    gateway = Gateway(config)
    gateway.give("running=1 level=250 flow=100\n")
    gateway.wait_for("question 1")
    gateway.give("yes\n")
    gateway.wait_for("a new record has begun", gateway.err)
    names = sorted(path.name for path in (config.parent / "disk").iterdir())
    assert names == ["kept", "kept.1", "kept.socket"]
    assert (config.parent / "record").is_symlink()
    status, _, err = run(config.parent / "other.toml", "")
    assert status == 2 and "another gateway has the record" in err[0]
    gateway.process.terminate()
    assert gateway.wait() == 0


def test_an_epoch_in_the_future_is_asked_about(alarmd: Path, tmp_path: Path) -> None:
    config = config_file(alarmd, plant_copy("tank", tmp_path, "2399-01-01T00:00:00Z"))
    status, out, err = run(config, "level=5\n")
    assert (status, out, len(err)) == (2, [], 1)
    assert "epoch, 2399-01-01T00:00:00.000Z, is in the future" in err[-1]
    assert "nobody to ask" in err[-1]
    assert commands(config) == []
    status, _, _ = run(config, "level=5\n", "--yes")
    assert status == 0
    _, moment, *pairs = (config.parent / "record").read_text().splitlines()[1].split()
    assert (int(moment) < 60_000, pairs) == (True, ["level=5"])


DAYS = 5 * 86_400_000


@pytest.mark.parametrize("ahead", [-DAYS, DAYS])
def test_a_first_moment_days_from_the_last_one_is_asked_about(config: Path, ahead: int) -> None:
    run(config, "level=5\n")
    record = config.parent / "record"
    head, scan = record.read_text().splitlines()[:2]
    moment = int(scan.split()[1]) + ahead
    record.write_text(f"{head}\nscan {moment} level=5\n")
    status, _, err = run(config, "level=6\n")
    assert status == 2
    assert "5.0 days " + ("before" if ahead > 0 else "later") in err[-1]
    assert len(commands(config)) == 1
    status, _, _ = run(config, "level=6\n", "--yes")
    assert status == 0
    first = int(record.read_text().splitlines()[2].split()[1])
    assert first - moment < 60_000 if ahead > 0 else first - moment > DAYS - 60_000


def on_a_terminal(config: Path, answer: str) -> tuple[int, str]:
    """A gateway whose standard input is a terminal, at which this is typed once it has asked."""
    ours, theirs = pty.openpty()
    process = subprocess.Popen(
        [ROOT / "gateway" / "gateway", "serve", str(config)],
        stdin=theirs,
        stdout=subprocess.PIPE,
        stderr=subprocess.DEVNULL,
    )
    os.close(theirs)
    assert process.stdout is not None
    text = ""
    while "`yes` or `no`" not in text:
        line = process.stdout.readline().decode()
        assert line, text
        text += line
    os.write(ours, f"level=100 running=1\n{answer}\n".encode())
    while answer == "yes" and "ALARM" not in text:
        line = process.stdout.readline().decode()
        assert line, text
        text += line
    if answer == "yes":
        process.terminate()
    text += process.stdout.read().decode()
    os.close(ours)
    return process.wait(LIMIT), text


def test_the_question_on_a_terminal(alarmd: Path, tmp_path: Path) -> None:
    config = config_file(alarmd, plant_copy("tank", tmp_path, "2399-01-01T00:00:00Z"))
    status, text = on_a_terminal(config, "no")
    assert (status, commands(config)) == (2, [])
    status, text = on_a_terminal(config, "yes")
    assert status == 0
    assert re.search(r"ALARM \d{1,5} LAL-101 NORM UNACK", text)
    remark = '# the first moment, confirmed by {"console": null, "user": null}'
    assert (config.parent / "record").read_text().splitlines()[1] == remark


def test_state_and_journal_by_the_record(config: Path) -> None:
    gateway = Gateway(config)
    gateway.give("running=1 level=250 temperature=850\nshelve 1 LAL-101 600000\n")
    gateway.wait_for("UNACK SHELVED")
    words = [str(ROOT / "gateway" / "gateway")]
    state = subprocess.check_output([*words, "state", str(config)], timeout=LIMIT).decode()
    assert re.search(r"(?m)^SHELVED 3  LAL-101  Tank level low, since .*, until ", state)
    assert "stopped    dose: DIVZERO in control.st, line 21" in state
    assert "value      pump TRUE" in state
    rows = subprocess.check_output(
        [*words, "journal", str(config), "--from", "3", "--count", "2"], timeout=LIMIT
    ).decode()
    assert [line.split()[0] for line in rows.splitlines()] == ["3", "4"]
    table = subprocess.check_output([*words, "journal", str(config), "--csv"], timeout=LIMIT)
    assert table.decode().splitlines()[0].startswith("number,time,kind,tag,from,to")
    gateway.end_input()
    assert gateway.wait() == 0
