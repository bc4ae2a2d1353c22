"""The package on a machine that had nothing: the chapter of OPERATION as it stands, and what befalls the plant meanwhile. The tests go on from one
another: install, look, plant, crash, refusal, upgrade, operators, removal. Beside this they want ports 8080, 8081 and 8443 of 127.0.0.1."""

from __future__ import annotations

import shutil
import ssl
from collections.abc import Iterator
from http.client import HTTPSConnection
from pathlib import Path

import pytest
from browser_help import browser, until
from chapter import ONE, steps
from http_help import Client
from machine import Machine, wanted
from package_help import GATEWAY, built, fields

pytestmark = [pytest.mark.server, pytest.mark.package]

ANNA = "a long password"
PAGE = "http://127.0.0.1:8080/"
EXAMPLE = "http://127.0.0.1:8081/"


class Plant(Machine):
    """The machine with the steps of the chapter."""

    def follow(self, part: int) -> list[str]:
        """Runs the commands of a part, each with what it is said to print, and gives what each printed."""
        outputs = []
        for step in steps(ONE)[part]:
            command = step.command.replace(
                "192.168.1.5", "127.0.0.1"
            )  # the address of another network
            output = self.run(command, f"{ANNA}\n" if "password" in command else "\n")
            assert output.splitlines()[: len(step.printed)] == step.printed or not step.printed
            outputs.append(output)
        return outputs

    def left(self) -> set[str]:
        """All that bears the package's name, but for the file of the package, logs and what apt keeps."""
        words = "find / -xdev -iname '*alarmd*' ! -path '/root/*' ! -path '/var/log/*' ! -path '/var/cache/*' ! -path '/tmp/*'"
        return set(self.run(words).split())


@pytest.fixture(scope="module")
def first(alarmd: Path, tmp_path_factory: pytest.TempPathFactory) -> Path:
    """The package."""
    return built(alarmd, tmp_path_factory.mktemp("first"))


@pytest.fixture(scope="module")
def second(alarmd: Path, tmp_path_factory: pytest.TempPathFactory) -> Path:
    """A later package, with another gateway.toml."""
    folder = tmp_path_factory.mktemp("second")
    for name in ("gateway", "docs", "examples/tank"):
        skipped = shutil.ignore_patterns("out", "__pycache__", "tests", "pictures")
        shutil.copytree(GATEWAY.parent / name, folder / name, ignore=skipped)
    for name in ("README.md", "CHANGELOG.md"):
        shutil.copy(GATEWAY.parent / name, folder / name)
    config = folder / "gateway" / "debian" / "gateway.toml"
    config.write_text("# Of a later version.\n" + config.read_text())
    return built(alarmd, folder / "out", folder / "gateway", "--revision", "2")


@pytest.fixture(scope="module")
def machine(tmp_path_factory: pytest.TempPathFactory, first: Path) -> Iterator[Plant]:
    """A machine that has the package's file, and nothing else."""
    wanted()
    folder = tmp_path_factory.mktemp("machine")
    found = Plant(folder / "root")
    try:
        found.install()
        found.put(first)
        found.boot()
        yield found
    finally:
        found.end()
        shutil.rmtree(folder, ignore_errors=True)


def code(url: str, tag: str = "LAL-101") -> str:
    """The code of an alarm on a page; empty where there is no page."""
    try:
        state = Client(url).ask("/api/state").json
    except OSError:
        return ""
    return str({row["tag"]: row["code"] for row in state["alarms"]}[tag])


def test_it_installs_from_debians_archive_alone(machine: Plant) -> None:
    machine.follow(1)
    assert machine.run("dpkg --audit; dpkg --verify alarmd") == ""
    assert (
        machine.run("systemctl is-active alarmd alarmd-example || true").split() == ["inactive"] * 2
    )
    assert machine.try_run("systemctl is-enabled alarmd").stdout.strip() == "disabled"
    assert machine.run("stat -c '%U %G %a' /etc/alarmd /var/lib/alarmd").splitlines() == [
        "root alarmd 750",
        "alarmd alarmd 750",
    ]
    user = machine.run("getent passwd alarmd").strip().split(":")
    assert user[5:] == ["/var/lib/alarmd", "/usr/sbin/nologin"] and int(user[2]) < 1000
    assert "alarmd 0." in machine.run("alarmd --version")
    assert "alarmd-gateway serve CONFIG" in machine.run("alarmd-gateway help")
    verified = machine.run(
        "systemd-analyze verify --man=no alarmd.service alarmd-example.service 2>&1"
    )
    assert "alarmd" not in verified, verified


def test_the_example_is_an_alarm_on_its_page(machine: Plant) -> None:
    start, stop = steps(ONE)[2]
    machine.run(start.command)
    until(lambda: code(EXAMPLE) in ("UNACK", "RTNUN"), "the level is low, or was")
    with browser() as page:
        page.driver.get(EXAMPLE)
        until(lambda: "LAL-101" in dict(page.rows()), "the page shows it")
    machine.run(stop.command)
    assert code(EXAMPLE) == "" and machine.run("ls /var/lib/alarmd") == ""


def test_a_plant_of_ones_own_is_served_and_ordered(machine: Plant) -> None:
    machine.follow(3)
    machine.follow(4)
    until(lambda: code(PAGE) == "UNACK", "a line of the FIFO is an alarm")
    with browser() as page:
        page.driver.get(PAGE)
        page.until_live()
        page.choose("LAL-101")
        page.keys("a")
        until(lambda: ("LAL-101", "ACKED") in page.rows(), "it is acknowledged")
    assert code(PAGE) == "ACKED"
    assert machine.run("stat -c '%U %G %a' /var/lib/alarmd/record").strip() == "alarmd alarmd 640"
    machine.follow(6)


def test_a_killed_alarmd_is_started_again_by_the_gateway(machine: Plant) -> None:
    (old,), (gateway,) = machine.pids("alarmd", "alarmd"), machine.pids("alarmd", "alarmd-gateway")
    machine.run(f"kill -KILL {old}")
    until(lambda: machine.pids("alarmd", "alarmd") not in ([old], []), "another alarmd")
    until(lambda: code(PAGE) == "ACKED", "its state is that of the record")
    assert machine.pids("alarmd", "alarmd-gateway") == [gateway]
    assert "SERVER alarmd was ended by signal SIGKILL" in machine.run("journalctl -u alarmd -o cat")


def test_a_killed_gateway_is_started_again_by_systemd(machine: Plant) -> None:
    (old,) = machine.pids("alarmd", "alarmd-gateway")
    machine.run(f"kill -KILL {old}")
    until(lambda: machine.pids("alarmd", "alarmd-gateway") not in ([old], []), "another gateway")
    until(lambda: code(PAGE) == "ACKED", "its state is that of the record")


def test_a_refused_plant_is_told_and_not_tried_again(machine: Plant) -> None:
    machine.run(
        "cp -a /etc/alarmd/plant /root/plant; sed -i s/running/walking/ /etc/alarmd/plant/points.st"
    )
    assert machine.try_run("systemctl restart alarmd").returncode in (0, 1)
    until(
        lambda: machine.try_run("systemctl is-failed alarmd").stdout == "failed\n", "it has failed"
    )
    told = machine.run("systemctl show -p ExecMainStatus -p NRestarts alarmd")
    assert set(told.split()) == {"ExecMainStatus=3", "NRestarts=0"}
    assert "SERVER alarmd refuses the plant: CONFIG" in machine.run("journalctl -u alarmd -o cat")
    machine.run("rm -r /etc/alarmd/plant; mv /root/plant /etc/alarmd/; systemctl start alarmd")
    until(lambda: code(PAGE) == "ACKED", "the plant is served again")


def test_a_version_that_would_not_serve_leaves_the_old_one_running(machine: Plant) -> None:
    before = machine.pids("alarmd", "alarmd-gateway")
    machine.run("echo >>/etc/alarmd/plant/alarms.csv")  # the record is of other files then
    told = machine.run("apt-get install -y --reinstall ./alarmd_*_amd64.deb 2>&1")
    assert "alarms.csv has changed" in told and "the old one goes on" in told
    assert machine.pids("alarmd", "alarmd-gateway") == before
    machine.run("sed -i '$d' /etc/alarmd/plant/alarms.csv")


def test_an_upgrade_keeps_configuration_and_record(machine: Plant, second: Path) -> None:
    config = "/etc/alarmd/gateway.toml"
    machine.run(f"sed -i 's/^# users/# The users/' {config}")
    kept = machine.run(f"cat {config}")
    record = machine.run("cat /var/lib/alarmd/record")
    before = machine.pids("alarmd", "alarmd-gateway")
    machine.put(second)
    machine.follow(7)
    assert machine.run("dpkg-query -W -f '${Version}' alarmd") == fields(second)["Version"]
    assert machine.run(f"cat {config}") == kept
    assert "# Of a later version." in machine.run(f"cat {config}.dpkg-dist")
    assert machine.run("cat /var/lib/alarmd/record").startswith(record)
    until(lambda: machine.pids("alarmd", "alarmd-gateway") not in (before, []), "the new one")
    until(lambda: code(PAGE) == "ACKED", "its state is that of the record")
    assert "ack LAL-101 OK" in machine.run(f"alarmd-gateway journal {config}")
    machine.run(f"sed -i 's/^# The users/# users/' {config}")


def test_operators_at_other_machines_log_in(machine: Plant) -> None:
    machine.follow(5)
    context = ssl.create_default_context(cadata=machine.run("cat /etc/alarmd/page.pem"))
    context.check_hostname = False  # the certificate has the machine's name

    def login() -> int:
        connection = HTTPSConnection("127.0.0.1", 8443, context=context, timeout=30)
        try:
            given = f'{{"name": "anna", "password": "{ANNA}"}}'
            connection.request("POST", "/api/login", given, {"Content-Type": "application/json"})
            return connection.getresponse().status
        except OSError:
            return 0
        finally:
            connection.close()

    until(lambda: login() == 200, "anna logs in")


def test_what_is_removed_leaves_configuration_and_records(machine: Plant) -> None:
    remove, purge = steps(ONE)[8]
    machine.run(remove.command)
    assert machine.run("ls /var/lib/alarmd /etc/alarmd").split()[:2] == [
        "/etc/alarmd:",
        "gateway.toml",
    ]
    assert machine.run("ls /var/lib/alarmd").split() == ["record"]
    assert machine.try_run("systemctl is-active alarmd").stdout == "inactive\n"
    assert machine.try_run("pgrep alarmd || grep -l alarmd /proc/[0-9]*/comm").stdout == ""
    assert not {path for path in machine.left() if path.startswith("/usr/bin/")}
    machine.run(purge.command)
    assert machine.run("ls /etc/alarmd").split() == ["page.key", "page.pem", "plant", "users.toml"]
    machine.run("rm -r /etc/alarmd")  # what was put there by hand
    assert machine.left() == set()
    named = machine.run(
        "grep -rl alarmd /etc /var/lib/dpkg /var/lib/systemd /usr/lib/systemd || true"
    )
    accounts = {
        f"/etc/{name}{old}"
        for name in ("passwd", "group", "shadow", "gshadow")
        for old in ("", "-")
    }
    assert set(named.split()) <= accounts | {"/var/lib/dpkg/status-old", "/var/lib/dpkg/available"}
    assert "nologin" in machine.run("getent passwd alarmd")  # the user stays
