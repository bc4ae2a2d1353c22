"""Three machines that share a log: the chapter of OPERATION as it stands there, on three Debian 12 that have a network among themselves. The
tests go on from one another: install, an alarm on each page, the leader's machine gone and back, one cut off, another one in the place
of one that never comes back, a newer program."""

from __future__ import annotations

import shutil
import subprocess
import time
from collections.abc import Iterator
from pathlib import Path
from typing import Any

import pytest
from browser_help import until
from chapter import REPLACED, THREE, Step, steps
from http_help import Client
from machine import Machine, wanted
from network import Network, within
from package_help import GATEWAY, built

pytestmark = [pytest.mark.server, pytest.mark.package]

NAMES = ("n1", "n2", "n3")
PAPERS = ("ca.pem", "n{}.pem", "n{}.key")
NOT_THERE = (OSError, ValueError)


class Member(Machine):
    """One of the three. Its disk is a layer above that of the machine on which the packages were installed."""

    def __init__(self, folder: Path, below: Path, number: int, again: bool = False) -> None:
        """`again` where there was another one of this number."""
        super().__init__(folder / f"n{number}", own_network=True)
        self.number = number
        self._layer = folder / f"layer{number}{'again' * again}"
        for name in ("changed", "work"):
            (self._layer / name).mkdir(parents=True)
        self.folder.mkdir(exist_ok=True)
        layers = f"lowerdir={below},upperdir={self._layer}/changed,workdir={self._layer}/work"
        words = ["mount", "-t", "overlay", "overlay", "-o", layers, str(self.folder)]
        subprocess.run(words, check=True)

    @property
    def name(self) -> str:
        return f"n{self.number}"

    def follow(self, part: int) -> None:
        """Runs the commands of a part of the chapter, with the numbers of this machine for those of the first."""
        for step in steps(THREE)[part]:
            self.do(step)

    def do(self, step: Step) -> None:
        """One of them."""
        output = self.run(self._own(step.command), "\n")
        assert output.splitlines()[: len(step.printed)] == step.printed or not step.printed

    def _own(self, command: str) -> str:
        """A command for this machine. Lines that name all three are the same on each."""
        lines = command.split("\n") if "<<END" in command else [command]
        return "\n".join(line if "10.0.0.2" in line else self._numbered(line) for line in lines)

    def _numbered(self, line: str) -> str:
        own = line.replace("10.0.0.1", f"10.0.0.{self.number}").replace('"n1"', f'"{self.name}"')
        own = own.replace("=n1", f"={self.name}").replace("papers/n1.", f"papers/{self.name}.")
        return own

    def page(self) -> dict[str, Any]:
        """What its page says; nothing where it isn't there."""

        def asked() -> dict[str, Any]:
            found = self._client().ask("/api/state").json
            return found if isinstance(found, dict) else {}

        try:
            return within(self.pid, asked)
        except NOT_THERE:
            return {}

    def order(self, word: str, tag: str, reason: str) -> tuple[int, str]:
        """Gives an order on its page, and tells the status, and the reply or why there is none; 0 where it isn't there."""

        def given() -> tuple[int, str]:
            client = self._client()
            client.enter()
            answer = client.order(word, tag, reason=reason, console=1)
            return answer.status, str(answer.json.get("reply", answer.json.get("error")))

        try:
            return within(self.pid, given)
        except NOT_THERE as fault:
            return 0, str(fault)

    def _client(self) -> Client:
        client = Client("http://127.0.0.1:8080/")
        client.patience = 30.0
        return client

    def code(self, tag: str = "LAL-101") -> str:
        """The code of an alarm on its page; empty where it isn't there."""
        return {row["tag"]: str(row["code"]) for row in self.page().get("alarms", [])}.get(tag, "")

    def leads(self) -> bool:
        return self.page().get("log", {}).get("leads") is True

    def troubles(self) -> set[str]:
        """What its page says that is wrong with the log."""
        found = self.page().get("troubles", [])
        return {one["subject"] for one in found if one["kind"] == "log"}

    def close(self) -> None:
        """Ends it, and takes its disk away."""
        self.end()
        subprocess.run(["umount", str(self.folder)], check=False)


class Three:
    """The machines, and their network."""

    def __init__(self, folder: Path, below: Path) -> None:
        self._folder, self._below = folder, below
        self.network = Network()
        self.members = [Member(folder, below, number) for number in (1, 2, 3)]

    def another(self, old: Member) -> Member:
        """Another machine, with the packages and nothing else, in the place of one that is gone."""
        old.close()
        new = Member(self._folder, self._below, old.number, again=True)
        self.members[old.number - 1] = new
        self.boot(new)
        return new

    def boot(self, one: Member) -> None:
        """Starts a machine, at its cable."""
        one.boot()
        self.network.join(one.name, one.pid, f"10.0.0.{one.number}")

    def leader(self, but: Member | None = None) -> Member:
        """The machine whose gateway leads, once one does that isn't `but`."""
        others = [one for one in self.members if one is not but]

        def alone() -> list[Member]:
            leading = [one for one in others if one.leads()]
            return leading if len(leading) == 1 else []

        found: list[Member] = until(alone, "one leads")
        return found[0]

    def close(self) -> None:
        for one in self.members:
            one.close()
        self.network.close()


@pytest.fixture(scope="module")
def three(alarmd: Path, tmp_path_factory: pytest.TempPathFactory) -> Iterator[Three]:
    """Three machines with the packages, and nothing else: these were installed on one of them."""
    wanted("ip")
    folder = tmp_path_factory.mktemp("machines")
    first = Machine(folder / "root")
    try:
        first.install()
        first.put(built(alarmd, folder / "packages"))
        first.boot()
        for step in steps(THREE)[1]:
            first.run(step.command)
    finally:
        first.end()
    found = Three(folder, first.folder)
    try:
        for one in found.members:
            found.boot(one)
        yield found
    finally:
        found.close()
        shutil.rmtree(folder, ignore_errors=True)


def hand_out(three: Three) -> None:
    """Each machine has the papers that the chapter names, from the first one."""
    made = three.members[0].folder / "root" / "papers"
    for one in three.members[1:]:
        own = one.folder / "root" / "papers"
        own.mkdir(mode=0o700)
        for name in PAPERS:
            shutil.copy(made / name.format(one.number), own)


def test_an_alarm_on_each_page(three: Three) -> None:
    three.members[0].follow(2)
    hand_out(three)
    for part in (3, 4):
        for one in three.members:
            one.follow(part)
    for one in three.members:
        until(lambda: one.code() == "UNACK", f"an alarm on the page of {one.name}")
        assert one.run("stat -c '%U %G %a' /etc/alarmd/etcd.key").strip() == "root alarmd 640"
        assert one.run("systemctl is-active etcd alarmd").split() == ["active"] * 2
    leader = three.leader()
    follower = next(one for one in three.members if one is not leader)
    assert "leads from now on" in leader.run("journalctl -u alarmd -o cat")
    assert follower.order("ack", "LAL-101", "seen") == (200, "OK")
    for one in three.members:
        until(lambda: one.code() == "ACKED", f"it is acknowledged on the page of {one.name}")


def test_the_leaders_machine_is_gone_and_comes_back(three: Three) -> None:
    old = three.leader()
    old.end()
    begin = time.monotonic()
    new = three.leader(but=old)
    print(f"another machine leads after {time.monotonic() - begin:.1f} s")
    assert new.code() == "ACKED" and new.order("remove", "FAL-103", "pump") == (200, "OK")
    three.boot(old)
    until(lambda: old.code("FAL-103") == "OOS", "it follows")
    assert old.code() == "ACKED" and not old.leads()
    until(lambda: old.try_run("systemctl is-active etcd").stdout == "active\n", "its node follows")


def test_the_leaders_machine_is_cut_off(three: Three) -> None:
    old = three.leader()
    three.network.cut(old.name, True)
    begin = time.monotonic()
    new = three.leader(but=old)
    print(f"another machine leads after {time.monotonic() - begin:.1f} s")
    until(lambda: "" in old.troubles(), "its page says so")
    status, told = old.order("return", "FAL-103", "no")
    assert status == 503, told
    assert new.order("return", "FAL-103", "mended") == (200, "OK")
    assert old.code("FAL-103") == "OOS"
    three.network.cut(old.name, False)
    until(lambda: old.code("FAL-103") not in ("OOS", ""), "it follows")
    until(lambda: not old.troubles(), "its page says nothing any more")
    given = [line for line in orders(old) if "FAL-103" in line]
    assert len(given) == 2, given


def orders(one: Member) -> list[str]:
    """The orders in the journal, as the command shows it."""
    shown = one.run("alarmd-gateway journal /etc/alarmd/gateway.toml --json")
    return [line for line in shown.splitlines() if '"order"' in line]


def test_another_machine_takes_the_place_of_one_that_never_comes_back(three: Three) -> None:
    gone = three.members[2]
    papers = {path.name: path.read_bytes() for path in (gone.folder / "root/papers").iterdir()}
    gone.end()
    first, other, _ = three.members
    until(lambda: first.order("ack", "LAL-101", "two are left")[0] == 200, "orders are taken")
    for step in steps(REPLACED)[1]:
        first.run(step.command)
    new = three.another(gone)
    (new.folder / "root/papers").mkdir(mode=0o700)
    for name, data in papers.items():
        (new.folder / "root/papers" / name).write_bytes(data)
    *before, start = steps(THREE)[3]
    for step in (*before, *steps(REPLACED)[2], start):
        new.do(step)
    new.follow(4)
    until(lambda: new.code() == "ACKED", "it shows what stands")
    until(lambda: new.try_run("systemctl is-active etcd").stdout == "active\n", "its node follows")
    assert orders(new) == orders(first)
    other.end()  # two of three are there, with the new one
    three.leader(but=other)
    until(lambda: new.order("ack", "LAL-101", "again")[0] == 200, "orders are taken")
    three.boot(other)
    until(lambda: other.code() == "ACKED", "it follows")


def test_a_newer_program(three: Three, alarmd: Path, tmp_path: Path) -> None:
    """Who has it is refused while the others go on with the old one, until somebody says so."""
    newer = tmp_path / "alarmd"
    newer.write_bytes(alarmd.read_bytes() + b"\n")
    newer.chmod(0o755)
    package = built(newer, tmp_path, GATEWAY, "--revision", "2")
    install, say = steps(THREE)[6]
    leader = three.leader()
    for one in sorted(three.members, key=lambda one: one is leader):
        one.put(package)
        one.run(install.command)
        until(lambda: one.try_run("systemctl is-failed alarmd").stdout == "failed\n", "refused")
        assert "goes on with another alarmd" in one.run("journalctl -u alarmd -o cat")
        if one is not leader:
            assert three.leader() is leader
    told = leader.try_run(f"timeout -s INT 60 {say.command} 2>&1 | grep -m 1 leads").stdout
    assert "leads from now on" in told
    for one in three.members:
        one.run("systemctl start alarmd")
    for one in three.members:
        until(lambda: one.code() == "ACKED", f"{one.name} shows what stood")
