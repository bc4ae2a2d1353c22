"""The page's users and its certificate, taken up again where their files have changed."""

from __future__ import annotations

import os
import ssl
import subprocess
import time
from collections.abc import Callable
from datetime import datetime, timedelta, timezone
from pathlib import Path

import pytest
from fake_core import fake_plant
from http_help import Client, cheap_hash
from served import Served, served

from alarmd_gateway import page_files
from alarmd_gateway.certificate import SOON, Certificate
from alarmd_gateway.connections import counted_as
from alarmd_gateway.model import GatewayFault
from alarmd_gateway.troubles import TroubleKind
from alarmd_gateway.users import read_users
from alarmd_gateway.watched import Watched

PATIENCE = 60.0  # seconds


@pytest.fixture(autouse=True)
def often(monkeypatch: pytest.MonkeyPatch) -> None:
    """Files are looked at often."""
    monkeypatch.setattr(page_files, "LOOK", 0.05)


def until(holds: Callable[[], bool]) -> None:
    """Waits for something."""
    end = time.monotonic() + PATIENCE
    while not holds():
        assert time.monotonic() < end
        time.sleep(0.02)


def user(name: str, consoles: list[int], password: str) -> str:
    """A user's table."""
    kept = cheap_hash(password).text()
    return f'[[user]]\nname = "{name}"\nconsoles = {consoles}\npassword = "{kept}"\n'


def troubles(site: Served) -> list[tuple[str, str]]:
    """The troubles of the page that stand: their subjects and words."""

    def found() -> list[tuple[str, str]]:
        return [(it.subject, it.text) for it in site.core.troubles if it.kind is TroubleKind.PAGE]

    return site.do(found)


def knows(site: Served, name: str) -> bool:
    """Whether the page has a user of this name."""
    users = site.web.guard.users
    return users is not None and users.named(name) is not None


def named(folder: Path, name: str, days: int, kind: str = "rsa:2048") -> Path:
    """A certificate of this name that ends in so many days, page.pem, and its key, page.key."""
    words = f"openssl req -x509 -newkey {kind} -nodes -days {days} -subj /CN={name}".split()
    if kind == "ec":
        words += ["-pkeyopt", "ec_paramgen_curve:prime256v1"]
    files = ["-keyout", str(folder / "page.key"), "-out", str(folder / "page.pem")]
    subprocess.run([*words, *files], check=True, capture_output=True)
    return folder


def shown(site: Served) -> str:
    """The certificate that a connection gets, PEM."""
    return ssl.get_server_certificate(("127.0.0.1", site.web.port), timeout=PATIENCE)


def test_files_that_have_changed_are_told_once_they_stand(tmp_path: Path) -> None:
    one, other = tmp_path / "one", tmp_path / "other"
    one.write_text("1")
    watched = Watched(one, other)
    assert not watched.changed()
    one.write_text("12")
    assert not watched.changed()  # it may be being written
    one.write_text("123")
    assert not watched.changed()
    assert watched.changed() and not watched.changed()
    other.write_text("")
    assert not watched.changed() and watched.changed()
    one.unlink()
    assert not watched.changed() and watched.changed() and not watched.changed()


def test_users_are_taken_up_while_the_page_is_served(tmp_path: Path) -> None:
    file = tmp_path / "users.toml"
    file.write_text(user("anna", [1], "annaanna") + user("bert", [2], "bertbert"))
    users = read_users(file, {row.number for row in fake_plant().consoles})
    with served(users=users, users_file=file) as site:
        anna, bert, carl = Client(site.url), Client(site.url), Client(site.url)
        assert anna.login("anna").status == bert.login("bert").status == 200
        assert carl.login("carl").status == 403
        file.write_text(user("anna", [1], "annaanna") + user("carl", [1, 2], "carlcarl"))
        until(lambda: knows(site, "carl"))
        assert carl.login("carl").status == 200
        assert anna.ask("/api/state").status == 200  # of whom nothing has changed
        assert bert.ask("/api/state").status == 401 and bert.login("bert").status == 403
        file.write_text(user("anna", [1, 2], "annaanna") + user("carl", [1, 2], "another"))
        until(lambda: anna.ask("/api/state").status == 401)
        assert carl.ask("/api/state").status == 401
        assert anna.login("anna").status == carl.login("carl", "another").status == 200


def test_a_file_of_users_that_is_wrong_is_a_trouble_and_the_users_stay(tmp_path: Path) -> None:
    file = tmp_path / "users.toml"
    right = user("anna", [1], "annaanna")
    file.write_text(right)
    with served(users=read_users(file, {1, 2}), users_file=file) as site:
        anna = Client(site.url)
        assert anna.login("anna").status == 200
        for wrong in ("[[user]]\n", "", user("anna", [9], "annaanna")):
            file.write_text(wrong)
            until(lambda: bool(troubles(site)))
            ((subject, words),) = troubles(site)
            assert subject == "users" and "users.toml" in words and "that it had" in words
            assert anna.ask("/api/state").status == 200
            file.write_text(right)
            until(lambda: not troubles(site))
        file.unlink()
        until(lambda: bool(troubles(site)))
        assert anna.ask("/api/state").status == 200


@pytest.mark.parametrize("kind", ["rsa:2048", "ec"])
def test_a_renewed_certificate_is_taken_up(tmp_path: Path, kind: str) -> None:
    """Also one whose key is of another kind: OpenSSL keeps a certificate of each kind in one context."""
    folder = named(tmp_path, "first", 2)
    with served(certificate=Certificate(folder / "page.pem", folder / "page.key")) as site:
        first = shown(site)
        assert first == (folder / "page.pem").read_text()
        until(lambda: bool(troubles(site)))
        ((subject, words),) = troubles(site)
        assert subject == "certificate" and "ends" in words
        (folder / "page.key").write_text("no key")
        until(lambda: any("the one before" in words for _, words in troubles(site)))
        assert shown(site) == first
        named(folder, "second", 300, kind)
        until(lambda: shown(site) == (folder / "page.pem").read_text())
        until(lambda: not troubles(site))


def test_a_certificate_ends(tmp_path: Path) -> None:
    folder = named(tmp_path, "page", 100)
    found = Certificate(folder / "page.pem", folder / "page.key")
    left = found.ends - datetime.now(timezone.utc)
    assert timedelta(days=99) < left < timedelta(days=101)
    assert found.trouble(found.ends - SOON - timedelta(seconds=1)) is None
    soon, late = found.trouble(found.ends - SOON), found.trouble(found.ends)
    assert soon is not None and late is not None and "has ended" in late and soon != late
    os.truncate(folder / "page.pem", 10)
    with pytest.raises(GatewayFault):
        found.renew()
    assert found.trouble(found.ends) == late


def test_a_network_of_ipv6_counts_as_one_address() -> None:
    assert counted_as("10.0.0.1") == "10.0.0.1" and counted_as("") == ""
    assert counted_as("2001:db8:0:1::1") == counted_as("2001:db8:0:1:ffff:ffff:ffff:ffff")
    assert counted_as("2001:db8:0:1::1") != counted_as("2001:db8:0:2::1")
    assert counted_as("::ffff:10.0.0.1") == "10.0.0.1"
    assert counted_as("fe80::1%eth0") == counted_as("fe80::2") and counted_as("::1") == "::/64"
