"""The table [web], TLS by a certificate, and that without users nothing but the loopback address is taken."""

from __future__ import annotations

import dataclasses
import http.client
import io
import os
import pty
import socket
import ssl
import subprocess
import sys
from collections.abc import Callable
from pathlib import Path

import pytest
from around import ROOT
from fake_core import fake_plant
from http_help import two_users
from served import served

from alarmd_gateway import password
from alarmd_gateway.config import Config
from alarmd_gateway.model import ConsoleRow, GatewayFault
from alarmd_gateway.users import Users, read_hash
from alarmd_gateway.web_config import WebConfig, unseen, web_config

HASH = "scrypt$16384$8$1$U29kaXVtQ2hsb3JpZGU=$cCO9yzr9c0hGHAbNgf046/2o+7qQT44+qbVD9lRdofI="

SECURE = {"users": "users.toml", "certificate": "page.pem", "key": "page.key"}


@pytest.fixture(scope="module")
def certificate(tmp_path_factory: pytest.TempPathFactory) -> Path:
    """A folder with page.pem and page.key, and a file of users."""
    folder = tmp_path_factory.mktemp("tls")
    words = "openssl req -x509 -newkey rsa:2048 -nodes -days 2 -subj /CN=localhost".split()
    files = ["-keyout", str(folder / "page.key"), "-out", str(folder / "page.pem")]
    subprocess.run([*words, *files], check=True, capture_output=True)
    text = f'[[user]]\nname = "anna"\nconsoles = [1]\npassword = "{HASH}"\n'
    (folder / "users.toml").write_text(text)
    (folder / "broken.toml").write_text(text.replace("[1]", "[9]"))
    return folder


def read(folder: Path, **table: object) -> WebConfig | None:
    tables = {"web": table}
    config = Config(Path("alarmd"), Path("plant"), Path("record"), folder, tables=tables)
    return web_config(config, fake_plant())


def test_without_the_table_nothing_is_served(tmp_path: Path) -> None:
    config = Config(Path("alarmd"), Path("plant"), Path("record"), tmp_path)
    assert web_config(config, fake_plant()) is None


def test_what_is_taken(certificate: Path) -> None:
    found = read(certificate)
    assert found is not None and (found.host, found.port) == ("127.0.0.1", 8080)
    assert found.users is None and found.certificate is None and found.connections == 200
    found = read(certificate, listen="[::1]:0", users="users.toml")
    assert found is not None and found.host == "::1" and found.users is not None
    assert found.users.named("anna") is not None
    found = read(certificate, listen="localhost:80", certificate="page.pem", key="page.key")
    assert found is not None and found.certificate is not None
    found = read(certificate, listen="0.0.0.0:443", metrics_token="t", connections=9, **SECURE)
    assert found is not None and found.metrics_token == "t" and found.connections == 9
    for host in (
        "plant",
        "plant.example",
        "plant.example.",
        "pl-1_a.example",
        "größe.example",
        "*",
    ):
        found = read(certificate, listen=f"{host}:443", **SECURE)
        assert found is not None and found.host == host


@pytest.mark.parametrize(
    ("table", "words"),
    [
        ({"listen": "0.0.0.0:8080"}, "beyond this machine"),
        ({"listen": "10.0.0.1:8080", "users": "users.toml"}, "beyond this machine"),
        ({"listen": "[::]:8080", "certificate": "page.pem", "key": "page.key"}, "beyond"),
        ({"listen": "plant.example:8080"}, "beyond this machine"),
        ({"listen": "127.0.0.1"}, "has to be like"),
        ({"listen": "127.0.0.1:x"}, "has to be like"),
        ({"listen": "127.0.0.1:65536"}, "has to be like"),
        ({"listen": ":8080"}, "has to be like"),
        ({"listen": "127.0.0.1:" + "9" * 5000}, "has to be like"),
        ({"listen": "plant..example:8080", **SECURE}, "has to be like"),
        ({"listen": "a" * 70 + ".example:8080", **SECURE}, "has to be like"),
        ({"listen": "plant\0:8080", **SECURE}, "has to be like"),
        ({"listen": "the plant:8080", **SECURE}, "has to be like"),
        ({"listen": "[::1]]:8080", **SECURE}, "has to be like"),
        ({"listen": "http://plant.example:8080", **SECURE}, "has to be like"),
        ({"listen": 8080}, "'listen' of [web]"),
        ({"users": "none.toml"}, "No such file"),
        ({"users": "broken.toml"}, "no console 9"),
        ({"certificate": "page.pem"}, "belong together"),
        ({"certificate": "none.pem", "key": "page.key"}, "No such file"),
        ({"certificate": "users.toml", "key": "page.key"}, "certificate"),
        ({"certificate": "a\0b", "key": "page.key"}, "no path has a byte 0"),
        ({"certificate": "page.pem", "key": "page.pem"}, "certificate"),
        ({"metrics_token": ""}, "metrics_token is empty"),
        ({"metrics_token": " "}, "can't be brought in a header"),
        ({"metrics_token": "prometheus "}, "can't be brought in a header"),
        ({"metrics_token": "pro\nmetheus"}, "can't be brought in a header"),
        ({"metrics_token": "p" * 5000}, "can't be brought in a header"),
        ({"connections": 1}, "'connections' of [web]"),
        ({"colour": 1}, "'colour' of [web]"),
    ],
)
def test_what_is_wrong_is_one_sentence_and_status_2(
    certificate: Path, table: dict[str, object], words: str
) -> None:
    with pytest.raises(GatewayFault) as told:
        read(certificate, **table)
    assert words in told.value.words and told.value.status == 2
    assert "\n" not in told.value.words


def test_areas_whose_alarms_no_user_sees() -> None:
    plant = fake_plant()
    apart = dataclasses.replace(
        plant,
        areas=(*plant.areas, "empty", "alone"),
        consoles=(ConsoleRow(1, ("tank",)), ConsoleRow(2, ("dosing",))),
        alarms=(*plant.alarms, dataclasses.replace(plant.alarms[0], tag="B0", area="alone")),
    )
    anna, bert = (two_users().named(name) for name in ("anna", "bert"))
    assert anna is not None and bert is not None
    assert unseen(two_users(), apart) == ["alone"] and unseen(two_users(), plant) == []
    assert unseen(Users({"bert": bert}), apart) == ["tank", "alone"]
    both = dataclasses.replace(anna, consoles=(1, 2))  # who has all consoles sees all areas
    assert unseen(Users({"anna": both}), apart) == []


def test_tls(certificate: Path) -> None:
    found = read(certificate, certificate="page.pem", key="page.key")
    assert found is not None
    with served(users=two_users(), certificate=found.certificate) as site:
        assert site.url.startswith("https://")
        trust = ssl.create_default_context(cafile=certificate / "page.pem")
        trust.check_hostname = False
        connection = http.client.HTTPSConnection(
            "127.0.0.1", site.web.port, timeout=60, context=trust
        )
        body, kind = b'{"name":"anna","password":"annaanna"}', {"Content-Type": "application/json"}
        connection.request("POST", "/api/login", body, kind)
        answer = connection.getresponse()
        assert answer.status == 200
        cookie = answer.headers["Set-Cookie"]
        assert cookie.startswith("__Host-alarmd_") and "Secure" in cookie
        assert answer.headers["Strict-Transport-Security"]
        answer.read()
        connection.close()
        own = f"//127.0.0.1:{site.web.port}"
        for origin, wanted in ((f"https:{own}", 200), (f"http:{own}", 403)):
            sent = {"Cookie": cookie.partition(";")[0], "Origin": origin}
            connection.request("GET", "/api/session", headers=sent)
            answer = connection.getresponse()
            assert answer.status == wanted and answer.read()
        # a thousand that never begin to speak hold nobody up
        idle = [socket.create_connection(("127.0.0.1", site.web.port), 60) for _ in range(1000)]
        connection.request("GET", "/api/session", headers={"Cookie": cookie.partition(";")[0]})
        assert connection.getresponse().status == 200
        for channel in idle:
            channel.close()
        connection.close()
        plain = http.client.HTTPConnection("127.0.0.1", site.web.port, timeout=60)
        with pytest.raises((ConnectionError, http.client.HTTPException)):
            plain.request("GET", "/api/session")
            plain.getresponse()
        plain.close()


def test_an_address_that_is_taken(certificate: Path) -> None:
    with served() as site, pytest.raises(GatewayFault) as told:
        with served(port=site.web.port):
            pass
    assert "in use" in told.value.words and told.value.status == 2


Typed = Callable[[str], None]


@pytest.fixture
def typed(monkeypatch: pytest.MonkeyPatch) -> Typed:
    return lambda text: monkeypatch.setattr(sys, "stdin", io.StringIO(text))


def test_the_password_of_a_user(typed: Typed, capsys: pytest.CaptureFixture[str]) -> None:
    typed("correct horse\n")
    assert password.main(["password"]) == 0
    line = capsys.readouterr().out
    assert line.startswith('password = "') and line.endswith('"\n')
    assert read_hash(line.split('"')[1]).fits("correct horse")
    typed("\n")
    with pytest.raises(GatewayFault):
        password.main(["password"])
    with pytest.raises(GatewayFault):
        password.main(["password", "secret"])


@pytest.mark.parametrize("given", [b"\xff\n", b"", None])
def test_no_password_is_status_2(given: bytes | None) -> None:
    gateway = ROOT / "gateway" / "gateway"
    words = ["sh", "-c", f"'{gateway}' password" + (" <&-" if given is None else "")]
    environment = {"PYTHONIOENCODING": "utf-8:strict", "PATH": "/usr/bin:/bin"}
    done = subprocess.run(words, input=given, env=environment, capture_output=True, check=False)
    assert (done.returncode, done.stdout) == (2, b"")
    assert done.stderr.startswith(b"SERVER ") and b"fault of the gateway" not in done.stderr


def test_who_ends_the_input_at_the_question_gave_no_password() -> None:
    ours, theirs = pty.openpty()
    words = [str(ROOT / "gateway" / "gateway"), "password"]
    process = subprocess.Popen(words, stdin=theirs, stderr=theirs, start_new_session=True)
    shown = b""
    while b"Password: " not in shown:
        shown += os.read(ours, 1000)
    os.write(ours, b"\x04")
    assert process.wait(60) == 2
    assert b"SERVER there was no password" in os.read(ours, 1000)
    os.close(ours)
    os.close(theirs)
