"""A small client of JSON over HTTP, which keeps its cookie and its token."""

from __future__ import annotations

import http.client
import json
import ssl
from collections.abc import Mapping
from dataclasses import dataclass
from typing import Any
from urllib.parse import urlsplit

from alarmd_gateway.users import Hash, User, Users, derive

PATIENCE = 180.0  # seconds


def cheap_hash(password: str) -> Hash:
    """A hash that takes no time: the least cost of scrypt."""
    bare = Hash(2, 1, 1, b"saltsalt", bytes(32))
    return Hash(2, 1, 1, b"saltsalt", derive(password, b"saltsalt", bare))


def two_users() -> Users:
    """Anna has console 1 and so both areas, Bert console 2 and dosing alone; their passwords are their names twice."""
    consoles = {"anna": (1,), "bert": (2,)}
    return Users(
        {name: User(name, given, cheap_hash(name * 2)) for name, given in consoles.items()}
    )


@dataclass
class Answer:
    """What came back."""

    status: int
    headers: http.client.HTTPMessage
    body: bytes

    @property
    def json(self) -> Any:
        return json.loads(self.body)


class Client:
    """A browser without a screen."""

    def __init__(self, url: str) -> None:
        self.host = urlsplit(url).netloc
        self.cookie = ""
        self.token = ""
        self.patience = PATIENCE
        self.tls: ssl.SSLContext | None = None  # where it is asked by TLS

    def ask(
        self,
        path: str,
        body: bytes | None = None,
        headers: Mapping[str, str] = {},
        method: str | None = None,
    ) -> Answer:
        """A request as it is given, with the cookie."""
        connection = http.client.HTTPConnection(self.host, timeout=self.patience)
        if self.tls is not None:
            connection = http.client.HTTPSConnection(
                self.host, timeout=self.patience, context=self.tls
            )
        sent = {**({"Cookie": self.cookie} if self.cookie else {}), **headers}
        try:
            connection.request(method or ("GET" if body is None else "POST"), path, body, sent)
            response = connection.getresponse()
            return Answer(response.status, response.headers, response.read())
        finally:
            connection.close()

    def post(self, path: str, data: object, **headers: str) -> Answer:
        """JSON with the token."""
        given = {"Content-Type": "application/json", "X-Alarmd-Token": self.token, **headers}
        return self.ask(path, json.dumps(data).encode(), given)

    def order(self, order: str, target: str, **more: object) -> Answer:
        given: dict[str, object] = {"order": order, "target": target}
        return self.post("/api/order", {**given, **more})

    def keep(self, answer: Answer) -> Answer:
        """Keeps the cookie and the token of an answer that has them."""
        if "Set-Cookie" in answer.headers:
            self.cookie = answer.headers["Set-Cookie"].partition(";")[0]
        if answer.status == 200:
            self.token = answer.json["token"]
        return answer

    def enter(self) -> Answer:
        """Begins a session where nobody has to log in."""
        return self.keep(self.ask("/api/session"))

    def login(self, name: str, password: str | None = None) -> Answer:
        return self.keep(self.post("/api/login", {"name": name, "password": password or name * 2}))
