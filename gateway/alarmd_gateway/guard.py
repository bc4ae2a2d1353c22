"""What each request meets first: headers for the browser, the host, the session, the token, and limits of bodies."""

from __future__ import annotations

import asyncio
import json
import logging
from collections.abc import Awaitable, Callable

from aiohttp import web

from .connections import Connection
from .model import GatewayFault, Json
from .sessions import Session, Sessions
from .users import Users
from .web_config import loopback

Handler = Callable[[web.Request], Awaitable[web.StreamResponse]]

LARGEST_BODY = 16_384  # bytes
PATIENCE = 10.0  # seconds in which a body has to come
COMPRESSED_ASIDE = 65_536  # bytes; what is larger is compressed by a thread
TOKEN = "X-Alarmd-Token"
HEADERS = {
    "Content-Security-Policy": "default-src 'none'; script-src 'self'; style-src 'self'; img-src 'self'; "
    "connect-src 'self'; base-uri 'none'; form-action 'none'; frame-ancestors 'none'",
    "X-Content-Type-Options": "nosniff",
    "X-Frame-Options": "DENY",
    "Referrer-Policy": "no-referrer",
    "Cross-Origin-Opener-Policy": "same-origin",
    "Cross-Origin-Resource-Policy": "same-origin",
    "Permissions-Policy": "camera=(), geolocation=(), microphone=()",
}
log = logging.getLogger(__name__)


class Refused(Exception):
    """A request that isn't carried out: the status, and a sentence for a person."""

    def __init__(self, status: int, words: str, wait: float = 0) -> None:
        super().__init__(words)
        self.status, self.words, self.wait = status, words, wait


def answer(data: Json, status: int = 200) -> web.Response:
    """JSON that no cache keeps."""
    return answered(compact(data), status)


def answered(text: str, status: int = 200) -> web.Response:
    """The same of what is JSON already."""
    return web.Response(
        text=text,
        status=status,
        content_type="application/json",
        headers={"Cache-Control": "no-store"},
        zlib_executor_size=COMPRESSED_ASIDE,
    )


def compact(data: Json) -> str:
    """JSON without blanks."""
    return json.dumps(data, separators=(",", ":"))


class Guard:
    """Who is at the other end of a request, and whether it may be answered."""

    def __init__(
        self, users: Users | None, consoles: tuple[int, ...], port: int, tls: bool
    ) -> None:
        self.users = users
        self.consoles = consoles  # all of the plant, for who needn't log in
        self.sessions = Sessions()
        self.tls = tls
        self._port = port

    @property
    def cookie(self) -> str:
        """The name of the cookie: of this port, since browsers give cookies to all ports of a host."""
        return f"{'__Host-' if self.tls else ''}alarmd_{self._port}"

    def served_at(self, port: int) -> None:
        """Says which port the system has chosen."""
        self._port = port

    def take_users(self, users: Users) -> None:
        """These are the users from now on. Who is gone, or has another password or other consoles, is logged out."""
        before, self.users = self.users, users
        assert before is not None  # users are there from the start on, or never
        changed = {name for name in before.names() if users.named(name) != before.named(name)}
        self.sessions.end_of(changed)

    def session(self, request: web.Request) -> Session:
        """The session of a request. Raises Refused (401)."""
        for value in cookies(request, self.cookie):
            session = self.sessions.find(value)
            if session is not None:
                return session
        raise Refused(401, "nobody is logged in")

    def reading(self, request: web.Request) -> Session:
        """The session of a request that only reads. Where nobody has to log in, it needs none. Raises Refused (401)."""
        try:
            return self.session(request)
        except Refused:
            if self.users is not None:
                raise
            return Session(None, self.consoles, "", 0.0)

    def changing(self, request: web.Request) -> Session:
        """The session of a request that changes something: it brings the session's token. Raises Refused (401, 403)."""
        session = self.session(request)
        if not session.owns(request.headers.get(TOKEN)):
            raise Refused(403, "the token is missing or isn't this session's")
        return session

    async def asked(self, request: web.Request) -> tuple[Session, dict[str, Json]]:
        """The session of a request that changes something, and its body; a session that has ended when the body comes is none. Raises
        Refused (400 to 415)."""
        self.changing(request)
        given = await body(request)
        return self.changing(request), given

    def begin(
        self, response: web.StreamResponse, user: str | None, consoles: tuple[int, ...]
    ) -> Session:
        """A new session, whose cookie the response sets."""
        cookie, session = self.sessions.begin(user, consoles)
        response.set_cookie(
            self.cookie, cookie, path="/", httponly=True, samesite="Strict", secure=self.tls
        )
        return session

    def end(self, request: web.Request) -> None:
        """Ends the session of a request, where it has one."""
        for value in cookies(request, self.cookie):
            self.sessions.end(value)

    def forget(self, response: web.StreamResponse) -> None:
        """Makes the browser forget the cookie."""
        response.set_cookie(
            self.cookie, "", path="/", httponly=True, samesite="Strict", secure=self.tls, max_age=0
        )

    def check_host(self, request: web.Request) -> None:
        """Raises Refused where another site stands behind the request.

        Without users the host has to be this machine by name, so that no name of another site leads here.
        """
        host = request.headers.get("Host", "")
        origin = request.headers.get("Origin")
        if self.users is None and not this_machine(host):
            raise Refused(421, "without users the page is served to this machine alone")
        if origin is None:
            return
        scheme, _, site = origin.partition("://")
        plain = self.tls and scheme != "https"  # without TLS of ours a proxy may have it
        if site != host or plain:
            raise Refused(403, "the request comes from another site")

    @web.middleware
    async def middleware(self, request: web.Request, handler: Handler) -> web.StreamResponse:
        """Answers each refusal and each fault in JSON, and sets the headers."""
        if isinstance(request.protocol, Connection):
            request.protocol.served = True
        try:
            self.check_host(request)
            return await handler(request)
        except Refused as refused:
            response = answer({"error": refused.words}, refused.status)
            if refused.wait:
                response.headers["Retry-After"] = str(int(refused.wait) + 1)
            return response
        except web.HTTPException as fault:
            return answer({"error": fault.reason}, fault.status)
        except GatewayFault as fault:
            return answer({"error": fault.words}, 503)
        except asyncio.CancelledError:
            raise
        except Exception as fault:
            if isinstance(fault, ConnectionError) and gone(request):
                # a table that isn't read to its end is no fault, and this is answered to nobody
                return answer(None, 400)
            log.exception("a request to %s failed", request.path)
            return answer({"error": "a fault in the gateway: its log has more"}, 500)

    @property
    def all_headers(self) -> dict[str, str]:
        """The headers of every response."""
        secure = {"Strict-Transport-Security": "max-age=31536000"} if self.tls else {}
        return {**HEADERS, "Server": "alarmd", **secure}

    async def headers(self, request: web.Request, response: web.StreamResponse) -> None:
        """Sets them, before it is sent."""
        response.headers.update(self.all_headers)


def gone(request: web.Request) -> bool:
    """Whether nobody is at the other end any more."""
    return request.transport is None or request.transport.is_closing()


def cookies(request: web.Request, name: str) -> list[str]:
    """The values of the cookies of this name. Those of other names may be spelled anyhow: a browser brings what any program on any port
    of this host has set, and none of these may hide ours, as they do where all have to be understood.
    """
    pairs = (
        pair.strip(" \t").partition("=")
        for line in request.headers.getall("Cookie", ())
        for pair in line.split(";")
    )
    return [value for key, _, value in pairs if key == name]


def this_machine(host: str) -> bool:
    """Whether the host of a request is this machine, with a port or without one. Any loopback address is: no site has it for a name."""
    names = host, host.rpartition(":")[0]
    return any(loopback(name.removeprefix("[").removesuffix("]")) for name in names)


async def body(request: web.Request) -> dict[str, Json]:
    """The object of a request's body. Raises Refused (400, 408, 413, 415)."""
    if request.content_type != "application/json":
        raise Refused(415, "the body has to be application/json")
    try:
        text = await asyncio.wait_for(request.read(), PATIENCE)
        found = json.loads(text.decode("utf-8"))
    except asyncio.TimeoutError as late:
        raise Refused(408, "the body didn't come") from late
    except (ValueError, RecursionError) as bad:
        raise Refused(400, "the body is no JSON") from bad
    if not isinstance(found, dict):
        raise Refused(400, "the body has to be an object")
    return found


def number(request: web.Request, key: str, default: int, least: int, most: int) -> int:
    """A whole number of the query. Raises Refused (400)."""
    text = request.query.get(key)
    if text is None:
        return default
    if not (text.isascii() and text.isdigit() and len(text) <= 15 and least <= int(text) <= most):
        raise Refused(400, f"{key} has to be a whole number from {least} to {most}")
    return int(text)
