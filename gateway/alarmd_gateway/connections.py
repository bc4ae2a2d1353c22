"""A limit on connections: so many at once, half of them from one address, and a time in which the first request has to come."""

from __future__ import annotations

import asyncio
import ipaddress
import logging
import resource
import sys
from collections import Counter
from collections.abc import Mapping
from contextlib import suppress
from socket import IPPROTO_TCP, TCP_INFO
from typing import cast

from aiohttp import web
from aiohttp.web_protocol import RequestHandler

FIRST_REQUEST = 20.0  # seconds in which a connection has to bring a whole request
IDLE = 75.0  # seconds that a connection may rest between two requests
STUCK = 60.0  # seconds in which some of an answer has to leave
BYTES_ACKED = 120  # bytes before `tcpi_bytes_acked` in Linux's `struct tcp_info`
LONGEST_LINE = 8190  # bytes of a request's first line, or of a header
MOST_AHEAD = 100  # requests that may wait behind one that is under way; browsers send none ahead


QUIET = logging.getLogger("alarmd_gateway.http")  # what is no HTTP is answered, and no trouble
QUIET.setLevel(logging.CRITICAL)
HANDSHAKE = 10.0  # seconds in which TLS has to begin
DESCRIPTORS = 65_536


def more_descriptors() -> None:
    """Lets this process open as many files as it may. With TLS a connection is counted only once it has begun to speak."""
    soft, hard = resource.getrlimit(resource.RLIMIT_NOFILE)
    wanted = DESCRIPTORS if hard == resource.RLIM_INFINITY else min(hard, DESCRIPTORS)
    if soft != resource.RLIM_INFINITY and soft < wanted:
        with suppress(ValueError, OSError):
            resource.setrlimit(resource.RLIMIT_NOFILE, (wanted, hard))


def taken_of(transport: asyncio.BaseTransport) -> int:
    """How many bytes of a connection the machine at its other end has taken. What waits in this process may be the same for minutes
    though that one reads: the kernel wants more of it only once it is rid of a third of what it has, which can be a megabyte.
    """
    told = transport.get_extra_info("socket").getsockopt(IPPROTO_TCP, TCP_INFO, BYTES_ACKED + 8)
    return int.from_bytes(told[BYTES_ACKED:], sys.byteorder)


def counted_as(address: str) -> str:
    """As whom limits count an address: of IPv6 its network of 64 bits, in which a machine may have any address."""
    try:
        found = ipaddress.ip_address(address)
    except ValueError:
        return address
    if isinstance(found, ipaddress.IPv4Address):
        return address
    if found.ipv4_mapped is not None:
        return str(found.ipv4_mapped)
    return str(ipaddress.IPv6Network((int(found) >> 64 << 64, 64)))


class Limit:
    """Counts connections by address."""

    def __init__(self, most: int) -> None:
        self._most = most
        self._each = max(most // 2, 1)
        self._open: Counter[str] = Counter()
        self.refused = 0

    def __len__(self) -> int:
        return self._open.total()

    def enter(self, address: str) -> bool:
        """Counts a connection and says so, unless there are too many."""
        if len(self) >= self._most or self._open[address] >= self._each:
            self.refused += 1
            return False
        self._open[address] += 1
        return True

    def leave(self, address: str) -> None:
        """A connection that was counted has ended."""
        self._open[address] -= 1
        self._open += Counter()  # drops those that are 0


class Connection(RequestHandler):
    """A connection of aiohttp's that is closed at once where there are too many, and later where it brings no request, or reads no answer."""

    __slots__ = ("_limit", "_headers", "_address", "_timer", "_stuck", "served")

    def __init__(
        self,
        server: web.Server,
        limit: Limit,
        loop: asyncio.AbstractEventLoop,
        headers: Mapping[str, str],
    ) -> None:
        """`headers` are those of answers to what is no request."""
        super().__init__(
            server,
            loop=loop,
            keepalive_timeout=IDLE,
            max_line_size=LONGEST_LINE,
            max_field_size=LONGEST_LINE,
            access_log=None,  # type: ignore[arg-type]
            logger=QUIET,
            auto_decompress=False,  # a small body stays small
        )
        self._limit = limit
        self._headers = headers
        self._address: str | None = None
        self._timer: asyncio.TimerHandle | None = None
        self._stuck: asyncio.TimerHandle | None = None
        self.served = False  # whether it has brought a request

    def connection_made(self, transport: asyncio.BaseTransport) -> None:
        peer = transport.get_extra_info("peername")
        address = counted_as(str(peer[0])) if isinstance(peer, tuple) else ""
        if not self._limit.enter(address):
            cast(asyncio.Transport, transport).abort()
            return
        self._address = address
        self._timer = asyncio.get_running_loop().call_later(FIRST_REQUEST, self._late, transport)
        super().connection_made(transport)

    def connection_lost(self, exc: BaseException | None) -> None:
        if self._address is None:
            return
        self._limit.leave(self._address)
        self._address = None
        for timer in (self._timer, self._stuck):
            if timer is not None:
                timer.cancel()
        super().connection_lost(exc)

    def pause_writing(self) -> None:
        super().pause_writing()
        self._look(None)

    def resume_writing(self) -> None:
        if self._stuck is not None:
            self._stuck.cancel()
        super().resume_writing()

    def data_received(self, data: bytes) -> None:
        try:
            super().data_received(data)
        except ValueError:  # a request's target that is no URL, which the parser doesn't answer
            cast(asyncio.Transport, self.transport).abort()
            return
        if len(self._messages) > MOST_AHEAD and self.transport is not None:
            self.transport.abort()  # each takes memory until it is answered

    def handle_error(
        self,
        request: web.BaseRequest,
        status: int = 500,
        exc: BaseException | None = None,
        message: str | None = None,
    ) -> web.StreamResponse:
        response = super().handle_error(request, status, exc, message)
        response.headers.update(self._headers)
        return response

    def _look(self, before: int | None) -> None:
        """Ends the connection where its other end has taken nothing beyond `before`, in bytes; else looks again in a while."""
        if self.transport is None:
            return
        taken = taken_of(self.transport)
        if taken == before:
            self.transport.abort()
        else:
            self._stuck = asyncio.get_running_loop().call_later(STUCK, self._look, taken)

    def _late(self, transport: asyncio.Transport) -> None:
        if not self.served:
            transport.abort()
