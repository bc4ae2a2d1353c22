"""The web server: the operators' page, JSON, the live connection and /metrics, on one port."""

from __future__ import annotations

import asyncio
import hashlib
import sys
from contextlib import suppress
from pathlib import Path

from aiohttp import web

from .api import Api
from .config import WORDS_STATUS, Config
from .connections import HANDSHAKE, Connection, Limit, more_descriptors
from .core import Core
from .disturbing import Disturbing
from .guard import LARGEST_BODY, Guard, Refused
from .live import Live
from .metrics import Count, Metrics
from .model import GatewayFault
from .page_files import CertificateFiles, Files, UsersFile, watch
from .sessions import same
from .web_config import WebConfig, web_config

FOLDER = Path(__file__).parent / "page"
TYPES = {
    ".html": "text/html; charset=utf-8",
    ".css": "text/css; charset=utf-8",
    ".js": "text/javascript; charset=utf-8",
    ".svg": "image/svg+xml",
}


class Pages:
    """The files of the page, read once."""

    def __init__(self, folder: Path) -> None:
        self._files = {
            file.name: (file.read_bytes(), TYPES[file.suffix])
            for file in folder.iterdir()
            if file.suffix in TYPES
        }
        self._tags = {
            name: f'"{hashlib.sha256(data).hexdigest()[:20]}"'
            for name, (data, _) in self._files.items()
        }

    async def handle(self, request: web.Request) -> web.Response:
        """A file by its name; `/` is index.html."""
        name = request.match_info.get("name", "index.html")
        if name not in self._files:
            raise Refused(404, "there is no such page")
        headers = {"Cache-Control": "no-cache", "ETag": self._tags[name]}
        if request.headers.get("If-None-Match") == self._tags[name]:
            return web.Response(status=304, headers=headers)
        data, kind = self._files[name]
        response = web.Response(body=data, headers={**headers, "Content-Type": kind})
        response.enable_compression()
        return response


class Web:
    """The web server as a part of the gateway."""

    asks = True
    brings = False
    folder = FOLDER  # of the page

    def __init__(self, core: Core, config: WebConfig) -> None:
        consoles = tuple(row.number for row in core.plant.consoles)
        self.config = config
        self._certificate = config.certificate
        secure = self._certificate is not None
        self.guard = Guard(config.users, consoles, config.port, secure)
        self.limit = Limit(config.connections)
        self._core = core
        self.live = Live(core, self.guard)
        self.api = Api(core, self.guard)
        self.metrics = Metrics(core, self.api.orders, self._counts())
        self.port = config.port
        self._gathering = asyncio.Lock()
        self._runner: web.AppRunner | None = None
        self._server: asyncio.Server | None = None
        self._watching: asyncio.Task[None] | None = None

    async def start(self) -> None:
        """Listens. Raises GatewayFault where the address isn't to be had."""
        more_descriptors()
        app = web.Application(middlewares=[self.guard.middleware], client_max_size=LARGEST_BODY)
        app.on_response_prepare.append(self.guard.headers)
        pages = Pages(self.folder)
        app.add_routes(
            [
                web.get("/", pages.handle),
                web.get("/page/{name}", pages.handle),
                web.get("/metrics", self._metrics),
                web.get("/api/live", self.live.handle),
                *self.api.routes(),
                *Disturbing(self._core, self.guard).routes(),
            ]
        )
        self._runner = web.AppRunner(app, handle_signals=False, access_log=None)
        await self._runner.setup()
        server, loop = self._runner.server, asyncio.get_running_loop()
        tls = None if self._certificate is None else self._certificate.context
        assert server is not None
        try:
            self._server = await loop.create_server(
                lambda: Connection(server, self.limit, loop, self.guard.all_headers),
                self.config.host,
                self.config.port,
                ssl=tls,
                ssl_handshake_timeout=None if tls is None else HANDSHAKE,
                backlog=128,
            )
        except OSError as fault:
            await self._runner.cleanup()
            raise GatewayFault(
                f"the page can't be served at {self.config.host} port {self.config.port}: {fault.strerror}",
                WORDS_STATUS,
            ) from fault
        self.port = self._server.sockets[0].getsockname()[1]
        self.guard.served_at(self.port)
        self._watching = asyncio.create_task(watch(self._files()))

    @property
    def url(self) -> str:
        """Where the page is."""
        host = f"[{self.config.host}]" if ":" in self.config.host else self.config.host
        return f"{'https' if self._certificate else 'http'}://{host}:{self.port}/"

    async def close(self) -> None:
        """Ends all connections, and listens no more."""
        if self._watching is not None:
            self._watching.cancel()
            await asyncio.gather(self._watching, return_exceptions=True)
        if self._server is not None:
            self._server.close()
        await self.live.close()
        if self._runner is not None and self._runner.server is not None:
            with suppress(asyncio.TimeoutError):
                await asyncio.wait_for(self._runner.server.shutdown(2), 4)
            await self._runner.cleanup()

    def _files(self) -> list[Files]:
        """What is taken up again where it has changed."""
        found: list[Files] = []
        if self.config.users_file is not None:
            found.append(UsersFile(self._core, self.guard, self.config.users_file))
        if self._certificate is not None:
            found.append(CertificateFiles(self._core, self._certificate))
        return found

    def _counts(self) -> dict[str, tuple[str, Count]]:
        counts: dict[str, tuple[str, Count]] = {
            "alarmd_web_connections": ("Connections to the web server", lambda: len(self.limit)),
            "alarmd_web_refused_connections": (
                "Connections that were refused because there were too many",
                lambda: self.limit.refused,
            ),
            "alarmd_web_pages": ("Pages with a live connection", lambda: len(self.live)),
            "alarmd_web_sessions": ("Sessions", lambda: len(self.guard.sessions)),
        }
        if self._certificate is not None:
            counts["alarmd_web_certificate_ends_timestamp_seconds"] = (
                "End of the page's certificate",
                self._certificate.end,
            )
        return counts

    async def _metrics(self, request: web.Request) -> web.Response:
        token = self.config.metrics_token
        given = request.headers.get("Authorization", "").removeprefix("Bearer ")
        by_token = token is not None and same(given, token)
        if not by_token and self.config.users is not None:
            self.guard.session(request)
        async with self._gathering:  # by a thread: a long journal takes seconds the first time
            text = await asyncio.to_thread(self.metrics.text)
        return web.Response(
            body=text,
            headers={"Content-Type": "text/plain; version=0.0.4; charset=utf-8"},
        )


async def attach(core: Core, config: Config) -> Web | None:
    """Serves the page where the configuration has a table `[web]`, and says on standard error where it is. Raises GatewayFault."""
    found = web_config(config, core.plant)
    if found is None:
        return None
    served = Web(core, found)
    await served.start()
    with suppress(OSError, ValueError):  # where nobody can be told
        print(f"PAGE {served.url}", file=sys.stderr, flush=True)
    return served
