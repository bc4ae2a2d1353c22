"""A web server in a thread of its own, before a fake core, for tests of the page and of JSON over HTTP."""

from __future__ import annotations

import asyncio
import atexit
import shutil
import tempfile
import threading
from collections.abc import Callable, Coroutine, Iterator
from contextlib import contextmanager
from functools import cache
from pathlib import Path
from typing import Any, TypeVar

from alarmd_gateway.users import Users
from alarmd_gateway.web import FOLDER, Web
from alarmd_gateway.web_config import WebConfig

from fake_core import FakeCore

T = TypeVar("T")
PATIENCE = 180.0  # seconds


class Served:
    """The server, its core, and a way to do something in its loop."""

    def __init__(self, loop: asyncio.AbstractEventLoop, core: FakeCore, web: Web) -> None:
        self.loop, self.core, self.web = loop, core, web

    @property
    def url(self) -> str:
        return self.web.url

    def run(self, work: Coroutine[Any, Any, T]) -> T:
        """Waits for a coroutine in the server's loop."""
        return asyncio.run_coroutine_threadsafe(work, self.loop).result(PATIENCE)

    def do(self, act: Callable[[], T]) -> T:
        """Calls a function in the server's loop."""

        async def work() -> T:
            return act()

        return self.run(work())


@cache
def patient_page() -> Path:
    """The page, which hears nothing for a minute until it says so: a busy machine holds all up for seconds."""
    folder = Path(tempfile.mkdtemp(prefix="page-"))
    atexit.register(shutil.rmtree, folder, True)
    shutil.copytree(FOLDER, folder, dirs_exist_ok=True)
    live = folder / "live.js"
    text = live.read_text()
    assert "SILENCE = 2200;" in text
    live.write_text(text.replace("SILENCE = 2200;", "SILENCE = 60000;"))
    return folder


@contextmanager
def served(
    core: FakeCore | None = None, users: Users | None = None, port: int = 0, **more: Any
) -> Iterator[Served]:
    """Serves a fake core on the loopback address, and ends it."""
    loop = asyncio.new_event_loop()
    thread = threading.Thread(target=loop.run_forever, daemon=True)
    thread.start()
    found = core or FakeCore()
    web = Web(found, WebConfig("127.0.0.1", port, users, more.pop("certificate", None), **more))
    web.folder = patient_page()
    made = Served(loop, found, web)
    try:
        made.run(web.start())
        yield made
    finally:
        made.run(web.close())
        loop.call_soon_threadsafe(loop.stop)
        thread.join(PATIENCE)
        loop.close()
