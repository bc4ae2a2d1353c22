"""JSON over HTTP: who is there, what stands, the journal, the figures, and orders."""

from __future__ import annotations

import asyncio
import codecs
import csv
import io
import time
from collections.abc import AsyncIterator

from aiohttp import web

from .cells import guarded
from .connections import counted_as
from .core import Core
from .guard import Guard, Refused, answer, answered, body, number
from .jobs import CameAgain
from .journal import Journal
from .model import Json
from .ordering import Marks, read_mark, read_order, read_seen, with_console
from .report_table import as_json, table
from .reports import Report, begun, report
from .sessions import Pace, Session, Tries
from .shown import Shown
from .view import View

MOST_ROWS = 1000
HOUR = 3_600_000
REPORT_LASTS = 10.0  # seconds for which a report is kept
SCRYPTS = 2  # so many passwords are tried at once
READERS = 2  # so many requests read the journal at once, each in a thread
CSV_PART = 500  # rows of the journal


class Api:
    """The handlers of `/api/`."""

    def __init__(self, core: Core, guard: Guard) -> None:
        self.core = core
        self.guard = guard
        self.orders: dict[tuple[str, str], int] = {}  # how many by verb and reply
        self._tries = Tries()
        self._pace = Pace()
        self._shown = Shown(core)
        self._marks = Marks()
        self._scrypts = asyncio.Semaphore(SCRYPTS)
        self._readers = asyncio.Semaphore(READERS)
        self._reports: dict[tuple[tuple[int, ...], int], tuple[float, Report]] = {}
        self._reporting = asyncio.Lock()

    def routes(self) -> list[web.RouteDef]:
        """The paths and their handlers."""
        return [
            web.get("/api/session", self.session),
            web.post("/api/login", self.login),
            web.post("/api/logout", self.logout),
            web.get("/api/plant", self.plant),
            web.get("/api/state", self.state),
            web.get("/api/journal", self.journal),
            web.get("/api/journal.csv", self.journal_csv),
            web.get("/api/report", self.report),
            web.get("/api/report.csv", self.report_csv),
            web.post("/api/order", self.order),
            web.post("/api/answer", self.answer),
        ]

    def view(self, session: Session) -> View:
        """What the session's user sees."""
        return View(self.core.plant, session.consoles)

    def who(self, session: Session) -> dict[str, Json]:
        """A session as the page has it."""
        return {
            "user": session.user,
            "consoles": list(session.consoles),
            "areas": list(self.view(session).areas),
            "token": session.token,
            "users": self.guard.users is not None,
            "plant": self.core.plant.name,
        }

    async def session(self, request: web.Request) -> web.Response:
        """Who is logged in. Where nobody has to, this begins a session."""
        try:
            return answer(self.who(self.guard.session(request)))
        except Refused:
            if self.guard.users is not None:
                return answer({"error": "nobody is logged in", "plant": self.core.plant.name}, 401)
        response = answer(None)
        session = self.guard.begin(response, None, self.guard.consoles)
        response.text = answer(self.who(session)).text
        return response

    async def login(self, request: web.Request) -> web.Response:
        """Begins a session by a name and a password."""
        given = await body(request)
        name, password = given.get("name"), given.get("password")
        if self.guard.users is None:
            raise Refused(400, "this plant has no users")
        if not isinstance(name, str) or not isinstance(password, str) or len(name) > 64:
            raise Refused(400, "name and password have to be texts")
        address = counted_as(request.remote or "")
        wait = self._tries.wait(address, name)
        if wait:
            raise Refused(429, f"too many wrong passwords: again in {int(wait) + 1} seconds", wait)
        self._tries.failed(address, name)  # until it is known to be right: many at once count
        async with self._scrypts:
            user = await asyncio.to_thread(self.guard.users.check, name, password)
        # the file may have been taken up anew meanwhile
        if user is None or self.guard.users.named(name) != user:
            raise Refused(403, "the name or the password is wrong")
        self._tries.succeeded(address, name)
        self.guard.end(request)
        response = answer(None)
        session = self.guard.begin(response, user.name, user.consoles)
        response.text = answer(self.who(session)).text
        return response

    async def logout(self, request: web.Request) -> web.Response:
        """Ends the session."""
        self.guard.changing(request)
        self.guard.end(request)
        response = answer({"user": None})
        self.guard.forget(response)
        return response

    async def plant(self, request: web.Request) -> web.Response:
        """What doesn't change while the plant is served."""
        view = self.view(self.guard.reading(request))
        response = answered(self._shown.table(view))
        response.enable_compression()
        return response

    async def state(self, request: web.Request) -> web.Response:
        """All that stands at one moment."""
        view = self.view(self.guard.reading(request))
        response = answered(self._shown.snapshot(view, normal=True)[1])
        response.enable_compression()
        return response

    async def journal(self, request: web.Request) -> web.Response:
        """Rows of the journal from a number on; `next` is that of the row after them, null at the end."""
        view = self.view(self.guard.reading(request))
        first = number(request, "from", 1, 1, 10**12)
        count = number(request, "count", 100, 1, MOST_ROWS)
        async with self._readers:
            page = await asyncio.to_thread(journal_page, self.core.journal, view, first, count)
        return answer(page)

    async def journal_csv(self, request: web.Request) -> web.StreamResponse:
        """The journal as CSV, from a number on."""
        view = self.view(self.guard.reading(request))
        first = number(request, "from", 1, 1, 10**12)
        count = number(request, "count", 10**9, 1, 10**9)
        begin = beginning(request)
        if request.method == "HEAD":  # what stands behind its answer is taken for the next one
            return web.Response(headers=download("journal.csv"))
        response = web.StreamResponse(headers=download("journal.csv"))
        await response.prepare(request)
        await response.write(begin)
        async for text in csv_parts(self.core.journal, view, first, count, self._readers):
            await response.write(text.encode())
        await response.write_eof()
        return response

    async def order(self, request: web.Request) -> web.Response:
        """Gives an order, and answers what the server replied."""
        session, given = await self.guard.asked(request)
        mark = read_mark(given.pop("mark", None))
        if mark is None:
            return answer(await self._give(session, given))
        key = session.token, mark
        return answer(await self._marks.once(key, given, lambda: self._give(session, given)))

    async def _give(self, session: Session, given: dict[str, Json]) -> Json:
        order, reason = read_order(given)
        seen = read_seen(given)
        if not self._pace.take(session.token):
            raise Refused(429, "too many orders at once", 1)
        view = self.view(session)
        if order.console == 0:
            order = with_console(order, view)
        elif order.console not in session.consoles:
            raise Refused(403, f"console {order.console} isn't yours")
        try:
            reply = await self.core.order(order, session.user, reason, seen)
        except ValueError as bad:
            raise Refused(400, str(bad)) from bad
        except CameAgain:
            raise Refused(409, "it has come again since it was read") from None
        key = order.verb.value, reply.code
        self.orders[key] = self.orders.get(key, 0) + 1
        return {"reply": reply.code, "taken": reply.taken, "why": reply.why}

    async def answer(self, request: web.Request) -> web.Response:
        """Answers a question of the gateway."""
        session, given = await self.guard.asked(request)
        asked, yes = given.get("number"), given.get("yes")
        own = given.get("console", next(iter(session.consoles), 0))
        if type(asked) is not int or type(yes) is not bool:
            raise Refused(400, "number has to be a whole number, and yes a truth")
        if type(own) is not int:
            raise Refused(400, "console has to be a number")
        if own not in session.consoles:
            raise Refused(403, "the console isn't yours")
        try:
            await self.core.answer(asked, yes, own, session.user)
        except KeyError as bad:
            raise Refused(404, "no such question waits") from bad
        except ValueError as bad:
            raise Refused(400, str(bad)) from bad
        return answer({"answered": asked})

    async def report(self, request: web.Request) -> web.Response:
        """The figures of the alarm system."""
        return answer(as_json(self.core.plant, await self.make_report(request)))

    async def report_csv(self, request: web.Request) -> web.Response:
        """The same as CSV."""
        text, begin = io.StringIO(), beginning(request)
        lines = table(self.core.plant, await self.make_report(request))
        csv.writer(text).writerows([guarded(cell) for cell in line] for line in lines)
        body = begin + text.getvalue().encode()
        return web.Response(body=body, headers=download("figures.csv"))

    async def make_report(self, request: web.Request) -> Report:
        """The figures of the last `hours` (0: from the journal's beginning), worked out in a thread, and kept for a while."""
        session = self.guard.reading(request)
        hours = number(request, "hours", 24, 0, 24 * 366)
        key = session.consoles, hours
        async with self._reporting:
            kept = self._reports.get(key)
            if kept is not None and time.monotonic() < kept[0] + REPORT_LASTS:
                return kept[1]
            journal, end = self.core.journal, self.core.state.moment + 1
            rows = journal.rows(1, len(journal))
            found = begun(journal.rows())
            first = end if found is None else found
            begin = max(first, end - hours * HOUR) if hours else first
            consoles = None if self.view(session).everything else session.consoles
            plant, before = self.core.plant, journal.plants[:-1]
            made = await asyncio.to_thread(report, plant, rows, begin, end, consoles, before)
            if len(self._reports) > 50:
                self._reports.clear()
            self._reports[key] = time.monotonic(), made
            return made


def beginning(request: web.Request) -> bytes:
    """What a table begins with: for a spreadsheet (`spreadsheet=1`) the mark by which it knows UTF-8."""
    return codecs.BOM_UTF8 if number(request, "spreadsheet", 0, 0, 1) else b""


def download(name: str) -> dict[str, str]:
    """The headers of a table that a browser keeps."""
    return {
        "Content-Type": "text/csv; charset=utf-8",
        "Content-Disposition": f'attachment; filename="{name}"',
        "Cache-Control": "no-store",
    }


def journal_page(journal: Journal, view: View, first: int, count: int) -> Json:
    """Rows from a number on, and which comes after them. Takes its time: call it in a thread."""
    rows = list(view.rows(journal, first, count + 1))
    shown: list[Json] = [one for row in rows[:count] for one in journal.json(row.number, 1)]
    after = rows[count].number if len(rows) > count else None
    return {"length": len(journal), "rows": shown, "next": after}


async def csv_parts(
    journal: Journal, view: View, first: int, count: int, readers: asyncio.Semaphore
) -> AsyncIterator[str]:
    """The header, and then the rows to be shown, some hundred at a time, each part made by a thread: scans and beats go on."""
    length = len(journal)
    yield "".join(list(journal.csv(1, 0)))
    while first <= length and count > 0:
        most = min(CSV_PART, length - first + 1)
        async with readers:
            text, shown = await asyncio.to_thread(csv_part, journal, view, first, most, count)
        yield text
        first, count = first + most, count - shown


def csv_part(journal: Journal, view: View, first: int, most: int, count: int) -> tuple[str, int]:
    """As CSV those of `most` rows that are to be shown, at most `count`; and how many these are."""
    lines = list(journal.csv(first, most))[1:]
    rows = zip(journal.rows(first, most), lines)
    shown = [line for row, line in rows if view.shows_row(row)][:count]
    return "".join(shown), len(shown)
