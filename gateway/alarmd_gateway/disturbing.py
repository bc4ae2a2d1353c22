"""What a person may disturb in a simulation, over HTTP."""

from __future__ import annotations

from aiohttp import web

from .core import Core
from .guard import Guard, Refused, answer
from .model import BadSample, Json, exact


class Disturbing:
    """The handlers of `/api/disturbances`. Without a simulation there are none."""

    def __init__(self, core: Core, guard: Guard) -> None:
        self._core = core
        self._guard = guard

    def routes(self) -> list[web.RouteDef]:
        """The path and its handlers."""
        path = "/api/disturbances"
        return [web.get(path, self.show), web.post(path, self.set)]

    def _all(self) -> web.Response:
        found = self._core.disturbances
        values = [] if found is None else found.values()
        rows: list[Json] = [
            {"name": one.name, "kind": one.kind.value, "value": exact(value)}
            for one, value in values
        ]
        return answer({"disturbances": rows})

    async def show(self, request: web.Request) -> web.Response:
        """`disturbances`: each with `name`, `kind` and `value`."""
        self._guard.session(request)
        return self._all()

    async def set(self, request: web.Request) -> web.Response:
        """Sets the one of `name` to `value`, and answers all of them."""
        _, given = await self._guard.asked(request)
        name, value, found = given.get("name"), given.get("value"), self._core.disturbances
        if found is None or not isinstance(name, str) or not found.has(name):
            raise Refused(404, "there is no such disturbance")
        if not isinstance(value, bool | int | str):
            raise Refused(400, "value has to be a truth, a number or a text")
        try:
            found.disturb(name, value)
        except BadSample as bad:
            raise Refused(400, str(bad)) from bad
        return self._all()
