"""Disturbances of a simulation over HTTP, and that a plant without one has none."""

from __future__ import annotations

import asyncio
from dataclasses import replace
from pathlib import Path
from typing import Any

import aiohttp
import pytest

from alarmd_gateway.core import Core
from alarmd_gateway.simulate import attach as attach_model
from alarmd_gateway.web import attach as attach_page
from core_help import Served, config_of
from field_help import until


@pytest.mark.server
def test_disturbances_over_http(alarmd: Path, examples: Path, tmp_path: Path) -> None:
    tank = examples / "tank"
    tables: dict[str, Any] = {"web": {"listen": "127.0.0.1:0"}}
    plain = config_of(alarmd, tank / "plant.toml", tmp_path, tables=tables)
    model = {"simulate": {"model": str(tank / "model" / "plant.toml")}}

    async def body(simulated: bool) -> None:
        config = replace(plain, tables={**tables, **model}) if simulated else plain
        core = await Core.start(config)
        served, parts = Served(core), [await attach_model(core, config)]
        page = await attach_page(core, config)
        assert page is not None
        jar = aiohttp.CookieJar(unsafe=True)  # the loopback address is an address
        async with aiohttp.ClientSession(page.url, cookie_jar=jar) as client:
            async with client.get("/api/disturbances") as got:
                assert got.status == 401
            async with client.get("/api/session") as got:
                token = (await got.json())["token"]

            async def ask(given: Any, key: str = token) -> tuple[int, Any]:
                headers = {"X-Alarmd-Token": key}
                path = "/api/disturbances"
                async with client.post(path, json=given, headers=headers) as got:
                    return got.status, await got.json()

            async with client.get("/api/disturbances") as got:
                rows = (await got.json())["disturbances"]
            if simulated:
                assert [row["name"] for row in rows] == [
                    "switched",
                    "outlet",
                    "blocked",
                    "stuck",
                    "rich",
                ]
                assert rows[1] == {"name": "outlet", "kind": "DINT", "value": 100}
                assert (await ask({"name": "rich", "value": True}, "no"))[0] == 403
                assert (await ask({"name": "rich", "value": 7}))[0] == 400
                assert (await ask({"name": "rich", "value": None}))[0] == 400
                assert (await ask({"name": "pump", "value": True}))[0] == 404
                status, found = await ask({"name": "RICH", "value": "true"})
                assert status == 200 and found["disturbances"][4]["value"] is True
                await until(lambda: core.state.outputs["ratio"] == 30)
            else:
                assert rows == []
                assert (await ask({"name": "rich", "value": True}))[0] == 404
        await served.close()
        for part in (*parts, page):
            if part is not None:
                await part.close()

    for simulated in (False, True):
        asyncio.run(body(simulated))
        plain.record.unlink()
