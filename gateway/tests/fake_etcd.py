"""An etcd in memory, as much of it as the gateway asks for: transactions with comparisons, leases that end when a test says so."""

from __future__ import annotations

import asyncio
import base64
import contextlib
from collections.abc import Callable
from dataclasses import dataclass
from typing import Any

from alarmd_gateway.etcd import GRANT, KEEP, REVOKE, TXN, Body, EtcdRefused, NoEtcd, NotNow


@dataclass
class Key:
    value: str
    created: int
    modified: int
    version: int
    lease: str


class FakeEtcd:
    """Keys and values in base64, as they come; ranges by the bytes behind them, whose order base64 doesn't keep."""

    def __init__(self) -> None:
        self.keys: dict[bytes, Key] = {}
        self.revision = 1
        self.once = 0  # so many requests were asked once alone
        self.leases: set[str] = set()
        self.deaf = 0  # so many requests get no answer, and aren't carried out
        self.dumb = 0  # so many are carried out, and get no answer
        self.refusal = ""  # where there are words, whatever writes is refused with them
        self.strict = False  # whether a lease that isn't there any more can't be asked for anew
        self.late = 0  # so many come late: they get no answer, and are carried out by `arrive`
        self.before: dict[
            int, Callable[[], None]
        ] = {}  # what befalls before so many more transactions
        self._under_way: list[tuple[str, Body]] = []
        self._count = 0

    async def post(self, path: str, body: Body, once: bool = False) -> Body:
        await asyncio.sleep(0)
        self.once += once
        if path == TXN:
            self.before = {number - 1: fault for number, fault in self.before.items()}
            self.before.pop(0, lambda: None)()
        if self.late and path == TXN:
            self.late -= 1
            self._under_way.append((path, body))
            raise NoEtcd("late")
        if self.refusal and path == TXN and writes(body["success"]):
            raise NotNow(self.refusal)
        if self.deaf:
            self.deaf -= 1
            raise NoEtcd("deaf")
        answer = self._carry_out(path, body)
        if self.dumb:
            self.dumb -= 1
            self.revision += 1  # another key is written meanwhile
            raise NoEtcd("dumb")
        return answer

    def arrive(self) -> None:
        """What was under way is carried out."""
        for path, body in self._under_way:
            self._carry_out(path, body)
        self._under_way.clear()

    async def close(self) -> None:
        """Nothing is open."""

    def _carry_out(self, path: str, body: Body) -> Body:
        if path == GRANT:
            self._count += 1
            self.leases.add(str(self._count))
            return {"ID": str(self._count), "TTL": body["TTL"]}
        if path == KEEP and self.strict and body["ID"] not in self.leases:
            raise EtcdRefused("etcdserver: requested lease not found")
        if path == KEEP:
            return {"result": {"TTL": "3"} if body["ID"] in self.leases else {}}
        if path == REVOKE:
            self.end(body["ID"])
            return {}
        assert path == TXN
        return self._transaction(body)

    def end(self, lease: str) -> None:
        """A lease ends, and its keys with it."""
        self.leases.discard(lease)
        gone = [key for key, kept in self.keys.items() if kept.lease == lease]
        for key in gone:
            del self.keys[key]
        self.revision += 1

    def _transaction(self, body: Body) -> Body:
        succeeded = all(self._holds(one) for one in body["compare"])
        asked = body["success" if succeeded else "failure"]
        self.revision += writes(asked)
        responses = [self._request(one) for one in asked]
        header = {"revision": str(self.revision)}
        answer: Body = {"header": header, "responses": responses}
        return {**answer, "succeeded": True} if succeeded else answer

    def _holds(self, one: Body) -> bool:
        kept = self.keys.get(decoded(one["key"]), Key("", 0, 0, 0, ""))
        if one["target"] == "VALUE":
            return bool(kept.value == one["value"])
        field = {"VERSION": kept.version, "CREATE": kept.created, "MOD": kept.modified}
        name = {"VERSION": "version", "CREATE": "create_revision", "MOD": "mod_revision"}
        wanted, has = int(one[name[one["target"]]]), field[one["target"]]
        return has > wanted if one["result"] == "GREATER" else has == wanted

    def _request(self, one: Body) -> dict[str, Any]:
        ((kind, asked),) = one.items()
        begin = decoded(asked["key"])
        end = decoded(asked["range_end"]) if "range_end" in asked else begin + b"\0"
        if kind == "request_put":
            self._put(begin, asked)
            return {"response_put": {}}
        found = sorted(key for key in self.keys if begin <= key < end)
        if kind == "request_delete_range":
            for key in found:
                del self.keys[key]
            return {"response_delete_range": {}}
        most = int(asked.get("limit", "0")) or len(found)
        kvs = [self._shown(key) for key in found[:most]]
        return {"response_range": {"kvs": kvs} if kvs else {}}

    def _put(self, key: bytes, asked: Body) -> None:
        lease = asked.get("lease", "")
        if lease and lease not in self.leases:
            raise EtcdRefused("etcdserver: requested lease not found")
        old = self.keys.get(key)
        created, version = (old.created, old.version) if old else (self.revision, 0)
        self.keys[key] = Key(asked["value"], created, self.revision, version + 1, lease)

    def _shown(self, key: bytes) -> dict[str, str]:
        kept = self.keys[key]
        return {
            "key": base64.b64encode(key).decode(),
            "value": kept.value,
            "create_revision": str(kept.created),
            "mod_revision": str(kept.modified),
        }


class Twice(FakeEtcd):
    """Carries out twice what may be asked of two nodes, and once more after the next request. The second answer counts."""

    def __init__(self) -> None:
        super().__init__()
        self._echo: tuple[str, Body] | None = None

    async def post(self, path: str, body: Body, once: bool = False) -> Body:
        answer = await super().post(path, body, once)
        if once:
            return answer
        answer = self._carry_out(path, body)
        if self._echo is not None:
            with contextlib.suppress(EtcdRefused):
                self._carry_out(*self._echo)
        self._echo = path, body
        return answer


def decoded(text: str) -> bytes:
    return base64.b64decode(text)


def writes(asked: list[Body]) -> bool:
    """Whether one of these writes."""
    return any("request_range" not in one for one in asked)
