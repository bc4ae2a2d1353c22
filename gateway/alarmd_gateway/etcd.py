"""etcd by its JSON over HTTP (version 3.4): transactions, leases, and the keys of a shared log.

Keys and values go in base64, and whole numbers as texts."""

from __future__ import annotations

import base64
import json
from collections.abc import Mapping, Sequence
from dataclasses import dataclass
from typing import Any, Protocol, TypeAlias

Body: TypeAlias = dict[str, Any]

TXN = "/v3/kv/txn"
GRANT, KEEP, REVOKE = "/v3/lease/grant", "/v3/lease/keepalive", "/v3/lease/revoke"


class NoEtcd(Exception):
    """No answer came. What was asked may have been done, or may be done later."""


class NotNow(NoEtcd):
    """etcd has answered that it does nothing of the kind now, and hasn't done what was asked: its space is exceeded, or who asks may
    not. The text has its words."""


class EtcdRefused(Exception):
    """etcd has answered that it doesn't do what was asked, and hasn't done it."""


class Etcd(Protocol):
    """What answers requests."""

    async def post(self, path: str, body: Body, once: bool = False) -> Body:
        """The answer to a request. Where a node doesn't answer, the next one is asked; with `once` only where the request has surely
        not arrived. Raises NoEtcd, EtcdRefused."""

    async def close(self) -> None:
        """Ends all connections."""


# what a transaction is made of


def coded(text: str) -> str:
    """A key or a value as etcd takes it."""
    return base64.b64encode(text.encode("utf-8", "surrogateescape")).decode("ascii")


def plain(text: str) -> str:
    """A key or a value as it was given."""
    return base64.b64decode(text).decode("utf-8", "surrogateescape")


def after(prefix: str) -> str:
    """The end of the range of all keys that begin with a prefix of ASCII."""
    return prefix[:-1] + chr(ord(prefix[-1]) + 1)


def absent(key: str) -> Body:
    """Holds while there is no such key."""
    return {"key": coded(key), "target": "VERSION", "result": "EQUAL", "version": "0"}


def present(key: str) -> Body:
    """Holds while the key is there."""
    return {"key": coded(key), "target": "VERSION", "result": "GREATER", "version": "0"}


def created(key: str, revision: int) -> Body:
    """Holds while the key is the one that was made at this revision."""
    known = {"target": "CREATE", "result": "EQUAL", "create_revision": str(revision)}
    return {"key": coded(key), **known}


def modified(key: str, revision: int) -> Body:
    """Holds while the key was last written at this revision."""
    return {"key": coded(key), "target": "MOD", "result": "EQUAL", "mod_revision": str(revision)}


def valued(key: str, value: Mapping[str, Any]) -> Body:
    """Holds while the key has this value."""
    known = {"target": "VALUE", "result": "EQUAL", "value": coded(json.dumps(value))}
    return {"key": coded(key), **known}


def put(key: str, value: Mapping[str, Any], lease: str | None = None) -> Body:
    """Writes a key; with a lease it goes when that ends."""
    body = {"key": coded(key), "value": coded(json.dumps(value))}
    return {"request_put": body if lease is None else {**body, "lease": lease}}


def delete(key: str, end: str | None = None) -> Body:
    """Deletes a key, or those up to an end."""
    body = {"key": coded(key)}
    return {"request_delete_range": body if end is None else {**body, "range_end": coded(end)}}


def get(key: str, end: str | None = None, most: int = 0) -> Body:
    """Reads a key, or those up to an end, in order, at most so many."""
    body: Body = {"key": coded(key)}
    if end is not None:
        body = {**body, "range_end": coded(end), "limit": str(most)}
    return {"request_range": body}


def transaction(
    compare: Sequence[Body], success: Sequence[Body], failure: Sequence[Body] = ()
) -> Body:
    """All of `success` where all of `compare` holds, else all of `failure`, at one moment."""
    return {"compare": list(compare), "success": list(success), "failure": list(failure)}


@dataclass(frozen=True)
class Kept:
    """A key that was read. `created` and `modified` are revisions."""

    key: str
    value: dict[str, Any]
    created: int
    modified: int


def held(answer: Body) -> bool:
    """Whether all comparisons of a transaction held."""
    return bool(answer.get("succeeded", False))


def revision(answer: Body) -> int:
    """The revision at which an answer was given."""
    return int(answer["header"]["revision"])


def found(answer: Body, number: int) -> list[Kept]:
    """What the read of this number, from 0, of a transaction has found."""
    read = answer["responses"][number].get("response_range", {})
    return [_kept(one) for one in read.get("kvs", [])]


def _kept(one: Body) -> Kept:
    value = json.loads(plain(one.get("value", "")))
    return Kept(plain(one["key"]), value, int(one["create_revision"]), int(one["mod_revision"]))
