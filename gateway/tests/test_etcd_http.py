"""Nodes of etcd over HTTP, as servers of the test's own: which is asked, what their answers mean, and TLS."""

from __future__ import annotations

import asyncio
import contextlib
import socket
import ssl
import time
from collections.abc import AsyncIterator, Awaitable, Callable, Iterator
from pathlib import Path
from typing import Any

import pytest
from aiohttp import web
from certificates import Authority, Certificate

from alarmd_gateway.config import Config
from alarmd_gateway.etcd import TXN, EtcdRefused, NoEtcd, NotNow
from alarmd_gateway.etcd_http import HttpEtcd
from alarmd_gateway.model import GatewayFault
from alarmd_gateway.shared_config import client_tls, shared_config
from alarmd_gateway.transactions import Transactions

Handler = Callable[[], Awaitable[web.Response]]
CLOSED = "http://127.0.0.1:1"  # nobody listens there


class Node:
    """Answers each request the same, and counts them."""

    def __init__(self, status: int = 200, answer: object = {"succeeded": True}) -> None:
        self.asked = 0
        self.halted = False
        self.pause = 0.0  # seconds before an answer
        self.url = ""
        self.status = status
        self._answer = answer

    async def handle(self, request: web.Request) -> web.Response:
        await request.read()
        self.asked += 1
        if self.halted:
            await asyncio.sleep(600)
        await asyncio.sleep(self.pause)
        return web.json_response(self._answer, status=self.status)


@contextlib.asynccontextmanager
async def nodes(*served: Node, tls: ssl.SSLContext | None = None) -> AsyncIterator[list[str]]:
    """Serves them."""
    runners = []
    for node in served:
        app = web.Application()
        app.router.add_post(TXN, node.handle)
        runner = web.AppRunner(app)
        runners.append(runner)
        await runner.setup()
        site = web.TCPSite(runner, "127.0.0.1", 0, shutdown_timeout=0.1, ssl_context=tls)
        await site.start()
        assert site._server is not None
        port = site._server.sockets[0].getsockname()[1]  # type: ignore[attr-defined]
        node.url = f"{'https' if tls else 'http'}://127.0.0.1:{port}"
    try:
        yield [node.url for node in served]
    finally:
        for runner in runners:
            await runner.cleanup()


def asked(work: Callable[[], Awaitable[Any]]) -> Any:
    async def run() -> Any:
        return await asyncio.wait_for(work(), 60)

    return asyncio.run(run())


async def post(endpoints: list[str], once: bool = False, **more: Any) -> Any:
    client = HttpEtcd(endpoints, more.pop("seconds", 5.0), **more)
    try:
        return await client.post(TXN, {}, once)
    finally:
        await client.close()


def test_the_next_node_is_asked() -> None:
    async def work() -> None:
        good, bad = Node(), Node(503, {"error": "etcdserver: no leader"})
        async with nodes(good, bad):
            client = HttpEtcd([CLOSED, bad.url, good.url + "/"], 5.0)
            assert await client.post(TXN, {}) == {"succeeded": True}
            assert await client.post(TXN, {}) == {"succeeded": True}
            await client.close()
            assert (good.asked, bad.asked) == (2, 1)  # it stays at the one that answers

    asked(work)


@pytest.mark.parametrize("once", [True, False])
def test_nobody_answers(once: bool) -> None:
    async def work() -> None:
        node = Node(429, {"message": "etcdserver: mvcc: database space exceeded"})
        async with nodes(node):
            with pytest.raises(NoEtcd, match="database space exceeded"):
                await post([node.url, node.url], once)
            assert node.asked == (1 if once else 2)
        with pytest.raises(NoEtcd):
            await post([CLOSED, CLOSED], once)

    asked(work)


def test_what_may_be_asked_once_alone() -> None:
    """It goes on to the next node where the first one wasn't reached, and not where it may have come."""

    async def work() -> None:
        good, silent = Node(), Node()
        silent.halted = True
        async with nodes(good, silent):
            assert await post([CLOSED, good.url], True) == {"succeeded": True}
            with pytest.raises(NoEtcd, match="gives no answer"):
                await post([silent.url, good.url], True, seconds=2.0)
            assert (good.asked, silent.asked) == (1, 1)

    asked(work)


@contextlib.contextmanager
def deaf() -> Iterator[str]:
    """A node whose machine answers nothing, not even that somebody wants to be connected."""
    with socket.socket() as listens, contextlib.ExitStack() as stack:
        listens.bind(("127.0.0.1", 0))
        listens.listen(0)
        for _ in range(4):  # who comes after these isn't taken any more
            one = stack.enter_context(socket.socket())
            one.setblocking(False)
            one.connect_ex(listens.getsockname())
        yield f"http://127.0.0.1:{listens.getsockname()[1]}"


def test_a_machine_that_answers_nothing() -> None:
    """What may be asked once alone goes to the next node, since nothing has been sent; other things don't wait for it."""

    async def work() -> None:
        good = Node()
        async with nodes(good):
            with deaf() as url:
                assert await post([url, good.url], True, seconds=4.0) == {"succeeded": True}
                assert await post([url, url, good.url], seconds=20.0) == {"succeeded": True}
                with pytest.raises(NoEtcd):
                    await post([url, url], seconds=1.0)
                with pytest.raises(NoEtcd):
                    await post([url, url], True, seconds=1.0)

    asked(work)


def test_nobody_waits_for_a_silent_node() -> None:
    """The next one is asked beside it, long before its time is over; and then the one that answers is asked first."""

    async def work() -> None:
        good, silent, other = Node(), Node(), Node(503, {"error": "etcdserver: no leader"})
        silent.halted = True
        async with nodes(good, silent, other):
            client = HttpEtcd([silent.url, other.url, good.url], 40.0)
            begin = time.monotonic()
            assert await client.post(TXN, {}) == {"succeeded": True}
            assert 8 < time.monotonic() - begin < 30
            assert await client.post(TXN, {}) == {"succeeded": True}
            assert await client.post(TXN, {}, True) == {"succeeded": True}
            assert (good.asked, silent.asked, other.asked) == (3, 1, 1)
            await client.close()

    asked(work)


def test_who_failed_first_is_asked_first() -> None:
    """Where nobody has answered, the one that was silent to the end isn't asked first again."""

    async def work() -> None:
        silent, bad, worse = Node(), *(Node(503, {"error": "leader changed"}) for _ in range(2))
        silent.halted = True
        async with nodes(silent, bad, worse):
            client = HttpEtcd([silent.url, bad.url, worse.url], 4.0)
            with pytest.raises(NoEtcd):
                await client.post(TXN, {})
            bad.status = 200
            await client.post(TXN, {})
            assert (silent.asked, bad.asked, worse.asked) == (1, 2, 1)
            await client.close()

    asked(work)


def test_a_slow_answer_counts() -> None:
    """Where the others are silent too, the first one that answers is right, also when it was asked first; none is left waiting."""

    async def work() -> None:
        slow, silent = Node(), Node()
        silent.halted, slow.pause = True, 2.0
        async with nodes(slow, silent):
            client = HttpEtcd([slow.url, silent.url], 6.0)
            assert await client.post(TXN, {}) == {"succeeded": True}
            assert (slow.asked, silent.asked) == (1, 1)
            assert len(asyncio.all_tasks()) < 9
            with pytest.raises(asyncio.TimeoutError):
                await asyncio.wait_for(client.post(TXN, {}), 0.5)
            await client.close()

    asked(work)


def asking() -> int:
    """How many requests to nodes are under way."""
    return sum("_ask" in str(task.get_coro()) for task in asyncio.all_tasks())


def test_nothing_is_left_under_way() -> None:
    """Who was silent is asked no further once another node has answered, or nobody waits any more."""

    async def work() -> None:
        good, silent = Node(), Node()
        silent.halted = True
        async with nodes(good, silent):
            client = HttpEtcd([silent.url, good.url], 8.0)
            assert await client.post(TXN, {}) == {"succeeded": True}
            assert asking() == 0
            good.halted = True
            with pytest.raises(asyncio.TimeoutError):
                await asyncio.wait_for(client.post(TXN, {}), 4.0)
            assert asking() == 0
            await client.close()

    asked(work)


def test_a_refusal_is_an_answer() -> None:
    """No other node is asked after it."""

    async def work() -> None:
        refuses, good = Node(404, {"error": "etcdserver: requested lease not found"}), Node()
        async with nodes(refuses, good):
            with pytest.raises(EtcdRefused):
                await post([refuses.url, good.url])
            assert (refuses.asked, good.asked) == (1, 0)

    asked(work)


def test_an_answer_and_a_fault_at_one_moment(monkeypatch: pytest.MonkeyPatch) -> None:
    """The answer counts, whichever is looked at first."""

    async def work() -> None:
        for _ in range(20):
            both, begun = asyncio.Event(), [0]

            async def ask(number: int, *words: object) -> dict[str, bool]:
                begun[0] += 1
                if begun[0] == 3:
                    both.set()
                await both.wait()
                if number != 1:
                    raise NoEtcd("no leader")
                return {"succeeded": True}

            client = HttpEtcd([CLOSED] * 3, 0.4)
            monkeypatch.setattr(client, "_ask", ask)
            assert await client.post(TXN, {}) == {"succeeded": True}

    asked(work)


@pytest.mark.parametrize(
    ("status", "answer", "fault"),
    [
        (404, {"message": "etcdserver: requested lease not found"}, EtcdRefused),
        (503, {"error": "etcdserver: request timed out"}, NoEtcd),
        (200, ["no object"], NoEtcd),
    ],
)
def test_answers(status: int, answer: object, fault: type[Exception]) -> None:
    async def work() -> None:
        node = Node(status, answer)
        async with nodes(node):
            with pytest.raises(fault):
                await post([node.url])

    asked(work)


def server_tls(own: Certificate, ca: Certificate) -> ssl.SSLContext:
    """A node that takes clients of this authority alone."""
    context = ssl.create_default_context(ssl.Purpose.CLIENT_AUTH, cafile=ca.certificate)
    context.verify_mode = ssl.CERT_REQUIRED
    context.load_cert_chain(own.certificate, own.key)
    return context


def test_tls(tmp_path: Path) -> None:
    """The node is known by its authority, and knows its clients by it."""
    ca, other = Authority(tmp_path, "ca"), Authority(tmp_path / "other", "other")
    node_certificate, own = ca.certificate("node"), ca.certificate("left")
    foreign = other.certificate("left")

    async def work() -> None:
        node = Node()
        async with nodes(node, tls=server_tls(node_certificate, ca.own)) as urls:
            good = client_tls(ca.own.certificate, own.certificate, own.key)
            assert await post(urls, tls=good) == {"succeeded": True}
            for wrong in (
                client_tls(ca.own.certificate, None, None),  # no certificate of its own
                client_tls(ca.own.certificate, foreign.certificate, foreign.key),
                client_tls(other.own.certificate, own.certificate, own.key),
                client_tls(None, own.certificate, own.key),  # the system knows no such node
                None,
            ):
                with pytest.raises(NoEtcd):
                    await post(urls, tls=wrong)
            assert node.asked == 1
            elsewhere = [urls[0].replace("127.0.0.1", "127.0.0.2")]
            with pytest.raises(NoEtcd):
                await post(elsewhere, tls=good)

    asked(work)


def configured(folder: Path, **table: object) -> Config:
    """A configuration with this table."""
    whole: dict[str, object] = {
        "endpoints": ["https://127.0.0.1:2379"],
        "log": "tank",
        "gateway": "a",
        **table,
    }
    return Config(folder, folder, folder, folder, tables={"etcd": whole})


def test_tls_in_the_configuration(tmp_path: Path) -> None:
    ca = Authority(tmp_path)
    ca.certificate("left")
    keys: dict[str, object] = {"ca": "ca.pem", "certificate": "left.pem", "key": "left.key"}
    assert shared_config(configured(tmp_path, **keys)).tls is not None
    assert shared_config(configured(tmp_path, ca="ca.pem")).tls is not None
    assert shared_config(configured(tmp_path)).tls is not None
    plain = ["http://127.0.0.1:2379"]
    assert shared_config(configured(tmp_path, endpoints=plain)).tls is None
    wrongs: list[tuple[dict[str, object], str]] = [
        ({**keys, "key": "ca.key"}, "left.pem"),
        ({"ca": "none.pem"}, "none.pem: No such file"),
        ({"ca": "left.key"}, "left.key"),
        ({"certificate": "left.pem"}, "belong together"),
        ({**keys, "endpoints": plain}, "https"),
        ({"endpoints": [*plain, "https://127.0.0.1:2379"]}, "'endpoints'"),
    ]
    for wrong, words in wrongs:
        with pytest.raises(GatewayFault, match=words) as fault:
            shared_config(configured(tmp_path, **wrong))
        assert fault.value.status == 2


@pytest.mark.parametrize(
    ("status", "code", "words"),
    [
        (429, 8, "etcdserver: mvcc: database space exceeded"),
        (400, 3, "etcdserver: user name is empty"),
        (503, 14, "etcdserver: request timed out"),  # it may be done later
    ],
)
def test_what_etcd_surely_has_not_done(status: int, code: int, words: str) -> None:
    node = Node(status, {"error": words, "code": code, "message": words})

    async def work() -> None:
        async with nodes(node) as ends:
            client = HttpEtcd(ends, 5.0)
            asks = Transactions(client)
            with pytest.raises(NoEtcd, match=words) as told:
                await asks.ask([], [])
            await client.close()
            assert isinstance(told.value, NotNow) is (code != 14)
            assert asks.refusal == ("" if code == 14 else words)

    asked(work)


def test_what_a_node_has_said_is_told_though_another_one_is_gone() -> None:
    words = "etcdserver: user name is empty"
    node = Node(400, {"error": words, "code": 3, "message": words})

    async def work() -> None:
        async with nodes(node) as ends:
            for order in ([*ends, CLOSED], [CLOSED, *ends]):
                client = HttpEtcd(order, 5.0)
                asks = Transactions(client)
                for _ in range(3):
                    with pytest.raises(NotNow, match=words):
                        await asks.ask([], [])
                    assert asks.refusal == words
                await client.close()

    asked(work)
