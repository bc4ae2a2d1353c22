"""Three nodes of etcd, a proxy before each for each gateway and one for the other nodes, and gateways that share a log: processes on
loopback ports."""

from __future__ import annotations

import base64
import contextlib
import http.client
import json
import random
import signal
import socket
import subprocess
import time
from collections.abc import Callable
from pathlib import Path
from typing import IO, Any

from certificates import Papers
from full_disk import SmallDisk
from http_help import Client
from proxy import Proxies
from whole_help import Gateway, NoVerdict

from alarmd_gateway.shared_config import client_tls

LIMIT = 300.0  # seconds for which a condition is waited for


def free_ports(count: int) -> list[int]:
    """Ports of the loopback address that nobody listens at, below those that the system gives to connections: so nobody takes
    one while a node is away."""
    found: list[int] = []
    while len(found) < count:
        port = random.randrange(15_000, 32_000)
        with socket.socket() as one, contextlib.suppress(OSError):
            one.bind(("127.0.0.1", port))
            found += [port] if port not in found else []
    return found


def wait(holds: Callable[[], object], what: str, limit: float = LIMIT) -> float:
    """Waits until something holds, and gives the seconds that it took. Raises NoVerdict where it doesn't come."""
    begin = time.monotonic()
    while not holds():
        if time.monotonic() > begin + limit:
            raise NoVerdict(what)
        time.sleep(0.02)
    return time.monotonic() - begin


class Node:
    """A node of etcd."""

    def __init__(
        self,
        folder: Path,
        number: int,
        client: int,
        peers: list[int],
        tls: Papers | None = None,
        port: int = 0,
    ) -> None:
        """`peers` are the ports at which the nodes find each other; `port` is where this one listens for the others, where that
        isn't the port at which they find it."""
        self.client = client
        self._tls = tls
        ports = (*peers, port or peers[number], client)
        ends = [f"http{'s' if tls else ''}://127.0.0.1:{one}" for one in ports]
        cluster = ",".join(f"n{at}={end}" for at, end in enumerate(ends[:-2]))
        own, listens, here = ends[number], *ends[-2:]
        self._words = [
            "etcd",
            "--name",
            f"n{number}",
            "--data-dir",
            str(folder / f"n{number}" / "data"),
        ]
        self._words += ["--listen-client-urls", here, "--advertise-client-urls", here]
        self._words += ["--listen-peer-urls", listens, "--initial-advertise-peer-urls", own]
        self._words += ["--heartbeat-interval", "50", "--election-timeout", "500"]
        self._words += ["--initial-cluster", cluster, "--initial-cluster-token", str(peers)]
        self._words += tls_words(tls) if tls else []
        (folder / f"n{number}").mkdir(exist_ok=True)
        self._log: IO[bytes] = open(folder / f"n{number}.log", "ab")
        self._process: subprocess.Popen[bytes] | None = None

    def start(self) -> None:
        self._process = subprocess.Popen(self._words, stdout=self._log, stderr=self._log)

    def healthy(self) -> bool:
        """Whether it answers, with a majority behind it. Raises NoVerdict where it has ended."""
        if self.ended:
            raise NoVerdict(f"a node has ended: {self._words}")
        with contextlib.suppress(OSError, ValueError, http.client.HTTPException):
            return bool(self._asks().ask("/health").json == {"health": "true"})
        return False

    def _asks(self) -> Client:
        client = Client(f"http://127.0.0.1:{self.client}")
        client.patience = 2.0
        if self._tls is not None:
            own = self._tls.gateway
            client.tls = client_tls(self._tls.ca.certificate, own.certificate, own.key)
        return client

    @property
    def ended(self) -> bool:
        return self._process is None or self._process.poll() is not None

    @property
    def pid(self) -> int:
        """Of its process; 0 where there is none."""
        return 0 if self._process is None else self._process.pid

    def kill(self) -> None:
        if self._process is not None:
            self._process.kill()
            self._process.wait()
            self._process = None

    def signal(self, number: signal.Signals) -> None:
        assert self._process is not None
        self._process.send_signal(number)

    def first(self) -> bool:
        """Whether it leads the nodes."""
        with contextlib.suppress(OSError, ValueError, http.client.HTTPException):
            found = self._asks().post("/v3/maintenance/status", {}).json
            return bool(found["leader"] == found["header"]["member_id"])
        return False

    def close(self) -> None:
        self.kill()
        self._log.close()


def tls_words(papers: Papers) -> list[str]:
    """What a node is told, so that clients and other nodes have to have certificates."""
    files = {"cert": papers.node.certificate, "key": papers.node.key}
    words = ["--client-cert-auth", "--peer-client-cert-auth"]
    for whose in ("", "peer-"):
        words += [f"--{whose}trusted-ca-file", str(papers.ca.certificate)]
        for what, path in files.items():
            words += [f"--{whose}{what}-file", str(path)]
    return words


SETTINGS = """
yes = true
patience_ms = 120000
[etcd]
endpoints = {endpoints}
log = "trial"
gateway = "{name}"
"""


def papers_of(papers: Papers) -> str:
    """What a gateway is told of its certificates."""
    own = papers.gateway
    return f'ca = "{papers.ca.certificate}"\ncertificate = "{own.certificate}"\nkey = "{own.key}"\n'


DISKS = {"n0": 900}  # megabytes, of a gateway 64: etcd makes room for its own log beforehand


class Cluster:
    """All of it. Gateways are called a, b and c."""

    def __init__(
        self,
        folder: Path,
        alarmd: Path,
        plant: Path,
        count: int = 3,
        disks: bool = False,
        tls: Papers | None = None,
        period: int = 300,
        proxied: bool = True,
    ) -> None:
        """With `disks` each gateway, and the first node, has a small disk of its own."""
        ports = free_ports(6)
        clients, listens = ports[:3], ports[3:]
        names = ["n0", *"abc"[:count]] if disks else []
        self.disks = {name: SmallDisk(folder / name, DISKS.get(name, 64)) for name in names}
        self._proxies = Proxies([*count * clients, *listens]) if proxied else None
        found = self._proxies.ports if self._proxies else [*count * clients, *listens]
        self.nodes = [
            Node(folder, number, clients[number], found[-3:], tls, listens[number])
            for number in range(3)
        ]
        self.gateways: dict[str, Gateway] = {}
        scheme = "https" if tls else "http"
        for at, name in enumerate("abc"[:count]):
            ends = [f"{scheme}://127.0.0.1:{port}" for port in found[3 * at : 3 * at + 3]]
            settings = SETTINGS.format(endpoints=json.dumps(ends), name=name)
            settings += papers_of(tls) if tls else ""
            (folder / name).mkdir(exist_ok=True)
            self.gateways[name] = Gateway(folder / name, alarmd, plant, period, settings)
            self.gateways[name].said = []

    def start(self) -> None:
        for node in self.nodes:
            node.start()
        for gateway in self.gateways.values():
            gateway.start()
        self.leader()

    def state(self, name: str) -> dict[str, Any] | None:
        """What a gateway says that stands; None where it says nothing."""
        client = Client(self.gateways[name].url)
        client.patience = 5.0
        with contextlib.suppress(OSError, ValueError, http.client.HTTPException):
            found = client.ask("/api/state").json
            return found if isinstance(found, dict) else None
        return None

    def says(self, name: str) -> dict[str, Any]:
        """The same, once it says something. Raises NoVerdict."""
        found: list[dict[str, Any]] = []

        def asked() -> bool:
            state = self.state(name)
            found[:] = [] if state is None else [state]
            return bool(found)

        wait(asked, f"{name} answers nothing")
        return found[0]

    def leads(self, name: str) -> bool:
        state = self.state(name)
        return state is not None and state["log"]["leads"] is True

    def leader(self, but: str = "", limit: float = LIMIT) -> str:
        """The gateway that leads, once one does that isn't `but`."""
        found: list[str] = []

        def one() -> bool:
            found[:] = [name for name in self.gateways if name != but and self.leads(name)]
            return len(found) == 1

        wait(one, f"no gateway leads but {but}", limit)
        return found[0]

    def first_node(self) -> Node:
        """The node of etcd that leads the nodes."""
        wait(lambda: any(node.first() for node in self.nodes), "no node leads")
        return next((node for node in self.nodes if node.first()), self.nodes[0])

    def ask(self, path: str, body: dict[str, str]) -> Any:
        """Asks a node of etcd, but not the first; None where neither answers."""
        for node in self.nodes[1:]:
            client = Client(f"http://127.0.0.1:{node.client}")
            client.patience = 5.0
            with contextlib.suppress(OSError, ValueError, http.client.HTTPException):
                return client.post(path, body).json
        return None

    def swell(self) -> None:
        """Half a megabyte comes into etcd, beside the log."""
        key, value = base64.b64encode(b"filler").decode(), base64.b64encode(bytes(500_000)).decode()
        self.ask("/v3/kv/put", {"key": key, "value": value})

    def compact(self) -> None:
        """etcd forgets what was before now."""
        found = self.ask("/v3/kv/range", {"key": base64.b64encode(b"filler").decode()})
        self.ask("/v3/kv/compaction", {"revision": found["header"]["revision"]})

    def cut(self, name: str, cut: bool) -> None:
        """Cuts a gateway off from etcd, or ends that."""
        for number in range(3):
            self.cut_one(name, number, cut)

    def cut_machine(self, name: str, cut: bool, own: bool = False) -> None:
        """Cuts a gateway and the node of its number off from the other ones, with `own` from each other too, or ends that."""
        at = [*self.gateways].index(name)
        for who in self.gateways:
            for number in range(3):
                if (who == name) != (number == at) or (own and who == name and number == at):
                    self.cut_one(who, number, cut)
        alone = [self.nodes[at].pid] if cut else []
        assert self._proxies is not None
        for number in range(3):
            between = 3 * len(self.gateways) + number
            self._proxies.cut(between, cut and number == at, alone if number != at else [])

    def cut_one(self, name: str, number: int, cut: bool) -> None:
        """Cuts a gateway off from a node, or ends that."""
        assert self._proxies is not None
        self._proxies.cut(3 * [*self.gateways].index(name) + number, cut)

    def mend(self) -> None:
        """Nothing is killed, halted, cut off or full any more, and a gateway leads. Raises NoVerdict."""
        for disk in self.disks.values():
            disk.room()
        for name in self.gateways:
            self.cut_machine(name, False, own=True)
        for node in self.nodes:
            node.start() if node.ended else node.signal(signal.SIGCONT)
        for gateway in self.gateways.values():
            gateway.signal(signal.SIGCONT)
            if gateway.process.poll() is not None:
                gateway.start()
        for node in self.nodes:
            wait(node.healthy, "a node doesn't come back")
        self.leader()

    def close(self) -> None:
        for gateway in self.gateways.values():
            if gateway.started:
                gateway.end()
        if self._proxies is not None:
            self._proxies.close()
        for node in self.nodes:
            node.close()
        for disk in self.disks.values():
            disk.close()
