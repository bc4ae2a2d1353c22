"""What stands between gateways and nodes of etcd, and between nodes, and can be cut.

    proxy.py PORT ..    a proxy before each of these ports; prints where each listens. Lines of its input say what is cut

They are in a process of their own, so that nodes hear each other in time whatever a test does meanwhile."""

from __future__ import annotations

import contextlib
import os
import selectors
import socket
import subprocess
import sys
import threading
import time
from collections.abc import Iterable, Sequence
from pathlib import Path


class Proxy:
    """Hands bytes on to a port. While it is cut it takes them, and hands nothing on."""

    def __init__(self, target: int) -> None:
        self._target = target
        self._listener = socket.create_server(("127.0.0.1", 0))
        self.port = int(self._listener.getsockname()[1])
        self.cut = False
        self.cut_off: frozenset[int] = frozenset()  # processes whose connections are cut
        self._held = self.cut_off  # those whose connections are left alone
        self._other: dict[socket.socket, socket.socket] = {}
        self._from: dict[socket.socket, int] = {}  # of each connection that was taken, its port
        self._selector = selectors.DefaultSelector()
        self._selector.register(self._listener, selectors.EVENT_READ)
        threading.Thread(target=self._run, daemon=True).start()

    def _run(self) -> None:
        while True:
            if self.cut:
                time.sleep(0.02)
                continue
            if self._held != self.cut_off:
                self._hold()
            for key, _ in self._selector.select(0.05):
                if self.cut:
                    break
                assert isinstance(key.fileobj, socket.socket)
                self._accept() if key.fileobj is self._listener else self._hand_on(key.fileobj)

    def _accept(self) -> None:
        try:
            near, (_, port) = self._listener.accept()
        except OSError:
            return
        try:
            far = socket.create_connection(("127.0.0.1", self._target), 2)
        except OSError:
            near.close()
            return
        self._other[near], self._other[far] = far, near
        self._from[near] = int(port)
        for one in (near, far):
            one.settimeout(2)
            self._selector.register(one, selectors.EVENT_READ)
        if self._held:
            self._hold()

    def _hold(self) -> None:
        """Connections of processes that are cut off are left alone from now on, those of others taken up again."""
        self._held = self.cut_off
        ports = ports_of(self._held)
        for near, port in self._from.items():
            for one in (near, self._other[near]):
                self._listen(one, port not in ports)

    def _listen(self, one: socket.socket, listens: bool) -> None:
        """Whether what comes from there is handed on."""
        known = one in self._selector.get_map()
        if listens and not known:
            self._selector.register(one, selectors.EVENT_READ)
        elif known and not listens:
            self._selector.unregister(one)

    def _hand_on(self, one: socket.socket) -> None:
        if one not in self._other:
            return
        try:
            data = one.recv(65_536)
            if data:
                self._other[one].sendall(data)
                return
        except OSError:
            pass
        self._end(one)

    def _end(self, one: socket.socket) -> None:
        other = self._other.pop(one)
        del self._other[other]
        for each in (one, other):
            self._from.pop(each, None)
            self._listen(each, False)
            each.close()


def ports_of(processes: Iterable[int]) -> set[int]:
    """From which ports of the loopback address these processes have connections."""
    sockets: set[str] = set()
    for process in processes:
        with contextlib.suppress(OSError):  # it may end meanwhile
            folder = f"/proc/{process}/fd"
            sockets |= {link_of(f"{folder}/{name}") for name in os.listdir(folder)}
    rows = [row.split() for row in Path("/proc/net/tcp").read_text().splitlines()[1:]]
    return {int(row[1].rpartition(":")[2], 16) for row in rows if f"socket:[{row[9]}]" in sockets}


def link_of(path: str) -> str:
    """What a descriptor is; empty where it has been closed."""
    try:
        return os.readlink(path)
    except OSError:
        return ""


class Proxies:
    """A process with a proxy before each of some ports, known by their numbers from 0."""

    def __init__(self, targets: Sequence[int]) -> None:
        words = [sys.executable, "-B", __file__, *map(str, targets)]
        self._process = subprocess.Popen(
            words, stdin=subprocess.PIPE, stdout=subprocess.PIPE, text=True
        )
        assert self._process.stdout is not None
        self.ports = [int(word) for word in self._process.stdout.readline().split()]

    def cut(self, number: int, cut: bool, processes: Iterable[int] = ()) -> None:
        """From now on this one hands nothing on, or nothing from or to these processes, or all."""
        assert self._process.stdin is not None
        words = [number, int(cut), *processes]
        self._process.stdin.write(" ".join(map(str, words)) + "\n")
        self._process.stdin.flush()

    def close(self) -> None:
        """Ends the process."""
        for stream in (self._process.stdin, self._process.stdout):
            assert stream is not None
            stream.close()
        self._process.wait()


def main(targets: Sequence[str]) -> None:
    proxies = [Proxy(int(target)) for target in targets]
    print(*(proxy.port for proxy in proxies), flush=True)
    for line in sys.stdin:
        number, cut, *processes = (int(word) for word in line.split())
        proxies[number].cut, proxies[number].cut_off = bool(cut), frozenset(processes)


if __name__ == "__main__":
    main(sys.argv[1:])
