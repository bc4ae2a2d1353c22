"""A network that machines of the test have among themselves: a bridge in a space of its own, and a cable from it to each machine.

Wants root and `ip`. It ends with the process that holds its space."""

from __future__ import annotations

import ctypes
import os
import subprocess
from collections.abc import Callable
from concurrent.futures import ThreadPoolExecutor
from pathlib import Path
from typing import Final, TypeVar

from browser_help import until

NETWORK: Final = 0x40000000  # what the kernel calls the space of a network
Found = TypeVar("Found")


class Network:
    """The bridge. A machine is known by the process id of its systemd."""

    def __init__(self) -> None:
        words = ["unshare", "--net", "--kill-child", "--fork", "sleep", "infinity"]
        self._process = subprocess.Popen(words, stdin=subprocess.DEVNULL)
        path = Path(f"/proc/{self._process.pid}/task/{self._process.pid}/children")
        until(lambda: path.read_text().split(), "the network's process")
        self._pid = int(path.read_text().split()[0])
        until(lambda: space(self._pid) != space(os.getpid()), "the network's space")
        ip(self._pid, "link add bridge type bridge")
        ip(self._pid, "link set bridge up")

    def join(self, name: str, machine: int, address: str) -> None:
        """A cable of this name to a machine, which has this address by it. That of a machine which is gone may be there still."""
        ip(self._pid, f"link delete {name}", needed=False)
        ip(self._pid, f"link add {name} type veth peer name cable netns {machine}")
        ip(self._pid, f"link set {name} master bridge up")
        ip(machine, f"address add {address}/24 dev cable")
        ip(machine, "link set cable up")

    def cut(self, name: str, cut: bool) -> None:
        """Nothing goes through a cable, or all does again."""
        ip(self._pid, f"link set {name} {'down' if cut else 'up'}")

    def close(self) -> None:
        """Ends it."""
        self._process.kill()
        self._process.wait()


def space(process: int) -> str:
    """In which network a process is."""
    return os.readlink(f"/proc/{process}/ns/net")


def ip(process: int, words: str, needed: bool = True) -> None:
    """Runs `ip` in the network in which a process is; it has to succeed where it is needed."""
    command = ["nsenter", f"--target={process}", "--net", "ip", *words.split()]
    done = subprocess.run(command, capture_output=True, text=True, check=False)
    assert done.returncode == 0 or not needed, f"ip {words}: {done.stderr}"


def within(process: int, work: Callable[[], Found]) -> Found:
    """What comes of some work, by a thread in the network in which a process is."""

    def entered() -> Found:
        with open(f"/proc/{process}/ns/net") as file:
            kernel = ctypes.CDLL(None, use_errno=True)
            if kernel.setns(file.fileno(), NETWORK):
                raise OSError(ctypes.get_errno(), "its network can't be entered")
        return work()

    with ThreadPoolExecutor(1) as pool:
        return pool.submit(entered).result()
