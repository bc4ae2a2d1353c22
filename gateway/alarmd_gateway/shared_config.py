"""The table `[etcd]` of the configuration: where the log is that several gateways share.

    [etcd]
    endpoints = ["http://127.0.0.1:2379", "http://192.168.1.6:2379", "http://192.168.1.7:2379"]
    log = "tank"             # its name: the same for all gateways of the plant
    gateway = "left"         # this gateway's own name
    lease_s = 2              # a leader that isn't heard of for so long leads no more
    timeout_ms = 1000        # after so long without an answer the next node is asked
    ca = "etcd-ca.pem"       # of nodes at https://: the certificate by which they are known
    certificate = "left.pem" # by which this gateway is known to them
    key = "left.key"
"""

from __future__ import annotations

import ipaddress
import re
import ssl
from dataclasses import dataclass
from pathlib import Path
from typing import Final

from .config import Config, Table
from .model import GatewayFault

_NAME: Final = re.compile(r"[A-Za-z0-9_.-]{1,64}", re.ASCII)
_NODE: Final = re.compile(r"(https?)://(\[[^]]+\]|[^][:/]+)(?::([0-9]{1,5}))?/?", re.ASCII)
_HOST: Final = re.compile(r"[a-z0-9_-]{1,63}(\.[a-z0-9_-]{1,63})*", re.ASCII | re.IGNORECASE)
_NUMBERS: Final = re.compile(r"[0-9.]+", re.ASCII)


@dataclass(frozen=True)
class SharedConfig:
    """What the shared log goes by; times are seconds."""

    endpoints: tuple[str, ...]
    log: str
    gateway: str
    lease: int
    seconds: float
    new_alarmd: bool = False  # the log goes on with this gateway's program
    tls: ssl.SSLContext | None = None  # where the nodes are at https://


def shared_config(config: Config) -> SharedConfig:
    """The table as it stands in the configuration. Raises GatewayFault (status 2)."""
    table = config.table("etcd")
    endpoints = _nodes(table)
    log, gateway = table.text("log"), table.text("gateway")
    lease = table.number("lease_s", 2, 2, 60)
    seconds = table.number("timeout_ms", 1000, 100, 60_000) / 1000
    tls = _tls(table, endpoints)
    table.end()
    for key, name in (("log", log), ("gateway", gateway)):
        if not _NAME.fullmatch(name):
            raise table.wrong(key, "a word of at most 64 letters, digits, `_`, `.` and `-`")
    return SharedConfig(endpoints, log, gateway, lease, seconds, config.new_alarmd, tls)


def _nodes(table: Table) -> tuple[str, ...]:
    """The addresses of the nodes, without a slash at their ends, each once. Raises GatewayFault."""
    found: dict[tuple[str, int], str] = {}
    for text in table.texts("endpoints"):
        node = _NODE.fullmatch(text)
        port = int(node[3] or (443 if node[1] == "https" else 80)) if node else 0
        if node is None or not _is_host(node[2]) or not 1 <= port <= 65_535:
            words = f"addresses like http://127.0.0.1:2379, and {text[:80]!r} is none"
            raise table.wrong("endpoints", words)
        if (node[2].lower(), port) in found:
            raise table.wrong("endpoints", f"of different nodes, and {text[:80]!r} is there twice")
        found[node[2].lower(), port] = text.rstrip("/")
    return tuple(found.values())


def _is_host(text: str) -> bool:
    """Whether this may be a host: a name, four numbers, or an address of IPv6 in brackets."""
    try:
        if text.startswith("["):
            return ipaddress.IPv6Address(text[1:-1]) is not None
        if _NUMBERS.fullmatch(text):
            return ipaddress.IPv4Address(text) is not None
    except ValueError:
        return False
    return len(text) <= 253 and _HOST.fullmatch(text.removesuffix(".")) is not None


def _tls(table: Table, endpoints: tuple[str, ...]) -> ssl.SSLContext | None:
    """TLS as the nodes' addresses want it. Raises GatewayFault."""
    ca, certificate, key = (_path(table, name) for name in ("ca", "certificate", "key"))
    schemes = {one.partition("://")[0] for one in endpoints}
    if len(schemes) != 1 or not schemes <= {"http", "https"}:
        words = "addresses like http://127.0.0.1:2379, or all of them with https://"
        raise table.wrong("endpoints", words)
    if (certificate is None) != (key is None):
        raise GatewayFault("the configuration's [etcd]: certificate and key belong together", 2)
    if schemes == {"https"}:
        return client_tls(ca, certificate, key)
    if ca or certificate:
        raise GatewayFault("the configuration's [etcd]: certificates want https:// nodes", 2)
    return None


def _path(table: Table, key: str) -> Path | None:
    return table.path(key) if table.has(key) else None


def client_tls(ca: Path | None, certificate: Path | None, key: Path | None) -> ssl.SSLContext:
    """TLS 1.2 or later: the nodes are known by `ca`, or else by those that the system trusts, and this gateway by its certificate
    where it has one. Raises GatewayFault (status 2)."""
    try:
        context = ssl.create_default_context(cafile=ca)
        context.minimum_version = ssl.TLSVersion.TLSv1_2
        if certificate is not None:
            context.load_cert_chain(certificate, key, password=lambda: "")
    except (OSError, ssl.SSLError) as bad:
        files = ", ".join(str(path) for path in (ca, certificate, key) if path is not None)
        words = f"the configuration's [etcd]: {files}: {bad.strerror or bad}"
        raise GatewayFault(words, 2) from None
    return context
