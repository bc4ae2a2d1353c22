"""An authority of a test's own, and certificates by it, made by openssl."""

from __future__ import annotations

import subprocess
from dataclasses import dataclass
from pathlib import Path

BOTH = "subjectAltName=IP:127.0.0.1,DNS:localhost\nextendedKeyUsage=serverAuth,clientAuth\n"


@dataclass(frozen=True)
class Certificate:
    """A certificate and its key, both PEM."""

    certificate: Path
    key: Path


class Authority:
    """Makes certificates for the loopback address. etcd's own JSON interface wants that its certificate is one of a client too."""

    def __init__(self, folder: Path, name: str = "ca") -> None:
        folder.mkdir(exist_ok=True)
        self._folder = folder
        self.own = Certificate(folder / f"{name}.pem", folder / f"{name}.key")
        words = f"req -x509 -newkey rsa:2048 -nodes -days 2 -subj /CN={name}"
        openssl(words, "-keyout", self.own.key, "-out", self.own.certificate)

    def certificate(self, name: str) -> Certificate:
        """One of this name."""
        found = Certificate(self._folder / f"{name}.pem", self._folder / f"{name}.key")
        request, more = self._folder / f"{name}.csr", self._folder / "more"
        more.write_text(BOTH)
        words = f"req -newkey rsa:2048 -nodes -subj /CN={name}"
        openssl(words, "-keyout", found.key, "-out", request)
        by: list[str | Path] = [
            "-CA",
            self.own.certificate,
            "-CAkey",
            self.own.key,
            "-CAcreateserial",
        ]
        words = "x509 -req -days 2"
        openssl(words, "-in", request, "-out", found.certificate, "-extfile", more, *by)
        return found


@dataclass(frozen=True)
class Papers:
    """What the nodes, and the gateways, are known by."""

    ca: Certificate
    node: Certificate
    gateway: Certificate


def papers(folder: Path) -> Papers:
    """Made by an authority of their own."""
    authority = Authority(folder)
    return Papers(authority.own, authority.certificate("node"), authority.certificate("gateway"))


def openssl(words: str, *more: str | Path) -> None:
    """Runs openssl."""
    subprocess.run(["openssl", *words.split(), *more], check=True, capture_output=True)
