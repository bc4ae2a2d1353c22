"""The page's certificate: TLS by it, and when it ends. One that was renewed is taken up without a new start."""

from __future__ import annotations

import ssl
from datetime import datetime, timedelta, timezone
from pathlib import Path
from typing import Final

from cryptography import x509

from .model import GatewayFault, civil

SOON: Final = timedelta(days=14)


class Certificate:
    """A certificate and its key, in PEM files. The context of a server takes the newest one at each handshake."""

    def __init__(self, certificate: Path, key: Path) -> None:
        """Raises GatewayFault (status 2) where they can't be read, or don't belong together."""
        self._certificate, self._key = certificate, key
        self._newest, self.ends = self._loaded()
        self.context = self._newest
        self.context.sni_callback = self._choose

    @property
    def files(self) -> tuple[Path, Path]:
        """Where they lie."""
        return self._certificate, self._key

    def renew(self) -> None:
        """Takes up what lies in the files now, for connections that come. Raises GatewayFault, and then the old one stays."""
        self._newest, self.ends = self._loaded()

    def end(self) -> int:
        """When it ends, in seconds since 1970."""
        return int(self.ends.timestamp())

    def trouble(self, now: datetime) -> str | None:
        """What is wrong at a moment, or soon: browsers refuse a certificate that has ended."""
        if now >= self.ends:
            return f"the page's certificate has ended, {civil(self.ends)}: browsers refuse it"
        if now >= self.ends - SOON:
            return f"the page's certificate ends {civil(self.ends)}: browsers refuse it then"
        return None

    def _loaded(self) -> tuple[ssl.SSLContext, datetime]:
        """TLS 1.2 or later, and the end of the certificate."""
        context = ssl.create_default_context(ssl.Purpose.CLIENT_AUTH)
        context.minimum_version = ssl.TLSVersion.TLSv1_2
        try:
            context.load_cert_chain(self._certificate, self._key, password=lambda: "")
            first = x509.load_pem_x509_certificate(self._certificate.read_bytes())
        except (OSError, ValueError) as bad:  # ssl.SSLError too, and a path that can't be one
            words = getattr(bad, "strerror", None) or bad
            told = f"certificate {str(self._certificate)!r}, key {str(self._key)!r}: {words}"
            raise GatewayFault(told, 2) from bad
        return context, first.not_valid_after.replace(tzinfo=timezone.utc)

    def _choose(self, connection: ssl.SSLObject, _name: str | None, _of: ssl.SSLContext) -> None:
        connection.context = self._newest
