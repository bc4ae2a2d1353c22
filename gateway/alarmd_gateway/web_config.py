"""The table `[web]` of the configuration: where the page is served, by which certificate, and for whom.

    [web]
    listen = "127.0.0.1:8080"       # where; [::1]:8080 too. Port 0 lets the system choose
    users = "users.toml"            # without it nobody logs in, and only a loopback address is taken
    certificate = "page.pem"        # TLS; an address beyond the loopback wants it, and users
    key = "page.key"
    metrics_token = ".."            # who brings it may read /metrics without a session
    connections = 200               # so many at once; half of them from one address
"""

from __future__ import annotations

import ipaddress
import re
from dataclasses import dataclass, field
from pathlib import Path

from .certificate import Certificate
from .config import WORDS_STATUS, Config
from .model import GatewayFault, Plant
from .users import BadUsers, Users, read_users

LONGEST_TOKEN = 4096  # bytes
PORT = re.compile("[0-9]{1,5}", re.ASCII)
NAME = re.compile(r"[A-Za-z0-9_-]+(\.[A-Za-z0-9_-]+)*\.?|\*")


@dataclass(frozen=True)
class WebConfig:
    """What the web server goes by. `users` is None where there is no file of them, and `certificate` where there is no TLS."""

    host: str
    port: int
    users: Users | None
    certificate: Certificate | None
    metrics_token: str | None = field(default=None, repr=False)
    connections: int = 200
    users_file: Path | None = None


def web_config(config: Config, plant: Plant) -> WebConfig | None:
    """The table as it stands in the configuration, None where there is none. Raises GatewayFault (status 2)."""
    if "web" not in config.tables:
        return None
    table = config.table("web")
    host, port = address(table.text("listen", "127.0.0.1:8080"))
    users_file = table.path("users") if table.has("users") else None
    certificate = table.path("certificate") if table.has("certificate") else None
    key = table.path("key") if table.has("key") else None
    token = table.text("metrics_token") if table.has("metrics_token") else None
    connections = table.number("connections", 200, 4, 100_000)
    table.end()
    if not loopback(host) and (users_file is None or certificate is None):
        raise fault(f"listen = {host!r} is beyond this machine: that wants users and a certificate")
    if token == "":
        raise fault("metrics_token is empty: who brings none would read /metrics")
    if token is not None and not fits_header(token):
        words = f"printable characters, {LONGEST_TOKEN} bytes at most, and no blank at either end"
        raise fault(f"metrics_token can't be brought in a header: it has {words}")
    if (certificate is None) != (key is None):
        raise fault("certificate and key belong together")
    users = users_of(users_file, plant)
    found = None if certificate is None or key is None else certificate_of(certificate, key)
    return WebConfig(host, port, users, found, token, connections, users_file)


def fault(words: str) -> GatewayFault:
    """What is wrong with the table."""
    return GatewayFault(f"the configuration's [web]: {words}", WORDS_STATUS)


def address(text: str) -> tuple[str, int]:
    """The host and the port of `HOST:PORT` or `[HOST]:PORT`. Raises GatewayFault."""
    host, _, port = text.rpartition(":")
    host = host[1:-1] if host.startswith("[") and host.endswith("]") else host
    if not is_host(host) or not PORT.fullmatch(port) or int(port) > 65535:
        raise fault(f"listen = {text[:300]!r} has to be like 127.0.0.1:8080 or [::1]:8080")
    return host, int(port)


def is_host(text: str) -> bool:
    """Whether a text may be a host: an address, or a name as a resolver takes it."""
    try:
        ipaddress.ip_address(text)
        return True
    except ValueError:
        pass
    try:
        return NAME.fullmatch(text.encode("idna").decode()) is not None
    except UnicodeError:  # an empty part, or one of more than 63 letters
        return False


def fits_header(token: str) -> bool:
    """Whether a text reaches the other end as it is, in a header."""
    size = len(token.encode(errors="replace"))
    return token.isprintable() and token == token.strip() and size <= LONGEST_TOKEN


def loopback(host: str) -> bool:
    """Whether a host is this machine alone."""
    try:
        return ipaddress.ip_address(host).is_loopback
    except ValueError:
        return host == "localhost"


def users_of(path: Path | None, plant: Plant) -> Users | None:
    """The users of a file. Raises GatewayFault."""
    try:
        return None if path is None else read_users(path, {row.number for row in plant.consoles})
    except BadUsers as bad:
        raise fault(str(bad)) from bad


def unseen(users: Users, plant: Plant) -> list[str]:
    """The areas with alarms that no user sees: none has a console of them, nor all consoles."""
    given = users.consoles()
    if any(len(consoles) == len(plant.consoles) for consoles in given):
        return []
    own = {number for consoles in given for number in consoles}
    seen = {area for row in plant.consoles if row.number in own for area in row.areas}
    with_alarms = {alarm.area for alarm in plant.alarms}
    return [area for area in plant.areas if area in with_alarms - seen]


def certificate_of(certificate: Path, key: Path) -> Certificate:
    """The certificate in these files. Raises GatewayFault."""
    try:
        return Certificate(certificate, key)
    except GatewayFault as bad:
        raise fault(bad.words) from bad
