"""Who may order: the file of users, with passwords kept by scrypt.

The file is TOML, a table for each user:

    [[user]]
    name = "anna"
    consoles = [1, 2]
    password = "scrypt$32768$8$1$SALT$KEY"

`password` is what `gateway password` prints. A user may order, and sees, what the named consoles may."""

from __future__ import annotations

import base64
import hashlib
import hmac
import os
import re
import tomllib
from collections.abc import Collection, Mapping
from dataclasses import dataclass, field
from pathlib import Path
from typing import Any

from .words import called

COST, BLOCK, LANES = 32768, 8, 1  # of scrypt: 32 MB and about a tenth of a second for each try
LARGEST_COST = 1 << 18
KEY_BYTES = 32
SALT_BYTES = 16
LONGEST_PASSWORD = 1024  # bytes
NAME = re.compile(r"[A-Za-z0-9_.-]{1,32}")


class BadUsers(Exception):
    """The file of users is wrong; its text is a sentence for a person, with the file's name."""


class BadHash(ValueError):
    """A text is no password as `gateway password` prints it."""


@dataclass(frozen=True)
class Hash:
    """A password as it is kept: scrypt's parameters, the salt and the key. No repr shows the key."""

    cost: int
    block: int
    lanes: int
    salt: bytes = field(repr=False)
    key: bytes = field(repr=False)

    def text(self) -> str:
        """The form that stands in the file."""
        salt, key = (base64.b64encode(part).decode() for part in (self.salt, self.key))
        return f"scrypt${self.cost}${self.block}${self.lanes}${salt}${key}"

    def fits(self, password: str) -> bool:
        """Whether this is the hash of the password. Takes the time and memory of scrypt."""
        try:
            size = len(password.encode())
        except UnicodeEncodeError:  # half of a pair, as JSON may have it
            return False
        if size > LONGEST_PASSWORD:
            return False
        return hmac.compare_digest(self.key, derive(password, self.salt, self))


def derive(password: str, salt: bytes, by: Hash | None = None) -> bytes:
    """The key of a password by a hash's parameters, else by those of new passwords."""
    cost, block, lanes = (by.cost, by.block, by.lanes) if by else (COST, BLOCK, LANES)
    room = 128 * block * (cost + lanes + 2) + (1 << 20)
    return hashlib.scrypt(
        password.encode(), salt=salt, n=cost, r=block, p=lanes, maxmem=room, dklen=KEY_BYTES
    )


def hash_of(password: str) -> Hash:
    """A new hash of a password, with a salt of its own.

    Raises ValueError where the password is empty or has more than LONGEST_PASSWORD bytes."""
    if not 1 <= len(password.encode()) <= LONGEST_PASSWORD:
        raise ValueError(f"a password has 1 to {LONGEST_PASSWORD} bytes")
    salt = os.urandom(SALT_BYTES)
    return Hash(COST, BLOCK, LANES, salt, derive(password, salt))


def read_hash(text: str) -> Hash:
    """The hash that a text spells. Raises BadHash where it spells none, or one that takes too much."""
    parts = text.split("$")
    if len(parts) != 6 or parts[0] != "scrypt":
        raise BadHash("it doesn't begin with scrypt$ and five parts")
    try:
        cost, block, lanes = (int(part) for part in parts[1:4])
        salt, key = (base64.b64decode(part, validate=True) for part in parts[4:])
    except ValueError as fault:
        raise BadHash("its parts are no numbers and base64") from fault
    if cost < 2 or cost > LARGEST_COST or cost & (cost - 1) or not 1 <= block <= 16:
        raise BadHash("its cost isn't one that is taken")
    if cost >> 16 * block:  # scrypt itself has none
        raise BadHash("its cost is too large for its block")
    if not 1 <= lanes <= 4 or len(salt) < 8 or len(key) != KEY_BYTES:
        raise BadHash("its salt or key has another length")
    return Hash(cost, block, lanes, salt, key)


@dataclass(frozen=True)
class User:
    """Somebody who may log in, and from which consoles orders may come."""

    name: str
    consoles: tuple[int, ...]
    password: Hash = field(repr=False)


class Users:
    """All users of a file. Without a file there are none, and then nobody has to log in."""

    def __init__(self, users: Mapping[str, User]) -> None:
        self._users = dict(users)
        self._nobody = Hash(COST, BLOCK, LANES, bytes(SALT_BYTES), bytes(KEY_BYTES))

    def __len__(self) -> int:
        return len(self._users)

    def consoles(self) -> list[tuple[int, ...]]:
        """The consoles of each user."""
        return [user.consoles for user in self._users.values()]

    def names(self) -> list[str]:
        """The names of all."""
        return list(self._users)

    def named(self, name: str) -> User | None:
        """The user of this name, in which letter case counts."""
        return self._users.get(name)

    def check(self, name: str, password: str) -> User | None:
        """The user of this name and password, else None. An unknown name takes as long as a known one.

        Blocks for the time of scrypt: call it in a thread."""
        user = self._users.get(name)
        fits = (user.password if user else self._nobody).fits(password)
        return user if fits else None


def read_users(path: Path, consoles: Collection[int]) -> Users:
    """The users of a file; `consoles` are those that the plant has. Raises BadUsers."""
    try:
        document = tomllib.loads(path.read_text(encoding="utf-8"))
    except OSError as fault:
        raise BadUsers(f"{path}: {fault.strerror or fault}") from fault
    except (ValueError, RecursionError) as fault:  # TOMLDecodeError and UnicodeDecodeError too
        raise BadUsers(f"{path}: {fault}") from fault
    unknown = sorted(set(document) - {"user"})
    if unknown:
        raise BadUsers(
            f"{path}: the key '{unknown[0]}' isn't one of this file: [[user]] is all it has"
        )
    tables = document.get("user", [])
    if not isinstance(tables, list) or not all(isinstance(table, dict) for table in tables):
        raise BadUsers(f"{path}: users stand below [[user]], in two pairs of brackets")
    users: dict[str, User] = {}
    for number, table in enumerate(tables, 1):
        try:
            user = user_of(table, consoles)
        except ValueError as fault:
            raise BadUsers(f"{path}: user {number}: {fault}") from fault
        if user.name in users:
            raise BadUsers(f"{path}: user {number}: '{user.name}' stands twice")
        users[user.name] = user
    if not users:
        raise BadUsers(f"{path}: there is no [[user]] in it")
    return Users(users)


def user_of(table: Mapping[str, Any], consoles: Collection[int]) -> User:
    """The user of a table. Raises ValueError with a sentence for a person."""
    if set(table) != {"name", "consoles", "password"}:
        raise ValueError("a user has the keys name, consoles and password, and no other")
    name, numbers, password = table["name"], table["consoles"], table["password"]
    if not isinstance(name, str) or not NAME.fullmatch(name):
        raise ValueError("a name has 1 to 32 letters, digits, '_', '-' and '.'")
    if not isinstance(numbers, list) or not all(type(number) is int for number in numbers):
        raise ValueError("consoles is a list of numbers")
    if not numbers and consoles:
        raise ValueError("consoles is empty: who has none would see a plant without alarms")
    missing = [number for number in numbers if number not in consoles]
    if missing:
        raise ValueError(f"the plant has no console {missing[0]}")
    if not isinstance(password, str):
        raise ValueError(f"password is what `{called('password')}` prints")
    try:
        return User(name, tuple(sorted(set(numbers))), read_hash(password))
    except BadHash as fault:
        words = f"password isn't what `{called('password')}` prints: {fault}"
        raise ValueError(words) from fault
