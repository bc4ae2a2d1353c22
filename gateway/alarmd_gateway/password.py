"""`gateway password`: prints a password as the file of users keeps it."""

from __future__ import annotations

import getpass
import sys

from .config import WORDS_STATUS
from .model import GatewayFault
from .users import hash_of
from .words import called


def main(words: list[str]) -> int:
    """Asks twice at a terminal, else reads one line of standard input. Raises GatewayFault (status 2)."""
    if words[1:]:
        raise GatewayFault(
            f"{called('password')} has no words: it asks for the password", WORDS_STATUS
        )
    try:
        print(f'password = "{hash_of(asked()).text()}"')
    except (EOFError, ValueError) as fault:
        raise GatewayFault(str(fault) or "there was no password", WORDS_STATUS) from fault
    return 0


def asked() -> str:
    """What was typed, or stands in the first line. Raises GatewayFault, ValueError where it is no text, EOFError where nothing came."""
    if sys.stdin is None:  # it was closed
        raise EOFError
    if not sys.stdin.isatty():
        return sys.stdin.readline().removesuffix("\n")
    password = getpass.getpass("Password: ")
    if getpass.getpass("Once more: ") != password:
        raise GatewayFault("these are two passwords", WORDS_STATUS)
    return password
