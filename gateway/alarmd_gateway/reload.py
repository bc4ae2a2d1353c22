"""`gateway reload CONFIG`: the gateway that serves this configuration takes up the plant's files as they are now.

The process of this command reads the files once, and hands their texts over; `alarmd check` has judged the files before, and says in full
what is wrong with them."""

from __future__ import annotations

import getpass
import json
import os
import socket
from pathlib import Path
from typing import Final

from . import config as configs
from . import plant as plants
from . import texts as sized
from .check import accepted
from .config import WORDS_STATUS, Config
from .model import GatewayFault, Texts
from .player import RELOADED
from .reloading import LONGEST_LINE, NO_ANSWER, NOT_ASKED, SLOW, short, socket_path
from .words import Words, called, say

LONGEST_REASON: Final = 200  # characters


def main(words: list[str]) -> int:
    """`reload CONFIG [--reason TEXT]`. Prints the answer. The status is 0 where the plant is served now, 3 where it is refused."""
    parser = Words(prog=called("reload"), description="Takes up the plant's files as they are.")
    parser.add_argument("config", type=Path, help="the configuration, gateway.toml")
    parser.add_argument("--reason", help="why, for the journal")
    given = parser.parse_args(words[1:])
    reason = " ".join((given.reason or "").split())
    if len(reason) > LONGEST_REASON or not reason.isprintable():
        parser.error(f"--reason is a line of at most {LONGEST_REASON} characters")
    config = configs.read(given.config)
    accepted(config, config.plant)
    texts = plants.texts_of(config.plant)
    sized.check(texts)
    answer = ask(config, texts, reason or None)
    if answer.startswith(NOT_ASKED):
        raise GatewayFault(f"nothing was asked: {answer.removeprefix(NOT_ASKED)}", WORDS_STATUS)
    if answer.startswith(NO_ANSWER):
        raise GatewayFault(answer.removeprefix(NO_ANSWER), 1)
    say([answer])
    return 0 if answer.startswith(RELOADED) else 3


def who() -> str:
    """The name of the user who asks; of one that has none, as in a container, the number."""
    try:
        return getpass.getuser()
    except (KeyError, OSError):
        return str(os.getuid())


def ask(config: Config, texts: Texts, reason: str | None) -> str:
    """What the gateway answers. Raises GatewayFault: status 2 where none serves this configuration, 1 where it ends meanwhile."""
    fields = {"user": who(), "reason": reason}
    head = f"{json.dumps(fields)}\n{sized.line(texts)}\n".encode()
    with socket.socket(socket.AF_UNIX) as connection:
        connection.settimeout(config.patience_ms / 1000 + SLOW)
        try:
            with short(socket_path(config)) as path:
                connection.connect(path)
        except OSError as fault:
            words = (
                f"no gateway serves this configuration ({socket_path(config)}: {fault.strerror})"
            )
            raise GatewayFault(words, WORDS_STATUS) from None
        try:
            connection.sendall(head + sized.body(texts))
            answer = b""
            while chunk := connection.recv(LONGEST_LINE):
                answer += chunk
        except OSError as fault:
            raise GatewayFault(f"the gateway gave no answer: {fault}", 1) from None
    if not answer:
        raise GatewayFault("the gateway has ended without an answer: its log tells", 1)
    return answer.decode().rstrip("\n")
