"""The words of the command line: `gateway COMMAND ..`. Each command is a module with `main(words) -> status`."""

from __future__ import annotations

import importlib
import os
import signal
import sys
import traceback

from .model import GatewayFault
from .telling import tell
from .words import called, say

COMMANDS = {  # the word, its module, what it does. A new command is one line
    "serve": ("serve", "CONFIG: serve a plant"),
    "check": ("check", "CONFIG: whether a plant can be served, without serving it"),
    "reload": ("reload", "CONFIG [--reason TEXT]: the plant's files as they are now are served"),
    "state": ("show", "CONFIG: what stands, by the record"),
    "journal": ("show", "CONFIG [--from N] [--csv]: the journal, by the record"),
    "password": ("password", "a password as the file of users keeps it"),
    "test": ("cases", "PLANT CASES ..: cases of a plant, and what differs"),
    "simulate": ("simulate", "PLANT MODEL [--page]: a plant whose field is a model of it"),
}


def usage() -> str:
    """All commands, a line each."""
    return "\n".join(f"{called(word)} {what}" for word, (_, what) in COMMANDS.items())


def main(words: list[str]) -> int:
    """Runs the command that the words name, and gives the status of the process. Whatever is wrong with the server or the
    gateway is one line on standard error that begins with SERVER."""
    _hold_descriptors()
    signal.signal(signal.SIGCHLD, signal.SIG_DFL)  # else nobody would hear how alarmd ends
    try:
        return _run(words)
    except GatewayFault as fault:
        if fault.details:
            print(fault.details, file=sys.stderr)
        tell(fault.words)
        return fault.status
    except (BrokenPipeError, KeyboardInterrupt):
        os.dup2(os.open(os.devnull, os.O_WRONLY), 1)  # nobody reads what is left
        return 1
    except Exception as fault:
        last = traceback.extract_tb(fault.__traceback__)[-1]
        where = f"{os.path.basename(last.filename)}, line {last.lineno}"
        tell(f"a fault of the gateway itself: {type(fault).__name__}: {fault} ({where})")
        return 1


def _hold_descriptors() -> None:
    """Where one of the first three descriptors was closed, none of our own files may get its number."""
    descriptor = os.open(os.devnull, os.O_RDWR)
    while descriptor <= 2:
        descriptor = os.dup(descriptor)
    os.close(descriptor)


def _run(words: list[str]) -> int:
    if words[:1] in (["help"], ["--help"], ["-h"]):
        say([usage()])
        return 0
    if not words or words[0] not in COMMANDS:
        wrong = f"no command is called {words[0]!r}" if words else "a command is wanted"
        raise GatewayFault(
            f"{wrong}: {', '.join(COMMANDS)} (`{called('help')}` says what each does)", 2
        )
    module = importlib.import_module(f".{COMMANDS[words[0]][0]}", __package__)
    return int(module.main(words))
