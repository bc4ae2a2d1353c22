"""The words of a command, read by argparse; what is wrong with them is a GatewayFault."""

from __future__ import annotations

import argparse
import io
import os
import sys
from collections.abc import Iterable
from typing import Final, NoReturn

from .model import GatewayFault

_INSTALLED: Final = "alarmd-gateway"


def called(command: str = "") -> str:
    """What a person types for a command: `gateway COMMAND`, or with the installed program's name, where it was called by that."""
    name = _INSTALLED if sys.argv[0].endswith(f"/{_INSTALLED}") else "gateway"
    return f"{name} {command}".rstrip()


def say(lines: Iterable[str]) -> None:
    """Prints lines, to the last of them. Raises BrokenPipeError where nobody reads, GatewayFault (status 1) where they can't be written."""
    if isinstance(sys.stdout, io.TextIOWrapper):
        sys.stdout.reconfigure(errors="backslashreplace")  # of another character set
    try:
        for line in lines:
            print(line)
        print(end="", flush=True)
    except BrokenPipeError:
        raise
    except OSError as fault:
        os.dup2(os.open(os.devnull, os.O_WRONLY), 1)  # what is left is written nowhere
        raise GatewayFault(f"standard output: {fault.strerror}", 1) from None


class Words(argparse.ArgumentParser):
    """Says what is wrong with words in one line, with status 2."""

    def error(self, message: str) -> NoReturn:
        raise GatewayFault(f"{self.prog}: {message}", 2)
