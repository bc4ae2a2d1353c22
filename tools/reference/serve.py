#!/usr/bin/env python3
"""Serves a plant by the second reading of the rules, with the words of `alarmd`: slow, and for trials alone.

    python3 tools/reference/serve.py check PLANT
    python3 tools/reference/serve.py run PLANT [--workers N]

What the second reading can't tell (a plant that breaks a rule of names, kinds or constants) ends it with status 1. With ALARMD_WITHOUT_RELOAD in the environment there is no command `reload`.
"""

import os
import sys

import files
import protocol
import reloads
from server import Server

CHUNK = 65_536


def admitted(path):
    """The plant of a plant file. Raises files.Refused with the line that refuses it."""

    def found(name):
        try:
            with open(path if name == path else os.path.join(os.path.dirname(path), name), "rb") as file:
                return file.read(files.LARGEST_FILE + 1)
        except OSError:
            return None

    keys = files.judged(path, found)
    return reloads.read(found(path), found(keys["alarms"]), *map(found, keys["sources"]))


def whole(given, has_reloads):
    """How many bytes at the beginning of an input are a whole request; 0 where more have to come."""
    end = given.find(b"\n")
    if end < 0:
        return 0
    size = end + 1 + (protocol.body_size(bytes(given[:end]).removesuffix(b"\r")) if has_reloads else 0)
    return size if size <= len(given) else 0


def serve(server):
    """Answers requests as they come, to the end of the input."""
    given = bytearray()
    while data := os.read(0, CHUNK):
        given += data
        while size := whole(given, server.reads is not None):
            write(protocol.answers(server, bytes(given[:size])))
            del given[:size]
    write(protocol.answers(server, bytes(given)))


def write(text):
    while text:
        text = text[os.write(1, text) :]


def main(words):
    if len(words) < 2 or words[0] not in ("check", "run"):
        sys.exit(__doc__)
    sys.setrecursionlimit(10_000)
    try:
        plant = admitted(words[1])
    except files.Refused as refused:
        write(f"{refused.args[0]}\n".encode())
        return 3
    if words[0] == "check":
        write(f"ACCEPTED PROGRAMS {len(plant.programs)} ALARMS {len(plant.alarms)}\n".encode())
        return 0
    serve(Server(plant, None if "ALARMD_WITHOUT_RELOAD" in os.environ else reloads.read))
    return 0


if __name__ == "__main__":
    try:
        sys.exit(main(sys.argv[1:]))
    except BrokenPipeError:
        os.dup2(os.open(os.devnull, os.O_WRONLY), 1)
        sys.exit(1)
