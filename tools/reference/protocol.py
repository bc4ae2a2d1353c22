"""What the bytes of an input ask for, line by line, and what answers them, by docs/PROTOCOL.md.

Bytes are read as Latin-1, which makes a character of each byte.
"""

import re

import reloads

LONGEST = 1_048_576
MOMENT, CONSOLE = re.compile("[0-9]{1,19}"), re.compile("[0-9]{1,9}")
PAIR = re.compile("([a-z_][a-z0-9_]*)=(true|false|-?[0-9]{1,19})", re.ASCII | re.IGNORECASE)


def requests(given, has_reloads=False):
    """The lines of an input, each without its LF and the CR before that, and with the bytes that belong to it: of a `reload` those right behind its LF, as many as it says, or None where
    the input ends before; then nothing follows. A last line without LF counts if it isn't empty, and keeps its CR."""
    at = 0
    while at < len(given):
        end = given.find(b"\n", at)
        line = given[at:] if end < 0 else given[at:end].removesuffix(b"\r")
        at = len(given) if end < 0 else end + 1
        size = body_size(line) if has_reloads else 0
        if size > len(given) - at:
            yield line, None
            return
        yield line, given[at : at + size]
        at += size


def body_size(line):
    """How many bytes belong to a line."""
    asked = command(line, True)
    return sum(asked[1]) if asked is not None and asked[0] == "reload" else 0


def words_of(line):
    return [word for word in re.split("[ \t]+", line.decode("latin-1")) if word]


def command(line, has_reloads=False):
    """The words of a command, with its numbers as numbers, the pairs of a scan and the sizes of a reload as a list; None for a line that asks for nothing, and "L1"."""
    if len(line) > LONGEST:
        return "L1"
    words = words_of(line)
    if not words or words[0].startswith("#"):
        return None
    if words[0] == "reload" and has_reloads:
        lengths = reloads.sizes(words)
        return "L1" if lengths is None else ("reload", lengths)
    match words:
        case ["scan", moment, *pairs] if MOMENT.fullmatch(moment):
            found = [PAIR.fullmatch(pair) for pair in pairs]
            return ("scan", int(moment), [it.groups() for it in found]) if all(found) else "L1"
        case ["shelve", console, target, time] if CONSOLE.fullmatch(console) and MOMENT.fullmatch(time):
            return "shelve", int(console), target, int(time)
        case ["ack" | "reset" | "unshelve" | "remove" | "return" | "restart" as verb, console, target] if CONSOLE.fullmatch(console):
            return verb, int(console), target
        case ["list" | "journal" as listing]:
            return (listing,)
    return "L1"


def answer(server, line, body=b""):
    """The lines that answer a line, which has this body."""
    asked = command(line, server.reads is not None)
    if asked is None:
        return []
    match asked:
        case "L1":
            return ["REFUSED L1"]
        case "reload", lengths:
            return ["REFUSED L2"] if body is None else server.reload(*reloads.texts(body, lengths))
        case "scan", moment, pairs:
            return server.scan(moment, pairs)
        case ("list",):
            return server.list()
        case ("journal",):
            return server.journal()
    return server.order(*asked)


def answers(server, given):
    """The bytes that answer an input. The server goes on by them."""
    asked = requests(given, server.reads is not None)
    return b"".join(f"{it}\n".encode() for line, body in asked for it in answer(server, line, body))
