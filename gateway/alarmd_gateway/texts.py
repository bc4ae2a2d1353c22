"""The texts of a plant's files, as a `reload` hands them over: a line with their sizes, and right behind its end the texts themselves."""

from __future__ import annotations

import re
from collections.abc import Iterator
from typing import BinaryIO, Final

from .model import GatewayFault, Texts

WORD: Final = b"reload"
MOST_SOURCES: Final = 64
MOST_PLANT: Final = 1_048_576
MOST_ALARMS: Final = 16_777_216
MOST_TOGETHER: Final = 4_194_304
"""Bytes of all sources."""

_SIZE: Final = re.compile(rb"[0-9]{1,8}")
_BLANKS: Final = b" \t"


def check(texts: Texts) -> None:
    """Raises GatewayFault (status 3) where a text has more bytes than a `reload` may hand over."""
    sources = sum(len(text) for text in texts.sources)
    for what, size, most in (
        ("the plant file", len(texts.plant), MOST_PLANT),
        ("the alarm file", len(texts.alarms), MOST_ALARMS),
        ("the sources together", sources, MOST_TOGETHER),
    ):
        if size > most:
            raise GatewayFault(f"{what}: {size:,} bytes, and {most:,} are the most", 3)
    if len(texts.sources) > MOST_SOURCES:
        raise GatewayFault(f"{len(texts.sources)} sources, and {MOST_SOURCES} are the most", 3)


def line(texts: Texts) -> str:
    """The line of a reload of these texts."""
    sizes = (len(text) for text in (texts.plant, texts.alarms, *texts.sources))
    return " ".join([WORD.decode(), *map(str, sizes)])


def body(texts: Texts) -> bytes:
    """What stands right behind the end of that line."""
    return b"".join((texts.plant, texts.alarms, *texts.sources))


def sizes(head: bytes) -> list[int] | None:
    """The sizes that a line tells, without its end; None where it is no reload, or one that the server refuses as a line."""
    if not head.lstrip(_BLANKS).startswith(WORD):
        return None
    words = [word for word in re.split(rb"[ \t]+", head) if word]
    if words[0] != WORD or len(words) < 3 or not all(map(_SIZE.fullmatch, words[1:])):
        return None
    plant, alarms, *sources = map(int, words[1:])
    fits = plant <= MOST_PLANT and alarms <= MOST_ALARMS and len(sources) <= MOST_SOURCES
    return [plant, alarms, *sources] if fits and sum(sources) <= MOST_TOGETHER else None


def of(head: str, given: bytes) -> Texts | None:
    """The texts by a line and what stands behind it; None where the line is no reload, or the texts aren't whole."""
    lengths = sizes(head.encode("utf-8", "surrogateescape"))
    if lengths is None or sum(lengths) != len(given):
        return None
    at, found = 0, []
    for length in lengths:
        found.append(given[at : at + length])
        at += length
    return Texts(found[0], found[1], tuple(found[2:]))


def walk(file: BinaryIO) -> Iterator[tuple[bytes, bytes]]:
    """The lines of a record from where the file stands, each without its end and with the texts behind it, which only a reload
    has. One that isn't whole, and so was never sent, ends them: the file may then stand anywhere behind it.
    """
    while (raw := file.readline()).endswith(b"\n"):
        head = raw[:-1]
        lengths = sizes(head.removesuffix(b"\r"))
        given = file.read(sum(lengths)) if lengths else b""
        if lengths and len(given) < sum(lengths):
            return
        yield head, given
