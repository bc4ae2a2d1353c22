"""Makes a picture of a screen small: 256 colours at most, each pixel the nearest one of them."""

from __future__ import annotations

import struct
import zlib
from collections import Counter
from pathlib import Path

HEAD = b"\x89PNG\r\n\x1a\n"
COLOURS = 256


def chunks(data: bytes) -> list[tuple[bytes, bytes]]:
    """The kinds and contents of a PNG's chunks."""
    found, at = [], len(HEAD)
    while at < len(data):
        (length,) = struct.unpack(">I", data[at : at + 4])
        found.append((data[at + 4 : at + 8], data[at + 8 : at + 8 + length]))
        at += length + 12
    return found


def unfiltered(lines: bytes, width: int, height: int, depth: int) -> list[bytes]:
    """The pixels of each line, of so many bytes each."""
    size, before, found = width * depth, bytes(width * depth), []
    for number in range(height):
        kind, *_ = lines[number * (size + 1) : number * (size + 1) + 1]
        line = bytearray(lines[number * (size + 1) + 1 : (number + 1) * (size + 1)])
        for at in range(size) if kind else ():
            left = line[at - depth] if at >= depth else 0
            corner = before[at - depth] if at >= depth else 0
            line[at] = (line[at] + guess(kind, left, before[at], corner)) & 255
        before = bytes(line)
        found.append(before)
    return found


def guess(kind: int, left: int, above: int, corner: int) -> int:
    """What a PNG's filter expects of a byte."""
    if kind == 4:
        middle = left + above - corner
        return min((left, above, corner), key=lambda one: abs(middle - one))
    return (0, left, above, (left + above) // 2)[kind]


def nearest(colour: bytes, palette: list[bytes]) -> int:
    """The number of the palette's colour that is nearest."""
    red, green, blue = colour
    return min(
        range(len(palette)),
        key=lambda at: (palette[at][0] - red) ** 2
        + (palette[at][1] - green) ** 2
        + (palette[at][2] - blue) ** 2,
    )


def shrink(path: Path) -> None:
    """Writes a PNG of 8 bits a channel anew, smaller."""
    parts = chunks(path.read_bytes())
    width, height, bits, kind = struct.unpack(">IIBB", parts[0][1][:10])
    assert bits == 8 and kind in (2, 6), "RGB or RGBA of 8 bits"
    depth = 3 if kind == 2 else 4
    packed = b"".join(data for name, data in parts if name == b"IDAT")
    lines = unfiltered(zlib.decompress(packed), width, height, depth)
    pixels = [[line[at : at + 3] for at in range(0, width * depth, depth)] for line in lines]
    counts = Counter(pixel for line in pixels for pixel in line)
    palette = [colour for colour, _ in counts.most_common(COLOURS)]
    places = {colour: at for at, colour in enumerate(palette)}
    places.update((one, nearest(one, palette)) for one in counts if one not in places)
    body = b"".join(b"\0" + bytes(places[pixel] for pixel in line) for line in pixels)
    head = struct.pack(">IIBBBBB", width, height, 8, 3, 0, 0, 0)
    made = [(b"IHDR", head), (b"PLTE", b"".join(palette)), (b"IDAT", zlib.compress(body, 9))]
    path.write_bytes(HEAD + b"".join(chunk(*part) for part in [*made, (b"IEND", b"")]))


def chunk(name: bytes, data: bytes) -> bytes:
    """A chunk of a PNG."""
    return struct.pack(">I", len(data)) + name + data + struct.pack(">I", zlib.crc32(name + data))
