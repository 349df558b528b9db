"""Animated PNG pictures: the first frame whole, of each later one the rows that changed."""

import struct
import zlib

from .png import SIGNATURE, chunk, straight


def changed(old, new):
    """The first row that differs and how many there are up to the last one; one row if none differs."""
    rows = [y for y, (a, b) in enumerate(zip(old, new)) if a != b]
    return (rows[0], rows[-1] + 1 - rows[0]) if rows else (0, 1)


def packed(w, rows):
    return zlib.compress(b"".join(b"\0" + straight(bytes(row[:w * 4])) for row in rows), 9)


def write(pictures, milliseconds):
    """The bytes of the picture that shows pictures of one size in turn, for ever."""
    w, h = pictures[0].w, pictures[0].h
    parts = [SIGNATURE, chunk(b"IHDR", struct.pack(">IIBBBBB", w, h, 8, 6, 0, 0, 0)),
             chunk(b"acTL", struct.pack(">II", len(pictures), 0))]
    number = 0
    for place, picture in enumerate(pictures):
        top, high = changed(pictures[place - 1].rows, picture.rows) if place else (0, h)
        parts.append(chunk(b"fcTL", struct.pack(">IIIIIHHBB", number, w, high, 0, top, milliseconds, 1000, 0, 0)))
        data = packed(w, picture.rows[top:top + high])
        parts.append(chunk(b"fdAT", struct.pack(">I", number + 1) + data) if place else chunk(b"IDAT", data))
        number += 2 if place else 1
    return b"".join([*parts, chunk(b"IEND", b"")])
