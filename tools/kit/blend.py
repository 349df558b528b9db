"""Rows of premultiplied pixels, blended as the display does: the product of two channels is (a * b + 127)
/ 255."""

from functools import lru_cache

CLEAR, BLACK, WHITE = bytes(4), bytes((0, 0, 0, 255)), bytes((255, 255, 255, 255))
OVER, SRC, DSTIN = range(3)


@lru_cache(maxsize=None)
def times(a):
    """For each channel its product with `a`."""
    return bytes((a * b + 127) // 255 for b in range(256))


def scaled(row, opacity):
    return row if opacity == 255 else row.translate(times(opacity))


def fill(colour, mode, below):
    """A row on which one colour is laid."""
    count = len(below) // 4
    if mode == SRC or mode == OVER and colour[3] == 255:
        return bytes(colour) * count
    if mode == DSTIN:
        return bytes(below).translate(times(colour[3]))
    if not any(colour):
        return below
    made = bytearray(len(below))
    for channel in range(4):
        made[channel::4] = bytes(below[channel::4]).translate(over_table(colour[channel], colour[3]))
    return made


@lru_cache(maxsize=8192)
def over_table(value, alpha):
    return bytes(min(255, value + (below * (255 - alpha) + 127) // 255) for below in range(256))


def lay(row, mode, below):
    """A row that is laid on another."""
    if mode == SRC:
        return row
    alphas = bytes(row[3::4])
    if mode == OVER:
        if not alphas.strip(b"\xff"):
            return row
        if not alphas.strip(b"\0") and not any(row):
            return below
    made = bytearray(below)
    for place, alpha in enumerate(alphas):
        at = place * 4
        if mode == DSTIN:
            made[at:at + 4] = made[at:at + 4].translate(times(alpha))
        elif alpha == 255:
            made[at:at + 4] = row[at:at + 4]
        elif alpha or any(row[at:at + 4]):
            rest = times(255 - alpha)
            for channel in range(at, at + 4):
                made[channel] = row[channel] + rest[made[channel]]
    return made
