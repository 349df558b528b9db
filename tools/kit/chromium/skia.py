"""Paints as Chromium's software renderer does: the same walk as that of `painter`, with the arithmetic
of Skia's 8-bit blitters. So it tells whether what is left between viz and Chromium is rounding only."""

from functools import lru_cache

from ..blend import CLEAR, DSTIN, SRC
from ..painter import Canvas, Painter
from ..shapes import EMPTY


def round255(a, b):
    """a * b / 255, to the nearest (SkMulDiv255Round)."""
    product = a * b + 128
    return (product + (product >> 8)) >> 8


def source(colour, opacity):
    """A colour of 8 bits with the opacity in its alpha, premultiplied."""
    alpha = int(colour[3] * opacity * 255 + .5)
    return (*(round255(int(value * 255 + .5), alpha) for value in colour[:3]), alpha)


@lru_cache(maxsize=None)
def kept(alpha):
    """What is left of a channel below a source of some alpha (SkPMSrcOver)."""
    return bytes(below * (256 - alpha) >> 8 for below in range(256))


@lru_cache(maxsize=8192)
def over(value, alpha):
    return bytes(min(255, value + left) for left in kept(alpha))


@lru_cache(maxsize=None)
def scaled(alpha):
    """A channel with an opacity, as a shader has it."""
    return bytes(value * (alpha + 1) >> 8 for value in range(256))


@lru_cache(maxsize=None)
def within(alpha):
    return bytes(round255(value, alpha) for value in range(256))


def fill(colour, mode, below):
    """A row on which one colour is laid."""
    if mode == SRC:
        return bytes(colour) * (len(below) // 4)
    made = bytearray(len(below))
    for channel in range(4):
        table = within(colour[3]) if mode == DSTIN else over(colour[channel], colour[3])
        made[channel::4] = bytes(below[channel::4]).translate(table)
    return made


def shaded(row, alpha, mode, below):
    """A row that a shader reads: the opacity first, then the mode."""
    row = row if alpha == 255 else bytes(row).translate(scaled(alpha))
    alphas = bytes(row[3::4])
    if mode == SRC or mode != DSTIN and not alphas.strip(b"\xff"):
        return row
    made = bytearray(below)
    for place, one in enumerate(alphas):
        at = place * 4
        if mode == DSTIN:
            made[at:at + 4] = made[at:at + 4].translate(within(one))
        elif one == 255:
            made[at:at + 4] = row[at:at + 4]
        elif one or any(row[at:at + 4]):
            left = kept(one)
            for channel in range(at, at + 4):
                made[channel] = min(255, row[channel] + left[made[channel]])
    return made


def blitted(row, alpha, mode, below):
    """A row of a whole picture (SkBlendARGB32): with an opacity, both are rounded at once."""
    if alpha == 255 or mode != 0:
        return shaded(row, alpha, mode, below)
    made, share = bytearray(below), alpha + 1
    for at in range(0, len(row), 4):
        product = 0xFFFF - row[at + 3] * share
        rest = (product + (product >> 8)) >> 8
        for channel in range(at, at + 4):
            made[channel] = (row[channel] * share + made[channel] * rest) >> 8
    return made


class Skia(Painter):
    """Paints with the opacities and colours that a recording has under `exact`."""

    given = None

    def quad(self, canvas, path, s, quad, x, y, part):
        self.given = quad.get("exact", (quad["opacity"] / 255,))
        super().quad(canvas, path, s, quad, x, y, part)

    def alpha(self):
        """The opacity of the quad, which is asked for once."""
        given, self.given = self.given, None
        return int(given[0] * 255 + 1e-4) if given else 255

    def solid(self, canvas, colour, mode, opacity, part):
        given, self.given = self.given, None
        if given and len(given) == 5:
            colour = source(given[1:], given[0])
        elif given and given[0] != 1:
            colour = source([value / 255 for value in colour], given[0])
        canvas.change(part, lambda _, below: fill(colour, mode, below))

    def tile(self, canvas, s, m, mode, opacity, x, y, part):
        (w, _), pixels = s.blocks[m["tile"]]
        alpha, lay = self.alpha(), blitted if (m["tx"], m["ty"]) == (0, 0) else shaded

        def made(at, below):
            start = ((m["ty"] + at - y) * w + m["tx"] + part[0] - x) * 4
            return lay(pixels[start:start + part[2] * 4], alpha, mode, below)
        canvas.change(part, made)

    def group(self, canvas, mode, opacity, part, paint):
        alpha = self.alpha()
        if part == EMPTY:
            return
        inner = Canvas(part, CLEAR)
        paint(inner, part)
        canvas.change(part, lambda y, below: shaded(inner.rows[y - part[1]], alpha, mode, below))
