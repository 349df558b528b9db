"""Pictures of frames: scaled up, with outlines, and laid beside each other."""

from . import digits, png
from .wrong import Wrong, file

GROUND, BLACK, WHITE = bytes((200, 200, 200, 255)), bytes((0, 0, 0, 255)), bytes((255, 255, 255, 255))
GAP, STRIP_WIDTH, MOST = 4, 1292, 67108864


class Picture:
    """Rows of pixels that can be written over."""

    def __init__(self, w, h, rows):
        self.w, self.h, self.rows = w, h, rows

    @classmethod
    def of(cls, w, h, data, scale):
        """A frame's bytes, each pixel as a square of `scale`."""
        rows = []
        for y in range(h):
            row = data[y * w * 4:(y + 1) * w * 4]
            if scale > 1:
                row = b"".join(row[at:at + 4] * scale for at in range(0, len(row), 4))
            rows += [bytearray(row) for _ in range(scale)]
        return cls(w * scale, h * scale, rows)

    @classmethod
    def ground(cls, w, h):
        return cls(w, h, [bytearray(GROUND * w) for _ in range(h)])

    def put(self, x, y, data):
        self.rows[y][x * 4:x * 4 + len(data)] = data

    def outline(self, rect, colour):
        """The border of a rectangle, inside it."""
        x, y, w, h = rect
        for part in ((x, y, w, 1), (x, y + h - 1, w, 1), (x, y, 1, h), (x + w - 1, y, 1, h)):
            self.fill(part, colour)

    def cross(self, x, y, side):
        """Marks the square of a pixel by four arms beside it, white with a black edge."""
        for edge, colour in ((1, BLACK), (0, WHITE)):
            long, wide, middle = 2 * side + 4 + 2 * edge, 1 + 2 * edge, side // 2 - edge
            for start in (-2 * side - 6 - edge, side + 2 - edge):
                self.fill((x + start, y + middle, long, wide), colour)
                self.fill((x + middle, y + start, wide, long), colour)

    def fill(self, rect, colour):
        """A rectangle in one colour, as far as it is in the picture."""
        x, y, w, h = rect
        left, right = max(0, x), min(self.w, x + w)
        for row in range(max(0, y), min(self.h, y + h)):
            self.put(left, row, colour * (right - left))

    def shrunk(self, n):
        """The picture with each square of n by n pixels as one, their average."""
        rows = []
        for y in range(0, self.h, n):
            made = bytearray(self.w // n * 4)
            for channel in range(4):
                parts = [row[channel + 4 * x::4 * n] for row in self.rows[y:y + n] for x in range(n)]
                made[channel::4] = bytes((sum(part) + n * n // 2) // (n * n) for part in zip(*parts))
            rows.append(made)
        return Picture(self.w // n, self.h // n, rows)

    def fitted(self, most):
        """The picture as large as fits into so many pixels of width: each pixel as a square, or squares as one pixel."""
        if self.w > most:
            n = -(-self.w // most)
            w, h = self.w // n * n, max(n, self.h // n * n)
            rows = [row[:w * 4] for row in self.rows[:h]]
            return Picture(w, len(rows), rows).shrunk(n) if len(rows) >= n else self
        scale = min(64, most // self.w)
        return Picture.of(self.w, self.h, b"".join(self.rows), scale)

    def lay(self, other, x, y):
        for place, row in enumerate(other.rows):
            self.put(x, y + place, row)

    def save(self, name):
        with file(name):
            if name.suffix.lower() != ".png":
                raise Wrong("a picture is a PNG file, so its name ends in .png")
            name.parent.mkdir(parents=True, exist_ok=True)
            name.write_bytes(png.write(self.w, self.h, b"".join(self.rows)))


def strip(pictures, numbers=None):
    """All pictures in one, in as many columns as fit, each with its number above it if there are numbers."""
    head = digits.HIGH + GAP if numbers else 0
    w, h = pictures[0].w + GAP, pictures[0].h + GAP + head
    columns = max(1, min(len(pictures), (STRIP_WIDTH - GAP) // w))
    rows = -(-len(pictures) // columns)
    if (columns * w + GAP) * (rows * h + GAP) > MOST:
        raise Wrong("the picture of %d frames would be too large" % len(pictures))
    whole = Picture.ground(columns * w + GAP, rows * h + GAP)
    for place, picture in enumerate(pictures):
        x, y = GAP + place % columns * w, GAP + place // columns * h
        if numbers:
            digits.put(whole, x, y, numbers[place])
        whole.lay(picture, x, y + head)
    return whole


def bound(rects):
    """The smallest rectangle round some that are not empty."""
    x, y = min(r[0] for r in rects), min(r[1] for r in rects)
    return x, y, max(r[0] + r[2] for r in rects) - x, max(r[1] + r[3] for r in rects) - y


def stale(rects, buffers, size):
    """What of the next buffer is painted again at each drawing: the whole display at a buffer's first use, and
    then the rectangle round the damages since it was last painted."""
    return [(0, 0, *size) if place < buffers else bound(rects[place - buffers + 1:place + 1])
            for place in range(len(rects))]
