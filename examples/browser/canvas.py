"""A canvas of premultiplied pixels, on which shapes are drawn with smooth edges, and letters made of strokes."""

import math


def smooth(points, times=3):
    """A line with its corners cut, so that it looks like a curve."""
    for _ in range(times):
        cut = [points[0]]
        for (ax, ay), (bx, by) in zip(points, points[1:]):
            cut += [(ax * 0.75 + bx * 0.25, ay * 0.75 + by * 0.25), (ax * 0.25 + bx * 0.75, ay * 0.25 + by * 0.75)]
        points = cut + [points[-1]]
    return points


# Strokes of each letter: points of two digits, x and y; capitals begin at y 0, small letters at 2, the base line is 6.
BOWL = "~22 42 46 06 02 22"
LETTERS = {
    "a": BOWL + ",42 46", "b": BOWL + ",00 06", "c": "~43 42 02 06 46 45", "d": BOWL + ",40 46",
    "e": "04 44,~44 42 02 06 46 45", "f": "~30 10 12 16,02 32", "g": BOWL + ",42 46,~46 48 08 07",
    "h": "00 06,~04 02 42 46", "i": "02 06,00 00", "k": "00 06,32 04 36", "l": "00 06",
    "m": "02 06,~04 02 32 36,~34 32 62 66", "n": "02 06,~04 02 42 46", "o": BOWL, "p": BOWL + ",02 08",
    "r": "02 06,~04 02 32", "s": "~42 02 04 44 46 06", "t": "~10 16 36,02 32", "u": "~02 06 46 42,42 46",
    "v": "02 26 42", "w": "02 16 32 46 62", "x": "02 46,42 06", "y": "02 26,42 18", "z": "02 42 06 46",
    "B": "00 06,~00 40 43 03,~03 43 46 06", "M": "06 00 34 60 66", "N": "06 00 46 40", "R": "00 06,~00 40 43 03,13 46",
    "S": "~41 40 00 03 43 46 06 05", "T": "00 40,20 26", "W": "00 16 32 46 60",
    ".": "06 06", "/": "30 07", "-": "04 34",
}


def strokes_of(letter):
    """The lines of a letter, and its width."""
    lines = []
    for part in LETTERS[letter].split(","):
        points = [(int(p[0]), int(p[1])) for p in part.strip("~").split()]
        lines.append(smooth(points) if part[0] == "~" else points)
    return lines, max(x for line in lines for x, _ in line)


def distance(px, py, ax, ay, bx, by):
    """From a point to a line from a to b."""
    dx, dy = bx - ax, by - ay
    size = dx * dx + dy * dy
    along = max(0.0, min(1.0, ((px - ax) * dx + (py - ay) * dy) / size)) if size else 0.0
    return math.hypot(px - ax - along * dx, py - ay - along * dy)


class Canvas:
    """Rows of pixels; None as a colour is transparent."""

    def __init__(self, w, h, colour=None):
        self.w, self.h = w, h
        self.data = bytearray((bytes((*colour, 255)) if colour else bytes(4)) * (w * h))

    def fill(self, x, y, w, h, colour):
        left, right = max(0, x), min(self.w, x + w)
        for row in range(max(0, y), min(self.h, y + h)):
            start = (row * self.w + left) * 4
            self.data[start:start + (right - left) * 4] = bytes((*colour, 255)) * (right - left)

    def dot(self, x, y, part, colour):
        """Lays a colour on a pixel, of which it covers a part."""
        if part <= 0 or not (0 <= x < self.w and 0 <= y < self.h):
            return
        a, at = min(255, int(part * 255 + 0.5)), (y * self.w + x) * 4
        for c, value in enumerate((*colour, 255)):
            self.data[at + c] = (value * a + self.data[at + c] * (255 - a) + 127) // 255

    def disc(self, cx, cy, r, colour):
        for y in range(int(cy - r) - 1, int(cy + r) + 2):
            for x in range(int(cx - r) - 1, int(cx + r) + 2):
                self.dot(x, y, min(1.0, r + 0.5 - math.hypot(x + 0.5 - cx, y + 0.5 - cy)), colour)

    def strokes(self, lines, r, colour):
        """Lines of a width of 2 r with round ends."""
        mask = {}
        for line in lines:
            for (ax, ay), (bx, by) in zip(line, line[1:]):
                for y in range(int(min(ay, by) - r - 1), int(max(ay, by) + r + 2)):
                    for x in range(int(min(ax, bx) - r - 1), int(max(ax, bx) + r + 2)):
                        part = r + 0.5 - distance(x + 0.5, y + 0.5, ax, ay, bx, by)
                        if part > mask.get((x, y), 0):
                            mask[x, y] = min(1.0, part)
        for (x, y), part in mask.items():
            self.dot(x, y, part, colour)

    def arc(self, cx, cy, radius, start, end, r, colour):
        """A part of a circle's line; angles in degrees, clockwise from the right."""
        steps = [math.radians(start + (end - start) * k / 24) for k in range(25)]
        self.strokes([[(cx + radius * math.cos(a), cy + radius * math.sin(a)) for a in steps]], r, colour)

    def panel(self, x, y, w, h, r, colour, corners="nesw"):
        """A rectangle whose corners are round: north-west n, north-east e, south-east s, south-west w."""
        self.fill(x, y + r, w, h - 2 * r, colour)
        self.fill(x + r, y, w - 2 * r, h, colour)
        for name, left, top in (("n", x, y), ("e", x + w - r, y), ("w", x, y + h - r), ("s", x + w - r, y + h - r)):
            if name not in corners:
                self.fill(left, top, r, r, colour)
                continue
            cx, cy = left + (r if name in "nw" else 0), top + (r if name in "ne" else 0)
            for py in range(top, top + r):
                for px in range(left, left + r):
                    self.dot(px, py, min(1.0, r + 0.5 - math.hypot(px + 0.5 - cx, py + 0.5 - cy)), colour)

    def text(self, x, y, unit, r, colour, words):
        """Words whose base line is at y + 6 units; answers where they end."""
        for letter in words:
            if letter == " ":
                x += 3 * unit
                continue
            lines, wide = strokes_of(letter)
            self.strokes([[(x + px * unit, y + py * unit) for px, py in line] for line in lines], r, colour)
            x += (wide + 2) * unit
        return x

    def cut(self, x, y, w, h):
        """The pixels of a rectangle."""
        return b"".join(bytes(self.data[(row * self.w + x) * 4:(row * self.w + x + w) * 4]) for row in range(y, y + h))
