"""Paints what can be seen, as docs/RULES.md says it ('Painting'), into a rectangle of the display. It is
plain and slow."""

import hashlib

from .blend import BLACK, CLEAR, OVER, WHITE, fill, lay, scaled
from .shapes import EMPTY, meet, moved, sized
from .walk import seen


class Canvas:
    """The pixels of a rectangle, all of one colour at first."""

    def __init__(self, rect, colour):
        self.rect = rect
        self.rows = [bytearray(colour * rect[2]) for _ in range(rect[3])]

    def row(self, part, y):
        """A row's bytes in a part of the rectangle, and where they are."""
        start = (part[0] - self.rect[0]) * 4
        row = self.rows[y - self.rect[1]]
        return row, start, start + part[2] * 4

    def change(self, part, made):
        """Puts made(y, the bytes so far) into each row of a part."""
        for y in range(part[1], part[1] + part[3]):
            row, start, end = self.row(part, y)
            row[start:end] = made(y, row[start:end])

    def bytes(self):
        return b"".join(self.rows)


class Painter:
    """Paints the active frames of a world. With `alone` embedded surfaces are painted as one colour for
    each range and place, so that two submissions can be compared."""

    def __init__(self, world, alone=False):
        self.world, self.alone = world, alone

    def picture(self, size, rect=None):
        """The display, or a rectangle of it."""
        rect = rect or sized(size)
        canvas = Canvas(rect, BLACK)
        s = self.world.active_on(self.world.root) if self.world.root else None
        if s:
            self.pass_(canvas, (s.surface,), s, s.root, 0, 0, rect)
        return canvas

    def submission(self, s):
        """What a submission draws itself, on nothing and on white: they tell a mark from none."""
        made = []
        for ground in (CLEAR, WHITE):
            canvas = Canvas(sized(s.surface.size), ground)
            self.pass_(canvas, (s.surface,), s, s.root, 0, 0, canvas.rect)
            made.append(canvas)
        return made

    def pass_(self, canvas, path, s, one, x, y, window):
        window = meet(window, moved(one["output"], x, y))
        for quad in reversed(one["quads"]):
            part = seen(window, quad, x, y)
            if part != EMPTY:
                self.quad(canvas, path, s, quad, x + quad["offset"][0] + quad["area"][0],
                          y + quad["offset"][1] + quad["area"][1], part)

    def quad(self, canvas, path, s, quad, x, y, part):
        """A quad whose area begins at x, y and of which a part is seen."""
        m, mode, opacity = quad["material"], quad["blend"], quad["opacity"]
        if m["kind"] == "solid":
            self.solid(canvas, m["solid"], mode, opacity, part)
        elif m["kind"] == "tile":
            self.tile(canvas, s, m, mode, opacity, x, y, part)
        elif m["kind"] == "pass":
            one = s.passes[m["pass"]]
            x, y = x - one["output"][0], y - one["output"][1]
            self.group(canvas, mode, opacity, meet(part, moved(one["output"], x, y)),
                       lambda to, where: self.pass_(to, path, s, one, x, y, where))
        else:
            self.surface(canvas, path, m, mode, opacity, x, y, part)

    def solid(self, canvas, colour, mode, opacity, part):
        colour = scaled(bytes(colour), opacity)
        canvas.change(part, lambda _, below: fill(colour, mode, below))

    def tile(self, canvas, s, m, mode, opacity, x, y, part):
        (w, _), pixels = s.blocks[m["tile"]]

        def made(at, below):
            start = ((m["ty"] + at - y) * w + m["tx"] + part[0] - x) * 4
            return lay(scaled(pixels[start:start + part[2] * 4], opacity), mode, below)
        canvas.change(part, made)

    def group(self, canvas, mode, opacity, part, paint):
        """What `paint` paints on nothing, laid as a whole."""
        if part == EMPTY:
            return
        inner = Canvas(part, CLEAR)
        paint(inner, part)
        canvas.change(part, lambda y, below: lay(scaled(inner.rows[y - part[1]], opacity), mode, below))

    def surface(self, canvas, path, m, mode, opacity, x, y, part):
        if self.alone:
            digest = hashlib.sha256(repr((m, x, y)).encode()).digest()
            self.solid(canvas, (*digest[:3], 255), mode, opacity, part)
            return
        shown = self.world.shown(m["surface"])
        if shown is None:
            self.solid(canvas, m["background"], mode, opacity, part)
            return
        if shown.surface in path:
            return
        inside = moved(sized(shown.surface.size), x, y)
        if shown.surface.id == m["surface"][1]:
            part = meet(part, inside)

        def paint(to, where):
            for outside in around(where, inside):
                self.solid(to, m["background"], OVER, 255, outside)
            within = meet(where, inside)
            if within != EMPTY:
                self.pass_(to, path + (shown.surface,), shown, shown.root, x, y, within)
        if part != EMPTY and mode == OVER and opacity == 255:
            paint(canvas, part)
        else:
            self.group(canvas, mode, opacity, part, paint)


def around(rect, hole):
    """The parts of a rectangle outside another one."""
    hole = meet(rect, hole)
    if hole == EMPTY:
        return [rect]
    x, y, w, h = rect
    parts = [(x, y, w, hole[1] - y), (x, hole[1] + hole[3], w, y + h - hole[1] - hole[3]),
             (x, hole[1], hole[0] - x, hole[3]), (hole[0] + hole[2], hole[1], x + w - hole[0] - hole[2], hole[3])]
    return [part for part in parts if part[2] > 0 and part[3] > 0]


def dishonest(world, before):
    """The submissions that were accepted before a place in the log and change something outside their
    damage: each with the first such point."""
    for surface in world.surfaces:
        painter, earlier = Painter(world, alone=True), None
        for s in surface.frames:
            if s.at >= before:
                break
            made = painter.submission(s)
            points = [outside(a, b, s.root["damage"]) for a, b in zip(earlier or made, made)]
            if any(points):
                yield s, points[0] or points[1]
            earlier = made


def outside(a, b, damage):
    """The first point outside a rectangle at which two canvases differ."""
    for part in around(a.rect, damage):
        for y in range(part[1], part[1] + part[3]):
            row, start, end = a.row(part, y)
            other = b.row(part, y)[0]
            if row[start:end] != other[start:end]:
                return next((part[0] + k, y) for k in range(part[2]) if row[start + 4 * k:start + 4 * k + 4]
                            != other[start + 4 * k:start + 4 * k + 4])
    return None
