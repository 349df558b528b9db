"""What is occluded in a drawing, as the program removes it before it paints: the items that are drawn, from back to front,
and which of them lie wholly behind one later item of the same list that leaves nothing of what was there."""

from .blend import OVER, SRC
from .painter import around
from .shapes import EMPTY, meet, moved, sized
from .walk import seen

MOST_OCCLUDERS = 64


class Item:
    """An area that is drawn on, whether nothing is left there of what was behind, and the items of a group."""

    def __init__(self, area, occludes, inner=None):
        self.area, self.occludes, self.inner = area, occludes, inner


def covers(a, b):
    return meet(a, b) == b


def removed(items):
    """How many items of a list are kept and how many are removed. A group that is removed counts once; one that is kept
    counts too, besides what is in it."""
    occluders, kept, gone = [], 0, 0
    for item in reversed(items):
        if any(covers(area, item.area) for area in occluders):
            gone += 1
        else:
            inside = removed(item.inner or [])
            kept, gone = kept + 1 + inside[0], gone + inside[1]
        if item.occludes and len(occluders) < MOST_OCCLUDERS:
            occluders.append(item.area)
    return kept, gone


class Flattener:
    """Makes the items of the active frames of a world."""

    def __init__(self, world):
        self.world, self.opaque = world, {}

    def display(self, size):
        s = self.world.active_on(self.world.root)
        return self.pass_((s.surface,), s, s.root, 0, 0, sized(size))

    def pass_(self, path, s, one, x, y, window):
        window, items = meet(window, moved(one["output"], x, y)), []
        for quad in reversed(one["quads"]):
            part = seen(window, quad, x, y)
            if part != EMPTY:
                items += self.quad(path, s, quad, x + quad["offset"][0] + quad["area"][0],
                                   y + quad["offset"][1] + quad["area"][1], part)
        return items

    def quad(self, path, s, quad, x, y, part):
        """The items of a quad whose area begins at x, y and of which a part is seen."""
        m, mode, opacity = quad["material"], quad["blend"], quad["opacity"]
        straight = mode == OVER and opacity == 255
        if m["kind"] == "solid":
            return [Item(part, mode == SRC or straight and m["solid"][3] == 255)]
        if m["kind"] == "tile":
            return [Item(part, mode == SRC or straight and self.is_opaque(s, m, x, y, part))]
        if m["kind"] == "pass":
            one = s.passes[m["pass"]]
            x, y = x - one["output"][0], y - one["output"][1]
            area = meet(part, moved(one["output"], x, y))
            return [] if area == EMPTY else [Item(area, False, self.pass_(path, s, one, x, y, part))]
        return self.surface(path, m, mode, straight, x, y, part)

    def is_opaque(self, s, m, x, y, part):
        (w, _), pixels = s.blocks[m["tile"]]
        left, top = m["tx"] + part[0] - x, m["ty"] + part[1] - y
        key = id(pixels), w, left, top, part[2:]
        if key not in self.opaque:
            alphas = (pixels[4 * ((top + k) * w + left):][:4 * part[2]][3::4] for k in range(part[3]))
            self.opaque[key] = all(row.count(255) == part[2] for row in alphas)
        return self.opaque[key]

    def surface(self, path, m, mode, straight, x, y, part):
        shown, background = self.world.shown(m["surface"]), m["background"]
        if shown is None:
            return [Item(part, mode == SRC or straight and background[3] == 255)]
        if shown.surface in path:
            return []
        inside = moved(sized(shown.surface.size), x, y)
        is_end = shown.surface.id == m["surface"][1]
        area, within = meet(part, inside) if is_end else part, meet(part, inside)
        if area == EMPTY:
            return []
        items = [] if is_end else [Item(outside, background[3] == 255) for outside in around(part, inside)]
        if within != EMPTY:
            items += self.pass_(path + (shown.surface,), shown, shown.root, x, y, within)
        return items if straight else [Item(area, False, items)]
