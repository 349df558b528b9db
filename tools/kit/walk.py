"""The walk through what can be seen: each quad and each surface on each path to it, with their parts of
the display; and the claims, from which the damage comes."""

import sys

from .shapes import EMPTY, bound, meet, moved, sized

MOST_ON_PATH, MOST_WEIGHT = 64, 65536
sys.setrecursionlimit(20000)          # a path may have 64 surfaces with 16 passes each


class TooMuch(Exception):
    """The tree is over a limit."""


class Claim:
    """A rectangle of the display that is repainted, and why: `first` (nothing was drawn before), `root`
    (another root), `damage` (frames `since` to `until` of a surface's submission), or a range that `none`
    (shows no surface), `new` (was not met then) or `other` (shows another surface now)."""

    def __init__(self, kind, rect, submission=None, since=0, span=None, then=None):
        self.kind, self.rect, self.submission, self.since = kind, rect, submission, since
        self.span, self.then = span, then


class Aggregation:
    """What is remembered of a drawing: its root, the index of each active frame, and what each range showed."""

    def __init__(self, root, indices, ranges):
        self.root, self.indices, self.ranges = root, indices, ranges


def aggregation(world, drawing):
    return Aggregation(world.root, {s.surface.id: s.index for live in world.groups.values() for s in live},
                       drawing.ranges)


class Drawing:
    """A walk from the root: its claims, its damage, the submissions that it enters and the ranges that it
    meets."""

    def __init__(self, world, size):
        self.world, self.last = world, world.last
        self.weight, self.entered, self.ranges, self.claims = 0, set(), {}, []
        self.all = self.last is None or self.last.root != world.root
        self.enter((), world.active_on(world.root), 0, 0, sized(size))
        if self.all:
            self.claims = [Claim("first" if self.last is None else "root", sized(size))]
        self.damage = bound([claim.rect for claim in self.claims])

    def enter(self, path, s, x, y, window):
        """Goes into a surface that is placed at x, y and seen in a window."""
        if len(path) + 1 > MOST_ON_PATH:
            raise TooMuch
        self.entered.add(s)
        if not self.all:
            self.claim_damage(s, x, y, window)
        self.pass_(path + (s.surface,), s, s.root, x, y, window)

    def claim_damage(self, s, x, y, window):
        since = self.last.indices.get(s.surface.id, 0)
        rect = bound([one.root["damage"] for one in s.surface.frames[since:s.index]])
        if rect != EMPTY:
            rect = meet(meet(window, moved(sized(s.surface.size), x, y)), moved(rect, x, y))
        self.claim(Claim("damage", rect, s, since))

    def claim(self, claim):
        if claim.rect != EMPTY:
            self.claims.append(claim)

    def pass_(self, path, s, one, x, y, window):
        """Meets the quads of a pass, whose point (0, 0) is at x, y."""
        window = meet(window, moved(one["output"], x, y))
        for quad in one["quads"]:
            self.weight += 1
            if self.weight > MOST_WEIGHT:
                raise TooMuch
            material = quad["material"]
            if material["kind"] in ("pass", "surface"):
                self.inner(path, s, quad, material, x + quad["offset"][0], y + quad["offset"][1],
                           seen(window, quad, x, y))

    def inner(self, path, s, quad, material, x, y, window):
        """What a pass quad or a surface quad draws; x, y is the origin of the quad's space."""
        x, y = x + quad["area"][0], y + quad["area"][1]
        if material["kind"] == "pass":
            one = s.passes[material["pass"]]
            self.pass_(path, s, one, x - one["output"][0], y - one["output"][1], window)
            return
        shown = self.range(material["surface"], window)
        if shown and shown.surface not in path:
            self.enter(path, shown, x, y, window)

    def range(self, span, window):
        """The submission that a range shows; claims the window if the range shows another surface than
        before."""
        shown = self.world.shown(span)
        name = shown.surface.id if shown else None
        self.ranges.setdefault(span, name)
        if not self.all:
            if span not in self.last.ranges:
                self.claim(Claim("new", window, span=span))
            elif self.last.ranges[span] is None:
                self.claim(Claim("none", window, span=span))
            elif self.last.ranges[span] != name:
                self.claim(Claim("other", window, shown, span=span, then=self.last.ranges[span]))
        return shown


def seen(window, quad, x, y):
    """The part of the display in which a quad of a pass is seen."""
    part = meet(window, moved(quad["visible"], x + quad["offset"][0], y + quad["offset"][1]))
    return part if quad["clip"] is None else meet(part, moved(quad["clip"], x, y))
