"""Replays a recording with the program, and judges what came out beside Chromium's own: the pictures,
the damage of each drawing, the order of activations and of destroyed surfaces, and hits."""

from collections import Counter
from typing import NamedTuple

from .. import calling, hits, log as logs, png
from ..machine import replay
from ..painter import Canvas, Painter
from ..shapes import EMPTY, bound
from ..walk import Drawing, TooMuch
from ..wrong import Wrong, file
from .skia import Skia

EQUAL, ROUNDED, DIFFERS = "equal", "equal by Skia's arithmetic", "differs"


class Picture(NamedTuple):
    """A round: what its picture is beside Chromium's, and more about it."""
    number: int
    why: str
    verdict: str
    said: str


class Damage(NamedTuple):
    """A drawing whose damages differ: Chromium's, ours, and why they do."""
    number: int
    theirs: tuple
    ours: tuple
    why: str


class Fallbacks(Drawing):
    """A walk that notes where ranges show no surface, or another than the one that they end with."""

    def __init__(self, world, size):
        self.windows = []
        super().__init__(world, size)

    def range(self, span, window):
        shown = super().range(span, window)
        if shown is None or shown.surface.id != span[1]:
            self.windows.append(window)
        return shown


class Names(Painter):
    """Notes the quads that are laid on a rectangle, the last one in front."""

    def __init__(self, world):
        super().__init__(world)
        self.found = []

    def quad(self, canvas, path, s, quad, x, y, part):
        if quad["material"]["kind"] != "surface":
            place = next((at, number) for at, one in enumerate(s.frame["passes"], 1)
                         for number, other in enumerate(one["quads"], 1) if other is quad)
            self.found.append((s, *place, quad))
        super().quad(canvas, path, s, quad, x, y, part)


def difference(a, b):
    """How many pixels of two pictures differ, by how much at most, and the first place."""
    if a == b:
        return 0, 0, None
    places = [k for k, (p, q) in enumerate(zip(memoryview(a).cast("I"), memoryview(b).cast("I")))
              if p != q]
    most = max(max(abs(p - q) for p, q in zip(a[k * 4:k * 4 + 4], b[k * 4:k * 4 + 4]))
               for k in places)
    return len(places), most, places[0]


def cut(frame, wide, w, h):
    """The top left part of a frame: Chromium's picture is as large as the page, which may be less
    than the window."""
    return b"".join(frame[row * wide * 4:(row * wide + w) * 4] for row in range(h))


def covered(picture, wide, quads):
    """A picture without what is under some quads: Chromium's picture is the page's, without popups."""
    made = bytearray(picture)
    for x, y, w, h in (quad["area"] for quad in quads):
        for row in range(y, min(y + h, len(picture) // 4 // wide)):
            start, end = (row * wide + max(0, x)) * 4, (row * wide + min(wide, x + w)) * 4
            made[start:end] = bytes(end - start)
    return bytes(made)


class Judge:
    """Judges a recording whose `frames` and `log` stand in a folder."""

    def __init__(self, recording, out):
        self.recording, self.out, self.events = recording, out, recording.events
        with file(out / "log"):
            self.log = logs.read((out / "log").read_bytes())
        self.pictures, self.damages, self.same, self.drawn = [], [], 0, 0
        self.draws, self.rounds = self.events.of("draw"), self.events.of("round")
        self.frame = None
        self.places = {quad["area"] for one in recording.submits[0] for quad in one["passes"][-1]["quads"]}
        self.left_out = {tuple(map(int, one.given[0].split("."))) for one in self.events.of("outside")}
        with file(out / "frames"), open(out / "frames", "rb") as self.frames:
            replay(self.log, recording.files, recording.size, self.seen)

    def seen(self, machine, entry):
        """Goes along the log."""
        if entry.event != "draw":
            return
        self.drawn += 1
        w, h = self.recording.size
        if entry.reply == "drawn":
            self.frame = self.frames.read(w * h * 4)
        self.damage(machine, entry.numbers if entry.reply == "drawn" else EMPTY)
        for one in self.rounds:
            if one.at == machine.at + 2 or self.until(one) == self.drawn:
                self.picture(machine.world, one)

    def until(self, one):
        """How many drawings come before a round's picture."""
        return sum(draw.at < one.at for draw in self.draws)

    # ---------------------------------------------------------------- damage

    def damage(self, machine, ours):
        given = self.draws[self.drawn - 1].given
        theirs = EMPTY if given == ["nothing"] else tuple(map(int, given))
        if theirs == ours:
            self.same += 1
            return
        why = "not explained"
        if machine.world.root and machine.drawing:
            windows = self.fallbacks(machine.world)
            if windows and bound([ours, *windows]) == theirs:
                why = "a range shows a fallback or nothing"
            elif theirs in self.places and self.browser():
                why = "the browser's own frame, whose damage the trace does not have"
            elif any(s.name in self.left_out for s in machine.drawing.entered):
                why = "what the message files leave out"
        self.damages.append(Damage(self.drawn, theirs, ours, why))

    def browser(self):
        """Whether a frame of the browser came since the last drawing."""
        since = self.draws[self.drawn - 2].at if self.drawn > 1 else 0
        return any(one.given[0].startswith("1.") and since <= one.at <= self.draws[self.drawn - 1].at
                   for one in self.events.of("commit"))

    def fallbacks(self, world):
        try:
            return Fallbacks(world, self.recording.size).windows
        except TooMuch:
            return []

    # ---------------------------------------------------------------- pictures

    def picture(self, world, one):
        number, name, why = one.given
        if name == "-":
            self.pictures.append(Picture(int(number), why, "no picture", ""))
            return
        with file(self.recording.folder / name):
            w, h, shot = png.read((self.recording.folder / name).read_bytes())
        if self.frame is None or w > self.recording.size[0] or h > self.recording.size[1]:
            self.pictures.append(Picture(int(number), why, DIFFERS, "its size is %d by %d" % (w, h)))
            return
        popups = world.active_on(world.root).root["quads"][:-1]
        ours, shot = (covered(one, w, popups) for one in
                      (cut(self.frame, self.recording.size[0], w, h), shot))
        (self.out / name.replace("chromium", "viz")).write_bytes(png.write(w, h, ours))
        many, most, first = difference(ours, shot)
        if not many:
            self.pictures.append(Picture(int(number), why, EQUAL, ""))
            return
        said = "%d pixels by at most %d" % (many, most)
        made = covered(Skia(world).picture(self.recording.size, (0, 0, w, h)).bytes(), w, popups)
        many, most, first = difference(made, shot)
        if many:
            said += "; by Skia's arithmetic %d by at most %d, the first at (%d, %d), %s" % (
                many, most, first % w, first // w, self.named(world, first % w, first // w))
        self.pictures.append(Picture(int(number), why, DIFFERS if many else ROUNDED, said))

    def named(self, world, x, y):
        """What is in front at a point: the client, its frame, the quad."""
        names = Names(world)
        s = world.active_on(world.root)
        canvas = Canvas((x, y, 1, 1), bytes(4))
        names.pass_(canvas, (s.surface,), s, s.root, 0, 0, canvas.rect)
        if not names.found:
            return "where no quad is"
        s, place, number, quad = names.found[-1]
        return "in front %s's frame %d, pass %d, quad %d (%s)" % (
            self.recording.names[s.client.number - 1], s.ordinal, place, number,
            quad["material"]["kind"])

    # ---------------------------------------------------------------- orders

    def order(self, word, sign):
        """Chromium's order of activations or of destroyed surfaces, and ours."""
        theirs = [tuple(map(int, one.given[0].split("."))) for one in self.events.of(word)]
        ours = [tuple(who[:2]) for entry in self.log.entries for kind, *who in entry.effects
                if kind == sign]
        return theirs, ours

    def destroyed(self):
        """The same for destroyed surfaces. One step lists them by client, whatever their order in
        Chromium, so each step takes its own from Chromium's in any order."""
        theirs, ours = self.order("destroyed", "x")
        steps = [[tuple(who) for kind, *who in entry.effects if kind == "x"] for entry in self.log.entries]
        place, made = 0, []
        for step in steps:
            made += sorted(theirs[place:place + len(step)])
            place += len(step)
        return made + theirs[place:], ours

    def refused(self):
        return [entry for entry in self.log.entries if entry.reply == "refused"]


def hit(viz, recording):
    """For each press: the point, the client that Chromium names with the point in it, and ours."""
    found = []
    for (x, y), at, name in recording.events.presses:
        words = ["hit", *recording.size, recording.folder / "schedule", x, y, *recording.parts]
        ours = hits.surface(calling.call(viz, list(map(str, words))))
        client = None
        if ours:
            sinks = [sink for sink, _ in recording.events.clients]
            client = recording.names[sinks.index(ours[0][0])]
        found.append(((x, y), (name, at), (client, ours[1] if ours else None)))
    return found


def run(viz, recording, out):
    """Replays a recording with the program; what `check` says of it."""
    out.mkdir(parents=True, exist_ok=True)
    rest = [out / "frames", out / "log", *recording.parts]
    size = recording.size
    calling.call(viz, list(map(str, ["step", *size, recording.folder / "schedule", *rest])))
    try:
        return calling.call(viz, list(map(str, ["check", *size, *rest])))
    except Wrong as wrong:
        return str(wrong)


def judgement(viz, recording, out):
    """Replays a recording into a folder and judges it, in lines."""
    checked = run(viz, recording, out)
    yield from said(recording, checked, Judge(recording, out), hit(viz, recording))


# ---------------------------------------------------------------- in words


def said(recording, checked, judge, found):
    """The judgement as lines."""
    events, sizes = recording.events, [one.stat().st_size for one in recording.parts]
    yield "%s: %d by %d, %s pace, %s" % (events.page, *events.size, events.pace, events.browser)
    frames = Counter(int(one.given[0].split(".")[0]) for one in events.of("commit"))
    for number, name in enumerate(recording.names, 1):
        yield "client %d: %s, %d frames, %d bytes" % (number, name, frames[number], sizes[number - 1])
    if events.tiles == "layers":
        yield "tiles: their memory could not be read, so they are what their layers paint"
    for what, many in (*events.counts.items(), *events.notes.items()):
        yield "%d %s" % (many, what)
    outside = Counter(one.given[3].partition(":")[0] for one in events.of("outside"))
    for what, many in outside.items():
        first = next(one.given for one in events.of("outside") if one.given[3].startswith(what))
        yield "outside, %d times: %s, first %s pass %s quad %s%s" % (
            many, what, *first[:3], first[3][len(what):])
    yield "check: %s" % checked
    for entry in judge.refused()[:5]:
        yield "refused: %s" % logs.text(entry)
    yield "activations: %s" % ordered(*judge.order("active", "+"))
    yield "destroyed surfaces: %s" % ordered(*judge.destroyed())
    yield "damage: %d drawings the same, %d others" % (judge.same, len(judge.damages))
    for one in judge.damages:
        yield "damage of drawing %d: Chromium %s, viz %s: %s" % (
            one.number, shown(one.theirs), shown(one.ours), one.why)
    for one in judge.pictures:
        yield "picture %d, %s: %s" % (one.number, one.why,
                                      one.verdict + (" (%s)" % one.said if one.said else ""))
    if found:
        yield from pressed(found)


def shown(rect):
    return "%d,%d %dx%d" % rect if rect != EMPTY else "none"


def ordered(theirs, ours):
    if theirs == ours:
        return "%d in Chromium's order" % len(ours)
    place = next((k for k, (a, b) in enumerate(zip(theirs, ours)) if a != b),
                 min(len(theirs), len(ours)))
    return "another order from place %d on: Chromium %s (of %d), viz %s (of %d)" % (
        place + 1, ["%d.%d" % one for one in theirs[place:place + 3]], len(theirs),
        ["%d.%d" % one for one in ours[place:place + 3]], len(ours))


def pressed(found):
    same = sum(theirs == ours for _, theirs, ours in found)
    yield "hits: %d of %d presses the same" % (same, len(found))
    table = Counter((theirs[0], ours[0]) for _, theirs, ours in found if theirs != ours)
    for (theirs, ours), many in table.most_common():
        first = next(one for one in found if (one[1][0], one[2][0]) == (theirs, ours)
                     and one[1] != one[2])
        yield "hits: at %d points Chromium's is %s and ours %s, first at %s" % (
            many, theirs, ours, "%d,%d" % first[0])
