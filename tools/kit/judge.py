"""Judges a log and its frames by the clients' files as `check` does, and says why. A `Verdict` has the
entry, the word that `check` prints, and sentences."""

from . import log as logs
from .machine import Machine
from .painter import Painter, dishonest
from .picture import stale
from .shapes import bound
from .wrong import Wrong


class Verdict:
    def __init__(self, entry, what, said, pixels=None):
        self.entry, self.what, self.said, self.pixels = entry, what, said, pixels


class Pixels:
    """A frame that differs: its number, and what is found and expected."""

    def __init__(self, number, found, expected, size):
        self.number, self.found, self.expected, self.size = number, found, expected, size

    def differing(self):
        """The points that differ, as places."""
        found, expected = memoryview(self.found).cast("I"), memoryview(self.expected).cast("I")
        return [k for k, (a, b) in enumerate(zip(found, expected)) if a != b]


class Judge:
    """Goes along a log, entry by entry, until something is wrong."""

    def __init__(self, lines, frames, files, size, names):
        self.lines, self.frames, self.files, self.size, self.names = lines, frames, files, size, names
        self.machine, self.damages, self.drawn = Machine(files, size), [], 0

    def verdict(self):
        """The first fault, or None."""
        for place, line in enumerate(self.lines, 1):
            if logs.HELD.fullmatch(line) or logs.OPEN.fullmatch(line) or line in ("end", ""):
                return self.rest(place)
            try:
                found = logs.entry(line)
            except Wrong as wrong:
                return Verdict(place, "LogText", ["line %d is no entry: %s" % (place, wrong)])
            wrong = self.entry(place, found)
            if wrong:
                return wrong
        return Verdict(len(self.lines) + 1, "LogText", ["the line 'end' is missing"])

    def entry(self, place, found):
        """What is wrong with an entry, or None."""
        if found.client > len(self.files):
            return Verdict(place, "Reply", ["found:    " + self.lines[place - 1], "there are %d clients" % len(self.files)])
        client = self.machine.world.clients[found.client - 1] if found.client else None
        message = client.messages[client.taken]["kind"] if client and client.taken < len(client.messages) else None
        made = self.machine.step(found.event, found.client)
        if made != found:
            said = ["found:    " + self.lines[place - 1], "expected: " + logs.text(made)]
            if message:
                said.append("it is message %d of %s, %s" % (client.taken, self.names[found.client - 1], message))
            return Verdict(place, "Reply", said + self.causes(found, made))
        if found.reply == "drawn":
            return self.frame(place, found.numbers)
        return None

    def causes(self, found, made):
        """The likely causes of a wrong entry."""
        if found.reply != "drawn" or made.reply != "drawn":
            return []
        x, y, w, h = found.numbers
        if self.drawn == 0 and (x, y) == (0, 0) and (w, h) == self.size[::-1]:
            return ["likely cause: W and H are swapped; the first drawn frame has %d by %d pixels" % (w, h)]
        if self.drawn == 0 and (x, y) == (0, 0):
            return ["likely cause: the display is another one; the first drawn frame has %d by %d pixels" % (w, h)]
        return []

    def frame(self, place, damage):
        """Whether the next frame is the whole picture."""
        self.damages.append(damage)
        size = self.size[0] * self.size[1] * 4
        found = self.frames(self.drawn, size)
        self.drawn += 1
        expected = Painter(self.machine.world).picture(self.size).bytes()
        if found == expected:
            return None
        if len(found) < size:
            return Verdict(place, "Frame", ["frame %d: %d of its %d bytes are there" % (self.drawn, len(found), size)])
        pixels = Pixels(self.drawn, found, expected, self.size)
        places, w = pixels.differing(), self.size[0]
        points = [(k % w, k // w) for k in places]
        x, y = points[0]
        rect = bound([(a, b, 1, 1) for a, b in points])
        said = ["frame %d differs in %d of %d pixels, all within %d by %d at (%d, %d)"
                % (self.drawn, len(points), len(expected) // 4, *rect[2:], *rect[:2]),
                "the first is (%d, %d): found %s, expected %s" % (
                    x, y, colour(found, places[0]), colour(expected, places[0]))]
        return Verdict(place, "Frame", said + self.repainted(found, expected) + self.lies(place), pixels)

    def repainted(self, found, expected):
        """Whether the frame is what some number of buffers leaves."""
        counts = []
        for buffers in range(1, 5):
            if self.drawn > buffers:
                size = len(expected)
                made = bytearray(self.frames(self.drawn - 1 - buffers, size))
                x, y, w, h = stale(self.damages, buffers, self.size)[-1]
                for row in range(y, y + h):
                    start, end = (row * self.size[0] + x) * 4, (row * self.size[0] + x + w) * 4
                    made[start:end] = expected[start:end]
                if made == found:
                    counts.append(buffers)
        if not counts:
            return []
        return ["it is what %s buffer%s: outside the stale rectangle the frame has what its buffer had before" % (
            " or ".join(map(str, counts)), " leaves" if counts == [1] else "s leave")]

    def lies(self, place):
        """The clients whose damage does not cover what they changed."""
        told = []
        for s, (x, y) in dishonest(self.machine.world, place):
            told.append("a dishonest client: frame %d of %s changes pixel (%d, %d) of its surface, and its damage is only "
                        "%d by %d at (%d, %d)" % (s.ordinal, self.names[s.client.number - 1], x, y,
                                                  *s.root["damage"][2:], *s.root["damage"][:2]))
        more = ["and %d more such frames" % (len(told) - 3)] if len(told) > 3 else []
        return told[:3] + more

    def rest(self, place):
        """What is wrong behind the last entry, or None."""
        held, opened = self.machine.rest()
        try:
            read = logs.read(("\n".join(self.lines) + "\n").encode("ascii"))
        except Wrong as wrong:
            return Verdict(place, "LogText", [str(wrong)])
        said = []
        for name, found, made in (("held", set(read.held), set(held)), ("open", set(read.open), set(opened))):
            said += ["expected, and not found: " + logs.rest_text(name, one) for one in sorted(made - found)]
            said += ["found, and not expected: " + logs.rest_text(name, one) for one in sorted(found - made)]
        if said:
            return Verdict(place, "Rest", said)
        if self.frames(self.drawn, 1):
            return Verdict(place, "Length", ["bytes are left after the %d frames" % self.drawn])
        return None


def colour(data, place):
    return "#" + data[place * 4:place * 4 + 4].hex()
