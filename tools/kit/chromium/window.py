"""The browser's own frame: the page, and popups in front of it. Its quads and its damage are not in the
trace, but what it embeds is told by name, and where a popup is can be read off the drawings."""

from ..shapes import EMPTY, bound, meet

WHITE = (255, 255, 255, 255)


class Window:
    """What the browser's frames show. `popups` are the sinks that are drawn together with one that
    was embedded before, with their places and the time of the last such drawing."""

    def __init__(self, read, capture):
        self.size, self.windows, self.popups = capture.size, capture.windows, {}
        self.areas = []                 # where the last frame had quads: a change of them is its damage
        drawings = [(step.ts, [quad for one in step.passes for quad in one["quads"]])
                    for step in read.steps if step.kind == "draw"]
        drawn = {sink for _, quads in drawings for sink, _ in quads}
        told = read.embedded()
        self.embedded = [one for one in told if one[1][0] in drawn] or told
        for ts, (sink, _) in self.embedded:
            if sink not in self.popups:
                earlier = {one for before, (one, _) in self.embedded if before < ts} - {sink}
                self.popup(sink, earlier, [one for one in drawings if one[0] > ts])

    def popup(self, sink, earlier, drawings):
        """Notes a sink if it is a popup over earlier ones."""
        for ts, quads in drawings:
            sinks = {one for one, _ in quads}
            if sink in sinks and (sinks & earlier or sink in self.popups):
                place = bound([rect for one, rect in quads if one == sink])
                self.popups[sink] = bound([self.popups.get(sink, (EMPTY,))[0], place]), ts

    def sinks(self):
        return {sink for _, (sink, _) in self.embedded}

    def frame(self, ts):
        """The pass of a frame that came at a time: popups that are still drawn later, and the page."""
        latest = {shown[0]: shown for before, shown in self.embedded if before <= ts}
        area = next((0, 0, *one) for before, *one in reversed(self.windows) if before <= ts)
        quads = [self.quad(shown, self.popups[sink][0]) for sink, shown in reversed(latest.items())
                 if sink in self.popups and ts < self.popups[sink][1]]
        pages = [shown for sink, shown in latest.items() if sink not in self.popups]
        newest = [shown for before, shown in self.embedded if before <= ts and shown in pages][-1:]
        quads += [self.quad(shown, area) for shown in newest]
        areas = [quad["area"] for quad in quads]
        damage = bound([one for one in areas + self.areas if (one in areas) != (one in self.areas)])
        self.areas = areas
        return {"id": 1, "output": (0, 0, *self.size), "damage": meet(damage, (0, 0, *self.size)),
                "quads": quads}

    @staticmethod
    def quad(shown, area):
        return {"offset": (0, 0), "area": area, "visible": area, "clip": None, "opacity": 255,
                "blend": 0, "material": {"kind": "surface", "surface": (None, shown),
                                         "background": WHITE}}
