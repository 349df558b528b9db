"""What a run was, as plain lists that a page can show: entries, submissions, surfaces, resources and
drawings with the places of the entries at which each changed. The machine of `machine` follows the log,
so the log must be its files'."""

import json

from . import names
from .machine import replay
from .occlusion import Flattener, removed
from .picture import stale


def number(place):
    return -1 if place is None else place


class Table:
    """Values, each kept once; `place` is where a value is kept."""

    def __init__(self):
        self.values, self.places = [], {}

    def place(self, value):
        key = json.dumps(value)
        if key not in self.places:
            self.places[key] = len(self.values)
            self.values.append(value)
        return self.places[key]


class Names:
    """Names of surfaces and ranges, by the names of the clients."""

    def __init__(self, files, clients):
        self.sinks = {file["sink"]: name for file, name in zip(files, clients)}

    def surface(self, value):
        sink = self.sinks.get(value[0]) or names.sink_text(value[0])
        return "%s/%s" % (sink, names.local_text(value[1]))

    def span(self, value):
        start, end = value
        return (self.surface(start) + " .. " if start else "") + self.surface(end)


class Recorder:
    """Goes along a replay; `run` gives what was recorded."""

    def __init__(self, log, files, clients, size, buffers):
        self.names, self.size, self.buffers = Names(files, clients), size, buffers
        self.contents, self.tokens, self.sinks = Table(), Table(), Table()
        self.draws, self.roots, self.relations = [], [], []
        self.begins, self.answers = [[] for _ in files], [[] for _ in files]
        self.resources, self.before = [[] for _ in files], [(None, 0)] * len(files)
        self.flattener = None
        self.machine = replay(log, files, size, self.seen)

    def seen(self, machine, entry):
        at, world = machine.at, machine.world
        for client, before in zip(world.clients, self.before):
            if client.delivered != before[0]:
                self.begins[client.number - 1].append([at, client.delivered or 0])
            if client.answered != before[1]:
                self.answers[client.number - 1].append([at, client.answered])
        self.before = [(client.delivered, client.answered) for client in world.clients]
        if entry.reply == "rooted":
            self.roots.append([at, self.id(world.root)])
        elif entry.reply == "joined":
            self.relations.append([at, *(self.sinks.place(sink) for sink in world.relations[-1])])
        elif entry.event == "draw":
            self.draw(machine, entry)
        self.lending(machine, entry)

    def lending(self, machine, entry):
        """Notes each resource whose numbers changed."""
        changed = {(c, r) for kind, c, r, *_ in entry.effects if kind == "<"}
        client = machine.world.clients[entry.client - 1] if entry.client else None
        message = client.messages[client.taken - 1] if client else None
        if entry.reply == "accepted":
            changed |= {(entry.client, one["id"]) for one in message["resources"]}
        elif entry.reply == "stored":
            changed.add((entry.client, message["id"]))
        elif entry.reply == "reclaimed":
            changed |= {(entry.client, r) for r, _ in entry.items}
        for number_, r in sorted(changed):
            one = machine.world.clients[number_ - 1].resources[r]
            self.resources[number_ - 1].append([machine.at, r, *one.size, one.lent, one.queued, one.reclaimed])

    def draw(self, machine, entry):
        claims, items = [], [0, 0]
        if entry.reply == "drawn":
            self.flattener = self.flattener or Flattener(machine.world)
            claims = [self.claim(claim) for claim in machine.drawing.claims]
            items = list(removed(self.flattener.display(self.size)))
        self.draws.append([machine.at, entry.reply, list(entry.numbers), claims, items])

    def claim(self, claim):
        return [claim.kind, said(claim, self.names), list(claim.rect)]

    # ---------------------------------------------------------------- as lists

    def id(self, surface):
        """A surface's id: its sink's place, its two numbers, its token's place."""
        sink, (parent, child, token) = surface
        return [self.sinks.place(sink), parent, child, self.tokens.place(str(token))]

    def span(self, span):
        return [self.id(span[0]) if span[0] else 0, self.id(span[1])]

    def quad(self, quad):
        m = quad["material"]
        given = {"solid": lambda: [list(m["solid"])], "tile": lambda: [m["tile"], m["tx"], m["ty"]],
                 "surface": lambda: [self.span(m["surface"]), list(m["background"])],
                 "pass": lambda: [m["pass"]]}[m["kind"]]()
        visible = 0 if quad["visible"] == quad["area"] else quad["visible"]
        return [quad["offset"], quad["area"], visible, quad["clip"] or 0, quad["opacity"], quad["blend"], m["kind"], given]

    def content(self, frame):
        """The place of a frame's content."""
        return self.contents.place([
            [[one["id"], one["output"], one["damage"], [self.quad(q) for q in one["quads"]]] for one in frame["passes"]],
            [self.span(span) for span in frame["references"]], [self.id(d) for d in frame["dependencies"]],
            [[r["id"], r["w"], r["h"]] for r in frame["resources"]],
            frame["answers"], frame["token"], number(frame["deadline"])])

    def run(self):
        world = self.machine.world
        surfaces = {surface: place for place, surface in enumerate(world.surfaces)}
        rects = [numbers for _, reply, numbers, *_ in self.draws if reply == "drawn"]
        return {
            "size": self.size, "buffers": self.buffers,
            "surfaces": [[s.client.number, self.names.surface(s.id), *s.size, s.at, s.born, number(s.named_at),
                          number(s.marked_at), number(s.destroyed_at), self.id(s.id)] for s in world.surfaces],
            "subs": [[s.client.number, s.ordinal, surfaces[s.surface], s.index, self.content(s.frame), s.at,
                      number(s.active_at), number(s.ended_at), int(s.state == "dropped"), number(s.fed_at),
                      int(bool(s.presented)), s.due, int(s.why is not None)] for s in world.subs],
            "roots": self.roots, "relations": self.relations, "draws": self.draws,
            "stale": [list(rect) for rect in stale(rects, self.buffers, self.size)] if rects else [],
            "closed": [number(c.closed_at) for c in world.clients], "begins": self.begins, "answers": self.answers,
            "resources": self.resources, "own": [self.sinks.place(c.sink) for c in world.clients],
            "contents": self.contents.values, "tokens": self.tokens.values, "sinks": self.sinks.values,
        }


def said(claim, named):
    """Why a rectangle is repainted, in words."""
    if claim.kind == "first":
        return "first drawing: the whole display"
    if claim.kind == "root":
        return "the root is another surface than at the last drawing: the whole display"
    if claim.kind == "damage":
        s, first = claim.submission, claim.submission.surface.frames[claim.since].ordinal
        frames = "frame %d" % s.ordinal if first == s.ordinal else "frames %d to %d" % (first, s.ordinal)
        return "%s: its damage of %s" % (named.surface(s.surface.id), frames)
    head = "%s: the range " % named.span(claim.span)
    if claim.kind == "new":
        return head + "was not met at the last drawing"
    if claim.kind == "none":
        return head + "showed no surface at the last drawing"
    now = claim.submission
    return head + "showed %s at the last drawing and now shows %s" % (
        named.surface(claim.then), named.surface(now.surface.id) if now else "no surface")
