"""From a capture to a recording: the message file of each frame sink, the schedule, and the text of
Chromium's events."""

from collections import Counter, OrderedDict

from .. import names, wire
from ..wrong import Wrong
from . import events, trace
from .frames import Frames
from .tiles import Tiles
from .window import Window

BEGIN, DRAW, DONE = 0x11, 0x12, 0x13
MOST_CLIENTS, MOST_EVENTS = 16, 65536


class Client:
    """A frame sink with its messages."""

    def __init__(self, number, sink, name):
        self.number, self.sink, self.name = number, sink, name
        self.messages, self.uploads, self.submits, self.rooted = [], 0, 0, None
        self.surfaces = []              # as the trace names them, in the order of their creation
        self.last = {}                  # the number of the last frame of each

    def tell(self, kind, **given):
        self.messages.append({"kind": kind, **given})

    def upload(self, w, h, pixels):
        self.uploads += 1
        self.tell("upload", id=self.uploads, size=(w, h), pixels=pixels)
        return self.uploads

    def file(self):
        """The bytes of the message file; in the first format if no quad has a mode."""
        blends = any(quad["blend"] for message in self.messages if message["kind"] == "submit"
                     for one in message["passes"] for quad in one["quads"])
        try:
            return wire.write({"format": 2 if blends else 1, "sink": self.sink,
                               "messages": self.messages})
        except Wrong as wrong:
            raise Wrong("client %d, %s, is over a limit of message files: %s; record fewer steps "
                        "or a smaller window" % (self.number, self.name, wrong)) from None


def displayed(steps, reached, silent):
    """The steps that concern the display of the browser's sink and of what it shows: those of the
    sinks that these reach, but those whose frames the trace does not have, and the drawings that
    have quads of no other."""
    for step in steps:
        if step.kind == "commit" and step.sink in reached and step.snapshot:
            for one in step.snapshot["args"]["snapshot"]["passes"]:
                for quad in one.get("quad_list", []):
                    if "surface_range" in quad:
                        reached |= {sink for sink, _ in trace.surfaces(quad["surface_range"])}

    def concerns(step):
        if step.kind == "draw":
            return all(sink in reached for one in step.passes for sink, _ in one["quads"])
        return step.sink is None or step.sink in reached - silent
    return [step for step in steps if concerns(step)]


def settled(steps, sinks):
    """The steps of a controlled recording. Which of several clients' frames comes first between two
    events of the display is chance, so those that become active at once are put in the order of the
    clients."""
    pairs = []
    for step in [*steps, None]:
        if step and step.kind == "commit":
            pairs.append([step])
        elif step and step.kind == "active" and pairs and pairs[-1][0].surface == step.surface:
            pairs[-1].append(step)
        else:
            if all(len(pair) == 2 for pair in pairs):
                pairs.sort(key=lambda pair: sinks.index(pair[0].sink))
            yield from (one for pair in pairs for one in pair)
            pairs = []
            if step:
                yield step


class Build:
    """The recording of a capture: `clients`, `schedule`, and `told`, the lines of its events."""

    def __init__(self, capture):
        self.counts, self.notes, self.capture = Counter(), Counter(), capture
        self.trace = trace.Trace(capture.events, self.notes)
        self.frames = Frames(Tiles(capture.rounds, self.counts, self.notes), self.counts, self.notes)
        self.schedule, self.told, self.took = bytearray(), [], []
        self.joined, self.tokens, self.ticks, self.drawn = set(), {}, 0, 0
        self.window = Window(self.trace, capture)
        told = {step.sink for step in self.trace.steps if step.snapshot}
        made = {step.sink for step in self.trace.steps if step.kind == "commit"}
        self.silent = made - told - {self.root()}
        steps = displayed(self.trace.steps, {self.root(), *self.window.sinks()}, self.silent)
        self.start = steps[0].ts if steps else 0
        self.clients = self.sinks(steps)
        self.head()
        for step in self.merged(steps):
            getattr(self, step.kind)(step)
        self.rest()
        if len(self.schedule) > MOST_EVENTS:
            raise Wrong("%d events, more than the %d of a schedule; record fewer steps"
                        % (len(self.schedule), MOST_EVENTS))

    def root(self):
        """The browser's own sink: of two windows that which makes more frames."""
        many = Counter(step.sink for step in self.trace.steps
                       if step.kind == "commit" and step.sink[0] == 0)
        if not many:
            raise Wrong("the trace has no frame of the browser")
        return many.most_common(1)[0][0]

    def sinks(self, steps):
        """The clients in the order of their first frames, the browser first."""
        found = OrderedDict.fromkeys([self.root()])
        found.update((step.sink, None) for step in steps if step.kind == "commit")
        if len(found) > MOST_CLIENTS:
            raise Wrong("%d frame sinks, more than the %d clients of a run"
                        % (len(found), MOST_CLIENTS))
        parts, taken, made = parts_of(self.trace, steps), Counter(), {}
        for number, sink in enumerate(found, 1):
            name = parts[sink][1].replace(" ", "_") if sink in parts else "client"
            name = "browser" if number == 1 else name
            taken[name] += 1
            more = "" if taken[name] == 1 else "-%d" % taken[name]
            made[sink] = Client(number, sink, name + more)
        self.named = {parts[sink][0]: made[sink].name for sink in found if sink in parts}
        return made

    def head(self):
        capture = self.capture
        self.told += [events.HEAD, "browser " + capture.version,
                      "page " + capture.page.rpartition("/")[2],
                      "display %d %d" % capture.size,
                      "pace " + ("free" if capture.free else "controlled"),
                      "tiles " + ("memory" if capture.readable else "layers")]
        self.told += ["client %d %s %s" % (one.number, names.sink_text(one.sink), one.name)
                      for one in self.clients.values()]

    def merged(self, steps):
        """The steps, the destroyed surfaces and the rounds, by time."""
        more = [trace.Step("destroyed", ts, sink=sink, local=own)
                for (sink, own), ts in self.trace.destroyed() if sink in self.clients]
        more += [trace.Step("round", one.stop, why=one.why, number=number, shot=one.shot)
                 for number, one in enumerate(self.capture.rounds, 1)]
        found = sorted(steps + more, key=lambda step: step.ts)
        return found if self.capture.free else list(settled(found, list(self.clients)))

    def tell(self, step, word, *given):
        """A line of the events: after how many events of the schedule it is, the tick, if the pace
        is free the milliseconds, and what happened."""
        at = "%.1f" % ((step.ts - self.start) / 1000) if self.capture.free else "-"
        self.told.append(" ".join(map(str, (len(self.schedule), self.ticks, at, word, *given))))

    # ---------------------------------------------------------------- steps

    def begin(self, _step):
        self.ticks += 1
        self.schedule.append(BEGIN)

    def draw(self, step):
        self.drawn += 1
        self.took.append(step.took)
        damage = step.passes[-1]["damage"] if step.passes else None
        shown = damage if damage and damage[2] and damage[3] else ("nothing",)
        self.tell(step, "draw", *shown)
        self.schedule += bytes([DRAW, DONE])

    def closed(self, step):
        client = self.clients.get(step.sink)
        if client:
            client.tell("close")
            self.tell(step, "closed", client.number)
            self.schedule.append(client.number)

    def active(self, step):
        """Not told of a frame that came before the trace began."""
        client = self.clients.get(step.sink)
        name = client and client.surfaces and client.last.get(step.local)
        if name:
            self.tell(step, "active", "%d.%d" % (client.number, name),
                      "met" if step.met else "deadline")

    def destroyed(self, step):
        client = self.clients[step.sink]
        if step.local in client.surfaces:
            place = client.surfaces.index(step.local) + 1
            self.tell(step, "destroyed", "%d.%d" % (client.number, place))

    def round(self, step):
        picture = "%02d-chromium.png" % step.number if step.shot else "-"
        self.tell(step, "round", step.number, picture, step.why)

    def commit(self, step):
        client, before = self.clients[step.sink], len(self.clients[step.sink].messages)
        if client.number == 1:
            made, passes, resources = None, [self.window.frame(step.ts)], []
        elif step.snapshot is None:
            self.notes["frames without a snapshot (left out)"] += 1
            return
        else:
            snapshot = step.snapshot["args"]["snapshot"]
            made = self.frames.frame(client, snapshot, self.round_of(step.ts))
            passes, resources = made.passes, made.resources
        spans = self.spans(passes)
        client.submits += 1
        client.last[step.local] = client.submits
        if step.local not in client.surfaces:
            client.surfaces.append(step.local)
        waits = [one for one in step.dependencies if one[0] not in self.silent]
        waits = list(OrderedDict.fromkeys(map(self.surface, waits)))
        client.tell("submit", local=self.local(step.local), token=0, answers=0,
                    deadline=step.deadline if waits else None, dependencies=waits,
                    references=spans, resources=resources, passes=passes)
        self.follow(client, step, spans)
        self.tell(step, "commit", "%d.%d" % (client.number, client.submits),
                  names.surface_text(self.surface(step.surface)))
        for one in waits:
            self.tell(step, "waits", "%d.%d" % (client.number, client.submits), names.surface_text(one))
        if made:
            made.outside.extend((0, 0, "a frame that waits for a sink without frames in the trace")
                                for one in step.dependencies if one[0] in self.silent)
            self.limits(step, client, made)
        self.schedule += bytes([client.number]) * (len(client.messages) - before)

    def follow(self, client, step, spans):
        """What a frame makes be said besides: the root, and who embeds whom."""
        if client.number == 1 and client.rooted != step.local:
            client.rooted = step.local
            client.tell("set-root", local=self.local(step.local))
        for _, (sink, _) in spans:
            if (client.sink, sink) not in self.joined and sink in self.clients:
                self.joined.add((client.sink, sink))
                client.tell("hierarchy", parent=client.sink, child=sink)

    def limits(self, step, client, made):
        """Tells what the message file leaves out of a frame, and what it rounds."""
        name = "%d.%d" % (client.number, client.submits)
        for place, number, what in made.outside:
            self.tell(step, "outside", name, place, number, what)
        for place, number, *given in made.exact:
            self.tell(step, "exact", name, place, number, *map(repr, given))

    def rest(self):
        """The presses of the mouse, and what was counted."""
        for x, y, session, at, down in self.capture.presses:
            name = self.named.get(session, "another")
            self.told.append("press %d %d %d %d %s" % (x, y, at, down, name))
        self.told += ["count %d %s" % (many, what) for what, many in sorted(self.counts.items())]
        self.told += ["note %d %s" % (many, what) for what, many in sorted(self.notes.items())]

    # ---------------------------------------------------------------- names

    def round_of(self, ts):
        rounds = self.capture.rounds
        return next((at for at, one in enumerate(rounds) if ts <= one.stop), len(rounds) - 1)

    def local(self, own):
        """Tokens are random in each run (and the trace has four digits of each), so they are
        numbered as they come."""
        parent, child, token = own
        return parent, child, self.tokens.setdefault(token, len(self.tokens) + 1)

    def surface(self, one):
        return one and (one[0], self.local(one[1]))

    def spans(self, passes):
        """The ranges of surface quads, each named once; their surfaces get their numbers."""
        found = OrderedDict()
        for quad in (quad for one in passes for quad in one["quads"]):
            material = quad["material"]
            if material["kind"] == "surface":
                material["surface"] = tuple(map(self.surface, material["surface"]))
                found[material["surface"]] = None
        return list(found)


def parts_of(read, steps):
    """The part of the page that each sink shows, as (session, address): one whose process made the
    sink's frames, and which has the size of the first of them."""
    marks, found = list(read.marks()), {}
    for step in steps:
        passes = step.snapshot["args"]["snapshot"]["passes"] if step.snapshot else []
        if step.kind != "commit" or not passes or step.sink in found:
            continue
        process, size = step.snapshot["pid"], tuple(passes[-1]["output_rect"][2:])
        near = [(sides != size, (session, name) in found.values(), session, name)
                for _, pid, session, sides, name in marks if pid == process]
        if near:
            found[step.sink] = min(near)[2:]
    return found
