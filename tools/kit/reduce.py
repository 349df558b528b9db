"""Makes a failing scene small: what can go from it goes, list by list, as long as a test says that it still fails.

A `Scene` is a display, events and message files. A candidate is a changed copy; `Reduction.takes` asks the test about
it, and keeps it if it still fails. `rounds` goes over everything until a whole round makes nothing smaller."""

import copy
import time

from . import show, wire
from .machine import Machine
from .words import STEPS, schedule_words
from .wrong import Wrong

RED = (255, 0, 0, 255)
PLAIN_FRAME = (("token", 0), ("answers", 0), ("deadline", None))
PLAIN_QUAD = (("clip", None), ("opacity", 255), ("blend", 0), ("offset", (0, 0)), ("material", {"kind": "solid", "solid": RED}))


class Scene:
    def __init__(self, display, events, files):
        self.display, self.events, self.files = tuple(display), list(events), files

    def copy(self):
        return Scene(self.display, self.events, copy.deepcopy(self.files))

    def bytes(self):
        """The bytes of its files; Wrong if it has a value that no file can have."""
        if not self.files or not self.events:
            raise Wrong("nothing is left")
        return self.display, bytes(self.events), tuple(map(wire.write, self.files))

    def text(self):
        return show.scene(self.files, schedule_words(bytes(self.events)), self.display)

    def frames(self):
        """Each frame, with its client's place and its own."""
        for client, file in enumerate(self.files):
            for place, message in enumerate(file["messages"]):
                if message["kind"] == "submit":
                    yield client, place, message

    def quads(self):
        """The way to each quad: the client, the message, the pass, the quad."""
        for client, place, frame in self.frames():
            for k, one in enumerate(frame["passes"]):
                yield from ((client, place, k, q) for q in range(len(one["quads"])))

    def size(self):
        messages = [m for file in self.files for m in file["messages"]]
        counts = (len(self.events), len(self.files), len(messages), sum(1 for _ in self.quads()),
                  sum(len(wire.write(file)) for file in self.files))
        return "%d events, %d clients, %d messages, %d quads, %d bytes" % counts


class OutOfTime(Exception):
    pass


class Reduction:
    """A scene that becomes smaller. `fails(scene)` says whether a scene still fails."""

    def __init__(self, scene, fails, seconds=None):
        self.scene, self.fails, self.tried, self.smaller = scene, fails, set(), 0
        self.end = None if seconds is None else time.monotonic() + seconds
        self.tries = 0

    def takes(self, candidate):
        """Takes a candidate if it still fails."""
        try:
            key = hash(candidate.bytes())
        except Wrong:
            return False
        if key in self.tried:
            return False
        if self.end is not None and time.monotonic() > self.end:
            raise OutOfTime
        self.tried.add(key)
        self.tries += 1
        if not self.fails(candidate):
            return False
        self.scene = candidate
        self.smaller += 1
        return True

    def fewest(self, items, without):
        """Leaves out of a list what can go: halves of it, then ever smaller parts, then each item. `without(kept, gone)`
        makes the candidate."""
        size = len(items)
        while size:
            at = 0
            while at < len(items):
                kept, gone = items[:at] + items[at + size:], items[at:at + size]
                if self.takes(without(kept, gone)):
                    items = kept
                else:
                    at += size
            size //= 2

    def least(self, value, least, changed):
        """Brings a number as near to `least` as it can be; `changed(number)` makes the candidate."""
        step = abs(value - least)
        while step:
            there = value - step if value > least else value + step
            if self.takes(changed(there)):
                value = there
                step = min(step, abs(value - least))
            else:
                step //= 2

    def rounds(self):
        """A sentence for each round, until one makes nothing smaller or time is over."""
        number = 0
        try:
            while True:
                number += 1
                before = self.smaller
                for reduce_part in (turns, clients, events, messages, parts, sizes, values):
                    reduce_part(self)
                yield "round %d: %s (%d tries)" % (number, self.scene.size(), self.tries)
                if self.smaller == before:
                    return
        except OutOfTime:
            yield "time is over in round %d: %s (%d tries)" % (number, self.scene.size(), self.tries)


# ---------------------------------------------------------------- events, messages, clients


def paired(scene):
    """Each event's place with the client and the place of the message that it takes, or None; then the messages that
    no event takes."""
    machine, pairs = Machine(scene.files, scene.display), []
    for at, code in enumerate(scene.events):
        if code in STEPS:
            machine.step(STEPS[code])
            pairs.append((at, None))
            continue
        client = machine.world.clients[code - 1]
        before = client.taken
        machine.step("c", code)
        pairs.append((at, (code - 1, before) if client.taken > before else None))
    left = [(None, (k, place)) for k, client in enumerate(machine.world.clients)
            for place in range(client.taken, len(client.messages))]
    return pairs + left


def turns(reduction):
    """Leaves out events, each together with the message that it takes."""
    whole = reduction.scene

    def without(kept, _gone):
        there = {pair for _, pair in kept}
        files = [{**file, "messages": [m for place, m in enumerate(file["messages"]) if (k, place) in there]}
                 for k, file in enumerate(whole.files)]
        return Scene(whole.display, [whole.events[at] for at, _ in kept if at is not None], copy.deepcopy(files))
    reduction.fewest(paired(whole), without)


def clients(reduction):
    """Leaves out clients, from the last on, with their events."""
    for gone in reversed(range(len(reduction.scene.files))):
        scene = reduction.scene
        events = [code - (gone + 1 < code <= 16) for code in scene.events if code != gone + 1]
        reduction.takes(Scene(scene.display, events, copy.deepcopy(scene.files[:gone] + scene.files[gone + 1:])))


def events(reduction):
    """Leaves out events alone, so that their messages come at other events or never."""
    def without(kept, _gone):
        scene = reduction.scene
        return Scene(scene.display, kept, copy.deepcopy(scene.files))
    reduction.fewest(list(reduction.scene.events), without)


def messages(reduction):
    """Leaves out messages alone, so that later ones come at their events."""
    for client in range(len(reduction.scene.files)):
        def without(kept, _gone, client=client):
            candidate = reduction.scene.copy()
            candidate.files[client]["messages"] = copy.deepcopy(kept)
            return candidate
        reduction.fewest(list(reduction.scene.files[client]["messages"]), without)


# ---------------------------------------------------------------- the parts of a frame


def drop_quads(frame, test):
    for one in frame["passes"]:
        one["quads"] = [q for q in one["quads"] if not test(q["material"])]


def dropped(frame, key, gone):
    """Takes what needs the things that went along with them: quads of a pass, a resource or a range."""
    kind, name = {"passes": ("pass", "id"), "resources": ("tile", "id"), "references": ("surface", None)}.get(key, (None, None))
    if kind:
        names = [one[name] if name else one for one in gone]
        drop_quads(frame, lambda m: m["kind"] == kind and m[kind] in names)


def parts(reduction):
    """Leaves out quads, passes, resources, references and dependencies of each frame."""
    for client, place, frame in list(reduction.scene.frames()):
        def changed(key, kept, gone, client=client, place=place):
            candidate = reduction.scene.copy()
            own = candidate.files[client]["messages"][place]
            own[key] = [one for one in own[key] if one not in gone]
            dropped(own, key, gone)
            return candidate
        for key in ("passes", "references", "resources", "dependencies"):
            now = reduction.scene.files[client]["messages"][place][key]
            reduction.fewest(list(now), lambda kept, gone, key=key: changed(key, kept, gone))
        for k in range(len(reduction.scene.files[client]["messages"][place]["passes"])):
            def without(kept, _gone, client=client, place=place, k=k):
                candidate = reduction.scene.copy()
                candidate.files[client]["messages"][place]["passes"][k]["quads"] = copy.deepcopy(kept)
                return candidate
            reduction.fewest(list(reduction.scene.files[client]["messages"][place]["passes"][k]["quads"]), without)


# ---------------------------------------------------------------- sizes and rectangles


def within(rect, outer):
    """A rectangle cut to another one; the empty one stays."""
    x, y = max(rect[0], outer[0]), max(rect[1], outer[1])
    w, h = (min(a + s, b + t) - c for a, s, b, t, c in zip(rect[:2], rect[2:], outer[:2], outer[2:], (x, y)))
    return (x, y, w, h) if w > 0 and h > 0 else (0, 0, 0, 0)


def put(values, place, number):
    return (*values[:place], number, *values[place + 1:])


def sizes(reduction):
    """Makes the display, surfaces, passes, resources and quads smaller, and brings them to the origin."""
    for axis in (0, 1):
        display(reduction, axis)
    for client, place, frame in list(reduction.scene.frames()):
        for k in range(len(frame["passes"])):
            for axis in (2, 3):
                output(reduction, client, place, k, axis)
    for client, file in enumerate(reduction.scene.files):
        for number in sorted({m["id"] for m in file["messages"] if m["kind"] == "upload"}):
            for axis in (0, 1):
                resource(reduction, client, number, axis)
    for way in list(reduction.scene.quads()):
        rectangles(reduction, way)


def display(reduction, axis):
    """Makes a side of the display smaller, with the frames that have it; then the display alone."""
    for with_frames in (True, False):
        value = reduction.scene.display[axis]

        def changed(number, with_frames=with_frames):
            candidate = reduction.scene.copy()
            for _, _, frame in candidate.frames() if with_frames else ():
                for one in frame["passes"]:
                    if one["output"][2 + axis] == candidate.display[axis]:
                        cut_output(one, 2 + axis, number)
            candidate.display = put(candidate.display, axis, number)
            return candidate
        reduction.least(value, 1, changed)


def cut_output(one, axis, number):
    one["output"] = put(one["output"], axis, number)
    one["damage"] = within(one["damage"], one["output"])


def output(reduction, client, place, k, axis):
    """Makes a side of a pass smaller; of a root pass in all frames of its surface."""
    frame = reduction.scene.files[client]["messages"][place]
    if not frame["passes"][k]["output"][axis]:
        return
    is_root = k == len(frame["passes"]) - 1

    def changed(number):
        candidate = reduction.scene.copy()
        for own, at, other in candidate.frames():
            if is_root and own == client and other["local"] == frame["local"] and other["passes"]:
                cut_output(other["passes"][-1], axis, number)
            elif not is_root and (own, at) == (client, place):
                cut_output(other["passes"][k], axis, number)
        return candidate
    reduction.least(frame["passes"][k]["output"][axis], 1, changed)


def resource(reduction, client, number, axis):
    """Makes a side of a resource smaller, in its uploads, its lists and its tiles."""
    def changed(side):
        candidate = reduction.scene.copy()
        for message in candidate.files[client]["messages"]:
            if message["kind"] == "upload" and message["id"] == number:
                crop(message, put(message["size"], axis, min(side, message["size"][axis])))
            for listed in message["resources"] if message["kind"] == "submit" else ():
                if listed["id"] == number:
                    listed["wh"[axis]] = min(side, listed["wh"[axis]])
                    cut_tiles(message, listed)
        return candidate
    first = next(m for m in reduction.scene.files[client]["messages"] if m["kind"] == "upload" and m["id"] == number)
    reduction.least(first["size"][axis], 1, changed)


def crop(upload, size):
    w, data = upload["size"][0], upload["pixels"]
    upload["pixels"] = b"".join(data[y * w * 4:(y * w + size[0]) * 4] for y in range(size[1]))
    upload["size"] = size


def cut_tiles(frame, listed):
    for one in frame["passes"]:
        for quad in one["quads"]:
            m, (x, y, w, h) = quad["material"], quad["area"]
            if m["kind"] == "tile" and m["tile"] == listed["id"]:
                m["tx"], m["ty"] = min(m["tx"], listed["w"] - 1), min(m["ty"], listed["h"] - 1)
                quad["area"] = x, y, min(w, listed["w"] - m["tx"]), min(h, listed["h"] - m["ty"])
                quad["visible"] = within(quad["visible"], quad["area"])


def quad_at(scene, way):
    client, place, k, q = way
    return scene.files[client]["messages"][place]["passes"][k]["quads"][q]


def rectangles(reduction, way):
    """Makes a quad's rectangles smaller, and brings them to the origin."""
    for key, count in (("area", 4), ("visible", 4), ("clip", 4), ("offset", 2)):
        for axis in (3, 2, 1, 0)[4 - count:]:
            rect = quad_at(reduction.scene, way)[key]
            if rect is None or count == 4 and not rect[2]:
                continue

            def changed(number, key=key, axis=axis):
                candidate = reduction.scene.copy()
                quad = quad_at(candidate, way)
                was, quad[key] = quad[key], put(quad[key], axis, number)
                if key == "area" and axis < 2 and any(quad["visible"]):
                    quad["visible"] = put(quad["visible"], axis, quad["visible"][axis] + number - was[axis])
                if key in ("area", "visible"):
                    quad["visible"] = within(quad["visible"], quad["area"])
                return candidate
            reduction.least(rect[axis], 1 if axis > 1 else 0, changed)


# ---------------------------------------------------------------- plain values


def values(reduction):
    """Puts what a text leaves out in the place of values: no clip, full opacity, red instead of a tile."""
    for client, file in enumerate(reduction.scene.files):
        for place, message in enumerate(file["messages"]):
            way = client, place
            if message["kind"] == "upload":
                plain(reduction, way, lambda m: m.update(pixels=bytes(RED) * (len(m["pixels"]) // 4)))
            for key, value in PLAIN_FRAME if message["kind"] == "submit" else ():
                plain(reduction, way, lambda m, key=key, value=value: m.update({key: value}))
            for k in range(len(message["passes"]) if message["kind"] == "submit" else 0):
                plain(reduction, way, lambda m, k=k: m["passes"][k].update(damage=m["passes"][k]["output"]))
    for client, place, k, q in list(reduction.scene.quads()):
        for change in (lambda quad: quad.update(visible=quad["area"]),
                       *(lambda quad, key=key, value=value: quad.update({key: copy.deepcopy(value)}) for key, value in PLAIN_QUAD)):
            plain(reduction, (client, place), lambda m, change=change: change(m["passes"][k]["quads"][q]))


def plain(reduction, way, change):
    candidate = reduction.scene.copy()
    message = candidate.files[way[0]]["messages"][way[1]]
    before = copy.deepcopy(message)
    change(message)
    if message != before:
        reduction.takes(candidate)
