"""Chromium's trace: which of its events are kept, and what they say about frames, in order.

| taken | from the event |
|---|---|
| a frame's passes and quads | `LayerTreeHostImpl:snapshot` |
| the surface it is for, its order | `LocalSurfaceId.Submission.Flow`, `Surface::CommitFrame` |
| dependencies | `LocalSurfaceId.Embed.Flow` |
| activations | `Surface::ActivateFrame` |
| drawings, their damage | `Display::DrawAndSwap`, `frame.render_pass.damage` |
| closed sinks, destroyed surfaces | `FrameSinkManagerImpl::InvalidateFrameSinkId`, `Surface` |
| the address of a sink | a mark that the recorder makes in each part of the page |
"""

import re
from collections import defaultdict

from ..shapes import EMPTY

CATEGORIES = ("viz", "cc", "benchmark", "blink.user_timing", "disabled-by-default-viz.quads",
              "disabled-by-default-cc.debug", "disabled-by-default-viz.surface_id_flow",
              "disabled-by-default-viz.surface_lifetime",
              "disabled-by-default-viz.visual_debugger")
SNAPSHOT, SUBMITTED = "LayerTreeHostImpl:snapshot", "LocalSurfaceId.Submission.Flow"
COMMIT, ACTIVE, EMBED = "Surface::CommitFrame", "Surface::ActivateFrame", "LocalSurfaceId.Embed.Flow"
CLOSED, DRAW = "FrameSinkManagerImpl::InvalidateFrameSinkId", "Display::DrawAndSwap"
PASS, TICK, LIFETIME = "frame.render_pass.", "DisplayScheduler::BeginFrame", "Surface"
NAMES = {SNAPSHOT, SUBMITTED, COMMIT, ACTIVE, EMBED, CLOSED, DRAW, TICK, LIFETIME,
         *(PASS + part for part in ("output_rect", "damage", "layer_id", "quad"))}
FIELDS = ("name", "ph", "pid", "tid", "ts", "dur", "id2", "args")
OF_LAYER = ("layer_id", "bounds", "screen_space_transform", "draws_content")
OF_TILE = ("layer_id", "content_rect", "has_resource", "contents_scale", "raster_transform")
OF_PASS = ("id", "output_rect", "damage_rect", "transform_to_root_target", "quad_list",
           "shared_quad_state_list", "filters", "backdrop_filters")
LOCAL = r"LocalSurfaceId\((\d+), (\d+), (\w{4})"
SURFACE = re.compile(r"SurfaceId\(FrameSinkId\((\d+), (\d+)\), " + LOCAL)
LOCAL = re.compile(LOCAL)
LONGEST = 64                        # the longest deadline of a message file, in begin-frames


def some(given, names):
    return {name: given[name] for name in names if name in given}


def slim(snapshot):
    """What is used of a snapshot of a compositor's layers and frame."""
    tree, frame = snapshot["active_tree"], snapshot["frame"]
    layers = [{**some(one, OF_LAYER), "tiled": bool(one.get("coverage_tiles"))}
              for one in tree["layers"]]
    return {"layers": layers,
            "tiles": [some(one, OF_TILE) for one in snapshot.get("active_tiles", [])],
            "passes": [some(one, OF_PASS) for one in frame.get("render_passes", [])]}


def kept(events):
    """The events that are used, in the order of their times, each with what is used of it."""
    found = []
    for event in events:
        if event["ph"] not in "IRXbe" or not (event["name"] in NAMES or event["name"][:4] == "viz "):
            continue
        one = some(event, FIELDS)
        if event["name"] == SNAPSHOT:
            if event["ph"] != "I":
                continue
            one["args"] = {"tree": event["args"]["layerTreeId"],
                           "snapshot": slim(event["args"]["snapshot"])}
        found.append(one)
    return sorted(found, key=lambda one: one["ts"])


def surface(text):
    """The surface of a text: its sink and its local id."""
    found = SURFACE.search(text)
    return (int(found[1]), int(found[2])), (int(found[3]), int(found[4]), found[5])


def surfaces(text):
    return [surface(found[0]) for found in SURFACE.finditer(text)]


def local(text):
    found = LOCAL.search(text)
    return int(found[1]), int(found[2]), found[3]


def reaches(wanted, other):
    """A surface is the wanted one, or newer in its group."""
    (sink, (parent, child, token)), (sink_2, (parent_2, child_2, token_2)) = wanted, other
    return (sink, token) == (sink_2, token_2) and parent_2 >= parent and child_2 >= child


class Step:
    """What happened: a `commit` (of a frame), an `active` one, `closed`, `draw` or `begin`."""

    def __init__(self, kind, ts, **given):
        self.kind, self.ts = kind, ts
        self.sink = self.local = self.snapshot = self.deadline = None
        self.dependencies, self.passes, self.begins, self.before, self.met = [], [], 0, 0, True
        vars(self).update(given)

    @property
    def surface(self):
        return self.sink, self.local


class Trace:
    """The steps of a trace, in order. `notes` count what was seen that needs a word."""

    def __init__(self, events, notes):
        self.events, self.notes, self.steps = events, notes, []
        self.waiting = self.snapshots()
        for event in events:
            self.take(event, event["args"])
        self.deadlines()

    def snapshots(self):
        """The snapshots of each local surface id, in order: one comes before what says for which
        surface it was submitted, and that is said only if the surface is another one."""
        current, pending, found = {}, {}, defaultdict(list)

        def done(thread):
            event = pending.get(thread)
            if event:
                found[current.get((thread, event["args"]["tree"]))].append(event)
        for event in self.events:
            thread = event["pid"], event["tid"]
            if event["name"] == SNAPSHOT:
                done(thread)
                pending[thread] = event
            elif event["name"] == SUBMITTED and event["args"].get("step") == "SubmitCompositorFrame":
                if thread in pending:
                    given = event["args"]
                    tree = pending[thread]["args"]["tree"]
                    current[thread, tree] = local(given.get("surface_id") or given["local_surface_id"])
        for thread in pending:
            done(thread)
        for some_of in found.values():
            some_of.sort(key=lambda event: event["ts"])
        return found

    def take(self, event, given):
        name, ts = event["name"], event["ts"]
        if name == COMMIT and "SurfaceId" in given:
            sink, own = surface(given["SurfaceId"])
            waiting = self.waiting.get(own, [])
            there = waiting and waiting[0]["ts"] < ts
            self.add("commit", ts, sink=sink, local=own, snapshot=waiting.pop(0) if there else None)
        elif name == EMBED and given.get("step") == "AddedActivationDependency":
            commit = self.last("commit")
            if commit:
                commit.dependencies.append(surface(given["child_surface_id"]))
        elif name == ACTIVE and "SurfaceId" in given:
            sink, own = surface(given["SurfaceId"])
            self.add("active", ts, sink=sink, local=own)
        elif name == CLOSED:
            one = given["frame_sink_id"]
            self.add("closed", ts, sink=(one["frame_sink_client_id"], one["frame_sink_id"]))
        elif name == DRAW:
            self.add("draw", ts, took=event.get("dur", 0))
        elif name == TICK and event["ph"] == "X":
            self.add("begin", ts)
        elif name.startswith(PASS) and self.last("draw"):
            self.drawn(name[len(PASS):], given["args"])

    def add(self, kind, ts, **given):
        self.steps.append(Step(kind, ts, **given))

    def last(self, kind):
        return next((step for step in reversed(self.steps) if step.kind == kind), None)

    def drawn(self, part, given):
        """A part of the last drawing: its passes, root last, with their damages and the sink and
        the place of each quad."""
        passes = self.last("draw").passes
        rect = (given[name] for name in ("pos_x", "pos_y", "size_x", "size_y"))
        rect = tuple(int(float(value)) for value in rect)
        if part == "output_rect":
            passes.append({"output": rect, "damage": None, "quads": []})
        elif part == "layer_id":        # 5:10:3 is a layer of sink 5.10
            passes[-1]["quads"].append([tuple(map(int, given["text"].split(":")[:2])), EMPTY])
        elif part == "quad":
            passes[-1]["quads"][-1][1] = rect
        else:
            passes[-1]["damage"] = rect

    # ---------------------------------------------------------------- deadlines

    def deadlines(self):
        """Chromium's deadlines are times, and the trace has none of them. A frame that became
        active with a dependency unmet gets a begin-frame of its own at that moment, and the
        deadline that this makes; others wait long."""
        latest, active, done, steps = {}, [], set(), []
        for step in self.steps:
            if step.kind == "commit":
                latest[step.surface] = step
                step.deadline, step.before = LONGEST, len(active)
            elif step.kind == "begin":
                for one in latest.values():
                    one.begins += 1
            elif step.kind == "active":
                commit = latest.get(step.surface)
                if commit and commit not in done and self.late(commit, active):
                    for one in latest.values():
                        one.begins += 1
                    commit.deadline, commit.met = min(LONGEST, commit.begins), False
                    step.met = False
                    steps.append(Step("begin", step.ts))
                done.add(commit)
                active.append(step.surface)
            steps.append(step)
        self.steps = steps

    def late(self, commit, active):
        """Whether a frame that becomes active now waited for something. In Chromium a newer surface
        meets a dependency only by becoming active after the frame came; where viz would say that it
        is met already, a surface that never comes is named instead."""
        after = active[commit.before:]
        unmet = [one for one in commit.dependencies
                 if one not in active and not any(reaches(one, other) for other in after)]
        for place, one in enumerate(commit.dependencies):
            if one in unmet and any(reaches(one, other) for other in active):
                sink, (parent, child, token) = one
                commit.dependencies[place] = sink, (parent, child, "never " + token)
                self.notes["dependencies that Chromium waited for although a newer surface was "
                           "active already"] += 1
        if unmet:
            self.notes["frames that became active by their deadline"] += 1
        return bool(unmet)

    # ---------------------------------------------------------------- what else it says

    def destroyed(self):
        """The surfaces that were destroyed, in order, with the times."""
        named, found = {}, []
        for event in self.events:
            if event["name"] == LIFETIME and "id2" in event:
                key = event["pid"], event["id2"]["local"]
                if event["ph"] == "b":
                    named[key] = surface(event["args"]["surface_info"])
                elif event["ph"] == "e" and key in named:
                    found.append((named.pop(key), event["ts"]))
        return found

    def embedded(self):
        """What the browser's own frames embed: (time, surface), in order. These frames have no
        quads in the trace, but the embedding is told by name."""
        told = [event for event in self.events if event["name"] == EMBED
                and event["args"].get("step") == "ImplSetSurfaceId"]
        told = [(one["ts"], one["pid"], surface(one["args"]["surface_id"])) for one in told]
        first = next((pid for _, pid, (sink, _) in told if sink[0] != 0), None)
        return [(ts, shown) for ts, pid, shown in told if pid == first]

    def marks(self):
        """The marks of the page's parts: (time, process, session, size, address)."""
        for event in self.events:
            if event["name"].startswith("viz "):
                _, session, w, h, *name = event["name"].split(" ")
                yield event["ts"], event["pid"], int(session), (int(w), int(h)), " ".join(name)
