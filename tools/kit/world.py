"""The state of the machine: clients, surfaces, submissions and resources. `at` and what ends in `_at` are
the places of log entries, from 0 on, at which something came to be so; None if it did not."""

from .shapes import at_least, group

TEMPORARY_TICKS, DEFAULT_DEADLINE, LAST_TICK = 16, 4, 4294967231


class Resource:
    def __init__(self):
        self.size = self.pixels = None
        self.lent = self.queued = self.reclaimed = self.holders = 0


class Client:
    def __init__(self, number, file):
        self.number, self.sink, self.messages = number, file["sink"], file["messages"]
        self.taken, self.closed, self.closed_at = 0, False, None
        self.resources, self.queue = {}, []
        self.delivered, self.answered = None, 0
        self.surfaces, self.marked, self.accepted = [], 0, 0

    def last(self):
        return self.surfaces[-1] if self.surfaces else None


class Surface:
    def __init__(self, client, number, name, size, tick, at):
        self.client, self.number, self.id, self.size, self.born, self.at = client, number, name, size, tick, at
        self.named = self.marked = self.destroyed = False
        self.named_at = self.marked_at = self.destroyed_at = None
        self.frames, self.active, self.waiting = [], None, None


class Submission:
    """An accepted frame. Its state is waiting, active, past (replaced after it was active) or dropped."""

    def __init__(self, surface, ordinal, frame, due, at):
        self.surface, self.client, self.ordinal, self.frame = surface, surface.client, ordinal, frame
        self.index, self.due, self.at = len(surface.frames) + 1, due, at
        self.state, self.in_flight, self.fed, self.holding = "waiting", False, False, False
        self.active_at = self.ended_at = self.fed_at = self.presented = self.why = None
        self.passes = {one["id"]: one for one in frame["passes"]}
        self.blocks = {}          # the size and the pixels of each listed resource

    @property
    def name(self):
        return self.client.number, self.ordinal

    @property
    def root(self):
        return self.frame["passes"][-1]

    def spans(self):
        return self.frame["references"]


class World:
    """What the clients and the display have come to. The changes are in `machine`."""

    def __init__(self, files):
        self.clients = [Client(k, file) for k, file in enumerate(files, 1)]
        self.sinks = {client.sink: client for client in self.clients}
        self.surfaces, self.by_id, self.subs = [], {}, []
        self.young, self.marked = [], []      # surfaces that may be temporary, and those that may be destroyed
        self.waiting, self.groups, self.was_active = [], {}, {}
        self.tick, self.root, self.relations, self.over = 0, None, [], False
        self.in_flight = self.last = None

    def active_on(self, name):
        """The active submission of a surface, if it exists and has one."""
        surface = self.by_id.get(name)
        return surface.active if surface else None

    def shown(self, span):
        """The active submission of the surface that a range shows, or None."""
        start, end = span
        one = start is not None and group(start) == group(end)
        found = [s for s in self.groups.get(group(end), ()) if at_least(end, s.surface.id)
                 and (not one or at_least(s.surface.id, start))]
        if not found and start is not None and not one:
            found = [s for s in self.groups.get(group(start), ()) if at_least(s.surface.id, start)]
        return max(found, key=lambda s: s.surface.id[1][:2], default=None)

    def is_met(self, wanted):
        """A surface of the wanted one's group, the same or newer, was ever active, or its client closed."""
        client = self.sinks.get(wanted[0])
        newest = self.was_active.get(group(wanted))
        return client is not None and client.closed or newest is not None and at_least(newest, wanted)

    def is_temporary(self, surface):
        return not (surface.destroyed or surface.named or surface.client.closed) and (
            self.tick < surface.born + TEMPORARY_TICKS)

    def attached(self):
        """The sinks to which relations lead from the first client's."""
        found = [self.clients[0].sink]
        for sink in found:
            found += [child for parent, child in self.relations if parent == sink and child not in found]
        return set(found)

    def reaches(self, start, end):
        found = [start]
        for sink in found:
            found += [child for parent, child in self.relations if parent == sink and child not in found]
        return end in found

    def active(self):
        """All active submissions, in the order of acceptance."""
        live = [s for group_of in self.groups.values() for s in group_of]
        return sorted(live, key=lambda s: s.at)

    def reached(self):
        """The surfaces that the root and the temporary ones reach, each with what reaches it first: None,
        or the surface whose active frame references it."""
        found, todo = {}, []
        if self.root is not None and self.root in self.by_id and not self.by_id[self.root].destroyed:
            todo.append(self.by_id[self.root])
        self.young = [s for s in self.young if self.is_temporary(s)]
        todo += [s for s in self.young if s not in todo[:1]]
        found.update((s, None) for s in todo)
        for surface in todo:
            for span in surface.active.spans() if surface.active else ():
                shown = self.shown(span)
                if shown and shown.surface not in found:
                    found[shown.surface] = surface
                    todo.append(shown.surface)
        return found
