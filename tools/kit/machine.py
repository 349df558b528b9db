"""The machine in Python: it takes events, and makes the entries that the program must log. docs/RULES.md
has its rules. It does not paint. `replay` compares the entries of a log with those of the machine."""

from .broken import first_broken
from .log import Entry
from .shapes import at_least, group, raised
from .walk import Drawing, TooMuch, aggregation
from .world import DEFAULT_DEADLINE, LAST_TICK, Resource, Submission, Surface, World
from .wrong import Wrong


class Refused(Exception):
    """A message is refused by these numbers."""


def refuse_if(test, *numbers):
    if test:
        raise Refused(*numbers)


class Machine:
    def __init__(self, files, size):
        self.world, self.size, self.at = World(files), size, -1
        self.drawing = None           # the drawing of the last step, if that was a Draw with something to be seen
        self.changed = False          # something may be destroyed
        self.ended, self.newly_active, self.touched = [], [], set()

    def step(self, event, client=0):
        """Takes an event; the entry that it makes."""
        world = self.world
        self.at += 1
        self.drawing, self.ended, self.newly_active, self.touched = None, [], [], set()
        presented = world.in_flight or [] if event == "done" else []
        reply, numbers, items = self.client(world.clients[client - 1]) if client else getattr(self, event)()
        effects = [("+", *s.name) for s in self.settle()]
        effects += [("x", s.client.number, s.number) for s in self.collect()]
        effects += self.returns(presented)
        effects += self.feedback(presented)
        return Entry(event, client, reply, numbers, items, tuple(effects))

    # ---------------------------------------------------------------- the display's events

    def begin(self):
        world = self.world
        world.tick += world.tick != LAST_TICK
        attached = world.attached()
        for client in world.clients:
            if client.sink in attached and not client.closed:
                client.delivered = world.tick
        self.changed = True
        return "ticked", (world.tick,), ()

    def over(self):
        self.world.over = True
        return "ended", (), ()

    def done(self):
        world = self.world
        if world.in_flight is None:
            return "nothing", (), ()
        for s in world.in_flight:
            s.in_flight = False
            self.hold(s)
        world.in_flight = None
        return "shown", (), ()

    def draw(self):
        world = self.world
        if world.in_flight is not None:
            return "busy", (), ()
        if world.root is None or world.active_on(world.root) is None:
            return "noroot", (), ()
        try:
            self.drawing = Drawing(world, self.size)
        except TooMuch:
            return "toomuch", (), ()
        first, damage = world.last is None, self.drawing.damage
        world.last = aggregation(world, self.drawing)
        if not first and not damage[2]:
            return "unchanged", (), ()
        world.in_flight = sorted(self.drawing.entered, key=lambda s: s.at)
        for s in world.in_flight:
            s.in_flight = True
            self.hold(s)
        return "drawn", damage, ()

    # ---------------------------------------------------------------- messages

    def client(self, client):
        if client.taken >= len(client.messages):
            return "refused", (12,), ()
        message = client.messages[client.taken]
        try:
            refuse_if(client.closed, 1)
            said = getattr(self, message["kind"].replace("-", "_") + "_message")(client, message)
        except Refused as refused:
            said = "refused", refused.args, ()
        client.taken += said[:2] != ("refused", (11,))
        return said

    def upload_message(self, client, message):
        resource = client.resources.get(message["id"])
        refuse_if(resource and resource.lent > resource.reclaimed, 6)
        if resource is None:
            resource = client.resources[message["id"]] = Resource()
        resource.size, resource.pixels = message["size"], message["pixels"]
        return "stored", (), ()

    def submit_message(self, client, message):
        self.check(client, message)
        world, last = self.world, client.last()
        client.accepted += 1
        surface = last if last and last.id[1] == message["local"] else self.create(client, message)
        deadline = DEFAULT_DEADLINE if message["deadline"] is None else message["deadline"]
        s = Submission(surface, client.accepted, message, world.tick + deadline, self.at)
        if surface.waiting:
            self.end(surface.waiting, "dropped")
        surface.frames.append(s)
        surface.waiting = s
        world.subs.append(s)
        world.waiting.append(s)
        for listed in message["resources"]:
            resource = client.resources[listed["id"]]
            resource.lent += 1
            s.blocks[listed["id"]] = resource.size, resource.pixels
        self.hold(s)
        self.answer(client, message["answers"])
        return "accepted", (s.ordinal, s.index), ()

    def check(self, client, message):
        """Refuses a submission for the first reason that there is."""
        rule, last = first_broken(message), client.last()
        refuse_if(rule, 2, rule)
        sizes = {number: resource.size for number, resource in client.resources.items()}
        refuse_if(any(sizes.get(one["id"]) != (one["w"], one["h"]) for one in message["resources"]), 3)
        same = last is not None and last.id[1] == message["local"]
        refuse_if(last and not same and not raised(last.id[1], message["local"]), 4)
        refuse_if(same and last.size != message["passes"][-1]["output"][2:], 5)

    def create(self, client, message):
        world = self.world
        surface = Surface(client, len(client.surfaces) + 1, (client.sink, message["local"]),
                          message["passes"][-1]["output"][2:], world.tick, self.at)
        client.surfaces.append(surface)
        world.surfaces.append(surface)
        world.young.append(surface)
        world.by_id[surface.id] = surface
        if any(at_least(end, surface.id) for s in world.active() for _, end in s.spans()):
            self.name(surface)
        return surface

    def did_not_produce_message(self, client, message):
        self.answer(client, message["number"])
        return "noted", (), ()

    def answer(self, client, number):
        if number == self.world.tick:
            client.answered = number

    def reclaim_message(self, client, _message):
        items, client.queue = tuple(client.queue), []
        for resource in client.resources.values():
            resource.reclaimed = resource.queued
        return "reclaimed", (), items

    def set_root_message(self, client, message):
        refuse_if(client.number != 1, 7)
        self.world.root = client.sink, message["local"]
        self.changed = True
        return "rooted", (), ()

    def hierarchy_message(self, client, message):
        world, parent, child = self.world, message["parent"], message["child"]
        refuse_if(world.reaches(child, parent), 8)
        refuse_if(parent not in world.sinks or child not in world.sinks, 9)
        refuse_if(parent != client.sink, 10)
        if (parent, child) not in world.relations:
            world.relations.append((parent, child))
        return "joined", (), ()

    def await_message(self, client, _message):
        if client.delivered is not None:
            number, client.delivered = client.delivered, None
            return "began", (number,), ()
        refuse_if(not self.world.over, 11)
        return "over", (), ()

    def close_message(self, client, _message):
        client.closed, client.closed_at = True, self.at
        self.mark(client, len(client.surfaces))
        self.changed = True
        return "left", (), ()

    # ---------------------------------------------------------------- what follows a change

    def settle(self):
        """Activates in rounds what is ready; all of it in order."""
        world, done = self.world, []
        while world.waiting:
            ready = [s for s in world.waiting if self.has_come(s)]
            if not ready:
                break
            for s in ready:
                self.activate(s)
            done += ready
        self.newly_active = done
        self.changed |= bool(done)
        return done

    def has_come(self, s):
        unmet = [d for d in s.frame["dependencies"] if not self.world.is_met(d)]
        if unmet and s.due > self.world.tick:
            return False
        s.why = s.due if unmet else None
        return True

    def activate(self, s):
        """Note that submissions of one round do not see each other: `has_come` was asked of all of them
        before."""
        world, surface = self.world, s.surface
        world.waiting.remove(s)
        if surface.active:
            self.end(surface.active, "past")
        surface.waiting, surface.active = None, s
        s.state, s.active_at = "active", self.at
        world.groups.setdefault(group(surface.id), []).append(s)
        newest = world.was_active.get(group(surface.id))
        if newest is None or raised(newest[1], surface.id[1]):
            world.was_active[group(surface.id)] = surface.id
        self.mark(s.client, surface.number - 1)

    def mark(self, client, count):
        """Marks the first surfaces of a client."""
        for surface in client.surfaces[client.marked:count]:
            surface.marked, surface.marked_at = True, self.at
            if not surface.destroyed:
                self.world.marked.append(surface)
        client.marked = max(client.marked, count)

    def end(self, s, state):
        """A submission is past or dropped."""
        if s.state == "active":
            self.world.groups[group(s.surface.id)].remove(s)
        else:
            self.world.waiting.remove(s)
        s.state, s.ended_at = state, self.at
        self.hold(s)
        self.ended.append(s)

    def name(self, surface):
        if not surface.named:
            surface.named, surface.named_at = True, self.at

    def collect(self):
        """Destroys the marked surfaces that nothing reaches; they come by client and creation."""
        world = self.world
        for _, end in {span for s in self.newly_active if s.state == "active" for span in s.spans()}:
            client = world.sinks.get(end[0])
            for surface in client.surfaces if client else ():
                if not surface.destroyed and at_least(end, surface.id):
                    self.name(surface)
        if not (self.changed and world.marked):
            return []
        self.changed = False
        reached = world.reached()
        lost = [s for s in world.marked if s not in reached]
        world.marked = [s for s in world.marked if s in reached]
        for surface in lost:
            surface.destroyed, surface.destroyed_at = True, self.at
            for s in (surface.waiting, surface.active):
                if s:
                    self.end(s, "dropped")
            surface.waiting = surface.active = None
        return sorted(lost, key=lambda s: (s.client.number, s.number))

    def hold(self, s):
        """Notes whether a submission holds its resources."""
        holding = s.in_flight or s.state in ("waiting", "active")
        if holding != s.holding:
            s.holding = holding
            for listed in s.frame["resources"]:
                s.client.resources[listed["id"]].holders += 1 if holding else -1
                self.touched.add((s.client.number, listed["id"]))

    def returns(self, _presented):
        effects = []
        for number, resource_id in sorted(self.touched):
            client = self.world.clients[number - 1]
            resource = client.resources[resource_id]
            count = resource.lent - resource.queued
            if count and not resource.holders:
                resource.queued = resource.lent
                client.queue.append((resource_id, count))
                effects.append(("<", number, resource_id, count))
        return effects

    def feedback(self, presented):
        fed = []
        for s in sorted({*presented, *self.ended}, key=lambda s: s.at):
            if s.fed or s.in_flight:
                continue
            s.fed, s.fed_at, s.presented = True, self.at, s in presented
            fed.append(("p" if s.presented else "d", *s.name))
        return fed

    def rest(self):
        """What is still held and open at the end."""
        held = [(c.number, number, r.lent - r.queued) for c in self.world.clients
                for number, r in sorted(c.resources.items()) if r.lent > r.queued]
        return held, sorted(s.name for s in self.world.subs if not s.fed)


def replay(log, files, size, seen=None):
    """Plays a log's events and compares each entry; `seen(machine, entry)` is called after each of them."""
    machine = Machine(files, size)
    for place, entry in enumerate(log.entries):
        if entry.client > len(files):
            raise Wrong("line %d: there are %d clients" % (place + 1, len(files)))
        made = machine.step(entry.event, entry.client)
        if made != entry:
            raise Differs(place, entry, made, machine)
        if seen:
            seen(machine, entry)
    return machine


class Differs(Wrong):
    """An entry is not the one that the machine makes."""

    def __init__(self, place, found, made, machine):
        super().__init__("line %d: the log is not of these files: the machine makes another entry here" % (place + 1))
        self.place, self.found, self.made, self.machine = place, found, made, machine
