"""What a page must say after each entry of a log, as the record has it: the texts of its tabs."""

from kit import inputs, log, wire
from kit.machine import replay
from kit.record import Names, Recorder
from kit.sentences import Story
from kit.walk import Drawing, TooMuch


class Tree(Drawing):
    """A walk that notes what each range shows, and counts the quads."""

    def __init__(self, world, size, named):
        self.named, self.rows, self.met = named, [], 0
        self.rows.append(["root", named.surface(world.root)])
        super().__init__(world, size)

    def pass_(self, path, s, one, x, y, window):
        self.met += len(one["quads"])
        super().pass_(path, s, one, x, y, window)

    def range(self, span, window):
        shown = super().range(span, window)
        self.rows.append([self.named.span(span), self.named.surface(shown.surface.id) if shown else ""])
        return shown


def rect_text(rect):
    return "%d × %d at %d, %d" % (*rect[2:], *rect[:2])


def held(world):
    """The headings over the resources of each client that lent some."""
    found = []
    for client in world.clients:
        lent = sum(one.lent - one.queued for one in client.resources.values())
        queued = sum(one.queued - one.reclaimed for one in client.resources.values())
        if lent or queued:
            found.append("Resources of c%d%d references lent, %d queued" % (client.number, lent, queued))
    return found


def claims(draws, at):
    """The rows of claims of the last drawing up to an entry."""
    drawn = [draw for draw in draws if draw[0] <= at and draw[1] == "drawn"]
    return [["", said, rect_text(rect)] for _, said, rect in drawn[-1][3]] if drawn else []


def tree(world, size, named):
    """The rows of the tree of surfaces, and how many quads it has."""
    if world.root is None or world.active_on(world.root) is None:
        return [], 0
    try:
        found = Tree(world, size, named)
    except TooMuch:
        return [], 0
    return found.rows, found.met


def record(log_name, files, size):
    """For each entry the texts that the page must have."""
    data = log_name.read_bytes()
    read, made = log.read(data), [wire.read(f.read_bytes()) for f in files]
    clients = ["c%d" % k for k in range(1, len(files) + 1)]
    named, lines = Names(made, clients), data.decode("ascii").split("\n")
    said, draws = inputs.said(Story(read, clients, made)), Recorder(read, made, clients, size, 2).draws
    count, found = sum(draw[1] == "drawn" for draw in draws), []

    def note(machine, _entry):
        at, world = machine.at, machine.world
        drawn = sum(draw[0] <= at and draw[1] == "drawn" for draw in draws)
        rows, quads = tree(world, size, named)
        alive = [one for one in world.surfaces if not one.destroyed]
        found.append({"entry": str(at + 1), "frame": "%s of %d" % (drawn or "none", count), "line": lines[at],
                      "said": said[at], "claims": claims(draws, at), "tree": rows, "quads": quads, "held": held(world),
                      "alive": [[named.surface(one.id), "%d × %d" % one.size] for one in alive]})
    replay(read, made, size, note)
    return found
