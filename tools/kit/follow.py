"""Follows a log together with the messages of its clients: which message an entry answers, what a submission waits
for, and why it becomes active. A log alone does not say these."""

from . import names
from .wrong import Wrong

ANSWERS = {"upload": "stored", "submit": "accepted", "did-not-produce": "noted", "reclaim": "reclaimed",
           "set-root": "rooted", "hierarchy": "joined", "await": "began over", "close": "left"}
DEFAULT_DEADLINE = 4
NOT_TAKEN = (11, 12)          # refusals that take no message


class Facts:
    """What is known of an entry: its message, what its submission waits for, why submissions become active."""

    def __init__(self, message=None):
        self.message, self.waits, self.why = message, [], {}
        self.due = None


class Follower:
    """Goes along a log with the messages of a scene's clients."""

    def __init__(self, files, clients):
        self.files, self.clients = files, clients
        self.taken = [0] * len(files)
        self.created = [[] for _ in files]
        self.submitted, self.ever_active, self.closed, self.tick = {}, [], {}, 0

    def sink(self, value):
        """A sink by its client's name, where a client has it."""
        for file, name in zip(self.files, self.clients):
            if file["sink"] == value:
                return name
        return names.sink_text(value)

    def surface(self, value):
        name, local = self.sink(value[0]), names.local_text(value[1])
        return "%s of %s" % (local, name) if " " in name else "%s/%s" % (name, local)

    def lost(self, client, number):
        """The surface that a client created as its number-th."""
        local = self.created[client - 1][number - 1]
        return self.surface((self.files[client - 1]["sink"], local))

    def facts(self, log):
        """The facts of each entry."""
        got = []
        for place, entry in enumerate(log.entries, 1):
            try:
                got.append(self.entry(entry))
            except (LookupError, TypeError):
                raise Wrong("line %d: the log is not of this scene" % place) from None
        return got

    def entry(self, e):
        facts = Facts(self.message(e) if e.client else None)
        if e.reply == "ticked":
            self.tick = e.numbers[0]
        elif e.reply == "left":
            self.closed[self.files[e.client - 1]["sink"]] = True
        elif e.reply == "accepted":
            self.accept(e, facts)
        for kind, *who in e.effects:
            if kind == "+":
                self.activate(tuple(who), facts)
            elif kind == "x":
                self.created[who[0] - 1][who[1] - 1]    # it must be there
        if e.reply == "accepted":
            number = (e.client, e.numbers[0])
            if number not in facts.why:
                _, wanted, facts.due = self.submitted[number]
                facts.waits = [d for d in wanted if not self.is_met(d)]
        return facts

    def message(self, e):
        """The message that a client's entry answers."""
        if e.reply == "refused" and e.numbers[0] in NOT_TAKEN:
            return None
        message = self.files[e.client - 1]["messages"][self.taken[e.client - 1]]
        self.taken[e.client - 1] += 1
        if e.reply != "refused" and e.reply not in ANSWERS[message["kind"]].split():
            raise LookupError
        return message

    def accept(self, e, facts):
        message, created = facts.message, self.created[e.client - 1]
        if not created or created[-1] != message["local"]:
            created.append(message["local"])
        deadline = DEFAULT_DEADLINE if message["deadline"] is None else message["deadline"]
        self.submitted[e.client, e.numbers[0]] = (
            (self.files[e.client - 1]["sink"], message["local"]), message["dependencies"],
            self.tick + deadline)

    def activate(self, number, facts):
        surface, wanted, due = self.submitted[number]
        if all(map(self.is_met, wanted)):
            facts.why[number] = wanted
        else:
            facts.why[number] = due
        self.ever_active.append(surface)

    def is_met(self, wanted):
        """Some surface of the wanted one's group, at it or newer, was ever active, or its client closed."""
        sink, (parent, child, token) = wanted
        return sink in self.closed or any(
            s == sink and t == token and p >= parent and c >= child
            for s, (p, c, t) in self.ever_active)
