"""The entries of a log as sentences. If there is a scene, the sentences also have its names, its messages and the
reasons for activations."""

from . import names
from .follow import Facts, Follower

REFUSED = {
    1: "it closed before", 3: "it lists a resource that has no upload of that size",
    4: "its local id does not go on from the last one", 5: "its size differs from the surface's",
    6: "the resource is still lent", 7: "only the first client may set the root",
    8: "the sinks would form a loop", 9: "no client has that sink",
    10: "the parent is another client's sink", 11: "no begin-frame stands for it yet",
    12: "it has no messages left",
}
RULES = {
    1: "there is no pass", 2: "the root pass is empty or does not begin at (0, 0)",
    3: "two passes have one id", 4: "a quad names a pass that does not stand earlier",
    5: "a visible rectangle reaches outside its quad", 6: "a tile's resource is not listed",
    7: "a resource is listed twice", 8: "a tile reaches outside its resource",
    9: "a range starts after its end", 10: "two dependencies are equal",
    11: "a damage reaches outside its pass",
}
REFUSED_WORDS = {"upload": "An upload", "submit": "A frame", "set-root": "SetRoot", "hierarchy": "Hierarchy"}


def times(count):
    return "once" if count == 1 else "%d times" % count


def joined(parts):
    return parts[0] if len(parts) == 1 else ", ".join(parts[:-1]) + " and " + parts[-1]


def ordinal(n):
    tail = {1: "st", 2: "nd", 3: "rd"}.get(n % 10, "th") if n % 100 not in (11, 12, 13) else "th"
    return "%d%s" % (n, tail)


def be(subject, items, one, more):
    return "%s %s" % (subject, one if len(items) == 1 else more)


class Story:
    """Sentences over a log; `clients` are their names, `files` their messages where they are known."""

    def __init__(self, log, clients=(), files=None):
        self.log, self.clients = log, clients
        self.follower = Follower(files, clients) if files else None
        self.facts = self.follower.facts(log) if files else [Facts() for _ in log.entries]

    def who(self, client):
        return self.clients[client - 1] if 1 <= client <= len(self.clients) else "client %d" % client

    def frame(self, client, number):
        return "frame %d of %s" % (number, self.who(client))

    def surface(self, client, number):
        if self.follower:
            return self.follower.lost(client, number)
        return "surface %d of %s" % (number, self.who(client))

    # what an entry answers

    def reply(self, place):
        """What the reply of the entry at a place, from 0 on, says."""
        e, message = self.log.entries[place], self.facts[place].message
        who, n = self.who(e.client), e.numbers
        if e.reply in ("accepted", "refused"):
            return self.refused(e, self.facts[place]) if e.reply == "refused" else self.accepted(e, place)
        return {
            "stored": lambda: "%s uploads %s" % (who, "resource %d, %d by %d" % (
                message["id"], *message["size"]) if message else "a resource"),
            "noted": lambda: "%s makes no frame for %s" % (
                who, "begin-frame %d" % message["number"] if message else "a begin-frame"),
            "reclaimed": lambda: "%s takes back %s" % (who, joined(
                ["resource %d, lent %s" % (r, times(c)) for r, c in e.items]) if e.items
                else "nothing"),
            "rooted": lambda: "%s sets the root%s" % (
                who, " to its surface %s" % names.local_text(message["local"]) if message else ""),
            "joined": lambda: "%s puts %s below %s" % (who, *(
                map(self.follower.sink, (message["child"], message["parent"])) if message
                else ("a sink", "its own"))),
            "began": lambda: "%s takes begin-frame %d" % (who, n[0]),
            "over": lambda: "%s learns that all is over" % who,
            "left": lambda: "%s closes" % who,
            "ticked": lambda: "Begin-frame %d goes out" % n[0],
            "drawn": lambda: "The display draws: the damage is %d by %d pixels at (%d, %d)" % (
                *n[2:], *n[:2]),
            "unchanged": lambda: "The display does not draw: nothing changed",
            "noroot": lambda: "The display does not draw: the root has no active frame",
            "toomuch": lambda: "The display does not draw: the tree is too large",
            "busy": lambda: "The display does not draw: the last frame is still in flight",
            "shown": lambda: "The frame in flight is done",
            "nothing": lambda: "The display is told of an end, but no frame is in flight",
            "ended": lambda: "The display says that all is over",
        }[e.reply]()

    def refused(self, e, facts):
        n = e.numbers
        why = "it is malformed, since " + RULES.get(n[1], "?") if n[0] == 2 else REFUSED.get(n[0], "?")
        if n[0] in (11, 12) or n[0] == 1 and not facts.message:
            return "%s asks for its next message, and is refused: %s" % (
                self.who(e.client), why.replace("for it yet", "untaken").replace("it has", "there are"))
        what = REFUSED_WORDS.get(facts.message["kind"] if facts.message else "", "A message")
        return "%s of %s is refused: %s" % (what, self.who(e.client), why)

    def accepted(self, e, place_in_log):
        facts, new = self.facts[place_in_log], e.numbers[1] == 1
        place = "on a new surface" if new else "as the %s on its surface" % ordinal(e.numbers[1])
        if facts.message:
            local = names.local_text(facts.message["local"])
            place = "on its new surface %s" % local if new else "as the %s on its surface %s" % (
                ordinal(e.numbers[1]), local)
            if facts.message["answers"]:
                place += " for begin-frame %d" % facts.message["answers"]
        end = "it waits" + self.waits(facts)
        if own(e) in e.effects:
            end = "it becomes active at once" + self.why(place_in_log, (e.client, e.numbers[0]))
        return "%s submits frame %d %s, and %s" % (self.who(e.client), e.numbers[0], place, end)

    def waits(self, facts):
        """What a submission waits for."""
        if not facts.waits:
            return ""
        return " for %s, at most until begin-frame %d" % (
            joined([self.follower.surface(d) for d in facts.waits]), facts.due)

    # what follows from it

    def why(self, place, number):
        """Why a submission became active at a place."""
        reason = self.facts[place].why.get(number)
        if reason is None or reason == []:
            return ""
        if isinstance(reason, int):
            return ", since its deadline, begin-frame %d, has come" % reason
        closed = [d for d in reason if d[0] in self.follower.closed]
        waited = [self.follower.surface(d) for d in reason if d not in closed]
        parts = ["%s was active" % joined(["%s or a newer one" % w for w in waited])] if waited else []
        parts += ["%s closed" % self.follower.sink(d[0]) for d in closed[:1]]
        return ", since " + " and ".join(parts)

    def effects(self, place):
        """What follows from the entry at a place, a sentence each."""
        e, kinds = self.log.entries[place], {}
        for kind, client, *rest in e.effects:
            if (kind, client, *rest) != own(e):
                kinds.setdefault(kind, []).append((client, *rest))
        for one in kinds.get("+", []):
            yield "%s becomes active%s" % (self.frame(*one), self.why(place, one))
        if "x" in kinds:
            yield be(joined([self.surface(*one) for one in kinds["x"]]), kinds["x"], "is", "are") + " destroyed"
        if "<" in kinds:
            yield be(joined(["resource %d of %s, lent %s," % (r, self.who(c), times(n))
                             for c, r, n in kinds["<"]]), kinds["<"], "goes", "go") + " back"
        for kind, said in (("d", "dropped"), ("p", "presented")):
            if kind in kinds:
                frames = joined([self.frame(*one) for one in kinds[kind]])
                yield "%s %s" % (be(frames, kinds[kind], "is", "are"), said)

    def sentence(self, said):
        """With a capital at its start, but names of clients stay as they are."""
        name = said.replace("/", " ").split(" ")[0]
        return said if name in self.clients else said[0].upper() + said[1:]

    def lines(self):
        """Numbered sentences of the whole log."""
        width = len(str(len(self.log.entries)))
        for place in range(len(self.log.entries)):
            said = [self.reply(place), *self.effects(place)]
            yield "%*d. %s." % (width, place + 1, ". ".join(map(self.sentence, said)))
        for c, r, n in self.log.held:
            yield "At the end resource %d of %s is still lent %s." % (r, self.who(c), times(n))
        for c, k in self.log.open:
            yield "At the end %s has no feedback yet." % self.frame(c, k)


def own(e):
    """The effect that the submission of this very entry becomes active."""
    return ("+", e.client, e.numbers[0]) if e.reply == "accepted" else None
