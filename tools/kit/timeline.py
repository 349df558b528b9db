"""A log as a picture: entries from left to right, a row for the display and one for each client,
a bar for each submission."""

from xml.sax.saxutils import escape, quoteattr

STEP, LANE, LEFT, TOP = 28, 16, 110, 34
FILL = {"wait": "#f4d58d", "active": "#8fb8de", "after": "#d5e3f1", "idle": "#e4e4e4"}
MARKS = [("wait", "accepted, waits"), ("active", "active"), ("after", "active after its feedback"), ("p", "presented"),
         ("d", "dropped"), ("<", "resources go back"), ("!", "message refused"), ("late", "late answer"),
         ("x", "surface destroyed"), ("idle", "nothing drawn or ended")]
SAID = {"stored": "load", "noted": "none", "reclaimed": "back", "rooted": "root", "joined": "join",
        "began": "await", "over": "over", "left": "close"}


class Bar:
    """A submission: the columns where it was accepted, became active, had its feedback, and was replaced or destroyed."""

    def __init__(self, start, surface):
        self.start, self.surface, self.active, self.end, self.feedback, self.lane = start, surface, None, None, None, 0
        self.gone = None

    def until(self, last):
        """The last column of the bar: it has its feedback, and is active no more."""
        if self.end is None or self.active is not None and self.gone is None:
            return last
        return max(self.end, self.gone or 0)


def bars(entries):
    """The bars by (client, ordinal)."""
    got, surfaces, active = {}, {}, {}
    for column, e in enumerate(entries):
        if e.reply == "accepted":
            surfaces[e.client] = surfaces.get(e.client, 0) + (e.numbers[1] == 1)
            got[e.client, e.numbers[0]] = Bar(column, (e.client, surfaces[e.client]))
        for kind, *who in e.effects:
            bar = got.get(tuple(who[:2]))
            if kind == "+" and bar:
                bar.active = column
                leave(active.get(bar.surface), column)
                active[bar.surface] = bar
            elif kind == "x":
                leave(active.pop(tuple(who), None), column)
            elif kind in "dp" and bar:
                bar.end, bar.feedback = column, kind
    return got


def leave(bar, column):
    if bar:
        bar.gone = column


def late(entries, facts):
    """The columns at which a client answers a begin-frame that is not the newest any more."""
    tick, got = 0, set()
    for column, (e, fact) in enumerate(zip(entries, facts)):
        tick = e.numbers[0] if e.reply == "ticked" else tick
        if fact.message and e.reply in ("accepted", "noted"):
            number = fact.message["answers" if e.reply == "accepted" else "number"]
            if 0 < number < tick:
                got.add(column)
    return got


def lanes(own, last):
    """Gives each bar of a client the first lane that is free; the number of lanes."""
    free = []
    for bar in sorted(own, key=lambda b: b.start):
        for lane, until in enumerate(free + [-1]):
            if until < bar.start:
                bar.lane = lane
                free[lane:lane + 1] = [bar.until(last)]
                break
    return max(1, len(free))


class Drawing:
    """The parts of the picture, which shows the columns from `first` up to `last`."""

    def __init__(self, first, last):
        self.parts, self.first, self.last = [], first, last

    def left(self, column):
        """Where a column begins; those outside are at the edges."""
        return LEFT + (min(max(column, self.first), self.last) - self.first) * STEP

    def mid(self, column):
        return self.left(column) + (STEP / 2 if self.first <= column < self.last else 0)

    def shows(self, column):
        return self.first <= column < self.last

    def add(self, name, title=None, body="", **values):
        words = " ".join("%s=%s" % (k.replace("_", "-"), quoteattr(str(v)))
                         for k, v in values.items())
        inner = ("<title>%s</title>" % escape(title) if title else "") + escape(body)
        self.parts.append("<%s %s>%s</%s>" % (name, words, inner, name))

    def text(self, x, y, body, size=11, anchor="start", fill="#222222", title=None):
        self.add("text", title, body, x=x, y=y, font_size=size, text_anchor=anchor, fill=fill,
                 font_family="sans-serif")

    def box(self, x, y, w, h, fill, title=None, stroke="none"):
        self.add("rect", title, x=x, y=y, width=w, height=h, fill=fill, stroke=stroke)

    def line(self, x, y, x2, y2, stroke, width=1):
        self.add("line", x1=x, y1=y, x2=x2, y2=y2, stroke=stroke, stroke_width=width)

    def mark(self, kind, x, y, title=None):
        """A small sign with its middle at x, y."""
        if kind == "p":
            self.add("circle", title, cx=x, cy=y, r=5, fill="#2e7d32", stroke="#ffffff")
        elif kind == "d":
            self.add("path", title, d="M%g %gl8 8m0 -8l-8 8" % (x - 4, y - 4), fill="none",
                     stroke="#666666", stroke_width=2)
        elif kind == "<":
            self.add("path", title, d="M%g %gl5 -6v4h6v4h-6v4z" % (x - 5, y), fill="#7b1fa2",
                     stroke="none")
        elif kind == "!":
            self.add("path", title, d="M%g %gl5 10h-10z" % (x, y - 5), fill="#d32f2f",
                     stroke="none")
        elif kind == "late":
            self.add("path", title, d="M%g %gm-5 0a5 5 0 1 0 10 0a5 5 0 1 0 -10 0m5 -3v3h3" % (x, y), fill="#ffffff",
                     stroke="#e65100", stroke_width=1.5)
        elif kind == "x":
            self.box(x - 4, y - 4, 8, 8, "#222222", title)
        else:
            self.box(x - 8, y - 5, 16, 10, FILL[kind], title)


def svg(story, first=0, last=None):
    """The text of the picture of the entries from `first` up to `last`, counted from 0."""
    entries, all_bars = story.log.entries, bars(story.log.entries)
    last = len(entries) if last is None else last
    clients = sorted({e.client for e in entries if e.client} | {c for c, _ in all_bars})
    rows, y = {}, TOP + 30
    for client in clients:
        own = [b for (c, _), b in all_bars.items() if c == client and b.start < last and b.until(len(entries)) >= first]
        count = lanes(own, len(entries))
        rows[client] = (y, count)
        y += (count + 2) * LANE + 10
    width, height = max(LEFT + (last - first) * STEP, 10 + sum(34 + 6 * len(said) for _, said in MARKS)) + 20, y + 44
    out = Drawing(first, last)
    out.box(0, 0, width, height, "#ffffff")
    columns(out, entries, story, y)
    for client, (top, count) in rows.items():
        out.line(8, top - 6, width - 8, top - 6, "#dddddd")
        out.text(10, top + 12, story.who(client), 12)
    for (client, number), bar in all_bars.items():
        if bar.start < last and bar.until(len(entries)) >= first:
            top = rows[client][0] + (bar.lane + 2) * LANE - 2
            submission(out, bar, top, len(entries), (client, number), story)
    behind = late(entries, story.facts)
    for column, e in enumerate(entries[first:last], first):
        marks(out, e, column, rows, story, column in behind)
    legend(out, height - 18)
    return ('<svg xmlns="http://www.w3.org/2000/svg" width="%d" height="%d" '
            'viewBox="0 0 %d %d">\n%s\n</svg>\n'
            % (width, height, width, height, "\n".join(out.parts)))


def columns(out, entries, story, bottom):
    """The display's row, and a stripe for each of its entries."""
    out.text(10, TOP + 12, "display", 12)
    tints = {"begin": "#e3f2fd", "draw": "#fff3e0", "done": "#e8f5e9", "over": "#eeeeee"}
    for column, e in enumerate(entries[out.first:out.last], out.first):
        x, title = out.left(column), "%d. %s" % (column + 1, story.reply(column))
        if e.event != "c":
            idle = e.event in ("draw", "done") and e.reply not in ("drawn", "shown")
            out.box(x + 1, TOP - 6, STEP - 2, bottom - TOP, "#f0f0f0" if idle else tints[e.event],
                    title)
            out.text(x + STEP / 2, TOP + 6, e.event, 9, "middle", "#888888" if idle else "#222222")
            if e.event == "begin":
                out.text(x + STEP / 2, TOP + 17, str(e.numbers[0]), 9, "middle")
        if (column + 1) % 5 == 0 or column == out.first:
            out.text(x + STEP / 2, TOP - 12, str(column + 1), 9, "middle", "#888888")


def submission(out, bar, top, last, who, story):
    """The bar of a submission: it waits, is active until its feedback, and paler as long as it is active or drawn after."""
    title = story.frame(*who)
    fed = out.left(last) if bar.end is None else out.mid(bar.end)
    right = out.left(last) if bar.until(last) == last else out.mid(bar.until(last))
    x = out.mid(bar.start) - (9 if out.shows(bar.start) else 0)
    middle = right if bar.active is None else x if bar.active == bar.start else out.mid(bar.active)
    full = min(fed, right) if bar.gone is None else min(fed, out.mid(bar.gone))
    if middle > x:
        out.box(x, top, middle - x, LANE - 4, FILL["wait"], title + " waits" + story.waits(story.facts[bar.start]))
    if full > middle:
        said = "" if bar.active is None else story.why(bar.active, who)
        out.box(middle, top, full - middle, LANE - 4, FILL["active"], title + " is active" + said)
    if right > max(full, middle):
        said = " is replaced and still drawn" if bar.gone is not None and (bar.end is None or bar.gone < bar.end) else (
            " had its feedback and is still active")
        out.box(max(full, middle), top, right - max(full, middle), LANE - 4, FILL["after"], title + said)
    if right <= x + 9 and out.shows(bar.start):
        out.box(x, top, 18, LANE - 4, FILL["wait" if bar.active is None else "active"], title)
    out.text(x + 3, top + 10, str(who[1]), 9)
    if bar.feedback and out.shows(bar.end):
        out.mark(bar.feedback, fed, top + (LANE - 4) / 2,
                 title + (" is presented" if bar.feedback == "p" else " is dropped"))


def marks(out, e, column, rows, story, is_late):
    """What stands above the bars: messages, refusals, late answers, returns, destroyed surfaces."""
    if e.client:
        y = rows[e.client][0] + 6
        title = "%d. %s" % (column + 1, story.reply(column))
        if e.reply == "refused":
            out.mark("!", out.mid(column), y, title)
        elif e.reply in SAID:
            out.text(out.mid(column), y + 4, SAID[e.reply], 9, "middle", "#555555", title)
        if is_late:
            out.mark("late", out.mid(column), y + (10 if e.reply in SAID else 0), title + ": a newer begin-frame is there")
    shift = {}
    for kind, client, *rest in e.effects:
        if kind in "<x" and client in rows:
            at = shift[client] = shift.get(client, -6) + 6
            said = ("resource %d goes back, lent %d" % tuple(rest) if kind == "<"
                    else "%s is destroyed" % story.surface(client, rest[0]))
            out.mark(kind, out.mid(column) + at, rows[client][0] + LANE + 3, said)


def legend(out, y):
    x = 10
    for kind, said in MARKS:
        out.mark(kind, x + 8, y - 4)
        out.text(x + 20, y, said, 10)
        x += 34 + 6 * len(said)
