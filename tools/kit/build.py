"""Makes message files and a schedule from a scene's text. docs/SCENES.md says what the text may contain."""

import re
from pathlib import Path

try:
    import tomllib
except ModuleNotFoundError:
    raise SystemExit("the tools need Python 3.11 or a later one") from None

from . import colours, names, png, repeat, until, wire
from .frame import Frames
from .lines import Lines
from .table import Table, expect, text, whole, whole_numbers
from .words import schedule_bytes, unfold
from .wrong import Wrong, file, inside

TICKS = 60           # how many rounds a scene without a schedule is run


class Scene:
    """What a scene's text gives: files by client, a schedule or None, the display or None."""

    def __init__(self, source, folder):
        self.folder = folder
        self.colours, self.sinks, self.numbers = {}, {}, {}
        top = self.table(source)
        try:
            self.read(top)
        except Wrong as wrong:
            raise Wrong("line %d: %s" % (Lines(source).line(wrong.keys), wrong)) from None

    def table(self, source):
        try:
            return Table(tomllib.loads(source))
        except ValueError as error:
            end = "line %d, the end" % (source.rstrip().count("\n") + 1)
            hint = "" if "{" not in source else " (a brace stays on one line, a list may go over several)"
            raise Wrong("no TOML: " + str(error).replace("end of document", end) + hint) from None
        except RecursionError:
            raise Wrong("no TOML: nested too deeply") from None

    def read(self, top):
        top.take("colours", self.own_colours, None)
        self.parts = top.take("parts", lambda v: expect(v, dict), {})
        self.display = top.take("display", display_size, None)
        schedule = top.take("schedule", text, None)
        clients = top.items("client", Table, "client")
        top.end()
        if not 1 <= len(clients) <= 16:
            raise Wrong("%d clients, not 1 to 16" % len(clients))
        self.names = []
        own = [self.introduce(place, client) for place, client in enumerate(clients, 1)]
        self.files = []
        for place, (client, sink) in enumerate(zip(clients, own), 1):
            with inside("client %d" % place, "client", place - 1):
                if sink in own[:place - 1]:
                    with inside("sink", "sink"):
                        raise Wrong("%s is taken by an earlier client" % names.sink_text(sink))
                self.files.append(Client(self, client, sink).bytes())
        self.schedule = None
        if schedule is not None:
            with inside("schedule", "schedule"):
                self.schedule = schedule_bytes(schedule, len(clients), self.numbers, self.display,
                                               lambda: until.Waits(self.files, self.display or (1, 1)))

    def own_colours(self, value):
        for name, colour in expect(value, dict).items():
            with inside(name, name):
                if not re.fullmatch(r"[A-Za-z][A-Za-z0-9_-]*", name):
                    raise Wrong("a colour's name is letters, digits, '-' and '_'")
                self.colours[name] = self.colour(colour)

    def introduce(self, place, client):
        """A client's sink; notes its name."""
        with inside("client %d" % place, "client", place - 1):
            sink = client.take("sink", lambda v: names.sink(text(v), {}), (place, 1))
            name = client.take("name", self.own_name, None)
            if name is not None:
                self.sinks[name], self.numbers[name] = sink, place
            self.names.append(name or "client %d" % place)
        return sink

    def own_name(self, value):
        name = text(value)
        if not re.fullmatch(r"[A-Za-z][A-Za-z0-9_-]*", name) or re.fullmatch(
                r"begin|draw|done|over|c[0-9]*", name):
            raise Wrong("%r: letters, digits, '-' and '_', no event's name" % name)
        if name in self.sinks:
            raise Wrong("%r is taken by an earlier client" % name)
        return name

    def colour(self, value):
        return colours.parse(text(value), self.colours)

    def surface(self, value):
        return names.surface(text(value), self.sinks)

    def span(self, value):
        return names.span(text(value), self.sinks)


def message_format(value):
    if whole(value) not in (1, 2):
        raise Wrong("%d is no format; there are 1 and 2" % value)
    return value


def display_size(value):
    w, h = whole_numbers(value, (2,))
    if not (1 <= w <= 2048 and 1 <= h <= 2048):
        raise Wrong("%d by %d: sides are 1 to 2048" % (w, h))
    return w, h


class Client:
    """One client's file."""

    def __init__(self, scene, table, sink):
        form = table.take("format", message_format, None)
        self.scene, self.sink, self.frames = scene, sink, Frames(scene, form)
        self.messages = [one for some in table.items("messages", self.item, "message", []) for one in some]
        table.end()
        self.form = form if form is not None else 2 if self.frames.blends else 1

    def bytes(self):
        return wire.write({"format": self.form, "sink": self.sink, "messages": self.messages})

    def item(self, value):
        """The messages of an item of the list: one, or more if it repeats."""
        if not isinstance(value, dict) or "repeat" not in value:
            return [self.message(value)]
        table = Table(value)
        count = table.take("repeat", whole)
        if not 1 <= count <= repeat.MOST:
            with inside("repeat", "repeat"):
                raise Wrong("%d: not 1 to %d" % (count, repeat.MOST))
        got = []
        for i in range(1, count + 1):
            with inside("i = %d" % i):
                if table.has("messages"):
                    made = Table(repeat.put(table.left, i))
                    got += made.items("messages", self.message, "message")
                    made.end()
                else:
                    got.append(self.message(repeat.put(table.left, i)))
        return got

    def message(self, value):
        got = self.one(value)
        self.frames.awaits += got["kind"] == "await"
        wire.trial(wire.MESSAGE, got)
        return got

    def one(self, value):
        if isinstance(value, str):
            return self.worded(value.split())
        table = Table(value)
        kinds = [k for k in ("submit", "upload") if table.has(k)]
        if len(kinds) != 1:
            raise Wrong("a message in braces has either 'submit' or 'upload'")
        return self.frames.submit(table) if kinds == ["submit"] else self.upload(table)

    def worded(self, words):
        """A message of a few words."""
        shapes = {
            "upload": ("ID WxH COLOUR", lambda i, s, c: self.block(
                names.count(i), names.size(s), self.scene.colour(c))),
            "did-not-produce": ("NUMBER", lambda n: {"number": names.count(n)}),
            "reclaim": ("", dict), "await": ("", dict), "close": ("", dict),
            "set-root": ("LOCAL", lambda l: {"local": names.local(l)}),
            "hierarchy": ("PARENT CHILD", lambda p, c: {
                "parent": names.sink(p, self.scene.sinks),
                "child": names.sink(c, self.scene.sinks)}),
        }
        kind = words[0] if words else ""
        if kind not in shapes:
            raise Wrong("%r is no message; in words there are %s, in braces submit and upload"
                        % (kind, ", ".join(shapes)))
        shape, make = shapes[kind]
        if len(words) - 1 != len(shape.split()):
            raise Wrong("%r is written '%s'" % (" ".join(words), (kind + " " + shape).strip()))
        with inside(kind):
            return {"kind": kind, **make(*words[1:])}

    def block(self, number, size, colour):
        self.frames.blocks[number] = size
        if not (1 <= size[0] <= 256 and 1 <= size[1] <= 256):
            raise Wrong("%d by %d: sides are 1 to 256" % size)
        return {"id": number, "size": size, "pixels": bytes(colour) * (size[0] * size[1])}

    def upload(self, table):
        number = table.take("upload", whole)
        given = [k for k in ("colour", "rows", "png") if table.has(k)]
        if len(given) != 1:
            raise Wrong("an upload has one of 'colour' (with 'size'), 'rows' and 'png'")
        if given == ["colour"]:
            size = table.take("size", lambda v: whole_numbers(v, (2,)))
            made = self.block(number, size, table.take("colour", self.scene.colour))
        else:
            reader = self.rows if given == ["rows"] else self.picture
            made = {"id": number, **table.take(given[0], reader)}
            self.frames.blocks[number] = made["size"]
        table.end()
        return {"kind": "upload", **made}

    def rows(self, value):
        rows = []
        for place, row in enumerate(expect(value, list), 1):
            with inside("row %d" % place, place - 1):
                pixels = [bytes(self.scene.colour(w)) for w in unfold(text(row))]
                if rows and len(pixels) != len(rows[0]):
                    raise Wrong("%d pixels, the first row has %d" % (len(pixels), len(rows[0])))
                rows.append(pixels)
        size = (len(rows[0]) if rows else 0, len(rows))
        return {"size": size, "pixels": b"".join(p for row in rows for p in row)}

    def picture(self, value):
        name = self.scene.folder / text(value)
        with file(name):
            w, h, pixels = png.read(Path(name).read_bytes())
        return {"size": (w, h), "pixels": pixels}


def scene(name):
    """The scene of a file, or of `scene.toml` in a folder."""
    name = Path(name) / "scene.toml" if Path(name).is_dir() else name
    with file(name):
        data = Path(name).read_bytes()
        try:
            source = data.decode("utf-8")
        except UnicodeDecodeError:
            raise Wrong("no UTF-8 text") from None
        return Scene(source.replace("\r\n", "\n"), Path(name).parent)


def store(made, folder):
    """Writes a scene's files into a folder, and removes those that another scene left; the words to run it: by its schedule, or, if it
    has none, on threads; None if it has no display."""
    folder = Path(folder)
    with file(folder):
        folder.mkdir(parents=True, exist_ok=True)
        for old in folder.iterdir():
            if re.fullmatch(r"c([1-9]|1[0-6])\.viz|schedule", old.name):
                old.unlink()
        names_ = [folder / ("c%d.viz" % k) for k in range(1, len(made.files) + 1)]
        for name, data in zip(names_, made.files):
            name.write_bytes(data)
        if made.schedule is not None:
            (folder / "schedule").write_bytes(made.schedule)
    if not made.display:
        return None
    if made.schedule is None:
        return ["run", "--paced", *map(str, (*made.display, TICKS, folder / "frames", folder / "log", *names_))]
    return ["step", *map(str, (*made.display, *(folder / name for name in ("schedule", "frames", "log")), *names_))]
