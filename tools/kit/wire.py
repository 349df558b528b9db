"""Message files as bytes. Each format is written down once, as a field that both reads and writes.

A field is a function of an end (`Reader` or `Writer`) and a value. A reader ignores the value and
returns what it read; a writer tests the value, writes it and returns it.
A record is a dict, a rectangle (x, y, w, h), a sink (client, number), a local id
(parent, child, token), a surface (sink, local), a range (start or None, end), pixels are bytes.
"""

import struct

from .wrong import Wrong, inside

FILE_LIMIT = 16777216
TOKEN_LIMIT = 2 ** 128 - 1


class Reader:
    reads = True

    def __init__(self, data):
        self.data, self.place, self.start = data, 0, 0

    def raw(self, count, _value):
        if len(self.data) - self.place < count:
            raise Wrong("refused at %d: Short" % len(self.data))
        self.start, self.place = self.place, self.place + count
        return self.data[self.start:self.place]

    def test(self, good, rule, _what):
        if not good:
            raise Wrong("refused at %d: %s" % (self.start, rule))


class Writer:
    reads = False

    def __init__(self):
        self.data = bytearray()

    def raw(self, _count, value):
        self.data += value
        return value

    def test(self, good, _rule, what):
        if not good:
            raise Wrong(what)


# ---------------------------------------------------------------- small fields

BOUNDS = {"B": (0, 255), "H": (0, 65535), "I": (0, 2 ** 32 - 1), "i": (-2 ** 31, 2 ** 31 - 1)}


def numbers(form, good, rule, what):
    """A tuple of numbers as one field, with a test over all of them."""
    size = struct.calcsize("<" + form)

    def field(end, value):
        if not end.reads:
            fits = all(BOUNDS[f][0] <= n <= BOUNDS[f][1] for f, n in zip(form, value))
            end.test(fits and good(value), rule, "%s: %s" % (shown(value), what))
        value = struct.unpack("<" + form, end.raw(size, None if end.reads else
                                                  struct.pack("<" + form, *value)))
        end.test(good(value), rule, what)
        return value
    return field


def shown(value):
    return ", ".join(map(str, value))


def number(form, low=None, high=None, rule="Limit"):
    least, most = BOUNDS[form]
    low, high = least if low is None else low, most if high is None else high
    one = numbers(form, lambda v: low <= v[0] <= high, rule, "not %d to %d" % (low, high))
    return lambda end, value: one(end, (value,))[0]


def record(**fields):
    """Fields by name, one after the other."""
    def field(end, value):
        got = {}
        for name, part in fields.items():
            with inside(None if hasattr(part, "items") else name, name):
                got[name] = part(end, None if end.reads else value[name])
        return got
    return field


def many(count, item, name):
    """A number of items, then the items."""
    def field(end, items):
        total = count(end, None if end.reads else len(items))
        got = []
        for place in range(total):
            with inside("%s %d" % (name, place + 1), place):
                got.append(item(end, None if end.reads else items[place]))
        return got
    field.items = name      # errors name the item, not the list
    return field


def optional(item):
    def field(end, value):
        there = FLAG(end, None if end.reads else int(value is not None))
        return item(end, value) if there else None
    return field


def is_rect(r):
    return not any(r) or (all(-16384 <= n <= 16384 for n in r[:2])
                          and all(1 <= n <= 16384 for n in r[2:]))


FLAG = number("B", 0, 1, "Tag")
U8, U32 = number("B"), number("I")
ID, SIDE = number("I", 1), number("H", 1, 256)
COORDINATE = number("i", -16384, 16384)
SINK = numbers("II", lambda s: True, "Limit", "numbers are 0 to 4294967295")
OWN_SINK = numbers("II", any, "Limit", "a client's own sink is not 0.0")
RECT = numbers("iiii", is_rect, "Limit",
               "x and y are within 16384 either way, sides 1 to 16384, or all four are 0")
COLOUR = numbers("BBBB", lambda c: max(c[:3]) <= c[3], "Colour",
                 "red, green and blue are at most alpha (colours are premultiplied)")


def local(end, value):
    good = "parent and child are 1 to 4294967295, the token 1 to 2^128 - 1"
    if end.reads:
        raw = end.raw(24, None)
        value = (*struct.unpack("<II", raw[:8]), int.from_bytes(raw[8:], "little"))
        end.test(all(value), "Limit", good)
        return value
    end.test(all(1 <= n <= 2 ** 32 - 1 for n in value[:2]) and 1 <= value[2] <= TOKEN_LIMIT,
             "Limit", "%d.%d#%d: %s" % (*value, good))
    end.raw(24, struct.pack("<II", *value[:2]) + value[2].to_bytes(16, "little"))
    return value


def surface(end, value):
    sink = SINK(end, value and value[0])
    return sink, local(end, value and value[1])


def span(end, value):
    start = optional(surface)(end, value and value[0])
    return start, surface(end, value and value[1])


def pixels(end, upload):
    """The sides of a block and its pixels, row by row."""
    with inside("size"):
        w = SIDE(end, upload and upload["size"][0])
        h = SIDE(end, upload and upload["size"][1])
    if not end.reads:
        end.test(len(upload["pixels"]) == w * h * 4, "Limit",
                 "%d pixels for %d by %d" % (len(upload["pixels"]) // 4, w, h))
    start = end.place if end.reads else 0
    whole = min(w * h * 4, (len(end.data) - start) // 4 * 4) if end.reads else w * h * 4
    data = end.raw(whole, upload and upload["pixels"])
    for at in range(0, whole, 4):
        r, g, b, a = data[at:at + 4]
        if r > a or g > a or b > a:
            if end.reads:
                end.start = start + at
            end.test(False, "Colour", "pixel %d: red, green and blue are at most alpha"
                     % (at // 4 + 1))
    end.raw(w * h * 4 - whole, b"")
    return {"size": (w, h), "pixels": bytes(data)}


# ---------------------------------------------------------------- frames and messages

MATERIALS = {"solid": record(solid=COLOUR),
             "tile": record(tile=ID, tx=number("H", 0, 255), ty=number("H", 0, 255)),
             "surface": record(surface=span, background=COLOUR),
             "pass": record(**{"pass": U32})}
BLENDS = ("over", "src", "dstin")


def blend(end, value):
    """The mode, which only the second format has."""
    if end.format == 1:
        end.test(end.reads or value == 0, "Limit", "format 1 has no blend modes but over")
        return 0
    return number("B", 0, 2, "Tag")(end, value)


def tagged(kinds, tag):
    """A tag that says which record follows."""
    names = list(kinds)

    def field(end, value):
        kind = names[tag(end, None if end.reads else names.index(value["kind"]) + 1) - 1]
        return {"kind": kind, **kinds[kind](end, value)}
    return field


def offset(end, value):
    return COORDINATE(end, value and value[0]), COORDINATE(end, value and value[1])


QUAD = record(offset=offset, area=RECT, visible=RECT, clip=optional(RECT), opacity=U8, blend=blend,
              material=tagged(MATERIALS, number("B", 1, 4, "Tag")))


def quad_count(end, value):
    """The quads of all passes of a frame together are limited."""
    total = number("H", 0, 1024 - end.quads)(end, value)
    end.quads += total
    return total


def deadline(end, value):
    raw = U8(end, 255 if value is None else value)
    end.test(raw <= 64 or raw == 255, "Limit", "%s: a deadline is 0 to 64" % value)
    end.test(end.reads or value != 255, "Limit", "255: a deadline is 0 to 64")
    return None if raw == 255 else raw


PASS = record(id=U32, output=RECT, damage=RECT, quads=many(quad_count, QUAD, "quad"))


def passes(end, value):
    end.quads = 0
    return many(number("B", 0, 16), PASS, "pass")(end, value)


passes.items = "pass"

FRAME = record(
    token=U32, answers=U32, deadline=deadline,
    dependencies=many(number("B", 0, 16), surface, "dependency"),
    references=many(number("B", 0, 64), span, "reference"),
    resources=many(number("B", 0, 64), record(id=ID, w=SIDE, h=SIDE), "resource"),
    passes=passes)


def submit(end, value):
    own = local(end, value and value["local"])
    return {"local": own, **FRAME(end, value)}


def upload(end, value):
    return {"id": ID(end, value and value["id"]), **pixels(end, value)}


MESSAGES = {"upload": upload, "submit": submit, "did-not-produce": record(number=U32),
            "reclaim": record(), "set-root": record(local=local),
            "hierarchy": record(parent=SINK, child=SINK), "await": record(), "close": record()}
MESSAGE = tagged(MESSAGES, number("B", 1, 8, "Tag"))


def trial(field, value):
    """An error where a message file of the newest format cannot have the value."""
    end = Writer()
    end.format, end.quads = 2, 0
    field(end, value)


# ---------------------------------------------------------------- files


def whole(end, value):
    end.test(end.raw(4, b"VIZC") == b"VIZC" or not end.reads, "Magic", "")
    end.format = number("H", 1, 2, "Version")(end, value and value["format"])
    sink = OWN_SINK(end, value and value["sink"])
    listed = many(number("I", 0, 4096), MESSAGE, "message")(end, value and value["messages"])
    return {"format": end.format, "sink": sink, "messages": listed}


def read(data):
    """The file that the bytes spell."""
    try:
        return located(data)
    except Wrong as wrong:
        raise Wrong(wrong.what) from None


def located(data):
    """The same; an error has the message and the field in its places."""
    if len(data) > FILE_LIMIT:
        raise Wrong("refused at %d: Long" % FILE_LIMIT)
    end = Reader(data)
    got = whole(end, None)
    if end.place != len(data):
        raise Wrong("refused at %d: Trailing" % end.place)
    return got


def write(value):
    """The bytes of a file; a value out of its range is an error."""
    end = Writer()
    whole(end, value)
    if len(end.data) > FILE_LIMIT:
        raise Wrong("%d bytes, more than the %d of a file" % (len(end.data), FILE_LIMIT))
    return bytes(end.data)
