"""How client files, schedules and pictures are spelled, for the scripts that write worked rows: each function answers
the bytes of its part. Rows test the format by these, so nothing here reads the program.
"""
import struct

RED, GREEN, BLUE, WHITE = (255, 0, 0, 255), (0, 255, 0, 255), (0, 0, 255, 255), (255,) * 4
BLACK, GREY, DARK = (0, 0, 0, 255), (128, 128, 128, 255), (128, 0, 0, 255)
PIXELS = {"r": RED, "g": GREEN, "b": BLUE, "w": WHITE, ".": BLACK, "h": GREY, "d": DARK}
OVER, SRC, DST_IN = 0, 1, 2
CLIENTS = "abcdeghijkmnopqr"      # the names of clients' files; f, l and s stand for others

# ---------------------------------------------------------------- spelling of client files


def sink(k):
    return struct.pack("<II", k, 1)


NO_SINK = struct.pack("<II", 9, 9)


def local(parent, child, token=1):
    return struct.pack("<II", parent, child) + token.to_bytes(16, "little")


def surface(k, parent=1, child=1, token=1):
    return sink(k) + local(parent, child, token)


def reach(end, start=None):
    """A range of surfaces."""
    return b"\0" + end if start is None else b"\1" + start + end


def rect(r):
    return struct.pack("<iiii", *r)


def solid(colour):
    return b"\1" + bytes(colour)


def tile(resource):
    return b"\2" + struct.pack("<IHH", resource, 0, 0)


def embed(shown, background=BLACK):
    return b"\3" + shown + bytes(background)


def group(number):
    return b"\4" + struct.pack("<I", number)


def quad(material, area, offset=(0, 0), visible=None, clip=None, opacity=255, mode=None):
    """A quad. It has a mode in files of format 2 alone."""
    return (struct.pack("<ii", *offset) + rect(area) + rect(visible or area)
            + (b"\0" if clip is None else b"\1" + rect(clip)) + bytes([opacity])
            + (b"" if mode is None else bytes([mode])) + material)


RED_QUAD = quad(solid(RED), (1, 0, 2, 2))


def render_pass(number, size, quads, damage=None, at=(0, 0)):
    """A pass whose output has this size, with its first pixel at a point."""
    whole = (*at, *size)
    return (struct.pack("<I", number) + rect(whole) + rect(damage or whole)
            + struct.pack("<H", len(quads)) + b"".join(quads))


def frame(size=(4, 2), quads=(RED_QUAD,), damage=None, passes=None, waits=(), references=(),
          resources=(), deadline=255, token=7, answers=0):
    passes = [render_pass(1, size, quads, damage)] if passes is None else passes
    listed = [struct.pack("<IHH", *r) for r in resources]
    parts = [[len(part)] + list(part) for part in (waits, references, listed, passes)]
    return struct.pack("<IIB", token, answers, deadline) + b"".join(
        bytes(head[:1]) + b"".join(head[1:]) for head in parts)


def submit(parent, child, token=1, **parts):
    return b"\2" + local(parent, child, token) + frame(**parts)


def upload(number, size, colour):
    w, h = size
    return b"\1" + struct.pack("<IHH", number, w, h) + bytes(colour) * (w * h)


def produced_nothing(number):
    return b"\3" + struct.pack("<I", number)


def root(token=1):
    return b"\5" + local(1, 1, token)


def relation(parent, child):
    return b"\6" + parent + child


RECLAIM, AWAIT, CLOSE = b"\4", b"\7", b"\x08"
UPLOAD, ROOT = upload(1, (1, 1), RED), root()
LISTED = [(1, 1, 1)]


def client(k, *messages, form=1):
    return b"VIZC" + struct.pack("<H", form) + sink(k) + struct.pack("<I", len(messages)) + b"".join(
        messages)


def schedule(words):
    codes = {"begin": 0x11, "draw": 0x12, "done": 0x13, "over": 0x14}
    return bytes(codes[word] if word in codes else int(word[1:]) for word in words.split())


def picture(rows):
    return b"".join(bytes(PIXELS[letter]) for row in rows for letter in row)


def replaced(data, at, new, until=None):
    """The bytes with others from a place on, in place of those until another; as many of them if left out."""
    return data[:at] + new + data[at + len(new) if until is None else until:]


ONE_QUAD = bytes.fromhex(
    "56495a43" "0100" "0100000001000000" "02000000" "02"
    "0100000001000000" "01000000000000000000000000000000"
    "07000000" "00000000" "ff" "000000" "01" "01000000"
    "00000000000000000400000002000000" "00000000000000000400000002000000" "0100"
    "0000000000000000" "01000000000000000200000002000000" "01000000000000000200000002000000"
    "00" "ff" "01" "ff0000ff" "05"
    "0100000001000000" "01000000000000000000000000000000")
assert client(1, submit(1, 1), ROOT) == ONE_QUAD and len(ONE_QUAD) == 166


UNITS = (1, 4, 8, 32, 33, 47)     # how long what is repeated in a file may be: a byte, a texel, .., a quad


def pieces(data):
    """A file in pieces: hexadecimal digits, and what is repeated once, with an `x` and how often behind it."""
    found, plain, at = [], b"", 0
    while at < len(data):
        size, count = best_repeat(data, at)
        if size * count > 2 * size + 8:
            found += ([plain.hex()] if plain else []) + ["%sx%d" % (data[at:at + size].hex(), count)]
            plain, at = b"", at + size * count
        else:
            plain, at = plain + data[at:at + 1], at + 1
    return found + ([plain.hex()] if plain else [])


def best_repeat(data, at):
    """What is repeated from a place on and takes in most bytes: its size, and how often it is there."""
    best = (1, 1)
    for size in UNITS:
        unit, count = data[at:at + size], 1
        while data[at + size * count:at + size * (count + 1)] == unit:
            count += 1
        if size * count > best[0] * best[1]:
            best = (size, count)
    return best
