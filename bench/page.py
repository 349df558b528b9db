"""Writes the files of a page of 1,280 by 720 pixels: `page.py FOLDER [EVENTS [hidden]]`.

Client 1 is the page: a background, fifteen tiles of 256 by 240 pixels, a toolbar of eight coloured buttons, and two embedded
children. Client 2 is a tab that moves a bar of 64 by 720 pixels at each begin-frame; client 3 is a caret of 2 by 20 that
blinks. The schedule has at most EVENTS events (256 by default): the page's messages, then rounds of Begin, a frame of each
child, Draw and Done. With the word `hidden` an opaque quad of the page lies in front of everything.
"""

import os
import struct
import sys

WIDE, HIGH = 1280, 720
SINKS = {1: (1, 1), 2: (2, 1), 3: (3, 1)}
SIZES = {1: (WIDE, HIGH), 2: (1024, 640), 3: (64, 64)}


def local(number):
    return struct.pack("<II", 1, number) + (1).to_bytes(16, "little")


def rectangle(x, y, w, h):
    return struct.pack("<iiii", x, y, w, h)


def quad(x, y, w, h, material, opacity=255):
    return struct.pack("<ii", x, y) + rectangle(0, 0, w, h) + rectangle(0, 0, w, h) + bytes([0, opacity, 0]) + material


def solid(r, g, b, a=255):
    return b"\1" + bytes([r, g, b, a])


def tile(resource):
    return b"\2" + struct.pack("<IHH", resource, 0, 0)


def surface(client):
    shown = struct.pack("<II", *SINKS[client]) + local(1)
    return b"\3" + b"\0" + shown + bytes(4)


def submission(client, answered, damage, quads, listings=()):
    w, h = SIZES[client]
    parts = [b"\2", local(1), struct.pack("<IIB", 0, answered, 255), b"\0\0", bytes([len(listings)])]
    parts += [struct.pack("<IHH", *one) for one in listings]
    parts += [b"\1", struct.pack("<I", 1), rectangle(0, 0, w, h), rectangle(*damage), struct.pack("<H", len(quads)), *quads]
    return b"".join(parts)


def page(hidden):
    """The page's messages: a tile for each place, its frame, the children below its sink, and the root."""
    side, high = 256, 240
    places = [(x, y) for y in range(0, HIGH, high) for x in range(0, WIDE, side)]
    uploads = [b"\1" + struct.pack("<IHH", k, side, high)
               + bytes(v for i in range(side * high) for v in ((i * k) % 251, (i + k) % 256, (i // side) % 256, 255))
               for k in range(1, len(places) + 1)]
    quads = [quad(8 + 64 * k, 8, 56, 32, solid(40 * k % 200, 90, 160, 200), 200 if k % 2 else 255) for k in range(8)]
    quads += [quad(300, 200, 64, 64, surface(3)), quad(128, 60, 1024, 640, surface(2))]
    quads += [quad(x, y, side, high, tile(k + 1)) for k, (x, y) in enumerate(places)]
    quads.append(quad(0, 0, WIDE, HIGH, solid(255, 255, 255)))
    if hidden:
        quads.insert(0, quad(0, 0, WIDE, HIGH, solid(30, 60, 90)))
    listings = [(k + 1, side, high) for k in range(len(places))]
    related = [b"\6" + struct.pack("<IIII", *SINKS[1], *SINKS[k]) for k in (2, 3)]
    return uploads + [submission(1, 0, (0, 0, WIDE, HIGH), quads, listings)] + related + [b"\5" + local(1)]


def tab(k):
    x = 8 * k % 900
    old = 8 * (k - 1) % 900
    left, right = min(x, old), max(x, old) + 64
    return submission(2, k, (left, 0, right - left, 640), [
        quad(x, 0, 64, 640, solid(200, 30, 30, 255)), quad(0, 0, 1024, 640, solid(20, 20, 40, 128), 180)])


def caret(k):
    return submission(3, k, (10, 10, 2, 20), [quad(10, 10, 2, 20, solid(0, 0, 0, 255 if k % 2 else 64))])


def write(folder, name, client, messages):
    head = b"VIZC" + struct.pack("<H", 2) + struct.pack("<II", *SINKS[client]) + struct.pack("<I", len(messages))
    with open(os.path.join(folder, name), "wb") as file:
        file.write(head + b"".join(messages))


def main(folder, events="256", front=""):
    os.makedirs(folder, exist_ok=True)
    first = page(front == "hidden")
    rounds = (int(events) - len(first)) // 5
    write(folder, "page.viz", 1, first)
    write(folder, "tab.viz", 2, [tab(k) for k in range(1, rounds + 1)])
    write(folder, "caret.viz", 3, [caret(k) for k in range(1, rounds + 1)])
    with open(os.path.join(folder, "schedule"), "wb") as file:
        file.write(bytes([1]) * len(first) + bytes([0x11, 2, 3, 0x12, 0x13]) * rounds)


main(*sys.argv[1:])
