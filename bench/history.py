"""Writes the files of a long history: `history.py FOLDER`.

There are three clients. The first embeds the two others, relates them to its sink and is the root. They take turns of five events: a
client's frame with a moved bar, Begin, Draw, Done, and a Draw that finds nothing changed. The schedule has 60,000 events: it draws
everyone's first frame, and then come the turns.
"""

import os
import struct
import sys

EVENTS = 60000
SIDE = 32
AREAS = {1: (64, 48), 2: (SIDE, SIDE), 3: (SIDE, SIDE)}
BEGIN, DRAW, DONE = 0x11, 0x12, 0x13


def local(number):
    return struct.pack("<II", 1, number) + (1).to_bytes(16, "little")


def sink(client):
    return struct.pack("<II", client, 1)


def shown(client):
    """The range of a client's one surface."""
    return b"\0" + sink(client) + local(1)


def rectangle(x, y, w, h):
    return struct.pack("<iiii", x, y, w, h)


def quad(x, y, w, h, material):
    area = rectangle(0, 0, w, h)
    return struct.pack("<ii", x, y) + area + area + bytes([0, 255, 0]) + material


def solid(*colour):
    return b"\1" + bytes([*colour, 255])


def frame(client, k):
    """A client's frame with its bar at the place of turn k, and the damage of that place and the one before."""
    w, h = AREAS[client]
    x = 4 * (k % 8)
    damage = (0, 0, w, h) if k == 0 else (0, 0, SIDE, 4) if x == 0 else (x - 4, 0, 8, 4)
    quads = [quad(x, 0, 4, 4, solid(250, 40 * client, 0))]
    if client == 1:
        quads += [quad(SIDE * n, 8, SIDE, SIDE, b"\3" + shown(2 + n) + bytes(4)) for n in range(2)]
    quads.append(quad(0, 0, w, h, solid(0, 60 * client, 80)))
    references = [shown(2), shown(3)] if client == 1 else []
    parts = [b"\2", local(1), struct.pack("<IIB", k + 1, 0, 255), b"\0", bytes([len(references)]), *references, b"\0"]
    parts += [b"\1", struct.pack("<I", 1), rectangle(0, 0, w, h), rectangle(*damage), struct.pack("<H", len(quads)), *quads]
    return b"".join(parts)


def main():
    folder = sys.argv[1]
    messages = {client: [frame(client, 0)] for client in AREAS}
    messages[1] += [b"\6" + sink(1) + sink(2), b"\6" + sink(1) + sink(3), b"\5" + local(1)]
    schedule, k = [1, 1, 1, 1, 2, 3, DRAW, DONE], 1
    while len(schedule) < EVENTS:
        for client in messages:
            messages[client].append(frame(client, k))
            schedule += [client, BEGIN, DRAW, DONE, DRAW]
        k += 1
    for client, all_of in messages.items():
        header = b"VIZC" + struct.pack("<H", 2) + sink(client) + struct.pack("<I", len(all_of))
        with open(os.path.join(folder, "h%d.viz" % client), "wb") as file:
            file.write(header + b"".join(all_of))
    with open(os.path.join(folder, "schedule"), "wb") as file:
        file.write(bytes(schedule[:EVENTS]))


main()
