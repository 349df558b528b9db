"""Writes the files of scenes that change wholly in each frame: `frames.py FOLDER [ROUNDS]` (30 if left out).

Each is the file of one client on a display of 1,920 by 1,080 pixels, with an opaque quad behind everything: `layers.viz`
has twenty quads of one colour and opacity 200 on it, `tiles.viz` two tiles at each place, of which half the pixels are
not opaque and one has opacity 180, and `opaque.viz` an opaque tile at each place. All tiles move by one place a frame.
"""
import os
import random
import struct
import sys

from spelling import AWAIT, RECLAIM, ROOT, client, quad, solid, submit, tile

WIDE, HIGH, SIDE, TILES = 1920, 1080, 256, 4
ALPHAS = (255, 255, 128, 64, 0)


def texels(chance, alphas):
    """The pixels of a tile: each has an alpha of these, and any premultiplied colour."""
    pixels = bytearray()
    for _ in range(SIDE * SIDE):
        alpha = chance.choice(alphas)
        pixels += bytes([chance.randrange(alpha + 1) for _ in range(3)] + [alpha])
    return bytes(pixels)


def uploads(alphas):
    chance = random.Random(1)
    return [b"\1" + struct.pack("<IHH", k, SIDE, SIDE) + texels(chance, alphas) for k in range(1, TILES + 1)]


def layers(_round):
    return [quad(solid((9 * k, 100, 50, 255)), (7 * k, 5 * k, WIDE - 14 * k, HIGH - 10 * k), opacity=200) for k in range(20)]


def places():
    return [(x, y, min(SIDE, WIDE - x), min(SIDE, HIGH - y)) for y in range(0, HIGH, SIDE) for x in range(0, WIDE, SIDE)]


def tiles(number):
    return [quad(tile(1 + (k + number) % TILES), place, opacity=opacity) for k, place in enumerate(places()) for opacity in (255, 180)]


def opaque(number):
    return [quad(tile(1 + (k + number) % TILES), place) for k, place in enumerate(places())]


def scene(rounds, alphas, quads_of):
    """A client that uploads its tiles, and submits a frame that differs wholly from the one before, round by round."""
    resources = [(k, SIDE, SIDE) for k in range(1, TILES + 1)]
    behind = quad(solid((20, 40, 60, 255)), (0, 0, WIDE, HIGH))
    frames = [submit(1, 1, size=(WIDE, HIGH), quads=[*quads_of(k), behind], resources=resources, answers=k) for k in range(rounds + 1)]
    return client(1, *uploads(alphas), frames[0], ROOT, *(part for one in frames[1:] for part in (AWAIT, RECLAIM, one)))


def main(folder, rounds="30"):
    for name, alphas, quads_of in (("layers", ALPHAS, layers), ("tiles", ALPHAS, tiles), ("opaque", (255,), opaque)):
        with open(os.path.join(folder, name + ".viz"), "wb") as file:
            file.write(scene(int(rounds), alphas, quads_of))


main(*sys.argv[1:])
