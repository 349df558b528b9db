"""Writes scenes in which much is hidden, on a display of 1,280 by 720 pixels: `occlusion.py FOLDER [ROUNDS]`.

`windows/` is a stack of ten opaque windows of the display's size, each of a client of its own, which client 1 shows in front
of each other; `tiles/` is the same stack in front of a thousand tiles of client 1. The files are `1.viz` to `11.viz`. There are
so many rounds (10 if left out): in each after the first the front window sends its frame again, with all of it as its damage,
and `schedule` takes one round after the other. `corners/` has the thousand tiles alone, in `1.viz`: each lacks the texel in
its last corner, so that nothing is hidden. Each draws all of its block, so that no texel must be read to know that.
"""

import os
import sys

from spelling import client, embed, quad, reach, root, schedule, solid, submit, surface, tile, upload

WIDE, HIGH = 1280, 720
WINDOWS = 10
# A thousand tiles, forty in each of 25 rows, of as many uploads as a frame may list.
ACROSS, DOWN, UPLOADS = 40, 25, 64
TILE = (WIDE // ACROSS, HIGH // DOWN)


def window(k, rounds):
    """A window, sent so many times: a title, thirty lines of text, of which each is half a shade darker than the paper, and the paper."""
    lines = [quad(solid((0, 0, 0, 128)), (40, 40 + 22 * y, 900 + 10 * ((7 * y + k) % 30), 14)) for y in range(30)]
    title = quad(solid((20 * k, 60, 120, 255)), (0, 0, WIDE, 30))
    paper = quad(solid((255, 250 - k, 240, 255)), (0, 0, WIDE, HIGH))
    return client(k, *[submit(1, 1, size=(WIDE, HIGH), quads=[title, *lines, paper])] * rounds)


def page(quads, uploads):
    """The client that shows these quads of its uploads."""
    listed = [(k, *TILE) for k in range(1, len(uploads) + 1)]
    return client(1, *uploads, root(), submit(1, 1, size=(WIDE, HIGH), quads=quads, resources=listed))


def desk(quads, uploads):
    """The client that shows the windows in front of its own quads."""
    shown = [quad(embed(reach(surface(k))), (0, 0, WIDE, HIGH)) for k in range(2, WINDOWS + 2)]
    return page(shown + quads, uploads)


def tiles(last=None):
    """A thousand opaque tiles, whose last texel is another one if it is given."""
    w, h = TILE
    uploads = [upload(k, TILE, (4 * k % 256, 100, 50, 255)) for k in range(1, UPLOADS + 1)]
    if last:
        uploads = [one[:-4] + bytes(last) for one in uploads]
    return [quad(tile(1 + k % UPLOADS), (0, 0, w, h), offset=(k % ACROSS * w, k // ACROSS * h))
            for k in range(ACROSS * DOWN)], uploads


def write(folder, rounds, quads, uploads):
    os.makedirs(folder, exist_ok=True)
    files = [desk(quads, uploads), window(2, rounds), *[window(k, 1) for k in range(3, WINDOWS + 2)]]
    begun = ["c%d" % k for k in range(3, WINDOWS + 2)] + ["c1"] * (len(uploads) + 2)
    events = begun + ["c2", "draw", "done"] * rounds
    for k, data in enumerate(files, 1):
        with open(os.path.join(folder, "%d.viz" % k), "wb") as file:
            file.write(data)
    with open(os.path.join(folder, "schedule"), "wb") as file:
        file.write(schedule(" ".join(events)))


def main(folder, rounds="10"):
    write(os.path.join(folder, "windows"), int(rounds), [], [])
    write(os.path.join(folder, "tiles"), int(rounds), *tiles())
    quads, uploads = tiles((0, 0, 0, 0))
    os.makedirs(os.path.join(folder, "corners"), exist_ok=True)
    with open(os.path.join(folder, "corners", "1.viz"), "wb") as file:
        file.write(page(quads, uploads))


main(*sys.argv[1:])
