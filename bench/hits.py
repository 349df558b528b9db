"""Writes the files of scenes of many regions: `hits.py FOLDER`.

Each is the file of one client whose quads cover 1,200 by 600 pixels: `10.viz` has ten, `1000.viz` a thousand, and
`60000.viz` a root surface that embeds another one of a thousand quads sixty times.
"""

import os
import sys

from spelling import client, embed, local, quad, reach, solid, submit, surface

WIDE, HIGH = 1200, 600


def grid(columns, rows, w, h, material):
    """Quads of one size side by side, row by row."""
    return [quad(material(k), (k % columns * w, k // columns * h, w, h)) for k in range(columns * rows)]


def colours(k):
    return solid((k % 251, k % 13, k % 7, 255))


def flat(columns, rows):
    w, h = WIDE // columns, HIGH // rows
    return client(1, submit(1, 1, size=(WIDE, HIGH), quads=grid(columns, rows, w, h, colours)), b"\5" + local(1, 1))


def embedded():
    child = submit(1, 1, size=(120, 100), quads=grid(40, 25, 3, 4, colours))
    shown = grid(10, 6, 120, 100, lambda k: embed(reach(surface(1, 1, 1))))
    return client(1, child, submit(1, 2, size=(WIDE, HIGH), quads=shown), b"\5" + local(1, 2))


def main(folder):
    for name, data in (("10.viz", flat(10, 1)), ("1000.viz", flat(40, 25)), ("60000.viz", embedded())):
        with open(os.path.join(folder, name), "wb") as file:
            file.write(data)


main(*sys.argv[1:])
