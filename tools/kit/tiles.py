"""Frames as changed tiles: the display is cut in squares of 8 by 8 pixels, each content of a square is
kept once, and a frame is the squares that differ from the frame before. So a frame in which little
changes takes little room."""

import zlib

SIDE = 8


class Tiles:
    """Takes frames one after the other. `changes` are bytes: of each frame the number of its changes, and
    for each the square's place after the last one and its content's number, all as numbers of seven bits
    a byte."""

    def __init__(self, w, h):
        self.w, self.h, self.row = w, h, w * 4
        self.columns = -(-w // SIDE)
        self.before, self.contents, self.numbers = None, [], {}
        self.changes = bytearray()

    def add(self, frame):
        """The next frame's bytes."""
        found, rows = [], [frame[at:at + self.row] for at in range(0, len(frame), self.row)]
        for top in range(0, self.h, SIDE):
            band = rows[top:top + SIDE]
            if self.before is None or band != self.before[top:top + SIDE]:
                self.band(found, top // SIDE * self.columns, band, top)
        self.before = rows
        self.write(len(found))
        last = 0
        for place, content in found:
            self.write(place - last)
            self.write(content)
            last = place

    def band(self, found, first, band, top):
        """The squares that changed in the rows from `top` on."""
        marks = self.differing(self.before[top:top + SIDE], band) if self.before else b"\1" * self.row
        start = (len(marks) - len(marks.lstrip(b"\0"))) // (SIDE * 4)
        end = -(-len(marks.rstrip(b"\0")) // (SIDE * 4))
        for column in range(start, end):
            at = column * SIDE * 4
            if marks[at:at + SIDE * 4].strip(b"\0"):
                found.append((first + column, self.content([row[at:at + SIDE * 4] for row in band])))

    def differing(self, old, new):
        """Bytes that are not zero where some of the rows differ."""
        bits = 0
        for a, b in zip(old, new):
            if a != b:
                bits |= int.from_bytes(a, "little") ^ int.from_bytes(b, "little")
        return bits.to_bytes(self.row, "little")

    def content(self, rows):
        """The number of a square's content; squares at the edges are filled up."""
        data = b"".join(row.ljust(SIDE * 4, b"\0") for row in rows).ljust(SIDE * SIDE * 4, b"\0")
        if data not in self.numbers:
            self.numbers[data] = len(self.contents)
            self.contents.append(data)
        return self.numbers[data]

    def write(self, value):
        while value > 127:
            self.changes.append(value & 127 | 128)
            value >>= 7
        self.changes.append(value)

    def packed(self):
        """The contents, colour by colour, and the changes, both compressed."""
        data = b"".join(self.contents)
        planes = b"".join(data[channel::4] for channel in range(4))
        return zlib.compress(planes, 9), zlib.compress(bytes(self.changes), 9)
