"""Rows for faults: displays that are painted in bands, each on a thread of its own if one can be started.

A frame has steps in two colours, each at other columns and rows, below a half white quad that reaches over most bands:
a row that is painted twice, left out or put elsewhere shows. The pictures are made here, row by row, without threads.
"""
from fault_rows import Row
from spelling import AWAIT, BLUE, GREEN, RED, ROOT, client, quad, schedule, solid, submit

HALF = (128, 128, 128, 128)       # white of half the opacity, which leaves 127 of 255 of what is below
STEPS = 16
# How many frames each display has. The first is painted by two threads, the second by four if there are as many
# processors.
DISPLAYS = {(640, 480): 2, (1024, 512): 1}


def stair(size, colours):
    """The steps from the upper left to the lower right: each with its rectangle and colour."""
    w, h = size[0] // STEPS, size[1] // STEPS
    return [((k * w, k * h, w, h), colours[k % 2]) for k in range(STEPS)]


def veil(size):
    """The rectangle of the half white quad."""
    return size[0] // 4, size[1] // 8, size[0] // 2, 3 * size[1] // 4


def quads(size, colours):
    """The quads of a frame, from front to back."""
    return [quad(solid(HALF), veil(size)),
            *(quad(solid(colour), area) for area, colour in stair(size, colours)),
            quad(solid(RED), (0, 0, *size))]


def is_in(place, start, count):
    return start <= place < start + count


def row_of(size, colours, y):
    """The bytes of a row of the picture."""
    row = bytearray(bytes(RED) * size[0])
    for (x, top, w, h), colour in stair(size, colours):
        if is_in(y, top, h):
            row[4 * x:4 * (x + w)] = bytes(colour) * w
    x, top, w, h = veil(size)
    if is_in(y, top, h):
        row[4 * x:4 * (x + w)] = bytes(128 + 127 * (byte == 255) if at % 4 != 3 else 255
                                       for at, byte in enumerate(row[4 * x:4 * (x + w)]))
    return bytes(row)


def picture_of(size, colours):
    return b"".join(row_of(size, colours, y) for y in range(size[1]))


def messages_of(size, frames):
    """The messages of a client that draws once in each tick."""
    for tick, colours in enumerate(frames, 1):
        yield from (AWAIT, submit(1, 1, size=size, quads=quads(size, colours), answers=tick))


def band_rows():
    """A `step` and a `run` for each display. Each frame repaints a buffer that was never painted, so all of it."""
    rows = []
    for size, count in DISPLAYS.items():
        frames = [(GREEN, BLUE), (BLUE, GREEN)][:count]
        left = {"f": b"".join(picture_of(size, colours) for colours in frames)}
        sides = [str(side) for side in size]
        name, judge = "x".join(sides), ["check", *sides, "f", "l", "a"]
        file = client(1, ROOT, *messages_of(size, frames))
        events = "c1 " + " ".join(count * ["begin c1 c1 draw done"])
        rows.append(Row("bands_step_" + name, ["step", *sides, "s", "f", "l", "a"],
                        {"s": schedule(events), "a": file}, left, judge=judge))
        rows.append(Row("bands_run_" + name, ["run", "--paced", *sides, str(count), "f", "l", "a"],
                        {"a": file}, left, judge=judge))
    return rows
