"""Files that are made to be slow, for bench/hostile: a scene has message files, a schedule and a display's sides."""
import struct
from dataclasses import dataclass

import steps
from spelling import (
    AWAIT, NO_SINK, RECLAIM, RED, ROOT, client, embed, group, local, quad, reach, render_pass, root, solid, submit,
    surface, upload)

BEGIN, DRAW, DONE, OVER = b"\x11", b"\x12", b"\x13", b"\x14"
MOST_MESSAGES, MOST_EVENTS, MOST_BYTES, MOST_LOG = 4096, 65536, 1 << 24, 1 << 24
FAINT = (100, 0, 0, 100)


@dataclass
class Scene:
    """What a call is given, and which commands are timed besides `step` and `check`."""
    files: list
    schedule: bytes = b""
    size: tuple = (4, 2)
    log: bytes = None


def one(*messages, **more):
    """A scene of one client that sends all its messages, and what is drawn then."""
    file = client(1, *messages, form=2)
    assert len(file) <= MOST_BYTES and len(messages) <= MOST_MESSAGES
    return Scene([file], len(messages) * b"\1" + more.pop("then", DRAW + DONE), **more)


def powers(depth, size=(4, 2), opacity=255, leaf=1, times=2, then=DRAW + DONE):
    """A frame whose passes are drawn some times each by the next one."""
    area = (0, 0, *size)
    cell = quad(solid(FAINT), area, mode=0)
    passes = [render_pass(1, size, leaf * [cell])]
    for k in range(2, depth + 1):
        passes.append(render_pass(k, size, times * [quad(group(k - 1), area, opacity=opacity, mode=0)]))
    return one(submit(1, 1, passes=passes), ROOT, size=size, then=then)


def towers(surfaces, times, size=(4, 2), passes=1, opacity=255):
    """Surfaces that each embed the next one some times, below some groups. The root is named first, and each surface
    comes after the one that references it, so that none is destroyed."""
    area, messages = (0, 0, *size), []
    for k in range(1, surfaces + 1):
        shown = [reach(surface(1, k + 1, 1))] if k < surfaces else []
        inner = [quad(embed(it), area, opacity=opacity, mode=0) for it in shown for _ in range(times)]
        made = [render_pass(1, size, inner + [quad(solid(FAINT), area, mode=0)])]
        for p in range(2, passes + 1):
            made.append(render_pass(p, size, [quad(group(p - 1), area, opacity=opacity, mode=0)]))
        messages.append(submit(k, 1, passes=made, references=shown))
    return one(ROOT, *messages, size=size)


def waiting(ranges):
    """All messages are submissions on surfaces of their own that wait for sixteen surfaces which never come, until the
    last tick of their deadline."""
    nobody = [NO_SINK + local(k, 1, k) for k in range(1, 17)]
    shown = [reach(surface(1, k, 1)) for k in range(1, ranges + 1)]
    messages = [submit(k, 1, waits=nobody, deadline=64, references=shown, quads=[]) for k in range(1, MOST_MESSAGES)]
    return one(*messages, ROOT, then=65 * BEGIN + DRAW + DONE)


def crowd():
    """Sixteen clients whose 65,000 submissions wait for one that comes last."""
    last = surface(1, 1, 1, 77)
    files = [client(k, *(submit(n, 1, 1, waits=[last], deadline=64, quads=[]) for n in range(1, MOST_MESSAGES)))
             for k in range(2, 17)]
    many = [submit(n, 1, 1, waits=[last], deadline=64, quads=[]) for n in range(1, 4000)]
    first = client(1, *many, submit(1, 1, 77), root(77))
    events = b"".join(bytes(range(1, 17)) for _ in range(4000))
    rest = b"".join(bytes(range(2, 17)) for _ in range(MOST_MESSAGES - 1 - 4000))
    return Scene([first, *files], (events + b"\1" + rest)[:MOST_EVENTS - 3] + b"\x11" + DRAW + DONE)


def deepest(size):
    """64 surfaces of 16 nested groups each, all as large as the display, none opaque."""
    return towers(64, 1, size, 16, 200)


def many_quads(size, opacity=200):
    """As many quads as may be drawn, all as large as the display, none opaque."""
    cell = quad(solid(FAINT), (0, 0, *size), opacity=opacity, mode=0)
    groups = 24 * [quad(group(1), (0, 0, *size), opacity=opacity, mode=0)]
    passes = [render_pass(1, size, 1000 * [cell]), render_pass(2, size, groups)]
    return one(submit(1, 1, passes=passes), ROOT, size=size)


def frames_of_quads():
    """A file of 16 MB of submissions with 1,024 quads each, each of them drawn."""
    cell = quad(solid(FAINT), (0, 0, 4, 2), mode=0)
    messages = [submit(1, 1, passes=[render_pass(1, (4, 2), 1024 * [cell])]) for _ in range(335)]
    events = b"\1\1" + b"".join(DRAW + DONE + b"\1" for _ in range(334)) + DRAW + DONE
    file = client(1, ROOT, *messages, form=2)
    assert len(file) <= MOST_BYTES
    return Scene([file], events)


def texels():
    """A file of 16 MB of uploads, the last texel of which is no colour."""
    return Scene([client(1, *(upload(k, (256, 256), RED) for k in range(1, 64)))[:-4] + b"\2\0\0\1"], b"")


def tables():
    """A file of 16 MB of frames with all lists at their limits."""
    waits = [surface(2, k, 1, k) for k in range(1, 17)]
    shown = [reach(surface(2, k, 2, k), surface(2, k, 1, k)) for k in range(1, 65)]
    listed = [(k, 1, 1) for k in range(1, 65)]
    made = submit(1, 1, waits=waits, references=shown, resources=listed, passes=[])
    count = min(MOST_MESSAGES - 1, (MOST_BYTES - 18) // len(made))
    return one(*(count * [made]), then=DRAW)


def returns():
    """Uploads that are listed, taken back and uploaded again, all in one client, with 64 resources each."""
    ids = list(range(1, 65))
    uploads = [upload(k, (1, 1), RED) for k in ids]
    listing = submit(1, 1, resources=[(k, 1, 1) for k in ids], quads=[])
    messages = [part for _ in range(60) for part in (*uploads, listing, submit(1, 1, quads=[]), RECLAIM)]
    return one(*messages[:MOST_MESSAGES - 1], ROOT)


def closing():
    """As many surfaces as there may be, closed at once."""
    messages = [submit(k, 1, 1, quads=[]) for k in range(1, MOST_MESSAGES - 1)]
    return one(*messages, ROOT, b"\x08")


def line_log(line):
    """A log of 16 MB of one line, again and again."""
    return Scene([client(1, AWAIT)], b"", log=MOST_LOG // len(line) * line + b"end\n")


def ticking_log():
    """A log of 16 MB of begin-frames."""
    lines, size, k = [], 0, 0
    while size < MOST_LOG - 64:
        k += 1
        lines.append(b"begin ticked %d\n" % k)
        size += len(lines[-1])
    return Scene([client(1, AWAIT)], b"", log=b"".join(lines) + b"end\n")


def long_effects():
    """A log whose one line has 16 MB of effects."""
    return Scene([client(1, AWAIT)], b"", log=b"begin ticked 1" + MOST_LOG // 5 * b" +1.1" + b"\nend\n")


def draws(kind):
    """A schedule of Draws alone, of a scene that is as heavy as it may be."""
    scene = powers(15, leaf=2) if kind == "kept" else powers(16, times=60)
    scene.schedule = b"\1\1" + (MOST_EVENTS - 2) * DRAW
    return scene


def redraws():
    """A heavy scene that is changed by a small embedder and drawn again, as often as messages allow."""
    size = (1, 1)
    cell = quad(solid(FAINT), (0, 0, 1, 1))
    passes = [render_pass(1, size, 2 * [cell])]
    passes += [render_pass(k, size, 2 * [quad(group(k - 1), (0, 0, 1, 1))]) for k in range(2, 15)]
    heavy = client(2, submit(1, 1, passes=passes))
    shown = [reach(surface(2))]
    small = submit(1, 1, size=size, quads=[quad(embed(shown[0]), (0, 0, 1, 1))], references=shown)
    first = client(1, ROOT, *((MOST_MESSAGES - 1) * [small]))
    return Scene([first, heavy], b"\2\1" + (MOST_MESSAGES - 1) * (b"\1" + DRAW + DONE), size)


def of_steps(kind, count):
    """The scenes of bench/steps."""
    events = (2 * count if kind == "returns" else count) + 1
    return Scene([steps.client(kind, count)], events * b"\1" + DRAW + DONE)


SCENES = {
    "power_of_passes_kept": lambda: powers(15, leaf=2),
    "power_of_passes_passed": lambda: powers(16, times=60),
    "power_of_passes_faint": lambda: powers(14, size=(64, 64), opacity=128),
    "power_of_surfaces": lambda: towers(64, 2),
    "power_of_surfaces_of_15": lambda: towers(15, 2, (1, 1)),
    "deepest_groups": lambda: deepest((4, 2)),
    "deepest_groups_of_256": lambda: deepest((256, 256)),
    "deepest_groups_of_2048": lambda: deepest((2048, 2048)),
    "quads_of_256": lambda: many_quads((256, 256)),
    "quads_of_2048": lambda: many_quads((2048, 2048)),
    "frames_of_1024_quads": frames_of_quads,
    "waiting_4095": lambda: waiting(0),
    "waiting_4095_ranges_64": lambda: waiting(64),
    "waiting_65000": crowd,
    "texels": texels,
    "lists_at_their_limits": tables,
    "returns_of_64": returns,
    "closing_4094": closing,
    "draws_kept": lambda: draws("kept"),
    "draws_passed": lambda: draws("passed"),
    "redraws": redraws,
    **{"steps_" + kind: lambda kind=kind: of_steps(kind, 2047 if kind == "returns" else 4095)
       for kind in ("plain", "draw", "chain", "waits", "path", "names", "returns")},
    "log_of_done": lambda: line_log(b"done nothing\n"),
    "log_of_draw": lambda: line_log(b"draw noroot\n"),
    "log_of_ticks": ticking_log,
    "log_of_effects": long_effects,
    "log_of_feeds": lambda: line_log(b"\n"),
}
