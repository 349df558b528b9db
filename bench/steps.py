"""Writes the file of one client that makes steps of the machine long: `steps.py KIND COUNT FILE`.

COUNT is the number of submissions; each is on a surface of its own. A SetRoot of the first surface (of the newest one
for `draw`) is the last message, or the first message if submissions wait.
"""

import struct
import sys

SINK = (7, 7)
SIDE = struct.pack("<iiii", 0, 0, 4, 4)


def local(number, token):
    return struct.pack("<II", 1, number) + token.to_bytes(16, "little")


def surface(number, token=1):
    return struct.pack("<II", *SINK) + local(number, token)


def reference(end, start=None):
    return b"\0" + end if start is None else b"\1" + start + end


def embedding(shown):
    return struct.pack("<ii", 0, 0) + SIDE + SIDE + b"\0\xff\0" + b"\3" + shown + bytes(4)


def frame(waits=(), references=(), listings=(), quads=()):
    parts = [struct.pack("<IIB", 0, 0, 64)]
    for some in (waits, references):
        parts += [bytes([len(some)]), *some]
    parts += [bytes([len(listings)]), *(struct.pack("<IHH", n, 1, 1) for n in listings)]
    parts += [b"\1" + struct.pack("<I", 0) + SIDE + SIDE + struct.pack("<H", len(quads)), *quads]
    return b"".join(parts)


def submission(number, token=1, **parts):
    return b"\2" + local(number, token) + frame(**parts)


def plain(count):
    """One group, and nothing beside."""
    return [submission(k) for k in range(1, count + 1)]


def draw(count):
    """65,536 quads with ranges that differ, in 64 surfaces that the newest one embeds."""
    small = count - 65
    made = [submission(k) for k in range(1, small + 1)]
    for k in range(64):
        ends = [(k * 1023 + n) for n in range(1023)]
        quads = [embedding(reference(surface(1 + e % small), surface(1 + (e * 7 + e // small) % small)))
                 for e in ends]
        made.append(submission(small + 1 + k, quads=quads))
    into = [embedding(reference(surface(small + 1 + k))) for k in range(64)]
    return made + [submission(count, quads=into)]


def chain(count):
    """Groups of one: each waits for the next one's surface, so that the last frees one a round."""
    return [submission(k, k, waits=[surface(k + 1, k + 1)] if k < count else []) for k in range(1, count + 1)]


def waits(count):
    """The same, where each waits also for the surfaces of fifteen that are active at first."""
    first = [submission(k, k) for k in range(1, 16)]
    met = [surface(k, k) for k in range(1, 16)]
    return first + [submission(k, k, waits=met + ([surface(k + 1, k + 1)] if k < count else []))
                    for k in range(16, count + 1)]


def path(count):
    """One group: each references the next one."""
    return [submission(k, references=[reference(surface(k + 1))]) for k in range(1, count + 1)]


def names(count):
    """One group: each references 64 others."""
    return [submission(k, references=[reference(surface(1 + (k * 64 + n) % count)) for n in range(64)])
            for k in range(1, count + 1)]


def returns(count):
    """A resource for each submission, which lists it."""
    uploads = [b"\1" + struct.pack("<IHH", k, 1, 1) + bytes(4) for k in range(1, count + 1)]
    return uploads + [submission(k, listings=[k]) for k in range(1, count + 1)]


def client(kind, count):
    """The bytes of the file."""
    kinds = dict(plain=plain, draw=draw, chain=chain, waits=waits, path=path, names=names, returns=returns)
    made = kinds[kind](count)
    made.append(b"\5" + local(count if kind == "draw" else 1, 1))
    if kind in ("chain", "waits"):
        made.insert(0, made.pop())
    head = b"VIZC" + struct.pack("<H", 2) + struct.pack("<II", *SINK) + struct.pack("<I", len(made))
    return head + b"".join(made)


def main(kind, count, name):
    with open(name, "wb") as file:
        file.write(client(kind, int(count)))


if __name__ == "__main__":
    main(*sys.argv[1:])
