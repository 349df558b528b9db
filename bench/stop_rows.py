"""Rows of runs whose clients wait, for rows.py: each call of the shelf and of the sink fails in turn.

A fault of the display has to stop the clients that stand at an Await, and the run ends with status 4. If it did not,
the clients would wait for ever, and so would the run: the gate ends a program after 120 seconds.
"""
from itertools import permutations

from spelling import AWAIT, ROOT, client, submit
from table import QUAD_PICTURE, put

FRAMES = 3


def drawing(numbers):
    """The messages of a client that answers these begin-frames with a frame each, and waits for each of them."""
    messages = []
    for k in numbers:
        messages += [AWAIT, *([ROOT] if k == 1 else []), submit(1, 1, answers=k)]
    return client(1, *messages)


def drawn(numbers):
    """What a paced run then logs of these rounds."""
    log = []
    for k in numbers:
        log += ["begin ticked %d" % k, "c1 began %d" % k, *(["c1 rooted"] if k == 1 else []),
                "c1 accepted %d %d +1.%d" % (k, k, k), "draw drawn 0 0 4 2", "done shown p1.%d" % k]
    return log


def stops():
    """While each frame is written the clients 2 and 3, to whom no begin-frame comes, wait for Over, and client 1 waits
    for its next begin-frame until it has sent its last message."""
    numbers = range(1, FRAMES + 1)
    rounds, ends = drawn(numbers), sorted(set(permutations(["c2 over", "c2 over", "c3 over"])))
    logs = [[*rounds, "over ended", *end, "draw unchanged", "end"] for end in ends]
    files = [("a", drawing(numbers)), ("b", client(2, AWAIT, AWAIT)), ("c", client(3, AWAIT))]
    entries = len(logs[0]) - 1
    for options in ("", "--pipe "):
        put("waiting_clients_are_stopped", "run --paced %s4 2 %d f l a b c" % (options, FRAMES), files,
            line="done %d entries %d frames" % (entries, FRAMES), log=logs[0], others=logs[1:],
            left=[("f", FRAMES * QUAD_PICTURE)], entries=entries, steps=(2 + FRAMES) * 8)
