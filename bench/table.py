"""The table of rows of calls that rows.py writes: what puts a row into it, and what several rows share."""
from spelling import (
    AWAIT, CLIENTS, GREEN, ONE_QUAD, ROOT, client, picture, pieces, quad, schedule, solid, submit)


def put(name, words, given=(), status=0, line="", log=None, left=(), entries=0, steps=0, ones=(),
        piece=None, turns=None, others=(), packed=(), judge="", reads=()):
    """Prints a row. `others` are logs that may be left in the place of `log`; `packed` are files of
    pieces; `reads` are files of the folder `data`, with their paths there; `judge` has the words of a
    second call that must print `yes`. Each call of the devices fails in turn (`turns`) if the call goes
    well and moves whole files, and what it must leave is known."""
    if turns is None:
        turns = status < 2 and not piece and not judge
    out = ["row " + name, "words " + words]
    out += ["given %s %s" % (n, b.hex()) for n, b in given]
    out += ["ones %s %d" % o for o in ones]
    out += ["packed %s %s" % (n, " ".join(pieces)) for n, pieces in packed]
    out += ["read %s %s" % r for r in reads]
    out += ["piece %d" % piece] if piece else []
    out += ["turns"] if turns else []
    out += ["status %d" % status] if status else []
    out += ["line " + line] if line else []
    out += ["log " + part for part in log or ()]
    for other in others:
        out += ["or"] + ["log " + part for part in other]
    out += ["left %s %s" % (n, b.hex()) for n, b in left]
    out += ["entries %d" % entries] if entries else []
    out += ["steps %d" % steps] if steps else []
    out += ["judge " + judge] if judge else []
    TABLE.append("\n".join(part.rstrip() for part in out))


TABLE = []


def step(name, files, events, log, frames=(), steps=0, size=(4, 2), **more):
    """A `step` that goes well. `log` is without its last line, `steps` what is painted in all."""
    names = CLIENTS[:len(files)]
    entries = sum(not part.startswith(("open", "held")) for part in log)
    put(name, "step %d %d s f l %s" % (*size, " ".join(names)),
        [("s", schedule(events)), *zip(names, files)],
        line="done %d entries %d frames" % (entries, len(frames)), log=[*log, "end"],
        left=[("f", b"".join(frames)), *more.pop("left", ())], entries=entries, steps=steps, **more)


def refused(name, line, data=None, events=None, size=(4, 2), **more):
    """A `step` of which a file is refused, over files that stand where it would write."""
    given = [("f", b"old"), ("l", b"older"), ("s", EVENTS if events is None else events),
             ("a", ONE_QUAD if data is None else data)]
    ones = more.get("ones", ())
    put(name, "step %d %d s f l a" % size, [g for g in given if g[0] not in [n for n, _ in ones]],
        3, line, **more)


EVENTS = bytes.fromhex("01011213")
QUAD_PICTURE = bytes.fromhex("000000ffff0000ffff0000ff000000ff" * 2)
QUAD_LOG = ["c1 accepted 1 1 +1.1", "c1 rooted", "draw drawn 0 0 4 2", "done shown p1.1"]
PLAIN = "c1 c1 draw done"
DOT = dict(damage=(0, 0, 1, 1))
DISHONEST = client(1, submit(1, 1), ROOT, submit(1, 1, **DOT),
                   submit(1, 1, quads=[quad(solid(GREEN), (1, 0, 2, 2))], **DOT))
DISHONEST_LOG = QUAD_LOG + [
    "c1 accepted 2 2 +1.2", "draw drawn 0 0 1 1", "done shown p1.2", "c1 accepted 3 3 +1.3",
    "draw drawn 0 0 1 1", "done shown p1.3"]


def run(name, files, words, logs, frames=(), steps=0, size=(4, 2), ticks=0, **more):
    """A `run` that goes well, and leaves one of the logs, which are without their last line."""
    names = CLIENTS[:len(files)]
    entries = sum(not part.startswith(("open", "held")) for part in logs[0])
    put(name, " ".join(["run", *words, "%d %d %d f l" % (*size, ticks), *names]),
        list(zip(names, files)), line="done %d entries %d frames" % (entries, len(frames)),
        log=[*logs[0], "end"], others=[[*log, "end"] for log in logs[1:]],
        left=[("f", b"".join(frames))], entries=entries, steps=steps, **more)


def answer(number, **parts):
    """A frame for the surface (1,1) that answers a begin-frame."""
    return submit(1, 1, answers=number, **parts)


# The logs of a `run` of one quad, without their last line: Over comes before, between and after the
# two messages.
ORDERS_OF_A_QUAD = [head + QUAD_LOG[2:] for head in (
    ["over ended", *QUAD_LOG[:2]], [QUAD_LOG[0], "over ended", QUAD_LOG[1]], [*QUAD_LOG[:2], "over ended"])]


def four_frames():
    """The messages of a client that answers four begin-frames with a frame of 8 by 8, the log of their
    paced `run`, without its last line, and its frames."""
    messages, log = [], []
    for k, hurt in enumerate([(0, 0, 8, 8), (0, 0, 2, 2), (0, 6, 2, 2), (6, 6, 1, 1)], 1):
        messages += [AWAIT, *([ROOT] if k == 1 else []), answer(k, damage=hurt, size=(8, 8))]
        log += ["begin ticked %d" % k, "c1 began %d" % k, *(QUAD_LOG[1:2] if k == 1 else []),
                "c1 accepted %d %d +1.%d" % (k, k, k), "draw drawn %d %d %d %d" % hurt,
                "done shown p1.%d" % k]
    frames = 4 * [picture([".rr....."] * 2 + ["........"] * 6)]
    return messages, [*log, "over ended", "draw unchanged"], frames


def judged(line, log=(*QUAD_LOG, "end"), frames=QUAD_PICTURE, files=(ONE_QUAD,), size=(4, 2), status=1,
           name="checker_verdicts", **more):
    """A `check` of a log and its frames."""
    names = CLIENTS[:len(files)]
    put(name, "check %d %d f l %s" % (*size, " ".join(names)),
        [("f", frames), ("l", "".join(part + "\n" for part in log).encode()), *zip(names, files)],
        status, line, **more)
