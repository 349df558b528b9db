"""The rules of a frame: which one it breaks first. docs/RULES.md has the list."""

from .shapes import covers, starts_late


def quads(frame):
    return [quad for one in frame["passes"] for quad in one["quads"]]


def materials(frame, kind):
    return [quad["material"] for quad in quads(frame) if quad["material"]["kind"] == kind]


def repeats(values):
    values = list(values)
    return len(set(values)) < len(values)


def bad_root(frame):
    x, y, w, h = frame["passes"][-1]["output"]
    return (x, y) != (0, 0) or not (w and h)


def misorders(frame):
    earlier = set()
    for one in frame["passes"]:
        if any(q["material"]["kind"] == "pass" and q["material"]["pass"] not in earlier for q in one["quads"]):
            return True
        earlier.add(one["id"])
    return False


def unlisted(frame):
    listed = {one["id"] for one in frame["resources"]}
    return any(m["tile"] not in listed for m in materials(frame, "tile"))


def exceeds(frame):
    listed = {one["id"]: one for one in frame["resources"]}
    for quad in quads(frame):
        m, (_, _, w, h) = quad["material"], quad["area"]
        if m["kind"] == "tile" and (m["tx"] + w > listed[m["tile"]]["w"] or m["ty"] + h > listed[m["tile"]]["h"]):
            return True
    return False


def late_range(frame):
    spans = [m["surface"] for m in materials(frame, "surface")] + frame["references"]
    return any(map(starts_late, spans))


RULES = (  # in the order in which they are tested
    lambda f: not f["passes"],
    bad_root,
    lambda f: repeats(one["id"] for one in f["passes"]),
    misorders,
    lambda f: not all(covers(q["area"], q["visible"]) for q in quads(f)),
    unlisted,
    lambda f: repeats(one["id"] for one in f["resources"]),
    exceeds,
    late_range,
    lambda f: repeats(f["dependencies"]),
    lambda f: not all(covers(one["output"], one["damage"]) for one in f["passes"]),
)


def first_broken(frame):
    """The number of the first rule that a frame breaks, or None."""
    return next((number for number, breaks in enumerate(RULES, 1) if breaks(frame)), None)
