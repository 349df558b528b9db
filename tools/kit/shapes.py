"""Rectangles (x, y, w, h), of which one without a point is all zeros, and the order of surface ids."""

EMPTY = (0, 0, 0, 0)


def sides(x, y, w, h):
    return (x, y, w, h) if w > 0 and h > 0 else EMPTY


def sized(size):
    return sides(0, 0, *size)


def meet(a, b):
    """The points that two rectangles share."""
    x, y = max(a[0], b[0]), max(a[1], b[1])
    return sides(x, y, min(a[0] + a[2], b[0] + b[2]) - x, min(a[1] + a[3], b[1] + b[3]) - y)


def moved(r, x, y):
    return sides(r[0] + x, r[1] + y, r[2], r[3])


def bound(rects):
    """The smallest rectangle round all that have a point."""
    rects = [r for r in rects if r[2] and r[3]]
    if not rects:
        return EMPTY
    x, y = min(r[0] for r in rects), min(r[1] for r in rects)
    return x, y, max(r[0] + r[2] for r in rects) - x, max(r[1] + r[3] for r in rects) - y


def covers(outer, inner):
    """Every point of the inner one is in the outer one."""
    return not (inner[2] and inner[3]) or (
        outer[0] <= inner[0] and outer[1] <= inner[1]
        and inner[0] + inner[2] <= outer[0] + outer[2] and inner[1] + inner[3] <= outer[1] + outer[3])


# ---------------------------------------------------------------- surface ids: (sink, (parent, child, token))


def raised(old, new):
    """No number of the new local id is smaller, and one is greater."""
    return new[0] >= old[0] and new[1] >= old[1] and new[:2] != old[:2]


def group(surface):
    return surface[0], surface[1][2]


def at_least(a, b):
    """A surface is another one, or a newer one of its group."""
    return a == b or group(a) == group(b) and raised(b[1], a[1])


def starts_late(span):
    """The start of a range is newer than its end, in one group."""
    start, end = span
    return start is not None and group(start) == group(end) and raised(end[1], start[1])
