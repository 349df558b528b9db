"""What a message file can say of Chromium's numbers, and what it cannot."""


class Outside(Exception):
    """Something of Chromium that a message file cannot say."""


def translation(matrix):
    """How far a transform moves; one that does more is outside."""
    rest = [*matrix[:3], *matrix[4:7], *matrix[8:11], *matrix[12:]]
    if rest != [1, 0, 0, 0, 1, 0, 0, 0, 1, 0, 0, 0, 1]:
        raise Outside("a transform that is no translation: %s" % [round(one, 3) for one in matrix])
    if matrix[3] != int(matrix[3]) or matrix[7] != int(matrix[7]):
        raise Outside("an offset that is not whole: %s, %s" % (matrix[3], matrix[7]))
    return int(matrix[3]), int(matrix[7])


def whole(rect, what):
    if any(one != int(one) for one in rect):
        raise Outside("%s that is not whole: %s" % (what, rect))
    return tuple(map(int, rect))


def rectangle(rect):
    """A rectangle of whole numbers; one without a point is all zeros."""
    x, y, w, h = map(int, rect)
    return (x, y, w, h) if w > 0 and h > 0 else (0, 0, 0, 0)
