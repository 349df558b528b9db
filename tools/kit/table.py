"""A table of a TOML text. Its keys are taken one by one, each with its kind; a key left over is an error."""

from .wrong import Wrong, inside

KINDS = {int: "a whole number", str: "a text in quotes", list: "a list", dict: "a table"}


def expect(value, kind):
    """`value`, which must be of a kind."""
    if not isinstance(value, kind) or isinstance(value, bool):
        raise Wrong("%s is not %s" % (brief(value), KINDS[kind]))
    return value


def brief(value):
    text = {True: "true", False: "false"}.get(value, repr(value)) if isinstance(value, bool) \
        else repr(value)
    return text if len(text) <= 40 else text[:37] + ".."


def whole_numbers(value, counts):
    """A list of whole numbers whose length is one of `counts`."""
    expect(value, list)
    if len(value) not in counts:
        raise Wrong("%s has not %s numbers" % (brief(value), " or ".join(map(str, counts))))
    return tuple(expect(n, int) for n in value)


def rectangle(value):
    """[x, y, w, h], or [w, h] at 0, 0."""
    got = whole_numbers(value, (2, 4))
    return got if len(got) == 4 else (0, 0, *got)


class Table:
    def __init__(self, value):
        self.left = dict(expect(value, dict))
        self.known = []

    def take(self, key, convert, *default):
        """The converted value of a key; without a default the key must be there."""
        self.known.append(key)
        if key not in self.left:
            if not default:
                raise Wrong("key %r is missing" % key)
            return default[0]
        with inside(key, key):
            return convert(self.left.pop(key))

    def has(self, key):
        return key in self.left

    def items(self, key, convert, name, *default):
        """A list of a key, each item converted."""
        got = []
        for place, item in enumerate(self.take(key, listed, *default) or []):
            with inside("%s %d" % (name, place + 1), key, place):
                got.append(convert(item))
        return got

    def end(self):
        """Refuses the keys that nobody took."""
        for key in self.left:
            with inside(None, key):
                raise Wrong("key %r is not known here; known are %s" % (key, ", ".join(self.known)))


def listed(value):
    return expect(value, list)


def whole(value):
    return expect(value, int)


def text(value):
    return expect(value, str)
