"""Finds the line of a TOML text on which a key has its value. `tomllib` read the text before, so it is well-formed."""

import re

BLANK = re.compile(r"(?:[ \t\r\n]|#[^\n]*)*")
KEY = re.compile(r"""[A-Za-z0-9_-]+|"(?:[^"\\]|\\.)*"|'[^']*'""")
STRING = re.compile(
    r'''"""(?:[^\\]|\\.)*?"{3,5}|\'\'\'.*?\'{3,5}|"(?:[^"\\]|\\.)*"|'[^']*\'''', re.DOTALL)
OTHER = re.compile(r"[^,\]}\n#]*")


class Lines:
    """The offsets of values by the keys that lead to them."""

    def __init__(self, source):
        self.source, self.place, self.starts = source, 0, {(): 0}
        self.tables()

    def line(self, keys):
        """The line of the last value that these keys lead to. A key that leads nowhere is left out."""
        path = ()
        for key in keys:
            if path + (key,) in self.starts:
                path += (key,)
        return self.source.count("\n", 0, self.starts[path]) + 1

    def skip(self):
        self.place = BLANK.match(self.source, self.place).end()

    def at(self, mark):
        """Goes over a mark, if it stands here."""
        self.skip()
        if not self.source.startswith(mark, self.place):
            return False
        self.place += len(mark)
        return True

    def tables(self):
        """The whole text: headers, and keys with values below them."""
        path, counts = (), {}
        while self.skip() or self.place < len(self.source):
            start = self.place
            if self.at("[["):
                name = self.key()
                counts[name] = counts.get(name, -1) + 1
                path = name + (counts[name],)
                self.at("]]")
                self.starts.setdefault(name, start)
                self.starts[path] = start
            elif self.at("["):
                path = self.key()
                self.at("]")
                self.starts.setdefault(path, start)
            else:
                self.pair(path)

    def key(self):
        """A key, with dots or without."""
        parts = ()
        while True:
            self.skip()
            word = KEY.match(self.source, self.place)[0]
            self.place += len(word)
            parts += (word.strip("\"'"),)
            if not self.at("."):
                return parts

    def pair(self, path):
        """A key with its value, below a path."""
        self.skip()
        start = self.place
        full = path + self.key()
        self.starts[full] = start
        self.at("=")
        self.value(full)

    def value(self, path):
        self.skip()
        if self.at("["):
            self.items(path)
        elif self.at("{"):
            while not self.at("}"):
                self.pair(path)
                self.at(",")
        else:
            found = STRING.match(self.source, self.place) or OTHER.match(self.source, self.place)
            self.place = found.end()

    def items(self, path):
        count = 0
        while not self.at("]"):
            self.skip()
            self.starts[path + (count,)] = self.place
            self.value(path + (count,))
            self.at(",")
            count += 1
