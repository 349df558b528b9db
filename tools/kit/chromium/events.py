"""The text of Chromium's events that a recording has beside its message files (docs/CHROMIUM.md has
its lines)."""

import base64
import re
from pathlib import Path
from typing import NamedTuple

from .. import names
from ..wrong import Wrong, file, inside

HEAD = "events of Chromium, 1"
COUNTED = {  # the words of events with the number of fields behind them; the last one may have spaces
    "commit": 2, "waits": 2, "active": 2, "draw": None, "destroyed": 1, "closed": 1, "round": 3,
    "outside": 4, "exact": None}


class Told(NamedTuple):
    """An event: after how many events of the schedule and at which tick it is, when, and what."""
    at: int
    tick: int
    milliseconds: str
    word: str
    given: list


class Events:
    """The lines of a text by what they say."""

    def __init__(self, text):
        lines = text.splitlines()
        if lines[:1] != [HEAD]:
            raise Wrong("the first line is not %r" % HEAD)
        self.browser = self.page = self.pace = self.tiles = ""
        self.size, self.clients, self.told, self.presses = (1, 1), [], [], []
        self.counts, self.notes = {}, {}
        for place, line in enumerate(lines[1:], 2):
            with inside("line %d" % place):
                try:
                    self.line(line)
                except (ValueError, IndexError, TypeError):
                    raise Wrong("%r is no line of these events" % line) from None

    def line(self, line):
        word, _, rest = line.partition(" ")
        if word.isdigit():
            self.told.append(told(line))
        elif word in ("browser", "page", "pace", "tiles"):
            setattr(self, word, rest)
        elif word == "display":
            w, h = map(int, rest.split())
            self.size = w, h
        elif word == "client":
            number, sink, name = rest.split(" ", 2)
            if int(number) != len(self.clients) + 1:
                raise Wrong("client %s is not the next one" % number)
            self.clients.append((names.sink(sink, {}), name))
        elif word == "press":
            x, y, at, down, name = rest.split(" ", 4)
            self.presses.append(((int(x), int(y)), (int(at), int(down)), name))
        elif word in ("count", "note"):
            many, what = rest.split(" ", 1)
            (self.counts if word == "count" else self.notes)[what] = int(many)
        else:
            raise ValueError

    def of(self, *words):
        return [one for one in self.told if one.word in words]


def told(line):
    at, tick, milliseconds, word, *rest = line.split(" ")
    many = COUNTED[word] if word in COUNTED else -1
    given = rest if many is None else " ".join(rest).split(" ", many - 1)
    if many is not None and len(given) != many:
        raise ValueError
    return Told(int(at), int(tick), milliseconds, word, given)


def addresses(folder):
    """The addresses of the clients, if a recording of Chromium stands in a folder, or None."""
    name = Path(folder) / "events"
    if not name.is_file():
        return None
    with file(name):
        return [address for _, address in Events(name.read_text(encoding="utf-8")).clients]


def beside(folder, entries):
    """What a page shows of a recording whose log has so many entries, or None: events as (entry, tick, text), and
    pictures as (entry after them, why, verdict, PNG)."""
    if not (folder / "events").is_file():
        return None
    with file(folder / "events"):
        read = Events((folder / "events").read_text(encoding="utf-8"))
    shown = [[min(one.at, entries - 1), one.tick, " ".join([one.word, *one.given])]
             for one in read.of("active", "draw", "destroyed", "closed", "waits")]
    verdicts, pictures = verdicts_of(folder), []
    for one in read.of("round"):
        number, name, why = one.given
        if (folder / name).is_file():
            data = base64.b64encode((folder / name).read_bytes()).decode("ascii")
            pictures.append([min(one.at, entries), why, verdicts.get(int(number), "not judged"), data])
    return {"events": shown, "pictures": pictures}


def verdicts_of(folder):
    """What the judgement in a folder says of each picture."""
    name = folder / "judged"
    lines = name.read_text(encoding="utf-8").splitlines() if name.is_file() else []
    found = (re.fullmatch(r"picture (\d+), (.*)", line) for line in lines)
    return {int(one[1]): one[2].rpartition(": ")[2] for one in found if one}
