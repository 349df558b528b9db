"""What is hit at a point of each drawn frame of a run. The program itself says it: `viz hit`, with the events up to the
frame's drawing as the schedule."""

import re
import tempfile
from pathlib import Path

from . import calling, inputs, log, words
from .machine import Differs, replay
from .record import Names
from .wrong import Usage, Wrong, file


def point(text, size):
    """The point X,Y of a display."""
    found = re.fullmatch(r"([0-9]{1,4}),([0-9]{1,4})", text)
    if not found or int(found[1]) >= size[0] or int(found[2]) >= size[1]:
        raise Usage("a point of the display is X,Y, at most %d,%d, not %r" % (size[0] - 1, size[1] - 1, text))
    return int(found[1]), int(found[2])


def drawings(entries):
    """The place after each entry that is drawn."""
    return [place for place, entry in enumerate(entries, 1) if entry.reply == "drawn"]


def surface(line):
    """The surface that a line of `hit` names, with the point from its top left, or None."""
    if line == "hit none":
        return None
    found = re.fullmatch(r"hit (\d+) (\d+) (\d+) (\d+) (\d+) (\d+) (\d+)", line)
    if not found:
        raise Wrong("the program printed %r, which is no line of `hit`" % line)
    client, sink, parent, child, token, x, y = map(int, found.groups())
    return ((client, sink), (parent, child, token)), (x, y)


def parts(run):
    """The log and the message files of a run: LOG,FILE,FILE,.. or a folder."""
    if Path(run).is_dir() or "," not in str(run):
        return Path(run) / "log", inputs.parts_in(Path(run))
    name, *files = map(Path, run.split(","))
    return name, files


class Hits:
    """The program, asked what is hit at one point of the frames of a run."""

    def __init__(self, given, run, size, at):
        self.viz, self.size, self.at = calling.find(given.get("--viz")), size, at
        self.log, self.files = parts(run)
        files = inputs.clients(self.files)
        self.names = Names(files, inputs.client_names(given, self.files, len(files)))
        with file(self.log):
            read = log.read(self.log.read_bytes())
            self.schedule, self.ends = words.schedule_of(read.entries), drawings(read.entries)
            try:
                replay(read, files, size)
            except Differs as differs:
                raise Wrong("%s (tools/why says more)" % differs) from None

    def line(self, number):
        """What the program prints for a frame, counted from 1."""
        with tempfile.NamedTemporaryFile() as schedule:
            schedule.write(self.schedule[:self.ends[number - 1]])
            schedule.flush()
            return calling.call(self.viz, ["hit", *map(str, self.size), schedule.name, *map(str, self.at), *map(str, self.files)])

    def said(self, number):
        """What is hit in a frame, in words."""
        found = surface(self.line(number))
        hit = "nothing" if found is None else "%s at (%d, %d)" % (self.names.surface(found[0]), *found[1])
        return "frame %d: (%d, %d) hits %s" % (number, *self.at, hit)
