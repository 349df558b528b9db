"""What the tools read from a command line: options, names of what is written, and a run with its log, its frames and
its message files."""

import re
from pathlib import Path

from . import build, log, names, paths, wire
from .chromium import events
from .wrong import Usage, Wrong, file

PARTS = re.compile(r"c?([1-9]|1[0-6])\.viz")


def options(words, known, switches=(), anywhere=False):
    """The options at the start of a line (or anywhere in it), each with the word after it, and the other
    words."""
    given, others, words = {}, [], list(words)
    while words:
        word = words.pop(0)
        if word in switches:
            given[word] = True
        elif word in known:
            if not words:
                raise Usage("%s wants a word after it" % word)
            given[word] = words.pop(0)
        elif word.startswith("-") and word != "-":
            raise Usage("%s is no option here; there are %s" % (word, ", ".join((*known, *switches)) or "none"))
        else:
            others.append(word)
            if not anywhere:
                return given, others + words
    return given, others


def number(word, most, what, least=1):
    """A number of a command line, within its limits."""
    if not re.fullmatch(r"0|[1-9][0-9]{0,9}", word) or not least <= int(word) <= most:
        raise Usage("%s is %d to %d, not %r" % (what, least, most, word))
    return int(word)


def room(name):
    """A folder that is to be written, if it may be: what stands there, or first above it, is a folder."""
    above = next(one for one in (Path(name), *Path(name).absolute().parents) if one.exists())
    if not above.is_dir():
        raise Wrong("%s: a file, not a folder" % above)
    return Path(name)


def target(name, suffix="", read=()):
    """A file that is to be written, looked at before the work is done: its name ends in `suffix`, and it is none of the
    files that are read."""
    if not name.lower().endswith(suffix):
        kind = {".png": "a PNG file", ".svg": "an SVG file"}[suffix]
        raise Usage("%s: the picture is %s, so its name ends in %s" % (name, kind, suffix))
    if Path(name).is_dir():
        raise Wrong("%s: a folder, not a file" % name)
    room(Path(name).absolute().parent)
    if any(paths.is_same(name, one) for one in read):
        raise Wrong("%s: it is read too, so it is not written" % name)
    return Path(name)


def clients(words):
    """The message files of some names, as they are read."""
    if not 1 <= len(words) <= 16:
        raise Usage("%d message files, not 1 to 16" % len(words))
    files = []
    for name in words:
        with file(name):
            files.append(wire.read(Path(name).read_bytes()))
        if files[-1]["sink"] in [one["sink"] for one in files[:-1]]:
            raise Wrong("%s: its sink %s is that of an earlier file" % (name, names.sink_text(files[-1]["sink"])))
    return files


def parts_in(folder):
    """The message files of a folder."""
    with file(folder):
        parts = sorted((int(PARTS.fullmatch(p.name)[1]), p) for p in folder.iterdir() if PARTS.fullmatch(p.name))
    if [k for k, _ in parts] != list(range(1, len(parts) + 1)) or not parts:
        raise Wrong("%s: it has not the message files c1.viz, c2.viz, .. of a run" % folder)
    return [p for _, p in parts]


def in_folder(folder):
    """The log, the frames and the message files of a folder."""
    parts = parts_in(folder)
    for name in ("log", "frames"):
        if not (folder / name).is_file():
            raise Wrong("%s: there is no %s; run the program first" % (folder, name))
    return [folder / "log", folder / "frames", *parts]


def client_names(given, words, count):
    """The names of the clients: those that are given, those of a scene, those of a recording of
    Chromium, or those of the files."""
    if "--names" in given:
        found = given["--names"].split(",")
        if len(found) != count or not all(found) or len(set(found)) != count:
            raise Usage("--names wants %d different names, with commas" % count)
        return found
    if "--scene" in given:
        found = build.scene(given["--scene"]).names
        if len(found) != count:
            raise Wrong("%s has %d clients, the run has %d" % (given["--scene"], len(found), count))
        return found
    found = events.addresses(Path(words[0]).parent)
    if found and len(found) == count:
        return found
    found = [Path(word).stem for word in words]
    found = ["c" + name if name.isdigit() else name for name in found]
    return found if len(set(found)) == count else ["c%d" % k for k in range(1, count + 1)]


def is_drawn(read, size):
    """An error if a log is not of a display of this size: the first drawn frame is the whole of it."""
    drawn = next((entry.numbers[2:] for entry in read.entries if entry.reply == "drawn"), size)
    if drawn != size:
        swapped = "; W and H are swapped" if drawn == size[::-1] else ""
        raise Wrong("the first drawn frame has %d by %d pixels, not %d by %d%s" % (*drawn, *size, swapped))


def display(given, read):
    """The size of the display: the one that is given, or that of the first drawn frame."""
    if "--size" not in given:
        return next((entry.numbers[2:] for entry in read.entries if entry.reply == "drawn"), (1, 1))
    try:
        size = build.display_size(list(names.size(given["--size"])))
    except Wrong as wrong:
        raise Usage("--size: %s" % wrong) from None
    is_drawn(read, size)
    return size


class Run:
    """A run as its files say: `log` is read, `files` are the messages, and `frames` reads the frames one
    by one."""

    def __init__(self, given, words):
        self.log_name, self.frames_name, self.read = words[0], words[1], words
        with file(self.log_name):
            data = Path(self.log_name).read_bytes()
            self.log, self.text = log.read(data), data.decode("ascii")
            self.size = display(given, self.log)
        self.files = clients(words[2:])
        self.names = client_names(given, words[2:], len(self.files))
        self.title = "viz: " + ", ".join(self.names[:4]) + (" .." if len(self.names) > 4 else "")

    def frames(self, count):
        """The frames of the file, of which there must be so many."""
        if self.frames_name == "-":
            return
        size = self.size[0] * self.size[1] * 4
        with file(self.frames_name):
            there = Path(self.frames_name).stat().st_size
            if there != count * size:
                raise Wrong("%d bytes, not those of %d frames of %d by %d, as the log has" % (there, count, *self.size))
            with open(self.frames_name, "rb") as data:
                for _ in range(count):
                    yield data.read(size)


def run(given, words):
    """The run of LOG FRAMES FILE.., or of a folder."""
    if len(words) == 1 and Path(words[0]).is_dir():
        words = in_folder(Path(words[0]))
    elif len(words) == 1 and not Path(words[0]).exists():
        raise Wrong("%s: no such folder" % words[0])
    elif len(words) < 3:
        raise Usage("LOG FRAMES FILE.. are wanted, or a folder with them (%s)" % (", ".join(words) or "nothing is given"))
    return Run(given, list(map(str, words)))


def said(story):
    """What each entry answered and did, each on one line."""
    return [". ".join(map(story.sentence, [story.reply(place), *story.effects(place)])) + "."
            for place in range(len(story.log.entries))]
