"""Calls the program, looks at its words before, and explains its status after."""

import os
import re
import subprocess
import sys
from pathlib import Path

from . import paths, wire
from .wrong import Usage, Wrong

ROOT = Path(__file__).resolve().parents[2]
PLACES = (ROOT / "out" / "viz", ROOT / "crates" / "viz" / "out" / "viz")
FORMS = {  # the words of each command: names of numbers with their limits, names of what is read, names of what is written
    "step": ("W H SCHEDULE FRAMES LOG FILE..", "SCHEDULE FILE", "FRAMES LOG"),
    "run": ("W H TICKS FRAMES LOG FILE..", "FILE", "FRAMES LOG"),
    "check": ("W H FRAMES LOG FILE..", "FRAMES LOG FILE", ""),
    "gen": ("N FILE1 FILE2 FILE3", "", "FILE1 FILE2 FILE3"),
    "demo": ("N", "", ""),
    "hit": ("W H SCHEDULE X Y FILE..", "SCHEDULE FILE", ""),
    "turns": ("W H TICKS FILE..", "FILE", ""),
}
OPTIONS = ("--paced", "--buffers", "--pipe")     # of run, each at most once and in this order
MOST = {"W": 2048, "H": 2048, "TICKS": 256, "N": 1000, "X": 2047, "Y": 2047}
LEAST = {"TICKS": 0, "X": 0, "Y": 0}
BELOW = {"X": "W", "Y": "H"}
STATUS = {1: "check says no", 2: "the words are those of no command", 3: "an input is refused",
          4: "a file could not be read or written", 5: "the memory did not suffice"}


def find(given=None):
    """The program: the one that is given, or that which ./try or the prover built."""
    for place in (Path(given),) if given else PLACES:
        if place.is_file() and os.access(place, os.X_OK):
            return place.resolve()
    raise Wrong("%s: no program is there; ./try demo 1 builds it, and --viz PATH names another" % (given or PLACES[0]))


def named(words):
    """The words of a command with their names in its form."""
    if not words or words[0] not in FORMS:
        raise Usage("%s is no command: %s" % (words[0] if words else "nothing", ", ".join(FORMS)))
    form, rest, left = FORMS[words[0]][0].split(), list(words[1:]), OPTIONS
    while words[0] == "run" and rest and rest[0].startswith("--"):
        option = rest.pop(0)
        if option not in left:
            raise Usage("%s: run has --paced, --buffers N and --pipe, each once and in this order" % option)
        left = left[left.index(option) + 1:]
        if option == "--buffers":
            number("--buffers", rest.pop(0) if rest else "", 4, 1)
    many = form[-1] == "FILE.."
    if len(rest) < len(form) or not many and len(rest) > len(form):
        raise Usage("%s wants %s, and has %d words" % (words[0], " ".join(form), len(rest)))
    if many and len(rest) - len(form) + 1 > 16:
        raise Usage("%d message files, at most 16" % (len(rest) - len(form) + 1))
    return list(zip(form[:-1] + ["FILE"] * (len(rest) - len(form) + 1) if many else form, rest))


def number(name, word, most, least):
    if not re.fullmatch(r"0|[1-9][0-9]{0,9}", word) or not least <= int(word) <= most:
        raise Usage("%s is %d to %d in decimal digits, not %r" % (name, least, most, word))


def look(words):
    """Looks at numbers and files before the program is called, and warns of what is easily not meant; the names with
    their words."""
    pairs = named(words)
    _, read, written = FORMS[words[0]]
    for name, word in pairs:
        if name in BELOW:
            number(name, word, min(MOST[name], int(dict(pairs)[BELOW[name]]) - 1), LEAST[name])
        elif name in MOST:
            number(name, word, MOST[name], LEAST.get(name, 1))
        elif name in read.split():
            paths.readable(word)
        elif name in written.split():
            paths.writable(word)
    files = [word for name, word in pairs if name not in MOST]
    twice = next((word for word in files if files.count(word) > 1), None)
    if twice:
        raise Wrong("%s: named twice" % twice)
    sides = [[word for name, word in pairs if name in some.split()] for some in (read, written)]
    for text in paths.warnings(*sides):
        sys.stderr.write("warning: %s\n" % text)
    return pairs


def call(viz, words):
    """Calls the program; what it printed. A status that is not 0 is an error that explains it."""
    pairs = look(words)
    done = subprocess.run([str(viz), *map(str, words)], capture_output=True, text=True)
    if done.returncode:
        raise Wrong(explained(done.returncode, done.stdout.strip(), pairs))
    return done.stdout.strip()


def explained(status, printed, pairs):
    """A status, with the file and the field of a refused input."""
    if status < 0:
        return "the program was ended by signal %d" % -status
    head = "status %d: %s" % (status, STATUS.get(status, "unknown"))
    found = re.fullmatch(r"file ([0-9]+) refused at ([0-9]+): (\w+)", printed)
    if not found:
        if status == 1:
            return "%s: %s (tools/why explains it)" % (head, printed)
        return "%s%s" % (head, ": " + printed if printed else "")
    number_, place, rule = int(found[1]), int(found[2]), found[3]
    files = [word for name, word in pairs if name == "FILE"]
    if number_ == 0:
        name = next((word for kind, word in pairs if kind in ("SCHEDULE", "LOG")), "?")
        return "%s: %s: `%s` at offset %d" % (head, name, rule, place)
    name = files[number_ - 1]
    return "%s: %s: `%s` at offset %d%s" % (head, name, rule, place, field(Path(name)))


def field(name):
    """The message and the field at which a file is refused, in words."""
    try:
        wire.located(name.read_bytes())
    except Wrong as wrong:
        return ": " + ", ".join(wrong.places) if wrong.places else ""
    except OSError:
        return ""
    return ": its sink is that of an earlier file"
