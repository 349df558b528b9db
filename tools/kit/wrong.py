"""Errors that say where something is wrong, and what."""

import os
import sys
from contextlib import contextmanager

VERSION = "1.1"


class Wrong(Exception):
    """Something in an input is wrong. `places` say where, from the outermost to the innermost; `keys` are the
    keys and places of a scene's text that lead there, from its top if it is `anchored`."""

    def __init__(self, what):
        super().__init__(what)
        self.what = what
        self.places = []
        self.keys = []
        self.anchored = False

    def __str__(self):
        what = self.what if len(self.what) <= 2000 else self.what[:2000] + ".."
        return ": ".join([", ".join(self.places), what] if self.places else [what])


@contextmanager
def inside(place, *keys, top=False):
    """An error that is raised in this block stands inside `place`, and at `keys`; with `top` these are from the
    top of the text on."""
    try:
        yield
    except Wrong as wrong:
        if place is not None:
            wrong.places.insert(0, str(place))
        if not wrong.anchored:
            wrong.keys[:0] = keys
            wrong.anchored = top
        raise


@contextmanager
def file(name):
    """The same for a file, whose name stands first."""
    try:
        yield
    except Usage:
        raise
    except Wrong as wrong:
        raise Wrong("%s: %s" % (name, wrong)) from None
    except OSError as error:
        raise Wrong("%s: %s" % (name, error.strerror or error)) from None


def program(main, words, about):
    """Runs a tool: its status, its help, and its errors as one line. Status 1 is an error of an input, 2 of the
    words, 130 an end by Ctrl-C."""
    try:
        status = asked(words, about) or main(words)
        sys.stdout.flush()
        sys.exit(status)
    except Usage as usage:
        sys.stderr.write("%s\n(--help says how it is used)\n" % usage)
        sys.exit(2)
    except Wrong as wrong:
        sys.stderr.write("%s\n" % wrong)
        sys.exit(1)
    except KeyboardInterrupt:
        os._exit(130)
    except OSError as error:
        if not isinstance(error, BrokenPipeError):
            sys.stderr.write("%s: %s\n" % (error.filename or "standard output", error.strerror or error))
        sys.stdout = None             # what is left in it cannot be written either
        os._exit(1)


def asked(words, about):
    """Prints the help or the version if it is asked for, and ends."""
    if any(word in ("--help", "-h") for word in words):
        print(about.strip())
    elif words == ["--version"]:
        print("%s of viz's tools, %s" % (os.path.basename(sys.argv[0]), VERSION))
    else:
        return None
    sys.stdout.flush()
    sys.exit(0)


class Usage(Wrong):
    """The words of the command line are wrong."""
