"""Looks at the files that names are of: the program compares names as texts."""

import os
import stat
from pathlib import Path

from .wrong import Wrong


def is_same(one, other):
    """Whether two names are of one file, also by a link."""
    one, other = Path(one), Path(other)
    try:
        return one.samefile(other)
    except OSError:
        return os.path.realpath(one) == os.path.realpath(other)


def readable(name):
    """An error if a file cannot be read: it is not there, a folder, or not for this user."""
    path = Path(name)
    if path.is_dir():
        raise Wrong("%s: a folder, not a file" % name)
    if not path.exists():
        raise Wrong("%s: no such file" % name)
    if not os.access(path, os.R_OK):
        raise Wrong("%s: you may not read it" % name)


def writable(name):
    """An error if a file cannot be written."""
    path = Path(name)
    if path.is_dir():
        raise Wrong("%s: a folder, not a file" % name)
    if not path.absolute().parent.is_dir():
        raise Wrong("%s: its folder is not there" % name)
    if not os.access(path if path.exists() else path.absolute().parent, os.W_OK):
        raise Wrong("%s: you may not write it" % name)


def warnings(read, written):
    """What names do that is easily not meant: one file by two names, links, and pipes."""
    for place, name in enumerate(written):
        for other in written[:place]:
            if is_same(name, other):
                yield "%s and %s are one file: both are written into it, one over the other" % (other, name)
        for other in read:
            if is_same(name, other):
                yield "%s is the file %s, which is read: its content is lost" % (name, other)
        yield from links(name)
    for place, name in enumerate(read):
        for other in read[:place]:
            if is_same(name, other):
                yield "%s and %s are one file, which is read twice" % (other, name)
    for name in (*read, *written):
        if Path(name).is_fifo():
            yield "%s is a pipe: the program waits until its other end is open" % name


def links(name):
    """What is changed besides if a file is written."""
    path = Path(name)
    if path.is_symlink():
        yield "%s is a link: what it leads to is written, %s" % (name, os.path.realpath(name))
    elif path.exists() and stat.S_ISREG(path.stat().st_mode) and path.stat().st_nlink > 1:
        yield "%s has other names too (hard links): they have the new content then" % name
