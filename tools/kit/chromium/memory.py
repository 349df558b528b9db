"""The shared memory of the renderers of a browser that was started here: the tiles of its software
compositing are blocks of it (BGRA, premultiplied)."""

import re
from pathlib import Path

MOST = 1 << 20                  # bytes of a block that is looked at
BLOCK = re.compile(r"([0-9a-f]+)-([0-9a-f]+) rw-s .*shared-memory-region")


def below(root):
    """The processes below one, itself first."""
    children, found = {}, [root]
    for name in Path("/proc").glob("[0-9]*/stat"):
        try:
            parent = int(name.read_text().rpartition(")")[2].split()[1])
        except (OSError, IndexError):
            continue
        children.setdefault(parent, []).append(int(name.parent.name))
    for one in found:
        found += children.get(one, [])
    return found


def renderers(root):
    """Those of them that render pages."""
    for one in below(root):
        try:
            if b"--type=renderer" in Path("/proc/%d/cmdline" % one).read_bytes():
                yield one
        except OSError:
            continue


def blocks_of(process):
    """The blocks of a process that are not all zero. An OSError says that it may not be read."""
    place = Path("/proc/%d" % process)
    with open(place / "mem", "rb", 0) as memory:
        for start, end in BLOCK.findall((place / "maps").read_text()):
            start, end = int(start, 16), int(end, 16)
            if end - start <= MOST:
                memory.seek(start)
                data = memory.read(end - start)
                if data and any(data):
                    yield data


def blocks(root):
    """All blocks, each content once; and whether each renderer could be read."""
    found, readable = {}, True
    for process in renderers(root):
        try:
            found.update((data, None) for data in blocks_of(process))
        except PermissionError:
            readable = False
        except OSError:         # it ended meanwhile, or took a block back
            continue
    return list(found), readable
