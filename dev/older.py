"""The kit's `rt` as a module, with what `rattle-kit-13f` has and `rattle-kit-13b` lacks of what the scripts here use.

A kit that has all of it is left as it is. Else each function here does what the one of its name does in 13f, as far as the scripts need it.
"""
import os
import shutil
import tempfile
from pathlib import Path

from kit import KIT, load, remember_stamps

rt = load("rt", KIT / "bin/rt")
IS_OLDER = not hasattr(rt, "share_work")
REFUSED, AT_LIMIT, MISSED, BAD, UNSURE = "refused", "at limit", "missed", "bad", "unsure"


class Unsettled(Exception):
    """A check that ended without a verdict, with its status."""


def share_work(_):
    """Takes what other clones proved: this kit keeps nothing for them."""


def sweep():
    """Removes the folders of runs that were killed. Their names have the number of their process."""
    for folder in Path(tempfile.gettempdir()).glob("rt-*-*-*"):
        _, kind, number = folder.name.split("-")[:3]
        if kind in ("copy", "edit", "only", "seed") and number.isdigit() and not os.path.isdir(f"/proc/{number}"):
            shutil.rmtree(folder, ignore_errors=True)


def link_or_copy(old, new):
    """Links a file, or copies it where it cannot be linked."""
    try:
        os.link(old, new)
    except OSError:
        shutil.copy2(old, new)


def linked(old, new):
    """Copies a folder with what was proved by links: a check makes new files in place of those that it changes."""
    shutil.copytree(old, new, copy_function=link_or_copy)


def copy_crates(root, to):
    """Copies what a check reads of a repository's crates."""
    top = f"{root}/crates"
    shutil.copytree(top, f"{to}/crates", ignore=lambda at, names: {"out"} if os.path.dirname(at) == top else ())
    for name in ("crates.txt", "HANDLES"):
        if os.path.isfile(f"{root}/{name}"):
            shutil.copy(f"{root}/{name}", to)


def stamp_of(crate, _):
    """The sum of a crate's files, of those of all crates below, and of the kit."""
    return crate.stamp()


def settled(checked):
    """The same check of a crate, which raises `Unsettled` where it ends without a verdict."""

    def check(*given):
        ran = checked(*given)
        if ran.returncode < 0 or ran.returncode == 3:
            raise Unsettled(ran.returncode)
        return ran

    return check


def with_kinds(must_fail):
    """The same try of an edit, which returns one of the kinds above in place of whether it is refused."""

    def tried(*given):
        try:
            is_refused, said = must_fail(*given)
        except Unsettled as why:
            return (AT_LIMIT, "antt could not tell") if why.args[0] == 3 else (UNSURE, f"the check ended by signal {-why.args[0]}")
        if is_refused:
            return REFUSED, said
        return MISSED if "NOT REFUSED" in said else UNSURE if "the kept work of a library" in said else BAD, said

    return tried


def seeded(crate, flags, start):
    """A folder whose folder `seed` has a proof of the crate as it is, None where it is not proved. `start` has what was proved of it before."""
    room = tempfile.mkdtemp(prefix=f"rt-seed-{os.getpid()}-")
    if start:
        linked(start, f"{room}/seed")
    try:
        if rt.checked(crate, {}, flags, f"{room}/seed").returncode == 0:
            return room
    except Unsettled:
        pass
    shutil.rmtree(room)
    return None


if IS_OLDER:
    remember_stamps(rt.rtlib.Crate)
    rt.checked, rt.must_fail = settled(rt.checked), with_kinds(rt.must_fail)
    for it in (share_work, sweep, link_or_copy, linked, copy_crates, stamp_of, seeded):
        setattr(rt, it.__name__, it)
    for kind in ("REFUSED", "AT_LIMIT", "MISSED", "BAD", "UNSURE"):
        setattr(rt, kind, globals()[kind])
