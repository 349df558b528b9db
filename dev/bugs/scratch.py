"""A copy of the repository's crates, on which bugs are tried."""
import os
import shutil
import sys
from pathlib import Path

sys.path.insert(0, str(Path(__file__).resolve().parent.parent))

from older import rt

# As `rt must-fail` does: a library that another clone on this machine built of the same files is taken.
rt.share_work(False)


def crates_in(root):
    """The crates of a repository by their names, lowest first."""
    rt.Crate.allowed = rt.handles_of(str(root))
    return {crate.name: crate for crate in rt.rtlib.crates_below(str(root))}


def build_below(crates):
    """Builds the libraries below these crates where they are missing, and returns the crates for which that failed."""
    held = rt.rtlib.lock([it for crate in crates for it in [crate, *crate.below()]])
    failed = [crate for crate in crates if any(it.build_rlib(["--jobs", "2"], anew=False) for it in crate.below())]
    for it in held:
        os.close(it)
    return failed


def take_libraries(old, new):
    """Links the built libraries of one repository's crates into the copies of these crates."""
    for name, crate in new.items():
        if old[name].makes_rlib() and old[name].is_built():
            shutil.copytree(Path(old[name].rlib).parent, Path(crate.rlib).parent, copy_function=rt.link_or_copy)


def take_proofs(old, new):
    """Links what `rt check` kept of a crate into the copy of it."""
    if os.path.isdir(f"{old.folder}/out/incremental"):
        os.makedirs(f"{new.folder}/out", exist_ok=True)
        rt.linked(f"{old.folder}/out/incremental", f"{new.folder}/out/incremental")


def copy_of(root, room, old, names):
    """Copies a repository's crates to a room, with the libraries that are built, and returns the copies.

    What was kept of the proofs of the named ones comes with them.
    """
    to = Path(room) / "repository"
    rt.copy_crates(str(root), str(to))
    (to / ".git").mkdir()
    new = crates_in(to)
    take_libraries(old, new)
    for name in names:
        take_proofs(old[name], new[name])
    return new
