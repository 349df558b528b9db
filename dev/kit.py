"""The kit's own functions on a repository's crates."""
import importlib.machinery
import importlib.util
import subprocess
import sys
from pathlib import Path

sys.dont_write_bytecode = True

# The top of the repository.
ROOT = Path(__file__).resolve().parent.parent

# The folder of the first page is that of the kit.
KIT = Path(subprocess.run(["rt", "doc"], capture_output=True, text=True, check=True).stdout.strip()).parent


def load(name, path):
    """A program of the kit as a module."""
    loader = importlib.machinery.SourceFileLoader(name, str(path))
    made = importlib.util.module_from_spec(importlib.util.spec_from_loader(name, loader))
    sys.modules[name] = made
    loader.exec_module(made)
    return made


def remember_stamps(crates):
    """Has the sum of a crate's files and of all below made once, and not once for each path down to it."""
    stamp, known = crates.stamp, {}

    def once(crate):
        if crate.folder not in known:
            known[crate.folder] = stamp(crate)
        return known[crate.folder]

    crates.stamp = once


rtlib = load("rtlib", KIT / "bin/rtlib.py")
