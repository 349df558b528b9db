"""The checkout, and copies of it in which a crate is checked over the libraries below it."""
import os
import re
import shutil
import subprocess

from kit import ROOT, load, rtlib

LINE = re.compile(r"(\w+)( staticlib)?:(.*)$")


def read(path):
    with open(path, encoding="utf-8", errors="replace") as file:
        return file.read()


def write(path, text):
    """Writes a file in one step, so that an interrupt leaves the old one or the new one."""
    os.makedirs(os.path.dirname(path), exist_ok=True)
    with open(f"{path}.new", "w", encoding="utf-8") as file:
        file.write(text)
    os.replace(f"{path}.new", path)


def files_in(folder, *ends):
    """The files at and below a folder with such names, but in `out`."""
    found = []
    for place, folders, names in os.walk(folder):
        folders[:] = sorted(it for it in folders if it not in ("out", ".git"))
        found += [f"{place}/{it}" for it in sorted(names) if it.endswith(ends)]
    return found


def proofs_of(folder):
    """The files of a crate's proofs with their texts, by their paths in `proofs`."""
    return {os.path.relpath(it, f"{folder}/proofs"): read(it) for it in files_in(f"{folder}/proofs", ".antt")}


def lines_of(texts):
    return sum(it.count("\n") for it in texts.values())


def line_of(tree, crate):
    """The line of a crate in a tree's crates.txt."""
    return next(it for it in read(f"{tree}/crates.txt").split("\n") if re.match(rf"{crate}( staticlib)?:", it))


def is_over_stubs(tree):
    """Whether libraries of a tree are made by `dev/stubs`."""
    return bool(re.search(r"^vz_stub:", read(f"{tree}/crates.txt"), re.M))


def below(crate, tree):
    """The repository's libraries that a crate uses in a tree, the lowest first."""
    return {it.name: it for it in rtlib.crates_below(tree)}[crate].below()


def link(old, new):
    """Takes a file of a library as it is; the note on what it was made of may be written anew, and so is copied."""
    (shutil.copy2 if os.path.basename(old) == "stamp" else os.link)(old, new)


def copy_of(crate, tree, room):
    """Makes a copy in `room` of what a check of a crate reads, over the libraries of a tree, and returns the crate's folder there."""
    subprocess.run(["git", "init", "-q", room], check=True)
    shutil.copy(f"{tree}/HANDLES", room)
    names = set()
    for low in below(crate, tree):
        names.add(low.name)
        shutil.copytree(low.folder, f"{room}/crates/{low.name}", ignore=shutil.ignore_patterns("out", "must-fail"))
        if os.path.isdir(f"{low.folder}/out/rlib"):
            shutil.copytree(f"{low.folder}/out/rlib", f"{room}/crates/{low.name}/out/rlib", copy_function=link)
    folder = f"{room}/crates/{crate}"
    shutil.copytree(f"{ROOT}/crates/{crate}", folder, ignore=shutil.ignore_patterns("out", "must-fail"))
    kept = f"{ROOT}/crates/{crate}/out/incremental"
    if tree == ROOT and os.path.isdir(kept):
        shutil.copytree(kept, f"{folder}/out/incremental", copy_function=link)
    lines = [it for it in read(f"{tree}/crates.txt").split("\n") if LINE.match(it) and LINE.match(it)[1] in names]
    write(f"{room}/crates.txt", "\n".join([*lines, line_of(ROOT, crate), ""]))
    return folder


def stub_of(crate, tree, room):
    """The same with a crate whose functions have their contracts and no bodies, so that little but the lemmas is left to check."""
    folder = copy_of(crate, tree, room)
    shutil.rmtree(f"{folder}/out", ignore_errors=True)
    stubs = load("stubs", f"{ROOT}/dev/stubs")
    stubs.make_stub(folder)
    lines = read(f"{room}/crates.txt").split("\n")
    lines = [re.sub(r":", ": vz_stub", it, count=1) if it == line_of(ROOT, crate) else it for it in lines]
    if not is_over_stubs(tree):
        lines.append("vz_stub:")
        write(f"{room}/crates/vz_stub/src/lib.rt", stubs.STUB)
        write(f"{room}/crates/vz_stub/c/stub.c", "#include <stdlib.h>\nvoid vz_no(void) { abort(); }\n")
    write(f"{room}/crates.txt", "\n".join([*lines, ""]))
    return folder
