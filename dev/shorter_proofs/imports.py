"""Imports of single names from several modules of a crate's specs or proofs, in one line: `use Rattle.vz_ids.specs.{Ids.same_sub, declared.Sub.Sub}`."""
import re

from shorter_proofs.lemmas import parts_of

WIDTH = 150
# A module of which more names are imported stands in a line of its own.
MOST = 4
PLAIN = re.compile(r"use ([^{\s]+?)\.\{(.*)\}$")
# A crate, and its specs or its proofs.
ROOT_PARTS = 3


def modules_in(lines):
    """The modules from which lines import names, each with these, and the lines of each."""
    names, places = {}, {}
    for at, line in enumerate(lines):
        told = PLAIN.match(line)
        for it in told[2].split(", ") if told else ():
            own, module, name = parts_of(told[1], it)
            written = name if own == name else f"{name} as {own}"
            names.setdefault(module, [])
            names[module] += [written] * (written not in names[module])
            places.setdefault(module, [])
            places[module] += [at] * (at not in places[module])
    return names, places


def root_of(module):
    return ".".join(module.split(".")[:ROOT_PARTS])


def short(root, module, names):
    """The items by which names of a module are imported in a line on its root."""
    return [f"{module[len(root) + 1 :]}.{it}" for it in names]


def rows_of(root, small):
    """Modules of a root, with their names, in as few rows as have room for them: the largest first, each in the first row with room."""
    room = WIDTH - len(f"use {root}.{{}}") + 2
    rows = []
    for module, names in sorted(small, key=lambda it: (-sum(len(n) + 2 for n in short(root, *it)), it[0])):
        size = sum(len(it) + 2 for it in short(root, module, names))
        row = next((it for it in rows if it[0] >= size), None)
        if row is None:
            row = [room, []]
            rows.append(row)
        row[0] -= size
        row[1].append((module, names))
    return [row for _, row in rows]


def line_of_row(root, row):
    """The line of imports for a row of modules."""
    if len(row) == 1:
        return f"use {row[0][0]}.{{{', '.join(row[0][1])}}}"
    return f"use {root}.{{{', '.join(it for part in row for it in short(root, *part))}}}"


def packed(text):
    """The same text with fewer lines of imports, where these have room."""
    lines = text.split("\n")
    names, places = modules_in(lines)
    groups = {}
    for module, own in names.items():
        is_small = root_of(module) != module and len(own) <= MOST and len(places[module]) == 1
        if is_small:
            groups.setdefault(root_of(module), []).append((module, own))
    put, gone, order = {}, set(), list(names)
    for root, small in groups.items():
        for row in rows_of(root, small):
            old = {at for module, _ in row for at in places[module]}
            row.sort(key=lambda it: order.index(it[0]))
            if len(old) > 1:
                put[min(old)] = line_of_row(root, row)
                gone |= old
    return "\n".join(put.get(at, line) for at, line in enumerate(lines) if at in put or at not in gone)
