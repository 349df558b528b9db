"""Bugs as they are written: which files they change, and in which functions."""
import re
import shutil
from dataclasses import dataclass, replace
from pathlib import Path

FN = re.compile(r"( *)(?:pub(?:\([^)]*\))? )?(?:const )?fn (\w+)")
IMPL = re.compile(r"impl(?:<.*?>)? (?:(\S+?)(?:<.*>)? for )?&?(?:'\w+ )?(\w+)")


def module_of(path):
    """The module of a file: `a::b` of `src/a/b.rt`."""
    parts = list(Path(path).with_suffix("").parts[1:])
    return [] if parts in (["lib"], ["main"]) else parts


@dataclass(frozen=True)
class Function:
    """A function by its file, the type and the trait of its impl ('' for none), and its name.

    The functions of a cycle of calls have one proof.
    """

    path: str
    type: str
    trait: str
    name: str
    is_in_cycle: bool = False

    def said(self):
        """Its name below the crate, or the end of it that fits it alone, as a check takes it."""
        return "::".join([self.type + self.trait, self.name] if self.type else [*module_of(self.path), self.name])


@dataclass(frozen=True)
class Bug:
    """A bug: its crate's name, its own name, its file, and the functions in which it changes something.

    `functions` is empty for one that changes something outside of functions.
    """

    crate: str
    name: str
    file: Path
    functions: frozenset

    def can_share(self):
        """Whether a check of several bugs can tell what becomes of it."""
        return bool(self.functions) and not any(function.is_in_cycle for function in self.functions)


def pairs_of(text):
    """The pairs of old and new texts of an edit, each with the file that it changes."""
    path, old, pairs = "", None, []
    for line in text.split("\n"):
        if line.startswith("file: "):
            path = line[len("file: ") :].strip()
        elif line.startswith("old: "):
            old = line[len("old: ") :]
        elif line.startswith("new:") and old is not None:
            pairs.append((path, old, line[len("new:") :].removeprefix(" ")))
            old = None
    return pairs


def heads_before(lines, pattern):
    """The matches of a pattern at the beginning of these lines, with their places, the last one first."""
    found = [(at, pattern.match(line)) for at, line in enumerate(lines)]
    return [(at, match) for at, match in reversed(found) if match]


def is_inside(lines, head, at, indent):
    """Whether the line `at` comes before the end of the block that begins at `head`."""
    ends = (k for k in range(head, len(lines)) if lines[k] == indent + "}")
    return at <= next(ends, -1)


def impl_of(lines, at):
    """The type and the trait of the impl around a line, '' for none."""
    for head, match in heads_before(lines[: at + 1], IMPL)[:1]:
        if is_inside(lines, head, at, ""):
            return match[2], (match[1] or "").split("::")[-1]
    return "", ""


def is_in_cycle(lines, head):
    """Whether a function is one of a cycle of calls, which has one proof."""
    return any("#[cycle(" in line for line in lines[max(head - 3, 0) : head])


def function_at(path, text, place):
    """The function around a place of a text, None where there is none."""
    lines = text.split("\n")
    at = text.count("\n", 0, place)
    for head, match in heads_before(lines[: at + 1], FN)[:1]:
        if is_inside(lines, head, at, match[1]):
            name_of_type, trait = impl_of(lines, head)
            return Function(path, name_of_type, trait, match[2], is_in_cycle(lines, head))
    return None


def functions_of(folder, pairs):
    """The functions that the pairs change, none where one of them changes something else."""
    texts, found = {}, set()
    for path, old, new in pairs:
        text = texts.get(path) or (folder / path).read_text(encoding="utf-8")
        place = text.find(old)
        found.add(function_at(path, text, max(place, 0)))
        texts[path] = text.replace(old, new)
    return frozenset() if None in found else frozenset(found)


def read_bug(folder, file):
    """A bug of the crate that lies in a folder."""
    pairs = pairs_of(file.read_text(encoding="utf-8", errors="replace"))
    can_read = all((folder / path).is_file() for path, _, _ in pairs)
    functions = functions_of(folder, pairs) if can_read else frozenset()
    return Bug(folder.name, file.stem, file, functions)


def bugs_in(folder, crate):
    """The bugs that lie in a folder, by name."""
    return [read_bug(crate, file) for file in sorted(folder.glob("*.edit"))]


def copies_of(bugs, room):
    """The same bugs, read from copies of their files in a room."""
    found = []
    for bug in bugs:
        file = Path(room) / "bugs" / bug.crate / bug.file.name
        file.parent.mkdir(parents=True, exist_ok=True)
        found.append(replace(bug, file=Path(shutil.copyfile(bug.file, file))))
    return found
