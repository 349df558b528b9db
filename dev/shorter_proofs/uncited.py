"""Which declarations of a crate's proofs nothing cites, in the whole tree."""
import re

from shorter_proofs.lemmas import File, TOKEN, USE, code_of, indent_of, parts_of, tokens_of

KEPT = ("Answers.antt", "Invariants.antt", "Lib.antt", "Proof.antt")
# The first line of a file of worked rows: each row is what a definition comes to for one input, and stands for itself.
WORKED = re.compile(r"-- .*\bworked\b", re.I)


def is_lemmas(path):
    """Whether a file of proofs is one of lemmas: no answers, whose names the checker asks for, and no list of modules."""
    return path.endswith(".antt") and not path.endswith(KEPT)


def module_of(crate, path):
    """The name by which other files import one of proofs."""
    return f"Rattle.{crate}.proofs.{path.removesuffix('.antt').replace('/', '.')}"


class Citing:
    """What a file cites: names with their modules, and all words if it is code. Of a file that stays as it is what it imports counts as cited."""

    def __init__(self, text, is_code, stays=True):
        self.text, self.is_code, self.stays = text, is_code, stays
        self.words = set(TOKEN.findall(text)) if is_code else set()
        self.imports, self.aliases = {}, {}
        if not is_code:
            file = File(text)
            self.imports, self.aliases = file.imports, file.aliases
            self.words = tokens_of(it for it in file.lines if not re.match(r"\s*use .*\{", it))

    def cites(self, module, name):
        """Whether it cites a declaration of a module of proofs."""
        if self.is_code:
            return name in self.words
        if any(it == (module, name) and (self.stays or own in self.words) for own, it in self.imports.items()):
            return True
        return name in self.words and (module in self.aliases.values() or f"{module}.{name}" in self.text)


def cited_outside(others, own, crate, path, name):
    """Whether another file than `path` cites a declaration of it: one of the crate's lemmas, or one of `others`."""
    module = module_of(crate, path)
    return any(it.cites(module, name) for at, it in own.items() if at != path) or any(it.cites(module, name) for it in others)


def remaining(file, gone):
    """The text of a file without the declarations of some names; it is empty if none is left."""
    lines, blocks = list(file.lines), file.blocks()
    if all(it.name in gone for it in blocks):
        return ""
    for block in reversed(blocks):
        if block.name in gone:
            end = block.end
            while end < len(lines) and not lines[end].strip():
                end += 1
            lines[block.first : end] = []
    lines = without_empty_sections(lines)
    while lines and not lines[-1].strip():
        lines.pop()
    return "\n".join(lines) + "\n"


def without_empty_sections(lines):
    """The same without the `module _` sections that have nothing left."""
    for at in range(len(lines) - 1, -1, -1):
        if not re.match(r"\s*module _ ", lines[at]):
            continue
        head = at
        while not lines[head].endswith(" where"):
            head += 1
        end = head + 1
        while end < len(lines) and (not lines[end].strip() or indent_of(lines[end]) > indent_of(lines[at])):
            end += 1
        if not any(code_of(it).strip() for it in lines[head + 1 : end]):
            lines[at:end] = []
    return lines


def without_imports(text, gone):
    """The same without imports of what is gone, as pairs of a module and a name."""
    lines = []
    for line in text.split("\n"):
        told = USE.match(line)
        names = [it.strip() for it in told[2].split(",")] if told and told[2] else []
        left = [it for it in names if parts_of(told[1], it)[1:] not in gone]
        if left or not names:
            lines.append(line if left == names else f"{line[: line.index('{')]}{{{', '.join(left)}}}")
    return "\n".join(lines)


def uncited_in(file, is_cited):
    """The declarations of a file that no other of it cites, and for which `is_cited` does not say that another file does."""
    blocks = file.blocks()
    counts = {}
    own = [tokens_of(file.lines[it.start : it.end]) for it in blocks]
    inside = {n for it in blocks for n in range(it.start, it.end)}
    rest = [line for at, line in enumerate(file.lines) if at not in inside and not re.match(r"\s*use .*\{", line)]
    for words in [*own, tokens_of(rest)]:
        for word in words:
            counts[word] = counts.get(word, 0) + 1
    names = [it.name for it in blocks]
    found = set()
    for block, words in zip(blocks, own):
        elsewhere = counts.get(block.name, 0) - (block.name in words)
        if elsewhere == 0 and names.count(block.name) == 1 and not is_cited(block.name):
            found.add(block.name)
    return found


def without_uncited(crate, texts, others):
    """The texts of a crate's files of lemmas, by path, without what nothing cites. `others` has all other files that may cite them, as Citing."""
    texts, all_gone = dict(texts), set()
    own = {path: Citing(text, False, False) for path, text in texts.items()}
    is_changed = True
    while is_changed:
        is_changed = False
        for path in texts:
            if WORKED.match(texts[path]):
                continue
            file = File(texts[path])
            gone = uncited_in(file, lambda name, path=path: cited_outside(others, own, crate, path, name))
            if gone:
                all_gone |= {(module_of(crate, path), it) for it in gone}
                texts[path] = remaining(file, gone)
                own[path] = Citing(texts[path], False, False)
                is_changed = True
    return {path: without_imports(text, all_gone) for path, text in texts.items()}
