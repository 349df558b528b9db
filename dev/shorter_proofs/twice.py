"""Lemmas that stand elsewhere too: in std, in a crate below, or in another file of the crate."""
import os
import re

from kit import KIT, ROOT
from shorter_proofs.lemmas import File, TOKEN
from shorter_proofs.trees import LINE, below, line_of, proofs_of
from shorter_proofs.uncited import is_lemmas, module_of

BOUND = re.compile(r"[({]((?:[^\s(){}:]+ )+): ")
UNDER = re.compile(r"λ ([^.]*?)\. ")


def form_of(text):
    """A statement with its bound names as numbers, so that two that differ in these alone are the same text."""
    names = [it for found in BOUND.finditer(text) for it in found[1].split()]
    names += [it for found in UNDER.finditer(text) for it in found[1].split() if re.fullmatch(r"[\w']+", it)]
    numbers = {it: f"x{at}" for at, it in enumerate(dict.fromkeys(names))}
    text = re.sub(r"\beqb (\w+) (\w+)", r"(\1 == \2)", re.sub(r"\s+", " ", text))
    return TOKEN.sub(lambda word: numbers.get(word[0], word[0]), text)


def of_std():
    """The lemmas of std that its pages list, by their form: the module and the name."""
    found = {}
    for place, _, names in sorted(os.walk(f"{KIT}/rattle/std/lemmas")):
        for name in sorted(it for it in names if it.endswith(".md")):
            with open(f"{place}/{name}", encoding="utf-8") as file:
                text = file.read()
            module = re.search(r"Import with `use (\S+)\.\{NAME\}`", text)
            for told in re.finditer(r"^pub (\S+) : (.*)$", text, re.M) if module else ():
                found.setdefault(form_of(told[2]), (module[1], told[1]))
    return found


def of_files(crate, texts, is_own):
    """The lemmas of a crate's files that other files can cite, by their form."""
    shown = set(re.findall(r"^pub mod (\w+)", texts.get("Lib.antt", ""), re.M))
    found = {}
    for path in sorted(texts):
        if is_lemmas(path) and (is_own or path.removesuffix(".antt") in shown):
            for it in File(texts[path]).lemmas:
                if it.is_public and not it.indent:
                    found.setdefault(form_of(it.type), (module_of(crate, path), it.name))
    return found


def reaches(texts, crate):
    """For each file of a crate the modules that it imports, and that these import, and so on."""
    direct = {}
    for path, text in texts.items():
        file = File(text)
        direct[module_of(crate, path)] = {it[0] for it in file.imports.values()} | set(file.aliases.values())
    found = {}
    for module in direct:
        seen, todo = set(), [module]
        while todo:
            for it in direct.get(todo.pop(), ()):
                if it not in seen:
                    seen.add(it)
                    todo.append(it)
        found[module] = seen
    return found


class Twice:
    """What stands elsewhere, for the lemmas of a crate."""

    def __init__(self, crate, tree):
        self.crate = crate
        self.known = of_std()
        named = LINE.match(line_of(ROOT, crate))[3].split()
        for low in below(crate, tree):
            if low.name in named:
                for form, it in of_files(low.name, proofs_of(low.folder), False).items():
                    self.known.setdefault(form, it)

    def proposals(self, path, texts):
        """For lemmas of a file, by name, the line that imports what says the same."""
        found, file = {}, File(texts[path])
        lemmas = {path: text for path, text in texts.items() if is_lemmas(path)}
        own, reached = of_files(self.crate, lemmas, True), reaches(lemmas, self.crate)
        here = module_of(self.crate, path)
        for it in file.lemmas:
            form = form_of(it.type)
            module, name = self.known.get(form) or own.get(form) or ("", "")
            if not module or it.indent or module == here or here in reached.get(module, ()):
                continue
            as_name = name if name == it.name else f"{name} as {it.name}"
            found[it.name] = [f"{'pub ' * it.is_public}use {module}.{{{as_name}}}"]
        return found
