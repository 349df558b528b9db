"""Files of lemmas, as text: which lemmas they have, what these state, and what they cite."""
import re

TOKEN = re.compile(r"[^\s(){}\[\],;.:λ→⟨⟩|]+")
USE = re.compile(r"\s*(?:pub )?use ([^{\s]+?)\.?(?:\{(.*)\}| as (\S+))\s*$")
STARTS = re.compile(r"\s*(?:pub |abbrev |unfoldable |opaque |record |data )*([^\s(){}\[\],;.:λ→|]+)(?: |$)")
SIGNED = re.compile(r"\s*(?:pub )?([^\s(){}\[\],;.:λ→|]+) : ")
# Lines that begin no declaration that has a name.
OTHER = re.compile(r"\s*(use |pub use |pub mod |mod |module |--|unfolding |infix|instance |[)\]}|])")
# What a value can be that is no fact: another one may not take its place.
VALUES = {"Bool", "ℕ", "ℤ", "List", "Option", "Type", "Char", "String", "Result", "Unit"}


def code_of(line):
    """A line without its comment."""
    return re.sub(r"(^|\s)--(\s.*|$)", "", line)


def tokens_of(lines):
    """The words of some lines, without those of comments."""
    return {token for line in lines for token in TOKEN.findall(code_of(line))}


def indent_of(line):
    return len(line) - len(line.lstrip())


def split_outside(text, mark):
    """The parts of a text between the marks that stand in no brackets."""
    parts, deep, last = [], 0, 0
    for at, letter in enumerate(text):
        deep += (letter in "([{") - (letter in ")]}")
        if letter == mark and deep == 0:
            parts.append(text[last:at].strip())
            last = at + 1
    return [*parts, text[last:].strip()]


def parts_of(path, item):
    """The own name, the module and the name there of what a line on a path imports: `N.d as c` is `d` of the module `N` below it."""
    told, _, alias = item.partition(" as ")
    module, _, name = f"{path}.{told.strip()}".rpartition(".")
    return (alias or name).strip(), module, name


class Lemma:
    """A declaration with a type, and where it stands: its type from `start`, `unfolding` and its clauses from `body` to `end`."""

    def __init__(self, lines, name, start, body, end):
        self.name, self.start, self.body, self.end = name, start, body, end
        self.indent = indent_of(lines[start])
        self.lines = lines[start:end]
        head = lines[body].strip()
        self.unfolded = head.split()[1:] if head.startswith("unfolding ") else []
        self.proof = [it for it in lines[body + bool(self.unfolded) : end] if it.strip()]
        self.is_public = lines[start].strip().startswith("pub ")
        told = " ".join(code_of(it).strip() for it in lines[start:body])
        self.type = told.split(" : ", 1)[1]
        self.conclusion = split_outside(self.type, "→")[-1]

    def is_fact(self):
        """Whether any proof is as good as another, and a tactic may find one: no value, and nothing that is to be named."""
        if re.search(r"\(\w+ : [^)]*\) ×", self.conclusion):
            return False
        if re.search(r"[≡≤≢<]", self.conclusion):
            return True
        head = TOKEN.search(self.conclusion)
        return bool(head) and head[0][0].isupper() and head[0] not in VALUES

    def clauses(self):
        """Each clause as its patterns, its right side and how many lines it has; None if one is not of that form."""
        found = []
        for line in self.proof:
            if re.match(rf"\s{{{self.indent}}}{re.escape(self.name)}( |$)", line):
                found.append([line])
            elif not found:
                return None
            else:
                found[-1].append(line)
        parts = []
        for lines in found:
            text = " ".join(code_of(it).strip() for it in lines)
            told = re.match(rf"{re.escape(self.name)}((?: .*?)??) = (.*)$", text)
            if not told:
                return None
            parts.append((told[1], told[2], len(lines)))
        return parts or None


class Block:
    """A declaration of any kind, with the comment above it."""

    def __init__(self, name, first, start, end):
        self.name, self.first, self.start, self.end = name, first, start, end


class File:
    """A file of lemmas."""

    def __init__(self, text):
        self.lines = text.split("\n")
        self.imports, self.aliases = {}, {}
        for line in self.lines:
            found = USE.match(code_of(line))
            if found and found[3]:
                self.aliases[found[3]] = found[1]
            elif found:
                for it in found[2].split(","):
                    own, module, name = parts_of(found[1], it.strip())
                    self.imports[own] = (module, name)
        self.bases = self._bases()
        self.lemmas = self._lemmas()
        sections = re.findall(r"^ *module _ (?:.*\n)*?.* where$", text, re.M)
        self.parameters = tokens_of("\n".join(sections).split("\n"))
        self.facts = {it.name for it in self.lemmas if re.search(r"[≡≤≢<]|Is|Are|Has|Keeps|Suffice", it.type)}

    def head(self):
        """What comes before the first declaration."""
        first = min((it.first for it in self.blocks()), default=len(self.lines))
        return "\n".join(self.lines[:first]).rstrip() + "\n"

    def _bases(self):
        """For each line the indent of declarations there: two more in each `module _` section."""
        found, sections = [], []
        for line in self.lines:
            if line.strip():
                while sections and indent_of(line) <= sections[-1]:
                    sections.pop()
            found.append(sections[-1] + 2 if sections else 0)
            if re.match(r"\s*module _ ", line):
                sections.append(indent_of(line))
        return found

    def _end(self, at, name):
        """Where the declaration ends whose clauses begin at a line."""
        base, lines = self.bases[at], self.lines
        while at + 1 < len(lines):
            line = lines[at + 1]
            if line.strip():
                deep = indent_of(line)
                is_own = re.match(rf"\s*{re.escape(name)}( |$)", line) or line.strip()[0] in ")]}"
                if deep < base or deep == base and not is_own:
                    break
            else:
                rest = next((it for it in lines[at + 1 :] if it.strip()), "")
                if not rest or indent_of(rest) <= base:
                    break
            at += 1
        return at + 1

    def _lemmas(self):
        found, at = [], 0
        while at < len(self.lines):
            line, base = self.lines[at], self.bases[at]
            told = SIGNED.match(line)
            at += 1
            if not told or indent_of(line) != base or OTHER.match(line):
                continue
            name, body = told[1], at
            mark = re.compile(rf"\s{{{base}}}({re.escape(name)}( |$)|unfolding )")
            while body < len(self.lines) and self.lines[body].strip() and not mark.match(self.lines[body]):
                body += 1
            if body == len(self.lines) or not self.lines[body].strip():
                continue
            end = self._end(body + self.lines[body].strip().startswith("unfolding "), name)
            found.append(Lemma(self.lines, name, at - 1, body, end))
            at = end
        names = [it.name for it in found]
        return [it for it in found if names.count(it.name) == 1]

    def blocks(self):
        """All declarations that have a name; a line that is none of them belongs to the file itself."""
        found, at = [], 0
        signed = {it.start: it for it in self.lemmas}
        while at < len(self.lines):
            line, told = self.lines[at], STARTS.match(self.lines[at])
            if not line.strip() or indent_of(line) != self.bases[at] or OTHER.match(line) or not told:
                at += 1
                continue
            first = at
            while first and self.lines[first - 1].strip().startswith("-- ") and indent_of(self.lines[first - 1]) == self.bases[at]:
                first -= 1
            end = signed[at].end if at in signed else self._end_of_other(at, told[1])
            found.append(Block(told[1], first, at, end))
            at = end
        return found

    def _end_of_other(self, at, name):
        """Where a record, a datatype or an abbreviation ends: at the next line of its indent that is not of it."""
        end = self._end(at, name)
        while end < len(self.lines) and re.match(rf"\s{{{self.bases[at]}}}unfolding ", self.lines[end]):
            end = self._end(end, name)
        return end

    def lemma_at(self, line):
        """The lemma with this line, counted from 1."""
        return next((it for it in self.lemmas if it.start < line <= it.end), None)
