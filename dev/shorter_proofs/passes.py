"""What each kind of proposal is: for a lemma, by its name, the lines from its `unfolding` on."""
import re

from shorter_proofs.lemmas import File, TOKEN, code_of, split_outside, tokens_of
from shorter_proofs.uncited import remaining

HEAD = re.compile(r"(?<![^\s(\[{,;])([^\s(){}\[\],;:λ→⟨⟩|]+)")
GRIND = re.compile(r"(.* = )grind \((.*)\)$")
# Where the arguments of a call end.
STOPS = {"∙", "≡", "&&", "||", "==", "+", "-", "in", "let", "∷", "++", "=", "↦", "where", "×", "≤", "<", ".", "→", ":", "⊎"}
# Words that are no hints.
TACTICS = {"arith", "nat_tests", "common_steps", "grind", "omega", "search", "by", "ltb-true", "cases_eq", "cases_lt", "cases_Bool"}
ALWAYS = ["arith", "nat_tests"]
SETS = {
    "arith": "Rattle.std.proofs.Common",
    "nat_tests": "Rattle.std.proofs.lemmas.Bool.Decides",
    "common_steps": "Rattle.std.proofs.lemmas.Grind",
}
WIDEST = 200


def closes(text, at):
    """Where the bracket at a place is closed, or None."""
    deep = 0
    for place in range(at, len(text)):
        deep += (text[place] in "([{") - (text[place] in ")]}")
        if deep == 0:
            return place
    return None


def arguments(text):
    """The arguments with which a text begins."""
    found, at = [], 0
    while at < len(text):
        if text[at] == " ":
            at += 1
            continue
        end = at
        if text[at] in "([{":
            end = closes(text, at)
            if end is None:
                break
            end += 1
            while end < len(text) and text[end] not in " ,;)]}":
                end += 1
        elif text[at] in ")]},;|":
            break
        else:
            while end < len(text) and text[end] not in " (){}[],;":
                end += 1
            if text[at:end] in STOPS or text[at] == "λ":
                break
        found.append(text[at:end])
        at = end
    return found


def is_citable(file, name, word):
    """Whether a word is a lemma: the file's own, or one that is imported from proofs."""
    if word in TACTICS or word[0].isupper():
        return False
    module = file.imports.get(word, ("", ""))[0]
    return word == name or word in file.facts or ".proofs." in module and not module.endswith(".Common")


def hints_of(file, name, bound, right):
    """The lemmas that a right side cites, with the arguments that mean the same outside it; None if it calls itself in a way that cannot be told."""
    found = []
    for at in HEAD.finditer(right):
        word = at[1]
        if word in bound or not is_citable(file, name, word):
            continue
        kept = []
        for it in arguments(right[at.end() :]):
            known = TOKEN.findall(re.sub(r"\.\d+|\.[a-z_]+", "", it))
            is_known = all(n in bound or n in file.imports or n in file.facts or n.isdigit() or n == "refl" for n in known)
            if not is_known or it == "_" or it.startswith("(λ") or "grind" in it or "omega" in it or " = " in it:
                break
            kept.append(it)
        if word == name and not kept:
            return None
        hint = " ".join([word, *kept])
        if hint not in found:
            found.append(hint)
    return found


def as_grind(lemma, patterns, hints):
    return f"{' ' * lemma.indent}{lemma.name}{patterns} = grind ({', '.join([*ALWAYS, *hints])})"


def names_of(lemma, hints):
    """The hints without arguments, but for calls of the lemma itself, which have to be given."""
    return list(dict.fromkeys(it if it.startswith(lemma.name + " ") else it.split(" ")[0] for it in hints))


def unfolding(lemma, names):
    return [f"{' ' * lemma.indent}unfolding {' '.join(names)}"] if names else []


def in_one_line_each(file, lemma, with_arguments, sets=()):
    """The clauses of a lemma, each as one call of `grind` with such sets of lemmas, or as it is if it has one line."""
    lines = []
    for patterns, right, height in lemma.clauses() or []:
        if height == 1:
            lines.append(f"{' ' * lemma.indent}{lemma.name}{patterns} = {right}")
            continue
        bound = set(TOKEN.findall(patterns)) | {"[]", "∷", "λ"} | file.parameters
        hints = hints_of(file, lemma.name, bound, right)
        if hints is None:
            return None
        if not with_arguments or len(hints) > 8:
            hints = names_of(lemma, hints)
        lines.append(as_grind(lemma, patterns, [*sets, *hints]))
    return lines


def is_gain(lemma, lines, least):
    """Whether lines are at least so many fewer than a lemma's proof, and the new ones not too long."""
    return bool(lines) and len(lemma.proof) - len(lines) >= least and all(len(it) <= WIDEST or it in lemma.proof for it in lines)


def tables(file, lemma, least, cited):
    """Each clause that has several lines becomes one line, with what it cites and the arguments of that."""
    lines = in_one_line_each(file, lemma, True)
    return unfolding(lemma, lemma.unfolded) + lines if is_gain(lemma, lines, least) else None


def bare(file, lemma, least, cited):
    """The same with the names alone, so that `grind` finds what to say of them."""
    lines = in_one_line_each(file, lemma, False)
    return unfolding(lemma, lemma.unfolded) + lines if is_gain(lemma, lines, least) else None


def steps(file, lemma, least, cited):
    """As `tables`, with std's set of usual steps on lists, numbers and tests."""
    lines = in_one_line_each(file, lemma, True, ["common_steps"])
    return unfolding(lemma, lemma.unfolded) + lines if is_gain(lemma, lines, least) else None


def named_in(text):
    """The names of the arguments that are not implicit, as a lemma's type has them; None for one without a name."""
    names = []
    for part in split_outside(text, "→")[:-1]:
        at, found = 0, []
        while at < len(part) and part[at] in "({":
            end = closes(part, at)
            told = re.match(r"[({]([^(){}:]+) : ", part[at:])
            if end is None or not told:
                break
            found += told[1].split() if part[at] == "(" else []
            at = end + 1 + (part[end + 1 : end + 2] == " ")
        names += found if at and at >= len(part) else [None]
    return names


def plain_names(lemma, clauses):
    """A name for each argument: from a clause in which it is a variable, else from the type, else `_`; None if that cannot be told."""
    split = [split_patterns(patterns) for patterns, _, _ in clauses]
    if len({len(it) for it in split}) != 1:
        return None
    told, names = named_in(lemma.type), []
    for place in range(len(split[0])):
        words = [it[place] for it in split] + [told[place] or "_" if place < len(told) else "_"]
        plain = [it for it in words if re.fullmatch(r"[a-z][\w']*", it) and it not in ("true", "false", "zero", "suc", "refl")]
        names.append(next((it for it in plain if it not in names), "_"))
    return names


def split_patterns(text):
    """The patterns of a clause, one an argument."""
    found, at = [], 0
    while at < len(text):
        end = at + 1
        if text[at] in "([{":
            end = (closes(text, at) or at) + 1
        elif text[at] != " ":
            while end < len(text) and text[end] not in " ([{":
                end += 1
        if text[at] != " ":
            found.append(text[at:end])
        at = end
    return found


def cases(file, lemma, least, cited):
    """Several clauses, of which none calls the lemma, become one."""
    clauses = lemma.clauses() or []
    names = plain_names(lemma, clauses) if len(clauses) > 1 else None
    if not names or any(lemma.name in TOKEN.findall(right) for _, right, _ in clauses):
        return None
    hints = []
    for patterns, right, _ in clauses:
        bound = set(TOKEN.findall(patterns)) | {"[]", "∷"}
        for it in hints_of(file, lemma.name, bound | file.parameters, right):
            same = set(TOKEN.findall(it)) - set(names) - file.parameters
            hint = it if not same & bound else it.split(" ")[0]
            hints += [hint] * (hint not in hints)
    lines = [as_grind(lemma, "".join(" " + it for it in names), hints)]
    return unfolding(lemma, lemma.unfolded) + lines if is_gain(lemma, lines, least) else None


def inline(file, lemma, least, cited):
    """What a call of `grind` has from a short lemma that nothing else cites, it has from what that one cites and unfolds."""
    known, gone = {it.name: it for it in file.lemmas}, []
    lines, unfolded = [], list(lemma.unfolded)
    for line in lemma.proof:
        call = GRIND.match(line)
        if not call or not line.startswith(f"{' ' * lemma.indent}{lemma.name} "):
            if not line.startswith(f"{' ' * lemma.indent}{lemma.name} "):
                return None
            lines.append(line)
            continue
        hints = []
        for it in split_outside(call[2], ","):
            helper = known.get(it.split(" ")[0])
            if helper and helper is not lemma and len(helper.proof) <= 4 and cited(helper.name) == {lemma.name}:
                gone.append(helper.name)
                unfolded += [n for n in helper.unfolded if n not in unfolded]
                hints += [n for n in inner_hints(file, helper) if n not in hints]
            elif it not in hints:
                hints.append(it)
        lines.append(f"{call[1]}grind ({', '.join(hints)})")
    return unfolding(lemma, unfolded) + lines if gone and all(len(it) <= WIDEST for it in lines) else None


def inner_hints(file, helper):
    """The lemmas that a lemma's proof cites, without arguments."""
    words = [at[1] for line in helper.proof for at in HEAD.finditer(code_of(line))]
    return [it for it in dict.fromkeys(words) if it != helper.name and is_citable(file, "", it)]


KINDS = {"tables": tables, "cases": cases, "inline": inline, "bare": bare, "steps": steps}


def proposals(kind, file, least, cited):
    """What a kind of proposal is for the lemmas of a file."""
    found = {}
    for lemma in file.lemmas:
        lines = KINDS[kind](file, lemma, least, cited) if lemma.is_fact() else None
        if lines and [it.strip() for it in lines] != [it.strip() for it in lemma.lines[lemma.body - lemma.start :] if it.strip()]:
            found[lemma.name] = lines
    return found


def rewritten(file, chosen):
    """The text of a file in which these lemmas have these lines, or which imports them."""
    lines, imported = list(file.lines), {name: new[0] for name, new in chosen.items() if re.match(r"(pub )?use ", new[0])}
    for lemma in reversed(file.lemmas):
        if lemma.name in chosen and lemma.name not in imported:
            lines[lemma.body : lemma.end] = chosen[lemma.name]
    if imported:
        file = File("\n".join(lines))
        lines = with_imports(remaining(file, set(imported)) or file.head(), imported.values())
    return "\n".join(with_words(lines, tokens_of(sum(chosen.values(), []))))


def with_imports(text, new):
    """The lines of a text with these imports: in a line that imports from the same module, or in one after the others."""
    lines = text.split("\n")
    for line in new:
        front, names = line[:-1].split("{")
        same = next((at for at, it in enumerate(lines) if it.startswith(front + "{") and it.endswith("}")), None)
        last = max((at for at, it in enumerate(lines) if re.match(r"(pub )?use ", it)), default=-1)
        if same is None:
            lines.insert(last + 1, line)
        elif names not in re.split(r"[{},]\s*", lines[same]):
            lines[same] = f"{lines[same][:-1]}, {names}}}"
    return lines


def with_words(lines, words):
    """The same with the imports of the sets of lemmas that are new there."""
    known = File("\n".join(lines)).imports
    new = [f"use {module}.{{{word}}}" for word, module in SETS.items() if word in words and word not in known]
    return with_imports("\n".join(lines), new)
