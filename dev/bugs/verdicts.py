"""What a check said of a function."""
import re

from texts import module_of

REFUSED, LET_THROUGH, NO_PROGRAM, NOT_TRIED = "refused", "let through", "no program", "not tried"

# A proof file that names what an edit took away, or what was not proved for that: it says nothing of a contract.
NAMES = re.compile(r"has no field|is not in scope|has no `|was not admitted")
LINE = re.compile(r"^fn (\S+): (.*)$", re.M)
# The last line of a check of some functions: how many were asked for, and how many of them are proved.
COUNTS = re.compile(r"^only=(\d+) proved=(\d+)", re.M)
# A place in a file, and what is said of it.
PLACED = re.compile(r"^(?:note: )?(\S+):\d+:\d+: (.*)$", re.M)


def is_named(function, name):
    """Whether this is the name of a function in a check's output.

    As there: `vz_geom::rect::Rect::area`, `vz_kernel::rows::OverMix::one` for the trait `Mix` of `Over`, and
    `vz_deps::lacks::take_all` for a function without a type.
    """
    parts = name.split("::")
    if parts[-1] != function.name or "fn" in parts:
        return False
    if function.type:
        return len(parts) > 2 and parts[-2] == function.type + function.trait
    return parts[1:-1] == module_of(function.path)


def lines_of(said, function):
    """The names and verdicts of all functions of a check that may be this one."""
    return [(name, verdict) for name, verdict in LINE.findall(said) if is_named(function, name)]


def proofs_of(name):
    """The folder with the proofs of a function of this name."""
    return "proofs/" + "/".join(name.split("::")[1:]) + "/"


def errors_in(said, folder):
    """What a check said of the files in a folder, but for missing names."""
    found = re.findall(rf"^(?:note: )?(?:\./)?{re.escape(folder)}\S*:\d+:\d+: (.*)$", said, re.M)
    return [text for text in found if not NAMES.search(text)]


def open_goal(said, function):
    """What is left unproved of a function: a goal, or an error in its written proof.

    None where nothing is, or where it cannot be told.
    """
    found = lines_of(said, function)
    if len(found) != 1:
        return None
    name, verdict = found[0]
    if "did not prove" in verdict and "it calls" not in verdict:
        return f"{name}: {verdict.split('; ')[-1]}"
    if not verdict.startswith("not proved"):
        return None
    errors = errors_in(said, proofs_of(name))
    return f"{name}: {errors[0]}" if errors else None


def refusal(said, bug):
    """Why a check refuses a bug of its batch, None where it cannot be told."""
    return next(filter(None, (open_goal(said, function) for function in bug.functions)), None)


def complaints(said):
    """What a check said of places in files, but for missing names in proofs, and of functions with open goals."""
    placed = [(path, text) for path, text in PLACED.findall(said) if "error" in text or "not proved" in text]
    told = [text for path, text in placed if not ("proofs/" in path and NAMES.search(text))]
    return told + [f"{name}: {text}" for name, text in LINE.findall(said) if "did not prove" in text]


def verdict(status, said):
    """Why a check of a bug's functions alone refuses it, None where it does not or where that cannot be told."""
    counts = COUNTS.findall(said)
    if status != 1 or not counts or re.search(r"\berror\[[\w-]+\]", said):
        return None
    asked, proved = map(int, counts[-1])
    return next(iter(complaints(said)), None) if proved < asked else None
