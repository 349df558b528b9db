"""The bugs of a crate, tried on the copy of it: by checks of the changed functions alone wherever these tell."""
import os
import re
import shutil
import subprocess
import tempfile
from pathlib import Path

from batches import make_batches
from scratch import rt
from verdicts import LET_THROUGH, NO_PROGRAM, NOT_TRIED, REFUSED, refusal, verdict

FLAGS = ["--jobs", "1"]
KINDS = {
    rt.REFUSED: REFUSED,
    rt.AT_LIMIT: REFUSED,
    rt.MISSED: LET_THROUGH,
    rt.BAD: NO_PROGRAM,
    rt.UNSURE: NOT_TRIED,
}


def apply_all(room, bugs):
    """Makes the changes of these bugs in a room, one after the other, and returns those that could be made."""
    made = []
    for bug in bugs:
        texts, why = rt.read_edit(str(bug.file), room)
        if not why:
            for path, text in texts.items():
                Path(room, path).write_text(text, encoding="utf-8")
            made.append(bug)
    return made


def copy_parts(crate, room):
    """Copies the files of a crate to a room."""
    for part in rt.rtlib.PARTS:
        if os.path.isdir(f"{crate.folder}/{part}"):
            shutil.copytree(f"{crate.folder}/{part}", f"{room}/{part}")


def proved_before(crate):
    """The folder with what `rt check` kept of a crate as it is, None where there is none."""
    kept = f"{crate.folder}/out/incremental"
    return kept if os.path.isdir(kept) else None


def check_changed(crate, bugs, shared):
    """The status and the words of a check of the functions that these bugs change, and of those that they call.

    Also the bugs that could be made. The check begins with what `rt check` kept of the crate as it is, or, where that
    kept nothing, with what is in the folder `shared`: what the crate's earlier checks of this kind proved.
    """
    with tempfile.TemporaryDirectory(prefix=f"rt-edit-{os.getpid()}-") as room:
        copy_parts(crate, room)
        made = apply_all(room, bugs)
        if proved_before(crate):
            shared = f"{room}/kept"
            rt.linked(proved_before(crate), shared)
        words = [rt.rtlib.RATTLE, "check", *crate.words(FLAGS, keeps=False), "--incremental", shared]
        for name in sorted({function.said() for bug in made for function in bug.functions}):
            words += ["--only", name]
        how = {"stdin": subprocess.DEVNULL, "stdout": subprocess.PIPE, "stderr": subprocess.STDOUT, "errors": "replace"}
        ran = subprocess.run([*rt.rtlib.guarded(), *words], cwd=room, check=False, **how)
        return ran.returncode, ran.stdout, made


def try_batch(crate, bugs, shared, tell):
    """Tries several bugs by one check, and returns those that it does not settle."""
    _, said, made = check_changed(crate, bugs, shared)
    why = {bug: refusal(said, bug) for bug in made}
    for bug in made:
        if why[bug]:
            tell(bug, REFUSED, why[bug])
    return [bug for bug in bugs if not why.get(bug)]


def try_one(crate, bug, shared, tell):
    """Tries a bug by a check of its own, and returns whether that settled it."""
    status, said, made = check_changed(crate, [bug], shared)
    found = verdict(status, said) if made and bug.functions else None
    if found:
        tell(bug, REFUSED, found)
    return bool(found)


def try_whole(crate, seed, bug):
    """What a bug comes to in a check of the whole crate, over a copy of what was proved of it as it is."""
    room = tempfile.mkdtemp(prefix=f"rt-edit-{os.getpid()}-")
    try:
        rt.linked(f"{seed}/seed", f"{room}/seed")
        kind, said = rt.must_fail(crate, str(bug.file), FLAGS, f"{room}/seed")
    finally:
        shutil.rmtree(room, ignore_errors=True)
    said = re.sub(r"^(rt: )?must-fail \S+: ", "", said)
    if "only because a proof file names" in said:
        return NO_PROGRAM, said
    return KINDS[kind], re.sub(r"^refused, as it must be:? ?", "", said)


def try_on_seed(crate, bugs, tell):
    """Tries bugs by checks of the whole crate, which is proved as it is before, begun with what `rt check` kept."""
    seed = rt.seeded(crate, FLAGS, proved_before(crate))
    for bug in bugs:
        found = try_whole(crate, seed, bug) if seed else (NOT_TRIED, "the crate as it is was not proved")
        tell(bug, *found)
    shutil.rmtree(seed or "", ignore_errors=True)


def try_all(crate, bugs, tell):
    """Tries the bugs of a crate: several at a time, then one by one, and what is left by checks of the whole crate."""
    left = []
    with tempfile.TemporaryDirectory(prefix=f"rt-only-{os.getpid()}-") as shared:
        for batch in make_batches(bugs):
            left += try_batch(crate, batch, shared, tell) if len(batch) > 1 else batch
        left = [bug for bug in left if not try_one(crate, bug, shared, tell)]
    if left:
        try_on_seed(crate, left, tell)
