"""A crate whose lemmas become shorter, in copies of the tree."""
import hashlib
import json
import os
import re
import resource
import shutil
import subprocess

from kit import ROOT
from shorter_proofs.imports import packed
from shorter_proofs.lemmas import File, tokens_of
from shorter_proofs.passes import proposals, rewritten
from shorter_proofs.trees import copy_of, files_in, lines_of, proofs_of, read, stub_of, write
from shorter_proofs.twice import Twice
from shorter_proofs.uncited import Citing, is_lemmas, module_of, without_uncited

# An error at a lemma. One on a lemma that was not checked since it rests on another is none of its own.
ERROR = re.compile(r"^(?:\./)?proofs/(\S+?):(\d+):\d+: error: (.*)$", re.M)
FOLLOWS = re.compile(r"that depends? on")
# A tactic that chose a value: the verdict on a library refuses it.
CHOSE = re.compile(r"^(?:\./)?proofs/(\S+?):(\d+):\d+: note: `\S+` has chosen a term()", re.M)


def mark(path, name, lines):
    """A short name for a proposal."""
    return hashlib.sha256("\n".join([path, name, *lines]).encode()).hexdigest()[:20]


def last_of(output):
    """What a check said first of an error, or last of all."""
    errors = [it for it in output.split("\n") if " error: " in it or it.startswith("error")]
    return (errors or output.strip().split("\n"))[0 if errors else -1][:200]


class Failed(Exception):
    """The crate does not end proved, for a reason that is no proposal's."""


class Work:
    """A crate's lemmas as they became so far. `texts` has the files of lemmas, by their paths in proofs/."""

    def __init__(self, crate, given, room):
        self.crate, self.given, self.room = crate, given, room
        self.all = proofs_of(f"{ROOT}/crates/{crate}")
        self.texts = {path: text for path, text in self.all.items() if is_lemmas(path)}
        self.folder, self.output, self.checks = "", "", 0
        self.tried, self.twice = self._noted(), None
        others = [it for it in files_in(f"{ROOT}/crates", ".antt", ".rt") if self._may_cite(it)]
        self.others = [Citing(read(it), it.endswith(".rt")) for it in others]

    def _may_cite(self, path):
        own = f"{ROOT}/crates/{self.crate}/"
        if path.startswith(own):
            return not (path.startswith(f"{own}proofs/") and is_lemmas(path))
        return self.crate in read(path)

    def _note_path(self):
        return f"{self.given.keep}/{self.crate}.json"

    def _noted(self):
        if self.given.keep and os.path.isfile(self._note_path()):
            return set(json.loads(read(self._note_path())))
        return set()

    def note(self, marks):
        """Remembers that proposals failed."""
        self.tried |= marks
        if self.given.keep:
            write(os.path.abspath(self._note_path()), json.dumps(sorted(self.tried)))

    def open(self):
        """Makes the copy in which proposals are tried."""
        self.folder = (copy_of if self.given.whole else stub_of)(self.crate, self.given.over, f"{self.room}/tried")

    def put(self, texts):
        """Writes files of lemmas in the copy."""
        for path, text in texts.items():
            if self.texts[path] != text:
                write(f"{self.folder}/proofs/{path}", text)
        self.texts.update(texts)

    def check(self, *flags):
        """Checks the crate, and returns whether it is proved and the processor seconds that it took."""
        before = resource.getrusage(resource.RUSAGE_CHILDREN)
        words = [f"{ROOT}/dev/rt", "--unlocked", "check", *flags, *(["--jobs", str(self.given.jobs)] if self.given.jobs else [])]
        how = {"cwd": self.folder, "stdout": subprocess.PIPE, "stderr": subprocess.STDOUT, "stdin": subprocess.DEVNULL}
        ran = subprocess.run(words, text=True, errors="replace", env={**os.environ, "RT_ALLOW_C": "1"}, check=False, **how)
        after = resource.getrusage(resource.RUSAGE_CHILDREN)
        self.output = ran.stdout
        self.checks += 1
        if self.given.keep:
            write(os.path.abspath(f"{self.given.keep}/{self.crate}.log"), self.output)
        seconds = after.ru_utime + after.ru_stime - before.ru_utime - before.ru_stime
        return bool(re.search(r"^logic=proved ", self.output, re.M)), seconds

    def proposed(self, kinds):
        """What these kinds of proposals are for each lemma, by file and lemma, one after the other, without what failed before."""
        found = {}
        for path, text in self.texts.items():
            if self.given.files and path.removesuffix(".antt") not in self.given.files:
                continue
            file, new = File(text), {}
            for kind in kinds:
                for name, lines in self._of_kind(kind, path, file).items():
                    if mark(path, name, lines) not in self.tried and lines not in new.get(name, []):
                        new.setdefault(name, []).append(lines)
            if new:
                found[path] = new
        return found

    def _of_kind(self, kind, path, file):
        if kind != "twice":
            return proposals(kind, file, self.given.least, self._citing(file))
        self.twice = self.twice or Twice(self.crate, self.given.over)
        return self.twice.proposals(path, self.texts)

    @staticmethod
    def _citing(file):
        """Tells which lemmas of a file cite one; an empty name stands for another declaration or file."""
        words = {it.name: tokens_of(it.lines) for it in file.lemmas}
        inside = {n for it in file.lemmas for n in range(it.start, it.end)}
        rest = tokens_of(it for at, it in enumerate(file.lines) if at not in inside)
        public = {it.name for it in file.lemmas if it.is_public}
        return lambda name: {it for it, own in words.items() if it != name and name in own} | ({""} if name in rest | public else set())

    def refused(self, chosen):
        """Which of the proposals the last check refused, by file and lemma."""
        found, others = set(), []
        for path, line, said in ERROR.findall(self.output) + CHOSE.findall(self.output):
            if FOLLOWS.search(said) or path not in self.texts:
                continue
            told, at = re.match(r"`([^`]+)`", said), File(self.texts[path]).lemma_at(int(line))
            names = [it for it in (told and told[1], at and at.name) if it in chosen.get(path, ())]
            found |= {(path, it) for it in names[:1]}
            others += [(path, int(line))] * (not names)
        return found or self.suspects(others, chosen)

    def suspects(self, errors, chosen):
        """The proposals that the places of errors cite: one of these may say something else than it said."""
        found = set()
        for path, line in errors:
            file = File(self.texts[path])
            lemma = file.lemma_at(line)
            words = tokens_of(lemma.lines if lemma else [file.lines[line - 1]])
            for other, new in chosen.items():
                is_near = [it for it in new if it in words and (other == path or file.imports.get(it, ("",))[0] == module_of(self.crate, other))]
                found |= {(other, it) for it in is_near}
        return found

    def one_pass(self, kinds):
        """Tries what these kinds propose, for each lemma one after the other, and returns for how many lemmas one stands."""
        left = self.proposed(kinds)
        count = sum(len(it) for it in left.values())
        if not count:
            return 0
        base = {path: self.texts[path] for path in left}
        while any(left.values()):
            chosen = {path: {name: new[0] for name, new in it.items()} for path, it in left.items()}
            self.put({path: rewritten(File(base[path]), chosen[path]) for path in base})
            is_proved, seconds = self.check()
            bad = self.refused(chosen)
            good = sum(len(it) for it in chosen.values()) - len(bad)
            print(f"  {self.crate}: {' '.join(kinds)}: {good} of {count} stand after {seconds:.0f} s", flush=True)
            if is_proved and not bad:
                return good
            if not bad:
                raise Failed(f"with {' '.join(kinds)}: {last_of(self.output)}")
            self.note({mark(path, name, left[path][name].pop(0)) for path, name in bad})
            left = {path: {name: new for name, new in it.items() if new} for path, it in left.items()}
        self.put(base)
        return 0

    def drop_uncited(self):
        """Takes out what nothing cites. If the lemmas are not proved then, all is as before."""
        before = dict(self.texts)
        after = without_uncited(self.crate, before, self.others)
        if after == before:
            return
        self.put(after)
        is_proved, seconds = self.check()
        print(f"  {self.crate}: uncited: {lines_of(before) - lines_of(after)} lines, {seconds:.0f} s", flush=True)
        if not is_proved:
            print(f"  {self.crate}: uncited: put back: {last_of(self.output)}", flush=True)
            self.put(before)

    def finish(self):
        """Checks the whole crate, drops unused imports and formats. Returns all files of proofs, and the processor seconds of the last check."""
        self.folder = copy_of(self.crate, self.given.over, f"{self.room}/whole")
        for path, text in self.texts.items():
            if text:
                write(f"{self.folder}/proofs/{path}", text)
            else:
                self.remove(path)
        if any(self.texts[path] != self.all[path] for path in self.texts):
            is_proved, _ = self.check("--fix-imports")
            if not is_proved:
                raise Failed(f"as a whole: {last_of(self.output)}")
        if self.given.packs:
            for path, text in proofs_of(self.folder).items():
                if packed(text) != text:
                    write(f"{self.folder}/proofs/{path}", packed(text))
        subprocess.run(["rt", "fmt"], cwd=self.folder, stdin=subprocess.DEVNULL, capture_output=True, check=False)
        if self.given.times:
            shutil.rmtree(f"{self.folder}/out/incremental", ignore_errors=True)
        is_proved, seconds = self.check()
        if not is_proved:
            raise Failed(f"without the imports: {last_of(self.output)}")
        return proofs_of(self.folder), seconds

    def could_pack(self):
        """Whether lines of imports can be fewer."""
        return self.given.packs and any(packed(it) != it for it in self.all.values())

    def remove(self, path):
        """Takes a file of lemmas away, of which none is left."""
        os.remove(f"{self.folder}/proofs/{path}")
        lines = read(f"{self.folder}/proofs/Lib.antt").split("\n")
        name = path.removesuffix(".antt")
        write(f"{self.folder}/proofs/Lib.antt", "\n".join(it for it in lines if it.removeprefix("pub ") != f"mod {name}"))

    def time_before(self):
        """The processor seconds of a check from nothing of the crate as it is."""
        self.folder = copy_of(self.crate, self.given.over, f"{self.room}/before")
        shutil.rmtree(f"{self.folder}/out/incremental", ignore_errors=True)
        is_proved, seconds = self.check()
        if not is_proved:
            raise Failed(f"as it is: {last_of(self.output)}")
        return seconds
