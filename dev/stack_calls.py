"""The calls that dev/stack makes, and how they end with a given stack."""
import ctypes
import hashlib
import os
import resource
import shutil
import subprocess
import time
from dataclasses import dataclass, field
from pathlib import Path

from band_rows import band_rows
from fault_rows import options, table, waiting, with_pipe
from hostile import SCENES
from kit import KIT, ROOT

FULL = 8192               # KiB: with so much a call has to end well
PAGE = 4                  # KiB: a stack grows by so much
OLD = 1_000_000_000       # when each file was changed last, so that a change of it is seen
NOT_AT_RANDOM = 0x0040000
LIBC = ctypes.CDLL(None)
C_CALLS = ("viz_version", "viz_gen", "viz_decode", "viz_step", "viz_check", "viz_hit", "viz_open", "viz_next",
           "viz_entry", "viz_picture", "viz_close")
EMPTY = "int main(void) { return 0; }\n"
THREAD = """#include <pthread.h>
static void *work(void *it) { return it; }
int main(void) {
    pthread_t thread;
    return pthread_create(&thread, 0, work, 0) || pthread_join(thread, 0);
}
"""


class Failed(Exception):
    """Why nothing can be said of a call."""


@dataclass
class Call:
    """A call of a program over some files. `judge` are the words of a `check` over what it left, if the order of its
    threads is not known before."""
    command: str
    name: str
    words: list
    given: dict = field(default_factory=dict)
    is_loose: bool = False
    judge: list = field(default_factory=list)

    @property
    def is_c(self):
        return self.command.startswith("viz_")


def bound(kib):
    """What a child does before it becomes the program."""
    def set_up():
        LIBC.personality(NOT_AT_RANDOM)
        resource.setrlimit(resource.RLIMIT_STACK, (kib * 1024, kib * 1024))
    return set_up


class Place:
    """A folder in which calls are made."""

    def __init__(self, folder, seconds):
        self.folder, self.seconds, self.given = folder, seconds, None

    def lay(self, given):
        """Puts these files, and no others, into the folder."""
        if self.given is not given:
            shutil.rmtree(self.folder, ignore_errors=True)
            self.folder.mkdir()
            self.given = given
            for name, data in given.items():
                self.put(name, data)

    def put(self, name, data):
        path = self.folder / name
        path.write_bytes(data)
        os.utime(path, (OLD, OLD))

    def changed(self):
        return sorted(path for path in self.folder.iterdir()
                      if path.name not in self.given or path.stat().st_mtime_ns != OLD * 10 ** 9)

    def tidy(self):
        """Puts the files back as they were, and answers the names and sums of those that had changed."""
        found = []
        for path in self.changed():
            found.append((path.name, hashlib.sha256(path.read_bytes()).hexdigest()))
            path.unlink()
            if path.name in self.given:
                self.put(path.name, self.given[path.name])
        return found

    def run(self, words, kib, seconds):
        """The status of a call, which is negative for a signal, and what it printed."""
        try:
            done = subprocess.run(words, cwd=self.folder, stdin=subprocess.DEVNULL, stdout=subprocess.PIPE,
                                  stderr=subprocess.DEVNULL, env={}, timeout=seconds, preexec_fn=bound(kib))
        except subprocess.TimeoutExpired:
            return None, b""
        except (OSError, subprocess.SubprocessError):
            return -1, b""        # so small a stack holds not even the words
        return done.returncode, done.stdout

    def end(self, call, kib, seconds):
        """How a call ends."""
        status, printed = self.run(call.words, kib, seconds)
        if not call.is_loose:
            return status, printed, self.tidy()
        verdict = self.run(call.judge, FULL, seconds) if call.judge and status == 0 else None
        return status, printed.split(b" ")[:1], [name for name, _ in self.tidy()], verdict


def good(place, call):
    """How a call ends with a large stack, and how many seconds it may take with a small one."""
    place.lay(call.given)
    begun = time.monotonic()
    ended = place.end(call, FULL, place.seconds)
    if ended[0] is None:
        raise Failed("takes more than %g s with %d KiB" % (place.seconds, FULL))
    if ended[0] < 0:
        raise Failed("ends by signal %d with %d KiB" % (-ended[0], FULL))
    return ended, 5 + 10 * (time.monotonic() - begun)


def at_most(place, call, kib):
    """So many KiB if the call ends with them as with 8 MB, else none."""
    ended, seconds = good(place, call)
    return kib if place.end(call, kib, seconds) == ended else None


def least(place, call, guess):
    """The least KiB at which a call ends as with 8 MB; it looks near the guess first."""
    ended, seconds = good(place, call)
    low, high = 0, FULL
    tries = [guess, guess - PAGE, guess + PAGE]
    while high - low > PAGE:
        middle = tries.pop(0) if tries else (low + high) // 2 // PAGE * PAGE
        if not low < middle < high:
            continue
        if place.end(call, middle, seconds) == ended:
            high = middle
        else:
            low = middle
    return high


def command_of(words):
    """The command of some words, which tells a run with a writer's thread from one without."""
    return "run--pipe" if "--pipe" in words else words[0] if words else "none"


def judge_of(words, program):
    """The words of a `check` over what a `run` leaves."""
    w, h, _, frames, log, *files = words[1 + len(options(words)):]
    return [program, "check", w, h, frames, log, *files]


def of_words(program, name, words, given, status=0):
    """The call of the program with these words."""
    command = command_of(words)
    is_run = command.startswith("run")
    judge = judge_of(words, program) if is_run and status == 0 else []
    return Call(command, name, [program, *words], given, is_run or command == "turns", judge)


def row_calls(program, is_wanted):
    """The rows of the worked table, and those of bench/faults."""
    rows = table() + waiting() + band_rows()
    for row in rows + with_pipe(rows):
        if is_wanted(row.name):
            yield of_words(program, row.name, row.words, row.given, row.status)


def files_of(scene):
    """The files of a scene, with the names of the clients'."""
    names = ["%d.viz" % number for number in range(1, 1 + len(scene.files))]
    return {**dict(zip(names, scene.files)), "schedule": scene.schedule}, names


def stepped(program, words, given, seconds, room):
    """What a `step` leaves of a scene; none if it does not end in time."""
    place = Place(room, seconds)
    place.lay(given)
    status, _ = place.run([program, *words], FULL, seconds)
    left = {name: (room / name).read_bytes() for name in ("f", "l")} if status == 0 else None
    shutil.rmtree(room)
    return left


def scene_calls(program, is_wanted, seconds, room):
    """The scenes of bench/hostile, by each command; of one that is a log, `check` alone."""
    for name in filter(is_wanted, SCENES):
        scene = SCENES[name]()
        given, names = files_of(scene)
        size = [str(side) for side in scene.size]
        check, step = ["check", *size, "f", "l", *names], ["step", *size, "schedule", "f", "l", *names]
        if scene.log is not None:
            yield of_words(program, name, check, {**given, "f": b"", "l": scene.log})
            continue
        for words in (step, ["hit", *size, "schedule", "0", "0", *names], ["turns", *size, "4", *names]):
            yield of_words(program, name, words, given)
        for words in (["run", *size, "4", "f", "l", *names], ["run", "--pipe", *size, "4", "f", "l", *names]):
            yield Call(command_of(words), name, [program, *words], given, True)
        left = stepped(program, step, given, seconds, room)
        if left:
            yield of_words(program, name, check, {**given, **left})


def compiled(made, source, *words):
    """A program in C; none if there is no compiler."""
    if shutil.which("cc") is None:
        return None
    subprocess.run(["cc", "-O2", "-pthread", "-o", made, source, *words], check=True)
    return made


def own_calls(work):
    """An empty program, and one that starts a thread."""
    for name, text in (("empty", EMPTY), ("thread", THREAD)):
        source = work / (name + ".c")
        source.write_text(text)
        if made := compiled(work / name, source):
            yield Call(name, "a program in C", [made])


def library_calls(work, library, is_wanted):
    """Each function of the C library, on rows of one `step` and on scenes."""
    driver = compiled(work / "driver", ROOT / "examples/c/stack.c", "-std=gnu11",
                      "-I", ROOT / "crates/viz_c", library, KIT / "c/liblibc_c.a")
    for row in table() if driver else ():
        if is_wanted(row.name) and row.command == "step":
            w, h, schedule, _, _, *names = row.words[1:]
            for call in C_CALLS:
                yield Call(call, row.name, [driver, "--alone", call, w, h, schedule, *names], row.given)
    for name in filter(is_wanted, SCENES if driver else ()):
        scene = SCENES[name]()
        given, names = files_of(scene)
        for call in C_CALLS:
            words = [driver, "--alone", call, *map(str, scene.size), "schedule", *names]
            yield Call(call, name, words, given)
