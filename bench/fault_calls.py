"""Calls of a built program of which some part is made to fail: faults.c does it."""
import os
import shutil
import struct
import subprocess
import tempfile
from dataclasses import dataclass, field
from pathlib import Path

KINDS = GROWTH, START, CALL, WAIT = range(4)
NAMES = 65536
SIZE = 2 * 8 * len(KINDS) + NAMES
EVER = 10 ** 9            # a number that no call has
OLD = 1_000_000_000       # when each file was changed last, so that a change of it is seen


@dataclass
class Fault:
    """What is made to fail: calls of a kind from the first number to the last one, with an error; starts of threads by
    the bits of a number; and how calls of files are cut."""
    kind: int = -1
    first: int = 0
    last: int = 0
    error: int = 0
    starts: int = 0
    piece: int = 0
    half: int = 0
    name: str = "nothing"

    def variables(self):
        return {"FAULT": "%d %d %d %d" % (self.kind, self.first, self.last, self.error), "STARTS": str(self.starts),
                "PIECE": str(self.piece), "HALF": str(self.half)}


@dataclass
class Done:
    """How a call ended. `status` is none where it did not end in time; `made` and `refused` are numbers of calls by
    kind, `calls` has a letter for each call of a file."""
    status: int
    printed: bytes
    made: tuple
    refused: tuple
    calls: str
    changed: list = field(default_factory=list)


class Caller:
    """Calls a program in a folder of its own."""

    def __init__(self, program, seconds):
        self.program, self.seconds = os.path.abspath(program), seconds
        self.work = Path(tempfile.mkdtemp(prefix="faults-", dir="/dev/shm" if os.path.isdir("/dev/shm") else None))
        self.folder, self.counts, self.library = self.work / "files", self.work / "counts", self.work / "faults.so"
        self.counts.write_bytes(bytes(SIZE))
        source = Path(__file__).with_name("faults.c")
        subprocess.run(["cc", "-O1", "-shared", "-fPIC", "-o", self.library, source], check=True)

    def remove(self):
        shutil.rmtree(self.work, ignore_errors=True)

    def lay(self, given):
        """Puts these files, and no others, into the folder."""
        shutil.rmtree(self.folder, ignore_errors=True)
        self.folder.mkdir()
        self.given = given
        for name, data in given.items():
            self.put(name, data)

    def put(self, name, data):
        path = self.folder / name
        path.write_bytes(data)
        os.utime(path, (OLD, OLD))

    def tidy(self, names):
        """Puts what a call wrote back to what it was."""
        for name in names:
            if name in self.given:
                self.put(name, self.given[name])
            else:
                (self.folder / name).unlink(missing_ok=True)

    def changed(self):
        """The names that a call made, changed or removed."""
        found = [path.name for path in self.folder.iterdir()
                 if path.name not in self.given or path.stat().st_mtime_ns != OLD * 10 ** 9]
        return found + [name for name in self.given if not (self.folder / name).exists()]

    def read(self, name):
        """The bytes of a file, none if it is not there."""
        path = self.folder / name
        return path.read_bytes() if path.is_file() else None

    def call(self, words, fault=Fault(), stdout=subprocess.PIPE):
        """Calls the program, and says how it ended."""
        env = {**os.environ, "LD_PRELOAD": str(self.library), "COUNTS": str(self.counts), **fault.variables()}
        try:
            done = subprocess.run([self.program, *words], stdin=subprocess.DEVNULL, stdout=stdout,
                                  stderr=subprocess.PIPE, env=env, cwd=self.folder, timeout=self.seconds)
            status, printed = done.returncode, done.stdout or b""
        except subprocess.TimeoutExpired:
            status, printed = None, b""
        data = self.counts.read_bytes()
        numbers = struct.unpack("<8Q", data[:64])
        letters = data[64:64 + min(NAMES, numbers[CALL])].decode("ascii", "replace")
        return Done(status, printed, numbers[:4], numbers[4:], letters, self.changed())

    def plain(self, words):
        """Calls the program as it is; its status and what it printed."""
        done = subprocess.run([self.program, *words], capture_output=True, cwd=self.folder, timeout=20 * self.seconds)
        return done.returncode, done.stdout
