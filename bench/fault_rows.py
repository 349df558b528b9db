"""The rows for faults: those of the table of `vz_test_calls`, and some whose clients wait."""
from dataclasses import dataclass, field
from pathlib import Path

from spelling import AWAIT, CLIENTS, ROOT, client, picture, relation, sink, submit

TOP = Path(__file__).resolve().parent.parent
DATA = TOP / "crates/vz_test_calls/data"
# The names that a command writes, by their places behind the numbers.
WRITTEN = {"step": (4, 5), "run": (4, 5), "gen": (2, 3, 4)}


@dataclass
class Row:
    """A call: its words, the files that it is given, and what must come. `logs` are those of which one must be left,
    none if nothing is known but that `judge` says yes."""
    name: str
    words: list = field(default_factory=list)
    given: dict = field(default_factory=dict)
    left: dict = field(default_factory=dict)
    logs: list = field(default_factory=list)
    status: int = 0
    line: bytes = b""
    piece: int = 0
    judge: list = field(default_factory=list)

    @property
    def command(self):
        return self.words[0] if self.words else ""

    @property
    def written(self):
        """The names that the call writes, in the order in which it does; none if it is refused."""
        words = self.words[:1] + self.words[len(options(self.words)) + 1:]
        return [words[place] for place in WRITTEN.get(self.command, ())] if self.is_done else []

    @property
    def is_done(self):
        return self.status < 2

    @property
    def is_crowd(self):
        """Whether several clients are on threads of their own."""
        return self.command == "run" and len(self.words) - len(options(self.words)) > 7


def options(words):
    """The options of a `run`, with their numbers."""
    found = []
    for word in words[1:] if words[:1] == ["run"] else []:
        if not word.startswith("--") and found[-1:] != ["--buffers"]:
            break
        found.append(word)
    return found


def packed(text):
    """The bytes of pieces in hexadecimal digits, each with the number of times that it stands."""
    made = b""
    for piece in text.split():
        digits, _, count = piece.partition("x")
        made += bytes.fromhex(digits) * int(count or 1)
    return made


def read_line(row, key, value):
    """Takes a line of the table into a row."""
    name, _, rest = value.partition(" ")
    if key in ("given", "left"):
        getattr(row, key)[name] = bytes.fromhex(rest)
    elif key in ("read", "must"):
        (row.given if key == "read" else row.left)[name] = (DATA / rest).read_bytes()
    elif key == "ones":
        row.given[name] = int(rest) * b"\1"
    elif key == "packed":
        row.given[name] = packed(rest)
    elif key == "words":
        row.words = value.split()
    elif key == "judge":
        row.judge = value.split()
    elif key in ("status", "piece"):
        setattr(row, key, int(value))
    elif key == "line":
        row.line = value.encode() + b"\n"
    elif key == "or":
        row.logs.append(b"")
    elif key == "log":
        row.logs[-1:] = [(row.logs or [b""])[-1] + value.encode() + b"\n"]


def read_row(text):
    """The row of some lines of the table."""
    row = Row("")
    for line in text.splitlines():
        key, _, value = line.partition(" ")
        if key == "row":
            row.name = value
        read_line(row, key, value)
    if not row.logs and "l" in row.left and row.command != "gen":
        row.logs = [row.left["l"]]
    if row.left or row.logs:
        row.judge = []
    return row


def table():
    """The rows of the table; of several with one name each but the first has its place behind it."""
    rows, seen = [], {}
    for part in (DATA / "rows.txt").read_text().rstrip("\n").split("\n\n"):
        row = read_row(part)
        seen[row.name] = seen.get(row.name, 0) + 1
        if seen[row.name] > 1:
            row.name += ":%d" % seen[row.name]
        rows.append(row)
    return rows


def waiting_row(name, options, ticks, clients, frames):
    """A run whose first client draws in each of the first ticks, and whose other clients do nothing but wait."""
    names = CLIENTS[:clients]
    relations = [relation(sink(1), sink(k)) for k in range(2, clients + 1)]
    messages = [submit(1, 1, answers=k, damage=(0, 0, 4, 2)) for k in range(1, frames + 1)]
    first = client(1, *relations, ROOT, *(part for one in messages for part in (AWAIT, one)), *(4 * [AWAIT]))
    others = [client(k, *(8 * [AWAIT])) for k in range(2, clients + 1)]
    words = ["run", *options, "4", "2", str(ticks), "f", "l", *names]
    return Row(name, words, dict(zip(names, [first, *others])), {"f": frames * picture(2 * [".rr."])},
               judge=["check", "4", "2", "f", "l", *names])


def waiting():
    """Rows whose clients stand at an Await while the display works and writes."""
    rows = []
    for buffers in (1, 2, 4):
        options = ["--paced", "--buffers", str(buffers)]
        rows.append(waiting_row("waiting_one_client_%d" % buffers, options, 4, 1, 4))
        rows.append(waiting_row("waiting_three_clients_%d" % buffers, options, 4, 3, 4))
    rows.append(waiting_row("waiting_sixteen_clients", ["--paced"], 3, 16, 3))
    rows.append(waiting_row("waiting_past_the_last_tick", ["--paced"], 2, 3, 2))
    rows.append(waiting_row("waiting_unpaced", [], 0, 3, 0))
    return rows


def with_pipe(rows):
    """The rows of `run` once more, with a writer's thread."""
    return [Row(**{**vars(row), "name": row.name + " --pipe", "words": piped(row.words)})
            for row in rows if row.command == "run" and row.is_done and "--pipe" not in row.words]


def piped(words):
    """The words of a run with the option `--pipe` behind the other options."""
    place = 1 + len(options(words))
    return [*words[:place], "--pipe", *words[place:]]
