"""Tests of `record`: small captures of Chromium become the recordings that are stored beside them, the machine in Python
plays these to Chromium's orders and damages, and painted with Skia's arithmetic they are Chromium's pictures. With
`--viz` they are judged by the program too; with `--browser` pages are recorded anew."""

import subprocess

from kit import png, wire, words
from kit.chromium import capture, clients, events, judge, recording, skia
from kit.chromium.chrome import shell
from kit.chromium.outside import Outside, rectangle, translation, whole
from kit.machine import Machine
from kit.shapes import EMPTY, bound
from kit.wrong import Wrong
import test_browser
import test_explain
from test_view import TOOLS

CAPTURES = sorted((TOOLS / "test_record").glob("*.zip"))
PAGES = TOOLS.parent / "examples" / "chromium" / "pages"
HEAD = [events.HEAD, "browser B", "page p.html", "display 4 2", "pace free", "tiles memory", "client 1 0.2 browser"]


def record(*given):
    return subprocess.run([TOOLS / "record", *map(str, given)], capture_output=True, text=True)


def built(folder):
    """What a capture becomes, and the recording that was written and read again."""
    for name in CAPTURES:
        made = clients.Build(capture.read(name))
        out = folder / name.stem
        recording.write(out, made)
        yield name, made, recording.Recording(out)


def captures(folder):
    """Each capture becomes the same events and a message file for each client that is written and read alike."""
    yield "captures are here", len(CAPTURES) >= 4
    for name, made, read in built(folder):
        want = name.with_suffix(".events").read_text(encoding="utf-8").splitlines()
        first = next((place for place, (a, b) in enumerate(zip(made.told, want)) if a != b), None)
        yield "%s: line %s" % (name.stem, first), made.told == want
        for part, one in zip(read.parts, read.files):
            yield str(part), wire.write(one) == part.read_bytes()
        again = folder / "again.zip"
        capture.write(again, made.capture)
        yield name.stem + " written again", capture.read(again) == made.capture


class Played:
    """A recording as the machine in Python plays it: what it activated and destroyed, the damages, and at each round
    the picture by Skia's arithmetic."""

    def __init__(self, read):
        self.read, self.active, self.destroyed, self.damages = read, [], [], []
        machine, self.pictures = Machine(read.files, read.size), []
        rounds = read.events.of("round")
        for at, code in enumerate((read.folder / "schedule").read_bytes()):
            self.painted(machine, [one for one in rounds if one.at == at])
            entry = machine.step(words.STEPS.get(code, "c"), code if code < 17 else 0)
            for names, sign in ((self.active, "+"), (self.destroyed, "x")):
                names += ["%d.%d" % tuple(who[:2]) for kind, *who in entry.effects if kind == sign]
            if entry.event == "draw":
                self.damages.append(self.damage(machine, entry))
        self.painted(machine, [one for one in rounds if one.at > at])

    def damage(self, machine, entry):
        """Our damage, and with it what is repainted in Chromium where a range shows a fallback."""
        ours = entry.numbers if entry.reply == "drawn" else EMPTY
        windows = judge.Fallbacks(machine.world, self.read.size).windows if machine.drawing else []
        return ours, bound([ours, *windows])

    def painted(self, machine, rounds):
        for one in rounds:
            shot = png.read((self.read.folder / one.given[1]).read_bytes())
            made = skia.Skia(machine.world).picture(self.read.size).bytes()
            self.pictures.append((one.given[2], made == shot[2]))


def played(folder):
    """Orders, damages and pictures are Chromium's."""
    for name, _, read in built(folder):
        made, told = Played(read), read.events
        yield name.stem + " activations", made.active == [one.given[0] for one in told.of("active")]
        yield name.stem + " destroyed", made.destroyed == [one.given[0] for one in told.of("destroyed")]
        for place, (one, ours) in enumerate(zip(told.of("draw"), made.damages, strict=True), 1):
            theirs = EMPTY if one.given == ["nothing"] else tuple(map(int, one.given))
            yield "%s, drawing %d: %s, %s" % (name.stem, place, theirs, ours), theirs in ours
        outside = bool(told.of("outside"))
        for why, same in made.pictures:
            yield "%s, %s" % (name.stem, why), same or outside


def judged(folder):
    """The program plays each, `check` says yes, and every difference has a name."""
    if not test_explain.VIZ:
        return
    for name in CAPTURES:
        out = folder / name.stem
        out.mkdir()
        (out / "capture.zip").write_bytes(name.read_bytes())
        done = record("--again", "--viz", test_explain.VIZ, out)
        yield "%s: %s" % (name.stem, done.stderr), done.returncode == 0
        lines = done.stdout.splitlines()
        yield name.stem + " check", "check: yes" in lines
        told = (out / "events").read_text(encoding="utf-8")
        wrong = [line for line in lines if "not explained" in line or "another order" in line or
                 line.startswith("refused") or ": differs" in line and " outside " not in told]
        yield "%s: %s" % (name.stem, wrong), not wrong
        yield name.stem + " kept", (out / "judged").read_text(encoding="utf-8") == done.stdout


def lines(_folder):
    """What is no text of events is told with its line."""
    good = [*HEAD, "3 1 - commit 1.1 0.2/1.1", "4 1 12.5 draw 0 0 4 2", "5 1 - round 1 01-chromium.png the first one",
            "5 1 - outside 1.1 1 2 rounded corners", "press 3 5 1 2 a.html", "count 3 tiles", "note 1 a word of it"]
    read = events.Events("\n".join(good) + "\n")
    yield "read", (read.size, read.clients, read.told[2].given) == (
        (4, 2), [((0, 2), "browser")], ["1", "01-chromium.png", "the first one"])
    yield "more", (read.presses, read.counts, read.notes) == (
        [((3, 5), (1, 2), "a.html")], {"tiles": 3}, {"a word of it": 1})
    for line in ("x", "3 1 - jump 1.1", "3 1 - commit 1.1", "client 3 0.2 b", "press 1 2", "count many tiles",
                 "display 4", "3 one - closed 1"):
        try:
            events.Events("\n".join([*HEAD, line]))
            yield line, False
        except Wrong as wrong:
            yield "%s: %s" % (line, wrong), str(wrong).startswith("line %d: " % (len(HEAD) + 1))
    for text in ("", "events\n"):
        try:
            events.Events(text)
            yield text, False
        except Wrong as wrong:
            yield str(wrong), "the first line is not" in str(wrong)


def arithmetic(_folder):
    """Skia's formulas on values worked by hand, and what a message file can say of a transform."""
    yield "half of blue", skia.source((0, 0, 1, 0.501961), 1) == (0, 0, 128, 128)
    yield "over white", bytes(skia.fill((0, 0, 128, 128), 0, bytes((255, 255, 255, 255)))) == bytes((127, 127, 255, 255))
    yield "nothing over", bytes(skia.shaded(bytes(4), 255, 0, bytes((9, 8, 7, 255)))) == bytes((9, 8, 7, 255))
    yield "a mask", bytes(skia.shaded(bytes((0, 0, 0, 128)), 255, 2, bytes((200, 0, 0, 255)))) == bytes((100, 0, 0, 128))
    yield "opacity", bytes(skia.blitted(bytes((200, 0, 0, 255)), 127, 0, bytes((0, 0, 0, 255)))) == bytes((100, 0, 0, 255))
    move = [1, 0, 0, 3, 0, 1, 0, -2, 0, 0, 1, 0, 0, 0, 0, 1]
    yield "a translation", translation(move) == (3, -2)
    yield "no point", rectangle((3, 4, 0, 9)) == EMPTY
    for wrong, said in (([2, *move[1:]], "no translation"), ([*move[:3], .5, *move[4:]], "not whole")):
        try:
            translation(wrong)
            yield said, False
        except Outside as outside:
            yield str(outside), said in str(outside)
    try:
        whole((1, 2.5, 3, 4), "a clip")
        yield "a clip", False
    except Outside as outside:
        yield str(outside), "a clip that is not whole" in str(outside)


def refused(folder):
    """Wrong words, and what cannot be recorded."""
    viz = ["--viz", test_explain.VIZ] if test_explain.VIZ else ["--record-only"]
    (folder / "no.zip").write_bytes(b"PK")
    (folder / "bad").mkdir()
    (folder / "bad" / "capture.zip").write_bytes(b"PK")
    for given, status, said in (
            ([], 2, "PAGE OUT"), ([*viz, "--size", "9", "p", "o"], 1, "p: no such file"),
            ([*viz, "--size", "4000x2", __file__, folder / "o"], 2, "--size"),
            (["--again", "a", "b"], 2, "--again OUT"), (["--turns", "x", *viz, __file__, folder / "o"], 2, "--turns"),
            ([*viz, folder / "none.html", folder / "o"], 1, "no such file"),
            ([*viz, "--again", folder / "bad"], 1, "it is no capture")):
        done = record(*given)
        yield "%s: %d %s" % (given, done.returncode, done.stderr), (done.returncode, said in done.stderr) == (status, True)


def recorded(folder):
    """A page recorded twice has the same files; a free one is judged well."""
    if not test_browser.FOLDER or shell() is None:
        return
    names = []
    for out in (folder / "a", folder / "b"):
        done = record("--record-only", "--size", "200x150", "--turns", 3, PAGES / "animation.html", out)
        yield done.stderr or "recorded", done.returncode == 0
        names.append(sorted(p.name for p in out.iterdir()))
    yield "the same names: %s" % names[0], names[0] == names[1] and "c2.viz" in names[0]
    for name in names[0]:
        yield name, (folder / "a" / name).read_bytes() == (folder / "b" / name).read_bytes()
    if test_explain.VIZ:
        done = record("--viz", test_explain.VIZ, "--free", "--size", "240x190", PAGES / "iframes.html", folder / "c")
        yield done.stderr or done.stdout, done.returncode == 0 and "check: yes" in done.stdout
        yield "all explained", "not explained" not in done.stdout and ": differs" not in done.stdout


PARTS = (("captures of Chromium", captures), ("captures, played", played), ("captures, judged", judged),
         ("events of Chromium", lines), ("Skia's arithmetic", arithmetic), ("words of record", refused),
         ("pages recorded in Chromium", recorded))
