"""Tests of `replay`, `why`, `diff`, `viz`, `reftest` and `play`. Those that need the program are made if
`VIZ` names it."""

import os
import random
import subprocess
import sys
from pathlib import Path

from kit import build, calling, log, paths, png
from kit.blend import BLACK
from kit.painter import Painter
from kit.wrong import Wrong
from test_view import CASES, EXAMPLES, TOOLS, cases, replay, wire

VIZ = None
ONE_QUAD = TOOLS.parent / "crates" / "viz" / "data" / "one_quad.viz"
HEAVY = ("heavy", "weight")
MUTATIONS = 60


def tool(name, *words):
    return subprocess.run([TOOLS / name, *map(str, words)], capture_output=True, text=True)


def says(name, words, status, *parts):
    """A result: the tool ends with a status and says these parts."""
    done = tool(name, *words)
    said = done.stdout + done.stderr
    return "%s %s: %d %s" % (name, " ".join(map(str, words)), done.returncode, said), (
        done.returncode == status and all(part in said for part in parts) and "Traceback" not in said)


def helps(_folder):
    for name in ("view", "replay", "why", "diff", "viz", "reftest", "play", "man"):
        yield name + " --help", tool(name, "--help").stdout.count("\n") > 6


def schedules(folder):
    """The schedule of each worked log is the one that it was made with; a log with too many entries is
    refused."""
    for name, size, files, log_name in cases():
        made = folder / "made"
        tool("replay", log_name, made)
        yield name, made.read_bytes() == (log_name.parent / "schedule").read_bytes()
    (folder / "long").write_text("begin ticked 1\n" * 65537 + "end\n")
    yield says("replay", [folder / "long", folder / "s"], 1, "long: 65537 entries, more than the 65536")
    yield says("replay", [folder / "long"], 2, "LOG SCHEDULE")
    case = CASES / "switch_and_gutter"
    yield says("replay", [case / "log", folder / "o", 8, 8, case / "1.viz"], 1, "more than 1 clients")
    yield says("replay", [case / "log", folder / "o", 8, 9, case / "1.viz"], 1, "has 8 by 8 pixels, not 8 by 9")
    yield says("replay", [folder / "long", folder / "long"], 1, "it is read too")
    yield says("replay", [case / "log", folder / "long" / "s"], 1, "long: a file, not a folder")
    if VIZ:
        yield from played_again(folder)


def played_again(folder):
    """Runs on threads are played again by `step` to the same bytes."""
    for name in sorted(EXAMPLES.glob("*/scene.toml")):
        scene, out, again = build.scene(name), folder / name.parent.name, folder / (name.parent.name + "-again")
        words = build.store(scene, out)
        files = words[6:]
        run = ["run", *map(str, scene.display), "5", str(out / "frames"), str(out / "log"), *files]
        calling.call(VIZ, run)
        calling.call(VIZ, tool("replay", out / "log", again, *scene.display, *files).stdout.split())
        yield name.parent.name, all((out / n).read_bytes() == (again / n).read_bytes() for n in ("log", "frames"))


def painted(_folder):
    """The painter paints the frames of the worked histories, but for what a dishonest client left in a
    buffer."""
    for name, size, files, log_name in cases():
        if name.startswith(HEAVY):
            continue
        done = tool("why", *size, log_name.parent / "frames", log_name, *files)
        lines = done.stdout.splitlines()
        yield "%s: %s" % (name, done.stdout), lines[:1] == ["yes"] or (
            any(line.startswith("it is what ") for line in lines) and any("a dishonest client" in line for line in lines))
    yield "black", Painter(replay(log.Log([], [], []), [wire.read(ONE_QUAD.read_bytes())], (2, 1)).world).picture((2, 1)).bytes() == BLACK * 2


def explained(folder):
    """Each kind of fault is named, with what is expected."""
    case = CASES / "switch_and_gutter"
    files, good = [case / "1.viz", case / "2.viz"], (case / "log").read_text(encoding="utf-8").splitlines()

    def words(lines, frames=case / "frames"):
        (folder / "log").write_text("".join(line + "\n" for line in lines))
        return ["--picture", folder / "why.png", 8, 8, frames, folder / "log", *files]
    yield says("why", words(good), 0, "yes")
    yield says("why", ["--picture", folder / "why.jpg", *words(good)[2:]], 2, "its name ends in .png")
    yield says("why", words(["draw busy", *good[1:]]), 1, "no 1 Reply", "found:    draw busy", "expected: draw noroot")
    yield says("why", words([*good[:6], "done shown p2.1", *good[7:]]), 1, "no 7 Reply", "expected: done nothing")
    yield says("why", words([good[0], "c9 left", *good[2:]]), 1, "no 2 Reply", "there are 2 clients")
    yield says("why", words([good[0], "dra", *good[2:]]), 1, "no 2 LogText", "begins with no event")
    yield says("why", words([*good[:-1], "open 1.9", "end"]), 1, "no 9 Rest", "found, and not expected: open 1.9")
    yield says("why", words(good[:-1]), 1, "no 9 LogText", "'end' is missing")
    data = bytearray((case / "frames").read_bytes())
    (folder / "more").write_bytes(bytes(data) + b"x")
    yield says("why", words(good, folder / "more"), 1, "no 9 Length")
    (folder / "less").write_bytes(bytes(data[:400]))
    yield says("why", words(good, folder / "less"), 1, "no 7 Frame", "frame 2: 144 of its 256 bytes")
    data[20:23] = b"abc"
    (folder / "wrong").write_bytes(bytes(data))
    yield says("why", words(good, folder / "wrong"), 1, "no 4 Frame", "frame 1 differs in 1 of 64 pixels", "the first is (5, 0)")
    yield "a picture", png.read((folder / "why.png").read_bytes())[:2] == (3 * 64 + 16, 64 + 8)
    (folder / "log").write_text("".join(line + "\n" for line in good))
    yield says("why", [8, 8, case / "frames", folder / "log", *files[::-1]], 1, "no 3 Reply", "in another order: %s %s" % (*files,))
    yield from others(folder)


def others(folder):
    """Swapped sides, and a dishonest client by its name."""
    one = TOOLS.parent / "crates" / "viz_run" / "none"
    text = "c1 accepted 1 1 +1.1\nc1 rooted\ndraw drawn 0 0 4 2\ndone shown p1.1\nend\n"
    (folder / "log").write_text(text)
    (folder / "frames").write_bytes(bytes(32))
    yield says("why", [2, 4, folder / "frames", folder / "log", ONE_QUAD], 1, "no 3 Reply", "W and H are swapped")
    yield says("why", [8, 8, folder / "frames", folder / "log", ONE_QUAD], 1, "the first drawn frame has 4 by 2 pixels")
    yield says("why", [2, 4, one, folder / "log", ONE_QUAD], 1, "No such file")
    yield says("why", [0, 4, one, folder / "log", ONE_QUAD], 2, "W is 1 to 2048")
    liar = CASES / "dishonest_client"
    yield says("why", ["--names", "liar", 4, 2, liar / "frames", liar / "log", liar / "1.viz"], 1, "no 9 Frame",
               "a dishonest client: frame 3 of liar changes pixel (1, 1)", "it is what 1 or 2 buffers leave")


def verdicts(folder):
    """The first line is what `check` prints, for logs and frames that were changed somewhere."""
    if not VIZ:
        return
    chosen, small = random.Random(7), [c for c in cases() if not c[0].startswith(HEAVY) and c[0] != "empty_schedule"]
    for number in range(MUTATIONS):
        name, size, files, log_name = chosen.choice(small)
        lines, frames = log_name.read_text(encoding="utf-8").splitlines(), bytearray((log_name.parent / "frames").read_bytes())
        change(chosen, lines, frames)
        (folder / "log").write_text("".join(line + "\n" for line in lines))
        (folder / "frames").write_bytes(frames)
        words = [*size, folder / "frames", folder / "log", *files]
        want = subprocess.run([VIZ, "check", *map(str, words)], capture_output=True, text=True).stdout
        got = tool("why", *words).stdout
        yield "%d, %s: %r, not %r" % (number, name, got, want), got.splitlines()[:1] == want.splitlines()[:1]


def change(chosen, lines, frames):
    """Changes a line, an effect or a byte."""
    kind, place = chosen.randrange(6), chosen.randrange(len(lines))
    if kind == 0:
        lines[place] = chosen.choice(lines)
    elif kind == 1:
        del lines[place]
    elif kind == 2:
        lines[place] = lines[place].rpartition(" ")[0] or "begin"
    elif kind == 3:
        lines[place] = lines[place].replace("1", "2", 1)
    elif kind == 4 and frames:
        frames[chosen.randrange(len(frames))] ^= 1
    else:
        frames += b"\0" * chosen.randrange(3)


def differences(folder):
    """Two runs, which are the same or differ somewhere."""
    case = CASES / "switch_and_gutter"
    other = folder / "other"
    other.mkdir()
    data = bytearray((case / "frames").read_bytes())
    data[256 + 20] ^= 255
    (other / "frames").write_bytes(data)
    (other / "log").write_text((case / "log").read_text(encoding="utf-8").replace("c1 rooted", "c1 noted"))
    yield says("diff", [case, case], 0, "the same: 8 entries, 2 frames")
    yield says("diff", ["--picture", folder / "d.png", case, other], 1, "entry 3 is the first", "A: c1 rooted", "B: c1 noted",
               "frame 2: 1 of 64 pixels differ, within 1 by 1 at (5, 0), by at most 255")
    yield "a picture", png.read((folder / "d.png").read_bytes())[:2] == (208, 72)
    yield says("diff", [case, folder / "none"], 1, "No such file")
    yield says("diff", ["--picture", folder / "d.jpg", case, case], 2, "its name ends in .png")
    yield says("diff", ["--size", "8x9", case, case], 1, "has 8 by 8 pixels, not 8 by 9")
    yield says("diff", [case], 2, "two folders")
    (other / "frames").write_bytes(data[1:])
    yield says("diff", [case, other], 1, "not whole frames of 8 by 8")


def manual(folder):
    """The man page has the commands, the words and the statuses of README."""
    (folder / "README.md").write_text("| words | what |\n|---|---|\n| `step W H` | take the events |\n\n| word | what |\n|---|---|\n"
                                      "| W | a side |\n\n| status | means | printed |\n|---|---|---|\n| 0 | it is done | `yes` |\n")
    yield says("man", [folder / "README.md", "-o", folder / "viz.1"], 0, "viz.1")
    made = (folder / "viz.1").read_text()
    for part in ("step W H", "take the events", "a side", "it is done; \\fByes\\fR", ".SH EXIT STATUS"):
        yield part, part in made
    yield says("man", ["-o", folder / "all.1"], 0, "all.1")
    for command in calling.FORMS:
        yield command, ".B viz\n%s " % command in (folder / "all.1").read_text()
    (folder / "none.md").write_text("nothing\n")
    yield says("man", [folder / "none.md", "-o", folder / "none.md"], 1, "it is read too")
    yield says("man", [folder / "none.md", "-o", folder / "viz.1"], 1, "it has no table whose first column is 'words'")


def completed(_folder):
    """Options are completed to those that --help lists."""
    for name, begun, want in (("frames", "--h", "--help --hit"), ("replay", "--h", "--help"), ("view", "--na", "--names"),
                              ("viz", "", "check demo gen hit run step turns"), ("viz", "tu", "turns"), ("scene", "s", "show")):
        done = subprocess.run(["bash", "-c", '. tools/completion.bash; COMP_WORDS=("tools/$0" "$1"); COMP_CWORD=1; _viz_tools; '
                               'echo "${COMPREPLY[@]}"', name, begun], cwd=TOOLS.parent, capture_output=True, text=True)
        yield "%s %s: %s%s" % (name, begun, done.stdout, done.stderr), done.stdout.split() == want.split()


def wrapped(folder):
    """Words are looked at before the program is called, and a refused input is explained."""
    (folder / "s").write_bytes(b"\1")
    broken = bytearray(ONE_QUAD.read_bytes())
    broken[110] = 0
    (folder / "bad.viz").write_bytes(broken)
    rest = [folder / "s", folder / "f", folder / "l", folder / "bad.viz"]
    for words, status, said in (
            (["step", 4, 2, folder / "none", *rest[1:]], 1, "none: no such file"), (["step", "0x4", 2, *rest], 2, "W is 1 to 2048"),
            (["step", 4, 2049, *rest], 2, "H is 1 to 2048"), (["stop"], 2, "stop is no command"), (["step", 4, 2], 2, "step wants W H"),
            (["run", "--buffers", 9, 4, 2, 3, *rest[1:]], 2, "--buffers is 1 to 4"), (["demo", 1001], 2, "N is 1 to 1000"),
            (["run", "--fast", 4, 2, 3, *rest[1:]], 2, "--fast"), (["step", 4, 2, *rest, rest[3]], 1, "named twice"),
            (["run", "--pipe", "--paced", 4, 2, 3, *rest[1:]], 2, "--paced: run has"), (["run", "--pipe", 4, 2], 2, "run wants W H"),
            (["step", 4, 2, rest[0], folder / "no" / "f", *rest[2:]], 1, "its folder is not there"),
            (["step", 4, 2, rest[0], folder, *rest[2:]], 1, "a folder, not a file"),
            (["hit", 4, 2, rest[0], 4, 0, rest[3]], 2, "X is 0 to 3"), (["hit", 4, 2, rest[0], 3, 2, rest[3]], 2, "Y is 0 to 1"),
            (["hit", 4, 2, rest[0], 3, 1], 2, "hit wants W H SCHEDULE X Y FILE.."),
            (["--viz", folder / "s", "demo", 1], 1, "no program is there")):
        yield says("viz", words, status, said)
    try:
        said = calling.explained(3, "file 1 refused at 102: Limit", [("FILE", str(folder / "bad.viz"))])
        yield said, said.endswith("bad.viz: `Limit` at offset 102: message 1, pass 1, quad 1, area")
    except Wrong as wrong:
        yield str(wrong), False
    if VIZ:
        yield says("viz", ["--viz", VIZ, "step", 4, 2, *rest], 3, "status 3: an input is refused: ", "message 1, pass 1, quad 1, area")
        yield says("viz", ["--viz", VIZ, "demo", 2], 0, "entries 26 frames 2")
        yield says("viz", ["--viz", VIZ, "run", "--paced", "--pipe", 4, 2, 0, *rest[1:3], ONE_QUAD], 0, "done 5 entries 1 frames")
        yield says("viz", ["--viz", VIZ, "hit", 4, 2, rest[0], 3, 1, ONE_QUAD], 0, "hit none")


def one_file(folder):
    """One file by two names, links and pipes are warned of, and the program is called all the same."""
    for name in ("a", "s", "f"):
        (folder / name).write_bytes(ONE_QUAD.read_bytes() if name == "a" else b"\1")
    (folder / "link").symlink_to("a")
    (folder / "far").symlink_to("nowhere")
    (folder / "hard").hardlink_to(folder / "f")
    os.mkfifo(folder / "pipe")
    for f, log, a, said in (("f", "./f", "a", "are one file: both are written"), ("link", "l", "a", "which is read: its content is lost"),
                            ("far", "l", "a", "nowhere"), ("hard", "l", "a", "has other names too"), ("./new", "new", "a", "are one file"),
                            ("f", "l", "../%s/s" % folder.name, "are one file, which is read twice"), ("f", "pipe", "a", "is a pipe")):
        words = ["step", "4", "2", folder / "s", *("%s/%s" % (folder, name) for name in (f, log, a))]
        heard = list(paths.warnings([str(words[3]), words[6]], words[4:6]))
        yield "%s %s %s: %s" % (f, log, a, heard), len(heard) >= 1 and any(said in one for one in heard)
    yield "nothing", not list(paths.warnings([str(folder / "a"), str(folder / "s")], [str(folder / "l"), str(folder / "m")]))
    if VIZ:
        words = ["step", 4, 2, folder / "s", folder / "l", "%s/./l" % folder, folder / "a"]
        yield says("viz", ["--viz", VIZ, *words], 0, "done 1 entries 0 frames", "warning: ")
    yield says("replay", [folder / "f", folder / "hard"], 1, "it is read too")


def samples(folder):
    """The words of the samples are looked at before one runs."""
    for name, words, status, said in (
            ("run", [ONE_QUAD, "pgae"], 2, "pgae: no sample; there are browser, c, chromium, dishonest"), ("run", ["pgae"], 2, "pgae: no such program"),
            ("run", ["--out", ONE_QUAD, ONE_QUAD, "page"], 1, "a file, not a folder"), ("run", ["--fast"], 2, "--out FOLDER"),
            ("browser/run", [folder / "none"], 1, "none: no such program"), ("browser/run", [ONE_QUAD, folder / "p.jpg"], 2, "its name ends in .png")):
        yield says("../examples/" + name, words, status, said)
    yield says("test", ["--only"], 2, "--only wants a word after it")
    done = subprocess.run([sys.executable, TOOLS / "test", "--browser", folder], capture_output=True, text=True, env={"PATH": str(folder)})
    yield "no browser: %s" % done.stderr, done.returncode == 1 and done.stderr.startswith("--browser: no browser is in PATH") and done.stderr.count("\n") == 1
    yield says("scene", ["build", EXAMPLES / "page", folder / "page"], 0, "step 128 72")


def commands(folder):
    """`play` and `reftest` with the program, and their errors."""
    scene = EXAMPLES / "resize" / "scene.toml"
    (folder / "reftest.list").write_text("a.toml = b.toml\n")
    if not VIZ:
        return
    yield says("reftest", ["--viz", VIZ, folder], 1, "reftest.list: line 1:")
    yield says("reftest", ["--viz", VIZ, EXAMPLES / "reftests"], 0, "6 of 6 pass")
    (folder / "reftest.list").write_text("%s != %s\n" % (EXAMPLES / "reftests/solid.toml", EXAMPLES / "reftests/tile.toml"))
    yield says("reftest", ["--viz", VIZ, folder], 1, "FAIL", "no pixel differs")
    yield says("play", ["--viz", VIZ, "--view", "--out", folder / "o p", scene], 0, "window sets the root", "done 14 entries 4 frames")
    yield "all is made", all((folder / "o p" / n).is_file() for n in ("frames.png", "page.html", "story.txt", "timeline.svg", "log"))
    yield says("play", ["--viz", VIZ, "--run", 3, "--quiet", "--out", folder / "o p", scene], 0, "frames; ")
    yield says("play", ["--viz", VIZ, "--out", folder / "o", folder / "none.toml"], 1, "none.toml: No such file")
    (folder / "a.toml").write_text('display = [4, 2]\n[[client]]\nmessages = ["awake"]\n')
    yield says("play", ["--viz", VIZ, "--out", folder / "o", folder / "a.toml"], 1, "a.toml: line 3: client 1, message 1: 'awake'")
    (folder / "a.toml").write_text('display = [4, 2]\n[[client]]\nmessages = ["await"]\n')
    yield says("play", ["--viz", VIZ, "--quiet", "--out", folder / "o", folder / "a.toml"], 0, " entries 0 frames; ")
    (folder / "a.toml").write_text('[[client]]\nmessages = ["await"]\n')
    yield says("play", ["--viz", VIZ, "--out", folder / "o", folder / "a.toml"], 1, "a.toml: it has no display")


PARTS = (("help of the tools", helps), ("schedules of logs", schedules), ("painted frames", painted),
         ("faults explained", explained), ("verdicts of check", verdicts), ("runs compared", differences),
         ("words of the program", wrapped), ("one file by two names", one_file), ("man page", manual), ("completion", completed),
         ("words of the samples", samples), ("play and reftest", commands))
