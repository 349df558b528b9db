"""Tests of `frames` with fitted, numbered and animated pictures, of points in them, and of what is refused before it
works."""

import struct
import subprocess
from pathlib import Path

from kit import png
import test_explain
from test_view import CASES, TOOLS


def frames(*words):
    return subprocess.run([TOOLS / "frames", *map(str, words)], capture_output=True, text=True)


def size(name):
    return png.read(name.read_bytes())[:2]


def fitted(folder):
    """Pictures as large as fits, with numbers, and some of the frames."""
    data = folder / "frames"
    data.write_bytes(bytes((0, 0, 0, 255)) * (50 * 30 * 12))
    for words, want in ((("--strip", "--fit", 320, "--only", "1-2"), (2 * 304 + 4, 184 + 4)),
                        (("--strip", "--fit", 25), (12 * 29 + 4, 15 + 8)), (("--strip", "--fit", 20), (12 * 20 + 4, 10 + 8)),
                        (("--strip", "--numbers", "--only", "3,5-7"), (4 * 54 + 4, 30 + 4 + 4 + 14))):
        made = frames(*words, 50, 30, data, folder / "p.png")
        yield "%s: %s%s" % (words, made.stderr, want), made.returncode == 0 and size(folder / "p.png")[0] == want[0]
    frames("--strip", "--numbers", "--fit", "16", "--only", "7", 50, 30, data, folder / "n.png")
    w, _, pixels = png.read((folder / "n.png").read_bytes())
    ink = [(k % w, k // w) for k in range(len(pixels) // 4) if pixels[k * 4:k * 4 + 3] == bytes((60, 60, 60))]
    yield "a seven", min(ink) == (4, 4) and len(ink) == 4 * (3 + 1 + 1 + 1 + 1)


def animated(folder):
    """An animated picture: as many frames as there are, the first one whole, of the others the rows that
    changed."""
    data = bytearray(bytes((0, 0, 0, 255)) * (4 * 6 * 3))
    data[4 * 6 * 4 + 32:4 * 6 * 4 + 36] = b"\xff\0\0\xff"
    (folder / "a").write_bytes(data)
    made = frames("--animate", 250, 4, 6, folder / "a", folder / "a.png")
    yield made.stderr or "made", made.returncode == 0
    whole = (folder / "a.png").read_bytes()
    parts = list(png.chunks(whole))
    yield "first frame", png.read(whole) == (4, 6, bytes(data[:96]))
    yield "count", [struct.unpack(">II", body) for name, body in parts if name == b"acTL"] == [(3, 0)]
    controls = [struct.unpack(">IIIIIHHBB", body) for name, body in parts if name == b"fcTL"]
    yield "rows that changed: %s" % controls, [c[1:7] for c in controls] == [
        (4, 6, 0, 0, 250, 1000), (4, 1, 0, 2, 250, 1000), (4, 1, 0, 2, 250, 1000)]
    numbers = [struct.unpack(">I", body[:4])[0] for name, body in parts if name in (b"fcTL", b"fdAT")]
    yield "numbers rise", numbers == list(range(5))


def refused(folder):
    (folder / "f").write_bytes(bytes(4 * 2 * 4))
    (folder / "log").write_text("draw drawn 0 0 4 2\nend\n")
    for words, status, said in (
            (("--buffers", 9, 4, 2), 2, "--buffers is 1 to 4"), (("--fit", 8, 4, 2), 2, "--fit is 16 to 2048"),
            (("--fit", 32, "--scale", 2, 4, 2), 2, "without --scale"), (("--only", "2-1", 4, 2), 2, "a frame's number is 1 to 1"),
            (("--strip", 4, 2), 2, "its name ends in .png"), (("--animate", 0, 4, 2), 2, "--animate is 1 to"),
            (("--damage", folder / "log", 2, 4), 1, "W and H are swapped"), ((2, 4), 1, "W and H are swapped"), ((4, 2), 0, "")):
        made = frames(*words, folder / "f", folder / "o.jpg")
        yield "%s: %d %s" % (words, made.returncode, made.stderr), made.returncode == status and said in made.stderr
    yield "no picture in a JPEG name", not (folder / "o.jpg").is_file()


ASKED = """#!/bin/sh
echo "$* $(od -An -tx1 "$4" | tr -d ' \\n')" >> "$(dirname "$0")/asked"
[ "$5" = 0 ] && echo 'hit none' || echo 'hit 2 1 3 4 9 2 1'
"""


def hits(folder):
    """A program in the place of ours is asked for each frame, with the events up to it; its answers are told by the
    clients' names, and the pixel is marked."""
    case, asked = CASES / "switch_and_gutter", folder / "asked"
    (folder / "program").write_text(ASKED)
    (folder / "program").chmod(0o755)
    words = ["--viz", folder / "program", "--scale", 4]
    made = frames("--hit", "3,2", *words, "--names", "page,child", 8, 8, case / "frames", folder)
    yield made.stdout + made.stderr, made.stdout == (
        "frame 1: (3, 2) hits child/3.4#9 at (2, 1)\nframe 2: (3, 2) hits child/3.4#9 at (2, 1)\n2 frames\n")
    whole, calls = (case / "schedule").read_bytes(), asked.read_text().splitlines()
    drawn = [k for k, line in enumerate((case / "log").read_text().splitlines(), 1) if line.startswith("draw drawn")]
    yield "asked: %s" % calls, [(c.split()[:3], c.split()[4:6], c.split()[-1]) for c in calls] == [
        (["hit", "8", "8"], ["3", "2"], whole[:k].hex()) for k in drawn]
    w, h, pixels = png.read((folder / "001.png").read_bytes())
    plain = case / "frames"
    frames("--scale", 4, 8, 8, plain, folder / "plain")
    _, _, before = png.read((folder / "plain" / "001.png").read_bytes())
    marked = {(k % w, k // w) for k in range(w * h) if pixels[k * 4:k * 4 + 4] != before[k * 4:k * 4 + 4]}
    yield "four arms: %s" % sorted(marked), all(13 <= x <= 15 or 9 <= y <= 11 for x, y in marked) and not any(
        11 <= x <= 16 and 7 <= y <= 12 for x, y in marked) and {(10, 10), (17, 10), (14, 6), (14, 13)} <= marked
    run = ",".join(str(case / name) for name in ("log", "1.viz", "2.viz"))
    made = frames("--hit", "0,7", *words, "--run", run, "--only", "2", 8, 8, case / "frames", folder)
    yield made.stdout + made.stderr, made.stdout == "frame 2: (0, 7) hits nothing\n1 frames\n"
    other = folder / "other"
    other.mkdir()
    for name, source in (("log", "log"), ("c1.viz", "2.viz"), ("c2.viz", "1.viz")):
        (other / name).write_bytes((case / source).read_bytes())
    (folder / "f").write_bytes((case / "frames").read_bytes())
    for given, said in ((["--hit", "8,0"], "at most 7,7"), (["--hit", "3"], "at most 7,7"), (["--run", "x"], "--run stands with --hit"),
                        (["--hit", "0,0", "--names", "a,a"], "--names wants 2 different names")):
        made = frames(*given, *([] if given[0] == "--run" else words), 8, 8, case / "frames", folder)
        yield "%s: %s" % (given, made.stderr), made.returncode == 2 and said in made.stderr
    for given, said in (([], "it has not the message files"), (["--run", folder / "none"], "none: No such file"),
                        (["--run", other], "tools/why says more"), (["--run", CASES / "stale_rectangles"], "4 frames are drawn"),
                        (["--run", case, "--viz", folder / "f"], "no program is there")):
        made = frames("--hit", "0,0", *words, *given, 8, 8, folder / "f", folder)
        yield "%s: %s" % (given, made.stderr), made.returncode == 1 and said in made.stderr
    if test_explain.VIZ:
        yield from hits_told(case, folder)


def hits_told(case, folder):
    """What the program itself says: inside an embedded surface, in its gutter, and on what is transparent."""
    for at, said in (("3,3", ("c2/1.1 at (2, 2)", "c2/2.1 at (2, 2)")), ("6,6", ("c1/1.1 at (6, 6)", "c2/2.1 at (5, 5)")),
                     ("0,0", ("nothing", "nothing"))):
        made = frames("--hit", at, "--viz", test_explain.VIZ, "--strip", 8, 8, case / "frames", folder / "x.png")
        got = [line.rpartition(" hits ")[2] for line in made.stdout.splitlines() if " hits " in line]
        yield "%s: %s %s" % (at, got, made.stderr), got == list(said)


def story(*words):
    return subprocess.run([TOOLS / "story", *map(str, words)], capture_output=True, text=True)


def timelines(folder):
    """A range of a timeline; a late answer; wrong words of `story`."""
    waiting = TOOLS.parent / "examples" / "waiting"
    made = story("--range", "9-14", "--scene", waiting / "scene.toml", "--svg", folder / "t.svg", waiting / "log")
    picture = (folder / "t.svg").read_text(encoding="utf-8")
    yield "a range", made.stdout.count("\n") == 6 and picture.count(">9. ") == 1 and ">8. " not in picture and ">15. " not in picture
    whole = (waiting / "timeline.svg").read_text(encoding="utf-8")
    yield "paler", "had its feedback and is still active" in whole
    (folder / "late.toml").write_text('display = [4, 2]\nschedule = "c1 2*begin c1 c1 begin c1"\n[[client]]\nmessages = ["set-root 1.1", "await", '
                                      '{ submit = "1.1", answers = 1 }, "did-not-produce 3"]\n')
    (folder / "log").write_text("c1 rooted\nbegin ticked 1\nbegin ticked 2\nc1 began 2\nc1 accepted 1 1 +1.1\nbegin ticked 3\nc1 noted\nopen 1.1\nend\n")
    story("--scene", folder / "late.toml", "--svg", folder / "l.svg", folder / "log")
    yield "late", (folder / "l.svg").read_text(encoding="utf-8").count("a newer begin-frame is there") == 1
    for words, said in ((("--svg", folder / "t.png"), "its name ends in .svg"),
                        (("--names", "a,a,a"), "different names"), (("--names", "a,,b"), "different names"), (("--range", "9-3"), "after the last"),
                        (("--range", "1-99"), "is 1 to 20"), (("--names", "a", "--scene", waiting / "scene.toml"), "wants 3 names")):
        made = story(*words, waiting / "log")
        yield "%s: %s" % (words, made.stderr), made.returncode == 2 and said in made.stderr
    (folder / "d.svg").mkdir()
    made = story("--svg", folder / "d.svg", waiting / "log")
    yield "a folder: %s" % made.stderr, made.returncode == 1 and "a folder, not a file" in made.stderr


def full(_folder):
    """A full output is one line, of each tool and sample."""
    for name in ("story", "scene", "test", "man", "../examples/run", "../examples/browser/run"):
        done = subprocess.run("'%s' --help > /dev/full" % (TOOLS / name), shell=True, capture_output=True, text=True)
        yield "%s: %s" % (name, done.stderr), done.returncode == 1 and done.stderr.count("\n") == 1 and "No space" in done.stderr


def small(folder):
    """An outline is whole in a picture that is smaller than the frame, and wide enough to be seen in a larger one."""
    (folder / "small").mkdir()
    (folder / "small" / "log").write_text("draw drawn 0 0 60 30\ndraw drawn 9 8 20 10\nend\n")
    (folder / "small" / "frames").write_bytes(bytes((0, 0, 0, 255)) * (60 * 30 * 2))
    for words, want, corners in ((("--fit", 20), (20, 10), ((3, 2), (9, 5))), (("--shrink", 2), (30, 15), ((4, 4), (14, 8))),
                                 (("--fit", 125), (120, 60), ((18, 16), (57, 35))), (("--scale", 3, "--shrink", 2), (90, 45), ((13, 12), (43, 26)))):
        frames(*words, "--damage", folder / "small" / "log", 60, 30, folder / "small" / "frames", folder / "out")
        w, h, pixels = png.read((folder / "out" / "002.png").read_bytes())
        ink = [(k % w, k // w) for k in range(w * h) if pixels[k * 4:k * 4 + 3] == bytes((255, 0, 255))]
        yield "%s: %s to %s" % (words, min(ink), max(ink)), (w, h) == want and (min(ink), max(ink)) == corners
    for sides, said in ((("30", "60"), "not 30 by 60; W and H are swapped"), (("90", "20"), "not 90 by 20\n")):
        made = frames(*sides, folder / "small" / "frames", folder / "out")
        yield "%s: %s" % (sides, made.stderr), made.returncode == 1 and said in made.stderr
    for words, status, said in ((("--strip", folder / "p.jpg"), 2, "its name ends in .png"), ((folder / "small" / "log",), 1, "a file, not a folder")):
        made = frames(*words[:-1], 60, 30, folder / "small" / "frames", words[-1])
        yield "%s: %s" % (words, made.stderr), made.returncode == status and said in made.stderr


PARTS = (("a full output", full), ("small pictures", small), ("timelines", timelines), ("fitted pictures", fitted), ("animated pictures", animated), ("what is hit", hits),
         ("words of frames", refused))
