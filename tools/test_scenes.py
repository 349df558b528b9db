"""Tests of what a scene repeats and counts, and of what `scene build` leaves in a folder."""

import re
import subprocess
from pathlib import Path

from kit import build, wire
from kit.machine import Machine
from kit.words import STEPS
from kit.wrong import Wrong
from test_cases import HEAD

TOOLS = Path(__file__).resolve().parent


def messages(text, folder, client=0):
    return wire.read(build.Scene(text, folder).files[client])["messages"]


def refused(text, folder):
    try:
        build.Scene(text, folder)
    except Wrong as wrong:
        return str(wrong)
    return "nothing"


def repeats(folder):
    """A repeated message is the same as its copies written out."""
    one = HEAD + """messages = [
  { repeat = 3, messages = ["await", { submit = "{(i+1)/2}.1", answers = "latest", damage = ["i", 0, 1, "(i+1)%2+1"] }] },
  { repeat = 2, submit = "2.{i}", token = "7*i-1", quads = [{ solid = "#f00", area = [4, "i"] }] },
]
"""
    two = HEAD + """messages = [
  "await", { submit = "1.1", answers = 1, damage = [1, 0, 1, 1] }, "await", { submit = "1.1", answers = 2, damage = [2, 0, 1, 2] },
  "await", { submit = "2.1", answers = 3, damage = [3, 0, 1, 1] },
  { submit = "2.1", token = 6, quads = [{ solid = "#ff0000", area = [4, 1] }] },
  { submit = "2.2", token = 13, quads = [{ solid = "red", area = [4, 2] }] },
]
"""
    yield "repeat", messages(one, folder) == messages(two, folder)
    for item, said in (('{ repeat = 0, submit = "1.1" }', "message 1, repeat: 0: not 1 to 4096"),
                       ('{ repeat = 2, submit = "1.1", token = "i+" }', "message 1, i = 1: 'i+' is no number"),
                       ('{ repeat = 2, submit = "1.1", token = "4/(i-1)" }', "'4/(i-1)' divides by 0"),
                       ('{ repeat = 2, messages = ["await", "sit"] }', "message 1, i = 1, message 2: 'sit' is no message"),
                       ('{ repeat = 2, submit = "1.{x}" }', "'x' is no number"),
                       ('{ repeat = 9, submit = "1.1", deadline = "i*8" }', "message 1, i = 9, deadline: 72: a deadline"),
                       ('{ repeat = 2, messages = ["await"], token = 3 }', "key 'token' is not known here"),
                       ('{ submit = "1.1", quads = [{ tile = 3 }] }', "no upload of resource 3 before it gives the tile its size"),
                       ('{ submit = "1.1", quads = [{ solid = "#ff000080" }] }', "#ff0000 at alpha 128 is red/128")):
        got = refused(HEAD + "messages = [%s]" % item, folder)
        yield "%r: %s" % (said, got), said in got


def schedules(folder):
    """A + takes messages until the client would wait."""
    clients = """[[client]]
name = "one"
messages = ["hierarchy one two", "await", "did-not-produce 1", "await"]

[[client]]
name = "two"
messages = ["await", "reclaim", "await", "reclaim"]
"""
    for text, want in (("one+ two+ draw", "01 12"), ("one+ begin one+ two+ begin two+ one+", "01 11 01 01 02 02 11 02 02 01"),
                       ("2*(one+ begin)", "01 11 01 01 11"), ("over one+ two+", "14 01 01 01 01 02 02 02 02"), ("c2+ over c2+", "14 02 02 02 02")):
        scene = build.Scene('display = [4, 2]\nschedule = "%s"\n%s' % (text, clients), folder)
        yield "%s: %s" % (text, scene.schedule.hex(" ")), scene.schedule.hex(" ") == want
    yield "an event with +", "word 1, 'draw+', is no event" in refused('schedule = "draw+"\n' + clients, folder)


def folders(folder):
    """A build removes the files of another scene; a path with a blank is quoted; without a schedule the words are those of run."""
    text, out = folder / "a.toml", folder / "o o"
    text.write_text('display = [4, 2]\nschedule = "c1"\n' + '[[client]]\nmessages = ["await"]\n' * 3)
    first = subprocess.run([TOOLS / "scene", "build", text, out], capture_output=True, text=True)
    yield "quoted", first.stdout.startswith("step 4 2 '") and "has a blank" in first.stderr
    (out / "log").write_text("kept")
    text.write_text('display = [4, 2]\n' + '[[client]]\nmessages = ["await"]\n')
    second = subprocess.run([TOOLS / "scene", "build", text, out], capture_output=True, text=True)
    yield "words of run: " + second.stdout, second.stdout.startswith("run --paced 4 2 60 '")
    yield "removed", sorted(p.name for p in out.iterdir()) == ["c1.viz", "log"]


def documented(folder):
    """The whole scenes of docs/SCENES.md build, and the machine takes all that they schedule."""
    text = (TOOLS.parent / "docs" / "SCENES.md").read_text(encoding="utf-8")
    scenes = re.findall(r"```toml\n(.*?)```", text, re.DOTALL)
    yield "three scenes", len(scenes) == 3
    for place, source in enumerate(scenes, 1):
        scene = build.Scene(source, folder)
        machine = Machine([wire.read(data) for data in scene.files], scene.display)
        made = [machine.step(STEPS[code]) if code in STEPS else machine.step("c", code) for code in scene.schedule]
        yield "scene %d: nothing is refused" % place, not any(entry.reply == "refused" for entry in made)
        yield "scene %d: all is taken" % place, all(c.taken == len(c.messages) for c in machine.world.clients)
        yield "scene %d draws" % place, any(entry.reply == "drawn" for entry in made)


PARTS = (("scenes of docs/SCENES.md", documented), ("repeats", repeats), ("schedules that wait", schedules), ("folders", folders))
