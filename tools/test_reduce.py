"""Tests of `reduce`: a scene of 60 messages becomes one of a few, for commands that look for some messages, and for a
machine that is wrong."""

import random
import sys

from kit import build, wire
from kit.machine import Machine
from kit.reduce import Reduction, Scene
from kit.words import STEPS
from test_explain import says, tool
from test_view import EXAMPLES, TOOLS

MESSAGES = 20


def quad(chance):
    materials = ['solid = "%s"' % chance.choice(("red", "green", "blue")), "tile = 1", 'surface = "%s/1.1"' % chance.choice("qr")]
    return "{ %s, area = [%d, %d], offset = [%d, 0] }" % (
        chance.choice(materials), chance.randint(1, 4), chance.randint(1, 4), chance.randint(0, 9))


def message(chance, name):
    more = [', deadline = 2, dependencies = ["%s/%d.1"]' % (chance.choice("pqr"), chance.randint(1, 3)), ", deadline = 2", ""]
    frame = '{ submit = "1.1"%s, quads = [%s] }' % (chance.choice(more), ", ".join(quad(chance) for _ in range(3)))
    return chance.choice([frame, frame, frame, '"await"', '"reclaim"', '"upload 1 4x4 grey"', '"did-not-produce 1"'])


def text(seed=1):
    """A scene of 60 messages of three clients, in which 'close' and a blue upload stand once each."""
    chance = random.Random(seed)
    parts = ["display = [16, 8]\n", 'schedule = "%s"\n' % " ".join(
        ["p", "q", "r"] * 3 + [chance.choice(("p", "q", "r", "p", "q", "r", "begin", "draw", "done")) for _ in range(120)])]
    for name in "pqr":
        listed = ['"upload 1 4x4 red"'] + [message(chance, name) for _ in range(MESSAGES - 1)]
        if name == "p":
            listed[1] = '{ submit = "1.1", quads = [{ surface = "q/1.1" }, { surface = "r/1.1" }] }'
            listed[2] = '"set-root 1.1"'
        if name == "q":
            listed[9] = '"upload 2 9x7 blue"'
        if name == "r":
            listed[-1] = '"close"'
        parts.append('[[client]]\nname = "%s"\nmessages = [\n  %s,\n]\n' % (name, ",\n  ".join(listed)))
    return "\n".join(parts)


def counted(name):
    """The messages of a scene's text."""
    return [m for data in build.scene(name).files for m in wire.read(data)["messages"]]


def by_command(folder):
    """A command that greps: two messages are left, and sizes are the least; what is left is a scene that is built again."""
    (folder / "bad.toml").write_text(text(), encoding="utf-8")
    yield "60 messages", len(counted(folder / "bad.toml")) == 3 * MESSAGES
    out = folder / "small"
    command = "grep -q close $SCENE/scene.toml && grep -q 'upload 2 .*blue' $SCENE/scene.toml && test -s $SCENE/c1.viz"
    said, good = says("reduce", ["--out", out, folder / "bad.toml", command], 0, "given: 129 events", "round 1: ", "scene.toml")
    yield said, good
    left = counted(out)
    yield "left: %s" % left, sorted(m["kind"] for m in left) == ["close", "upload"]
    yield "its size", [m["size"] for m in left if m["kind"] == "upload"] == [(1, 1)]
    scene = build.scene(out)
    yield "its files", scene.files == [(out / ("c%d.viz" % k)).read_bytes() for k in range(1, len(scene.files) + 1)]
    yield "its schedule", scene.schedule == (out / "schedule").read_bytes() and len(scene.schedule) == 1
    yield "its display", scene.display == (1, 1)
    yield says("reduce", ["--out", folder / "again", "--size", "1x1", out, "test -f $SCENE/c2.viz"], 0, "1 events")


class Early(Machine):
    """A machine that takes a message for a deadline of one begin-frame less."""

    def submit_message(self, client, message):
        earlier = message["deadline"] and {**message, "deadline": message["deadline"] - 1}
        return super().submit_message(client, earlier or message)


class Unheld(Machine):
    """A machine that does not return what a dropped frame held."""

    def returns(self, presented):
        dropped = {s.client.number for s in self.ended if s.state == "dropped"}
        return [effect for effect in super().returns(presented) if effect[1] not in dropped]


def entries(machine, events):
    return [machine.step(STEPS[code]) if code in STEPS else machine.step("c", code) for code in events]


def made_of(seed):
    made = build.Scene(text(seed), TOOLS)
    return Scene(made.display, made.schedule, [wire.read(data) for data in made.files])


def by_machine(folder):
    """Wrong machines, each with some scene that shows it: less than 8 messages are left, and they still show it."""
    for kind in (Early, Unheld):
        def differ(scene, kind=kind):
            return entries(kind(scene.files, scene.display), scene.events) != entries(Machine(scene.files, scene.display), scene.events)
        scene = next((one for one in map(made_of, range(1, 40)) if differ(one)), made_of(1))
        yield "%s is shown" % kind.__name__, differ(scene)
        reduction = Reduction(scene, differ)
        lines = list(reduction.rounds())
        left = sum(len(file["messages"]) for file in reduction.scene.files)
        yield "%s: %s" % (kind.__name__, lines[-1]), left < 8 and differ(reduction.scene)
        again = build.Scene(reduction.scene.text(), folder)
        yield "%s, as a text" % kind.__name__, (tuple(again.files), again.schedule) == reduction.scene.bytes()[2:0:-1]


def by_why(folder):
    """A log with a wrong answer, made by a program that is wrong: a command with $STEP and $CHECK."""
    wrong = folder / "wrong"
    wrong.write_text(WRONG_PROGRAM % (sys.executable, str(TOOLS), str(TOOLS)), encoding="utf-8")
    wrong.chmod(0o755)
    seed = next(k for k in range(1, 40) if entries(Early(made_of(k).files, (16, 8)), made_of(k).events) != entries(
        Machine(made_of(k).files, (16, 8)), made_of(k).events))
    (folder / "bad.toml").write_text(text(seed), encoding="utf-8")
    words = ["--seconds", 60, "--out", folder / "small", folder / "bad.toml", "%s $STEP && ! %s/why $CHECK" % (wrong, TOOLS)]
    yield says("reduce", words, 0, "given: ")
    yield "fewer", len(counted(folder / "small")) < 8


WRONG_PROGRAM = '''#!%s -B
import sys
sys.path[:0] = ["%s"]
from pathlib import Path
from kit import inputs, log
from kit.painter import Painter
from test_reduce import Early
from kit.words import STEPS
w, h, schedule, frames, logged, *files = sys.argv[1:]
machine = Early(inputs.clients(files), (int(w), int(h)))
made = []
with open(frames, "wb") as out:
    for code in Path(schedule).read_bytes():
        made.append(machine.step(STEPS[code]) if code in STEPS else machine.step("c", code))
        if made[-1].reply == "drawn":
            out.write(Painter(machine.world).picture((int(w), int(h))).bytes())
held, opened = machine.rest()
lines = [log.text(e) for e in made] + [log.rest_text("held", e) for e in held] + [log.rest_text("open", e) for e in opened]
Path(logged).write_text("".join(line + "\\n" for line in lines) + "end\\n")
# %s
'''


def wrong_words(folder):
    yield "--help", tool("reduce", "--help").stdout.count("\n") > 10
    scene = EXAMPLES / "one_quad"
    yield says("reduce", [scene], 2, "SCENE and a COMMAND")
    yield says("reduce", ["--out", folder / "o", scene, "false"], 1, "nothing to reduce")
    yield says("reduce", ["--out", folder / "o", folder / "none.toml", "true"], 1, "No such file")
    yield says("reduce", ["--out", folder / "o", folder, "true"], 2, "--size")
    yield says("reduce", ["--out", scene, scene, "true"], 2, "the scene itself is there")
    yield says("reduce", ["--out", folder / "o", "--limit", 1, scene, "sleep 5"], 1, "nothing to reduce")


PARTS = (("reduce by a command", by_command), ("reduce by a machine", by_machine), ("reduce by a program", by_why),
         ("reduce's words", wrong_words))
