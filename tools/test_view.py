"""Tests of `view`: the machine in Python beside the logs of all samples, and the page beside the machine.
The page's script is run by `node`, without a browser, if there is one (test_page/drive.js)."""

import json
import re
import shutil
import subprocess
from html.parser import HTMLParser
from pathlib import Path

from kit import build, inputs, log, wire
from kit.machine import Differs, replay
from kit.occlusion import Flattener, Item, removed
from kit.shapes import meet, moved
from kit.walk import Drawing, TooMuch, seen

TOOLS = Path(__file__).resolve().parent
CASES = next((TOOLS.parent / "crates").glob("*/data/switch_and_gutter")).parent
EXAMPLES = TOOLS.parent / "examples"
DRIVE = TOOLS / "test_page" / "drive.js"
SHOWN = ("switch_and_gutter", "stale_rectangles", "dishonest_client", "cycle_is_drawn", "ranges_13", "frames_946", "returns_800",
         "waiting_649", "temporary_reference_ends", "begin_frame_delivery", "storm_610", "clip_after_move", "empty_schedule")


def cases():
    """The worked histories: name, size of the display (1 by 1 if nothing is drawn), message files, log."""
    for log_name in sorted(CASES.glob("*/log")):
        files = sorted(log_name.parent.glob("*.viz"), key=lambda name: int(name.stem))
        yield log_name.parent.name, inputs.display({}, log.read(log_name.read_bytes())), files, log_name


def replays(_folder):
    """The machine makes each entry of every stored log, and what is left at its end."""
    for name, size, files, log_name in cases():
        read = log.read(log_name.read_bytes())
        yield name, is_replayed(read, [wire.read(f.read_bytes()) for f in files], size)
    for name in sorted(EXAMPLES.glob("*/scene.toml")):
        scene = build.scene(name)
        read = log.read((name.parent / "log").read_bytes())
        yield name.parent.name, is_replayed(read, [wire.read(f) for f in scene.files], scene.display)


def is_replayed(read, files, size):
    try:
        held, opened = replay(read, files, size).rest()
    except Differs:
        return False
    return (sorted(held), sorted(opened)) == (sorted(read.held), sorted(read.open))


ALL, LEFT = (0, 0, 4, 2), (0, 0, 2, 2)
LISTS = (  # items from back to front, and how many are kept and removed
    ("nothing", [], (0, 0)),
    ("the front covers all", [Item(ALL, True), Item(ALL, True)], (1, 1)),
    ("the front covers a part", [Item(ALL, True), Item(LEFT, True)], (2, 0)),
    ("the front is not opaque", [Item(ALL, True), Item(ALL, False)], (2, 0)),
    ("a group behind", [Item(LEFT, False, [Item(LEFT, True), Item(LEFT, True)]), Item(ALL, True)], (1, 1)),
    ("a group in front", [Item(ALL, True), Item(ALL, False, [Item(ALL, True)])], (3, 0)),
    ("inside a group", [Item(ALL, False, [Item(LEFT, False), Item(ALL, True)])], (2, 1)),
    ("no more than 64", [Item(LEFT, False), Item(ALL, True)] + [Item((3, 0, 1, 1), True)] * 64, (3, 63)),
)
SAMPLES = {"windows": [[6, 54], [12, 48], [13, 48]]}


def occluded(_folder):
    """What is removed of worked lists, and of the drawings of a sample."""
    for name, items, numbers in LISTS:
        yield name, removed(items) == numbers
    for name, numbers in SAMPLES.items():
        scene, found = build.scene(EXAMPLES / name / "scene.toml"), []

        def note(machine, entry):
            if entry.reply == "drawn":
                found.append(list(removed(Flattener(machine.world).display(scene.display))))
        replay(log.read((EXAMPLES / name / "log").read_bytes()), [wire.read(f) for f in scene.files], scene.display, note)
        yield "%s: %s" % (name, found), found == numbers


class Quads(Drawing):
    """A walk that notes each quad with its surface and what is seen of it."""

    def pass_(self, path, s, one, x, y, window):
        part = meet(window, moved(one["output"], x, y))
        self.met += [[s.surface.number, s.client.number, *seen(part, quad, x, y)] for quad in one["quads"]]
        super().pass_(path, s, one, x, y, window)

    def __init__(self, world, size):
        self.met = []
        super().__init__(world, size)


def expected(read, files, size):
    """What the page must say after each entry: quads, reached surfaces, resources, and who is late."""
    states = []

    def note(machine, _entry):
        world = machine.world
        quads = []
        if world.root is not None and world.active_on(world.root):
            try:
                quads = sorted(Quads(world, size).met)
            except TooMuch:
                quads = None
        states.append([
            quads, sorted([s.client.number, s.number] for s in world.reached()),
            [[[number, r.lent, r.queued, r.reclaimed] for number, r in sorted(c.resources.items())] for c in world.clients],
            [[c.delivered or 0, c.answered] for c in world.clients],
            sorted([*s.name] for s in world.waiting)])
    replay(read, files, size, note)
    return states


ASK = """(() => lines.map((_, e) => {
  const state = stateAt(e), why = reasons(state), walked = walk(state);
  const name = place => [run.surfaces[place][S_CLIENT], 1 + run.surfaces.filter((s, k) => k < place && s[0] === run.surfaces[place][0]).length];
  const order = (a, b) => { const k = a.findIndex((v, i) => v !== b[i]); return k < 0 ? 0 : a[k] - b[k]; };
  return [
    walked.list.filter(i => i.kind === "quad").map(i => { const [c, n] = name(i.surface); return [n, c, ...i.rect]; }).sort(order),
    state.alive.filter(p => why.get(p).some(r => !r.startsWith("not marked"))).map(name).sort(order),
    run.names.map((_, k) => [...resourcesAt(k + 1, e)].map(([id, n]) => [id, n[2], n[3], n[4]]).sort(order)),
    run.names.map((_, k) => { const l = lateness(k + 1, e); return [l.pending, l.answered]; }),
    state.waiting.map(s => run.subs[s].slice(0, 2)).sort(order)];
}))()"""
PIXELS = """(() => run.drawn.map((_, n) => {
  tiles.shown = -1;
  tiles.draw(n, new Uint8ClampedArray(run.size[0] * run.size[1] * 4));
  let text = "";
  for (let y = 0; y < run.size[1]; y++) for (let x = 0; x < run.size[0]; x++)
    text += tiles.pixel(x, y).map(v => v.toString(16).padStart(2, "0")).join("");
  return text;
}))()"""
KEYS = ("Home", "ArrowRight", "ArrowRight", "PageDown", "ArrowLeft", "PageUp", "End", "1", "2", "3", "4", "5", "d", "s", "q", "u",
        "+", "+", "-", "0", "z", "x", "f", "t", "t", "?", "Escape", "n", "p", "type:accepted", "n", "p", "type:", "click:frame-on",
        "click:entry-back", "click:time-in", "click:zoom-in", "click:show-quads", "click:theme")


def drive(page, *words):
    """What the page's script answers to these words, or the text of its error."""
    done = subprocess.run(["node", DRIVE, page, "1000", *words], capture_output=True, text=True)
    return done.stdout.splitlines() if done.returncode == 0 else ["error"] + (done.stdout + done.stderr).splitlines()[-3:]


def view(*words):
    return subprocess.run([TOOLS / "view", *map(str, words)], capture_output=True, text=True)


def pages(folder):
    """Pages of worked histories: they are made, and show what the machine has."""
    for name, size, files, log_name in cases():
        if name not in SHOWN:
            continue
        page = folder / (name + ".html")
        made = view(log_name, log_name.parent / "frames", *files, "-o", page)
        yield name + " is made: " + made.stderr.strip(), made.returncode == 0
        if shutil.which("node"):
            yield from shows(name, page, size, files, log_name)


def shows(name, page, size, files, log_name):
    """The page says after each entry what the machine says, has each pixel, and takes every key."""
    answers = drive(page, "ask:" + ASK, "ask:" + PIXELS, *KEYS)
    yield "%s takes all keys: %s" % (name, answers[:4]), len(answers) == 2 + len(KEYS) and answers[0] != "error"
    if answers[0] == "error":
        return
    got, want = json.loads(answers[0]), expected(log.read(log_name.read_bytes()), [wire.read(f.read_bytes()) for f in files], size)
    for place, (a, b) in enumerate(zip(got, json.loads(json.dumps(want)), strict=True), 1):
        for what, one, other in zip(("quads", "reached surfaces", "resources", "begin-frames", "waiting frames"), a, b):
            yield "%s, entry %d, %s: %s, not %s" % (name, place, what, one, other), other is None or one == other
    data = (log_name.parent / "frames").read_bytes().hex()
    yield name + " has all pixels", "".join(json.loads(answers[1])) == data


class Tags(HTMLParser):
    """The elements of a page: which are open, their ids, and what is wrong."""

    def __init__(self, text):
        super().__init__()
        self.opened, self.ids, self.faults, self.names = [], [], [], set()
        self.feed(text)
        self.close()

    def handle_starttag(self, tag, attrs):
        names = [name for name, _ in attrs]
        self.ids += [value for name, value in attrs if name == "id"]
        self.names.update(names)
        if len(set(names)) < len(names):
            self.faults.append("<%s> has an attribute twice" % tag)
        if tag not in ("meta", "link", "input"):
            self.opened.append(tag)

    def handle_endtag(self, tag):
        if not self.opened or self.opened.pop() != tag:
            self.faults.append("</%s> at line %d" % (tag, self.getpos()[0]))


ABROAD = (r"https?:", r"\bsrc\s*=", r"@import", r"\burl\(", r"\bfetch\(", r"XMLHttpRequest", r"WebSocket", r"\bimport\(", r"EventSource", r"sendBeacon")


def alone(folder):
    """The page is well formed, whatever its title and its names are, and refers to nothing outside itself."""
    case, page = CASES / "switch_and_gutter", folder / "page.html"
    made = view("-o", page, "--title", "</title><b>&\"'", "--names", "a</script>,<i>&b", case / "log", case / "frames", case / "1.viz", case / "2.viz")
    yield made.stderr or "made", made.returncode == 0
    text = page.read_text(encoding="utf-8")
    tags = Tags(text)
    yield "well formed: %s %s" % (tags.faults, tags.opened), not tags.faults and not tags.opened
    yield "ids", len(set(tags.ids)) == len(tags.ids)
    yield "ids of the script", set(re.findall(r'\$\("([a-z-]+)"\)', text)) <= set(tags.ids)
    yield "no attribute acts: %s" % tags.names, not any(name.startswith("on") for name in tags.names)
    plain = re.sub(r'<script type="text/plain".*?</script>', "", text, flags=re.DOTALL)
    for word in ABROAD:
        yield "nothing outside: %s" % word, not re.search(word, plain)
    yield "links", re.findall(r'href="[^"]*"', plain) == ['href="data:,"']


GROW = """(() => {
  const size = lines.length, times = Math.ceil(60000 / size), subs = run.subs.slice(), draws = run.draws.slice();
  const shifted = (e, by) => e < 0 ? e : e + by;
  for (let k = 1; k < times; k++) {
    const by = k * size;
    for (let e = 0; e < size; e++) { lines.push(lines[e]); sentences.push(sentences[e]); replies.push(replies[e]); }
    for (const sub of subs) {
      const made = sub.slice();
      for (const column of [AT, ACTIVE, ENDED, FED]) made[column] = shifted(made[column], by);
      if (made[ENDED] < 0) made[ENDED] = by + size - 1;
      run.subs.push(made);
    }
    for (const draw of draws) run.draws.push([draw[0] + by, ...draw.slice(1)]);
  }
  clientOf = new Uint8Array(lines.length);
  lines.forEach((line, e) => { clientOf[e] = line[0] === "c" ? parseInt(line.slice(1), 10) : 0; });
  run.lanes = lanesOf();
  filter.update();
  let calls = 0;
  const counting = new Proxy({}, { get: () => () => { calls++; return { width: 0 }; }, set: () => true });
  timeline.context = counting;
  timeline.whole();
  const found = {}, cpu = () => { const used = process.cpuUsage(); return (used.user + used.system) / 1000; };
  const timed = (name, act) => {
    act();
    calls = 0;
    const start = cpu();
    for (let k = 0; k < 3; k++) act();
    found[name] = [Math.round((cpu() - start) / 3), Math.round(calls / 3)];
  };
  timed("all of the timeline", () => timeline.paint());
  for (const step of [0.1, 1, 4, 30]) timed("columns of " + step, () => { timeline.step = step; timeline.start_ = lines.length / 3; timeline.paint(); });
  TABS.forEach((tab, k) => { showTab(tab); timed("an entry, tab " + tab, () => goTo(Math.floor(lines.length * (0.3 + 0.1 * k)))); });
  timed("a search", () => { filter.text = "accepted"; refilter(); });
  timed("the next that is found", () => goTo(filter.next(1000, 1)));
  return [lines.length, run.subs.length, found];
})()"""


def quick(folder):
    """At 60,000 entries nothing that the page does takes long: milliseconds of a processor, and calls of the canvas."""
    if not shutil.which("node"):
        return
    for name in ("storm_610", "frames_946"):
        case, page = CASES / name, folder / (name + ".html")
        view(case / "log", case / "frames", *sorted(case.glob("*.viz"), key=lambda p: int(p.stem)), "-o", page)
        answers = drive(page, "ask:" + GROW)
        yield "%s: %s" % (name, answers), answers[0] != "error"
        if answers[0] != "error":
            entries, subs, found = json.loads(answers[0])
            yield "%d entries, %d frames" % (entries, subs), entries >= 60000
            for what, (spent, calls) in found.items():
                yield "%s, %s: %d ms, %d calls" % (name, what, spent, calls), spent < 150 and calls < 40000


def refused(folder):
    """Wrong inputs are told in a line."""
    case = CASES / "switch_and_gutter"
    files = [case / "1.viz", case / "2.viz"]
    (folder / "other").write_text((case / "log").read_text(encoding="utf-8").replace("begin", "over ended\nbegin", 1))
    (folder / "less").write_bytes((case / "frames").read_bytes()[4:])
    (folder / "empty").mkdir()
    for words, status, said in (
            ((case / "log", case / "frames", *files), 2, "-o PAGE"), (("-o", "p", case / "log"), 2, "LOG FRAMES FILE"),
            (("-o", folder / "p", case / "log", case / "frames", case / "2.viz", case / "1.viz"), 1, "line 3: the log is not of these files"),
            (("-o", folder / "p", case / "log", case / "frames", case / "1.viz", case / "1.viz"), 1, "is that of an earlier file"),
            (("-o", folder / "p", case / "log", folder / "less", *files), 1, "less: "),
            (("-o", folder / "p", "--buffers", "9", case / "log", case / "frames", *files), 2, "--buffers is 1 to 4"),
            (("-o", folder / "p", "--names", "a,a", case / "log", case / "frames", *files), 2, "2 different names"),
            (("-o", folder / "p", folder / "empty"), 1, "it has not the message files"),
            (("-o", folder / "p", case / "nolog", case / "frames", *files), 1, "No such file"),
            (("-o", folder, case / "log", case / "frames", *files), 1, "a folder, not a file"),
            (("-o", folder / "less" / "p", case / "log", case / "frames", *files), 1, "less: a file, not a folder"),
            (("-o", folder / "other", folder / "other", "-", *files), 1, "it is read too"), (("-o", folder / "p", folder / "none"), 1, "none: no such folder"),
            (("-o", folder / "p", "--size", "8", case / "log", "-", *files), 2, "--size: '8' is no size"),
            (("-o", folder / "p", "--size", "9x8", case / "log", "-", *files), 1, "the first drawn frame has 8 by 8 pixels, not 9 by 8"),
            (("-o", folder / "no" / "p" / "", case / "log", case / "frames", *files), 0, "")):
        done = view(*words)
        yield "%s: %s" % (words, done.stderr), (done.returncode, said in done.stderr) == (status, True) and done.stderr.count("\n") <= 2


PARTS = (("replays", replays), ("occluded items", occluded), ("pages", pages), ("the page alone", alone), ("the page at 60,000 entries", quick), ("words of view", refused))
