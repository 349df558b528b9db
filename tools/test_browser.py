"""Drives pages of `tools/view` in Chromium without a window, with its own keys and mouse, and compares what they show
with what the record says: `test --browser FOLDER`, which leaves pictures in the folder."""

import json
import shutil
from pathlib import Path

from kit import log, wire
from kit.record import Recorder
from test_browser_record import record
from test_chromium import Browser, chromium
from test_view import KEYS, cases, drive, view

SIZES = ((1440, 900), (1024, 768), (390, 844))
SHOWN = ("ranges_13", "frames_946", "returns_800")      # names of 45 letters, groups in groups, a hundred resources
SEARCH = "$('search').value = %s; $('search').dispatchEvent(new Event('input'))"
BOX = "(() => { const r = $('%s').getBoundingClientRect(); return [r.x, r.y, r.width, r.height]; })()"
STOPPED = """new Promise(done => {
  const look = () => playing === null ? done() : setTimeout(look, 20);
  look();
})"""
KINDS = {  # the replies that each kind of the filter leaves
    "frames": ["accepted"], "uploads": ["stored"], "refused": ["refused"], "returns": ["reclaimed"],
    "begin-frames": ["ticked", "began", "noted", "ended", "over"], "others": ["rooted", "joined", "left"],
    "draws": ["drawn", "unchanged", "noroot", "toomuch", "busy", "shown", "nothing"],
}
TABS = ("repaint", "surfaces", "quads", "clients", "events")
FOLDER = None
JUDGE = Path(__file__).resolve().parent / "test_page" / "judge.js"

# what the tabs say, as `test_browser_record` has it
READ = """(() => {
  const all = words => [...document.querySelectorAll(words)], text = id => $(id).textContent;
  const rows = id => all("#" + id + " tr").map(row => [...row.cells]);
  const name = cell => cell.querySelector(".name")?.textContent || "";
  const claims = rows("repaint").map(cells => cells.map(cell => cell.textContent)), seen = rows("surfaces");
  const end = claims.findIndex(cells => cells[1] === "together");
  const other = seen.findIndex(cells => cells[0].textContent === "surface");
  return { entry: $("entry").value, frame: text("frameof"), line: text("line"), said: text("sentence"),
    claims: claims.slice(1, Math.max(0, end)),
    tree: seen.slice(1, Math.max(0, other)).map(cells => [cells[0].textContent, name(cells[1])]),
    alive: seen.slice(other + 1).map(cells => [name(cells[0]), cells[1].textContent]),
    quads: rows("quads").filter(cells => /quad \\d+$/.test(cells[0].textContent)).length,
    held: all("#clients h3").map(one => one.textContent).slice(1) };
})()"""


def page_of(folder, name):
    """The page of a worked history: its file, the size of its display, its message files and its log."""
    _, size, files, log_name = next(case for case in cases() if case[0] == name)
    page = folder / (name + ".html")
    made = view(log_name, log_name.parent / "frames", *files, "-o", page)
    assert made.returncode == 0, made.stderr
    return page, size, files, log_name


def sizes(folder):
    """Pages of worked histories at three sizes, light and dark: no error, nothing is asked of a network, and in no tab
    something overlaps, is cut off or is hard to read."""
    FOLDER.mkdir(parents=True, exist_ok=True)
    with Browser(chromium()) as browser:
        for name in SHOWN:
            page = page_of(folder, name)[0]
            for size in SIZES:
                browser.size(*size)
                browser.dark(size[0] == 1024)
                yield from laid_out(browser, page, size)


def laid_out(browser, page, size):
    browser.open(page)
    browser.press("PageDown", "PageDown", "q")
    for key, tab in enumerate(TABS, 1):
        browser.press(str(key))
        picture = FOLDER / ("%s-%d-%s.png" % (page.stem, size[0], tab))
        browser.picture(picture, whole=size[0] < 600)
        found = browser.ask(JUDGE.read_text(encoding="utf-8"))
        for what, places in found.items():
            yield "%s at %d, %s, %s: %s" % (page.stem, size[0], tab, what, places), not places
        yield "%s: %d wide" % (picture, size[0]), int.from_bytes(picture.read_bytes()[16:20]) == size[0]
    yield "%s: %s" % (page.stem, browser.faults), not browser.faults
    yield "asked for %s" % browser.asked, browser.asked == [page.resolve().as_uri()]


def keys(folder):
    """Real keys and clicks do what they do in `node`."""
    if not shutil.which("node"):
        return
    page = page_of(folder, SHOWN[0])[0]
    with Browser(chromium()) as browser:
        browser.size(*SIZES[0])
        browser.open(page)
        for word, answer in zip(KEYS, drive(page, *KEYS), strict=True):
            kind, _, value = word.partition(":")
            if kind == "click":
                browser.click_on(value)
            elif kind == "type":
                browser.ask(SEARCH % json.dumps(value))
            else:
                browser.press(word)
            got = browser.ask("[now.entry + 1, now.frame + 1, now.tab].join(' ')")
            yield "%s: %s, not %s" % (word, got, answer), got == answer
        yield "no error: %s" % browser.faults, not browser.faults


def entries(folder):
    """After each entry, reached by the arrow key, each tab says what the record says."""
    with Browser(chromium()) as browser:
        browser.size(*SIZES[0])
        for name in ("switch_and_gutter", SHOWN[0]):
            page, size, files, log_name = page_of(folder, name)
            browser.open(page)
            yield from stepped(browser, record(log_name, files, size))
            yield "no error: %s" % browser.faults, not browser.faults


def stepped(browser, wanted):
    browser.press("Home")
    for place, want in enumerate(wanted):
        if place:
            browser.press("ArrowRight")
        browser.press("1", "2", "3", "4")
        got = browser.ask(READ)
        for what, value in want.items():
            yield "entry %d, %s: %s, not %s" % (place + 1, what, got[what], value), got[what] == value
    browser.press("ArrowRight")
    yield "the last entry", browser.ask("now.entry") == len(wanted) - 1


def chips(browser, count):
    """Each button of the filter pressed twice leaves it alone: how many entries pass then, by its text."""
    found = {}
    for place in range(count):
        at = browser.middle("document.querySelectorAll('.chip')[%d]" % place)
        browser.click(*at)
        browser.click(*at, count=2)
        name = browser.ask("document.querySelectorAll('.chip')[%d].textContent" % place)
        found[name] = int(browser.text("count").split(" of ")[0].replace(",", ""))
        browser.click_on("filter-all")
    return found


def filters(folder):
    """The filters by client, by event and by text leave what the log has; n and p step among that."""
    page, _, files, log_name = page_of(folder, SHOWN[1])
    made = log.read(log_name.read_bytes()).entries
    want = {"display": sum(not one.client for one in made),
            **{"c%d" % k: sum(one.client == k for one in made) for k in range(1, len(files) + 1)},
            **{kind: sum(one.reply in of for one in made) for kind, of in KINDS.items()}}
    with Browser(chromium()) as browser:
        browser.size(*SIZES[1])
        browser.open(page)
        browser.press("5")
        got = chips(browser, len(want))
        yield "%s, not %s" % (got, want), got == want
        browser.press("Home", "/")
        browser.type("refused")
        places = [place + 1 for place, one in enumerate(made) if one.reply == "refused"]
        yield "search", browser.text("count") == "%d of %d entries" % (len(places), len(made))
        browser.press("Escape")
        for place in places[:3]:
            browser.press("n")
            yield "n to %d" % place, browser.ask("$('entry').value") == str(place)
        browser.press("p")
        yield "p", browser.ask("$('entry').value") == str(places[1])
        first = browser.ask("document.querySelector('#rows .entry').textContent")
        yield "the first row: %s" % first, first.startswith(str(places[0]))
        yield "no error: %s" % browser.faults, not browser.faults


def sliding(browser, drawn):
    """The slider by the mouse, the number of an entry, and a link to one."""
    x, y, w, h = browser.ask(BOX % "frame")
    for part, least, most in ((0.99, drawn, drawn), (0.01, 1, 1), (0.5, drawn // 2, drawn // 2 + 1)):
        browser.click(x + part * w, y + h / 2)
        text = browser.text("frameof")
        shown, _, of = text.partition(" of ")
        yield "the slider at %.2f: %s" % (part, text), least <= int(shown) <= most and of == str(drawn)
    browser.press("g")
    browser.type("7")
    browser.press("Enter")
    yield "entry 7", browser.ask("now.entry") == 6
    browser.ask("location.hash = '#9'; new Promise(done => setTimeout(done, 50))")
    yield "a link to entry 9", browser.ask("now.entry") == 8
    browser.press("Home", " ")
    browser.ask(STOPPED)
    yield "frame after frame", browser.ask("now.frame") == drawn - 1


def toggles(folder):
    """The slider shows its frame; each button puts its rectangles on the frame and takes them off; each pixel under the
    cursor is read as it was drawn."""
    page, size, files, log_name = page_of(folder, SHOWN[1])
    read = [wire.read(f.read_bytes()) for f in files]
    made = Recorder(log.read(log_name.read_bytes()), read, ["a", "b"], size, 2).run()
    drawn = [draw for draw in made["draws"] if draw[1] == "drawn"]
    pixels = (log_name.parent / "frames").read_bytes()
    with Browser(chromium()) as browser:
        browser.size(*SIZES[0])
        browser.open(page)
        yield from sliding(browser, len(drawn))
        browser.press("PageUp", "PageUp")
        frame = browser.ask("now.frame")
        for button, rect in (("damage", drawn[frame][2]), ("stale", made["stale"][frame])):
            yield from outlined(browser, button, rect)
        for button in ("quads", "surfaces"):
            before = browser.ask("$('picture').toDataURL()")
            browser.click_on("show-" + button)
            yield button, browser.ask("$('picture').toDataURL()") != before
            browser.click_on("show-" + button)
            yield "no " + button, browser.ask("$('picture').toDataURL()") == before
        yield from read_back(browser, size, pixels[frame * size[0] * size[1] * 4:])
        yield "no error: %s" % browser.faults, not browser.faults


def outlined(browser, button, rect):
    """A button shows a rectangle in its colour, and hides it."""
    if browser.ask("toggled.damage"):
        browser.click_on("show-damage")
    ask = """(() => {
      const x = Math.round(view.x + %d * view.zoom) + 1, y = Math.round(view.y + %d * view.zoom) + 1;
      const dot = new OffscreenCanvas(1, 1).getContext("2d", { willReadFrequently: true });
      dot.drawImage($("picture"), -x, -y);
      const [r, g, b] = dot.getImageData(0, 0, 1, 1).data;
      return "#" + [r, g, b].map(v => v.toString(16).padStart(2, "0")).join("") === colour("--%s");
    })()""" % (*rect[:2], button)
    yield button + " is off", not browser.ask(ask)
    browser.click_on("show-" + button)
    yield button + " is on", browser.ask(ask)
    browser.click_on("show-" + button)


def read_back(browser, size, pixels):
    """The text under the frame for each pixel under the cursor."""
    left, top = browser.ask(BOX % "picture")[:2]
    at, down, zoom = browser.ask("[view.x, view.y, view.zoom]")
    for y in range(size[1]):
        for x in range(size[0]):
            browser.mouse("Moved", left + at + (x + 0.5) * zoom, top + down + (y + 0.5) * zoom)
            text, want = browser.text("pixel"), " ".join(map(str, pixels[(y * size[0] + x) * 4:][:4]))
            yield "(%d, %d): %s" % (x, y, text), text.startswith("(%d, %d)#" % (x, y)) and want in text


TITLES = (("the page at three sizes", sizes), ("keys in a browser", keys), ("the page beside the record", entries),
          ("filters in a browser", filters), ("toggles and pixels in a browser", toggles))


def only_asked(part):
    """A part that does nothing without --browser."""
    return lambda folder: part(folder) if FOLDER else iter(())


PARTS = tuple((title, only_asked(part)) for title, part in TITLES)
