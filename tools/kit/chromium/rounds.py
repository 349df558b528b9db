"""Drives a page in Chromium and keeps what is needed to make its frames anew: its trace, and after
each round the picture of the window, what each layer paints, and the memory of the tiles.

A round is a change of the page (a step, or time that passes), the frames that follow, and a
picture. In a controlled recording Chromium makes a frame only when it is asked to, each a tenth of
a second later by its own clock; in a free one it takes its own pace."""

import base64
import time
from typing import NamedTuple

from . import memory, steps, trace
from .chrome import Chrome, Silent, address

OPTIONS = ("--force-device-scale-factor=1", "--disable-lcd-text", "--hide-scrollbars",
           "--force-color-profile=srgb", "--disable-font-subpixel-positioning",
           "--num-raster-threads=1", "--disable-partial-raster", "--default-tile-width=256",
           "--default-tile-height=256", "--max-untiled-layer-width=256",
           "--max-untiled-layer-height=256")
CONTROLLED = ("--run-all-compositor-stages-before-draw", "--enable-begin-frame-control")
FREE = ("--site-per-process", "--enable-features=IsolateSandboxedIframes")
CALM, MOST_FRAMES = 5, 30           # frames without damage that end the loading, and frames at most
TENTH, PAUSE, CALM_PAUSE = 100, 0.15, 0.5
LAST_LAYER = 40                     # so many numbers without a layer are behind the last one
MARK = """performance.mark("viz " + [%d, innerWidth, innerHeight,
  decodeURI(location.pathname).split("/").pop() || location.host].join(" "))"""
CANVASES = "[...document.querySelectorAll('canvas')].map(one => one.toDataURL())"


class Asked(NamedTuple):
    """What is to be recorded: a page, the display, its pace, its steps, rounds in which only time
    passes, and the distance of the points at which the mouse is pressed (0: none)."""
    page: str
    size: tuple
    free: bool = False
    steps: str = ""
    turns: int = 0
    presses: int = 0


class Round(NamedTuple):
    """After a round: why it was, the time of its end (of the trace's clock, in microseconds), the
    picture, what layers paint, by session and layer (canvases are below 0), and memory blocks."""
    why: str
    stop: float
    shot: bytes
    layers: dict
    blocks: list


class Capture(NamedTuple):
    """What was captured. `presses` are points of the display with what was hit: a session, a
    point; `windows`: from when on the page had which size; `readable`: the tiles' memory could be
    read."""
    page: str
    size: tuple
    free: bool
    version: str
    readable: bool
    rounds: list
    events: list
    presses: list
    windows: list


class Page(Chrome):
    """A browser with the page that is recorded. `sessions` are those of the page's processes."""

    def __init__(self, program, asked):
        super().__init__(program, "--window-size=%d,%d" % asked.size, *OPTIONS,
                         *(FREE if asked.free else CONTROLLED))
        self.asked, self.rounds, self.sessions, self.readable = asked, [], [], True
        self.ticks = self.page = None
        self.windows = [(0, *asked.size)]

    def capture(self):
        self.open()
        self.round("load")
        for why in steps.taken(self, self.asked.steps):
            self.listen(PAUSE)
            self.round(why)
        for turn in range(self.asked.turns):
            self.round("time %d" % (turn + 1))
        presses = steps.pressed(self, self.asked.presses) if self.asked.presses else []
        version = self.call("Browser.getVersion")["product"]
        self.events.clear()
        self.call("Tracing.end")
        self.wait("Tracing.tracingComplete")
        told = [event for got in self.events if got.get("method") == "Tracing.dataCollected"
                for event in got["params"]["value"]]
        return Capture(str(self.asked.page), self.asked.size, self.asked.free, version,
                       self.readable, self.rounds, trace.kept(told), presses, self.windows)

    # ---------------------------------------------------------------- the page

    def open(self):
        """Opens an empty window, then the page, and waits until nothing moves any more. The trace
        begins between the two."""
        w, h = self.asked.size
        target = self.call("Target.createTarget", url="about:blank", width=w, height=h,
                           enableBeginFrameControl=not self.asked.free)["targetId"]
        self.page = self.call("Target.attachToTarget", targetId=target, flatten=True)["sessionId"]
        self.call("HeadlessExperimental.enable", self.page)
        self.attach(self.page)
        self.calm()
        self.call("Tracing.start", transferMode="ReportEvents", traceConfig={
            "recordMode": "recordUntilFull", "includedCategories": list(trace.CATEGORIES),
            "traceBufferSizeInKb": 400000})
        self.send("Page.navigate", self.page, url=address(self.asked.page))
        self.loaded()
        self.calm()
        self.news()

    def loaded(self):
        """Waits until the page has all its parts."""
        end = time.monotonic() + 30
        while time.monotonic() < end:
            self.listen(PAUSE / 3)
            if self.ask("location.href != 'about:blank' && document.readyState") == "complete":
                return
        raise Silent("%s does not load in 30 seconds" % self.asked.page)

    def calm(self):
        """Waits until frames have no damage any more."""
        if self.asked.free:
            self.listen(PAUSE * CALM)
            return
        calm, most = 0, 8 if self.asked.turns else MOST_FRAMES
        while calm < CALM and most:
            self.listen(PAUSE)
            calm = 0 if self.frame().get("hasDamage") else calm + 1
            most -= 1

    def attach(self, session):
        self.call("Target.setAutoAttach", session, autoAttach=True, flatten=True,
                  waitForDebuggerOnStart=False)
        self.call("DOM.enable", session)
        self.sessions.append(session)

    def news(self):
        """Takes note of the page's parts that came or went."""
        events, self.events = self.events, []
        for got in events:
            method, given = got.get("method"), got.get("params")
            if method == "Target.attachedToTarget" and given["targetInfo"]["type"] == "iframe":
                if given["sessionId"] not in self.sessions:
                    self.attach(given["sessionId"])
            elif method == "Target.detachedFromTarget" and given["sessionId"] in self.sessions:
                place = self.sessions.index(given["sessionId"])
                self.sessions[place] = None     # so that each keeps its number
        if self.events:
            self.news()

    def ask(self, expression, session=None):
        """The value of an expression of the page's script, or None."""
        try:
            got = self.call("Runtime.evaluate", session or self.page, expression=expression,
                            returnByValue=True)
        except Silent:
            return None
        return got["result"].get("value")

    def alive(self):
        """The sessions with their numbers."""
        return [(number, one) for number, one in enumerate(self.sessions, 1) if one]

    # ---------------------------------------------------------------- rounds

    def frame(self, **given):
        """Lets Chromium make a frame."""
        self.ticks = self.ticks + TENTH if self.ticks else int(time.monotonic() * 1000)
        return self.call("HeadlessExperimental.beginFrame", self.page,
                         frameTimeTicks=self.ticks, interval=TENTH, **given)

    def round(self, why):
        self.news()
        if self.asked.free:
            self.listen(CALM_PAUSE)
            shot = self.call("Page.captureScreenshot", self.page, format="png")["data"]
        else:
            self.frame()
            shot = self.frame(screenshot={"format": "png"}).get("screenshotData", "")
        stop = time.monotonic() * 1e6
        self.news()
        for number, session in self.alive():
            self.ask(MARK % number, session)
        blocks, readable = memory.blocks(self.process.pid)
        self.readable &= readable
        self.rounds.append(Round(why, stop, base64.b64decode(shot), self.layers(), blocks))

    def layers(self):
        """What each layer and each canvas paints, as PNG pictures, by session and number."""
        found = {}
        for number, session in self.alive():
            try:
                self.call("LayerTree.enable", session)
            except Silent:
                continue
            for place, url in enumerate(self.ask(CANVASES, session) or [], 1):
                if url.startswith("data:image/png"):
                    found[number, -place] = base64.b64decode(url.partition(",")[2])
            found.update(((number, layer), data) for layer, data in self.painted(session))
        return found

    def painted(self, session):
        layer, missed = 0, 0
        while missed < LAST_LAYER:
            layer += 1
            try:
                snapshot = self.call("LayerTree.makeSnapshot", session, layerId=str(layer))
                made = self.call("LayerTree.replaySnapshot", session, **snapshot)
                self.call("LayerTree.releaseSnapshot", session, **snapshot)
            except Silent as silent:
                missed += "No layer" in str(silent)
                continue
            missed = 0
            yield layer, base64.b64decode(made["dataURL"].partition(",")[2])
