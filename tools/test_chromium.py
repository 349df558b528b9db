"""A page in Chromium without a window: what `test --browser` and `bench/browse` ask of it. `kit/chromium/chrome` has the
pipe."""

import base64
import json
import time
from pathlib import Path

from kit.chromium.chrome import NAMES, SECONDS, Chrome, Silent, chromium

__all__ = ("NAMES", "Browser", "Silent", "chromium")
CODES = {"ArrowLeft": 37, "ArrowUp": 38, "ArrowRight": 39, "ArrowDown": 40, "PageUp": 33, "PageDown": 34, "Home": 36,
         "End": 35, "Escape": 27, "Enter": 13}
READY = """new Promise(done => {
  const look = () => document.documentElement.dataset.ready === "yes" ? done(performance.now()) : setTimeout(look, 5);
  look();
})"""


class Browser(Chrome):
    """A browser with one page. `faults` are the errors of the page, its console and its network."""

    def __init__(self, program):
        super().__init__(program)
        self.session, self.faults, self.asked = None, [], []
        target = self.call("Target.createTarget", url="about:blank")["targetId"]
        self.session = self.call("Target.attachToTarget", targetId=target, flatten=True)["sessionId"]
        for domain in ("Page", "Runtime", "Log", "Network"):
            self.call(domain + ".enable")

    def call(self, method, **given):
        return super().call(method, self.session, **given)

    def heard(self, message):
        """Keeps what the browser says is wrong, and which files it asked for."""
        method, given = message.get("method"), message.get("params")
        if method == "Runtime.exceptionThrown":
            self.faults.append(given["exceptionDetails"].get("exception", {}).get("description", "an error"))
        elif method == "Runtime.consoleAPICalled" and given["type"] in ("error", "warning", "assert"):
            self.faults.append(" ".join(str(one.get("value", one.get("description"))) for one in given["args"]))
        elif method == "Log.entryAdded" and given["entry"]["level"] in ("error", "warning"):
            self.faults.append(given["entry"]["text"])
        elif method == "Network.requestWillBeSent" and not given["request"]["url"].startswith("data:"):
            self.asked.append(given["request"]["url"])

    # ---------------------------------------------------------------- the page

    def size(self, w, h):
        """The size of the window; below 600 pixels it is that of a telephone."""
        self.call("Emulation.setDeviceMetricsOverride", width=w, height=h, deviceScaleFactor=1, mobile=w < 600)

    def dark(self, on):
        scheme = {"name": "prefers-color-scheme", "value": "dark" if on else "light"}
        self.call("Emulation.setEmulatedMedia", features=[scheme])

    def open(self, page):
        """Opens a file, waits until its script has shown the run, and says after how many milliseconds that was."""
        self.faults, self.asked = [], []
        self.call("Page.navigate", url=Path(page).resolve().as_uri())
        end = time.monotonic() + SECONDS
        while self.ask("document.readyState") != "complete" and time.monotonic() < end:
            time.sleep(0.01)
        return self.ask(READY)

    def ask(self, expression):
        """The value of an expression of the page's script."""
        got = self.call("Runtime.evaluate", expression=expression, awaitPromise=True, returnByValue=True)
        if "exceptionDetails" in got:
            raise Silent(got["exceptionDetails"].get("exception", {}).get("description", expression))
        return got["result"].get("value")

    def text(self, element):
        return self.ask("document.getElementById(%s).textContent" % json.dumps(element))

    def press(self, *keys):
        for key in keys:
            given = {"key": key, "windowsVirtualKeyCode": CODES.get(key) or ord(key.upper())}
            self.call("Input.dispatchKeyEvent", type="keyDown", **given, **({"text": key} if len(key) == 1 else {}))
            self.call("Input.dispatchKeyEvent", type="keyUp", **given)

    def type(self, text):
        self.call("Input.insertText", text=text)

    def mouse(self, kind, x, y, **given):
        self.call("Input.dispatchMouseEvent", type="mouse" + kind, x=x, y=y, **given)

    def click(self, x, y, count=1):
        self.mouse("Moved", x, y)
        for kind in ("Pressed", "Released"):
            self.mouse(kind, x, y, button="left", clickCount=count)

    def middle(self, expression):
        """The middle of an element on the screen, after it was scrolled there."""
        return self.ask("""(() => { const one = %s; one.scrollIntoView({ block: "nearest", inline: "nearest" });
          const r = one.getBoundingClientRect(); return [r.x + r.width / 2, r.y + r.height / 2]; })()""" % expression)

    def click_on(self, element):
        self.click(*self.middle("document.getElementById(%s)" % json.dumps(element)))

    def picture(self, name, whole=False):
        """Writes the window, or the whole page, as a PNG file."""
        got = self.call("Page.captureScreenshot", format="png", captureBeyondViewport=whole)
        Path(name).write_bytes(base64.b64decode(got["data"]))
