"""What is done to a page while it is recorded: its steps, each a function of the page's script or a
line for the browser, and presses of the mouse."""

import time

from .chrome import Silent, address

LISTED = "typeof %s == 'undefined' ? [] : %s.map(one => typeof one == 'string' ? one : '')"
LISTENS = """window.vizHit = null;
addEventListener("mousedown", event => { vizHit = [event.clientX, event.clientY]; }, true)"""
HIT = "(() => { const hit = window.vizHit; window.vizHit = null; return hit; })()"


def taken(page, given):
    """Takes the steps that are given, or those of the page's own list `steps`; the name of each."""
    name = "window.vizSteps" if given else "steps"
    if given:
        page.ask("window.vizSteps = " + given)
    for place, line in enumerate(page.ask(LISTED % (name, name)) or []):
        if line:
            told(page, line.split())
            yield "step %d: %s" % (place + 1, line)
        else:
            page.ask("%s[%d]()" % (name, place))
            yield "step %d" % (place + 1)


def told(page, words):
    """A line for the browser."""
    word, given = words[0], words[1:]
    known = {"resize": resize, "navigate": navigate, "crash": crash, "press": press,
             "wheel": wheel, "key": key, "wait": wait, "window": window}
    if word not in known:
        raise Silent("%s is no step: a function, or %s" % (word, ", ".join(known)))
    known[word](page, *given)


def resize(page, size):
    w, h = map(int, size.split("x"))
    page.windows.append((time.monotonic() * 1e6, w, h))
    page.call("Emulation.setDeviceMetricsOverride", page.page, width=w, height=h, mobile=False,
              deviceScaleFactor=1)


def navigate(page, where):
    base = address(page.asked.page).rpartition("/")[0]
    page.call("Page.navigate", page.page, url=where if "://" in where else base + "/" + where)


def crash(page, name):
    """Ends the process of the part of the page whose address ends in a name."""
    page.news()
    for _, session in page.alive():
        if str(page.ask("location.pathname", session)).endswith(name):
            page.send("Page.crash", session)
            return
    raise Silent("no part of the page is %s" % name)


def window(page, state):
    """`minimized` hides the window, `normal` shows it."""
    found = page.call("Browser.getWindowForTarget", page.page)
    page.call("Browser.setWindowBounds", page.page, windowId=found["windowId"],
              bounds={"windowState": state})


def mouse(page, kind, x, y, **given):
    page.call("Input.dispatchMouseEvent", page.page, type="mouse" + kind, x=int(x), y=int(y),
              **given)


def press(page, x, y):
    for kind in ("Pressed", "Released"):
        page.send("Input.dispatchMouseEvent", page.page, type="mouse" + kind, x=int(x), y=int(y),
                  button="left", clickCount=1)


def wheel(page, x, y, across, down):
    page.send("Input.dispatchMouseEvent", page.page, type="mouseWheel", x=int(x), y=int(y),
              deltaX=int(across), deltaY=int(down))


def key(page, name):
    for kind in ("keyDown", "keyUp"):
        page.send("Input.dispatchKeyEvent", page.page, type=kind, key=name)


def wait(page, milliseconds):
    page.listen(int(milliseconds) / 1000)


def pressed(page, distance):
    """Presses the mouse at points of a grid; for each that a listener reports: the point of the
    display, the number of the session, and the point in its window."""
    found, (w, h) = [], page.asked.size
    for _, session in page.alive():
        page.ask(LISTENS, session)
    for y in range(3, h, distance):
        for x in range(3, w, distance):
            for kind in ("Pressed", "Released"):
                mouse(page, kind, x, y, button="left", clickCount=1)
            for number, session in page.alive():
                hit = page.ask(HIT, session)
                if hit:
                    found.append((x, y, number, *map(int, hit)))
    return found
