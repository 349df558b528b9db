"""Chromium without a window, spoken to over its debugging pipe (the protocol of its developer
tools): JSON texts, each with a zero byte after it, to the browser's descriptor 3 and from its
descriptor 4. It needs no port and no library."""

import json
import os
import select
import shutil
import subprocess
import tempfile
import time
from pathlib import Path

NAMES = ("chromium", "chromium-browser", "google-chrome", "google-chrome-stable", "chrome",
         "chromium-headless-shell")
SHELL = "chromium-headless-shell"               # the package, its program, and where Debian has it
PLACES = ("/usr/lib/chromium/" + SHELL, SHELL)
OPTIONS = ("--headless", "--no-sandbox", "--disable-gpu", "--no-first-run", "--disable-extensions",
           "--remote-debugging-pipe")
PIPED = 'exec "$0" "$@" 3<&%d 4>&%d'         # of bash: others take no numbers above 9
SECONDS = 120


class Silent(Exception):
    """The browser does not answer, or not what is wanted."""


def chromium():
    """A browser in PATH that shows a page."""
    return next((found for found in map(shutil.which, NAMES) if found), None)


def shell():
    """The browser that makes frames on request, or None."""
    return next((found for found in map(shutil.which, PLACES) if found), None)


class Chrome:
    """A browser. What it says by itself goes to `heard`, which keeps it in `events`."""

    def __init__(self, program, *more):
        self.profile = tempfile.TemporaryDirectory(ignore_cleanup_errors=True)
        theirs, self.to = os.pipe()
        self.of, mine = os.pipe()
        words = [program, *OPTIONS, *more, "--user-data-dir=" + self.profile.name, "about:blank"]
        self.process = subprocess.Popen(["bash", "-c", PIPED % (theirs, mine), *words],
                                        pass_fds=(theirs, mine), stderr=subprocess.DEVNULL,
                                        stdout=subprocess.DEVNULL)
        os.close(theirs)
        os.close(mine)
        self.sent, self.rest, self.events = 0, b"", []

    def __enter__(self):
        return self

    def __exit__(self, *_):
        try:
            self.send("Browser.close")
        except OSError:
            pass                        # it has ended already
        os.close(self.to)
        try:
            self.process.wait(10)
        except subprocess.TimeoutExpired:
            self.process.kill()
            self.process.wait()
        os.close(self.of)
        self.profile.cleanup()

    def send(self, method, session=None, **given):
        """Asks for something; the number by which the answer will come."""
        self.sent += 1
        text = {"id": self.sent, "method": method, "params": given}
        if session:
            text["sessionId"] = session
        os.write(self.to, json.dumps(text).encode() + b"\0")
        return self.sent

    def call(self, method, session=None, **given):
        """Calls a method of the protocol; its result."""
        number, end = self.send(method, session, **given), time.monotonic() + SECONDS
        while True:
            got = self.message(end)
            if got.get("id") == number:
                if "error" in got:
                    raise Silent("%s: %s" % (method, got["error"].get("message")))
                return got["result"]
            self.heard(got)

    def heard(self, message):
        self.events.append(message)

    def message(self, end):
        """The next message of the browser, which must come before a time."""
        while b"\0" not in self.rest:
            if not select.select([self.of], [], [], max(0, end - time.monotonic()))[0]:
                raise Silent("no answer in time")
            data = os.read(self.of, 1 << 20)
            if not data:
                raise Silent("the browser ended")
            self.rest += data
        text, _, self.rest = self.rest.partition(b"\0")
        return json.loads(text)

    def listen(self, seconds):
        """Hears what the browser says in so many seconds."""
        end = time.monotonic() + seconds
        while time.monotonic() < end:
            if b"\0" in self.rest or select.select([self.of], [], [], end - time.monotonic())[0]:
                self.heard(self.message(time.monotonic() + SECONDS))

    def wait(self, method):
        """Hears until the browser has told of something."""
        end, seen = time.monotonic() + SECONDS, 0
        while True:
            for got in self.events[seen:]:
                if got.get("method") == method:
                    return got["params"]
            seen = len(self.events)
            self.heard(self.message(end))


def address(page):
    """The address of a page: itself, or that of a file."""
    text = str(page)
    return text if "://" in text else Path(text).resolve().as_uri()
