"""One page of HTML that shows a run: what `record` and `tiles` made, with the script and the style of
`page/`."""

import base64
import json
import zlib
from html import escape
from pathlib import Path

PAGE = Path(__file__).resolve().parent / "page"
SCRIPTS = ("data", "state", "walk", "tiles", "view", "timeline", "panels", "events", "chromium", "main")


def packed(value):
    return zlib.compress(json.dumps(value, separators=(",", ":")).encode(), 9)


def embedded(data):
    return base64.b64encode(data).decode("ascii")


def part(name):
    return (PAGE / name).read_text(encoding="utf-8")


def page(title, run, tiles):
    """The text of the page."""
    contents, changes = tiles.packed()
    script = "\n".join(part(name + ".js").replace('"use strict";\n', "") for name in SCRIPTS)
    text = part("page.html")
    for name, value in (("TITLE", escape(title)), ("STYLE", part("page.css").strip()), ("SCRIPT", '"use strict";\n' + script.strip()),
                        ("RUN", embedded(packed(run))), ("CONTENTS", embedded(contents)), ("CHANGES", embedded(changes))):
        text = text.replace("@%s@" % name, value)
    return text
