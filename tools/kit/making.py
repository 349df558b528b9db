"""What the tools make of a run that stands in a folder: picture, story, timeline, page."""

from pathlib import Path

from . import inputs, timeline, webpage
from .chromium import events
from .machine import Differs
from .picture import Picture, strip
from .record import Recorder
from .sentences import Story
from .tiles import Tiles
from .wrong import Wrong, file

STRIP_PIXELS = 3000000


def page(run, title, buffers):
    """The text of the page of a run, and how many frames it has."""
    with file(run.log_name):
        try:
            made = Recorder(run.log, run.files, run.names, run.size, buffers).run()
        except Differs as differs:
            raise Wrong("%s (tools/why says more)" % differs) from None
    told = Story(run.log, run.names, run.files)
    lines = run.text.split("\n")[:len(run.log.entries)]
    drawn, tiles = sum(entry.reply == "drawn" for entry in run.log.entries), Tiles(*run.size)
    for frame in run.frames(drawn):
        tiles.add(frame)
    lists = {**made, "names": run.names, "log": "\n".join(lines), "said": "\n".join(inputs.said(told))}
    chromium = events.beside(Path(run.log_name).parent, len(run.log.entries))
    return webpage.page(title, {**lists, **({"chromium": chromium} if chromium else {})}, tiles), drawn


def write(name, text):
    with file(name):
        Path(name).parent.mkdir(parents=True, exist_ok=True)
        Path(name).write_text(text, encoding="utf-8")


def scale_of(size, count):
    """How large the frames of a strip are drawn: well visible, and not larger than a screen."""
    w, h = size
    return next((n for n in (8, 6, 4, 3, 2) if w * n <= 420 and w * h * n * n * count <= STRIP_PIXELS), 1)


def strip_of(run, name):
    """Writes the frames of a run, or evenly chosen ones of many, as one picture; the numbers of those."""
    drawn = sum(entry.reply == "drawn" for entry in run.log.entries)
    if not drawn:
        return []
    most = max(1, min(drawn, 16, 16777216 // (run.size[0] * run.size[1])))
    wanted = sorted({1 + k * (drawn - 1) // max(1, most - 1) for k in range(most)})
    scale = scale_of(run.size, len(wanted))
    kept = [Picture.of(*run.size, frame, scale) for number, frame in enumerate(run.frames(drawn), 1) if number in wanted]
    strip(kept).save(Path(name))
    return wanted


def story_of(run, text_name, picture_name):
    """Writes the story and the timeline of a run; the sentences."""
    told = Story(run.log, run.names, run.files)
    lines = list(told.lines())
    write(text_name, "".join(line + "\n" for line in lines))
    write(picture_name, timeline.svg(told))
    return lines
