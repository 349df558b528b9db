"""A recording of Chromium as its folder has it."""

from pathlib import Path

from .. import inputs, wire
from ..wrong import Wrong, file
from .events import Events


class Recording:
    """A recording in its folder: `events`, `files` (the message files as they are read), `names`.
    The quads have what the message files round under `exact`."""

    def __init__(self, folder):
        self.folder = Path(folder)
        with file(self.folder / "events"):
            self.events = Events((self.folder / "events").read_text(encoding="utf-8"))
        self.parts = [self.folder / ("c%d.viz" % k) for k in range(1, len(self.events.clients) + 1)]
        self.files, self.size = inputs.clients(self.parts), self.events.size
        self.names = [name for _, name in self.events.clients]
        self.submits = [[one for one in made["messages"] if one["kind"] == "submit"]
                        for made in self.files]
        with file(self.folder / "events"):
            for one in self.events.of("exact"):
                self.exact(*one.given)

    def exact(self, name, place, number, *given):
        client, ordinal = map(int, name.split("."))
        try:
            quads = self.submits[client - 1][ordinal - 1]["passes"][int(place) - 1]["quads"]
            quads[int(number) - 1]["exact"] = tuple(map(float, given))
        except (IndexError, ValueError):
            raise Wrong("exact %s %s %s: no such quad" % (name, place, number)) from None


def write(folder, made):
    """Writes a recording that was built from a capture."""
    folder.mkdir(parents=True, exist_ok=True)
    for old in (*folder.glob("c*.viz"), *folder.glob("*.png"), folder / "log", folder / "frames"):
        old.unlink(missing_ok=True)
    for client in made.clients.values():
        data = client.file()
        wire.read(data)
        (folder / ("c%d.viz" % client.number)).write_bytes(data)
    (folder / "schedule").write_bytes(made.schedule)
    (folder / "events").write_text("\n".join(made.told) + "\n", encoding="utf-8")
    for number, one in enumerate(made.capture.rounds, 1):
        if one.shot:
            (folder / ("%02d-chromium.png" % number)).write_bytes(one.shot)
