"""A capture as a file: a ZIP archive with the trace, the rounds, and each picture and block once."""

import hashlib
import json
import zipfile

from ..wrong import Wrong, file
from .rounds import Capture, Round

FIELDS = ("page", "size", "free", "version", "readable", "presses", "windows")


class Writer:
    def __init__(self, archive):
        self.archive, self.written = archive, set()

    def data(self, kind, data):
        """Writes bytes, unless they are there already; their name."""
        name = "%s/%s" % (kind, hashlib.sha256(data).hexdigest()[:24])
        if name not in self.written:
            self.written.add(name)
            self.archive.writestr(name, data)
        return name

    def round(self, one):
        layers = [[*place, self.data("layers", data)] for place, data in sorted(one.layers.items())]
        return {"why": one.why, "stop": one.stop, "shot": self.data("shots", one.shot),
                "layers": layers, "blocks": sorted(self.data("blocks", data) for data in one.blocks)}


def write(name, capture):
    with file(name), zipfile.ZipFile(name, "w", zipfile.ZIP_DEFLATED, compresslevel=9) as archive:
        writer = Writer(archive)
        given = {field: getattr(capture, field) for field in FIELDS}
        given["rounds"] = [writer.round(one) for one in capture.rounds]
        archive.writestr("capture.json", json.dumps(given, indent=1))
        archive.writestr("trace.json", "[\n%s\n]\n" % ",\n".join(map(json.dumps, capture.events)))


def read(name):
    with file(name):
        try:
            with zipfile.ZipFile(name) as archive:
                given = json.loads(archive.read("capture.json"))
                rounds = [round_of(archive, one) for one in given.pop("rounds")]
                events = json.loads(archive.read("trace.json"))
        except (zipfile.BadZipFile, KeyError, ValueError) as error:
            raise Wrong("it is no capture: %s" % error) from None
    given["size"] = tuple(given["size"])
    return Capture(rounds=rounds, events=events, **given)


def round_of(archive, given):
    layers = {(session, number): archive.read(name) for session, number, name in given["layers"]}
    return Round(given["why"], given["stop"], archive.read(given["shot"]), layers,
                 [archive.read(name) for name in given["blocks"]])
