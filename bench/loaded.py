"""A recording of Chromium whose page is loaded several times, one after the other: `loaded.py RECORDING TIMES FOLDER`.

RECORDING is a folder of `examples/chromium`; FOLDER gets `c1.viz`, .. and `schedule`, and the size of the display is
printed. Each time has the messages and the events of the recording again, with newer surfaces and with tiles of its own,
as when a page is loaded anew. A client that leaves does so only the last time.
"""

import sys
from itertools import count
from pathlib import Path

sys.dont_write_bytecode = True
sys.path.insert(0, str(Path(__file__).resolve().parent.parent / "tools"))

from kit import wire                                    # noqa: E402
from kit.chromium.recording import Recording            # noqa: E402
from kit.wrong import Wrong                             # noqa: E402

DISPLAY = range(0x11, 0x15)                             # the bytes of a schedule that are no client's


def newest(files):
    """The greatest first number of a local id that a recording's files have, and the greatest number of a resource."""
    messages = [one for file in files for one in file["messages"]]
    parents = [one["local"][0] for one in messages if "local" in one]
    parents += [end[1][0] for one in messages for end in one.get("dependencies", ())]
    return max(parents), max((one["id"] for one in messages if one["kind"] == "upload"), default=0)


class Again:
    """What stands in a message, as it is at a later time."""

    def __init__(self, files, time):
        parents, resources = newest(files)
        self.parents, self.resources = parents * time, resources * time

    def local(self, value):
        return value[0] + self.parents, *value[1:]

    def surface(self, value):
        return value and (value[0], self.local(value[1]))

    def span(self, value):
        return self.surface(value[0]), self.surface(value[1])

    def resource(self, value):
        return {**value, "id": value["id"] + self.resources}

    def material(self, value):
        if value["kind"] == "surface":
            return {**value, "surface": self.span(value["surface"])}
        return {**value, "tile": value["tile"] + self.resources} if value["kind"] == "tile" else value

    def quad(self, value):
        return {**value, "material": self.material(value["material"])}

    def message(self, value):
        kind = value["kind"]
        if kind == "upload":
            return self.resource(value)
        if kind == "set-root":
            return {**value, "local": self.local(value["local"])}
        if kind != "submit":
            return value
        return {**value, "local": self.local(value["local"]), "dependencies": list(map(self.surface, value["dependencies"])),
                "references": list(map(self.span, value["references"])), "resources": list(map(self.resource, value["resources"])),
                "passes": [{**one, "quads": list(map(self.quad, one["quads"]))} for one in value["passes"]]}


def closings(files):
    """Where in the recording each client leaves, by its number and the place of the message."""
    return {(number, place) for number, file in enumerate(files, 1)
            for place, one in enumerate(file["messages"], 1) if one["kind"] == "close"}


def kept(schedule, left):
    """The events of a schedule but those of messages that are left out."""
    taken = [count(1) for _ in range(17)]
    return bytes(code for code in schedule if code in DISPLAY or (code, next(taken[code])) not in left)


def loaded(recording, times):
    """The bytes of the message files and the schedule of a page that is loaded so many times."""
    files, left = recording.files, closings(recording.files)
    schedule = (recording.folder / "schedule").read_bytes()
    made = [[] for _ in files]
    for time in range(times):
        again, last = Again(files, time), time == times - 1
        for number, (file, messages) in enumerate(zip(files, made), 1):
            messages += [again.message(one) for place, one in enumerate(file["messages"], 1) if last or (number, place) not in left]
    data = [wire.write({**file, "messages": messages}) for file, messages in zip(files, made)]
    return data, kept(schedule, left) * (times - 1) + schedule


def write(recording, times, folder):
    """Writes these files; their names."""
    data, schedule = loaded(recording, times)
    names = ["c%d.viz" % number for number in range(1, len(data) + 1)]
    for name, one in (*zip(names, data), ("schedule", schedule)):
        (folder / name).write_bytes(one)
    return names


def main(recording, times, folder):
    read = Recording(recording)
    write(read, int(times), Path(folder))
    print("%d %d" % read.size)


if __name__ == "__main__":
    try:
        main(*sys.argv[1:])
    except (Wrong, TypeError, ValueError) as error:
        sys.exit(str(error))
