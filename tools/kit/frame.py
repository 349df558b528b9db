"""Frames of a scene's text: the tables with a key `submit`."""

from . import colours, names, wire
from .table import Table, rectangle, text, whole, whole_numbers
from .wrong import Wrong, inside


class Frames:
    """Makes the frames of one client."""

    def __init__(self, scene, form):
        self.scene = scene
        self.form = form          # the format that the client names, or None
        self.blocks = {}          # the size of the last upload of each id
        self.awaits = 0           # how often the client awaited a begin-frame before
        self.blends = False       # some quad has a mode that format 1 does not have

    def submit(self, table):
        frame = {"kind": "submit",
                 "local": table.take("submit", lambda v: names.local(text(v))),
                 "token": table.take("token", whole, 0),
                 "answers": table.take("answers", self.answers, 0),
                 "deadline": table.take("deadline", whole, None),
                 "dependencies": table.items("dependencies", self.scene.surface, "dependency",
                                             [])}
        frame["passes"] = self.passes(table)
        said = [table.has(key) for key in ("references", "resources")]
        frame["references"] = table.items("references", self.scene.span, "reference", [])
        frame["resources"] = table.items("resources", self.listing, "resource", [])
        table.end()
        if not said[0]:
            frame["references"] = embedded(frame["passes"])
        if not said[1]:
            frame["resources"] = [self.listed(i) for i in tiled(frame["passes"])]
        return frame

    def answers(self, value):
        """A number, or "latest": as many as the client awaited."""
        return self.awaits if value == "latest" else whole(value)

    def listing(self, value):
        """A resource: its id alone, with the size of its upload, or `ID WxH`."""
        if not isinstance(value, str):
            return self.listed(whole(value))
        number, _, size = value.partition(" ")
        w, h = names.size(size.strip())
        return {"id": names.count(number), "w": w, "h": h}

    def listed(self, number):
        if number not in self.blocks:
            raise Wrong("resource %d has no upload before; give 'resources' with sizes" % number)
        w, h = self.blocks[number]
        return {"id": number, "w": w, "h": h}

    def passes(self, table):
        """The passes of the list `passes`, then the root pass of the frame's own keys."""
        earlier = []

        def one(value):
            part = Table(value)
            got = self.one_pass(part, earlier, part.take("id", whole, len(earlier) + 1),
                                part.take("output", rectangle))
            part.end()
            earlier.append(got)
            return got
        alone = table.has("passes") and not table.has("quads")
        table.items("passes", one, "pass", [])
        if alone:
            return earlier
        size = table.take("size", lambda v: whole_numbers(v, (2,)), self.scene.display)
        if size is None:
            raise Wrong("key 'size' is missing, and the scene has no 'display'")
        number = table.take("id", whole, len(earlier) + 1)
        return earlier + [self.one_pass(table, earlier, number, (0, 0, *size))]

    def one_pass(self, table, earlier, number, output):
        damage = table.take("damage", rectangle, output)
        outputs = {p["id"]: p["output"] for p in earlier}

        def quads(value):
            """A quad, or the quads of a part by its name."""
            if not isinstance(value, str):
                return [self.quad(Table(value), output, outputs)]
            if value not in self.scene.parts:
                raise Wrong("part %r: the scene has no such part" % value)
            with inside("part %r" % value, "parts", value, top=True):
                got = Table({"quads": self.scene.parts[value]}).items(
                    "quads", lambda v: self.quad(Table(v), output, outputs), "quad")
            return got
        lists = table.items("quads", quads, "quad", [])
        return {"id": number, "output": output, "damage": damage,
                "quads": [quad for part in lists for quad in part]}

    def quad(self, table, output, outputs):
        kinds = [k for k in ("solid", "tile", "surface", "pass") if table.has(k)]
        if len(kinds) != 1:
            raise Wrong("a quad has one of 'solid', 'tile', 'surface' and 'pass'")
        kind, area = kinds[0], (0, 0, *output[2:])
        if kind == "solid":
            material = {"solid": table.take("solid", self.scene.colour)}
        elif kind == "tile":
            number = table.take("tile", whole)
            tx, ty = table.take("from", lambda v: whole_numbers(v, (2,)), (0, 0))
            material = {"tile": number, "tx": tx, "ty": ty}
            w, h = self.blocks.get(number, (0, 0))
            area = (0, 0, w - tx, h - ty) if w > tx >= 0 and h > ty >= 0 else None
        elif kind == "surface":
            material = {"surface": table.take("surface", self.scene.span),
                        "background": table.take("background", self.scene.colour,
                                                 colours.NAMES["white"])}
        else:
            number = table.take("pass", whole)
            material = {"pass": number}
            area = (0, 0, *outputs[number][2:]) if number in outputs else None
        if area is None and not table.has("area"):
            raise Wrong("key 'area' is missing, and " + (
                "no upload of resource %d before it gives the tile its size" % number if kind == "tile" and number not in self.blocks
                else "(%d, %d) is outside resource %d" % (tx, ty, number) if kind == "tile"
                else "pass %d is no earlier pass of this frame" % number))
        area = table.take("area", rectangle, *(() if area is None else (area,)))
        blend = table.take("blend", self.blend_mode, 0)
        self.blends |= blend != 0
        got = {"offset": table.take("offset", lambda v: whole_numbers(v, (2,)), (0, 0)), "area": area,
               "visible": table.take("visible", rectangle, area),
               "clip": table.take("clip", rectangle, None),
               "opacity": table.take("opacity", whole, 255), "blend": blend,
               "material": {"kind": kind, **material}}
        table.end()
        wire.trial(wire.QUAD, got)
        return got

    def blend_mode(self, value):
        if value not in wire.BLENDS:
            raise Wrong("%r is not %s" % (value, ", ".join(wire.BLENDS)))
        if self.form == 1 and value != "over":
            raise Wrong("format 1 has no blend modes but over")
        return wire.BLENDS.index(value)


def materials(passes, kind):
    return [q["material"] for p in passes for q in p["quads"] if q["material"]["kind"] == kind]


def embedded(passes):
    """The ranges of a frame's surface quads, each once: what it references where it says nothing."""
    return list(dict.fromkeys(m["surface"] for m in materials(passes, "surface")))


def tiled(passes):
    """The resources of a frame's tiles, each once: what it lists where it says nothing."""
    return list(dict.fromkeys(m["tile"] for m in materials(passes, "tile")))
