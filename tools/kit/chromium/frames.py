"""A frame of Chromium as the frame of a message file: passes, quads, resources. What the file cannot
say is left out and told, quad by quad; what it says with less digits is told as it was."""

import re
from typing import NamedTuple

from ..shapes import meet
from . import trace
from .outside import Outside, rectangle, translation, whole

KINDS = {3: "pass", 5: "solid", 8: "surface", 9: "texture", 10: "tile"}
BLENDS = {"SrcOver": 0, "Src": 1, "DstIn": 2}
SQUARE = "MaskFilterInfo{0.000,0.000 0.000x0.000"
MOST_PASSES, MOST_QUADS, MOST_RESOURCES = 16, 1024, 64


class Made(NamedTuple):
    """A frame's passes and the resources that it uses; for places (pass, quad) what is outside, and
    opacity and colour as Chromium has them."""
    passes: list
    resources: list
    outside: list
    exact: list


def alpha(opacity):
    """The opacity of a message file: Skia drops the fraction."""
    return int(opacity * 255 + 1e-4)


def colour(text):
    """Red, green, blue and alpha, from 0 to 1."""
    return tuple(map(float, re.findall(r"[-\d.]+", text)))


def premultiplied(given):
    r, g, b, a = given
    return (*(int(value * a * 255 + .5) for value in (r, g, b)), int(a * 255 + .5))


class Frames:
    """Makes frames. `uploads` takes a client's new block and gives its number."""

    def __init__(self, tiles, counts, notes):
        self.tiles, self.counts, self.notes = tiles, counts, notes
        self.blocks = {}                # by client and Chromium's number: our number, sides

    def frame(self, client, snapshot, place):
        """The frame of a snapshot in a round."""
        made = Made([], [], [], [])
        for at, one in enumerate(snapshot["passes"], 1):
            self.pass_(client, snapshot, one, at, place, made)
        if len(made.passes) > MOST_PASSES:
            made.outside.append((0, 0, "%d passes" % len(made.passes)))
        self.counts["passes"] += len(made.passes)
        return made

    def pass_(self, client, snapshot, one, at, place, made):
        output, damage = rectangle(one["output_rect"]), rectangle(one["damage_rect"])
        within = meet(damage, output)
        if within != damage:
            self.notes["passes whose damage is outside their output (cut)"] += 1
        if "filters" in one or "backdrop_filters" in one:
            made.outside.append((at, 0, "a pass with filters"))
        try:
            origin = translation(one["transform_to_root_target"])
        except Outside as outside:
            made.outside.append((at, 0, str(outside)))
            origin = 0, 0
        quads = []
        for number, given in enumerate(one.get("quad_list", []), 1):
            shared = one["shared_quad_state_list"][given["shared_quad_state"]["index"]]
            try:
                quad = self.quad(given, shared)
                quad["material"] = self.material(client, snapshot, given, shared, origin, place, made)
            except Outside as outside:
                made.outside.append((at, number, str(outside)))
                continue
            quads.append(quad)
            self.exact(made, at, len(quads), given, shared)
        made.passes.append({"id": int(one["id"].split("/")[1], 16), "output": output,
                            "damage": within, "quads": quads})

    def quad(self, given, shared):
        """All of a quad but its material."""
        kind = KINDS.get(given["material"])
        self.counts[kind or "material %d" % given["material"]] += 1
        if shared["blend_mode"] not in BLENDS:
            raise Outside("blend mode %s" % shared["blend_mode"])
        if not shared["mask_filter_info"].startswith(SQUARE):
            raise Outside("rounded corners: %s" % shared["mask_filter_info"])
        offset = translation(shared["quad_to_target_transform"])
        clip = rectangle(whole(shared["clip_rect"], "a clip")) if "clip_rect" in shared else None
        return {"offset": offset, "area": rectangle(given["rect"]), "clip": clip,
                "visible": rectangle(given["visible_rect"]), "opacity": alpha(shared["opacity"]),
                "blend": BLENDS[shared["blend_mode"]]}

    def material(self, client, snapshot, given, shared, origin, place, made):
        kind = KINDS.get(given["material"])
        if kind == "solid":
            return {"kind": kind, "solid": premultiplied(colour(given["color"]))}
        if kind == "pass":
            return {"kind": kind, "pass": int(given["render_pass_id"]["id_ref"], 16)}
        if kind == "surface":
            return embedding(given)
        if kind is None:
            raise Outside("a quad of material %d" % given["material"])
        part = whole(given["tex_coord_rect"], "texture coordinates")
        if part[2:] != tuple(given["rect"][2:]):
            raise Outside("a scaled tile: %s in %s" % (part, given["rect"]))
        number, w, h = self.block(client, snapshot, given, shared, origin, place)
        listed = {"id": number, "w": w, "h": h}
        if listed not in made.resources:
            if len(made.resources) == MOST_RESOURCES:
                raise Outside("more than %d resources in a frame" % MOST_RESOURCES)
            made.resources.append(listed)
        return {"kind": "tile", "tile": number, "tx": part[0], "ty": part[1]}

    def block(self, client, snapshot, given, shared, origin, place):
        """The number and the sides of a resource, which is uploaded when it is first used."""
        key = client.sink, given["resource_id"]
        if key not in self.blocks:
            if KINDS[given["material"]] == "tile":
                w, h, pixels = self.tiles.of_tile(snapshot, given, shared, origin, place)
            else:
                w, h, pixels = self.tiles.of_canvas(given, place)
            self.counts["uploads"] += 1
            self.blocks[key] = client.upload(w, h, pixels), w, h
        return self.blocks[key]

    def exact(self, made, at, number, given, shared):
        """Tells what the file rounds: the opacity and the colour of a quad that is not opaque."""
        solid = KINDS[given["material"]] == "solid"
        own = colour(given["color"]) if solid else ()
        if shared["opacity"] != 1 or solid and own[3] != 1:
            made.exact.append((at, number, shared["opacity"], *own))


def embedding(given):
    """The material of a surface quad, with surfaces as the trace has them."""
    if given["stretch_content_to_fill_bounds"]:
        raise Outside("a stretched surface")
    named = trace.surfaces(given["surface_range"])
    return {"kind": "surface", "surface": (named[0] if len(named) == 2 else None, named[-1]),
            "background": premultiplied(colour(given["default_background_color"]))}
