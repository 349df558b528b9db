"""The pixels of a resource. A tile quad names a resource; its layer and its place in the layer say
what the layer paints there, and that says which block of shared memory is the tile. The block's own
bytes are uploaded; where there is none (the memory may not be read, or was given back), what the
layer paints."""

from .. import png
from .outside import Outside, rectangle, translation

NEAR, PART, STRIDE = 8, 100, 37     # a near byte; one in so many may be further; every such byte is looked at
FAR, SHARE = 64, 30                 # a block whose bytes are further, or that has more others, is another
IDENTITY = [1, 0, 0, 0, 0, 1, 0, 0, 0, 0, 1, 0, 0, 0, 0, 1]


class Tiles:
    """Finds pixels in the rounds of a capture. `counts` and `notes` say what was found how."""

    def __init__(self, rounds, counts, notes):
        self.rounds, self.counts, self.notes, self.read = rounds, counts, notes, {}
        self.blocks = [set(one.blocks) for one in rounds]

    def picture(self, data):
        if data not in self.read:
            self.read[data] = png.read(data)
        return self.read[data]

    def of_tile(self, snapshot, quad, shared, origin, place):
        """The sides and the pixels of a tile quad's resource. `origin` is where the pass stands on
        the screen, `place` the round."""
        layer, tile = self.tile(snapshot, quad, shared, origin)
        if tile["contents_scale"] != 1 or tile["raster_transform"]["translation"] != [0, 0]:
            raise Outside("a tile of another scale than 1")
        x, y, w, h = tile["content_rect"]
        if w > 256 or h > 256:
            raise Outside("a resource of %d by %d" % (w, h))
        wide, high, pixels = self.picture(self.painted(snapshot, layer, place))
        rows, none = [], bytes(w * 4)
        for row in range(y, y + h):
            line = pixels[(row * wide + x) * 4:(row * wide + min(wide, x + w)) * 4] if row < high else b""
            rows.append((line + none)[:w * 4])
        return w, h, self.real(b"".join(rows), place)

    def tile(self, snapshot, quad, shared, origin):
        """The layer whose tile a quad shows, and the tile: by the places of both on the screen."""
        x, y, w, h = rectangle(shared["quad_layer_rect"])
        across, down = translation(shared["quad_to_target_transform"])
        at = across + origin[0] + x, down + origin[1] + y
        corner = [quad["rect"][side] - quad["tex_coord_rect"][side] - (x, y)[side] for side in (0, 1)]
        found = []
        for layer in reversed(snapshot["layers"]):
            bounds = layer["bounds"]["width"], layer["bounds"]["height"]
            if layer["tiled"] and bounds == (w, h) and stands(layer) == at:
                found += [(layer, one) for one in snapshot["tiles"] if one["layer_id"] == layer["layer_id"]
                          and one["content_rect"][:2] == corner]
        if not found:
            raise Outside("a tile quad whose layer was not found")
        if len({layer["layer_id"] for layer, _ in found}) > 1:
            self.notes["tile quads with more than one possible layer"] += 1
        return min(found, key=lambda one: not one[1]["has_resource"])

    def painted(self, snapshot, layer, place):
        """The picture of a layer: of this round, or else of a later or an earlier one near it."""
        size = layer["bounds"]["width"], layer["bounds"]["height"]
        ids = {one["layer_id"] for one in snapshot["layers"] if one["draws_content"]}
        for step in range(len(self.rounds)):
            found = []
            for at in {place + step, place - step} & set(range(len(self.rounds))):
                layers = self.rounds[at].layers
                for session, number in layers:
                    data = layers[session, number]
                    if number == layer["layer_id"] and self.picture(data)[:2] == size:
                        others = {other for one, other in layers if one == session and other > 0}
                        found.append((len(ids & others) - len(others - ids), data))
            if found:
                if step:
                    self.notes["tiles whose layer was pictured in another round"] += 1
                return max(found)[1]
        raise Outside("a layer without a picture")

    def of_canvas(self, quad, place):
        """Those of a texture quad: of the only canvas of the page that has its size."""
        if quad["is_normalized_coords"] or any(quad["tex_coord_rect"][:2]):
            raise Outside("a texture quad of a part")
        w, h = map(int, quad["tex_coord_rect"][2:])
        if w > 256 or h > 256:
            raise Outside("a resource of %d by %d" % (w, h))
        found = [data for (_, number), data in self.rounds[place].layers.items()
                 if number < 0 and self.picture(data)[:2] == (w, h)]
        if len(found) != 1:
            raise Outside("a texture quad, and %d canvases of its size" % len(found))
        return w, h, self.real(self.picture(found[0])[2], place)

    def real(self, painted, place):
        """The bytes in Chromium's memory that are nearest to what is painted."""
        length = -(-len(painted) // 4096) * 4096
        swapped = swap(painted)
        whole, best = swapped.ljust(length, b"\0"), None
        rounds = [at for at in (place, place - 1, place + 1) if 0 <= at < len(self.rounds)]
        if any(whole in self.blocks[at] for at in rounds):
            self.counts["tiles as painted"] += 1
            return painted
        for at in rounds:
            for block in self.rounds[at].blocks:
                if len(block) == length and alike(block, swapped):
                    far = distance(block, swapped)
                    best = min(best or (far, block), (far, block))
        if best is None or best[0][0] > len(painted) // SHARE or best[0][1] > FAR:
            self.counts["tiles only painted"] += 1
            return painted
        self.counts["tiles near what is painted"] += 1
        self.notes["the greatest difference of a tile from its layer: %d" % best[0][1]] += 1
        return swap(best[1][:len(painted)])


def stands(layer):
    """Where a layer stands on the screen; an Outside becomes no place."""
    try:
        return translation(layer.get("screen_space_transform", IDENTITY))
    except Outside:
        return None


def swap(data):
    """RGBA for BGRA, and the other way."""
    made = bytearray(data)
    made[0::4], made[2::4] = data[2::4], data[0::4]
    return bytes(made)


def alike(block, painted):
    """Whether a block may be the tile, by a sample of its bytes."""
    sample = zip(block[:len(painted):STRIDE], painted[::STRIDE])
    return sum(abs(a - b) > NEAR for a, b in sample) <= len(painted) // STRIDE // PART


def distance(block, painted):
    """How many bytes differ, and by how much at most."""
    many = most = 0
    for a, b in zip(block, painted):
        if a != b:
            many, most = many + 1, max(most, abs(a - b))
    return many, most
