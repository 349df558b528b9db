#!/usr/bin/env python3
"""Writes the table of worked rows of `vz_test_base`: base_rows.py > ../crates/vz_test_base/data/rows.txt

A group has a name and rows. A row has a kind, what is given, and behind ` => ` what is expected, which
is written here by hand. Client files are spelled from messages (spelling.py). README.md says more.
"""
from itertools import combinations

from spelling import (
    AWAIT, BLACK, CLOSE, DST_IN, ONE_QUAD, OVER, RECLAIM, RED, RED_QUAD, ROOT, SRC, client, embed,
    frame, group, local, pieces, produced_nothing, quad, reach, relation, render_pass, replaced,
    sink, solid, submit, surface, upload)
from worked_logs import AGAIN_LOGS, FRONTS, REFUSED_LOGS

AGAIN = "written again as it was"
LIMIT = "a number is out of its range"
GROUPS = []


def put(name, rows):
    """Keeps a group of rows."""
    GROUPS.append("\n".join([name, *rows]))


def file(data, expected=AGAIN):
    """A file that is read, and written again, or refused."""
    return "file %s => %s" % (" ".join(pieces(data)), expected)


def wrong(data, at, what=LIMIT):
    """A file that is refused at a byte."""
    return file(data, "byte %d: %s" % (at, what))


# ---------------------------------------------------------------- message files


def lists(**parts):
    """A file with one frame, which has no pass."""
    return client(1, submit(1, 1, passes=[], **parts))


def drawing(*counts):
    """A file with one frame, whose passes have so many quads."""
    return client(1, submit(1, 1, passes=[render_pass(1, (4, 2), count * [RED_QUAD]) for count in counts]))


def white(w, h):
    """A file with an upload of white texels."""
    return client(1, upload(9, (w, h), (255,) * 4))


def texels(*colours):
    """A file with an upload of three texels in a row; those that are given are its bytes."""
    return client(1, b"\1\x09\0\0\0\3\0\1\0" + b"".join(map(bytes, colours)))


def material(*parts):
    """The worked file with another material, of numbers of so many bytes."""
    return replaced(ONE_QUAD, 136, numbers(*parts), 141)


def listing(number, w, h):
    """The worked file with a listed resource."""
    return replaced(ONE_QUAD, 54, numbers((1, 1), (4, number), (2, w), (2, h)), 55)


def numbers(*parts):
    return b"".join(value.to_bytes(size, "little") for size, value in parts)


def signed(value):
    return value.to_bytes(4, "little", signed=True)


def limits():
    """Each limit, and one past each."""
    many = 65 * [(9, 2, 1)]
    waits, references = 17 * [surface(2, token=2)], 65 * [reach(surface(2, token=2))]
    put("lists of a frame: 16 dependencies, 64 references, 64 resources and one more of each", [
        file(lists(waits=waits[:16])), wrong(lists(waits=waits), 52),
        file(lists(references=references[:64])), wrong(lists(references=references), 53),
        file(lists(resources=many[:64])), wrong(lists(resources=many), 54)])
    put("16 passes, 1024 quads in one pass or two, and one more", [
        file(drawing(*(16 * [0]))), wrong(drawing(*(17 * [0])), 55),
        file(drawing(1024)), wrong(drawing(1025), 92),
        file(drawing(1000, 24)), wrong(drawing(1000, 25), 94 + 1000 * 47 + 36)])
    put("deadlines: none, 64, 65 and 254", [
        file(lists(deadline=255)), file(lists(deadline=64)),
        wrong(lists(deadline=65), 51), wrong(lists(deadline=254), 51)])
    put("0, 4096 and 4097 messages, and 4096 that are told and missing", [
        file(client(1)), file(client(1, *(4096 * [AWAIT]))), wrong(client(1, *(4097 * [AWAIT])), 14),
        wrong(client(1)[:14] + b"\0\x10\0\0", 18, "the file ends in a field")])
    put("a tile's resource and place", [
        file(material((1, 2), (4, 1), (2, 255), (2, 255))),
        wrong(material((1, 2), (4, 0), (2, 255), (2, 255)), 137),
        wrong(material((1, 2), (4, 1), (2, 256), (2, 255)), 141),
        wrong(material((1, 2), (4, 1), (2, 255), (2, 256)), 143)])
    put("sides of an upload", [
        *(file(white(*size)) for size in ((1, 256), (256, 1), (256, 256))),
        wrong(white(0, 1), 23), wrong(white(257, 1), 23), wrong(white(1, 0), 25),
        wrong(white(1, 257), 25)])
    put("texels of an upload: a channel above its alpha, also if the file ends behind it, and too few", [
        wrong(texels(RED, (255, 0, 0, 127), (1,) * 4), 31, "a channel exceeds its alpha"),
        wrong(texels(RED, (255, 0, 0, 127), (1, 1)), 31, "a channel exceeds its alpha"),
        wrong(texels(RED, (255, 0, 0)), 34, "the file ends in a field")])
    put("a listed resource's id and sides", [
        file(listing(1, 1, 256)), file(listing(1, 256, 1)), wrong(listing(0, 1, 1), 55),
        wrong(listing(1, 0, 1), 59), wrong(listing(1, 257, 1), 59), wrong(listing(1, 1, 0), 61),
        wrong(listing(1, 1, 257), 61)])
    reaches, sides = (-16385, -16384, 16384, 16385), (0, 1, 16384, 16385)
    for name, place, field, values in (
            ("an offset's x", 94, 94, reaches), ("an offset's y", 98, 98, reaches),
            ("a rectangle's x", 102, 102, reaches), ("a rectangle's y", 106, 102, reaches),
            ("a rectangle's width", 110, 102, sides), ("a rectangle's height", 114, 102, sides)):
        changed = [replaced(ONE_QUAD, place, signed(value)) for value in values]
        put("%s: below its range, least, greatest and above it" % name, [
            wrong(changed[0], field), file(changed[1]), file(changed[2]), wrong(changed[3], field)])
    put("a rectangle of four times 0", [file(replaced(ONE_QUAD, 102, bytes(16)))])


def changed(changes, at, what):
    """The worked file with other bytes, which is refused."""
    data = ONE_QUAD
    for place, byte in changes:
        data = replaced(data, place, bytes([byte]))
    return wrong(data, at, what)


def with_mode(byte):
    """The worked file in format 2, with this mode."""
    return replaced(replaced(ONE_QUAD, 4, b"\2"), 136, bytes([byte]), 136)


def bytes_of_files():
    """The worked file, and changes of it by single bytes."""
    short = "the file ends in a field"
    put("the worked file", [file(ONE_QUAD)])
    put("the worked file with other bytes", [
        changed([(0, 0x57)], 0, "no message file begins so"), changed([(4, 3)], 4, "the version is unknown"),
        changed([(15, 0x20)], 14, LIMIT), changed([(18, 9)], 18, "the tag is unknown"),
        changed([(19, 0)], 19, LIMIT), changed([(51, 65)], 51, LIMIT), changed([(110, 0)], 102, LIMIT),
        changed([(134, 2)], 134, "the tag is unknown"),
        changed([(140, 0x7f)], 137, "a channel exceeds its alpha"),
        changed([(6, 0), (10, 0)], 6, LIMIT)])
    put("each front of the worked file, and it with one byte more", [
        *(wrong(ONE_QUAD[:length], length, short) for length in range(len(ONE_QUAD))),
        wrong(ONE_QUAD + b"\0", 166, "bytes are left over")])
    put("modes of format 2, a mode that there is not, and a file without one", [
        *(file(with_mode(mode)) for mode in (OVER, SRC, DST_IN)), wrong(with_mode(3), 136, "the tag is unknown"),
        changed([(4, 2)], 137, "the tag is unknown")])
    put("a file of each kind of message and of material, in format 2", [file(EACH_KIND)])


# ---------------------------------------------------------------- what files hold


def each_kind():
    """A file of format 2 with each kind of message and of material."""
    other = surface(2, token=2)
    area = (1, 0, 2, 2)
    first = [quad(solid(RED), area, opacity=200, mode=OVER),
             quad(numbers((1, 2), (4, 9), (2, 255), (2, 1)), area, clip=(0, 0, 4, 2), opacity=200, mode=SRC)]
    second = [quad(group(1), area, opacity=200, mode=DST_IN),
              quad(embed(reach(other), (1, 2, 3, 4)), area, clip=(0, 0, 4, 2), opacity=200, mode=OVER)]
    shown = submit(1, 1, waits=[other], references=[reach(other, other)], resources=[(9, 2, 1), (10, 256, 1)],
                   deadline=64, passes=[render_pass(1, (4, 2), first), render_pass(1, (4, 2), second)])
    stored = numbers((1, 1), (4, 9), (2, 2), (2, 1)) + bytes((0, 0, 0, 0, 3, 2, 1, 255))
    return client(1, stored, shown, produced_nothing(7), RECLAIM, ROOT, relation(sink(1), sink(2)), AWAIT,
                  CLOSE, form=2)


EACH_KIND = each_kind()
SINKS = {k: "FrameSinkId { client_id: %d, sink_id: 1 }" % k for k in (1, 2)}
LOCALS = {t: "LocalSurfaceId { parent: 1, child: 1, token: EmbedToken(%d) }" % t for t in (1, 2)}
OTHER = "SurfaceId { sink: %s, local: %s }" % (SINKS[2], LOCALS[2])
PIXEL = "Pixel { r: %d, g: %d, b: %d, a: %d }"
RECT = "Rect { x: %d, y: %d, w: %d, h: %d }"
WHOLE, RIGHT = RECT % (0, 0, 4, 2), RECT % (1, 0, 2, 2)
PASS = ", pass 1 %s %s [%s]"


def told_quad(material, clip="None", opacity=200, blend="Over"):
    return ("DrawQuad { offset: Point { x: 0, y: 0 }, area: %s, visible: %s, clip: %s, opacity: %d, blend: %s, "
            "material: %s }" % (RIGHT, RIGHT, clip, opacity, blend, material))


def holdings():
    """What two files hold."""
    solid_red, clip = "Solid(%s)" % (PIXEL % RED), "Some(%s)" % WHOLE
    worked = ("format 1 %s; Submit %s, token 7 ack 0 None [] [] []" % (SINKS[1], LOCALS[1])
              + PASS % (WHOLE, WHOLE, told_quad(solid_red, opacity=255)) + "; SetRoot " + LOCALS[1])
    first = [told_quad(solid_red), told_quad("Tile { resource: 9, tx: 255, ty: 1 }", clip, blend="Src")]
    embedded = "Surface { range: SurfaceRange { start: None, end: %s }, background: %s }" % (
        OTHER, PIXEL % (1, 2, 3, 4))
    second = [told_quad("Pass(1)", blend="DstIn"), told_quad(embedded, clip)]
    every = "; ".join([
        "format 2 " + SINKS[1], "Upload 9 [%s, %s]" % (PIXEL % (0, 0, 0, 0), PIXEL % (3, 2, 1, 255)),
        "Submit %s, token 7 ack 0 Some(64) [%s] [SurfaceRange { start: Some(%s), end: %s }] "
        "[Listing { id: 9, w: 2, h: 1 }, Listing { id: 10, w: 256, h: 1 }]" % (LOCALS[1], OTHER, OTHER, OTHER)
        + PASS % (WHOLE, WHOLE, ", ".join(first)) + PASS % (WHOLE, WHOLE, ", ".join(second)),
        "DidNotProduce 7", "Reclaim", "SetRoot " + LOCALS[1], "Hierarchy %s %s" % (SINKS[1], SINKS[2]),
        "Await", "Close"])
    put("what the worked file holds", ["holds %s => %s" % (" ".join(pieces(ONE_QUAD)), worked)])
    put("what a file of each kind holds", ["holds %s => %s" % (" ".join(pieces(EACH_KIND)), every)])


# ---------------------------------------------------------------- rules of a frame

# Each rule, and what is said if it is broken, in the order in which the rules are tested.
RULES = {
    "NoPass": "there is no pass",
    "BadRoot": "the output of the root pass is empty or does not start at (0, 0)",
    "PassIds": "two passes have one id",
    "PassOrder": "a pass quad names no earlier pass",
    "VisibleOutside": "a visible rectangle has a point outside the quad's rectangle",
    "UnlistedResource": "a tile names a resource that is not listed",
    "ListedTwice": "a resource is listed twice",
    "TileOutside": "a tile reaches outside the listed width or height",
    "BadRange": "a range starts after its end",
    "BadDependency": "two dependencies are equal",
    "DamageOutside": "a damage rectangle has a point outside its pass's output",
}


def at(number, tx):
    """A tile of a resource, from a column on."""
    return numbers((1, 2), (4, number), (2, tx), (2, 0))


def passes_that_break(rules):
    """Two passes; the second draws the first."""
    area = (0, 0, 4, 4)
    own = reach(surface(1, 2), surface(1, 2))
    quads = [quad(part, area) for part in (solid(BLACK), at(5, 252), group(1), embed(own))]
    quads += [quad(group(2), area)] if "PassOrder" in rules else []
    quads += [quad(solid(BLACK), area, visible=(1, 0, 4, 4))] if "VisibleOutside" in rules else []
    quads += [quad(at(6, 0), area)] if "UnlistedResource" in rules else []
    quads += [quad(at(5, 253), area)] if "TileOutside" in rules else []
    damage = (-2, -2, 4, 5 if "DamageOutside" in rules else 4)
    left = 1 if "BadRoot" in rules else 0
    return [whole_pass(1, (-2, -2, 4, 4), damage, []),
            whole_pass(1 if "PassIds" in rules else 2, (left, 0, 4, 4), (0, 0, 0, 0), quads)]


def whole_pass(number, output, damage, quads):
    """A render pass whose output need not start at (0, 0)."""
    front = b"".join(signed(value) for value in (*output, *damage))
    return numbers((4, number)) + front + numbers((2, len(quads))) + b"".join(quads)


def breaking(rules, resources=((5, 256, 4), (7, 1, 1))):
    """A file whose frame breaks these rules and no other."""
    own = [surface(1, parent) for parent in (1, 2, 3)]
    ranges = [reach(own[1], own[0])] + ([reach(own[1], own[2])] if "BadRange" in rules else [])
    waits = own[:2] + (own[:1] if "BadDependency" in rules else [])
    passes = [] if "NoPass" in rules else passes_that_break(rules)
    listed = [*resources, *([(7, 1, 1)] if "ListedTwice" in rules else [])]
    return client(1, submit(1, 1, waits=waits, references=ranges, resources=listed, passes=passes))


def tested(data, expected):
    """A file whose frame keeps the rules, or breaks one."""
    return "frame %s => %s" % (" ".join(pieces(data)), expected)


def rules_of_a_frame():
    """Each rule broken alone and with each later one, and lists of many resources."""
    put("a frame that keeps the rules", [tested(breaking([]), "keeps the rules")])
    put("each rule of a frame, broken alone", [tested(breaking([rule]), RULES[rule]) for rule in RULES])
    put("of two rules that are broken the first is told", [
        tested(breaking(pair), RULES[pair[0]]) for pair in combinations(RULES, 2)])
    rows = []
    for count in (6, 7, 8, 63):
        listed = [(number, 1, 1) for number in range(count, 0, -1)]
        rows += [tested(breaking([], listed), RULES["TileOutside"]),
                 tested(breaking([], [*listed, (1, 1, 1)]), RULES["ListedTwice"])]
    listed = [(number, 1, 1) for number in range(64, 0, -1)]
    rows += [tested(breaking([], listed), RULES["TileOutside"]),
             tested(breaking([], [*listed[:63], (2, 1, 1)]), RULES["ListedTwice"])]
    put("6, 7, 8, 63 and 64 resources, and one of them twice", rows)


# ---------------------------------------------------------------- logs, words, pixels and devices


def log_row(text, expected):
    return "log %s => %s" % (text.replace("\n", "|").replace("\r", "^"), expected)


def logs():
    """Logs that are read and written again, and texts that are none."""
    for name, texts in AGAIN_LOGS.items():
        put(name, [log_row(text, AGAIN) for text in texts])
    for name, (line, texts) in REFUSED_LOGS.items():
        put(name, [log_row(text, "line %d of the log is refused" % line) for text in texts])
    for text in FRONTS:
        put("each front of the log %s" % text.replace("\n", "|"), [
            log_row(text[:size], "line %d of the log is refused" % (text[:size].count("\n") + 1))
            for size in range(len(text))])


# A line for each command, and the ends of the ranges.
TAKEN = """run --paced --buffers 4 --pipe 2048 2048 63 f l a
run 4 2 0 f l a
step 4 2 s f l 1 2 3 4 5 6 7 8 9 10 11 12 13 14 15 16
check 1 1 f l a
gen 1000 a b c
demo 1
hit 4 2 s 3 1 a
hit 2048 2048 s 2047 0 1 2 3 4 5 6 7 8 9 10 11 12 13 14 15 16
turns 4 2 256 a"""
REFUSED = """
--pipe run 4 2 0 f l a
step 0 2 s f l a
step 04 2 s f l a
step +4 2 s f l a
step 2049 2 s f l a
step 4 2 s f f a
step 4 2 s f l
step 4 2 s f l 1 2 3 4 5 6 7 8 9 10 11 12 13 14 15 16 17
step 4 2 s f l -a
run --buffers 5 4 2 0 f l a
run --buffers=2 4 2 0 f l a
run --pipe --paced 4 2 0 f l a
run --paced --paced 4 2 0 f l a
run -- 4 2 0 f l a
run 4 2 257 f l a
run 2048 2048 64 f l a
gen 1001 a b c
demo 0
hit 4 2 s 4 1 a
hit 4 2 s 3 2 a
hit 4 2 s 03 1 a
hit 4 2 s 3 01 a
hit 4 2 s 3 a
hit 4 2 s 3 1
hit 4 2 s 3 1 s
hit 4 2 s 3 1 -a
hit 4 2 s 3 1 1 2 3 4 5 6 7 8 9 10 11 12 13 14 15 16 17
hit 2049 2 s 3 1 a"""


def others():
    put("words of commands", ["words %s => a command" % line for line in TAKEN.split("\n")])
    put("words of no command", ["words %s => no command" % line for line in REFUSED.split("\n")])
    put("rows of pixels, of lengths round a group of 16", [
        "pixels %d => as worked" % count for count in (0, 1, 15, 16, 17, 33)])
    put("the red of a block's right pixel, read from one that shares its pixels", ["block 00000000 ff0000ff => 255"])
    put("the files of the system give back what is written, and miss what is removed", [
        "shelf /tmp/vz_test_base_ => hello"])
    put("the standard output as a sink", ["prints => printed"])
    put("errors without a place", [
        "error file => memory ran out", "error log => out of memory",
        "error device => the device failed", "error memory => out of memory"])


for part in (bytes_of_files, holdings, limits, rules_of_a_frame, logs, others):
    part()
print("\n\n".join(GROUPS))
