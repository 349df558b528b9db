"""Rows of calls, for rows.py: files that are made by rule, a page, and what is refused, judged or missing."""
from spelling import (
    AWAIT, GREY, ONE_QUAD, RECLAIM, ROOT, WHITE, client, embed, frame, local, picture, pieces,
    quad, reach, relation, root, sink, solid, submit, surface, tile, upload)
from table import DISHONEST, DISHONEST_LOG, EVENTS, QUAD_LOG, QUAD_PICTURE, judged, put, refused

# ---------------------------------------------------------------- files by rule


def made_child(k, rounds):
    messages = []
    for r in range(1, rounds + 1):
        place, whole = (4 * (r % 8), 0), (0, 0, 32, 32)
        damage = (whole if r == 1 else (0, 0, 32, 4) if r % 8 == 0
                  else (4 * ((r - 1) % 8), 0, 8, 4))
        number = 1 + r % 2
        quads = [quad(tile(number), (0, 0, 4, 4), offset=place),
                 quad(solid((0, 0, 64 * (k - 1), 255)), whole)]
        messages += [AWAIT, RECLAIM, upload(number, (4, 4), (r % 256, 0, 0, 255)),
                     b"\2" + local(1, 1, k) + frame((32, 32), quads, damage, token=r, answers=r,
                                                    resources=[(number, 4, 4)])]
    return client(k, *messages)


def made(rounds):
    """The three files that are made by rule."""
    shown = [reach(surface(k, token=k)) for k in (2, 3)]
    half = (0, 0, 32, 32)
    quads = [quad(embed(shown[0]), half), quad(embed(shown[1]), half, offset=(32, 0), opacity=128),
             quad(solid(WHITE), (0, 0, 64, 32))]
    page = frame((64, 32), quads, references=shown, token=1)
    first = client(1, relation(sink(1), sink(2)), relation(sink(1), sink(3)),
                   b"\2" + local(1, 1, 1) + page, root())
    return [first, made_child(2, rounds), made_child(3, rounds)]


def by_rule():
    for n, line, entries, steps in (
            (1, "entries 15 frames 1 returns 0 painted 4096", 15, 4096),
            (3, "entries 37 frames 3 returns 4 painted 8368", 37, 8368)):
        put("demo_summaries", "demo %d" % n, line=line, entries=entries, steps=steps)
    for rounds, piece, turns in ((1, None, True), (1, 100, True), (1, 1, False), (3, None, False)):
        put("made_files", "gen %d f l a" % rounds, line="made 3 files",
            left=list(zip("fla", made(rounds))), piece=piece, turns=turns)


# ---------------------------------------------------------------- a page


def packed(data):
    """The pieces of a file: hexadecimal digits, and where four bytes stand often one behind the other
    these once, with their number."""
    pieces, plain, at = [], b"", 0
    while at < len(data):
        unit, count = data[at:at + 4], 1
        while data[at + 4 * count:at + 4 * count + 4] == unit:
            count += 1
        if len(unit) == 4 and count > 16:
            pieces += ([plain.hex()] if plain else []) + ["%sx%d" % (unit.hex(), count)]
            plain, at = b"", at + 4 * count
        else:
            plain, at = plain + data[at:at + 1], at + 1
    return pieces + ([plain.hex()] if plain else [])


def page_child(k, rounds, side, tiles):
    """A child of the page: tiles, of which those at the right and the lower edge show a half, and in
    each round a caret that moves inside its damage."""
    size = (side * tiles - side // 2,) * 2
    messages = [upload(n + 1, (side, side), (20 * n, 0, 80 * (k - 1), 255)) for n in range(tiles * tiles)]
    listed = [(n + 1, side, side) for n in range(tiles * tiles)]
    last = side // 2
    areas = [(0, 0, last if n % tiles == tiles - 1 else side, last if n // tiles == tiles - 1 else side)
             for n in range(tiles * tiles)]
    shown = [quad(tile(n + 1), area, offset=(side * (n % tiles), side * (n // tiles)))
             for n, area in enumerate(areas)]
    for r in range(1, rounds + 1):
        caret = quad(solid(WHITE), (0, 0, 2, 16), offset=(8 * r, 40))
        damage = (0, 0, *size) if r == 1 else (8 * r - 8, 40, 10, 16)
        messages += [AWAIT, RECLAIM, submit(1, 1, k, size=size, quads=[caret, *shown], damage=damage,
                                            resources=listed, answers=r)]
    return client(k, *messages)


def page(name, words):
    """A browser page, paced: a toolbar and two children, each on its own thread."""
    shown = [reach(surface(k, token=k)) for k in (2, 3)]
    half = (0, 0, 640, 640)
    quads = [quad(solid(GREY), (0, 0, 1280, 80)), quad(embed(shown[0]), half, offset=(0, 80)),
             quad(embed(shown[1]), half, offset=(640, 80))]
    first = client(1, relation(sink(1), sink(2)), relation(sink(1), sink(3)),
                   submit(1, 1, size=(1280, 720), quads=quads, references=shown), ROOT)
    files = [("a", first), *((name, page_child(k, 8, 256, 3)) for name, k in (("b", 2), ("c", 3)))]
    put(name, words, packed=[(file, packed(data)) for file, data in files], judge="check 1280 720 f l a b c")


def page_run():
    page("browser_page", "run --paced 1280 720 8 f l a b c")


# ---------------------------------------------------------------- refusals


def refused_files():
    for changes, place in (
            ([(0, 0x57)], "0: Magic"), ([(4, 3)], "4: Version"), ([(6, 0), (10, 0)], "6: Limit"),
            ([(15, 0x20)], "14: Limit"), ([(18, 9)], "18: Tag"), ([(19, 0)], "19: Limit"),
            ([(51, 65)], "51: Limit"), ([(110, 0)], "102: Limit"), ([(134, 2)], "134: Tag"),
            ([(140, 0x7f)], "137: Colour")):
        data = bytearray(ONE_QUAD)
        for at, byte in changes:
            data[at] = byte
        refused("changed_bytes", "file 1 refused at " + place, bytes(data))
    for n in range(len(ONE_QUAD)):
        refused("short_trailing_sink_taken", "file 1 refused at %d: Short" % n, ONE_QUAD[:n])
    refused("short_trailing_sink_taken", "file 1 refused at 166: Trailing", ONE_QUAD + b"\0")
    put("short_trailing_sink_taken", "step 4 2 s f l a b",
        [("s", EVENTS), ("a", ONE_QUAD), ("b", ONE_QUAD)], 3, "file 2 refused at 6: SinkTaken")
    refused("hostile_files", "file 1 refused at 18: Short", ONE_QUAD[:14] + b"\0\x10\0\0")
    refused("hostile_files", "file 0 refused at 0: Tag", events=b"\2")
    refused("hostile_files", "file 0 refused at 64: Limit", events=65 * b"\x12", size=(2048, 2048))
    refused("hostile_files", "file 0 refused at 65536: Long", ones=[("s", 65537)])
    refused("hostile_files", "file 1 refused at 16777216: Long", ones=[("a", 16777217)])
    refused("hostile_files", "file 1 refused at 0: Short", b"", b"\2")
    for events, place in ((b"\1\1\x12\0", 3), (b"\1\x15\0\0", 1), (b"\2\1\x12\x13", 0)):
        refused("refused_schedules", "file 0 refused at %d: Tag" % place, events=events)


def refused_words():
    files = [("s", EVENTS), ("a", ONE_QUAD), ("f", b"old"), ("l", b"older")]
    long, files17 = "n" * 256, " ".join("x%d" % k for k in range(17))
    for words in (
            "", "step", "step 4 2 s f l", "steps 4 2 s f l a", "step 0 2 s f l a",
            "step 4 2049 s f l a", "step 04 2 s f l a", "step +4 2 s f l a",
            "step 4 4294967298 s f l a", "step 4 2 s f f a", "step 4 2 s f -l a",
            "step 4 2 s f l -a", "step 4 2 s f l " + long, "step 4 2 s f l " + files17,
            "step -- 4 2 s f l a", "--help", "--version", "run --buffers 5 4 2 0 f l a",
            "run --buffers=2 4 2 0 f l a", "run --buffers 0 4 2 0 f l a", "run --buffers 4 2 0 f l a",
            "run --buffers 2 --paced 4 2 0 f l a", "run --paced --paced 4 2 0 f l a",
            "run 4 2 f l a", "run 4 2 0 f l", "run 4 2 257 f l a",
            "run 4 2 00 f l a", "run 4 2 0 f f a", "run 2048 2048 64 f l a", "gen 1 a b", "gen 1 a b b", "gen 0 a b c",
            "gen 1001 a b c", "gen 1 a b c d", "demo", "demo 0", "demo 1001", "demo 1 a"):
        put("refused_words", words, files, 2, "words refused")
    put("longest_name", "step 4 2 s f l " + long[:255], [("s", b""), (long[:255], ONE_QUAD)],
        line="done 0 entries 0 frames", log=["end"], left=[("f", b"")])


def verdicts():
    """Logs and frames that are judged."""
    whole = [*QUAD_LOG, "end"]

    judged("yes", status=0)
    judged("yes", status=0, piece=1)
    judged("no 3 Frame", frames=b"\1" + QUAD_PICTURE[1:])
    judged("no 3 Frame", frames=QUAD_PICTURE[:-1])
    judged("no 3 Frame", frames=b"")
    judged("no 4 Reply", log=[*QUAD_LOG[:3], "done shown", "end"])
    judged("no 1 Reply", log=["c2 rooted", *whole])
    judged("no 5 Length", frames=QUAD_PICTURE + b"\0")
    judged("no 5 LogText", log=QUAD_LOG)
    judged("no 5 LogText", log=[*whole, "end"])
    judged("no 3 LogText", log=[*QUAD_LOG[:2], "draw drawn 0 0 04 2", *whole[3:]])
    judged("no 1 LogText", log=[])
    judged("no 5 Rest", log=[*QUAD_LOG, "held 1.1x1", "end"])
    judged("yes", log=["end"], frames=b"", status=0)
    judged("no 1 Length", log=["end"])
    judged("no 9 Frame", log=DISHONEST_LOG + ["end"], frames=3 * QUAD_PICTURE, files=[DISHONEST])
    judged("yes", log=DISHONEST_LOG + ["end"], status=0, files=[DISHONEST],
           frames=2 * QUAD_PICTURE + picture(2 * [".gg."]))
    put("short_trailing_sink_taken", "check 4 2 f l a b",
        [("f", b""), ("l", b""), ("a", ONE_QUAD), ("b", ONE_QUAD)], 3, "file 2 refused at 6: SinkTaken")
    put("failing_devices", "check 4 2 f l a", [("l", b"end\n"), ("a", ONE_QUAD)], 4)
    put("failing_devices", "check 4 2 f l a", [("f", b""), ("a", b"")], 4)


def failing():
    """A file that is to be read and is not there, also beside one that is refused."""
    put("failing_devices", "step 4 2 s f l a", [("s", EVENTS)], 4)
    put("failing_devices", "step 4 2 s f l a", [("a", ONE_QUAD), ("f", b"old")], 4)
    put("failing_devices", "step 4 2 s f l a b", [("s", EVENTS), ("a", b"")], 4)
