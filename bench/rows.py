#!/usr/bin/env python3
"""Writes the table of worked rows of `vz_test_calls`: rows.py > ../crates/vz_test_calls/data/rows.txt

Each row is a call of the program: its words, the files that it is given, and what must come, which
is written here by hand, or for the cases stands in their folders. Client files are spelled from
messages (spelling.py). README.md says more.
"""
from case_rows import cases
from file_rows import by_rule, failing, page_run, refused_files, refused_words, verdicts
from hit_rows import hits
from pipe_rows import piped
from spelling import (
    AWAIT, BLUE, CLIENTS, CLOSE, DST_IN, GREEN, LISTED, NO_SINK, ONE_QUAD, OVER, RECLAIM, RED,
    RED_QUAD, ROOT, SRC, UPLOAD, WHITE, client, embed, group, local, picture, produced_nothing,
    quad, reach, relation, render_pass, sink, solid, submit, surface)
from stop_rows import stops
from table import (
    DISHONEST, DISHONEST_LOG, EVENTS, ORDERS_OF_A_QUAD, PLAIN, QUAD_LOG, QUAD_PICTURE, TABLE,
    answer, four_frames, judged, put, refused, run, step)
from turn_rows import all_turns


def one_client():
    step("one_opaque_quad", [ONE_QUAD], PLAIN, QUAD_LOG, [QUAD_PICTURE], 16, turns=True)
    step("pieces_of_one_byte", [ONE_QUAD], PLAIN, QUAD_LOG, [QUAD_PICTURE], 16, piece=1, turns=True)
    step("empty_schedule", [ONE_QUAD], "", [])
    step("no_message", [ONE_QUAD[:14] + bytes(4)], "", [])
    put("outputs_are_written_over", "step 4 2 s f l a",
        [("s", EVENTS), ("a", ONE_QUAD), ("f", bytes(99)), ("l", bytes(99)), ("b", b"other")],
        line="done 4 entries 1 frames", log=[*QUAD_LOG, "end"], left=[("f", QUAD_PICTURE)],
        entries=4, steps=16, turns=False)
    step("every_draw_and_done_answer", [client(1, ROOT, submit(1, 1))],
         "draw c1 draw c1 draw draw done done draw",
         ["draw noroot", "c1 rooted", "draw noroot", "c1 accepted 1 1 +1.1", "draw drawn 0 0 4 2",
          "draw busy", "done shown p1.1", "done nothing", "draw unchanged"], [QUAD_PICTURE], 16)
    over, first, second = "over ended", QUAD_LOG[0], QUAD_LOG[1]
    for events, head in (("over c1 c1", [over, first, second]), ("c1 over c1", [first, over, second]),
                         ("c1 c1 over", [first, second, over])):
        step("three_orders", [ONE_QUAD], events + " draw done", head + QUAD_LOG[2:],
             [QUAD_PICTURE], 16)


def runs():
    over, first, second = "over ended", QUAD_LOG[0], QUAD_LOG[1]
    logs = ORDERS_OF_A_QUAD
    run("run_in_three_orders", [ONE_QUAD], [], logs, [QUAD_PICTURE], 16, turns=True)
    run("run_in_three_orders", [ONE_QUAD], [], logs, [QUAD_PICTURE], 16, piece=1)
    run("run_without_a_message", [client(1)], [], [["over ended", "draw noroot"]])
    begin, began = "begin ticked 1", "c1 began 1"
    paced = ["c1 accepted 2 2 +1.2 d1.1", "draw drawn 0 0 4 2", "done shown p1.2", over,
             "draw unchanged"]
    orders = [[begin, first, second], [first, begin, second], [first, second, begin]]
    run("draw_behind_the_second_acceptance", [client(1, submit(1, 1), ROOT, AWAIT, answer(1))],
        ["--paced"], [head + [began] + paced for head in orders], [QUAD_PICTURE], 16, ticks=1)
    messages, log, frames = four_frames()
    for words, steps in (([], 286), (["--buffers", "1"], 137), (["--buffers", "2"], 286),
                         (["--buffers", "3"], 440), (["--buffers", "4"], 512)):
        run("buffers_of_a_run", [client(1, *messages)], ["--paced", *words],
            [log], frames, steps, (8, 8), 4)
    waiting = client(1, submit(1, 1, waits=[NO_SINK + local(1, 1)], deadline=2), ROOT)
    behind = ["begin ticked 1", "begin ticked 2 +1.1", "draw drawn 0 0 4 2", "done shown p1.1"]
    run("begins_until_nothing_waits", [waiting], [],
        [[over, "c1 accepted 1 1", second] + behind, ["c1 accepted 1 1", over, second] + behind,
         ["c1 accepted 1 1", second, over] + behind], [QUAD_PICTURE], 16)
    refusals = (("a", ONE_QUAD[:165], "file 1 refused at 165: Short"),
                ("a b", ONE_QUAD, "file 2 refused at 6: SinkTaken"))
    for names, data, line in refusals:
        put("refused_files_of_a_run", "run 4 2 0 f l " + names,
            [("f", b"old"), ("l", b"older"), *((name, data) for name in names.split())], 3, line)
    put("refused_files_of_a_run", "run 4 2 0 f l a b", [("a", ONE_QUAD)], 3,
        "file 2 refused at 16777216: Long", ones=[("b", 16777217)])
    put("failing_devices", "run 4 2 0 f l a b", [("a", b"")], 4)


def dot(name, passes, pixel, form=1):
    step(name, [client(1, submit(1, 1, passes=passes), ROOT, form=form)], PLAIN,
         ["c1 accepted 1 1 +1.1", "c1 rooted", "draw drawn 0 0 1 1", "done shown p1.1"],
         [bytes.fromhex(pixel)], 2, (1, 1))


def colours():
    unit, one = (0, 0, 1, 1), (1, 1)
    half, faint = (128, 0, 0, 128), (0, 0, 0, 128)
    white, light = quad(solid(WHITE), unit), quad(solid(WHITE), unit, opacity=128)
    dot("blends_and_group", [render_pass(1, one, [quad(solid(half), unit), white])], "ff7f7fff")
    dot("blends_and_group", [render_pass(1, one, [light])], "808080ff")
    dot("blends_and_group", [render_pass(1, one, [white, white]),
                             render_pass(2, one, [quad(group(1), unit, opacity=128)])], "808080ff")
    dot("white_laid_twice", [render_pass(1, one, [light, light])], "c0c0c0ff")
    under, nothing = quad(solid(WHITE), unit, mode=OVER), render_pass(1, one, [])
    for front, passes, pixel in (
            (quad(solid(half), unit, mode=SRC), [], "80000080"),
            (quad(solid(faint), unit, mode=DST_IN), [], "80808080"),
            (quad(solid(RED), unit, opacity=128, mode=SRC), [], "80000080"),
            (quad(group(1), unit, mode=DST_IN), [nothing], "00000000"),
            (quad(group(1), unit, mode=OVER), [nothing], "ffffffff")):
        dot("blend_modes", passes + [render_pass(2, one, [front, under])], pixel, 2)
    later = ONE_QUAD[:4] + b"\2" + ONE_QUAD[5:]
    step("format_two_bytes", [later[:136] + b"\0" + later[136:]], PLAIN, QUAD_LOG, [QUAD_PICTURE], 16)
    refused("format_two_bytes", "file 1 refused at 136: Tag", later[:136] + b"\3" + later[136:])
    refused("format_two_bytes", "file 1 refused at 137: Tag", later)


def submissions():
    step("wrong_size_refused", [client(1, submit(1, 1), submit(1, 1, size=(4, 3)), submit(1, 1))],
         "c1 c1 c1", ["c1 accepted 1 1 +1.1", "c1 refused 5", "c1 accepted 2 2 +1.2 d1.1",
                      "open 1.2"])
    ids = [client(1, submit(2, 1), submit(1, 2), submit(2, 2))]
    head = ["c1 accepted 1 1 +1.1", "c1 refused 4", "c1 accepted 2 1 +1.2"]
    step("older_id_refused", ids, "c1 c1 c1", head + ["open 1.1", "open 1.2"])
    ticks = ["begin ticked %d" % n for n in range(1, 16)]
    step("temporary_reference_ends", ids, "c1 c1 c1" + 16 * " begin",
         head + ticks + ["begin ticked 16 x1.1 d1.1", "open 1.2"])
    outside = quad(solid(RED), (1, 0, 2, 2), visible=(0, 0, 2, 2))
    step("malformed_frames", [client(1, submit(1, 1, passes=[]),
                                     submit(1, 1, quads=[outside], damage=(0, 0, 5, 2)))],
         "c1 c1", ["c1 refused 2 1", "c1 refused 2 5"])
    step("malformed_frames", [client(1, submit(1, 1, resources=[(9, 1, 1)]))], "c1", ["c1 refused 3"])
    listing = submit(1, 1, resources=LISTED)
    step("three_references_one_return",
         [client(1, UPLOAD, listing, listing, listing, ROOT, submit(1, 1))],
         "c1 c1 c1 c1 c1 draw c1 done",
         ["c1 stored", "c1 accepted 1 1 +1.1", "c1 accepted 2 2 +1.2 d1.1",
          "c1 accepted 3 3 +1.3 d1.2", "c1 rooted", "draw drawn 0 0 4 2", "c1 accepted 4 4 +1.4",
          "done shown <1.1x3 p1.3", "open 1.4"], [QUAD_PICTURE], 16, turns=True)
    step("upload_while_lent", [client(1, UPLOAD, listing, submit(1, 1), UPLOAD, RECLAIM, UPLOAD)],
         "c1 c1 c1 c1 c1 c1",
         ["c1 stored", "c1 accepted 1 1 +1.1", "c1 accepted 2 2 +1.2 <1.1x1 d1.1", "c1 refused 6",
          "c1 reclaimed 1x1", "c1 stored", "open 1.2"])


def waiting():
    nobody = NO_SINK + local(1, 1)
    step("deadlock_broken_by_deadline",
         [client(1, submit(1, 1, waits=[surface(2)], deadline=2)),
          client(2, submit(1, 1, waits=[surface(1)], deadline=5))], "c1 c2 begin begin",
         ["c1 accepted 1 1", "c2 accepted 1 1", "begin ticked 1", "begin ticked 2 +1.1 +2.1",
          "open 1.1", "open 2.1"])
    step("deadline_bounds", [client(1, submit(1, 1, waits=[nobody], deadline=0))], "c1",
         ["c1 accepted 1 1 +1.1", "open 1.1"])
    step("deadline_bounds", [client(1, submit(1, 1, waits=[nobody], deadline=64))],
         "c1" + 64 * " begin", ["c1 accepted 1 1"] + ["begin ticked %d" % n for n in range(1, 64)]
         + ["begin ticked 64 +1.1", "open 1.1"])
    step("begin_frame_delivery", [client(1, AWAIT, produced_nothing(1), AWAIT)],
         "c1 begin c1 c1 over c1 c1",
         ["c1 refused 11", "begin ticked 1", "c1 began 1", "c1 noted", "over ended", "c1 over",
          "c1 refused 12"])
    step("hierarchy_refusals",
         [client(1, relation(sink(1), sink(2)), relation(sink(1), NO_SINK),
                 relation(sink(2), sink(2))),
          client(2, relation(sink(2), sink(1)), relation(sink(1), sink(2)), ROOT, CLOSE, AWAIT)],
         "c1 c1 c1 c2 c2 c2 c2 c2",
         ["c1 joined", "c1 refused 9", "c1 refused 8", "c2 refused 8", "c2 refused 10",
          "c2 refused 7", "c2 left", "c2 refused 1"])
    wide = dict(size=(8, 4))
    step("skipped_frame_damage",
         [client(1, submit(1, 1, **wide), ROOT,
                 submit(1, 1, waits=[nobody], damage=(1, 0, 2, 1), **wide),
                 submit(1, 1, damage=(4, 1, 2, 1), **wide))],
         "c1 c1 draw done c1 c1 draw done",
         ["c1 accepted 1 1 +1.1", "c1 rooted", "draw drawn 0 0 8 4", "done shown p1.1",
          "c1 accepted 2 2", "c1 accepted 3 3 +1.3 d1.2", "draw drawn 1 0 5 2", "done shown p1.3"],
         2 * [picture([".rr....."] * 2 + ["........"] * 2)], 128, (8, 4))


def damages():
    square = dict(size=(8, 8))
    hurts = [(0, 0, 8, 8), (0, 0, 2, 2), (0, 6, 2, 2), (6, 6, 1, 1)]
    first, *others = [submit(1, 1, damage=hurt, **square) for hurt in hurts]
    log = ["c1 accepted 1 1 +1.1", "c1 rooted", "draw drawn 0 0 8 8", "done shown p1.1"]
    for n, hurt in ((2, "0 0 2 2"), (3, "0 6 2 2"), (4, "6 6 1 1")):
        log += ["c1 accepted %d %d +1.%d" % (n, n, n), "draw drawn " + hurt, "done shown p1.%d" % n]
    step("stale_rectangles", [client(1, first, ROOT, *others)], "c1" + 4 * " c1 draw done", log,
         4 * [picture([".rr....."] * 2 + ["........"] * 6)], 286, (8, 8))
    step("dishonest_client", [DISHONEST], "c1" + 3 * " c1 draw done", DISHONEST_LOG,
         3 * [QUAD_PICTURE], 33)


def embeddings():
    both = reach(surface(2, 2, 1), surface(2))
    content = [quad(embed(both, GREEN), (0, 0, 6, 6), offset=(1, 1))]
    second = client(2, submit(1, 1, size=(4, 4), quads=[quad(solid(RED), (0, 0, 4, 4))]),
                    submit(2, 1, size=(6, 6), quads=[quad(solid(BLUE), (0, 0, 6, 6))],
                           damage=(0, 0, 1, 1)))
    log = ["c2 accepted 1 1 +2.1", "c1 accepted 1 1 +1.1", "c1 rooted", "draw drawn 0 0 8 8",
           "done shown p2.1 p1.1"]
    gutter = picture(["........"] + 4 * [".rrrrgg."] + 2 * [".gggggg."] + ["........"])
    filled = picture(["........"] + 6 * [".bbbbbb."] + ["........"])
    first = client(1, submit(1, 1, size=(8, 8), quads=content, references=[both]), ROOT)
    step("switch_and_gutter", [first, second], "c2 c1 c1 draw done c2 draw done",
         log + ["c2 accepted 2 1 +2.2 x2.1", "draw drawn 1 1 6 6", "done shown p2.2"],
         [gutter, filled], 256, (8, 8), turns=True)
    whole = log + ["c2 accepted 2 1 +2.2 x2.1", "draw drawn 1 1 6 6", "done shown p2.2", "end"]
    judged("yes", whole, gutter + filled, [first, second], (8, 8), 0)
    cut = ["3 Frame", "2 Reply", "3 Reply", "4 Reply", "6 Reply", "6 Reply", "7 Reply", "8 Rest",
           "9 LogText"]
    for k, what in enumerate(cut):
        judged("no " + what, whole[:k] + whole[k + 1:], gutter + filled, [first, second], (8, 8),
               name="each_line_cut_out")
    alone = client(1, submit(1, 1, size=(8, 8), quads=content), ROOT)
    step("embedding_without_references", [alone, second], "c2 c1 c1 draw done", log, [gutter], 128,
         (8, 8))
    step("embedding_without_references", [alone, client(2, ROOT)], "c2", ["c2 refused 7"],
         size=(8, 8))


def cycles():
    def embedding(k, **parts):
        return submit(1, 1, references=[reach(surface(k))],
                      quads=[quad(embed(reach(surface(k))), (0, 0, 4, 2)), RED_QUAD], **parts)

    files = [client(1, embedding(2), ROOT, submit(1, 1)),
             client(2, UPLOAD, embedding(3, resources=LISTED), CLOSE),
             client(3, UPLOAD, embedding(2, resources=LISTED), CLOSE)]
    head = ["c2 stored", "c2 accepted 1 1 +2.1", "c3 stored", "c3 accepted 1 1 +3.1",
            "c1 accepted 1 1 +1.1", "c1 rooted"]
    step("cycle_of_closed_clients", files, "c2 c2 c3 c3 c1 c1 c2 c3 c1",
         head + ["c2 left", "c3 left", "c1 accepted 2 2 +1.2 x2.1 x3.1 <2.1x1 <3.1x1 d2.1 d3.1 d1.1",
                 "open 1.2"])
    step("cycle_is_drawn", files, "c2 c2 c3 c3 c1 c1 draw",
         head + ["draw drawn 0 0 4 2", "held 2.1x1", "held 3.1x1", "open 1.1", "open 2.1",
                 "open 3.1"], [QUAD_PICTURE], 16)


def paths():
    shown = embed(reach(surface(2)))
    inner = render_pass(1, (6, 6), [quad(shown, (0, 0, 8, 8), offset=(1, 1))])
    outer = render_pass(2, (16, 16), [
        quad(shown, (0, 0, 8, 8), offset=(2, 2), clip=(2, 2, 4, 4)),
        quad(group(1), (0, 0, 6, 6), offset=(9, 9), opacity=128)])
    white = quad(solid(WHITE), (0, 0, 8, 8))
    first = client(1, submit(1, 1, passes=[inner, outer], references=[reach(surface(2))]), ROOT)
    second = client(2, submit(1, 1, size=(8, 8), quads=[white]),
                    submit(1, 1, size=(8, 8), quads=[quad(solid(RED), (3, 3, 3, 3)), white],
                           damage=(3, 3, 3, 3)))
    black, seen, faint = "." * 16, "..wwww" + "." * 10, "." * 10 + "hhhhh."
    changed, darker = "..wwwr" + "." * 10, "." * 10 + "hhhdd."
    step("clip_after_move", [first, second], "c2 c1 c1 draw done c2 draw done",
         ["c2 accepted 1 1 +2.1", "c1 accepted 1 1 +1.1", "c1 rooted", "draw drawn 0 0 16 16",
          "done shown p2.1 p1.1", "c2 accepted 2 2 +2.2", "draw drawn 5 5 10 10",
          "done shown p2.2"],
         [picture([black] * 2 + [seen] * 4 + [black] * 4 + [faint] * 5 + [black]),
          picture([black] * 2 + [seen] * 3 + [changed] + [black] * 4 + [faint] * 3 + [darker] * 2
                  + [black])], 1024, (16, 16))
    for count, answer in ((16, "draw toomuch"), (15, "draw drawn 0 0 4 2")):
        files = [client(k, submit(1, 1, quads=2 * [
            RED_QUAD if k == count else quad(embed(reach(surface(k + 1))), (0, 0, 4, 2))]),
            *([ROOT] if k == 1 else [])) for k in range(1, count + 1)]
        numbers = range(1, count + 1)
        step("weight_limit", files, " ".join("c%d" % k for k in numbers) + " c1 draw",
             ["c%d accepted 1 1 +%d.1" % (k, k) for k in numbers] + ["c1 rooted", answer]
             + ["open %d.1" % k for k in numbers],
             [QUAD_PICTURE] if count == 15 else [], 16 if count == 15 else 0)


for part in (one_client, runs, colours, submissions, waiting, damages, embeddings, cycles, paths,
             by_rule, page_run, refused_files, refused_words, verdicts, failing, hits,
             all_turns, piped, stops, cases):
    part()
print("\n\n".join(TABLE))
