"""Rows of calls, for rows.py: which surface is hit at a point of the last drawing.

A hit writes no file, so what stands under the names of frames and of a log in other commands stays.
"""
from file_rows import made
from spelling import (
    CLIENTS, GREEN, ONE_QUAD, RED, RED_QUAD, ROOT, WHITE, client, embed, group, quad, reach,
    render_pass, root, schedule, solid, submit, surface)
from table import EVENTS, put

OTHERS = [("f", b"old"), ("l", b"older")]


def hit(name, files, events, point, line, size=(8, 8), reads=(), **more):
    """A hit that goes well, on files and on files of a folder. Every event makes an entry."""
    names = CLIENTS[:len(files) + len(reads)]
    put(name, "hit %d %d s %d %d %s" % (*size, *point, " ".join(names)),
        [("s", schedule(events)), *zip(names, files)], line="hit " + line,
        reads=list(zip(names[len(files):], reads)), entries=len(events.split()), **more)


def case(name, clients):
    """The files of a case that has a folder."""
    return ["%s/%d.viz" % (name, k) for k in range(1, clients + 1)]


def gutters():
    """A surface of 4 by 4 that is shown at (1,1) in a quad of 6 by 6, until one of 6 by 6 is there."""
    def shown(point, line, events="c2 c1 c1 draw done", name="hit_points", **more):
        hit(name, [], events, point, line, reads=case("switch_and_gutter", 2), **more)

    shown((3, 3), "2 1 1 1 1 2 2", turns=True)
    shown((6, 6), "1 1 1 1 1 6 6", piece=1)
    shown((0, 0), "none")
    shown((6, 6), "2 1 2 1 1 5 5", "c2 c1 c1 draw done c2 draw done")
    shown((3, 3), "none", "")
    for side in ((5, 4), (4, 5)):
        shown(side, "1 1 1 1 1 %d %d" % side, name="hit_in_both_parts_of_a_gutter")


def panes():
    """A root with quads in front of a surface of client 3, which has a quad at every point. The surface
    of client 2 is 4 by 2, and has a quad everywhere but at its left edge."""
    narrow, back = (embed(reach(surface(k))) for k in (2, 3))
    inner = render_pass(1, (3, 3), [quad(narrow, (0, 0, 4, 2), offset=(2, 2), clip=(3, 1, 3, 3))], at=(2, 1))
    outer = render_pass(2, (8, 8), [
        quad(solid((0, 0, 0, 0)), (7, 7, 1, 1), opacity=0),
        quad(narrow, (0, 0, 4, 2), clip=(1, 0, 1, 2)),
        quad(embed(reach(surface(9))), (0, 0, 2, 2), offset=(0, 4)),
        quad(narrow, (0, 0, 4, 3), offset=(4, 0)),
        quad(group(1), (0, 0, 5, 4), offset=(3, 4)),
        quad(back, (0, 0, 8, 8))])
    files = [client(1, submit(1, 1, passes=[inner, outer]), ROOT),
             client(2, submit(1, 1, size=(4, 2), quads=[quad(solid(RED), (1, 0, 3, 2))])),
             client(3, submit(1, 1, size=(8, 8), quads=[quad(solid(WHITE), (0, 0, 8, 8))]))]
    for name, point, line in (
            ("hit_outside_a_clip", (2, 0), "3 1 1 1 1 2 0"),
            ("hit_beyond_the_end_of_a_range", (5, 2), "3 1 1 1 1 5 2"),
            ("hit_where_a_range_shows_nothing", (1, 5), "1 1 1 1 1 1 5"),
            ("hit_through_a_pass_quad_and_a_clip", (5, 6), "2 1 1 1 1 2 1"),
            ("hit_outside_the_output_of_a_pass", (6, 5), "3 1 1 1 1 6 5"),
            ("hit_of_a_quad_without_a_colour", (7, 7), "1 1 1 1 1 7 7")):
        hit(name, files, "c3 c2 c1 c1 draw", point, line)


def rings():
    """The root shows client 2's surface, which shows client 3's, which shows client 2's; each has a quad
    of its own behind."""
    files = [client(k, submit(1, 1, quads=[quad(embed(reach(surface(other))), (0, 0, 4, 2)), RED_QUAD]), ROOT)
             for k, other in ((1, 2), (2, 3), (3, 2))]
    for point, line in (((1, 0), "3 1 1 1 1 1 0"), ((0, 0), "none")):
        hit("hit_on_a_path_that_meets_itself", files, "c3 c2 c1 c1 draw", point, line, (4, 2))


def by_rule():
    """The page of the files by rule, whose second child begins at (32,0)."""
    rounds = 3 * " begin c2 c2 c2 c2 c3 c3 c3 c3 draw done"
    hit("hit_on_made_files", made(3), "c1 c1 c1 c1" + rounds, (45, 2), "3 1 1 1 3 13 2", (64, 32))


def drawings():
    """The last drawing counts: a quad is at (1,0) at first, and at (3,0) in the client's next frame. Its last
    message names a root that has no frame."""
    def moved(name, events, point, line, **parts):
        later = submit(1, 1, quads=[quad(solid(GREEN), (3, 0, 1, 2))], **parts)
        hit(name, [client(1, submit(1, 1), ROOT, later, root(2))], events, point, line, (4, 2))

    moved("hit_of_a_dishonest_frame", "c1 c1 draw done c1 draw", (3, 1), "1 1 1 1 1 3 1", damage=(0, 0, 1, 1))
    moved("hit_after_an_unchanged_draw", "c1 c1 draw done c1 draw", (3, 1), "none", damage=(0, 0, 0, 0))
    moved("hit_after_a_busy_draw", "c1 c1 draw c1 draw", (1, 1), "1 1 1 1 1 1 1")
    moved("hit_after_a_draw_without_a_root", "c1 c1 draw done c1 c1 draw", (1, 1), "1 1 1 1 1 1 1")
    names = ["c%d" % k for k in range(1, 17)]
    for events, line in ((" ".join(names) + " c1 draw", "none"),
                         (" ".join(names[:15]) + " c1 draw done c16 draw", "15 1 1 1 1 1 0")):
        hit("hit_after_too_much", [], events, (1, 0), line, (4, 2), case("weight_limit_passed", 16))


def faults():
    """What is refused, or is not there."""
    put("hit_points", "hit 8 8 s 8 3 a", [("s", EVENTS), ("a", ONE_QUAD), *OTHERS], 2, "words refused")
    for events, data, line in ((EVENTS, ONE_QUAD[:165], "file 1 refused at 165: Short"),
                               (b"\1\1\x12\0", ONE_QUAD, "file 0 refused at 3: Tag")):
        put("refused_files_of_a_hit", "hit 4 2 s 1 0 a", [("s", events), ("a", data), *OTHERS], 3, line)
    put("failing_devices", "hit 4 2 s 1 0 a", [("a", ONE_QUAD), *OTHERS], 4)
    put("failing_devices", "hit 4 2 s 1 0 a b", [("s", EVENTS), ("a", b"")], 4)


def hits():
    for part in (gutters, panes, rings, by_rule, drawings, faults):
        part()
