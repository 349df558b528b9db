"""Rows of calls, for rows.py: one for each case that has a folder with its files and what must come."""
from pathlib import Path

from table import TABLE

CASES = Path(__file__).resolve().parent.parent / "crates/vz_test_calls/data"

# Worked histories, and cases that an independent reading of the rules made at random (the number is the
# seed): the width and the height of the display, the clients, and the folders of the cases of these.
BY_DISPLAY = {
    (4, 2, 1): """
        one_opaque_quad empty_schedule every_draw_but_the_last every_draw_and_done_answer
        wrong_size_refused older_id_refused temporary_reference_ends
        three_references_one_return deadline_of_0 deadline_of_64 upload_while_lent
        begin_frame_delivery malformed_frames malformed_root dishonest_client format_two_1""",
    (1, 1, 1): """
        blend_over half_white group_of_two blend_modes_1 blend_modes_2 blend_modes_3
        blend_modes_4 blend_modes_5""",
    (8, 4, 1): "skipped_frame_damage",
    (8, 8, 2): """
        embedding_without_references root_of_the_second_client switch_and_gutter""",
    (16, 16, 2): "clip_after_move_first clip_after_move",
    (8, 8, 1): "stale_rectangles",
    (4, 2, 3): "cycle_of_closed_clients cycle_is_drawn",
    (4, 2, 2): "deadlock_broken_by_deadline hierarchy_refusals",
    (4, 2, 16): "weight_limit_passed",
    (4, 2, 15): "weight_limit_kept",
    (2, 5, 2): "ranges_13",
    (19, 21, 4): "waiting_47",
    (4, 9, 2): "storm_98",
    (11, 10, 3): "passing_100",
    (2, 1, 14): "heavy_118 heavy_432 heavy_461",
    (6, 2, 4): "waiting_185",
    (5, 4, 4): "ring_224",
    (5, 4, 3): "ring_279 ring_728",
    (1, 6, 2): "page_317",
    (1, 7, 3): "frames_342",
    (13, 18, 2): "frames_354",
    (13, 9, 5): "storm_380",
    (9, 20, 3): "waiting_488",
    (3, 3, 4): "gates_575",
    (8, 14, 2): "storm_610",
    (8, 8, 4): "waiting_649",
    (4, 6, 3): "groups_654",
    (3, 3, 6): "gates_678",
    (2, 9, 1): "returns_800",
    (4, 8, 1): "groups_813",
    (18, 9, 4): "frames_822",
    (3, 3, 5): "gates_868",
    (7, 4, 2): "frames_946",
    (9, 6, 2): "groups_1031",
    (12, 9, 3): "claims_1043",
    (16, 11, 3): "frames_1142",
    (16, 9, 3): "cycle_1169",
}


# Of clients that change more than their damage says, what the independent reading says of the frames.
VERDICTS = {"dishonest_client": "no 9 Frame", "frames_946": "no 16 Frame", "groups_1031": "no 41 Frame",
            "claims_1043": "no 22 Frame"}


def cases():
    """Each case of a folder by `step`, and its log and frames judged by `check`."""
    for (w, h, clients), names in BY_DISPLAY.items():
        for name in names.split():
            case(name, w, h, [str(k) for k in range(1, clients + 1)])


def case(name, w, h, clients):
    log = (CASES / name / "log").read_text(encoding="ascii").splitlines()
    entries = [part for part in log if not part.startswith(("held", "open", "end"))]
    frames = (CASES / name / "frames").stat().st_size // (4 * w * h)
    TABLE.append("\n".join([
        "row case " + name, "words step %d %d s f l %s" % (w, h, " ".join(clients)), "turns",
        "read s %s/schedule" % name, *("read %s %s/%s.viz" % (k, name, k) for k in clients),
        "must f %s/frames" % name, "must l %s/log" % name, "entries %d" % len(entries),
        "line done %d entries %d frames" % (len(entries), frames),
        "judge check %d %d f l %s" % (w, h, " ".join(clients)),
        *(["verdict " + VERDICTS[name]] if name in VERDICTS else [])]))
