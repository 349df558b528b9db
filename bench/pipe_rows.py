"""Rows of calls, for rows.py: a thread of its own writes the frames of a run.

The same logs, frames and lines come as without `--pipe`.
"""
from file_rows import page
from spelling import AWAIT, BLUE, GREEN, ONE_QUAD, RECLAIM, ROOT, client, picture, quad, solid, submit
from table import ORDERS_OF_A_QUAD, QUAD_PICTURE, answer, four_frames, put, run


def piped():
    for more in (dict(turns=True), dict(piece=1)):
        run("piped_run", [ONE_QUAD], ["--pipe"], ORDERS_OF_A_QUAD, [QUAD_PICTURE], 16, **more)
    run("piped_run_without_a_message", [client(1)], ["--pipe"], [["over ended", "draw noroot"]])
    messages, log, frames = four_frames()
    for words, steps, more in ((["--paced"], 286, dict(turns=True)),
                               (["--paced", "--buffers", "4"], 512, dict(piece=1))):
        run("frames_of_a_piped_run", [client(1, *messages)], [*words, "--pipe"], [log], frames, steps,
            (8, 8), 4, **more)
    frames_of_two_threads()
    page("piped_browser_page", "run --paced --pipe 1280 720 8 f l a b c")
    refusals()


def frames_of_two_threads():
    """A red and a green quad in the rounds, whose frames the writer writes, and a blue one behind Over, whose frame
    the caller's thread writes after it; and the same without a writer. No two frames are alike, so their order shows."""
    green, blue = ([quad(solid(colour), (1, 0, 2, 2))] for colour in (GREEN, BLUE))
    messages = [AWAIT, ROOT, answer(1), AWAIT, answer(2, quads=green), AWAIT, submit(1, 1, quads=blue)]
    log = []
    for k, came in enumerate((["begin ticked 1", "c1 began 1", "c1 rooted"], ["begin ticked 2", "c1 began 2"],
                              ["over ended", "c1 over"]), 1):
        log += [*came, "c1 accepted %d %d +1.%d" % (k, k, k), "draw drawn 0 0 4 2", "done shown p1.%d" % k]
    frames = [picture(2 * [".%s." % (2 * colour)]) for colour in "rgb"]
    for name, pipe in (("frames_of_a_run", []), ("frames_of_a_piped_run", ["--pipe"])):
        run(name, [client(1, *messages)], ["--paced", *pipe], [log], frames, 40, ticks=2, turns=True)


def refusals():
    """Inputs that are refused, and files that are not there."""
    others = [("f", b"old"), ("l", b"older")]
    for words in ("--pipe --paced", "--pipe --pipe", "--pipe --buffers 2"):
        put("refused_words_of_a_piped_run", "run %s 4 2 0 f l a" % words, [("a", ONE_QUAD), *others],
            2, "words refused")
    put("refused_files_of_a_piped_run", "run --pipe 4 2 0 f l a", [("a", ONE_QUAD[:165]), *others], 3,
        "file 1 refused at 165: Short")
    put("failing_devices", "run --pipe 4 2 0 f l a b", [("a", client(1, RECLAIM)), *others], 4)
