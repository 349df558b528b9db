"""Rows of calls, for rows.py: clients on threads and the display take turns.

Which order comes about is not known, so each row has a line and a number of entries that are the
same for every order: nothing is drawn. No file is written, so what stands under the names of frames
and of a log in other commands stays.
"""
from spelling import AWAIT, CLIENTS, CLOSE, ONE_QUAD, RECLAIM, ROOT, UPLOAD, client, submit
from table import put

OTHERS = [("f", b"old"), ("l", b"older")]
ONE_QUAD_OF_2 = client(2, submit(1, 1), ROOT)


def turns(name, files, entries, ticks=0, **more):
    """Turns that go well."""
    names = CLIENTS[:len(files)]
    put(name, "turns 4 2 %d %s" % (ticks, " ".join(names)), [*zip(names, files), *OTHERS],
        line="done %d entries 0 frames" % entries, entries=entries, **more)


def orders():
    turns("turns_of_one_client", [ONE_QUAD], 2, turns=True)
    turns("turns_of_one_client", [ONE_QUAD], 2, piece=1)
    turns("turns_without_a_message", [client(1)], 0)
    turns("turns_without_a_message", [client(1)], 768, 256)
    pairs = [client(k, submit(1, 1), ROOT) for k in range(1, 17)]
    turns("turns_of_three_clients", pairs[:3], 6, turns=True)
    turns("turns_of_sixteen_clients", pairs, 32)
    # No client names a root.
    frames = [client(k, *(submit(1, 1) for _ in range(4))) for k in range(1, 17)]
    turns("turns_without_a_root", frames[:2], 8 + 3 * 20, 20)
    turns("turns_without_a_root", frames, 64 + 3 * 256, 256)


def early():
    """A message that comes too early, or after a Close, makes an entry too."""
    turns("turns_with_an_early_await", [client(1, AWAIT, AWAIT, ROOT)], 3)
    turns("turns_with_an_early_await", [client(1, AWAIT, AWAIT), client(2, UPLOAD, AWAIT, RECLAIM)], 5)
    turns("turns_after_a_close", [client(1, submit(1, 1), CLOSE, submit(1, 2), RECLAIM), ONE_QUAD_OF_2], 6)


def faults():
    """What is refused, or is not there."""
    for words in ("turns 4 2 257 a", "turns 4 2 00 a", "turns 4 2 0", "turns 4 2 a", "turns 4 2 0 a a",
                  "turns 0 2 0 a", "turns 2048 2048 64 a", "turns --paced 4 2 0 a"):
        put("refused_turns", words, [("a", ONE_QUAD), *OTHERS], 2, "words refused")
    for files, line in (([ONE_QUAD[:165]], "file 1 refused at 165: Short"),
                        ([ONE_QUAD, ONE_QUAD_OF_2[:-1]], "file 2 refused at 165: Short"),
                        ([ONE_QUAD, ONE_QUAD], "file 2 refused at 6: SinkTaken")):
        names = CLIENTS[:len(files)]
        put("refused_files_of_turns", "turns 4 2 0 " + " ".join(names), [*zip(names, files), *OTHERS],
            3, line)
    put("failing_devices", "turns 4 2 0 a", OTHERS, 4)
    put("failing_devices", "turns 4 2 0 a b", [("a", b""), *OTHERS], 4)


def all_turns():
    for part in (orders, early, faults):
        part()
