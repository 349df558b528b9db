"""What is wrong with what a call left in which something failed."""
import errno
import re

from fault_calls import CALL, GROWTH

MEMORY, FAULT = 5, 4
STOPPED = {GROWTH: MEMORY, CALL: FAULT}       # the status if such a call is not made up for
OUTSTANDING = (b"held ", b"open ")


def due_files(row, name):
    """The contents of which a file must have one after a call that went well."""
    if name == "l" and row.logs:
        return row.logs
    if name in row.left:
        return [row.left[name]]
    return [row.given[name]] if name in row.given else []


def is_known(row, name):
    """Whether a file must have contents that are known. Where they are not, `check` judges them with the log."""
    return bool(due_files(row, name)) or not row.is_crowd


def what_is_wrong(row, fault, done, caller):
    """What a call left, or how it ended, that must not be; none if all is well."""
    if done.status is None:
        return "it did not end"
    if done.status < 0:
        return "it was ended by signal %d" % -done.status
    if done.status == row.status:
        return unseen(row, fault, done) or whole(row, done, caller)
    if done.status != STOPPED.get(fault.kind):
        return "status %d" % done.status
    if not any(done.refused):
        return "status %d, and nothing was refused" % done.status
    return cut_short(row, done, caller)


def unseen(row, fault, done):
    """What failed and should have been seen, if the call went well all the same: of the calls of files all but a close,
    those that ask the system how many processors there may be, and an open that was interrupted."""
    if fault.kind != CALL or not any(done.refused) or row.status == FAULT:
        return None
    name = done.calls[fault.first - 1]
    if name in "xq" or name in "oc" and fault.error == errno.EINTR:
        return None
    return "a call failed, and the status is %d" % done.status


def whole(row, done, caller):
    """The same after a call that had the status that is due."""
    if done.printed != row.line and not (row.judge and done.printed.startswith(b"done ")):
        return "another line: %r" % done.printed[:80]
    others = [name for name in done.changed if name not in row.written]
    if others:
        return "%s was changed" % ", ".join(others)
    for name in row.written:
        if row.judge and name == "l":
            status, verdict = caller.plain(row.judge)
            if (status, verdict) != (0, b"yes\n"):
                return "check says %r" % verdict
        elif is_known(row, name) and caller.read(name) not in due_files(row, name):
            return "another %s" % name
    return None


def cut_short(row, done, caller):
    """The same after a call that was cut short: what it writes are front parts, one begun only if the ones before are
    whole, and of the line a front part was printed."""
    if not row.judge and not row.line.startswith(done.printed):
        return "no front part of the line: %r" % done.printed[:80]
    if row.line and done.printed == row.line:
        return "status %d, and the whole line was printed" % done.status
    others = [name for name in done.changed if name not in row.written]
    if others:
        return "%s was changed" % ", ".join(others)
    ends = [front(row, name, caller.read(name), caller, name in done.changed) for name in row.written]
    for name, (wrong, _, _) in zip(row.written, ends):
        if wrong:
            return "%s %s" % (name, wrong)
    for (_, _, is_whole), (_, is_begun, _) in zip(ends, ends[1:]):
        if is_begun and not is_whole:
            return "a file was begun before the one before it was whole"
    return None


def front(row, name, data, caller, is_changed):
    """What is wrong with a file that should be a front part, whether it was begun, and whether it is whole."""
    if data is None or not is_changed:
        return None, False, False
    if row.judge and name == "l":
        wrong, is_whole = legal_front(row, data, caller)
        return wrong, bool(data), is_whole
    if not is_known(row, name):
        return None, bool(data), True
    due = due_files(row, name)
    if not any(one.startswith(data) for one in due):
        return "is no front part", bool(data), False
    return None, bool(data), data in due


def legal_front(row, data, caller):
    """What is wrong with a front part of a log of which only `check` can judge, and whether it is whole. Its whole
    lines are closed with an `end`; the verdict is then `yes`, or a fault behind the last entry."""
    lines = data.split(b"\n")
    rest, lines = lines[-1], lines[:-1]
    if not re.fullmatch(rb"[a-z0-9 .+<]*", rest):
        return "has no front part of a line at its end", False
    if lines[-1:] == [b"end"]:
        return (None if caller.plain(row.judge) == (0, b"yes\n") else "is whole, and check does not say yes"), True
    entries = [line for line in lines if not line.startswith(OUTSTANDING)]
    caller.put("l", b"".join(line + b"\n" for line in [*entries, b"end"]))
    _, verdict = caller.plain(row.judge)
    caller.put("l", data)
    behind = [b"no %d %s\n" % (len(entries) + 1, what) for what in (b"Rest", b"Length")]
    return (None if verdict in [b"yes\n", *behind] else "is not legal: %r" % verdict), False
