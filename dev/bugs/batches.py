"""Batches of bugs that one check of their crate tries together."""

MOST = 8


def has_room(batch, bug):
    """Whether a bug may join a batch: none of the others changes one of its functions."""
    return len(batch) < MOST and not any(bug.functions & other.functions for other in batch)


def put_in(batches, bug):
    """Puts a bug into the first batch that it may join, or begins another one."""
    for batch in batches:
        if has_room(batch, bug):
            batch.append(bug)
            return
    batches.append([bug])


def make_batches(bugs):
    """Batches of those bugs that can share a check; each of the others is one of its own."""
    batches = []
    for bug in bugs:
        if bug.can_share():
            put_in(batches, bug)
    return batches + [[bug] for bug in bugs if not bug.can_share()]
