"""What became of partitions at a change of the epoch."""
from __future__ import annotations

from collections.abc import Sequence

from bully import Replica
from bully.shared_log import Log


def owners_by_name(log: Log, epoch: int) -> tuple[list[str], list[str]]:
    """The names of the owners by the first and by the last table of an epoch; none, if it has no table."""
    opening, tables = log.opening(epoch), []
    with Replica(opening.header) as replica:
        for row in log.read(epoch, 0):
            replica.learn([row])
            if row.startswith('plan'):
                tables.append([opening.names[owner - 1] for owner in replica.last_table or ()])
    return (tables[0], tables[-1]) if tables else ([], [])


def kept(before: Sequence[str], after: Sequence[str]) -> int:
    """How many partitions are where they were."""
    return sum(old == new for old, new in zip(before, after))


def most_kept(before: Sequence[str], after: Sequence[str]) -> int:
    """How many may be where they were, if the same members share out the partitions evenly."""
    there = set(after)
    if not there:
        return 0
    fewest, more = divmod(len(after), len(there))
    counts = [before[: len(after)].count(name) for name in there]
    return sum(min(count, fewest) for count in counts) + min(more, sum(count > fewest for count in counts))
