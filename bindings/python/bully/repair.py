"""The repair of a log in which a row isn't valid, or is refused by its group. All members have ended by then.

The lawful rows stay, and the rows after them are cut. The epoch ends there, and the next one starts, so that no token
is used again.
"""
from __future__ import annotations

from collections.abc import Sequence
from typing import NamedTuple, Protocol

from .core import Promise
from .encoding import unpacked
from .epochs import Opening
from .faults import NotLearned
from .maintenance import Maintenance
from .replica import Replica
from .shared_log import BadLease, DamagedLog, Log, found_in


NOWHERE = 2**63  # after all offsets: for something that isn't an append


class StoredEpoch(NamedTuple):
    """What a store keeps of the current epoch, whatever it is: the end of its log, and the appends by their offsets, as
    they are kept."""

    end: Promise
    appends: Sequence[tuple[int, bytes]]


class Repairable(Log, Protocol):
    """A log that can be repaired."""

    def kept(self) -> StoredEpoch:
        """What the store keeps of the current epoch."""

    def cut(self, end: Promise, append: int, text: str, opening: Opening) -> bool:
        """Removes the appends from this offset on, but puts this text there unless it is empty; and starts the next
        epoch with this opening; if the log ends there and nobody holds a lease. Returns whether it did."""


class Damage(NamedTuple):
    """What is wrong: why; where the log ends; up to which offset it is lawful; which rows are cut; which part of the
    last append stays; and the opening of the next epoch."""

    why: str
    end: Promise
    offset: int
    rows: Sequence[str]
    append: int  # the offset of the last append of which a part stays
    text: str  # that part
    opening: Opening

    @property
    def summary(self) -> str:
        """What is wrong, and what is cut."""
        count = max(len(self.rows), self.end.offset - self.offset)  # some may not be readable
        cut = f'{count} of {self.end.offset} rows are to be cut, and then epoch {self.opening.epoch} starts'
        return f'epoch {self.end.epoch}, offset {self.offset}: {self.why}; {cut}'


def damage_of(log: Repairable) -> Damage | None:
    """What is wrong with the rows of the log, if anything is. Raises DamagedLog if its opening can't be read."""
    opening, kept = log.opening(), log.kept()
    appends = [(begin, lines_of(value)) for begin, value in kept.appends]
    count = whole(appends)
    all_rows = [row for _, lines in appends[:count] for row in lines]
    rows, why = rows_there(all_rows)
    with Replica(opening.header) as replica:
        try:
            replica.learn(rows)
        except NotLearned as fault:
            rows, why = rows[: fault.taken], str(fault)
        if not why and (count < len(appends) or len(rows) != kept.end.offset):
            why = 'rows are missing or can not be read, or there is something else between them'
        if not why:
            return None
        offset, after = len(rows), opening.next(None, replica.last_table or opening.table)
    append = max((begin for begin, _ in appends[:count] if begin < offset), default=0)
    cut = all_rows[offset:] + [row for _, lines in appends[count:] for row in lines]
    return Damage(why, kept.end, offset, cut, append, ''.join(f'{row}\n' for row in rows[append:]), after)


def lines_of(value: bytes) -> list[str]:
    """The lines of an append, also if it isn't text, or the last one has no end; none if it can't be decompressed."""
    try:
        *lines, rest = unpacked(value).decode(errors='replace').split('\n')
    except ValueError:
        return []
    return [*lines, rest] if rest else lines


def whole(appends: Sequence[tuple[int, list[str]]]) -> int:
    """How many of these appends have rows, and follow one another without a gap, from the start of the log on."""
    end = 0
    for count, (begin, lines) in enumerate(appends):
        if begin != end or not lines:
            return count
        end += len(lines)
    return len(appends)


def rows_there(rows: list[str]) -> tuple[list[str], str]:
    """The rows before the first that isn't valid, and why that isn't."""
    bad = next((offset for offset, row in enumerate(rows) if not row or '\r' in row), None)
    return (rows, '') if bad is None else (rows[:bad], f'{rows[bad]!r} is not a row')


def repair(log: Repairable, damage: Damage) -> bool:
    """Cuts what is damaged. Returns whether it did: not while somebody holds a lease, or if the log has changed."""
    return log.cut(damage.end, damage.append, damage.text, damage.opening)


def takes_back(log: Log) -> bool:
    """Takes back the requested settings and the maintenance if they can't be read. Returns whether it did. Raises
    BadLease."""
    try:
        found_in(log)
    except BadLease:
        raise
    except DamagedLog:
        log.cancel(log.epochs()[-1])
        log.set_maintenance(Maintenance(), None)
        return True
    return False
