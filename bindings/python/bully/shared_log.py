"""The shared log of a group: its interface, which stores implement, and its errors.

A store keeps the rows in one order, who holds a lease, and what each session has promised. The log of an epoch is a
trace: its header is in the epoch's opening, and an *offset* says how many rows come after that, so an empty log ends at
offset 0. A process acquires the *lease* of its node, under the node's name, for a session that no other try has, and
renews it. Leases are by name, over all epochs. A lease has a promise: its session works by no plan before that offset
of that epoch, except on the partitions that the promise keeps. In an eager group rows are appended, and an epoch is
ended, only while all holders of leases have promised the end of its log and keep nothing; so nobody works at that time.
In a cooperative group only the holders that a change affects are compared (`Precondition`).

`Log` is the interface. `bully.memory` has a log in the memory of a process, `bully.sqlite` one in a file of one
machine, and `bully.etcd` one in etcd. `docs/REBALANCING.md` says when a store does what members ask for, and
`bully.epochs` has epochs.

A call that fails raises an exception below LogError; one below Unanswered if it may be tried again, because the cause
may pass.
"""
from __future__ import annotations

from collections.abc import Iterator, Mapping, Sequence
from contextlib import suppress
from types import MappingProxyType
from typing import NamedTuple, Optional, Protocol, TypeVar

from .core import Promise, Session, Until
from .epochs import Opening
from .maintenance import Maintenance

Name = TypeVar('Name', str, bytes)
Sessions = Mapping[str, Session]  # of the holders of leases, by name
Wanted = tuple[Optional[Opening], Maintenance]  # the requested settings, and the maintenance


class LogError(Exception):
    """A log that can't be used."""


class NoLog(LogError):
    """There is no log."""


class LogExists(LogError):
    """There already is a log, or something else."""


class ForeignLog(LogError):
    """There is something other than a log, or a log of another form."""


class OlderLog(ForeignLog):
    """There is a log of the form before this one, of which only the history can be read."""


class OtherLog(ForeignLog):
    """Another log, or another file, is in the place of the one that was used."""


class DamagedLog(LogError):
    """There was a log, and it can't be read as one any more."""


class BadLease(DamagedLog):
    """A lease can't be read."""


class NoEpoch(LogError):
    """The epoch isn't there: it was pruned, or hasn't started."""


class ReadOnlyLog(LogError):
    """The log can't be written."""


class Unanswered(LogError):
    """The store didn't answer. It isn't known whether the request was done."""


class LogBusy(Unanswered):
    """Others used the store for too long. Nothing was done."""


class DiskFull(Unanswered):
    """The disk is full. Nothing was done."""


class Holder(NamedTuple):
    """Who holds a lease: the session, its promise, and the partitions that the promise keeps, in rising order."""

    session: Session
    promise: Promise
    kept: tuple[int, ...] = ()

    def after(self, promise: Promise, kept: tuple[int, ...]) -> Holder:
        """The holder after another promise of its session. A promise may come late, so the one with the higher offset
        counts. Of two promises of one offset the new one counts if it keeps only what the other one keeps."""
        is_later = promise > self.promise or promise == self.promise and set(kept) <= set(self.kept)
        return Holder(self.session, promise, kept) if is_later else self

    def is_idle(self, here: Promise) -> bool:
        """Whether it has promised that offset, and keeps nothing."""
        return self.promise == here and not self.kept


UNKNOWN: tuple[Promise, tuple[int, ...]] = Promise(), ()  # a promise that a snapshot leaves out
NOBODY = ''  # the name of no node


class Precondition(NamedTuple):
    """What a change compares of leases, in a cooperative group: those of these nodes. Each must be as the writer knows
    it: its own with its last promise that was done, all others as its last snapshot found them; or its holder must be
    idle. The revision is that of this snapshot."""

    affected: frozenset[str]
    holders: Mapping[str, Holder]
    revision: int = 0


class Snapshot(NamedTuple):
    """What a snapshot shows, all at one moment: the current epoch; the requested rows, if they are of that epoch; who
    holds a lease, by name; the requested settings; the maintenance; notes of the nodes whose work fails, which say
    whether they have given up; the revision of the store, if it counts them; and whether it has the promises of all
    holders, as always in a pause. If not, those of others are left out: each is `UNKNOWN`, as if its session had
    promised nothing."""

    epoch: int
    rows: Sequence[str]
    holders: Mapping[str, Holder]
    requested: Opening | None
    maintenance: Maintenance = Maintenance()
    failing: Mapping[str, bool] = MappingProxyType({})
    revision: int = 0
    has_promises: bool = True

    @property
    def wanted(self) -> Wanted:
        return self.requested, self.maintenance

    @property
    def sessions(self) -> dict[str, Session]:
        """The sessions of the holders of leases, by name."""
        return {name: holder.session for name, holder in self.holders.items()}

    def promised(self, here: Promise) -> frozenset[str]:
        """Who had promised that offset."""
        return frozenset(name for name, holder in self.holders.items() if holder.promise == here)

    def is_frozen(self, end: Promise) -> bool:
        """Whether the group is paused, and nobody rebalances. Not yet if a session that was live when the pause began
        has promised the end of the log: it can't work by the last plan any more, so the group is rebalanced first."""
        sessions = self.maintenance.sessions
        if sessions is None:
            return False
        return not any(sessions.get(name) == self.holders[name].session for name in self.promised(end))


class Log(Protocol):
    """A store with one order in each epoch. Each call is done at one moment, or not at all. A ttl is in nanoseconds."""

    def epochs(self) -> range:
        """The epochs whose rows are there. The last one is the current one."""

    def opening(self, epoch: int | None = None) -> Opening:
        """The opening of this epoch, also if its rows were pruned, or else of the current one. Raises NoEpoch."""

    def acquire(self, name: str, session: Session, promise: Promise, ttl: int) -> bool:
        """The session holds the lease of that name from now on for the ttl, with this promise, if nobody holds it, the
        promise's epoch is the current one, and its log ends at the promise's offset. Returns whether it does."""

    def renew(self, name: str, session: Session, ttl: int) -> bool:
        """The session holds the lease for the ttl from now on, if it has held it without a gap. Returns whether it
        does."""

    def release(self, name: str, session: Session) -> None:
        """The session doesn't hold the lease any more, if it did."""

    def promise(self, name: str, session: Session, promise: Promise, kept: tuple[int, ...] = ()) -> bool:
        """If the session holds the lease, it has made this promise, which keeps these partitions, in rising order; or
        an earlier promise of it stays (`Holder.after`). Returns whether it holds the lease."""

    def append(self, epoch: int, offset: int, rows: Sequence[str], known: Precondition | None = None) -> bool:
        """Appends these rows, at least one, if the epoch is the current one, its log ends at this offset, somebody
        holds a lease, and all holders have promised that offset of that epoch and keep nothing; or, if something is
        `known`, only what that says. Otherwise nothing changes. A store may also refuse if more has changed than that
        compares. Returns whether it appended."""

    def roll_over(self, epoch: int, offset: int, opening: Opening, known: Precondition | None = None) -> bool:
        """Ends the epoch, and starts the next one with this opening, on the conditions of `append`, and if the opening
        is the `next` of this epoch's for the requested settings. Each holder that is compared must be idle. Leases and
        promises stay; the request to resize is done. Returns whether it did."""

    def snapshot(self, epoch: int, offset: int, promise_of: str | None = None) -> Snapshot:
        """The rows of that epoch after that offset, if it is the current one, and what else is kept at the same moment.
        If a name is given, and the group isn't paused, only the promise of that holder is read. The caller has read up
        to that offset, so a log that ends before is damaged; likewise in `read`, `append` and `roll_over`."""

    def wait(
        self, epoch: int, offset: int, sessions: Sessions, until: Until, seconds: float, wake: int | None = None
    ) -> None:  # fmt: skip
        """Returns once another epoch is the current one, or there are rows after that offset, or other sessions than
        these are live, or other settings or maintenance are set than in the last snapshot. By `until` it also returns
        once a holder of a lease is idle there that wasn't in the last snapshot, once all are, or once one has made
        another promise than in that snapshot. (A promise that the snapshot left out counts as made since.) It also
        returns once the descriptor `wake` can be read, or the time is over; and it may return sooner. It never misses
        what was so before the call."""

    def sees_loss(self, session: Session, seconds: float, wake: int | None = None) -> bool:
        """Waits for so many seconds, or until the descriptor `wake` can be read, or until the store reports that this
        session, which held a lease in the last snapshot, doesn't hold it any more. Returns whether it has reported
        that. A store need not report it."""

    def ask(self, requested: Opening, epoch: int) -> bool:
        """Requests these settings, and no others, if the epoch is the current one and they are for the next. Returns
        whether it did."""

    def cancel(self, epoch: int) -> None:
        """Takes back the requested settings, if the epoch is the current one."""

    def set_maintenance(self, maintenance: Maintenance, before: Maintenance | None) -> bool:
        """Sets the maintenance over all epochs, if it was `before`; without `before` whatever it was, also if it can't
        be read. Returns whether it did."""

    def note(self, name: str, gave_up: bool | None) -> None:
        """Notes, over all epochs, that the work of that node fails, and whether the node has given up; or removes the
        note of it. No wait ends by that."""

    def give_up(self, name: str, heir: str, session: Session) -> bool:
        """Notes that the node has given up, if that session holds the lease of its heir, and there is no note of the
        heir. Returns whether it did."""

    def times(self, epoch: int, offset: int = 0) -> Mapping[int, int | None]:
        """When the appends of an epoch from that offset on were done, by their offsets: in milliseconds since 1970, by
        the wall clock of the process that appended; None for an append whose time isn't kept."""

    def read(self, epoch: int, offset: int) -> Sequence[str]:
        """The rows of an epoch after that offset, without line ends. Raises NoEpoch."""

    def prune(self, first: int) -> None:
        """Removes the rows of the epochs before this one. The current epoch stays."""

    def close(self) -> None:
        """The log isn't used any more. Leases stay until they end."""


def found_in(log: Log) -> Snapshot:
    """A snapshot of the log without rows."""
    return log.snapshot(0, 0)


def openings_of(log: Log) -> Iterator[Opening]:
    """The openings of the log's epochs, the current one first. Earlier epochs may be in an earlier log."""
    with suppress(NoEpoch):
        for epoch in range(log.epochs()[-1], 0, -1):
            yield log.opening(epoch)


def may_change(holders: Mapping[str, Holder], here: Promise, known: Precondition | None, is_append: bool) -> bool:
    """Whether these holders of leases allow a change where the log ends: an append, or the end of the epoch."""
    compared = {name: holder for name, holder in holders.items() if known is None or name in known.affected}
    seen = known.holders if known is not None and is_append else {}
    return bool(holders) and all(each.is_idle(here) or each == seen.get(name) for name, each in compared.items())


def shown_in(holders: Mapping[str, Holder], promise_of: str | None) -> Mapping[str, Holder]:
    """These holders as a snapshot shows them: if a name is given, with the promise of that one alone."""
    if promise_of is None:
        return holders
    return {name: each if name == promise_of else Holder(each.session, *UNKNOWN) for name, each in holders.items()}


def kept_same(before: Mapping[str, Holder], holders: Mapping[str, Holder]) -> dict[str, Holder]:
    """These holders; each is the same object as before if nothing about it is new. In a large group most of them are,
    so others find fast what is new."""

    def kept(name: str, holder: Holder) -> Holder:
        last = before.get(name)
        return last if last is not None and last == holder else holder

    return {name: kept(name, holder) for name, holder in holders.items()}


def renewed(before: Mapping[str, Holder], holders: Mapping[str, Holder]) -> list[str]:
    """The names whose holder isn't the same object as before. In a large group these are found much faster than
    something is done for each holder."""
    return [name for name, holder in holders.items() if before.get(name) is not holder]


def promises_of(holders: Mapping[str, Holder]) -> dict[str, tuple[Promise, tuple[int, ...]]]:
    """What holders of leases have promised, and what these promises keep."""
    return {name: (holder.promise, holder.kept) for name, holder in holders.items()}


def idle_of(promises: Mapping[Name, object], here: object) -> frozenset[Name]:
    """The names whose promise is this one."""
    return frozenset(name for name, promise in promises.items() if promise == here)


def is_awaited(until: Until, promises: Mapping[Name, object], idle: object, before: Mapping[Name, object]) -> bool:
    """Whether there is what a wait is for, by the promises now and those `before`, in the last snapshot; `idle` is the
    promise of a holder that is idle."""
    if until is Until.NEWS:
        return False
    if until is Until.PROMISES:
        return any(promise != before.get(name) for name, promise in promises.items())
    there = idle_of(promises, idle)
    if until is Until.ANY_IDLE:
        return not there <= idle_of(before, idle)
    return bool(there) and len(there) == len(promises)
