"""A log in the memory of one process: `MemoryLog`."""
from __future__ import annotations

import threading
from collections.abc import Callable, Mapping, Sequence
from typing import NamedTuple

from .clocks import SECOND, nanoseconds_of_boot, sleep_until_ready, wall_clock
from .core import Promise, Session, Until
from .encoding import check_end, no_epoch, rows_text
from .epochs import Opening
from .maintenance import Maintenance
from .shared_log import Holder, Precondition, Sessions, Snapshot, Wanted, is_awaited, may_change, promises_of, shown_in

WAKEABLE_WAIT = 0.02  # the longest wait in memory, in seconds, if something else may wake it


class MemoryLease(NamedTuple):
    """A lease: its holder, and when it ends."""

    holder: Holder
    until: int


class MemoryLog:
    """A log in memory, which threads may share. What a snapshot has shown is kept for each thread."""

    def __init__(self, opening: Opening, clock: Callable[[], int] = nanoseconds_of_boot) -> None:
        """A log with this opening. Leases last by the clock, in whole nanoseconds."""
        self.clock = clock
        self.leases: dict[str, MemoryLease] = {}
        self.requested: Opening | None = None
        self.maintenance = Maintenance()
        self.failing: dict[str, bool] = {}
        self._openings = {opening.epoch: opening}
        self._rows: dict[int, list[str]] = {opening.epoch: []}
        self._times: dict[int, dict[int, int | None]] = {opening.epoch: {}}
        self._changed = threading.Condition(threading.RLock())
        self._seen = threading.local()

    @property
    def epoch(self) -> int:
        """The current epoch."""
        return max(self._rows)

    @property
    def rows(self) -> list[str]:
        """The rows of the current epoch."""
        return self._rows[self.epoch]

    @property
    def holders(self) -> dict[str, Holder]:
        """Who holds a lease now."""
        now = self.clock()
        return {name: lease.holder for name, lease in self.leases.items() if now < lease.until}

    def epochs(self) -> range:
        with self._changed:
            return range(min(self._rows), self.epoch + 1)

    def opening(self, epoch: int | None = None) -> Opening:
        with self._changed:
            found = self._openings.get(self.epoch if epoch is None else epoch)
            if found is None:
                raise no_epoch('the log', epoch or 0, self.epochs())
            return found

    # Leases.

    def acquire(self, name: str, session: Session, promise: Promise, ttl: int) -> bool:
        with self._changed:
            done = name not in self.holders and promise == self._end()
            if done:
                self._hold(name, Holder(session, promise), self.clock() + ttl)
            return done

    def renew(self, name: str, session: Session, ttl: int) -> bool:
        with self._changed:
            done = self._holds(name, session)
            if done:
                self._hold(name, self.leases[name].holder, self.clock() + ttl)
            return done

    def release(self, name: str, session: Session) -> None:
        with self._changed:
            if self._holds(name, session):
                del self.leases[name]
                self._changed.notify_all()

    def promise(self, name: str, session: Session, promise: Promise, kept: tuple[int, ...] = ()) -> bool:
        with self._changed:
            done = self._holds(name, session)
            if done:
                lease = self.leases[name]
                self._hold(name, lease.holder.after(promise, kept), lease.until)
            return done

    def _holds(self, name: str, session: Session) -> bool:
        holder = self.holders.get(name)
        return holder is not None and holder.session == session

    def _hold(self, name: str, holder: Holder, until: int) -> None:
        self.leases[name] = MemoryLease(holder, until)
        self._changed.notify_all()

    # The log.

    def append(self, epoch: int, offset: int, rows: Sequence[str], known: Precondition | None = None) -> bool:
        rows_text(rows)
        with self._changed:
            done = self._may_change(Promise(epoch, offset), known, is_append=True)
            if done:
                self._times[epoch][offset] = wall_clock()
                self.rows.extend(rows)
                self._changed.notify_all()
            return done

    def roll_over(self, epoch: int, offset: int, opening: Opening, known: Precondition | None = None) -> bool:
        with self._changed:
            may_change = self._may_change(Promise(epoch, offset), known, is_append=False)
            done = may_change and opening.bare == self.opening().after(self.requested)
            if done:
                self._openings[opening.epoch], self._rows[opening.epoch], self.requested = opening, [], None
                self._times[opening.epoch] = {}
                self._changed.notify_all()
            return done

    def _end(self) -> Promise:
        """The end of the current epoch's log."""
        return Promise(self.epoch, len(self.rows))

    def _may_change(self, here: Promise, known: Precondition | None, is_append: bool) -> bool:
        check_end('the log', self._end(), here)
        return here == self._end() and may_change(self.holders, here, known, is_append)

    def read(self, epoch: int, offset: int) -> list[str]:
        with self._changed:
            if epoch not in self._rows:
                raise no_epoch('the log', epoch, self.epochs())
            check_end('the log', self._end(), Promise(epoch, offset))
            return self._rows[epoch][offset:]

    def times(self, epoch: int, offset: int = 0) -> dict[int, int | None]:
        with self._changed:
            return {begin: time for begin, time in self._times.get(epoch, {}).items() if begin >= offset}

    def prune(self, first: int) -> None:
        with self._changed:
            for epoch in range(min(self._rows), min(first, self.epoch)):
                del self._rows[epoch], self._times[epoch]

    # Snapshots and waits.

    def snapshot(self, epoch: int, offset: int, promise_of: str | None = None) -> Snapshot:
        with self._changed:
            check_end('the log', self._end(), Promise(epoch, offset))
            alone, failing = None if self.maintenance.is_paused else promise_of, dict(self.failing)
            rows, holders = self.rows[offset:] if epoch == self.epoch else [], shown_in(self.holders, alone)
            found = Snapshot(self.epoch, rows, holders, self.requested, self.maintenance, failing, 0, alone is None)
            self._seen.wanted, self._seen.holders = found.wanted, found.holders
            return found

    def wait(
        self, epoch: int, offset: int, sessions: Sessions, until: Until, seconds: float, wake: int | None = None
    ) -> None:  # fmt: skip
        if wake is not None:  # which is polled
            seconds = 0.0 if sleep_until_ready(0.0, wake) else min(seconds, WAKEABLE_WAIT)
        end, wanted = self.clock() + int(seconds * SECOND), getattr(self._seen, 'wanted', (None, Maintenance()))
        before: Mapping[str, Holder] = getattr(self._seen, 'holders', {})
        with self._changed:
            while not self.has_news(epoch, offset, sessions, wanted, until, before) and self.clock() < end:
                ends = [lease.until for lease in self.leases.values() if self.clock() < lease.until]
                self._changed.wait(max(0, min([end, *ends]) - self.clock()) / SECOND)

    def sees_loss(self, session: Session, seconds: float, wake: int | None = None) -> bool:
        """Nobody takes a lease away here."""
        sleep_until_ready(seconds, wake)
        return False

    def has_news(
        self, epoch: int, offset: int, sessions: Sessions, wanted: Wanted, until: Until, before: Mapping[str, Holder]
    ) -> bool:
        """Whether a wait is over, after a snapshot that showed these requested settings, this maintenance, and these
        holders of leases."""
        with self._changed:
            if Promise(epoch, offset) != self._end() or wanted != (self.requested, self.maintenance):
                return True
            holders = self.holders
            there = {name: holder.session for name, holder in holders.items()}
            idle = Promise(epoch, offset), ()
            return there != sessions or is_awaited(until, promises_of(holders), idle, promises_of(before))

    def ask(self, requested: Opening, epoch: int) -> bool:
        with self._changed:
            done = epoch == self.epoch and requested.epoch == epoch + 1
            if done:
                self.requested = requested.bare
                self._changed.notify_all()
            return done

    def cancel(self, epoch: int) -> None:
        with self._changed:
            if epoch == self.epoch:
                self.requested = None
                self._changed.notify_all()

    def set_maintenance(self, maintenance: Maintenance, before: Maintenance | None) -> bool:
        with self._changed:
            done = before is None or before == self.maintenance
            if done:
                self.maintenance = maintenance
                self._changed.notify_all()
            return done

    def note(self, name: str, gave_up: bool | None) -> None:
        with self._changed:
            self.failing.pop(name, None)
            if gave_up is not None:
                self.failing[name] = gave_up

    def give_up(self, name: str, heir: str, session: Session) -> bool:
        with self._changed:
            done = self._holds(heir, session) and heir not in self.failing
            if done:
                self.failing[name] = True
            return done

    def close(self) -> None:
        pass
