"""Failures of a node's work: it is started again later and later, and at last its node gives up.

A node that gives up gives away what it owns, as a drained one does, if another node works well; and it tries again,
later and later. `Failures` counts; `GivingUp` notes in the log how the work goes, and decides when the node leaves and
when it comes back.
"""
from __future__ import annotations

import enum
import threading
from collections.abc import Callable, Collection, Mapping
from dataclasses import dataclass
from functools import partial

from .clocks import seconds_of_boot
from .core import Session
from .maintenance import Killed
from .shared_log import Holder, Log, Snapshot, renewed

GIVE_UP = 5  # failures in a row, by default
LONG = 5  # ttls of work after which the failures before don't count any more
BACKOFF_MAX = 60.0  # the longest back-off of work that fails again and again, in seconds
AWAY = 12  # ttls for which a node that gave up stays away at first
AWAY_MAX = 3600.0  # the longest time for which it stays away, in seconds
NOTES = 4  # the most notes in a ttl
ALL = 'all'  # the key of a worker for all partitions of its node


class Health(enum.Enum):
    """How work goes: nothing is known yet; it has gone well for a ttl; it has failed, and hasn't gone well for a ttl
    since; or it has failed so often that its node had better give it up."""

    NEW, WELL, FAILING, HOPELESS = 'new', 'well', 'failing', 'hopeless'


WORST = Health.HOPELESS, Health.FAILING, Health.NEW, Health.WELL  # the worst one first


@dataclass
class Record:
    """How often one worker has failed in a row. Times are of `clocks.seconds_of_boot`."""

    count: int = 0
    has_failed: bool = False
    backoff: float = 0.0  # the last one, in seconds
    backoff_end: float = 0.0
    away: float = 0.0  # for how many seconds its node stayed away because of it
    worked: float = 0.0  # seconds of work since the last failure, or since the start
    begun: float | None = None  # since when it has been at work

    def worked_until(self, now: float) -> float:
        """For how many seconds it has worked since it failed."""
        return self.worked + (0.0 if self.begun is None else now - self.begun)

    def failed(self, now: float, ttl: float) -> None:
        is_first = not self.count or self.worked_until(now) >= LONG * ttl
        self.count = 1 if is_first else self.count + 1
        self.backoff = ttl / 5 if is_first else min(2 * self.backoff, BACKOFF_MAX)
        self.away = 0.0 if is_first else self.away
        self.backoff_end, self.has_failed = now + self.backoff, True
        self.worked, self.begun = 0.0, None

    def health(self, now: float, give_up: int, ttl: float) -> Health:
        if self.worked_until(now) >= ttl:
            return Health.WELL
        if not self.has_failed:
            return Health.NEW
        return Health.HOPELESS if 0 < give_up <= self.count and self.begun is None else Health.FAILING


class Failures:
    """How often the work of a node has failed in a row. If each partition has a worker, each of them is counted and
    backs off alone, by a key; the node's work is as that of the worst of them. Threads may share it. Times are of
    `clocks.seconds_of_boot`."""

    def __init__(self, give_up: int = 0, ttl: float = 5.0) -> None:
        """After so many failures in a row the node gives up; with 0 it never does. The ttl is that of its member."""
        self.ttl, self._give_up = ttl, give_up
        self._lock = threading.Lock()
        self.killed = 0, 0  # how often a watchdog killed work, and when last, in milliseconds since 1970
        self.forget()

    def forget(self) -> None:
        """Forgets all of it."""
        with self._lock:
            self._records = {ALL: Record()}
            self._there = {ALL}  # the keys of the workers that the node has now

    def began(self, now: float, key: str = ALL) -> None:
        """The work has started, or goes on."""
        with self._lock:
            record = self._records.setdefault(key, Record())
            record.begun = now if record.begun is None else record.begun
            self._there = {*self._there - {ALL}, key}

    def ceased(self, now: float, key: str = ALL) -> None:
        """The work has stopped, without a failure."""
        with self._lock:
            record = self._records.setdefault(key, Record())
            record.worked, record.begun = record.worked_until(now), None

    def moved(self, key: str) -> None:
        """The node doesn't have this worker any more, so that doesn't matter for how the node's work goes. But if it
        comes back its failures count on."""
        with self._lock:
            self._there.discard(key)

    def failed(self, now: float, key: str = ALL) -> float:
        """The work has failed. Returns for how many seconds it backs off."""
        with self._lock:
            record = self._records.setdefault(key, Record())
            record.failed(now, self.ttl)
            return record.backoff

    def note_killed(self, moment: int) -> None:
        """A watchdog killed work at that moment, in milliseconds since 1970, because its lease wasn't sure any more:
        that is no failure."""
        self.killed = self.killed[0] + 1, moment

    def go_away(self) -> float:
        """The node gives up. Returns for how many seconds it stays away: each time twice as long, until the work goes
        well."""
        with self._lock:
            records = list(self._records.values())
            hopeless = [record for record in records if 0 < self._give_up <= record.count] or records
            seconds = min(2 * max(record.away for record in hopeless) or AWAY * self.ttl, AWAY_MAX)
            for record in hopeless:
                record.away = seconds
            return seconds

    def come_back(self) -> None:
        """The work is tried once more, at once. If it fails again, the node gives up again."""
        with self._lock:
            for record in self._records.values():
                record.count, record.backoff_end = min(record.count, max(0, self._give_up - 1)), 0.0

    @property
    def count(self) -> int:
        """How many failures there were in a row."""
        return max(record.count for record in list(self._records.values()))

    def backoff_seconds(self, now: float, key: str | None = None) -> float:
        """For how many seconds the work still backs off after a failure: that of one worker, or the longest."""
        with self._lock:
            keys = self._there if key is None else [key]
            ends = [self._records[each].backoff_end for each in keys if each in self._records]
            return max([0.0, *[end - now for end in ends]])

    def is_failing(self, now: float) -> bool:
        """Whether the work has failed, and hasn't gone well for a ttl since."""
        return self.health(now) in (Health.FAILING, Health.HOPELESS)

    def health(self, now: float) -> Health:
        """How the work goes."""
        with self._lock:
            found = {self._records[key].health(now, self._give_up, self.ttl) for key in self._there}
            return next((each for each in WORST if each in found), Health.NEW)


class GivingUp:
    """What a member notes in its log of its work, and whether its node gives up and comes back. One thread calls it."""

    def __init__(self, log: Log, name: str, ttl: float, failures: Failures | None) -> None:
        """For the node of this name. If nobody counts failures, the work goes well."""
        self._log, self._name, self._failures = log, name, failures or Failures(ttl=ttl)
        if failures is None:
            self._failures.began(float('-inf'))
        self._since: dict[str, tuple[Session, float]] = {}  # who holds a lease, by which session, and since when
        self._holders: Mapping[str, Holder] = {}  # the same holders, as the last snapshot showed them
        self._next = 0.0  # when something may be noted again
        self._until = self._well = 0.0  # until when the node stays away; when another node last worked well
        self._is_noted = False  # whether there is a note of this node

    def see(self, found: Snapshot) -> None:
        """Takes in a snapshot."""
        if found.holders is self._holders:
            return
        now, before, holders = seconds_of_boot(), self._holders, found.holders
        new = [(name, holders[name].session) for name in renewed(before, holders)]
        known, self._holders = {name: since for name, since in self._since.items() if name in holders}, holders
        self._since = {**known, **{name: (its, now) for name, its in new if known.get(name, (None,))[0] != its}}

    def due(self, found: Snapshot, names: Collection[str], leads: bool) -> Callable[[], bool] | None:
        """The call of the log that is due after a snapshot, for a node that is live; None if there is none. It returns
        whether the node has given up. The leader also removes the notes of nodes that aren't in the group."""
        now, self._is_noted = seconds_of_boot(), self._name in found.failing
        if now < self._next:
            return None
        strays = [name for name in found.failing if name not in names] if leads else []
        asked = self._own(found, names, now) or self._of_kills(found)
        asked = asked or (partial(self._note, strays[0], None) if strays else None)
        self._next = self._next if asked is None else now + self._failures.ttl / NOTES
        return asked

    def _own(self, found: Snapshot, names: Collection[str], now: float) -> Callable[[], bool] | None:
        """The same for its own node alone. A note of an earlier process stays until it is known how the work goes."""
        health, noted = self._failures.health(now), found.failing.get(self._name)
        heir = self._heir(found, names, now) if health is Health.HOPELESS else None
        if heir is not None:
            return partial(self._log.give_up, self._name, heir, self._since[heir][0])
        fails = noted is not None if health is Health.NEW else health is not Health.WELL
        wanted = False if fails else None
        return None if noted == wanted else partial(self._note, self._name, wanted)

    def _of_kills(self, found: Snapshot) -> Callable[[], bool] | None:
        """The call by which is noted how often the watchdog killed its work, if that isn't noted."""
        holder, before, (count, last) = found.holders.get(self._name), found.maintenance, self._failures.killed
        if not count or holder is None:
            return None
        note = Killed(holder.session.process, count, last)
        if before.killed.get(self._name) == note:
            return None
        after = before.with_killed(self._name, note, found.sessions)

        def ask() -> bool:
            self._log.set_maintenance(after, before)  # if others changed it at the same moment, later
            return False

        return ask

    def _note(self, name: str, gave_up: bool | None) -> bool:
        self._is_noted |= name == self._name
        self._log.note(name, gave_up)
        return False

    def _heir(self, found: Snapshot, names: Collection[str], now: float) -> str | None:
        """The node that takes over: one that has been live for a ttl, and whose work doesn't fail. During a pause there
        is none."""
        there = [] if found.maintenance.is_paused else self._others(found, names)
        long = (each for each in there if now >= self._since[each][1] + self._failures.ttl)
        return next((each for each in long if each not in found.failing), None)

    def _others(self, found: Snapshot, names: Collection[str]) -> list[str]:
        """The other nodes that are live and may stay."""
        away = {self._name, *found.maintenance.drained}
        return [each for each in found.holders if each in names and each not in away]

    def go_away(self) -> float:
        """The node has given up. Returns for how many seconds it stays away, unless it is needed before."""
        seconds, self._well = self._failures.go_away(), seconds_of_boot()
        self._until, self._is_noted = self._well + seconds, True
        return seconds

    def comes_back(self, found: Snapshot, names: Collection[str]) -> bool:
        """Whether a node that gave up tries again: its time is over; no other node is live; no other node has worked
        well for `LONG` ttls; or an operator has removed the note of it."""
        self.see(found)
        self._is_noted = self._name in found.failing
        now, others = seconds_of_boot(), self._others(found, names)
        if any(each not in found.failing for each in others):
            self._well = now
        if not self._is_noted:
            self._failures.forget()
            return True
        if not others or now >= min(self._until, self._well + LONG * self._failures.ttl):
            self._failures.come_back()
            return True
        if not found.failing[self._name]:  # an earlier note came late
            self._log.note(self._name, True)
        return False

    def take_back(self) -> None:
        """The member ends in order, so the note of its work is removed."""
        if self._is_noted:
            self._log.note(self._name, None)
