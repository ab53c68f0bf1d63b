"""Drives a core: makes calls of the log, and starts and stops of work, of the steps that its rules ask for, and reports
to it what came of them.

A driver has no thread, no clock and does no IO. Whoever has a driver takes its next step, does that, and reports what
came of it: `bully.member` over a log and a clock, and the tests in simulated time.
"""
from __future__ import annotations

from collections.abc import Callable, Collection, Mapping
from functools import lru_cache, partial
from types import MappingProxyType
from typing import NamedTuple, Union

from .adapter import Leases, awaited, core_opening_of, known_of, needs_promises, note_leaving, seen_of

from .core import (
    Activity, Ask, BackOff, Begin, Core, End, Ending, Live, Promise, Reason, Request, Seen, Stop, StoreAnswer, Until,
    Wait,
)  # fmt: skip
from .epochs import Opening
from .shared_log import Holder, Log, Precondition, Sessions, Snapshot
from .values import Owned, Status

NONE: frozenset[int] = frozenset()  # no partitions
Result = Union[bool, Snapshot, Opening]  # what a call of the log returns


class Call(NamedTuple):
    """Make this call of the log, and report by `answered` what it returned. What it sends is fixed now, however late it
    is made. `known` is what a change of the log compares of leases."""

    ask: Ask
    call: Callable[[], Result]
    known: Precondition | None = None


class Note(NamedTuple):
    """Make this call of the log, which notes something there. Nothing is reported of it."""

    call: Callable[[], object]


class Start(NamedTuple):
    """The node owns this from now on, under this coordinator. Start the work on the partitions `added`; on the others
    it goes on, by the new token."""

    owned: Owned
    coordinator: int
    added: frozenset[int]


class StopWork(NamedTuple):
    """Stop the work on these partitions, and report by `ended` once it has ended."""

    partitions: frozenset[int]


class WaitForNews(NamedTuple):
    """Wait for news in the log (`Log.wait`), for so many nanoseconds at most, and report that by `woke`."""

    epoch: int
    offset: int
    sessions: Sessions
    until: Until
    at_most: int
    reason: Reason


class Again(NamedTuple):
    """Take the next step at once: the core doesn't wait, because its last snapshot left out promises that it needs."""


Step = Union[Call, Note, Start, StopWork, WaitForNews, Again, BackOff, End]


@lru_cache(maxsize=16)
def numbers_of(names: tuple[str, ...]) -> Mapping[str, int]:
    """The numbers of nodes, by their names: one object for all drivers of an epoch."""
    return MappingProxyType({name: number for number, name in enumerate(names, 1)})


class Driver:
    """A core for a node of a group, and what its driver knows: the epoch, the last snapshot, its own lease, and what
    its process works on."""

    def __init__(
        self, log: Log, opening: Opening, node: int, process: int, ttl: int, lasts: Callable[[], int] | None = None
    ) -> None:
        """For the node of this number in the epoch of this opening, and the process of this number. `lasts` says for
        how long a lease is acquired or renewed: for the ttl, if nothing is given.

        Raises what `Core` does."""
        self.core = Core(core_opening_of(opening, node), process, ttl)
        self.log, self.name, self.process, self._lasts = log, opening.names[node - 1], process, lasts or (lambda: ttl)
        self._has_announced = False  # whether it has noted in the log that it leaves
        self._kept: tuple[int, ...] = ()  # the partitions that the last requested promise keeps
        # (by the core, which holds that: the partitions on which it works, and those of which work has to end)
        self.working = self.stopping = NONE
        self._enter(opening)

    def _enter(self, opening: Opening) -> None:
        self.opening, self.numbers = opening, numbers_of(opening.names)
        self.found = Snapshot(opening.epoch, (), {}, None)  # the last snapshot
        self.sessions = self.found.sessions  # in that
        self.seen = Seen(opening.epoch)  # what the core was shown of that
        self._leases = Leases()
        self._own: Holder | None = None  # its own lease, with its last promise that was done

    @property
    def end(self) -> Promise:
        """The end of the log, as far as it was learned."""
        return Promise(self.opening.epoch, self.core.offset)

    # What is next.

    def next(self, now: int) -> Step:
        """What to do now."""
        step = self.core.next(now)
        if isinstance(step, (Wait, BackOff)) and self._is_announcement_due(step.reason, now):
            return self._announce(step)
        if isinstance(step, Wait) and self.lacks_promises(now):
            self.core.woke()
            return Again()
        if isinstance(step, Ask):
            return self._call(step, now)
        if isinstance(step, Wait):
            until = awaited(step.until, self.seen, self.needs_promises(now))
            return WaitForNews(self.opening.epoch, self.core.offset, self.sessions, until, step.at_most, step.reason)
        return self._start() if isinstance(step, Begin) else self._stop() if isinstance(step, Stop) else step

    def _is_announcement_due(self, reason: Reason, now: int) -> bool:
        """Whether it has to note in the log that it leaves: once, while its work stops."""
        core = self.core
        is_leaving = reason is Reason.STOP and core.ending is Ending.LEFT and core.sure_until > now
        return is_leaving and not self._has_announced and isinstance(core.session, Live)

    def _announce(self, step: Wait | BackOff) -> Note:
        session = self.core.session
        assert isinstance(session, Live)
        self._has_announced = True
        if isinstance(step, Wait):
            self.core.woke()
        return Note(partial(note_leaving, self.log, self.name, session.session))

    def _start(self) -> Start:
        owned, planner, before = self.core.owned(), self.core.planner, self.working
        assert owned is not None and planner is not None
        self._look()
        return Start(owned, planner, self.working - before)

    def _stop(self) -> StopWork:
        """What it may not go on with, and wasn't asked to stop before."""
        before = self.stopping
        self._look()
        return StopWork(self.stopping - before)

    def _look(self) -> None:
        """What its process does on each partition, by the core: after each change of that."""
        there: dict[Activity, list[int]] = {each: [] for each in Activity}
        for partition, activity in enumerate(self.core.activities()):
            there[activity].append(partition)
        self.working, self.stopping = frozenset(there[Activity.WORKING]), frozenset(there[Activity.STOPPING])

    def needs_promises(self, now: int) -> bool:
        """Whether the core must be shown what others have promised."""
        return needs_promises(self.core, self.found, now)

    def lacks_promises(self, now: int) -> bool:
        """The same, if the last snapshot left that out."""
        return not self.found.has_promises and self.needs_promises(now)

    # The calls of the log.

    def _call(self, ask: Ask, now: int) -> Call:
        log, name, session, here = self.log, self.name, ask.session, Promise(self.opening.epoch, ask.offset)
        if ask.request is Request.SNAPSHOT:
            alone = None if self.needs_promises(now) else name
            return Call(ask, partial(log.snapshot, here.epoch, self.core.offset, alone))
        if ask.request is Request.FOLLOW:
            return Call(ask, log.opening)
        if ask.request is Request.ACQUIRE:
            return Call(ask, lambda: log.acquire(name, session, here, self._lasts()))
        if ask.request is Request.RENEW:
            return Call(ask, lambda: log.renew(name, session, self._lasts()))
        if ask.request is Request.PROMISE:
            self._kept = self.core.works()
            return Call(ask, partial(log.promise, name, session, here, self._kept))
        if ask.request in (Request.APPEND, Request.ROLL_OVER):
            return self._change(ask, here)
        return Call(ask, partial(self._release, ask))

    def _release(self, ask: Ask) -> bool:
        self.log.release(self.name, ask.session)
        return True

    def _change(self, ask: Ask, here: Promise) -> Call:
        """An append, or the end of the epoch."""
        known = known_of(self.core, self.opening, self.found, self.name, self._own)
        if ask.request is Request.APPEND:
            return Call(ask, partial(self.log.append, here.epoch, here.offset, self.core.rebalance(), known), known)
        after = self.opening.next(self.found.requested, self.core.last_table or self.opening.table)
        return Call(ask, partial(self.log.roll_over, here.epoch, here.offset, after, known), known)

    # What is reported.

    def answered(self, now: int, ask: Ask, result: Result | None) -> None:
        """What the call for this request returned; None if the log didn't answer.

        Raises NotLearned, OutOfMemory."""
        if isinstance(result, Snapshot):
            self._snapshot_read(now, result)
        elif isinstance(result, Opening):
            self._followed(now, result)
        else:
            answer = StoreAnswer.UNANSWERED if result is None else StoreAnswer.DONE if result else StoreAnswer.REFUSED
            self.core.answered(now, answer)
        if result and ask.request in (Request.ACQUIRE, Request.PROMISE):
            kept = self._kept if ask.request is Request.PROMISE else ()
            self._own = Holder(ask.session, Promise(self.opening.epoch, ask.offset), kept)

    def _snapshot_read(self, now: int, found: Snapshot) -> None:
        if found.holders is not self.found.holders:
            self.sessions = found.sessions
        self.found, self._own = found, None  # its own lease is in the snapshot
        self.core.learn(found.rows)
        self.seen = seen_of(found, self.end, self.name, self.numbers, self._is_up, self._leases)
        self.core.snapshot_read(now, self.seen)
        if found.maintenance.takes_out(self.name, self.core.sure_until > 0):
            self.core.leave()

    def _is_up(self, number: int) -> bool:
        return self.core.state(number).status is not Status.DOWN

    def _followed(self, now: int, opening: Opening) -> None:
        """Takes in the opening of the current epoch."""
        number = numbers_of(opening.names).get(self.name)
        self.core.followed(now, None if number is None else core_opening_of(opening, number))
        if number is not None and opening.epoch != self.opening.epoch:
            self._enter(opening)

    def woke(self) -> None:
        """A wait is over."""
        self.core.woke()

    def ended(self, partitions: Collection[int]) -> None:
        """The work on these partitions has ended, asked for or not."""
        if (self.working | self.stopping).issubset(partitions):
            self.core.stopped()
        else:
            for partition in partitions:
                self.core.stopped_on(partition)
        self._look()

    def leave(self) -> None:
        """It must end in order."""
        self.core.leave()
