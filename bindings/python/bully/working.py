"""The work of a member: what its node owns, and what starts and stops the work on it."""
from __future__ import annotations

import logging
import queue
import threading
from collections.abc import Callable, Collection
from dataclasses import dataclass, field, replace
from functools import partial
from typing import Protocol, Tuple

from .clocks import seconds_of_boot
from .display import shown_name
from .epochs import Token
from .settings import Settings

NONE: frozenset[int] = frozenset()  # no partitions
_logger = logging.getLogger('bully')


@dataclass(frozen=True)
class Assignment:
    """What the node owns: the token of its table; the coordinator that planned the table; the partitions, counted from
    0, in rising order; the settings of the epoch, which number the nodes; and until when that is sure, as far as this
    process knows."""

    token: Token
    coordinator: int
    partitions: tuple[int, ...]
    settings: Settings
    until: float = field(default=float('-inf'), compare=False)

    def left(self, partitions: Collection[int]) -> Assignment | None:
        """The same with these partitions alone, of those that it has; None if it has none of them."""
        there = tuple(each for each in self.partitions if each in partitions)
        return self if there == self.partitions else replace(self, partitions=there) if there else None


class Working(Protocol):
    """What does the work of a member, whose thread makes these calls. `start` and `stop` don't wait for the work. It is
    reported by `Reports.ended` once that of a partition has ended, asked for or not, and only after that it is started
    again."""

    def begin(self) -> None:
        """The member begins to take part."""

    def start(self, assignment: Assignment, added: frozenset[int]) -> None:
        """The node owns this from now on. The work on the partitions `added` starts; on the others it goes on, by this
        token from now on."""

    def stop(self, assignment: Assignment | None, partitions: frozenset[int]) -> None:
        """The work on these partitions stops. The assignment is what is left of it: None if that is nothing. Other work
        may still be stopping."""

    def end(self) -> None:
        """The member has ended. Returns once nothing is worked on any more."""


class Reports(Protocol):
    """What a member hears of its work, by any thread."""

    def ended(self, partitions: Collection[int]) -> None:
        """The work on these partitions has ended."""

    def fail(self, failure: BaseException) -> None:
        """The member must leave in order, and then raise this."""

    def get_stuck(self, failure: BaseException) -> None:
        """The member must end without releasing its lease, because its work may go on; and then raise this."""

    @property
    def sure_until(self) -> float:
        """Until when the node is surely live."""


Callback = Callable[[Assignment], object]
Assigned = Callable[[Assignment, Tuple[int, ...]], object]
Revoked = Callable[[Tuple[int, ...]], object]
Report = Callable[[Collection[int]], object]


def log_work(name: str, does: str, partitions: Collection[int], token: Token | None) -> None:
    """Logs that the node of this name starts or stops work on these partitions, by this token. If none are added, it
    goes on with those that it has."""
    what = f'{does} work on partitions {", ".join(map(str, sorted(partitions)))}'
    by = '' if token is None else f' by token {token}'
    _logger.info('node %s: %s%s', shown_name(name), what if partitions else 'continues with the same partitions', by)


class Calls:
    """Calls of callbacks that do the work of a node. Each returns once what it has to do is done. One thread makes
    them."""

    def __init__(self, member: Reports, report: Report, name: str) -> None:
        """For the node of this name. `report` takes partitions on which work has ended."""
        self._member, self._report, self._name = member, report, name

    @property
    def _working(self) -> frozenset[int]:
        """The partitions that may be worked on, but for what can't be stopped."""
        raise NotImplementedError

    def start(self, assignment: Assignment, added: frozenset[int]) -> None:
        """As `Working.start`."""
        raise NotImplementedError

    def stop(self, assignment: Assignment | None, partitions: frozenset[int]) -> None:
        """As `Working.stop`."""
        raise NotImplementedError

    def end(self) -> None:
        """All work stops."""
        if self._working:
            self.stop(None, self._working)

    def ended(self, partitions: Collection[int]) -> None:
        """The work on these partitions has ended by itself."""
        raise NotImplementedError

    def lose(self, assignment: Assignment) -> None:
        """The work for this assignment has ended by itself. What is left of it is stopped."""
        raise NotImplementedError

    def _call(self, callback: Callable[[], object]) -> None:
        """Starts work. The member leaves if that raises an exception."""
        try:
            callback()
        except BaseException as failure:
            self._member.fail(failure)

    def _has_stopped(self, callback: Callable[[], object]) -> bool:
        """Stops work. If that raises an exception the work may go on: then the member ends, but doesn't release its
        lease."""
        try:
            callback()
        except BaseException as failure:
            self._member.get_stuck(failure)
            return False
        return True

    def _say(self, words: str, partitions: Collection[int], token: Token) -> None:
        log_work(self._name, words, partitions, token)


class WholeCalls(Calls):
    """Callbacks that start and stop all work of the node at once. If only a part of it has to stop, or has ended, all
    is stopped. What is left starts again by the same token."""

    def __init__(self, member: Reports, report: Report, name: str, start: Callback, stop: Callback) -> None:
        super().__init__(member, report, name)
        self._start_all, self._stop_all = start, stop
        self._given: Assignment | None = None  # what was started last, unless it was stopped
        self._is_stuck = False  # whether work may go on that could not be stopped

    @property
    def _working(self) -> frozenset[int]:
        return frozenset(self._given.partitions) if self._given is not None else NONE

    def start(self, assignment: Assignment, added: frozenset[int]) -> None:
        if self._working == frozenset(assignment.partitions) and not added:
            return  # it goes on by the token by which it started
        left = assignment.left(self._working | added)  # for the member hears only now of others that have ended
        if self._stops() and left is not None:
            self._start(left)

    def stop(self, assignment: Assignment | None, partitions: frozenset[int]) -> None:
        before, there = self._given, self._working
        if before is not None and self._stops():
            self._report(partitions & there)
            left = None if assignment is None else before.left(there.intersection(assignment.partitions))
            if left is not None:
                self._start(left)

    def ended(self, partitions: Collection[int]) -> None:
        if not self._working.isdisjoint(partitions):
            self.end()

    def lose(self, assignment: Assignment) -> None:
        if assignment is self._given:  # and not of work before that, which had the same token
            self.end()

    def _start(self, assignment: Assignment) -> None:
        self._given = assignment
        self._say('starts', assignment.partitions, assignment.token)
        self._call(partial(self._start_all, assignment))

    def _stops(self) -> bool:
        """Stops all that is worked on. Whether that, and each stop before, could be done."""
        before, self._given = self._given, None
        if before is not None:
            self._say('stops', before.partitions, before.token)
            self._is_stuck |= not self._has_stopped(partial(self._stop_all, before))
        return not self._is_stuck


class PartitionCalls(Calls):
    """Callbacks by partition, with the names that consumers of Kafka know."""

    def __init__(
        self, member: Reports, report: Report, name: str, assigned: Assigned, revoked: Revoked, lost: Revoked | None
    ) -> None:
        """`lost` is called in place of `revoked` if the lease of the node isn't sure any more, so that others may work
        on these partitions soon. Without it `revoked` is."""
        super().__init__(member, report, name)
        self._assigned, self._revoked, self._lost = assigned, revoked, lost or revoked
        self._started: dict[int, Token] = {}  # of each partition that may be worked on: by which token that was started
        self._token = Token(0)  # by which it is worked on now

    @property
    def _working(self) -> frozenset[int]:
        return frozenset(self._started)

    def start(self, assignment: Assignment, added: frozenset[int]) -> None:
        self._started.update(dict.fromkeys(added, assignment.token))
        left = assignment.left(self._working)  # for the member hears only now of others that have ended
        if left is not None:
            self._token = left.token
            self._say('starts', added, left.token)
            self._call(partial(self._assigned, left, tuple(sorted(added))))

    def stop(self, assignment: Assignment | None, partitions: frozenset[int]) -> None:
        there = self._drop(partitions)
        if there:
            self._say('stops', there, self._token)
            is_lost = seconds_of_boot() >= self._member.sure_until
            if self._has_stopped(partial(self._lost if is_lost else self._revoked, tuple(sorted(there)))):
                self._report(there)

    def ended(self, partitions: Collection[int]) -> None:
        there = self._drop(partitions)
        if there:
            self._report(there)

    def lose(self, assignment: Assignment) -> None:
        there = self._working.intersection(assignment.partitions)
        self.stop(None, frozenset(each for each in there if self._started[each] <= assignment.token))

    def _drop(self, partitions: Collection[int]) -> frozenset[int]:
        """Those of these partitions that may be worked on. From now on they aren't."""
        there = self._working.intersection(partitions)
        for partition in there:
            del self._started[partition]
        return there


class Callbacks:
    """Callbacks that do the work of a node, and their thread. It makes their calls one after the other, in the order in
    which they were asked for."""

    def __init__(self, calls: Calls, get_stuck: Callable[[BaseException], object]) -> None:
        """`get_stuck` is called if a call raises an exception, which the callbacks don't: then it isn't known what goes
        on."""
        self.calls, self._get_stuck = calls, get_stuck
        self._asked: queue.SimpleQueue[Callable[[], object] | None] = queue.SimpleQueue()
        self._has_ended = threading.Event()

    def begin(self) -> None:
        threading.Thread(target=self._make_all, name='bully work', daemon=True).start()

    def start(self, assignment: Assignment, added: frozenset[int]) -> None:
        self._asked.put(partial(self.calls.start, assignment, added))

    def stop(self, assignment: Assignment | None, partitions: frozenset[int]) -> None:
        self._asked.put(partial(self.calls.stop, assignment, partitions))

    def ended(self, partitions: frozenset[int]) -> None:
        self._asked.put(partial(self.calls.ended, partitions))

    def lose(self, assignment: Assignment) -> None:
        self._asked.put(partial(self.calls.lose, assignment))

    def end(self) -> None:
        self._asked.put(None)
        self._has_ended.wait()
        self._has_ended.clear()

    def _make_all(self) -> None:
        for call in iter(self._asked.get, None):
            self._make(call)
        self._make(self.calls.end)
        self._has_ended.set()

    def _make(self, call: Callable[[], object]) -> None:
        try:
            call()
        except BaseException as failure:
            self._get_stuck(failure)
