"""A member that runs: its rules, which are proved, over a log, a clock and callbacks."""
from __future__ import annotations

import collections
import dataclasses
import logging
import secrets
import socket
import threading
from collections.abc import Callable, Collection
from contextlib import ExitStack, suppress
from functools import partial
from typing import Deque, TypeVar

from .clocks import SECOND, nanoseconds_of_boot, seconds_of_boot, sleep_until_ready
from .core import BackOff, Core, End, Ending, Live, Reason, Request, Session
from .display import shown_name
from .driver import Call, Driver, Note, Start, Step, StopWork, WaitForNews
from .epochs import Opening, Token
from .faults import OutOfMemory
from .observer import waits_for
from .settings import Settings
from .shared_log import DamagedLog, Log, LogError, Snapshot, Unanswered, found_in, openings_of
from .values import Status
from .view import ChangeWaits
from .work_failures import Failures, GivingUp

from .working import (
    Assigned, Assignment as Assignment, Callback, Callbacks, Calls, PartitionCalls, Revoked, WholeCalls, Working,
)  # fmt: skip

ENDINGS = {
    Ending.LEFT: 'it was told to leave', Ending.NOT_THERE: 'its node is not in the group any more',
    Ending.BROKEN: 'a row of the log was refused',
}  # fmt: skip


NOTHING = None, 0.0, False  # what a member without a lease shows
_Answered = TypeVar('_Answered')
_logger = logging.getLogger('bully')


class OtherGroup(Exception):
    """The log belongs to a group with other settings."""


class NotInGroup(Exception):
    """The group has no node of this name now."""


def is_known(log: Log, settings: Settings) -> bool:
    """Whether the group has these settings, had them in an earlier epoch, or is requested to have them."""
    requested = found_in(log).requested
    has_request = requested is not None and requested.is_of(settings)
    return has_request or any(opening.is_of(settings) for opening in openings_of(log))


def node_number(opening: Opening, node: int | str) -> int:
    """The number of this node, by its name or its number. Raises NotInGroup if no node has that name."""
    if isinstance(node, int):
        return node
    if node not in opening.names:
        raise NotInGroup(f'the group has no node {node} in epoch {opening.epoch}, only {", ".join(opening.names)}')
    return opening.names.index(node) + 1


class Member:
    """A process that acts for a node of a group over a log. It takes part from `run` until `leave` is called.

    `start(assignment)` must start the work on what the node owns, and return. `stop(assignment)` must return only once
    nothing of it is worked on any more. Both are called in a thread of the member's own, one at a time. Work must
    consist of units shorter than the margin, which is a fifth of the ttl, and before each unit `assignment` must
    confirm it. If `start` raises an exception, the member ends in order, and `run` raises the exception. If `stop`
    does, the member also ends, but doesn't release its lease, because the work may continue.

        with Member(SqliteLog('group.db'), 2, start, stop) as member:
            member.run()

    `run` returns after `leave`, which another thread or a signal handler calls. A call of the log must not take longer
    than a fifth of the ttl, 1 s by default. `examples/members/embedded.py` is a whole program.

    In a cooperative group they are called if the set of partitions changes; the work goes on by its earlier token if it
    doesn't. Callbacks by partition stop only what moves. They are on the same terms:

    - `on_assigned(assignment, partitions)`: the node owns the assignment from now on. The work on these partitions must
      start; on its others it goes on, by the new token.
    - `on_revoked(partitions)`: must return only once nothing of these is worked on any more.
    - `on_lost(partitions)`: the same, in place of `on_revoked`, once the lease of the node isn't sure any more."""

    def __init__(
        self,
        log: Log,
        node: int | str,
        start: Callback | None = None,
        stop: Callback | None = None,
        ttl: float = 5.0,
        settings: Settings | None = None,
        sure: Callable[[float], object] | None = None,
        failures: Failures | None = None,
        *,
        on_assigned: Assigned | None = None,
        on_revoked: Revoked | None = None,
        on_lost: Revoked | None = None,
        work: Working | None = None,
        acquires: Callable[[Session], object] | None = None,
    ) -> None:
        """A member of the log's group, for the node of this name, or of this number in the current epoch. When the
        group's settings change it keeps the name; `run` returns if the group has no such node any more. The work is
        done by `start` and `stop`, by `on_assigned` and `on_revoked`, or by `work`. If `settings` are given, which may
        be those of an earlier epoch, the log must belong to that group. After each renewal, and if its lease was taken
        away, `sure` is called with the time until which ownership is sure, by `clocks.seconds_of_boot`; before a lease
        is requested `acquires` is, with the session that may hold it. With `failures`, which the code that does the
        work counts, the member notes in the log that its work fails, and its node may give up.

        Raises TypeError if it isn't given exactly one of these kinds of work; OtherGroup, NotInGroup, BadHeader,
        BadNode, BadTtl, OutOfMemory, and what the log raises."""
        self.log = log
        opening = log.opening()
        if settings is not None and not is_known(log, settings):
            raise OtherGroup(f'the log belongs to another group: {opening.header} of {", ".join(opening.names)}')
        self.ttl, self.margin = ttl, ttl / 5
        self._other: Session | None = None  # the session of another process that was last seen for its node
        self._taken: Session | None = None  # the last one of its own whose lease somebody took away
        self.failure: BaseException | None = None
        self.waits = ChangeWaits()
        self._driver = self._driver_of(opening, node)
        self.name = self._driver.name
        self._does = self._work_by((start, stop), (on_assigned, on_revoked), on_lost, work)
        self.is_drained = False  # whether it does nothing because its node is drained
        self.gave_up = False  # whether it does nothing for a while because its work fails, and its node gave up
        self._giving_up = GivingUp(log, self.name, ttl, failures)
        self._sure, self._acquires = sure, acquires
        self._is_leaving = False
        self._is_stuck = False  # whether a stop failed, so that work may never stop
        self._reports: Deque[Collection[int]] = collections.deque()  # partitions on which work has ended
        self._woken: socket.socket  # while it runs: can be read once it is woken
        self._wakes: socket.socket | None = None  # while it runs
        self._ended = threading.Event()
        self._ended.set()
        # (what its node owns, as far as it works there; until when its lease is sure; whether it leads)
        self._shown: tuple[Assignment | None, float, bool] = NOTHING
        self.stepped = 0.0  # the time of its last step, by `clocks.seconds_of_boot`

    def _work_by(
        self, whole: tuple[Callback | None, Callback | None], by_partition: tuple[Assigned | None, Revoked | None],
        on_lost: Revoked | None, work: Working | None,
    ) -> Working:  # fmt: skip
        """What does the work: the one kind that is given. Raises TypeError."""
        (start, stop), (assigned, revoked) = whole, by_partition
        kinds: list[Working | Calls] = [] if work is None else [work]
        if start is not None and stop is not None:
            kinds.append(WholeCalls(self, self._note_ended, self.name, start, stop))
        if assigned is not None and revoked is not None:
            kinds.append(PartitionCalls(self, self._note_ended, self.name, assigned, revoked, on_lost))
        if len(kinds) != 1:
            raise TypeError('a member needs start and stop, or on_assigned and on_revoked, or work')
        return Callbacks(kinds[0], self.get_stuck) if isinstance(kinds[0], Calls) else kinds[0]

    def _driver_of(self, opening: Opening, node: int | str) -> Driver:
        """A driver that takes part from this epoch on, as a process with a number of its own."""
        return Driver(self.log, opening, node_number(opening, node), secrets.randbits(63), int(self.ttl * SECOND))

    @property
    def core(self) -> Core:
        """The rules that it follows."""
        return self._driver.core

    @property
    def opening(self) -> Opening:
        """The opening of its epoch."""
        return self._driver.opening

    # Any thread may call these.

    def assignment(self) -> Assignment | None:
        """What the node owns, and until when that is sure; None if it isn't sure now, or the work must stop."""
        work, until, _ = self._shown
        return dataclasses.replace(work, until=until) if work is not None and seconds_of_boot() < until else None

    @property
    def leads(self) -> bool:
        """Whether its node is surely the coordinator now. No two members of a group are at the same moment. In a
        cooperative group no member says so: work goes on there while another node becomes the coordinator."""
        _, until, leads = self._shown
        return leads and seconds_of_boot() < until

    @property
    def takes_steps(self) -> bool:
        """Whether it takes its steps, or hasn't started: a step is due every quarter of the ttl, and a call takes a
        fifth of it at most."""
        return not self.stepped or seconds_of_boot() < self.stepped + self.ttl

    @property
    def node(self) -> int:
        """The number of its node in this epoch."""
        return self._driver.numbers[self.name]

    @property
    def sure_until(self) -> float:
        """Until when the node is surely live, by `clocks.seconds_of_boot`."""
        return self._shown[1]

    @property
    def stopping(self) -> frozenset[int]:
        """The partitions on which its work has to end, and hasn't."""
        return self._driver.stopping

    @property
    def is_leaving(self) -> bool:
        """Whether it was asked to end."""
        return self._is_leaving

    def leave(self) -> None:
        """Ends the member in order: its work stops, and its lease is released. A signal handler may call this."""
        self._is_leaving = True
        self._wake()

    def fail(self, failure: BaseException) -> None:
        """Ends the member in order, as `leave` does; `run` then raises this."""
        self.failure = self.failure or failure
        self.leave()

    def end_with(self, failure: BaseException) -> None:
        """Ends the member in order, and `run` then raises this; does nothing if the member is already leaving."""
        if not self._is_leaving:
            self.fail(failure)

    def get_stuck(self, failure: BaseException) -> None:
        """Ends the member without releasing its lease, because its work may go on. `run` raises this."""
        self._is_stuck = True
        self.fail(failure)

    def lose(self, assignment: Assignment) -> None:
        """Reports that the work for this assignment, which `start` or `on_assigned` was given, has ended on its own.
        The member stops what is left of it, and starts again what the node still owns. For `start` it must be the
        object that was given last. Without callbacks `ended` reports that."""
        if isinstance(self._does, Callbacks):
            self._does.lose(assignment)

    def ended(self, partitions: Collection[int]) -> None:
        """Reports that the work on these partitions has ended, asked for or not. The member starts it again where the
        node still owns them. With `start` and `stop` it first stops all of it."""
        ended = frozenset(partitions)
        if isinstance(self._does, Callbacks):
            self._does.ended(ended)
        else:
            self._note_ended(ended)

    def _note_ended(self, partitions: Collection[int]) -> None:
        self._reports.append(partitions)
        self._wake()

    def _wake(self) -> None:
        if self._wakes is not None:
            with suppress(OSError):  # it has much to read, or has ended
                self._wakes.send(b'.', socket.MSG_DONTWAIT)

    # Its run.

    def run(self) -> None:
        """Takes part until the member has left; while its node is drained, it only waits. Raises what a callback
        raised; NotLearned if a row of the log is refused; NotInGroup if a drained node isn't in the group any more; and
        what the log raises, except Unanswered: then it tries again."""
        self._ended.clear()
        with ExitStack() as ending:
            ending.callback(self._ended.set)
            woken, wakes = socket.socketpair()
            self._woken, self._wakes = ending.enter_context(woken), ending.enter_context(wakes)
            self._does.begin()
            try:
                self._go_on()
            finally:
                self._shown = None, self.sure_until, False
                self._does.end()  # however the run ended
        if self.failure is not None:
            raise self.failure

    def __enter__(self) -> Member:
        return self

    def __exit__(self, *error: object) -> None:
        """Leaves, if the member runs in another thread, and closes the log."""
        self.leave()
        self._ended.wait()
        if not self.core.is_closed:
            self.core.close()
        self.log.close()

    def _go_on(self) -> None:
        """Takes steps until the end, or until its work can't be stopped."""
        while not self._is_stuck:
            self._hear()
            self.stepped = seconds_of_boot()
            step = self._driver.next(nanoseconds_of_boot())
            if not isinstance(step, End):
                self._show()  # before a promise or a release ends its lead
                self._do(step)
                self._show()
            elif not self._comes_back(step.ending):
                return

    def _comes_back(self, ending: Ending) -> bool:
        """The member has ended. Returns whether it takes part again: if its node was drained or gave up, and that is
        over before it is asked to end."""
        is_away = ending is Ending.LEFT and not self._is_leaving
        self.gave_up, self.is_drained = is_away and self.gave_up, is_away and not self.gave_up
        if not self.gave_up:  # that was logged before
            level = logging.WARNING if ending is Ending.NOT_THERE else logging.INFO
            why = 'it is drained, and does nothing' if self.is_drained else ENDINGS[ending]
            if ending is Ending.LEFT and self.failure is not None:
                why = f'it has left, because {str(self.failure) or type(self.failure).__name__}'
            _logger.log(level, 'node %s: %s', shown_name(self.name), why)
        if ending is Ending.BROKEN:
            self.failure = self.failure or self.core.fault or DamagedLog('the log has a row that is not an event')
        self._show()
        while is_away and not self._is_leaving:
            opening, before = self._answer(self._returned), self.core
            if opening is not None:
                self._driver = self._driver_of(opening, self.name)
                before.close()
                self.is_drained = self.gave_up = False
                return True
            sleep_until_ready(self.ttl / 4, self._woken.fileno())
            self._hear()
            self.stepped = seconds_of_boot()
        with suppress(LogError):
            self._giving_up.take_back()
        return False

    def _returned(self) -> Opening | None:
        """The opening of the current epoch, if its node isn't drained, and if a node that gave up tries again. Raises
        NotInGroup."""
        opening = self.log.opening()
        node_number(opening, self.name)
        found = found_in(self.log)
        self.is_drained = self.name in found.maintenance.drained
        if self.is_drained or self.gave_up and not self._giving_up.comes_back(found, opening.names):
            return None
        return opening

    def _hear(self) -> None:
        """Reports what has happened meanwhile."""
        with suppress(BlockingIOError):
            self._woken.recv(4096, socket.MSG_DONTWAIT)
        if self._is_leaving:
            self._driver.leave()
        while self._reports:
            self._driver.ended(self._reports.popleft())

    def _show(self, begun: Assignment | None = None) -> None:
        """Shows what its node owns, if its work begins on that, or else what is left of what was shown."""
        work = begun or self._shown[0]
        shown = None if work is None else work.left(self._driver.working)
        leads = not (self._driver.stopping or self.opening.is_cooperative) and self._is_coordinator(shown)
        live = self.core.session
        is_taken = isinstance(live, Live) and live.session == self._taken
        self._shown = shown, 0.0 if is_taken else self.core.sure_until / SECOND, leads

    def _is_coordinator(self, work: Assignment | None) -> bool:
        """Whether its node planned the table of this work; or, if it owns nothing, the last plan after its promise."""
        if work is not None:
            return work.settings.name(work.coordinator) == self.name
        core = self.core
        is_last = core.planner == core.node and (core.token or 0) > core.promised and core.ending is None
        return is_last and core.state(core.node).status is Status.NORMAL and core.owned() is None

    # Its steps.

    def _do(self, step: Step) -> None:
        if isinstance(step, Call):
            self._ask(step)
        elif isinstance(step, Note):
            self._answer(step.call)
        elif isinstance(step, Start):
            self._start(step)
        elif isinstance(step, StopWork):
            self._stop(step.partitions)
        elif isinstance(step, BackOff):
            self._see_taken(step.at_most / SECOND)
        elif isinstance(step, WaitForNews):
            self._wait(step)

    def _start(self, step: Start) -> None:
        """Starts the work on what its node owns, and goes on where it works already."""
        token, partitions = Token.of(self.opening.epoch, step.owned.token), step.owned.partitions
        work = Assignment(token, step.coordinator, partitions, self.opening.settings)
        self._show(work)
        self._does.start(work, step.added)

    def _stop(self, partitions: frozenset[int]) -> None:
        """Stops the work that it may not go on with. It isn't shown any more."""
        self._show()
        self._does.stop(self._shown[0], partitions)

    def _wait(self, step: WaitForNews) -> None:
        """Waits for news in the log, or until it is woken; unless it must note something in the log."""
        if not self._notes():
            self._note_waits(step.reason)
            seconds = step.at_most / SECOND
            self._answer(lambda: self.log.wait(*step[:4], seconds, self._woken.fileno()))
            self._see_taken(0.0)
        self._driver.woke()

    def _see_taken(self, seconds: float) -> None:
        """Waits for so long, or until it is woken. If the log reports that its lease was taken away, its work ends at
        once: the rules hear of it by the next snapshot, or the next renewal, which may be late."""
        live, woken = self.core.session, self._woken.fileno()
        session = live.session if isinstance(live, Live) else None
        if session is None or session == self._taken:
            sleep_until_ready(seconds, woken)
        elif self._answer(partial(self.log.sees_loss, session, seconds, woken)):
            self._lose_lease(session)

    def _note_waits(self, reason: Reason) -> None:
        """Notes for whom the change waits that is under way, if one is. Without promises it isn't known for whom; what
        was noted before stays until the change is over."""
        core, found, end = self.core, self._driver.found, self._driver.end
        is_over = reason is Reason.STABLE or core.session is None or found.is_frozen(end)
        if not is_over and not found.has_promises:
            return
        with suppress(OutOfMemory):  # then that isn't shown
            self.waits.see(end, {} if is_over else waits_for(core, self.opening, found))

    def _notes(self) -> bool:
        """Whether it made a call to the log to note how its work goes. Its node may have given up by that."""
        if self.core.sure_until <= nanoseconds_of_boot() or self.core.ending is not None:
            return False
        leads = self.core.planner == self.core.node
        asked = self._giving_up.due(self._driver.found, self._driver.numbers.keys(), leads)
        if asked is not None and self._answer(asked):
            self.gave_up = True
            self._driver.leave()
            who, seconds = shown_name(self.name), self._giving_up.go_away()
            said = 'node %s: its worker keeps failing; it gives up what it owns, and tries again in %.1f s'
            _logger.warning(said, who, seconds)
        return asked is not None

    def _ask(self, step: Call) -> None:
        """Makes a call of the log, and reports the result."""
        request, session = step.ask.request, step.ask.session
        if request is Request.ACQUIRE and self._acquires is not None:
            self._acquires(session)
        before, sure_until, epoch = self.core.session, self.core.sure_until, self.opening.epoch
        result = self._answer(step.call)
        if isinstance(result, Snapshot):
            self._giving_up.see(result)
            self._see_other(result)
        self._driver.answered(nanoseconds_of_boot(), step.ask, result)
        if self.opening.epoch != epoch:
            _logger.info(
                'node %s: continues in epoch %d as number %d', shown_name(self.name), self.opening.epoch, self.node
            )
        if result and request is Request.ACQUIRE:
            _logger.info('node %s: live as %d.%d', shown_name(self.name), session.process, session.number)
        if result and request in (Request.ACQUIRE, Request.RENEW) and self._sure is not None:
            self._sure(self.core.sure_until / SECOND)
        is_gone = self.core.session is None and request is not Request.RELEASE
        if is_gone and sure_until > nanoseconds_of_boot() and before is not None:
            self._lose_lease(before.session)

    def _lose_lease(self, session: Session) -> None:
        """The lease of this session is gone, though it was sure, and the member hasn't released it: others may work
        from now on, so the time of its work is over at once."""
        if session == self._taken:
            return
        self._taken = session
        _logger.warning('node %s: somebody took its lease away, so its work is ended at once', shown_name(self.name))
        self._show()
        if self._sure is not None:
            self._sure(seconds_of_boot())

    def _see_other(self, found: Snapshot) -> None:
        """Logs once for each session of another process that it holds the lease of this member's node."""
        holder = found.holders.get(self.name)
        if holder is not None and holder.session.process != self._driver.process and holder.session != self._other:
            self._other = session = holder.session
            who = shown_name(self.name), session.process, session.number
            said = 'node %s: another process is live for it, as %d.%d, and this one waits until that one ends'
            _logger.warning(said, *who)

    def _answer(self, call: Callable[[], _Answered]) -> _Answered | None:
        """The answer of the log; None if it doesn't answer."""
        try:
            return call()
        except Unanswered as unanswered:
            _logger.warning('node %s: %s', shown_name(self.name), unanswered)
            return None
