"""What a member knows of its workers: on which partitions each works, what was asked of it, and what it does next.

A *worker* is a process for all partitions of the node, or for one of them. `WorkerState` is of one that ends when what
it works on has to stop, `TalkerState` of one that stays over changes. Times are of `clocks.seconds_of_boot`.
"""
from __future__ import annotations

import json
from collections import deque
from collections.abc import Collection
from typing import Deque, Protocol

from .work_failures import Failures
from .working import Assignment

ENDED_WELL = 0  # the exit status of a worker that has nothing more to do
STOP_ALL = json.dumps({'stop': True})
NONE: frozenset[int] = frozenset()


class Runner(Protocol):
    """What does for a worker what its state asks for."""

    def begin_process(self, worker: WorkerState, assignment: Assignment) -> bool:
        """Starts the worker's process of its serial number, or tells it, if it talks, what it works on now. Returns
        whether that was possible."""

    def stop_process(self, worker: WorkerState, line: str) -> None:
        """Stops the process; one that talks by this line."""

    def report(self, partitions: Collection[int]) -> None:
        """Reports that the work on these partitions has ended."""

    def report_end(self) -> None:
        """The worker has nothing more to do."""

    def report_failure(self, worker: WorkerState, status: int, backoff: float) -> None:
        """Reports that the process failed, and backs off for so many seconds."""


class WorkerState:
    """A worker that ends when something of its work has to stop. It starts again with what is left, or with more."""

    def __init__(self, key: str, runner: Runner, failures: Failures) -> None:
        self.key, self._runner, self._failures = key, runner, failures
        self.serial = 0  # of its last process
        self.is_there = False  # whether that may be there
        self.is_unheard = False  # whether it was begun, and nothing was heard of that
        self.begun = 0.0  # when it was asked to begin
        self.stop_begun: float | None = None  # when it was asked to stop, if it hasn't
        self.survivors: list[int] = []  # of its processes those that are still there, though they were killed
        self.working = NONE  # the partitions whose work was started, and whose end wasn't reported
        self.retry_at: float | None = None  # when its work is reported to have ended, if it backs off
        self._stopping = NONE  # of these partitions those that have to stop
        self._runs: tuple[int, ...] = ()  # on which its process works
        self._assignment: Assignment | None = None  # what its node owns

    @property
    def may_work(self) -> bool:
        return self.is_there and bool(self.working)

    # What the member asks for.

    def start(self, assignment: Assignment, added: Collection[int], now: float) -> None:
        """The work on the partitions `added` starts."""
        self.working |= frozenset(added)
        self._assignment = assignment
        self._go_on(now)

    def stop(self, assignment: Assignment | None, partitions: Collection[int], now: float) -> None:
        """The work on these partitions stops. That on some may have ended, and been reported, meanwhile."""
        self._assignment = assignment
        stopped = self.working.intersection(partitions) - self._stopping
        self._stopping |= stopped
        if stopped and self.is_there:
            self._stop(stopped, now)
        elif stopped:
            self._report(self._stopping)

    def _go_on(self, now: float) -> None:
        """Its process works on what it has to."""
        work = self._wanted()
        if self.is_there:
            if work is not None and work.partitions != self._runs and self.stop_begun is None:
                self._end_process(now)  # it starts again after that
        elif work is not None:
            self._begin(work, now)

    def _wanted(self) -> Assignment | None:
        """What it has to work on."""
        return None if self._assignment is None else self._assignment.left(self.working - self._stopping)

    def _begin(self, work: Assignment, now: float) -> None:
        """Starts a process for this, unless it backs off."""
        backoff = self._failures.backoff_seconds(now, self.key)
        self.retry_at = now + backoff if backoff else None
        if backoff:
            return
        self.serial += 1
        self.begun, self._runs = now, work.partitions
        self.is_there = self.is_unheard = self._runner.begin_process(self, work)
        self._failures.began(now, self.key)

    def _stop(self, partitions: frozenset[int], now: float) -> None:
        """Its process stops with these."""
        if self.stop_begun is None:
            self._end_process(now)

    def _end_process(self, now: float) -> None:
        self.stop_begun = now
        self._runner.stop_process(self, '')

    def _report(self, partitions: frozenset[int]) -> None:
        """The work on these partitions has ended."""
        if partitions:
            self.working, self._stopping = self.working - partitions, self._stopping - partitions
            self.retry_at = self.retry_at if self.working else None
            self._runner.report(partitions)

    # What is heard of its process.

    def answered(self, now: float) -> None:
        """The process has answered a stop."""

    def gone(self, word: str, status: int, now: float) -> None:
        """Nothing is left of the process: it was `stopped`, its time was over (`lost`), or it has `ended` by itself,
        with this status."""
        self._cease()
        if word == 'ended':
            self._report(self._stopping)
            self._ended(status, now)
            return
        self._failures.ceased(now, self.key)
        self._report(self._stopping if word == 'stopped' else self.working)
        self._go_on(now)

    def give_up(self) -> None:
        """There is no watchdog any more, and nothing is left of the process."""
        self._cease()
        self._report(self._stopping)

    def _cease(self) -> None:
        self.is_there = self.is_unheard = False
        self.stop_begun, self.survivors = None, []

    def _ended(self, status: int, now: float) -> None:
        """The process ended by itself. If it failed it is started again, later and later, and its node keeps what it
        owns unless it gives up; otherwise its member ends, too."""
        if status == ENDED_WELL:
            self._runner.report_end()
            return
        backoff = self._failures.failed(now, self.key)
        self._runner.report_failure(self, status, backoff)
        if self.working:
            self.retry_at = now + backoff

    def retry(self) -> None:
        """Its back-off is over: the member starts its work again, if the node still owns it."""
        self._report(self.working)


class PartitionState(WorkerState):
    """A worker for one partition. The node's work isn't judged by it once the partition has moved."""

    def _report(self, partitions: frozenset[int]) -> None:
        if partitions & self._stopping:
            self._failures.moved(self.key)
        super()._report(partitions)


class TalkerState(WorkerState):
    """A worker that stays over changes, and hears of them by lines."""

    def __init__(self, key: str, runner: Runner, failures: Failures) -> None:
        super().__init__(key, runner, failures)
        self._stops: Deque[tuple[frozenset[int], float]] = deque()  # those that it hasn't answered, each with its time

    def _go_on(self, now: float) -> None:
        """It hears after each change what its node owns now."""
        work = self._wanted()
        if work is None:
            return
        if not self.is_there:
            self._begin(work, now)
        elif self._runner.begin_process(self, work):
            self.begun, self.is_unheard = now, True
            self._failures.began(now, self.key)

    def _stop(self, partitions: frozenset[int], now: float) -> None:
        self._stops.append((partitions, now))
        self.stop_begun = self._stops[0][1]
        is_all = self.working == self._stopping
        self._runner.stop_process(self, STOP_ALL if is_all else json.dumps({'stop': sorted(partitions)}))

    def answered(self, now: float) -> None:
        if self._stops:
            partitions, _ = self._stops.popleft()
            self.stop_begun = self._stops[0][1] if self._stops else None
            self.survivors = []
            self._report(partitions)
            if not self.working:
                self._failures.ceased(now, self.key)

    def _cease(self) -> None:
        super()._cease()
        self._stops.clear()

    def gone(self, word: str, status: int, now: float) -> None:
        super().gone('lost' if word == 'stopped' else word, status, now)
