"""What a member answers over HTTP, for each path: its page, its group as JSON, probes and metrics."""
from __future__ import annotations

import json
import logging
import threading
import time
from typing import Any
from urllib.parse import parse_qs

from .clocks import seconds_of_boot
from .faults import BullyError
from .hosts import Target
from .member import Member
from .metrics import GroupReading, metrics_of
from .page import page_of
from .shared_log import LogError, Unanswered
from .view import GroupView, LogView
from .worker import Workers

_logger = logging.getLogger('bully')

POLL_SECONDS = 25.0  # the longest wait of a request for news
POLLS_MAX = 64  # requests that wait at the same time
SNAPSHOT_SECONDS = 0.1  # between two snapshots of the log, at least, however many requests there are
SNAPSHOT_MAX = 2.0  # seconds for which a request waits until another one has read a snapshot
PARTITION = '/partitions/'  # and a number
STATUSES = ('/livez', '/readyz', '/healthz', '/leader')  # the answer of these, and of a partition, is the status
SHOWN = ('/', '/group', '/assignment')  # these show the log as it is now
PATHS = (*STATUSES, *SHOWN, '/metrics', '*')

Answer = tuple[int, str, str]  # the status, the content type and the text


def text_answer(status: int, text: str) -> Answer:
    """An answer of one line."""
    return status, 'text/plain', f'{text}\n'


def is_of_status(path: str) -> bool:
    """Whether the answer to a request for this is a status, which is known at once."""
    return path in STATUSES or path.startswith(PARTITION)


def asked_number(asked: dict[str, list[str]], name: str) -> int | None:
    """The number of this name in a query, if there is one of less than 10 digits."""
    word = asked.get(name, [''])[0]
    return int(word) if word.isascii() and word.isdecimal() and len(word) < 10 else None


class Reader:
    """Reads snapshots of the log for all requests. Threads share it."""

    def __init__(self, view: LogView) -> None:
        self._view, self._lock = view, threading.Lock()
        self._last: tuple[GroupView, float] | None = None  # the last group, and when it was read
        self._failure: LogError | BullyError | None = None  # of the last snapshot
        self._next = float('-inf')  # when it may read a snapshot again
        self._is_closed = False
        self._look()  # so that something is known

    def show(self) -> GroupView:
        """The group by the last snapshot. Raises what that raised; Unanswered if the snapshot takes too long."""
        if not self._lock.acquire(timeout=SNAPSHOT_MAX):
            raise Unanswered(f'a read of the log takes longer than {SNAPSHOT_MAX:g} s')
        try:
            if self._is_closed:
                raise Unanswered('the member is ending')
            if seconds_of_boot() >= self._next:
                self._look()
                self._next = seconds_of_boot() + SNAPSHOT_SECONDS
            if self._failure is not None or self._last is None:
                raise self._failure or Unanswered('no snapshot has been read yet')
            return self._last[0]
        finally:
            self._lock.release()

    def _look(self) -> None:
        """Reads a snapshot. The member logs a failure, once: it may name servers and files, so no answer has it."""
        begun = seconds_of_boot()
        try:
            self._last, self._failure = (self._view.show(), begun), None
        except (LogError, BullyError) as failure:
            if self._failure is None:
                _logger.warning('page: %s', failure)
            self._failure = failure

    def reading(self) -> GroupReading:
        """The same; or the group as it was known before, if the log can't be read."""
        try:
            self.show()
            is_answered = True
        except (LogError, BullyError):
            is_answered = False
        if self._last is None:
            return GroupReading(None, 0.0, is_answered)
        group, read = self._last
        return GroupReading(group, seconds_of_boot() - read, is_answered)

    def close(self) -> None:
        """Reads no more snapshots, and closes the view unless a snapshot hangs."""
        is_free = self._lock.acquire(timeout=SNAPSHOT_MAX)
        self._is_closed = True
        if is_free:
            self._view.close()
            self._lock.release()


class Answers:
    """The answers of a member that hasn't read its log yet."""

    def __init__(self, name: str) -> None:
        """For the node of this name."""
        self._name = name

    def answer(self, target: Target) -> Answer:
        """The answer to a GET. Raises what the log raises."""
        plain = {'/livez': self._live, '/leader': self._leader, '/metrics': self._metrics}
        plain.update({'/readyz': self._health, '/healthz': self._health})
        if target.path in plain:
            return plain[target.path]()
        if target.path.startswith(PARTITION):
            return self._partition(target.path[len(PARTITION) :])
        return self._shown(target) if target.path in SHOWN else text_answer(404, 'there is no such page')

    def close(self) -> None:
        """Answers nothing any more."""

    def _live(self) -> Answer:
        """Whether the process runs, whatever its store does."""
        return text_answer(200, 'alive')

    def _health(self) -> Answer:
        """The state of the member, whether or not the store answers."""
        return text_answer(503, 'not live')

    def _leader(self) -> Answer:
        """Whether its node is surely the coordinator now."""
        return text_answer(503, 'the node does not lead')

    def _partition(self, word: str) -> Answer:
        """Whether it may work on this partition now."""
        return text_answer(503, 'this member may not work on it')

    def _metrics(self) -> Answer:
        return self._measured(GroupReading(None, 0.0, False), 0.0, None)

    def _measured(self, reading: GroupReading, sure_seconds: float, workers: Workers | None) -> Answer:
        return 200, 'text/plain; version=0.0.4', metrics_of(reading, self._name, sure_seconds, workers)

    def _shown(self, target: Target) -> Answer:
        """The log as it is now."""
        raise Unanswered('the store has not answered yet')


class MemberAnswers(Answers):
    """The answers of a member."""

    def __init__(self, view: LogView, member: Member, workers: Workers) -> None:
        super().__init__(member.name)
        self._reader = Reader(view)
        self._member, self._workers = member, workers
        self._is_closed = False
        self._polls = threading.BoundedSemaphore(POLLS_MAX)

    def close(self) -> None:
        self._is_closed = True
        self._reader.close()

    def _live(self) -> Answer:
        return super()._live() if self._member.takes_steps else text_answer(503, 'the member takes no steps')

    def _health(self) -> Answer:
        if self._workers.is_stuck:
            return text_answer(503, 'its worker does not stop')
        if self._member.is_drained or self._member.gave_up:
            return text_answer(200, 'drained' if self._member.is_drained else 'gave up: its worker fails')
        if self._workers.is_failing:
            return text_answer(503, 'its worker fails')
        status, kind, text = text_answer(200, 'live') if self._sure_seconds() > 0 else super()._health()
        return status, kind, f'stopping work; {text}' if self._member.stopping else text

    def _leader(self) -> Answer:
        return text_answer(200, 'the node leads') if self._member.leads else super()._leader()

    def _partition(self, word: str) -> Answer:
        partitions = self._member.opening.settings.setup.partitions
        if not (word.isascii() and word.isdecimal() and word == str(int(word[:9])) and int(word) < partitions):
            return text_answer(404, 'the group has no such partition')
        owned = self._member.assignment()
        if int(word) in self._member.stopping:
            return text_answer(503, 'stopping: work on it has to end, and has not')
        if owned is None or int(word) not in owned.partitions:
            return super()._partition(word)
        return text_answer(200, f'this member may work on it by token {owned.token}')

    def _metrics(self) -> Answer:
        return self._measured(self._reader.reading(), self._sure_seconds(), self._workers)

    def _shown(self, target: Target) -> Answer:
        asked = parse_qs(target.query)
        events, epoch = asked_number(asked, 'after'), asked_number(asked, 'epoch')
        if events is not None and not self._waited(events, epoch):
            return text_answer(503, 'too many requests wait at the same time')
        group = self._reader.show()
        if target.path == '/':
            return 200, 'text/html', page_of(self._name, group, self._workers.about)
        document = group.document() if target.path == '/group' else self._assignment(group)
        return 200, 'application/json', json.dumps(document) + '\n'

    def _waited(self, events: int, epoch: int | None) -> bool:
        """Waits until there are more events than these of this epoch, or of the current one; or another epoch. Returns
        False if too many requests wait."""
        if not self._polls.acquire(blocking=False):
            return False
        try:
            end, group = seconds_of_boot() + POLL_SECONDS, self._reader.show()
            epoch = group.epoch if epoch is None else epoch
            while not self._is_closed and seconds_of_boot() < end and group.epoch == epoch and group.events <= events:
                time.sleep(SNAPSHOT_SECONDS)
                group = self._reader.show()
            return True
        finally:
            self._polls.release()

    def _sure_seconds(self) -> float:
        return max(0.0, self._member.sure_until - seconds_of_boot())

    def _assignment(self, group: GroupView) -> dict[str, Any]:
        """What the member owns now."""
        owned = self._member.assignment()
        document: dict[str, Any] = {
            'node': self._member.name, 'epoch': group.epoch, 'events': group.events, 'token': None, 'coordinator': None,
            'partitions': [],
        }  # fmt: skip
        if owned is not None:
            coordinator = owned.settings.name(owned.coordinator)
            document.update(token=owned.token, coordinator=coordinator, partitions=list(owned.partitions))
        return {**document, 'sure_seconds': round(self._sure_seconds(), 3) if owned else 0.0}
