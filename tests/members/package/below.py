"""What the tests of workers below a watchdog share."""
from __future__ import annotations

import tempfile
import threading
import unittest
from collections.abc import Callable, Collection
from pathlib import Path
from typing import cast

from bully import clocks
from bully.core import Session
from bully.epochs import Opening, Token
from bully.member import Assignment, Member
from bully.work_failures import Failures
from bully.worker import Kind, Workers
from ..waiting import PATIENCE, wait_until

OPENING = Opening.first('bully,1,3,6', ('a', 'b', 'c'))


def assigned(events: int, *partitions: int) -> Assignment:
    return Assignment(Token.of(4, events), 3, partitions, OPENING.settings)


class Asker:
    """In place of a member: it asks for work, and keeps what it hears of that."""

    def __init__(self, ttl: float) -> None:
        self.ttl, self.margin, self.is_leaving = ttl, ttl / 5, False
        self.failures: list[BaseException] = []
        self.lost: list[Assignment] = []  # what it had asked for when work ended that it hadn't asked to stop
        self.ends: list[frozenset[int]] = []  # all reports
        self.working: frozenset[int] = frozenset()
        self.stopping: frozenset[int] = frozenset()
        self.assignment: Assignment | None = None
        self.wrong: list[str] = []
        self.lock = threading.Lock()
        self.stuck: list[BaseException] = []
        self.end_with, self.get_stuck = self.failures.append, self.stuck.append

    def starts(self, assignment: Assignment, added: frozenset[int]) -> None:
        with self.lock:
            self.assignment, self.working = assignment, self.working | added

    def stops(self, partitions: frozenset[int]) -> None:
        with self.lock:
            self.stopping |= partitions & self.working

    def ended(self, partitions: Collection[int]) -> None:
        """Each end is reported once."""
        with self.lock:
            ended = frozenset(partitions)
            self.ends.append(ended)
            if not ended or not ended <= self.working:
                self.wrong.append(f'{sorted(ended)} ended, of {sorted(self.working)}')
            if not ended <= self.stopping and self.assignment is not None:
                self.lost.append(self.assignment)
            self.working, self.stopping = self.working - ended, self.stopping - ended


class Timely(Workers):
    """Workers that are asked for all of an assignment, or a part of it, and waited for."""

    asker: Asker

    def start(self, assignment: Assignment, added: frozenset[int] | None = None) -> None:
        more = frozenset(assignment.partitions) if added is None else added
        self.asker.starts(assignment, more)
        Workers.start(self, assignment, more)

    def ask_to_stop(self, *partitions: int) -> frozenset[int]:
        """These, or all. Returns what has to stop."""
        asker = self.asker
        stopped = frozenset(partitions) & asker.working if partitions else asker.working
        asker.stops(stopped)
        Workers.stop(self, asker.assignment and asker.assignment.left(asker.working - asker.stopping), stopped)
        return stopped

    def stop(self, *_: object) -> None:
        """All stops, and it fails if that isn't reported."""
        stopped = self.ask_to_stop()
        wait_until(lambda: not stopped & self.asker.working)


class Below(unittest.TestCase):
    """Tests of workers below a watchdog."""

    kind = Kind.WHOLE
    releases: Callable[[Session], bytes] | None = None

    def setUp(self) -> None:
        folder = tempfile.TemporaryDirectory()
        self.addCleanup(folder.cleanup)
        self.folder = Path(folder.name)
        self.member = Asker(4.0)
        self.failures, self.lost = self.member.failures, self.member.lost
        self.addCleanup(lambda: self.assertEqual(self.member.wrong, []))

    def made(self, words: list[str], patience: float = PATIENCE, seconds: float = 1000.0, ttl: float = 4.0) -> Timely:
        workers = Timely(words, 'x', patience, self.kind, Failures(ttl=ttl))
        workers.asker = self.member
        self.member.ttl, self.member.margin = ttl, ttl / 5
        self.member.working = self.member.stopping = frozenset()  # of workers before
        workers.watch(cast(Member, self.member), '', self.releases)
        self.addCleanup(workers.close)
        workers.hear_until(clocks.seconds_of_boot() + seconds)
        return workers
