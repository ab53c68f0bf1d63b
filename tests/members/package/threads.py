"""Members in threads over a log in memory, and logs that trouble them."""
from __future__ import annotations

import threading
import time
import unittest
from collections import Counter
from collections.abc import Callable, Sequence
from typing import Any

from bully import view
from bully.clocks import seconds_of_boot
from bully.core import Promise, Session
from bully.epochs import Opening, Token
from bully.member import Member
from bully.memory import MemoryLog
from bully.shared_log import Log, Precondition, Snapshot, Unanswered
from ..steps import LONG
from ..waiting import PATIENCE, wait_until


def put(log: Log, *rows: str) -> None:
    """The rows are at the end of the log, by a process that the group doesn't know."""
    epoch = log.epochs()[-1]
    offset, session = len(log.read(epoch, 0)), Session(1, time.monotonic_ns())
    assert log.acquire('unknown', session, Promise(epoch, offset), LONG) and log.append(epoch, offset, rows)
    log.release('unknown', session)


class Troubled(MemoryLog):
    """A log that doesn't answer while it is silent, nor to nodes that are cut off; and notes what it is asked."""

    def __init__(self, opening: Opening) -> None:
        super().__init__(opening)
        self.is_silent = False
        self.cut: set[str] = set()
        self.renewals: Counter[str] = Counter()
        self.reads: Counter[str] = Counter()  # snapshots, by the names of threads
        self.appends: list[int] = []  # the offsets

    def check(self, name: str = '') -> None:
        if self.is_silent or name in self.cut:
            raise Unanswered('silent')

    def renew(self, name: str, session: Session, ttl: int) -> bool:
        self.check(name)
        self.renewals[name] += 1
        return super().renew(name, session, ttl)

    def snapshot(self, epoch: int, offset: int, promise_of: str | None = None) -> Snapshot:
        self.check()
        self.reads[threading.current_thread().name] += 1
        return super().snapshot(epoch, offset, promise_of)

    def append(self, epoch: int, offset: int, rows: Sequence[str], known: Precondition | None = None) -> bool:
        self.appends.append(offset)
        return super().append(epoch, offset, rows, known)

    def pass_renewals(self, names: str, count: int = 5) -> None:
        """So often the members of these nodes renew: so they had time to do more, if they were to."""
        before = self.renewals.copy()
        wait_until(lambda: all(self.renewals[name] >= before[name] + count for name in names))

    def let_die(self, name: str) -> None:
        """The member of this node isn't heard of up to the end of its lease, and longer."""
        self.cut.add(name)
        wait_until(lambda: name not in self.holders)


class Taking(MemoryLog):
    """A log that reports the loss of the lease of one session."""

    taken: Session | None = None

    def sees_loss(self, session: Session, seconds: float, wake: int | None = None) -> bool:
        return session == self.taken or super().sees_loss(session, seconds, wake)


class Slow(MemoryLog):
    """A log that is slow to answer that a lease was acquired or renewed. When the last such request began is kept."""

    begun = 0.0

    def acquire(self, name: str, session: Session, promise: Promise, ttl: int) -> bool:
        return self.slowly(super().acquire(name, session, promise, ttl))

    def renew(self, name: str, session: Session, ttl: int) -> bool:
        return self.slowly(super().renew(name, session, ttl))

    def slowly(self, done: bool) -> bool:
        self.begun = seconds_of_boot()
        time.sleep(0.1)
        return done


class Threads(unittest.TestCase):
    """Tests with members in threads over one log in memory. A member that raises what no test awaits is a failure."""

    raised: BaseException | None = None

    def begin(
        self, log: MemoryLog, node: int, ttl: float = 2.0, made: Callable[[Member], object] = id, **more: Any
    ) -> tuple[Member, list[str], threading.Thread]:
        """A member that runs. `made` gets it before its callbacks may be called. `work` are callbacks by partition, in
        place of `start` and `stop`."""
        told: list[str] = []
        whole: dict[str, Any] = {
            'start': more.pop('start', lambda assignment: told.append(f'start {assignment.token}')),
            'stop': more.pop('stop', lambda assignment: told.append(f'stop {assignment.token}')),
        }
        member = Member(log, node, ttl=ttl, settings=log.opening().settings, **more.pop('work', whole), **more)
        made(member)
        thread = threading.Thread(target=self.run_member, args=[member])
        thread.start()
        self.addCleanup(self.see_none_raised)
        self.addCleanup(thread.join)
        self.addCleanup(member.leave)
        return member, told, thread

    def run_member(self, member: Member) -> None:
        try:
            member.run()
        except Exception as failure:
            self.raised = failure

    def ends_by(self, thread: threading.Thread, kind: type[Exception]) -> None:
        """The member of this thread raises such an exception."""
        thread.join(PATIENCE)
        self.assertIsInstance(self.raised, kind)
        self.raised = None

    def see_none_raised(self) -> None:
        if self.raised is not None:
            raise self.raised

    def token_of(self, log: MemoryLog) -> Token:
        """That of the first plan."""
        return Token.of(1, 1 + next(offset for offset, row in enumerate(log.rows) if row.startswith('plan')))

    def viewed(self, log: Log, behind: view.ChangeWaits | None = None, ttl: float = 2.0) -> view.LogView:
        """A view up to the end of the test."""
        shown = view.LogView(log, behind, ttl)
        self.addCleanup(shown.close)
        return shown
