"""Tests of which members read what others have promised."""
from __future__ import annotations

import threading
import time
from collections.abc import Callable

from bully.clocks import seconds_of_boot, sleep_until_ready
from bully.core import Promise, Session, Until
from bully.epochs import Opening
from bully.maintenance import Maintenance
from bully.shared_log import Sessions, Snapshot
from ..steps import LONG
from ..waiting import PATIENCE, wait_until
from .grouped import COOPERATIVE, EAGER, Grouped, share_out
from .threads import Troubled

SESSION = Session(8, 1)  # of processes that take no steps
TTL = 5.0 * PATIENCE  # of a member that renews its lease only after the test


class Noting(Troubled):
    """A log that notes of each snapshot whether it has all promises, by the thread that reads it. A wait lasts as long
    as over other stores: so what doesn't end it isn't seen before the next renewal."""

    def __init__(self, opening: Opening) -> None:
        super().__init__(opening)
        self.snapshots: list[tuple[threading.Thread, bool]] = []
        self.sessions: Sessions = {}  # by which a wait was begun last

    def snapshot(self, epoch: int, offset: int, promise_of: str | None = None) -> Snapshot:
        found = super().snapshot(epoch, offset, promise_of)
        self.snapshots.append((threading.current_thread(), found.has_promises))
        return found

    def wait(
        self, epoch: int, offset: int, sessions: Sessions, until: Until, seconds: float, wake: int | None = None
    ) -> None:  # fmt: skip
        end, wanted, before = time.monotonic() + seconds, self._seen.wanted, self._seen.holders
        self.sessions = sessions
        while time.monotonic() < end and not sleep_until_ready(0.0, wake):
            super().wait(epoch, offset, sessions, until, end - time.monotonic(), wake)
            if self.has_news(epoch, offset, sessions, wanted, until, before):
                return


class PromisesRead(Grouped):
    """Only a member that may be about to change the log reads what others have promised."""

    def begin_log(self, opening: Opening) -> Noting:
        log = self.log = Noting(opening)
        return log

    def reads(self, log: Noting, change: Callable[[], object] = lambda: None) -> dict[str, set[bool]]:
        """Whether the snapshots of each member have all promises, after a change and once the group is stable."""
        change()
        wait_until(lambda: self.is_shared(sorted(self.members)))
        begun = len(log.snapshots)
        threads = {thread: name for name, (_, _, thread) in self.members.items()}
        wait_until(lambda: threads.keys() <= {thread for thread, _ in log.snapshots[begun + 10 :]})
        found: dict[str, set[bool]] = {name: set() for name in self.members}
        for thread, has_promises in log.snapshots[begun + 10 :]:
            found[threads[thread]].add(has_promises)
        return found

    def read_none(self, log: Noting, name: str, drained: str) -> None:
        """The member of this node, with another one above it, reads snapshots, by news of x that change nothing, until
        one of them leaves promises out."""
        thread = self.members[name][2]

        def is_so() -> bool:
            is_other = 'x' not in log.maintenance.drained
            log.set_maintenance(Maintenance(frozenset(f'{drained}x' if is_other else drained)), None)
            return not [has_promises for reader, has_promises in log.snapshots if reader is thread][-1]

        wait_until(is_so)

    def test_who_reads_them(self) -> None:
        """In a cooperative group the highest live one does: also one that becomes that."""
        log = self.begin_log(COOPERATIVE)
        for name in 'abcd':
            self.come(name, 0.5)
        low, high = {False}, {True}
        self.assertEqual(self.reads(log), {'a': low, 'b': low, 'c': low, 'd': high})
        self.assertEqual(self.reads(log, lambda: self.leave('d')), {'a': low, 'b': low, 'c': high})

    def test_which_sessions_are_known(self) -> None:
        """A wait is begun by the sessions that the last snapshot showed, also if the same nodes held leases before:
        else it would be over at once."""
        log = self.begin_log(COOPERATIVE)
        self.come('a', TTL)
        wait_until(lambda: self.is_shared(['a']))
        before, after = Session(8, 1), Session(8, 2)
        assert log.acquire('b', before, Promise(1, len(log.rows)), LONG)
        wait_until(lambda: log.sessions.get('b') == before)
        with log._changed:
            log.release('b', before)
            assert log.acquire('b', after, Promise(1, len(log.rows)), LONG)
        wait_until(lambda: log.sessions.get('b') == after, 15)

    def test_who_becomes_the_highest(self) -> None:
        """It reads promises at once, and not only when its lease has to be renewed: one of another node, which keeps
        work, says that a change is due."""
        log = self.begin_log(COOPERATIVE)
        worker = self.come('b', TTL)
        wait_until(lambda: self.is_shared('b'))
        alone = self.last_token()
        assert log.acquire('a', SESSION, Promise(1, len(log.rows)), LONG)
        wait_until(lambda: alone != self.last_token() and set(worker.works.values()) == {self.last_token()})
        self.assertEqual(len(worker.works), 6)
        log.set_maintenance(Maintenance(frozenset('c')), None)
        assert log.acquire('c', SESSION, Promise(1, len(log.rows)), LONG)
        self.read_none(log, 'b', 'c')
        self.keep('a', SESSION, 0)
        end = len(log.rows)
        log.release('c', SESSION)
        wait_until(lambda: len(log.rows) > end)

    def test_for_whom_a_change_waited(self) -> None:
        """A member that reads no promises any more forgets that a change waited for a node, once the group is
        stable."""
        log = self.begin_log(COOPERATIVE)
        self.come('b', TTL)
        wait_until(lambda: self.is_shared('b'))
        assert log.acquire('a', SESSION, Promise(1, len(log.rows)), LONG)
        wait_until(lambda: any('1' in row.split(',')[-1].split() for row in log.rows if row.startswith('plan')))
        shown = self.viewed(log, self.members['b'][0].waits, TTL)
        log.set_maintenance(Maintenance(frozenset('a')), None)
        wait_until(lambda: set(shown.show().waits) == {'a'})
        log.set_maintenance(Maintenance(frozenset('ac')), None)
        assert log.acquire('c', SESSION, Promise(1, len(log.rows)), LONG)
        self.read_none(log, 'b', 'ac')
        log.set_maintenance(Maintenance(frozenset('c')), None)
        wait_until(lambda: not shown.show().waits, 5)
        self.assertTrue(shown.show().is_stable)

    def test_for_whom_a_change_still_waits(self) -> None:
        """A member that reads no promises any more goes on to report for whom the change under way waited before, and
        nobody else. So of one that had promised, and has to stop more, only the time since then is shown."""
        log = self.begin_log(COOPERATIVE)
        sessions = share_out(log, *'ab')
        self.come('c', TTL)
        behind = self.members['c'][0].waits

        def reported() -> set[str]:
            return set(behind.seen(Promise(1, len(log.rows)), log.holders))

        wait_until(lambda: reported() == {'a', 'b'})
        shown = self.viewed(log)
        wait_until(lambda: shown.show().moves)
        kept = [partition for partition, each in enumerate(shown.show().partitions) if each.coming == 'b']
        self.keep('b', sessions['b'], *kept)
        wait_until(lambda: reported() == {'a'})
        known = seconds_of_boot()
        log.set_maintenance(Maintenance(frozenset('d')), None)
        assert log.acquire('d', SESSION, Promise(1, len(log.rows)), LONG)
        self.read_none(log, 'c', 'd')
        wait_until(lambda: seconds_of_boot() > known + 0.5)
        self.assertEqual(reported(), {'a'})
        shown, undrained = self.viewed(log, behind), seconds_of_boot()
        log.set_maintenance(Maintenance(), None)
        wait_until(lambda: set(shown.show().waits) == {'a', 'b'})
        waited = shown.show().waits
        self.assertGreaterEqual(waited['a'], undrained - known)
        self.assertLessEqual(waited['b'], seconds_of_boot() - undrained)

    def test_in_a_pause(self) -> None:
        """All do, because promises say whether a change is completed first."""
        log = self.begin_log(COOPERATIVE)
        for name in 'abc':
            self.come(name, 0.5)
        wait_until(lambda: self.is_shared('abc'))
        sessions = {name: holder.session for name, holder in log.holders.items()}
        paused = self.reads(log, lambda: log.set_maintenance(Maintenance(sessions=sessions), None))
        self.assertEqual(paused, dict.fromkeys('abc', {True}))
        resumed = self.reads(log, lambda: log.set_maintenance(Maintenance(), None))
        self.assertEqual(resumed, {'a': {False}, 'b': {False}, 'c': {True}})

    def test_in_an_eager_group(self) -> None:
        """All do: a member stops once one of the others has promised."""
        log = self.begin_log(EAGER)
        for name in 'abc':
            self.come(name, 0.5)
        self.assertEqual(self.reads(log), dict.fromkeys('abc', {True}))
