"""What a member does that was away while its epoch ended: tests that those of each store have."""
from __future__ import annotations

import threading
from collections.abc import Callable
from typing import Any, cast

from bully import Setup, operations, settings
from bully.epochs import Opening
from bully.member import Member
from bully.shared_log import Log, NoEpoch
from ..waiting import PATIENCE, wait_until
from .laws import Tests


class Held:
    """A log that holds its caller at the next call of one name, as if the process was paused before it asks that."""

    def __init__(self, log: Log) -> None:
        self.name = ''
        self.is_held, self.goes_on = threading.Event(), threading.Event()
        self._log = log

    def __getattr__(self, name: str) -> Any:
        found = getattr(self._log, name)
        return self._holding(found) if name == self.name else found

    def _holding(self, call: Callable[..., object]) -> Callable[..., object]:
        def held(*words: object) -> object:
            self.is_held.set()
            self.goes_on.wait()
            return call(*words)

        return held


class Away(Tests):
    """A member that was away while its epoch ended and was taken away, over one of the stores: tests for each of
    them."""

    BY_ITSELF = ('snapshot', 'acquire', 'append', 'wait', 'renew')  # what a member asks alone in its group
    BY_A_REQUEST = ('promise', 'roll_over', 'opening')  # and once other settings are requested
    AWAY = Opening.first('bully,1,2,4', ('b', 'a'))

    def created(self) -> Log:
        """A new log, which has begun with AWAY. It is closed at the end of the test."""
        raise NotImplementedError

    def handle(self, log: Log) -> Log:
        """Another handle of the log."""
        raise NotImplementedError

    def take_away(self) -> None:
        """The rows of the first epoch."""
        self.log.prune(2)

    def test_goes_on(self) -> None:
        """Whatever it was about to ask: it goes on in the current epoch by its name."""
        for call in (*self.BY_ITSELF, *self.BY_A_REQUEST):
            with self.subTest(call=call):
                self.pause(call)
                self.pass_epoch('c', 'b')
                self.see_it_work()

    def test_ends(self) -> None:
        """It ends, if its name isn't there any more."""
        for call in ('wait', 'roll_over'):
            with self.subTest(call=call), self.assertLogs('bully', 'WARNING') as told:
                self.pause(call)
                self.pass_epoch('c')
                self.thread.join()
                self.assertEqual((self.failures, dict(self.log.snapshot(2, 0).holders)), ([], {}))
                self.assertIn('node b: its node is not in the group any more', told.output[-1])

    def pause(self, call: str) -> None:
        """A member of node `b` has begun, and is held at this call now; or will be, where it makes the call only once
        settings are requested."""
        self.log = self.created()
        self.holds = Held(self.handle(self.log))
        self.member = Member(cast(Log, self.holds), 'b', lambda work: None, lambda work: None, ttl=1.0)
        is_alone = call in self.BY_ITSELF
        self.holds.name = call if is_alone else ''
        self.begin()
        wait_until(self.holds.is_held.is_set if is_alone else self.member.assignment)
        self.holds.name = call

    def begin(self) -> None:
        """The member runs, in a thread."""
        self.failures: list[BaseException] = []
        self.thread = threading.Thread(target=self.run_member, args=[self.member, self.failures])
        self.thread.start()
        self.addCleanup(self.thread.join)
        self.addCleanup(self.holds.goes_on.set)
        self.addCleanup(self.member.leave)

    @staticmethod
    def run_member(member: Member, failures: list[BaseException]) -> None:
        try:
            with member:
                member.run()
        except BaseException as failure:
            failures.append(failure)

    def pass_epoch(self, *names: str) -> None:
        """The group has these nodes in a later epoch, and the rows of the first one are gone. Then the member goes
        on."""
        operations.resize(self.log, settings.Settings(Setup(len(names), 5), names), PATIENCE)
        wait_until(self.holds.is_held.is_set)
        self.take_away()
        self.assertEqual((self.log.epochs(), self.member.opening.epoch), (range(2, 3), 1))
        with self.assertRaises(NoEpoch):
            self.log.read(1, 0)
        self.holds.goes_on.set()

    def see_it_work(self) -> None:
        """It works in the second epoch, where it has number 2, and leaves in order."""
        wait_until(lambda: self.member.assignment() or self.failures)
        self.assertEqual(self.failures, [])
        assigned = self.member.assignment()
        assert assigned is not None
        self.assertEqual((self.member.node, assigned.token.epoch, assigned.partitions), (2, 2, (0, 1, 2, 3, 4)))
        self.member.leave()
        self.thread.join()
        self.assertEqual((self.failures, self.log.read(2, 0)[-1]), ([], 'crash,2'))
