"""What a wait of each store does: tests that those of each store have."""
from __future__ import annotations

import contextlib
import socket
import threading
import time
from collections.abc import Callable

from bully.clocks import SECOND
from bully.core import Promise, Until
from bully.maintenance import Maintenance
from bully.shared_log import Holder, Log, NoEpoch
from ..steps import EMPTY, OPENING, A, B
from ..waiting import PATIENCE, wait_until
from .laws import Tests


class Waits(Tests):
    """What a wait of a store does, by the true clock."""

    SHORT = SECOND // 5  # a short lease
    LONG = 1000 * SECOND

    def created(self) -> Log:
        """The same as for `Laws`."""
        raise NotImplementedError

    def handle(self, log: Log) -> Log:
        """The same."""
        raise NotImplementedError

    def pair(self) -> tuple[Log, Log]:
        log = self.created()
        return log, self.handle(log)

    def ends_by(self, act: Callable[[], object], wait: Callable[[float], None]) -> None:
        """The wait ends by the act, before its time."""
        later = threading.Timer(0.05, act)
        later.start()
        begun = time.monotonic()
        wait(PATIENCE)
        self.assertLess(time.monotonic(), begun + PATIENCE)
        later.join()

    def test_news(self) -> None:
        log, other = self.pair()
        requested = OPENING.after(None)
        acts: list[Callable[[], object]] = [
            lambda: other.acquire('1', A, EMPTY, self.LONG),
            lambda: other.acquire('2', B, EMPTY, self.SHORT),
            lambda: None,
            lambda: other.append(1, 0, ['recover,1']),
            lambda: other.release('1', A),
            lambda: other.acquire('1', B, Promise(1, 1), self.LONG),
            lambda: other.ask(requested, 1),
            lambda: other.cancel(1),
            lambda: other.promise('1', B, Promise(1, 1)) and other.append(1, 1, ['x', 'y']),
            lambda: other.set_maintenance(Maintenance(frozenset('2')), Maintenance()),
            lambda: other.set_maintenance(Maintenance(sessions={}), None),
            lambda: other.promise('1', B, Promise(1, 3)) and other.roll_over(1, 3, requested),
        ]
        for number, act in enumerate(acts):
            with self.subTest(act=number):
                found = log.snapshot(1, 0)
                offset = len(found.rows)
                self.ends_by(act, lambda seconds: log.wait(1, offset, found.sessions, Until.NEWS, seconds))
                if number == 1:
                    wait_until(lambda: '2' in log.snapshot(1, 0).holders)
        self.assertEqual(log.snapshot(1, 0).epoch, 2)

    def test_what_ended_a_wait(self) -> None:
        """The next snapshot has it."""
        log, other = self.pair()
        self.assertTrue(other.acquire('1', A, EMPTY, self.LONG))
        held, news = {'1': Holder(A, EMPTY)}, {'1': Holder(A, EMPTY), '2': Holder(B, EMPTY)}
        acts: list[tuple[Callable[[], object], Until, dict[str, Holder]]] = [
            (lambda: other.acquire('2', B, EMPTY, self.LONG), Until.NEWS, news),
            (lambda: other.promise('2', B, Promise(1, 4)), Until.PROMISES, {**held, '2': Holder(B, Promise(1, 4))}),
            (lambda: other.release('2', B), Until.NEWS, held),
        ]  # fmt: skip
        for act, until, holders in acts:
            sessions = log.snapshot(1, 0).sessions
            self.ends_by(act, lambda seconds: log.wait(1, 0, sessions, until, seconds))
            self.assertEqual(log.snapshot(1, 0).holders, holders)

    def test_idle(self) -> None:
        """One live node, or all, have promised the end of the log."""
        for until, acts in ((Until.ANY_IDLE, ['2']), (Until.ALL_IDLE, ['2', '1', '3'])):
            log, other = self.pair()
            for name in '123':
                self.assertTrue(other.acquire(name, A, EMPTY, self.LONG))
            self.assertTrue(other.append(1, 0, ['recover,1']))
            sessions = log.snapshot(1, 0).sessions
            for name in acts[:-1]:
                self.assertTrue(other.promise(name, A, Promise(1, 1)))
            with self.subTest(until=until):
                self.ends_by(
                    lambda: other.promise(acts[-1], A, Promise(1, 1)),
                    lambda seconds: log.wait(1, 1, sessions, until, seconds),
                )
                begun = time.monotonic()
                log.wait(1, 1, sessions, until, PATIENCE)
                self.assertLess(time.monotonic(), begun + PATIENCE, 'it is so already')

    def test_who_was_idle_before(self) -> None:
        """A wait for one goes on where the last snapshot found it idle, and ends with the next one."""
        log, other = self.pair()
        for name in '12':
            self.assertTrue(other.acquire(name, A, EMPTY, self.LONG))
        self.assertTrue(other.append(1, 0, ['recover,1']))
        self.assertTrue(other.promise('2', A, Promise(1, 1)))
        sessions = log.snapshot(1, 0).sessions
        begun = time.monotonic()
        log.wait(1, 1, sessions, Until.ANY_IDLE, 0.3)
        self.assertGreaterEqual(time.monotonic(), begun + 0.3)
        self.ends_by(
            lambda: other.promise('1', A, Promise(1, 1)),
            lambda seconds: log.wait(1, 1, sessions, Until.ANY_IDLE, seconds),
        )

    def test_idle_ones_keep_nothing(self) -> None:
        """A live node that has promised the end of the log and keeps something isn't idle; once it keeps nothing it
        is."""
        for until in (Until.ANY_IDLE, Until.ALL_IDLE):
            log, other = self.pair()
            self.assertTrue(other.acquire('1', A, EMPTY, self.LONG) and other.append(1, 0, ['recover,1']))
            sessions = log.snapshot(1, 0).sessions
            for kept in ((0, 5), (5,)):
                self.assertTrue(other.promise('1', A, Promise(1, 1), kept))
                begun = time.monotonic()
                log.wait(1, 1, sessions, until, 0.2)
                self.assertGreaterEqual(time.monotonic(), begun + 0.2)
            with self.subTest(until=until):
                self.ends_by(
                    lambda: other.promise('1', A, Promise(1, 1)),
                    lambda seconds: log.wait(1, 1, sessions, until, seconds),
                )

    def test_other_promises(self) -> None:
        """A wait for them ends with one of another offset, or that keeps something else; not with one that is known,
        nor with a renewal."""
        log, other = self.pair()
        self.assertTrue(other.acquire('1', A, EMPTY, self.LONG) and other.acquire('2', B, EMPTY, self.LONG))
        for promise, kept in ((Promise(1, 4), (1, 2)), (Promise(1, 4), (2,)), (Promise(1, 4), ()), (Promise(1, 5), ())):
            sessions = log.snapshot(1, 0).sessions
            later = threading.Timer(0.05, lambda: other.renew('2', B, self.LONG))
            later.start()
            begun = time.monotonic()
            log.wait(1, 0, sessions, Until.PROMISES, 0.2)
            took = time.monotonic() - begun
            later.join()
            self.assertGreaterEqual(took, 0.2)
            with self.subTest(promise=promise, kept=kept):
                self.ends_by(
                    lambda: other.promise('2', B, promise, kept),
                    lambda seconds: log.wait(1, 0, sessions, Until.PROMISES, seconds),
                )
                begun = time.monotonic()
                log.wait(1, 0, sessions, Until.PROMISES, PATIENCE)
                self.assertLess(time.monotonic(), begun + PATIENCE, 'it is so already')

    def test_promises_that_were_left_out(self) -> None:
        """A wait for promises ends at once after a snapshot that left some out; a wait for one that is idle if one is.
        Otherwise it ends with the next such promise."""
        log, other = self.pair()
        for name, session in (('1', A), ('2', B)):
            self.assertTrue(other.acquire(name, session, EMPTY, self.LONG))
        self.assertTrue(other.append(1, 0, ['recover,1']))
        sessions = log.snapshot(1, 0, '1').sessions
        begun = time.monotonic()
        log.wait(1, 1, sessions, Until.PROMISES, PATIENCE)
        self.assertLess(time.monotonic(), begun + PATIENCE)
        self.ends_by(
            lambda: other.promise('2', B, Promise(1, 1)),
            lambda seconds: log.wait(1, 1, sessions, Until.ANY_IDLE, seconds),
        )
        sessions = log.snapshot(1, 1, '1').sessions
        begun = time.monotonic()
        log.wait(1, 1, sessions, Until.ANY_IDLE, PATIENCE)
        self.assertLess(time.monotonic(), begun + PATIENCE)
        later = threading.Timer(0.05, lambda: other.promise('2', B, Promise(1, 2)))
        later.start()
        begun = time.monotonic()
        log.wait(1, 1, sessions, Until.NEWS, 0.3)
        self.assertGreaterEqual(time.monotonic(), begun + 0.3)
        later.join()
        self.assertEqual(log.snapshot(1, 1).holders, {'1': Holder(A, EMPTY), '2': Holder(B, Promise(1, 2))})

    def test_idle_beside_one_that_is_gone(self) -> None:
        """A holder that was gone when a snapshot left promises out isn't waited for after the next one with all."""
        log, other = self.pair()
        for name, session in (('1', A), ('2', B), ('3', A)):
            self.assertTrue(other.acquire(name, session, EMPTY, self.LONG))
        self.assertTrue(other.append(1, 0, ['recover,1']))
        self.assertEqual(set(log.snapshot(1, 0).holders), {'1', '2', '3'})
        other.release('3', A)
        self.assertFalse(log.snapshot(1, 1, '1').has_promises)
        sessions = log.snapshot(1, 1).sessions
        self.assertTrue(other.promise('1', A, Promise(1, 1)))
        self.ends_by(
            lambda: other.promise('2', B, Promise(1, 1)),
            lambda seconds: log.wait(1, 1, sessions, Until.ALL_IDLE, seconds),
        )

    def test_promises_are_no_news(self) -> None:
        """A wait for less goes on. (It need not, but then each would wake all.)"""
        log, other = self.pair()
        for name in '123':
            self.assertTrue(other.acquire(name, A, EMPTY, self.LONG))
        self.assertTrue(other.append(1, 0, ['recover,1']))
        sessions = log.snapshot(1, 0).sessions
        for until, names in ((Until.NEWS, '12'), (Until.ALL_IDLE, '1')):

            def act() -> None:
                for name in names:
                    other.promise(name, A, Promise(1, 1))
                    other.renew(name, A, self.LONG)

            later = threading.Timer(0.1, act)
            later.start()
            begun = time.monotonic()
            log.wait(1, 1, sessions, until, 0.6)
            self.assertGreaterEqual(time.monotonic(), begun + 0.6)
            later.join()

    def test_a_request_that_is_known(self) -> None:
        """Settings and maintenance that the last snapshot found are no news, as long as they stay."""
        log, other = self.pair()
        self.assertTrue(other.ask(OPENING.after(None), 1))
        self.assertTrue(other.set_maintenance(Maintenance(frozenset('2'), {'1': A}), None))
        sessions = log.snapshot(1, 0).sessions
        begun = time.monotonic()
        log.wait(1, 0, sessions, Until.NEWS, 0.3)
        self.assertGreaterEqual(time.monotonic(), begun + 0.3)
        self.ends_by(lambda: other.cancel(1), lambda seconds: log.wait(1, 0, sessions, Until.NEWS, seconds))

    def test_time(self) -> None:
        log, _ = self.pair()
        sessions = log.snapshot(1, 0).sessions
        for until in Until:
            for seconds in (0.0, 0.1, 0.4):
                begun = time.monotonic()
                log.wait(1, 0, sessions, until, seconds)
                self.assertGreaterEqual(time.monotonic(), begun + seconds)

    def test_woken(self) -> None:
        """A descriptor that has something to read ends a wait, also if it had that before."""
        log, other = self.pair()
        sessions = log.snapshot(1, 0).sessions
        woken, wakes = socket.socketpair()
        with woken, wakes:
            for until in Until:
                self.ends_by(
                    lambda: wakes.send(b'.'), lambda seconds: log.wait(1, 0, sessions, until, seconds, woken.fileno())
                )
                begun = time.monotonic()
                log.wait(1, 0, sessions, until, PATIENCE, woken.fileno())
                self.assertLess(time.monotonic(), begun + PATIENCE)
                woken.recv(10)
                log.wait(1, 0, sessions, until, 0.1, woken.fileno())
            self.ends_by(
                lambda: other.acquire('1', A, EMPTY, self.LONG),
                lambda seconds: log.wait(1, 0, sessions, Until.NEWS, seconds, woken.fileno()),
            )

    def test_what_was_there(self) -> None:
        """Nothing is awaited that is there already, also if it came before an earlier wait began, and whoever reported
        these sessions."""
        log, other = self.pair()
        begun = time.monotonic()
        log.wait(1, 0, {'1': A}, Until.NEWS, PATIENCE)
        log.wait(2, 0, {}, Until.NEWS, PATIENCE)
        self.assertTrue(other.acquire('1', A, EMPTY, self.LONG))
        log.wait(1, 0, {}, Until.NEWS, PATIENCE)
        log.wait(1, 0, {'1': B}, Until.NEWS, PATIENCE)
        log.wait(1, 0, {'1': A}, Until.ALL_IDLE, PATIENCE)
        self.assertTrue(other.append(1, 0, ['recover,1', 'start,1']))
        with contextlib.suppress(NoEpoch):
            log.wait(1, 9, {'1': A}, Until.NEWS, 0.01)
        for offset in (1, 0):
            log.wait(1, offset, {'1': A}, Until.NEWS, PATIENCE)
        self.assertTrue(other.ask(OPENING.after(None), 1))
        log.wait(1, 2, {'1': A}, Until.NEWS, PATIENCE)
        self.assertLess(time.monotonic(), begun + PATIENCE)
