"""Tests of logs in memory and in files by the laws of all stores."""
from __future__ import annotations

import time
import unittest
from collections.abc import Callable
from unittest import mock

from bully import Setup, settings, sqlite
from bully.clocks import sleep_until_ready
from bully.core import Until
from bully.epochs import Opening, Token
from bully.group import setup_of
from bully.memory import MemoryLog
from bully.shared_log import Log
from bully.sqlite import SqliteLog
from ..steps import EMPTY, HEADER, LONG, OPENING, A, B, Clock, live
from ..waiting import PATIENCE
from .epoch_laws import EpochLaws
from .folders import WithLogs
from .laws import Laws
from .races import race, race_of_promises
from .wait_laws import Waits

POLLS = 10  # of a file, after which each wait has the longest pause between two


class InMemory(Laws, unittest.TestCase):
    """The laws of a log in memory."""

    def setUp(self) -> None:
        self.clock = Clock()

    def created(self) -> Log:
        return MemoryLog(OPENING, self.clock)

    def handle(self, log: Log) -> Log:
        return log

    def now(self) -> int:
        return self.clock.now

    def pass_time(self, time: int) -> None:
        self.clock.now += time

    def pass_end(self, log: Log) -> None:
        self.pass_time(self.TTL)


class InFile(WithLogs, InMemory):
    """The laws of a log in a file."""

    def setUp(self) -> None:
        WithLogs.setUp(self)
        InMemory.setUp(self)
        patch = mock.patch.object(sqlite, 'nanoseconds_of_boot', self.clock)
        patch.start()
        self.addCleanup(patch.stop)

    def test_a_pause_in_a_snapshot(self) -> None:
        """A lease that is always renewed in time is seen, wherever a process is paused that reads a snapshot."""
        log, other = self.pair()
        self.assertTrue(other.acquire('b', B, EMPTY, self.TTL))
        pauses = Pauses(self.clock, lambda: other.renew('b', B, self.TTL), 3 * self.TTL // 5)
        with mock.patch.object(sqlite, 'nanoseconds_of_boot', pauses):
            for _ in range(3):
                self.assertEqual(set(live(log)), {'b'})
        self.assertGreater(pauses.count, 3, 'the clock was read')
        self.assertTrue(other.renew('b', B, self.TTL))

    def test_a_pause_before_a_write(self) -> None:
        """What waits until others have written does nothing for a lease that has ended meanwhile."""
        for is_acquired in (False, True):
            log, other = self.pair()
            self.assertTrue(log.acquire('b', B, EMPTY, self.TTL))
            assert isinstance(log, SqliteLog)
            log._file.set_trace_callback(lambda asked: self.pass_end(log) if asked.startswith('begin') else None)
            done = log.acquire('b', A, EMPTY, self.TTL) if is_acquired else log.renew('b', B, self.TTL)
            log._file.set_trace_callback(None)
            self.assertEqual((done, set(live(other))), (is_acquired, {'b'} if is_acquired else set()))


class Pauses:
    """A clock that passes some time before it is read. Until then something is done, by the clock as it was before."""

    def __init__(self, clock: Clock, act: Callable[[], bool], time: int) -> None:
        self.clock, self.act, self.time = clock, act, time
        self.count = 0
        self.is_acting = False

    def __call__(self) -> int:
        if not self.is_acting:
            self.is_acting = True
            assert self.act()
            self.is_acting = False
            self.clock.now += self.time
            self.count += 1
        return self.clock()


class WaitsInMemory(Waits, unittest.TestCase):
    def created(self) -> Log:
        return MemoryLog(OPENING)

    def handle(self, log: Log) -> Log:
        return log


class WaitsInFile(WithLogs, Waits):
    def test_pace(self) -> None:
        """A wait goes on at the pace that one without news had reached, and starts fast again after news."""
        log, other = self.pair()
        sleeps: list[float] = []
        news: list[Callable[[], object]] = []  # it comes at the next sleep

        def sleep(seconds: float, *descriptors: int | None) -> list[int]:
            sleeps.append(seconds)
            while news:
                news.pop()()
            return sleep_until_ready(seconds, *descriptors)

        with mock.patch.object(sqlite, 'sleep_until_ready', sleep):
            log.wait(1, 0, {}, Until.NEWS, 20 * sqlite.LONGEST_SLEEP)
            self.assertEqual(sleeps[0], sqlite.SHORTEST_SLEEP)
            sleeps.clear()
            news.append(lambda: other.acquire('1', A, EMPTY, self.LONG))
            log.wait(1, 0, {}, Until.NEWS, PATIENCE)
            self.assertEqual(sleeps[0], sqlite.LONGEST_SLEEP)
            sleeps.clear()
            log.wait(1, 0, log.snapshot(1, 0).sessions, Until.NEWS, 0.1)
            self.assertEqual(sleeps[0], sqlite.SHORTEST_SLEEP)

    def test_pace_of_many(self) -> None:
        """If there are more leases than MANY, each wait polls so much less often: three times for three times MANY. The
        wait isn't for a time, since a busy machine could use that up before the longest pause."""
        log, other = self.pair()
        for name in ('1', '2', '3'):
            self.assertTrue(other.acquire(name, A, EMPTY, self.LONG))
        sessions = log.snapshot(1, 0).sessions
        for many, times in ((4, 1), (3, 1), (1, 3)):
            no_sleep = mock.patch.object(sqlite, 'sleep_until_ready', side_effect=[*[[]] * POLLS, [0]])
            with mock.patch.object(sqlite, 'MANY', many), no_sleep as sleep:
                log.wait(1, 0, sessions, Until.NEWS, PATIENCE)
            longest = max(call.args[0] for call in sleep.call_args_list)
            self.assertAlmostEqual(longest, times * sqlite.LONGEST_SLEEP)


class EpochsInMemory(EpochLaws, unittest.TestCase):
    """The laws of epochs of a log in memory."""

    def created(self) -> Log:
        return MemoryLog(OPENING)

    def handle(self, log: Log) -> Log:
        return log


class EpochsInFile(WithLogs, EpochLaws):
    """The laws of epochs of a log in a file."""

    def setUp(self) -> None:
        super().setUp()
        patch = mock.patch.object(sqlite, 'PRUNED_AT_ONCE', 7)
        patch.start()
        self.addCleanup(patch.stop)


class Races(WithLogs):
    def test_processes(self) -> None:
        log = self.created()
        self.assertTrue(log.acquire('a', A, EMPTY, LONG))
        race(self, log, 'file', str(self.path))

    def test_promises(self) -> None:
        race_of_promises(self, self.created(), 'file', str(self.path))


class Openings(unittest.TestCase):
    """What an epoch begins with."""

    def test_next(self) -> None:
        """The last table is carried over by name, and the first partitions stay."""
        first = Opening.first(Setup(3, 6).header(), ('a', 'b', 'c'), 700)
        requested = first.requested(settings.Settings(Setup(4, 8, weights=(1, 2, 3, 4)), ('c', 'd', 'a', 'e')))
        after = first.next(requested, (1, 2, 3, 3, 2, 1))
        self.assertEqual(
            after, Opening(2, 'bully,2,4,8,1 2 3 4,clear', ('c', 'd', 'a', 'e'), 700, (3, 0, 1, 1, 0, 3, 0, 0))
        )
        self.assertEqual((Opening.parse(after.text()), after.bare), (after, requested))
        fewer = after.next(after.requested(settings.Settings(Setup(1, 3), ('a',))), after.table)
        self.assertEqual(fewer, Opening(3, 'bully,1,1,3', ('a',), 700, (1, 0, 0)))
        self.assertEqual(after.next(after.requested(settings.Settings(Setup(1, 3), ('z',))), after.table).table, ())
        self.assertEqual(first.next(None, ()), Opening(2, first.header, first.names, 700))
        for setup in (
            Setup(3, 6),
            Setup(2, 300, weights=(1, 5)),
            Setup(70, 5, weights=(1,) * 70),
            Setup(2, 2, weights=(1, 1), keeps=True),
        ):
            self.assertEqual(setup_of(setup.header()).header(), setup.header())

    def test_limits(self) -> None:
        """An epoch may have 22 rows for each node at least."""
        first = Opening.first(HEADER, limit=10)
        more = first.requested(settings.Settings(Setup(1024, 4096), tuple(map(str, range(1024)))))
        self.assertEqual((first.limit, Opening.first(HEADER).limit, more.limit), (66, 1_000_000, 22 * 1024))
        self.assertEqual(Opening.first(HEADER, limit=10**9).limit, 1_000_000)

    def test_tokens(self) -> None:
        tokens = [Token.of(1, 1), Token.of(1, 999_999), Token.of(2, 1), Token.of(12, 34)]
        self.assertEqual(sorted(tokens, key=int), tokens)
        self.assertEqual([str(token) for token in tokens], ['10000001', '10999999', '20000001', '120000034'])
        self.assertEqual([(token.epoch, token.events) for token in tokens], [(1, 1), (1, 999_999), (2, 1), (12, 34)])
