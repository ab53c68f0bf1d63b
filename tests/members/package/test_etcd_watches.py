"""Tests of what a log in etcd waits for, by watches."""
from __future__ import annotations

import contextlib
import random
import threading
import time
from collections.abc import Callable
from unittest import mock

from bully import etcd, etcd_client
from bully.core import Promise, Session, Until
from bully.etcd import EtcdLog
from bully.etcd_client import Client
from bully.maintenance import Maintenance
from bully.shared_log import DamagedLog, NoLog, Unanswered
from ..etcd_servers import Json, begin_alone, coded, decoded
from ..steps import EMPTY, LONG, OPENING, A, B, add, live
from ..waiting import PATIENCE, wait_until
from .in_etcd import TXN, InEtcd


def setUpModule() -> None:
    begin_alone(__name__)


class Watching(InEtcd):
    """What a wait asks, and what its watch may miss."""

    def setUp(self) -> None:
        super().setUp()
        self.between = self.proxy()
        self.direct = self.begun()
        self.log = self.opened(self.between.address(self.prefix))

    def wait(self, offset: int, seconds: float | None = None, until: Until = Until.NEWS) -> float:
        """How long it took."""
        begun = time.monotonic()
        self.log.wait(1, offset, {'a': A}, until, PATIENCE if seconds is None else seconds)
        return time.monotonic() - begun

    def test_a_watch_that_breaks(self) -> None:
        """It is begun again, and what came meanwhile is seen."""
        self.assertGreaterEqual(self.wait(0, 0.1), 0.1)
        add(self.direct, ['recover,1'])
        for lost in (TXN, b'POST /v3/watch'):
            self.log._break_watch()
            self.log._broken = 0.0
            self.between.lose('answer', lost)
            with contextlib.suppress(Unanswered):
                self.wait(1, 0.5)
            self.assertTrue(self.between.lost.is_set())
        later = threading.Timer(0.1, lambda: add(self.direct, ['recover,2']))
        later.start()
        self.assertLess(self.wait(1), PATIENCE)
        later.join()

    def test_old_events(self) -> None:
        """What a watch reports late of what a snapshot has found already is no news, nor does it bring back what is
        gone."""
        self.assertTrue(self.direct.acquire('b', B, EMPTY, LONG))
        found = self.server.keys(f'{self.prefix}/lease/')
        self.direct.release('b', B)
        self.log.snapshot(1, 0)
        for key, pair in found.items():
            self.log._news.see({'kv': {**pair, 'key': coded(key)}})
        self.assertEqual((set(self.log._news.holders(None)), self.log._news.is_fresh), ({'a'}, True))

    def test_who_loses_a_lease(self) -> None:
        """The watch of the last wait reports it while nothing else is answered: of the session that acquired a lease
        over this log last, and of no other."""

        def delete() -> None:
            self.server.delete(f'{self.prefix}/lease/session/b')

        def revoke() -> None:
            self.server.ask('/v3/lease/revoke', {'ID': self.leases()['session/b']})

        for number, take in enumerate((delete, revoke), 1):
            with self.subTest(number=number):
                mine = Session(B.process, number)
                self.assertTrue(self.log.acquire('b', mine, EMPTY, LONG))
                self.log.snapshot(1, 0)
                self.wait_for_nobody({'a': A, 'b': mine})
                self.direct.release('a', A)
                self.assertFalse(self.log.sees_loss(mine, 0.1), 'another one has lost its lease')
                self.assertTrue(self.log.renew('b', mine, 2 * LONG), 'it moves to another lease of etcd')
                self.assertFalse(self.log.sees_loss(mine, 0.1), 'it has moved')
                take()
                with mock.patch.object(Client, 'ask', side_effect=AssertionError('it asks for something')):
                    self.assertTrue(self.log.sees_loss(mine, PATIENCE))
                    self.assertTrue(self.log.sees_loss(mine, 0.0), 'it stays so')
                    self.assertFalse(self.log.sees_loss(Session(B.process, 9), 0.0), 'it has held nothing')
                self.assertTrue(self.direct.acquire('a', A, EMPTY, LONG))

    def test_who_is_not_found_yet(self) -> None:
        """A lease that no snapshot has found isn't lost."""
        self.log.snapshot(1, 0)
        self.wait_for_nobody({'a': A})
        self.assertTrue(self.log.acquire('b', B, EMPTY, LONG))
        self.assertFalse(self.log.sees_loss(B, 0.0))

    def wait_for_nobody(self, sessions: dict[str, Session]) -> None:
        """A wait that begins a watch, and ends without news."""
        self.log.wait(1, 0, sessions, Until.NEWS, 0.1)
        self.assertIsNotNone(self.log._watch)

    def test_begin_of_a_watch(self) -> None:
        """What comes between the snapshot and the watch is seen."""
        watch = Client.watch
        self.assertTrue(self.direct.append(1, 0, ['recover,1']))
        acts: list[tuple[Callable[[], object], Until]] = [
            (lambda: self.direct.promise('a', A, Promise(1, 1)), Until.ALL_IDLE),
            (lambda: self.direct.append(1, 1, ['recover,1']), Until.NEWS),
            (lambda: self.direct.ask(OPENING.after(None), 1), Until.NEWS),
            (lambda: self.direct.set_maintenance(Maintenance(frozenset('b')), None), Until.NEWS),
            (lambda: self.direct.acquire('b', B, Promise(1, 2), LONG), Until.NEWS),
        ]  # fmt: skip
        for act, until in acts:
            self.log._end_watch()
            offset, done = len(self.log.snapshot(1, 0).rows), []

            def begin(client: Client, told: Json) -> etcd_client.Subscription:
                done.append(act())
                return watch(client, told)

            with mock.patch.object(Client, 'watch', begin):
                self.assertLess(self.wait(offset, until=until), PATIENCE)
            self.assertEqual(done, [True])

    def test_nothing_happens(self) -> None:
        """Nothing is asked meanwhile, also over many waits; and one snapshot is enough for the first wait."""
        self.log.snapshot(1, 0)
        asked = self.between.requests
        self.wait(0, 0.1)
        self.assertEqual(self.between.requests, asked + 1, 'the watch')
        for _ in range(5):
            self.wait(0, 0.1)
        self.assertEqual(self.between.requests, asked + 1)

    def test_promises_among_many(self) -> None:
        """They are reported only where they are waited for: a watch is begun anew for that, without a snapshot."""
        self.assertTrue(self.direct.promise('a', A, Promise(1, 5)))
        with mock.patch.object(etcd, 'FEW', 0):
            self.log.snapshot(1, 0)
            self.wait(0, 0.1)
            asked, seen = self.between.requests, self.seen()
            self.assertTrue(self.direct.promise('a', A, Promise(1, 7)))
            self.wait(0, 0.3)
            self.assertEqual((self.between.requests, seen), (asked, []))
            self.wait(0, 0.1, Until.ANY_IDLE)
            self.assertEqual(self.between.requests, asked + 1)
            self.assertTrue(self.direct.promise('a', A, Promise(1, 8)))
            self.wait(0, 0.3, Until.ANY_IDLE)
        self.assertIn(f'{self.prefix}/lease/promise/a', seen)

    def test_promises_that_a_snapshot_left_out(self) -> None:
        """A wait for promises ends by one that the watch reports late: a snapshot without it is of a later moment."""
        self.assertTrue(self.direct.append(1, 0, ['recover,1']))
        self.log.snapshot(1, 0)
        self.wait(1, 0.1, Until.ANY_IDLE)
        self.assertTrue(self.direct.promise('a', A, Promise(1, 1)))
        self.assertFalse(self.log.snapshot(1, 1, 'b').has_promises)
        self.assertLess(self.wait(1, until=Until.ANY_IDLE), PATIENCE)

    def test_what_a_watch_reports(self) -> None:
        """Neither rows nor their times, nor notes of nodes whose work fails."""
        self.log.snapshot(1, 0)
        self.wait(0, 0.1)
        seen = self.seen()
        self.direct.note('a', True)
        self.assertTrue(self.direct.append(1, 0, ['recover,1']) and self.direct.promise('a', A, Promise(1, 1)))
        self.assertTrue(
            self.direct.set_maintenance(Maintenance(frozenset('b')), None) and self.direct.ask(OPENING.after(None), 1)
        )
        wait_until(lambda: self.log._hear(lambda: f'{self.prefix}/requested' in seen, True, 0.1))
        wanted = ('offset', 'lease/promise/a', 'maintenance', 'requested')
        self.assertEqual(seen, [f'{self.prefix}/{key}' for key in wanted])

    def seen(self) -> list[str]:
        """The keys of all events from now on."""
        found: list[str] = []
        see = etcd.News.see

        def note(news: etcd.News, event: Json) -> None:
            found.append(decoded(event['kv']['key']))
            see(news, event)

        patch = mock.patch.object(etcd.News, 'see', note)
        patch.start()
        self.addCleanup(patch.stop)
        return found

    def test_snapshots(self) -> None:
        """Each finds all, whatever it has read before, and whatever a watch reported meanwhile."""
        choice, names = random.Random(1), 'abcdef'
        for few in (0, 64):
            with mock.patch.object(etcd, 'FEW', few):
                for number in range(100):
                    name, session, here = choice.choice(names), Session(number, 1), Promise(1, 0)
                    there = live(self.direct)
                    for _ in range(choice.randrange(3)):
                        self.direct.release(name, there[name].session) if name in there else self.direct.acquire(
                            name, session, here, LONG
                        )
                    if there and choice.random() < 0.5:
                        other = choice.choice(sorted(there))
                        self.direct.promise(other, there[other].session, Promise(1, number))
                    if choice.random() < 0.3:
                        self.log.wait(1, 0, there_of(self.log), choice.choice(list(Until)), 0.02)
                    self.assertEqual(live(self.log), live(self.opened()), number)

    def test_what_a_snapshot_reads(self) -> None:
        """Only leases that are newer than the last snapshot, but for the first one."""
        for number in range(20):
            self.assertTrue(self.direct.acquire(str(number), A, EMPTY, LONG))
        read: list[int] = []
        pairs_of = etcd_client.pairs_of

        def count(found: Json) -> list[etcd_client.Pair]:
            pairs = pairs_of(found)
            read.append(sum(b'/lease/' in pair.key for pair in pairs))
            return pairs

        acts: list[Callable[[], object]] = [
            lambda: None, lambda: None, lambda: self.direct.promise('7', A, Promise(1, 1)),
            lambda: self.direct.acquire('x', A, EMPTY, LONG), lambda: self.direct.renew('x', A, 2 * LONG),
            lambda: self.direct.release('x', A), lambda: None,
        ]  # fmt: skip
        counts = []
        with mock.patch.object(etcd, 'pairs_of', count):
            for act in acts:
                act()
                read.clear()
                self.log.snapshot(1, 0)
                counts.append(sum(read))
        self.assertEqual(counts, [42, 0, 1, 2, 2, 42, 0])

    def test_damage(self) -> None:
        """Whatever is damaged is left for a snapshot to find."""
        for key in ('lease/session/b', 'lease/promise/a', 'offset'):
            self.log.snapshot(1, 0)
            before = self.server.keys(f'{self.prefix}/{key}').get(f'{self.prefix}/{key}')
            later = threading.Timer(0.1, lambda: self.server.put(f'{self.prefix}/{key}', 'x'))
            later.start()
            self.assertLess(self.wait(0, until=Until.ALL_IDLE if key == 'offset' else Until.NEWS), PATIENCE)
            later.join()
            with self.assertRaises(DamagedLog):
                self.log.snapshot(1, 0)
            if before:
                self.server.put(f'{self.prefix}/{key}', decoded(before['value']))
            else:
                self.server.delete(f'{self.prefix}/{key}')

    def test_removed(self) -> None:
        self.log.snapshot(1, 0)
        later = threading.Timer(0.1, lambda: self.server.delete(f'{self.prefix}/', f'{self.prefix}0'))
        later.start()
        self.assertLess(self.wait(0), PATIENCE)
        later.join()
        with self.assertRaisesRegex(NoLog, 'removed'):
            self.log.snapshot(1, 0)


def there_of(log: EtcdLog) -> dict[str, Session]:
    """The sessions that a snapshot finds."""
    return log.snapshot(1, 0).sessions
