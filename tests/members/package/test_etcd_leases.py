"""Tests of leases and promises in etcd: of the leases of etcd that they are under, and of answers that are lost."""
from __future__ import annotations

import contextlib
from collections.abc import Callable
from unittest import mock

from bully import etcd_client
from bully.clocks import SECOND
from bully.core import Promise, Session
from bully.epochs import Opening
from bully.etcd import EtcdLog
from bully.etcd_client import Client
from bully.shared_log import ForeignLog, Holder, Precondition, Unanswered
from ..etcd_servers import Json, begin_alone
from ..steps import EMPTY, LONG, OPENING, A, B, C, add, be_idle, end_of, known_to, live, where
from .in_etcd import GRANT, KEEPALIVE, PUT, TXN, InEtcd


def setUpModule() -> None:
    begin_alone(__name__)


class Promises(InEtcd):
    """What becomes of a promise that moves to another lease of etcd with its session, and of requests that come
    late."""

    def setUp(self) -> None:
        super().setUp()
        self.log, self.other = self.begun(), self.opened()
        self.assertTrue(self.log.promise('a', A, Promise(1, 5)))

    def late(self, call: Callable[[], object], part: str = 'request_put', after: int = 0) -> Json:
        """The transaction of this call that writes, which isn't done; it may be so later. It comes after so many others
        that are answered."""
        asked: list[Json] = []
        ask = Client.ask

        def lose(client: Client, path: str, told: Json, repeats: bool = False) -> Json:
            if path == etcd_client.KV_TXN and any(part in each for each in told['success']):
                asked.append(told)
                if len(asked) > after:
                    raise Unanswered('lost')
            return ask(client, path, told, repeats)

        with mock.patch.object(Client, 'ask', lose), self.assertRaises(Unanswered):
            call()
        return asked[after]

    def is_done(self, asked: Json) -> bool:
        """Whether it is done now that it comes. (etcd refuses what puts a key that isn't there.)"""
        with contextlib.suppress(ValueError):
            return 'succeeded' in self.server.ask('/v3/kv/txn', asked)
        return False

    def revoke(self, lease: str | None) -> None:
        """The lease of etcd ends."""
        self.server.ask('/v3/lease/revoke', {'ID': lease})

    def test_moved_together(self) -> None:
        """The end of the lease before takes nothing away."""
        before = self.leases()
        self.assertTrue(self.other.renew('a', A, LONG))
        after = self.leases()
        self.assertEqual((set(after), len(set(after.values()))), ({'session/a', 'promise/a'}, 1))
        self.assertNotEqual(after, before)
        self.revoke(before['session/a'])
        self.assertEqual(live(self.log), {'a': Holder(A, Promise(1, 5))})
        self.assertFalse(self.log.append(1, 0, ['recover,1']))

    def test_lost_together(self) -> None:
        self.revoke(self.leases()['session/a'])
        self.assertEqual((self.leases(), live(self.log)), ({}, {}))
        self.assertFalse(self.log.renew('a', A, LONG))
        self.assertFalse(self.log.promise('a', A, Promise(1, 6)))

    def test_a_promise_behind_a_move(self) -> None:
        """It is under the new lease, whoever makes it, and however late it comes."""
        late = self.late(lambda: self.log.promise('a', A, Promise(1, 7)))
        before = self.leases()
        self.assertTrue(self.other.renew('a', A, LONG))
        after = self.leases()
        self.assertTrue(self.is_done(late))
        self.assertTrue(self.log.promise('a', A, Promise(1, 8)))
        self.assertEqual(self.leases(), after)
        self.revoke(before['session/a'])
        self.assertEqual(live(self.log), {'a': Holder(A, Promise(1, 8))})

    def test_a_promise_while_it_moves(self) -> None:
        """The move keeps it."""
        ask = Client.ask
        done: list[bool] = []

        def promise_first(client: Client, path: str, told: Json, repeats: bool = False) -> Json:
            if path == etcd_client.LEASE_GRANT:
                with mock.patch.object(Client, 'ask', ask):
                    done.append(self.log.promise('a', A, Promise(1, 9)))
            return ask(client, path, told, repeats)

        with mock.patch.object(Client, 'ask', promise_first):
            self.assertTrue(self.other.renew('a', A, LONG))
        self.assertEqual((done, live(self.log)), ([True], {'a': Holder(A, Promise(1, 9))}))

    def test_late_promises(self) -> None:
        """Whichever was asked for first: of two of one offset the one stays that keeps less."""
        here = Promise(1, 6)
        one, two = (self.late(lambda: self.log.promise('a', A, here, kept)) for kept in ((1, 2), (3,)))
        self.assertTrue(self.is_done(one))
        self.assertFalse(self.is_done(two), 'neither is within the other')
        less = self.late(lambda: self.log.promise('a', A, here, (1,)), after=1)
        self.assertTrue(self.other.promise('a', A, here, (2,)))
        for late in (one, two, less):
            self.assertFalse(self.is_done(late))
        self.assertEqual(live(self.log), {'a': Holder(A, here, (2,))})

    def test_promises_at_one_moment(self) -> None:
        """What was read of a promise of the same offset is the same at the end, or it is read again, once."""
        cases: list[tuple[list[tuple[int, ...]], bool, tuple[int, ...]]] = [
            ([(0, 1)], True, (0,)), ([()], True, ()), ([(0, 1, 2), (0, 1)], False, (0, 1)),
        ]  # fmt: skip
        for number, (more, is_done, kept) in enumerate(cases):
            here, asked = Promise(2, number), []
            self.assertTrue(self.log.promise('a', A, here, (0, 1, 2, 3)))
            ask = Client.ask

            def promise_first(client: Client, path: str, told: Json, repeats: bool = False) -> Json:
                asked.append(path)
                if len(asked) > 1 and more:
                    with mock.patch.object(Client, 'ask', ask):
                        self.assertTrue(self.other.promise('a', A, here, more.pop(0)))
                return ask(client, path, told, repeats)

            with mock.patch.object(Client, 'ask', promise_first):
                if is_done:
                    self.assertTrue(self.log.promise('a', A, here, (0,)))
                else:
                    with self.assertRaisesRegex(Unanswered, 'at the same time'):
                        self.log.promise('a', A, here, (0,))
            self.assertEqual((more, live(self.log)), ([], {'a': Holder(A, here, kept)}))

    def test_a_change_by_whom_it_does_not_know(self) -> None:
        """Only a session that acquired its lease by this handle can leave others out of what is compared."""
        end = self.log.snapshot(1, 0)
        known = Precondition(frozenset(), end.holders, end.revision)
        self.assertFalse(self.other.append(1, 0, ['recover,1'], known))
        self.assertTrue(self.log.append(1, 0, ['recover,1'], known))

    def test_a_change_among_names_that_are_alike(self) -> None:
        """Whatever the name of another one, it is compared."""
        self.assertTrue(self.log.promise('a', A, Promise(1, 6), (1,)))
        for name in ('a0', 'a/', 'a ', 'aa', 'a\x01', 'A', 'b', '`', '\x01', 'ä'):
            end = end_of(self.log)
            self.assertTrue(self.other.acquire(name, B, end, LONG))
            known = known_to(self.log, 'a', name)
            with self.subTest(name=name):
                self.assertTrue(self.other.promise(name, B, Promise(1, 99), (2,)))
                self.assertFalse(self.log.append(*where(end), ['recover,1'], known))
                self.assertTrue(self.log.append(*where(end), ['recover,1'], known_to(self.log, 'a', name)))

    def test_a_change_after_a_move(self) -> None:
        """A lease that moves to a new one of etcd is written, so the change is refused once; one's own move isn't."""
        self.assertTrue(self.other.acquire('b', B, EMPTY, LONG))
        known = known_to(self.log, 'a', 'b')
        self.assertTrue(self.log.renew('a', A, LONG + SECOND))
        self.assertTrue(self.log.append(1, 0, ['recover,1'], known))
        known = known_to(self.log, 'a', 'b')
        self.assertTrue(self.other.renew('b', B, LONG + SECOND))
        self.assertFalse(self.log.append(1, 1, ['recover,2'], known))
        self.assertTrue(self.log.append(1, 1, ['recover,2'], known_to(self.log, 'a', 'b')))

    def test_a_late_change(self) -> None:
        """It is done only while all is as it is known."""
        self.assertTrue(self.other.acquire('b', B, EMPTY, LONG) and self.other.promise('b', B, Promise(1, 4), (1,)))
        self.assertTrue(self.log.promise('a', A, Promise(1, 6), (0,)))

        def come_again() -> None:
            self.log.release('a', A)
            self.assertTrue(self.log.acquire('a', A, end_of(self.log), LONG))

        acts: list[tuple[Callable[[], object], bool]] = [
            (lambda: self.other.promise('b', B, Promise(1, 4), (1,)), True),
            (lambda: self.other.promise('b', B, Promise(1, 4)), False),
            (lambda: self.log.promise('a', A, Promise(1, 6)), False),
            (lambda: self.other.acquire('c', C, end_of(self.log), LONG), False),
            (come_again, False), (lambda: self.other.release('c', C), True), (lambda: self.log.release('a', A), False),
        ]  # fmt: skip
        for number, (act, is_done) in enumerate(acts):
            with self.subTest(act=number):
                here, known = where(end_of(self.log)), known_to(self.log, 'a', 'b')
                late = self.late(lambda: self.log.append(*here, ['recover,1'], known))
                act()
                self.assertEqual(self.is_done(late), is_done)

    def test_a_late_move(self) -> None:
        """What is done later than a newer renewal changes nothing."""
        late = self.late(lambda: self.other.renew('a', A, 50 * SECOND))
        self.assertTrue(self.other.renew('a', A, 60 * SECOND))
        self.assertTrue(self.log.promise('a', A, Promise(1, 6)))
        before = self.server.keys(f'{self.prefix}/')
        self.assertFalse(self.is_done(late))
        self.assertEqual(self.server.keys(f'{self.prefix}/'), before)

    def test_a_late_move_after_a_renewal(self) -> None:
        """A move that wasn't answered is never done after a renewal that counts: its lease isn't renewed."""
        late = self.late(lambda: self.log.renew('a', A, 50 * SECOND))
        self.assertTrue(self.log.renew('a', A, LONG))
        before = self.server.keys(f'{self.prefix}/')
        self.assertFalse(self.is_done(late))
        self.assertEqual(self.server.keys(f'{self.prefix}/'), before)

    def test_late_requests_of_a_session_that_ended(self) -> None:
        """Promise, renewal, release and append of a session that is over do nothing to the next one."""
        lates = [
            self.late(lambda: self.log.promise('a', A, Promise(1, 7))),
            self.late(lambda: self.other.renew('a', A, LONG)),
            self.late(lambda: self.log.release('a', A), 'request_delete_range'),
            self.late(lambda: self.log.append(1, 0, ['recover,1'])),
        ]  # fmt: skip
        self.revoke(self.leases()['session/a'])
        for is_acquired in (False, True):
            if is_acquired:
                self.assertTrue(self.log.acquire('a', B, EMPTY, LONG))
                self.assertTrue(self.log.promise('a', B, Promise(1, 3)))
            for late in lates:
                self.assertFalse(self.is_done(late))
            self.assertEqual(live(self.log), {'a': Holder(B, Promise(1, 3))} if is_acquired else {})
            self.assertEqual(list(self.log.read(1, 0)), [])

    def test_a_late_acquire(self) -> None:
        """It is done only at the offset that it was asked for, and only if nobody holds the lease."""
        late = self.late(lambda: self.other.acquire('b', B, EMPTY, LONG))
        self.log.release('a', A)
        self.assertTrue(self.log.acquire('a', A, EMPTY, LONG))
        add(self.log, ['recover,1'])
        self.assertFalse(self.is_done(late))
        again = self.late(lambda: self.other.acquire('b', B, Promise(1, 1), LONG))
        self.assertTrue(self.log.acquire('b', C, Promise(1, 1), LONG))
        self.assertFalse(self.is_done(again))
        self.log.release('b', C)
        self.assertTrue(self.is_done(again), 'then it is there until it is released, or its lease is over')
        self.assertEqual(live(self.log)['b'], Holder(B, Promise(1, 1)))

    def test_a_late_append(self) -> None:
        """It is done at its offset alone, and while all live nodes have promised that."""
        self.log.release('a', A)
        self.assertTrue(self.log.acquire('a', A, EMPTY, LONG))
        late = self.late(lambda: self.log.append(1, 0, ['recover,1']))
        self.assertTrue(self.other.acquire('b', B, EMPTY, LONG))
        self.assertTrue(self.other.promise('b', B, Promise(1, 1)))
        self.assertFalse(self.is_done(late), 'one is not idle there')
        self.other.release('b', B)
        again = self.late(lambda: self.log.roll_over(1, 0, OPENING.after(None)))
        self.assertTrue(self.is_done(late))
        self.assertFalse(self.is_done(late))
        be_idle(self.log, ('a', A))
        self.assertFalse(self.is_done(again))
        self.assertEqual((list(self.log.read(1, 0)), self.log.epochs()), (['recover,1'], range(1, 2)))

    def test_a_request_while_an_epoch_ends(self) -> None:
        """Whatever is requested meanwhile, the next epoch begins by the settings that were requested last."""
        self.log.release('a', A)
        self.assertTrue(self.log.acquire('a', A, EMPTY, LONG))
        one, two = Opening(2, 'bully,1,2,4', ('a', 'b'), 500), Opening(2, 'bully,1,1,4', ('c',), 500)
        late = self.late(lambda: self.log.roll_over(1, 0, OPENING.after(None)))
        self.assertTrue(self.log.ask(one, 1))
        self.assertFalse(self.is_done(late))
        late = self.late(lambda: self.log.roll_over(1, 0, one))
        self.assertTrue(self.log.ask(two, 1))
        self.assertFalse(self.is_done(late))
        self.assertTrue(self.log.ask(one, 1))
        self.assertFalse(self.is_done(late), 'it was asked for anew')
        late = self.late(lambda: self.log.roll_over(1, 0, one))
        self.assertTrue(self.is_done(late))
        self.assertEqual((self.log.opening(), self.log.snapshot(2, 0).requested), (one, None))


class Lost(InEtcd):
    """What isn't answered."""

    def setUp(self) -> None:
        super().setUp()
        self.between = self.proxy()
        self.direct = self.created()
        self.log = self.opened(self.between.address(self.prefix))

    def loses(self, what: str, part: bytes, call: Callable[[], object]) -> None:
        """The call isn't answered, since that gets lost."""
        self.between.lose(what, part)
        with self.assertRaises(Unanswered) as caught:
            call()
        self.assertTrue(self.between.lost.is_set())
        self.assertIn(self.between.endpoint, str(caught.exception))

    def test_append(self) -> None:
        self.assertTrue(self.direct.acquire('a', A, EMPTY, LONG))
        count = 0
        for what in ('answer', 'request', 'answer'):
            self.assertTrue(self.direct.promise('a', A, Promise(1, count)))
            self.loses(what, PUT, lambda: self.log.append(1, count, ['recover,1', 'start,1']))
            count += 2 * (what == 'answer')
            self.assertEqual(len(self.direct.read(1, 0)), count)
            self.assertTrue(self.direct.promise('a', A, Promise(1, count)))
            self.assertTrue(self.log.append(1, count, ['recover,2']))
            count += 1

    def test_roll_over(self) -> None:
        self.assertTrue(self.direct.acquire('a', A, EMPTY, LONG))
        opening = OPENING
        for what in ('answer', 'request', 'answer'):
            after = opening.next(None, (1,) * 6)
            self.loses(what, PUT, lambda: self.log.roll_over(opening.epoch, 0, after))
            opening = after if what == 'answer' else opening
            self.assertEqual((self.direct.opening(), self.direct.epochs()[-1]), (opening, opening.epoch))
            self.assertTrue(self.direct.promise('a', A, Promise(opening.epoch, 0)))

    def test_acquire(self) -> None:
        for number, (what, part) in enumerate(
            [('answer', PUT), ('request', PUT), ('answer', GRANT), ('request', GRANT), ('answer', TXN)]
        ):
            session = Session(1, number)
            with self.subTest(what=what, part=part):
                self.loses(what, part, lambda: self.log.acquire('a', session, EMPTY, LONG))
                self.assertEqual(
                    live(self.direct), {'a': Holder(session, EMPTY)} if (what, part) == ('answer', PUT) else {}
                )
                self.log.release('a', session)
                self.assertTrue(self.log.acquire('a', B, EMPTY, LONG))
                self.log.release('a', B)

    def test_promise(self) -> None:
        self.assertTrue(self.log.acquire('a', A, EMPTY, LONG))
        for offset, what in enumerate(('answer', 'request'), 1):
            self.loses(what, PUT, lambda: self.log.promise('a', A, Promise(1, offset)))
            self.assertEqual(live(self.direct)['a'].promise, Promise(1, 1))
            self.assertTrue(self.log.promise('a', A, Promise(1, 1)))

    def test_renewal(self) -> None:
        self.assertTrue(self.log.acquire('a', A, EMPTY, LONG))
        for what in ('answer', 'request'):
            for part in (KEEPALIVE, TXN):
                self.loses(what, part, lambda: self.log.renew('a', A, LONG))
                self.assertTrue(self.log.renew('a', A, LONG))

    def test_renewal_by_another_lease(self) -> None:
        self.assertTrue(self.log.acquire('a', A, EMPTY, LONG))
        self.assertTrue(self.log.promise('a', A, Promise(1, 5)))
        for what in ('answer', 'request'):
            for part in (GRANT, PUT):
                self.assertTrue(self.direct.renew('a', A, LONG + SECOND))
                self.loses(what, part, lambda: self.log.renew('a', A, LONG))
                self.assertTrue(self.log.renew('a', A, LONG))
                self.assertEqual(
                    (live(self.direct), len(set(self.leases().values()))), ({'a': Holder(A, Promise(1, 5))}, 1)
                )

    def test_renewal_that_was_done_meanwhile(self) -> None:
        """Of one's own, whose answer was lost: it isn't known to be a gap, and is tried again."""
        self.assertTrue(self.log.acquire('a', A, EMPTY, 50 * SECOND))
        granted = Client.ask

        def renew_first(client: Client, path: str, told: Json, repeats: bool = False) -> Json:
            if path == etcd_client.LEASE_GRANT:
                with mock.patch.object(Client, 'ask', granted):
                    self.assertTrue(self.direct.renew('a', A, 70 * SECOND))
            return granted(client, path, told, repeats)

        with mock.patch.object(Client, 'ask', renew_first), self.assertRaisesRegex(Unanswered, 'at the same time'):
            self.log.renew('a', A, 60 * SECOND)
        self.assertTrue(self.log.renew('a', A, 60 * SECOND))

    def test_lease_that_has_ended_already(self) -> None:
        """Before a session is put under it, as after a pause. Then nothing is done, and it is tried again."""
        ask = Client.ask
        ended: list[str] = []

        def end_at_once(client: Client, path: str, told: Json, repeats: bool = False) -> Json:
            answer = ask(client, path, told, repeats)
            if path == etcd_client.LEASE_GRANT:
                self.server.ask('/v3/lease/revoke', {'ID': answer['ID']})
                ended.append(answer['ID'])
            return answer

        calls: list[Callable[[], object]] = [
            lambda: self.log.acquire('a', A, EMPTY, 50 * SECOND), lambda: self.log.renew('a', A, 60 * SECOND),
        ]  # fmt: skip
        for number, call in enumerate(calls):
            with self.subTest(call=number):
                with mock.patch.object(Client, 'ask', end_at_once), self.assertRaises(Unanswered):
                    call()
                self.assertEqual(
                    (len(ended), live(self.direct)), (number + 1, {'a': Holder(A, EMPTY)} if number else {})
                )
                self.assertTrue(call())

    def test_release(self) -> None:
        for what in ('answer', 'request'):
            self.assertTrue(self.log.acquire('a', A, EMPTY, LONG))
            self.loses(what, TXN, lambda: self.log.release('a', A))
            self.assertEqual(live(self.direct), {} if what == 'answer' else {'a': Holder(A, EMPTY)})
            self.log.release('a', A)
            self.assertEqual((live(self.direct), self.leases()), ({}, {}))

    def test_reads(self) -> None:
        """They are asked for again, of another server, if there is one."""
        calls: list[Callable[[EtcdLog], object]] = [lambda log: list(log.read(1, 0)), live, lambda log: log.epochs()]
        for call in calls:
            self.loses('answer', TXN, lambda: call(self.log))
            both = self.opened(f'etcd://{self.between.endpoint},127.0.0.1:{self.server.port}/{self.prefix}')
            self.between.lose('answer', TXN)
            self.assertEqual(call(both), call(self.direct))
            self.assertTrue(self.between.lost.is_set())

    def test_create(self) -> None:
        for what in ('answer', 'request'):
            address = self.between.address(f'{self.prefix}/{what}')
            self.loses(what, PUT, lambda: EtcdLog.create(address, OPENING))
            if what == 'request':
                self.created(address)
            self.assertEqual(self.opened(address).opening(), OPENING)

    def test_another_etcd(self) -> None:
        other = self.servers()
        self.created(other.address(self.prefix))
        self.between.port = other.each[0].port
        self.loses('request', TXN, self.log.epochs)
        calls: list[Callable[[], object]] = [
            lambda: self.log.read(1, 0), lambda: self.log.append(1, 0, ['recover,1']), lambda: self.log.snapshot(1, 0),
        ]  # fmt: skip
        for call in calls:
            with self.assertRaisesRegex(ForeignLog, 'another etcd'):
                call()
