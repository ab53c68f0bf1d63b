"""What each store of a shared log does: tests that those of each store have."""
from __future__ import annotations

import random
import threading
import time
import unittest
from collections.abc import Callable
from typing import TYPE_CHECKING
from unittest import mock

from bully.clocks import SECOND
from bully.core import Promise, Session, Until
from bully.maintenance import Maintenance
from bully.memory import MemoryLog
from bully.shared_log import DamagedLog, Holder, Log, NoEpoch, Precondition
from ..calls import Calls, answer_of
from ..steps import EMPTY, LONG, OPENING, A, B, C, Clock, add, be_idle, end_of, known_to, live, where
from ..waiting import PATIENCE

if TYPE_CHECKING:
    Tests = unittest.TestCase
else:
    Tests = object


def give_over(log: Log, name: str, session: Session, to: Session) -> None:
    """Another session holds the lease of this name then."""
    log.release(name, session)
    assert log.acquire(name, to, EMPTY, LONG)


class Laws(Tests):
    """The laws of a store."""

    TTL = 5 * SECOND
    LONG = 1000 * SECOND  # longer than a test
    PAGE = 10  # appends that the store reads together
    COMPARES_ALL = (
        False  # whether a change with what is known compares all leases, of those that it doesn't affect, too
    )

    def created(self) -> Log:
        """A new log, which has begun with OPENING. It is closed at the end of the test."""
        raise NotImplementedError

    def handle(self, log: Log) -> Log:
        """Another handle of the log, as another process has one."""
        raise NotImplementedError

    def pair(self) -> tuple[Log, Log]:
        log = self.created()
        return log, self.handle(log)

    def now(self) -> int:
        """The time of the clock by which leases last."""
        raise NotImplementedError

    def pass_time(self, time: int) -> None:
        """So much time passes."""
        raise NotImplementedError

    def pass_end(self, log: Log) -> None:
        """So much time passes that the leases of the log have ended, and not much more."""
        raise NotImplementedError

    # Leases.

    def test_acquire(self) -> None:
        log, other = self.pair()
        for promise in (Promise(1, 1), Promise(2, 0), Promise(0, 0), Promise(0, 1)):
            self.assertFalse(log.acquire('a', A, promise, self.TTL), 'the log does not end there')
        self.assertTrue(log.acquire('a', A, EMPTY, self.LONG))
        for session in (A, B):
            self.assertFalse(other.acquire('a', session, EMPTY, self.LONG))
        self.assertTrue(other.acquire('b', B, EMPTY, self.LONG))
        self.assertEqual(live(log), {'a': Holder(A, EMPTY), 'b': Holder(B, EMPTY)})
        other.release('a', B)
        self.assertEqual(set(live(log)), {'a', 'b'})
        other.release('a', A)
        self.assertEqual(set(live(log)), {'b'})

    def test_acquire_after_rows(self) -> None:
        """A session acquires its lease at the end of the log alone, which is what it has promised."""
        log, other = self.pair()
        self.assertTrue(log.acquire('a', A, EMPTY, self.LONG))
        end = add(log, ['recover,1', 'start,1'])
        for offset in (0, 1, 3):
            self.assertFalse(other.acquire('b', B, Promise(1, offset), self.LONG))
        self.assertTrue(other.acquire('b', B, end, self.LONG))
        self.assertEqual(live(log)['b'], Holder(B, Promise(1, 2)))

    def test_renewals(self) -> None:
        log, other = self.pair()
        self.assertFalse(log.renew('a', A, self.TTL))
        self.assertTrue(log.acquire('a', A, EMPTY, self.TTL))
        self.assertFalse(other.renew('a', B, 10 * self.TTL))
        begun = self.now()
        while self.now() < begun + 2 * self.TTL:
            self.pass_time(self.TTL // 5)
            self.assertTrue(log.renew('a', A, self.TTL))
        self.assertEqual(set(live(other)), {'a'})
        self.pass_end(other)
        self.assertEqual(live(other), {})
        self.assertFalse(log.renew('a', A, self.TTL), 'a lease that has ended is not renewed')
        self.assertTrue(other.acquire('a', B, EMPTY, self.LONG))
        log.release('a', A)
        self.assertEqual(live(log), {'a': Holder(B, EMPTY)})

    def test_another_session(self) -> None:
        """A snapshot shows the session that holds a lease then, also if the one before, which the same process saw, had
        promised the same; with all promises or with that of another node alone."""
        for alone in (None, 'b'):
            log, other = self.pair()
            for session in (A, B, C):
                self.assertTrue(other.acquire('a', session, EMPTY, self.LONG))
                self.assertEqual(log.snapshot(*where(EMPTY), alone).sessions, {'a': session})
                other.release('a', session)

    def test_a_shorter_renewal(self) -> None:
        """Others see the end of a lease that was renewed for a shorter time than before."""
        log, other = self.pair()
        self.assertTrue(log.acquire('a', A, EMPTY, self.LONG))
        self.assertEqual(set(live(other)), {'a'})
        self.assertTrue(log.renew('a', A, self.TTL))
        self.assertEqual(set(live(other)), {'a'})
        self.pass_end(other)
        self.assertEqual((live(other), dict(other.snapshot(1, 0, 'b').holders)), ({}, {}))

    def test_the_promise_of_one(self) -> None:
        """A snapshot may have the promise of one holder alone, and all sessions. The next one with all promises has
        what was left out, whatever came meanwhile."""
        log, other = self.pair()
        for name, session in (('a', A), ('b', B), ('c', C)):
            self.assertTrue(other.acquire(name, session, EMPTY, self.LONG))
        none, here, there = (Promise(), ()), (Promise(1, 3), (2,)), (Promise(1, 4), (0, 5))
        changes: list[tuple[Callable[[], object], dict[str, Holder]]] = [
            (lambda: None, {'a': Holder(A, EMPTY), 'b': Holder(B, EMPTY), 'c': Holder(C, EMPTY)}),
            (
                lambda: other.promise('b', B, *here),
                {'a': Holder(A, EMPTY), 'b': Holder(B, *here), 'c': Holder(C, EMPTY)},
            ),
            (
                lambda: other.promise('a', A, *there),
                {'a': Holder(A, *there), 'b': Holder(B, *here), 'c': Holder(C, EMPTY)},
            ),
            (lambda: other.release('c', C), {'a': Holder(A, *there), 'b': Holder(B, *here)}),
            (
                lambda: other.acquire('c', B, EMPTY, self.LONG),
                {'a': Holder(A, *there), 'b': Holder(B, *here), 'c': Holder(B, EMPTY)},
            ),
            (
                lambda: other.promise('c', B, *there),
                {'a': Holder(A, *there), 'b': Holder(B, *here), 'c': Holder(B, *there)},
            ),
            (
                lambda: give_over(other, 'b', B, C),
                {'a': Holder(A, *there), 'b': Holder(C, EMPTY), 'c': Holder(B, *there)},
            ),
        ]
        for number, (change, holders) in enumerate(changes):
            change()
            for name, reads in (('a', log), ('nobody', log), ('nobody', other)):  # `other` reads of nobody each time
                with self.subTest(change=number, promise_of=name):
                    found = reads.snapshot(1, 0, name)
                    shown = {
                        each: holder if each == name else Holder(holder.session, *none)
                        for each, holder in holders.items()
                    }
                    self.assertEqual((found.holders, found.has_promises), (shown, False))
            if number % 3:
                whole = log.snapshot(1, 0)
                self.assertEqual((whole.holders, whole.has_promises), (holders, True))

    def test_promises_in_a_pause(self) -> None:
        """All are read, because they say whether a change is completed first."""
        log, other = self.pair()
        for name, session in (('a', A), ('b', B)):
            self.assertTrue(other.acquire(name, session, EMPTY, self.LONG))
        holders = {'a': Holder(A, EMPTY), 'b': Holder(B, Promise(1, 3), (2,))}
        self.assertTrue(other.promise('b', B, Promise(1, 3), (2,)))
        bare = {'a': Holder(A, EMPTY), 'b': Holder(B, Promise())}
        for is_paused in (False, True, False, True):
            self.assertTrue(other.set_maintenance(Maintenance(sessions={'a': A} if is_paused else None), None))
            found = log.snapshot(1, 0, 'a')
            self.assertEqual((found.holders, found.has_promises), (holders if is_paused else bare, is_paused))

    def test_closing(self) -> None:
        """Leases stay."""
        log, other = self.pair()
        self.assertTrue(log.acquire('c', A, EMPTY, self.LONG))
        log.close()
        self.assertEqual(set(live(other)), {'c'})

    def test_names(self) -> None:
        """They are told apart, whatever is in them."""
        log, other = self.pair()
        names = [
            'a', 'a/b', 'a/', '/', 'session/a', 'promise', 'größer', ' ', 'a\nb', '\U0001f600', "'", '"', '%', 'A',
            'x' * 200,
        ]  # fmt: skip
        for number, name in enumerate(names):
            self.assertTrue(log.acquire(name, Session(number, number), EMPTY, self.LONG), name)
        for name in names[::2]:
            self.assertTrue(log.promise(name, live(log)[name].session, Promise(1, 7)), name)
        wanted = {
            name: Holder(Session(number, number), EMPTY if number % 2 else Promise(1, 7))
            for number, name in enumerate(names)
        }
        self.assertEqual(live(other), wanted)

    # Promises.

    def test_promises_rise(self) -> None:
        """Whatever comes late, the latest one stays."""
        log, other = self.pair()
        self.assertFalse(log.promise('a', A, Promise(1, 3)))
        self.assertTrue(log.acquire('a', A, EMPTY, self.LONG))
        most = EMPTY
        told = [
            (1, 12), (1, 3), (1, 9), (1, 13), (2, 2), (1, 999_999), (2, 1), (2, 10), (2, 9), (10, 0), (9, 5), (3, 100),
        ]  # fmt: skip
        for offset in told:
            self.assertTrue((log, other)[offset[1] % 2].promise('a', A, Promise(*offset)))
            most = max(most, Promise(*offset))
            self.assertEqual(live(other)['a'].promise, most)
        self.assertFalse(other.promise('a', B, Promise(11, 0)))
        self.assertEqual(live(log), {'a': Holder(A, Promise(10, 0))})

    def test_kept(self) -> None:
        """At one offset a session may keep less later, and nothing else; a promise of a later offset counts as it
        is."""
        log, other = self.pair()
        self.assertTrue(log.acquire('a', A, EMPTY, self.LONG))
        few, some, other_ones, most = (17,), (0, 17), (0, 4), (0, 5, 17)
        for number, (offset, kept, wanted) in enumerate(
            (
                ((1, 0), some, ((1, 0), ())),
                ((1, 2), most, ((1, 2), most)),
                ((1, 2), some, ((1, 2), some)),
                ((1, 2), most, ((1, 2), some)),
                ((1, 2), other_ones, ((1, 2), some)),
                ((1, 1), (), ((1, 2), some)),
                ((1, 2), some, ((1, 2), some)),
                ((1, 2), few, ((1, 2), few)),
                ((1, 10), (1, 2, 4095), ((1, 10), (1, 2, 4095))),
                ((1, 9), (), ((1, 10), (1, 2, 4095))),
                ((1, 10), (), ((1, 10), ())),
                ((1, 10), few, ((1, 10), ())),
                ((2, 0), few, ((2, 0), few)),
                ((1, 11), (), ((2, 0), few)),
                ((2, 0), (), ((2, 0), ())),
            )
        ):
            self.assertTrue((log, other)[number % 2].promise('a', A, Promise(*offset), kept))
            self.assertEqual(live(other), {'a': Holder(A, Promise(*wanted[0]), wanted[1])}, number)
        self.assertFalse(other.promise('a', B, Promise(9, 0), few))
        self.assertEqual(live(log), {'a': Holder(A, Promise(2, 0))})
        self.assertTrue(log.promise('a', A, Promise(3, 0), few) and other.renew('a', A, 2 * self.LONG))
        self.assertEqual(live(log), {'a': Holder(A, Promise(3, 0), few)}, 'a renewal changes nothing of it')
        log.release('a', A)
        self.assertTrue(other.acquire('a', B, EMPTY, self.LONG))
        self.assertEqual(live(log), {'a': Holder(B, EMPTY)}, 'a new session keeps nothing')

    def test_a_renewal_keeps_the_promise(self) -> None:
        log, other = self.pair()
        self.assertTrue(log.acquire('a', A, EMPTY, self.TTL))
        self.assertTrue(other.promise('a', A, Promise(1, 5)))
        for renews, ttl in ((log, self.TTL), (other, self.TTL), (log, 2 * self.TTL), (other, 3 * self.TTL)):
            self.assertTrue(renews.renew('a', A, ttl))
            self.assertEqual(live(log), {'a': Holder(A, Promise(1, 5))})
        self.pass_time(3 * self.TTL // 2)
        self.assertEqual(live(other), {'a': Holder(A, Promise(1, 5))}, 'also when earlier renewals are over')
        self.assertFalse(other.append(1, 0, ['recover,1']))

    def test_late_requests(self) -> None:
        """What a session asks for after the end of its lease does nothing, also while another session holds the
        lease."""
        log, other = self.pair()
        self.assertTrue(log.acquire('a', A, EMPTY, self.TTL))
        self.pass_end(other)
        self.assertFalse(log.append(1, 0, ['recover,1']))
        for is_acquired in (False, True):
            if is_acquired:
                self.assertTrue(other.acquire('a', B, EMPTY, self.LONG))
            self.assertFalse(log.promise('a', A, Promise(1, 4)))
            self.assertFalse(log.renew('a', A, self.LONG))
            self.assertEqual(live(other), {'a': Holder(B, EMPTY)} if is_acquired else {})
        log.release('a', A)
        self.assertEqual(live(other), {'a': Holder(B, EMPTY)})

    def test_a_new_session(self) -> None:
        """It has promised the offset at which it acquired its lease, whatever the one before promised."""
        log, other = self.pair()
        self.assertTrue(log.acquire('a', A, EMPTY, self.TTL))
        self.assertTrue(log.promise('a', A, Promise(1, 8)))
        self.pass_end(other)
        self.assertTrue(other.acquire('a', B, EMPTY, self.LONG))
        self.assertEqual(live(log), {'a': Holder(B, EMPTY)})
        other.release('a', B)
        self.assertTrue(log.acquire('a', C, EMPTY, self.LONG))
        self.assertFalse(other.promise('a', B, Promise(1, 3)))
        self.assertEqual(live(other), {'a': Holder(C, EMPTY)})

    # Rows.

    def test_append(self) -> None:
        log, other = self.pair()
        self.assertFalse(log.append(1, 0, ['recover,1']), 'nobody holds a lease')
        self.assertTrue(log.acquire('a', A, EMPTY, self.LONG))
        self.assertFalse(log.append(0, 0, ['recover,1']))
        self.assertTrue(log.append(1, 0, ['recover,1', 'start,1']))
        self.assertFalse(other.append(1, 0, ['recover,2']), 'it comes late')
        self.assertFalse(other.append(1, 2, ['recover,2']), 'nobody has promised that')
        self.assertTrue(other.promise('a', A, Promise(1, 2)))
        self.assertTrue(other.append(1, 2, ['recover,2']))
        self.assertEqual(list(log.read(1, 0)), ['recover,1', 'start,1', 'recover,2'])
        self.assertEqual(
            [list(log.read(1, offset)) for offset in (1, 2, 3)], [['start,1', 'recover,2'], ['recover,2'], []]
        )
        for epoch in (0, 2):
            with self.assertRaises(NoEpoch):
                log.read(epoch, 0)

    def test_goes_back(self) -> None:
        """Who has read more than there is, by this epoch or by a later one, is told that the log isn't what it was."""
        log, other = self.pair()
        self.assertTrue(log.acquire('a', A, EMPTY, self.LONG))
        end = add(log, ['recover,1', 'start,1'])
        be_idle(log, ('a', A))
        for here in (Promise(1, 3), Promise(2, 0), Promise(2, 1)):
            calls: list[Callable[[], object]] = [
                lambda: other.snapshot(here.epoch, here.offset),
                lambda: other.append(here.epoch, here.offset, ['recover,1']),
                lambda: other.roll_over(here.epoch, here.offset, OPENING.next(None, ())),
            ]
            for number, call in enumerate(calls):
                with self.subTest(here=here, call=number), self.assertRaises(DamagedLog):
                    call()
            other.wait(here.epoch, here.offset, {'a': A}, Until.NEWS, PATIENCE)  # which is over at once
        with self.assertRaises(DamagedLog):
            other.read(1, 3)
        self.assertEqual((end_of(log), list(log.read(1, 2)), log.snapshot(1, 2).rows[:]), (end, [], []))

    def test_rows_that_are_none(self) -> None:
        log, _ = self.pair()
        self.assertTrue(log.acquire('a', A, EMPTY, self.LONG))
        none: list[list[str]] = [[], ['recover,1\n'], ['recover,1\nrecover,2']]
        for rows in none:
            with self.assertRaises(ValueError):
                log.append(1, 0, rows)
        self.assertEqual(list(log.read(1, 0)), [])

    def test_all_have_to_be_idle(self) -> None:
        """At exactly that offset: unknown processes, too, and those that have promised more."""
        log, other = self.pair()
        for name, session in (('1', A), ('2', B), ('unknown', C)):
            self.assertTrue(log.acquire(name, session, EMPTY, self.LONG))
        self.assertTrue(log.append(1, 0, ['recover,1']))
        here = Promise(1, 1)
        for name, session in (('1', A), ('2', B), ('unknown', C)):
            self.assertFalse(other.append(1, 1, ['recover,2']))
            self.assertTrue(other.promise(name, session, here))
        self.assertTrue(other.append(1, 1, ['recover,2']))
        be_idle(log, ('1', A), ('2', B))
        self.assertFalse(log.append(1, 2, ['recover,3']))
        self.assertTrue(log.promise('unknown', C, Promise(1, 3)))
        self.assertFalse(log.append(1, 2, ['recover,3']), 'it knows more rows than there are')
        log.release('unknown', C)
        self.assertTrue(log.append(1, 2, ['recover,3']))
        self.assertEqual(len(other.read(1, 0)), 3)

    def test_all_have_to_keep_nothing(self) -> None:
        """If nothing is known of them."""
        log, other = self.pair()
        self.assertTrue(log.acquire('a', A, EMPTY, self.LONG) and log.append(1, 0, ['recover,1']))
        here = Promise(1, 1)
        for kept in ((0, 5), (5,)):
            self.assertTrue(log.promise('a', A, here, kept))
            for each in (log, other):
                self.assertFalse(each.append(1, 1, ['start,1']))
        self.assertTrue(log.promise('a', A, here))
        self.assertTrue(other.append(1, 1, ['start,1']))

    # Changes of which some leases are known.

    def three(self) -> tuple[Log, Log]:
        """A log and another handle of it, by which `a`, and `b` and `c` hold leases. The log ends after one row, which
        nobody has promised."""
        log, other = self.pair()
        self.assertTrue(log.acquire('a', A, EMPTY, self.LONG))
        self.assertTrue(other.acquire('b', B, EMPTY, self.LONG) and other.acquire('c', C, EMPTY, self.LONG))
        self.assertTrue(log.append(1, 0, ['recover,1']))
        return log, other

    def appends(self, log: Log, known: Precondition) -> bool:
        """Whether it appends at the end of the log. Each change that isn't done changes nothing."""
        before, end = live(log), end_of(log)
        done = log.append(*where(end), ['start,1'], known)
        self.assertEqual((end_of(log), live(log)), (Promise(1, end.offset + done), before))
        return done

    def test_an_unaffected_lease(self) -> None:
        """It isn't compared, whatever it has promised and keeps."""
        log, other = self.three()
        self.assertTrue(self.appends(log, known_to(log)))
        self.assertTrue(other.promise('b', B, Promise(1, 1), (1, 2)) and log.promise('a', A, Promise(1, 2)))
        self.assertTrue(self.appends(log, known_to(log, 'a')))
        self.assertFalse(log.append(1, 2, ['start,1'], known_to(log)), 'the log ends elsewhere')
        self.assertFalse(log.append(0, 3, ['start,1'], known_to(log)), 'in another epoch')
        with self.assertRaises(DamagedLog):
            log.append(1, 4, ['start,1'], known_to(log))

    def test_an_affected_lease(self) -> None:
        """It is as it is known, whatever it has promised and keeps; or the change is refused."""
        log, other = self.three()
        self.assertTrue(self.appends(log, known_to(log, 'a', 'b', 'c')), 'nobody has promised that')
        for promise, kept in (
            (Promise(1, 9), (1, 2, 3)),
            (Promise(1, 9), (1, 3)),
            (Promise(1, 9), ()),
            (Promise(2, 0), ()),
        ):
            known = known_to(log, 'b')
            self.assertTrue(other.promise('b', B, promise, kept))
            self.assertFalse(self.appends(log, known))
            self.assertTrue(self.appends(log, known_to(log, 'b')))

    def test_an_affected_lease_that_is_idle(self) -> None:
        """It may be otherwise than it is known, unless the store compares more."""
        log, other = self.three()
        known = known_to(log, 'a', 'b', 'c')
        self.assertTrue(other.promise('b', B, end_of(log)))
        self.assertNotEqual(self.appends(log, known), self.COMPARES_ALL)

    def test_a_lease_that_changed(self) -> None:
        """Who ended since isn't compared. Who came is compared if the change affects it, and is idle then; another
        session is not the one that was known."""
        for affected in ((), ('b',), ('b', 'd')):
            log, other = self.three()
            known = known_to(log, *affected)
            other.release('b', B)
            self.assertTrue(self.appends(log, known), affected)
            known = known_to(log, *affected)
            self.assertTrue(other.acquire('d', B, end_of(log), self.LONG))
            self.assertNotEqual(self.appends(log, known), self.COMPARES_ALL, affected)
            known = known_to(log, *affected)
            self.assertTrue(other.acquire('b', C, end_of(log), self.LONG) and other.promise('b', C, Promise(1, 9)))
            self.assertEqual(self.appends(log, known), not self.COMPARES_ALL and not affected, affected)

    def test_the_own_lease(self) -> None:
        """If the change affects its node the writer's own promise is as it knows it."""
        log, _ = self.three()
        here = end_of(log)
        self.assertTrue(log.promise('a', A, here, (1, 2)))
        for own in (Holder(A, here, (1,)), Holder(A, here), Holder(A, EMPTY), Holder(B, here, (1, 2))):
            self.assertFalse(self.appends(log, known_to(log, 'a', a=own)), own)
        self.assertTrue(self.appends(log, known_to(log, 'a', a=Holder(A, here, (1, 2)))))
        self.assertTrue(self.appends(log, known_to(log, 'b', a=Holder(A, here))), 'it does not affect its node')

    def test_nobody_is_live(self) -> None:
        """Then nothing is appended, whatever is known."""
        log, other = self.three()
        known = known_to(log)
        log.release('a', A)
        for name, session in (('b', B), ('c', C)):
            other.release(name, session)
        self.assertFalse(self.appends(log, known))
        self.assertFalse(self.appends(log, known_to(log)))

    def test_who_is_gone_need_not_be_idle(self) -> None:
        log, other = self.pair()
        self.assertTrue(log.acquire('b', B, EMPTY, self.TTL))
        self.assertTrue(log.append(1, 0, ['recover,1']))
        self.pass_end(other)
        self.assertFalse(log.append(1, 1, ['start,1']), 'nobody holds a lease')
        self.assertTrue(log.acquire('a', A, Promise(1, 1), self.LONG))
        self.assertTrue(log.append(1, 1, ['start,1']))

    def test_many_rows(self) -> None:
        """However the rows are kept or read, they are the same, from each offset on."""
        choice, (log, other) = random.Random(1), self.pair()
        self.assertTrue(log.acquire('a', A, EMPTY, self.LONG))
        rows: list[str] = []
        for number in range(5 * self.PAGE):
            more = [f'start,{choice.randint(1, 3)}' for _ in range(choice.choice([1, 1, 2, 3, 10, 1001]))]
            add(log, more)
            rows += more
            if number % self.PAGE in (0, 1, self.PAGE - 1) or number < 5:
                for offset in {0, 1, len(rows) - 1, len(rows), len(rows) - len(more), choice.randrange(len(rows))}:
                    self.assertEqual(list(other.read(1, offset)), rows[offset:], offset)
                    self.assertEqual(list(other.snapshot(1, offset).rows), rows[offset:], offset)
        self.assertEqual(len(other.read(1, 0)), len(rows))

    def test_racers(self) -> None:
        """Of many that append at one offset one succeeds, and each append is there as a whole."""
        log = self.created()
        self.assertTrue(log.acquire('a', A, EMPTY, self.LONG))
        logs = [self.handle(log) for _ in range(4)]
        done, refused = self.race(logs, 25)
        rows = list(log.read(1, 0))
        self.assertEqual((done, len(rows)), (25, 3 * 25))
        self.assertEqual(
            [rows[offset : offset + 3] for offset in range(0, len(rows), 3)],
            [[rows[offset]] * 3 for offset in range(0, len(rows), 3)],
        )
        self.assertGreater(refused, 0, 'no two have met')

    def race(self, logs: list[Log], times: int) -> tuple[int, int]:
        """Each handle appends so often, in a thread of its own. How many appends were done, and how many were
        refused."""
        counts, barrier = [0, 0], threading.Barrier(len(logs))
        counting = threading.Lock()

        def run(number: int, log: Log) -> None:
            for turn in range(times):
                barrier.wait(PATIENCE)
                here = be_idle(log, ('a', A))
                barrier.wait(PATIENCE)
                done = log.append(here.epoch, here.offset, [f'{number},{turn}'] * 3)
                with counting:
                    counts[not done] += 1

        threads = [threading.Thread(target=run, args=each) for each in enumerate(logs)]
        for thread in threads:
            thread.start()
        for thread in threads:
            thread.join()
        return counts[0], counts[1]

    # Maintenance, notes and times.

    def test_maintenance(self) -> None:
        """It stays until somebody who knows it sets it anew, and belongs to no epoch."""
        log, other = self.pair()
        one, two = Maintenance(frozenset(['b', 'größer']), {'a': A, "'": Session(0, 0)}), Maintenance(frozenset('a'))
        self.assertEqual(log.snapshot(1, 0).maintenance, Maintenance())
        self.assertFalse(log.set_maintenance(one, two))
        self.assertTrue(log.set_maintenance(one, Maintenance()))
        self.assertFalse(other.set_maintenance(two, Maintenance()), 'it was set meanwhile')
        self.assertEqual((log.snapshot(1, 0).maintenance, other.snapshot(1, 0).maintenance), (one, one))
        self.assertTrue(other.set_maintenance(two, one))
        self.assertTrue(log.acquire('a', A, EMPTY, self.LONG))
        self.assertTrue(log.roll_over(1, 0, OPENING.next(None, ())))
        self.assertEqual((log.snapshot(2, 0).maintenance, other.snapshot(2, 0).maintenance), (two, two))
        self.assertTrue(other.set_maintenance(one, None), 'whatever it was')
        self.assertTrue(log.set_maintenance(Maintenance(), one))
        self.assertEqual(other.snapshot(2, 0).maintenance, Maintenance())
        self.assertTrue(other.set_maintenance(two, Maintenance()))

    def test_notes(self) -> None:
        """Of whose work fails: they belong to no epoch, and are those that were made last."""
        log, other = self.pair()
        self.assertEqual(log.snapshot(1, 0).failing, {})
        log.note('a', None)
        names = ['a', 'a/b', 'größer', "'", ' ', 'x' * 200]
        for number, name in enumerate(names):
            (log, other)[number % 2].note(name, number % 3 == 0)
        noted = {name: number % 3 == 0 for number, name in enumerate(names)}
        self.assertEqual((log.snapshot(1, 0).failing, other.snapshot(1, 0).failing), (noted, noted))
        self.assertTrue(log.acquire('a', A, EMPTY, self.LONG))
        self.assertTrue(log.roll_over(1, 0, OPENING.next(None, ())))
        other.note('a', False)
        for name in names[1:]:
            log.note(name, None)
        self.assertEqual(
            (log.snapshot(2, 0).failing, self.handle(log).snapshot(2, 0).failing), ({'a': False}, {'a': False})
        )

    def test_give_up(self) -> None:
        """For an heir that is there by this session just then, and doesn't fail: so two can't give up for each
        other."""
        log, other = self.pair()
        self.assertFalse(log.give_up('a', 'b', B), 'it is not there')
        self.assertTrue(log.acquire('a', A, EMPTY, self.LONG) and log.acquire('b', B, EMPTY, self.LONG))
        self.assertFalse(other.give_up('a', 'b', C), 'it is another session')
        for gave_up in (False, True):
            log.note('b', gave_up)
            self.assertFalse(other.give_up('a', 'b', B), 'it fails, too')
        self.assertEqual(log.snapshot(1, 0).failing, {'b': True})
        log.note('b', None)
        log.note('a', False)
        self.assertTrue(other.give_up('a', 'b', B))
        self.assertFalse(log.give_up('b', 'a', A))
        self.assertEqual((log.snapshot(1, 0).failing, set(live(other))), ({'a': True}, {'a', 'b'}))
        self.assertTrue(log.acquire('c', C, EMPTY, self.TTL) and log.give_up('b', 'c', C))
        log.note('a', None)
        log.release('a', A)
        log.release('b', B)
        self.pass_end(other)
        self.assertFalse(other.give_up('a', 'c', C), 'its lease has ended')
        self.assertEqual(other.snapshot(1, 0).failing, {'b': True})

    def test_times(self) -> None:
        """When each append was done, by the wall clock, which may be set back."""
        log, other = self.pair()
        self.assertTrue(log.acquire('a', A, EMPTY, self.LONG))
        moments = [1_000_000_000_000, 999_999_999_999, 1_700_000_000_123] + [
            1_700_000_000_123 + number for number in range(self.PAGE)
        ]
        for number, moment in enumerate(moments):
            with mock.patch.object(time, 'time_ns', lambda: moment * 1_000_000 + 999_999):
                add((log, other)[number % 2], ['start,1', 'move,1'])
        self.assertEqual(
            (log.times(1), other.times(2)), ({2 * number: moment for number, moment in enumerate(moments)}, {})
        )
        here = be_idle(log, ('a', A))
        self.assertTrue(log.roll_over(1, here.offset, OPENING.next(None, ())))
        self.assertEqual(len(other.times(1)), len(moments))
        self.assertEqual(
            [sorted(log.times(1, offset)) for offset in (1, 2, 3)],
            [list(range(first, 2 * len(moments), 2)) for first in (2, 2, 4)],
        )
        log.prune(2)
        self.assertEqual((other.times(1), log.times(2)), ({}, {}))

    # Whatever is asked.

    def test_as_in_memory(self) -> None:
        """The answers are those of a log in memory."""
        for seed in range(4):
            memory, logs = MemoryLog(OPENING, Clock()), self.pair()
            calls = Calls(random.Random(seed), memory)
            for number in range(250):
                name, ask = calls.choose()
                log = calls.choice.choice(logs)
                self.assertEqual(answer_of(ask, log), answer_of(ask, memory), f'seed {seed}, {number}: {name}')
            self.assertGreater(min(calls.done.values()), 0, calls.done)
