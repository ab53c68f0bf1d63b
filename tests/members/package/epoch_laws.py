"""What each store of a shared log does with epochs: tests that a store's tests have for it."""
from __future__ import annotations

from collections.abc import Callable

from bully.clocks import SECOND
from bully.core import Promise, Until
from bully.epochs import Opening
from bully.maintenance import Maintenance
from bully.shared_log import Holder, Log, NoEpoch
from ..steps import EMPTY, OPENING, A, B, C, add, be_idle, known_to, live, plain_snapshot
from .laws import Tests

NEXT = OPENING.next(None, (1, 2, 3, 1, 2, 3))


class EpochLaws(Tests):
    """The laws of a store."""

    LONG = 1000 * SECOND  # longer than a test
    APPENDS = 30  # in an epoch: more than the store reads or removes together

    def created(self) -> Log:
        """A new log, which has begun with OPENING. It is closed at the end of the test."""
        raise NotImplementedError

    def handle(self, log: Log) -> Log:
        """Another handle of the log, as another process has one."""
        raise NotImplementedError

    def pair(self) -> tuple[Log, Log]:
        log = self.created()
        return log, self.handle(log)

    def two(self) -> tuple[Log, Log]:
        """A log and another handle of it, where 'a' is live."""
        log, other = self.pair()
        self.assertTrue(log.acquire('a', A, EMPTY, self.LONG))
        return log, other

    def test_epochs(self) -> None:
        """One epoch follows the other, each with rows of its own, and leases and promises stay."""
        log, other = self.two()
        after = OPENING.next(None, (3, 2, 1, 1, 2, 9))
        self.assertEqual((log.epochs(), log.opening(), log.opening(1)), (range(1, 2), OPENING, OPENING))
        for epoch in (0, 2):
            with self.assertRaises(NoEpoch):
                log.opening(epoch)
        end = add(log, ['recover,1', 'crash,1'])
        self.assertFalse(other.roll_over(1, 2, after), 'it is not idle')
        be_idle(log, ('a', A))
        for epoch, offset in ((1, 1), (0, 2)):
            self.assertFalse(other.roll_over(epoch, offset, after))
        self.assertTrue(other.roll_over(1, 2, after))
        self.assertFalse(log.roll_over(1, 2, after), 'the epoch has ended')
        self.assertEqual((log.epochs(), log.opening(), log.opening(1)), (range(1, 3), after, OPENING))
        self.assertEqual(after, Opening(2, OPENING.header, OPENING.names, OPENING.limit, (3, 2, 1, 1, 2, 0)))
        self.assertEqual(plain_snapshot(log, 1, 0), (2, [], {'a': Holder(A, end)}, None, Maintenance()))
        self.assertEqual((list(other.read(1, 1)), list(other.read(2, 0))), (['crash,1'], []))
        self.assertEqual(add(other, ['recover,2']), Promise(2, 1))
        self.assertEqual(
            plain_snapshot(log, 2, 0), (2, ['recover,2'], {'a': Holder(A, Promise(2, 0))}, None, Maintenance())
        )
        self.assertEqual((list(log.read(1, 0)), list(log.read(2, 0))), (['recover,1', 'crash,1'], ['recover,2']))

    def test_over_epochs(self) -> None:
        """A lease is acquired in the current epoch alone, and is renewed and released in any."""
        log, other = self.two()
        self.assertTrue(log.roll_over(1, 0, NEXT))
        self.assertTrue(other.renew('a', A, self.LONG))
        self.assertFalse(other.acquire('b', B, EMPTY, self.LONG))
        self.assertFalse(other.acquire('a', B, Promise(2, 0), self.LONG))
        self.assertTrue(other.acquire('b', B, Promise(2, 0), self.LONG))
        self.assertEqual(live(log), {'a': Holder(A, EMPTY), 'b': Holder(B, Promise(2, 0))})
        log.release('a', A)
        self.assertEqual(set(live(log)), {'b'})

    def test_promises_of_two_epochs(self) -> None:
        """An offset of one epoch is none of another one: nothing is appended until all have promised that of the
        current epoch."""
        log, other = self.two()
        self.assertTrue(log.acquire('b', B, EMPTY, self.LONG))
        self.assertTrue(log.roll_over(1, 0, NEXT))
        self.assertFalse(log.append(1, 0, ['recover,1']))
        self.assertFalse(log.append(2, 0, ['recover,1']), 'both have promised offset 0 of epoch 1')
        self.assertTrue(log.promise('a', A, Promise(2, 0)))
        self.assertFalse(log.append(2, 0, ['recover,1']))
        self.assertTrue(other.promise('b', B, Promise(2, 0)))
        self.assertTrue(other.promise('b', B, Promise(1, 500)), 'a late one of the epoch before changes nothing')
        self.assertEqual(live(log), {'a': Holder(A, Promise(2, 0)), 'b': Holder(B, Promise(2, 0))})
        self.assertTrue(log.append(2, 0, ['recover,1']))

    def test_late_promises_at_an_end(self) -> None:
        """No epoch ends while somebody hasn't promised its end, an unknown process or one of two epochs ago among them;
        and no promise that comes late lets it end."""
        log, other = self.two()
        self.assertTrue(log.acquire('b', B, EMPTY, self.LONG))
        self.assertTrue(log.acquire('unknown', C, EMPTY, self.LONG))
        self.assertTrue(log.append(1, 0, ['recover,1']))
        opening, end = OPENING, Promise(1, 1)
        for _ in range(3):
            opening = opening.next(None, ())
            for name, session in (('a', A), ('unknown', C), ('b', B)):
                for late in (
                    Promise(end.epoch - 1, 10**6),
                    Promise(end.epoch, end.offset - 1) if end.offset else EMPTY,
                ):
                    self.assertTrue(other.promise(name, session, late))
                    self.assertFalse(other.roll_over(end.epoch, end.offset, opening))
                self.assertTrue(other.promise(name, session, end))
                self.assertTrue(other.promise(name, session, Promise(end.epoch - 1, 10**6)), 'it changes nothing')
            self.assertTrue(other.roll_over(end.epoch, end.offset, opening))
            end = Promise(opening.epoch, 0)
        self.assertEqual(log.epochs(), range(1, 5))

    def test_an_end_of_which_leases_are_known(self) -> None:
        """Each holder that the change affects is idle there, also one that is as it is known; others aren't
        compared."""
        log, other = self.two()
        self.assertTrue(other.acquire('b', B, EMPTY, self.LONG) and other.acquire('c', C, EMPTY, self.LONG))
        self.assertTrue(log.append(1, 0, ['recover,1']))
        here = Promise(1, 1)
        for name, session, kept in (('a', A, (1, 2)), ('b', B, (3,)), ('a', A, ()), ('b', B, (3,))):
            self.assertFalse(log.roll_over(1, 1, NEXT, known_to(log, 'a', 'b')))
            self.assertTrue((log if name == 'a' else other).promise(name, session, here, kept))
        self.assertFalse(log.roll_over(1, 1, NEXT, known_to(log, 'b')))
        self.assertFalse(log.roll_over(1, 1, NEXT), 'nothing is known')
        self.assertTrue(other.promise('b', B, here))
        self.assertFalse(log.roll_over(1, 1, NEXT, known_to(log, 'a', 'b', 'c')))
        self.assertFalse(log.roll_over(1, 0, NEXT, known_to(log, 'a', 'b')), 'the log ends elsewhere')
        known = known_to(log, 'a', 'b')
        self.assertTrue(log.promise('a', A, Promise(2, 0)))
        self.assertFalse(log.roll_over(1, 1, NEXT, known), 'its own promise is another one')
        known = known_to(log, 'b')
        other.release('b', B)
        self.assertTrue(log.roll_over(1, 1, NEXT, known))
        self.assertEqual(live(other), {'a': Holder(A, Promise(2, 0)), 'c': Holder(C, EMPTY)})

    def test_late_append_of_an_epoch(self) -> None:
        """What was asked for in an epoch that has ended isn't done in the next one."""
        log, other = self.two()
        self.assertTrue(log.roll_over(1, 0, NEXT))
        self.assertTrue(log.promise('a', A, Promise(2, 0)))
        self.assertFalse(other.append(1, 0, ['recover,1']))
        self.assertFalse(other.roll_over(1, 0, NEXT))
        self.assertEqual((list(log.read(1, 0)), list(log.read(2, 0)), log.epochs()), ([], [], range(1, 3)))

    def test_requests(self) -> None:
        """An epoch ends by the requested settings, or not at all."""
        one, two = Opening(2, 'bully,1,2,4', ('a', 'größer'), 500), Opening(2, 'bully,1,1,4', ('c',), 500)
        log, other = self.two()
        self.assertIsNone(log.snapshot(1, 0).requested)
        for requested, epoch in ((one, 0), (one, 2), (OPENING, 1), (OPENING.after(None).after(None), 1)):
            self.assertFalse(log.ask(requested, epoch))
        self.assertTrue(log.ask(one, 1))
        self.assertEqual(other.snapshot(1, 0).requested, one)
        self.assertFalse(other.roll_over(1, 0, NEXT), 'other settings are requested')
        self.assertTrue(other.ask(OPENING.next(two, (1, 2, 3, 1)), 1))
        self.assertEqual((log.snapshot(1, 0).requested, other.snapshot(1, 0).requested), (two, two))
        self.assertFalse(log.roll_over(1, 0, OPENING.next(one, (1, 2, 3, 1, 2, 3))))
        self.assertTrue(log.roll_over(1, 0, OPENING.next(two, (1, 2, 3, 1, 2, 3))))
        self.assertFalse(other.ask(one, 1), 'the epoch has ended')
        self.assertEqual(
            (log.opening(), log.snapshot(2, 0).requested, other.snapshot(1, 0).requested),
            (OPENING.next(two, ()), None, None),
        )

    def test_cancelled_requests(self) -> None:
        log, other = self.two()
        requested = Opening(2, 'bully,1,2,4', ('a', 'b'), 500)
        self.assertTrue(log.ask(requested, 1))
        for epoch in (0, 2):
            log.cancel(epoch)
            self.assertEqual(other.snapshot(1, 0).requested, requested)
        log.cancel(1)
        log.cancel(1)
        self.assertIsNone(other.snapshot(1, 0).requested)
        self.assertFalse(other.roll_over(1, 0, requested))
        self.assertTrue(other.roll_over(1, 0, NEXT))

    def test_a_request_for_the_same(self) -> None:
        """It begins an epoch like any other."""
        log, other = self.two()
        self.assertTrue(log.ask(OPENING.after(None), 1))
        self.assertEqual(log.snapshot(1, 0).requested, OPENING.after(None))
        self.assertTrue(other.roll_over(1, 0, NEXT))
        self.assertEqual((log.opening(), log.snapshot(2, 0).requested), (NEXT, None))

    def test_openers(self) -> None:
        """Of many that end an epoch at once one does, and all find the same next one."""
        log, other = self.two()
        openings = [OPENING.next(None, (number,) * 6) for number in (1, 2, 3)]
        done = [opening for opening in openings if (log, other)[opening.table[0] % 2].roll_over(1, 0, opening)]
        self.assertEqual((done, log.opening(), other.opening(2)), (openings[:1], openings[0], openings[0]))

    def test_prune(self) -> None:
        """The rows of old epochs are gone, but what they began with isn't."""
        log, other = self.two()
        opening = OPENING
        for epoch in (1, 2, 3):
            opening = opening.next(None, ())
            for number in range(self.APPENDS if epoch < 3 else 2):
                add(log, [f'start,{epoch}'] * 3)
            here = be_idle(log, ('a', A))
            self.assertTrue(log.roll_over(epoch, here.offset, opening))
        other.prune(3)
        self.assertEqual((log.epochs(), log.opening(1), other.opening(2).epoch), (range(3, 5), OPENING, 2))
        calls: list[Callable[[], object]] = [
            lambda: log.read(2, 0), lambda: log.read(2, 3 * self.APPENDS), lambda: other.read(1, 5),
            lambda: log.read(5, 0),
        ]  # fmt: skip
        for call, epoch in zip(calls, (2, 2, 1, 5)):
            with self.assertRaisesRegex(NoEpoch, f'there is no epoch {epoch}, only 3 to 4'):
                call()
        self.assertEqual(plain_snapshot(log, 2, 0), (4, [], {'a': Holder(A, Promise(3, 6))}, None, Maintenance()))
        self.assertFalse(log.append(2, 3 * self.APPENDS, ['start,1']))
        self.assertEqual(list(log.read(3, 0)), ['start,3'] * 6)
        other.prune(2)
        self.assertEqual(log.epochs(), range(3, 5))
        other.prune(99)
        self.assertEqual((log.epochs(), list(log.read(4, 0))), (range(4, 5), []))
        self.assertEqual(add(log, ['recover,1']), Promise(4, 1))

    def test_a_wait_over_an_end(self) -> None:
        """A wait for an epoch that is over is over."""
        log, other = self.two()
        found = log.snapshot(1, 0)
        self.assertTrue(other.roll_over(1, 0, NEXT))
        for until in Until:
            log.wait(1, 0, found.sessions, until, 60)
