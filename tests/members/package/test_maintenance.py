"""Tests of the maintenance that an operator sets: nodes that are drained, and groups that are paused."""
from __future__ import annotations

import logging
import random
import threading
import unittest
from collections.abc import Callable
from dataclasses import replace
from functools import partial
from unittest import mock

from bully import adapter, operations, settings
from bully.core import Ask, Lease, Promise, Request, Seen, Session, Until
from bully.epochs import Opening, Token
from bully.group import Setup
from bully.history import timed
from bully.maintenance import Killed, Maintenance
from bully.member import Member, NotInGroup
from bully.memory import MemoryLog
from bully.shared_log import Holder, Snapshot, Unanswered
from ..steps import LONG, OPENING
from ..waiting import PATIENCE, wait_until
from .threads import Threads, Troubled

A, B, C, D = (Session(number, 1) for number in (1, 2, 3, 4))
END = Promise(1, 30)
WORKS, IDLE = Promise(1, 7), END


class Values(unittest.TestCase):
    """Maintenance, and what members are told of it."""

    def test_text(self) -> None:
        some = Maintenance(frozenset(['b', 'größer', '"'])), Maintenance(
            frozenset('a'), {"'": A, 'b': Session(2**64 - 1, 7)}
        )
        more = Maintenance(leaving={'b': A, 'ö': B}), Maintenance(
            killed={'ö': Killed(2**64 - 1, 3, 1_790_000_000_123)}
        )
        for maintenance in (Maintenance(), Maintenance(sessions={}), *more, *some):
            self.assertEqual(Maintenance.parse(maintenance.text()), maintenance)
        self.assertEqual(Maintenance().text(), '')
        for text in (
            'x',
            '[]',
            '{}',
            '7',
            '{"drained": 7}',
            '{"drained": [], "paused": []}',
            '{"drained": [], "paused": {"a": [1]}}',
            '{"drained": [], "leaving": ["a"]}',
            '{"drained": [], "leaving": {"a": 1}}',
            '{"drained": [], "killed": ["a"]}',
            '{"drained": [], "killed": {"a": [1, 2]}}',
        ):
            with self.subTest(text=text), self.assertRaises((ValueError, KeyError, TypeError, AttributeError)):
                Maintenance.parse(text)

    def test_who_is_to_leave(self) -> None:
        """Drained nodes; in a pause only those that aren't live."""
        drained, paused = Maintenance(frozenset('b')), Maintenance(frozenset('b'), {})
        told = [
            maintenance.takes_out(name, is_live)
            for maintenance in (drained, paused)
            for name in 'ab'
            for is_live in (False, True)
        ]
        self.assertEqual(told, [False, False, True, True, False, False, True, False])
        self.assertEqual(paused.among({'a', 'c'}), Maintenance(sessions={}))

    def test_who_is_known_to_leave(self) -> None:
        """Drained nodes, and sessions that have noted it; nobody in a pause."""
        some = Maintenance(frozenset('b'), leaving={'a': A, 'c': C})
        for name, session, is_known in (
            ('a', A, True),
            ('a', D, False),
            ('b', B, True),
            ('c', C, True),
            ('d', D, False),
        ):
            with self.subTest(name=name, session=session):
                self.assertIs(some.is_known_to_leave(name, session), is_known)
                self.assertFalse(replace(some, sessions={}).is_known_to_leave(name, session))
        self.assertEqual(some.among({'a', 'b'}), Maintenance(frozenset('b'), leaving={'a': A}))
        after = some.with_leaving('d', {'a': A, 'c': D, 'd': D})
        self.assertEqual(after, Maintenance(frozenset('b'), leaving={'a': A, 'd': D}), 'session C is gone')

    def test_whose_work_was_killed(self) -> None:
        """A note stays until another process acts for its node, or the group doesn't have that any more."""
        first, second = Killed(A.process, 1, 10), Killed(B.process, 2, 20)
        some = Maintenance(frozenset('b')).with_killed('a', first, {'a': A}).with_killed('b', second, {'a': A, 'b': B})
        self.assertEqual(some, Maintenance(frozenset('b'), killed={'a': first, 'b': second}))
        again = Killed(B.process, 3, 30)
        self.assertEqual(some.with_killed('b', again, {'b': B}).killed, {'a': first, 'b': again}, 'nobody acts for a')
        self.assertEqual(some.with_killed('b', again, {'a': D, 'b': B}).killed, {'b': again})
        self.assertEqual(some.among({'b'}).killed, {'b': second})

    def test_who_leaves_is_shown(self) -> None:
        """A member is shown who else is known to leave, and its own lease as that of a session that stays."""
        there = {'a': Holder(A, WORKS), 'b': Holder(B, IDLE), 'c': Holder(C, WORKS)}
        own, leaves, stays = Lease(1, A, WORKS), Lease(2, B, IDLE, is_leaving=True), Lease(3, C, WORKS)
        for maintenance in (Maintenance(frozenset('ab')), Maintenance(leaving={'a': A, 'b': B, 'c': D})):
            self.assertEqual(self.seen(there, maintenance), Seen(1, (own, leaves, stays), False, False))

    def seen(
        self,
        holders: dict[str, Holder],
        maintenance: Maintenance,
        up: frozenset[int] = frozenset({1, 2, 3}),
        has_request: bool = False,
    ) -> Seen:
        """What node a is told, in a group of a, b and c."""
        requested = OPENING.after(None) if has_request else None
        return adapter.seen_of(
            Snapshot(1, (), holders, requested, maintenance), END, 'a', {'a': 1, 'b': 2, 'c': 3}, up.__contains__
        )

    def test_no_pause(self) -> None:
        """Without a pause a member is told everything as it is."""
        there = {'b': Holder(B, IDLE), 'a': Holder(A, WORKS)}
        wanted = Lease(1, A, WORKS), Lease(2, B, IDLE)
        self.assertEqual(self.seen(there, Maintenance(frozenset('c'))), Seen(1, wanted, False, False))
        self.assertEqual(
            self.seen({**there, 'x': Holder(C, IDLE)}, Maintenance(), has_request=True), Seen(1, wanted, True, True)
        )

    def test_a_pause(self) -> None:
        """All that are up in the log work, but for its own lease; nobody else is there, no settings are requested, and
        nothing can be rebalanced."""
        paused = Maintenance(sessions={'a': A, 'b': B, 'c': C})
        others = Lease(2, B, Promise()), Lease(3, C, Promise())
        works = Seen(1, (Lease(1, A, WORKS), *others), True, False)
        for there in (
            {'b': Holder(B, WORKS), 'c': Holder(C, WORKS)},
            {'c': Holder(C, WORKS)},
            {'b': Holder(D, IDLE)},
            {'x': Holder(D, IDLE)},
        ):
            with self.subTest(there=there):
                self.assertEqual(self.seen({'a': Holder(A, WORKS), **there}, paused, has_request=True), works)
        self.assertEqual(self.seen({'b': Holder(B, WORKS)}, paused), Seen(1, others, True, False), 'its lease was lost')
        self.assertEqual(
            self.seen({'a': Holder(D, IDLE)}, paused),
            Seen(1, (Lease(1, D, IDLE, is_leaving=True), *others), True, False),
            'it came in the pause',
        )
        down = self.seen({'a': Holder(A, WORKS), 'c': Holder(C, WORKS)}, paused, up=frozenset({1, 2}))
        self.assertEqual(down, Seen(1, (Lease(1, A, WORKS), others[0]), True, False), 'nobody comes in the pause')
        self.assertEqual(
            self.seen({}, Maintenance(sessions={}), up=frozenset({2})),
            Seen(1, (Lease(2, Session(0, 0), Promise()),), True, False),
        )

    def test_a_change_that_was_under_way(self) -> None:
        """If a member that was there has promised the end, it can't go on: all are told everything as it is."""
        there = {'a': Holder(A, WORKS), 'b': Holder(B, IDLE)}
        for maintenance in (Maintenance(sessions={'a': A, 'b': B}), Maintenance(sessions={'b': B})):
            self.assertEqual(
                self.seen(there, maintenance, has_request=True),
                Seen(1, (Lease(1, A, WORKS), Lease(2, B, IDLE)), False, True),
            )
        self.assertTrue(self.seen(there, Maintenance(sessions={'a': A, 'b': C})).has_unknown, 'this session came later')
        keeps = {**there, 'b': Holder(B, IDLE, (1, 4))}
        self.assertEqual(
            self.seen(keeps, Maintenance(sessions={'a': A, 'b': B})),
            Seen(1, (Lease(1, A, WORKS), Lease(2, B, IDLE, (1, 4))), False, False),
            'it has stopped what it does not keep',
        )

    def test_who_comes_in_a_pause(self) -> None:
        """A member that has acquired its lease since the pause began is shown that as one that leaves, so it isn't
        admitted; one that was there before as it is."""
        there = {'a': Holder(A, WORKS), 'b': Holder(B, WORKS)}
        before: tuple[tuple[dict[str, Session], bool], ...] = (
            ({'a': A, 'b': B}, False), ({'b': B}, True), ({'a': C, 'b': B}, True), ({}, True),
        )  # fmt: skip
        for sessions, is_late in before:
            own = self.seen(there, Maintenance(sessions=sessions)).leases[0]
            self.assertEqual((own.session, own.is_leaving), (A, is_late), sessions)

    def test_who_needs_promises(self) -> None:
        """A member whose rules do; in a pause each one."""
        for needs in (False, True):
            core = mock.Mock(needs_promises=mock.Mock(return_value=needs))
            for is_paused in (False, True):
                found = Snapshot(1, (), {}, None, Maintenance(sessions={} if is_paused else None))
                self.assertEqual(adapter.needs_promises(core, found, 7), needs or is_paused)
            core.needs_promises.assert_called_with(7)

    def test_leases_of_others(self) -> None:
        """A lease has the number that its node has now, and says who is known to leave now, also if its holder is the
        same object as before."""
        leases, holders = adapter.Leases(), {'a': Holder(A, WORKS)}
        for numbers in ({'a': 1}, {'a': 2}):
            for is_leaving in (False, True, True, False):
                leaving, expected = frozenset('a' * is_leaving), Lease(numbers['a'], A, WORKS, (), is_leaving)
                self.assertEqual(leases.of(holders, numbers, leaving), (expected,))

    def test_leases_of_other_sessions(self) -> None:
        """A lease is that of the session that holds it now, with what that has promised, whatever is the same as
        before."""
        leases = adapter.Leases()
        for holder in (
            Holder(A, WORKS),
            Holder(B, WORKS),
            Holder(B, IDLE),
            Holder(B, IDLE, (3,)),
            Holder(A, IDLE, (3,)),
        ):
            self.assertEqual(leases.of({'a': holder}, {'a': 1}), (Lease(1, *holder),))

    def test_leases_in_any_order(self) -> None:
        """They are those of the nodes that hold leases now, in rising order, whatever was there before."""
        choice, some_numbers = random.Random(1), [dict(zip(names, range(1, 5))) for names in ('abcd', 'dca', 'bdc')]
        promised: list[tuple[Promise, tuple[int, ...]]] = [(WORKS, ()), (IDLE, ()), (IDLE, (2,)), (IDLE, (1, 3))]
        some_holders = [Holder(session, *each) for session in (A, B) for each in promised]
        leases, numbers = adapter.Leases(), some_numbers[0]
        holders: dict[str, Holder] = {}
        leaving: frozenset[str] = frozenset()
        for _ in range(3000):
            kind, name = choice.choice(['holds', 'goes', 'leaves', 'numbers', 'nothing']), choice.choice('abcdx')
            if kind == 'holds':
                holders = {**holders, name: choice.choice(some_holders)}
            elif kind == 'goes':
                holders = {each: holder for each, holder in holders.items() if each != name}
            elif kind == 'leaves':
                leaving ^= {name}
            elif kind == 'numbers':
                numbers = choice.choice(some_numbers)
            there = [Lease(numbers[each], *holders[each], each in leaving) for each in holders if each in numbers]
            there.sort(key=lambda lease: lease.node)
            self.assertEqual(leases.of(holders, numbers, leaving), tuple(there))

    def test_waits(self) -> None:
        """An unknown process must go before all can be idle, so nobody waits until all are; and a member that needs no
        promises waits for none."""
        for until in Until:
            self.assertEqual(adapter.awaited(until, Seen(1), True), until)
            self.assertEqual(adapter.awaited(until, Seen(1), False), Until.NEWS)
            expected = Until.NEWS if until is Until.ALL_IDLE else until
            self.assertEqual(adapter.awaited(until, Seen(1, (), True), True), expected)

    def test_times(self) -> None:
        """Each row is shown with the time of its append, as far as that is kept."""
        rows, times = ['bully,1,3,6', 'recover,1', 'start,1', 'recover,2', 'recover,3'], {
            0: 1_700_000_000_007,
            2: None,
            3: -1,
        }
        told = ['', '2023-11-14T22:13:20.007Z', '2023-11-14T22:13:20.007Z', '', '1969-12-31T23:59:59.999Z']
        self.assertEqual(timed(rows, times), [f'{time},{row}' for time, row in zip(told, rows)])
        self.assertEqual(timed(rows, {}), [f',{row}' for row in rows])


class Drains(unittest.TestCase):
    """How nodes are drained, and groups paused."""

    def setUp(self) -> None:
        self.log = MemoryLog(OPENING)

    def test_drain(self) -> None:
        for name in '12':
            self.assertEqual(operations.drain(self.log, name, False), self.log.maintenance)
        with self.assertRaisesRegex(operations.LastNode, '3 is the last node left that is not drained'):
            operations.drain(self.log, '3', False)
        calls: list[Callable[[], object]] = [
            lambda: operations.drain(self.log, '4', True),
            lambda: operations.undrain(self.log, '4'),
        ]
        for call in calls:
            with self.assertRaises(NotInGroup):
                call()
        self.assertEqual(self.log.maintenance, Maintenance(frozenset('12')))
        self.assertEqual(operations.drain(self.log, '3', True).drained, frozenset('123'))
        self.assertEqual(operations.drain(self.log, '3', False).drained, frozenset('123'), 'it is so already')
        operations.undrain(self.log, '1')
        self.assertEqual(operations.undrain(self.log, '1'), Maintenance(frozenset('23')))

    def test_note_that_one_leaves(self) -> None:
        """Only if its session is live beside another one, that isn't known yet, and the group isn't paused."""
        note = partial(adapter.note_leaving, self.log, '2')
        self.assertTrue(self.log.acquire('2', B, Promise(1, 0), LONG))
        note(B)
        self.assertEqual(self.log.maintenance, Maintenance(), 'it is alone')
        self.assertTrue(self.log.acquire('1', A, Promise(1, 0), LONG))
        note(C)
        self.assertEqual(self.log.maintenance, Maintenance(), 'this session is not live')
        operations.pause(self.log)
        note(B)
        self.assertEqual(operations.resume(self.log), Maintenance())
        operations.drain(self.log, '2', False)
        note(B)
        self.assertEqual(operations.undrain(self.log, '2'), Maintenance())
        note(B)
        adapter.note_leaving(self.log, '1', A)
        self.assertEqual(self.log.maintenance, Maintenance(leaving={'1': A, '2': B}))
        self.log.release('2', B)
        self.assertTrue(self.log.acquire('3', C, Promise(1, 0), LONG))
        adapter.note_leaving(self.log, '3', C)
        self.assertEqual(self.log.maintenance, Maintenance(leaving={'1': A, '3': C}))

    def test_the_last_one_that_is_there(self) -> None:
        self.assertTrue(self.log.acquire('2', B, Promise(1, 0), LONG))
        self.assertTrue(self.log.acquire('unknown', C, Promise(1, 0), LONG))
        with self.assertRaises(operations.LastNode):
            operations.drain(self.log, '2', False)
        self.assertEqual(operations.drain(self.log, '1', False).drained, frozenset('1'))

    def test_pause(self) -> None:
        """It notes which nodes were live when it began."""
        self.assertTrue(self.log.acquire('2', B, Promise(1, 0), LONG))
        operations.drain(self.log, '3', False)
        self.assertEqual(operations.pause(self.log), Maintenance(frozenset('3'), {'2': B}))
        self.log.release('2', B)
        self.assertEqual(operations.pause(self.log).sessions, {'2': B})
        self.assertEqual(operations.resume(self.log), Maintenance(frozenset('3')))
        self.assertEqual(operations.resume(self.log), Maintenance(frozenset('3')))

    def test_names_that_are_gone(self) -> None:
        self.log.maintenance = Maintenance(frozenset({'2', 'x'}), {'x': A})
        self.assertEqual(operations.drain(self.log, '1', False), Maintenance(frozenset('12'), {'x': A}))

    def test_at_the_same_time(self) -> None:
        """Somebody else sets maintenance between the snapshot and the change."""
        set_maintenance, others = self.log.set_maintenance, ['1', '2']

        def slow(maintenance: Maintenance, before: Maintenance | None) -> bool:
            if others:
                self.log.maintenance = Maintenance(self.log.maintenance.drained | {others.pop()})
            return set_maintenance(maintenance, before)

        setattr(self.log, 'set_maintenance', slow)
        self.assertEqual(operations.drain(self.log, '3', True).drained, frozenset('123'))
        setattr(self.log, 'set_maintenance', lambda maintenance, before: False)
        with self.assertRaises(Unanswered):
            operations.undrain(self.log, '3')

    def test_no_epoch_ends_in_a_pause(self) -> None:
        operations.pause(self.log)
        with self.assertRaisesRegex(operations.NotEnded, 'the group is paused'):
            operations.resize(self.log, settings.Settings(Setup(1, 4), ('a',)), PATIENCE)
        self.assertEqual((self.log.epoch, self.log.requested), (1, None))


class Maintained(Threads):
    """Members in threads, while nodes are drained, and the group is paused."""

    def setUp(self) -> None:
        patch = mock.patch.object(logging.getLogger('bully'), 'warning')  # of who isn't answered
        patch.start()
        self.addCleanup(patch.stop)
        self.log = Troubled(OPENING)
        self.members: dict[int, tuple[Member, list[str], threading.Thread]] = {}

    def begin_members(self, *nodes: int, ttl: float = 2.0) -> None:
        for node in nodes:
            self.members[node] = self.begin(self.log, node, ttl)

    def owners(self) -> dict[int, int]:
        """How many partitions each owns that may work, if all of them are owned by one token."""
        owned = {node: member.assignment() for node, (member, _, _) in self.members.items()}
        there = {node: work for node, work in owned.items() if work is not None}
        is_whole = sorted(each for work in there.values() for each in work.partitions) == list(range(6))
        return (
            {node: len(work.partitions) for node, work in there.items()}
            if is_whole and len({work.token for work in there.values()}) == 1
            else {}
        )

    def become_stable(self, *nodes: int) -> None:
        """These own all partitions by one token, and no others, and were told to begin."""
        wait_until(lambda: list(self.owners()) == list(nodes))
        wait_until(lambda: all(self.members[node][1][-1:] == [f'start {self.token(node)}'] for node in nodes))

    def token(self, node: int) -> Token | None:
        return getattr(self.members[node][0].assignment(), 'token', None)

    def plans(self) -> int:
        return sum(row.startswith('plan') for row in self.log.rows)

    # A drained node.

    def test_a_drained_node(self) -> None:
        """It leaves in one change, its process stays and does nothing, and comes back as another session once that is
        over."""
        self.begin_members(1, 2, 3)
        self.become_stable(1, 2, 3)
        before, plans, (member, told, thread) = self.log.holders['2'].session, self.plans(), self.members[2]
        operations.drain(self.log, '2', False)
        self.become_stable(1, 3)
        wait_until(lambda: member.is_drained)
        self.assertEqual(
            (self.plans(), '2' in self.log.holders, thread.is_alive(), told[-1][:4]), (plans + 1, False, True, 'stop')
        )
        rows = len(self.log.rows)
        self.log.pass_renewals('1')
        self.assertEqual((len(self.log.rows), member.assignment(), member.sure_until), (rows, None, 0.0))
        group = self.viewed(self.log).show()
        self.assertEqual(
            ([node.live_text for node in group.nodes], group.is_well), (['yes', 'no, drained', 'yes'], True)
        )
        operations.undrain(self.log, '2')
        self.become_stable(1, 2, 3)
        self.assertFalse(member.is_drained)
        self.assertNotEqual(self.log.holders['2'].session.process, before.process, 'no session is there twice')

    def stop_at_once(self, change: Callable[[], object]) -> None:
        """The others stop while the work of node 2 still stops, and the group is rebalanced once, after that."""
        released = threading.Event()
        released.set()
        self.begin_members(1)
        self.members[2] = self.begin(self.log, 2, stop=lambda _: released.wait(PATIENCE))
        self.addCleanup(released.set)
        self.begin_members(3)
        self.become_stable(1, 2, 3)
        plans = self.plans()
        released.clear()
        change()
        wait_until(lambda: all(self.members[node][1][-1].startswith('stop') for node in (1, 3)))
        self.assertEqual((self.plans(), '2' in self.log.holders), (plans, True))
        released.set()
        self.become_stable(1, 3)
        self.assertEqual(self.plans(), plans + 1)

    def test_a_drain_is_one_round(self) -> None:
        self.stop_at_once(lambda: operations.drain(self.log, '2', False))

    def test_a_leave_is_one_round(self) -> None:
        self.stop_at_once(lambda: self.members[2][0].leave())
        self.assertEqual(list(self.log.maintenance.leaving), ['2'])

    def test_a_leave_in_a_pause(self) -> None:
        """The others work on by the same token."""
        self.begin_members(1, 2)
        self.become_stable(1, 2)
        operations.pause(self.log)
        told = self.members[1][1][:]
        self.members[2][0].leave()
        wait_until(lambda: '2' not in self.log.holders)
        self.log.pass_renewals('1')
        self.assertEqual((self.members[1][1], self.log.maintenance.leaving), (told, {}))
        self.assertIsNotNone(self.members[1][0].assignment())

    def test_a_process_that_begins_drained(self) -> None:
        """It acquires no lease, and ends if it is told to."""
        operations.drain(self.log, '2', False)
        self.begin_members(1, 2)
        self.become_stable(1)
        member, told, thread = self.members[2]
        wait_until(lambda: member.is_drained)
        member.leave()
        thread.join(PATIENCE)
        self.assertEqual((thread.is_alive(), told, 'recover,2' in self.log.rows), (False, [], False))

    def test_its_name_is_gone(self) -> None:
        """It ends as any does whose node isn't in the group any more."""
        operations.drain(self.log, '2', False)
        self.begin_members(1, 2)
        self.become_stable(1)
        wait_until(lambda: self.members[2][0].is_drained)
        operations.resize(self.log, settings.Settings(Setup(2, 6), ('1', '3')), PATIENCE)
        self.ends_by(self.members[2][2], NotInGroup)
        self.become_stable(1)

    def test_over_epochs(self) -> None:
        """It stays drained, and goes on in the current epoch by its number there."""
        self.begin_members(1, 2, 3)
        self.become_stable(1, 2, 3)
        operations.drain(self.log, '2', False)
        self.become_stable(1, 3)
        operations.resize(self.log, settings.Settings(Setup(3, 6), ('2', '1', '3')), PATIENCE)
        self.become_stable(1, 3)
        self.assertEqual((self.log.epoch, self.members[2][0].is_drained), (2, True))
        operations.undrain(self.log, '2')
        self.become_stable(1, 2, 3)
        self.assertEqual((self.members[2][0].node, self.log.epoch), (1, 2))

    def test_all_are_drained(self) -> None:
        """The last one appends the crash of all, and nobody works until one is taken back."""
        self.begin_members(1, 3)
        self.become_stable(1, 3)
        for node in (3, 1):
            operations.drain(self.log, str(node), True)
            wait_until(lambda: self.members[node][0].is_drained)
        self.assertEqual((self.log.holders, self.log.rows[-1][:5]), ({}, 'crash'))
        operations.undrain(self.log, '1')
        self.become_stable(1)

    # A pause.

    def test_a_change_under_way(self) -> None:
        """A member that has promised to be idle when the pause begins can't go on, so that change is finished first,
        and the next one waits."""
        is_over = threading.Event()
        self.addCleanup(is_over.set)
        is_over.set()
        self.members[1] = self.begin(self.log, 1, 2.0, stop=lambda work: is_over.wait())
        self.begin_members(2)
        self.become_stable(1, 2)
        is_over.clear()
        self.begin_members(3)
        wait_until(lambda: '3' in self.log.holders and self.log.holders['2'].promise == Promise(1, len(self.log.rows)))
        operations.pause(self.log)
        rows = len(self.log.rows)
        is_over.set()
        self.become_stable(1, 2, 3)
        self.assertGreater(len(self.log.rows), rows)
        after = self.log.rows[:]
        self.log.let_die('3')
        self.log.pass_renewals('1')
        self.assertEqual(self.log.rows, after)
        operations.resume(self.log)
        self.become_stable(1, 2)

    def test_a_pause_hides_a_request(self) -> None:
        """A request to resize waits, and so does a drain; a node that isn't there yet doesn't come."""
        self.begin_members(1, 2)
        self.become_stable(1, 2)
        operations.pause(self.log)
        self.assertTrue(self.log.ask(OPENING.requested(settings.Settings(Setup(3, 12), OPENING.names)), 1))
        for name in '23':
            operations.drain(self.log, name, False)
        self.begin_members(3)
        wait_until(lambda: self.members[3][0].is_drained)
        rows = self.log.rows[:]
        self.log.pass_renewals('12')
        self.assertEqual((self.log.rows, self.log.epoch, set(self.owners())), (rows, 1, {1, 2}))
        operations.resume(self.log)
        wait_until(lambda: self.log.epoch == 2 and self.members[2][0].is_drained)
        member = self.members[1][0]
        wait_until(lambda: len(getattr(member.assignment(), 'partitions', ())) == 12)

    def test_lost_work(self) -> None:
        """A worker that fails in a pause is begun again by the same token, and a member leaves if it is told to."""
        self.begin_members(1, 3)
        self.become_stable(1, 3)
        member, told, thread = self.members[3]
        operations.pause(self.log)
        work = member.assignment()
        shown, _, _ = member._shown
        assert work is not None and shown is not None
        begun = f'start {work.token}'
        wait_until(lambda: told[-1] == begun)
        count = len(told)
        member.lose(shown)
        wait_until(lambda: len(told) >= count + 2 and told[-1] == begun and member.assignment())
        self.assertEqual(told[count - 1 : count + 2], [begun, f'stop {work.token}', begun])
        rows = self.log.rows[:]
        member.leave()
        thread.join(PATIENCE)
        self.assertFalse(thread.is_alive())
        self.log.pass_renewals('1')
        self.assertEqual((self.log.rows, set(self.log.holders)), (rows, {'1'}))
