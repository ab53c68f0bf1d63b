"""Tests of what is shown of a cooperative group: who may work on each partition, what moves, and for whom others
wait."""
from __future__ import annotations

import random
import re
from unittest import mock

from bully import observer, view
from bully.commands import status
from bully.clocks import SECOND
from bully.core import TTL_MIN, Promise, Session
from bully.epochs import Opening, Token
from bully.maintenance import Maintenance
from bully.memory import MemoryLog
from bully.observer import Observer, coming_table
from bully.replica import Replica
from bully.shared_log import Holder
from bully.view import Doing
from ..steps import LONG
from ..waiting import wait_until
from .grouped import COOPERATIVE, EAGER, HEADER, Grouped, Viewed, share_out

MOVED = {'b', 'c'}  # who has stopped already


class Slowly(Grouped):
    """Members that run, one of which stops slowly."""

    def slowed(self, name: str = 'a') -> dict[str, tuple[int, ...]]:
        """Node d comes, while the work of that node doesn't stop. What each of the others owned before."""
        self.all_come('abc')
        before = self.works()
        self.members[name][1].may_stop.clear()
        self.come('d')
        wait_until(lambda: 'd' in self.log.holders and all(self.has_promised(each) for each in 'abc' if each != name))
        return before

    def has_promised(self, name: str) -> bool:
        """Whether it has promised the end of the log, keeping a part of what it owned."""
        holder = self.log.holders[name]
        return holder.promise == Promise(1, len(self.log.rows)) and len(holder.kept) == 3

    def test_a_slow_stop(self) -> None:
        """That node is named, with the partition that it loses, and no other."""
        before = self.slowed()
        shown = self.viewed(self.log)
        wait_until(lambda: shown.show().waits)
        group = shown.show()
        self.assertEqual((list(group.waits), list(group.stops)), (['a'], ['a']))
        (moving,) = group.stops['a']
        self.assertIn(moving, before['a'])
        self.assertEqual(self.seen_doing(group, Doing.MOVING), {moving: ('a', 'd')})
        gone = {each for name in MOVED for each in set(before[name]) - set(self.works()[name])}
        self.assertEqual(self.seen_doing(group, Doing.WAITING), {each: (None, 'd') for each in gone})
        working = {
            each: (name, name) for name, works in before.items() for each in works if each not in {moving, *gone}
        }
        self.assertEqual(self.seen_doing(group, Doing.WORKING), working)
        self.assertEqual((group.moves, group.is_stable, group.is_well, group.mode), (3, False, False, 'cooperative'))
        wait_until(lambda: shown.show().waits['a'] > 0.3)
        self.members['a'][1].may_stop.set()
        wait_until(lambda: self.is_shared('abcd'))
        group = shown.show()
        self.assertEqual((group.waits, group.stops, group.moves, group.is_well), ({}, {}, 0, True))
        self.assertEqual({each.token for each in group.partitions}, {self.last_token()})
        self.assertEqual(set(self.seen_doing(group, Doing.WORKING)), set(range(12)))

    def test_the_first_look(self) -> None:
        """A view knows for whom a change waits for which somebody has stopped, and on which partitions that stops, when
        it reads the log for the first time, whether or not a member reports to it; since when, only if one does."""
        self.slowed()
        other = self.members['b'][0]
        wait_until(lambda: [name for name, _ in other.waits._waits[1]] == ['a'])
        for told in (None, other.waits):
            group = self.viewed(self.log, told).show()
            self.assertEqual((list(group.waits), [len(each) for each in group.stops.values()]), (['a'], [1]))
            self.assertEqual(group.waits['a'] > 0, told is not None)

    def test_status(self) -> None:
        """In words of the command, which reads again until it has seen for long enough who came."""
        self.slowed()
        said: list[str] = []
        with mock.patch.object(status, 'store_of') as store, mock.patch('builtins.print', said.append):
            store().open.return_value, store().readers_warning = self.log, ''
            self.assertEqual(status.status(mock.Mock(json=False, watch=None)), 1)
        group = self.viewed(self.log, self.members['b'][0].waits).show()
        (moving,) = group.stops['a']
        lines = said[0].splitlines()
        told = rf', coordinator c, cooperative; 3 of 12 partitions move; not stopped yet: a on {moving} for [0-9.]+ s'
        self.assertRegex(lines[0], f'^epoch 1, .*{told}$')
        gone = ' '.join(map(str, self.seen_doing(group, Doing.WAITING)))
        self.assertEqual(
            sorted(re.sub(' +', ' ', line) for line in lines[-3:]),
            sorted(['state owner then partitions', f'moving a d {moving}', f'waiting - d {gone}']),
        )

    def test_drained_slowly(self) -> None:
        """Who is to leave loses all; the others lose nothing, and aren't named."""
        self.all_come('abcd')
        worker, said = self.members['c'][1], self.said()
        worker.may_stop.clear()
        owned, works = self.works()['c'], self.works()
        self.assertTrue(self.log.set_maintenance(Maintenance(frozenset('c')), None))
        shown = self.viewed(self.log)
        wait_until(lambda: shown.show().waits)
        group = shown.show()
        self.assertEqual((list(group.waits), group.stops, group.moves), (['c'], {'c': owned}, 3))
        self.assertEqual(set(self.seen_doing(group, Doing.MOVING)), set(owned))
        self.assertEqual(self.works(), works)
        worker.may_stop.set()
        wait_until(lambda: self.is_shared('abd'))
        self.assertEqual(self.stopped_since(said), {'c': list(owned)})


class Stored(Viewed):
    """What a store says is shown, whoever takes steps."""

    def setUp(self) -> None:
        self.log = MemoryLog(COOPERATIVE)
        self.sessions = share_out(self.log, *'abcd')
        self.end = Promise(1, len(self.log.rows))
        self.token = Token.of(1, 1 + next(offset for offset, row in enumerate(self.log.rows) if row.startswith('plan')))

    def owned(self, group: view.GroupView) -> dict[str | None, list[int]]:
        """The partitions by who may work on them."""
        return {owner: [each for each in range(12) if group.owners[each] == owner] for owner in set(group.owners)}

    def test_a_death_stops_nobody(self) -> None:
        """All others go on by the last plan, also those that aren't heard of; nobody is waited for."""
        shown = self.viewed(self.log)
        before = self.owned(shown.show())
        self.log.release('c', self.sessions['c'])
        group = shown.show()
        self.assertEqual(self.owned(group), {**{name: before[name] for name in 'abd'}, None: before['c']})
        self.assertEqual((group.waits, group.moves, group.is_stable, group.is_changing), ({}, 3, False, True))
        waiting = self.seen_doing(group, Doing.WAITING)
        self.assertEqual((set(waiting), {new for _, new in waiting.values()}), (set(before['c']), {'a', 'b', 'd'}))
        self.assertEqual({each.token for each in group.partitions if each.owner}, {self.token})

    def test_what_a_promise_keeps(self) -> None:
        """The holder may work on that, by a token that isn't known; on nothing else, up to the next plan."""
        shown = self.viewed(self.log)
        before = self.owned(shown.show())
        keeps = before['a'][1:]
        self.assertTrue(self.log.promise('a', self.sessions['a'], self.end, tuple(keeps)))
        group = shown.show()
        self.assertEqual(self.owned(group), {**before, 'a': keeps, None: before['a'][:1]})
        self.assertEqual({group.partitions[each].token for each in keeps}, {None})
        self.assertEqual((group.is_stable, group.waits, group.moves), (False, {}, 0), 'it gets that back')
        self.assertEqual(self.seen_doing(group, Doing.WAITING), {before['a'][0]: (None, 'a')})

    def test_who_has_promised_since(self) -> None:
        """A view to which a member reports names nobody who has stopped since then; nor for another offset of the log,
        nor another session."""
        late, owned = view.ChangeWaits(), self.owned(self.viewed(self.log).show())
        self.assertTrue(self.log.set_maintenance(Maintenance(frozenset('b')), None))
        holders = {name: self.log.holders[name] for name in 'ab'}
        late.see(self.end, holders)
        self.assertEqual(list(self.viewed(self.log, late).show().waits), ['b', 'a'])
        self.assertTrue(self.log.promise('a', self.sessions['a'], self.end, tuple(owned['a'])))
        self.assertEqual(list(self.viewed(self.log, late).show().waits), ['b'])
        for other in (Promise(1, self.end.offset + 1), Promise(2, self.end.offset)):
            late.see(other, self.log.holders)
            self.assertEqual(list(self.viewed(self.log, late).show().waits), ['b'])
        late.see(self.end, {'c': Holder(Session(7, 7), Promise())})
        self.assertEqual(list(self.viewed(self.log, late).show().waits), ['b'])

    def test_who_comes_again(self) -> None:
        """A view that has seen a node come again and again doesn't expect it; but once somebody has stopped for it, the
        view shows what it gets, and for whom that waits."""
        log = MemoryLog(COOPERATIVE)
        sessions, end, shown = share_out(log, *'abc'), Promise(1, len(log.rows)), self.viewed(log)
        for number in range(1, 7):
            log.release('d', Session(8, number - 1))
            self.assertTrue(log.acquire('d', Session(8, number), end, LONG))
            group = shown.show()
        self.assertEqual((group.is_stable, group.waits, group.moves), (True, {}, 0))
        self.assertTrue(log.promise('b', sessions['b'], end))
        group = shown.show()
        self.assertEqual((group.is_stable, list(group.waits), group.moves), (False, ['a', 'c'], 3))
        self.assertEqual([each.coming for each in group.partitions].count('d'), 3)

    def test_a_request(self) -> None:
        """All work stops: those that own something are waited for, until they keep nothing."""
        sessions, shown = self.sessions, self.viewed(self.log)
        self.assertTrue(self.log.ask(COOPERATIVE.requested(COOPERATIVE.settings), 1))
        group, owned = shown.show(), self.owned(shown.show())
        self.assertEqual((list(group.waits), group.moves), (list('abcd'), 0))
        self.assertEqual({each.doing for each in group.partitions}, {Doing.STOPPING})
        self.assertEqual(group.stops, {name: tuple(owned[name]) for name in 'abcd'})
        for name in 'bcd':
            self.assertTrue(self.log.promise(name, sessions[name], self.end))
        self.assertTrue(self.log.promise('a', sessions['a'], self.end, (owned['a'][0],)))
        group = shown.show()
        self.assertEqual((list(group.waits), group.stops), (['a'], {'a': (owned['a'][0],)}))
        self.assertTrue(self.log.promise('a', sessions['a'], self.end))
        self.assertEqual((shown.show().waits, set(shown.show().owners)), ({}, {None}))

    def test_who_owns_nothing(self) -> None:
        """Nobody waits for such a node, whatever changes, nor for a process that the group doesn't know; in an eager
        group all do."""
        for opening, late in ((COOPERATIVE, ['b', 'c', 'd']), (EAGER, ['a', 'b', 'c', 'd', 'unknown'])):
            few = Opening.first('bully,1,4,3', 'abcd', is_cooperative=opening.is_cooperative)
            log = MemoryLog(few)
            share_out(log, *'abcd')
            shown = self.viewed(log)
            self.assertTrue(log.acquire('unknown', Session(8, 1), Promise(1, len(log.rows)), LONG))
            with log._changed:  # it works
                log.leases['unknown'] = log.leases['unknown']._replace(holder=Holder(Session(8, 1), Promise()))
            idle = {name for name in 'abcd' if name not in shown.show().owners}
            self.assertTrue(log.ask(few.requested(few.settings), 1))
            wanted = [
                name for name in (*'abcd', 'unknown') if not (opening.is_cooperative and name in {*idle, 'unknown'})
            ]
            self.assertEqual((len(idle), list(shown.show().waits)), (1, wanted))
            self.assertEqual(len(wanted), len(late))

    def test_a_full_log(self) -> None:
        """Without room for another rebalance, 11 rows for each of four nodes, no table is coming, and all work
        stops."""
        rows: list[str] = []
        with Replica(HEADER) as replica:
            while len(rows) < 88:
                rows += replica.rebalance([1, 2])
                replica.learn(rows[replica.rows :])
        for room in (44, 43):
            log = MemoryLog(Opening(1, HEADER, COOPERATIVE.names, len(rows) + room, is_cooperative=True))
            self.assertTrue(all(log.acquire(name, Session(9, 1), Promise(1, 0), LONG) for name in 'ab'))
            log.rows.extend(rows)
            group = self.viewed(log).show()
            has_room = room == 44
            self.assertEqual((list(group.waits), group.is_stable), ([] if has_room else ['a', 'b'], has_room))
            doing = {Doing.WORKING} if has_room else {Doing.STOPPING}
            self.assertEqual(({each.doing for each in group.partitions}, group.moves), (doing, 0))

    def test_eager(self) -> None:
        """There all work stops, and it isn't known what moves."""
        log = MemoryLog(EAGER)
        sessions = share_out(log, *'abc')
        shown = self.viewed(log, ttl=TTL_MIN / SECOND)
        self.assertEqual((shown.show().mode, shown.show().is_well), ('eager', True))
        end = Promise(1, len(log.rows))
        self.assertTrue(log.acquire('d', Session(8, 1), end, LONG))
        wait_until(lambda: not shown.show().is_stable)
        self.assertTrue(log.promise('b', sessions['b'], end))
        group = shown.show()
        self.assertEqual((list(group.waits), group.moves), (['a', 'c'], 0))
        stopping = self.seen_doing(group, Doing.STOPPING)
        self.assertEqual((len(stopping), set(stopping.values())), (8, {('a', None), ('c', None)}))
        self.assertEqual(set(self.seen_doing(group, Doing.WAITING).values()), {(None, None)})
        self.assertRegex(group.more_text, '^; not idle yet: a for [0-9.]+ s, c for [0-9.]+ s$')

    def test_who_is_affected(self) -> None:
        """By the proved rules those are affected, in any state, that lose something by the coming table; or all that
        own something, if none is coming."""
        choice, seen = random.Random(7), set()
        for _ in range(300):
            log = MemoryLog(COOPERATIVE)
            first, then = (choice.sample('abcd', choice.randint(1, 4)) for _ in range(2))
            sessions = share_out(log, *sorted(first))
            for name in set(first) - set(then):
                log.release(name, sessions[name])
            for name in set(then) - set(first):
                self.assertTrue(log.acquire(name, Session(8, 1), Promise(1, len(log.rows)), LONG))
            log.maintenance = Maintenance(frozenset(choice.sample('abcd', choice.choice([0, 0, 1, 2]))))
            if choice.random() < 0.2:
                self.assertTrue(log.ask(COOPERATIVE.requested(COOPERATIVE.settings), 1))
            with Observer(COOPERATIVE, TTL_MIN / SECOND) as seeing:
                for now in (SECOND, 2 * SECOND):  # after which all that hold a lease are admitted
                    with mock.patch.object(observer, 'nanoseconds_of_boot', return_value=now):
                        seeing.see(log.snapshot(1, seeing.rows))
                coming, last = coming_table(seeing, COOPERATIVE), seeing.last_table or ()
                losers = {old for old, new in zip(last, coming or [0] * 12) if old != new}
                self.assertEqual(
                    [seeing.is_affected(node) for node in range(1, 5)], [node in losers for node in range(1, 5)]
                )
                seen.add((coming is None, len(losers)))
        self.assertLessEqual({(False, 0), (False, 1), (False, 2), (True, 1), (True, 4)}, seen)
