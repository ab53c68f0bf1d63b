"""Tests of members in threads in a cooperative group: a change stops only the work that moves."""
from __future__ import annotations

import threading
import unittest
from collections.abc import Callable, Collection
from types import SimpleNamespace
from typing import Any

from bully import check
from bully.core import Promise, Session
from bully.epochs import Opening, Token
from bully.member import Member
from bully.memory import MemoryLog
from bully.shared_log import Holder
from bully.working import Assignment, Callback, Callbacks, Calls, PartitionCalls, WholeCalls
from ..steps import LONG, OPENING
from ..waiting import PATIENCE, wait_until
from .below import assigned
from .grouped import COOPERATIVE, HEADER, Grouped, Worker
from .threads import Threads


class Cooperative(Grouped):
    """A group of four with three partitions each, as far as its members are there."""

    def test_a_return_stops_what_moves(self) -> None:
        """Of three members with four partitions each, each loses one to the fourth, and works on the others
        meanwhile."""
        self.all_come('abc')
        before = self.owners()
        count = {name: len(worker.said) for name, (_, worker, _) in self.members.items()}
        for _, worker, _ in self.members.values():
            worker.may_stop.clear()
        new = self.come('d')
        wait_until(lambda: all(len(member.assignment().partitions) == 3 for member, _, _ in list(self.members.values())[:3]))  # type: ignore[union-attr]
        self.assertEqual((new.works, self.members['d'][0].assignment()), ({}, None), 'nothing has stopped yet')
        for _, worker, _ in self.members.values():
            worker.may_stop.set()
        wait_until(self.is_shared)
        for name in 'abc':
            _, worker, _ = self.members[name]
            moved = set(before[name]) - set(self.owners()[name])
            self.assertEqual(worker.said[count[name] :], [('revoked', tuple(moved)), ('assigned', ())])
        self.assertEqual([words for words, _ in new.said], ['assigned'])
        self.assertTrue(check('\n'.join([HEADER, *self.log.rows, '']).encode()).is_lawful)

    def test_promises_again(self) -> None:
        """It promises the end of the log with exactly what it works on: again each time that it has stopped more, while
        nothing is appended."""
        worker = self.come('a', 2 * PATIENCE)  # so that it leaves it to the others to append
        wait_until(self.is_shared)
        session, end = self.log.holders['a'].session, Promise(1, len(self.log.rows))
        for number, (name, left) in enumerate((('b', 6), ('c', 4), ('d', 3)), 1):
            assert self.log.acquire(name, Session(8, number), end, LONG)
            wait_until(lambda: len(worker.works) == left)
            wait_until(lambda: self.log.holders['a'] == Holder(session, end, tuple(sorted(worker.works))))

    def test_a_leave_stops_nobody_else(self) -> None:
        self.all_come('abcd')
        said = self.said()
        promised = {name: self.log.holders[name].promise for name in 'abd'}
        worker = self.leave('c')
        wait_until(self.is_shared)
        self.assertEqual(worker.works, {})
        self.assertEqual(self.stopped_since(said), {})
        self.assertEqual({name: self.log.holders[name].promise for name in 'abd'}, promised)

    def test_lost(self) -> None:
        """A lease that isn't sure any more: all is lost, and begun again once the log answers."""
        worker = self.come('a', 1.0)
        wait_until(self.is_shared)
        with self.assertLogs('bully', 'WARNING'):
            self.log.is_silent = True
            wait_until(lambda: worker.said[-1][0] == 'lost')
            self.assertEqual((worker.said[-1][1], worker.works), (tuple(range(12)), {}))
            self.log.is_silent = False
            wait_until(self.is_shared)

    def test_ended_by_itself(self) -> None:
        """Work on one partition that ended by itself starts again, and no other work stops."""
        worker = self.come('a')
        wait_until(self.is_shared)
        rows, member = len(self.log.rows), self.members['a'][0]
        del worker.works[5]
        member.ended([5])
        wait_until(self.is_shared)
        self.assertEqual((worker.said[-1], worker.stopped(), len(self.log.rows)), (('assigned', (5,)), [], rows))

    def test_leads(self) -> None:
        """Nobody leads there: work goes on while another node becomes the coordinator."""
        self.all_come('ad')
        self.assertFalse(any(member.leads for member, _, _ in self.members.values()))

    def test_whole(self) -> None:
        """Callbacks that start and stop all at once: what is left starts again by its token; the same set goes on."""
        told: list[tuple[str, Token, tuple[int, ...]]] = []
        begin = lambda work: told.append(('start', work.token, work.partitions))  # noqa: E731
        end = lambda work: told.append(('stop', work.token, work.partitions))  # noqa: E731
        member, _, _ = self.begin(self.log, 1, start=begin, stop=end)
        wait_until(member.assignment)
        first, everything = self.last_token(), tuple(range(12))
        self.come('b')
        wait_until(lambda: self.members['b'][1].works)
        kept = tuple(sorted(set(everything) - set(self.members['b'][1].works)))
        wait_until(lambda: getattr(member.assignment(), 'token', None) == self.last_token())
        self.assertEqual(told, [('start', first, everything), ('stop', first, everything), ('start', first, kept)])
        self.members['b'][0].leave()
        wait_until(lambda: told[-1] == ('start', self.last_token(), everything))
        self.assertEqual(told[3:], [('stop', first, kept), ('start', self.last_token(), everything)])

    def begin_whole(self, name: str, start: Callback, stop: Callback) -> tuple[Member, threading.Thread]:
        """A member for that node with callbacks for all its work at once."""
        member, _, thread = self.begin(self.log, COOPERATIVE.names.index(name) + 1, start=start, stop=stop)
        return member, thread

    def test_a_stop_that_raises_for_a_start(self) -> None:
        """The set grows, so all of it would start anew; nothing is given back before the lease has ended."""
        started: list[tuple[int, ...]] = []

        def stop(assignment: Assignment) -> None:
            raise KeyError('here')

        self.come('b')
        wait_until(self.is_shared)
        _, thread = self.begin_whole('a', lambda work: started.append(work.partitions), stop)
        wait_until(lambda: started)
        self.members['b'][0].leave()
        self.ends_by(thread, KeyError)
        self.assertEqual((started, set(self.log.holders)), (started[:1], {'a'}))

    def test_a_start_that_raises_for_a_part(self) -> None:
        """A part had to stop, and did. The rest doesn't start again: the member leaves in order."""
        calls: list[str] = []

        def start(assignment: Assignment) -> None:
            calls.append('start')
            if len(calls) > 1:
                raise KeyError('here')

        _, thread = self.begin_whole('a', start, lambda work: calls.append('stop'))
        wait_until(lambda: calls)
        self.come('b')
        self.ends_by(thread, KeyError)
        self.assertEqual((calls[:3], set(self.log.holders)), (['start', 'stop', 'start'], {'b'}))
        wait_until(self.is_shared)

    def test_lost_work(self) -> None:
        """It is the last that a callback was given, though the same set goes on by a later token; and starts again."""
        calls: list[tuple[str, Assignment]] = []
        member, _ = self.begin_whole(
            'a', lambda work: calls.append(('start', work)), lambda work: calls.append(('stop', work))
        )
        wait_until(member.assignment)
        self.come('b')
        wait_until(lambda: self.members['b'][1].works)
        wait_until(lambda: getattr(member.assignment(), 'token', None) == self.last_token())
        member.lose(calls[-1][1])
        wait_until(lambda: len(calls) == 5)
        self.assertEqual([word for word, _ in calls], ['start', 'stop', 'start', 'stop', 'start'])
        self.assertEqual(calls[-1][1].partitions, calls[-2][1].partitions)

    def test_a_part_that_ended(self) -> None:
        """Callbacks that start and stop all at once: all is stopped, and starts again."""
        calls: list[str] = []
        member, _ = self.begin_whole('a', lambda work: calls.append('start'), lambda work: calls.append('stop'))
        wait_until(member.assignment)
        member.ended((0,))
        wait_until(lambda: calls == ['start', 'stop', 'start'])

    def test_reported_twice(self) -> None:
        """Work that the code reported as ended while a callback stopped it: that isn't reported again once it may have
        started anew."""
        worker = self.come('a')
        wait_until(self.is_shared)
        member = self.members['a'][0]
        reports: list[int] = []
        does = member._does
        assert isinstance(does, Callbacks) and isinstance(does.calls, PartitionCalls)
        calls, report, revoked = does.calls, does.calls._report, does.calls._revoked

        def reported(partitions: Collection[int]) -> None:
            reports.extend(partitions)
            report(partitions)

        def revokes(partitions: tuple[int, ...]) -> None:
            revoked(partitions)
            member.ended(partitions)

        calls._report, calls._revoked = reported, revokes
        self.come('b')
        wait_until(self.is_shared)
        wait_until(does._asked.empty)
        self.assertEqual(sorted(reports), worker.stopped())
        self.assertTrue(reports)


class Called(unittest.TestCase):
    """The calls of a member whose work has ended before it asks for more, of which the member hears after that."""

    def setUp(self) -> None:
        self.said: list[tuple[object, ...]] = []
        self.reports: list[Collection[int]] = []
        self.member = SimpleNamespace(sure_until=float('inf'), fail=self.fail, get_stuck=self.fail)
        self.first, self.both = assigned(2, 0, 1), frozenset((0, 1))

    def say(self, word: str) -> Callable[..., None]:
        return lambda *of: self.said.append(
            (word, *(each.partitions if isinstance(each, Assignment) else each for each in of))
        )

    def test_whole(self) -> None:
        for is_lost in (True, False):
            self.said, self.reports = [], []
            work = WholeCalls(self.member, self.reports.append, 'a', self.say('start'), self.say('stop'))
            work.start(self.first, self.both)
            if is_lost:
                work.lose(self.first)
            else:
                work.ended((1,))
            work.start(assigned(3, 0, 1), frozenset())
            self.assertEqual((self.said, self.reports), ([('start', (0, 1)), ('stop', (0, 1))], [self.both]))
            work.start(assigned(4, 0, 1, 5), frozenset((5,)))
            work.start(assigned(4, 0, 1, 5), self.both)
            self.assertEqual(self.said[2:], [('start', (5,)), ('stop', (5,)), ('start', (0, 1, 5))])

    def test_by_partition(self) -> None:
        says = self.say('assigned'), self.say('revoked')
        work = PartitionCalls(self.member, self.reports.append, 'a', *says, None)
        work.start(self.first, self.both)
        work.ended((0,))
        work.start(assigned(3, 0, 1), frozenset())
        work.start(assigned(4, 0, 1), frozenset((0,)))
        wanted = [('assigned', (0, 1), (0, 1)), ('assigned', (1,), ()), ('assigned', (0, 1), (0,))]
        self.assertEqual((self.said, self.reports), (wanted, [{0}]))
        work.lose(self.first)  # of which the work on 1 still goes on
        self.assertEqual((self.said[3:], self.reports[1:]), ([('revoked', (1,))], [{1}]))
        work.ended((0,))
        work.start(assigned(5, 0, 1), frozenset())
        self.assertEqual(self.said[4:], [])

    def test_work_that_raises(self) -> None:
        """It isn't known what goes on, so the lease stays."""
        for log, work in ((MemoryLog(OPENING), Raises(is_early)) for is_early in (True, False)):
            with Member(log, 1, print, print, ttl=1.0) as member, self.assertRaises(KeyError):
                assert isinstance(member._does, Callbacks)
                member._does.calls, work.leave = work, member.leave
                member.run()
            self.assertEqual((work.begun, set(log.holders)), (True, {'1'}))

    def test_what_is_no_collection(self) -> None:
        with Member(MemoryLog(OPENING), 1, print, print) as member, self.assertRaises(TypeError):
            member.ended(1)  # type: ignore[arg-type]


class Raises(Calls):
    """Callbacks whose calls can't be made: that which starts work, or that which stops it."""

    def __init__(self, is_early: bool) -> None:
        self.is_early, self.begun = is_early, False
        self.leave: Callable[[], None] = lambda: None

    def start(self, assignment: Assignment, added: frozenset[int]) -> None:
        self.begun = True
        if self.is_early:
            raise KeyError('here')
        self.leave()

    def stop(self, assignment: Assignment | None, partitions: frozenset[int]) -> None:
        raise KeyError('here')

    def end(self) -> None:
        pass


class Eager(Threads):
    """Callbacks by partition in an eager group."""

    def test_all_stops(self) -> None:
        log, workers = MemoryLog(OPENING), [Worker(), Worker()]
        for node, worker in enumerate(workers, 1):
            given = {'on_assigned': worker.assigned, 'on_revoked': worker.revoked}
            self.begin(log, node, work=given)
            wait_until(lambda: worker.works)  # noqa: B023
        wait_until(lambda: sorted([*workers[0].works, *workers[1].works]) == list(range(6)))
        self.assertEqual(workers[0].said[1], ('revoked', tuple(range(6))))

    def test_kinds_of_work(self) -> None:
        """A member needs one of them."""
        log, call = MemoryLog(OPENING), print
        for given in (
            {}, {'start': call}, {'on_assigned': call}, {'on_assigned': call, 'on_lost': call},
            {'start': call, 'stop': call, 'on_assigned': call, 'on_revoked': call},
        ):  # fmt: skip
            with self.assertRaises(TypeError):
                Member(log, 1, **given)  # type: ignore[arg-type]
