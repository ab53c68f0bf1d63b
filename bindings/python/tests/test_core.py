"""Tests of rebalances and of a member's rules. What is wanted comes from `docs/REBALANCING.md` and `include/bully.h`,
and never from what the library answered."""
from __future__ import annotations

import copy
import ctypes
import pickle
import random
import re
import unittest
from collections.abc import Callable, Sequence
from dataclasses import FrozenInstanceError, replace
from enum import Enum

import bully
from bully import NotLearned, Owned, Replica, Status, check

from bully.core import (
    TTL_MAX, TTL_MIN, Activity, Ask, Begin, Core, CoreOpening, Ending, Lease, Promise, Reason, Request, Seen, Session,
    Stop, StoreAnswer, Until, Wait, Way,
)  # fmt: skip
from bully.driver import Call, Driver, StopWork, WaitForNews
from bully.epochs import Opening
from bully.memory import MemoryLog
from places import ROOT

TWO = 'bully,1,2,2'
ONE = CoreOpening('bully,1,1,1', 7, 1, 22)
FIRST = Session(5, 1)

# What rebalances two nodes that are live and Down, before its plan and after it.
BEFORE = ['recover,1', 'recover,2', 'move,2', *['start,2', 'run,2', 'return,2', 'move,2'] * 2]
AFTER = ['start,2', 'run,2', 'return,2', 'move,2']


def rebalanced(table: str) -> list[str]:
    return [*BEFORE, f'plan,2,{table}', *AFTER]


class Numbers(unittest.TestCase):
    """The numbers of `include/bully.h`."""

    def test_numbers(self) -> None:
        text = (ROOT / 'include' / 'bully.h').read_text()
        named = {name: int(number) for name, number in re.findall(r'\bBULLY_([A-Z_]+)(?: =)? (\d+)\b', text)}
        prefixes: dict[type[Enum], str] = {Ending: 'ENDING_', Until: 'UNTIL_', StoreAnswer: 'STORE_', Way: 'WORK_'}
        for kind, prefix in prefixes.items():
            for number, name in enumerate(kind.__members__, 1):
                self.assertEqual(named[prefix + name], number)
        self.assertEqual((named['TTL_MIN'], named['TTL_MAX']), (TTL_MIN, TTL_MAX))


class Rebalances(unittest.TestCase):
    def test_a_group_of_two(self) -> None:
        with Replica(TWO) as replica:
            self.assertEqual(
                (replica.rebalance([]), replica.is_stable([], 0xFFFF_FFFF), replica.is_stable([1])), ([], True, False)
            )
            self.assertEqual(replica.rebalance({1, 2}), rebalanced('1 2'))
            self.assertEqual(replica.rebalance((2, 1, 2), [2, 1]), rebalanced('2 1'))
            self.assertEqual(replica.rebalance(iter([2, 1]), (0, 1)), rebalanced('2 1'))
            self.assertEqual((replica.rows, replica.owned(1)), (0, None))
            replica.learn(rebalanced('1 2'))
            self.assertEqual([replica.is_stable([1, 2], offset) for offset in (0, 11, 12)], [True, True, False])
            some: list[list[int]] = [[1], [2], []]
            self.assertEqual([replica.is_stable(live) for live in some], [False] * 3)
            self.assertEqual((replica.owned(1), replica.owned(2, 11)), (Owned(12, (0,)), Owned(12, (1,))))
            self.assertEqual((replica.owned(1, 12), replica.owned(2, 0xFFFF_FFFF)), (None, None))

    def test_the_largest_group_keeps_an_owner_that_is_gone_at_node_1(self) -> None:
        header = bully.Setup(bully.NODES_MAX, 2).header()
        with Replica(header) as replica:
            plan = next(row for row in replica.rebalance([1, 1024], [1024, 0]) if row.startswith('plan,'))
            self.assertEqual(plan, 'plan,1024,1024 1')

    def test_any_log_becomes_stable(self) -> None:
        chance = random.Random(1)
        for _ in range(60):
            nodes = chance.randrange(1, 5)
            header = bully.Setup(nodes, chance.randrange(1, 6)).header()
            with Replica(header) as replica:
                rows = self.random_log(replica, chance)
                live = chance.sample(range(1, nodes + 1), chance.randrange(nodes + 1))
                more = replica.rebalance(live)
                self.assertLessEqual(len(more), 11 * nodes)
                replica.learn(more)
                self.assertTrue(replica.is_stable(live, len(rows)))
                for node in range(1, nodes + 1):
                    status = Status.NORMAL if node in live else Status.DOWN
                    self.assertEqual(
                        (replica.status(node), replica.coordinator(node)),
                        (status, max(live) if node in live else None),
                    )
                owned = [replica.owned(node, len(rows)) for node in range(1, nodes + 1)]
                parts = sorted(part for each in owned if each for part in each.partitions)
                self.assertEqual(parts, list(range(replica.partitions)) if live else [])
                self.assertTrue(check(''.join(f'{row}\n' for row in (header, *rows, *more)).encode()).is_lawful)

    def random_log(self, replica: Replica, chance: random.Random) -> list[str]:
        """A lawful log of up to 40 rows, which the replica has learned."""
        rows: list[str] = []
        for _ in range(chance.randrange(40)):
            node = chance.randrange(1, replica.nodes + 1)
            try:
                row = chance.choice([replica.next, replica.next, replica.crash, replica.recover])(node)
            except bully.Refused:
                continue
            if row:
                replica.learn([row])
                rows.append(row)
        return rows

    def test_refusals(self) -> None:
        with Replica(TWO) as replica:
            with self.assertRaises(bully.TableLength):
                replica.rebalance([1], [])  # which isn't None
            for wrong in (-1, 65536):
                with self.assertRaises(ValueError):
                    replica.rebalance([wrong])
                with self.assertRaises(ValueError):
                    replica.is_stable([wrong])
            with self.assertRaises(ValueError):
                replica.owned(1, 0x1_0000_0000)
            self.assertEqual((replica.rows, replica.events), (0, 0))
        calls: list[Callable[[], object]] = [
            lambda: replica.rebalance([0]),
            lambda: replica.is_stable([1]),
            lambda: replica.owned(1),
        ]
        for call in calls:
            with self.assertRaises(bully.Closed):
                call()


class Stories(unittest.TestCase):
    """Stories of a member of a group of one. All times follow from a ttl of 1,000,000 ns."""

    def setUp(self) -> None:
        self.core = Core(ONE, 5, TTL_MIN)

    def tearDown(self) -> None:
        if not self.core.is_closed:
            self.core.close()

    def ask(self, now: int, request: Request, session: Session = Session(0, 0), offset: int = 0) -> None:
        self.assertEqual(self.core.next(now), Ask(request, session, offset))

    def test_is_stable(self) -> None:
        """A session that comes to a stable group is admitted once it has stayed for 10,000; and if another session came
        for its node not long before, for four times as long."""
        with Replica('bully,1,2,1') as replica:
            rows = replica.rebalance([1])
        works, idle, epoch = Lease(1, Session(3, 1), Promise(1, 0)), Promise(1, len(rows)), replace(ONE, epoch=1)
        with Core(replace(epoch, header='bully,1,2,1', rows_max=44), 5, TTL_MIN) as core:
            self.assertFalse(core.is_stable(), 'there is no plan')

            def snapshot(now: int, *leases: Lease, has_request: bool = False) -> bool:
                core.woke()
                self.assertEqual(core.next(now), Ask(Request.SNAPSHOT))
                core.learn(rows[core.offset :])
                core.snapshot_read(now, Seen(1, leases, False, has_request))
                return core.is_stable()

            self.assertTrue(snapshot(10, works))
            self.assertFalse(snapshot(20, works, has_request=True))
            self.assertFalse(snapshot(30), 'a node is up, and nobody holds a lease for it')
            self.assertFalse(snapshot(40, replace(works, promise=idle)), 'it is idle up to the end of the log')
            first, again = Lease(2, Session(4, 1), idle), Lease(2, Session(4, 2), idle)
            self.assertEqual([snapshot(now, works, first) for now in (50, 10_049, 10_050)], [True, True, False])
            self.assertEqual([snapshot(now, works, again) for now in (20_000, 59_999, 60_000)], [True, True, False])

    def test_a_change_is_under_way(self) -> None:
        """Then a node is admitted that came again, and would have to stay for 40,000. To see that, a member needs
        promises."""
        with Replica('bully,1,3,3') as replica:
            rows = replica.rebalance([2, 3])
        end, before = Promise(7, len(rows)), Promise(7, 0)
        own, high = (Lease(node, Session(node, 1), before) for node in (2, 3))
        opening = replace(ONE, header='bully,1,3,3', rows_max=99, node=2, is_cooperative=True)
        with Core(opening, 5, TTL_MIN) as core:

            def snapshot(now: int, session: int, high: Lease, is_leaving: bool = False) -> bool:
                core.woke()
                self.assertEqual(core.next(now), Ask(Request.SNAPSHOT))
                core.learn(rows[core.offset :])
                core.snapshot_read(now, Seen(7, (Lease(1, Session(1, session), end, (), is_leaving), own, high)))
                return core.is_stable()

            self.assertTrue(snapshot(10, 1, high))
            self.assertFalse(core.needs_promises(10), 'the first session is admitted soon')
            self.assertTrue(snapshot(20, 2, high), 'the node that promised the end is down')
            self.assertEqual([core.needs_promises(now) for now in (20, 40_019, 40_020)], [True, True, False])
            self.assertFalse(snapshot(30, 2, replace(high, promise=end)))
            self.assertTrue(snapshot(40, 2, replace(high, promise=end), is_leaving=True))
            self.assertTrue(snapshot(50, 2, high), 'nobody has promised the end any more')

    def test_a_log_is_broken(self) -> None:
        """The exception of the row that isn't learned is kept. What isn't one row changes nothing."""
        with Core(ONE, 5, TTL_MIN) as core:
            core.learn(['recover,1', 'recover,1'])
            assert isinstance(core.fault, NotLearned)
            self.assertEqual((core.fault.cause, core.fault.row, core.ending), (bully.IsUp, 3, Ending.BROKEN))
        with Core(replace(ONE, header='bully,3,1,1,1,clear'), 5, TTL_MIN) as core:
            core.learn(['saw,1,down,-,-,-,-'])
            self.assertEqual((core.ending, core.fault), (Ending.BROKEN, None))
        for wrong in (['recover,1', ''], ['recover,1\r']):
            with self.assertRaises(ValueError):
                self.core.learn(wrong)
        with self.assertRaises(TypeError):
            self.core.learn('recover,1')
        self.assertEqual((self.core.ending, self.core.rows), (None, 0))

    def test_numbers_that_do_not_fit(self) -> None:
        for opening, ttl in ((replace(ONE, epoch=-1), TTL_MIN), (replace(ONE, node=65536), TTL_MIN), (ONE, -1)):
            with self.subTest(opening=opening, ttl=ttl), self.assertRaises(ValueError):
                Core(opening, 5, ttl)
        with self.assertRaises(ValueError):
            Core(ONE, 1 << 64, TTL_MIN)
        with self.assertRaises(bully.TableLength):
            Core(replace(ONE, old=()), 5, TTL_MIN)  # which isn't None
        self.ask(0, Request.SNAPSHOT)
        with self.assertRaises(ValueError):
            self.core.snapshot_read(1, Seen(7, (Lease(65536, FIRST, Promise(7, 0)),)))
        with self.assertRaises(ValueError):
            self.core.next(1 << 64)

    def test_it_is_one(self) -> None:
        copying: list[Callable[[Core], object]] = [copy.copy, copy.deepcopy, pickle.dumps]
        for call in copying:
            with self.assertRaises(TypeError):
                call(self.core)
        self.assertEqual(repr(self.core), '<Core of node 1 in epoch 7, 0 rows>')
        with self.assertRaises(FrozenInstanceError):
            ONE.epoch = 8  # type: ignore[misc]
        self.core.close()
        self.assertEqual((repr(self.core), self.core.is_closed), ('<Core closed>', True))
        calls: list[Callable[[], object]] = [
            lambda: self.core.next(0), self.core.rebalance, self.core.woke, self.core.close, lambda: self.core.offset,
        ]  # fmt: skip
        for closed in calls:
            with self.assertRaises(bully.Closed):
                closed()


class CooperativeStories(unittest.TestCase):
    """Stories of the higher member of a cooperative group of two, with four partitions, of which each node gets two.
    All times follow from a ttl of 1,000,000 ns: a session is admitted once it has stayed for 10,000."""

    OTHER = Session(6, 1)

    def setUp(self) -> None:
        self.core = Core(CoreOpening('bully,1,2,4', 7, 2, 110, None, True), 5, TTL_MIN)
        self.addCleanup(self.core.close)

    def ask(self, now: int, request: Request, session: Session = Session(0, 0), offset: int = 0) -> None:
        self.assertEqual(self.core.next(now), Ask(request, session, offset))

    def snapshot(self, now: int, *leases: Lease, rows: Sequence[str] = ()) -> None:
        self.ask(now, Request.SNAPSHOT)
        self.core.learn(rows)
        self.core.snapshot_read(now, Seen(7, leases))

    def own(self, offset: int, *kept: int) -> Lease:
        return Lease(2, FIRST, Promise(7, offset), kept)

    def append(self, now: int, offset: int) -> list[str]:
        """What it appends now."""
        self.ask(now, Request.APPEND, offset=offset)
        rows = self.core.rebalance()
        self.core.answered(now, StoreAnswer.DONE)
        return rows

    def work_alone(self) -> list[str]:
        """It works on all partitions, by a plan over its node alone. The rows up to that plan."""
        self.snapshot(0)
        self.ask(10, Request.ACQUIRE, FIRST, 0)
        self.core.answered(20, StoreAnswer.DONE)
        self.snapshot(30, self.own(0))
        self.assertEqual(self.core.next(10_029), Wait(1, Until.NEWS, Reason.ADMISSION))
        self.core.woke()
        self.snapshot(10_030, self.own(0))
        rows = self.append(10_040, 0)
        self.snapshot(10_050, self.own(0), rows=rows)
        self.assertEqual(self.core.next(10_060), Begin(self.core.token or 0))
        self.assertEqual(self.core.works(), (0, 1, 2, 3))
        self.assertEqual(self.core.last_table, (2, 2, 2, 2))
        return rows

    def test_a_change_stops_what_moves(self) -> None:
        rows, core = self.work_alone(), self.core
        end, comes = len(rows), Lease(1, self.OTHER, Promise(7, len(rows)))
        core.woke()
        self.snapshot(10_070, self.own(0), comes)
        self.assertEqual([core.is_affected(node) for node in (1, 2)], [False, False], 'the other is not admitted')
        self.assertEqual(core.next(10_080).__class__, Wait)
        core.woke()
        self.snapshot(20_070, self.own(0), comes)
        self.assertEqual([core.is_affected(node) for node in (1, 2)], [False, True])
        self.assertEqual(core.next(20_080), Stop())
        stopping = [partition for partition, each in enumerate(core.activities()) if each is Activity.STOPPING]
        self.assertEqual(
            (len(stopping), core.works()), (2, (0, 1, 2, 3)), 'the fewest, and it works there up to the end'
        )
        going = tuple(partition for partition in range(4) if partition not in stopping)
        core.stopped_on(stopping[0])
        self.assertEqual(core.next(20_090), Wait(229_920, Until.NEWS, Reason.STOP))
        core.stopped_on(stopping[1])
        self.assertEqual(core.works(), going)
        self.ask(20_100, Request.PROMISE, FIRST, end)
        core.answered(20_110, StoreAnswer.DONE)
        more = self.append(20_120, end)
        self.snapshot(20_130, self.own(end, *going), comes, rows=more)
        self.assertEqual((core.last_table or ()).count(1), 2)
        self.assertEqual(
            [(core.last_table or ())[partition] for partition in going], [2, 2], 'what it keeps stays its own'
        )
        self.assertEqual(
            (core.next(20_140), core.works()), (Begin(core.token or 0), going), 'by the new token from now on'
        )
        self.assertEqual(core.next(20_150).__class__, Wait)

    def test_a_death_stops_nothing(self) -> None:
        """Nobody loses anything by it, so nobody promises anything, and the work that stays goes on."""
        core = self.core
        rows = self.work_alone()
        with Replica('bully,1,2,4') as replica:
            replica.learn(rows)
            both = replica.rebalance([1, 2])
        core.woke()
        lease = Lease(1, self.OTHER, Promise(7, len(rows)))
        self.snapshot(10_070, self.own(0), lease, rows=both)
        self.assertEqual(core.next(10_080), Stop())
        core.stopped()
        self.assertEqual(core.next(10_090), Begin(core.token or 0))
        going = core.works()
        self.assertEqual(len(going), 2)
        core.woke()
        self.snapshot(20_000, self.own(0))
        self.assertEqual(core.is_affected(2), False)
        more = self.append(20_010, len(rows) + len(both))
        self.snapshot(20_020, self.own(0), rows=more)
        self.assertEqual((core.next(20_030), core.works()), (Begin(core.token or 0), (0, 1, 2, 3)))

    def test_others_keep_what_is_left_to_them(self) -> None:
        """It waits for a node that loses something, until that has promised the end and keeps nothing that moves."""
        core, works = self.core, Lease(1, self.OTHER, Promise(7, 0))
        with Replica('bully,1,2,4') as replica:
            rows = replica.rebalance([1])
            replica.learn(rows)
            replica.learn(replica.rebalance([1, 2]))
            owners = replica.last_table or ()
        left, moves = ([partition for partition, owner in enumerate(owners) if owner == node] for node in (1, 2))
        self.assertEqual((len(left), len(moves)), (2, 2))
        end = len(rows)
        self.snapshot(0, works, rows=rows)
        self.ask(10, Request.ACQUIRE, FIRST, end)
        core.answered(20, StoreAnswer.DONE)
        promised = replace(works, promise=Promise(7, end))
        waits = (
            (30, works, Wait(10_000 - 10, Until.NEWS, Reason.ADMISSION)),
            (10_100, works, Wait(239_900, Until.PROMISES, Reason.OTHERS)),
            (10_200, replace(promised, kept=(0, 1, 2, 3)), Wait(239_800, Until.PROMISES, Reason.OTHERS)),
            (10_300, replace(promised, kept=(*left, moves[0])), Wait(239_700, Until.PROMISES, Reason.OTHERS)),
        )
        for now, lease, wait in waits:
            self.snapshot(now, lease, self.own(end))
            self.assertEqual(core.next(now + 10), wait)
            core.woke()
        for now, kept in ((10_400, ()), (10_500, (left[1],)), (10_600, tuple(left))):
            self.snapshot(now, replace(promised, kept=kept), self.own(end))
            self.ask(now + 10, Request.APPEND, offset=end)
            core.answered(now + 20, StoreAnswer.REFUSED)

    def test_one_that_leaves(self) -> None:
        """It waits until that one has left, and goes on with all that it works on."""
        core, rows = self.core, self.work_alone()
        with Replica('bully,1,2,4') as replica:
            replica.learn(rows)
            both = replica.rebalance([1, 2])
        core.woke()
        lease, end = Lease(1, self.OTHER, Promise(7, len(rows))), len(rows) + len(both)
        self.snapshot(10_070, self.own(0), lease, rows=both)
        self.assertEqual(core.next(10_080), Stop())
        core.stopped()
        self.assertEqual(core.next(10_090), Begin(core.token or 0))
        self.assertEqual(core.next(10_100), Wait(239_910, Until.ANY_IDLE, Reason.STABLE))
        core.woke()
        self.snapshot(10_110, self.own(0), replace(lease, is_leaving=True))
        self.assertEqual(([core.is_affected(node) for node in (1, 2)], core.is_stable()), ([True, False], False))
        self.assertEqual(core.next(10_120), Wait(239_890, Until.PROMISES, Reason.OTHERS))
        core.woke()
        self.snapshot(10_130, self.own(0))
        self.append(10_140, end)
        self.assertEqual(len(core.works()), 2)

    def test_kept_partitions_are_counted(self) -> None:
        """As many as the leases keep: in C, which has them in one array."""
        self.ask(0, Request.SNAPSHOT)
        raw = bully.core.RAW_LEASE(5, 1, 7, 0, 1, 2)
        kept = (ctypes.c_uint16 * 3)(0, 1, 2)
        for count in (0, 1, 3):
            with self.assertRaises(bully.BadKept):
                self.core._call('snapshot_read', 1, 7, ctypes.byref(raw), 1, kept, count, 0, 0)
        self.core._call('snapshot_read', 1, 7, ctypes.byref(raw), 1, kept, 2, 0, 0)


class Leaves(unittest.TestCase):
    """The higher member of an eager group of two, with four partitions. Both work; then the other one leaves."""

    OTHER, OWN = Lease(1, Session(6, 1), Promise(7, 0)), Lease(2, FIRST, Promise(7, 0))

    def setUp(self) -> None:
        self.core = Core(CoreOpening('bully,1,2,4', 7, 2, 110), 5, TTL_MIN)
        self.addCleanup(self.core.close)
        with Replica('bully,1,2,4') as replica:
            self.rows = replica.rebalance([1, 2])

    def snapshot(self, now: int, *leases: Lease, rows: Sequence[str] = ()) -> None:
        self.core.woke()
        self.assertEqual(self.core.next(now), Ask(Request.SNAPSHOT, Session(0, 0), 0))
        self.core.learn(rows)
        self.core.snapshot_read(now, Seen(7, leases))

    def test_all_stop_at_once(self) -> None:
        core, end = self.core, len(self.rows)
        self.snapshot(0)
        self.assertEqual(core.next(10), Ask(Request.ACQUIRE, FIRST, 0))
        core.answered(20, StoreAnswer.DONE)
        self.snapshot(30, self.OTHER, self.OWN, rows=self.rows)
        self.assertEqual(core.next(40), Begin(core.token or 0))
        self.snapshot(50, self.OTHER, self.OWN)
        self.assertEqual(core.next(60), Wait(249_950, Until.ANY_IDLE, Reason.STABLE))
        self.snapshot(70, replace(self.OTHER, is_leaving=True), self.OWN)
        self.assertEqual(core.next(80), Stop())
        core.stopped()
        self.assertEqual(core.next(90), Ask(Request.PROMISE, FIRST, end))
        core.answered(100, StoreAnswer.DONE)
        self.assertEqual(core.next(110), Wait(249_900, Until.ALL_IDLE, Reason.OTHERS))
        self.snapshot(120, replace(self.OWN, promise=Promise(7, end)))
        self.assertEqual(core.next(130), Ask(Request.APPEND, Session(0, 0), end))


class Groups(unittest.TestCase):
    """Groups over a log in memory whose clock stands, so that no lease ends."""

    def run_until_stable(self, drivers: list[Driver], now: int) -> int:
        """Runs all, each until it waits, and until each of them works. The time then."""
        for _ in range(200):
            waiting = 0
            for driver in drivers:
                step = driver.next(now := now + 1)
                while isinstance(step, Call):
                    driver.answered(now, step.ask, step.call())
                    step = driver.next(now := now + 1)
                if isinstance(step, StopWork):
                    driver.ended(step.partitions)
                elif isinstance(step, WaitForNews):
                    waiting += step.reason is Reason.STABLE
                    driver.woke()
                    now += TTL_MIN // 50
            if waiting == len(drivers) and all(driver.core.work for driver in drivers):
                return now
        raise AssertionError(f'not stable after {[driver.end for driver in drivers]}')

    def works(self, cores: list[Core]) -> tuple[int, ...]:
        owned = [core.owned() for core in cores]
        return tuple(sorted(part for each in owned if each for part in each.partitions))

    def test_a_group_works_and_goes_on_without_its_highest(self) -> None:
        log = MemoryLog(Opening.first('bully,1,3,5', ('a', 'b', 'c'), 500), lambda: 0)
        drivers = [Driver(log, log.opening(), node, node, TTL_MIN) for node in (1, 2, 3)]
        cores = [driver.core for driver in drivers]
        now = self.run_until_stable(drivers, 0)
        self.assertEqual(self.works(cores), (0, 1, 2, 3, 4))
        tokens = [core.token for core in cores]
        log.release('c', log.holders['c'].session)
        drivers.pop()
        cores.pop().close()
        for driver in drivers:
            driver.woke()
        for _ in range(3):  # (a renewal and a snapshot each)
            now = self.run_until_stable(drivers, now)
        self.assertEqual(self.works(cores), (0, 1, 2, 3, 4))
        self.assertTrue(all(core.token and core.token > (tokens[0] or 0) for core in cores))
        self.assertEqual({core.state(3).status for core in cores}, {Status.DOWN})
        self.assertTrue(check(''.join(f'{row}\n' for row in (log.opening().header, *log.rows)).encode()).is_lawful)
        for core in cores:
            core.close()
