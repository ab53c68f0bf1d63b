"""Tests of replicas. What is wanted comes from `docs/FORMATS.md`, `docs/ALGORITHM.md`, `docs/NODE.md` and
`include/bully.h`."""
from __future__ import annotations

import copy
import pickle
import random
import unittest
from collections.abc import Callable, Iterable, Sequence
from typing import Any

import bully
from bully import Call, CallKind, NotLearned, Replica, Setup, State, Status, Want, check
from .replicas import ELECTION_OF_THREE, ELECTION_OF_TWO, Member, shown, take_turns
from .traces import LARGEST, TWO, log_of, text_of


class Elections(unittest.TestCase):
    """Groups of replicas over a list of rows: what they append is what `docs/ALGORITHM.md` has them do, row by row."""

    def group(self, header: str, nodes: int) -> list[Member]:
        """A member for each node, which recovers and has turns until all rest."""
        log: list[str] = []
        members = [Member(header, log, node + 1) for node in range(nodes)]
        for member in members:
            self.assertTrue(member.append(member.read().recover(member.node)))
        take_turns(*members)
        return members

    def expect(
        self, member: Member, rows: list[str], token: int, planner: int, table: Sequence[int], up: Sequence[int]
    ) -> None:
        """The log has these rows and is lawful; each of these nodes is Normal by this plan, and the others are Down."""
        self.assertEqual(member.log, rows)
        replica = member.read()
        header = Setup(replica.nodes, replica.partitions).header()
        self.assertEqual(str(check(text_of(header, rows))), f'lawful {len(rows)}')
        self.assertEqual((replica.rows, replica.events), (len(rows), len(rows)))
        self.assertEqual((replica.token, replica.planner, replica.last_table), (token, planner, table))
        self.assertTrue(rows[token - 1].startswith(f'plan,{planner},'))
        for node in range(1, replica.nodes + 1):
            seen = (replica.status(node), replica.coordinator(node), replica.task(node))
            self.assertEqual(seen, (Status.NORMAL, planner, table) if node in up else (Status.DOWN, None, None))

    def test_three(self) -> None:
        for member in self.group('bully,1,3,7', 3):
            self.expect(member, ELECTION_OF_THREE, 25, 3, (1, 1, 1, 2, 2, 3, 3), [1, 2, 3])

    def test_behind_others(self) -> None:
        """A row that was made before another one came to stand in the log isn't appended, and is made anew."""
        log: list[str] = []
        first, second = (Member('bully,1,2,3', log, node) for node in (1, 2))
        stale = first.read().recover(1)
        self.assertTrue(second.append(second.read().recover(2)))
        self.assertFalse(first.append(stale))
        self.assertTrue(first.append(first.read().recover(1)))
        take_turns(first, second)
        self.assertEqual(str(check(text_of('bully,1,2,3', log))), f'lawful {len(log)}')


class Replicas(unittest.TestCase):
    """What a replica learns and shows."""

    def test_new(self) -> None:
        with Replica(TWO.header()) as replica:
            self.assertEqual(repr(replica), '<Replica of 2 nodes, 0 rows>')
            self.assertEqual(shown(replica)[:8], [0, 0, None, None, None, 2, 3, False])
            for node in (1, 2):
                self.assertEqual(replica.state(node), State(node, Status.DOWN, None, None, Want.NOTHING, None, 0))
                self.assertEqual((replica.up(node), replica.task(node), replica.next(node)), ((), None, None))
        self.assertTrue(replica.is_closed)
        self.assertEqual(repr(replica), '<Replica closed>')

    def test_state(self) -> None:
        """What a node shows at places of the election of two."""
        with Replica('bully,1,2,3') as replica:
            self.assertEqual(replica.learn(ELECTION_OF_TWO[:3]), 3)
            asking = Call(CallKind.ARE_YOU_UP, 2, False)
            self.assertEqual(replica.state(1), State(1, Status.ELECTION, None, None, Want.AWAIT, asking, 0))
            self.assertEqual((replica.next(1), replica.next(2)), (None, 'run,1'))
            replica.learn(ELECTION_OF_TWO[3:13])
            self.assertEqual(replica.state(1), State(1, Status.REORGANIZATION, 2, 2, Want.NOTHING, None, 1))
            self.assertEqual((replica.up(1), replica.up(2)), ((), (1,)))
            seen = (replica.status(2), replica.coordinator(2), replica.halter(2), replica.wants(2), replica.call(2))
            self.assertEqual(seen, (Status.REORGANIZATION, 2, 2, Want.MOVE, None))
            replica.learn(ELECTION_OF_TWO[13:14])
            self.assertEqual((replica.wants(2), replica.next(2), replica.token), (Want.PLAN, 'plan,2,1 1 2', None))
            replica.learn(ELECTION_OF_TWO[14:15])
            self.assertEqual((replica.token, replica.planner, replica.last_table), (15, 2, (1, 1, 2)))
            self.assertEqual((replica.task(1), replica.task(2)), (None, (1, 1, 2)))
            self.assertEqual((replica.generation(1), replica.generation(2)), (1, 0))

    def test_ways_to_tell_rows(self) -> None:
        ways: list[Iterable[str | bytes]] = [
            ELECTION_OF_TWO,
            tuple(row.encode() for row in ELECTION_OF_TWO),
            (row + '\n' for row in ELECTION_OF_TWO),
            [b'recover,1\n', 'recover,2\n', b'start,1', *ELECTION_OF_TWO[3:]],
        ]
        for number, rows in enumerate(ways):
            with self.subTest(number=number), Replica(b'bully,1,2,3') as replica:
                self.assertEqual((replica.learn(rows), replica.learn([]), replica.token), (19, 0, 15))

    def test_ways_to_tell_headers(self) -> None:
        headers: list[str | bytes] = ['bully,1,2,3', 'bully,1,2,3\n', b'bully,1,2,3', b'bully,1,2,3\n']
        for header in headers:
            with self.subTest(header=header), Replica(header) as replica:
                self.assertEqual((replica.nodes, replica.partitions, replica.keeps), (2, 3, False))

    def test_largest(self) -> None:
        """Room grows by what the library says that it wants."""
        with Replica(LARGEST.header()) as replica:
            replica.learn([replica.recover(1024)])
            while replica.token is None:
                replica.learn([replica.next(1024) or ''])
            self.assertEqual(replica.rows, 1 + 1 + 3 * 1023 + 1 + 1 + 1)
            self.assertEqual((replica.token, replica.last_table), (replica.rows, (1024,) * 4096))
            replica.learn(log_of('recover,1023', 'move,1024', 'call,1023', 'check,1024'))
            while replica.wants(1024) is not Want.PLAN:
                replica.learn([replica.next(1023) or replica.next(1024) or ''])
            self.assertEqual(replica.up(1024), (1023,))
            self.assertEqual(replica.next(1024), f'plan,1024,{" ".join(["1024"] * 2048 + ["1023"] * 2048)}')
            self.assertEqual(replica.task(1024), (1024,) * 4096)

    def test_full(self) -> None:
        """A log has room for 1,000,000 events."""
        with Replica('bully,1,2,1') as replica:
            replica.learn(['recover,1', 'crash,1'] * 499_999 + ['recover,2', 'move,2'])
            self.assertEqual((replica.events, replica.next(1)), (1_000_000, None))
            for offer in (replica.next, replica.crash, replica.recover, replica.check, replica.timeout, replica.drop):
                with self.subTest(offer=offer.__name__), self.assertRaises(bully.Full):
                    offer(2)

    def test_too_many_rows(self) -> None:
        """A log has 1,000,000 rows at most, claims too."""
        with Replica('bully,1,1,1') as replica:
            replica.learn(['recover,1'] + ['saw,1,election,-'] * 999_999)
            self.assertEqual((replica.rows, replica.events), (1_000_000, 1))
            with self.assertRaises(NotLearned) as caught:
                replica.learn(['anything', 'else'])
            refused = caught.exception
            self.assertEqual((refused.cause, refused.taken, refused.row), (bully.TooManyRows, 0, 1_000_002))
            with self.assertRaises(bully.Full):
                replica.next(1)  # no row is given that the log has no room for, also if its rows aren't all events


class ReplicaFaults(unittest.TestCase):
    """Each exception of a replica's other calls, which change nothing then."""

    def expect(self, replica: Replica, fault: type, *calls: Callable[[], object]) -> None:
        for number, call in enumerate(calls):
            before = None if replica.is_closed else shown(replica)
            with self.subTest(fault=fault.__name__, number=number), self.assertRaises(fault):
                call()
            self.assertEqual(None if replica.is_closed else shown(replica), before)

    def of_node(self, replica: Replica) -> list[Callable[[Any], object]]:
        """All calls that take a node."""
        offers = [replica.next, replica.crash, replica.recover, replica.check, replica.timeout, replica.drop]
        parts = [replica.status, replica.coordinator, replica.halter, replica.wants, replica.call, replica.generation]
        return [*offers, *parts, replica.state, replica.up, replica.task]

    def test_open(self) -> None:
        with self.assertRaises(bully.BadHeader) as caught:
            Replica('\u00e9')
        self.assertEqual((caught.exception.row, caught.exception.status), (1, 50))
        for wrong in (None, 7, TWO, ['bully,1,2,3']):
            with self.subTest(wrong=wrong), self.assertRaises(TypeError):
                Replica(wrong)  # type: ignore[arg-type]

    def test_garbage(self) -> None:
        """Bytes at random are no header, and no rows."""
        choice = random.Random(1)
        with Replica('bully,1,2,3') as replica:
            for _ in range(1000):
                garbage = bytes(choice.randrange(256) for _ in range(choice.randrange(40)))
                with self.assertRaises(bully.BadHeader):
                    Replica(garbage)
                with self.assertRaises((NotLearned, ValueError)):
                    replica.learn([garbage])
            self.assertEqual(replica.rows, 0)

    def test_nodes(self) -> None:
        with Replica('bully,1,2,3') as replica:
            replica.learn(ELECTION_OF_TWO)
            for call in self.of_node(replica):
                self.expect(replica, bully.BadNode, *[lambda node=node: call(node) for node in (0, 3, 1024, 65_535)])
                self.expect(
                    replica, ValueError, *[lambda node=node: call(node) for node in (-1, 65_537, 2**32 + 1, 10**30)]
                )
                self.expect(replica, TypeError, *[lambda node=node: call(node) for node in ('1', 1.0, None, [1])])

    def test_wrong_kinds(self) -> None:
        with Replica('bully,1,2,3') as replica:
            self.expect(replica, TypeError, lambda: copy.copy(replica), lambda: copy.deepcopy(replica))
            self.expect(replica, TypeError, lambda: pickle.dumps(replica))

    def test_closed(self) -> None:
        replica = Replica('bully,1,2,3')
        replica.close()
        for call in self.of_node(replica):
            self.expect(replica, bully.Closed, lambda: call(1))
        self.expect(
            replica, bully.Closed, replica.close, lambda: replica.learn(['recover,1']), lambda: replica.learn([])
        )
        for name in ('rows', 'events', 'token', 'planner', 'last_table', 'nodes', 'partitions', 'keeps'):
            self.expect(replica, bully.Closed, lambda: getattr(replica, name))
        with self.assertRaises(bully.Closed):
            with replica:
                replica.recover(1)

    def test_exception(self) -> None:
        """It goes from process to process as it is."""
        with Replica('bully,1,2,3') as replica, self.assertRaises(NotLearned) as caught:
            replica.learn(['recover,1', 'recover,1'])
        refused = pickle.loads(pickle.dumps(caught.exception))
        self.assertEqual((refused.taken, refused.row, refused.cause, refused.status), (1, 3, bully.IsUp, 4))
        self.assertEqual(str(refused), "row 3: The node recovers, but isn't Down")
