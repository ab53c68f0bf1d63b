"""Tests of rows that a replica learns: as `check` judges them."""
from __future__ import annotations

import random
import unittest
from collections.abc import Iterable, Sequence

import bully
from bully import NotLearned, Refused, Replica, Setup, Status, check
from places import ROOT
from .replicas import Member, shown
from .traces import text_of


def judged(header: str | bytes, rows: Iterable[str | bytes]) -> str:
    """What becomes of rows that are learned one by one, in the words of a verdict."""
    with Replica(header) as replica:
        for row in rows:
            try:
                replica.learn([row])
            except NotLearned as refused:
                differs = refused.cause is bully.RowDiffers
                return f'differs {refused.row}' if differs else f'refused {refused.row} {refused.cause.__name__}'
        return f'lawful {replica.events}'


class Learning(unittest.TestCase):
    """A row is learned if `check` takes it, and else it is told why not."""

    def expect(self, replica: Replica, rows: Sequence[str | bytes], taken: int, cause: type[bully.BullyError]) -> None:
        """So many of the rows are learned, and the next one isn't, for this cause, however often it is told."""
        before = replica.rows
        with self.assertRaises(NotLearned) as caught:
            replica.learn(rows)
        refused = caught.exception
        self.assertEqual((refused.taken, refused.cause, refused.status), (taken, cause, cause.status))
        self.assertEqual((refused.row, replica.rows), (before + taken + 2, before + taken))
        self.assertIs(type(refused.__cause__), cause)
        self.assertIn(f'row {refused.row}: ', str(refused))
        seen = shown(replica)
        for again in (rows[taken:], rows[taken : taken + 1]):
            with self.assertRaises(NotLearned) as caught:
                replica.learn(again)
            self.assertEqual((caught.exception.taken, caught.exception.cause), (0, cause))
        self.assertEqual(shown(replica), seen)

    def test_goes_on(self) -> None:
        """What comes before a refused row is learned, and nothing behind it; then others are learned in its place."""
        with Replica('bully,1,2,3') as replica:
            rows = ['recover,1', 'start,1', 'run,1', 'recover,2', 'run,1']
            self.expect(replica, rows, 2, bully.CalleeDown)
            self.assertIs(replica.status(2), Status.DOWN)
            self.assertEqual(replica.learn(['recover,2', 'run,1']), 2)
            self.expect(replica, ['run,1'], 0, bully.NoCall)
            self.assertEqual((replica.learn(['return,1']), replica.rows), (1, 5))

    def test_bad_rows(self) -> None:
        """What is no row, also where it is the first of those that are told."""
        wrong: list[str | bytes] = [
            ' ', 'saw', 'recover', 'recover,', 'recover,1,', ' recover,1', 'recover,1 ', 'Recover,1', 'recover;1',
            'recover,+1', 'bully,1,2,3', 'plan,1,1 1', 'plan,1,1 1 3', 'start,1,are-you-up,2', '\u00e9', '\ud800',
            b'\xff', b'recover,1\x00', '"recover,1', '"', '""', 'recover,1"', '\ufeffrecover,1',
            b'\xef\xbb\xbfrecover,1', 'recover,1\x0b', 'recover\u20281',
        ]  # fmt: skip
        for row in wrong:
            with self.subTest(row=row), Replica('bully,1,2,3') as replica:
                self.expect(replica, [row, 'recover,1'], 0, bully.BadRow)
                self.expect(replica, ['recover,2', row, 'recover,1'], 1, bully.BadRow)

    def test_no_rows(self) -> None:
        """What isn't exactly one row is refused before anything is learned."""
        with Replica('bully,1,2,3') as replica:
            wrong_rows: list[str | bytes] = [
                '', '\n', 'recover,2\n\n', 'recover,2\r\n', 'recover,2\r', '\nrecover,2', 'recover,2\nstart,2', b'a\rb',
                b'',
            ]  # fmt: skip
            for row in wrong_rows:
                for rows in ([row], ['recover,1', row], [row, 'recover,1']):
                    with self.subTest(rows=rows), self.assertRaisesRegex(ValueError, 'is not exactly one row$'):
                        replica.learn(rows)
            for wrong in ('recover,1', b'recover,1', None, 7, ['recover,1', None], ['recover,1', 7], [['recover,1']]):
                with self.subTest(wrong=wrong), self.assertRaises(TypeError):
                    replica.learn(wrong)  # type: ignore[arg-type]
            self.assertEqual(replica.rows, 0)

    def test_spoiled(self) -> None:
        """A lawful log with another byte somewhere is learned as far as `check` takes it."""
        log = (ROOT / 'examples' / 'told.csv').read_bytes().splitlines()
        for seed in range(500):
            choice = random.Random(seed)
            place = choice.randrange(1, len(log))
            byte = choice.randrange(len(log[place]))
            other = choice.choice(b'0123456789,- "abcdefghijklmnopqrstuvwxyz\x00\xff')
            spoiled = [*log]
            spoiled[place] = log[place][:byte] + bytes([other]) + log[place][byte + 1 :]
            with self.subTest(seed=seed):
                self.agree(spoiled)

    def agree(self, log: list[bytes]) -> None:
        """A replica takes the log as `check` does, whose faults of form come before any verdict."""
        seen = judged(log[0], log[1:])
        try:
            self.assertEqual(str(check(b'\n'.join([*log, b'']))), seen)
        except bully.TraceFault as fault:
            number, name = int(seen.split()[1]), type(fault).__name__
            self.assertTrue(
                seen == f'refused {fault.row} {name}' or number < fault.row and not seen.startswith('lawful'), seen
            )


class Walk:
    """Members that append at random what their replicas offer, and a replica that watches the log."""

    def __init__(self, seed: int) -> None:
        self.choice = random.Random(seed)
        nodes = self.choice.randint(1, 6)
        weights = tuple(self.choice.randint(1, 3) for _ in range(nodes)) if seed % 2 else ()
        self.header = Setup(nodes, self.choice.randint(1, 9), weights=weights, keeps=seed % 4 == 3).header()
        if seed % 3 == 0:
            self.header = self.header.replace('bully,2', 'bully,3')
        self.log: list[str] = []
        self.members = [Member(self.header, self.log, node + 1) for node in range(nodes)]
        self.crashes = self.choice.choice([20, 100, 500])
        self.watcher = Replica(self.header)
        self.tokens = [0]
        self.normal = 0

    def step(self) -> None:
        """One member does something; at times it hasn't read all, and then nothing comes of it."""
        member = self.choice.choice(self.members)
        if self.choice.randrange(10):
            member.read()
        try:
            row = self.row(member.replica, member.node)
        except Refused:
            return
        if row is not None and member.append(row):
            self.watch()

    def row(self, replica: Replica, node: int) -> str | None:
        """The row that the member of this node would append."""
        if self.choice.randrange(self.crashes) == 0:
            return replica.crash(self.choice.randint(1, replica.nodes))
        if replica.status(node) is Status.DOWN:
            return replica.recover(node) if self.choice.randrange(3) == 0 else None
        offers = {0: replica.check, 1: replica.timeout, 2: replica.drop}
        return offers.get(self.choice.randrange(12), replica.next)(node)

    def watch(self) -> None:
        """The row that is new is learned. Then each node that is Normal goes by the last plan, and no token falls."""
        self.watcher.learn(self.log[-1:])
        plan, token = (self.watcher.planner, self.watcher.last_table), self.watcher.token or 0
        assert token >= self.tokens[-1]
        self.tokens.append(token)
        for node in range(1, self.watcher.nodes + 1):
            if self.watcher.status(node) is Status.NORMAL:
                assert (self.watcher.coordinator(node), self.watcher.task(node)) == plan
                self.normal += 1

    def last_plan(self) -> tuple[int | None, int | None, tuple[int, ...] | None]:
        """The token, the planner and the table of the last plan, as the rows have them."""
        plans = [(place, row.split(',')) for place, row in enumerate(self.log) if row.startswith('plan')]
        if not plans:
            return None, None, None
        place, (_, planner, owners) = plans[-1]
        return place + 1, int(planner), tuple(map(int, owners.split()))

    def learned_in_parts(self) -> Replica:
        """One more replica, which learned the rows in parts of any size."""
        replica, place = Replica(self.header), 0
        while place < len(self.log):
            part = self.log[place : place + self.choice.randint(1, 30)]
            place += replica.learn(part)
        return replica


class Walks(unittest.TestCase):
    """Whatever replicas append is lawful, and shows what `include/bully.h` says of the last plan."""

    def test_walks(self) -> None:
        plans = normal = drops = 0
        for seed in range(300):
            walk = Walk(seed)
            with self.subTest(seed=seed):
                for _ in range(300):
                    walk.step()
                self.expect(walk)
            plans += len(set(walk.tokens) - {0})
            normal += walk.normal
            drops += sum(row.startswith('drop') for row in walk.log)
        self.assertGreater(min(plans, normal, drops), 20)

    def expect(self, walk: Walk) -> None:
        self.assertEqual(str(check(text_of(walk.header, walk.log))), f'lawful {len(walk.log)}')
        watcher = walk.watcher
        self.assertEqual((watcher.token, watcher.planner, watcher.last_table), walk.last_plan())
        self.assertEqual(shown(walk.learned_in_parts()), shown(watcher))
        for member in walk.members:
            self.assertEqual(shown(member.read()), shown(watcher))
