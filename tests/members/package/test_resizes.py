"""Tests of groups that get other settings, with members in threads."""
from __future__ import annotations

import contextlib
import random
import threading
import time
import unittest
from unittest import mock

from bully import Setup, check, operations, settings, view
from bully.clocks import seconds_of_boot
from bully.core import Promise, Session
from bully.epochs import Opening
from bully.member import Assignment, Member, NotInGroup
from bully.memory import MemoryLog
from bully.shared_log import Snapshot, Unanswered
from bully.sqlite import SqliteLog
from ..steps import LONG, OPENING
from ..waiting import PATIENCE, wait_until
from .folders import InFolder
from .threads import put


class Places:
    """What members work on: it reports if two work on one partition, or if a token falls."""

    def __init__(self) -> None:
        self.workers: dict[int, str] = {}
        self.tokens: dict[int, int] = {}
        self.faults: list[str] = []
        self.lock = threading.Lock()

    def start(self, name: str, assignment: Assignment) -> None:
        with self.lock:
            for partition in assignment.partitions:
                if (
                    self.workers.setdefault(partition, name) != name
                    or self.tokens.get(partition, 0) >= assignment.token
                ):
                    self.faults.append(
                        f'{name} begins {partition} by {assignment.token}, beside {self.workers} and {self.tokens}'
                    )
                self.tokens[partition] = assignment.token

    def stop(self, name: str, assignment: Assignment) -> None:
        with self.lock:
            for partition in assignment.partitions:
                del self.workers[partition]


class Seldom(MemoryLog):
    """A log that doesn't answer so many of what it is asked first, and then each second one by chance."""

    def __init__(self, opening: Opening, silent: int) -> None:
        super().__init__(opening)
        self.choice, self.silent = random.Random(1), silent

    def answer(self) -> None:
        self.silent -= 1
        if self.silent >= 0 or self.choice.random() < 0.5:
            raise Unanswered('silent')

    def opening(self, epoch: int | None = None) -> Opening:
        self.answer()
        return super().opening(epoch)

    def ask(self, requested: Opening, epoch: int) -> bool:
        self.answer()
        return super().ask(requested, epoch)

    def snapshot(self, epoch: int, offset: int, promise_of: str | None = None) -> Snapshot:
        self.answer()
        return super().snapshot(epoch, offset, promise_of)

    def acquire(self, name: str, session: Session, promise: Promise, ttl: int) -> bool:
        self.answer()
        return super().acquire(name, session, promise, ttl)


class ResizesUnanswered(unittest.TestCase):
    """A resize of a log that seldom answers."""

    wanted = settings.Settings(Setup(2, 4), ('x', 'y'))

    def test_goes_on(self) -> None:
        """It goes on up to the end of its time."""
        log = Seldom(OPENING, 3)
        with mock.patch.object(operations, 'ASK_AGAIN', 0.001):
            opening = operations.resize(log, self.wanted, PATIENCE)
        self.assertEqual((opening.epoch, opening.names, log.epoch), (2, ('x', 'y'), 2))
        self.assertLess(log.silent, 0)

    def test_never_answered(self) -> None:
        log, begun = Seldom(OPENING, 1_000_000), seconds_of_boot()
        with self.assertRaises(Unanswered):
            operations.resize(log, self.wanted, 0.3)
        self.assertGreaterEqual(seconds_of_boot(), begun + 0.3)


class Resizes(InFolder):
    """Members in threads over a file, through several epochs."""

    def make(self, nodes: int, partitions: int, limit: int = 1_000_000) -> None:
        names = tuple('abcdefg'[:nodes])
        self.closing(SqliteLog.create(self.path, Opening.first(Setup(nodes, partitions).header(), names, limit)))
        self.places = Places()
        self.members: dict[str, tuple[Member, threading.Thread]] = {}

    def begin(self, name: str, ttl: float = 10.0) -> None:
        log = SqliteLog(self.path)
        member = Member(
            log, name, lambda each: self.places.start(name, each), lambda each: self.places.stop(name, each), ttl
        )
        thread = threading.Thread(target=self.run_member, args=[member])
        self.members[name] = member, thread
        thread.start()
        self.addCleanup(thread.join)
        self.addCleanup(member.leave)

    def run_member(self, member: Member) -> None:
        with member:
            member.run()

    def end(self, name: str) -> None:
        member, thread = self.members.pop(name)
        member.leave()
        thread.join()

    def owned(self) -> dict[str, tuple[int, ...]]:
        """Who owns what, if all that are there own some by one token, and all that there is."""
        found = {name: member.assignment() for name, (member, _) in self.members.items()}
        tokens = {each.token for each in found.values() if each}
        owned = {name: each.partitions for name, each in found.items() if each}
        all_of_them = sorted(partition for each in owned.values() for partition in each)
        return (
            owned
            if len(tokens) == 1 and len(owned) == len(self.members) and all_of_them == list(range(len(all_of_them)))
            else {}
        )

    def become_stable(self, partitions: int) -> dict[str, tuple[int, ...]]:
        """The same, once they do."""
        wait_until(lambda: sum(map(len, self.owned().values())) == partitions)
        return self.owned()

    def resize(self, partitions: int, *names: str) -> Opening:
        with contextlib.closing(SqliteLog(self.path)) as log:
            return operations.resize(log, settings.Settings(Setup(len(names), partitions), names), PATIENCE)

    def plans(self, epoch: int) -> list[list[str]]:
        """The plans of an epoch, each with the names of the owners."""
        log = self.opened()
        names = log.opening(epoch).names
        return [
            [names[int(owner) - 1] for owner in row.split(',')[2].split()]
            for row in log.read(epoch, 0)
            if row.startswith('plan')
        ]

    def judge(self) -> None:
        """Each epoch is lawful, and nobody worked where somebody else did, or by an old token."""
        for name in list(self.members):
            self.end(name)
        self.assertEqual(self.places.faults, [])
        log = self.opened()
        for epoch in log.epochs():
            self.assertTrue(check('\n'.join([log.opening(epoch).header, *log.read(epoch, 0), '']).encode()).is_lawful)

    def test_more_nodes(self) -> None:
        """From 3 nodes and 12 partitions to 5 and 24, while members work."""
        self.make(3, 12)
        for name in 'abc':
            self.begin(name)
        before = self.become_stable(12)
        opening = self.resize(24, 'b', 'd', 'a', 'e', 'c')
        self.assertEqual((opening.epoch, opening.settings.setup.nodes), (2, 5))
        for name in 'de':
            self.begin(name)
        after = self.become_stable(24)
        self.assertEqual(sorted(map(len, after.values())), [4, 5, 5, 5, 5])
        kept = sum(len(set(before[name]) & set(self.places_of(self.plans(2)[0], name))) for name in 'abc')
        self.assertEqual(kept, 12, 'the three own 4 each, and get more')
        self.judge()

    def places_of(self, table: list[str], name: str) -> list[int]:
        return [partition for partition, owner in enumerate(table) if owner == name]

    def test_leaves_at_once(self) -> None:
        """Who waits is woken. With this ttl it would wait for a quarter of an hour."""
        self.make(1, 3)
        self.begin('a', ttl=3600.0)
        self.become_stable(3)
        begun = time.monotonic()
        self.end('a')
        self.assertLess(time.monotonic(), begun + PATIENCE)
        self.assertEqual(dict(self.opened().snapshot(1, 0).holders), {})

    def test_an_idle_unknown_process(self) -> None:
        """While a process holds a lease that has promised the end of the log, as `resize` does, members wait, and don't
        ask again and again."""
        self.make(1, 3)
        log, session = self.opened(), Session(9, 1)
        self.assertTrue(log.acquire('unknown', session, Promise(1, 0), LONG))
        self.begin('a', ttl=2.0)
        member, _ = self.members['a']
        wait_until(lambda: member.sure_until)
        with mock.patch.object(member.log, 'snapshot', wraps=member.log.snapshot) as snapshots:
            since = member.sure_until
            wait_until(lambda: member.sure_until > since + 0.9)  # it has renewed twice
        self.assertTrue(0 < snapshots.call_count < 20, snapshots.call_count)
        self.assertIsNone(member.assignment())
        log.release('unknown', session)
        self.become_stable(3)

    def test_fewer_nodes(self) -> None:
        """A member whose node is gone ends, and says so."""
        self.make(3, 6)
        for name in 'abc':
            self.begin(name)
        self.become_stable(6)
        with self.assertLogs('bully', 'WARNING') as told:
            self.resize(6, 'c', 'a')
            self.members.pop('b')[1].join(PATIENCE)
        self.assertIn('node b: its node is not in the group any more', told.output[0])
        self.become_stable(6)
        with self.assertRaisesRegex(NotInGroup, 'the group has no node b in epoch 2, only c, a'):
            self.begin('b')
        self.judge()

    def test_no_member(self) -> None:
        """Nobody is there, but a node that died: the epoch ends all the same."""
        self.make(3, 6)
        log = self.opened()
        put(log, 'recover,1', 'recover,2')
        self.assertEqual(self.resize(4, 'x', 'y').names, ('x', 'y'))
        self.assertEqual((list(log.read(1, 2)), dict(log.snapshot(2, 0).holders)), ([], {}))
        self.assertEqual(self.resize(4, 'x', 'y').epoch, 2, 'it has these settings already')
        self.assertTrue(log.ask(log.opening().requested(settings.Settings(Setup(1, 1), ('z',))), 2))
        self.assertEqual(
            (self.resize(4, 'x', 'y').epoch, log.snapshot(2, 0).requested), (2, None), 'no other settings are requested'
        )

    def test_not_in_time(self) -> None:
        """The request to resize stays, and the epoch ends later."""
        self.make(2, 4)
        log = self.opened()
        put(log, 'recover,2')
        session = Session(5, 1)
        self.assertTrue(log.acquire('b', session, Promise(1, 1), LONG))
        with self.assertRaisesRegex(operations.NotEnded, 'epoch 1 has not ended yet; it waits for b'):
            operations.resize(log, settings.Settings(Setup(1, 4), ('a',)), 0.1)
        log.release('b', session)
        self.begin('a')
        self.become_stable(4)
        self.assertEqual(self.opened().epochs(), range(1, 3))
        self.judge()

    def test_no_moves(self) -> None:
        """In a new epoch with the same members all partitions stay. Old epochs are taken away meanwhile."""
        self.make(3, 7)
        for name in 'abc':
            self.begin(name)
        before = self.become_stable(7)
        log = self.opened()
        for epoch in range(1, 4):
            opening = log.opening(epoch)
            self.assertTrue(log.ask(opening.requested(opening.settings), epoch))
            wait_until(lambda: log.epochs()[-1] > epoch and self.owned())
            self.assertEqual((log.epochs()[-1], self.owned()), (epoch + 1, before))
            self.assertEqual(len(self.plans(epoch + 1)), 1)
            log.prune(epoch)
        self.judge()

    def test_an_epoch_that_is_taken_away(self) -> None:
        """Who was in it for long goes on in the current one, members and views."""
        self.make(2, 4)
        member = Member(self.opened(), 'b', lambda each: member.leave(), lambda each: None, ttl=10.0)
        shown = view.LogView(self.opened())
        self.addCleanup(shown.close)
        self.assertEqual((member.opening.epoch, shown.show().epoch), (1, 1))
        self.resize(4, 'b', 'c')
        self.opened().prune(2)
        with member:
            member.run()
        self.assertEqual((member.opening.epoch, member.node), (2, 1))
        told = shown.show()
        self.assertEqual((told.epoch, [node.name for node in told.nodes]), (2, ['b', 'c']))
        self.assertEqual(told.last[-1][1], 'crash,1')

    def test_full_logs(self) -> None:
        """Logs are full after a hundred rows, and somebody goes and comes, again and again."""
        self.make(3, 6, 100)
        for name in 'abc':
            self.begin(name)
        log = self.opened()
        while log.epochs()[-1] < 4:
            self.become_stable(6)
            self.end('a')
            self.become_stable(6)
            self.begin('a')
        self.become_stable(6)
        self.judge()
