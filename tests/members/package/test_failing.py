"""Tests of work that fails: how it is counted, and of nodes that give up."""
from __future__ import annotations

import contextlib
import json
import os
import signal
import sqlite3
import threading
import unittest
from collections.abc import Callable
from types import SimpleNamespace
from typing import cast
from unittest import mock

from bully import operations, settings, systemd, view, work_failures
from bully.clocks import seconds_of_boot
from bully.core import Session
from bully.group import Setup
from bully.maintenance import Killed, Maintenance
from bully.member import Assignment, Member
from bully.memory import MemoryLog
from bully.processes import lock_holder
from bully.shared_log import Holder, Log, Snapshot
from bully.sqlite import SqliteLog
from bully.work_failures import ALL, AWAY_MAX, BACKOFF_MAX, Failures, Health
from bully.worker import Workers
from bully.worker_states import WorkerState
from .. import waiting
from ..etcd_servers import free_ports
from ..processes import below, children, has_stopped, is_running
from ..steps import EMPTY, LONG, OPENING, A, B, C
from ..waiting import PATIENCE
from .below import assigned
from .configurations import TOP, toml
from .folders import InFolder
from .member_processes import BEGINS, MemberProcess, asked, call
from .threads import Threads

TTL = 0.5


def wait_until(is_so: Callable[[], object]) -> None:
    """The same for longer, since workers that fail are begun later and later."""
    waiting.wait_until(is_so, 2 * PATIENCE)


class Counts(unittest.TestCase):
    """Failures in a row, with a ttl of 10 s, at given times."""

    def setUp(self) -> None:
        self.failures = Failures(3, 10.0)

    def test_backoff(self) -> None:
        """A fifth of the ttl, and each time twice as long, up to a minute."""
        backoffs = [self.failures.failed(100.0 * number) for number in range(7)]
        self.assertEqual(backoffs, [2.0, 4.0, 8.0, 16.0, 32.0, BACKOFF_MAX, BACKOFF_MAX])
        self.assertEqual([self.failures.backoff_seconds(now) for now in (600.0, 650.0, 700.0)], [60.0, 10.0, 0.0])

    def test_health(self) -> None:
        """It isn't known before it has worked for a ttl, or failed. Work that was stopped counts in all its parts."""
        told = []
        for call, now in (
            (self.failures.began, 0.0), (self.failures.ceased, 9.0), (self.failures.began, 100.0), (None, 100.9),
            (None, 101.0), (self.failures.failed, 102.0), (self.failures.began, 104.0), (self.failures.ceased, 113.0),
            (self.failures.began, 120.0), (None, 121.0),
        ):  # fmt: skip
            if call is not None:
                call(now)
            told.append(self.failures.health(now))
        new, well, failing = Health.NEW, Health.WELL, Health.FAILING
        self.assertEqual(told, [new, new, new, new, well, failing, failing, failing, failing, well])

    def test_hopeless(self) -> None:
        """So many failures in a row, unless it is at work just then."""
        for number in range(3):
            self.assertIs(self.failures.health(0.0), Health.FAILING if number else Health.NEW)
            self.failures.failed(0.0)
        self.assertIs(self.failures.health(1.0), Health.HOPELESS)
        self.failures.began(8.0)
        self.assertIs(self.failures.health(9.0), Health.FAILING)
        self.failures.ceased(9.0)
        self.assertIs(self.failures.health(9.0), Health.HOPELESS)
        never = Failures(0, 10.0)
        for _ in range(100):
            never.failed(0.0)
        self.assertIs(never.health(0.0), Health.FAILING)

    def test_long_work(self) -> None:
        """After five ttls of work a failure is the first one again, and after less it isn't."""
        for worked, count, backoff in ((49.9, 2, 4.0), (50.0, 1, 2.0), (10.0, 2, 4.0), (0.0, 3, 8.0)):
            if not self.failures.count:
                self.failures.failed(0.0)
            self.failures.began(1000.0)
            self.assertEqual((self.failures.failed(1000.0 + worked), self.failures.count), (backoff, count))

    def test_away(self) -> None:
        """A minute at first, by this ttl two, and each time twice as long, up to an hour. If it comes back one failure
        is enough, and long work is a new begin."""
        for _ in range(3):
            self.failures.failed(0.0)
        for seconds in (120.0, 240.0, 480.0, 960.0, 1920.0, AWAY_MAX, AWAY_MAX):
            self.assertEqual(self.failures.go_away(), seconds)
            self.failures.come_back()
            self.assertEqual((self.failures.health(1.0), self.failures.backoff_seconds(0.0)), (Health.FAILING, 0.0))
            self.failures.failed(0.0)
            self.assertIs(self.failures.health(1.0), Health.HOPELESS)
        self.failures.began(0.0)
        self.failures.failed(50.0)
        self.assertEqual(self.failures.go_away(), 120.0)


class Returns(unittest.TestCase):
    """For whom a node gives up, and when it comes back, with a ttl of 10 s, at given times."""

    def setUp(self) -> None:
        self.failures = Failures(1, 10.0)
        self.log = mock.create_autospec(Log)
        self.log.give_up.return_value = True
        self.giving = work_failures.GivingUp(self.log, 'a', 10.0, self.failures)
        self.now = 100.0
        patch = mock.patch.object(work_failures, 'seconds_of_boot', lambda: self.now)
        patch.start()
        self.addCleanup(patch.stop)

    def found(self, notes: dict[str, bool], *there: tuple[str, Session], drained: str = '') -> Snapshot:
        holders = {name: Holder(session, EMPTY) for name, session in there}
        return Snapshot(1, (), holders, None, Maintenance(frozenset(drained)), notes)

    def asked(self, found: Snapshot, now: float, leads: bool = False) -> bool | None:
        """Whether it gives up by what is asked at that time, if anything is."""
        self.now = now
        self.giving.see(found)
        asked = self.giving.due(found, 'abc', leads)
        return None if asked is None else asked()

    def test_heirs(self) -> None:
        """One that has been live for a ttl by one session, and doesn't fail, isn't drained, and is of the group."""
        well, noted = ('b', B), {'a': False}
        self.failures.failed(100.0)
        self.assertIs(self.asked(self.found({}, well), 100.0), False)
        self.log.note.assert_called_once_with('a', False)
        self.assertIsNone(self.asked(self.found(noted, well), 109.9))
        for found in (
            self.found(noted), self.found(noted, ('x', B)), self.found({**noted, 'b': True}, well),
            self.found(noted, well, drained='b'),
        ):  # fmt: skip
            self.giving.see(self.found(noted, well, ('x', B)))
            self.assertIsNone(self.asked(found, 300.0))
        self.assertIsNone(self.asked(self.found(noted, ('b', C)), 300.0), 'it is another session')
        self.assertIsNone(self.asked(self.found(noted, ('b', C)), 309.9))
        self.log.give_up.assert_not_called()
        self.assertIs(self.asked(self.found(noted, ('b', C)), 310.0), True)
        self.log.give_up.assert_called_once_with('a', 'b', C)

    def test_how_often(self) -> None:
        """It asks once in a quarter of the ttl, whatever a snapshot finds. A leader removes the notes on nodes that the
        group doesn't have."""
        self.failures.failed(100.0)
        asked = [self.asked(self.found({}), 100.0 + number) for number in range(6)]
        self.assertEqual(asked, [False, None, None, False, None, None])
        self.assertIsNone(self.asked(self.found({'a': False, 'x': True}), 200.0))
        self.assertIs(self.asked(self.found({'a': False, 'x': True}), 200.0, True), False)
        self.log.note.assert_called_with('x', None)

    def test_kills(self) -> None:
        """How often the watchdog killed its work is noted for the process that holds its lease: once, and again only
        after the next one, or if others changed the maintenance at the same moment."""
        self.failures.began(0.0)
        self.assertIsNone(self.asked(self.found({}, ('a', A)), 100.0))
        self.failures.note_killed(5000)
        self.assertIsNone(self.asked(self.found({}, ('b', B)), 110.0), 'it holds no lease')
        found, noted = self.found({}, ('a', A)), Maintenance(killed={'a': Killed(A.process, 1, 5000)})
        for now in (120.0, 130.0):
            self.assertIs(self.asked(found, now), False)
            self.log.set_maintenance.assert_called_with(noted, Maintenance())
        self.assertIsNone(self.asked(found._replace(maintenance=noted), 140.0))
        self.failures.note_killed(7000)
        self.assertIs(self.asked(found._replace(maintenance=noted), 150.0), False)
        self.log.set_maintenance.assert_called_with(Maintenance(killed={'a': Killed(A.process, 2, 7000)}), noted)
        self.log.note.assert_not_called()

    def test_comes_back(self) -> None:
        """After its time; or once nobody else is there, or none has worked well for five ttls."""
        gone, well = {'a': True}, ('b', B)
        cases = [
            ([self.found(gone, well)], [(219.9, False), (220.0, True)]),
            ([self.found(gone)], [(100.1, True)]), ([self.found(gone, ('x', B))], [(100.1, True)]),
            ([self.found(gone, well, drained='b')], [(100.1, True)]), ([self.found({}, well)], [(100.1, True)]),
            ([self.found(gone, well), *[self.found({**gone, 'b': False}, well)] * 2],
             [(120.0, False), (169.9, False), (170.0, True)]),
        ]  # fmt: skip
        for snapshots, wanted in cases:
            with self.subTest(snapshots=snapshots):
                self.setUp()
                self.failures.failed(self.now)
                self.assertEqual(self.giving.go_away(), 120.0)
                for number, (now, comes_back) in enumerate(wanted):
                    self.now = now
                    told = self.giving.comes_back(snapshots[min(number, len(snapshots) - 1)], 'abc')
                    self.assertEqual((told, self.failures.backoff_seconds(101.0) > 0), (comes_back, not comes_back))


class Services(unittest.TestCase):
    """What a manager of services hears of a worker that fails."""

    def test_how_it_stands(self) -> None:
        work, workers = assigned(2, 0, 5), Workers(['true'], 'a', 0.0)
        member = SimpleNamespace(assignment=lambda: work, is_drained=False, gave_up=False)
        told = systemd.Service(cast(Member, member), workers)
        self.assertEqual(told._stands(), 'works on 2 partitions by token 40000002')
        state = workers._workers[ALL] = WorkerState(ALL, workers, workers._failures)
        state.working = frozenset(work.partitions)
        workers._failures.failed(seconds_of_boot())
        self.assertRegex(
            told._stands(), '^owns 2 partitions by token 40000002; its worker failed, and backs off for [01]'
        )
        member.assignment, member.gave_up = lambda: None, True
        self.assertEqual(told._stands(), 'gave up: its worker fails')


class Work:
    """What works for a member, or fails at once, whenever it is begun."""

    def __init__(self, fails: bool, give_up: int = 3, ttl: float = TTL) -> None:
        self.fails, self.failures = fails, Failures(give_up, ttl)
        self.member: Member
        self.begun = 0

    def serve(self, member: Member) -> None:
        self.member = member

    def start(self, work: Assignment) -> None:
        now = seconds_of_boot()
        backoff = self.failures.backoff_seconds(now)
        if not backoff:
            self.begun += 1
            self.failures.began(now)
            backoff = self.failures.failed(now) if self.fails else 0.0
        if backoff:
            later = threading.Timer(backoff, self.member.lose, [work])
            later.daemon = True
            later.start()

    def stop(self, work: Assignment) -> None:
        self.failures.ceased(seconds_of_boot())


class GivesUp(Threads):
    """Members in threads, of which some fail to work."""

    ttl = TTL

    def setUp(self) -> None:
        self.log = MemoryLog(OPENING)
        self.shown = self.viewed(self.log)
        said = self.assertLogs('bully')
        self.said = said.__enter__()
        self.addCleanup(said.__exit__, None, None, None)
        self.work: dict[int, Work] = {}
        self.threads: dict[int, threading.Thread] = {}

    def begin_member(self, node: int, fails: bool, give_up: int = 3) -> Work:
        work = self.work[node] = Work(fails, give_up, self.ttl)
        _, _, self.threads[node] = self.begin(
            self.log, node, self.ttl, work.serve, start=work.start, stop=work.stop, failures=work.failures
        )
        return work

    def fail_from_now_on(self, work: Work) -> None:
        """It works, and fails from now on."""
        wait_until(work.member.assignment)
        assigned, _, _ = work.member._shown
        assert assigned is not None
        work.fails = True
        work.failures.failed(seconds_of_boot())
        work.member.lose(assigned)

    def owners(self) -> set[str | None]:
        return set(self.shown.show().owners)

    def failing(self) -> dict[str, bool]:
        """Which nodes' work fails by what is shown, and which nodes have given up."""
        return {node.name: node.gave_up for node in self.shown.show().nodes if node.is_failing}

    def plans(self) -> int:
        return sum(row.startswith('plan') for row in self.log.rows)

    def test_one_of_two(self) -> None:
        """The other one gets all that it owned. It tries again, and gives up at once if it fails; and works once it
        can."""
        self.begin_member(1, False)
        wait_until(lambda: self.owners() == {'1'})
        fails = self.begin_member(2, True)
        wait_until(lambda: self.failing() == {'2': False})
        self.assertFalse(self.shown.show().is_well)
        wait_until(lambda: fails.member.gave_up and self.owners() == {'1'})
        tries = fails.begun
        self.assertGreaterEqual(tries, 3)
        self.assertEqual((self.failing(), fails.member.is_drained), ({'2': True}, False))
        group = self.shown.show()
        wanted = True, False, 'no, gave up, its worker fails'
        self.assertEqual((group.is_stable, group.is_well, group.nodes[1].live_text), wanted)
        told = 'node 2: its worker keeps failing; it gives up what it owns, and tries again in 6.0 s'
        self.assertEqual([line for line in self.said.output if told in line], [f'WARNING:bully:{told}'])
        wait_until(lambda: fails.begun == tries + 1)
        wait_until(lambda: fails.member.gave_up and self.owners() == {'1'})
        self.assertTrue(any('tries again in 12.0 s' in line for line in self.said.output))
        fails.fails = False
        wait_until(lambda: '2' in self.owners())
        wait_until(lambda: self.shown.show().is_well)
        self.assertEqual((fails.begun, self.log.failing, self.owners()), (tries + 2, {}, {'1', '2'}))

    def test_all_fail(self) -> None:
        """Each keeps what it owns, since nobody else could work on it: nothing is appended for that."""
        self.ttl = 2.0  # so that no lease ends
        both = [self.begin_member(node, True) for node in (1, 2)]
        wait_until(lambda: self.log.failing == {'1': False, '2': False} and self.owners() == {'1', '2'})
        rows = len(self.log.rows)
        wait_until(lambda: all(work.begun > 4 for work in both))
        self.assertEqual((len(self.log.rows), [work.member.gave_up for work in both]), (rows, [False, False]))
        self.assertEqual((self.failing(), self.shown.show().is_well), ({'1': False, '2': False}, False))
        both[0].fails = False
        wait_until(lambda: self.log.failing == {'2': True} and self.owners() == {'1'})

    def test_the_last_one(self) -> None:
        """It keeps what it owns, and nobody else is noted."""
        work = self.begin_member(1, True)
        wait_until(lambda: work.begun > 4)
        self.assertEqual((work.member.gave_up, self.owners(), self.failing()), (False, {'1'}, {'1': False}))

    def test_becomes_the_only_one(self) -> None:
        """One that gave up comes back once nobody else is there, long before its time."""
        self.begin_member(1, False)
        fails = self.begin_member(3, True, 1)
        wait_until(lambda: fails.member.gave_up and self.owners() == {'1'})
        fails.fails = False
        begun = seconds_of_boot()
        self.work[1].member.leave()
        wait_until(lambda: self.owners() == {'3'})
        self.assertLess(seconds_of_boot(), begun + 12 * TTL)
        wait_until(lambda: self.log.failing == {})

    def test_the_heir_fails(self) -> None:
        """Two give up for the third, and come back once none has worked well for five ttls: that nobody works is then
        no reason to move anything."""
        self.ttl = 2.0
        heir, *fail = [self.begin_member(node, node > 1, 1) for node in (1, 2, 3)]
        wait_until(lambda: all(work.member.gave_up for work in fail) and self.owners() == {'1'})
        begun = seconds_of_boot()
        self.fail_from_now_on(heir)
        wait_until(lambda: not any(work.member.gave_up for work in fail) and self.owners() == {'1', '2', '3'})
        self.assertGreater(seconds_of_boot(), begun + 5 * self.ttl)
        rows, counts = len(self.log.rows), [work.begun for work in fail]
        wait_until(lambda: all(work.begun > count + 1 for work, count in zip(fail, counts)))
        self.assertEqual((len(self.log.rows), self.log.failing), (rows, dict.fromkeys('123', False)))

    def test_who_has_just_come(self) -> None:
        """Nothing is given up for a node that hasn't been live for a ttl by one session."""
        fails = self.begin_member(3, True, 1)
        wait_until(lambda: fails.begun == 1)
        begun = seconds_of_boot()
        self.begin_member(1, False)
        wait_until(lambda: fails.member.gave_up)
        self.assertGreater(seconds_of_boot(), begun + TTL)

    def test_in_a_pause(self) -> None:
        """Nobody would take over, so nothing is given up before its end."""
        self.ttl = 2.0  # so that no lease ends
        self.begin_member(1, False)
        fails = self.begin_member(3, False, 1)
        wait_until(lambda: self.owners() == {'1', '3'})
        operations.pause(self.log)
        self.fail_from_now_on(fails)
        wait_until(lambda: self.log.failing == {'3': False})
        count = fails.begun
        wait_until(lambda: fails.begun > count + 3)
        self.assertEqual((fails.member.gave_up, self.owners()), (False, {'1', '3'}))
        operations.resume(self.log)
        wait_until(lambda: fails.member.gave_up and self.owners() == {'1'})

    def test_it_is_told_to_try_again(self) -> None:
        """By `undrain`, long before its time; and a drained one stays away until then."""
        self.begin_member(1, False)
        fails = self.begin_member(3, True, 1)
        wait_until(lambda: fails.member.gave_up and self.owners() == {'1'})
        operations.drain(self.log, '3', False)
        wait_until(lambda: fails.member.is_drained)
        fails.fails, begun = False, seconds_of_boot()
        operations.undrain(self.log, '3')
        wait_until(lambda: self.owners() == {'1', '3'})
        self.assertLess(seconds_of_boot(), begun + 12 * TTL)
        self.assertEqual((fails.member.gave_up, fails.member.is_drained), (False, False))
        wait_until(lambda: self.log.failing == {} and fails.member.assignment())

    def test_leaves(self) -> None:
        """In order: then nothing is noted of it any more, whether or not it has given up."""
        self.begin_member(1, False)
        wait_until(lambda: self.owners() == {'1'})
        for give_up in (1, 0):
            fails = self.begin_member(3, True, give_up)
            wait_until(lambda: self.log.failing == {'3': bool(give_up)})
            wait_until(lambda: fails.member.gave_up == bool(give_up))
            fails.member.leave()
            self.threads[3].join(PATIENCE)
            self.assertEqual((self.threads[3].is_alive(), self.log.failing), (False, {}))

    def test_its_name_is_gone(self) -> None:
        """Nothing is noted of a node that the group hasn't any more, also if its process doesn't take that back."""
        self.begin_member(1, False)
        wait_until(lambda: self.owners() == {'1'})
        self.log.note('2', True)
        self.assertEqual((self.failing(), self.shown.show().is_well), ({'2': True}, False))
        operations.resize(self.log, settings.Settings(Setup(2, 6), ('1', '3')), PATIENCE)
        wait_until(lambda: self.log.failing == {})
        wait_until(lambda: self.shown.show().is_well)

    def test_a_note_of_an_earlier_process(self) -> None:
        """It is taken back once the work has gone well for a ttl, and then that of a member whose failures nobody
        counts."""
        for failures in (Failures(3, TTL), None):
            self.log.note('1', True)
            member, _, thread = self.begin(self.log, 1, TTL, failures=failures)
            if failures is not None:
                wait_until(lambda: self.log.failing == {'1': False})
                failures.began(seconds_of_boot())
            wait_until(lambda: self.log.failing == {})
            member.leave()
            thread.join(PATIENCE)

    def test_a_second_process(self) -> None:
        """It waits for the first one, and what that noted stays."""
        first = self.begin_member(1, True)
        wait_until(lambda: self.log.failing == {'1': False})
        second, _, thread = self.begin(self.log, 1, TTL, failures=Failures(3, TTL))
        wait_until(lambda: any('another process is live' in line for line in self.said.output))
        second.leave()
        thread.join(PATIENCE)
        self.assertEqual((self.log.failing, thread.is_alive(), first.member.gave_up), ({'1': False}, False, False))

    def test_a_late_note(self) -> None:
        """A note from before that comes late is no order to try again: it is noted anew that the node gave up."""
        self.begin_member(1, False)
        fails = self.begin_member(3, True, 1)
        wait_until(lambda: fails.member.gave_up and self.owners() == {'1'})
        self.log.note('3', False)
        wait_until(lambda: self.log.failing == {'3': True})
        self.assertTrue(fails.member.gave_up)


class InProcesses(InFolder):
    """`bully-member run` of two nodes, each with a worker in shell, over twelve partitions."""

    def setUp(self) -> None:
        super().setUp()
        config = self.folder / 'group.toml'
        config.write_bytes(toml({**TOP, 'nodes': 2, 'partitions': 12, 'names': ['a', 'b'], 'weights': [1, 1]}))
        self.log_words = '--log', f'sqlite:{self.path}'
        self.assertEqual(call('init', '--config', str(config), '--ttl', '1', *self.log_words)[0], 0)

    def begin(self, node: str, worker: list[str], *more: str) -> MemberProcess:
        (self.folder / node).mkdir()
        member = MemberProcess(self.folder / node, [*self.log_words, '--node', node, *more], worker)
        self.addCleanup(member.kill)
        return member

    def status(self) -> tuple[int, list[str]]:
        """The status of `status`, and which nodes it says to fail."""
        status, text, _ = call('status', '--json', *self.log_words)
        return status, [node['name'] for node in json.loads(text)['nodes'] if node['failing']]

    def partitions(self, member: MemberProcess) -> str:
        """What its worker works on."""
        with contextlib.suppress(OSError, KeyError):  # it hasn't begun, or writes just now
            return member.environment()['BULLY_PARTITIONS']
        return ''

    def test_a_worker_that_its_watchdog_kills(self) -> None:
        """With a member suspended its watchdog kills the worker. Once the member continues all count that."""
        [port] = free_ports(1)
        member = self.begin('b', ['sh', '-c', BEGINS], '--listen', str(port))
        for times, words in ((1, 'once'), (2, '2 times, last')):
            with self.subTest(times=times):
                worker = member.worker()
                self.suspend(member)
                wait_until(lambda: not is_running(worker))
                (member.folder / 'begun').unlink()
                member.process.send_signal(signal.SIGCONT)
                wait_until(lambda: self.killed() == {'a': 0, 'b': times})
                told = f'yes, its worker was killed {words} at 2[0-9]{{3}}-[0-9T:.-]*Z'
                self.assertRegex(call('status', *self.log_words)[1], f'\nb .* {told} ')
                self.assertRegex(asked(port, '/')[1], f'<td>{told}<td>')
                self.assertIn(f'bully_work_killed_total{{node="b"}} {times}\n', asked(port, '/metrics')[1])
        self.assertEqual(member.end(), 0, member.said)

    def suspend(self, member: MemberProcess) -> None:
        """Suspends it, but not in the middle of a write: there its watchdog would kill it."""
        process = member.process
        process.send_signal(signal.SIGSTOP)
        wait_until(lambda: has_stopped(process.pid))
        while lock_holder(f'{self.path}-shm') == process.pid:
            process.send_signal(signal.SIGCONT)
            process.send_signal(signal.SIGSTOP)
            wait_until(lambda: has_stopped(process.pid))

    def killed(self) -> dict[str, int]:
        """How often work was killed, by the nodes that `status` shows."""
        return {
            node['name']: node['killed'] for node in json.loads(call('status', '--json', *self.log_words)[1])['nodes']
        }

    def test_a_worker_that_can_not_be_started(self) -> None:
        """Its node gives up, all say so, and the other one works on all partitions; up to the day when it can be
        started."""
        [port] = free_ports(1)
        worker, whole = self.folder / 'worker', ' '.join(map(str, range(12)))
        well = self.begin('a', ['sh', '-c', BEGINS])
        wait_until(lambda: self.partitions(well) == whole)
        fails = self.begin('b', [str(worker)], '--give-up', '3', '--listen', str(port))
        wait_until(lambda: asked(port, '/healthz') == (503, 'its worker fails\n'))
        wait_until(lambda: self.status() == (1, ['b']))
        wait_until(lambda: asked(port, '/healthz') == (200, 'gave up: its worker fails\n'))
        wait_until(lambda: self.partitions(well) == whole)
        self.assertEqual(self.status(), (1, ['b']))
        self.assertRegex(call('status', *self.log_words)[1], r'\nb +down +no, gave up, its worker fails +- +-\n')
        self.assertIn('<td>no, gave up, its worker fails<td>', asked(port, '/')[1])
        metrics = asked(port, '/metrics')[1].splitlines()
        wanted = [
            'bully_worker_failing{node="a"} 0',
            'bully_worker_failing{node="b"} 1',
            'bully_gave_up{node="a"} 0',
            'bully_gave_up{node="b"} 1',
            'bully_drained{node="b"} 0',
        ]
        self.assertEqual([line for line in wanted if line not in metrics], [])
        self.assertEqual(fails.said.count(f'bully: {worker}: No such file or directory'), 3)
        said = 'node b: its worker keeps failing; it gives up what it owns, and tries again in 12.0 s'
        self.assertIn(said, fails.said)
        worker.write_text(f'#!/bin/sh\n{BEGINS}\n')
        worker.chmod(0o755)
        self.assertEqual(call('undrain', 'b', *self.log_words)[0], 0)
        fails.worker()
        wait_until(lambda: self.status() == (0, []))
        self.assertEqual((fails.end(), well.end()), (0, 0))

    def test_a_worker_that_fails_late(self) -> None:
        """More than a ttl after its start: it is begun again by the same member with the same token, and the other
        node's works on. Nothing is appended, and no lease changes."""
        members = [self.begin(node, ['sh', '-c', BEGINS]) for node in 'ab']
        wait_until(lambda: [len(self.partitions(member).split()) for member in members] == [6, 6])
        wait_until(lambda: self.status() == (0, []))
        other, worker = (below(children(member.process.pid)[0])[0] for member in members)
        begun, log, fails = seconds_of_boot(), self.opened(), members[1]
        wait_until(lambda: seconds_of_boot() > begun + 2.0)
        before, token = log.snapshot(1, 0), fails.environment()['BULLY_TOKEN']
        os.kill(worker, signal.SIGKILL)
        wait_until(lambda: self.status() == (1, ['b']))
        wait_until(lambda: self.status() == (0, []))
        after = log.snapshot(1, 0)
        self.assertEqual((list(after.rows), after.sessions), (list(before.rows), before.sessions))
        self.assertEqual((fails.environment()['BULLY_TOKEN'], is_running(other)), (token, True))
        self.assertNotEqual(fails.worker(), worker)
        self.assertIn('the worker failed, with status -9, and is started again in 0.2 s', fails.said)
        self.assertEqual([member.end() for member in members], [0, 0])
