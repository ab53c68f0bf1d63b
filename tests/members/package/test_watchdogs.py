"""Tests of workers that end at each change, and of the watchdog above them."""
from __future__ import annotations

import os
import select
import shutil
import signal
import socket
import subprocess
import sys
import threading
from collections.abc import Callable, Set as AbstractSet
from pathlib import Path
from types import SimpleNamespace
from typing import Any, cast
from unittest import mock

from bully import Setup, clocks, processes, watchdog, worker
from bully.epochs import Token
from bully.member import Assignment, Member
from bully.settings import Settings
from bully.worker import ChildrenUnlisted, WatchdogLost, WorkerEnded, WorkerStuck, Workers
from places import environment

from ..processes import (
    below,
    children,
    descriptors_of,
    freeze,
    halt_by_debugger,
    halt_by_group,
    has_stopped,
    ignores,
    is_running,
    keepers,
    name_of,
    parent_of,
    thaw,
)
from ..waiting import PATIENCE, wait_until
from .below import Below, Timely, assigned
from .unlisted import unlisted_from

ENDS = (signal.SIGTERM, signal.SIGINT, signal.SIGHUP, signal.SIGQUIT, signal.SIGUSR1, signal.SIGUSR2)

# A worker that is `stubborn`, or is `done` at once; with something that it started, which is in its process group if it
# is `whole`.
WORKER = """
import os, signal, subprocess, sys, time
folder, way = sys.argv[1:]
if way == 'stubborn':
    signal.signal(signal.SIGTERM, signal.SIG_IGN)
child = subprocess.Popen(['sleep', '1000'], start_new_session=way != 'whole')
with open(f'{folder}/new', 'w') as file:
    file.write(f'{os.getpid()} {child.pid} {os.environ["BULLY_TOKEN"]} {os.environ["BULLY_PARTITIONS"]}')
os.rename(f'{folder}/new', f'{folder}/begun')
if way == 'done':
    sys.exit(0)
time.sleep(1000)
"""

# A member of an ordinary user, which is to leave, and whose worker is another one's. It prints what becomes of it.
OTHER_USER = '''
import logging, sys, threading, time
from types import SimpleNamespace
rooted, kills = sys.argv[1:]
from bully import clocks, worker
from bully.member import Assignment
logging.basicConfig(stream=sys.stdout, format='%(message)s')
worker._logger.error = lambda _, processes: print('these processes may work on:', processes, flush=True)
failures, ended = [], []
words = [rooted, '--reuid', '0', '--regid', '0', '--clear-groups', 'sh', '-c', 'echo $$; exec sleep 1000']
workers = worker.Workers(words, 'x', 0.1, failures=worker.Failures(ttl=2.0))
member = SimpleNamespace(ttl=2.0, margin=0.4, end_with=failures.append, ended=ended.append, is_leaving=True)
workers.watch(member)
workers.hear_until(clocks.seconds_of_boot() + 1000.0)
settings = SimpleNamespace(text=lambda *_: '{}', name=str)
workers.start(Assignment(1, 1, (0,), settings), frozenset([0]))
input()
workers._watchdog.kill() if kills else workers.hear_until(clocks.seconds_of_boot())
workers.stop(None, frozenset([0]))
while not workers.is_stuck:
    time.sleep(0.01)
print('stuck', flush=True)
while not ended:
    time.sleep(0.01)
print('stopped', flush=True)
print(*[type(failure).__name__ for failure in failures] or ['lost'], flush=True)
workers.close()
'''
# A watchdog in a world of which one clock is far ahead of the others.
CLOCKS = '''
import sys, time
from pathlib import Path
from bully.epochs import Opening
from bully.core import Session, Promise
from bully.sqlite import SqliteLog
from types import SimpleNamespace
from bully import clocks, worker
lost = []
workers = worker.Workers(['sleep', '1000'], 'x', 1000.0)
workers.watch(SimpleNamespace(ttl=2.0, margin=0.4, end_with=print, ended=lost.append))
workers.hear_until(clocks.seconds_of_boot() + 1000.0)
settings = SimpleNamespace(text=lambda *_: '{}', name=str)
workers.start(worker.Assignment(1, 1, (0,), settings), frozenset([0]))
while not Path(f'/proc/{workers._watchdog.pid}/task/{workers._watchdog.pid}/children').read_text():
    time.sleep(0.01)
print('not yet')
workers.hear_until(clocks.seconds_of_boot() + 0.5)
while not lost:
    time.sleep(0.01)
print('lost')
workers.close()
log = SqliteLog.create(sys.argv[1], Opening.first('bully,1,3,6'))
log.acquire('a', Session(1, 1), Promise(1, 0), 5 * clocks.SECOND)
print(log._one('select until from leases') > 1_000_000 * clocks.SECOND)
'''

# It begins a write to a file whenever it is told to, after the one before.
WRITER = '''
import sqlite3, sys
file = sqlite3.connect(sys.argv[1], isolation_level=None)
file.executescript('pragma journal_mode = wal; create table log (row text)')
print('idle', flush=True)
while sys.stdin.readline():
    if file.in_transaction:
        file.execute('commit')
    file.execute('begin immediate')
    print('writes', flush=True)
'''


class Watchdogs(Below):
    """Workers that end at each change."""

    assignment = assigned(2, 0, 5)

    def begin(self, way: str, patience: float = PATIENCE, seconds: float = 1000.0) -> Timely:
        workers = self.made([sys.executable, '-c', WORKER, str(self.folder), way], patience, seconds)
        self.begin_again(workers)
        return workers

    def begin_again(self, workers: Timely) -> None:
        workers.start(self.assignment)
        wait_until((self.folder / 'begun').exists)
        self.worker, self.child = map(int, (self.folder / 'begun').read_text().split()[:2])

    def keeper(self, workers: Timely) -> int:
        """That of the worker, once it is there."""
        wait_until(lambda: keepers(workers._watchdog.pid))
        return keepers(workers._watchdog.pid)[0]

    def are_gone(self) -> bool:
        return not is_running(self.worker) and not is_running(self.child)

    def test_stop(self) -> None:
        for way, patience in (('mild', PATIENCE), ('stubborn', 0.1)):
            with self.subTest(way=way):
                workers = self.begin(way, patience)
                for _ in range(3):
                    self.assertEqual((self.folder / 'begun').read_text().split()[2:], ['40000002', '0', '5'])
                    workers.stop()
                    self.assertTrue(self.are_gone())
                    (self.folder / 'begun').unlink()
                    self.begin_again(workers)
                workers.close()
                self.assertTrue(self.are_gone())
                self.assertEqual((self.failures, self.lost), ([], []))
                (self.folder / 'begun').unlink()

    def test_settings(self) -> None:
        """They are in a file, and in the environment, too, if that has room: a variable has 128 KiB with its name and
        its end."""
        line = 'env > $0/env; cat "$BULLY_SETTINGS_FILE" > $0/new; mv $0/new $0/settings; exec sleep 1000'
        workers = self.made(['sh', '-c', line, str(self.folder)])
        short = len(Settings(Setup(2, 1), ('', 'b')).text(4.0, 0.8))
        most = (1 << 17) - len('BULLY_SETTINGS=') - 1 - short
        wide = Settings(Setup(1024, 4096), tuple(f'{number:0130}' for number in range(1024)))
        for settings, is_there in (
            (Settings(Setup(2, 1), ('a' * most, 'b')), True),
            (Settings(Setup(2, 1), ('a' * (most + 1), 'b')), False),
            (wide, False),
        ):
            with self.subTest(nodes=settings.setup.nodes, is_there=is_there):
                workers.start(Assignment(Token.of(4, 2), 2, tuple(range(settings.setup.partitions)), settings))
                wait_until((self.folder / 'settings').exists)
                text = settings.text(4.0, 0.8)
                self.assertEqual((self.folder / 'settings').read_text(), text)
                told = dict(line.split('=', 1) for line in (self.folder / 'env').read_text().splitlines())
                self.assertEqual(told.get('BULLY_SETTINGS'), text if is_there else None)
                self.assertEqual(len(told['BULLY_PARTITIONS'].split()), settings.setup.partitions)
                workers.stop()
                (self.folder / 'settings').unlink()
        self.assertEqual((self.failures, self.lost), ([], []))

    def test_stop_at_once(self) -> None:
        """A worker that is stopped before it has begun hears it, too."""
        workers = self.made(['sleep', '1000'], 3600.0, 3600.0)
        for _ in range(10):
            workers.start(self.assignment)
            workers.stop()

    def test_until(self) -> None:
        """It is killed at that moment, also while it is stopped, and with what it started. Its member hears of that
        then."""
        workers = self.begin('stubborn', seconds=3.0)
        os.kill(self.worker, signal.SIGSTOP)
        until = clocks.seconds_of_boot() + 0.5
        workers.hear_until(until)
        workers.hear_until(until)
        wait_until(self.are_gone)
        self.assertGreaterEqual(clocks.seconds_of_boot(), until)
        wait_until(lambda: self.lost)
        workers.stop()
        self.assertEqual((self.failures, self.lost), ([], [self.assignment]))

    def test_another_group(self) -> None:
        """A worker that has left its process group is told to end all the same, and its watchdog stays."""
        told = 'signal.signal(signal.SIGTERM, lambda *_: sys.exit(open(sys.argv[1] + "/told", "w").close()))'
        words = f'import os, signal, sys, time; {told}'
        leaves = 'os.setpgid(0, os.getpgid(os.getppid())); open(sys.argv[1] + "/begun", "w").close(); time.sleep(1000)'
        workers = self.made([sys.executable, '-c', f'{words}; {leaves}', str(self.folder)])
        for _ in range(2):
            workers.start(self.assignment)
            wait_until((self.folder / 'begun').exists)
            workers.stop()
            for name in ('told', 'begun'):
                (self.folder / name).unlink()
        self.assertEqual((self.failures, self.lost), ([], []))

    def test_too_late(self) -> None:
        """None begins whose time is over. (On a busy machine the watchdog may be too late to say so, and is killed.)"""
        workers = self.made(['touch', str(self.folder / 'begun')], seconds=-1.0)
        self.keeper(workers)
        workers.start(self.assignment)
        wait_until(lambda: self.lost or self.failures)
        workers.stop()
        self.assertFalse((self.folder / 'begun').exists())

    def test_unread(self) -> None:
        """What a watchdog says at its end is heard, also if it didn't read all that it was told."""
        workers = self.made(['sleep', '1000'])
        workers.start(self.assignment)
        wait_until(lambda: below(workers._watchdog.pid))
        watchdog, given = socket.socketpair(socket.AF_UNIX, socket.SOCK_SEQPACKET)
        first, workers._channel = workers._channel, given
        with first:
            workers.hear_until(1000.0)
            watchdog.send(b'lost all 1')
            watchdog.close()
            wait_until(lambda: self.lost)
            wait_until(lambda: self.failures)

    def test_ends_by_itself(self) -> None:
        """Once it is done its member ends."""
        workers = self.begin('done')
        wait_until(lambda: self.failures)
        self.assertTrue(self.are_gone())
        (failure,) = self.failures
        self.assertIsInstance(failure, WorkerEnded)
        self.assertEqual(getattr(failure, 'status'), 0)
        workers.stop()
        self.assertEqual(self.lost, [])

    def test_fails_late(self) -> None:
        """It is begun again, and its member doesn't end: at first after a fifth of the ttl, and later if it has failed
        since, unless it has worked for five ttls."""
        workers = self.made(['sh', '-c', '. $0', str(self.folder / 'span')], ttl=0.5)
        with self.assertLogs('bully', 'WARNING') as said:
            for count, (span, backoff) in enumerate(((0.6, 0.1), (0.6, 0.2), (2.6, 0.1)), 1):
                (self.folder / 'span').write_text(f'sleep {span}; exit 7')
                workers.start(self.assignment)
                wait_until(lambda: len(said.output) == count)
                self.assertIn(f'failed, with status 7, and is started again in {backoff:.1f} s', said.output[-1])
                wait_until(lambda: len(self.lost) == count)
                workers.stop()
        self.assertEqual(self.failures, [])

    def test_fails_at_once(self) -> None:
        """It is begun again, each time twice as late, and its member doesn't end. A change of what it owns is no reason
        to begin it sooner."""
        begins = self.folder / 'begins'
        workers = self.made(['sh', '-c', f'echo $BULLY_TOKEN >> {begins}; exit 7'], ttl=2.0)
        workers.start(assigned(2, 0))
        with self.assertLogs('bully', 'WARNING') as said:
            for count, backoff in enumerate((0.4, 0.8, 1.6), 1):
                wait_until(lambda: len(said.output) == count)
                failed = clocks.seconds_of_boot()
                self.assertIn(f'failed, with status 7, and is started again in {backoff:.1f} s', said.output[-1])
                workers.stop()
                workers.start(assigned(count + 2, 0))
                wait_until(lambda: assigned(count + 2, 0) in self.lost)
                self.assertGreater(clocks.seconds_of_boot() - failed, backoff - 0.1)
                self.assertEqual((len(begins.read_text().split()), workers.backoff_seconds), (count, 0.0))
                workers.stop()
                workers.start(assigned(count + 2, 0))
            wait_until(lambda: len(said.output) == 4)
        self.assertEqual(begins.read_text().split(), ['40000002', '40000003', '40000004', '40000005'])
        self.assertEqual(self.failures, [])

    def test_stuck(self) -> None:
        """A worker that doesn't end though it was killed is reported, and a member that must leave doesn't wait for it.
        Its watchdog is there until it has ended."""
        workers = self.made([sys.executable, '-c', WORKER, str(self.folder), 'stubborn'], 0.1, ttl=1.0)
        self.begin_again(workers)
        freeze(self, self.worker)
        self.assertEqual((workers.stopping_seconds, workers.is_stuck, workers.about), (0.0, False, ''))
        with self.assertLogs('bully', 'ERROR') as said:
            workers.ask_to_stop()
            wait_until(lambda: said.output)
        self.assertTrue(
            said.output[0].endswith(f'nothing is started here before they end: [{self.worker}]'), said.output
        )
        wait_until(lambda: workers.is_stuck)
        self.assertEqual((self.member.ends, self.member.stuck), ([], []))
        self.assertRegex(workers.about, '^; its worker has not stopped for [0-9.]+ s$')
        self.member.is_leaving = True
        wait_until(lambda: self.member.stuck)
        self.assertEqual([type(each) for each in self.member.stuck], [WorkerStuck])
        workers.end()
        self.assertEqual((self.member.ends, self.failures), ([], []))
        workers.close()
        self.assertIsNone(workers._watchdog.poll())
        thaw(self.worker)
        self.assertEqual(workers._watchdog.wait(PATIENCE), 0)
        wait_until(self.are_gone)

    def test_watchdog_dies(self) -> None:
        """The worker dies with it, and the member kills what that one started."""
        workers = self.begin('stubborn')
        os.kill(self.worker, signal.SIGSTOP)
        workers._watchdog.kill()
        workers.stop()
        self.assertTrue(self.are_gone())
        self.assertEqual([type(failure) for failure in self.failures], [WatchdogLost])

    def test_keeper_dies(self) -> None:
        """The watchdog kills what the worker started, also while its member does nothing, which hears of it after
        that."""
        workers, goes_on = self.begin('stubborn'), threading.Event()
        self.addCleanup(goes_on.set)
        workers._ask(goes_on.wait)
        os.kill(parent_of(self.worker), signal.SIGKILL)
        wait_until(self.are_gone)
        self.assertEqual((self.failures, self.member.ends), ([], []))
        goes_on.set()
        wait_until(lambda: self.failures)
        workers.stop()
        self.assertEqual([type(failure) for failure in self.failures], [WatchdogLost])

    def test_watchdog_dies_while_its_member_is_stopped(self) -> None:
        """The keeper stops the worker, and kills what is left, at the latest at the moment until which work is sure."""
        for patience, seconds in ((0.1, 1000.0), (1000.0, 3.0)):
            with self.subTest(patience=patience):
                workers, goes_on = self.begin('stubborn', patience), threading.Event()
                self.addCleanup(goes_on.set)
                workers._ask(goes_on.wait)
                workers.hear_until(clocks.seconds_of_boot() + seconds)
                workers._watchdog.kill()
                wait_until(self.are_gone)
                self.assertEqual((self.failures, self.member.ends), ([], []))
                goes_on.set()
                wait_until(lambda: self.failures)
                workers.stop()
                self.assertEqual([type(failure) for failure in self.failures], [WatchdogLost])
                self.failures.clear()
                self.member.ends.clear()
                (self.folder / 'begun').unlink()

    def test_watchdog_is_told_to_end(self) -> None:
        """A signal that all processes get is for the member, also as the watchdog begins."""
        for number in ENDS:
            with self.subTest(signal=number.name):
                workers = self.made([sys.executable, '-c', WORKER, str(self.folder), 'mild'])
                os.kill(workers._watchdog.pid, number)
                self.begin_again(workers)
                os.kill(workers._watchdog.pid, number)
                workers.stop()
                self.assertTrue(self.are_gone())
                self.assertEqual((self.failures, self.lost, workers._watchdog.poll()), ([], [], None))
                (self.folder / 'begun').unlink()

    def test_stopped_watchdog(self) -> None:
        """If its keeper doesn't kill the worker at its moment, or doesn't report that it has stopped, both are killed
        with all that it began. So are they if the worker doesn't begin."""
        for stops in (False, True):
            with self.subTest(stops=stops):
                workers = self.begin('stubborn', patience=0.1)
                os.kill(parent_of(self.worker), signal.SIGSTOP)
                if stops:
                    workers.stop()
                else:
                    workers.hear_until(clocks.seconds_of_boot())
                    wait_until(self.are_gone)
                    workers.stop()
                self.assertTrue(self.are_gone())
                self.assertEqual([type(failure) for failure in self.failures], [WatchdogLost])
                self.failures.clear()
                (self.folder / 'begun').unlink()
        workers = self.made(['sleep', '1000'], ttl=1.0)
        os.kill(self.keeper(workers), signal.SIGSTOP)
        workers.start(self.assignment)
        wait_until(lambda: self.failures)
        workers.stop()
        self.assertIsInstance(self.failures[0], WatchdogLost)

    def begin_unlisted(self, way: str, has_parents: bool = False, ttl: float = 20 * PATIENCE) -> Timely:
        """A worker that has begun, and whose keeper isn't told any more what is below it. By this ttl its member waits
        for longer than a busy machine takes."""
        since = self.folder / 'since'
        with mock.patch.dict(os.environ, unlisted_from(self, self.folder, since, has_parents)):
            workers = self.made([sys.executable, '-c', WORKER, str(self.folder), way], 0.1, ttl=ttl)
        self.begin_again(workers)
        since.touch()
        return workers

    def test_unlisted(self) -> None:
        """Whatever the kernel lists, a worker is killed with its process group, and has stopped then."""
        workers = self.begin_unlisted('whole')
        workers.stop()
        self.assertTrue(self.are_gone())
        (self.folder / 'begun').unlink()
        self.begin_again(workers)
        workers.hear_until(clocks.seconds_of_boot())
        wait_until(lambda: self.lost)
        self.assertTrue(self.are_gone())
        workers.stop()
        self.assertEqual((self.failures, self.lost), ([], [self.assignment]))

    def test_unlisted_children(self) -> None:
        """What the worker left is found by its parent."""
        workers = self.begin_unlisted('stubborn', has_parents=True)
        workers.stop()
        self.assertTrue(self.are_gone())
        self.assertEqual((self.failures, self.lost), ([], []))

    def test_unlisted_and_left(self) -> None:
        """What the worker left is not said to be gone by a watchdog to which it isn't listed: its member kills both."""
        for is_told in (True, False):
            with self.subTest(is_told=is_told):
                workers = self.begin_unlisted('stubborn', ttl=1.0)
                with self.assertLogs('bully', 'ERROR') as said:
                    if not is_told:
                        workers.hear_until(clocks.seconds_of_boot())
                        wait_until(lambda: not is_running(self.worker))
                    workers.stop()
                self.assertTrue(self.are_gone())
                told = 'nothing is started here before they end: they are not listed'
                self.assertTrue(any(line.endswith(told) for line in said.output), said.output)
                self.assertEqual([type(failure) for failure in self.failures], [WatchdogLost])
                self.assertEqual(self.lost, [])
                self.failures.clear()
                for name in ('begun', 'since'):
                    (self.folder / name).unlink()

    def test_unlisted_at_the_start(self) -> None:
        """Then nothing begins, and why is said."""
        with mock.patch.object(Path, 'read_text', side_effect=FileNotFoundError(2, 'No such file')):
            self.assertRaisesRegex(ChildrenUnlisted, 'needs CONFIG_PROC_CHILDREN', self.made, ['true'])

    def test_stopped_watchdog_at_an_end(self) -> None:
        """A member that ends doesn't wait for a watchdog that is stopped."""
        workers = self.begin('stubborn', patience=0.1)
        for process in (workers._watchdog.pid, parent_of(self.worker)):
            os.kill(process, signal.SIGSTOP)
        workers.close()
        self.assertTrue(self.are_gone())

    def test_until_after_a_stop(self) -> None:
        """A worker that was told to stop, and has much time for that, is killed at the moment until which its work is
        sure."""
        workers = self.begin('stubborn', patience=3600.0)
        workers.hear_until(clocks.seconds_of_boot() + 0.3)
        workers.stop()
        self.assertTrue(self.are_gone())
        self.assertEqual((self.failures, self.lost), ([], []))

    def test_another_user(self) -> None:
        """What can't be killed is reported, and nothing is stopped, or started again, until it is gone, also if its
        member must leave."""
        if os.getuid() != 0:
            self.skipTest('only root can be somebody else')
        rooted = self.folder / 'rooted'
        shutil.copy(str(shutil.which('setpriv')), rooted)
        rooted.chmod(0o4755)
        self.folder.chmod(0o755)
        for kills in (False, True):
            with self.subTest(kills_watchdog=kills):
                self.outlives(rooted, kills)

    def outlives(self, rooted: Path, kills: bool) -> None:
        """A worker by sudo, or the like, outlives its moment, and its watchdog, if that is killed."""
        pipes: dict[str, Any] = {name: subprocess.PIPE for name in ('stdin', 'stdout')}
        reads = ['--inh-caps', '+dac_override', '--ambient-caps', '+dac_override']  # whatever Python's folder is
        user = ['setpriv', '--reuid', '65534', '--regid', '65534', '--clear-groups', *reads]
        words = [*user, sys.executable, '-c', OTHER_USER, str(rooted), 'kills' if kills else '']
        with subprocess.Popen(words, env=environment(), universal_newlines=True, **pipes) as member:
            assert member.stdout is not None and member.stdin is not None
            worker = int(member.stdout.readline())
            for process in (worker, member.pid):  # so that what isn't said is missed
                late = threading.Timer(PATIENCE, os.kill, [process, signal.SIGKILL])
                late.start()
                self.addCleanup(late.cancel)
            print('go on', file=member.stdin, flush=True)
            # (others may yet end)
            self.assertRegex(member.stdout.readline(), rf'^these processes may work on: \[{worker}[]]')
            self.assertEqual(member.stdout.readline(), 'stuck\n')
            self.assertTrue(is_running(worker))
            self.assertEqual(select.select([member.stdout], [], [], 0.3)[0], [], 'nothing has stopped')
            os.kill(worker, signal.SIGKILL)
            if not kills:
                self.assertRegex(member.stdout.readline(), 'the watchdog killed the worker [0-9.]+ s ago')
            self.assertEqual(member.stdout.readline(), 'stopped\n')
            self.assertEqual(member.stdout.readline(), 'lost\n' if not kills else 'WatchdogLost\n')
            member.stdin.close()

    def test_clocks(self) -> None:
        """The moment counts by the clock that goes on in a sleep of the machine, and which another one is far from
        here."""
        if os.getuid() != 0:
            self.skipTest('only root can have clocks of its own')
        words = [
            'unshare', '--time', '--boottime', '1000000', '--fork', '--kill-child', sys.executable, '-c', CLOCKS,
            str(self.folder / 'group.db'),
        ]  # fmt: skip
        ran = subprocess.run(words, env=environment(), stdout=subprocess.PIPE, text=True, check=True, timeout=PATIENCE)
        self.assertEqual(ran.stdout, 'not yet\nlost\nTrue\n')

    def test_member_is_gone(self) -> None:
        """Its worker has as long to end as if it had been told to stop, and its watchdog ends."""
        workers = self.begin('stubborn', patience=0.2)
        workers._channel.shutdown(socket.SHUT_RDWR)
        wait_until(self.are_gone)
        workers._watchdog.wait(PATIENCE)

    def test_no_such_worker(self) -> None:
        workers = self.made(['/nowhere/worker'])
        with self.assertLogs('bully', 'WARNING') as said:
            workers.start(self.assignment)
            wait_until(lambda: self.lost)
        self.assertIn('with status 127', said.output[0])

    def test_no_more_processes(self) -> None:
        """Nothing of a worker that can't be started stays open."""
        for talks in (False, True):
            count = descriptors_of(os.getpid())
            with mock.patch('os.fork', side_effect=BlockingIOError), self.assertRaises(watchdog.NotStarted):
                watchdog.Worker(['sleep', '1000'], [], talks)
            self.assertEqual(descriptors_of(os.getpid()), count)

    def test_what_was_sent_before_its_watchdog_died(self) -> None:
        """It counts for a keeper, however late that reads it: else work would go on after its lease was taken away."""
        mine, given = socket.socketpair(socket.AF_UNIX, socket.SOCK_SEQPACKET)
        with mine, given:
            keeper = watchdog.Keeper(given, watchdog.Rules(1.0, False, 4.0, []), watchdog.MemberWatchdog('', 4.0), 9)
            self.addCleanup(os.close, keeper.timer)
            for moment in (b'8', b'7'):
                mine.send(b'until ' + moment)
            keeper.lose_watchdog()
        self.assertEqual((keeper.until, keeper.is_alone), (7, True))

    def test_a_worker_that_is_not_seen(self) -> None:
        """It has started, but can't be watched: then it isn't reported as one that ended, and the watchdog ends."""
        mine, given = socket.socketpair(socket.AF_UNIX, socket.SOCK_SEQPACKET)
        with mine, given:
            rules, member = watchdog.Rules(1.0, False, 4.0, ['sleep', '1000']), watchdog.MemberWatchdog('', 4.0)
            keeper = watchdog.Keeper(given, rules, member, clocks.nanoseconds_of_boot() + 1000 * clocks.SECOND)
            self.addCleanup(os.close, keeper.timer)
            before = set(children(os.getpid()))
            with mock.patch('os.pidfd_open', side_effect=PermissionError), self.assertRaises(PermissionError):
                keeper.begin(b'x 1', b'')
            [worker] = set(children(os.getpid())) - before
            os.kill(worker, signal.SIGKILL)
            os.waitpid(worker, 0)
            with self.assertRaises(BlockingIOError):
                mine.recv(100, socket.MSG_DONTWAIT)

    def test_signals(self) -> None:
        """A worker begins as any process: no signal is ignored or held back, also if the watchdog began so."""
        before = signal.signal(signal.SIGCHLD, signal.SIG_IGN), signal.pthread_sigmask(
            signal.SIG_BLOCK, [signal.SIGALRM]
        )
        try:
            workers = self.made(['sleep', '1000'])
        finally:
            signal.signal(signal.SIGCHLD, before[0])
            signal.pthread_sigmask(signal.SIG_SETMASK, before[1])
        workers.start(self.assignment)
        wait_until(lambda: [name_of(each) for each in below(workers._watchdog.pid)] == ['sleep'])
        status = Path(f'/proc/{below(workers._watchdog.pid)[0]}/status').read_text().splitlines()
        masks = {line.split()[0]: int(line.split()[1], 16) for line in status if line.startswith(('SigIgn', 'SigBlk'))}
        self.assertEqual(masks, {'SigBlk:': 0, 'SigIgn:': 0})
        self.assertFalse(ignores(workers._watchdog.pid, signal.SIGCHLD), 'it would not hear how its keeper ends')
        workers.stop()

    def test_a_watchdog_that_is_stopped(self) -> None:
        """Its keeper hears of no renewal, for which nobody waits. After that a worker starts all the same."""
        workers = self.made(['sleep', '1000'], seconds=-1.0)
        stopped = workers._watchdog.pid, self.keeper(workers)
        for process in stopped:
            self.addCleanup(os.kill, process, signal.SIGCONT)
            os.kill(process, signal.SIGSTOP)

        def tell() -> None:
            for _ in range(10_000):
                workers.hear_until(clocks.seconds_of_boot() - 1.0)
            workers.hear_until(clocks.seconds_of_boot() + 1000.0)

        thread = threading.Thread(target=tell, daemon=True)
        thread.start()
        wait_until(lambda: not thread.is_alive())
        with self.assertRaises(BlockingIOError):  # so the last one wasn't told
            workers._channel.send(b'until 0', socket.MSG_DONTWAIT)
        for process in stopped:
            os.kill(process, signal.SIGCONT)
        workers.start(self.assignment)
        wait_until(lambda: below(workers._watchdog.pid) or self.lost)
        workers.stop()
        self.assertEqual((self.failures, self.lost), ([], []))

    def test_orphans(self) -> None:
        """What a worker left is waited for once it ends, while the worker goes on, and nothing is heard of the
        member."""
        count = 3 * watchdog.REAPED  # more than in one turn
        workers = self.made(['sh', '-c', f'for each in $(seq {count}); do (sleep 1000 &); done; exec sleep 1000'])
        workers.start(self.assignment)
        wait_until(lambda: len(below(workers._watchdog.pid)) == count + 1)
        worker, *left = below(workers._watchdog.pid)
        keeper = parent_of(worker)
        os.kill(keeper, signal.SIGSTOP)  # so that it hears of all at once
        wait_until(lambda: has_stopped(keeper))
        for each in left:
            os.kill(each, signal.SIGKILL)
        wait_until(lambda: not any(map(is_running, left)))
        os.kill(keeper, signal.SIGCONT)
        wait_until(lambda: below(workers._watchdog.pid) == [worker])
        workers.stop()
        self.assertEqual((self.failures, self.lost), ([], []))

    def test_stopped_in_a_write(self) -> None:
        """Who is stopped in the middle of a write is killed, and others can write."""
        file = self.folder / 'group.db'
        words = f'''
import os, signal, sqlite3
from types import SimpleNamespace
from bully.worker import Workers
file = sqlite3.connect({str(file)!r}, isolation_level=None)
file.executescript('pragma journal_mode = wal; create table log (row text)')
workers = Workers(['true'], 'x', 1.0)
workers.watch(SimpleNamespace(ttl=0.6), {str(file)!r})
file.execute('begin immediate')
os.kill(os.getpid(), signal.SIGSTOP)
'''
        ended = subprocess.run(
            [sys.executable, '-c', words], env=environment(), stderr=subprocess.PIPE, timeout=PATIENCE, check=False
        )
        self.assertEqual(ended.returncode, -signal.SIGKILL, ended.stderr)
        self.assertIn(b'is killed', ended.stderr)

    def test_nobody_reads(self) -> None:
        """A watchdog that has something to say goes on, though nobody reads it any more."""
        reads, writes = os.pipe()
        os.close(reads)
        words = ['-c', 'from bully import watchdog; watchdog.say("x"); print("goes on")']
        ran = subprocess.run(
            [sys.executable, *words], env=environment(), stdout=subprocess.PIPE, stderr=writes, check=True
        )
        os.close(writes)
        self.assertEqual(ran.stdout, b'goes on\n')

    def look_at(self, watch: watchdog.MemberWatchdog, *spans: float) -> None:
        """It looks at its member after so many spans, counted from its last look."""
        last = watch.next_look
        for each in spans:
            with mock.patch.object(watchdog, 'nanoseconds_of_boot', lambda: last + int(each * watch.span)):
                watch.look()

    def writer(self) -> subprocess.Popen[str]:
        """A process that writes to a file when it is told to, as a member."""
        pipes: dict[str, Any] = {name: subprocess.PIPE for name in ('stdin', 'stdout')}
        words = [sys.executable, '-c', WRITER, str(self.folder / 'group.db')]
        writer = subprocess.Popen(words, universal_newlines=True, **pipes)
        self.addCleanup(writer.__exit__, None, None, None)
        self.addCleanup(writer.kill)
        patched = mock.patch.object(os, 'getppid', lambda: writer.pid)
        patched.start()
        self.addCleanup(patched.stop)
        return writer

    def watch(self) -> watchdog.MemberWatchdog:
        """The watchdog of that process, which looks at it twice in two fifths of the ttl."""
        watch = watchdog.MemberWatchdog(f'{self.folder}/group.db-shm', 2.0)
        self.assertLessEqual(2 * watch.span, 0.4 * clocks.SECOND * 2.0)
        self.look_at(watch, 0)
        self.assertLessEqual((watch.pause() or 0) * watchdog.MILLISECOND, watch.span + watchdog.MILLISECOND)
        return watch

    def see_halted(self, halt: Callable[[int], Callable[[], object]]) -> None:
        """A member that doesn't run is killed only in the middle of a write, and only if that lasts."""
        writer = self.writer()
        assert writer.stdin is not None and writer.stdout is not None
        watch = self.watch()
        for said in ('idle\n', 'writes\n'):
            self.assertEqual(writer.stdout.readline(), said)
            wait_until(lambda: processes.states(writer.pid) == 'S')
            self.assertFalse(processes.is_stopped(writer.pid))
            go_on = halt(writer.pid)
            wait_until(lambda: processes.is_stopped(writer.pid))
            with mock.patch.object(os, 'kill', wraps=os.kill) as killed:
                self.look_at(watch, 0, 0.99)
                killed.assert_not_called()
                self.look_at(watch, 0)
                self.assertEqual(killed.mock_calls, [mock.call(writer.pid, signal.SIGKILL)] * (said == 'writes\n'))
            go_on()
            if said == 'idle\n':
                print('go on', file=writer.stdin, flush=True)
        self.assertEqual(writer.wait(PATIENCE), -signal.SIGKILL)

    def test_who_ends_what_is_left(self) -> None:
        """If watchdog or keeper is killed the other one ends the worker, with what that left in another session. Up to
        then the member kills neither: it may be suspended just after that, and nobody would end the rest."""
        for number in range(2):
            with self.subTest(number=number):
                left: list[AbstractSet[int]] = []

                def ends(spared: AbstractSet[int], *more: Any) -> dict[int, int]:
                    left.append(processes.listed_children() - spared)
                    return processes.end_children(spared, *more)

                workers = self.made([sys.executable, '-c', WORKER, str(self.folder), ''], ttl=200.0)
                workers.start(self.assignment)
                wait_until((self.folder / 'begun').exists)
                watchdog = workers._watchdog.pid
                with mock.patch.object(worker, 'end_children', ends):
                    os.kill((watchdog, *keepers(watchdog))[number], signal.SIGKILL)
                    wait_until(lambda: left)
                self.assertEqual(left, [set()])
                workers.close()
                (self.folder / 'begun').unlink()

    def test_who_is_stopped(self) -> None:
        def halt(process: int) -> Callable[[], object]:
            os.kill(process, signal.SIGSTOP)
            return lambda: os.kill(process, signal.SIGCONT)

        self.see_halted(halt)

    def test_who_is_debugged(self) -> None:
        self.see_halted(lambda process: halt_by_debugger(self, process))

    def test_who_is_frozen(self) -> None:
        """By its control group, of both kinds."""
        self.see_halted(lambda process: halt_by_group(self, process, 'cgroup2'))

    def test_who_is_frozen_as_before(self) -> None:
        """It ends once it is thawed."""
        self.see_halted(lambda process: halt_by_group(self, process, 'cgroup'))

    def test_who_is_slow(self) -> None:
        """A member that holds the lock at each look, but in different writes, isn't killed; nor is one that waits for a
        disk, or runs."""
        writer = self.writer()
        assert writer.stdin is not None and writer.stdout is not None
        watch = self.watch()
        self.assertEqual(writer.stdout.readline(), 'idle\n')
        for _ in range(3):
            print('go on', file=writer.stdin, flush=True)
            self.assertEqual(writer.stdout.readline(), 'writes\n')
            wait_until(lambda: processes.states(writer.pid) == 'S')
            self.assertEqual(processes.lock_holder(watch.file), writer.pid)
            self.look_at(watch, 0)
        for state in 'DR':
            with mock.patch.object(watchdog, 'states', lambda _: state):
                self.look_at(watch, 0)
                self.look_at(watch, 0)
        self.assertIsNone(writer.poll())
        self.look_at(watch, 0)
        self.look_at(watch, 0)
        self.assertEqual(writer.wait(PATIENCE), -signal.SIGKILL)
