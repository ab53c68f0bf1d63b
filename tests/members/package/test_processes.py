"""Tests of `bully-member run`, in processes of their own."""
from __future__ import annotations

import contextlib
import errno
import json
import os
import re
import signal
import socket
import sqlite3
import subprocess
import sys
import time
from pathlib import Path
from typing import Any, BinaryIO
from unittest import mock

from bully import clocks, command
from bully.clocks import SECOND
from bully.epochs import Token
from bully.sqlite import SqliteLog
from bully.view import LogView
from bully.worker import WATCHDOG
from places import environment
from ..etcd_servers import free_ports

from ..processes import (
    TaskLimit, children, ender, freeze, full_pipe, has_stopped, ignores, is_running, parent_of, thaw,
)  # fmt: skip
from ..waiting import PATIENCE, wait_until
from .member_processes import BEGINS, STARTS, TALKS, WithMember, asked, manager_in, started
from .unlisted import unlisted_from

OF_WORK = 'BULLY_NODE', 'BULLY_COORDINATOR', 'BULLY_PARTITIONS'
UNTIL = 'select max(until) from leases'
OTHER: dict[str, Any] = {'nodes': 2, 'names': ['another', 'the only'], 'partitions': 3}  # settings
# A command that can start no more than so many threads.
FEW_THREADS = """
import sys, threading
from bully import command
left, start = int(sys.argv[1]), threading.Thread.start
def start_one(thread):
    global left
    left -= 1
    if left < 0:
        raise RuntimeError("can't start new thread")
    start(thread)
threading.Thread.start = start_one
sys.exit(command.main(sys.argv[2:]))
"""


class Processes(WithMember):
    """`bully-member run`."""

    def test_in_order(self) -> None:
        member = self.begin(BEGINS)
        worker = member.worker()
        told = member.environment()
        self.assertEqual([told[name] for name in OF_WORK], ['the only', 'the only', '0 1 2 3 4 5'])
        log = self.opened()
        rows, token = list(log.read(1, 0)), Token(int(told['BULLY_TOKEN']))
        self.assertEqual(token.epoch, 1)
        self.assertTrue(rows[token.events - 1].startswith('plan,1,'))
        settings_told = {
            'names': ['the only'], 'weights': [3], 'partitions': 6, 'keep': False, 'ttl': 2.0, 'margin': 0.4,
        }  # fmt: skip
        self.assertEqual(json.loads(told['BULLY_SETTINGS']), settings_told)
        self.assertEqual(member.end(), 0)
        self.assertFalse(is_running(worker))
        self.assertEqual(self.left(), ('crash,1', {}))

    def test_resized(self) -> None:
        """Its node gets another number, and the worker other settings. What is old is taken away."""
        member = self.begin(BEGINS)
        worker = member.next_worker()
        self.resize(**OTHER)
        self.of_log('prune', '--keep', '1')
        member.next_worker()
        self.assertFalse(is_running(worker))
        told = member.environment()
        self.assertEqual([told[name] for name in OF_WORK], ['the only', 'the only', '0 1 2'])
        self.assertEqual(json.loads(told['BULLY_SETTINGS'])['names'], ['another', 'the only'])
        self.assertEqual(Token(int(told['BULLY_TOKEN'])).epoch, 2)
        self.assertEqual(member.end(), 0)
        self.assertEqual(self.left(), ('crash,2', {}))

    def test_its_node_is_gone(self) -> None:
        """Then it ends by a status by which it is begun again, and it comes back once its node does."""
        member = self.begin(BEGINS)
        member.next_worker()
        self.resize('--all-new', nodes=1, names=['teh only'])
        self.assertEqual(member.wait(), 5)
        self.assertIn('bully-member: the group has no node the only any more\n', member.said)
        member.begin_again()
        self.assertEqual(member.wait(), 5)
        self.resize('--all-new', nodes=1, names=['the only'], weights=[3])
        member.begin_again()
        member.next_worker()
        self.assertEqual(member.end(), 0)

    def test_told_to_end_before_it_takes_part(self) -> None:
        """It waits for a store, and ends in order all the same: as the first process of a container no signal ends it
        by itself."""
        with socket.create_server(('127.0.0.1', 0)) as silent:
            self.options = ['--log', f'etcd://127.0.0.1:{silent.getsockname()[1]}/x', '--node', 'a']
            member = self.begin_as(['true'])
            wait_until(lambda: 'did not answer in time' in member.said)
            self.assertEqual(member.end(), 0)

    def test_a_busy_log(self) -> None:
        """It waits for the lock, also before it takes part."""
        self.init()
        with contextlib.closing(sqlite3.connect(self.path, isolation_level=None)) as file:
            file.execute('begin immediate')
            member = self.begin_as(['sh', '-c', BEGINS])
            wait_until(lambda: 'database is locked' in member.said)
        member.worker()
        self.assertEqual(member.end(), 0)

    def test_a_truncated_file(self) -> None:
        """A process that uses a `-shm` which is truncated ends by a bus error. Its watchdog says so, and ends the
        worker; and another process can begin."""
        for more in ((), ('--each',)):
            member = self.begin(BEGINS, *more)
            worker = member.next_worker()
            os.truncate(f'{self.path}-shm', 0)
            self.assertEqual(member.wait(), -signal.SIGBUS)
            wait_until(lambda: not is_running(worker))
            told = f'bully: process {member.process.pid} ended by a bus error, as if {self.path}-shm was truncated\n'
            wait_until(lambda: told in member.said)
            member.begin_again()
            wait_until(lambda: 'starts work' in member.said)  # the file may be of a worker of before that began late
            self.assertEqual(member.end(), 0)
            self.assertNotIn('bus error', member.said)

    def test_a_stopped_writer(self) -> None:
        """While one is stopped in the middle of a write no other renews. It is killed before the work of the others is
        over."""
        ttl = 8.0
        member = self.begin(BEGINS, '--ttl', str(ttl))
        worker, log = member.worker(), self.opened()
        words = f'''
import os, signal, sqlite3, time
from types import SimpleNamespace
from bully.worker import Workers
from bully.working import Assignment
file = sqlite3.connect({str(self.path)!r}, isolation_level=None, timeout=60)
workers = Workers(['true'], 'x', 1.0)
ended = []
member = SimpleNamespace(ttl={ttl}, margin=1.0, ended=ended.append, end_with=lambda _: os._exit(9))
workers.watch(member, {str(self.path)!r})
workers.start(Assignment(1, 1, (0,), SimpleNamespace(text=lambda *_: '{{}}', name=str)), frozenset([0]))
while not ended:  # so its watchdog is there
    time.sleep(0.01)
until, = file.execute('{UNTIL}').fetchone()
soon = until / {SECOND} - {ttl} * 7 / 8  # a second before it is to be renewed; a stop of 1.6 s is let be
time.sleep(max(0.0, soon - time.clock_gettime(time.CLOCK_BOOTTIME)))
file.execute('begin immediate')
print(*file.execute('{UNTIL}').fetchone(), flush=True)
os.kill(os.getpid(), signal.SIGSTOP)
'''
        for _ in range(5):
            writer = subprocess.run(
                [sys.executable, '-c', words], env=environment(), stdout=subprocess.PIPE, stderr=subprocess.DEVNULL,
                timeout=4 * PATIENCE,
            )  # fmt: skip
            ended = clocks.seconds_of_boot()
            if writer.returncode == 9:  # on a busy machine its watchdog was too late to say anything
                continue
            self.assertEqual(writer.returncode, -signal.SIGKILL)
            until = int(writer.stdout) / SECOND
            wait_until(lambda: self.until(log) > until)  # it was renewed since
            self.assertTrue(is_running(worker))
            if ended > until - ttl + ttl / 4:  # that was to be renewed while the writer was stopped
                break
        else:
            self.fail('nothing was to be renewed while a writer was stopped')
        self.assertEqual(member.end(), 0)

    def until(self, log: SqliteLog) -> float:
        """Up to when the lease is held."""
        return log._one(UNTIL) / SECOND

    def full(self) -> BinaryIO:
        """A pipe that has no room, and that nobody reads."""
        reads, writes = full_pipe()
        self.addCleanup(os.close, reads)
        return open(writes, 'wb', buffering=0)

    def test_nobody_reads(self) -> None:
        """It works, and leaves in order, also if what it says finds no reader."""
        member = self.begin(BEGINS, said=self.full())
        worker = member.worker()
        self.assertEqual(member.end(), 0)
        self.assertFalse(is_running(worker))
        self.assertEqual(self.left(), ('crash,1', {}))

    def test_nobody_reads_why_it_ends(self) -> None:
        member = self.begin('exit 0', said=self.full())
        self.assertEqual(member.wait(), 1)
        self.assertEqual(self.left(), ('crash,1', {}))

    def test_nobody_reads_what_goes_wrong(self) -> None:
        """A quiet member says that, and doesn't wait for a reader either."""
        member = self.begin('echo begun >> $FOLDER/begins; exit 5', '--quiet', said=self.full())
        begins = self.folder / 'begins'
        wait_until(lambda: begins.exists() and begins.read_text().count('begun') > 1)
        self.assertEqual(member.end(), 0)

    def test_nobody_reads_why_no_worker_starts(self) -> None:
        """A program that is not there is a failure all the same."""
        for more in ((), ('--each',)):
            with self.subTest(more=more):
                self.init(*more)
                member, log = self.begin_as(['/nowhere/worker'], self.full()), self.opened()
                wait_until(lambda: 'the only' in log.snapshot(1, 0).failing)
                self.assertEqual(member.end(), 0)

    def test_signals_that_are_ignored(self) -> None:
        """Whoever starts it may ignore the ends of children: a worker that fails has failed all the same."""
        for more in ((), ('--each',)):
            with self.subTest(more=more):
                self.init(*more)
                member = self.begin_as(['sh', '-c', 'exit 7'], within=['env', '--ignore-signal=CHLD'])
                wait_until(lambda: member.said.count('failed, with status 7') > 1)
                self.assertFalse(ignores(member.process.pid, signal.SIGCHLD))
                self.assertEqual(member.end(), 0)
                self.assertNotIn('Traceback', member.said)

    def test_variables_of_another_member(self) -> None:
        """A worker has those of its own member, and none of another one whose worker that is."""
        names = 'NODE', 'TOKEN', 'PARTITIONS', 'PARTITION', 'COORDINATOR', 'SETTINGS', 'SETTINGS_FILE', 'ANSWERS'
        others = {f'BULLY_{name}': 'of another' for name in names}
        of_work = {'NODE', 'TOKEN', 'PARTITIONS', 'COORDINATOR', 'SETTINGS', 'SETTINGS_FILE'}
        kinds: dict[tuple[str, ...], set[str]] = {(): of_work, ('--talk',): {'NODE', 'ANSWERS'}}
        for more, has in kinds.items():
            with self.subTest(more=more):
                self.init(*more)
                member = self.begin_as(['sh', '-c', BEGINS], BULLY_LOG='sqlite:/its own', **others)
                member.next_worker()
                told = {name: value for name, value in member.environment().items() if name.startswith('BULLY_')}
                self.assertEqual({name for name in names if f'BULLY_{name}' in told}, has)
                self.assertNotIn('of another', told.values())
                self.assertEqual(told['BULLY_LOG'], 'sqlite:/its own')

    def test_no_more_threads(self) -> None:
        """That may pass: it says so, and can be started again."""
        self.init()
        for count in range(3):  # as many as it needs
            with self.subTest(threads=count):
                words = [sys.executable, '-c', FEW_THREADS, str(count), 'run', *self.options, '--', 'true']
                ran = subprocess.run(words, env=environment(), stderr=subprocess.PIPE, text=True, timeout=PATIENCE)
                self.assertEqual(ran.returncode, 4, ran.stderr)
                self.assertIn('bully-member: no thread can be started now', ran.stderr)
                self.assertNotIn('Traceback', ran.stderr)

    def test_limit_on_tasks(self) -> None:
        """However few threads and processes it may start, it says that it can't start more, or works. It works once it
        may."""
        limit = TaskLimit(self)
        self.begin(BEGINS).kill()
        words = [sys.executable, *self.words[self.words.index('-W') + 2 :]]  # as users start it
        for count in limit.counts:
            with self.subTest(count=count):
                (self.folder / 'begun').unlink(missing_ok=True)
                member = self.begin_limited(words, limit, count)
                wait_until(lambda: member.poll() is not None or 'is started again' in self.told() or self.works())
                limit.lift(member.pid)
                if member.poll() is None:
                    wait_until(self.works)
                    member.terminate()
                    self.assertEqual(member.wait(PATIENCE), 0, self.told())
                else:
                    self.assertIn(member.returncode, (1, 4), self.told())
                    self.assertRegex(self.told(), '(thread|process|keeper of the worker) can be started')
                self.assertNotIn('Traceback', self.told())

    def test_no_keeper(self) -> None:
        """A watchdog that may start no process says so, and ends: its member hears of that."""
        limit = TaskLimit(self)
        mine, given = socket.socketpair(socket.AF_UNIX, socket.SOCK_SEQPACKET)
        with mine, given:
            words = [sys.executable, '-I', '-S', WATCHDOG, str(given.fileno()), '1', 'ends', '', '2', 'true']
            watchdog = self.begin_limited(words, limit, 1, given.fileno())
            self.assertEqual(watchdog.wait(PATIENCE), 1)
        said = f'bully: no keeper of the worker can be started: {os.strerror(errno.EAGAIN)}\n'
        self.assertEqual(self.told(), said)

    def begin_limited(self, words: list[str], limit: TaskLimit, count: int, *given: int) -> subprocess.Popen[bytes]:
        """A process of these words, with these descriptors, within such a limit."""
        first = ['sh', '-c', 'read -r line; exec "$@"', 'sh', *words]
        with open(self.folder / 'said', 'wb') as said:
            member = subprocess.Popen(
                first, env=environment(FOLDER=str(self.folder)), stderr=said, stdin=subprocess.PIPE, pass_fds=given
            )
        self.addCleanup(member.wait)
        self.addCleanup(member.kill)
        limit.set(member.pid, count)
        assert member.stdin is not None
        member.stdin.close()
        return member

    def told(self) -> str:
        return (self.folder / 'said').read_text()

    def works(self) -> bool:
        """Whether a worker has begun."""
        return (self.folder / 'begun').exists()

    def test_quiet(self) -> None:
        member = self.begin('exit 5', '--quiet')
        wait_until(lambda: member.said)
        self.assertEqual(member.end(), 0)
        for line in member.said.splitlines():
            self.assertIn(' bully-member: the worker failed, with status 5, and is started again in ', line)

    def test_messages_for_programs(self) -> None:
        """Each is a line of JSON."""
        member = self.begin(BEGINS, '--log-format', 'json')
        member.worker()
        self.assertEqual(member.end(), 0)
        told = [json.loads(line) for line in member.said.splitlines()]
        self.assertEqual(
            {(frozenset(each), each['level']) for each in told}, {(frozenset({'time', 'level', 'message'}), 'info')}
        )
        self.assertRegex(told[0]['message'], '^node the only: live as [0-9]+[.]1$')
        self.assertTrue(all(abs(each['time'] - time.time()) < PATIENCE for each in told))

    def test_why_it_ends_for_programs(self) -> None:
        """So is the last message."""
        member = self.begin('exit 0', '--log-format', 'json')
        self.assertEqual(member.wait(), 1)
        last = [json.loads(line) for line in member.said.splitlines()][-1]
        self.assertEqual((last['level'], last['message']), ('error', 'the worker ended by itself, with status 0'))

    def test_what_its_watchdog_says_for_programs(self) -> None:
        """So is what the watchdog says, for example of a worker that isn't there."""
        self.init('--log-format', 'json')
        member = self.begin_as(['/no/such/worker'])
        wait_until(lambda: 'No such file' in member.said)
        self.assertEqual(member.end(), 0)
        told = [(each['level'], each['message']) for each in map(json.loads, member.said.splitlines())]
        self.assertIn(('error', '/no/such/worker: No such file or directory'), told)

    def test_a_late_renewal(self) -> None:
        """A worker that its watchdog has killed, because it heard of renewals too late, is begun again."""
        member = self.begin(BEGINS)
        for _ in range(3):
            worker = member.next_worker()
            watchdog = parent_of(worker)
            os.kill(watchdog, signal.SIGSTOP)  # it hears of no renewal
            begun = clocks.seconds_of_boot()
            wait_until(lambda: clocks.seconds_of_boot() > begun + 2.0)
            os.kill(watchdog, signal.SIGCONT)
            self.assertNotEqual(member.worker(), worker)
            self.assertFalse(is_running(worker))
        self.assertEqual(member.end(), 0)

    def test_the_worker_ends(self) -> None:
        """It isn't begun again if it says that it is done."""
        member = self.begin('echo begun >> $FOLDER/begins; exit 0')
        self.assertEqual(member.wait(), 1)
        self.assertIn('bully-member: the worker ended by itself, with status 0\n', member.said)
        self.assertIn('node the only: it has left, because the worker ended by itself, with status 0\n', member.said)
        self.assertNotIn('told to leave', member.said)
        self.assertEqual((self.left(), (self.folder / 'begins').read_text()), (('crash,1', {}), 'begun\n'))

    def test_the_worker_fails(self) -> None:
        """It is begun again and again, and nobody else hears of it: nothing is appended, and the lease stays."""
        member, begins = self.begin('echo begun >> $FOLDER/begins; exit 5'), self.folder / 'begins'
        wait_until(begins.exists)
        log = self.opened()
        before = log.snapshot(1, 0)
        wait_until(lambda: begins.read_text().count('begun') == 3)
        after = log.snapshot(1, 0)
        self.assertEqual((list(after.rows), after.sessions), (list(before.rows), before.sessions))
        self.assertEqual(member.end(), 0)
        said = member.said
        self.assertLess(
            said.index('failed, with status 5, and is started again in 0.4 s'), said.index('is started again in 0.8 s')
        )
        self.assertEqual(self.left(), ('crash,1', {}))

    def test_a_worker_that_does_not_end(self) -> None:
        """All wait for it, and are told so, until SIGTERM ends its member. That gives nothing back: its lease ends
        by itself."""
        member = self.begin(BEGINS, '--stop-seconds', '0.1')
        worker, log = member.worker(), self.opened()
        freeze(self, worker)
        self.resize('--seconds', '0.1', status=1, **OTHER)
        wait_until(lambda: f'nothing is started here before they end: [{worker}]' in member.said)
        with contextlib.closing(LogView(self.opened())) as shown:
            self.assertEqual(list(shown.show().waits), ['the only'])
        self.assertEqual(member.end(), 1)
        told = 'the worker was killed, and has not ended for [0-9]+[.][0-9] s; the lease of its node ends by itself\n'
        self.assertRegex(member.said, told)
        self.assertEqual(list(log.snapshot(1, 0).holders), ['the only'], 'nothing is given back')
        self.resize('--seconds', str(PATIENCE), **OTHER)
        self.assertEqual(log.epochs()[-1], 2)
        thaw(worker)
        wait_until(lambda: not is_running(worker))

    def test_a_service(self) -> None:
        """What started it hears that it is ready, what it does, and that it goes on. Its worker has no part in
        that."""
        with manager_in(self.folder) as manager:
            member = self.begin(BEGINS)
            self.assertEqual(manager.recv(1000), b'READY=1')
            member.worker()
            told = member.environment()
            self.assertEqual(told.keys() & {'NOTIFY_SOCKET', 'WATCHDOG_USEC'}, set())
            wanted = f'STATUS=works on 6 partitions by token {told["BULLY_TOKEN"]}\nWATCHDOG=1'.encode()
            wait_until(lambda: manager.recv(1000) == wanted)
            member.process.terminate()
            wait_until(lambda: b'STOPPING=1' in manager.recv(1000))
        self.assertEqual(member.wait(), 0)

    def test_drained(self) -> None:
        """Its worker ends and its process stays, is well, and says so to all that ask. It works again once that is
        over, and ends in order."""
        [port] = free_ports(1)
        with manager_in(self.folder) as manager:
            member = self.begin(BEGINS, '--listen', str(port))
            worker = member.next_worker()
            self.of_log('drain', 'the only', '--all')
            self.assertFalse(is_running(worker))
            self.assertEqual(self.left(), ('crash,1', {}))
            for _ in range(3):  # so it goes on
                wait_until(lambda: manager.recv(1000) == b'STATUS=drained\nWATCHDOG=1')
        self.assertEqual(asked(port, '/healthz'), (200, 'drained\n'))
        self.assertIn('\nbully_drained{node="the only"} 1\n', asked(port, '/metrics')[1])
        self.assertIn('<td>no, drained<td>', asked(port, '/')[1])
        self.of_log('undrain', 'the only')
        wait_until(lambda: asked(port, '/healthz') == (200, 'live\n'))
        member.next_worker()
        self.assertIn('\nbully_drained{node="the only"} 0\n', asked(port, '/metrics')[1])
        self.of_log('drain', 'the only', '--all')
        wait_until(lambda: asked(port, '/healthz')[1] == 'drained\n')
        self.assertEqual(member.end(), 0)
        self.assertIn('node the only: it is drained, and does nothing\n', member.said)

    def test_a_backup_is_copied_back(self) -> None:
        """Its member ends by a status by which it isn't begun again: it would use tokens again."""
        member = self.begin(BEGINS)
        worker, backup = member.worker(), self.path.read_bytes()
        self.path.write_bytes(backup)
        for end in ('-wal', '-shm'):
            Path(f'{self.path}{end}').unlink()
        self.assertEqual(member.wait(), 3)
        self.assertIn(
            f'bully-member: {self.path}: its -wal or its -shm was removed, and others use another one\n',
            member.said,
        )
        self.assertFalse(is_running(worker))

    def test_keeps_epochs(self) -> None:
        """It takes old ones away by itself."""
        member, log = self.begin(BEGINS, '--keep', '2'), self.opened()
        for partitions in (3, 4, 5):
            member.next_worker()
            self.resize(nodes=1, names=['the only'], partitions=partitions)
        wait_until(lambda: log.epochs() == range(3, 5))
        self.assertEqual(member.end(), 0)
        self.assertEqual(log.epochs(), range(3, 5))

    def test_a_store_that_is_silent_at_first(self) -> None:
        """The process is alive before it has heard of its store, and isn't ready. It ends in order."""
        [port] = free_ports(1)
        with socket.create_server(('127.0.0.1', 0)) as silent:  # which answers nothing
            server = f'127.0.0.1:{silent.getsockname()[1]}'
            self.options = ['--log', f'etcd://{server}/group', '--node', 'b', '--listen', str(port)]
            member = self.begin_as(['true'])
            silent.accept()[0].close()
            wait_until(lambda: asked(port, '/livez')[0] == 200)
            targets = '/readyz', '/healthz', '/leader', '/partitions/0', '/', '/metrics'
            self.assertEqual([asked(port, target)[0] for target in targets], [503] * 5 + [200])
            wait_until(lambda: server in member.said)
            self.assertEqual((member.end(), asked(port, '/livez')), (0, (0, '')))

    def test_a_container(self) -> None:
        """What a container begins listens on all its addresses."""
        [port] = free_ports(1)
        words, more = self.container(port)
        member = started(self.folder, words, None, **more)
        self.addCleanup(member.kill)
        wait_until(lambda: asked(port, '/healthz', '127.0.0.2') == (200, 'live\n'))
        member.terminate()
        self.assertEqual(member.wait(PATIENCE), 0)

    def kill_at_once(self, *processes: int) -> None:
        """At one moment: none does anything after the end of another one. A stopped one below another goes on if that
        ends, so the lowest is killed first."""
        for process in processes:
            os.kill(process, signal.SIGSTOP)
        wait_until(lambda: all(map(has_stopped, processes)))
        for process in reversed(processes):
            os.kill(process, signal.SIGKILL)

    def test_killed_with_its_watchdog(self) -> None:
        """The keeper ends the worker with what that began, and then releases the lease."""
        member = self.begin(STARTS, '--ttl', '100')
        line = self.line(member)
        self.kill_at_once(line.member, line.watchdog)
        self.assertEqual(member.wait(), -signal.SIGKILL)
        wait_until(lambda: not any(map(is_running, line)))
        self.assertEqual(self.opened().snapshot(1, 0).holders, {})

    def test_its_watchdog_is_killed_while_it_is_stopped(self) -> None:
        """The keeper ends the worker with what that began, and the lease stays."""
        member = self.begin(STARTS, '--ttl', '100', '--stop-seconds', '0.1')
        line = self.line(member)
        member.process.send_signal(signal.SIGSTOP)
        os.kill(line.watchdog, signal.SIGKILL)
        wait_until(lambda: not any(map(is_running, line[2:])))
        self.assertEqual(list(self.opened().snapshot(1, 0).holders), ['the only'])
        member.process.send_signal(signal.SIGCONT)
        self.assertEqual(member.wait(), 1)
        self.assertIn('the watchdog of the worker died', member.said)

    def test_killed_with_all_guards(self) -> None:
        """The worker dies, and what that began lives, as nobody knows of it. Another member begins all the same."""
        member = self.begin(STARTS)
        line = self.line(member)
        self.kill_at_once(line.member, line.watchdog, line.keeper)
        wait_until(lambda: not is_running(line.worker))
        self.assertEqual(member.wait(), -signal.SIGKILL)
        self.assertEqual((is_running(line.keeper), is_running(line.child)), (False, True))
        member.begin_again()
        member.next_worker()
        self.assertEqual(member.end(), 0)
        self.assertTrue(is_running(line.child))

    def test_killed_with_all_guards_as_another_user(self) -> None:
        """A worker that has become another user doesn't die then: Linux forgets what it was to die of."""
        if os.getuid() != 0:
            self.skipTest('only root becomes another user')
        member = self.begin(BEGINS.replace('exec', 'exec setpriv --reuid 65534 --regid 65534 --clear-groups'))
        worker = member.next_worker()
        self.addCleanup(ender(worker))
        wait_until(lambda: os.stat(f'/proc/{worker}').st_uid == 65534)
        keeper = parent_of(worker)
        self.kill_at_once(member.process.pid, parent_of(keeper), keeper)
        self.assertEqual(member.wait(), -signal.SIGKILL)
        member.begin_again()
        member.next_worker()
        self.assertTrue(is_running(worker))
        self.assertEqual(member.end(), 0)

    def test_killed_with_all_guards_in_a_container(self) -> None:
        """There what the worker began ends, too: the first process of a container, which waits for the member, is its
        end."""
        if os.getuid() != 0:
            self.skipTest('only root can have processes of its own numbers')
        self.init()
        within = ['unshare', '--pid', '--fork', '--kill-child', '--mount-proc', 'sh', '-c', '"$@"; exit 7', 'sh']
        container = self.begin_as(['sh', '-c', STARTS], within=within)
        container.next_worker()
        line = [container.process.pid]
        for _ in range(6):  # the first process, the member, its watchdog, its keeper, the worker, and what that began
            wait_until(lambda: len(children(line[-1])) == 1)  # what told that the worker has begun may be there still
            line += children(line[-1])
        _, first, member, watchdog, keeper, worker, child = line
        self.kill_at_once(member, watchdog, keeper)
        wait_until(lambda: not any(map(is_running, (first, worker, child))))
        self.assertEqual(container.wait(), 7)

    def test_killed_while_its_watchdog_is_stopped(self) -> None:
        """The watchdog and the keeper go on at the member's end, and end the worker, also if nobody continues them."""
        member = self.begin(STARTS)
        line = self.line(member)
        for process in (line.watchdog, line.keeper):
            os.kill(process, signal.SIGSTOP)
            wait_until(lambda: has_stopped(process))
        member.process.kill()
        self.assertEqual(member.wait(), -signal.SIGKILL)
        wait_until(lambda: not any(map(is_running, line)))

    def test_children_that_the_kernel_does_not_list(self) -> None:
        """Nothing could end all that a worker begins: so its member says so at once, and takes no part."""
        unlisted = unlisted_from(self, self.folder, self.folder)
        with mock.patch.dict(os.environ, unlisted):
            member = self.begin(BEGINS)
        self.assertEqual(member.wait(), 6)
        self.assertIn('bully-member: the kernel does not list the children of a process, so the processes', member.said)
        self.assertIn('/children', member.said)
        self.assertFalse((self.folder / 'begun').exists())
        self.assertEqual(self.opened().snapshot(1, 0).holders, {})

    def test_stopped(self) -> None:
        """The worker, also one that stays, is killed while its member is stopped, and another one begins once that goes
        on, which says that."""
        for worker, more in ((BEGINS, ()), (TALKS, ('--talk',))):
            with self.subTest(more=more):
                member = self.begin(worker, *more)
                first = member.next_worker()
                wait_until(lambda: 'starts work' in member.said)
                member.process.send_signal(signal.SIGSTOP)
                wait_until(lambda: not is_running(first))
                member.process.send_signal(signal.SIGCONT)
                member.next_worker()
                said = [line for line in member.said.splitlines() if 'watchdog' in line]
                self.assertEqual(len(said), 1, member.said)
                why = 'the watchdog killed the worker [0-9.]+ s ago, because the lease was not sure any more'
                self.assertRegex(said[0], why)
                self.assertEqual(member.end(), 0)

    def test_processes(self) -> None:
        """The member, its watchdog, the keeper, its worker and what that began are all, and none stays."""
        member = self.begin(STARTS)
        line = self.line(member)
        self.assertEqual([children(each) for each in line], [*([each] for each in line[1:]), []])
        self.assertEqual(member.end(), 0)
        self.assertFalse(any(map(is_running, line)))

    def test_talks(self) -> None:
        """A worker stays over a change of the group, and hears of it."""
        member = self.begin(TALKS, '--talk')
        worker, (begun,) = member.worker(), member.told(1)
        self.assertEqual(
            (begun['partitions'], begun['coordinator'], begun['settings']['ttl']), ([0, 1, 2, 3, 4, 5], 'the only', 2.0)
        )
        self.resize(**OTHER)
        _, stopped, again = member.told(3)
        self.assertEqual((stopped, again['partitions'], Token(again['begin']).epoch), ({'stop': True}, [0, 1, 2], 2))
        self.assertEqual(member.worker(), worker)
        self.assertTrue(is_running(worker))
        self.assertEqual(member.end(), 0)
        self.assertFalse(is_running(worker))
        self.assertEqual(len(member.told(4)), 4)
