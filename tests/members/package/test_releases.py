"""Tests of leases that are released because their members are gone: by watchdogs, and by the command."""
from __future__ import annotations

import contextlib
import dataclasses
import json
import os
import signal
import sqlite3
import subprocess
import sys
import time
import unittest
from pathlib import Path
from unittest import mock

from bully import clocks, command, control_groups, sessions
from bully.core import Session
from bully.releasing import command_release, file_release, release_from_file
from bully.sqlite import SqliteLog
from bully.worker import Workers
from places import PYTHON, ROOT, environment
from ..processes import children, freeze, has_stopped, is_running, parent_of, thaw
from ..steps import EMPTY, LONG, OPENING, A, B
from ..waiting import PATIENCE, wait_until
from .below import Below, assigned
from .folders import InFolder
from .member_processes import BEGINS, STARTS, WithMember, call

TTL = '60'  # so that no lease ends by itself
SLOW = f'trap "sleep 1; exit 0" TERM; {BEGINS.replace("exec sleep", "sleep 1000 & wait; sleep")}'
STUBBORN = f'trap "" TERM; {BEGINS}'
EACH = 'sleep 1000 & echo $! > $FOLDER/child; echo $$ > $FOLDER/new$BULLY_PARTITION; mv $FOLDER/new$BULLY_PARTITION $FOLDER/$BULLY_PARTITION; trap "" TERM; sleep 1000'


class ByTheWatchdog(WithMember):
    """A member that is killed: its watchdog releases its lease once nothing of the worker is left."""

    def sessions(self) -> list[str]:
        """The sessions that hold a lease, or whose lease ended by itself."""
        with contextlib.closing(sqlite3.connect(self.path)) as file:
            return [session for session, in file.execute('select session from leases')]

    def killed(self, worker: str, *more: str) -> tuple[int, int]:
        """The worker, and the watchdog, of a member that was killed."""
        member = self.begin(worker, '--ttl', TTL, *more)
        worked = member.worker()
        watchdog = parent_of(worked)
        self.assertEqual(len(self.sessions()), 1)
        member.process.kill()
        member.wait()
        return worked, watchdog

    def test_at_once(self) -> None:
        begun = clocks.seconds_of_boot()
        worker, watchdog = self.killed(STARTS)
        wait_until(lambda: not self.sessions())
        self.assertFalse(is_running(worker))
        self.assertLess(clocks.seconds_of_boot() - begun, float(TTL) / 2)
        wait_until(lambda: not is_running(watchdog))
        with contextlib.closing(SqliteLog(self.path)) as log:
            self.assertEqual(log.snapshot(1, 0).holders, {})

    def test_a_working_directory_of_others(self) -> None:
        """Neither the member nor its watchdog loads what lies there."""
        loaded = self.planted()
        self.killed(STARTS)
        wait_until(lambda: not self.sessions())
        self.assertFalse(loaded.exists())

    def test_another_node_takes_over(self) -> None:
        """It sees that at once, and so does a process that comes for the same node."""
        member = self.begin(BEGINS, '--ttl', TTL)
        member.next_worker()
        member.kill()
        begun = clocks.seconds_of_boot()
        member.begin_again()
        member.next_worker()
        self.assertLess(clocks.seconds_of_boot() - begun, float(TTL) / 2)
        self.assertEqual(member.end(), 0)

    def test_slow_workers(self) -> None:
        """One that takes a second to stop, and one that has to be killed: never before they are gone."""
        for worker, more in ((SLOW, ()), (STUBBORN, ('--stop-seconds', '0.5'))):
            with self.subTest(worker=worker):
                process, watchdog = self.killed(worker, *more)
                held = 0
                while self.sessions():
                    held += 1
                    time.sleep(0.01)
                self.assertFalse(is_running(process))
                self.assertGreater(held, 10, 'the worker took its time')
                wait_until(lambda: not is_running(watchdog))

    def test_a_worker_that_can_not_be_killed(self) -> None:
        """The lease stays until it has ended; and then the lease of a session that has come is let be."""
        member = self.begin(BEGINS, '--ttl', '1', '--stop-seconds', '0.1')
        worker = member.next_worker()
        watchdog, (before,) = parent_of(worker), self.sessions()
        freeze(self, worker)
        member.process.kill()
        member.wait()
        wait_until(lambda: not is_running(worker))  # it was killed, and hasn't ended
        self.assertEqual(self.sessions(), [before])
        member.begin_again()
        member.next_worker()
        (after,) = self.sessions()
        self.assertNotEqual(after, before)
        self.assertTrue(is_running(watchdog))
        thaw(worker)
        wait_until(lambda: not is_running(watchdog))
        self.assertEqual(self.sessions(), [after])
        self.assertEqual(member.end(), 0)

    def test_frozen(self) -> None:
        """While it can't be killed nothing is released, however long that lasts."""
        member = self.begin(BEGINS, '--ttl', TTL, '--stop-seconds', '0.1')
        worker = member.worker()
        watchdog = parent_of(worker)
        freeze(self, worker)
        member.process.kill()
        member.wait()
        wait_until(lambda: not is_running(worker))
        end = clocks.seconds_of_boot() + 0.5
        while clocks.seconds_of_boot() < end:
            self.assertEqual((len(self.sessions()), is_running(watchdog)), (1, True))
        thaw(worker)
        wait_until(lambda: not self.sessions())

    def test_stopped(self) -> None:
        """A member that is only stopped keeps its lease, though its worker is killed; until it is killed, too."""
        member = self.begin(BEGINS, '--ttl', '1')
        worker = member.worker()
        (session,) = self.sessions()
        member.process.send_signal(signal.SIGSTOP)
        wait_until(lambda: has_stopped(member.process.pid) and not is_running(worker))
        self.assertEqual(self.sessions(), [session])
        member.process.kill()
        wait_until(lambda: not self.sessions())

    def test_each(self) -> None:
        """Once nothing is left of any worker; also if a keeper dies after its member."""
        for kills in (False, True):
            with self.subTest(kills=kills):
                member = self.begin(EACH, '--ttl', TTL, '--each', '--stop-seconds', '1000' if kills else '0.5')
                files = [self.folder / str(each) for each in range(6)]
                wait_until(lambda: all(file.exists() for file in files))
                workers = [int(file.read_text()) for file in files]
                keepers = list(map(parent_of, workers))
                (watchdog,) = children(member.process.pid)
                self.assertEqual(sorted(children(watchdog)), sorted(keepers))
                left = [each for worker in workers for each in children(worker)]
                member.process.kill()
                member.wait()
                if kills:
                    os.kill(keepers[0], signal.SIGKILL)
                wait_until(lambda: not self.sessions())
                self.assertFalse(any(map(is_running, [*workers, *left, *keepers])))
                wait_until(lambda: not is_running(watchdog))
                for file in files:
                    file.unlink()

    def test_a_busy_file(self) -> None:
        """It gives that up within a ttl, and the lease ends by itself."""
        member = self.begin(BEGINS, '--ttl', '1')
        worker = member.worker()
        watchdog = parent_of(worker)
        with contextlib.closing(sqlite3.connect(self.path, isolation_level=None)) as file:
            file.execute('begin immediate')
            member.process.kill()
            member.wait()
            wait_until(lambda: not is_running(watchdog))
            file.execute('rollback')
        self.assertEqual(len(self.sessions()), 1)

    def test_session_file(self) -> None:
        """It has the session before that holds the lease, for its user alone, until the member has left in order: then
        it is empty."""
        notes = self.folder / 'session'
        member = self.begin(BEGINS, '--ttl', TTL, '--session-file', str(notes))
        member.worker()
        self.assertEqual([notes.read_text()], [f'{session}\n' for session in self.sessions()])
        self.assertEqual(notes.stat().st_mode & 0o7777, 0o600)
        self.assertEqual((member.end(), notes.read_text()), (0, ''))
        member.begin_again()
        wait_until(notes.read_text)
        member.kill()
        self.assertRegex(notes.read_text(), r'^\d+\.1\n$')
        self.assertEqual([each.name for each in self.folder.iterdir() if each.name.startswith('session')], ['session'])


class Noted(Below):
    """What a watchdog is told of sessions."""

    def setUp(self) -> None:
        super().setUp()
        self.log = SqliteLog.create(self.folder / 'group.db', OPENING)
        self.addCleanup(self.log.close)
        self.assertTrue(self.log.acquire('a', A, EMPTY, LONG))
        path, name = os.path.realpath(self.log.path), self.log.name
        self.releases = lambda session: file_release(path, name, 'a', f'{session.process}.{session.number}')

    def holders(self) -> list[str]:
        return list(self.log.snapshot(1, 0).holders)

    def end(self, workers: Workers) -> None:
        workers.close()
        workers._watchdog.wait(PATIENCE)

    def test_the_last_one(self) -> None:
        """Only the last one counts. While the member is there nothing is released."""
        workers = self.made(['sleep', '1000'])
        workers.hear_session(A)
        workers.start(assigned(2, 0))
        workers.stop()
        self.assertEqual(self.holders(), ['a'])
        workers.hear_session(B)
        self.end(workers)
        self.assertEqual(self.holders(), ['a'])
        workers = self.made(['sleep', '1000'])
        workers.hear_session(B)
        workers.hear_session(A)
        self.end(workers)
        self.assertEqual(self.holders(), [])

    def test_one_that_has_left(self) -> None:
        """Then nothing is released: the member has done that."""
        workers = self.made(['sleep', '1000'])
        workers.hear_session(A)
        workers.forget_session()
        self.end(workers)
        self.assertEqual(self.holders(), ['a'])

    def test_while_a_long_message_comes(self) -> None:
        """What is told of a session is no part of other messages."""
        workers = self.made(['sh', '-c', 'env > $0/new; mv $0/new $0/env; exec sleep 1000', str(self.folder)])
        workers._ask(lambda: workers._send(b'part BULLY_A=1\0'))
        workers._ask(lambda: workers._flush())
        workers._ask(lambda: workers.hear_session(A))
        workers.start(assigned(2, 0))
        wait_until((self.folder / 'env').exists)
        self.assertIn('BULLY_A=1\n', (self.folder / 'env').read_text())
        self.end(workers)
        self.assertEqual(self.holders(), [])


class Alone(InFolder):
    """The release itself, in a process that may become another one."""

    def setUp(self) -> None:
        super().setUp()
        self.log = self.closing(SqliteLog.create(self.path, OPENING))
        self.assertTrue(self.log.acquire('a', A, EMPTY, LONG))

    def released(self, told: bytes, seconds: float = PATIENCE) -> subprocess.CompletedProcess[str]:
        words = [
            sys.executable,
            '-c',
            'import sys\nfrom bully.releasing import release\nrelease(sys.argv[1].encode(), float(sys.argv[2]))',
        ]
        run = [*words, told.decode(), str(seconds)]
        return subprocess.run(run, env=environment(FIRST='1'), capture_output=True, text=True, timeout=PATIENCE)

    def test_exactly_that(self) -> None:
        """Only in the log of that name the lease of that session on that node."""
        path, name = str(self.path), f'{A.process}.{A.number}'
        for log, node, session in (('x', 'a', name), (self.log.name, 'b', name), (self.log.name, 'a', '7.7')):
            release_from_file(path, log, node, session, 1.0)
            self.assertEqual(list(self.log.snapshot(1, 0).holders), ['a'])
        before = self.log.snapshot(1, 0)
        release_from_file(path, self.log.name, 'a', name, 1.0)
        self.assertEqual((list(before.holders), self.log.snapshot(1, 0).holders), (['a'], {}))

    def test_others_see_it(self) -> None:
        """It is counted as a change of leases, so a wait of another process ends by it."""
        count = "select sessions from changes"
        with contextlib.closing(sqlite3.connect(self.path)) as file:
            before = file.execute(count).fetchone()[0]
            told = file_release(str(self.path), self.log.name, 'a', f'{A.process}.{A.number}')
            self.assertEqual(self.released(told).stderr, '')
            self.assertEqual(file.execute(count).fetchone()[0], before + 1)
            self.released(told)
            self.assertEqual(file.execute(count).fetchone()[0], before + 1, 'nothing was released')

    def test_faults(self) -> None:
        """They are said, and nothing is made."""
        ran = self.released(file_release(str(self.folder / 'no.db'), 'x', 'a', '1.1'))
        self.assertEqual(ran.returncode, 0)
        self.assertIn('bully: a lease is not released, and ends by itself: unable to open database file', ran.stderr)
        self.assertFalse((self.folder / 'no.db').exists())

    def test_odd_names(self) -> None:
        """A path may have signs that mean something else in an address."""
        for name in ('a?b.db', 'a#b.db', 'a%41.db'):
            path = self.folder / name
            log = self.closing(SqliteLog.create(path, OPENING))
            self.assertTrue(log.acquire('a', A, EMPTY, LONG))
            release_from_file(str(path), log.name, 'a', f'{A.process}.{A.number}', 1.0)
            self.assertEqual(log.snapshot(1, 0).holders, {})

    def test_a_command(self) -> None:
        """It has more in its environment, which nobody else sees."""
        told = 'sys.argv[1:], os.environ["SECRET"], os.environ["FIRST"]'
        says = f'import os, sys; print({told}, file=sys.stderr); print("and more")'
        ran = self.released(command_release([sys.executable, '-c', says, 'x'], {'SECRET': 'password'}))
        self.assertEqual((ran.stderr, ran.stdout, ran.returncode), ("['x'] password 1\n", '', 0))

    def test_a_command_that_hangs(self) -> None:
        """It ends after that time."""
        ran = self.released(command_release(['/bin/sleep', '1000'], {}), 0.3)
        self.assertEqual(ran.returncode, -signal.SIGALRM)


class Command(InFolder):
    """`bully-member release`."""

    def setUp(self) -> None:
        super().setUp()
        self.log = self.closing(SqliteLog.create(self.path, dataclasses.replace(OPENING, names=('a', 'b', 'c'))))
        self.assertTrue(self.log.acquire('a', A, EMPTY, LONG))
        self.file = self.folder / 'session'

    def release(self, *words: str) -> tuple[int, str, str]:
        return call('release', '--log', f'sqlite:{self.path}', '--node', 'a', *words)

    def holders(self) -> list[str]:
        return list(self.log.snapshot(1, 0).holders)

    def test_exactly_that(self) -> None:
        self.assertEqual(self.release('--session', '7.7')[0], 0)
        self.assertEqual(self.holders(), ['a'])
        for _ in range(2):  # the second time nobody holds it
            told = f'a does not hold a lease by {A.process}.{A.number}\n'
            self.assertEqual(self.release('--session', f'{A.process}.{A.number}'), (0, told, ''))
            self.assertEqual(self.holders(), [])

    def test_files(self) -> None:
        missing = f'bully-member: {self.file}: No such file or directory\n'
        self.assertEqual(self.release('--session-file', str(self.file)), (4, '', missing))
        sessions.write_session(str(self.file), None)
        told = f'nothing to release: by {self.file} a has left in order, or holds no lease yet\n'
        self.assertEqual(self.release('--session-file', str(self.file)), (0, told, ''))
        self.file.write_text('nothing\n')
        self.assertEqual(self.release('--session-file', str(self.file))[0], 2)
        self.assertEqual(self.release('--session-file', str(self.folder))[0], 4)
        self.assertEqual(self.holders(), ['a'])
        sessions.write_session(str(self.file), A)
        self.assertEqual(self.release('--session-file', str(self.file))[0], 0)
        self.assertEqual(self.holders(), [])

    def test_words(self) -> None:
        for words in ((), ('--session', '1'), ('--session', 'x.y'), ('--session', '1.1', '--session-file', 'x')):
            self.assertEqual(self.release(*words)[0], 2, words)
        sessions.write_session(str(self.file), None)
        for session in (('--session', '1.1'), ('--session-file', str(self.file))):
            gone = call('release', '--log', f'sqlite:{self.folder}/none.db', '--node', 'a', *session)
            self.assertEqual((gone[0], gone[1]), (4, ''))
            self.assertIn('none.db', gone[2])
            mistyped = call('release', '--log', f'sqlite:{self.path}', '--node', 'A', *session)
            self.assertEqual((mistyped[0], mistyped[1]), (5, ''))
            self.assertIn('the group has no node A in epoch 1', mistyped[2])

    def test_alone(self) -> None:
        """With --alone nothing is released while another process is in the control group, or if that isn't seen."""
        words = '--session', f'{A.process}.{A.number}', '--alone'
        for found in (mock.Mock(return_value={1}), mock.Mock(side_effect=OSError), mock.Mock(side_effect=ValueError)):
            with mock.patch.object(control_groups, 'others_in_group', found), mock.patch(
                'bully.commands.release.TTL', 0.1
            ):
                status, _, told = self.release(*words)
            self.assertEqual((status, self.holders()), (1, ['a']))
            self.assertIn('other processes are left, which may work on; the lease ends by itself', told)
        with mock.patch.object(control_groups, 'others_in_group', side_effect=[{1}, {1}, set()]):
            self.assertEqual(self.release(*words)[0], 0)
        self.assertEqual(self.holders(), [])

    def test_a_control_group(self) -> None:
        """One that was made for this: while another process is in it, however it got there, nothing is released."""
        group = made_group(self)
        first = subprocess.Popen(['sleep', '1000'])
        self.addCleanup(first.wait)
        self.addCleanup(first.kill)
        below = group / 'below'
        below.mkdir()
        self.addCleanup(below.rmdir)
        (below / 'cgroup.procs').write_text(str(first.pid))
        words = [
            'release',
            '--log',
            f'sqlite:{self.path}',
            '--node',
            'a',
            '--session',
            f'{A.process}.{A.number}',
            '--alone',
        ]
        member = [sys.executable, '-m', 'bully_member', *words]
        run = ['sh', '-c', f'echo $$ > {group}/cgroup.procs; "$@"; exit $?', 'sh', *member]
        ending = subprocess.Popen(run, env=environment(), stdout=subprocess.PIPE, text=True)
        self.addCleanup(ending.wait)
        self.addCleanup(ending.kill)
        assert ending.stdout is not None
        self.addCleanup(ending.stdout.close)
        wait_until(lambda: children(ending.pid))
        time.sleep(0.5)
        self.assertEqual((self.holders(), ending.poll()), (['a'], None), 'it waits')
        first.kill()
        first.wait()
        self.assertEqual((ending.wait(PATIENCE), self.holders()), (0, []))


def made_group(test: unittest.TestCase) -> Path:
    """A new control group, which is removed at the end. The test is skipped if this process may not make one."""
    try:
        lists = (Path(f'/proc/self/{name}').read_text() for name in ('cgroup', 'mountinfo'))
        group = Path(control_groups.group_folder(*lists)) / f'bully-test-{os.getpid()}'
        group.mkdir()
    except (OSError, ValueError) as fault:
        test.skipTest(f'no control group can be made here: {fault}')
    test.addCleanup(group.rmdir)
    return group


class Groups(unittest.TestCase):
    """The folder of a control group."""

    UNIT = '/system.slice/bully-member@b.service'

    def test_folders(self) -> None:
        unified = '26 23 0:24 / /sys/fs/cgroup rw,nosuid shared:4 - cgroup2 cgroup2 rw\n'
        named = '32 31 0:37 / /sys/fs/cgroup/systemd rw - cgroup cgroup rw,xattr,name=systemd\n'
        cpu = '33 31 0:30 / /sys/fs/cgroup/cpu rw - cgroup cgroup rw,cpu\n'
        second = '41 31 0:38 / /sys/fs/cgroup/unified rw - cgroup2 cgroup2 rw\n'
        inner = '26 23 0:24 /docker/x /sys/fs/cgroup rw - cgroup2 cgroup2 rw\n'
        for groups, mounts, folder in (
            (f'0::{self.UNIT}\n', cpu + unified, f'/sys/fs/cgroup{self.UNIT}'),
            (f'0::{self.UNIT}/.control\n', unified, f'/sys/fs/cgroup{self.UNIT}'),
            (f'1:name=systemd:{self.UNIT}\n0::/x\n', cpu + named + second, f'/sys/fs/cgroup/systemd{self.UNIT}'),
            ('0::/docker/x/y\n', inner, '/sys/fs/cgroup/y'), ('0::/\n', unified, '/sys/fs/cgroup'),
        ):  # fmt: skip
            self.assertEqual(control_groups.group_folder(groups, mounts), folder)
        for groups, mounts in (('', unified), (f'0::{self.UNIT}\n', cpu), ('0::/other\n', inner), ('3:cpu:/x\n', cpu)):
            self.assertRaises(ValueError, control_groups.group_folder, groups, mounts)


class Commands(unittest.TestCase):
    """What releases a lease in etcd, and in a unit of systemd's."""

    def test_what_it_is_told(self) -> None:
        """All options of the store, and the password apart from them."""
        options = mock.Mock(
            log='etcds://h:1/x', node='-a', cacert='ca', cert=None, key=None, user='u', password_file=None
        )
        store = mock.Mock(password='secret')
        told = sessions.releases_of(options, store, mock.Mock())
        assert told is not None
        what = json.loads(told(Session(1, 2)))
        words = ['release', '--log=etcds://h:1/x', '--node=-a', '--cacert=ca', '--user=u', '--session', '1.2']
        python = [sys.executable, '-I', '-S', '-c', sessions.COMMAND, str(PYTHON)]
        self.assertEqual((what['command'][: len(python)], what['command'][len(python) :]), (python, words))
        self.assertEqual(command.parser().parse_args(words).node, '-a')
        self.assertEqual(what['more'], {'BULLY_ETCD_PASSWORD': 'secret'})
        options.password_file = 'file'
        what = json.loads((sessions.releases_of(options, store, mock.Mock()) or told)(Session(1, 2)))
        self.assertEqual((what['more'], '--password-file=file' in what['command']), ({}, True))

    def test_what_it_runs(self) -> None:
        """After its end it releases the lease of the session that its member noted, and only if nothing is left of
        it."""
        lines = (ROOT / 'examples' / 'members' / 'bully-member@.service').read_text().splitlines()
        told = dict(line.split('=', 1) for line in lines if '=' in line and not line.startswith('#'))
        file = '%t/bully/%i/session'
        self.assertEqual(told['RuntimeDirectory'], 'bully/%i')
        self.assertIn(f' run --node=%i --session-file {file} $BULLY_WORDS ', told['ExecStart'])
        wanted = f'-/usr/local/bin/bully-member release --node=%i --session-file {file} --alone'
        self.assertEqual(told['ExecStopPost'], wanted)
