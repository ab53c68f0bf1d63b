"""Tests of the command `bully-member` and of members over etcd; without the program `etcd` on the path they are
skipped."""
from __future__ import annotations

import json
import os
import re
import signal
import sys
import time
from collections.abc import Sequence
from typing import Any
from unittest import mock

from bully import check, command, history, store_options
from bully.epochs import Opening, Token
from bully.etcd import EtcdLog
from bully.shared_log import Log
from places import ROOT

from ..etcd_servers import (
    NUMBERS, OLDER, Server, WithCertificates, WithEtcd, add_users, alone, begin_alone, prune_in_part, put_older,
)  # fmt: skip
from ..processes import TaskLimit, below, children, is_running
from ..steps import HEADER
from ..waiting import PATIENCE, wait_until
from .away_laws import Away
from .configurations import TOP, toml
from .folders import WithFolder
from .in_etcd import TXN, Proxy
from .member_processes import BEGINS, TALKS, MemberProcess, call
from .threads import put

TTL = 2  # seconds
SLOW = 20.0  # seconds that a log of the test's own waits for answers
NAMES: list[str] = TOP['names']
PASSWORD = 'BULLY_ETCD_PASSWORD'
SILENT = 'echo $$ > $FOLDER/new; mv $FOLDER/new $FOLDER/begun; exec sleep 1000'  # a worker that is told to stop, and doesn't answer
# Tells when two work on one partition, or one by a token below the last one's; else each unit of work is a line in the
# file of its partition.
WORKER = [sys.executable, '-I', '-S', str(ROOT / 'tests' / 'members' / 'worker.py')]


def setUpModule() -> None:
    begin_alone(__name__)


class OverEtcd(WithEtcd, WithFolder):
    """Tests with a configuration, and members in processes."""

    def setUp(self) -> None:
        WithEtcd.setUp(self)
        WithFolder.setUp(self)
        self.work = self.folder / 'work'
        self.work.mkdir()
        self.config = self.configured('group.toml')

    def configured(self, name: str, **more: Any) -> str:
        """A configuration, which has more than that of three nodes."""
        path = self.folder / name
        path.write_bytes(toml({**TOP, **more}))
        return str(path)

    def of_log(self, *words: str) -> tuple[int, str, str]:
        """What a command that may be tried again comes to over the log, once that answers in time."""
        ended: list[tuple[int, str, str]] = []

        def is_answered() -> bool:
            ended[:] = [call(words[0], '--log', self.address, *words[1:])]
            return not ended[0][2].endswith(': it did not answer in time\n')

        wait_until(is_answered)
        return ended[0]

    def make(self, **more: Any) -> None:
        """The log of the configuration."""
        self.created(self.address, Opening.first(HEADER, NAMES), SLOW, **more)

    def begin(self, node: str, worker: Sequence[str], *more: str, **environment: str) -> MemberProcess:
        """A member of this node."""
        folder = self.folder / f'{node}-{next(NUMBERS)}'
        folder.mkdir()
        member = MemberProcess(
            folder, ['--log', self.address, '--node', node, '--ttl', str(TTL), *more], worker, **environment
        )
        self.addCleanup(member.kill)
        return member

    def begin_work(self, node: str, *more: str) -> MemberProcess:
        """A member of this node, whose worker reports what it works on."""
        return self.begin(node, [*WORKER, str(self.work)], *more)

    def worked(self) -> dict[int, tuple[int, str]]:
        """By which token, and for which node, each partition was worked on last. A row without its end is still being
        written, or its worker was killed meanwhile."""
        files = [file for file in self.work.iterdir() if file.name != 'faults']
        found = {int(file.name): file.read_text().split('\n')[:-1] for file in files}
        return {
            partition: (int(lines[-1].split()[0]), lines[-1].split()[1]) for partition, lines in found.items() if lines
        }

    def share(self, after: int, partitions: int, *names: str) -> int:
        """These nodes, and no others, work on so many partitions by one token after that one, once they do. The
        token."""
        tokens: set[int] = set()

        def do_share() -> bool:
            worked = self.worked()
            tokens.clear()
            tokens.update(token for token, _ in worked.values())
            return (
                len(worked) == partitions
                and len(tokens) == 1
                and min(tokens) > after
                and {name for _, name in worked.values()} == set(names)
            )

        wait_until(do_share)
        return tokens.pop()

    def judge(self, *epochs: int) -> None:
        """No two worked on one partition at once, nobody by an old token, and these epochs are lawful."""
        self.assertFalse((self.work / 'faults').exists(), 'two have worked on one partition, or one by an old token')
        for epoch in epochs:
            self.assertTrue(
                check(
                    ''.join(f'{row}\n' for row in history.trace(self.opened(patience=SLOW), epoch)).encode()
                ).is_lawful
            )

    def end(self, *members: MemberProcess) -> None:
        """They leave in order, one by one, and nobody holds a lease any more."""
        for member in members:
            self.assertEqual(member.end(), 0, member.said)
        log = self.opened(patience=SLOW)
        self.assertEqual(dict(log.snapshot(log.epochs()[-1], 0).holders), {})


class Limited(OverEtcd):
    """Members that may start no more threads or processes, and lose a connection."""

    def begin_cut(self, host: str, limit: TaskLimit) -> tuple[MemberProcess, Proxy]:
        """A member whose worker works; and what is between it and etcd, once that has cut a connection."""
        proxy = Proxy(self.server.port)
        self.addCleanup(proxy.close)
        address = f'etcd://{host}:{proxy.endpoint.rpartition(":")[2]}/{self.prefix}'
        member = self.begin('a', ['sh', '-c', BEGINS], '--log', address)
        member.worker()
        limit.set(member.process.pid, 0)
        proxy.lose('request', TXN)
        self.assertTrue(proxy.lost.wait(PATIENCE))
        return member, proxy

    def end_limited(self, member: MemberProcess) -> None:
        self.assertEqual(member.end(), 0, member.said)
        self.assertNotIn('Traceback', member.said)

    def test_an_address(self) -> None:
        """It needs no thread to reconnect to an address."""
        limit = TaskLimit(self)
        self.make()
        member, proxy = self.begin_cut('127.0.0.1', limit)
        before = proxy.requests
        wait_until(lambda: proxy.requests > before + 20)
        self.assertNotIn('can be started', member.said)
        self.end_limited(member)

    def test_a_name(self) -> None:
        """It says why it doesn't reconnect to a name, and does once it may start threads."""
        limit = TaskLimit(self)
        self.make()
        member, _ = self.begin_cut('localhost', limit)
        worker = member.worker()
        wait_until(lambda: 'its name can not be looked up, because no thread can be started' in member.said)
        wait_until(lambda: not is_running(worker))
        (member.folder / 'begun').unlink()
        limit.lift(member.process.pid)
        member.worker()
        self.end_limited(member)


class LeasesTaken(WithEtcd, WithFolder):
    """An operator of etcd takes the lease of a member away, which a premise forbids. Others may work from then on, so
    the worker, which doesn't stop by itself, is killed long before its time is over."""

    TTL = 100.0

    def setUp(self) -> None:
        WithEtcd.setUp(self)
        WithFolder.setUp(self)
        self.created(self.address, Opening.first(HEADER, NAMES), SLOW)

    def begun(self, worker: str, *more: str) -> MemberProcess:
        """A member whose worker works."""
        words = ['--log', self.address, '--node', 'a', '--ttl', str(self.TTL), '--stop-seconds', '1000', *more]
        member = MemberProcess(self.folder, words, ['sh', '-c', worker])
        self.addCleanup(member.kill)
        member.worker()
        return member

    def take(self, is_revoked: bool) -> None:
        """etcd's lease is revoked, or the keys are deleted."""
        root = f'{self.prefix}/lease/'
        leases = {pair['lease'] for pair in self.server.keys(root).values()}
        self.assertEqual(len(leases), 1)
        if is_revoked:
            self.server.ask('/v3/lease/revoke', {'ID': leases.pop()})
        else:
            self.server.delete(root, f'{self.prefix}/lease0')

    def see_killed(self, member: MemberProcess, is_revoked: bool, least: float) -> None:
        """It is taken away, and the worker is killed when `least` of the ttl is left until its time is over, or
        sooner."""
        worker, begun = member.worker(), time.monotonic()
        self.take(is_revoked)
        wait_until(lambda: not is_running(worker))
        self.assertLess(time.monotonic() - begun, (0.55 - least) * self.TTL)
        wait_until(lambda: 'took its lease away' in member.said)

    def test_at_once(self) -> None:
        for is_revoked in (True, False):
            for worker, more in ((f'trap "" TERM; {BEGINS}', ()), (SILENT, ('--talk',))):
                with self.subTest(is_revoked=is_revoked, more=more):
                    member = self.begun(worker, *more)
                    self.see_killed(member, is_revoked, 0.3)
                    (self.folder / 'begun').unlink()
                    member.kill()
                    self.server.delete(f'{self.prefix}/lease/', f'{self.prefix}/lease0')

    def test_while_it_stops(self) -> None:
        """Then a member of an eager group waits for its worker, and asks for nothing before its next renewal, a quarter
        of the ttl after the one before: the watch reports it."""
        member = self.begun(f'trap "" TERM; {BEGINS}')
        member.process.terminate()
        wait_until(lambda: 'stops work' in member.said)
        self.see_killed(member, True, 0.45)
        member.wait()


class Commands(OverEtcd):
    """`bully-member`, but for `run`."""

    def test_life_of_a_log(self) -> None:
        self.assertEqual(
            self.of_log('status'),
            (4, '', f'bully-member: {self.address}: there is no log; bully-member init makes one\n'),
        )
        self.assertEqual(call('init', '--log', self.address, '--config', self.config), (0, '', ''))
        self.assertEqual(
            self.of_log('init', '--config', self.config),
            (7, '', f'bully-member: {self.address}: there already is a log\n'),
        )
        put(self.opened(), 'recover,2')
        self.assertEqual(self.of_log('history'), (0, f'{HEADER}\nrecover,2\n', ''))
        status, said, _ = self.of_log('status')
        self.assertEqual((status, said.splitlines()[0]), (1, 'epoch 1, events 1, token -, coordinator -, eager'))
        self.assertEqual(
            [node['status'] for node in json.loads(self.of_log('status', '--json')[1])['nodes']],
            ['down', 'election', 'down'],
        )
        new = self.configured('new.toml', nodes=2, names=['c', 'd'], partitions=4)
        for _ in range(2):
            self.assertEqual(self.of_log('resize', '--config', new), (0, 'epoch 2: 2 nodes, 4 partitions\n', ''))
        self.assertEqual(self.of_log('history', '--epoch', '1'), (0, f'{HEADER}\nrecover,2\n', ''))
        self.assertEqual(self.of_log('history'), (0, 'bully,1,2,4\n', ''))
        self.assertEqual(self.of_log('prune', '--keep', '1'), (0, 'epoch 2 is left\n', ''))
        self.assertEqual(self.server.keys(f'{self.prefix}/log/'), {})
        gone = f'bully-member: {self.address}: there is no epoch 1, only 2\n'
        self.assertEqual(self.of_log('history', '--epoch', '1'), (4, '', gone))

    def test_bad_words(self) -> None:
        certificates = [word for name in ('cacert', 'cert', 'key') for word in (f'--{name}', str(self.folder / 'none'))]
        secure = self.address.replace('etcd:', 'etcds:')
        for words, status, why in (
            (['etcd://x'], 2, 'must be'), (['etcd:x'], 2, 'must be'),
            ([self.address, '--cacert', 'x'], 2, 'etcds://'),
            ([self.address, '--cert', 'x', '--key', 'y'], 2, 'etcds://'), ([secure, '--cert', 'x'], 2, '--key'),
            ([secure, *certificates], 4, 'none'), (['sqlite:x', '--user', 'x'], 2, '--user'),
            ([self.address, '--user', 'x'], 2, PASSWORD), ([self.address, '--password-file', 'x'], 2, '--user'),
            ([self.address, '--user', 'x', '--password-file', '/nowhere/file'], 4, '/nowhere/file'),
        ):  # fmt: skip
            with self.subTest(words=words):
                ended, said, told = call('status', '--log', *words)
                self.assertEqual((ended, said, told.count('\n')), (status, '', 1))
                self.assertTrue(told.startswith('bully-member: '), told)
                self.assertIn(why, told)

    def test_passwords(self) -> None:
        """Of the environment, in which it doesn't stay, or of the first line of a file."""
        options = command.parser().parse_args(['status', '--log', self.address, '--user', 'x'])
        with mock.patch.dict(os.environ, {PASSWORD: ' a b '}):
            store = store_options.store_of(options)
            self.assertNotIn(PASSWORD, os.environ)
        assert isinstance(store, store_options.EtcdStore)
        self.assertEqual(store.password, ' a b ')
        (self.folder / 'password').write_text(' c d \r\nmore')
        (self.folder / 'password').chmod(0o600)
        options.password_file = str(self.folder / 'password')
        store = store_options.store_of(options)
        assert isinstance(store, store_options.EtcdStore)
        self.assertEqual((store.user, store.password), ('x', ' c d '))
        self.assertNotIn('c d', repr(store))

    def test_below_keys(self) -> None:
        """No log is made where another one may have its keys, of this form or an earlier one, whoever makes it."""
        parts = 'failing, lease, log, opening, presence, rows, time'
        for part in parts.split(', '):
            address = f'{self.address}/{part}/session'
            why = f'{address}, and no part of the prefix of a new log may be one of {parts}: they are keys of logs'
            self.assertEqual(
                call('init', '--config', self.config, '--log', address), (2, '', f'bully-member: --log is {why}\n')
            )
            with self.assertRaisesRegex(ValueError, re.escape(why)):
                EtcdLog.create(address, Opening.first('bully,1,1,1'))
        self.assertEqual(self.server.keys(self.prefix), {})

    def test_an_older_form(self) -> None:
        """Its history is written, and all else is refused."""
        put_older(self.server, self.prefix)
        before = self.server.keys(self.prefix)
        form = 'a log of format 3, by an older version, not of format 4; history writes it as a trace, and init makes a new log'
        for words in (
            ['status'],
            ['resize', '--config', self.config],
            ['prune', '--keep', '1'],
            ['run', '--quiet', '--node', 'a', '--', 'true'],
        ):
            with self.subTest(words=words):
                self.assertEqual(self.of_log(*words), (6, '', f'bully-member: {self.address}: {form}\n'))
        self.assertEqual(
            self.of_log('init', '--config', self.config),
            (7, '', f'bully-member: {self.address}: there already is a log\n'),
        )
        for epoch, rows in OLDER.items():
            self.assertEqual(
                self.of_log('history', '--epoch', str(epoch)), (0, ''.join(f'{row}\n' for row in rows), '')
            )
        self.assertEqual(self.of_log('history')[1], ''.join(f'{row}\n' for row in OLDER[max(OLDER)]))
        self.assertEqual(self.server.keys(self.prefix), before)


class Runs(OverEtcd):
    """`bully-member run`, by one member."""

    def test_in_order(self) -> None:
        self.make()
        member = self.begin('b', ['sh', '-c', BEGINS], '--config', self.config)
        worker, told = member.worker(), member.environment()
        self.assertEqual(
            [told[f'BULLY_{name}'] for name in ('NODE', 'COORDINATOR', 'PARTITIONS')], ['b', 'b', '0 1 2 3 4 5']
        )
        settings_told = json.loads(told['BULLY_SETTINGS'])
        self.assertEqual(
            (settings_told['names'], settings_told['partitions'], settings_told['ttl']), (NAMES, 6, float(TTL))
        )
        log, token = self.opened(), Token(int(told['BULLY_TOKEN']))
        rows = list(log.read(1, 0))
        self.assertEqual((token.epoch, rows[token.events - 1]), (1, 'plan,2,2 2 2 2 2 2'))
        self.assertEqual(set(log.snapshot(1, 0).holders), {'b'})
        self.end(member)
        self.assertFalse(is_running(worker))
        self.assertEqual(log.read(1, 0)[-1], 'crash,2')
        self.assertEqual(self.server.keys(f'{self.prefix}/lease/'), {})
        self.judge(1)

    def test_talks(self) -> None:
        """A worker stays over a change of the group, and hears of it."""
        self.make()
        member = self.begin('b', ['sh', '-c', TALKS], '--talk')
        worker, (begun,) = member.worker(), member.told(1)
        self.assertEqual(
            (begun['partitions'], begun['coordinator'], Token(begun['begin']).epoch), ([0, 1, 2, 3, 4, 5], 'b', 1)
        )
        new = self.configured('new.toml', nodes=2, names=['b', 'd'], partitions=3)
        self.assertEqual(self.of_log('resize', '--config', new)[0], 0)
        _, stopped, again = member.told(3)
        self.assertEqual((stopped, again['partitions'], Token(again['begin']).epoch), ({'stop': True}, [0, 1, 2], 2))
        self.assertTrue(is_running(worker))
        self.assertEqual(member.worker(), worker)
        self.end(member)
        self.assertFalse(is_running(worker))

    def test_removed(self) -> None:
        """A member of a log that is removed ends, and its worker does."""
        self.make()
        member = self.begin('b', ['sh', '-c', BEGINS])
        worker = member.worker()
        self.server.delete(f'{self.prefix}/', f'{self.prefix}0')
        self.assertEqual(member.wait(), 4)
        self.assertIn(f'bully-member: {self.address}: the log was removed\n', member.said)
        self.assertFalse(is_running(worker))

    def test_users(self) -> None:
        """A member logs in by a password that its worker doesn't get. A wrong one ends it."""
        servers = self.servers()
        add_users(servers.each[0])
        self.address = servers.address('x')
        right, wrong, empty = (self.folder / name for name in ('right', 'wrong', 'empty'))
        for file, password in ((right, 'member password\n'), (wrong, 'x\n'), (empty, '\n')):
            file.write_text(password)
            file.chmod(0o600)
        user = ['--user', 'member', '--ttl', '10']  # since to log in takes long
        self.make(user='member', password='member password')
        cases: list[tuple[list[str], dict[str, str]]] = [
            ([], {PASSWORD: 'member password'}),
            (['--password-file', str(right)], {}),
        ]
        for words, environment in cases:
            with self.subTest(words=words):
                member = self.begin('b', ['sh', '-c', BEGINS], *user, *words, **environment)
                member.worker()
                self.assertEqual(member.environment()['BULLY_NODE'], 'b')
                self.assertNotIn(PASSWORD, member.environment())
                self.assertNotIn('member password', (member.folder / 'env').read_text())
                self.assertEqual(member.end(), 0)
        for file in (wrong, empty):
            member = self.begin('b', ['sh', '-c', BEGINS], *user, '--password-file', str(file))
            self.assertEqual(member.wait(), 4)
            self.assertRegex(member.said, 'bully-member: 127.0.0.1:[0-9]+: .*(authentication failed|user name)')
            self.assertFalse((member.folder / 'begun').exists())

    def test_none_answers(self) -> None:
        """A member that is started while no server answers waits for one."""
        server = self.server_of_its_own()
        self.make()
        for away, back in ((server.pause, server.resume), (server.kill, server.start)):
            with self.subTest(away=away.__name__):
                away()
                member = self.begin('b', ['sh', '-c', BEGINS])
                wait_until(lambda: member.said.count(f'bully-member: 127.0.0.1:{server.port}: ') > 1)
                self.assertFalse((member.folder / 'begun').exists())
                back()
                member.worker()
                self.end(member)

    def test_away(self) -> None:
        """While no server answers its work ends before its lease may end, and goes on once one does."""
        server = self.server_of_its_own()
        self.make()
        member = self.begin_work('b')
        token = self.share(0, 6, 'b')
        for away, back in ((server.pause, server.resume), (server.kill, server.start)):
            with self.subTest(away=away.__name__):
                worker, said = self.worker_of(member), member.said
                begun = time.time()
                away()
                wait_until(lambda: not is_running(worker))
                last = max(file.stat().st_mtime for file in self.work.iterdir())
                self.assertTrue(begun < last < begun + TTL, f'it worked for {last - begun:.3f} s')
                self.assertIsNone(member.process.poll())
                self.assertIn(f'node b: 127.0.0.1:{server.port}: ', member.said[len(said) :])
                back()
                wait_until(lambda: min(file.stat().st_mtime for file in self.work.iterdir()) > last)
                self.assertNotEqual(self.worker_of(member), worker)
                self.assertGreaterEqual(self.share(0, 6, 'b'), token)
        self.end(member)
        self.judge(1)

    def server_of_its_own(self) -> Server:
        """The only server of an etcd, at which the log is."""
        servers = self.servers()
        self.address = servers.address('x')
        return servers.each[0]

    def worker_of(self, member: MemberProcess) -> int:
        """The worker below the member's watchdog, once there is one."""
        (watchdog,) = children(member.process.pid)
        wait_until(lambda: below(watchdog))
        return below(watchdog)[0]


class Certificates(OverEtcd, WithCertificates):
    """Members over TLS."""

    def test_run(self) -> None:
        self.address = self.secure_both().address('x', kind='etcds')
        files = {
            name: str(self.certificates / file)
            for name, file in (('cacert', 'mine.pem'), ('cert', 'client.pem'), ('key', 'client.key'))
        }
        words = [word for name, file in files.items() for word in (f'--{name}', file)]
        self.make(tls=self.tls(client='client'))
        member = self.begin('b', ['sh', '-c', BEGINS], *words)
        worker = member.worker()
        self.assertEqual(member.environment()['BULLY_PARTITIONS'], '0 1 2 3 4 5')
        self.assertEqual(member.end(), 0)
        self.assertFalse(is_running(worker))
        status, said, _ = self.of_log('history', *words)
        self.assertEqual((status, said.splitlines()[-1]), (0, 'crash,2'))
        self.assertTrue(check(said.encode()).is_lawful)
        other = ['--cacert', str(self.certificates / 'other.pem'), *words[2:]]
        cases: list[list[str]] = [[], words[:2], words[2:], other]
        for fewer in cases:
            with self.subTest(words=fewer):
                member = self.begin('b', ['sh', '-c', BEGINS], *fewer)
                self.assertEqual(member.wait(), 4)
                self.assertRegex(member.said, 'bully-member: 127.0.0.1:[0-9]+: TLS: ')


class Groups(OverEtcd):
    """Members of one group, each in a process of its own."""

    def test_one_is_killed(self) -> None:
        """The others take over, and share again with it once it is back."""
        self.make()
        members = {name: self.begin_work(name) for name in NAMES}
        token = self.share(0, 6, 'a', 'b', 'c')
        killed = members.pop('c')
        killed.kill()
        self.assertEqual(killed.process.returncode, -signal.SIGKILL)
        token = self.share(token, 6, 'a', 'b')
        self.assertIn('crash,3', list(self.opened().read(1, 0)))
        members['c'] = self.begin_work('c')
        self.share(token, 6, 'a', 'b', 'c')
        self.judge(1)
        self.end(*members.values())
        self.judge(1)

    def test_a_server_and_a_member_are_killed(self) -> None:
        """The members go on by the servers that are left."""
        servers = self.servers(3)
        self.address = servers.address('x')
        self.make()
        members = {name: self.begin_work(name, '--ttl', '5') for name in NAMES}
        token = self.share(0, 6, 'a', 'b', 'c')
        leader = servers.leader()
        leader.kill()
        self.assertTrue(leader.has_ended)
        members.pop('c').kill()
        self.share(token, 6, 'a', 'b')
        self.end(*members.values())
        self.judge(1)

    def test_resized(self) -> None:
        """Members go on by their names in a new epoch, also one that was paused until the old one was taken away. Who
        has none there ends."""
        self.make()
        members = {name: self.begin_work(name) for name in NAMES}
        token = self.share(0, 6, 'a', 'b', 'c')
        paused = members['a'].process
        paused.send_signal(signal.SIGSTOP)
        token = self.share(token, 6, 'b', 'c')
        new = self.configured('new.toml', nodes=3, names=['c', 'x', 'a'], partitions=12)
        self.assertEqual(self.of_log('resize', '--config', new), (0, 'epoch 2: 3 nodes, 12 partitions\n', ''))
        self.judge(1)
        self.assertEqual(self.of_log('prune', '--keep', '1')[:2], (0, 'epoch 2 is left\n'))
        leaver = members.pop('b')
        self.assertEqual(leaver.wait(), 5)
        self.assertIn('node b: its node is not in the group any more', leaver.said)
        token = self.share(token, 12, 'c')
        self.assertEqual(Token(token).epoch, 2)
        paused.send_signal(signal.SIGCONT)
        self.share(token, 12, 'a', 'c')
        self.assertIn('node a: continues in epoch 2 as number 3', members['a'].said)
        self.end(*members.values())
        self.judge(2)


class AwayOverEtcd(WithEtcd, Away):
    """A member that was away while its epoch ended and was taken away."""

    def created(self, address: str = '', opening: Opening = Away.AWAY, patience: float = 5.0, **more: Any) -> EtcdLog:
        """Each below a prefix of its own."""
        self.address = alone(f'{self.prefix}/{next(NUMBERS)}')
        return super().created(self.address, opening, patience, **more)

    def handle(self, log: Log) -> Log:
        return self.opened()

    is_in_part = False  # whether who takes an epoch away ends in the middle of that

    def take_away(self) -> None:
        assert isinstance(self.log, EtcdLog)
        if self.is_in_part:
            prune_in_part(self.log, 2)
        else:
            super().take_away()

    def test_in_part(self) -> None:
        """It goes on, too, if more rows than it knows were there, and a part of them is left."""
        self.is_in_part = True
        self.pause('wait')
        wait_until(lambda: not self.log.snapshot(1, 0).holders)
        offset = len(self.log.read(1, 0))
        for row in ('crash,1', 'recover,2', 'crash,2'):
            put(self.log, row)
        self.pass_epoch('c', 'b')
        left = self.server.keys(f'{self.address.split("/", 3)[3]}/rows/0000000001/')
        self.assertEqual([int(key[-10:]) for key in left], [offset + 1, offset + 2])
        self.see_it_work()
