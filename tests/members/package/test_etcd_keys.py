"""Tests of the keys of logs in etcd: which they are, below which prefix, and what is found there that should not be."""
from __future__ import annotations

import os
import shutil
import subprocess
import sys
import tempfile
import threading
import time
import unittest
import zlib
from base64 import b64decode
from collections.abc import Callable
from pathlib import Path
from typing import Any
from unittest import mock

from bully import etcd, etcd_client
from bully.clocks import SECOND
from bully.core import Promise, Session, Until
from bully.encoding import packed
from bully.epochs import Opening
from bully.etcd import EtcdLog
from bully.etcd_client import Address, Client, Endpoint, range_at, read_address
from bully.maintenance import Maintenance
from bully.repair import damage_of, repair
from bully.shared_log import DamagedLog, ForeignLog, LogError, LogExists, NoEpoch, NoLog, Unanswered
from bully.store_options import EtcdStore
from places import environment
from ..etcd_servers import OLDER, OLDER_TEXT, Json, begin_alone, coded, older_row, prune_in_part, put_older
from ..steps import EMPTY, LONG, OPENING, A, B, add, be_idle, live
from ..waiting import PATIENCE, wait_until
from .appends import BAD_APPENDS
from .in_etcd import InEtcd

# Opens logs where no names are told. It says what came of that, and how many threads wait still.
SILENT_NAMES = '''
import socket, threading, time
silent = socket.socket(socket.AF_INET, socket.SOCK_DGRAM)
silent.bind(('127.0.0.1', 53))
from bully.etcd_client import Client, read_address
from bully.shared_log import Unanswered
client = Client(read_address('etcd://nowhere.test,elsewhere.test/x'), 0.5, None, '', '')
begun = time.monotonic()
for _ in range(3):
    client.begin()
    try:
        client.transact([], [])
    except Unanswered as unanswered:
        print(unanswered)
took = time.monotonic() - begun
print('asked' if b'nowhere' in silent.recv(512) else 'not asked')
print('in time' if took < 5.0 else took)
print(threading.active_count() > 3)
'''


def setUpModule() -> None:
    begin_alone(__name__)


class Keys(InEtcd):
    """What is in etcd."""

    def test_keys(self) -> None:
        log = self.created()
        self.assertTrue(log.acquire('größer', Session(17, 3), EMPTY, 2 * SECOND))
        with mock.patch.object(time, 'time_ns', lambda: 1_700_000_000_007_000_000):
            self.assertTrue(log.append(1, 0, ['recover,1', 'größer']))
        self.assertTrue(log.promise('größer', Session(17, 3), Promise(1, 3), (0, 5, 17)))
        self.assertTrue(
            log.set_maintenance(Maintenance(frozenset(['größer', 'a']), {'größer': Session(17, 3)}), Maintenance())
        )
        requested = Opening(2, 'bully,1,2,4', ('a', 'b'), 500)
        self.assertTrue(log.ask(requested, 1))
        wanted: dict[str, str | bytes] = {
            'opening/0000000001': OPENING.text().replace('{"epoch"', '{"form": 4, "epoch"'),
            'first': '0000000001',
            'offset': '0000000001/0000000002',
            'rows/0000000001/0000000000': zlib.compress('recover,1\ngrößer\n'.encode()),
            'requested': requested.text(),
            'lease/session/größer': '17.3',
            'lease/promise/größer': '0000000001/0000000003 0 5 17',
            'time/0000000001/0000000000': '1700000000007',
            'maintenance': '{"drained": ["a", "größer"], "paused": {"größer": [17, 3]}}',
        }
        pairs = self.server.keys(f'{self.prefix}/')
        found = {key[len(self.prefix) + 1 :]: b64decode(pair['value']) for key, pair in pairs.items()}
        self.assertRegex(found.pop('name'), b'^4 [0-9a-f]{16}$')
        self.assertEqual(found, {key: b64decode(coded(value)) for key, value in wanted.items()})
        leased = {key for key, pair in pairs.items() if 'lease' in pair}
        self.assertEqual(leased, {f'{self.prefix}/lease/{each}/größer' for each in ('session', 'promise')})
        self.assertEqual(len(set(self.leases().values())), 1)
        self.assertEqual(list(log.read(1, 1)), ['größer'])

    def test_seconds_of_leases(self) -> None:
        """A ttl is rounded up to whole seconds, and etcd has a shortest one."""
        log = self.created()
        for number, (ttl, seconds) in enumerate([(0.01, '1'), (1.0, '1'), (1.01, '2'), (7, '7'), (86400.0, '86400')]):
            with self.subTest(ttl=ttl):
                self.assertTrue(log.acquire(str(number), A, EMPTY, int(ttl * SECOND)))
                lease = self.leases()[f'session/{number}']
                self.assertEqual(self.server.ask('/v3/lease/timetolive', {'ID': lease})['grantedTTL'], seconds)

    def test_shorter_lease(self) -> None:
        log = self.created()
        with mock.patch.object(Client, 'ask', self.granting(Client.ask, '4')), self.assertRaises(LogError) as caught:
            log.acquire('a', A, EMPTY, 4 * SECOND + 1)
        self.assertNotIsInstance(caught.exception, Unanswered)
        self.assertEqual(live(log), {})

    def granting(self, ask: Callable[..., Json], seconds: str) -> Callable[..., Json]:
        """The answers of etcd, but for the seconds of a lease."""

        def answer(client: Client, path: str, told: Json, repeats: bool = False) -> Json:
            answer = ask(client, path, told, repeats)
            return {**answer, 'TTL': seconds} if path == etcd_client.LEASE_GRANT else answer

        return answer

    def test_many_rows_at_once(self) -> None:
        """A rebalance of the largest group is one append."""
        log = self.begun()
        rows = ['return,1024'] * 11_000 + [f'plan,1024,{" ".join(["1024"] * 4096)}']
        self.assertTrue(log.append(1, 0, rows))
        self.assertEqual(list(self.opened().read(1, 0)), rows)

    def test_renewals_write_nothing(self) -> None:
        log, other = self.begun(), self.opened()
        before = self.server.keys(self.prefix)
        for _ in range(3):
            self.assertTrue(log.renew('a', A, LONG))
        self.assertEqual(self.server.keys(self.prefix), before)
        self.assertTrue(other.renew('a', A, LONG + SECOND), 'by another handle, and for longer')
        self.assertNotEqual(self.server.keys(self.prefix), before)
        self.assertTrue(log.renew('a', A, LONG))

    def test_no_lease_for_nothing(self) -> None:
        """What is refused grants none."""
        log, other = self.begun(), self.opened()
        with mock.patch.object(Client, 'ask', self.granting(Client.ask, '0')):
            self.assertFalse(other.acquire('a', B, EMPTY, LONG))
            self.assertFalse(other.acquire('b', B, Promise(1, 1), LONG))
            self.assertFalse(other.renew('b', B, LONG))
            self.assertTrue(log.renew('a', A, LONG))


class Prefixes(InEtcd):
    """What begins the keys."""

    ODD = (
        'x', 'x0', 'x-', 'xy', 'x/y', 'x.y', '/x', 'x//y', '..', ' x ', 'größer', '%2F', 'a?b#c', 'a=b&c', '"', "'\\",
        '*', 'x,y', 'etcd://x/y', '0', 'rowss', 'x/rowss', 'leases', 'x\ny', '\U0001f600', 'x' * 1000,
    )  # fmt: skip

    def test_odd(self) -> None:
        """Logs whose prefixes are odd or alike don't meet."""
        logs = [self.created(f'{self.address}/{prefix}') for prefix in self.ODD]
        for number, log in enumerate(logs):
            self.assertTrue(log.acquire(str(number), A, EMPTY, LONG))
            self.assertTrue(log.append(1, 0, [f'recover,{number}']))
        for number, prefix in enumerate(self.ODD):
            log = self.opened(f'{self.address}/{prefix}/')
            self.assertEqual((list(log.read(1, 0)), set(live(log))), ([f'recover,{number}'], {str(number)}))

    def test_below_another(self) -> None:
        """What happens in a log below another one's prefix is no news of that one."""
        log = self.created()
        for part in ('b', 'requested', 'offset', 'first', 'oz'):
            below = self.created(f'{self.address}/{part}')
            sessions = log.snapshot(1, 0).sessions
            later = threading.Thread(
                target=lambda: [below.acquire('a', A, EMPTY, LONG), below.append(1, 0, ['recover,1'])]
            )
            later.start()
            begun = time.monotonic()
            log.wait(1, 0, sessions, Until.ALL_IDLE, 0.5)
            self.assertGreaterEqual(time.monotonic(), begun + 0.5)
            later.join()
            self.assertEqual((list(log.read(1, 0)), live(log), log.epochs()), ([], {}, range(1, 2)))
            self.assertEqual((list(below.read(1, 0)), set(live(below))), (['recover,1'], {'a'}))

    def test_above_another(self) -> None:
        """No log is made where another one is below its prefix."""
        self.created(f'{self.address}/a/b')
        for prefix in (self.address, f'{self.address}/a'):
            with self.assertRaises(ForeignLog):
                EtcdLog.create(prefix, OPENING)
            with self.assertRaises(ForeignLog):
                EtcdLog(prefix)

    def test_addresses(self) -> None:
        range_at, two, six = Endpoint('a', 2379), Endpoint('10.0.0.1', 80), Endpoint('::1', 2379)
        for words, read in (
            ('etcd://a/x', Address((range_at,), 'x', False)),
            ('etcds://a:2379,10.0.0.1:80/x/y//', Address((range_at, two), 'x/y', True)),
            ('etcd://[::1]:2379/x', Address((six,), 'x', False)),
            ('etcd://[::1],a//x', Address((six, range_at), '/x', False)),
        ):  # fmt: skip
            with self.subTest(words=words):
                self.assertEqual(read_address(words), read)
        self.assertEqual((str(range_at), str(six)), ('a:2379', '[::1]:2379'))

    def test_bad_addresses(self) -> None:
        for words in (
            '', 'etcd', 'etcd:a/x', 'etcd:/a/x', 'http://a/x', 'etcd://a', 'etcd://a/', 'etcd://a//', 'etcd:///x',
            'etcd://a,/x', 'etcd://a:/x', 'etcd://:1/x', 'etcd://a:65536/x', 'etcd://a:b/x', 'etcd://::1/x',
            'etcd://[::1/x', 'etcd://a/\udc80',
        ):  # fmt: skip
            with self.subTest(words=words), self.assertRaises(ValueError):
                read_address(words)

    @unittest.skipIf(os.getuid() != 0, 'only root can have a network of its own')
    def test_silent_names(self) -> None:
        """A call doesn't last longer than it is told, where nobody answers which address a name has: the C library
        waits for 5 s at least."""
        with tempfile.TemporaryDirectory() as folder:
            Path(folder, 'resolv.conf').write_text('nameserver 127.0.0.1\n')
            within = f'ip link set lo up && mount --bind {folder}/resolv.conf /etc/resolv.conf && exec "$@"'
            words = ['unshare', '--mount', '--net', 'sh', '-c', within, 'sh', sys.executable, '-c', SILENT_NAMES]
            ran = subprocess.run(words, env=environment(), stdout=subprocess.PIPE, text=True, check=True)
        why = 'its name was not looked up in time'
        said = f'nowhere.test:2379: {why}; elsewhere.test:2379: {why}\n'
        self.assertEqual(ran.stdout, 3 * said + 'asked\nin time\nFalse\n')

    def test_ipv6(self) -> None:
        try:
            proxy = self.proxy('::1')
        except OSError:
            self.skipTest('there is no loopback of IPv6')
        log = self.begun(f'etcd://{proxy.endpoint}/{self.prefix}')
        log.wait(1, 0, {'a': A}, Until.NEWS, 0.1)
        self.assertTrue(log.append(1, 0, ['recover,1']))
        log.wait(1, 0, {'a': A}, Until.NEWS, PATIENCE)


class Contents(InEtcd):
    """What can be wrong with what is there."""

    def refused(self, fault: type[LogError], call: Callable[[], object]) -> None:
        with self.assertRaises(fault) as caught:
            call()
        self.assertIn(self.address, str(caught.exception))

    def test_none(self) -> None:
        self.refused(NoLog, lambda: EtcdLog(self.address))

    def test_exists(self) -> None:
        self.begun().append(1, 0, ['recover,1'])
        before = self.server.keys(self.prefix)
        self.refused(LogExists, lambda: EtcdLog.create(self.address, Opening.first('bully,1,1,1')))
        self.assertEqual(self.server.keys(self.prefix), before)

    def test_at_one_moment(self) -> None:
        """Of two that make a log one does."""
        transact = Client.transact

        def other_makes_it(client: Client, *asked: Any) -> etcd_client.Answer:
            answer = transact(client, *asked)
            with mock.patch.object(Client, 'transact', transact):
                self.created(opening=Opening.first('bully,1,1,1')) if not self.server.keys(self.prefix) else None
            return answer

        with mock.patch.object(Client, 'transact', other_makes_it):
            self.refused(LogExists, lambda: EtcdLog.create(self.address, OPENING))
        self.assertEqual(self.opened().opening().header, 'bully,1,1,1')

    def test_foreign(self) -> None:
        """Something else, or a log of another form."""
        for key, value in (
            ('opening/0000000001', 'hello'), ('opening/0000000001', ''), ('x', 'x'), ('', 'x'),
            ('opening/0000000001', '{"form": 5, "epoch": 1}'), ('opening/0000000001', OPENING.text()),
        ):  # fmt: skip
            with self.subTest(key=key, value=value):
                self.server.put(f'{self.prefix}/{key}', value)
                self.refused(ForeignLog, lambda: EtcdLog(self.address))
                self.refused(
                    LogExists if key.startswith('opening') else ForeignLog,
                    lambda: EtcdLog.create(self.address, OPENING),
                )
                self.server.delete(f'{self.prefix}/{key}')

    def test_other_forms(self) -> None:
        """They are refused in words."""
        for key, value, form, version in (
            ('opening/0000000001', OPENING.text(), 2, 'an older'), ('name', '3 0123456789abcdef', 3, 'an older'),
            ('name', '5 0123456789abcdef', 5, 'a newer'), ('name', '10 0123456789abcdef', 10, 'a newer'),
        ):  # fmt: skip
            self.server.put(f'{self.prefix}/{key}', value)
            told = f'a log of format {form}, by {version} version, not of format 4'
            with self.subTest(form=form), self.assertRaisesRegex(ForeignLog, told):
                EtcdLog(self.address)
            self.server.delete(f'{self.prefix}/{key}')

    def key(self, offset: int, end: str = '') -> str:
        return f'{self.prefix}/rows/0000000001/{offset:010}{end}'

    def test_holes(self) -> None:
        log = self.begun()
        for number in range(20):
            add(log, [f'start,{number}'] * 2)
        rows = list(log.read(1, 0))
        for page in (3, 100):
            with mock.patch.object(etcd, 'PAGE', page):
                for offset in range(0, 40, 2):
                    kept = self.server.keys(self.key(offset))[self.key(offset)]['value']
                    self.server.delete(self.key(offset))
                    for first in (0, max(0, offset - 1), offset, offset + 1):
                        self.refused(DamagedLog, lambda: log.read(1, first))
                        self.refused(DamagedLog, lambda: log.snapshot(1, first))
                    self.assertEqual(list(log.read(1, offset + 2)), rows[offset + 2 :])
                    self.server.put(self.key(offset, '0'), packed('start,1\nstart,1\n'))
                    self.refused(DamagedLog, lambda: log.read(1, offset))
                    self.server.delete(self.key(offset, '0'))
                    self.server.put(self.key(offset), b64decode(kept))
                self.assertEqual(list(log.read(1, 0)), rows)

    def test_a_part_is_taken_away(self) -> None:
        """Of an epoch that was taken away no row is read, also if rows of it are left: who took it away was ended in
        the middle of that."""
        log, other = self.begun(), self.opened()
        for number in range(5):
            add(log, [f'start,{number}'] * 2)
        here = be_idle(log, ('a', A))
        self.assertTrue(log.roll_over(1, here.offset, OPENING.after(None)))
        prune_in_part(other, 2)
        self.assertEqual(list(self.server.keys(f'{self.prefix}/rows/')), [self.key(offset) for offset in (4, 6, 8)])
        for offset in (0, 2, 3, 4, 5, 10):
            with self.subTest(offset=offset):
                found = log.snapshot(1, offset)
                self.assertEqual((found.epoch, list(found.rows), set(found.holders)), (2, [], {'a'}))
                with self.assertRaisesRegex(NoEpoch, 'there is no epoch 1, only 2'):
                    log.read(1, offset)
        other.prune(2)
        self.assertEqual(self.server.keys(f'{self.prefix}/rows/'), {}, 'the next one takes the rest away')

    def test_no_rows(self) -> None:
        log = self.begun()
        add(log, ['recover,1', 'recover,2'])
        for rows in (
            'recover,1\nrecover,2',
            'recover,1\n',
            '',
            'recover,1\nrecover,2\nrecover,3\n',
            '\nx\n',
            'x\r\nx\n',
        ):
            self.server.put(self.key(0), packed(rows))
            self.refused(DamagedLog, lambda: log.read(1, 0))

    def test_bad_appends(self) -> None:
        """What can't be decompressed, or would have too many bytes, is reported with its offset, and cut by a
        repair."""
        for number, value in enumerate(BAD_APPENDS):
            log = self.begun(f'{self.address}/{number}')
            for rows in (['recover,1', 'recover,2'], ['recover,3']):
                add(log, rows)
            log.release('a', A)
            self.server.put(f'{self.prefix}/{number}/rows/0000000001/0000000002', value)
            with self.subTest(value=value[:20]):
                reads: list[Callable[[], object]] = [lambda: log.read(1, 0), lambda: log.snapshot(1, 2)]
                for call in reads:
                    with self.assertRaisesRegex(DamagedLog, 'the append at offset 2 of epoch 1 can not be read'):
                        call()
                damage = damage_of(log)
                assert damage is not None
                self.assertEqual((damage.offset, damage.rows), (2, []))
                self.assertTrue(repair(log, damage))
                self.assertEqual((list(log.read(1, 0)), damage_of(log)), (['recover,1', 'recover,2'], None))

    def test_bad_leases(self) -> None:
        cases = (
            ('session/b', '1.2'), ('session/a', 'x'), ('session/a', '1'), ('promise/a', ''), ('promise/a', '1'),
            ('promise/b', 'x'), ('promise/a', '0000000001/0000000000 '), ('promise/a', '0000000001/0000000000 x'),
            ('promise/a', '0000000001/0000000000 2 1'), ('promise/a', '0000000001/0000000000 1 1'),
            ('promise/a', '0000000001/0000000000 -1'), ('promise/a', '0000000001/0000000000  1'),
        )  # fmt: skip
        for number, (key, value) in enumerate(cases):
            with self.subTest(key=key, value=value):
                log = self.begun(f'{self.address}/{number}')
                self.server.put(f'{self.prefix}/{number}/lease/{key}', value)
                self.refused(DamagedLog, lambda: log.snapshot(1, 0))

    def test_no_end(self) -> None:
        log = self.begun()
        for value in ('', 'x', '1'):
            self.server.put(f'{self.prefix}/offset', value)
            for call in (log.epochs, lambda: log.snapshot(1, 0), lambda: log.read(1, 0)):
                self.refused(DamagedLog, call)

    def calls(self, log: EtcdLog) -> list[Callable[[], object]]:
        """Each call of a log."""
        return [
            lambda: log.read(1, 0), lambda: log.snapshot(1, 0), lambda: log.append(1, 0, ['recover,2']),
            lambda: log.renew('a', A, LONG), lambda: log.acquire('b', B, EMPTY, LONG), lambda: log.release('a', A),
            lambda: log.promise('a', A, Promise(1, 1)), log.epochs, log.opening,
            lambda: log.ask(OPENING.after(None), 1), lambda: log.cancel(1),
            lambda: log.roll_over(1, 0, OPENING.after(None)), lambda: log.wait(1, 0, {'a': A}, Until.NEWS, PATIENCE),
            lambda: log.set_maintenance(Maintenance(), None), lambda: log.times(1),
        ]  # fmt: skip

    def test_removed(self) -> None:
        log = self.begun()
        self.server.delete(f'{self.prefix}/name')
        for call in self.calls(log):
            self.refused(NoLog, call)
        self.refused(DamagedLog, lambda: EtcdLog(self.address))

    def test_replaced(self) -> None:
        log = self.begun()
        self.server.delete(f'{self.prefix}/', f'{self.prefix}0')
        self.begun().append(1, 0, ['recover,1'])
        for call in self.calls(log):
            self.refused(ForeignLog, call)
        self.assertEqual(len(self.opened().read(1, 0)), 1)

    def test_repaired(self) -> None:
        """What isn't lawful is cut, also within an append, while nobody holds a lease; and the next epoch begins."""
        log = self.begun()
        for rows in (['recover,1', 'recover,2'], ['recover,3', 'x', 'recover,1'], ['start,1']):
            add(log, rows)
        damage = damage_of(log)
        assert damage is not None
        self.assertEqual((damage.end, damage.offset, damage.rows), (Promise(1, 6), 3, ['x', 'recover,1', 'start,1']))
        self.assertFalse(repair(log, damage), 'a is live')
        log.release('a', A)
        self.assertTrue(log.ask(OPENING.after(None), 1))
        self.assertTrue(repair(log, damage))
        self.assertFalse(repair(log, damage))
        self.assertEqual((list(log.read(1, 0)), log.epochs()), (['recover,1', 'recover,2', 'recover,3'], range(1, 3)))
        self.assertEqual(
            (list(log.snapshot(2, 0).rows), log.snapshot(2, 0).requested, damage_of(log)), ([], None, None)
        )
        self.assertEqual(
            list(log.times(1)), [0, 2], 'when the last one was done that stays in part, and none after that'
        )

    def test_repaired_keys(self) -> None:
        """What is no append is reported, and removed."""
        for key, count in (('x', 3), ('0000000000x', 2), ('0000000001', 2)):
            log = self.begun(f'{self.address}/{key}')
            for rows in (['recover,1', 'recover,2'], ['recover,3']):
                add(log, rows)
            log.release('a', A)
            self.server.put(f'{self.prefix}/{key}/rows/0000000001/{key}', packed('recover,3\n'))
            with self.subTest(key=key):
                self.refused_rows(log)
                damage = damage_of(log)
                assert damage is not None
                self.assertEqual(
                    (damage.offset, damage.why),
                    (count, 'rows are missing or can not be read, or there is something else between them'),
                )
                self.assertTrue(repair(log, damage))
                self.assertEqual((log.epochs(), damage_of(log)), (range(1, 3), None))
                self.assertEqual(list(log.read(1, 0)), ['recover,1', 'recover,2', 'recover,3'][:count])

    def refused_rows(self, log: EtcdLog) -> None:
        with self.assertRaisesRegex(DamagedLog, 'there is something else between them'):
            log.snapshot(1, 0)

    def test_restored(self) -> None:
        """An etcd that was restored from a snapshot, or wiped and its log made anew, isn't taken for what it was."""
        for way in ('restored', 'made anew'):
            servers = self.servers()
            server, address, kept = servers.each[0], servers.address('x'), str(servers.each[0].folder / 'kept')
            log = self.begun(address)
            self.etcdctl('--endpoints', str(server.address.client), 'snapshot', 'save', kept)
            add(log, ['recover,1', 'recover,2'])
            server.kill()
            shutil.rmtree(server.folder / server.name)
            peer, folder = f'http://{server.address.peer}', str(server.folder / server.name)
            if way == 'restored':
                told = ('--initial-cluster', f'{server.name}={peer}', '--initial-advertise-peer-urls', peer)
                self.etcdctl('snapshot', 'restore', kept, '--name', server.name, *told, '--data-dir', folder)
            server.start()
            wait_until(server.is_up)
            if way == 'restored':
                reads: list[Callable[[], object]] = [
                    lambda: log.snapshot(1, 0),
                    log.epochs,
                    lambda: log.renew('a', A, LONG),
                ]
                self.refuse(reads, DamagedLog, 'it went back, as after a restore from a backup')
            else:
                self.created(address)
            for _ in range(20):  # so that its revision is higher than it was
                server.put('x', 'y')
            if way == 'restored':
                beyond: list[Callable[[], object]] = [
                    lambda: log.snapshot(1, 2),
                    lambda: log.append(1, 2, ['recover,1']),
                ]
                ends = 'read up to offset 2 of epoch 1, and now ends at offset 0 of epoch 1'
                self.refuse(beyond, DamagedLog, ends)
            else:
                self.refuse(self.calls(log), ForeignLog, 'there is another log in its place')

    def refuse(self, calls: list[Callable[[], object]], fault: type[LogError], why: str) -> None:
        for number, call in enumerate(calls):
            with self.subTest(call=number), self.assertRaisesRegex(fault, why):
                call()

    def etcdctl(self, *words: str) -> None:
        environment = {**os.environ, 'ETCDCTL_API': '3'}
        subprocess.run(
            ['etcdctl', *words], env=environment, stdout=subprocess.DEVNULL, stderr=subprocess.DEVNULL, check=True
        )

    def test_compacted(self) -> None:
        """Whatever is compacted while it is read, all rows are read."""
        log = self.begun()
        for _ in range(40):
            add(log, ['recover,1'])
        with mock.patch.object(etcd, 'PAGE', 10), mock.patch.object(Client, 'ask', self.compacting(1)):
            self.assertEqual(len(log.read(1, 0)), 40)
        self.assertEqual(self.left, 0)
        with mock.patch.object(etcd, 'PAGE', 10), mock.patch.object(Client, 'ask', self.compacting(100)):
            self.refused(Unanswered, lambda: log.read(1, 0))

    def compacting(self, times: int) -> Callable[..., Json]:
        """The answers of an etcd that is compacted so often after the first part of a read."""
        ask, self.left = Client.ask, times

        def answer(client: Client, path: str, told: Json, repeats: bool = False) -> Json:
            if path == etcd_client.KV_RANGE and self.left:
                self.left -= 1
                self.server.put('x', 'y')
                self.server.compact()
            return ask(client, path, told, repeats)

        return answer

    def test_compacted_watch(self) -> None:
        log, other = self.begun(), self.opened()
        watch, asked = Client.watch, []

        def from_start(client: Client, told: Json) -> etcd_client.Subscription:
            asked.append(told)
            return watch(client, {**told, 'start_revision': '1'})

        self.server.put('x', 'y')
        self.server.compact()
        with mock.patch.object(Client, 'watch', from_start):
            log.wait(1, 0, {'a': A}, Until.NEWS, 0.3)
        self.assertGreater(len(asked), 0)
        later = threading.Timer(0.1, lambda: other.append(1, 0, ['recover,1']))
        later.start()
        begun = time.monotonic()
        log.wait(1, 0, {'a': A}, Until.NEWS, PATIENCE)
        self.assertLess(time.monotonic(), begun + PATIENCE)
        later.join()


class OlderForm(InEtcd):
    """A log of the form before is read, and nothing more."""

    def setUp(self) -> None:
        super().setUp()
        put_older(self.server, self.prefix)
        self.store = EtcdStore(self.address, None, '', '')

    def test_refused(self) -> None:
        with self.assertRaisesRegex(
            ForeignLog, 'a log of format 3, by an older version, not of format 4; history writes it'
        ):
            self.store.open()
        with self.assertRaises(LogExists):
            self.store.create(OPENING)

    def test_history(self) -> None:
        self.assertEqual(list(self.store.history(1)), OLDER[1])
        for epoch in (2, None):
            self.assertEqual(list(self.store.history(epoch)), OLDER[2])
        with self.assertRaises(NoEpoch):
            self.store.history(3)
        timed = [f'{OLDER_TEXT},{row}' for row in OLDER[2][1:]]
        self.assertEqual(list(self.store.history(2, True)), [f',{OLDER[2][0]}', *timed])
        self.server.delete(older_row(self.prefix, 1, 500))
        with self.assertRaises(DamagedLog):
            self.store.history(1)

    def test_history_of_today(self) -> None:
        self.server.delete(f'{self.prefix}/', f'{self.prefix}0')
        with self.assertRaises(NoLog):
            self.store.history()
        log = self.begun()
        add(log, ['recover,1', 'start,1'])
        be_idle(log, ('a', A))
        self.assertTrue(log.roll_over(1, 2, OPENING.after(None)))
        self.assertEqual(
            (self.store.history(1), self.store.history()), (['bully,1,3,6', 'recover,1', 'start,1'], ['bully,1,3,6'])
        )
