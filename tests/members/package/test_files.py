"""Tests of logs in files of SQLite."""
from __future__ import annotations

import contextlib
import os
import sqlite3
import stat
import subprocess
import sys
import unittest
from collections.abc import Callable
from functools import partial
from pathlib import Path
from unittest import mock

from bully import boots, encoding, processes, sqlite, sqlite_file
from bully.clocks import SECOND, nanoseconds_of_boot
from bully.core import Promise, Until
from bully.encoding import packed
from bully.epochs import Opening
from bully.releasing import release_from_file
from bully.repair import damage_of, repair

from bully.shared_log import (
    DamagedLog, DiskFull, ForeignLog, Holder, LogBusy, LogError, LogExists, NoEpoch, NoLog, OtherLog, ReadOnlyLog,
)  # fmt: skip
from bully.sqlite import SqliteLog
from bully.store_options import FileStore
from bully.worker import Workers
from places import environment
from ..steps import EMPTY, LONG, OPENING, A, B, Clock, add, live
from ..waiting import PATIENCE
from .appends import BAD_APPENDS
from .folders import WithLogs

# Opens a log, and says what came of it.
OPENS = '''
import sys
from bully.shared_log import LogError
from bully.sqlite import SqliteLog
try:
    SqliteLog(sys.argv[1]).close()
    print('used')
except LogError as fault:
    print(fault)
'''

# Acquires a lease for so many seconds, and says what came of it.
ACQUIRES = '''
import sys
from bully.clocks import SECOND
from bully.shared_log import LogError
from bully.core import Session, Promise
from bully.sqlite import SqliteLog
try:
    print(SqliteLog(sys.argv[1]).acquire('b', Session(1, 1), Promise(1, 0), int(sys.argv[2]) * SECOND))
except LogError as fault:
    print(fault)
'''

# Reads who holds a lease, and says what came of it.
HOLDERS = '''
import sys
from bully.shared_log import LogError
from bully.sqlite import SqliteLog
try:
    print(*SqliteLog(sys.argv[1], reads=True).snapshot(1, 0).holders)
except LogError as fault:
    print(fault)
'''

# Moves its children to another time namespace, as `unshare --time` of some kernels does, and opens a log.
LEAVES = f'''
import ctypes
assert ctypes.CDLL(None).unshare(0x80) == 0
{OPENS}'''

# Keeps a lock on the byte of a file that writers lock, up to the end of standard input, as a user who may only read it.
LOCKS = '''
import fcntl, os, sys
os.setuid(65534)
file = os.open(sys.argv[1], os.O_RDONLY)
fcntl.lockf(file, fcntl.LOCK_SH, *map(int, sys.argv[2:]))
print('locked', flush=True)
sys.stdin.read()
'''
OTHER_CLOCK = 'another time namespace holds leases: all members must share one, /proc/self/ns/time'


def in_clocks(test: unittest.TestCase, offset: int, *words: str) -> str:
    """What a script of Python says in a time namespace of its own, whose CLOCK_BOOTTIME is so many seconds ahead."""
    if not os.path.exists('/proc/self/ns/time'):
        test.skipTest('this kernel has no time namespaces')
    if os.getuid() != 0:
        test.skipTest('only root can make a time namespace')
    command = ['unshare', '--time', '--boottime', str(offset), '--fork', sys.executable, '-c', *words]
    return subprocess.run(command, env=environment(), stdout=subprocess.PIPE, text=True, check=True).stdout


def in_mounts(test: unittest.TestCase, mounted: str, *words: str) -> str:
    """What a script of Python says, where this was mounted for it alone."""
    if os.getuid() != 0:
        test.skipTest('only root can mount')
    command = ['unshare', '--mount', 'sh', '-c', f'{mounted} && exec "$@"', 'sh', sys.executable, '-c', *words]
    return subprocess.run(command, env=environment(), stdout=subprocess.PIPE, text=True, check=True).stdout


class Files(WithLogs):
    """What can be wrong with a file."""

    def refused(self, fault: type[LogError], why: str = '') -> None:
        with self.assertRaisesRegex(fault, why) as caught:
            SqliteLog(self.path)
        self.assertIn(str(self.path), str(caught.exception))

    def begun(self) -> SqliteLog:
        """A log in which 'a' is live."""
        log = self.created()
        self.assertTrue(log.acquire('a', A, EMPTY, LONG))
        return log

    def test_none(self) -> None:
        self.refused(NoLog)

    def test_foreign(self) -> None:
        for content in (b'', b'bully,1,3,6\n' * 100):
            with self.subTest(content=content[:20]):
                self.path.write_bytes(content)
                self.refused(ForeignLog)
        self.path.unlink()
        with sqlite3.connect(self.path) as other:
            other.execute('create table log (place integer primary key, row text)')
        other.close()
        self.refused(ForeignLog)
        self.path.unlink()
        self.path.mkdir()
        self.refused(ForeignLog)

    def test_another_form(self) -> None:
        """A log of another version is reported as one."""
        for form, word in ((1, 'an older'), (2, 'an older'), (3, 'an older'), (5, 'a newer')):
            self.created().close()
            with sqlite3.connect(self.path) as other:
                other.execute(f'pragma user_version = {form}')
            other.close()
            with self.subTest(form=form):
                self.refused(ForeignLog, f'a log of format {form}, by {word} version, not of format 4')

    def test_exists(self) -> None:
        self.created()
        before = self.path.read_bytes()
        with self.assertRaises(LogExists):
            SqliteLog.create(self.path, Opening.first('bully,1,1,1'))
        self.assertEqual(self.path.read_bytes(), before)
        self.assertEqual([each.name for each in self.folder.iterdir() if '.new' in each.name], [])

    def test_damaged(self) -> None:
        log = self.begun()
        add(log, ['start,1' * 20] * 2000)
        log.close()
        content = bytearray(self.path.read_bytes())
        for start in range(8192, len(content), 4096):
            content[start : start + 16] = b'\xff' * 16
        self.path.write_bytes(content)
        with self.assertRaises(DamagedLog):
            self.opened().read(1, 0)

    def test_repaired(self) -> None:
        """The next epoch goes on from the last plan, or else from the table of the epoch before."""
        rows = ['recover,1', 'move,1', 'move,1', 'move,1', 'plan,1,1 1']
        log = self.closing(SqliteLog.create(self.path, Opening(1, 'bully,1,1,2', ('a',), 1000, (0, 1))))
        for lawful, table in ((0, (0, 1)), (len(rows), (1, 1))):
            log._file.execute('delete from log')
            text = ''.join(f'{row}\n' for row in [*rows[:lawful], 'x'])
            log._file.execute('insert into log values (1, 0, ?, 0)', (packed(text),))
            log._file.execute('update epochs set count = ?', (lawful + 1,))
            damage = damage_of(log)
            self.assertEqual(damage and (damage.offset, damage.opening.epoch, damage.opening.table), (lawful, 2, table))

    def test_ends_that_are_repaired(self) -> None:
        """What an append has after its last line end is cut, and an append without rows: both can't be read."""
        for appends, cut in ((['recover,1\nmove'], ['move']), (['recover,1\n', ''], [])):
            self.path.unlink(missing_ok=True)
            log = self.closing(SqliteLog.create(self.path, Opening.first('bully,1,1,2', ('a',))))
            for offset, text in enumerate(appends):
                log._file.execute('insert into log values (1, ?, ?, 0)', (offset, packed(text)))
            log._file.execute('update epochs set count = 1')
            with self.assertRaises(DamagedLog):
                log.read(1, 0)
            damage = damage_of(log)
            assert damage is not None
            self.assertEqual((damage.offset, damage.rows, repair(log, damage)), (1, cut, True))
            self.assertEqual((list(log.read(1, 0)), damage_of(log)), (['recover,1'], None))
            log.close()

    def test_holes(self) -> None:
        log = self.begun()
        for rows in (['recover,1', 'start,1'], ['recover,2'], ['recover,3']):
            add(log, rows)
        self.change('delete from log where offset = 2')
        for offset in (0, 1, 2):
            with self.assertRaises(DamagedLog):
                log.read(1, offset)
            with self.assertRaises(DamagedLog):
                log.snapshot(1, offset)
        self.assertEqual(list(log.read(1, 3)), ['recover,3'])
        self.change('delete from log where offset = 3')
        with self.assertRaises(DamagedLog):
            log.read(1, 3)
        self.assertEqual(list(log.read(1, 4)), [])

    def test_bad_appends(self) -> None:
        """What can't be decompressed, or would have too many bytes, is reported with its offset, and cut by a
        repair."""
        for value in BAD_APPENDS:
            log = self.begun()
            for rows in (['recover,1', 'recover,2'], ['recover,3']):
                add(log, rows)
            log.release('a', A)
            log._file.execute('update log set rows = ? where offset = 2', (value,))
            with self.subTest(value=value[:20]):
                reads: list[Callable[[], object]] = [lambda: log.read(1, 0), lambda: log.snapshot(1, 2)]
                for call in reads:
                    with self.assertRaisesRegex(DamagedLog, 'the append at offset 2 of epoch 1 can not be read'):
                        call()
                damage = damage_of(log)
                assert damage is not None
                self.assertEqual((damage.offset, damage.rows), (2, []))
                self.assertIn('1 of 3 rows are to be cut', damage.summary)
                self.assertTrue(repair(log, damage))
                self.assertEqual((list(log.read(1, 0)), damage_of(log)), (['recover,1', 'recover,2'], None))

    def test_large_appends(self) -> None:
        """What is appended has no more bytes than can be read."""
        log = self.begun()
        with mock.patch.object(encoding, 'LARGEST', 20):
            with self.assertRaises(ValueError):
                log.append(1, 0, ['größer' * 3])
            self.assertTrue(log.append(1, 0, ['größer', 'recover,1']))
            self.assertEqual(list(log.read(1, 0)), ['größer', 'recover,1'])
        with mock.patch.object(encoding, 'LARGEST', 17), self.assertRaises(DamagedLog):
            log.read(1, 0)

    def change(self, *asked: str) -> None:
        """Somebody changes the file."""
        with sqlite3.connect(self.path) as other:
            for each in asked:
                other.execute(each)
        other.close()

    def test_no_openings(self) -> None:
        for asked in ("update epochs set opening = 'hello'", "update epochs set opening = '{}'", 'delete from epochs'):
            log = self.created()
            self.change(asked)
            with self.subTest(asked=asked), self.assertRaises(DamagedLog):
                log.opening()

    def test_read_only(self) -> None:
        self.created().close()
        if os.getuid() != 0:
            self.skipTest('only root can be somebody else')
        words = f'''
import bully.sqlite, encodings.ascii, os
from bully.shared_log import LogError
os.setuid(65534)
try:
    bully.sqlite.SqliteLog({str(self.path)!r})
except LogError as fault:
    print(type(fault).__name__, fault)
'''
        self.folder.chmod(0o755)
        ran = subprocess.run(
            [sys.executable, '-c', words], env=environment(), stdout=subprocess.PIPE, text=True, check=True
        )
        self.assertRegex(ran.stdout, f'^ReadOnlyLog {self.path}: .*: its mode is 0600, and its owner is user 0$')

    def test_full_disk(self) -> None:
        log = self.begun()
        add(log, ['recover,1'])
        pages = log._one('pragma page_count')
        log._file.execute(f'pragma max_page_count = {pages + 2}')
        count = 1
        with self.assertRaises(DiskFull):
            while True:
                self.assertTrue(log.promise('a', A, Promise(1, count)))
                self.assertTrue(log.append(1, count, ['start,1' * 100] * 3))
                count += 3
        self.assertEqual((len(log.read(1, 0)), len(self.opened().read(1, 0))), (count, count))
        log._file.execute('pragma max_page_count = 1000')
        self.assertTrue(log.append(1, count, ['start,1']))

    def test_busy(self) -> None:
        self.begun()
        log, other = self.opened(0.05), self.opened()
        other._file.execute('begin immediate')
        calls: list[Callable[[], object]] = [
            lambda: log.append(1, 0, ['recover,1']), lambda: log.acquire('b', B, EMPTY, LONG),
            lambda: log.renew('a', A, LONG), lambda: log.promise('a', A, Promise(1, 1)), lambda: log.release('a', A),
            lambda: log.ask(OPENING.after(None), 1), lambda: log.roll_over(1, 0, OPENING.after(None)),
        ]  # fmt: skip
        for call in calls:
            with self.assertRaisesRegex(LogBusy, f'by process {os.getpid()}'):
                call()
        reader = self.closing(SqliteLog(self.path, 0.05, reads=True))
        self.assertEqual((list(reader.read(1, 0)), live(reader)), ([], {'a': Holder(A, EMPTY)}))
        other._file.execute('rollback')
        self.assertTrue(log.append(1, 0, ['recover,1']))

    def test_whose_lock(self) -> None:
        """A lock of that kind on byte 120 of the file counts, where SQLite has the writer's, and none beside it."""
        lock = '1: POSIX  ADVISORY  WRITE 7 08:02:31 {} {}'.format
        for first, last, is_found in (
            (120, 120, True),
            (0, 'EOF', True),
            (120, 127, True),
            (119, 119, False),
            (121, 121, False),
            (123, 127, False),
            (121, 'EOF', False),
            (0, 119, False),
        ):
            found = processes.holder_in('31', f'{lock(first, last)}\n', processes.WRITE)
            self.assertEqual(found, 7 if is_found else None, (first, last))
        for inode, kind in (('3', processes.WRITE), ('31', processes.READ)):
            self.assertIsNone(processes.holder_in(inode, f'{lock(120, 120)}\n', kind))

    def test_replaced(self) -> None:
        log = self.begun()
        self.path.unlink()
        with self.assertRaises(NoLog):
            log.renew('a', A, LONG)
        for end in ('-wal', '-shm'):
            Path(f'{self.path}{end}').unlink()
        SqliteLog.create(self.path, OPENING).close()
        calls: list[Callable[[], object]] = [lambda: log.renew('a', A, LONG), lambda: log.acquire('b', B, EMPTY, LONG)]
        for call in calls:
            with self.assertRaises(ForeignLog):
                call()

    def test_beside(self) -> None:
        """A backup is copied over it, and what was beside it is taken away: who used it doesn't go on in what is in no
        folder any more."""
        for ends in (('-wal', '-shm'), ('-wal',), ('-shm',)):
            log = self.begun()
            backup = self.path.read_bytes()
            add(log, ['recover,1'])
            self.path.write_bytes(backup)
            for end in ends:
                Path(f'{self.path}{end}').unlink()
            calls: list[Callable[[], object]] = [
                lambda: log.renew('a', A, LONG), lambda: log.acquire('b', B, EMPTY, LONG),
                lambda: log.append(1, 1, ['recover,2']), lambda: log.snapshot(1, 1),
                lambda: log.promise('a', A, Promise(1, 1)), lambda: log.wait(1, 1, {'a': A}, Until.NEWS, PATIENCE),
            ]  # fmt: skip
            for call in calls:
                with self.subTest(ends=ends), self.assertRaisesRegex(OtherLog, 'its -wal or its -shm was removed'):
                    call()

    def test_another_path(self) -> None:
        """The path leads to the same file by a link, or the file has another name: others would have other files beside
        it. A folder that is moved and linked has the same ones."""
        log, folder = self.begun(), self.folder / 'elsewhere'
        folder.mkdir()
        other = folder / 'group.db'
        os.link(self.path, other)
        with self.assertRaisesRegex(OtherLog, 'it has another name, a hard link, so others would have another -wal'):
            log.renew('a', A, LONG)
        other.unlink()
        self.assertTrue(log.renew('a', A, LONG))
        self.path.rename(other)
        self.path.symlink_to(other)
        with self.assertRaisesRegex(OtherLog, 'its -wal or its -shm was removed'):
            log.wait(1, 0, {'a': A}, Until.NEWS, PATIENCE)
        self.path.unlink()
        other.rename(self.path)
        self.assertTrue(log.renew('a', A, LONG))
        self.folder.rename(f'{self.folder}.moved')
        self.folder.symlink_to(f'{self.folder}.moved')
        self.assertTrue(log.renew('a', A, LONG))
        self.folder.unlink()
        Path(f'{self.folder}.moved').rename(self.folder)

    def lose(self, do: Callable[[SqliteLog], bool]) -> str:
        """A process acquires the lease of 'a' in a new log, does that, and dies. Then the -wal and the -shm are
        removed. The log's name."""
        created = self.created()
        created.close()
        process = os.fork()
        if process == 0:
            with contextlib.suppress(Exception):
                log = SqliteLog(self.path)
                os._exit(0 if log.acquire('a', A, EMPTY, LONG) and do(log) else 1)
            os._exit(2)
        self.assertEqual(os.waitpid(process, 0)[1], 0)
        self.remove_beside()
        return created.name

    def remove_beside(self) -> None:
        for end in ('-wal', '-shm'):
            Path(f'{self.path}{end}').unlink()

    def test_another_wal_while_it_opens(self) -> None:
        """Others may replace the files beside it after SQLite has opened these: then there are two histories."""
        self.begun()

        def replaced(path: str) -> list[sqlite_file.Identity]:
            for end in ('-wal', '-shm'):
                there = Path(f'{self.path}{end}')
                there.rename(f'{there}.before')
                there.touch()
            return sqlite_file.beside(path)

        with mock.patch.object(sqlite, 'beside', replaced), self.assertRaisesRegex(OtherLog, 'others use another one'):
            SqliteLog(self.path)

    def test_a_lost_wal(self) -> None:
        """Who comes then waits for a ttl from then on: processes that hold leases may still use what was lost. Then a
        later epoch starts."""
        self.lose(lambda log: log.acquire('b', B, EMPTY, SECOND) and log.promise('a', A, Promise(1, 1)))
        log, clock = self.opened(), Clock()
        clock.now = nanoseconds_of_boot()
        calls: list[Callable[[], object]] = [
            lambda: log.acquire('a', B, EMPTY, SECOND), lambda: log.snapshot(1, 0),
            lambda: self.opened().acquire('c', B, EMPTY, SECOND),
        ]  # fmt: skip
        with mock.patch.object(sqlite, 'nanoseconds_of_boot', clock):
            for later in (0, 2 * SECOND, LONG - 3 * SECOND):
                clock.now += later
                for call in calls:
                    with self.assertRaisesRegex(LogBusy, 'its -wal was lost, and members that used it may still work'):
                        call()
            self.assertFalse(log.cut(EMPTY, 0, '', OPENING.next(None, ())), 'somebody may hold a lease')
            clock.now += 2 * SECOND
            self.assertFalse(log.acquire('c', B, EMPTY, SECOND))
            self.assertEqual((log.opening().epoch, log.opening().bare), (2, OPENING.after(None)))
            self.assertTrue(log.acquire('c', B, Promise(2, 0), SECOND))
            self.assertEqual(list(live(log)), ['c'])

    def test_a_lost_wal_and_releases(self) -> None:
        """The watchdogs of the members that are gone release these leases. The first of them may be the first to use
        the new -wal."""
        for is_first in (False, True):
            name = self.lose(lambda log: log.acquire('b', B, EMPTY, LONG))
            log = None if is_first else self.opened()
            release_from_file(str(self.path), name, 'a', encoding.session_text(A), 1.0)
            log = log or self.opened()
            with self.subTest(is_first=is_first), self.assertRaisesRegex(LogBusy, 'its -wal was lost'):
                log.acquire('a', B, EMPTY, SECOND)
            release_from_file(str(self.path), name, 'b', encoding.session_text(B), 1.0)
            self.assertFalse(log.acquire('a', B, EMPTY, SECOND))
            self.assertTrue(log.acquire('a', B, Promise(2, 0), SECOND))

    def test_an_epoch_of_a_lost_wal(self) -> None:
        """No epoch comes again in which somebody may have worked."""
        self.lose(
            lambda log: log.roll_over(1, 0, OPENING.after(None)) and log.promise('a', A, Promise(2, 0))
            and log.append(2, 0, ['recover,1'])
        )  # fmt: skip
        log = self.opened()
        release_from_file(str(self.path), log.name, 'a', encoding.session_text(A), 1.0)
        self.assertFalse(log.acquire('b', B, Promise(2, 0), SECOND))
        self.assertEqual(log.epochs()[-1], 3)

    def test_a_wal_in_order(self) -> None:
        """If all have left, nobody waits: the -wal isn't there then. If somebody died it stays."""
        log = self.begun()
        log.release('a', A)
        log.close()
        self.assertFalse(Path(f'{self.path}-wal').exists())
        log = self.opened()
        self.assertTrue(log.acquire('a', A, EMPTY, LONG))
        log.close()
        self.assertTrue(Path(f'{self.path}-wal').exists())
        reader = SqliteLog(self.path, reads=True)
        self.assertEqual(live(reader), {'a': Holder(A, EMPTY)})
        reader.close()
        log = self.opened()
        self.assertTrue(log.acquire('b', B, EMPTY, LONG))
        self.assertEqual((log.epochs()[-1], set(live(log))), (1, {'a', 'b'}))

    def test_beside_a_link(self) -> None:
        """The same by a symbolic link, which has nothing beside it; and who keeps the lock is reported."""
        self.begun().close()
        link = self.folder / 'link.db'
        link.symlink_to(self.path)
        log = self.closing(SqliteLog(link, 0.01))
        with contextlib.closing(sqlite3.connect(self.path, isolation_level=None)) as other:
            other.execute('begin immediate')
            with self.assertRaisesRegex(LogBusy, f'locked by process {os.getpid()}$'):
                log.renew('a', A, LONG)
        for end in ('-wal', '-shm'):
            Path(f'{self.path}{end}').unlink()
        with self.assertRaisesRegex(OtherLog, 'its -wal or its -shm was removed'):
            log.renew('a', A, LONG)

    def test_other_names(self) -> None:
        """Who has a file by another name has another file beside it, so it isn't used."""
        self.created().close()
        other = self.folder / 'other.db'
        os.link(self.path, other)
        self.refused(ForeignLog, 'a hard link, so others would have another -wal and -shm beside it: other.db$')
        elsewhere = self.folder / 'elsewhere'
        elsewhere.mkdir()
        other.rename(elsewhere / 'other.db')
        self.refused(ForeignLog, 'a hard link, .*: in another folder$')
        (elsewhere / 'other.db').unlink()
        other.symlink_to(self.path)
        self.closing(SqliteLog(other))

    def test_a_name_that_is_left(self) -> None:
        """An `init` that was killed may have left the name by which it made the file: it is removed. (So did those that
        were before this one.)"""
        self.created().close()
        link = self.folder / 'link.db'
        link.symlink_to(self.path)
        for path in (self.path, link):
            left = Path(f'{self.path}.0123456789abcdef.new')
            os.link(self.path, left)
            self.closing(SqliteLog(path)).snapshot(1, 0)
            self.assertEqual((left.exists(), self.path.stat().st_nlink), (False, 1))

    def test_shared_file_systems(self) -> None:
        """Those of more than one machine are refused, in words, by the list of mounts; others are taken."""
        mounts = '29 1 254:0 / / rw,relatime - ext4 /dev/root rw\n9 29 0:33 / /m rw shared:5 master:1 - %s h:/m rw\n'
        self.assertEqual(sqlite_file.kind_of('mnt_id:\t29', mounts % 'nfs4'), 'ext4')
        self.assertEqual(sqlite_file.kind_of('mnt_id:\t2', mounts % 'nfs4'), '')
        for kind in ('nfs', 'nfs4', 'cifs', '9p', 'virtiofs', 'fuse.sshfs', 'ceph'):
            self.assertEqual(sqlite_file.kind_of('mnt_id:\t9', mounts % kind), kind)
            log = self.created()
            with self.subTest(kind=kind), mock.patch.object(sqlite_file, 'kind_of', lambda *_: kind):
                self.refused(ForeignLog, f'on a file system of more than one machine, {kind}, .* or a log in etcd')
                with self.assertRaisesRegex(ForeignLog, 'of more than one machine'):
                    SqliteLog.create(self.folder / 'other.db', OPENING)
            log.close()
        for kind in ('ext4', 'xfs', 'btrfs', 'tmpfs', 'overlay', 'zfs', 'fuseblk', ''):
            with mock.patch.object(sqlite_file, 'kind_of', lambda *_: kind):
                self.closing(SqliteLog(self.path))

    def test_without_a_wal(self) -> None:
        """Where SQLite can't keep a -wal it goes on in another way, by which nobody waits for others as here."""
        self.created().close()
        self.change('pragma journal_mode = delete')
        whole = sqlite.connection

        def without(path: str, patience: float, mode: str = 'rw') -> sqlite3.Connection:
            return sqlite3.connect(f'file:{path}?vfs=unix-dotfile', isolation_level=None, uri=True)

        with mock.patch.object(sqlite, 'connection', without):
            self.refused(ForeignLog, 'SQLite keeps a journal of mode delete here')
        self.assertIs(sqlite.connection, whole)
        self.closing(SqliteLog(self.path))

    def test_modes(self) -> None:
        """A file is its owner's alone, and so is what is beside it, whatever the mask; or its group's, too. That of a
        file which is there stays."""
        made: dict[int, int] = {sqlite_file.OWNER_ALONE: 0o600, sqlite_file.ITS_GROUP: 0o660}
        before = os.umask(0)
        self.addCleanup(os.umask, before)
        for mask in (0, 0o022, 0o077):
            for mode, wanted in made.items():
                os.umask(mask)
                self.paths.append(self.folder / f'{mask}-{mode}.db')
                log = self.closing(SqliteLog.create(self.path, OPENING, mode))
                self.assertTrue(log.acquire('a', A, EMPTY, LONG))
                self.assertEqual(self.modes(), [wanted] * 3)
                log.release('a', A)
                log.close()
                self.path.chmod(0o640)
                self.assertTrue(self.opened().acquire('a', A, EMPTY, LONG))
                self.assertEqual(self.modes(), [0o640] * 3)
        self.assertEqual(sqlite_file.readers_warning(str(self.path)), '')
        for end, mode in (('-shm', 0o644), ('', 0o602)):
            Path(f'{self.path}{end}').chmod(mode)
            why = 'so every user who can reach its folder may read it, and whoever may read it can stop the group'
            told = f'{self.path}{end}: its mode is {mode:04o}, {why}; chmod o= {self.path}*'
            self.assertEqual(sqlite_file.readers_warning(str(self.path)), told)

    def modes(self) -> list[int]:
        """Those of the file, and of what is beside it."""
        return [stat.S_IMODE(os.stat(f'{self.path}{end}').st_mode) for end in ('', '-wal', '-shm')]

    def test_for_a_group(self) -> None:
        """The folder must give its group to the files that are made there."""
        shared = FileStore(str(self.path), is_shared=True)
        for mode in (0o700, 0o770, 0o2750):
            self.folder.chmod(mode)
            with self.assertRaisesRegex(ReadOnlyLog, f'does not give new files its group.*{self.folder}$'):
                shared.create(OPENING)
        self.folder.chmod(0o2770)
        shared.create(OPENING).close()
        self.assertEqual(stat.S_IMODE(self.path.stat().st_mode), 0o660)

    def test_readers(self) -> None:
        """Who only reads can keep all from writing, and is named. Of a file that is its owner's nobody else can."""
        log = self.begun()
        if os.getuid() != 0:
            self.skipTest('only root can be somebody else')
        self.folder.chmod(0o755)
        said = subprocess.run([sys.executable, '-c', LOCKS, f'{self.path}-shm', '1', '120'], stderr=subprocess.PIPE)
        self.assertIn(b'PermissionError', said.stderr)
        for end in ('', '-wal', '-shm'):
            Path(f'{self.path}{end}').chmod(0o644)
        for length, first in ((1, 120), (0, 0)):
            reads = [sys.executable, '-c', LOCKS, f'{self.path}-shm', str(length), str(first)]
            with subprocess.Popen(reads, stdin=subprocess.PIPE, stdout=subprocess.PIPE) as reader:
                assert reader.stdin is not None and reader.stdout is not None
                self.assertEqual(reader.stdout.readline(), b'locked\n')
                named = f'locked by process {reader.pid} of user 65534, which only reads$'
                with self.subTest(length=length), self.assertRaisesRegex(LogBusy, named):
                    log.renew('a', A, LONG)
                reader.stdin.close()
                reader.wait()
            self.assertTrue(log.renew('a', A, LONG))

    def test_mounted(self) -> None:
        """A folder may be mounted elsewhere, and no file alone."""
        self.created().close()
        elsewhere, alone = self.folder / 'elsewhere', self.folder / 'alone.db'
        elsewhere.mkdir()
        alone.touch()
        said = in_mounts(self, f'mount --bind {self.path} {alone}', OPENS, str(alone))
        self.assertRegex(said, f'^{alone}: it is mounted alone')
        self.assertEqual(
            in_mounts(self, f'mount --bind {self.folder} {elsewhere}', OPENS, str(elsewhere / self.path.name)), 'used\n'
        )
        self.opened()
        for end in ('-wal', '-shm'):
            beside = f'{self.path}{end}'
            said = in_mounts(self, f'mount --bind {alone} {beside}', OPENS, str(self.path))
            self.assertRegex(said, f'^{beside}: it is mounted alone')

    def test_earlier_boot(self) -> None:
        """What was held before the machine booted isn't held any more, though its end hasn't come by the clock that
        began again."""
        self.begun()
        clock = mock.patch.object(sqlite, 'nanoseconds_of_boot', Clock())
        clock.start()
        self.addCleanup(clock.stop)
        self.change('update leases set since = since + 3600 * 1000000000')
        with mock.patch.object(sqlite, 'boot_name', lambda: 'another'):
            later = self.opened()
        self.assertEqual(live(later), {})
        self.assertFalse(later.append(1, 0, ['recover,1']))
        self.assertFalse(later.renew('a', A, LONG))
        self.assertFalse(later.promise('a', A, Promise(1, 5)))
        self.assertTrue(later.acquire('a', B, EMPTY, 5 * SECOND))
        self.assertTrue(later.renew('a', B, LONG))

    def test_two_boots(self) -> None:
        """A machine has one boot at a time: of two over one file the earlier one is refused, also when it comes again.
        By one clock the later one waits until no lease of the earlier one may be held."""
        log, clock = self.begun(), Clock()
        with mock.patch.object(sqlite, 'boot_name', lambda: 'another'):
            later = self.opened()
        for ttl in (2 * LONG, SECOND):
            with self.assertRaisesRegex(LogBusy, 'another boot may still hold leases'):
                later.acquire('b', B, EMPTY, ttl)
            self.assertTrue(log.renew('a', A, LONG))
        self.assertFalse(later.cut(EMPTY, 0, '', OPENING.next(None, ())), 'somebody holds a lease')
        clock.now = nanoseconds_of_boot() + 2 * LONG
        with mock.patch.object(sqlite, 'nanoseconds_of_boot', clock):
            self.assertTrue(later.acquire('b', B, EMPTY, LONG))
        calls: list[Callable[[], object]] = [
            lambda: log.renew('a', A, LONG), lambda: log.append(1, 0, ['recover,1']), lambda: log.snapshot(1, 0),
            lambda: SqliteLog(self.path), lambda: log.acquire('a', A, EMPTY, LONG),
            lambda: log.wait(1, 0, {'a': A}, Until.NEWS, PATIENCE), lambda: log.ask(OPENING.after(None), 1),
        ]  # fmt: skip
        for call in calls:
            with self.assertRaisesRegex(ForeignLog, 'another boot has used it after this one'):
                call()
        self.assertTrue(later.renew('b', B, LONG))

    def test_two_containers(self) -> None:
        """Where a container has a boot of its own, as it sees it."""
        log = self.begun()
        (self.folder / 'boot').write_text('another\n')
        seen = f'mount --bind {self.folder}/boot /proc/sys/kernel/random/boot_id'
        for seconds in ('2000', '5'):
            self.assertEqual(
                in_mounts(self, seen, ACQUIRES, str(self.path), seconds),
                f'{self.path}: another boot may still hold leases\n',
            )
        log.release('a', A)
        self.assertEqual(in_mounts(self, seen, ACQUIRES, str(self.path), '5'), 'True\n')
        with self.assertRaisesRegex(ForeignLog, 'another boot has used it after this one'):
            log.renew('a', A, LONG)

    def test_time_namespaces(self) -> None:
        """A member that counts by another clock is refused while leases are held, whichever clock is ahead, and if none
        is, too; and the members that were there go on. It may come once nobody holds a lease; then the first one is
        refused, and may come again."""
        log = self.begun()
        for offset in (100_000, -10, 0):
            for script in (ACQUIRES, HOLDERS):
                with self.subTest(offset=offset):
                    said = in_clocks(self, offset, script, str(self.path), '5')
                    self.assertEqual(said, f'{self.path}: {OTHER_CLOCK}\n')
        self.assertTrue(log.renew('a', A, LONG))
        self.assertTrue(log.append(1, 0, ['recover,1']))
        self.assertTrue(log.promise('a', A, Promise(1, 1)))
        log.release('a', A)
        self.change("delete from log", 'update epochs set count = 0')  # so that the end is where that script takes one
        self.assertEqual(in_clocks(self, 100_000, ACQUIRES, str(self.path), '1000'), 'True\n')
        calls: list[Callable[[], object]] = [
            lambda: log.acquire('a', A, EMPTY, LONG), lambda: log.snapshot(1, 0), lambda: self.opened().snapshot(1, 0),
            lambda: log.wait(1, 0, {}, Until.NEWS, PATIENCE),
        ]  # fmt: skip
        for call in calls:
            with self.assertRaisesRegex(ForeignLog, OTHER_CLOCK):
                call()
        self.change('update leases set until = since + 1')  # as if it hadn't been renewed
        self.assertTrue(log.acquire('a', A, EMPTY, LONG))
        self.assertEqual(live(log), {'a': Holder(A, EMPTY)})
        self.assertEqual(in_clocks(self, 100_000, ACQUIRES, str(self.path), '5'), f'{self.path}: {OTHER_CLOCK}\n')

    def test_a_kernel_without_time_namespaces(self) -> None:
        there = boots.boot_name()
        with mock.patch.object(os, 'readlink', side_effect=FileNotFoundError):
            self.assertEqual(boots.boot_name(), there)
        self.assertEqual(there, Path('/proc/sys/kernel/random/boot_id').read_text().strip())

    def test_children_by_another_clock(self) -> None:
        """A watchdog would count by another clock than its member."""
        self.created().close()
        if os.getuid() != 0 or not os.path.exists('/proc/self/ns/time'):
            self.skipTest('there are no time namespaces, or only root can make one')
        ran = [sys.executable, '-c', LEAVES, str(self.path)]
        said = subprocess.run(ran, env=environment(), stdout=subprocess.PIPE, text=True, check=True).stdout
        self.assertRegex(said, 'this process is in one time namespace and its children in another')

    def test_a_watchdog_by_another_clock(self) -> None:
        """It isn't begun, whatever the store is."""
        begun = mock.patch.object(subprocess, 'Popen', side_effect=AssertionError('it has begun'))
        with begun, mock.patch.object(boots, 'namespace_of', str):
            with self.assertRaisesRegex(ForeignLog, 'its watchdog would count by another clock'):
                Workers(['true'], 'a', 1.0).watch(mock.Mock())

    def test_first_of_a_boot(self) -> None:
        """Another member acquires the first lease of this boot between any two statements of a call."""
        calls: dict[str, Callable[[SqliteLog], object]] = {
            'epochs': SqliteLog.epochs, 'opening': SqliteLog.opening,
            'wait': lambda log: log.wait(1, 0, {}, Until.NEWS, 0.001), 'snapshot': lambda log: log.snapshot(1, 0),
        }  # fmt: skip
        for name, call in calls.items():
            acquired = 0
            for count in range(1, 10):
                with self.subTest(call=name, count=count):
                    acquired += self.acquire_at(count, call)
            self.assertGreater(acquired, 0, name)

    def acquire_at(self, count: int, call: Callable[[SqliteLog], object]) -> bool:
        """Calls, and at so many statements of that another acquires a lease. Whether it came to so many."""
        log, other, seen = self.created(), self.opened(), 0

        def see(asked: str) -> None:
            nonlocal seen
            seen += 1
            if seen == count:
                self.assertTrue(other.acquire('b', B, EMPTY, LONG))

        log._file.set_trace_callback(see)
        call(log)
        log._file.set_trace_callback(None)
        self.assertEqual('b' in live(log), seen >= count)
        return seen >= count

    def test_bad_lease(self) -> None:
        bad = (
            "session = 'x'",
            "session = '1.x'",
            "epoch = 'x'",
            "until = 'x'",
            "kept = 'x'",
            "kept = '2 1'",
            "kept = '1 1'",
            "kept = ' 1'",
            "kept = '-1'",
        )
        for asked in bad:
            log = self.begun()
            self.change(f'update leases set {asked}')
            with self.subTest(asked=asked), self.assertRaisesRegex(DamagedLog, 'the lease of a can not be read'):
                log.snapshot(1, 0)

    def test_another_log(self) -> None:
        """One that was written into the same file has another name."""
        log = self.begun()
        self.change("update changes set name = 'another'")
        calls: list[Callable[[], object]] = [
            lambda: log.renew('a', A, LONG),
            lambda: log.append(1, 0, ['recover,1']),
            lambda: log.snapshot(1, 0),
        ]
        for call in calls:
            with self.assertRaisesRegex(ForeignLog, 'there is another log in its place'):
                call()

    def test_restored(self) -> None:
        """A backup is written over it while it is used: a member that has read more ends."""
        log = self.begun()
        backup = sqlite3.connect(self.folder / 'backup')
        with contextlib.closing(backup), contextlib.closing(sqlite3.connect(self.path)) as file:
            file.backup(backup)
            add(log, ['recover,1', 'start,1'])
            reader = self.opened()
            self.assertEqual(len(reader.snapshot(1, 2).rows), 0)
            backup.backup(file)
        calls: list[Callable[[], object]] = [
            lambda: reader.snapshot(1, 2),
            lambda: log.append(1, 2, ['recover,2']),
            lambda: log.read(1, 2),
        ]
        ends = 'read up to offset 2 of epoch 1, and now ends at offset 0 of epoch 1: its store has lost rows'
        for call in calls:
            with self.assertRaisesRegex(DamagedLog, ends):
                call()

    def test_a_name_reaches_the_disk(self) -> None:
        """The name of a log that was made does, and that is there by then."""
        synced: list[tuple[str, bool]] = []

        def see(descriptor: int) -> None:
            synced.append((os.readlink(f'/proc/self/fd/{descriptor}'), (self.folder / 'group0.db').exists()))

        with mock.patch.object(os, 'fsync', see):
            self.created()
        self.assertEqual(synced, [(str(self.folder.resolve()), True)])

    def test_what_reaches_the_disk(self) -> None:
        """What is appended does; leases and promises need not."""
        log = self.begun()
        self.assertEqual(log._one('pragma synchronous'), 1)
        told: list[str] = []
        log._file.set_trace_callback(told.append)
        calls: list[Callable[[], object]] = [
            lambda: log.renew('a', A, LONG), lambda: log.promise('a', A, EMPTY), lambda: log.snapshot(1, 0),
            lambda: log.append(1, 0, ['x']),
        ]  # fmt: skip
        for number, call in enumerate(calls):
            told.clear()
            call()
            self.assertEqual(
                [each for each in told if 'synchronous' in each][:1],
                ['pragma synchronous = full'] if number == 3 else [],
            )
        self.assertEqual(log._one('pragma synchronous'), 1)


class OlderForm(WithLogs):
    """A log of the form before is read, and nothing more."""

    TABLES = """
    create table epochs (epoch integer primary key, opening text not null, wish text, count integer);
    create table log (epoch integer, place integer, rows text not null, time integer, primary key (epoch, place));
    create table presence (
        name text primary key, life text not null, epoch integer not null, place integer not null, boot text not null,
        since integer not null, until integer not null
    );
    create table changes (name text not null, lives integer not null, promises integer not null, orders text not null);
    create table boots (number integer primary key, boot text not null unique);
    """

    def setUp(self) -> None:
        super().setUp()
        kinds = f'pragma application_id = {sqlite.APPLICATION}; pragma user_version = 3; pragma journal_mode = wal'
        first, second = OPENING.text(), OPENING.after(None).text()
        self.wanted = ['bully,1,3,6', *(f'start,{number}' for number in range(2000))]
        with contextlib.closing(sqlite3.connect(self.path, isolation_level=None)) as file:
            file.executescript(f'{kinds}; {self.TABLES}')
            file.executemany('insert into epochs values (?, ?, null, ?)', [(1, first, 2000), (2, second, 1)])
            file.execute("insert into changes values ('0123456789abcdef', 5, 9, '')")
            for place in range(0, 2000, 500):
                rows = ''.join(f'{row}\n' for row in self.wanted[place + 1 : place + 501])
                file.execute('insert into log values (1, ?, ?, 1700000000007)', (place, rows))
            file.execute("insert into log values (2, 0, 'größer' || char(10), null)")
        self.store = FileStore(str(self.path))

    def test_refused(self) -> None:
        for reads in (False, True):
            with self.assertRaisesRegex(
                ForeignLog, 'a log of format 3, by an older version, not of format 4; history writes it'
            ):
                self.store.open(reads=reads)
        with self.assertRaises(LogExists):
            self.store.create(OPENING)

    def test_history(self) -> None:
        before = self.path.read_bytes()
        self.assertEqual(list(self.store.history(1)), self.wanted)
        for epoch in (2, None):
            self.assertEqual(list(self.store.history(epoch)), ['bully,1,3,6', 'größer'])
        timed = [f'2023-11-14T22:13:20.007Z,{row}' for row in self.wanted[1:]]
        self.assertEqual(list(self.store.history(1, True)), [f',{self.wanted[0]}', *timed])
        with self.assertRaises(NoEpoch):
            self.store.history(3)
        self.assertEqual(self.path.read_bytes(), before)
        with sqlite3.connect(self.path) as file:
            file.execute('delete from log where place = 500')
        file.close()
        with self.assertRaises(DamagedLog):
            self.store.history(1)

    def test_history_of_today(self) -> None:
        self.path.unlink()
        with self.assertRaises(NoLog):
            self.store.history()
        self.store.create(OPENING).close()
        log = self.opened()
        self.assertTrue(log.acquire('a', A, EMPTY, LONG))
        end = add(log, ['recover,1', 'start,1'])
        self.assertTrue(log.promise('a', A, end))
        self.assertTrue(log.roll_over(1, 2, OPENING.after(None)))
        self.assertEqual(
            (self.store.history(1), self.store.history()), (['bully,1,3,6', 'recover,1', 'start,1'], ['bully,1,3,6'])
        )
