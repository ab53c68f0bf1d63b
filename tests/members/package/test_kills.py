"""Tests of commands that are killed at each system call that writes: nothing is left that no page names."""
from __future__ import annotations

import contextlib
import dataclasses
import re
import shutil
import sqlite3
import subprocess
import sys
from collections import Counter
from collections.abc import Iterator, Sequence
from concurrent.futures import ThreadPoolExecutor
from pathlib import Path
from typing import NamedTuple

from bully.epochs import Opening
from bully.maintenance import Maintenance
from bully.sqlite import SqliteLog
from places import environment
from .configurations import TOP, toml
from .folders import WithFolder, changed
from .member_processes import call
from .threads import put

# What may change a file or a folder, for others that are there: what reaches the disk is no matter of a kill. (To open
# a file does so only if that is made or emptied by it.)
WRITES = (
    'write', 'pwrite64', 'writev', 'pwritev', 'pwritev2', 'ftruncate', 'truncate', 'fallocate', 'unlink', 'unlinkat',
    'link', 'linkat', 'rename', 'renameat', 'renameat2', 'symlink', 'symlinkat', 'mkdir', 'mkdirat', 'chmod', 'fchmod',
    'fchmodat', 'chown', 'fchown', 'fchownat', 'openat',
)  # fmt: skip
OPENS = re.compile(r'O_CREAT|O_TRUNC')
CALL = re.compile(r'([a-z0-9_]+)\((.*)')
AT_ONCE = 4  # processes

# The command, whose own lease is soon over, and which prunes one append at a time.
RUNS = """
import sys
from bully import command, operations, sqlite
operations.OWN_TTL, sqlite.PRUNED_AT_ONCE = 100_000_000, 1
sys.exit(command.main(sys.argv[1:]))
"""


class State(NamedTuple):
    """The state of a log."""

    epochs: range
    opening: Opening
    rows: Sequence[str]
    requested: Opening | None
    maintenance: Maintenance
    kept: int  # appends of all epochs


class Moment(NamedTuple):
    """A system call of a command: the how manieth of its kind."""

    name: str
    number: int


def traced(strace: Sequence[str], words: Sequence[str], folder: Path) -> subprocess.CompletedProcess[str]:
    """The command, with these words of strace, in that folder."""
    run = ['strace', '-qq', *strace, sys.executable, '-B', '-c', RUNS, *words]
    return subprocess.run(run, cwd=folder, env=environment(), stdout=subprocess.PIPE, stderr=subprocess.PIPE, text=True)


def moments_of(trace: str) -> Iterator[Moment]:
    """The calls of a trace that write, in their order."""
    counts: Counter[str] = Counter()
    for line in trace.splitlines():
        found = CALL.match(line)
        if found is not None:
            name, words = found.groups()
            counts[name] += 1
            if name != 'openat' or OPENS.search(words):
                yield Moment(name, counts[name])


def state_of(path: Path) -> State:
    """The state of the log, as whoever opens it finds it."""
    with contextlib.closing(SqliteLog(path, reads=True)) as log, contextlib.closing(sqlite3.connect(path)) as file:
        epoch, found = log.epochs()[-1], log.snapshot(0, 0)
        kept = file.execute('select count(*) from log').fetchone()[0]
        return State(log.epochs(), log.opening(), list(log.read(epoch, 0)), found.requested, found.maintenance, kept)


class Kills(WithFolder):
    """Each command, killed before each system call that writes."""

    def setUp(self) -> None:
        super().setUp()
        self.before: tuple[int, ...] = ()  # the status of `status`, if the log is damaged before the command
        self.room = self.folder / 'before'  # as it is before the command
        self.room.mkdir()
        self.path = self.room / 'group.db'
        if shutil.which('strace') is None:
            self.skipTest('there is no strace')
        if subprocess.run(['strace', '-qq', 'true'], stderr=subprocess.DEVNULL).returncode:
            self.skipTest('strace may not trace here')
        for name, partitions in (('group', 6), ('new', 4)):
            (self.room / f'{name}.toml').write_bytes(toml({**TOP, 'partitions': partitions}))

    def of_log(self, *words: str) -> tuple[int, str, str]:
        return call(*words, '--log', f'sqlite:{self.path}')

    def began(self, *rows: str) -> None:
        """There is a log with these rows, each of an append of its own."""
        self.assertEqual(self.of_log('init', '--config', str(self.room / 'group.toml')), (0, '', ''))
        with contextlib.closing(SqliteLog(self.path)) as log:
            for row in rows:
                put(log, row)

    def change(self, *asked: str) -> None:
        """Somebody changes the file."""
        with changed(self.path) as file:
            for each in asked:
                file.execute(each)

    def copy(self, name: str) -> Path:
        """A folder as it is before the command."""
        copy = self.folder / name
        shutil.copytree(self.room, copy)
        return copy

    def kill_at_each(self, *words: str, refused: int = 0) -> None:
        """Wherever the command is killed, it does the same after that as if it hadn't been; or, by that status, it says
        that all is done."""
        words = (*words, '--log', 'sqlite:group.db')
        whole, trace = self.copy('whole'), self.folder / 'trace'
        ran = traced(['-e', f'trace={",".join(WRITES)}', '-o', str(trace)], words, whole)
        self.assertEqual(ran.returncode, 0, ran.stderr)
        wanted, moments = state_of(whole / 'group.db'), list(moments_of(trace.read_text()))

        def kill(moment: Moment) -> Path:
            folder, at = self.copy(f'{moment.name}{moment.number}'), f'signal=KILL:when={moment.number}'
            inject = ['-e', f'trace={moment.name}', '-e', f'inject={moment.name}:{at}', '-o', '/dev/null']
            killed = traced(inject, words, folder)
            self.assertEqual(killed.returncode, -9, f'{moment}: {killed.stderr}')
            return folder

        with ThreadPoolExecutor(AT_ONCE) as pool:
            for moment, folder in zip(moments, pool.map(kill, moments)):
                with self.subTest(moment=moment):
                    self.see_whole(folder, words, wanted, refused)
        self.assertGreater(len(moments), 10)

    def see_whole(self, folder: Path, words: Sequence[str], wanted: State, refused: int) -> None:
        """The log can be used, or is as it was before; and the command brings it to the wanted state."""
        path, *words = folder / 'group.db', *(str(folder / word) if word.endswith('.toml') else word for word in words)
        store = ['--log', f'sqlite:{path}']
        status, _, why = call('status', *store)
        self.assertIn(status, (0, 1, *self.before) if path.exists() else (4,), why)
        status, _, why = call(*words[:-2], *store)
        self.assertIn(status, (0, refused), why)
        self.assertEqual(state_of(path), wanted)
        self.assertEqual((path.stat().st_nlink, call('repair', *store)[0]), (1, 0))

    # The commands.

    def test_init(self) -> None:
        self.kill_at_each('init', '--config', 'group.toml', refused=7)

    def test_resize(self) -> None:
        self.began('recover,2')
        self.kill_at_each('resize', '--config', 'new.toml')

    def test_cancel(self) -> None:
        self.began()
        with contextlib.closing(SqliteLog(self.path)) as log:
            opening = log.opening()
            self.assertTrue(log.ask(dataclasses.replace(opening, epoch=2), 1))
        self.kill_at_each('resize', '--cancel')

    def test_drain(self) -> None:
        self.began('recover,2')
        self.kill_at_each('drain', 'b')

    def test_undrain(self) -> None:
        self.began('recover,2')
        self.assertEqual(self.of_log('drain', 'b')[0], 0)
        self.kill_at_each('undrain', 'b')

    def test_pause(self) -> None:
        self.began('recover,2')
        self.kill_at_each('pause')

    def test_resume(self) -> None:
        self.began('recover,2')
        self.assertEqual(self.of_log('pause')[0], 0)
        self.kill_at_each('resume')

    def test_prune(self) -> None:
        self.began('recover,2', 'recover,1', 'recover,3')
        for name in ('new', 'group'):
            self.assertEqual(self.of_log('resize', '--config', str(self.room / f'{name}.toml'))[0], 0)
        self.kill_at_each('prune', '--keep', '1')

    def test_repair(self) -> None:
        self.began('recover,2')
        self.change("update epochs set requested = 'x'", "update changes set maintenance = '{}'")
        self.before = (3,)
        self.kill_at_each('repair')

    def test_cut(self) -> None:
        self.began('recover,2', 'recover,1')
        self.change("insert into log values (1, 2, packed('x' || char(10)), 0)", 'update epochs set count = 3')
        self.before = (3,)
        self.kill_at_each('repair', '--cut', '2')
