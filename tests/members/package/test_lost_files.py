"""Tests of members whose file is taken from them, or a file beside it, while another one begins. A recorder judges
their work."""
from __future__ import annotations

import os
import subprocess
import sys
from collections.abc import Callable
from functools import partial
from pathlib import Path

from bully.epochs import Token
from places import PYTHON, environment
from ..groups import Group, Work
from ..waiting import PATIENCE, wait_until
from .folders import WithFolder

OLD, NEW = 'abc', 'd'  # nodes of the members that lose their file, and of the one that begins then
TTL = 2.0

# The command `bully-member`, which does nothing before it is told to: so it opens the log at once then.
READY = """
import sys
from bully.command import main
print('ready', flush=True)
sys.stdin.readline()
sys.exit(main(sys.argv[1:]))
"""


class LostFiles(WithFolder):
    """Whatever is done to the file and to those beside it: no two work on a partition, and no token comes again."""

    def setUp(self) -> None:
        super().setUp()
        self.path, self.elsewhere = self.folder / 'group.db', self.folder / 'elsewhere' / 'group.db'
        self.elsewhere.parent.mkdir()

    def begin(self, mode: str = 'eager') -> Group:
        """Members of three of four nodes work, and another one is ready."""
        stores = dict.fromkeys(['', *OLD, NEW], f'sqlite:{self.path}')
        self.group = group = Group(
            self.folder, stores, TTL, names=OLD + NEW, partitions=6, words=['--stop-seconds', '1'],
            work=partial(Work, worker='stubborn'), init=['--rebalance', mode],
        )  # fmt: skip
        self.addCleanup(group.work.close)
        self.addCleanup(group.close)
        group.become_stable('the start', lambda: group.begin_all(OLD))
        self.assertEqual(group.counts.failed, 0)
        return group

    def another(self, path: Path) -> subprocess.Popen[bytes]:
        """A member of another node, over this file, which is ready to begin."""
        more = ['--config', str(self.group.config), '--node', NEW, '--ttl', str(TTL), '--', *self.group.work.worker]
        words = [sys.executable, '-c', READY, 'run', '--log', f'sqlite:{path}', *more]
        with open(self.group.said(NEW), 'wb') as said:
            member = subprocess.Popen(
                words,
                env=environment(PYTHONPATH=str(PYTHON)),
                stderr=said,
                stdin=subprocess.PIPE,
                stdout=subprocess.PIPE,
            )
        assert member.stdout is not None
        self.assertEqual(member.stdout.readline(), b'ready\n')
        self.group.members[NEW] = member
        return member

    def lose(self, change: Callable[[], object], path: Path, statuses: set[int], mode: str = 'eager') -> None:
        """Once that was changed another member begins over this file: those that worked end, it works after them by
        higher tokens, and no two work at once."""
        group = self.begin(mode)
        member = self.another(path)
        before = max(token for token, _ in group.work.last_units())
        change()
        assert member.stdin is not None
        member.stdin.close()
        olds = [group.members[name] for name in OLD]
        wait_until(lambda: all(old.poll() is not None for old in olds))
        wait_until(lambda: all(node == NEW for _, node in group.work.last_units()))
        self.assertLessEqual({old.returncode for old in olds}, statuses)
        self.assertEqual([group.work.faults(kind)[:3] for kind in ('overlap', 'old')], [[], []])
        self.assertGreater(Token(min(token for token, _ in group.work.last_units())).epoch, Token(before).epoch)
        member.terminate()
        self.assertEqual(member.wait(PATIENCE), 0)

    def remove_beside(self) -> None:
        for end in ('-wal', '-shm'):
            os.remove(f'{self.path}{end}')

    def move(self) -> None:
        self.path.rename(self.elsewhere)

    def link(self) -> None:
        self.move()
        self.path.symlink_to(self.elsewhere)

    def test_moved_and_linked(self) -> None:
        self.lose(self.link, self.path, {3, 4})  # 4: between the two

    def test_moved(self) -> None:
        self.lose(self.move, self.elsewhere, {4})

    def test_beside_removed(self) -> None:
        for mode in ('eager', 'cooperative'):
            with self.subTest(mode=mode):
                self.lose(self.remove_beside, self.path, {3}, mode)
                self.doCleanups()
                self.setUp()
