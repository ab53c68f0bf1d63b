"""Tests of `examples/members/embedded.py`, a process that embeds a member."""
from __future__ import annotations

import signal
import subprocess
import sys

from places import ROOT, environment
from ..waiting import PATIENCE, wait_until
from .configurations import TOP, toml
from .folders import InFolder
from .member_processes import call

PROGRAM = str(ROOT / 'examples' / 'members' / 'embedded.py')
EACH = range(6)  # the partitions


class Embedded(InFolder):
    """Two processes over a file."""

    def setUp(self) -> None:
        super().setUp()
        self.work = self.folder / 'work'
        self.work.mkdir()

    def init(self, mode: str) -> None:
        config = self.folder / 'group.toml'
        config.write_bytes(toml({**TOP, 'nodes': 2, 'names': ['a', 'b']}))
        words = ['init', '--config', str(config), '--log', f'sqlite:{self.path}', '--ttl', '2', '--rebalance', mode]
        self.assertEqual(call(*words), (0, '', ''))

    def begin(self, node: str) -> subprocess.Popen[str]:
        words = [sys.executable, '-W', 'error', PROGRAM, str(self.path), node, str(self.work)]
        process = subprocess.Popen(words, env=environment(), stderr=subprocess.PIPE, text=True)
        self.addCleanup(process.communicate)
        self.addCleanup(process.kill)
        return process

    def lines(self, partition: int) -> list[tuple[int, str]]:
        """The work on this partition: by which tokens, by which nodes."""
        file = self.work / str(partition)
        found = [line.split() for line in file.read_text().splitlines()] if file.exists() else []
        return [(int(token), node) for token, node in found]

    def workers(self) -> set[str]:
        """Who worked on each partition last."""
        return {self.lines(partition)[-1][1] if self.lines(partition) else '' for partition in EACH}

    def see(self, mode: str) -> None:
        self.init(mode)
        first, second = self.begin('a'), self.begin('b')
        wait_until(lambda: self.workers() == {'a', 'b'})
        second.kill()
        wait_until(lambda: self.workers() == {'a'})
        first.send_signal(signal.SIGTERM)
        said = first.communicate(timeout=PATIENCE)[1]
        self.assertEqual((first.returncode, self.opened().snapshot(1, 0).sessions), (0, {}))
        self.assertIn('node a: it was told to leave\n', said)
        for partition in EACH:
            tokens = [token for token, _ in self.lines(partition)]
            self.assertEqual(tokens, sorted(tokens))

    def test_eager(self) -> None:
        """One is killed, and the other one takes over what it had; that leaves in order at SIGTERM."""
        self.see('eager')

    def test_cooperative(self) -> None:
        """So in a cooperative group."""
        self.see('cooperative')
