"""Tests of what commands say of a cooperative group of processes, with a worker for each partition."""
from __future__ import annotations

import contextlib
import json
import re
import sqlite3
from collections import Counter
from pathlib import Path

from bully.core import Promise
from ..waiting import wait_until
from .configurations import TOP, toml
from .folders import InFolder
from .grouped import share_out
from .member_processes import MemberProcess, call

NODES = 'abcd'
# It notes when it starts, and stops once it may.
WORKER = """
    echo $BULLY_PARTITION >> $FOLDER/started
    trap 'while [ ! -e $FOLDER/may-stop ]; do sleep 0.05; done; echo $BULLY_PARTITION >> $FOLDER/stopped; exit 0' TERM
    while :; do sleep 0.05; done
"""


class Statuses(InFolder):
    """Four processes, each with a worker for each of its three partitions."""

    def setUp(self) -> None:
        super().setUp()
        config = self.folder / 'group.toml'
        config.write_bytes(toml({**TOP, 'nodes': 4, 'partitions': 12, 'names': [*NODES]}))
        self.log = ['--log', f'sqlite:{self.path}']
        init = ['init', '--config', str(config), '--ttl', '2', '--rebalance', 'cooperative', *self.log]
        self.assertEqual(call(*init), (0, '', ''))
        for name in NODES:
            (self.folder / name).mkdir()
        self.members: dict[str, MemberProcess] = {}
        self.before: dict[tuple[str, str], Counter[int]] = {}  # what workers had noted before

    def come(self, name: str) -> None:
        """Its member starts, and its workers note what they do in a folder of its own."""
        words = ['--node', name, '--each', '--stop-seconds', '60', *self.log]
        self.members[name] = MemberProcess(self.folder / name, words, ['sh', '-c', WORKER])
        self.addCleanup(self.members[name].kill)

    def may_stop(self, name: str) -> Path:
        """The file without which the workers of this node don't stop, for a minute."""
        return self.folder / name / 'may-stop'

    def noted(self, name: str, what: str) -> Counter[int]:
        """How often the workers of this node have noted that since all had come, by their partitions."""
        file = self.folder / name / what
        count = Counter(map(int, file.read_text().split())) if file.exists() else Counter[int]()
        return count - self.before.get((name, what), Counter())

    def status(self) -> tuple[int, str]:
        status, said, told = call('status', *self.log)
        self.assertEqual(told, '')
        return status, said

    def shown(self) -> dict[str, object]:
        """What `status` says to programs."""
        return dict(json.loads(call('status', '--json', *self.log)[1]))

    def all_come(self, names: str) -> dict[str, list[int]]:
        """What each works on then."""
        for name in NODES:
            self.may_stop(name).touch()
        for name in names:
            self.come(name)
        self.wait_for(names)
        wait_until(lambda: all(set(owned) <= set(self.noted(name, 'started')) for name, owned in self.owned().items()))
        self.before = {(name, what): self.noted(name, what) for name in NODES for what in ('started', 'stopped')}
        return self.owned()

    def wait_for(self, names: str) -> None:
        """Waits until these own all partitions."""
        wait_until(lambda: self.status()[0] == 0 and set(self.owned()) == set(names))

    def owned(self) -> dict[str, list[int]]:
        """The partitions on which each may work."""
        owners = self.shown()['owners']
        assert isinstance(owners, list)
        return {name: [each for each in range(12) if owners[each] == name] for name in owners if name is not None}

    def test_a_repair(self) -> None:
        """Nothing is cut while anybody holds a lease, whatever it keeps. The group stays cooperative."""
        log = self.opened()
        sessions = share_out(log, 'a', 'b')
        end = Promise(1, len(log.read(1, 0)))
        with contextlib.closing(sqlite3.connect(self.path, isolation_level=None)) as file:
            file.execute('update epochs set count = count + 1')
        cut = ['repair', '--cut', str(end.offset), *self.log]
        for name in sessions:
            for kept in ((0, 1), ()):
                self.assertTrue(log.promise(name, sessions[name], end, kept))
                self.assertEqual(call(*cut)[::2], (1, 'bully-member: nothing is cut: somebody holds a lease\n'))
            log.release(name, sessions[name])
        self.assertEqual(call(*cut)[0], 0)
        self.assertEqual((log.opening().epoch, log.opening().is_cooperative), (2, True))

    def test_a_slow_stop(self) -> None:
        """While node d waits for node a: that is named, with the partition that moves, and no other."""
        before = self.all_come('abc')
        self.may_stop('a').unlink()
        self.come('d')
        wait_until(lambda: self.noted('b', 'stopped') and self.noted('c', 'stopped'))
        gone = sorted([*self.noted('b', 'stopped'), *self.noted('c', 'stopped')])
        waiting = ' '.join(map(str, gone))
        wait_until(lambda: re.search(f'\nwaiting +- +d +{waiting}\n', self.status()[1] + '\n'))
        status, said = self.status()
        told = 'epoch 1, .*, cooperative; 3 of 12 partitions move; not stopped yet: a on ([0-9]+) for [0-9.]+ s\n'
        named = re.match(told, said)
        assert named is not None, said
        moving = int(named[1])
        self.assertEqual((status, moving in before['a']), (1, True))
        self.assertRegex(said, f'\nmoving +a +d +{moving}\n')
        self.assertEqual(self.shown()['stops'], {'a': [moving]})
        self.may_stop('a').touch()
        self.wait_for(NODES)
        for name in 'abc':
            stopped = set(before[name]) - set(self.owned()[name])
            self.assertEqual((self.noted(name, 'stopped'), self.noted(name, 'started')), (Counter(stopped), Counter()))
        wait_until(lambda: self.noted('d', 'started') == Counter([moving, *gone]))

    def test_a_drain(self) -> None:
        """It stops nothing on the others, by what they note themselves. `undrain` stops one partition of each."""
        before = self.all_come(NODES)
        self.assertEqual(call('drain', 'c', *self.log), (0, 'c is drained\n', ''))
        self.wait_for('abd')
        self.assertEqual(
            {name: self.noted(name, 'stopped') for name in NODES},
            {**dict.fromkeys('abd', {}), 'c': Counter(before['c'])},
        )
        news = {name: Counter(set(self.owned()[name]) - set(before[name])) for name in 'abd'}
        wait_until(lambda: {name: self.noted(name, 'started') for name in 'abd'} == news)
        self.assertEqual(call('undrain', 'c', *self.log)[0], 0)
        self.wait_for(NODES)
        self.assertEqual([sum(self.noted(name, 'stopped').values()) for name in 'abd'], [1, 1, 1])

    def test_a_switchover(self) -> None:
        """All stop, and start again with what they had."""
        before = self.all_come(NODES)
        self.assertEqual(call('switchover', 'a', *self.log), (0, 'epoch 2: a leads\n', ''))
        wait_until(lambda: all(self.noted(name, 'started') == Counter(before[name]) for name in NODES))
        self.wait_for(NODES)
        self.assertEqual(
            {name: self.noted(name, 'stopped') for name in NODES}, {name: Counter(before[name]) for name in NODES}
        )
        self.assertEqual(
            (self.owned(), self.shown()['coordinator'], self.shown()['mode']), (before, 'a', 'cooperative')
        )
