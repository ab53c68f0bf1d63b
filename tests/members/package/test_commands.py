"""Tests of the command `bully-member`, but for `run`."""
from __future__ import annotations

import json
import signal
import subprocess
import sys
import threading
import time
from collections.abc import Callable
from typing import Any
from unittest import mock

from bully import config_file, store_options
from bully.commands import run
from bully.clocks import SECOND
from bully.core import Promise, Session
from bully.member import Member
from bully.shared_log import Log
from places import environment
from ..steps import HEADER, LONG
from ..waiting import wait_until
from .folders import changed
from .member_processes import WithLog, call
from .threads import put


REQUESTED = "update epochs set requested = json_set(opening, '$.epoch', 2,"


class Commands(WithLog):
    """`bully-member`, but for `run`."""

    def test_life_of_a_log(self) -> None:
        self.assertEqual(self.init(), (0, '', ''))
        put(self.opened(), 'recover,2')
        self.assertEqual(self.of_log('history'), (0, f'{HEADER}\nrecover,2\n', ''))
        status, said, _ = self.of_log('status')
        self.assertEqual(status, 1, 'nobody works')
        self.assertIn('epoch 1, events 1, token -', said)
        self.assertIn('b     election  no', said)
        self.assertEqual(json.loads(self.of_log('status', '--json')[1])['nodes'][1]['status'], 'election')

    def test_who_may_use_a_file(self) -> None:
        """Its owner alone, if the group of its folder isn't let in, too. Of a file that is there it is said who may."""
        self.folder.chmod(0o700)
        status, _, told = self.init('--group-access')
        self.assertEqual((status, self.path.exists()), (4, False))
        self.assertIn(f'chmod g+rwxs {self.folder}', told)
        for mode, words in ((0o600, ()), (0o660, ('--group-access',))):
            self.folder.chmod(0o2770)
            self.assertEqual(self.init(*words), (0, '', ''))
            self.assertEqual(self.path.stat().st_mode & 0o7777, mode)
            self.assertEqual(self.of_log('status')[2], '')
            self.path.chmod(0o604)
            self.assertIn(f'{self.path}: its mode is 0604, so every user who can reach', self.of_log('status')[2])
            self.path.unlink()
        self.log = 'etcd://127.0.0.1:1/group'
        self.assertEqual(self.init('--group-access'), (2, '', 'bully-member: --group-access is for a log in a file\n'))

    def test_epochs(self) -> None:
        """A group is resized twice, and what is old is taken away."""
        self.init()
        put(self.opened(), 'recover,2')
        resize = ['resize', '--config', self.configured('new.toml', nodes=2, names=['c', 'd'], partitions=4)]
        for _ in range(2):
            self.assertEqual(self.of_log(*resize), (0, 'epoch 2: 2 nodes, 4 partitions\n', ''))
        self.assertEqual(self.of_log('history', '--epoch', '1'), (0, f'{HEADER}\nrecover,2\n', ''))
        self.assertEqual(self.of_log('history'), (0, 'bully,1,2,4\n', ''))
        self.assertTrue(self.of_log('status')[1].startswith('epoch 2, events 0, token -, coordinator -, eager\n'))
        self.configured('new.toml', weights=[1, 2, 3])
        self.assertEqual(self.of_log(*resize)[1], 'epoch 3: 3 nodes, 6 partitions\n')
        self.assertEqual(self.of_log('prune', '--keep', '2'), (0, 'epochs 2 to 3 are left\n', ''))
        told = f'bully-member: {self.path}: there is no epoch 1, only 2 to 3\n'
        self.assertEqual(self.of_log('history', '--epoch', '1'), (4, '', told))
        self.assertEqual(self.of_log('prune', '--keep', '1'), (0, 'epoch 3 is left\n', ''))
        for words in (['prune', '--keep', '0'], ['prune'], ['history', '--epoch', 'x'], ['resize']):
            self.assertEqual(self.of_log(*words)[0], 2)

    def test_begins_later(self) -> None:
        """A log may begin with a later epoch than those of another one, so that its tokens are higher."""
        self.assertEqual(self.init('--epoch', '7'), (0, '', ''))
        self.assertTrue(self.of_log('status')[1].startswith('epoch 7, events 0, token -, coordinator -, eager\n'))
        put(self.opened(), 'recover,2')
        self.assertEqual(self.of_log('history', '--epoch', '7'), (0, f'{HEADER}\nrecover,2\n', ''))
        new = self.other_config()
        self.assertEqual(self.of_log('resize', '--config', new)[1], 'epoch 8: 3 nodes, 4 partitions\n')
        self.assertEqual(self.of_log('prune', '--keep', '1'), (0, 'epoch 8 is left\n', ''))
        with Member(self.opened(), 'b', print, print, settings=config_file.settings_in(str(self.config))) as member:
            self.assertEqual(member.node, 2)
        for epoch in ('0', 'x', '4000000001'):
            self.assertEqual(self.init('--epoch', epoch)[0], 2)

    def test_bad_rows(self) -> None:
        """What is no row, no event, no request to resize or no opening is reported with its offset, and by the status
        that a new try doesn't help."""
        cases = (
            ("insert into log values (1, 1, packed(char(10)), 0)", 'the line at offset 1 of epoch 1 is not a row'),
            (
                "insert into log values (1, 1, packed('recover,1' || char(13, 10)), 0)",
                'the line at offset 1 of epoch 1 is not a row',
            ),
            (
                "insert into log values (1, 1, packed('end,bully,1,3,6' || char(10)), 0)",
                "row 3: The row doesn't have the form",
            ),
            (
                "insert into log values (1, 1, packed(x'ff0a'), 0)",
                "the append at offset 1 of epoch 1 can not be read: 'utf-8' codec can't decode",
            ),
            (
                "insert into log values (1, 1, 'recover,1' || char(10), 0)",
                'the append at offset 1 of epoch 1 can not be read',
            ),
            (
                "insert into log values (1, 1, packed('recover,1'), 0)",
                'the append at offset 1 of epoch 1 can not be read',
            ),
            ("update epochs set requested = 'x'", 'the opening of epoch 2 can not be read'),
            (f"{REQUESTED} '$.header', 'x')", 'the opening of epoch 2 can not be read: x is not a header'),
            (f"{REQUESTED} '$.names', json_array(1, 2, 3))", 'the opening of epoch 2 can not be read: a name of'),
            (
                "update epochs set requested = json_set(opening, '$.epoch', 2, '$.limit', 5)",
                'the opening of epoch 2 can not be read: a name of',
            ),
            (
                f"{REQUESTED} '$.table', json_array(1, 2, 3, 1, 2, 4))",
                'the opening of epoch 2 can not be read: a name of',
            ),
            (f"{REQUESTED} '$.header', 'bully,2,3,6,1 1 0,clear')", 'the opening of epoch 2 can not be read: '),
            ("update epochs set requested = opening", 'epoch 2 has the opening of epoch 1'),
            ("update epochs set opening = json_set(opening, '$.header', 'bully,1,4,6')", '1,4,6 has 3 names'),
        )
        for number, (asked, told) in enumerate(cases):
            self.use(number)
            self.init()
            put(self.opened(), 'recover,2')
            with changed(self.path) as file:
                file.execute(asked)
                if 'into log' in asked:
                    file.execute('update epochs set count = 2')
            run = ['run', '--quiet', '--log', self.log, '--node', 'a', '--', 'true']
            with self.subTest(asked=asked):
                asks: list[Callable[[], tuple[int, str, str]]] = [lambda: self.of_log('status'), lambda: call(*run)]
                for ask in asks:  # a member would go on, where `status` is well
                    status, said, why = ask()
                    self.assertEqual((status, said), (3, ''))
                    self.assertIn(told, why)

    def test_repair(self) -> None:
        """Damage is reported, and cut once that is wanted and nobody holds a lease. What is lawful stays, and tokens
        are new."""
        no_row = "row 5: The row doesn't have the form of a row"
        missing = 'rows are missing or can not be read, or there is something else between them'
        cases: tuple[tuple[str, int, list[str], str], ...] = (
            (
                "update log set rows = packed(unpacked(rows) || char(10) || 'start,2' || char(10))",
                5,
                ['', 'start,2'],
                "'' is not a row",
            ),
            (
                "update log set rows = packed(unpacked(rows) || 'start,2' || char(13, 10))",
                4,
                ['start,2\r'],
                "'start,2\\r' is not a row",
            ),
            (
                "update log set rows = packed(unpacked(rows) || 'end,bully,1,3,6' || char(10))",
                4,
                ['end,bully,1,3,6'],
                no_row,
            ),
            ("insert into log values (1, 3, packed(x'ff0a'), 0)", 4, ['\ufffd'], no_row),
            ("insert into log values (1, 4, packed('x' || char(10)), 0)", 5, ['x'], missing),
            ("insert into log values (1, 3, 'start,2' || char(10), 0)", 4, [], missing),
        )
        for number, (asked, count, rows, why) in enumerate(cases):
            self.use(number)
            self.init()
            put(self.opened(), 'recover,2', 'recover,1', 'recover,3')
            with changed(self.path) as file:
                file.execute(asked)
                file.execute('update epochs set count = ?', (count,))
            cut = f'{count - 3} of {count} rows are to be cut, and then epoch 2 starts'
            told = f'epoch 1, offset 3: {why}; {cut}\n' + ''.join(f'{row!r}\n' for row in rows)
            with self.subTest(asked=asked):
                for words in ((), ('--cut', '2')):
                    status, said, refused = self.of_log('repair', *words)
                    self.assertEqual((status, said), (1, told))
                    self.assertIn('nothing is cut: --cut 3 cuts these rows, once', refused)
                log = self.opened()
                self.assertTrue(log.acquire('c', Session(1, 1), Promise(1, count), 1000 * SECOND))
                held = 'bully-member: nothing is cut: somebody holds a lease\n'
                self.assertEqual(self.of_log('repair', '--cut', '3'), (1, told, held))
                log.release('c', Session(1, 1))
                self.assertEqual(self.of_log('repair', '--cut', '3'), (0, told, ''))
                lawful = f'{HEADER}\nrecover,2\nrecover,1\nrecover,3\n'
                self.assertEqual(self.of_log('history', '--epoch', '1')[1], lawful)
                self.assertTrue(self.of_log('status')[1].startswith('epoch 2, events 0, token -'))
                self.assertEqual(self.of_log('repair'), (0, 'epoch 2: nothing is damaged\n', ''))

    def test_repair_of_a_request(self) -> None:
        """A request to resize or maintenance that can't be read is taken back. A lease that can't be read is
        refused."""
        self.init()
        self.acquire(self.opened(), 'a')
        with changed(self.path) as file:
            file.execute("update leases set session = 'x'")
            status, said, why = self.of_log('repair')
            self.assertEqual((status, said), (3, ''))
            self.assertIn('the lease of a can not be read', why)
            file.execute('delete from leases')
        for change in ("epochs set requested = 'x'", "changes set maintenance = 'x'", "changes set maintenance = '{}'"):
            with changed(self.path) as file:
                file.execute(f'update {change}')
            self.assertEqual(self.of_log('status')[0], 3)
            said = 'epoch 1: the requested settings or the maintenance could not be read; both are taken back\n'
            self.assertEqual(self.of_log('repair'), (0, said, ''))
            self.assertEqual(self.of_log('status')[0], 1, 'nobody works')

    def test_times(self) -> None:
        """Each row after the time of its append, of UTC; a trace has none."""
        self.init()
        with mock.patch.object(time, 'time_ns', lambda: 1_700_000_000_007_000_000):
            put(self.opened(), 'recover,2', 'start,2')
        with changed(self.path) as file:
            file.execute("insert into log values (1, 2, packed('move,2' || char(10)), null)")
            file.execute('update epochs set count = 3')
        told = f',{HEADER}\n2023-11-14T22:13:20.007Z,recover,2\n2023-11-14T22:13:20.007Z,start,2\n,move,2\n'
        for words in ((), ('--epoch', '1')):
            self.assertEqual(self.of_log('history', '--times', *words), (0, told, ''))
            self.assertEqual(self.of_log('history', *words), (0, f'{HEADER}\nrecover,2\nstart,2\nmove,2\n', ''))

    def test_drain(self) -> None:
        """A drain is noted and awaited, and is refused if no node would work."""
        self.init()
        log = self.opened()
        sessions = self.acquire(log, 'a', 'b')
        late = (1, '', 'bully-member: b is drained, and has not left yet\n')
        self.assertEqual(self.of_log('drain', 'b', '--seconds', '0.01'), late, 'it never leaves')
        status, said, _ = self.of_log('status')
        self.assertRegex(said, '\nb +down +yes, drained +- ')
        self.assertRegex(said, '\na +down +yes +- ')
        last = 'a is the last node left that is not drained, so no node would work; use --all to drain it all the same'
        self.assertEqual(self.of_log('drain', 'a'), (2, '', f'bully-member: {last}\n'))
        self.assertEqual(log.snapshot(1, 0).maintenance.drained, {'b'})
        log.release('b', sessions['b'])
        self.assertEqual(self.of_log('drain', 'b'), (0, 'b is drained\n', ''))
        nodes = json.loads(self.of_log('status', '--json')[1])['nodes']
        self.assertEqual([node['live'] for node in nodes], [True, False, False])
        self.assertEqual([node['drained'] for node in nodes], [False, True, False])
        self.assertEqual(self.of_log('drain', 'a', '--all', '--seconds', '0.01')[0], 1)
        for done in ('is no longer drained', 'was not drained'):
            self.assertEqual(self.of_log('undrain', 'b'), (0, f'b {done}\n', ''))
        log.note('c', True)
        self.assertEqual(self.of_log('undrain', 'c'), (0, 'c had given up, and tries again\n', ''))
        self.assertEqual(log.snapshot(1, 0).maintenance.drained, {'a'})
        told = 'bully-member: the group has no node x in epoch 1, only a, b, c\n'
        for words in (['drain', 'x'], ['undrain', 'x']):
            self.assertEqual(self.of_log(*words), (5, '', told))
        self.assertEqual((self.of_log('drain')[0], self.of_log('pause', 'a')[0]), (2, 2))

    def test_pause(self) -> None:
        self.init()
        log = self.opened()
        sessions = self.acquire(log, 'a', 'b')
        for done in ('is', 'was already'):
            self.assertEqual(self.of_log('pause'), (0, f'the group {done} paused\n', ''))
        self.assertEqual(log.snapshot(1, 0).maintenance.sessions, sessions)
        paused = 'coordinator -, eager; paused once the change under way is complete\n'
        self.assertIn(paused, self.of_log('status')[1], 'both have promised the end, so a change is under way')
        self.assertEqual(json.loads(self.of_log('status', '--json')[1])['paused'], True)
        self.assertEqual(
            self.of_log('drain', 'b'), (0, 'b is drained, and leaves once the group is not paused any more\n', '')
        )
        new = self.other_config()
        paused = 'bully-member: the group is paused, so no epoch ends; bully-member resume ends the pause\n'
        self.assertEqual(self.of_log('resize', '--config', new), (1, '', paused))
        for done in ('is no longer', 'was not'):
            self.assertEqual(self.of_log('resume'), (0, f'the group {done} paused\n', ''))
        self.assertEqual((log.snapshot(1, 0).maintenance.sessions, log.snapshot(1, 0).requested), (None, None))

    def test_show_config(self) -> None:
        """It prints settings that `init` and `resize` take for the same ones, whatever the names and weights are."""
        head = 'nodes = 3\npartitions = 6\n'
        names = r'names = ["a \"b\" \\", "\u00e4\u007f\n\u202e", "\U0001f600"]'
        cases: tuple[tuple[str, list[str], str], ...] = (
            ('names = ["a", "b", "c"]', [], '# epoch 1, eager, each member has its own ttl\n'),
            (f'{names}\nweights = [1, 20, 300]', ['--rebalance', 'cooperative'], '# epoch 1, cooperative, '),
            (f'{names}\nkeep = true', ['--ttl', '2.5'], '# epoch 1, eager, ttl 2.5\n'),
        )
        for number, (more, words, told_head) in enumerate(cases):
            self.use(number)
            shown = self.folder / 'shown.toml'
            self.config.write_text(head + more)
            self.init(*words)
            status, said, told = self.of_log('show-config')
            with self.subTest(said=said):
                self.assertEqual((status, told, said[: len(told_head)]), (0, '', told_head))
                shown.write_text(said)
                self.assertEqual(config_file.settings_in(str(shown)), config_file.settings_in(str(self.config)))
                self.assertEqual(self.of_log('init', '--if-missing', '--config', str(shown)), (0, '', ''))
                self.assertEqual(self.of_log('resize', '--config', str(shown))[1], 'epoch 1: 3 nodes, 6 partitions\n')
                self.assertTrue(said.replace('\n', '').isprintable())

    def test_show_config_for_programs(self) -> None:
        """It writes all settings as JSON, and says whether others are requested."""
        self.init('--ttl', '2.5', '--epoch', '7')
        wanted = {
            'epoch': 7, 'mode': 'eager', 'ttl': 2.5, 'requested': False, 'names': ['a', 'b', 'c'],
            'weights': [1, 1, 1], 'partitions': 6, 'keep': False,
        }  # fmt: skip
        self.assertEqual(json.loads(self.of_log('show-config', '--json')[1]), wanted)
        self.acquire(self.opened(), 'a')
        self.of_log('resize', '--config', self.other_config(), '--seconds', '0.01')
        self.assertEqual(json.loads(self.of_log('show-config', '--json')[1]), {**wanted, 'requested': True})
        self.assertIn('\n# other settings are requested for epoch 8\n', self.of_log('show-config')[1])

    def test_watch(self) -> None:
        """It shows the group again when that has changed, and only then, until ^C, which is no failure."""
        self.init()
        words = [sys.executable, *'-m bully_member status --json --watch 0.01 --log'.split(), self.log]
        pipes: dict[str, Any] = {name: subprocess.PIPE for name in ('stdout', 'stderr')}
        with subprocess.Popen(words, env=environment(), text=True, **pipes) as shows:
            self.addCleanup(shows.kill)
            assert shows.stdout is not None and shows.stderr is not None
            told = [shows.stdout.readline()]
            for row in ('recover,2', 'start,2', 'crash,2'):
                put(self.opened(), row)
                while [each['text'] for each in json.loads(told[-1])['last'][-1:]] != [row]:
                    told.append(shows.stdout.readline())
            shows.send_signal(signal.SIGINT)
            self.assertEqual((shows.stdout.read(), shows.stderr.read(), shows.wait()), ('', '', 0))
        self.assertTrue(all(one != other for one, other in zip(told, told[1:])))

    def acquire(self, log: Log, *names: str) -> dict[str, Session]:
        """These nodes are live for long, and work."""
        epoch, sessions = log.epochs()[-1], {name: Session(7, number) for number, name in enumerate(names, 1)}
        offset = len(log.read(epoch, 0))
        for name, session in sessions.items():
            self.assertTrue(log.acquire(name, session, Promise(epoch, offset), LONG))
        return sessions

    def test_a_mistyped_resize(self) -> None:
        """A resize by which all live nodes would end is refused, unless it is meant."""
        self.init()
        log, new = self.opened(), self.configured('new.toml', names=['A', 'B', 'C'])
        resize = ['resize', '--config', new, '--seconds', '0.01']
        sessions = self.acquire(log, 'a', 'b')
        status, _, said = self.of_log(*resize)
        self.assertEqual((status, log.snapshot(1, 0).requested), (3, None))
        why = 'it has none of the nodes that are live (a, b), so all would end; --all-new allows it'
        self.assertEqual(said, f'bully-member: {new}: {why}\n')
        self.assertEqual(self.of_log(*resize, '--all-new')[0], 1, 'these never promise anything')
        self.assertEqual(log.epochs()[-1], 1)
        self.assertEqual(getattr(log.snapshot(1, 0).requested, 'names'), ('A', 'B', 'C'))
        self.assertEqual(self.of_log('resize', '--cancel'), (0, 'epoch 1: no other settings are requested\n', ''))
        self.assertIsNone(log.snapshot(1, 0).requested)
        for name, session in sessions.items():
            log.release(name, session)
        self.assertEqual(self.of_log(*resize)[0], 0, 'nobody would end')
        self.assertEqual(log.opening().names, ('A', 'B', 'C'))
        for words in (['resize'], [*resize, '--cancel']):
            self.assertEqual(self.of_log(*words)[0], 2)

    def test_after_a_killed_resize(self) -> None:
        """What that took to end the epoch is no member, by which the next one would be mistyped; it is waited for."""
        self.init()
        log = self.opened()
        resize = 'resize', '--config', self.configured('new.toml', names=['A', 'B', 'C']), '--seconds'
        taken = self.acquire(log, 'resize 7')
        waits = 'bully-member: epoch 1 has not ended yet; it waits for resize 7\n'
        self.assertEqual(self.of_log(*resize, '0.01'), (1, '', waits))
        log.release('resize 7', taken['resize 7'])
        self.assertEqual(self.of_log(*resize, '30'), (0, 'epoch 2: 3 nodes, 6 partitions\n', ''))

    def test_switchover(self) -> None:
        """Another node gets the highest number, and keeps its weight."""
        self.configured('group.toml', weights=[1, 2, 3])
        self.init()
        log, told = self.opened(), 'bully-member: a is not live, so it could not lead\n'
        self.assertEqual(self.of_log('switchover', '--node', 'a'), (1, '', told))
        names = [Member(self.opened(), name, lambda work: None, lambda work: None, ttl=10.0) for name in 'abc']
        threads = [threading.Thread(target=member.run) for member in names]
        for member, thread in zip(names, threads):
            self.addCleanup(thread.join)
            self.addCleanup(member.leave)
            thread.start()
        wait_until(lambda: self.leaders(names) == {'c'})
        status, before, _ = self.of_log('status', '--json')
        self.assertEqual(status, 0)
        self.assertEqual(self.of_log('switchover', '--node', 'a'), (0, 'epoch 2: a leads\n', ''))
        wait_until(lambda: self.leaders(names) == {'a'})
        after = self.of_log('status', '--json')[1]
        self.assertEqual(json.loads(after)['owners'], json.loads(before)['owners'], 'none moves')
        self.assertEqual((log.opening().names, log.opening().settings.setup.weights), (('b', 'c', 'a'), (2, 3, 1)))
        self.assertEqual(self.of_log('switchover', '--node', 'a'), (0, 'epoch 2: a leads\n', ''), 'it does already')

    def leaders(self, members: list[Member]) -> set[str | None]:
        """Whom they work under; none, if one doesn't work."""
        works = [member.assignment() for member in members]
        return {None if work is None else work.settings.name(work.coordinator) for work in works}

    def test_health(self) -> None:
        """The status of `status` is 0 exactly if each partition may be worked on."""
        self.init()
        stops = threading.Event()
        member = Member(self.opened(), 'b', lambda work: None, lambda work: None if stops.wait() else None, ttl=10.0)
        thread = threading.Thread(target=member.run)
        self.assertEqual(self.of_log('status')[0], 1)
        thread.start()
        self.addCleanup(thread.join)
        self.addCleanup(stops.set)
        self.addCleanup(member.leave)
        wait_until(member.assignment)
        status, said, _ = self.of_log('status', '--json')
        self.assertEqual((status, json.loads(said)['stable']), (0, True))
        log, end = self.opened(), Promise(1, len(self.opened().read(1, 0)))
        for number in (1, 2):  # a process that comes again and again
            self.assertTrue(log.acquire('c', Session(8, number), end, LONG))
            status, said, _ = self.of_log('status')
            self.assertEqual(status, 0, said)
            self.assertRegex(said, 'coordinator b, eager\n')
            log.release('c', Session(8, number))
        self.assertEqual(self.of_log('resize', '--config', self.other_config(), '--seconds', '0.01')[0], 1)
        status, said, _ = self.of_log('status')
        self.assertEqual(status, 1)
        self.assertRegex(said, 'coordinator b, eager; not idle yet: b for [0-9.]+ s\n')

    def other_config(self) -> str:
        """A configuration of other settings."""
        return self.configured('new.toml', partitions=4)

    def test_one_ttl(self) -> None:
        """That of the log is all members', over all epochs."""
        self.init('--ttl', '3')
        words = ['run', '--log', self.log, '--node', 'a', '--ttl', '2', '--', 'true']
        self.assertEqual(call(*words), (2, '', 'bully-member: --ttl is 2, and the log has 3 for all members\n'))
        new = self.other_config()
        self.assertEqual(self.of_log('resize', '--config', new)[0], 0)
        store = store_options.FileStore(str(self.path))
        self.assertEqual([run.ttl_of(store, ttl) for ttl in (None, 3.0)], [3.0, 3.0])
        self.assertEqual(self.opened().opening().epoch, 2)

    def test_old_and_new_configurations(self) -> None:
        """A member may be started by any that the group has or had. Who is in none of the current epoch is refused."""
        self.init()
        log, new = self.opened(), self.configured('new.toml', nodes=2, names=['c', 'd'])
        cases: tuple[tuple[list[str], int, str], ...] = (
            (['--config', new], 3, 'the log belongs to another group: bully,1,3,6 of a, b, c'),
            ([], 5, 'the group has no node d'),
        )
        for words, wanted, told in cases:
            status, _, said = call('run', '--log', self.log, *words, '--node', 'd', '--', 'true')
            self.assertEqual(status, wanted)
            self.assertIn(told, said)
        self.of_log('resize', '--config', new)
        log.prune(2)
        for path, name in ((self.config, 'c'), (new, 'd')):
            with Member(self.opened(), name, print, print, settings=config_file.settings_in(str(path))) as member:
                self.assertEqual(member.node, ('c', 'd').index(name) + 1)
        words = ['run', '--log', self.log, '--config', str(self.config), '--node', 'a', '--', 'true']
        self.assertEqual(call(*words), (5, '', 'bully-member: the group has no node a in epoch 2, only c, d\n'))

    def test_refused(self) -> None:
        config, log = str(self.config), self.log
        run = ['run', '--config', config, '--log', log]
        self.assertEqual(call('status', '--log', log)[0], 4)
        self.of_log('init', '--config', config)
        calls: list[tuple[list[str], int]] = [
            (['init', '--config', config, '--log', log], 7),
            (['init', '--config', str(self.folder / 'none'), '--log', log], 4), (['status', '--log', 'etcd:x'], 2),
            (['init', '--config', config, '--log', 'etcd://127.0.0.1/x/failing/y'], 2),
            ([], 2), (['start'], 2), ([*run, '--node', 'd', '--', 'true'], 2), ([*run, '--node', 'a'], 2),
            ([*run, '--node', 'a', '--ttl', '0', '--', 'true'], 2),
            ([*run, '--node', 'a', '--listen', 'x', '--', 'true'], 2),
            ([*run, '--node', 'a', '--give-up', '-1', '--', 'true'], 2),
            ([*run, '--node', 'a', '--give-up', 'never', '--', 'true'], 2),
        ]  # fmt: skip
        for words, wanted in calls:
            with self.subTest(words=words):
                status, said, told = call(*words)
                self.assertEqual((status, said), (wanted, ''))
                self.assertNotEqual(told, '')
        run += ['--node', 'a', '--', 'true']
        self.configured('group.toml', partitions=7)
        self.assertEqual(call(*run)[0], 3)
        self.config.write_bytes(b'nodes = 1')
        self.assertEqual(call(*run), (3, '', f'bully-member: {config}: Missing partitions\n'))

    def test_odd_names(self) -> None:
        self.configured('group.toml', names=['a\x1b[2J\nb', 'c\u202ed', '\u00e4 z'])
        self.init()
        status, said, _ = self.of_log('status')
        self.assertEqual(status, 1)
        self.assertEqual([line.split('  ')[0] for line in said.splitlines()[2:5]], ['a?[2J?b', 'c?d', '\u00e4 z'])
        self.configured('group.toml', names=['a\0', 'b', 'c'])
        status, _, told = call('run', '--log', self.log, '--config', str(self.config), '--node', 'b', '--', 'true')
        why = 'a name has a zero character, which no environment variable can hold'
        self.assertEqual((status, told), (3, f'bully-member: {self.config}: {why}\n'))
