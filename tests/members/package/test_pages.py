"""Tests of configurations, and of what a member shows over HTTP."""
from __future__ import annotations

import contextlib
import html
import io
import os
import resource
import socket
import struct
import threading
from unittest import mock

from bully import answers, metrics, server
from bully.clocks import seconds_of_boot
from bully.core import Promise, Session
from bully.epochs import Token
from bully.maintenance import Maintenance
from bully.member import Member
from bully.shared_log import DamagedLog, Holder, Snapshot, Unanswered
from bully.work_failures import ALL, Failures
from bully.worker_states import WorkerState
from ..steps import LONG
from ..waiting import PATIENCE, wait_until
from .grouped import COOPERATIVE, Worker
from .paged import Paged
from .threads import Troubled, put


class Pages(Paged):
    """What a member shows over HTTP."""

    def test_before(self) -> None:
        self.assertEqual(self.get('/healthz')[0], 503)
        self.assertEqual(self.get('/group')[:2], (200, 'application/json; charset=utf-8'))
        told = self.told()
        self.assertEqual((told['epoch'], told['events'], told['token'], told['coordinator']), (1, 0, None, None))
        self.assertEqual((told['owners'], told['states'], told['mode']), ([None] * 6, ['waiting'] * 6, 'eager'))
        self.assertEqual(self.told('/assignment')['partitions'], [])

    def test_group(self) -> None:
        self.begin()
        told = self.told()
        self.assertEqual((told['coordinator'], set(told['owners'])), (self.NAMES[1], {self.NAMES[1]}))
        self.assertEqual([node['live'] for node in told['nodes']], [False, True, False])
        self.assertEqual((told['states'], told['coming']), (['working'] * 6, [None] * 6))
        self.assertEqual(told['tokens'], [told['token']] * 6)
        self.assertEqual((told['moves'], told['stops'], told['stable'], told['frozen']), (0, {}, True, False))
        self.assertEqual([(row['row'], row['text']) for row in told['last']], list(enumerate(self.log.rows, 2))[-20:])
        assigned = self.told('/assignment')
        self.assertEqual((assigned['node'], assigned['token']), (self.NAMES[1], told['token']))
        self.assertEqual(assigned['partitions'], list(range(6)))
        self.assertTrue(0 < assigned['sure_seconds'] <= 1.6)
        self.assertEqual(self.get('/healthz')[::2], (200, 'live\n'))

    def test_maintenance(self) -> None:
        """That the group is paused, and which nodes are drained."""
        self.begin()
        for maintenance, paused, drained in ((Maintenance(), 0, 0), (Maintenance(frozenset('c'), {}), 1, 1)):
            self.assertTrue(self.log.set_maintenance(maintenance, None))
            wait_until(lambda: self.told()['paused'] == bool(paused))
            self.assertEqual([node['drained'] for node in self.told()['nodes']], [False, False, bool(drained)])
            measured, shown = self.measured(), self.get('/')[2]
            self.assertEqual((measured['bully_paused'], measured['bully_drained{node="c"}']), (paused, drained))
            is_told = '; paused: members that work continue' in shown, '<td>no, drained<td>' in shown
            self.assertEqual(is_told, (bool(paused), bool(drained)))
        self.assertEqual(self.get('/healthz')[2], 'live\n')

    def test_long_poll(self) -> None:
        answers: list[int] = []
        thread = threading.Thread(target=lambda: answers.append(self.told('/group?after=0')['events']))
        thread.start()
        self.assertEqual(self.get('/group')[0], 200)
        put(self.log, 'recover,1')
        thread.join()
        self.assertEqual(answers, [1])

    def noted_snapshots(self) -> list[int]:
        """The offsets of the snapshots that are read from now on."""
        offsets: list[int] = []

        def snapshot(epoch: int, offset: int, promise_of: str | None = None) -> Snapshot:
            offsets.append(offset)
            return Troubled.snapshot(self.log, epoch, offset, promise_of)

        setattr(self.log, 'snapshot', snapshot)
        return offsets

    def roll_over(self, offset: int) -> None:
        """The first epoch ends there."""
        session = Session(1, 1)
        self.assertTrue(self.log.acquire('unknown', session, Promise(1, offset), LONG))
        self.assertTrue(self.log.roll_over(1, offset, self.log.opening().next(None, ())))
        self.log.release('unknown', session)

    def test_long_poll_over_epochs(self) -> None:
        """Events of another epoch are more, also if they are fewer."""
        answers: list[tuple[int, int]] = []

        def poll() -> None:
            told = self.told('/group?after=2')
            answers.append((told['epoch'], told['events']))

        put(self.log, 'recover,1', 'crash,1')
        offsets = self.noted_snapshots()
        thread = threading.Thread(target=poll)
        thread.start()
        wait_until(lambda: len(offsets) > 1)  # so it waits
        self.roll_over(2)
        thread.join()
        self.assertEqual(answers, [(2, 0)])
        self.assertEqual(self.told('/group?after=2&epoch=1')['epoch'], 2)

    def test_a_silent_connection(self) -> None:
        """It is closed by itself, also one that has asked in part."""
        with mock.patch.object(server.RequestHandler, 'timeout', 0.2), self.client() as silent, self.client() as slow:
            slow.sendall(b'GET /healthz HTTP/1.1\r\nHost')
            self.assertEqual((silent.recv(1), slow.recv(1)), (b'', b''))
        self.assertEqual(server.RequestHandler.timeout, server.ASK_SECONDS)

    def test_silent_connections(self) -> None:
        """A thousand of them are no more than a hundred at one time, and whoever asks is answered."""
        limits, threads = resource.getrlimit(resource.RLIMIT_NOFILE), threading.active_count()
        resource.setrlimit(resource.RLIMIT_NOFILE, (limits[1], limits[1]))
        self.addCleanup(resource.setrlimit, resource.RLIMIT_NOFILE, limits)
        with contextlib.ExitStack() as opened:
            opened.enter_context(mock.patch.object(server.RequestHandler, 'timeout', 10 * PATIENCE))
            clients = [opened.enter_context(self.client()) for _ in range(1000)]
            self.assertEqual(self.get('/healthz')[::2], (503, 'not live\n'))
            self.assertEqual([client.recv(1) for client in clients[:900]], [b''] * 900)
            wait_until(lambda: threading.active_count() <= threads + server.CONNECTIONS_MAX)
            self.assertEqual(self.get('/group')[0], 200)
        wait_until(lambda: threading.active_count() == threads)

    def test_slow_readers(self) -> None:
        """Whoever asks, and doesn't take the answer, counts up to the end of its time: of so many of them more are
        refused."""
        big = 200, 'text/plain', 'x' * 20_000_000
        threads = threading.active_count()
        with contextlib.ExitStack() as opened:
            with mock.patch.object(self.page, 'answer', lambda *asked: big), mock.patch.object(
                server.RequestHandler, 'timeout', PATIENCE
            ):
                taken = [self.taken(opened.enter_context(self.client())) for _ in range(server.SHOWING_MAX + 20)]
                statuses = [part.split()[1] for part in taken]
                self.assertEqual(statuses, [b'200'] * server.SHOWING_MAX + [b'503'] * 20)
                wait_until(lambda: threading.active_count() == threads + server.SHOWING_MAX)
        wait_until(lambda: threading.active_count() == threads)
        self.assertEqual(self.get('/healthz')[0], 503)

    def taken(self, client: socket.socket) -> bytes:
        """It asks. The start of the answer; nothing, if it is closed."""
        with contextlib.suppress(ConnectionError):
            client.sendall(b'GET / HTTP/1.1\r\nHost: localhost\r\n\r\n')
            return client.recv(100)
        return b''

    def test_many_polls(self) -> None:
        """There is a bound of them, and all others are answered. They read snapshots no more often than one does."""
        offsets = self.noted_snapshots()
        statuses: list[int] = []
        threads = [
            threading.Thread(target=lambda: statuses.append(self.get('/group?after=0')[0]))
            for _ in range(answers.POLLS_MAX)
        ]
        for thread in threads:
            thread.start()
        wait_until(lambda: vars(self.page._answers)['_polls']._value == 0)
        self.assertEqual(self.get('/group?after=0')[0], 503)
        begun, before = seconds_of_boot(), len(offsets)
        wait_until(lambda: len(offsets) > before + 5)
        self.assertLessEqual(len(offsets) - before, (seconds_of_boot() - begun) / answers.SNAPSHOT_SECONDS + 1)
        self.assertEqual((self.get('/healthz')[2], self.get('/metrics')[0], statuses), ('not live\n', 200, []))
        put(self.log, 'recover,1')
        for thread in threads:
            thread.join()
        self.assertEqual(statuses, [200] * answers.POLLS_MAX)

    def test_polls_of_a_silent_store(self) -> None:
        """They end, and count no more."""
        self.log.is_silent = True
        self.addCleanup(setattr, self.log, 'is_silent', False)
        given = {self.get('/group?after=0')[::2] for _ in range(answers.POLLS_MAX + 1)}
        self.assertEqual(given, {(503, 'the store does not answer\n')})

    def test_a_silent_store(self) -> None:
        """Health, and what is measured of the member, are shown all the same."""
        self.make(100.0)
        self.begin()
        wait_until(lambda: f'bully_node_live{metrics.labels(self.NAMES[1])} 1' in self.get('/metrics')[2])
        self.log.is_silent = True
        self.addCleanup(setattr, self.log, 'is_silent', False)
        wait_until(lambda: self.get('/group')[0] == 503)
        self.assertEqual(self.get('/healthz')[::2], (200, 'live\n'))
        self.assertGreater(self.measured()[f'bully_sure_seconds{metrics.labels(self.NAMES[1])}'], 60.0)

    def test_who_is_unknown(self) -> None:
        """A process that the group doesn't know is measured, too, while all wait for it."""
        self.assertTrue(
            self.log.acquire('unknown', Session(1, 1), Promise(1, 0), LONG) and self.log.append(1, 0, ['recover,1'])
        )
        behind = {name for name in self.measured() if name.startswith('bully_idle_behind_seconds')}
        self.assertEqual(
            behind, {f'bully_idle_behind_seconds{metrics.labels(name)}' for name in (*self.NAMES, 'unknown')}
        )

    def test_the_last_known(self) -> None:
        """A store that is silent before anybody asked: what was known last is measured all the same, and how old it is
        and that the store is silent are, too."""
        self.assertTrue(self.log.set_maintenance(Maintenance(frozenset('c'), None), None))
        self.make(1000.0, self.log)
        self.log.is_silent = True
        first = self.measured()
        named = metrics.labels('c')
        self.assertEqual([first['bully_store_up'], first[f'bully_drained{named}'], first['bully_epoch']], [0, 1, 1])
        wait_until(lambda: self.measured()['bully_group_age_seconds'] > first['bully_group_age_seconds'])
        self.log.is_silent = False
        wait_until(lambda: self.measured()['bully_store_up'] == 1)
        with mock.patch.object(answers, 'seconds_of_boot', lambda: seconds_of_boot() + 5.0):
            self.log.is_silent = True
            self.assertGreaterEqual(self.measured()['bully_group_age_seconds'], 5.0)

    def test_a_store_that_hangs(self) -> None:
        """A client that asks while a snapshot hangs waits for a bounded time."""
        hangs, goes_on = threading.Event(), threading.Event()

        def snapshot(epoch: int, offset: int, promise_of: str | None = None) -> Snapshot:
            hangs.set()
            goes_on.wait()
            return Troubled.snapshot(self.log, epoch, offset, promise_of)

        self.addCleanup(goes_on.set)
        with mock.patch.object(answers, 'SNAPSHOT_MAX', 0.1):
            setattr(self.log, 'snapshot', snapshot)
            first = threading.Thread(target=self.get, args=['/group'])
            first.start()
            hangs.wait()
            told = self.measured()
            self.assertEqual((told['bully_store_up'], told['bully_epoch']), (0, 1))
            self.assertEqual(self.get('/group')[::2], (503, 'the store does not answer\n'))
            goes_on.set()
            first.join()
        self.assertEqual(self.status('/group'), 200)

    def test_what_others_hear(self) -> None:
        """The servers of a store, or its files, are named to the member's own log alone, once."""
        cases = (
            (Unanswered('10.0.0.1:2379: timed out'), 'the store does not answer\n'),
            (DamagedLog('/srv/group.db: no row'), 'the log can not be read\n'),
        )
        for failure, told in cases:
            with self.subTest(failure), mock.patch.object(answers, 'SNAPSHOT_SECONDS', 0.0):
                with mock.patch.object(self.log, 'snapshot', side_effect=failure), self.assertLogs('bully') as logged:
                    for target in ('/', '/group', '/assignment', '/group?after=7'):
                        self.assertEqual(self.get(target), (503, 'text/plain; charset=utf-8', told))
                    self.assertNotIn(str(failure), self.get('/metrics')[2])
                self.assertEqual([record.getMessage() for record in logged.records], [f'page: {failure}'])
                self.assertEqual(self.status('/group'), 200)

    def test_a_worker_that_does_not_end(self) -> None:
        self.begin()
        self.workers.watch(self.member)
        self.addCleanup(self.workers.close)
        self.assertEqual(self.get('/healthz')[0], 200)
        state = self.workers._workers[ALL] = WorkerState(ALL, self.workers, Failures())
        state.survivors, state.stop_begun = [os.getpid()], seconds_of_boot() - 10.0
        self.assertEqual(self.get('/healthz')[::2], (503, 'its worker does not stop\n'))
        self.assertRegex(self.get('/')[2], 'nodes live; its worker has not stopped for 1[0-9][.][0-9] s<')
        label = metrics.labels(self.NAMES[1])
        self.assertGreaterEqual(self.measured()[f'bully_stopping_seconds{label}'], 10.0)
        state.survivors, state.stop_begun, state.is_there = [], None, True
        for message, count in ((b'lost all 0', 0), (b'lost all 0 1000', 1)):  # one that didn't start wasn't killed
            self.workers._hear(message)
            state.is_there = True
            self.assertEqual(self.measured()[f'bully_work_killed_total{label}'], count)
        state.is_there = False

    def test_an_epoch_that_is_not_told(self) -> None:
        """Where the log doesn't answer with what the next epoch began with, the page goes on once it does."""
        self.roll_over(0)
        with mock.patch.object(answers, 'SNAPSHOT_SECONDS', 0.0), mock.patch.object(
            self.log, 'opening', side_effect=Unanswered('silent')
        ) as asked:
            for _ in range(2):
                self.assertEqual(self.get('/group')[::2], (503, 'the store does not answer\n'))
        self.assertEqual(asked.call_count, 2)
        self.assertEqual(self.told()['epoch'], 2)

    def test_gone(self) -> None:
        """Who asked is gone before the answer."""
        threads = threading.active_count()
        with contextlib.redirect_stderr(io.StringIO()) as told:
            with socket.create_connection(('127.0.0.1', self.page.port)) as client:
                client.sendall(b'GET /group?after=0 HTTP/1.1\r\nHost: localhost:1\r\n\r\n')
                wait_until(lambda: threading.active_count() > threads)
                client.setsockopt(socket.SOL_SOCKET, socket.SO_LINGER, struct.pack('ii', 1, 0))  # it is reset
            put(self.log, 'recover,1')
            wait_until(lambda: threading.active_count() == threads)
        self.assertEqual(told.getvalue(), '')

    def test_page(self) -> None:
        self.begin()
        status, kind, text = self.get('/')
        self.assertEqual((status, kind), (200, 'text/html; charset=utf-8'))
        self.assertNotIn('<script>alert', text)
        self.assertIn('&lt;script&gt;alert(1)&lt;/script&gt;', text)
        self.assertNotRegex(text, r'(src|href)=')

    def test_a_dead_node_in_a_pause(self) -> None:
        """The log has it as normal still, and it isn't live: it isn't shown as well, nor as if it worked."""
        self.begin()
        self.assertIn('<span class="dot normal"></span>normal<td>yes', self.get('/')[2])
        self.assertTrue(self.log.set_maintenance(Maintenance(frozenset(), {}), None))
        with mock.patch.object(
            self.log, 'snapshot', lambda *asked: Troubled.snapshot(self.log, *asked)._replace(holders={})
        ):
            wait_until(lambda: self.told()['nodes'][1]['live'] is False)
            shown = self.get('/')[2]
        self.assertIn('<span class="dot down"></span>not live, normal before<td>no<td>', shown)
        self.assertIn('<td>0 1 2 3 4 5 (nobody works on these)</tr>', shown)
        self.assertNotIn('class="dot normal"', shown)

    def test_last_events(self) -> None:
        """Each is told in words, with the name of its node and the time of its append."""
        put(self.log, 'recover,1', 'crash,1')
        with mock.patch('bully.memory.wall_clock', lambda: 1_000_000_000_123):
            self.begin()
        last = self.told()['last']
        self.assertEqual([row['row'] for row in last[:2]], [2, 3])
        self.assertEqual({row['time'] for row in last[2:]}, {'2001-09-09T01:46:40.123Z'})
        self.assertGreater(min(row['time'] for row in last[:2]), '2020')
        shown, second = self.get('/')[2], html.escape(self.NAMES[1])
        self.assertIn(f'<td class="small">2001-09-09T01:46:40.123Z<td><b>{second}</b> is up<td>', shown)
        self.assertIn(f'<b>{second}</b> plans how many partitions each node owns: {second} 6<td>', shown)
        self.assertIn(f'<b>{html.escape(self.NAMES[0])}</b> counts as down<td>', shown)

    def test_odd_names(self) -> None:
        """Marks of direction, and signs that can't be printed, are no part of the page."""
        odd = 'a\u202eb\u2066c\x07d\u200f'
        with mock.patch.object(self, 'NAMES', (odd, 'b', 'c')):
            self.make(2.0)
        put(self.log, 'recover,1')
        shown = self.get('/')[2]
        self.assertIn('<td>a?b?c?d?<td>', shown)
        self.assertFalse(set('\u202e\u2066\x07\u200f') & set(shown))

    def test_metrics(self) -> None:
        """Each line is one of Prometheus's text format."""
        self.begin()
        status, kind, text = self.get('/metrics')
        self.assertEqual((status, kind), (200, 'text/plain; version=0.0.4'))
        sample = r'[a-z_]+(\{node="([^"\\\n]|\\["\\n])*"\})? [-+0-9.e]+'
        for line in text.splitlines():
            self.assertRegex(line, rf'^(# (HELP [a-z_]+ .+|TYPE [a-z_]+ (counter|gauge))|{sample})$')
        self.assertIn('bully_node_partitions{node="<script>alert(1)</script>"} 6', text)
        self.assertIn('bully_node_live{node="a\\"\\\\b"} 0', text)
        token = Token.of(1, 1 + self.log.rows.index(next(row for row in self.log.rows if row.startswith('plan'))))
        self.assertTrue({'bully_epoch 1', f'bully_token {token}', 'bully_cooperative 0'} <= set(text.splitlines()))
        self.assertTrue({'bully_stable 1', 'bully_partitions_moving 0'} <= set(text.splitlines()))

    def test_behind(self) -> None:
        """Who isn't idle is named, with how long the others have waited."""
        self.begin()
        self.assertEqual(self.told()['behind'], {})
        name, session = self.NAMES[0], Session(7, 1)
        self.assertIn(f'bully_idle_behind_seconds{metrics.labels(name)} 0.000', self.get('/metrics')[2])
        self.assertTrue(self.log.acquire(name, session, Promise(1, len(self.log.rows)), LONG))
        with self.log._changed:  # it works
            self.log.leases[name] = self.log.leases[name]._replace(holder=Holder(session, Promise()))
        wait_until(lambda: self.told()['behind'].get(name, 0) > 0.3)
        behind = self.told()['behind']
        self.assertEqual(list(behind), [name])
        self.assertRegex(self.get('/')[2], 'nodes live; not idle yet: a&quot;[^<]* for [0-9.]+ s<')
        told = {key: value for key, value in self.measured().items() if key.startswith('bully_idle_behind_seconds{')}
        self.assertEqual(len(told), 3)
        self.assertGreaterEqual(told[f'bully_idle_behind_seconds{metrics.labels(name)}'], behind[name])

    def test_refused(self) -> None:
        for method in ('POST', 'PUT', 'DELETE', 'PATCH', 'TRACE', 'PROPFIND'):
            self.assertEqual(self.get('/', method)[0], 405)
        self.assertEqual(self.get('/nothing')[0], 404)
        self.assertEqual(self.get('/group', Host=f'elsewhere.example:{self.page.port}')[0], 403)
        self.assertEqual(self.get('/group', Host=f'localhost:{self.page.port}')[0], 200)
        for target in ('/group?after=x', '/group?after=-1', '/group?after=99999999999999'):
            self.assertEqual(self.get(target)[0], 200)


class Cooperating(Paged):
    """What is shown of a cooperative group of four, which have three partitions each."""

    def setUp(self) -> None:
        self.worker = Worker()
        self.make(2.0, Troubled(COOPERATIVE), on_assigned=self.worker.assigned, on_revoked=self.worker.revoked)
        self.others: dict[str, Member] = {}

    def come(self, *names: str) -> None:
        """Members of these nodes run, whose work ends at once."""
        for name in names:
            worker, node = Worker(), COOPERATIVE.names.index(name) + 1
            calls = worker.assigned, worker.revoked
            self.others[name] = Member(self.log, node, ttl=2.0, on_assigned=calls[0], on_revoked=calls[1])
            self.run_apart(self.others[name])

    def counts(self) -> list[int]:
        """How many partitions each may work on, by its member."""
        shown = [member.assignment() for member in (self.member, *self.others.values())]
        return [0 if work is None else len(work.partitions) for work in shown]

    def begin_change(self) -> tuple[set[int], int]:
        """Node d comes, while the work of node b stops slowly. What node b goes on with, and what moves from it."""
        self.begin()
        self.come('a', 'c')
        self.addCleanup(self.worker.may_stop.set)
        wait_until(lambda: self.counts() == [4, 4, 4])
        before = set(self.worker.works)
        self.worker.may_stop.clear()
        self.come('d')
        self.addCleanup(self.worker.may_stop.set)
        wait_until(lambda: self.counts() == [3, 3, 3, 0])
        work = self.member.assignment()
        assert work is not None
        (moving,) = before - set(work.partitions)
        self.assertIn(moving, self.worker.works, 'it works on that still')
        return set(work.partitions), moving

    def test_a_change(self) -> None:
        """By partition: who works on it, and to whom it moves. The slow node alone is named."""
        goes_on, moving = self.begin_change()
        wait_until(lambda: self.told()['moves'] == 3)
        wait_until(lambda: list(self.told()['behind']) == ['b'])
        told = self.told()
        self.assertEqual((told['mode'], told['stable'], told['stops']), ('cooperative', False, {'b': [moving]}))
        by_state = {state: [each for each in range(12) if told['states'][each] == state] for state in told['states']}
        self.assertEqual(by_state['moving'], [moving])
        self.assertEqual((told['owners'][moving], told['coming'][moving]), ('b', 'd'))
        owned = list(zip(told['owners'], told['coming']))  # now and then
        self.assertEqual([owned[each] for each in by_state['waiting']], [(None, 'd')] * 2)
        self.assertEqual({each for each in by_state['working'] if owned[each][0] == 'b'}, goes_on)
        self.assertTrue(all(owned[each][0] == owned[each][1] for each in by_state['working']))
        shown = self.get('/')[2]
        waits = (
            f'cooperative, 4 of 4 nodes live; 3 of 12 partitions move; not stopped yet: b on {moving} for [0-9.]+ s<'
        )
        self.assertRegex(shown, waits)
        cell = f'<span class="cell moving" title="token {told["tokens"][moving]}">{moving} <b>b</b> to d</span>'
        self.assertIn(cell, shown)
        self.assertIn(f'<span class="cell waiting">{by_state["waiting"][0]} <b>-</b> to d</span>', shown)
        self.worker.may_stop.set()
        wait_until(lambda: self.counts() == [3] * 4 and self.told()['stable'])
        told = self.told()
        self.assertEqual((told['moves'], told['stops'], told['behind'], set(told['states'])), (0, {}, {}, {'working'}))

    def test_metrics_of_a_change(self) -> None:
        """How many move, who still has to stop how many, and since when."""
        _, _ = self.begin_change()
        wait_until(lambda: self.measured()['bully_idle_behind_seconds{node="b"}'] > 0.3)
        told = self.measured()
        names = [f'bully_{name}' for name in ('cooperative', 'stable', 'partitions_moving', 'partitions_free')]
        self.assertEqual([told[name] for name in names], [1, 0, 3, 2])
        self.assertEqual([told[f'bully_node_stops{metrics.labels(name)}'] for name in 'abcd'], [0, 1, 0, 0])
        self.assertEqual([told[f'bully_idle_behind_seconds{metrics.labels(name)}'] for name in 'acd'], [0, 0, 0])
        self.worker.may_stop.set()
        wait_until(lambda: self.measured()['bully_stable'])
        told = self.measured()
        self.assertEqual([told[name] for name in (*names[2:], 'bully_node_stops{node="b"}')], [0, 0, 0])

    def test_what_a_member_may_work_on(self) -> None:
        """That is what goes on, and not what has to stop, though the work there hasn't ended."""
        goes_on, moving = self.begin_change()
        token = self.worker.works[moving]
        told = self.told('/assignment')
        self.assertEqual((told['partitions'], told['token']), (sorted(goes_on), token))
        self.assertEqual({each for each in range(12) if self.status(f'/partitions/{each}') == 200}, goes_on)
        self.assertEqual([self.status(each) for each in ('/livez', '/readyz', '/leader')], [200, 200, 503])
        self.worker.may_stop.set()
        wait_until(lambda: self.counts() == [3] * 4 and self.told('/assignment')['token'] > token)
        self.assertEqual(self.told('/assignment')['partitions'], sorted(goes_on))
        self.assertEqual({each for each in range(12) if self.status(f'/partitions/{each}') == 200}, goes_on)
