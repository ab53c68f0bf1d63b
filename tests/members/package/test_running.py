"""Tests of members in threads."""
from __future__ import annotations

import socket
import threading
from typing import cast
from unittest import mock

from bully import NotLearned, Replica, Setup, check, settings, view
from bully.clocks import SECOND, seconds_of_boot
from bully.core import TTL_MIN, Promise, Session
from bully.epochs import Opening
from bully.member import Assignment, Member, OtherGroup, is_known
from bully.memory import MemoryLog
from bully.shared_log import Holder, LogError
from bully.working import Callbacks
from ..steps import HEADER, LONG, OPENING
from ..waiting import PATIENCE, wait_until
from .threads import Slow, Taking, Threads, Troubled


DAY = 86_400.0


def rebalanced_without(log: MemoryLog, *absent: str) -> None:
    """The others hold leases, have rebalanced the group, and may work."""
    names = [name for name in OPENING.names if name not in absent]
    for name in names:
        assert log.acquire(name, Session(9, int(name)), Promise(1, 0), LONG)
    with Replica(HEADER) as replica:
        assert log.append(1, 0, replica.rebalance(map(int, names)))


class Running(Threads):
    """Members in threads."""

    def test_three(self) -> None:
        log = MemoryLog(OPENING)
        members = {node: self.begin(log, node) for node in (1, 2, 3)}

        def owners() -> list[int]:
            owned = {node: member[0].assignment() for node, member in members.items()}
            tokens = {each.token for each in owned.values() if each}
            return [node for node, each in owned.items() if each and len(each.partitions) == 2 and len(tokens) == 1]

        wait_until(lambda: owners() == [1, 2, 3])
        self.assertEqual({getattr(member[0].assignment(), 'coordinator') for member in members.values()}, {3})
        members[3][0].leave()
        members[3][2].join()
        self.assertIsNone(members[3][0].assignment())
        wait_until(lambda: all(len(getattr(members[node][0].assignment(), 'partitions', ())) == 3 for node in (1, 2)))
        self.assertIn('crash,3', log.rows)
        self.assertEqual(set(log.holders), {'1', '2'})
        self.assertTrue(check('\n'.join([HEADER, *log.rows, '']).encode()).is_lawful)

    def test_until(self) -> None:
        """It is told until when its work is sure, before that begins."""
        log, began = MemoryLog(OPENING), seconds_of_boot()
        told: list[str] = []
        sure: list[tuple[float, list[str]]] = []
        member, _, _ = self.begin(
            log, 1, start=lambda work: told.append('start'), sure=lambda until: sure.append((until, told[:]))
        )
        wait_until(lambda: len(sure) > 2)
        self.assertEqual(sure[0][1], [])
        self.assertTrue(began + 1.6 <= sure[0][0] <= seconds_of_boot() + 1.6)
        self.assertEqual([until for until, _ in sure], sorted(until for until, _ in sure))
        assigned = member.assignment()
        assert assigned is not None
        self.assertTrue(seconds_of_boot() < assigned.until <= seconds_of_boot() + 1.6)

    def test_until_by_slow_answers(self) -> None:
        """It is sure from when a renewal was asked for, and not from its answer."""
        log = Slow(OPENING)
        sure: list[tuple[float, float]] = []
        member, _, _ = self.begin(log, 1, sure=lambda until: sure.append((until, log.begun)))
        wait_until(lambda: len(sure) > 3 and member.assignment())
        assigned = member.assignment()
        assert assigned is not None
        self.assertLessEqual(max(assigned.until, member.sure_until), log.begun + 1.6)
        for until, begun in sure:
            self.assertLessEqual(until, begun + 1.6)

    def test_alone_leaves(self) -> None:
        """The last one appends its own crash. It doesn't say that somebody took away the lease that it releases."""
        log = MemoryLog(OPENING)
        with self.assertLogs('bully', 'INFO') as said:
            member, told, thread = self.begin(log, 1)
            wait_until(member.assignment)
            member.leave()
            thread.join()
        self.assertNotIn('took its lease', ' '.join(said.output))
        self.assertEqual((log.rows[-1], log.holders), ('crash,1', {}))
        self.assertEqual(told, [f'start {self.token_of(log)}', f'stop {self.token_of(log)}'])

    def test_a_lease_that_is_taken_away(self) -> None:
        """Once that is reported its work isn't sure any more, while the last snapshot says otherwise; that is said
        once. After it has the lease again it works."""
        log, sure = Taking(OPENING), [0.0]
        with self.assertLogs('bully', 'WARNING') as said:
            member, _, _ = self.begin(log, 1, 100.0, sure=sure.append)
            wait_until(member.assignment)
            log.taken = log.holders['1'].session
            self.begin(log, 2)  # so that its wait ends
            wait_until(lambda: member.assignment() is None and sure[-1] <= seconds_of_boot())
            self.assertEqual((log.holders['1'].session, member.sure_until, member.leads), (log.taken, 0.0, False))
            log.release('1', log.taken)
            wait_until(lambda: '1' in log.holders and member.assignment())
        self.assertGreater(sure[-1], seconds_of_boot())
        self.assertEqual([line.count('took its lease away') for line in said.output], [1])

    def test_a_second_process_is_told(self) -> None:
        """Who comes for a node that has a process says so, once, and waits."""
        log = MemoryLog(OPENING)
        first, _, thread = self.begin(log, 1)
        wait_until(first.assignment)
        session = log.holders['1'].session
        with self.assertLogs('bully', 'WARNING') as said:
            second, told, _ = self.begin(log, 1)
            wait_until(lambda: said.output)
            self.begin(log, 3)  # it reads a snapshot again at each change
            wait_until(lambda: '3' in log.holders and first.assignment() and second.core.offset == len(log.rows))
            self.assertEqual((len(said.output), told, second.assignment()), (1, [], None))
            self.assertIn(
                f'node 1: another process is live for it, as {session.process}.{session.number}, and this one waits',
                said.output[0],
            )
        first.leave()
        wait_until(second.assignment)

    def test_lost_work(self) -> None:
        """Work that has ended outside is stopped, and begun again. What ended of an earlier Begin isn't it."""
        log = MemoryLog(OPENING)
        begun: list[Assignment] = []
        sure: list[float] = []
        member, _, _ = self.begin(log, 1, start=begun.append, sure=sure.append)
        for count in range(1, 4):
            wait_until(lambda: len(begun) == count and member.assignment())
            member.lose(begun[-1])
        wait_until(lambda: len(begun) == 4)
        self.assertEqual({work.token for work in begun}, {self.token_of(log)})
        rows = log.rows[:]
        member.lose(begun[0])
        assert isinstance(member._does, Callbacks)
        wait_until(member._does._asked.empty)
        renewals = len(sure)
        wait_until(lambda: len(sure) > renewals + 1)  # before which it would have stopped
        self.assertEqual((log.rows, len(begun)), (rows, 4))

    def test_silence(self) -> None:
        """Work stops once it isn't sure any more, and begins again once the log answers."""
        log = Troubled(OPENING)
        member, told, _ = self.begin(log, 1, ttl=1.0)
        wait_until(lambda: told)
        with self.assertLogs('bully', 'WARNING'):
            log.is_silent = True
            wait_until(lambda: told[-1].startswith('stop'))
            self.assertIsNone(member.assignment())
            wait_until(lambda: seconds_of_boot() > member.sure_until)
            log.is_silent = False
            wait_until(lambda: member.assignment() and told[-1].startswith('start'))
        self.assertEqual([words.split()[0] for words in told], ['start', 'stop'] * (len(told) // 2) + ['start'])

    def test_a_slow_stop(self) -> None:
        """While work stops the lease is renewed, and nothing is appended."""
        log, is_over = MemoryLog(OPENING), threading.Event()
        member, _, _ = self.begin(log, 1, ttl=1.0, stop=lambda work: is_over.wait())
        wait_until(member.assignment)
        rows, session = log.rows[:], log.holders['1'].session
        self.begin(log, 3, ttl=1.0)
        self.addCleanup(is_over.set)
        begun = seconds_of_boot()
        wait_until(lambda: seconds_of_boot() > begun + 2.0)
        self.assertEqual((log.rows, log.holders['1'].session), (rows, session))
        self.assertTrue(
            member.sure_until > seconds_of_boot() and member.assignment() is None, 'it is live, and may not work'
        )
        shown = self.viewed(log, ttl=1.0)
        wait_until(lambda: list(shown.show().waits) == ['1'])
        is_over.set()
        wait_until(lambda: shown.show().coordinator == '3')
        self.assertEqual(shown.show().waits, {})

    def test_behind(self) -> None:
        """A member shows in a view since when others wait."""
        log, is_over = MemoryLog(OPENING), threading.Event()
        slow, _, _ = self.begin(log, 1, stop=lambda work: is_over.wait())
        wait_until(slow.assignment)
        other, _, _ = self.begin(log, 3)
        self.addCleanup(is_over.set)
        wait_until(lambda: '3' in log.holders and other.waits._waits[1])
        begun = seconds_of_boot()
        wait_until(lambda: seconds_of_boot() > begun + 0.5)
        shown = self.viewed(log, other.waits)
        behind = shown.show().waits
        self.assertEqual(list(behind), ['1'])
        self.assertGreaterEqual(behind['1'], 0.5)

    def test_a_start_that_raises(self) -> None:
        def start(assignment: Assignment) -> None:
            raise KeyError('here')

        log = MemoryLog(OPENING)
        _, told, thread = self.begin(log, 1, start=start)
        self.ends_by(thread, KeyError)
        self.assertEqual(told, [f'stop {self.token_of(log)}'])
        self.assertEqual((log.rows[-1], log.holders), ('crash,1', {}))

    def test_a_stop_that_raises(self) -> None:
        """Nothing is given back before the lease has ended: the work may go on."""

        def stop(assignment: Assignment) -> None:
            raise KeyError('here')

        log = MemoryLog(OPENING)
        member, told, thread = self.begin(log, 1, stop=stop)
        wait_until(lambda: told)
        rows = len(log.rows)
        member.leave()
        self.ends_by(thread, KeyError)
        self.assertEqual((len(log.rows), set(log.holders)), (rows, {'1'}))

    def test_work_that_ends_as_its_member_leaves(self) -> None:
        """By a signal that all processes got. The member ends in order."""
        member, told, thread = self.begin(MemoryLog(OPENING), 1)
        wait_until(lambda: told)
        member.leave()
        member.end_with(KeyError('here'))
        thread.join(PATIENCE)
        self.assertEqual((thread.is_alive(), member.failure), (False, None))

    def test_a_log_that_fails(self) -> None:
        """Work stops once, whether or not it is stopping when its member ends by a fault of the log."""
        for is_stopping in (False, True):
            with self.subTest(is_stopping=is_stopping):
                log, is_over, told = MemoryLog(OPENING), threading.Event(), cast(list[str], [])

                def stop(work: Assignment) -> None:
                    told.append('stop')
                    is_over.wait()

                member, _, thread = self.begin(log, 1, ttl=1.0, start=lambda work: told.append('start'), stop=stop)
                self.addCleanup(is_over.set)
                wait_until(member.assignment)
                if is_stopping:
                    member.leave()
                    wait_until(lambda: told[-1:] == ['stop'])
                with mock.patch.object(log, 'renew', side_effect=LogError('here')) as renewed:
                    wait_until(lambda: renewed.called and member.assignment() is None)
                    is_over.set()
                    self.ends_by(thread, LogError)
                self.assertEqual(told, ['start', 'stop'])

    def test_a_row_that_is_refused(self) -> None:
        """It ends, and says why."""
        log = MemoryLog(OPENING)
        member, told, thread = self.begin(log, 1)
        wait_until(member.assignment)
        with log._changed:
            log.rows.append('recover,1')
            log._changed.notify_all()
        self.ends_by(thread, NotLearned)
        self.assertEqual((len(told), log.holders), (2, {}))

    def test_an_unknown_process(self) -> None:
        """While a process holds a lease that isn't of the group, and may work, nobody asks to append anything."""
        log, sure = Troubled(OPENING), cast(list[float], [])
        self.assertTrue(log.acquire('unknown', Session(9, 1), Promise(1, 0), LONG))
        with log._changed:
            log.leases['unknown'] = log.leases['unknown']._replace(holder=Holder(Session(9, 1), Promise()))
        member, _, _ = self.begin(log, 1, sure=sure.append)
        wait_until(lambda: len(sure) > 2)
        self.assertEqual((log.appends, member.assignment()), ([], None))
        log.release('unknown', Session(9, 1))
        wait_until(member.assignment)
        self.assertEqual(log.appends, [0])

    def test_a_table_is_handed_on(self) -> None:
        """An epoch that ends before it has a plan hands on the table of the one before."""
        log, session, table = MemoryLog(OPENING), Session(9, 1), (3, 2, 1, 1, 2, 3)
        self.assertTrue(
            log.acquire('unknown', session, Promise(1, 0), LONG) and log.roll_over(1, 0, OPENING.next(None, table))
        )
        log.release('unknown', session)
        self.assertTrue(log.ask(log.opening().requested(OPENING.settings), 2))
        self.begin(log, 1)
        wait_until(lambda: log.epoch == 3)
        self.assertEqual((log.read(2, 0), log.opening().table), ([], table))

    def test_a_request_waits(self) -> None:
        """A member that works while other settings are requested is behind."""
        log, is_over = MemoryLog(OPENING), threading.Event()
        member, _, _ = self.begin(log, 1, stop=lambda work: is_over.wait())
        self.addCleanup(is_over.set)
        wait_until(member.assignment)
        shown = self.viewed(log)
        self.assertEqual(shown.show().waits, {})
        self.assertTrue(log.ask(OPENING.requested(OPENING.settings), 1))
        self.assertEqual(list(shown.show().waits), ['1'])
        is_over.set()
        wait_until(lambda: log.epoch == 2)

    def test_a_full_log_waits(self) -> None:
        """So is a member that works while the log has no room for another rebalance: 11 rows for each of three
        nodes."""
        rows: list[str] = []
        with Replica(HEADER) as replica:
            while len(rows) < 66:
                rows += replica.rebalance([1])
                replica.learn(rows[replica.rows :])
        for room, behind in ((33, []), (32, ['1'])):
            log = MemoryLog(Opening(1, HEADER, OPENING.names, len(rows) + room))
            self.assertTrue(log.acquire('1', Session(9, 1), Promise(1, 0), LONG))
            log.rows.extend(rows)
            shown = self.viewed(log)
            self.assertEqual(list(shown.show().waits), behind, room)

    def test_who_comes_again_and_again(self) -> None:
        """Its node is Down in the log, and it is admitted only once it has stayed, so that the others work on
        meanwhile. A view that has read snapshots before knows for how long each session must stay; a new one
        doesn't."""
        log = MemoryLog(OPENING)
        rebalanced_without(log, '3')
        kept = self.viewed(log, ttl=DAY)
        for number in range(1, 8):
            self.assertTrue(log.acquire('3', Session(8, number), Promise(1, len(log.rows)), LONG))
            fresh = self.viewed(log, ttl=DAY)
            for shown in (kept.show(), fresh.show()):
                self.assertEqual((shown.is_well, shown.is_stable, shown.waits), (True, True, {}))
                self.assertEqual([node.is_live for node in shown.nodes], [True] * 3)
            log.release('3', Session(8, number))

    def test_who_has_come_to_stay(self) -> None:
        """Once it is admitted the others stop their work for it, and are shown to be behind, up to when they are
        idle."""
        log = MemoryLog(OPENING)
        rebalanced_without(log, '3')
        shown = self.viewed(log, ttl=TTL_MIN / SECOND)
        end = Promise(1, len(log.rows))
        self.assertTrue(shown.show().is_well and log.acquire('3', Session(8, 1), end, LONG))
        wait_until(lambda: not shown.show().is_stable)
        group = shown.show()
        self.assertEqual((group.is_well, list(group.waits)), (False, ['1', '2']))
        self.assertTrue(log.promise('1', Session(9, 1), end))
        group = shown.show()
        self.assertEqual(list(group.waits), ['2'])
        self.assertEqual(set(group.owners), {None, '2'}, 'the idle one may not work by that plan any more')

    def test_who_may_work(self) -> None:
        """A node to which the last plan gives a partition, while it is live, and has promised nothing after the
        plan."""
        log = MemoryLog(OPENING)
        rebalanced_without(log, '3')
        shown = self.viewed(log)
        group = shown.show()
        self.assertEqual((set(group.owners), group.is_well), ({'1', '2'}, True))
        log.release('1', Session(9, 1))
        group = shown.show()
        self.assertEqual((set(group.owners), group.is_well), ({None, '2'}, False))
        self.assertEqual(group.owners.count(None), len(group.nodes[0].partitions), 'its plan stands still')
        self.assertTrue(log.acquire('1', Session(8, 1), Promise(1, len(log.rows)), LONG))
        group = shown.show()
        self.assertEqual((set(group.owners), group.is_well, list(group.waits)), ({None, '2'}, False, ['2']))

    def test_a_second_process(self) -> None:
        """A member that waits until its node's lease is free doesn't know whether the group is stable, and names nobody
        as behind."""
        log = MemoryLog(OPENING)
        first, _, _ = self.begin(log, 1)
        wait_until(first.assignment)
        second, _, _ = self.begin(log, 1)
        with mock.patch.object(second.waits, 'see', wraps=second.waits.see) as seen:
            wait_until(lambda: seen.call_count > 1)
        self.assertEqual((second.assignment(), second.waits._waits[1]), (None, {}))

    def test_how_long_behind(self) -> None:
        """It counts from when a change first waited for it, at this end of the log, for this session."""
        late, one, other = (
            view.ChangeWaits(),
            {'a': Holder(Session(1, 1), Promise(1, 3))},
            {'a': Holder(Session(1, 2), Promise(1, 3))},
        )
        nobody: dict[str, Holder] = {}
        seen = [
            (4, one, {'a': 0.0}), (4, one, {'a': 2.0}), (5, one, {'a': 0.0}), (5, one, {'a': 2.0}),
            (5, other, {'a': 0.0}), (5, nobody, {}), (5, other, {'a': 0.0}),
        ]  # fmt: skip
        with mock.patch.object(view, 'seconds_of_boot', side_effect=range(10, 100, 2)):
            for offset, holders, wanted in seen:
                self.assertEqual(late.see(Promise(1, offset), holders), wanted)
            for offset, holders, told in ((5, other, {'a': 2.0}), (5, one, {}), (6, other, {}), (5, nobody, {})):
                self.assertEqual(late.seen(Promise(1, offset), holders), told)

    def test_other_group(self) -> None:
        with self.assertRaises(OtherGroup):
            Member(MemoryLog(OPENING), 1, print, print, settings=settings.Settings(Setup(3, 7), ('1', '2', '3')))

    def test_a_group_of_many_epochs(self) -> None:
        """Only so many openings are read as are needed to know the group: the last ones first."""
        log, session = MemoryLog(OPENING), Session(9, 1)
        self.assertTrue(log.acquire('unknown', session, Promise(1, 0), LONG))
        for epoch in range(1, 5):
            self.assertTrue(
                log.promise('unknown', session, Promise(epoch, 0))
                and log.roll_over(epoch, 0, log.opening().next(None, ()))
            )
        with mock.patch.object(log, 'opening', wraps=log.opening) as asked:
            self.assertTrue(is_known(log, OPENING.settings))
            asked.assert_called_once_with(5)
            self.assertFalse(is_known(log, settings.Settings(Setup(3, 7), ('1', '2', '3'))))
            self.assertEqual(asked.call_count, 6)

    def test_with(self) -> None:
        log = MemoryLog(OPENING)
        with Member(log, 1, lambda assignment: member.leave(), lambda assignment: None, ttl=2.0) as member:
            member.run()
        self.assertEqual(log.rows[-1], 'crash,1')
        self.assertTrue(member.core.is_closed)

    def test_no_descriptors(self) -> None:
        """A member that can't begin for want of descriptors is over all the same."""
        ended: list[BaseException] = []

        def run() -> None:
            try:
                with Member(MemoryLog(OPENING), 1, print, print) as member:
                    member.run()
            except OSError as failure:
                ended.append(failure)

        with mock.patch.object(socket, 'socketpair', side_effect=OSError('none is left')):
            thread = threading.Thread(target=run, daemon=True)
            thread.start()
            wait_until(lambda: ended)
