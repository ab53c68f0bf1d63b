"""Tests of what an operator does to a cooperative group: drains, pauses, resizes, switchovers; and who stops for
that."""
from __future__ import annotations

import logging
from collections.abc import Callable
from unittest import mock

from bully import operations
from bully.core import Promise
from bully.epochs import Opening, Token
from bully.memory import MemoryLog
from bully.settings import Settings
from bully.view import Doing
from ..waiting import PATIENCE, wait_until
from .grouped import COOPERATIVE, EAGER, Grouped, Said, Viewed, share_out
from .threads import Troubled


class Running(Grouped):
    """Members of a group, which run."""

    def setUp(self) -> None:
        super().setUp()
        patch = mock.patch.object(logging.getLogger('bully'), 'warning')  # of who isn't answered
        patch.start()
        self.addCleanup(patch.stop)

    def start_over(self, partitions: int) -> None:
        """A group with so many partitions."""
        is_cooperative = self.OPENING.is_cooperative
        self.log = Troubled(Opening.first(f'bully,1,4,{partitions}', 'abcd', is_cooperative=is_cooperative))

    def last_token_of(self, name: str) -> Token | None:
        """The token of the last plan that its member has learned."""
        core = self.members[name][0].core
        return None if core.token is None else Token.of(core.epoch, core.token)


class Pauses(Running):
    """A pause, of a cooperative group and of an eager one. Nothing is appended before its end."""

    def see_unchanged(self, said: Said, rows: list[str], names: str) -> None:
        """Nothing was appended, and the work of these goes on by the same token."""
        self.assertEqual(self.log.rows, rows)
        self.assertEqual({name: self.said()[name] for name in names}, {name: said[name] for name in names})
        self.assertLessEqual(set(names), set(self.owners()))

    def test_a_death(self) -> None:
        """The others work on by the same token, and its partitions wait, also once it has come back."""
        self.all_come('abcd')
        rows, said, works = self.log.rows[:], self.said(), self.works()
        operations.pause(self.log)
        self.log.let_die('c')
        self.log.pass_renewals('abd')
        self.see_unchanged(said, rows, 'abd')
        shown = self.viewed(self.log, self.members['a'][0].waits)
        group = shown.show()
        self.assertEqual((group.is_paused, group.is_frozen, group.waits), (True, True, {}))
        self.assertEqual((group.moves, group.is_well), (0, False))
        waiting = dict.fromkeys(works['c'], (None, None))
        self.assertEqual(self.seen_doing(group, Doing.WAITING), waiting)
        self.log.cut.clear()
        wait_until(lambda: 'c' in self.log.holders)
        self.log.pass_renewals('abcd')
        self.assertIsNone(self.members['c'][0].assignment(), 'it waits')
        group = shown.show()
        self.assertEqual((self.seen_doing(group, Doing.WAITING), group.is_well, group.waits), (waiting, False, {}))
        self.see_unchanged(said, rows, 'abd')
        operations.resume(self.log)
        wait_until(lambda: self.is_shared('abcd'))
        self.assertEqual(set(self.stopped_since(said)), set('c' if self.OPENING.is_cooperative else 'abcd'))
        self.assertTrue(shown.show().is_well)

    def test_a_group_that_begins(self) -> None:
        """Nobody works before its end."""
        operations.pause(self.log)
        for name in 'ab':
            self.come(name)
        wait_until(lambda: set(self.log.holders) == {'a', 'b'})
        self.log.pass_renewals('ab')
        self.assertEqual((self.log.rows, self.works()), ([], {}))
        operations.resume(self.log)
        wait_until(lambda: self.is_shared('ab'))

    def test_who_comes(self) -> None:
        """It waits, whether or not it would get anything, and reads snapshots about as often as one that works, where
        one that doesn't wait reads without end. All is well meanwhile."""
        for partitions in (12, 3):
            self.start_over(partitions)
            self.all_come('abc')
            rows, said = self.log.rows[:], self.said()
            operations.pause(self.log)
            self.come('d')
            one, new = (self.members[name][2].name for name in 'ad')
            wait_until(lambda: 'd' in self.log.holders)
            self.log.pass_renewals('abcd', 1)
            before = self.log.reads.copy()
            self.log.pass_renewals('abcd')
            read = self.log.reads - before
            self.see_unchanged(said, rows, 'abc')
            self.assertIsNone(self.members['d'][0].assignment())
            self.assertLess(read[new], 3 * read[one] + 10)
            self.assertTrue(self.viewed(self.log).show().is_well)
            operations.resume(self.log)
            wait_until(lambda: self.last_token_of('d') == self.last_token())
            for name in 'abcd':
                self.leave(name)

    def test_the_only_node_comes_back(self) -> None:
        self.all_come('a')
        operations.pause(self.log)
        self.log.let_die('a')
        rows = self.log.rows[:]
        self.log.cut.clear()
        self.log.pass_renewals('a')
        self.assertEqual((self.log.rows, self.works()), (rows, {}))
        operations.resume(self.log)
        wait_until(lambda: self.is_shared('a'))


class EagerPauses(Pauses):
    """The same of an eager group."""

    OPENING = EAGER


class Operated(Running):
    """Members of a cooperative group."""

    def see_counts_of_stops(self, said: Said, names: str) -> None:
        """Each of these, and no other one, stopped work on one partition since then."""
        stopped = {name: len(partitions) for name, partitions in self.stopped_since(said).items()}
        self.assertEqual(stopped, dict.fromkeys(names, 1))

    def test_a_pause_in_a_change(self) -> None:
        """Those that have stopped a part can't go on there, so that change is completed first. The next one waits."""
        self.all_come('abc')
        slow, said = self.members['a'][1], self.said()
        slow.may_stop.clear()
        self.come('d')
        end = Promise(1, len(self.log.rows))
        wait_until(lambda: 'd' in self.log.holders and all(self.log.holders[name].promise == end for name in 'bc'))
        self.assertEqual([len(self.log.holders[name].kept) for name in 'bc'], [3, 3])
        operations.pause(self.log)
        shown = self.viewed(self.log)
        wait_until(lambda: shown.show().waits)
        group = shown.show()
        self.assertEqual((list(group.waits), group.is_paused, group.is_frozen), (['a'], True, False))
        told = '; paused once the change under way is complete; 3 of 12 partitions move; not stopped yet: a on '
        self.assertTrue(group.more_text.startswith(told), group.more_text)
        slow.may_stop.set()
        wait_until(lambda: self.is_shared('abcd'))
        self.see_counts_of_stops(said, 'abc')
        rows, said = self.log.rows[:], self.said()
        self.assertEqual((shown.show().is_frozen, shown.show().waits), (True, {}))
        self.log.let_die('d')
        self.log.pass_renewals('abc')
        self.assertEqual((self.log.rows, set(self.stopped_since(said))), (rows, {'d'}))
        operations.resume(self.log)
        wait_until(lambda: self.is_shared('abc'))
        self.assertEqual(set(self.stopped_since(said)), {'d'})

    def test_a_pause_before_anybody_has_promised(self) -> None:
        """Nobody has to stop for a drain that comes in it, nor for one that all have heard of, and not yet promised
        anything for; and who has stopped begins again."""
        self.all_come('abcd')
        said, slow = self.said(), self.members['c'][1]
        slow.may_stop.clear()
        operations.drain(self.log, 'c', False)
        wait_until(lambda: self.members['c'][0].assignment() is None)
        operations.pause(self.log)
        rows = self.log.rows[:]
        self.log.pass_renewals('abd')
        self.assertEqual((self.log.rows, self.stopped_since(said)), (rows, {}))
        slow.may_stop.set()
        wait_until(lambda: 'c' not in self.log.holders)
        self.log.pass_renewals('abd')
        self.assertEqual((self.log.rows, set(self.stopped_since(said))), (rows, {'c'}))
        operations.resume(self.log)
        wait_until(lambda: self.is_shared('abd'))
        self.assertEqual(set(self.stopped_since(said)), {'c'})

    # A drain.

    def test_a_drain(self) -> None:
        """It stops nothing on nodes that lose nothing, and is over once the node holds no lease; `undrain` takes from
        each of the others what it gives back."""
        self.all_come('abcd')
        said, owned, slow = self.said(), self.works(), self.members['c'][1]
        slow.may_stop.clear()
        operations.drain(self.log, 'c', False)
        wait_until(lambda: self.members['c'][0].assignment() is None)
        self.assertFalse(operations.has_left(self.log, 'c', 0.05))
        shown = self.viewed(self.log)
        wait_until(lambda: shown.show().waits)
        self.assertEqual(shown.show().stops, {'c': owned['c']})
        self.assertEqual(self.works(), owned)
        slow.may_stop.set()
        self.assertTrue(operations.has_left(self.log, 'c', PATIENCE))
        wait_until(lambda: self.is_shared('abd'))
        self.assertEqual(self.stopped_since(said), {'c': list(owned['c'])})
        self.assertTrue(shown.show().is_well)
        said = self.said()
        operations.undrain(self.log, 'c')
        wait_until(lambda: self.is_shared('abcd'))
        self.see_counts_of_stops(said, 'abd')

    # The end of an epoch.

    def ended_slowly(self, request: Callable[[float], Opening]) -> None:
        """An epoch of three partitions ends while a node stops slowly: all stop all, and it is named, and no other;
        also not the one that owns nothing."""
        self.all_come('abc')
        self.come('d')
        wait_until(lambda: self.last_token_of('d') == self.last_token())
        owned, said = self.works(), self.said()
        late = next(name for name in 'abcd' if name in owned)
        self.assertEqual(len(owned), 3)
        self.members[late][1].may_stop.clear()
        with self.assertRaisesRegex(operations.NotEnded, 'epoch 1 has not ended yet; it waits for'):
            request(0.01)
        end = Promise(1, len(self.log.rows))
        idle = {name for name in owned if name != late}
        wait_until(lambda: all(self.log.holders[name].is_idle(end) for name in idle))
        with self.assertRaisesRegex(operations.NotEnded, f'^epoch 1 has not ended yet; it waits for {late}$'):
            request(0.01)
        shown = self.viewed(self.log)
        group = shown.show()
        self.assertEqual((group.stops, group.moves), ({late: owned[late]}, 0))
        self.assertEqual(self.seen_doing(group, Doing.STOPPING), {each: (late, None) for each in owned[late]})
        self.members[late][1].may_stop.set()
        self.assertEqual((request(PATIENCE).epoch, self.log.opening().is_cooperative), (2, True))
        wait_until(lambda: sorted(sum(self.works().values(), ())) == list(range(3)) and shown.show().is_well)
        self.assertEqual(self.stopped_since(said), {name: list(works) for name, works in owned.items()})

    def test_a_resize(self) -> None:
        self.start_over(3)
        settings = self.log.opening().settings
        names = tuple(reversed(settings.names))
        self.ended_slowly(lambda seconds: operations.resize(self.log, Settings(settings.setup, names), seconds))

    def test_a_switchover(self) -> None:
        """No partition moves, and that node leads."""
        self.start_over(3)
        before: dict[str, tuple[int, ...]] = {}

        def lead(seconds: float) -> Opening:
            before.update(self.works())
            return operations.lead(self.log, 'a', seconds)

        self.ended_slowly(lead)
        wait_until(lambda: self.is_shared(sorted(before)))
        self.assertEqual((self.works(), self.viewed(self.log).show().coordinator), (before, 'a'))


class Stored(Viewed):
    """What a command finds in a store."""

    def test_a_request_in_a_pause(self) -> None:
        """A request that came before the pause waits for its end, and the command says so; nobody has to stop."""
        log = MemoryLog(COOPERATIVE)
        sessions = share_out(log, *'ab')
        self.assertTrue(log.ask(COOPERATIVE.requested(COOPERATIVE.settings), 1))
        self.assertEqual(list(self.viewed(log).show().waits), ['a', 'b'])
        operations.pause(log)
        with self.assertRaisesRegex(operations.NotEnded, '^epoch 1 has not ended yet; the group is paused$'):
            operations.end_epoch(log, COOPERATIVE, 0.0)
        group = self.viewed(log).show()
        self.assertEqual((group.waits, group.is_frozen), ({}, True))
        self.assertEqual({each.doing for each in group.partitions}, {Doing.WORKING})
        end = Promise(1, len(log.rows))
        self.assertTrue(log.promise('a', sessions['a'], end, (0,)))
        with self.assertRaisesRegex(operations.NotEnded, 'it waits for a, b$'):
            operations.end_epoch(log, COOPERATIVE, 0.0)
        self.assertTrue(log.promise('a', sessions['a'], end))
        with self.assertRaisesRegex(operations.NotEnded, 'it waits for b$'):
            operations.end_epoch(log, COOPERATIVE, 0.0)

    def test_nobody_is_there(self) -> None:
        """The command ends the epoch itself, and the group stays cooperative."""
        log = MemoryLog(COOPERATIVE)
        for name, session in share_out(log, *'ab').items():
            log.release(name, session)
        settings = Settings(COOPERATIVE.settings.setup, tuple('dcba'))
        opening = operations.resize(log, settings, PATIENCE)
        self.assertEqual(
            (opening.epoch, opening.is_cooperative, opening.names, log.holders), (2, True, tuple('dcba'), {})
        )
        self.assertEqual(set(opening.table), {3, 4})
