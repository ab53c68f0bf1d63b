"""How wrong bodies are tried: which go into one check, and which open goals refuse them."""
import tempfile
import unittest
from contextlib import redirect_stdout
from io import StringIO
from pathlib import Path
from unittest import mock

from counts import Counts
from stand_in import program
from wrong_bodies import Edit, function_at, read_edit

SOURCE = """impl Slot {
    pub fn take(&mut self) -> bool {
        let held = self.held;
        self.held = false;
        held
    }

    fn drop_it(&mut self) {
        self.held = false && true;
    }
}

pub const MOST: u16 = 3;
"""
SAID = """fn slots::slot::Slot::held: proved
fn slots::slot::Slot::take: no proof: expected answers in ./proofs/slot/Slot/take/Answers.antt; \
`search` did not prove `returns-clause-emptied`, `returns-clause-held`
./proofs/slot/Slot/drop_it/Answers.antt:17:5: error: `returns-clause-left`: it is not so
./proofs/slot/Slot/fill/Answers.antt:3:5: error: `returns-in-Some`: it is not so
./proofs/slot/Slot/empty/Answers.antt:3:5: error: `returns`: a record has no field `gone`
note: src/slot.rt:14:9: it is not proved that what the function ensures holds when it returns (`returns-then-held`)
note: a goal may be false even if its line does not say so
fn slots::slot::Slot::lend: not proved
fn slots::slot::Slot::lent: not proved
only=3 proved=1
"""


class Edits(unittest.TestCase):
    def setUp(self) -> None:
        room = tempfile.TemporaryDirectory()
        self.addCleanup(room.cleanup)
        self.crate = Path(room.name, 'slots')
        for folder in ('src', 'wrong-bodies'):
            (self.crate / folder).mkdir(parents=True)
        (self.crate / 'src' / 'slot.rt').write_text(SOURCE)
        self.tried = program('edits')

    def edit(self, first: str, *pairs: str) -> Edit:
        path = self.crate / 'wrong-bodies' / f'it_{len(list((self.crate / "wrong-bodies").iterdir()))}.edit'
        path.write_text(
            '\n'.join(
                [
                    f'# {first}',
                    'file: src/slot.rt',
                    *(f'{word}: {text}' for word, text in zip(('old', 'new') * 9, pairs)),
                ]
            )
        )
        return read_edit(path)

    def is_refused(self, first: str) -> bool:
        return bool(self.tried.refuses(self.edit(first), self.tried.open_goals(SAID)))

    def test_an_edit_is_refused_by_an_open_goal_of_the_clause_that_it_names_and_by_no_other(self) -> None:
        for first in (
            'Slot::take',
            'Slot::take (emptied)',
            'take (held)',
            'Group::close (all), in Slot::take (held)',
            'Slot::new, in Slot',
            'drop_it',
            'fill (filled)',
            'lend',
        ):
            self.assertTrue(self.is_refused(first), first)
        for first in (
            'Slot::take (empt)',
            'Slot::drop_it (emptied)',
            'Slot::held',
            'Group::close',
            'Slot::take (held), in drop_it (held)',
            'Lot::take',
            'Slot::empty',
            'lent',
        ):
            self.assertFalse(self.is_refused(first), first)

    def test_what_the_prover_did_not_sum_up_refuses_nothing(self) -> None:
        edit = self.edit('Slot::take (emptied)', '&& true', '')
        for said, wanted in ((SAID, '1 passed, 0 failed'), (SAID.rpartition('only=')[0], '0 passed, 1 failed')):
            counts = Counts()
            with mock.patch.object(self.tried, 'check', return_value=said), mock.patch.object(
                Edit, 'where', 'it'
            ), redirect_stdout(StringIO()):
                self.tried.try_batch(None, {}, 'built', [edit], '', counts)
            self.assertEqual(counts.last(), wanted)

    def test_edits_of_one_check_leave_each_other_s_goals_alone(self) -> None:
        of_take, of_drop = self.edit('Slot::take', 'let held = self.held;', ''), self.edit(
            'Slot::drop_it', '&& true', ''
        )
        self.assertTrue(self.tried.are_apart(of_take, of_drop))
        for other in ('Slot::take (held)', 'Slot::new, in Slot', 'Group::close, in take'):
            self.assertFalse(self.tried.are_apart(of_take, self.edit(other, '&& true', '')), other)
        self.assertFalse(self.tried.are_apart(of_take, self.edit('Slot::close', 'let held = self.held;', '')))
        self.assertFalse(self.tried.are_apart(of_take, self.edit('Slot::close', 'u16 = 3', 'u16 = 4')))
        self.assertEqual(
            [
                len(batch)
                for batch in self.tried.batches([of_take, of_drop, self.edit('Slot::take', 'self.held = false;', '')])
            ],
            [2, 1],
        )
        doubling, edited = self.edit('drop_it', '&& true', 'let held'), self.edit('Slot::take', 'let held', 'let left')
        self.assertTrue(self.tried.are_apart(doubling, edited))
        for tried, counts in (([doubling, edited], [1, 1]), ([edited, doubling], [2])):
            self.assertEqual([len(batch) for batch in self.tried.batches(tried)], counts)

    def test_a_text_lies_in_the_function_that_has_it(self) -> None:
        for text, name in (('let held', 'take'), ('&& true', 'drop_it'), ('u16 = 3', ''), ('impl Slot', '')):
            self.assertEqual(function_at(SOURCE, text), name)

    def test_an_edit_fits_if_each_text_stands_once_in_what_those_before_it_made(self) -> None:
        self.assertIsNone(self.edit('take', '&& true', '|| false', '|| false', '').applied({}))
        for pairs, why in (
            ((), 'it edits nothing'),
            (('self.held', ''), 'a text stands 3 times'),
            (('strange', ''), 'a text stands 0 times'),
        ):
            self.assertIn(why, str(self.edit('take', *pairs).applied({})))
        edit = self.edit('take', '&& true', '')
        self.assertEqual(
            edit._replace(changes=(edit.changes[0]._replace(file='src/it.rt'),)).applied({}), 'there is no src/it.rt'
        )


if __name__ == '__main__':
    unittest.main()
