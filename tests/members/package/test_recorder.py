"""Tests of the record of units of work, by what workers say of a partition: who overlaps, and who has an old token."""
from __future__ import annotations

import unittest
from collections.abc import Sequence

from ..recorder import Record, Unit

Told = tuple[str, int, int, int]  # what a worker says, at a moment: its number, and a token

# What workers say, and which faults that is.
CASES: dict[str, tuple[Sequence[Told], Sequence[str]]] = {
    'one after the other': ([('begin', 1, 10, 5), ('end', 1, 20, 0), ('begin', 2, 30, 6)], []),
    'again by one worker': ([('begin', 1, 10, 5), ('end', 1, 20, 0), ('begin', 1, 20, 5)], []),
    'two at once': ([('begin', 1, 10, 5), ('begin', 2, 20, 6)], ['overlap']),
    'two at once by one token': ([('begin', 1, 10, 5), ('begin', 2, 20, 5)], ['overlap']),
    'asked for before the other was over': (
        [('begin', 1, 10, 5), ('end', 1, 30, 0), ('begin', 2, 20, 6)], ['overlap'],
    ),
    'the same of one that ended': (
        [('begin', 1, 10, 5), ('end', 1, 30, 0), ('gone', 1, 0, 0), ('begin', 2, 20, 6)], ['overlap'],
    ),
    'after a worker that ended': ([('begin', 1, 10, 5), ('gone', 1, 0, 0), ('begin', 2, 20, 6)], []),
    'by an old token': ([('begin', 1, 10, 6), ('end', 1, 20, 0), ('begin', 2, 30, 5)], ['old']),
    'by an old token at once': ([('begin', 1, 10, 6), ('begin', 2, 20, 5)], ['old']),
}  # fmt: skip


def faults_of(told: Sequence[Told]) -> list[str]:
    """The kinds of faults that a record finds."""
    record, found = Record(), []
    for word, worker, moment, token in told:
        if word == 'begin':
            found += [fault.kind for fault in record.begin(worker, Unit('0', token, f'node of {worker}', moment))[1]]
        elif word == 'end':
            record.end(worker, moment)
        else:
            record.gone(worker)
    return found


class Records(unittest.TestCase):
    def test_each(self) -> None:
        """Each fault is found, and nothing else is."""
        for case, (told, faults) in CASES.items():
            with self.subTest(case):
                self.assertEqual(faults_of(told), faults)
