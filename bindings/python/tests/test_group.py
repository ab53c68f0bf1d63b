"""Tests of setups and their headers, of verdicts on traces, and of tables."""
from __future__ import annotations

import threading
import unittest
from collections.abc import Callable
from pathlib import Path

import bully
from bully import Setup, Verdict, VerdictKind, check, plan_table
from .traces import EXAMPLES, LARGEST, ONE, TWO


class Traces(unittest.TestCase):
    """`check` judges traces as `docs/FORMATS.md` and the files of `examples/` have it."""

    def test_examples(self) -> None:
        self.assertGreater(len(EXAMPLES), 10)
        for path in EXAMPLES:
            with self.subTest(path=path.name):
                wanted = path.with_suffix('.out').read_text().splitlines()[0]
                self.assertEqual(str(check(path.read_bytes())), wanted)

    def test_verdict_parts(self) -> None:
        refused = check(b'bully,1,2,2\ncrash,1\n')
        self.assertEqual(refused, Verdict(VerdictKind.REFUSED, 2, bully.IsDown))
        self.assertFalse(refused.is_lawful)
        self.assertTrue(check(b'bully,1,2,2\n').is_lawful)

    def test_text(self) -> None:
        """A text is judged as its bytes are, also one that has no bytes in UTF-8."""
        self.assertEqual(str(check(ONE + 'recover,3')), 'refused 2 BadNode')
        for text in (ONE + 'recover,\xff', ONE + 'recover,\udcff'):
            with self.assertRaises(bully.BadRow) as caught:
                check(text)
            self.assertEqual(caught.exception.row, 2)
            self.assertIn('row 2', str(caught.exception))

    def test_too_many_rows(self) -> None:
        full = b'bully,1,1,1\n' + b'saw,1,down,-\n' * 1_000_000
        self.assertEqual(str(check(full)), 'lawful 0')
        with self.assertRaises(bully.TooManyRows) as caught:
            check(full + b'anything')
        self.assertEqual(caught.exception.row, 1_000_002)

    def test_kinds_of_texts(self) -> None:
        text = b'bully,1,2,2\nsaw,2,down,-\n'
        kinds: list[str | bytes | bytearray | memoryview] = [text, bytearray(text), memoryview(text), text.decode()]
        for same in kinds:
            self.assertEqual(str(check(same)), 'lawful 0')
        for wrong in (Path('alone.csv'), None, 7, [98]):
            with self.subTest(wrong=wrong), self.assertRaises(TypeError):
                check(wrong)  # type: ignore[arg-type]

    def test_threads(self) -> None:
        """Traces are judged in several threads at once."""
        trace = b'bully,1,1,1\n' + b'recover,1\ncrash,1\n' * 50_000
        told: list[str] = []
        threads = [threading.Thread(target=lambda: told.append(str(check(trace)))) for _ in range(4)]
        for thread in threads:
            thread.start()
        for thread in threads:
            thread.join()
        self.assertEqual(told, ['lawful 100000'] * 4)


class Tables(unittest.TestCase):
    """`plan_table` plans as `docs/ALGORITHM.md` and `docs/COMMANDS.md` have it."""

    weighted = Setup(3, 7, weights=(1, 2, 1))

    def test_plans(self) -> None:
        old = [3, 3, 3, 2, 2, 2, 2]
        self.assertEqual(plan_table(self.weighted, [1, 2, 3]), ((1, 1, 2, 2, 2, 2, 3), 7))
        self.assertEqual(plan_table(self.weighted, [1, 2, 3], old), ((3, 3, 1, 2, 2, 2, 2), 1))
        self.assertEqual(plan_table(self.weighted, {3, 1, 2}, old).moves, 1)
        self.assertEqual(plan_table(Setup(3, 5), [1, 2], [1, 2, 2, 2, 3]), ((1, 2, 2, 2, 1), 1))
        self.assertEqual(plan_table(Setup(3, 5), [2, 1, 2], (1, 2, 2, 2, 3)).owners, (1, 2, 2, 2, 1))
        self.assertEqual(plan_table(Setup(1, 2), [1]), ((1, 1), 2))

    def test_largest(self) -> None:
        plan = plan_table(LARGEST, range(1, 1025))
        self.assertEqual(plan.owners, tuple(node for node in range(1, 1025) for _ in range(4)))
        self.assertEqual(plan_table(LARGEST, range(1, 1025), plan.owners), (plan.owners, 0))

    def test_no_owners(self) -> None:
        """An empty table isn't None."""
        with self.assertRaises(bully.TableLength):
            plan_table(self.weighted, [1], [])

    def test_numbers_that_do_not_fit(self) -> None:
        old = [1] * 7
        wanted: list[Callable[[], object]] = [
            lambda: plan_table(Setup(65_536 + 3, 7), [1]),
            lambda: plan_table(Setup(-1, 7), [1]),
            lambda: plan_table(Setup(3, 65_536 + 7), [1]),
            lambda: plan_table(Setup(3, -7), [1]),
            lambda: plan_table(Setup(3, 7, 2**32 + 9), [1]),
            lambda: plan_table(Setup(3, 7, -1), [1]),
            lambda: plan_table(Setup(3, 7, weights=(1, 65_537, 1)), [1]),
            lambda: plan_table(Setup(3, 7, weights=(1, -1, 1)), [1]),
            lambda: plan_table(Setup(3, 7), [65_537]),
            lambda: plan_table(Setup(3, 7), [-1]),
            lambda: plan_table(Setup(3, 7), [1], old[1:] + [65_537]),
            lambda: plan_table(Setup(3, 7), [1], old[1:] + [-65_535]),
            lambda: plan_table(Setup(10**30, 7), [1]),
        ]
        for place, call in enumerate(wanted):
            with self.subTest(place=place), self.assertRaisesRegex(ValueError, r'must be from 0 to \d+$'):
                call()

    def test_wrong_kinds(self) -> None:
        wanted: list[Callable[[], object]] = [
            lambda: plan_table(Setup('3', 7), [1]),  # type: ignore[arg-type]
            lambda: plan_table(Setup(3, 7.0), [1]),  # type: ignore[arg-type]
            lambda: plan_table(Setup(3, 7), ['1']),  # type: ignore[list-item]
            lambda: plan_table(Setup(3, 7), 1),  # type: ignore[arg-type]
            lambda: plan_table(Setup(3, 7), [None]),  # type: ignore[list-item]
            lambda: plan_table(Setup(3, 7), [1], '1111111'),  # type: ignore[arg-type]
        ]
        for place, call in enumerate(wanted):
            with self.subTest(place=place), self.assertRaises(TypeError):
                call()


class HeaderRows(unittest.TestCase):
    """`Setup.header` is the header of `docs/FORMATS.md`: of version 1 if that can tell the setup, and else of version
    2."""

    wanted = [
        (TWO, 'bully,1,2,3'),
        (Setup(65, 256), f'bully,2,65,256,{"1 " * 64}1,clear'),
        (Setup(2, 2, weights=(1000, 10), keeps=True), 'bully,2,2,2,1000 10,keep'),
        (Setup(1024, 4096, weights=(1000,) * 1024), f'bully,2,1024,4096,{"1000 " * 1023}1000,clear'),
    ]

    def test_headers(self) -> None:
        for setup, header in self.wanted:
            with self.subTest(header=header[:40]):
                self.assertEqual(setup.header(), header)
                self.assertEqual(str(check(header.encode())), 'lawful 0')
        self.assertEqual(LARGEST.detailed_header(), f'bully,3,1024,4096,{"1 " * 1023}1,keep')

    def test_numbers_that_do_not_fit(self) -> None:
        wanted: list[tuple[type, Setup]] = [
            (ValueError, Setup(65_538, 3)),
            (ValueError, Setup(2, -1)),
            (ValueError, Setup(2, 3, 2**32)),
            (ValueError, Setup(2, 3, weights=(1, 65_537))),
            (TypeError, Setup('2', 3)),  # type: ignore[arg-type]
        ]
        for fault, setup in wanted:
            with self.subTest(setup=setup), self.assertRaises(fault):
                setup.header()
            with self.subTest(setup=setup, version=3), self.assertRaises(fault):
                setup.detailed_header()
