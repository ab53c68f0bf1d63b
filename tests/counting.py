"""Counts what is tried, and ends a test that hangs."""
from __future__ import annotations

import os
import signal
import sys
import unittest
from collections.abc import Sequence
from pathlib import Path
from typing import NoReturn

from counts import Counts

IDLE_MAX, LEAST_USED = (
    60,
    3.0,
)  # seconds for which a test may wait, and how many of a processor one takes meanwhile that does something
CLEANUP_MAX = 5  # seconds for each clean-up of a test that hung


def used() -> float:
    """How many seconds of a processor this process took, with those that it began and has waited for."""
    times = os.times()
    return times.user + times.system + times.children_user + times.children_system


class CountingResult(unittest.TextTestResult):
    """Counts what was tried: each part of a test by itself, and the rest of the test as one more. A test that hangs
    fails, and is the last one of its module: what it hangs by others may hang by, too."""

    passed = 0

    def startTest(self, test: unittest.TestCase) -> None:
        super().startTest(test)
        self.used = used()
        signal.signal(signal.SIGALRM, self.look)
        signal.setitimer(signal.ITIMER_REAL, IDLE_MAX, IDLE_MAX)

    def look(self, number: int, frame: object) -> None:
        """Ends a test, or its clean-up, that only waits. The traceback tells for what."""
        before, self.used = self.used, used()
        if self.used - before < LEAST_USED or self.shouldStop:
            self.stop()
            signal.setitimer(signal.ITIMER_REAL, CLEANUP_MAX, CLEANUP_MAX)
            raise AssertionError(f'it does not end, and only waits, for {IDLE_MAX} s')

    def stopTest(self, test: unittest.TestCase) -> None:
        signal.setitimer(signal.ITIMER_REAL, 0)
        super().stopTest(test)

    def addSuccess(self, test: unittest.TestCase) -> None:
        super().addSuccess(test)
        self.passed += 1

    def addSubTest(self, test: unittest.TestCase, subtest: unittest.TestCase, err: object) -> None:
        super().addSubTest(test, subtest, err)  # type: ignore[arg-type]
        self.passed += err is None

    @property
    def failed(self) -> int:
        return len(self.failures) + len(self.errors)


def run_folder(folder: Path, package: str, counts: Counts, names: Sequence[str] = ()) -> None:
    """Runs the tests of each module `test_NAME.py` of the folder, which is that package; of those of these names, if
    some are told."""
    there = sorted(path.stem for path in folder.glob('test_*.py'))
    for name in [name for name in there if not names or name in names]:
        tests = unittest.defaultTestLoader.loadTestsFromName(f'{package}.{name}')
        result = unittest.TextTestRunner(stream=sys.stdout, resultclass=CountingResult).run(tests)
        assert isinstance(result, CountingResult)
        counts.passed, counts.failed = counts.passed + result.passed, counts.failed + result.failed
        for test, why in result.skipped:
            counts.skip(str(test), why)
    for name in sorted({*names} - {*there}):
        counts.hold(False, f'there is no {name}')


def leave(status: int) -> NoReturn:
    """Ends this process. A test that failed may have left threads, for which nobody waits."""
    sys.stdout.flush()
    os._exit(status)
