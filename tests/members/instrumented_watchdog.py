"""The watchdog of a member whose acts are written down: `bully.watchdog`, which also writes down the workers that it
starts, what these are told and answer, the ends that it reports, and that a member is gone before its lease is released
(`premises.py`).
"""
from __future__ import annotations

import json
import os
import sys
import types
from collections.abc import Sequence
from pathlib import Path
from typing import Any

if __name__ == '__main__':  # `bully` without its __init__, as in the watchdog itself
    TESTS = Path(__file__).resolve().parents[1]
    alone = types.ModuleType('bully')
    alone.__path__ = [str(TESTS.parent / 'bindings' / 'python' / 'bully')]
    sys.modules['bully'] = alone
    sys.path.append(str(TESTS))

from bully import releasing, watchdog

from members.instrumentation import Pen, living_below, moment

RELEASE = releasing.release
pen: Pen  # of this process, once it runs
keepers: list[InstrumentedKeeper] = []  # the last one is that of this process, if it is one


class InstrumentedWorker(watchdog.Worker):
    """A worker whose start is written down, and what it is told and answers."""

    def __init__(self, words: Sequence[str], environment: list[bytes], talks: bool) -> None:
        super().__init__(words, environment, talks)
        told = dict(entry.decode().split('=', 1) for entry in environment if entry)
        keeper, partitions = keepers[-1], told.get('BULLY_PARTITIONS', '').split()
        keeper.processes[keeper.begins] = self.process
        work = {'token': int(told.get('BULLY_TOKEN', 0)), 'partitions': list(map(int, partitions))}
        pen.note('runs', keeper.asked, process=self.process, until=keeper.until, **work)

    def tell(self, line: bytes) -> None:
        if self.lines is not None:  # else it takes none
            keeper, told = keepers[-1], json.loads(line)
            at = keeper.asked if 'begin' in told else moment()
            pen.note('tells', at, process=self.process, until=keeper.until, **told)
        super().tell(line)

    def answers_stops(self) -> int:
        count = super().answers_stops()
        for _ in range(count):
            pen.note('heard', moment(), process=self.process)
        return count


class InstrumentedKeeper(watchdog.Keeper):
    """A keeper that notes when it was asked to begin, before it looks at its clock."""

    asked, begins = 0, b''

    def __init__(self, *arguments: Any) -> None:
        super().__init__(*arguments)
        self.processes: dict[bytes, int] = {}  # those that it has started, by their names
        keepers.append(self)
        pen.after_fork()

    def begin(self, name: bytes, words: bytes) -> None:
        self.asked, self.begins = moment(), name
        super().begin(name, words)

    def say(self, word: str, *more: int, name: bytes = b'') -> None:
        process = self.processes.get(name or self.name)
        if process is not None and word in ('stopped', 'lost', 'ended'):
            pen.note('says', moment(), word=word, process=process, there=living_below(os.getpid()))
        super().say(word, *more, name=name)


def release(told: bytes, seconds: float) -> None:
    """Releases the lease of a member that is gone."""
    pen.note('gone', moment(), there=living_below(os.getpid()))
    RELEASE(told, seconds)


if __name__ == '__main__':
    pen = Pen()
    setattr(watchdog, 'Worker', InstrumentedWorker)
    setattr(watchdog, 'Keeper', InstrumentedKeeper)
    setattr(releasing, 'release', release)
    watchdog.main()
