"""The history of a group: the log of an epoch as a trace, also from a log of the form before this one.

In that form rows weren't compressed, and some columns and keys had other names. No current member may share such a log.
"""
from __future__ import annotations

import contextlib
import zlib
from collections.abc import Mapping, Sequence

from .display import time_text
from .encoding import BEFORE
from .etcd import EtcdLog, Keys
from .etcd_client import Pair
from .shared_log import Log
from .sqlite import SqliteLog, calls


def trace(log: Log, epoch: int | None, has_times: bool = False) -> Sequence[str]:
    """The trace of an epoch, or of the current one, from its header on; or the same with times. Closes the log."""
    with contextlib.closing(log):
        number = log.epochs()[-1] if epoch is None else epoch
        rows = [log.opening(number).header, *log.read(number, 0)]
        return timed(rows, log.times(number)) if has_times else rows


def timed(rows: Sequence[str], times: Mapping[int, int | None]) -> list[str]:
    """The rows of a trace, each after the time of its append, if that is kept, and a comma."""
    lines, time = [], ''
    for offset, row in enumerate(rows, -1):
        time = time_text(times[offset]) if offset in times else time
        lines.append(f'{time},{row}')
    return lines


# The tables of the form before, with the names of today.
VIEWS = """
create temp view epochs as select epoch, opening, wish as requested, count from main.epochs;
create temp view log as select epoch, place as offset, compressed(cast(rows as blob)) as rows, time from main.log;
create temp view changes as select name, lives as sessions, promises, orders as maintenance from main.changes;
"""


class OlderFile(SqliteLog):
    """A log of the form before in a file. Only its epochs, openings, rows and times can be read."""

    form = BEFORE

    def _open(self, kind: str) -> None:
        with calls(self.path):
            self._file.create_function('compressed', 1, zlib.compress)
            self._file.executescript(VIEWS)
        super()._open(kind)


class OlderKeys(Keys):
    """The keys of a log of the form before, as far as they are read."""

    def __init__(self, prefix: str) -> None:
        super().__init__(prefix)
        self.offset, self.logs = self.root + b'place', self.root + b'log/'


class OlderEtcd(EtcdLog):
    """A log of the form before in etcd. Only its epochs, openings, rows and times can be read."""

    form, KEYS = BEFORE, OlderKeys

    def _append_of(self, epoch: int, pair: Pair) -> tuple[int, bytes]:
        offset, rows = super()._append_of(epoch, pair)
        return offset, zlib.compress(rows)
