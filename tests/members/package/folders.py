"""Tests with a folder of their own."""
from __future__ import annotations

import contextlib
import os
import sqlite3
import tempfile
import unittest
import zlib
from collections.abc import Iterator
from pathlib import Path

from bully.shared_log import Log
from bully.sqlite import SqliteLog
from ..steps import OPENING


@contextlib.contextmanager
def changed(path: Path) -> Iterator[sqlite3.Connection]:
    """The file of a log, which somebody changes. Rows are written by `packed(ROWS)`, and read by `unpacked(ROWS)`."""
    with contextlib.closing(sqlite3.connect(path, isolation_level=None)) as file:
        file.create_function(
            'packed', 1, lambda rows: zlib.compress(rows if isinstance(rows, bytes) else rows.encode())
        )
        file.create_function('unpacked', 1, lambda rows: zlib.decompress(rows).decode())
        yield file


class WithFolder(unittest.TestCase):
    """Tests with a folder of their own."""

    def setUp(self) -> None:
        folder = tempfile.TemporaryDirectory()
        self.addCleanup(folder.cleanup)
        self.folder = Path(folder.name)

    def planted(self) -> Path:
        """From now on the working directory has modules of somebody else. The file that each of them makes once it is
        loaded."""
        there, loaded = self.folder / 'of others', self.folder / 'loaded'
        (there / 'bully').mkdir(parents=True)
        for name in ('queue', 'json', 'socket', 'runpy', 'sitecustomize', 'bully_member', 'bully/__init__'):
            (there / f'{name}.py').write_text(f"open({str(loaded)!r}, 'a').write(__name__)\n")
        self.addCleanup(os.chdir, os.getcwd())
        os.chdir(there)
        return loaded


class InFolder(WithFolder):
    """The same, with a log in a file."""

    def setUp(self) -> None:
        super().setUp()
        self.path = self.folder / 'group.db'

    def opened(self) -> SqliteLog:
        return self.closing(SqliteLog(self.path))

    def closing(self, log: SqliteLog) -> SqliteLog:
        self.addCleanup(log.close)
        return log


class WithLogs(WithFolder):
    """The same, with a log in a file for each that is made."""

    def setUp(self) -> None:
        super().setUp()
        self.paths: list[Path] = []

    @property
    def path(self) -> Path:
        """The last one that was made, or is to be made."""
        return self.paths[-1] if self.paths else self.folder / 'group.db'

    def created(self) -> SqliteLog:
        self.paths.append(self.folder / f'group{len(self.paths)}.db')
        return self.closing(SqliteLog.create(self.path, OPENING))

    def opened(self, patience: float = 1.0) -> SqliteLog:
        return self.closing(SqliteLog(self.path, patience))

    def handle(self, log: Log) -> Log:
        assert isinstance(log, SqliteLog)
        return self.closing(SqliteLog(log.path, 20.0))

    def closing(self, log: SqliteLog) -> SqliteLog:
        self.addCleanup(log.close)
        return log
