"""Tests of members that were away while their epoch ended."""
from __future__ import annotations

import unittest

from bully.memory import MemoryLog
from bully.shared_log import Log
from bully.sqlite import SqliteLog
from .away_laws import Away
from .folders import InFolder


class AwayInMemory(Away, unittest.TestCase):
    def created(self) -> Log:
        return MemoryLog(self.AWAY)

    def handle(self, log: Log) -> Log:
        return log


class AwayInFile(Away, InFolder):
    def created(self) -> Log:
        self.path = self.folder / f'group{len(list(self.folder.iterdir()))}.db'
        return self.closing(SqliteLog.create(self.path, self.AWAY))

    def handle(self, log: Log) -> Log:
        return self.opened()
