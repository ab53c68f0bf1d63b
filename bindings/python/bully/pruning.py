"""A thread beside a member that prunes old epochs."""
from __future__ import annotations

import logging
import threading
from contextlib import suppress

from .member import Member
from .shared_log import Log, LogError

_logger = logging.getLogger('bully')


class Pruning(threading.Thread):
    """Prunes old epochs while the node owns partition 0, so that exactly one member does, whichever runs."""

    def __init__(self, log: Log, member: Member, keep: int) -> None:
        """Over a log of its own, until `close`. So many epochs stay."""
        super().__init__(name='bully prune', daemon=True)
        self._log, self._member, self._keep, self._ends = log, member, keep, threading.Event()

    def run(self) -> None:
        done = 0  # the epoch in which it last pruned
        while not self._ends.wait(self._member.ttl):
            owned = self._member.assignment()
            epoch = owned.token.epoch if owned is not None and 0 in owned.partitions else 0
            if epoch > done and self._prunes(epoch):
                done = epoch

    def _prunes(self, epoch: int) -> bool:
        try:
            self._log.prune(epoch + 1 - self._keep)
        except LogError as fault:
            _logger.warning('old epochs were not pruned: %s', fault)
            return False
        return True

    def close(self) -> None:
        self._ends.set()
        with suppress(RuntimeError):  # it hasn't started, if a signal came early
            self.join()
        self._log.close()
