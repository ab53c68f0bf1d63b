"""What a member reports to systemd, or another service manager, by sd_notify(3): that it is ready, its state, and that
it isn't stuck."""
from __future__ import annotations

import os
import socket
import threading
from contextlib import suppress

from .clocks import seconds_of_boot
from .member import Member
from .worker import Workers

BEAT = 1.0  # seconds between two reports, at most


class Service(threading.Thread):
    """A thread that reports it, if there is such a manager."""

    def __init__(self, member: Member, workers: Workers) -> None:
        """Removes the manager's variables from the environment: they are for this process alone."""
        super().__init__(name='bully service', daemon=True)
        self._member, self._workers, self._ends = member, workers, threading.Event()
        address, watchdog = os.environ.pop('NOTIFY_SOCKET', ''), os.environ.pop('WATCHDOG_USEC', '')
        self._address = f'\0{address[1:]}' if address.startswith('@') else address
        self._beat = min(BEAT, int(watchdog) / 3_000_000) if watchdog.isdecimal() else BEAT

    def run(self) -> None:
        if not self._address:
            return
        self._tell('READY=1')
        while not self._ends.wait(self._beat):
            leaves, goes_on = self._member.is_leaving, self._member.takes_steps
            more = ['STOPPING=1'] * leaves + ['WATCHDOG=1'] * goes_on
            self._tell(f'STATUS={self._stands()}', *more)
        self._tell('STOPPING=1')

    def _stands(self) -> str:
        owned = self._member.assignment()
        if owned is not None:
            does = 'owns' if self._workers.is_failing else 'works on'
            return f'{does} {len(owned.partitions)} partitions by token {owned.token}{self._workers.about}'
        if self._member.is_drained or self._member.gave_up:
            return 'drained' if self._member.is_drained else 'gave up: its worker fails'
        return ('live' if seconds_of_boot() < self._member.sure_until else 'not live') + self._workers.about

    def _tell(self, *words: str) -> None:
        with suppress(OSError), socket.socket(socket.AF_UNIX, socket.SOCK_DGRAM) as manager:
            manager.sendto('\n'.join(words).encode(), socket.MSG_DONTWAIT, self._address)

    def close(self) -> None:
        self._ends.set()
        with suppress(RuntimeError):  # it hasn't started, if a signal came early
            self.join()
