"""Writes down what a process of a member does: its acts, as lines of a file of its own (`premises.py`).

Each line is written at once, by one call of the system, since whoever writes may be killed at any moment: so only the
last line of a file may not be whole.
"""
from __future__ import annotations

import json
import os
import time
from contextlib import suppress

from bully.clocks import nanoseconds_of_boot

# The kernel's clock of leases. `clock_rate.c` shows it so, and has a process's own clock run at another rate.
KERNELS = time.CLOCK_BOOTTIME if 'CLOCK_RATE' not in os.environ else 9
AHEAD = int(os.environ.get('ACTS_AHEAD', 0))  # nanoseconds by which that is ahead in the time namespace of this process
FOLDER, OF = 'ACTS_FOLDER', 'ACTS_OF'  # of the environment: where acts are kept, and of which member's process they are


def moment() -> int:
    """By the kernel's clock of leases, whatever that of this process shows."""
    return time.clock_gettime_ns(KERNELS) - AHEAD


def reading() -> list[int]:
    """What the clock of this process shows, between two moments."""
    return [moment(), nanoseconds_of_boot(), moment()]


class Pen:
    """Writes the acts of this process."""

    def __init__(self) -> None:
        self.folder, self.member = os.environ[FOLDER], os.environ[OF]
        self.file = self._opened()

    def _opened(self) -> int:
        """The file of this process."""
        file = os.path.join(self.folder, f'{self.member}.{os.getpid()}')
        return os.open(file, os.O_WRONLY | os.O_APPEND | os.O_CREAT | os.O_CLOEXEC, 0o600)

    def after_fork(self) -> None:
        """This process has a file of its own from now on."""
        os.close(self.file)
        self.file = self._opened()

    def note(self, kind: str, at: int, **more: object) -> None:
        """An act of this kind, done at that moment."""
        text = json.dumps({'at': at, 'member': self.member, 'kind': kind, **more, 'shows': reading()})
        os.write(self.file, f'{text}\n'.encode())


def living_below(process: int) -> list[int]:
    """The processes that this one has started, with all that they have, but for those that have ended and that nobody
    has waited for."""
    found: list[int] = []
    with suppress(OSError):  # it has ended
        for task in os.listdir(f'/proc/{process}/task'):
            with open(f'/proc/{process}/task/{task}/children', encoding='ascii') as file:
                found += map(int, file.read().split())
    return [each for child in found for each in (*([child] if is_alive(child) else []), *living_below(child))]


def is_alive(process: int) -> bool:
    """Whether that process is there, and not only its status."""
    with suppress(OSError):
        with open(f'/proc/{process}/stat', encoding='utf-8', errors='replace') as file:
            return file.read().rsplit(')', 1)[1].split()[0] not in 'ZX'
    return False
