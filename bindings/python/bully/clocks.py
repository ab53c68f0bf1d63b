"""The clocks of a machine, and sleep."""
from __future__ import annotations

import select
import time

SECOND = 1_000_000_000  # nanoseconds


def seconds_of_boot() -> float:
    """The clock of leases on one machine: seconds since it booted, including those during which it slept."""
    return time.clock_gettime(time.CLOCK_BOOTTIME)


def nanoseconds_of_boot() -> int:
    """The same clock in whole nanoseconds."""
    return time.clock_gettime_ns(time.CLOCK_BOOTTIME)


def wall_clock() -> int:
    """Milliseconds since 1970, by the machine's wall clock. Nothing depends on it."""
    return time.time_ns() // 1_000_000


def sleep_until_ready(seconds: float, *descriptors: int | None) -> list[int]:
    """Sleeps for so many seconds, or until one of these descriptors can be read; None is skipped. Returns those that
    can."""
    poll = select.poll()
    for descriptor in descriptors:
        if descriptor is not None:
            poll.register(descriptor, select.POLLIN)
    return [descriptor for descriptor, _ in poll.poll(1000 * seconds)]
