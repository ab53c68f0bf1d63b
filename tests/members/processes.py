"""Processes that a test looks at, and the waiting for them."""
from __future__ import annotations

import contextlib
import ctypes
import os
import re
import resource
import select
import signal
import unittest
from collections.abc import Callable, Iterable
from pathlib import Path
from typing import NamedTuple

from .waiting import wait_until

TICK = 1 / os.sysconf('SC_CLK_TCK')
PTRACE_DETACH, PTRACE_SEIZE, PTRACE_INTERRUPT, WAIT_ALL = 17, 0x4206, 0x4207, 0x40000000
frozen: set[int] = set()


def freeze(test: unittest.TestCase, process: int) -> None:
    """The process can't be ended from now on, up to `thaw` from the same thread: a killed process stays there until its
    tracer has waited for it."""
    trace(test, PTRACE_SEIZE, process)
    frozen.add(process)
    test.addCleanup(thaw, process)


def thaw(process: int) -> None:
    """It ends, if it hasn't been thawed before."""
    if process in frozen:
        frozen.remove(process)
        os.kill(process, signal.SIGKILL)
        os.waitpid(process, WAIT_ALL)


def trace(test: unittest.TestCase, request: int, process: int) -> None:
    """A request of a debugger, from the same thread."""
    traced = ctypes.CDLL(None, use_errno=True).ptrace(request, process, None, None)
    test.assertEqual(traced, 0, os.strerror(ctypes.get_errno()))


def halt_by_debugger(test: unittest.TestCase, process: int) -> Callable[[], object]:
    """A debugger, which is this thread, stops a process of one thread. What continues it, if it is there."""
    trace(test, PTRACE_SEIZE, process)
    trace(test, PTRACE_INTERRUPT, process)
    os.waitpid(process, WAIT_ALL)
    return lambda: ctypes.CDLL(None).ptrace(PTRACE_DETACH, process, None, None)


def mounts_of(kind: str, controller: str) -> list[str]:
    """Where control groups are, of this kind of file system; those of the older kind with this controller."""
    mounts = [line.split() for line in Path('/proc/self/mounts').read_text().splitlines()]
    return [
        place
        for _, place, system, options, *_ in mounts
        if system == kind and (kind == 'cgroup2' or controller in options.split(','))
    ]


class TaskLimit:
    """A limit on threads and processes: by a control group if this user is root, whom nothing else limits, and else by
    that on what the user has, who has some."""

    def __init__(self, test: unittest.TestCase) -> None:
        self.group = None if os.geteuid() else self._made(test)
        self.counts = [0] if self.group is None else range(1, 9)  # which ones it can set for a process that begins

    def _made(self, test: unittest.TestCase) -> Path:
        for place in (*mounts_of('cgroup', 'pids'), *mounts_of('cgroup2', '')):
            group = Path(place, f'bully-tasks{os.getpid()}')
            with contextlib.suppress(OSError):
                group.mkdir(exist_ok=True)
                if (group / 'pids.max').exists():
                    test.addCleanup(self._remove, group)
                    return group
                group.rmdir()
        test.skipTest('no control group that limits threads and processes can be made here')

    def _remove(self, group: Path) -> None:
        (group / 'pids.max').write_text('max')
        wait_until(lambda: not (group / 'cgroup.procs').read_text())
        group.rmdir()

    def set(self, process: int, count: int) -> None:
        """The process can start no more, if it has so many; without a control group, none."""
        if self.group is None:
            resource.prlimit(process, resource.RLIMIT_NPROC, (0, resource.getrlimit(resource.RLIMIT_NPROC)[1]))
        else:
            (self.group / 'pids.max').write_text(str(count))
            (self.group / 'cgroup.procs').write_text(str(process))

    def lift(self, process: int) -> None:
        """It may again, if it is there."""
        if self.group is not None:
            (self.group / 'pids.max').write_text('max')
        else:
            with contextlib.suppress(ProcessLookupError):
                resource.prlimit(process, resource.RLIMIT_NPROC, resource.getrlimit(resource.RLIMIT_NPROC))


def halt_by_group(test: unittest.TestCase, process: int, kind: str) -> Callable[[], None]:
    """A control group of its own, of this kind of file system, freezes the process. What continues it."""
    freezers = {'cgroup': ('freezer.state', 'FROZEN', 'THAWED'), 'cgroup2': ('cgroup.freeze', '1', '0')}
    name, froze, thawed = freezers[kind]
    places = mounts_of(kind, 'freezer')
    group = Path(places[0] if places else '/proc/none', f'bully{process}')
    try:
        group.mkdir(exist_ok=True)
        (group / 'cgroup.procs').write_text(str(process))
        (group / name).write_text(froze)
    except OSError as fault:
        test.skipTest(f'no control group of {kind} can be made: {fault}')

    def go_on() -> None:
        (group / name).write_text(thawed)

    def remove() -> None:
        if not group.exists():  # it was removed before
            return
        go_on()
        with contextlib.suppress(ProcessLookupError):
            os.kill(process, signal.SIGKILL)
        wait_until(lambda: not (group / 'cgroup.procs').read_text())
        group.rmdir()

    test.addCleanup(remove)
    return go_on


def is_running(process: int) -> bool:
    """Whether the process is there, and not only its status."""
    try:
        return Path(f'/proc/{process}/stat').read_text().rsplit(')', 1)[1].split()[0] != 'Z'
    except OSError:
        return False


def name_of(process: int) -> str:
    """The program that it runs, in short."""
    return Path(f'/proc/{process}/comm').read_text().strip()


def descriptors_of(process: int) -> int:
    """How many descriptors it has."""
    return len(list(Path(f'/proc/{process}/fd').iterdir()))


def has_stopped(process: int) -> bool:
    """Whether all of the process is stopped by a signal."""
    stats = Path(f'/proc/{process}/task').glob('*/stat')
    return all(stat.read_text().rsplit(')', 1)[1].split()[0] == 'T' for stat in stats)


def waits_for(process: int, number: int) -> bool:
    """Whether the process holds the signal back, or hears it."""
    masks = re.findall(r'^Sig(?:Blk|Cgt):\t([0-9a-f]+)$', Path(f'/proc/{process}/status').read_text(), re.MULTILINE)
    return any(int(mask, 16) >> number - 1 & 1 for mask in masks)


def ignores(process: int, number: int) -> bool:
    """Whether the process ignores the signal."""
    status = Path(f'/proc/{process}/status').read_text()
    return bool(int(status.partition('SigIgn:')[2].split()[0], 16) >> number - 1 & 1)


def has_loaded(process: int, name: str) -> bool:
    """Whether the process has loaded a file whose name has these words."""
    return name in Path(f'/proc/{process}/maps').read_text()


def parent_of(process: int) -> int:
    return int(Path(f'/proc/{process}/stat').read_text().rsplit(')', 1)[1].split()[1])


def ender(process: int) -> Callable[[], None]:
    """What ends it, if it is still there: never another process that has got its number since."""
    held = os.pidfd_open(process)

    def end() -> None:
        with contextlib.suppress(ProcessLookupError):
            signal.pidfd_send_signal(held, signal.SIGKILL)
        os.close(held)

    return end


def full_pipe() -> tuple[int, int]:
    """A pipe that has no room, and how it is read."""
    reads, writes = os.pipe()
    os.set_blocking(writes, False)
    with contextlib.suppress(BlockingIOError):
        while os.write(writes, bytes(4096)):
            pass
    os.set_blocking(writes, True)
    return reads, writes


def children(process: int) -> list[int]:
    """The processes that the process has started."""
    try:
        return list(map(int, Path(f'/proc/{process}/task/{process}/children').read_text().split()))
    except OSError:
        return []


class ProcessHandle(NamedTuple):
    """A process by its number, and by a descriptor, which never comes to be another one's."""

    number: int
    descriptor: int

    @property
    def has_ended(self) -> bool:
        return bool(select.select([self.descriptor], [], [], 0)[0])

    @property
    def is_stopped(self) -> bool:
        """Whether it is there, and is stopped by a signal."""
        with contextlib.suppress(OSError):  # it ends
            return has_stopped(self.number) and not self.has_ended
        return False


def words_of(process: int) -> bytes:
    """The words by which the process was started."""
    try:
        return Path(f'/proc/{process}/cmdline').read_bytes()
    except OSError:
        return b''


def keepers(watchdog: int) -> list[int]:
    """The keepers of a watchdog, which are forks of it."""
    return [child for child in children(watchdog) if words_of(child) == words_of(watchdog)]


def below(watchdog: int) -> list[int]:
    """The workers below the keepers of a watchdog, with what they left."""
    return [worker for keeper in keepers(watchdog) for worker in children(keeper)]


def guards_of(member: int) -> list[int]:
    """The watchdog of a member, and its keepers."""
    return [guard for watchdog in children(member) for guard in (watchdog, *keepers(watchdog))]


def workers_of(member: int) -> list[ProcessHandle]:
    """The workers of a member."""
    found = [
        (watchdog, ProcessHandle(worker, os.pidfd_open(worker)))
        for watchdog in children(member)
        for worker in below(watchdog)
    ]
    return [worker for watchdog, worker in found if worker.number in below(watchdog)]


def family(member: int) -> dict[str, ProcessHandle]:
    """A `member` that has not been waited for, its `watchdog`, its first `worker` and the `keeper` of that; nobody, if
    not all are there."""
    watchdogs = children(member)
    workers = [worker for watchdog in watchdogs for worker in below(watchdog)]
    if len(watchdogs) != 1 or not workers:
        return {}
    found: dict[str, ProcessHandle] = {}
    with contextlib.suppress(ProcessLookupError, FileNotFoundError):
        numbers = member, watchdogs[0], parent_of(workers[0]), workers[0]
        for name, number in zip(('member', 'watchdog', 'keeper', 'worker'), numbers):
            found[name] = ProcessHandle(number, os.pidfd_open(number))
    if len(found) == 4 and below(watchdogs[0]) == workers and not any(each.has_ended for each in found.values()):
        return found
    close_all(found.values())
    return {}


def close_all(processes: Iterable[ProcessHandle]) -> None:
    """They aren't looked at any more."""
    for process in processes:
        os.close(process.descriptor)


def send_all(processes: Iterable[ProcessHandle], number: int) -> None:
    """Sends a signal to processes, as far as they are still there."""
    for process in processes:
        with contextlib.suppress(ProcessLookupError):
            signal.pidfd_send_signal(process.descriptor, number)


def processor_seconds(process: int) -> float:
    """How much processor time the process took, without those that it started."""
    fields = Path(f'/proc/{process}/stat').read_text().rsplit(')', 1)[1].split()
    return (int(fields[11]) + int(fields[12])) * TICK


def own_memory(process: int) -> float:
    """How many MiB of memory the process shares with no other one."""
    rows = [row.split() for row in Path(f'/proc/{process}/smaps_rollup').read_text().splitlines()]
    return sum(int(row[1]) for row in rows if row[0].startswith('Private_')) / 1024
