"""Processes of Linux: signals that wait, children with their descendants, and who has a lock on a file.

The watchdog runs with this module, `clocks` and `display` alone, so this module imports nothing else of the package.
"""
from __future__ import annotations

import contextlib
import ctypes
import os
import signal
import time
from collections.abc import Callable, Iterator, Set as AbstractSet
from pathlib import Path

from .clocks import SECOND, nanoseconds_of_boot

PR_SET_PDEATHSIG, PR_SET_CHILD_SUBREAPER = 1, 36
# Signals that tell a member to leave. If all processes get one it doesn't end the watchdog: the member does that.
ENDS = (signal.SIGTERM, signal.SIGINT, signal.SIGHUP, signal.SIGQUIT, signal.SIGUSR1, signal.SIGUSR2)
ANY_CHILD = -1
LONGEST_SLEEP = 0.02  # seconds between two checks of what was killed
WRITE, READ = 'WRITE', 'READ'  # kinds of locks
WRITER_BYTE = 120  # of the file: the writer has a lock on it
STILL = frozenset('TtF')  # states of a thread that is stopped
# (parts of what a frozen thread waits in, by the control group's kind)
FROZEN = ('refrigerator', 'freezer_trap', 'get_signal')
TIMES = 5  # how often the locks are read: while others come and go, a line may be left out

LIBC = ctypes.CDLL(None, use_errno=True)


def checked(result: int) -> int:
    """The result of a function of the C library. Raises OSError if that is an error."""
    if result < 0:
        raise OSError(ctypes.get_errno(), os.strerror(ctypes.get_errno()))
    return result


def default_signals(numbers: AbstractSet[signal.Signals]) -> None:
    """Gives these signals their default dispositions. Who started this process may have ignored some: for example Linux
    keeps no exit status of a child if SIGCHLD is ignored."""
    for number in numbers - {signal.SIGKILL, signal.SIGSTOP}:
        signal.signal(number, signal.SIG_DFL)


@contextlib.contextmanager
def held_back() -> Iterator[None]:
    """Holds back the signals that tell a member to leave, also in processes that start meanwhile."""
    before = signal.pthread_sigmask(signal.SIG_BLOCK, ENDS)
    try:
        yield
    finally:
        signal.pthread_sigmask(signal.SIG_SETMASK, before)


def signal_at_end_of_parent(number: int) -> None:
    """Has Linux send that signal to this process when its parent ends, or the thread of the parent that started it. 0
    is no signal."""
    checked(LIBC.prctl(PR_SET_PDEATHSIG, int(number), 0, 0, 0))


# ---- Children


def children() -> set[int]:
    """The children of this process, also adopted ones. If the kernel doesn't list them, all processes are asked for
    their parents; that may leave out one that has just started. Raises OSError."""
    with contextlib.suppress(OSError):
        return listed_children()
    processes = map(int, filter(str.isdecimal, os.listdir('/proc')))
    return {process for process in processes if parent_of(process) == os.getpid()}


def parent_of(process: int) -> int | None:
    """The parent of a process; None if there is no such process."""
    with contextlib.suppress(OSError):
        status = Path(f'/proc/{process}/status').read_text(encoding='utf-8', errors='replace')
        return int(status.partition('\nPPid:')[2].split(None, 1)[0])
    return None


def listed_children() -> set[int]:
    """The children of this process, as the kernel lists them. Raises OSError if it doesn't."""
    found: list[str] = []
    for task in Path('/proc/self/task').iterdir():
        try:
            found += (task / 'children').read_text(encoding='ascii').split()
        except OSError:
            if task.exists():  # else the thread has ended
                raise
    return set(map(int, found))


def has_children() -> bool:
    """Whether there are any children, listed or not."""
    with contextlib.suppress(ChildProcessError):
        os.waitid(os.P_ALL, 0, os.WEXITED | os.WNOHANG | os.WNOWAIT)
        return True
    return False


def children_but(spared: AbstractSet[int]) -> set[int] | None:
    """The children of this process but these; None if there may be some that the kernel doesn't list."""
    found: set[int] = set()
    with contextlib.suppress(OSError):
        found = children() - spared
        if found or spared:
            return found
    return None if has_children() else found


def adopt() -> None:
    """Makes this process the parent of what its descendants leave when they end."""
    checked(LIBC.prctl(PR_SET_CHILD_SUBREAPER, 1, 0, 0, 0))


def end_children(
    spared: AbstractSet[int], seconds: float, tell: Callable[[list[int]], object],
    meanwhile: Callable[[], object] = lambda: None,
) -> dict[int, int]:  # fmt: skip
    """Kills the children of this process but these, with what they leave, and waits until none is left, listed or not.
    Calls `tell` with those that are still there after so many seconds, first those that it may not kill, and again if
    there are others; and `meanwhile` again and again. Returns their exit statuses."""
    statuses: dict[int, int] = {}
    reported: set[int] | None = None
    end, sleep = nanoseconds_of_boot() + int(seconds * SECOND), LONGEST_SLEEP / 16
    while (found := children_but(spared)) != set():
        left = found or set()
        for child in left:
            kill(os.kill, child)
            statuses.update(reap(child))
        if found is None and not spared:
            statuses.update(reap(ANY_CHILD))
        if nanoseconds_of_boot() >= end and (reported is None or not left <= reported):
            tell(sorted(left, key=may_kill))
            reported = left
        meanwhile()
        time.sleep(sleep)
        sleep = min(2 * sleep, LONGEST_SLEEP)
    return statuses


def let_children_end(spared: AbstractSet[int], seconds: float, meanwhile: Callable[[], object]) -> None:
    """Waits until none of the children of this process but these is left, for so many seconds at most."""
    end = nanoseconds_of_boot() + int(seconds * SECOND)
    while nanoseconds_of_boot() < end and (found := children_but(spared)) != set():
        for child in found or ():
            reap(child)
        meanwhile()
        time.sleep(LONGEST_SLEEP / 4)


def kill(send: Callable[[int, int], None], number: int) -> None:
    """Kills a child or a process group, if it may. No other thread waits for children meanwhile, so the number is still
    theirs."""
    with contextlib.suppress(PermissionError, ProcessLookupError):  # it is another user's, or there is no such group
        send(number, signal.SIGKILL)


def reap(child: int) -> dict[int, int]:
    """The exit status of this child, or of any child, if it has ended."""
    with contextlib.suppress(ChildProcessError):
        ended, how = os.waitpid(child, os.WNOHANG)
        return {ended: os.waitstatus_to_exitcode(how)} if ended else {}
    return {}


def signal_of(process: int) -> int:
    """The signal by which the process ended, if it was one and its parent hasn't waited for it; or else 0."""
    with contextlib.suppress(OSError, ValueError, IndexError):
        status = Path(f'/proc/{process}/stat').read_text(encoding='ascii', errors='replace')
        return int(status.rsplit(')', 1)[1].split()[49]) & 0x7F
    return 0


def is_there(process: int) -> bool:
    """Whether there is such a process, or its status is still there."""
    return os.path.exists(f'/proc/{process}')


def may_kill(process: int) -> bool:
    """Whether this process may kill that one. It may not kill one of another user."""
    with contextlib.suppress(ProcessLookupError):
        try:
            os.kill(process, 0)
        except PermissionError:
            return False
    return True


# ---- Locks


def lock_holder(file: str, kind: str = WRITE) -> int | None:
    """The process with such a lock on the writer's byte of this file, if it can be found; -1 if the lock isn't one of a
    process. (To open and close the file itself would lose the locks on it.)"""
    with contextlib.suppress(OSError):
        inode = str(os.stat(file).st_ino)
        found = (holder_in(inode, Path('/proc/locks').read_text(encoding='ascii'), kind) for _ in range(TIMES))
        return next((process for process in found if process is not None), None)
    return None


def holder_in(inode: str, locks: str, kind: str) -> int | None:
    """The same, in this list of all locks."""
    for line in locks.splitlines():
        words = line.split()
        if words[3:4] == [kind] and words[5].split(':')[-1] == inode and is_within(words[6], words[7]):
            return int(words[4])
    return None


def is_within(first: str, last: str) -> bool:
    """Whether the writer's byte is in this range."""
    return int(first) <= WRITER_BYTE and (last == 'EOF' or WRITER_BYTE <= int(last))


# ---- Processes that don't run


def states(process: int) -> str:
    """A letter for each thread of the process, as in /proc/PID/stat: T or t if it is stopped by a signal or a debugger,
    D if it waits for a disk; and F if its control group has frozen it."""
    found = ''
    with contextlib.suppress(OSError):  # it ends
        for task in sorted(Path(f'/proc/{process}/task').iterdir()):
            state = (task / 'stat').read_text(encoding='ascii', errors='replace').rsplit(')', 1)[1].split()[0]
            found += 'F' if state in 'DS' and is_frozen(task) else state
    return found


def is_frozen(task: Path) -> bool:
    """Whether the control group of a thread that waits has frozen it, if the kernel shows where it waits."""
    with contextlib.suppress(OSError):
        waits = (task / 'wchan').read_text(encoding='ascii')
        return any(each in waits for each in FROZEN)
    return False


def is_stopped(process: int) -> bool:
    """Whether the process is stopped, by a signal, a debugger or its control group."""
    found = states(process)
    return bool(found) and STILL.issuperset(found)


def runs_of(process: int) -> list[str]:
    """How often each of its threads has begun to wait, or was interrupted. While this is the same none has run, unless
    one runs now."""
    found: list[str] = []
    with contextlib.suppress(OSError):  # it ends
        for task in sorted(Path(f'/proc/{process}/task').iterdir()):
            lines = (task / 'status').read_text(encoding='utf-8', errors='replace').splitlines()
            found += [f'{task.name} {line}' for line in lines if 'ctxt_switches' in line]
    return found
