"""The watchdog: a small process beside a member, which starts, stops and kills its workers.

    watchdog.py CHANNEL PATIENCE KIND FILE TTL WORKER ARGS..

CHANNEL is the number of a socket to the member. What is said of a process of a worker names it by KEY SERIAL: the
worker, and a number that no other process of that worker has. So a message that comes after the end of its process is
dropped, by both sides. The member sends

    until NS                 until when its work is sure, in nanoseconds of CLOCK_BOOTTIME
    part WORDS               words before those of the next `share` or `begin`, because a message hasn't room for all
    share WORDS              words before those of each `begin` from now on
    begin KEY SERIAL WORDS   starts that process with these words: NAME=VALUE for its environment, separated by zero
                             bytes
    stop KEY SERIAL          stops it: by SIGTERM, and after PATIENCE seconds by SIGKILL
    release WORDS            the lease that is released when the member is gone (`bully.releasing`); none without words

and the watchdog sends, each followed by KEY SERIAL: `begun`; `stopped` after a stop, once nothing of the process is
left; `lost .. NS` if it has killed the process, because its time was over, or without NS if it hasn't started it for
that reason; `ended .. STATUS` if that ended by itself; and
before these `held .. PROCESSES` if these are still there a twentieth of the ttl after SIGKILL, for example because they
belong to another user. PROCESSES is empty if the kernel doesn't list them. The watchdog kills a worker with all that it
started, also while the member is stopped or dead, and after a sleep of the machine. When the member is gone the
watchdog does as after a stop; then it releases the lease. A watchdog that is stopped continues when its member dies.

If KIND is `talks`, a worker stays over changes: WORDS is then a line for its standard input, and a `begin` of the same
process is a further line. A stop is `stop KEY SERIAL LINE`, and the line {"stop": true} stops all. The worker answers
each stop by a line `stopped` on the descriptor BULLY_ANSWERS, in their order, or it ends. Earlier answers don't count.
The watchdog sends `answered KEY SERIAL` for each. A worker that has stopped all isn't killed when its time is over.

A worker has a *keeper*, a fork of the watchdog between the two, to which falls what the worker leaves. The keeper does
for its worker all of the above. If it dies, its worker does, and the watchdog kills what is left, and ends. If the
watchdog dies, the keeper stops its worker, and ends. Each of these ends makes a member kill all that is left; but a
member that is suspended can't. If KIND is `each`, there may be many workers, each with a keeper, and the watchdog is
between these and the member. Otherwise there is one keeper, which hears the member itself.

The watchdog also kills a member that doesn't run in the middle of a write, within two fifths of the ttl: otherwise
other members couldn't renew their leases in time. FILE is the file of SQLite with the end `-shm`, on which a writer has
a lock. """
from __future__ import annotations

import contextlib
import os
import resource
import select
import signal
import socket
import struct
import sys
import time
import types
from collections import deque
from collections.abc import Callable, Sequence
from typing import Any

if __name__ == '__main__':  # `bully` without its __init__, so that the process starts faster, and is smaller
    alone = types.ModuleType('bully')
    alone.__path__ = [os.path.dirname(os.path.abspath(__file__))]
    sys.modules['bully'] = alone

from bully.clocks import SECOND, nanoseconds_of_boot
from bully.display import message_line

from bully.processes import (
    ENDS, LIBC, adopt, checked, default_signals, end_children, held_back, kill, lock_holder, runs_of,
    signal_at_end_of_parent, signal_of, states,
)  # fmt: skip

PROGRAM = 'bully'  # as its messages name it
TIMER_ABSOLUTE = 1
MILLISECOND = 1_000_000  # nanoseconds
MESSAGE_MAX = 1 << 20  # bytes
ANSWERS = 3  # the descriptor for the answers of a worker that talks
STOP_ALL, STOPPED = b'{"stop": true}', b'stopped'
NOT_STARTED = 127  # the exit status of a worker that can't be started
BEATS = 20  # parts of a ttl: a watchdog may be late by one
CHECKS = 5  # of a member in a ttl; it may stay stopped in a write from one to the next
GOES_ON = frozenset('RD')  # states of a thread: it runs, or waits for a disk
LEAST = 1 << 15  # bytes of the end `-shm` of a file of SQLite that is used
TOLD = 20  # processes in a message, at most
SAID_MAX = select.PIPE_BUF // 2 - 100  # bytes of a message, which as JSON may become twice as long
REAPED = 100  # processes that a worker left and that have ended, in a turn, at most
LAST = b'stopped ', b'lost ', b'ended '  # words of the last message of a keeper


def say(text: str, program: str = PROGRAM) -> None:
    """Writes this message on standard error, if that takes it at once: of a long one the end, because a pipe that takes
    anything takes only so many bytes."""
    poll = select.poll()
    poll.register(2, select.POLLOUT)
    with contextlib.suppress(OSError):  # nobody reads any more
        if poll.poll(0):
            line = message_line(program, text.encode('utf-8', 'replace')[-SAID_MAX:].decode('utf-8', 'ignore'))
            os.write(2, f'{line}\n'.encode('utf-8', 'replace'))


def say_fault(*fault: Any) -> None:
    """Says which exception ended this process, as `sys.excepthook`."""
    import traceback  # it takes memory

    say(''.join(traceback.format_exception(*fault)).rstrip())


class MemberWatchdog:
    """Watches a member, which may not stay in the middle of a write without running: stopped by a signal or a debugger,
    or frozen. One that waits for a disk is slow, and nobody would gain by its end. No thread of it has run between two
    looks that find the same, so that is one write."""

    def __init__(self, file: str, ttl: float) -> None:
        self.member, self.file, self.span = os.getppid(), file, int(ttl / CHECKS * SECOND)
        self.looks = bool(file)  # whether this process looks at the member
        self.next_look = 0
        self.found: list[str] = []  # the states and the runs of its threads, at the last look

    def pause(self) -> int | None:
        """For how many milliseconds it needn't check, at most."""
        return max(0, self.next_look - nanoseconds_of_boot()) // MILLISECOND + 1 if self.looks else None

    def look(self) -> None:
        now = nanoseconds_of_boot()
        if not self.looks or now < self.next_look:
            return
        self.next_look, before = now + self.span, self.found
        self.found = [states(self.member), *runs_of(self.member)]
        is_still = self.found == before and not GOES_ON & set(before[0])
        if is_still and lock_holder(self.file) == self.member == os.getppid():
            os.kill(self.member, signal.SIGKILL)
            say(f'process {self.member} was stopped in the middle of a write, and is killed')

    def report_end(self) -> None:
        """The member is gone, and didn't leave. Says so if it touched a part of its file that isn't there any more, by
        which a process ends without a word. Another one that begins gives the file its length again."""
        with contextlib.suppress(OSError):
            if self.file and (signal_of(self.member) == signal.SIGBUS or os.stat(self.file).st_size < LEAST):
                say(f'process {self.member} ended by a bus error, as if {self.file} was truncated')


# ---- A worker


class NotStarted(Exception):
    """A worker, or a keeper, can't be started, and isn't there."""


class Worker:
    """A worker that was started."""

    def __init__(self, words: Sequence[str], environment: list[bytes], talks: bool) -> None:
        """A signal that comes before the worker is there waits. Raises NotStarted. After any other exception the worker
        may be there: this process must end, and the worker dies with it."""
        self.has_work, self.unread = False, b''
        self.stops: deque[int] = deque()  # the stops that it hasn't answered: when it is killed for that
        self.is_ending = False  # whether to answer isn't enough any more
        self.lines: socket.socket | None = None  # with room for all unread lines
        self.answers = -1
        given: list[int] = []  # what the worker is given
        try:
            if talks:
                self.lines, others = socket.socketpair()
                given.append(others.detach())
                self.lines.setsockopt(socket.SOL_SOCKET, socket.SO_SNDBUF, MESSAGE_MAX)
                self.answers, taken = os.pipe()
                given.append(taken)
                os.set_blocking(self.answers, False)
            self.process = forked(lambda parent: become(words, environment, given, parent))
        except OSError as error:
            self.close_pipes()
            raise NotStarted(error.strerror) from error
        finally:
            for pipe in given:
                os.close(pipe)
        with contextlib.suppress(OSError):  # it may have done that itself
            os.setpgid(self.process, self.process)
        self.end = os.pidfd_open(self.process)

    def tell(self, line: bytes) -> None:
        """Sends a line to a worker that talks. If there is no room for all of the line, the worker is killed."""
        if self.lines is not None:
            with contextlib.suppress(BrokenPipeError, ConnectionResetError):  # it doesn't read any more
                if not has_room(self.lines, line + b'\n'):
                    say(f'there is no room for a line of {len(line)} bytes to the worker, which is killed')
                    with contextlib.suppress(PermissionError):
                        os.kill(self.process, signal.SIGKILL)

    @property
    def is_busy(self) -> bool:
        """Whether it may be at work."""
        return self.has_work or bool(self.stops)

    def heard(self) -> list[bytes]:
        """The lines of its answers. One read takes all that a pipe holds: more may come without end."""
        with contextlib.suppress(BlockingIOError):
            part = os.read(self.answers, MESSAGE_MAX)
            self.unread, self.answers = self.unread + part, self.answers if part else close(self.answers)
        *lines, last = self.unread.split(b'\n')
        self.unread = last[: len(STOPPED) + 1]  # no more is needed of a longer line
        return lines

    def stop(self, line: bytes, patience: int, for_good: bool) -> None:
        """The worker has so many nanoseconds from now on to stop, and must end if it doesn't talk or this is for
        good."""
        if not self.stops and self.answers >= 0:
            self.heard()  # these don't answer this stop
        self.stops.append(nanoseconds_of_boot() + patience)
        self.has_work &= line not in (b'', STOP_ALL)
        self.is_ending |= self.lines is None or for_good
        if self.is_ending:
            terminate(self.process)
        else:
            self.tell(line)

    def answers_stops(self) -> int:
        """Takes its answers. Returns how many stops it has answered."""
        count = min(self.heard().count(STOPPED), 0 if self.is_ending else len(self.stops))
        for _ in range(count):
            self.stops.popleft()
        return count

    def end_all(self, seconds: float, tell: Callable[[list[int]], object]) -> int:
        """Kills what is left of the worker, and waits for that. Returns its exit status. Calls `tell` with the
        processes that are still there after so many seconds. Its own process and the process group that this started
        are killed whatever the kernel lists."""
        kill(os.kill, self.process)
        kill(os.killpg, self.process)
        close(self.end)
        self.close_pipes()
        return end_children(frozenset(), seconds, tell).get(self.process, 0)

    def close_pipes(self) -> None:
        self.answers = close(self.answers)
        if self.lines is not None:
            self.lines.close()


def forked(become: Callable[[int], object]) -> int:
    """The number of a new process, which calls this with the number of its parent. Signals wait meanwhile."""
    parent = os.getpid()
    with held_back():
        process = os.fork()
        if process == 0:
            become(parent)
    return process


def has_room(lines: socket.socket, line: bytes) -> bool:
    """Whether all of the line was sent at once."""
    with contextlib.suppress(BlockingIOError):
        return lines.send(line, socket.MSG_DONTWAIT) == len(line)
    return False


def terminate(process: int) -> None:
    """Sends SIGTERM to the process group of a worker that wasn't waited for; or to it alone, if it has left that
    group."""
    with contextlib.suppress(PermissionError, ProcessLookupError):  # it is another user's, or its group has just ended
        (os.killpg if os.getpgid(process) == process else os.kill)(process, signal.SIGTERM)


def close(descriptor: int) -> int:
    """Closes this descriptor, if there is one. Returns that there is none any more."""
    if descriptor >= 0:
        os.close(descriptor)
    return -1


def become(words: Sequence[str], environment: list[bytes], pipes: Sequence[int], parent: int) -> None:
    """This process becomes the worker, which dies with its parent and has a process group of its own."""
    try:
        os.setpgid(0, 0)
        signal_at_end_of_parent(signal.SIGKILL)
        if os.getppid() != parent:
            return
        copies = [os.dup(pipe) for pipe in pipes]
        for copy, wanted in zip(copies, (0, ANSWERS)):
            os.dup2(copy, wanted)
        default_signals(signal.valid_signals())
        signal.pthread_sigmask(signal.SIG_SETMASK, ())
        parts = [entry.partition(b'=') for entry in environment]
        os.execvpe(words[0], list(words), {**os.environb, **{name: value for name, _, value in parts}})
    except OSError as error:
        word = ''.join(each if each.isprintable() else '?' for each in words[0])
        say(f'{word}: {error.strerror}')
    finally:
        os._exit(NOT_STARTED)


# ---- Watchdogs


class Rules:
    """What holds for all workers."""

    def __init__(self, patience: float, talks: bool, ttl: float, words: Sequence[str]) -> None:
        """How many seconds they may take to stop; whether they stay over changes; the ttl in seconds; the words of
        their command."""
        self.patience, self.talks, self.ttl, self.words = int(patience * SECOND), talks, ttl, words


class Receiver:
    """What hears a member, or the watchdog of one."""

    def __init__(self, channel: socket.socket, rules: Rules, of_member: MemberWatchdog, until: int = 0) -> None:
        self.channel, self.rules, self.of_member, self.until = channel, rules, of_member, until
        self.parts = self.shared = self.release = b''
        self.is_alone = False  # whether who it hears is gone

    def receive(self) -> None:
        with contextlib.suppress(ConnectionResetError):  # raised once, if the other end didn't read all
            self.hear(self.channel.recv(MESSAGE_MAX))

    def hear(self, message: bytes) -> None:
        """Handles a message; or an empty one, once there will be no more."""
        word, _, more = message.partition(b' ')
        if word == b'until':
            self.until = int(more)
            self.renewed()
        elif word == b'part':
            self.parts += more
        elif word in (b'begin', b'stop'):
            key, serial, *rest = more.split(b' ', 2)
            words, self.parts = self.parts + b''.join(rest), b''
            (self.begin if word == b'begin' else self.stop)(key + b' ' + serial, words)
        elif word == b'share':
            self.shared, self.parts = self.parts + more, b''
        elif word == b'release':
            self.release = more
        elif not message:
            self.is_alone = True
            if self.release:
                self.of_member.report_end()
            self.leave()

    def go_on(self) -> None:
        """Runs until the member is gone, and nothing of a worker is left."""
        raise NotImplementedError

    def renewed(self) -> None:
        """There is another moment until which the work is sure."""

    def begin(self, name: bytes, words: bytes) -> None:
        """Starts the process of this name, with these words."""
        raise NotImplementedError

    def stop(self, name: bytes, line: bytes) -> None:
        """Stops the process of this name, if it is there; one that talks by this line."""
        raise NotImplementedError

    def leave(self) -> None:
        """All workers must end."""
        raise NotImplementedError


class Keeper(Receiver):
    """Starts, stops and ends one worker at a time."""

    def __init__(self, channel: socket.socket, rules: Rules, of_member: MemberWatchdog, until: int = 0) -> None:
        super().__init__(channel, rules, of_member, until)
        self.watchdog = self.woken = -1  # can be read once the watchdog above it has died; and once a child has
        self.timer = checked(LIBC.timerfd_create(time.CLOCK_BOOTTIME, os.O_CLOEXEC | os.O_NONBLOCK))
        self.worker: Worker | None = None
        self.name = b''  # of its process, or of the last one

    def go_on(self) -> None:
        while not self.is_alone or self.worker is not None:
            self.turn()

    def turn(self) -> None:
        """Waits until something happens, and handles it."""
        ready = self.awaited()
        if self.woken in ready:
            os.read(self.woken, select.PIPE_BUF)
        if self.watchdog in ready:
            self.lose_watchdog()
        if self.worker is not None:
            self.see(self.worker, ready)
        if self.channel.fileno() in ready and not self.is_alone:
            self.receive()
        self.of_member.look()

    def awaited(self) -> set[int]:
        """The descriptors that are ready, once some are, or the member must be checked."""
        setting = struct.pack('qqqq', 0, 0, *divmod(self.last_moment() or 0, SECOND))  # 0 is never
        checked(LIBC.timerfd_settime(self.timer, TIMER_ABSOLUTE, setting, None))
        there = [self.timer, self.watchdog, self.woken, *([] if self.is_alone else [self.channel.fileno()])]
        there += [] if self.worker is None else [self.worker.end, self.worker.answers]
        poll = select.poll()
        for descriptor in there:
            if descriptor >= 0:
                poll.register(descriptor, select.POLLIN)
        return {descriptor for descriptor, _ in poll.poll(self.of_member.pause())}

    def last_moment(self) -> int | None:
        """When the worker is killed, if it is at work or must stop."""
        if self.worker is None:
            return None
        return min([self.until] * self.worker.is_busy + list(self.worker.stops), default=None)

    def see(self, worker: Worker, ready: set[int]) -> None:
        """Handles what became of the worker, and of the processes that it left."""
        for _ in range(REAPED):
            ended = os.waitid(os.P_ALL, 0, os.WEXITED | os.WNOHANG | os.WNOWAIT)
            if ended is None or ended.si_pid == worker.process:
                break
            os.waitpid(ended.si_pid, 0)
        else:
            signal.raise_signal(signal.SIGCHLD)  # the rest in the next turn
        moment = self.last_moment()
        if moment is not None and nanoseconds_of_boot() >= moment or worker.end in ready:
            now = nanoseconds_of_boot()
            by_itself = moment is None or now < moment
            status = worker.end_all(self.rules.ttl / BEATS, self.hold)
            self.worker = None
            if by_itself and not worker.stops:
                self.say('ended', status)
            else:
                self.say('stopped') if worker.stops else self.say('lost', now)
        elif worker.answers in ready:
            for _ in range(worker.answers_stops()):
                self.say('answered')

    def hold(self, left: list[int]) -> None:
        """Reports processes that are still there, though they were killed."""
        self.say('held', *left[:TOLD])

    def begin(self, name: bytes, words: bytes) -> None:
        """Starts a worker with these words, or lets it go on."""
        is_late = nanoseconds_of_boot() >= self.until
        if self.worker is not None and name == self.name:
            self.go_on_with(self.worker, words, is_late)
        elif self.worker is not None or is_late:
            self.say('lost', name=name)
        elif name != self.name:  # else it has ended meanwhile
            self.name, self.worker = name, self.started(words, name)
            if self.worker is not None:
                self.go_on_with(self.worker, words, is_late)

    def go_on_with(self, worker: Worker, words: bytes, is_late: bool) -> None:
        """The worker works from now on; or is killed at once, and doesn't hear of work whose time is over."""
        worker.has_work = True
        if not is_late:
            worker.tell(words)
            self.say('begun')

    def started(self, words: bytes, name: bytes) -> Worker | None:
        """A worker with these words. It fails if no more processes may be started."""
        environment = [b'BULLY_ANSWERS=%d' % ANSWERS] if self.rules.talks else (self.shared + words).split(b'\0')
        try:
            return Worker(self.rules.words, environment, self.rules.talks)
        except NotStarted as failure:
            say(f'{self.rules.words[0]}: {failure}')
            self.say('ended', NOT_STARTED, name=name)
            return None

    def stop(self, name: bytes, line: bytes) -> None:
        if self.worker is not None and name == self.name:
            self.worker.stop(line, self.rules.patience, self.is_alone)

    def leave(self) -> None:
        self.stop(self.name, b'')

    def lose_watchdog(self) -> None:
        """Its watchdog has died, so if it died, too, nobody would kill what is left. The member hears that it ends. What
        that has sent before counts: until when work is sure, most of all."""
        while not self.is_alone and select.select([self.channel], [], [], 0)[0]:
            self.receive()
        self.watchdog, self.is_alone = close(self.watchdog), True
        with contextlib.suppress(OSError):  # the member is gone, too
            self.channel.shutdown(socket.SHUT_WR)
        self.leave()

    @property
    def may_release(self) -> bool:
        """Whether the member is gone, once nothing is left to be done."""
        return self.watchdog >= 0 or hangs_up(self.channel, self.rules.ttl / BEATS)  # it may just be dying

    def say(self, word: str, *more: int, name: bytes = b'') -> None:
        message = b' '.join([word.encode(), name or self.name, *(b'%d' % each for each in more)])
        with contextlib.suppress(OSError):  # the member may be gone
            self.channel.send(message)


def hangs_up(channel: socket.socket, seconds: float) -> bool:
    """Whether the process at the other end is gone, within so many seconds."""
    poll = select.poll()
    poll.register(channel, 0)
    return bool(poll.poll(1000 * seconds))


def woken_by_children() -> int:
    """A descriptor that can be read once a child of this process has ended."""
    woken, wakes = os.pipe()
    for pipe in (woken, wakes):
        os.set_blocking(pipe, False)
    signal.set_wakeup_fd(wakes, warn_on_full_buffer=False)
    signal.signal(signal.SIGCHLD, lambda *_: None)
    return woken


def fork_keeper(keep: Callable[[], object]) -> int:
    """The number of a new process, a keeper: it does this, and ends. Raises OSError if there is none."""
    process = os.fork()
    if process == 0:
        status = 1
        try:
            adopt()
            signal_at_end_of_parent(signal.SIGCONT)
            keep()
            status = 0
        except BaseException:
            say_fault(*sys.exc_info())
        finally:
            os._exit(status)
    return process


def limit_descriptors(most: int, highest: int) -> None:
    """How many descriptors this process may have, up to which number it may change that."""
    with contextlib.suppress(OSError, ValueError):
        resource.setrlimit(resource.RLIMIT_NOFILE, (most, highest))


def more_descriptors() -> tuple[int, int]:
    """This process may have as many descriptors as it can get. Returns the limits before."""
    before = resource.getrlimit(resource.RLIMIT_NOFILE)
    limit_descriptors(before[1], before[1])
    return before


class KeeperProcess:
    """A keeper that is another process."""

    def __init__(self, name: bytes, channel: socket.socket, process: int) -> None:
        """The name of its worker's process, a socket to it, and its number."""
        self.name, self.channel, self.process = name, channel, process
        self.last = b''  # what it has reported last of its worker, which has ended


class Hub(Receiver):
    """Has a keeper for each worker."""

    def __init__(self, channel: socket.socket, rules: Rules, of_member: MemberWatchdog) -> None:
        super().__init__(channel, rules, of_member)
        self.room = more_descriptors()
        self.keepers: dict[int, KeeperProcess] = {}  # by the descriptors of their sockets
        self.by_key: dict[bytes, KeeperProcess] = {}
        self.unsent: deque[bytes] = deque()  # what the member didn't take yet, as while it is stopped
        self.poll = select.poll()
        self.poll.register(channel, select.POLLIN)

    def go_on(self) -> None:
        while not self.is_alone or self.keepers:
            for descriptor, events in self.poll.poll(self.of_member.pause()):
                if descriptor in self.keepers:
                    self.hear_keeper(self.keepers[descriptor])
                elif descriptor == self.channel.fileno() and events & ~select.POLLOUT:
                    self.receive()
            self.send()
            self.of_member.look()

    def renewed(self) -> None:
        for kept in self.keepers.values():
            self.tell(kept, b'until %d' % self.until)

    def tell(self, kept: KeeperProcess, message: bytes) -> None:
        with contextlib.suppress(OSError):  # it has ended, or is stopped: then an earlier moment applies
            kept.channel.send(message, socket.MSG_DONTWAIT)

    def begin(self, name: bytes, words: bytes) -> None:
        """Starts a keeper, which starts the worker."""
        key = name.split(b' ')[0]
        if key in self.by_key:
            self.say(b'lost ' + name)
            return
        try:
            kept = self.kept(name, words)
        except OSError as error:
            say(f'{self.rules.words[0]}: {error.strerror}')
            self.say(b'ended %s %d' % (name, NOT_STARTED))
            return
        self.keepers[kept.channel.fileno()] = self.by_key[key] = kept
        self.poll.register(kept.channel, select.POLLIN)

    def kept(self, name: bytes, words: bytes) -> KeeperProcess:
        """A new keeper. Raises OSError if it isn't there."""
        mine, given = socket.socketpair(socket.AF_UNIX, socket.SOCK_SEQPACKET)
        with given:
            try:
                return KeeperProcess(name, mine, fork_keeper(lambda: self.keep(given, mine, name, words)))
            except OSError:
                mine.close()
                raise

    def keep(self, channel: socket.socket, other: socket.socket, name: bytes, words: bytes) -> None:
        """This process is a keeper, with its worker."""
        limit_descriptors(*self.room)
        for each in (other, self.channel, *(kept.channel for kept in self.keepers.values())):
            each.close()
        keeper = Keeper(channel, self.rules, MemberWatchdog('', self.rules.ttl), self.until)
        keeper.shared, keeper.woken = self.shared, woken_by_children()
        keeper.begin(name, words)
        while keeper.worker is not None:
            keeper.turn()

    def hear_keeper(self, kept: KeeperProcess) -> None:
        """Passes on what a keeper reports. Its last report waits for its end: another one may begin then."""
        message = b''
        with contextlib.suppress(ConnectionResetError):  # as of the member
            message = kept.channel.recv(MESSAGE_MAX) or b'gone'
        if message == b'gone':
            self.poll.unregister(kept.channel)
            del self.keepers[kept.channel.fileno()], self.by_key[kept.name.split(b' ')[0]]
            kept.channel.close()
            if os.waitpid(kept.process, 0)[1]:
                self.end_all()
            if kept.last:
                self.say(kept.last)
        elif message.startswith(LAST):
            kept.last = message
        elif message:
            self.say(message)

    def end_all(self) -> None:
        """A keeper died, so it isn't known what its worker left: nothing may be left of any. The watchdog ends, too, if
        its member is there, which sees to what is left after a while."""
        seconds = self.rules.ttl / BEATS
        end_children(frozenset(), seconds, lambda left: None if self.is_alone else os._exit(1))
        if not self.is_alone:
            os._exit(1)
        for kept in self.keepers.values():
            kept.channel.close()
        self.keepers.clear()

    def stop(self, name: bytes, line: bytes) -> None:
        kept = self.by_key.get(name.split(b' ')[0])
        if kept is not None and kept.name == name:
            self.tell(kept, b'stop ' + name)

    def leave(self) -> None:
        self.unsent.clear()
        self.poll.unregister(self.channel)
        for kept in self.keepers.values():
            kept.channel.shutdown(socket.SHUT_WR)
            os.kill(kept.process, signal.SIGCONT)  # one that is stopped must see to its worker

    def say(self, message: bytes) -> None:
        self.unsent.append(message)

    def send(self) -> None:
        """Sends what the member takes at once."""
        with contextlib.suppress(BlockingIOError):
            while self.unsent and not self.is_alone:
                with contextlib.suppress(BrokenPipeError, ConnectionResetError):  # it is gone, which is heard soon
                    self.channel.send(self.unsent[0], socket.MSG_DONTWAIT)
                self.unsent.popleft()
        if not self.is_alone:
            self.poll.modify(self.channel, select.POLLIN | (select.POLLOUT if self.unsent else 0))


class KeeperWatchdog:
    """The watchdog of a member whose one keeper hears the member itself."""

    def __init__(self, channel: socket.socket, rules: Rules, of_member: MemberWatchdog) -> None:
        """Raises OSError if there can be no keeper."""
        self.rules, self.of_member = rules, of_member
        here = os.pidfd_open(os.getpid())
        self.process = fork_keeper(lambda: self.keep(channel, here))
        self.end = os.pidfd_open(self.process)
        os.close(here)
        channel.close()  # so the member hears of the keeper's end
        signal.signal(signal.SIGCONT, self.wake_keeper)

    def wake_keeper(self, *_: object) -> None:
        """This process was continued, as it is when its member dies: a keeper that is stopped must see to its
        worker."""
        with contextlib.suppress(ProcessLookupError):
            signal.pidfd_send_signal(self.end, signal.SIGCONT)

    def keep(self, channel: socket.socket, watchdog: int) -> None:
        """This process is the keeper."""
        self.of_member.looks = False  # the watchdog does
        keeper = Keeper(channel, self.rules, self.of_member)
        keeper.watchdog, keeper.woken = watchdog, woken_by_children()
        keeper.go_on()
        if keeper.may_release:
            release(keeper)

    def go_on(self) -> None:
        """Runs until the keeper has ended, and nothing is left. If the keeper died, the member, which hears of it, may
        be suspended."""
        poll = select.poll()
        poll.register(self.end, select.POLLIN)
        while not poll.poll(self.of_member.pause()):
            self.of_member.look()
        if os.waitpid(self.process, 0)[1]:
            end_children(frozenset(), self.rules.ttl / BEATS, lambda _: os._exit(1))
            os._exit(1)


def release(watchdog: Receiver) -> None:
    """Releases the lease of a member that is gone, if it knows how."""
    if watchdog.release:
        from bully import releasing  # it takes much memory

        releasing.release(watchdog.release, watchdog.rules.ttl)


def main() -> None:
    sys.excepthook = say_fault
    descriptor, patience, kind, file, ttl, *words = sys.argv[1:]
    channel = socket.socket(fileno=int(descriptor))
    channel.set_inheritable(False)
    # (Python ignores these two: a write fails then)
    default_signals(signal.valid_signals() - {signal.SIGPIPE, signal.SIGXFSZ})
    for number in ENDS:
        signal.signal(number, signal.SIG_IGN)
    signal.pthread_sigmask(signal.SIG_SETMASK, ())  # they were held back since before its first line
    adopt()
    signal_at_end_of_parent(signal.SIGCONT)
    rules, of_member = Rules(float(patience), kind == 'talks', float(ttl), words), MemberWatchdog(file, float(ttl))
    if kind == 'each':
        hub = Hub(channel, rules, of_member)
        hub.go_on()
        release(hub)
    else:
        try:
            watchdog = KeeperWatchdog(channel, rules, of_member)
        except OSError as error:
            say(f'no keeper of the worker can be started: {error.strerror}')
            sys.exit(1)
        watchdog.go_on()


if __name__ == '__main__':
    main()
