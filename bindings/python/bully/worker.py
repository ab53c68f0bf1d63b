"""The workers of `bully-member`: processes that work while their node owns partitions, under the watchdog of their
member."""
from __future__ import annotations

import enum
import json
import logging
import os
import select
import socket
import subprocess
import sys
import threading
from collections import deque
from collections.abc import Callable, Collection, Sequence
from contextlib import suppress
from pathlib import Path
from typing import BinaryIO, Deque

from .boots import check_one_clock
from .clocks import SECOND, seconds_of_boot, sleep_until_ready, wall_clock
from .core import Session
from .member import Member
from .processes import adopt, end_children, held_back, is_there, let_children_end, listed_children, may_kill
from .watchdog import BEATS
from .work_failures import ALL, Failures
from .worker_states import PartitionState, TalkerState, WorkerState
from .working import Assignment, log_work

WATCHDOG = str(Path(__file__).with_name('watchdog.py'))
SILENT = 2  # checks, a twentieth of the ttl apart, after which a silent watchdog is killed
STARTS = 5.0  # seconds that a watchdog takes to start, at most
STUCK_WAIT = 0.1  # seconds between two checks of processes that don't end
PART_MAX = 100_000  # bytes of a part of a message to the watchdog: every socket has room for so many
MESSAGE_MAX = 1000  # bytes of a message of the watchdog
SETTINGS_MAX = (1 << 17) - len('BULLY_SETTINGS=') - 1  # bytes: a variable of an environment can't have more
OF_WORK = {
    f'BULLY_{name}'
    for name in ('NODE', 'TOKEN', 'PARTITIONS', 'PARTITION', 'COORDINATOR', 'SETTINGS', 'SETTINGS_FILE', 'ANSWERS')
}  # fmt: skip
SURVIVORS_TOLD = (
    'these processes may work on, because SIGKILL has not ended them; nothing is started here before they end: %s'
)
UNSURE = 'this process was suspended, or could not renew it'
UNLISTED = 'the kernel does not list the children of a process, so the processes of a worker could not be ended'

_logger = logging.getLogger('bully')


class Kind(enum.Enum):
    """Which workers a node has: one for all its partitions, which ends at changes of these; one for each partition; one
    that stays over changes, and hears of them."""

    WHOLE, EACH, TALKS = 'ends', 'each', 'talks'


class WatchdogLost(Exception):
    """The watchdog died, or was killed because it was silent."""


class ChildrenUnlisted(Exception):
    """The kernel doesn't list the children of a process, so the processes of a worker couldn't be found and ended."""


class WorkerStuck(Exception):
    """A worker didn't end, though it was killed, and its member must leave. Its lease ends by itself."""


class WorkerEnded(Exception):
    """A worker ended by itself."""

    def __init__(self, status: int) -> None:
        super().__init__(f'the worker ended by itself, with status {status}')
        self.status = status


def children_listed() -> set[int]:
    """The children of this process. Raises ChildrenUnlisted."""
    try:
        return listed_children()
    except OSError as fault:
        raise ChildrenUnlisted(f'{UNLISTED}: {fault} (the kernel needs CONFIG_PROC_CHILDREN)') from fault


class Workers:
    """The work of a member that is done by processes, which the watchdog beside the member starts and stops. It is a
    `Working`: what it is asked for, it does in a thread of its own."""

    def __init__(
        self,
        words: Sequence[str],
        node: str,
        patience: float,
        kind: Kind = Kind.WHOLE,
        failures: Failures | None = None,
    ) -> None:
        """The words of the worker's command; the name of its node; how many seconds it may take to stop; which workers
        there are; and a count of their failures."""
        self._words, self._node, self._patience, self._kind = words, node, patience, kind
        self._failures = failures or Failures()
        # After `watch`:
        self._member: Member
        self._others: set[int]  # the children that this process had before
        self._watchdog: subprocess.Popen[bytes]
        self._channel: socket.socket  # to the watchdog
        self._settings: BinaryIO  # the file with the settings, which the workers read
        self._woken: socket.socket  # can be read once there is something to do
        self._wakes: socket.socket
        self._thread: threading.Thread  # does what is asked for, and receives the messages of the watchdog
        self._releases: Callable[[Session], bytes] | None = None
        self._workers: dict[str, WorkerState] = {}  # by their keys
        self._asked: Deque[Callable[[], object]] = deque()  # what the thread has to do
        self._unsent: Deque[bytes] = deque()  # what the watchdog hasn't taken yet
        self._shared = b''  # what the watchdog shares
        self._until = 0  # in nanoseconds of CLOCK_BOOTTIME
        self._silent, self._checked = 0, 0.0  # checks in a row that found the watchdog silent; when it was last checked
        self._heard = 0.0  # when the watchdog last reported something
        self._survivors: list[int] = []  # processes of workers that are still there, though this process killed them
        self._is_lost = self._is_closed = self._is_given_up = False
        self._waiting: list[threading.Event] = []  # set once nothing is worked on
        self._ending = threading.Lock()  # held by the thread that waits for children

    def watch(self, member: Member, file: str = '', releases: Callable[[Session], bytes] | None = None) -> None:
        """Starts the watchdog, before the member runs. If the log is a file, the watchdog also kills this process if
        that stays stopped in the middle of a write. `releases` says how the lease of a session is released: the
        watchdog does that once this process is gone, and nothing is left of a worker. This process kills what a
        watchdog that died leaves. Raises ForeignLog and ChildrenUnlisted."""
        check_one_clock()
        self._member, self._others = member, children_listed()
        self._releases = releases
        adopt()
        self._settings = os.fdopen(os.memfd_create('settings'), 'wb')
        self._woken, self._wakes = socket.socketpair()
        self._channel, given = socket.socketpair(socket.AF_UNIX, socket.SOCK_SEQPACKET)
        more = [self._kind.value, f'{os.path.realpath(file)}-shm' if file else '', str(member.ttl)]
        command = [sys.executable, '-I', '-S', WATCHDOG, str(given.fileno()), str(self._patience), *more, *self._words]
        others = {name: value for name, value in os.environ.items() if name not in OF_WORK}  # not of another member
        environment = {**others, 'BULLY_NODE': self._node}
        with given, held_back():  # these signals would end a watchdog that hasn't come to its first line
            self._watchdog = subprocess.Popen(
                command, env=environment, stdin=subprocess.DEVNULL, pass_fds=[given.fileno()], start_new_session=True
            )
        self._thread = threading.Thread(target=self._run, name='bully watchdog', daemon=True)
        self._thread.start()

    # What the member asks for.

    def begin(self) -> None:
        """The watchdog is there."""

    def start(self, assignment: Assignment, added: frozenset[int]) -> None:
        self._log('starts', added, assignment)
        self._ask(lambda: self._start(assignment, added))

    def stop(self, assignment: Assignment | None, partitions: frozenset[int]) -> None:
        if partitions:
            self._log('stops', partitions, assignment)
        self._ask(lambda: self._stop(assignment, partitions))

    def end(self) -> None:
        """Returns once nothing is worked on any more; or if the member can't wait for that."""
        done = threading.Event()
        self._ask(lambda: self._stop_all(done))
        while not done.wait(STUCK_WAIT) and self._thread.is_alive() and not self._is_given_up:
            pass

    def hear_until(self, until: float) -> None:
        """The workers may go on until then, in seconds of CLOCK_BOOTTIME."""
        before, self._until = self._until, int(until * SECOND)
        self._tell_now(f'until {self._until}'.encode())  # if that isn't taken an earlier moment applies
        if self._until < before:  # what isn't sent yet may have the later one
            self._ask(lambda: self._send(f'until {self._until}'.encode()))

    def hear_session(self, session: Session) -> None:
        """This session may hold the lease of the node from now on."""
        if self._releases is not None:
            self._tell_now(b'release ' + self._releases(session))

    def forget_session(self) -> None:
        """No session holds the lease of the node any more."""
        self._tell_now(b'release ')

    def _tell_now(self, message: bytes) -> None:
        with suppress(OSError):  # the watchdog is stopped, and has much to read; or it is gone
            self._channel.send(message, socket.MSG_DONTWAIT)

    def close(self) -> None:
        """Returns once nothing is left of the workers and the watchdog; or at once if a worker is stuck."""
        self._is_closed = True
        with suppress(OSError):
            self._channel.shutdown(socket.SHUT_WR)
        self._wake()
        if self.is_stuck:
            return
        self._thread.join(self._patience + self._member.ttl)  # until the watchdog has ended
        self._end_all()
        self._thread.join()
        for each in (self._channel, self._woken, self._wakes):
            each.close()
        self._settings.close()

    def _ask(self, call: Callable[[], object]) -> None:
        """The thread calls this soon."""
        self._asked.append(call)
        self._wake()

    def _wake(self) -> None:
        with suppress(OSError):  # it has much to read, or has ended
            self._wakes.send(b'.', socket.MSG_DONTWAIT)

    def _log(self, does: str, partitions: Collection[int], assignment: Assignment | None) -> None:
        log_work(self._node, does, partitions, None if assignment is None else assignment.token)

    # How it goes, for any thread.

    @property
    def stopping_seconds(self) -> float:
        """How many seconds ago a worker was asked to stop, if it hasn't: the longest of these times."""
        begun = [each.stop_begun for each in list(self._workers.values())]
        return max((seconds_of_boot() - moment for moment in begun if moment is not None), default=0.0)

    @property
    def is_stuck(self) -> bool:
        """Whether some of a worker's processes are still there a ttl after they should have been killed."""
        return bool(self._stuck())

    def _stuck(self) -> list[int]:
        """These processes."""
        latest = seconds_of_boot() - self._patience - self._failures.ttl
        asked = [(each, each.stop_begun) for each in list(self._workers.values())]
        late = [each for each, moment in asked if moment is not None and moment < latest]
        return [process for each in late for process in each.survivors or self._survivors if is_there(process)]

    @property
    def is_failing(self) -> bool:
        """Whether its node owns what no worker works on: a worker failed, and hasn't worked for a ttl since."""
        return self._owns and self._failures.is_failing(seconds_of_boot())

    @property
    def _owns(self) -> bool:
        return any(each.working for each in list(self._workers.values()))

    @property
    def killed(self) -> int:
        """How often the watchdog killed a worker, because the lease wasn't sure any more."""
        return self._failures.killed[0]

    @property
    def about(self) -> str:
        """For people: that a worker is stopping, or backs off after a failure, or was started again since."""
        stopping = self.stopping_seconds
        if stopping:
            return f'; its worker has not stopped for {stopping:.1f} s'
        backoff = self.backoff_seconds
        fails = '; its worker failed' if self.is_failing else ''
        return f'; its worker failed, and backs off for {backoff:.1f} s' if backoff else fails

    @property
    def backoff_seconds(self) -> float:
        """For how many seconds a worker still backs off after a failure: the longest of these times."""
        return self._failures.backoff_seconds(seconds_of_boot())

    # The thread. It does for its workers what their states ask for.

    def _run(self) -> None:
        """Does its work up to `close`. If that raises an exception, which is a bug, the member ends; the watchdog then
        ends the workers."""
        try:
            self._go_on()
        except BaseException as fault:
            self._is_given_up = True
            self._member.get_stuck(fault)

    def _go_on(self) -> None:
        """Does what it is asked for, and hears the watchdog, until that ends after `close`."""
        while not self._is_lost or not self._is_closed:
            ready = self._awaited()
            self._do_asked()
            if self._channel.fileno() in ready and not self._is_lost:
                self._hear_all()
            self._see_time()
            self._flush()

    def _awaited(self) -> set[int]:
        """The descriptors that are ready, once some are, or it is time to look after the workers."""
        poll = select.poll()
        poll.register(self._woken, select.POLLIN)
        if not self._is_lost:
            poll.register(self._channel, select.POLLIN | (select.POLLOUT if self._unsent else 0))
        return {descriptor for descriptor, _ in poll.poll(1000 * self._pause() + 1)}

    def _pause(self) -> float:
        """For how many seconds it needn't look after the workers: the moment to kill them is mostly far away."""
        now, ttl, workers = seconds_of_boot(), self._member.ttl, self._workers.values()
        left = self._until / SECOND - now if any(worker.may_work for worker in workers) else ttl
        beat = max(ttl / BEATS, min(left, 0.0 if self._silent else ttl / 4))
        retries = [worker.retry_at - now for worker in workers if worker.retry_at is not None]
        return max(0.0, min([beat, *retries, *[STUCK_WAIT] * any(worker.survivors for worker in workers)]))

    def _do_asked(self) -> None:
        """Does what it was asked for."""
        with suppress(BlockingIOError):
            self._woken.recv(4096, socket.MSG_DONTWAIT)
        while self._asked:
            self._asked.popleft()()
        while self._waiting and not self._owns:
            self._waiting.pop().set()

    def _start(self, assignment: Assignment, added: frozenset[int]) -> None:
        now = seconds_of_boot()
        if self._kind is Kind.EACH:
            for partition in sorted(added):
                self._worker(str(partition), PartitionState).start(assignment, (partition,), now)
        else:
            self._worker(ALL, TalkerState if self._kind is Kind.TALKS else WorkerState).start(assignment, added, now)

    def _worker(self, key: str, kind: type[WorkerState]) -> WorkerState:
        """The worker of this key, which is of this kind."""
        if key not in self._workers:
            self._workers[key] = kind(key, self, self._failures)
        return self._workers[key]

    def _stop(self, assignment: Assignment | None, partitions: frozenset[int]) -> None:
        for worker in list(self._workers.values()):
            worker.stop(assignment, partitions, seconds_of_boot())

    def _stop_all(self, done: threading.Event) -> None:
        self._waiting.append(done)
        for worker in list(self._workers.values()):
            worker.stop(None, worker.working, seconds_of_boot())

    def begin_process(self, worker: WorkerState, assignment: Assignment) -> bool:
        if self._is_lost:
            return False
        self._send(f'until {self._until}'.encode())
        if self._kind is Kind.TALKS:
            words = self._line(assignment)
        else:
            partitions = ' '.join(map(str, assignment.partitions))
            own = {'TOKEN': str(assignment.token), 'PARTITIONS': partitions}
            words = variables({**own, **({'PARTITION': partitions} if self._kind is Kind.EACH else {})})[:-1]
            self._share(assignment)
        self._send_long(f'begin {worker.key} {worker.serial} ', words)
        return True

    def _line(self, assignment: Assignment) -> bytes:
        """What a worker that talks hears of this."""
        settings = json.loads(assignment.settings.text(self._member.ttl, self._member.margin))
        coordinator = assignment.settings.name(assignment.coordinator)
        document = {'begin': assignment.token, 'partitions': assignment.partitions, 'coordinator': coordinator}
        return json.dumps({**document, 'settings': settings}).encode()

    def _share(self, assignment: Assignment) -> None:
        """Tells the watchdog what all workers have in their environment: the coordinator, and the settings, by a file,
        and by the text itself if the environment has room for it."""
        settings = assignment.settings.text(self._member.ttl, self._member.margin)
        text, file = settings.encode('utf-8', 'surrogateescape'), f'/proc/{os.getpid()}/fd/{self._settings.fileno()}'
        named = {'COORDINATOR': assignment.settings.name(assignment.coordinator), 'SETTINGS_FILE': file}
        shared = variables({**named, **({'SETTINGS': settings} if len(text) <= SETTINGS_MAX else {})})
        if shared != self._shared or len(text) > SETTINGS_MAX:
            Path(file).write_bytes(text)
            self._shared = shared
            self._send_long('share ', shared)

    def stop_process(self, worker: WorkerState, line: str) -> None:
        self._send(f'stop {worker.key} {worker.serial}{line and " "}{line}'.encode())

    def report(self, partitions: Collection[int]) -> None:
        self._member.ended(partitions)

    def report_end(self) -> None:
        self._member.end_with(WorkerEnded(0))

    def report_failure(self, worker: WorkerState, status: int, backoff: float) -> None:
        said = 'the worker%s failed, with status %d, and is started again in %.1f s'
        _logger.warning(said, worker_text(worker), status, backoff)

    def _send_long(self, begin: str, words: bytes) -> None:
        """A message in parts, each of which the channel has room for."""
        *parts, last = (words[first : first + PART_MAX] for first in range(0, max(1, len(words)), PART_MAX))
        for part in parts:
            self._send(b'part ' + part)
        self._send(begin.encode() + last)

    def _send(self, message: bytes) -> None:
        """Sends it before the thread waits again, or once the watchdog takes it."""
        self._unsent.append(message)

    def _flush(self) -> None:
        """Sends what the watchdog takes at once."""
        with suppress(BlockingIOError):
            while self._unsent:
                with suppress(BrokenPipeError, ConnectionResetError):  # it is gone, which is heard soon
                    self._channel.send(self._unsent[0], socket.MSG_DONTWAIT)
                self._unsent.popleft()

    def _hear_all(self) -> None:
        """Takes the messages of the watchdog that are there."""
        with suppress(BlockingIOError):
            while not self._is_lost:
                with suppress(ConnectionResetError):  # raised once, before its messages, if it didn't read all
                    self._hear(self._channel.recv(MESSAGE_MAX, socket.MSG_DONTWAIT))

    def _hear(self, message: bytes) -> None:
        """Handles a message, or an empty one if the watchdog is gone. One of an earlier process is dropped."""
        if not message:
            self._lose_watchdog()
            return
        word, key, serial, *more = message.decode().split()
        worker = self._workers.get(key)
        if worker is None or not worker.is_there or worker.serial != int(serial):
            return
        worker.is_unheard, self._heard = False, seconds_of_boot()
        if word == 'held':
            worker.survivors = list(map(int, more))
            self._say_survivors(worker.survivors)
        elif word == 'answered':
            worker.answered(seconds_of_boot())
        elif word != 'begun':
            if word == 'lost' and more:
                self._say_killed(worker, int(more[0]) / SECOND)
            worker.gone(word, int(more[0]) if more else 0, seconds_of_boot())

    def _say_killed(self, worker: WorkerState, moment: float) -> None:
        """The watchdog killed it at that moment, in seconds of CLOCK_BOOTTIME."""
        ago = seconds_of_boot() - moment
        self._failures.note_killed(wall_clock() - int(1000 * ago))
        said = 'the watchdog killed the worker%s %.1f s ago, because the lease was not sure any more: %s'
        _logger.warning(said, worker_text(worker), ago, UNSURE)

    def _see_time(self) -> None:
        """Looks after workers that back off, or don't end, and after the watchdog. A silent one is killed."""
        now, ttl, workers = seconds_of_boot(), self._member.ttl, list(self._workers.values())
        for worker in workers:
            if worker.retry_at is not None and now >= worker.retry_at:
                worker.retry()
        self._see_stuck()
        if self._is_lost or now < self._checked + ttl / BEATS:
            return
        self._checked, self._silent = now, self._silent + 1 if any(map(self._is_late, workers)) else 0
        if self._silent >= SILENT and not sleep_until_ready(0.0, self._channel.fileno()):
            self._lose_watchdog(is_silent=True)

    def _is_late(self, worker: WorkerState) -> bool:
        """Whether the watchdog is a twentieth of the ttl late to kill the worker, or a ttl to report that it started or
        stopped. To start many takes longer, but meanwhile it reports others."""
        stop_begun, now, ttl = worker.stop_begun, seconds_of_boot(), self._member.ttl
        is_late = worker.may_work and now > max(worker.begun, self._until / SECOND) + ttl / BEATS
        is_deaf = worker.is_unheard and now > max(worker.begun, self._heard) + ttl + STARTS
        is_stuck = stop_begun is not None and now > stop_begun + self._patience + ttl
        return not worker.survivors and (is_late or is_deaf or is_stuck)

    def _see_stuck(self) -> None:
        """A member that must leave doesn't wait for processes that it may kill: they were killed, and do nothing any
        more."""
        stuck = self._stuck()
        if stuck and not self._is_given_up and self._member.is_leaving and all(map(may_kill, stuck)):
            self._is_given_up = True
            seconds = f'{self.stopping_seconds:.1f} s'
            why = f'the worker was killed, and has not ended for {seconds}; the lease of its node ends by itself'
            self._member.get_stuck(WorkerStuck(why))

    def _lose_watchdog(self, is_silent: bool = False) -> None:
        """The watchdog has ended, or has to. Unless it is silent, the other one of watchdog and keeper ends what is
        left now, and nothing else would if this process killed that, and were suspended at the same moment."""
        self._is_lost = True
        self._unsent.clear()
        if self._is_closed:
            return
        self._member.end_with(WatchdogLost('the watchdog of the worker died'))
        self._end_all(self._wait_meanwhile, 0.0 if is_silent else 2 * self._member.ttl / BEATS)
        for worker in list(self._workers.values()):
            worker.give_up()

    def _wait_meanwhile(self) -> None:
        """What else it does while it waits for processes."""
        self._do_asked()
        self._see_stuck()

    def _end_all(self, meanwhile: Callable[[], object] = lambda: None, seconds: float = 0.0) -> None:
        """Returns once nothing is left of the watchdog, and of what it started, which may end for so many seconds
        before it is killed."""
        with self._ending:
            let_children_end(self._others, seconds, meanwhile)
            self._watchdog.kill()
            end_children(self._others, self._member.ttl / BEATS, self._hold, meanwhile)
            self._watchdog.wait()
            self._survivors = []

    def _hold(self, processes: list[int]) -> None:
        """These processes are still there, though this one killed them."""
        self._survivors = processes
        self._say_survivors(processes)

    def _say_survivors(self, processes: list[int]) -> None:
        _logger.error(SURVIVORS_TOLD, processes or 'they are not listed')


def worker_text(worker: WorkerState) -> str:
    """Which of the node's workers it is."""
    return '' if worker.key == ALL else f' of partition {worker.key}'


def variables(named: dict[str, str]) -> bytes:
    """These variables as words of an environment, each with its end."""
    return ''.join(f'BULLY_{name}={value}\0' for name, value in named.items()).encode('utf-8', 'surrogateescape')
