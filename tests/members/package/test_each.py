"""Tests of a worker for each partition, each below a keeper of its own; and of cooperative groups with one for all."""
from __future__ import annotations

import contextlib
import os
import resource
import signal
import socket
import sys
import threading
import unittest
from functools import partial
from pathlib import Path
from typing import NamedTuple

from bully import clocks, watchdog
from bully.work_failures import Failures, Health
from bully.worker import Kind, WatchdogLost, WorkerEnded, Workers
from ..processes import below, children, descriptors_of, freeze, has_stopped, is_running, parent_of, thaw
from ..waiting import PATIENCE, wait_until
from .below import Below, Timely, assigned

# A worker that leaves something to who is above it, and writes what it has got into the file of its partitions. It is
# `mild`, or `stubborn`, or ends as soon as there is a file with the name of its partition and an exit status.
WORKER = """
import os, signal, subprocess, sys, time
folder, way = sys.argv[1:]
if way == 'stubborn':
    signal.signal(signal.SIGTERM, signal.SIG_IGN)
orphan = subprocess.run(['sh', '-c', 'setsid sleep 1000 >/dev/null & echo $!'], stdout=subprocess.PIPE, text=True)
told = [os.environ[f'BULLY_{name}'] for name in ('PARTITIONS', 'TOKEN', 'NODE', 'COORDINATOR')]
name = told[0].replace(' ', '-')
with open(f'{folder}/new-{name}', 'w') as file:
    print(os.getpid(), int(orphan.stdout), *told[1:], os.environ.get('BULLY_PARTITION'), file=file)
os.rename(f'{folder}/new-{name}', f'{folder}/{name}')
while True:
    time.sleep(0.01)
    if os.path.exists(f'{folder}/end-{name}'):
        with open(f'{folder}/end-{name}') as file:
            status = int(file.read())
        os.remove(f'{folder}/end-{name}')
        sys.exit(status)
"""


class Begun(NamedTuple):
    """A worker that has begun, and what it has left."""

    process: int
    orphan: int
    token: int
    partition: str

    @property
    def is_there(self) -> bool:
        return is_running(self.process) and is_running(self.orphan)

    @property
    def is_gone(self) -> bool:
        return not is_running(self.process) and not is_running(self.orphan)


class InFiles(Below):
    """Workers that write what they have got into files."""

    def begin(self, way: str, patience: float = PATIENCE, seconds: float = 1000.0, ttl: float = 4.0) -> Timely:
        return self.made([sys.executable, '-c', WORKER, str(self.folder), way], patience, seconds, ttl)

    def begun(self, *partitions: int) -> Begun:
        """The worker that has begun with these partitions since this was asked last."""
        file = self.folder / '-'.join(map(str, partitions))
        wait_until(file.exists)
        process, orphan, token, node, coordinator, partition = file.read_text().split()
        file.unlink()
        self.assertEqual((node, coordinator), ('x', 'c'))
        return Begun(int(process), int(orphan), int(token), partition)

    def end(self, partitions: str, status: int) -> None:
        """The worker with these ends by itself."""
        (self.folder / 'new').write_text(str(status))
        os.rename(self.folder / 'new', self.folder / f'end-{partitions}')


class Whole(InFiles):
    """One worker for all, in a cooperative group."""

    def test_a_part_stops(self) -> None:
        """It ends with all that it left, then that is reported, and it starts again with what is left."""
        workers = self.begin('mild')
        workers.start(assigned(2, 0, 3, 5))
        before = self.begun(0, 3, 5)
        workers.ask_to_stop(3)
        wait_until(lambda: self.member.ends)
        self.assertTrue(before.is_gone)
        after = self.begun(0, 5)
        self.assertEqual((self.member.ends, before.token, after.token), ([{3}], 40000002, 40000002))
        workers.stop()
        self.assertTrue(after.is_gone)
        self.assertEqual((self.member.ends, self.failures, self.lost), ([{3}, {0, 5}], [], []))

    def test_more(self) -> None:
        """It starts again with all, by the new token, and no end is reported. With the same it goes on."""
        workers = self.begin('mild')
        workers.start(assigned(2, 0))
        first = self.begun(0)
        workers.start(assigned(3, 0), frozenset())
        workers.start(assigned(4, 0, 5), frozenset([5]))
        both = self.begun(0, 5)
        self.assertTrue(first.is_gone and both.is_there)
        self.assertEqual((first.token, both.token, self.member.ends), (40000002, 40000004, []))
        workers.start(assigned(5, 0, 5), frozenset())
        workers.stop()
        self.assertEqual(self.member.ends, [{0, 5}])
        self.assertFalse((self.folder / '0-5').exists(), 'it went on')

    def test_a_start_that_is_called_off(self) -> None:
        """What has to stop meanwhile isn't begun any more."""
        workers = self.begin('stubborn', patience=0.5)
        workers.start(assigned(2, 0))
        first = self.begun(0)
        workers.start(assigned(3, 0, 4, 5), frozenset([4, 5]))
        workers.ask_to_stop(5)
        left = self.begun(0, 4)
        self.assertTrue(first.is_gone and left.is_there)
        self.assertEqual((left.token, self.member.ends), (40000003, [{5}]))
        self.assertFalse((self.folder / '0-4-5').exists())
        workers.stop()

    def test_stops_in_a_row(self) -> None:
        """The second one comes while the process still ends for the first one."""
        workers = self.begin('stubborn', patience=0.5)
        workers.start(assigned(2, 0, 3, 5))
        first = self.begun(0, 3, 5)
        workers.ask_to_stop(3)
        workers.ask_to_stop(5)
        self.assertTrue(first.is_there)
        self.assertEqual(self.member.ends, [])
        self.assertTrue(self.begun(0).is_there)
        self.assertEqual((first.is_gone, self.member.ends), (True, [{3, 5}]))

    def test_a_part_stops_while_it_backs_off(self) -> None:
        """Nothing works, so that end is reported at once, and that of the rest after the back-off."""
        workers = self.begin('mild', ttl=5.0)
        workers.start(assigned(2, 0, 5))
        self.begun(0, 5)
        with self.assertLogs('bully', 'WARNING') as said:
            self.end('0-5', 7)
            wait_until(lambda: said.output)
        workers.ask_to_stop(5)
        wait_until(lambda: self.member.ends)
        self.assertGreater(workers.backoff_seconds, 0.0)
        wait_until(lambda: len(self.member.ends) == 2)
        self.assertEqual((self.member.ends, workers.backoff_seconds), ([{5}, {0}], 0.0))

    def test_what_comes_late(self) -> None:
        """What is said of an earlier process is dropped by both sides."""
        workers = self.begin('mild')
        workers.start(assigned(2, 0))
        self.begun(0)
        workers.stop()
        workers.start(assigned(3, 0))
        second = self.begun(0)
        late = (
            b'stopped all 1',
            b'lost all 1',
            b'ended all 1 0',
            b'ended all 1 9',
            b'answered all 1',
            b'held all 1 5',
            b'lost 7 1',
        )
        for message in late:
            workers._ask(partial(workers._hear, message))
        workers._ask(lambda: workers._send(b'stop all 1'))
        workers._ask(lambda: workers._send(b'begin all 1 BULLY_TOKEN=1'))
        workers.start(assigned(4, 0, 5), frozenset([5]))  # it is heard behind these
        third = self.begun(0, 5)
        self.assertTrue(second.is_gone and third.is_there)
        self.assertEqual((self.member.ends, self.failures, self.lost, workers.is_stuck), ([{0}], [], [], False))

    def test_a_late_begin(self) -> None:
        """One that names a process that has ended starts none."""
        workers = self.begin('mild')
        workers.start(assigned(2, 0))
        first = self.begun(0)
        workers.stop()
        workers._ask(lambda: workers._send(b'begin all 1 BULLY_TOKEN=1'))
        workers._ask(lambda: workers._send(b'stop all 1'))
        workers.start(assigned(3, 0))
        self.assertEqual((self.begun(0).token, first.is_gone), (40000003, True))
        self.assertEqual(len(below(workers._watchdog.pid)), 2, 'the worker, and what it left')


class Each(InFiles):
    """A worker for each partition."""

    kind = Kind.EACH

    def begin_both(self, way: str, patience: float = PATIENCE, ttl: float = 4.0) -> tuple[Timely, tuple[Begun, Begun]]:
        """Workers that have begun on partitions 0 and 5."""
        workers = self.begin(way, patience, ttl=ttl)
        workers.start(assigned(2, 0, 5))
        return workers, (self.begun(0), self.begun(5))

    def test_alone(self) -> None:
        """Each is told its own, starts and ends alone, and goes on over changes that leave it."""
        workers, (first, other) = self.begin_both('mild')
        self.assertEqual((first.token, first.partition, other.partition), (40000002, '0', '5'))
        workers.start(assigned(3, 0, 4, 5), frozenset([4]))
        third = self.begun(4)
        self.assertEqual((third.token, third.partition), (40000003, '4'))
        workers.ask_to_stop(5)
        wait_until(lambda: self.member.ends)
        self.assertEqual((self.member.ends, other.is_gone), ([{5}], True))
        self.assertTrue(first.is_there and third.is_there)
        workers.start(assigned(4, 0, 4, 5), frozenset([5]))
        self.assertEqual(self.begun(5).token, 40000004)
        workers.stop()
        self.assertTrue(first.is_gone and third.is_gone)
        self.assertEqual(sorted(list(each) for each in self.member.ends), [[0], [4], [5], [5]])
        self.assertEqual((self.failures, self.lost, children(workers._watchdog.pid)), ([], [], []))

    def test_a_stubborn_one(self) -> None:
        """One that doesn't stop is killed with what it left, and what others left stays."""
        workers, (first, other) = self.begin_both('stubborn', patience=0.3)
        workers.ask_to_stop(0)
        wait_until(lambda: self.member.ends)
        self.assertEqual((first.is_gone, other.is_there, self.member.ends), (True, True, [{0}]))

    def test_until(self) -> None:
        """All are killed at that moment, and begin again after that."""
        workers, both = self.begin_both('stubborn')
        workers.hear_until(clocks.seconds_of_boot() + 0.3)
        wait_until(lambda: self.member.working == frozenset())
        self.assertTrue(all(each.is_gone for each in both))
        self.assertEqual(len(self.lost), 2)
        workers.start(assigned(2, 0))
        wait_until(lambda: len(self.lost) == 3)  # too late
        workers.hear_until(clocks.seconds_of_boot() + 1000.0)
        workers.start(assigned(3, 0))
        self.assertEqual(self.begun(0).token, 40000003)

    def test_fails_alone(self) -> None:
        """One that fails backs off alone. The node's work fails as long as one of them does."""
        workers = self.begin('mild', ttl=8.0)
        failures = workers._failures = Failures(2, 8.0)
        workers.start(assigned(2, 0, 5))
        first, other = self.begun(0), self.begun(5)
        with self.assertLogs('bully', 'WARNING') as said:
            self.end('5', 7)
            wait_until(lambda: self.member.ends)
            told = 'the worker of partition 5 failed, with status 7, and is started again in 1.6 s'
            self.assertTrue(any(told in line for line in said.output), said.output)  # beside those of slow ends
            self.assertEqual((self.member.ends, first.is_there, other.is_gone), ([{5}], True, True))
            self.assertTrue(workers.is_failing)
            self.assertEqual(workers.about, '; its worker failed')
            workers.start(assigned(2, 0, 5), frozenset([5]))
            self.begun(5)
            self.end('5', 7)
            wait_until(lambda: len(said.output) == 2)
            workers.start(assigned(2, 0, 4, 5), frozenset([4]))
            self.begun(4)  # while the other one backs off
        self.assertIs(failures.health(clocks.seconds_of_boot()), Health.HOPELESS)
        wait_until(lambda: len(self.member.ends) == 2)
        workers.start(assigned(2, 0, 5), frozenset([5]))
        self.begun(5)
        self.assertTrue(workers.is_failing)
        workers.ask_to_stop(5)
        wait_until(lambda: len(self.member.ends) == 3)
        self.assertFalse(workers.is_failing, 'the partition has moved')
        self.assertEqual((first.is_there, self.member.ends), (True, [{5}] * 3))

    def test_ends_well(self) -> None:
        """One that has nothing more to do ends its member, as one for all does."""
        workers = self.begin('mild')
        workers.start(assigned(2, 0, 5))
        self.begun(0)
        self.begun(5)
        self.end('5', 0)
        wait_until(lambda: self.failures)
        self.assertEqual([type(each) for each in self.failures], [WorkerEnded])
        workers.stop()
        self.assertEqual(self.lost, [])

    def test_a_keeper_dies(self) -> None:
        """Its worker dies, and then all that is left of any: of which worker that is, isn't known any more."""
        workers, both = self.begin_both('stubborn')
        os.kill(parent_of(both[0].process), signal.SIGKILL)
        wait_until(lambda: self.failures)
        workers.stop()
        self.assertTrue(all(each.is_gone for each in both))
        self.assertEqual([type(each) for each in self.failures], [WatchdogLost])

    def test_a_keeper_dies_while_its_member_is_stopped(self) -> None:
        """The watchdog itself ends all that is left, also what the workers left."""
        workers, both = self.begin_both('stubborn')
        goes_on = threading.Event()
        self.addCleanup(goes_on.set)
        workers._ask(goes_on.wait)
        os.kill(parent_of(both[0].process), signal.SIGKILL)
        wait_until(lambda: all(each.is_gone for each in both))
        self.assertEqual((self.failures, self.member.ends), ([], []))
        goes_on.set()
        wait_until(lambda: self.failures)

    def test_a_keeper_is_stopped_as_its_member_goes(self) -> None:
        """It continues, and ends its worker."""
        workers, both = self.begin_both('stubborn', patience=1.0)
        keeper = parent_of(both[0].process)
        os.kill(keeper, signal.SIGSTOP)
        wait_until(lambda: has_stopped(keeper))
        workers._is_closed = True
        workers._channel.shutdown(socket.SHUT_WR)
        self.assertEqual(workers._watchdog.wait(PATIENCE), 0)
        self.assertTrue(all(each.is_gone for each in both))

    def test_a_keeper_is_stopped(self) -> None:
        """It doesn't kill its worker in time: so its member does."""
        workers, both = self.begin_both('stubborn', ttl=1.0)
        keeper = parent_of(both[0].process)
        os.kill(keeper, signal.SIGSTOP)
        wait_until(lambda: has_stopped(keeper))
        workers.hear_until(clocks.seconds_of_boot() + 0.1)
        wait_until(lambda: self.failures)
        wait_until(lambda: all(each.is_gone for each in both))
        self.assertEqual([type(each) for each in self.failures], [WatchdogLost])

    def test_the_watchdog_dies(self) -> None:
        """All end, with their keepers."""
        workers, both = self.begin_both('stubborn')
        keepers = [parent_of(each.process) for each in both]
        workers._watchdog.kill()
        workers.stop()
        self.assertTrue(all(each.is_gone for each in both) and not any(map(is_running, keepers)))
        self.assertEqual([type(each) for each in self.failures], [WatchdogLost])

    def test_a_member_that_is_gone(self) -> None:
        """All end, at the latest after what they have for a stop."""
        workers, both = self.begin_both('stubborn', patience=1.0)
        workers._is_closed = True  # so that it leaves them to the watchdog
        workers._channel.shutdown(socket.SHUT_WR)
        wait_until(lambda: all(each.is_gone for each in both))
        self.assertEqual(workers._watchdog.wait(PATIENCE), 0)

    def test_a_keeper_dies_after_its_member(self) -> None:
        """What its worker left falls to the watchdog, which ends all that is left, and then itself."""
        workers, both = self.begin_both('stubborn', patience=1000.0)
        keepers = [parent_of(each.process) for each in both]
        workers._is_closed = True
        workers._channel.shutdown(socket.SHUT_WR)
        os.kill(keepers[0], signal.SIGKILL)
        self.assertEqual(workers._watchdog.wait(PATIENCE), 0)
        self.assertTrue(all(each.is_gone for each in both) and not any(map(is_running, keepers)))

    def test_held(self) -> None:
        """One that doesn't end though it was killed is waited for; others end, and begin."""
        workers, (first, other) = self.begin_both('stubborn', patience=0.1, ttl=1.0)
        freeze(self, first.process)
        with self.assertLogs('bully', 'ERROR') as said:
            workers.ask_to_stop(0, 5)
            wait_until(lambda: said.output and self.member.ends)
        self.assertTrue(said.output[0].endswith(f'[{first.process}]'), said.output)
        self.assertEqual((self.member.ends, other.is_gone), ([{5}], True))
        workers.start(assigned(3, 5), frozenset([5]))
        self.assertTrue(self.begun(5).is_there)
        wait_until(lambda: workers.is_stuck)
        self.assertEqual((self.failures, self.member.stuck), ([], []))
        thaw(first.process)
        wait_until(lambda: len(self.member.ends) == 2)
        self.assertFalse(workers.is_stuck)

    def test_too_many(self) -> None:
        """If no more can be started that one fails, and is tried again; others go on."""
        workers = self.begin('mild', ttl=1.0)
        workers.start(assigned(2, 0))
        first, watchdog = self.begun(0), workers._watchdog.pid
        limit = resource.prlimit(watchdog, resource.RLIMIT_NOFILE)
        resource.prlimit(watchdog, resource.RLIMIT_NOFILE, (descriptors_of(watchdog), limit[1]))
        with self.assertLogs('bully', 'WARNING') as said:
            workers.start(assigned(3, 0, 5), frozenset([5]))
            wait_until(lambda: self.member.ends)
        self.assertIn('the worker of partition 5 failed, with status 127', said.output[0])
        resource.prlimit(watchdog, resource.RLIMIT_NOFILE, limit)
        workers.start(assigned(3, 0, 5), frozenset([5]))
        self.begun(5)
        self.assertEqual((first.is_there, self.failures), (True, []))

    def test_the_last_descriptors(self) -> None:
        """Two are enough to start one more, which stops like any other."""
        workers = self.begin('mild', ttl=1.0)
        workers.start(assigned(2, 0))
        self.begun(0)
        watchdog = workers._watchdog.pid
        highest = resource.prlimit(watchdog, resource.RLIMIT_NOFILE)[1]
        resource.prlimit(watchdog, resource.RLIMIT_NOFILE, (descriptors_of(watchdog) + 2, highest))
        workers.start(assigned(3, 0, 5), frozenset([5]))
        fifth = self.begun(5)
        workers.stop()
        self.assertEqual((fifth.is_gone, self.failures, self.lost), (True, [], []))

    def test_limit_of_descriptors(self) -> None:
        """The watchdog has as many as it can get, and a worker as many as the member."""
        before = resource.getrlimit(resource.RLIMIT_NOFILE)
        self.addCleanup(resource.setrlimit, resource.RLIMIT_NOFILE, before)
        limits = min(512, before[1]), before[1]
        resource.setrlimit(resource.RLIMIT_NOFILE, limits)
        workers = self.begin('mild')
        workers.start(assigned(2, 0))
        first = self.begun(0)
        self.assertEqual(resource.prlimit(first.process, resource.RLIMIT_NOFILE), limits)
        self.assertEqual(resource.prlimit(workers._watchdog.pid, resource.RLIMIT_NOFILE), (before[1], before[1]))

    def test_starts_as_soon_as_it_has_stopped(self) -> None:
        """Each is started at its first attempt: nothing is reported as lost."""
        workers = self.begin('mild')
        for events in range(2, 22):
            workers.start(assigned(events, 5))
            self.begun(5)
            workers.stop()
        self.assertEqual(self.lost, [])

    def test_descriptors(self) -> None:
        """Workers that come and go leave none in the watchdog, and a keeper has none but its own."""
        workers = self.begin('mild')
        workers.start(assigned(2, 0))
        self.begun(0)
        count = descriptors_of(workers._watchdog.pid)
        for events in range(3, 6):
            workers.start(assigned(events, 0, 4, 5), frozenset([4, 5]))
            last = [self.begun(4), self.begun(5)][1]
            keeper = parent_of(last.process)
            sockets = [each for each in Path(f'/proc/{keeper}/fd').iterdir() if 'socket' in os.readlink(each)]
            self.assertEqual(len([each for each in sockets if int(each.name) > 2]), 1)
            workers.ask_to_stop(4, 5)
            wait_until(lambda: self.member.working == {0})
        self.assertEqual(descriptors_of(workers._watchdog.pid), count)

    def test_what_comes_late(self) -> None:
        """A stop of an earlier process of a partition, and what is heard of it, is dropped."""
        workers = self.begin('mild')
        workers.start(assigned(2, 5))
        self.begun(5)
        workers.stop()
        workers.start(assigned(3, 5))
        second = self.begun(5)
        workers._ask(lambda: workers._send(b'stop 5 1'))
        workers._ask(lambda: workers._hear(b'stopped 5 1'))
        workers._ask(lambda: workers._hear(b'lost 5 1'))
        workers.start(assigned(4, 0, 5), frozenset([0]))  # it is heard behind these
        self.begun(0)
        self.assertEqual((second.is_there, self.member.ends), (True, [{5}]))


class Reports(unittest.TestCase):
    """What the watchdog passes on of a keeper, and what it hears of the member."""

    def test_an_earlier_moment(self) -> None:
        """Until when work is sure: if a lease was taken away, a later moment that was to be sent before doesn't
        count."""
        workers = Workers(['true'], 'x', 1.0)
        workers._woken, workers._wakes = socket.socketpair()
        workers._channel, watchdog_end = socket.socketpair(socket.AF_UNIX, socket.SOCK_SEQPACKET)
        for each in (workers._woken, workers._wakes, workers._channel, watchdog_end):
            self.addCleanup(each.close)
        workers.hear_until(5.0)
        workers._send(b'until 5000000000')
        workers.hear_until(2.0)
        workers._do_asked()
        workers._flush()
        told = [watchdog_end.recv(100, socket.MSG_DONTWAIT) for _ in range(4)]
        self.assertEqual(
            [message.split()[1] for message in told], [b'5000000000', b'2000000000', b'5000000000', b'2000000000']
        )

    def test_the_last_one(self) -> None:
        """It waits for the keeper's end: then another one may begin."""
        self.addCleanup(resource.setrlimit, resource.RLIMIT_NOFILE, resource.getrlimit(resource.RLIMIT_NOFILE))
        pairs = [socket.socketpair(socket.AF_UNIX, socket.SOCK_SEQPACKET) for _ in range(2)]
        for each in (end for pair in pairs for end in pair):
            self.addCleanup(each.close)
        (member, given), (mine, keeper) = pairs
        hub = watchdog.Hub(given, watchdog.Rules(1.0, False, 4.0, ['true']), watchdog.MemberWatchdog('', 4.0))
        kept = watchdog.KeeperProcess(b'5 1', mine, os.posix_spawnp('true', ['true'], os.environ))
        hub.keepers[mine.fileno()] = hub.by_key[b'5'] = kept
        hub.poll.register(mine)
        for message, heard in ((b'begun 5 1', b'begun 5 1'), (b'stopped 5 1', b''), (b'', b'stopped 5 1')):
            keeper.send(message) if message else keeper.close()
            hub.hear_keeper(kept)
            hub.send()
            with contextlib.suppress(BlockingIOError):
                self.assertEqual(member.recv(100, socket.MSG_DONTWAIT), heard)
                heard = b''
            self.assertEqual(heard, b'')
        self.assertEqual((hub.keepers, hub.by_key), ({}, {}))


class Told(Below):
    """A member that is stopped."""

    kind = Kind.EACH

    def test_many_that_are_not_heard(self) -> None:
        """Its watchdog doesn't wait for it: it has still to kill a member that is stopped in a write."""
        workers = self.made(['sleep', '1000'], ttl=20 * PATIENCE)  # its member would kill a watchdog that is later
        count = 400  # more messages than a socket has room for
        workers._ask(lambda: self.deafen(workers, count))
        wait_until(lambda: len(self.lost) == count)
        self.assertEqual((self.failures, self.is_polling), ([], True))

    def deafen(self, workers: Timely, count: int) -> None:
        """Asks for work whose time is over, and hears nothing for a while."""
        watchdog = workers._watchdog.pid
        workers.hear_until(clocks.seconds_of_boot() - 1)
        work = assigned(2, *range(count))
        self.member.starts(work, frozenset(work.partitions))
        workers._start(work, frozenset(work.partitions))
        while workers._unsent:
            workers._flush()
        wait_until(lambda: is_asleep(watchdog))
        self.is_polling = poll_of(watchdog)


def poll_of(process: int) -> bool:
    """Whether the process waits for whatever comes first, and not until something is sent: by its system call, if that
    may be read, on x86 or ARM of 64 bits."""
    try:
        return Path(f'/proc/{process}/syscall').read_text().split()[0] not in ('44', '206')
    except OSError:
        return True


def is_asleep(process: int) -> bool:
    """Whether the process waits for something."""
    return Path(f'/proc/{process}/stat').read_text().rsplit(')', 1)[1].split()[0] == 'S'
