"""Tests of workers that stay over changes."""
from __future__ import annotations

import json
import socket
import subprocess
import sys
from functools import partial
from pathlib import Path
from typing import Any

from bully import Setup, clocks, watchdog
from bully.epochs import Token
from bully.member import Assignment
from bully.settings import Settings
from bully.worker import WATCHDOG, Kind
from places import ROOT
from ..processes import below, descriptors_of, is_running
from ..waiting import PATIENCE, wait_until
from .below import Below, Timely, assigned

# One that stays, and writes what it is told. It is `silent`, or answers too often, or by a `longer` line, or ends in
# place of an answer, or at its second begin.
TALKING = """
import json, os, sys, time
folder, way = sys.argv[1:]
begun, answers = 0, os.fdopen(int(os.environ['BULLY_ANSWERS']), 'w', buffering=1)
for line in sys.stdin:
    told = json.loads(line)
    begun += 'begin' in told
    if way == 'early' and 'begin' in told:
        print('stopped', file=answers)
    with open(f'{folder}/told', 'a') as file:
        file.write(f'{os.getpid()} {line}')
    if 'stop' in told and way in ('talks', 'fails') or way == 'early' and begun == 1 and 'stop' in told:
        print('stop', end='', file=answers, flush=True)
        print('ped', file=answers)
    if 'stop' in told and way == 'longer':
        print('stopped, or not', end='', file=answers, flush=True)
        time.sleep(0.2)
        print(file=answers)
    if 'stop' in told and way == 'ends':
        sys.exit(0)
    if begun == 2 and way == 'fails':
        sys.exit(9)
"""
# Of a group that isn't cooperative: it takes each stop for one of all.
EARLIER = """
import json, os, sys
name = ''
for line in sys.stdin:
    told = json.loads(line)
    if name:
        os.remove(name)
    name = ''
    if 'begin' in told:
        name = os.path.join(sys.argv[1], ' '.join(['works', *map(str, told['partitions'])]))
        open(name, 'w').close()
    if 'stop' in told:
        os.write(3, b'stopped\\n')
"""
# Answers without an end, and makes a file once more of that was read than a pipe holds.
FLOODING = """
import os, sys
for _ in range(10):
    os.write(3, bytes(65_536))
open(sys.argv[1], 'w').close()
while True:
    os.write(3, bytes(65_536))
"""


class Talks(Below):
    """Workers that stay over changes."""

    kind = Kind.TALKS

    def begin(self, way: str, patience: float = PATIENCE, seconds: float = 1000.0) -> Timely:
        workers = self.made([sys.executable, '-c', TALKING, str(self.folder), way], patience, seconds)
        workers.start(assigned(2, 0, 5))
        self.heard(1)
        return workers

    def test_it_reads_nothing(self) -> None:
        """A worker that has closed its standard input goes on after a change, as its keeper does. It is killed once it
        must stop, because it doesn't answer."""
        closed = self.folder / 'closed'
        workers = self.made(['sh', '-c', f'exec 0<&-; : > {closed}; exec sleep 1000'], 0.2)
        workers.start(assigned(2, 0, 5))
        wait_until(closed.exists)
        workers.start(assigned(9, 0, 5), frozenset())
        workers.start(assigned(10, 0, 5), frozenset())
        workers.stop()
        self.assertEqual(self.failures, [])

    def heard(self, count: int) -> list[str]:
        """What workers were told, each after its process, once there are so many lines."""
        file = self.folder / 'told'
        wait_until(lambda: file.exists() and file.read_text().count('\n') >= count)
        return file.read_text().splitlines()

    def worker(self) -> int:
        return int(self.heard(1)[-1].split()[0])

    def test_stays(self) -> None:
        """It is one process, and is told all."""
        workers = self.begin('talks')
        for events in range(3, 6):
            workers.stop()
            workers.start(assigned(events, 1))
        workers.stop()
        lines = [line.partition(' ') for line in self.heard(8)]
        self.assertEqual(len({process for process, _, _ in lines}), 1)
        told = [json.loads(line) for _, _, line in lines]
        settings = told[0].pop('settings')
        self.assertEqual(told[0], {'begin': 40000002, 'partitions': [0, 5], 'coordinator': 'c'})
        self.assertEqual((settings['names'], settings['ttl']), (['a', 'b', 'c'], 4.0))
        wanted = [40000002, None, 40000003, None, 40000004, None, 40000005, None]
        self.assertEqual([each.get('begin') for each in told], wanted)
        worker = self.worker()
        workers.close()
        self.assertFalse(is_running(worker))
        self.assertEqual((self.failures, self.lost), ([], []))

    def test_long_lines(self) -> None:
        """A line may be longer than a pipe holds, and is read slowly."""
        workers = self.begin('talks')
        workers.stop()
        names = tuple(f'{number:0300}' for number in range(1000))  # more than a message to the watchdog has room for
        for events in (3, 4):
            workers.start(Assignment(Token.of(4, events), 3, tuple(range(4096)), Settings(Setup(1000, 4096), names)))
            told = json.loads(self.heard(2 * events - 3)[-1].partition(' ')[2])
            self.assertEqual((told['begin'], told['partitions']), (Token.of(4, events), list(range(4096))))
            self.assertEqual(told['settings']['names'], list(names))
            workers.stop()
        self.assertEqual((self.failures, self.lost), ([], []))

    def test_no_room(self) -> None:
        """A worker that reads nothing, and can't be told all of a line, is killed, and that is said."""
        workers = self.made(['sleep', '1000'])
        names = tuple(f'{number:05000}' for number in range(1000))  # more than any socket has room for
        with self.assertLogs('bully', 'WARNING') as said:
            workers.start(Assignment(Token.of(4, 3), 3, (0,), Settings(Setup(1000, 1), names)))
            wait_until(lambda: self.lost)
        self.assertIn('the worker failed, with status -9', said.output[0])
        self.assertEqual(self.failures, [])
        workers.stop()

    def test_until(self) -> None:
        """It is killed at that moment if it is at work, otherwise it stays."""
        workers = self.begin('talks')
        worker = self.worker()
        workers.stop()
        workers.hear_until(clocks.seconds_of_boot() - 1)
        workers.stop()
        self.assertTrue(is_running(worker))
        workers.hear_until(clocks.seconds_of_boot() + 1000)
        workers.start(assigned(3, 1))
        self.heard(3)
        workers.hear_until(clocks.seconds_of_boot())
        wait_until(lambda: self.lost)
        self.assertFalse(is_running(worker))
        workers.stop()
        workers.hear_until(clocks.seconds_of_boot() + 1000)
        workers.start(assigned(3, 1))
        wait_until(lambda: self.worker() != worker)
        workers.stop()
        self.assertEqual((self.failures, self.lost), ([], [assigned(3, 1)]))

    def test_too_late(self) -> None:
        """One that is idle isn't told of work whose time is over: it is killed, and another one begins after that."""
        workers = self.begin('talks')
        worker = self.worker()
        workers.stop()
        workers.hear_until(clocks.seconds_of_boot() - 1)
        workers.start(assigned(3, 1))
        wait_until(lambda: self.lost)
        self.assertFalse(is_running(worker))
        self.assertEqual(len(self.heard(2)), 2)
        workers.hear_until(clocks.seconds_of_boot() + 1000)
        workers.start(assigned(4, 1))
        self.assertIn('40000004', self.heard(3)[-1])
        workers.stop()
        self.assertEqual(self.failures, [])

    def test_no_answer(self) -> None:
        """It is killed, if it doesn't answer in time, or by a line that only begins so; or at the moment until which
        its work is sure."""
        for way, patience, seconds in (('silent', 0.2, 1000.0), ('silent', PATIENCE, 2.0), ('longer', 2.0, 1000.0)):
            with self.subTest(way=way, patience=patience):
                (self.folder / 'told').unlink(missing_ok=True)  # by the worker before this one
                workers = self.begin(way, patience)
                worker = self.worker()
                workers.hear_until(clocks.seconds_of_boot() + seconds)
                workers.stop()
                self.assertFalse(is_running(worker))
        self.assertEqual((self.failures, self.lost), ([], []))

    def test_early_answers(self) -> None:
        """What it answered before it was told to stop is no answer."""
        workers = self.begin('early', patience=0.3)
        worker = self.worker()
        workers.stop()
        workers.start(assigned(3, 1))
        self.heard(3)
        workers.stop()  # it doesn't answer this one
        self.assertFalse(is_running(worker))
        self.assertEqual(self.failures, [])

    def test_descriptors(self) -> None:
        """Workers that come and go leave none in the watchdog."""
        workers = self.begin('ends')
        counts = []
        for events in range(3, 7):
            counts.append(descriptors_of(workers._watchdog.pid))
            workers.stop()
            workers.start(assigned(events, 1))
            self.heard(2 * events - 3)
        self.assertEqual(len(set(counts)), 1, counts)
        workers.stop()

    def test_a_member_that_is_gone(self) -> None:
        """Then it is not enough that a worker answers: it is killed if it doesn't end."""
        begun = self.folder / 'begun'
        workers = self.made(
            ['sh', '-c', 'trap "echo stopped >&3" TERM; echo > "$0"; while :; do sleep 0.01; done', str(begun)], 0.2
        )
        self.addCleanup(workers._watchdog.kill)
        workers.start(assigned(2, 0))
        wait_until(begun.exists)
        (worker,) = below(workers._watchdog.pid)
        workers._channel.shutdown(socket.SHUT_RDWR)
        wait_until(lambda: not is_running(worker))
        workers._watchdog.wait(PATIENCE)

    def test_what_a_member_did_not_read(self) -> None:
        """A watchdog whose member is gone, and didn't read all that it said, ends its worker with what that started."""
        child = self.folder / 'child'
        begins = 'sleep 1000 & echo $! > "$0.new"; mv "$0.new" "$0"'
        worker = f'{begins}; read -r line; read -r line; echo stopped >&3; read -r line'
        channel, given = socket.socketpair(socket.AF_UNIX, socket.SOCK_SEQPACKET)
        with channel, given, open(self.folder / 'said', 'wb') as said:
            words = [
                sys.executable,
                '-I',
                '-S',
                WATCHDOG,
                str(given.fileno()),
                '0.2',
                'talks',
                '',
                '1.0',
                'sh',
                '-c',
                worker,
                str(child),
            ]
            watchdog = subprocess.Popen(words, stdin=subprocess.DEVNULL, stderr=said, pass_fds=[given.fileno()])
            self.addCleanup(watchdog.kill)
            given.close()
            for message in (f'until {clocks.nanoseconds_of_boot() + 10**12}', 'begin all 1 {}'):
                channel.send(message.encode())
            wait_until(child.exists)
            channel.send(b'stop all 1 {"stop": true}')
            self.assertEqual(
                clocks.sleep_until_ready(PATIENCE, channel.fileno()), [channel.fileno()]
            )  # it has said that nothing is worked on
        self.assertEqual((watchdog.wait(PATIENCE), (self.folder / 'said').read_text()), (0, ''))
        self.assertFalse(is_running(int(child.read_text())))

    def test_too_many_answers(self) -> None:
        """It is killed at that moment, and if it doesn't stop in time, also while it answers more than can be read."""
        for patience, seconds in ((PATIENCE, 0.5), (0.2, 1000.0)):
            with self.subTest(patience=patience):
                begun = self.folder / f'begun {patience}'
                workers = self.made([sys.executable, '-c', FLOODING, str(begun)], patience)
                self.addCleanup(workers._watchdog.kill)
                workers.start(assigned(2, 0))
                wait_until(begun.exists)
                (worker,) = below(workers._watchdog.pid)
                workers.hear_until(clocks.seconds_of_boot() + seconds)
                workers.stop()
                self.assertFalse(is_running(worker))
        self.assertEqual(self.failures, [])

    def test_ends(self) -> None:
        """To end is an answer, too. By itself it may not."""
        workers = self.begin('ends')
        workers.stop()
        workers.start(assigned(3, 1))
        workers.stop()
        lines = self.heard(4)
        self.assertEqual(len({line.split()[0] for line in lines}), 2)
        self.assertEqual(self.failures, [])
        workers = self.begin('fails')
        workers.stop()
        with self.assertLogs('bully', 'WARNING') as said:
            workers.start(assigned(3, 1))
            wait_until(lambda: self.lost)
        self.assertIn('with status 9', said.output[0])
        self.assertEqual((self.failures, self.lost), ([], [assigned(3, 1)]))
        workers.stop()

    # In a cooperative group.

    def lines(self, count: int) -> list[dict[str, Any]]:
        """The lines that workers were told, without the settings, once there are so many."""
        told = [json.loads(line.partition(' ')[2]) for line in self.heard(count)]
        return [
            {name: value for name, value in line.items() if name in ('begin', 'partitions', 'stop')} for line in told
        ]

    def test_a_part_stops(self) -> None:
        """It is told what stops, and after each change all that its node owns. What isn't told to stop goes on."""
        workers = self.begin('talks')
        workers.ask_to_stop(5)
        wait_until(lambda: self.member.ends)
        workers.start(assigned(3, 0), frozenset())
        workers.start(assigned(4, 0, 1), frozenset([1]))
        workers.ask_to_stop(0, 1)
        wait_until(lambda: len(self.member.ends) == 2)
        wanted = [
            {'begin': 40000002, 'partitions': [0, 5]}, {'stop': [5]}, {'begin': 40000003, 'partitions': [0]},
            {'begin': 40000004, 'partitions': [0, 1]}, {'stop': True},
        ]  # fmt: skip
        self.assertEqual((self.lines(5), self.member.ends), (wanted, [{5}, {0, 1}]))
        self.assertEqual(len({line.split()[0] for line in self.heard(5)}), 1)
        self.assertEqual((self.failures, self.lost), ([], []))

    def test_what_comes_late(self) -> None:
        """A stop, or a line, of an earlier process isn't for this one."""
        workers = self.begin('talks')
        for late in (b'stop all 0 {"stop": true}', b'stop 5 1 {"stop": true}', b'part {', b'begin all 0 }'):
            workers._ask(partial(workers._send, late))
        workers._ask(lambda: workers._hear(b'answered all 0'))
        workers.ask_to_stop(5)
        wait_until(lambda: self.member.ends)
        self.assertEqual(self.lines(2), [{'begin': 40000002, 'partitions': [0, 5]}, {'stop': [5]}])
        self.assertEqual((self.member.ends, self.failures, self.lost), ([{5}], [], []))

    def test_stops_in_a_row(self) -> None:
        """Each is answered by one line, in order; what isn't answered hasn't ended."""
        worker = 'read -r line; for each in 1 2 3; do read -r line; echo "$line" >> $0; done; '
        answers = (
            'for each in 1 2 3; do while [ ! -e $0.$each ]; do sleep 0.01; done; echo stopped >&3; done; read -r line'
        )
        told = self.folder / 'told'
        workers = self.made(['sh', '-c', worker + answers, str(told)])
        workers.start(assigned(2, 0, 1, 5))
        for partition in (5, 0, 1):
            workers.ask_to_stop(partition)
        self.assertEqual(self.heard(3), ['{"stop": [5]}', '{"stop": [0]}', '{"stop": true}'])
        for count, partition in enumerate((5, 0, 1), 1):
            self.assertEqual(len(self.member.ends), count - 1)
            (self.folder / f'told.{count}').touch()
            wait_until(lambda: len(self.member.ends) == count)
            self.assertEqual(self.member.ends[-1], {partition})
            self.assertEqual(workers.stopping_seconds > 0, count < 3)
        self.assertEqual((self.failures, self.lost), ([], []))

    def test_a_stop_that_is_not_answered(self) -> None:
        """All is killed, at the time of the first stop. All of it has ended then."""
        for patience, seconds in ((0.3, 1000.0), (PATIENCE, 0.5)):
            with self.subTest(patience=patience):
                (self.folder / 'told').unlink(missing_ok=True)  # by the worker before this one
                self.member.ends.clear()
                workers = self.begin('silent', patience)
                worker = self.worker()
                workers.hear_until(clocks.seconds_of_boot() + seconds)
                workers.ask_to_stop(5)
                self.heard(2)
                workers.ask_to_stop(0)
                wait_until(lambda: self.member.ends)
                self.assertEqual((self.member.ends, is_running(worker)), ([{0, 5}], False))
        self.assertEqual(self.failures, [])

    def test_work_that_is_left(self) -> None:
        """It is killed at the moment until which that is sure, though it has answered all stops."""
        workers = self.begin('talks')
        worker = self.worker()
        workers.ask_to_stop(5)
        wait_until(lambda: self.member.ends)
        workers.hear_until(clocks.seconds_of_boot())
        wait_until(lambda: len(self.member.ends) == 2)
        self.assertEqual((self.member.ends, is_running(worker)), ([{5}, {0}], False))

    def test_ends_in_place_of_an_answer(self) -> None:
        """Then all of its work has ended, and nothing has failed."""
        workers = self.begin('ends')
        workers.ask_to_stop(5)
        wait_until(lambda: self.member.ends)
        self.assertEqual((self.member.ends, self.failures, workers.is_failing), ([{0, 5}], [], False))
        workers.start(assigned(2, 0))
        self.assertEqual(self.lines(3)[-1], {'begin': 40000002, 'partitions': [0]})

    def test_of_an_earlier_protocol(self) -> None:
        """One that stops all at each stop is safe, and works on all that is left after the next line."""
        workers = self.made([sys.executable, '-c', EARLIER, str(self.folder)])
        workers.start(assigned(2, 0, 5))
        wait_until((self.folder / 'works 0 5').exists)
        workers.ask_to_stop(5)
        wait_until(lambda: self.member.ends)
        self.assertFalse((self.folder / 'works 0 5').exists())
        workers.start(assigned(3, 0), frozenset())
        wait_until((self.folder / 'works 0').exists)
        workers.stop()
        self.assertEqual([each.name for each in self.folder.iterdir()], [])
        self.assertEqual((self.member.ends, self.failures, self.lost), ([{5}, {0}], [], []))

    def test_examples_of_parts(self) -> None:
        """Both go on with what isn't told to stop, and work on nothing that they have stopped."""
        for name in ('talking.py', 'talking.sh'):
            with self.subTest(name=name):
                folder = self.folder / name
                folder.mkdir()
                self.member.ends.clear()
                workers = self.made([str(ROOT / 'examples' / 'members' / name), str(folder)])
                files = {each: folder / str(each) for each in (0, 2, 5)}

                def count(partition: int) -> int:
                    return files[partition].read_text().count('\n') if files[partition].exists() else 0

                workers.start(assigned(3, 0, 2, 5))
                wait_until(lambda: all(map(count, files)))
                workers.ask_to_stop(0, 5)
                wait_until(lambda: self.member.ends)
                before = {each: count(each) for each in files}
                wait_until(lambda: count(2) > before[2] + 2)
                self.assertEqual((count(0), count(5)), (before[0], before[5]))
                workers.start(assigned(4, 2, 5), frozenset([5]))
                wait_until(lambda: count(5) > before[5])
                self.assertTrue(files[5].read_text().endswith(f'{Token.of(4, 4)} x\n'))
                workers.close()

    def test_examples(self) -> None:
        """Both work on what they are told, and on nothing else once they have answered."""
        for name in ('talking.py', 'talking.sh'):
            with self.subTest(name=name):
                folder = self.folder / name
                folder.mkdir()
                workers = self.made([str(ROOT / 'examples' / 'members' / name), str(folder)])
                processes: set[int] = set()
                sizes: dict[Path, int] = {}
                for events, partitions in ((3, (0, 5)), (4, (5, 2)), (5, (1,))):
                    workers.start(assigned(events, *partitions))
                    wanted = f'{Token.of(4, events)} x'
                    files = [folder / str(each) for each in partitions]
                    wait_until(lambda: all(file.exists() and file.read_text().count(wanted) > 1 for file in files))
                    processes.add(below(workers._watchdog.pid)[0])
                    workers.stop()
                    before, sizes = sizes, {file: file.stat().st_size for file in folder.iterdir()}
                    self.assertEqual(
                        [file for file, size in before.items() if sizes[file] != size and file not in files], []
                    )
                self.assertEqual(len(processes), 1)
                workers.close()
        self.assertEqual((self.failures, self.lost), ([], []))
