#!/usr/bin/env python3
"""A cluster of real processes, one for each node, which elects its coordinator while its processes are killed.

    BULLY_LIBRARY=FOLDER cluster.py [--nodes N] [--partitions P] [--kills K] [--every ROWS] [--pauses K] [--seed SEED]
                                    [--folder FOLDER] [--all-details] [--bug BUG]

It prints who leads as it goes. Processes are killed by SIGKILL, one in so many rows of the log in the mean, and started
again. Then it stops killing, starts all, and waits until all are at rest under the highest node. The log is
FOLDER/log.csv, a trace of version 3, which `check` judges; where the program `bully` is on the path, that explains and
draws it, too. With --all-details behind each row that may change a vector stands a claim of all of it. With --pauses
processes are also stopped for a while by SIGSTOP: they are only slow, and nobody takes them for Down.

With a BUG one node makes a mistake, once in each of its processes, and the check has to find it:

    garbled    it stores another table than the one that it is sent (only seen with --all-details)
    deaf       it answers a Halt, and goes on as if it had not been halted
    impatient  it takes a call as failed though its callee is up, and nobody told otherwise

The exit status is 0 where the log is lawful and all were seen at rest, and else 1. `README.md` says how the premises
are kept. """
import argparse
import collections
import json
import os
import random
import selectors
import shutil
import signal
import subprocess
import sys
import tempfile
import time
from pathlib import Path
from typing import Any, Deque, Dict, List, Optional, Set, Tuple

HERE = Path(__file__).resolve().parent
sys.path.insert(0, str(HERE.parents[1] / 'bindings' / 'python'))

import bully  # noqa: E402
from lines import Lines, listener, port_of  # noqa: E402

BUGS = {'garbled': 1, 'deaf': 2, 'impatient': 1}  # which node has it
DOWN_FOR = (0.0, 0.4)
PAUSED_FOR = (0.05, 0.5)
REST_WITHIN = 300.0
ANSWER_WITHIN = 300.0
REST_ROOM = 50_000  # rows that are left for the group to come to rest


class Member:
    """A node, over all its processes."""

    def __init__(self, node: int) -> None:
        self.node = node
        self.life = 0  # how many processes it had
        self.met = 0  # the last of them that said hello
        self.events = 0  # how many its log has
        self.due = 0.0  # when it is started again
        self.process: Optional['subprocess.Popen[bytes]'] = None
        self.lines: Optional[Lines] = None
        self.port = 0
        self.is_told = False  # whether it takes part in what is told to all
        self.is_known = False  # whether the others know its process
        self.is_up = False  # whether the log has its recovery
        self.was_killed = False
        self.unheard: Set[int] = set()  # orders that it didn't answer yet
        self.status = 'down'
        self.coordinator: Optional[int] = None

    def is_starting(self) -> bool:
        """Whether its process didn't say hello yet."""
        return self.life > self.met


class Log:
    """The trace: what is written has its place in the one order of the group."""

    def __init__(self, path: Path, nodes: int, partitions: int) -> None:
        self.path = path
        self.rows = 0  # behind the header
        self.wrong: Optional[int] = None  # the first row that a bug made wrong, the header being row 1
        self._file = open(path, 'wb', buffering=0)
        self._file.write(f'bully,3,{nodes},{partitions},{" ".join(["1"] * nodes)},clear\n'.encode())

    def write(self, rows: List[str]) -> None:
        """Writes rows. They are in the hands of the system then: the death of any process doesn't undo that."""
        if self.rows + len(rows) > bully.EVENTS_MAX:
            raise RuntimeError('the log is full')
        self._file.write(''.join(row + '\n' for row in rows).encode())
        self.rows += len(rows)

    def has_room(self) -> bool:
        """Whether there is room for the group to come to rest, within the bound on events."""
        return self.rows < bully.EVENTS_MAX - REST_ROOM

    def close(self) -> None:
        self._file.close()


class Cluster:
    """The supervisor: it starts the processes, writes the log, and alone tells who is Down."""

    def __init__(self, options: argparse.Namespace) -> None:
        self.options = options
        self.random = random.Random(options.seed)
        self.members = [Member(number + 1) for number in range(options.nodes)]
        self.log = Log(options.folder / 'log.csv', options.nodes, options.partitions)
        self.readers = selectors.DefaultSelector()
        self.listener = listener()
        self.readers.register(self.listener, selectors.EVENT_READ, self.meet)
        self.began = time.monotonic()
        self.orders = 0
        self.fallen: Deque[Member] = collections.deque()
        self.risen: Deque[Member] = collections.deque()
        self.paused: List[Tuple[float, Member, int]] = []
        self.kills = self.pauses = self.crashes = self.accidents = 0
        self.next_kill = float('inf')
        self.leader: Optional[int] = None

    # ---- The run

    def run(self) -> bool:
        """Kills as often as it is asked for, and then waits until all are at rest. Whether they were seen so."""
        self.kill_later()
        while self.kills < self.options.kills and self.log.has_room():
            self.tend()
        self.next_kill = float('inf')
        self.say(f'killed {self.kills} processes; now all may come to rest')
        ended = time.monotonic()
        while not self.is_at_rest() and time.monotonic() < ended + REST_WITHIN:
            self.tend()
        rests = self.is_at_rest()
        if rests:
            self.say(f'at rest: all {len(self.members)} nodes are Normal under node {len(self.members)}')
        else:
            self.say('not seen at rest')
        return rests

    def end(self) -> None:
        """Ends the log, and then all processes."""
        self.log.close()
        for member in self.members:
            if member.process is not None:
                member.process.kill()
                member.process.wait()

    def tend(self) -> None:
        """Whoever fell is told of, and whoever may come back does."""
        if self.fallen:
            self.fall(self.fallen.popleft())
        elif self.risen:
            self.rise(self.risen.popleft())
        else:
            self.pump()
        for member in self.members:
            if member.process is None and time.monotonic() >= member.due:
                self.spawn(member)
            elif member.is_starting() and member.process is not None and member.process.poll() is not None:
                raise RuntimeError(f'the process of node {member.node} ended before it said hello')

    def pump(self) -> None:
        """Takes what the processes tell, and kills one where enough rows came since the last."""
        for key, _ in self.readers.select(0.01):
            key.data()
        if self.log.rows >= self.next_kill:
            self.kill()
        now = time.monotonic()
        for due, member, life in self.paused[:]:
            if now >= due:
                self.paused.remove((due, member, life))
                self.signal(member, life, signal.SIGCONT)

    def say(self, text: str) -> None:
        print(f'{time.monotonic() - self.began:8.3f} s  {text}', flush=True)

    # ---- Kills

    def kill_later(self) -> None:
        self.next_kill = self.log.rows + self.random.expovariate(1 / self.options.every)

    def kill(self) -> None:
        """Kills the process of some node, whatever it is doing; or stops it for a while."""
        self.kill_later()
        living = [member for member in self.members if member.lines is not None and not member.was_killed]
        if not living:
            return
        member = self.random.choice(living)
        if self.pauses * self.options.kills < self.kills * self.options.pauses:
            self.pauses += 1
            self.signal(member, member.life, signal.SIGSTOP)
            self.paused.append((time.monotonic() + self.random.uniform(*PAUSED_FOR), member, member.life))
        elif self.kills < self.options.kills:
            self.kills += 1
            member.was_killed = True
            self.signal(member, member.life, signal.SIGKILL)
            self.say(f'killed node {member.node}, {member.status}')

    def signal(self, member: Member, life: int, number: int) -> None:
        """Signals that process of the node, unless it is gone: no other process can have its number before it is waited
        for."""
        if member.process is not None and member.life == life:
            member.process.send_signal(number)

    # ---- A process comes

    def spawn(self, member: Member) -> None:
        """Starts a process of the node, which is Down. It says hello once it runs."""
        member.life += 1
        bug = self.options.bug if BUGS.get(self.options.bug) == member.node else None
        told = {
            'supervisor': os.getpid(), 'port': port_of(self.listener), 'node': member.node, 'life': member.life,
            'events': member.events,
            'nodes': self.options.nodes, 'partitions': self.options.partitions,
            'says_all': self.options.all_details, 'bug': bug,
        }  # fmt: skip
        member.process = subprocess.Popen(
            [sys.executable, str(HERE / 'node.py'), json.dumps(told)], start_new_session=True
        )

    def meet(self) -> None:
        connection, _ = self.listener.accept()
        lines = Lines(connection)
        self.readers.register(connection, selectors.EVENT_READ, lambda: self.hear_stranger(lines))

    def hear_stranger(self, lines: Lines) -> None:
        """A process says hello: which node it is, and where it listens."""
        came = lines.read()
        if came == []:
            return
        self.readers.unregister(lines.connection)
        if came is None:
            lines.close()
            return
        hello = json.loads(came[0])
        member = self.members[hello['node'] - 1]
        member.lines, member.port, member.met, member.was_killed = lines, hello['port'], hello['life'], False
        self.readers.register(lines.connection, selectors.EVENT_READ, lambda: self.hear(member))
        self.risen.append(member)

    def rise(self, member: Member) -> None:
        """The node recovers, once all others took their calls to it as failed, and know its process."""
        if member.lines is None or member.is_told:
            return  # it is gone already, and what came behind it is told of by now
        member.is_told = True
        for other in self.members:
            if other.is_known:
                self.order([member], 'rises', other)
        self.order_all('rises', member)
        member.is_known = True
        self.order([member], 'recover', member)

    # ---- A process is gone

    def fall(self, member: Member) -> None:
        """The process of the node is gone. What it sent is served by now, or never; then its crash is logged; and then
        each call to it has failed, before a next process of it may recover."""
        assert member.process is not None
        member.process.kill()
        member.process.wait()
        if not member.was_killed:
            self.accidents += 1
            self.say(f'the process of node {member.node} ended by itself')
        self.order_all('ended', member)
        if member.is_up:
            rows = [f'crash,{member.node}']
            self.log.write(rows + [f'saw,{member.node},down,-,-,-,-'] if self.options.all_details else rows)
            member.events += 1
            self.crashes += 1
        self.order_all('down', member)
        member.is_told = member.is_known = member.is_up = False
        member.process = None
        member.due = time.monotonic() + self.random.uniform(*DOWN_FOR)

    # ---- What is ordered and told

    def order(self, members: List[Member], what: str, about: Member) -> int:
        """Orders something of these nodes. The number of the order."""
        self.orders += 1
        text = json.dumps(
            {'do': what, 'order': self.orders, 'node': about.node, 'life': about.life, 'port': about.port}
        )
        for member in members:
            if member.lines is not None:
                member.unheard.add(self.orders)
                member.lines.send(text)
        return self.orders

    def order_all(self, what: str, about: Member) -> None:
        """Orders something of all others, and waits until each of them did it, or is gone and all that it told was
        taken."""
        others = [member for member in self.members if member.is_told and member is not about]
        number, ordered = self.order(others, what, about), time.monotonic()
        while any(number in member.unheard for member in others):
            if time.monotonic() > ordered + ANSWER_WITHIN:
                raise RuntimeError(f'a process does not answer: {what} of node {about.node}')
            self.pump()

    def hear(self, member: Member) -> None:
        assert member.lines is not None
        came = member.lines.read()
        if came is None:
            self.meet_end(member)
            return
        for line in came:
            told = json.loads(line)
            if 'heard' in told:
                member.unheard.discard(told['heard'])
            else:
                self.take_rows(member, told)

    def meet_end(self, member: Member) -> None:
        """The connection of the process is at its end: all that it told was taken."""
        assert member.lines is not None
        self.readers.unregister(member.lines.connection)
        member.lines.close()
        member.lines = None
        member.unheard.clear()
        self.fallen.append(member)
        self.show(member, 'down', None)

    def take_rows(self, member: Member, told: Dict[str, Any]) -> None:
        """The rows of a step get their places in the log. Only then the process goes on."""
        rows: List[str] = told['rows']
        if told['wrong'] is not None and self.log.wrong is None:
            self.log.wrong = self.log.rows + 2 + told['wrong']
        self.log.write(rows)
        assert member.lines is not None
        member.lines.send('{"do": "logged"}')
        member.events += sum(not row.startswith('saw,') for row in rows)
        member.is_up = member.is_up or rows[0].startswith('recover,')
        self.show(member, *told['shows'])

    # ---- Who leads

    def show(self, member: Member, status: str, coordinator: Optional[int]) -> None:
        """The node shows this now. Says who leads, where that is another one than before."""
        member.status, member.coordinator = status, coordinator
        leader = next((each.node for each in self.members if self.follows(each, each.node)), None)
        if leader == self.leader:
            return
        self.leader = leader
        if leader is None:
            self.say('nobody leads')
        else:
            others = [str(each.node) for each in self.members if each.node != leader and self.follows(each, leader)]
            self.say(f'node {leader} leads {" ".join(others) or "itself alone"}')

    def follows(self, member: Member, leader: int) -> bool:
        return member.status == 'normal' and member.coordinator == leader

    def is_at_rest(self) -> bool:
        return not self.fallen and all(self.follows(member, len(self.members)) for member in self.members)


def run_bully(words: List[str], trace: Path) -> str:
    """What the program `bully` makes of the trace."""
    with open(trace, 'rb') as rows:
        ran = subprocess.run(
            ['bully', *words], stdin=rows, stdout=subprocess.PIPE, stderr=subprocess.STDOUT, check=False
        )
    return ran.stdout.decode(errors='replace')


def judge(log: Log) -> bully.Verdict:
    """Judges the log, explains it and draws it. The verdict."""
    verdict = bully.check(log.path.read_bytes())
    print(f'{log.path}: {log.rows} rows: {verdict}')
    if log.wrong is not None:
        print(f'a bug made row {log.wrong} wrong')
    if shutil.which('bully') is None:
        print('the program bully is not on the path, so nothing is explained or drawn')
        return verdict
    checked = run_bully(['check'], log.path).partition('\n')[0]
    if checked != str(verdict):
        print(f'bully check says something else: {checked}')
    print(run_bully(['explain'], log.path), end='')
    picture = log.path.with_name('picture.svg')
    picture.write_text(run_bully(['draw'], log.path))
    print(f'{picture}: its last rows, drawn')
    return verdict


def words() -> argparse.Namespace:
    parser = argparse.ArgumentParser(description=__doc__, formatter_class=argparse.RawDescriptionHelpFormatter)
    parser.add_argument('--nodes', type=int, default=5, help='how many nodes, from 2 to 64; without it 5')
    parser.add_argument('--partitions', type=int, default=7, help='how many partitions the task has; without it 7')
    parser.add_argument('--kills', type=int, default=100, help='how many processes are killed; without it 100')
    parser.add_argument('--pauses', type=int, default=0, help='how many are stopped for a while; without it none')
    parser.add_argument(
        '--every', type=float, default=40, help='rows of the log between two kills in the mean; without it 40'
    )
    parser.add_argument('--seed', type=int, default=1, help='of the random choices; without it 1')
    parser.add_argument(
        '--folder', type=Path, help='where log.csv is written; without it a new folder, whose name is printed'
    )
    parser.add_argument(
        '--all-details', action='store_true', help='a claim of the whole vector behind each row that may change it'
    )
    parser.add_argument('--bug', choices=sorted(BUGS), help='the mistake that one node makes; without it none')
    options = parser.parse_args()
    if not 2 <= options.nodes <= 64 or options.every <= 0:
        parser.error('--nodes has to be from 2 to 64, and --every above 0')
    if options.folder is None:
        options.folder = Path(tempfile.mkdtemp(prefix='bully-'))
    options.folder.mkdir(parents=True, exist_ok=True)
    return options


def main() -> int:
    options = words()
    bully.load()
    cluster = Cluster(options)
    try:
        rests = cluster.run()
    finally:
        cluster.end()
    verdict = judge(cluster.log)
    print(f'{cluster.kills} kills, {cluster.pauses} pauses, {cluster.crashes} crashes, {cluster.accidents} accidents')
    return 0 if verdict.is_lawful and rests and not cluster.accidents else 1


if __name__ == '__main__':
    sys.exit(main())
