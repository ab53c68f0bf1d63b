"""A worker that does nothing but note when it works, and on what.

    noting.py FILE STOP_SECONDS

Each line of FILE is `NS WORD NODE PARTITION..`: the moment by CLOCK_BOOTTIME, and `begin`, or `stop` when it was told
to stop, which it takes so many seconds for. After each `begin` it works on exactly these partitions, and by `--each` a
process on one of them. With BULLY_ANSWERS in its environment it stays over changes. """
from __future__ import annotations

import json
import os
import signal
import sys
import time
from collections.abc import Iterable

file = os.open(sys.argv[1], os.O_WRONLY | os.O_APPEND | os.O_CREAT, 0o666)
seconds, node, answers = float(sys.argv[2]), os.environ['BULLY_NODE'], os.environ.get('BULLY_ANSWERS')


def note(word: str, partitions: Iterable[object]) -> None:
    moment = time.clock_gettime_ns(time.CLOCK_BOOTTIME)
    os.write(file, f'{moment} {word} {node} {" ".join(map(str, partitions))}\n'.encode())


def run() -> None:
    """Works until SIGTERM."""
    partitions = os.environ['BULLY_PARTITIONS'].split()
    signal.pthread_sigmask(signal.SIG_BLOCK, [signal.SIGTERM])
    note('begin', partitions)
    signal.sigwait([signal.SIGTERM])
    note('stop', partitions)
    time.sleep(seconds)


def talk(channel: int) -> None:
    """Works on what it is told."""
    works: list[int] = []
    for line in sys.stdin:
        told = json.loads(line)
        if 'begin' in told:
            works = told['partitions']
            note('begin', works)
        else:
            stops = works if told['stop'] is True else told['stop']
            works = [each for each in works if each not in stops]
            note('stop', stops)
            time.sleep(seconds)
            os.write(channel, b'stopped\n')


talk(int(answers)) if answers else run()
