"""A worker that reports when two work on one partition: each unit of work holds the lock of its partition's file.

    worker.py FOLDER [SOCKET]

A unit that finds the lock taken writes `overlap` into FOLDER/faults, and one whose token is below the file's last one
is refused there and writes `old`. A unit that is done adds `TOKEN NODE` to the file of its partition. With SOCKET it
asks the recorder there for each unit, which writes the same (`recorder.py`). With BULLY_ANSWERS in its environment it
stays over changes.
"""
from __future__ import annotations

import fcntl
import json
import os
import select
import socket
import sys
import time
from typing import BinaryIO

ROW = 64  # bytes that a row has at most
UNIT = 0.002  # seconds that a unit of work takes

folder, node, answers = sys.argv[1], os.environ['BULLY_NODE'], os.environ.get('BULLY_ANSWERS')
member = os.environ.get('ACTS_OF', '-')  # whose acts are written down, if they are
# By which clock it reports moments: if acts are written down, by theirs, as `instrumentation.py` has it.
kernels = time.CLOCK_BOOTTIME if 'CLOCK_RATE' not in os.environ else 9
clock, ahead = time.CLOCK_MONOTONIC if member == '-' else kernels, int(os.environ.get('ACTS_AHEAD', 0))
lines = open(0, 'rb', buffering=0, closefd=False)  # so that nothing is read ahead
token, partitions = int(os.environ.get('BULLY_TOKEN', 0)), os.environ.get('BULLY_PARTITIONS', '').split()
recorder = socket.socket(socket.AF_UNIX, socket.SOCK_SEQPACKET)


def moment() -> int:
    return time.clock_gettime_ns(clock) - ahead


def tell(fault: str, partition: str) -> None:
    with open(os.path.join(folder, 'faults'), 'a', encoding='ascii') as faults:
        faults.write(f'{fault} {partition} {token} {node}\n')


def last_token(file: BinaryIO) -> int:
    """The token of the last row; 0 without one. What is left of a row that was written when its worker was killed is
    cut."""
    size = file.seek(0, os.SEEK_END)
    file.seek(max(0, size - 2 * ROW))
    *rows, rest = file.read().split(b'\n')
    if rest:
        file.truncate(size - len(rest))
    return int(rows[-1].split()[0]) if rows else 0


def work_by_file(partition: str) -> None:
    """One unit, by the lock of a file."""
    with open(os.path.join(folder, partition), 'ab+') as file:
        try:
            fcntl.flock(file, fcntl.LOCK_EX | fcntl.LOCK_NB)
        except BlockingIOError:
            tell('overlap', partition)
            return
        if last_token(file) > token:
            tell('old', partition)
            return
        time.sleep(UNIT)
        file.write(b'%d %s\n' % (token, node.encode()))


def work_by_recorder(partition: str) -> None:
    """One unit, by leave of the recorder."""
    recorder.send(f'begin {partition} {token} {node} {member} {moment()}'.encode())
    if recorder.recv(ROW) == b'granted':
        time.sleep(UNIT)
        recorder.send(b'end %d' % moment())


def hear() -> None:
    """Takes what it is told, if anything is to be read, or nothing is to be done."""
    global token, partitions
    while answers and (not partitions or select.select([lines], [], [], 0)[0]):
        line = lines.readline()
        if not line:
            sys.exit()
        told = json.loads(line)
        if 'begin' in told:
            token, partitions = told['begin'], list(map(str, told['partitions']))
        else:
            left = () if told['stop'] is True else set(map(int, partitions)).difference(told['stop'])
            partitions = list(map(str, sorted(left)))
            os.write(int(answers), b'stopped\n')


work = work_by_recorder if sys.argv[2:] else work_by_file
if sys.argv[2:]:
    recorder.connect(sys.argv[2])
while True:
    hear()
    for each in list(partitions):
        work(each)
    time.sleep(0.01)
