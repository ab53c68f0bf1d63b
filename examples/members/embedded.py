#!/usr/bin/env python3
"""A process that embeds a member, instead of a worker beside `bully-member`. It adds a line to the file of each
partition that its node owns, again and again, until SIGTERM or SIGINT. The file refuses an old token: nothing else
stops this process if it is suspended, because it has no watchdog.

    bully-member init --config group.toml --log sqlite:group.db
    embedded.py group.db NODE FOLDER
"""
from __future__ import annotations

import contextlib
import logging
import signal
import sys
import threading
from pathlib import Path

from bully import Member
from bully.member import Assignment
from bully.sqlite import SqliteLog

sys.path.insert(0, str(Path(__file__).resolve().with_name('fences')))
from file import write  # the resource

TTL = 5.0  # seconds, if `init` set none
PAUSE = 0.1  # seconds between two rounds of work: a unit of work must be shorter than a fifth of the ttl


class Work:
    """The work of a node, in a thread of its own. The member calls `start` and `stop` in turn, in one other thread."""

    def __init__(self, folder: str, node: str) -> None:
        self.folder, self.node = folder, node
        self.member: Member  # set before it runs
        self.is_over = threading.Event()
        self.thread = threading.Thread()

    def start(self, assignment: Assignment) -> None:
        """Starts the work on these partitions, and returns."""
        self.is_over.clear()
        self.thread = threading.Thread(target=self.work, args=[assignment])
        self.thread.start()

    def stop(self, _: Assignment) -> None:
        """Returns once nothing is worked on any more. If it raises an exception, the member doesn't release its
        lease."""
        self.is_over.set()
        self.thread.join()

    def work(self, assignment: Assignment) -> None:
        while not self.is_over.wait(PAUSE):
            for partition in assignment.partitions:
                if self.member.assignment() is None:  # asked before each unit: ownership isn't sure now
                    break
                if not write(self.folder, partition, assignment.token, self.node):
                    # (a newer token was seen; the member stops this work, and starts it again)
                    self.member.lose(assignment)
                    return


def main() -> None:
    path, node, folder = sys.argv[1:]
    logging.basicConfig(level=logging.INFO, format='%(asctime)s %(message)s')  # what the member does, on standard error
    with contextlib.closing(SqliteLog(path, reads=True)) as log:
        ttl = log.opening().ttl or TTL  # all members must use the same
    work = Work(folder, node)
    # The patience is how long a call to the store may take: a fifth of the ttl at most.
    work.member = Member(SqliteLog(path, patience=min(1.0, ttl / 5)), node, work.start, work.stop, ttl=ttl)
    with work.member as member:  # at the end it closes the log
        for number in (signal.SIGTERM, signal.SIGINT):
            # `run` then stops the work, releases the lease, and returns.
            signal.signal(number, lambda *_: member.leave())
        member.run()  # in the main thread, so that signals reach it


if __name__ == '__main__':
    main()
