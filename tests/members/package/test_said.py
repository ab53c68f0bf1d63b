"""Tests of what a member says on standard error, and to the manager of services."""
from __future__ import annotations

import contextlib
import logging
import os
import re
import socket
import threading
import unittest
from collections.abc import Callable, Iterator
from unittest import mock

from bully import messages, systemd, working
from bully.epochs import Token
from bully.member import Assignment, Member
from bully.memory import MemoryLog
from bully.shared_log import Snapshot
from bully.worker import Workers
from ..processes import full_pipe
from ..steps import OPENING
from ..waiting import PATIENCE, wait_until
from .folders import InFolder
from .member_processes import manager_in

LEFT_OUT = r' bully-member: (\d+) messages were left out, because nobody read them$'


class Said(unittest.TestCase):
    """What is said on standard error."""

    def speak(self, logger: logging.Logger) -> None:
        for number in range(1500):
            logger.info('number %d', number)

    def test_left_out(self) -> None:
        """While nobody reads some messages find room, and the others are counted: the next message that finds room
        reports that, or the end does. All else is written, also if the pipe is one that doesn't block."""
        for blocks, ends in ((True, False), (False, False), (True, True)):
            with self.subTest(blocks=blocks, ends=ends):
                self.leave_out(blocks, ends)

    def leave_out(self, blocks: bool, ends: bool) -> None:
        reads, writes = full_pipe()
        os.set_blocking(writes, blocks)
        said, logger = messages.Messages(messages.Lines()), logging.Logger('bully')
        logger.addHandler(said)
        with mock.patch.object(messages, 'STANDARD_ERROR', writes), open(reads, encoding='utf-8') as pipe:
            speaker = threading.Thread(target=self.speak, args=[logger], daemon=True)
            speaker.start()
            speaker.join(PATIENCE)
            self.assertFalse(speaker.is_alive())
            texts: list[str] = []
            reader = threading.Thread(target=lambda: texts.append(pipe.read().lstrip('\0')))
            reader.start()
            wait_until(said._lines.empty)
            if not ends:
                logger.info('the last one')
            said.close()
            os.close(writes)
            reader.join()
        *lines, last = texts[0].splitlines()
        if ends:
            lines.append(last)
        else:
            self.assertRegex(last, ' bully-member: the last one$')
        self.assertRegex(lines[-1], LEFT_OUT)
        numbers = 0  # of messages that were written, or reported as left out
        for line in lines:
            if found := re.search(LEFT_OUT, line):
                numbers += int(found[1])
            else:
                self.assertRegex(line, f' bully-member: number {numbers}$')
                numbers += 1
        self.assertEqual(numbers, 1500)
        self.assertGreaterEqual(len(lines), messages.WAITING_MAX)

    def test_one_line(self) -> None:
        """What can't be printed of a name or a path in it ends no line, and turns nothing."""
        strange = {'levelname': 'WARNING', 'msg': 'node %s: %s', 'args': ('a\x1b[2J\nb', '/c\u202ed: busy')}
        said = messages.Lines().format(logging.makeLogRecord(strange))
        self.assertRegex(said, r' bully-member: node a\?\[2J\?b: /c\?d: busy$')

    def test_work(self) -> None:
        """On what work starts and stops; and that it goes on if no partition is new."""
        with self.assertLogs('bully', 'INFO') as said:
            working.log_work('b', 'starts', frozenset({5, 0}), Token.of(1, 20))
            working.log_work('b', 'starts', frozenset(), Token.of(1, 31))
            working.log_work('b', 'stops', frozenset({5}), None)
        wanted = [
            'starts work on partitions 0, 5 by token 10000020', 'continues with the same partitions by token 10000031',
            'stops work on partitions 5',
        ]  # fmt: skip
        self.assertEqual([record.getMessage() for record in said.records], [f'node b: {each}' for each in wanted])


class Blocked(MemoryLog):
    """A log of which nobody gets a snapshot while `goes_on` isn't set."""

    goes_on = threading.Event()

    def snapshot(self, epoch: int, offset: int, promise_of: str | None = None) -> Snapshot:
        self.goes_on.wait()
        return super().snapshot(epoch, offset, promise_of)


class Services(InFolder):
    """What a manager of services hears."""

    @contextlib.contextmanager
    def begun(self, member: Member) -> Iterator[Callable[[], bytes]]:
        """The member runs, with a manager: a function that says what that hears next."""
        with manager_in(self.folder, 30_000) as manager:
            told = systemd.Service(member, Workers(['true'], '1', 0.0))
            thread = threading.Thread(target=member.run)
            thread.start()
            self.addCleanup(thread.join)
            self.addCleanup(member.leave)
            told.start()
            try:
                yield lambda: manager.recv(1000)
            finally:
                told.close()

    def test_a_stuck_member(self) -> None:
        """It doesn't hear that a member goes on which takes no step."""
        log = Blocked(OPENING)
        log.goes_on.set()
        with self.begun(Member(log, 1, lambda work: None, lambda work: None, ttl=0.6)) as hear:
            self.addCleanup(log.goes_on.set)
            for goes_on in (True, False, True):
                (log.goes_on.set if goes_on else log.goes_on.clear)()
                wait_until(lambda: (b'WATCHDOG=1' in hear()) == goes_on)

    def test_pace(self) -> None:
        """It hears that a member goes on twice or more often in the time after which it takes that for stuck, as
        sd_watchdog_enabled(3) asks for; and what the member does each second."""
        member = Member(MemoryLog(OPENING), 1, lambda work: None, lambda work: None)
        with contextlib.closing(member.core):
            for word, most in (('300000', 0.15), ('1500000', 0.75), ('60000000', 1.0), ('', 1.0)):
                with mock.patch.dict(os.environ, NOTIFY_SOCKET='@manager', WATCHDOG_USEC=word):
                    self.assertTrue(0 < systemd.Service(member, Workers(['true'], '1', 0.0))._beat <= most, word)

    def test_a_member_that_leaves(self) -> None:
        """It hears that while the work is still stopping."""
        is_over = threading.Event()

        def stop(work: Assignment) -> None:
            is_over.wait()

        member = Member(MemoryLog(OPENING), 1, lambda work: None, stop, ttl=0.6)
        with self.begun(member) as hear:
            self.addCleanup(is_over.set)
            wait_until(member.assignment)
            member.leave()
            wait_until(lambda: b'STOPPING=1' in hear())
