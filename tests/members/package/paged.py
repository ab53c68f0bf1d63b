"""A member and its page, which tests ask."""
from __future__ import annotations

import http.client
import json
import socket
import threading
import unittest
from typing import Any

from bully import server, view
from bully.epochs import Opening
from bully.member import Member
from bully.worker import Workers
from ..steps import HEADER
from ..waiting import PATIENCE, wait_until
from .threads import Troubled


class Paged(unittest.TestCase):
    """A test with a member that has a page."""

    NAMES = ('a"\\b', '<script>alert(1)</script>', 'c')

    def setUp(self) -> None:
        self.make(2.0)

    def make(self, ttl: float, log: Troubled | None = None, **work: Any) -> None:
        """A member over this log, or a new one, and its page. Its work is nothing, or what these callbacks do."""
        self.log = log or Troubled(Opening.first(HEADER, self.NAMES))
        self.member = Member(self.log, 2, ttl=ttl, **(work or {'start': lambda work: None, 'stop': lambda work: None}))
        self.workers = Workers(['true'], self.NAMES[1], 0.0)
        self.page = server.MemberServer(('127.0.0.1', 0), self.NAMES[1])
        self.addCleanup(self.page.close)
        self.page.show(view.LogView(self.log, self.member.waits), self.member, self.workers)

    def get(self, target: str, method: str = 'GET', **headers: str) -> tuple[int, str, str]:
        """The status, the kind and the text of an answer."""
        connection = http.client.HTTPConnection('127.0.0.1', self.page.port, timeout=PATIENCE)
        connection.request(method, target, headers=headers)
        answer = connection.getresponse()
        text = answer.read().decode()
        connection.close()
        return answer.status, answer.getheader('Content-Type') or '', text

    def told(self, target: str = '/group') -> Any:
        """The document of an answer."""
        return json.loads(self.get(target)[2])

    def status(self, target: str, method: str = 'GET') -> int:
        """The status of an answer."""
        return self.get(target, method)[0]

    def begin(self) -> None:
        """The member takes part, until the test is over."""
        self.run_apart(self.member)
        wait_until(self.member.assignment)

    def run_apart(self, member: Member) -> None:
        """It runs in a thread, until the test is over."""
        thread = threading.Thread(target=member.run)
        thread.start()
        self.addCleanup(thread.join)
        self.addCleanup(member.leave)

    def client(self) -> socket.socket:
        """A connection that hasn't asked."""
        return socket.create_connection(('127.0.0.1', self.page.port), PATIENCE)

    def measured(self) -> dict[str, float]:
        """The metrics, by their names and labels."""
        lines = self.get('/metrics')[2].splitlines()
        return {name: float(value) for name, value in (line.rsplit(' ', 1) for line in lines if line[0] != '#')}
