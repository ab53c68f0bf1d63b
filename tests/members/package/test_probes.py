"""Tests of what a member answers to probes and balancers: whether it goes on, is ready, leads, and may work."""
from __future__ import annotations

import contextlib
import http.client
import threading
from typing import NamedTuple
from unittest import mock

from bully import answers, server, view
from bully.clocks import seconds_of_boot
from bully.core import Promise, Session
from bully.epochs import Opening
from bully.member import Member
from bully.worker import Workers
from ..steps import HEADER
from ..waiting import PATIENCE, wait_until
from .paged import Paged
from .threads import Troubled, put

NAMES = ('a', 'b', 'c')
PROBES = ('/livez', '/readyz', '/healthz', '/leader', '/partitions/0')


class Hanging(Troubled):
    """A log in which a renewal hangs while `goes_on` isn't set."""

    def __init__(self, opening: Opening) -> None:
        super().__init__(opening)
        self.goes_on, self.hangs = threading.Event(), threading.Event()
        self.goes_on.set()

    def renew(self, name: str, session: Session, ttl: int) -> bool:
        if not self.goes_on.is_set():
            self.hangs.set()
        self.goes_on.wait()
        return super().renew(name, session, ttl)


class Noting(Troubled):
    """A log that notes whether a member leads when it promises or releases something."""

    def __init__(self, opening: Opening) -> None:
        super().__init__(opening)
        self.members: dict[str, Member] = {}
        self.led: list[tuple[str, str, bool]] = []

    def mark(self, asked: str, name: str) -> None:
        if name in self.members:
            self.led.append((asked, name, self.members[name].leads))

    def promise(self, name: str, session: Session, promise: Promise, kept: tuple[int, ...] = ()) -> bool:
        self.mark('promise', name)
        return super().promise(name, session, promise, kept)

    def release(self, name: str, session: Session) -> None:
        self.mark('release', name)
        super().release(name, session)


class Answered(NamedTuple):
    """An answer: its status, its headers but for the time, and its text."""

    status: int
    headers: dict[str, str]
    text: bytes


class Probes(Paged):
    """What probes and balancers hear."""

    def answered(self, method: str, target: str) -> Answered:
        connection = http.client.HTTPConnection('127.0.0.1', self.page.port, timeout=PATIENCE)
        connection.request(method, target)
        answer = connection.getresponse()
        headers = {name: value for name, value in answer.getheaders() if name != 'Date'}
        text = answer.read()
        connection.close()
        return Answered(answer.status, headers, text)

    def wait_for_statuses(self, statuses: list[int]) -> None:
        """Waits until the probes have these."""
        wait_until(lambda: [self.status(target) for target in PROBES] == statuses)

    def other(self, number: int, log: Troubled) -> Member:
        """Another member over this log, which runs."""
        member = Member(log, number, lambda work: None, lambda work: None, 2.0)
        self.run_apart(member)
        return member

    def test_head(self) -> None:
        """It has the status and the headers of a GET, and no text."""
        for begins in (False, True):
            if begins:
                self.begin()
                wait_until(lambda: self.status('/leader') == 200)
            for target in (*PROBES, '/', '/nothing', '/partitions/9'):
                got, head = self.answered('GET', target), self.answered('HEAD', target)
                with self.subTest(target=target, begins=begins):
                    self.assertEqual((head.status, head.text), (got.status, b''))
                    self.assertEqual(int(got.headers['Content-Length']), len(got.text))
                    if target != '/':  # which shows times
                        self.assertEqual(head.headers, got.headers)
        for target in ('/group', '/assignment', '/metrics'):
            self.assertEqual(self.answered('HEAD', target)[::2], (200, b''))

    def test_options(self) -> None:
        """Of a probe it has the status; of all else it says what may be asked."""
        for begins in (False, True):
            if begins:
                self.begin()
                wait_until(lambda: self.status('/leader') == 200)
            for target in (*PROBES, '/partitions/9', '/partitions/x'):
                with self.subTest(target=target, begins=begins):
                    answer = self.answered('OPTIONS', target)
                    self.assertEqual((answer.status, answer.text), (self.status(target), b''))
                    self.assertEqual(answer.headers['Allow'], 'GET, HEAD, OPTIONS')
        self.assertEqual(self.status('/leader', 'OPTIONS'), 200)
        for target, status in (('/', 204), ('/group', 204), ('/metrics', 204), ('*', 204), ('/nothing', 404)):
            answer = self.answered('OPTIONS', target)
            self.assertEqual((answer.status, answer.text, answer.headers['Allow']), (status, b'', 'GET, HEAD, OPTIONS'))
            self.assertEqual('Content-Length' in answer.headers, status != 204)

    def test_stopping(self) -> None:
        """While work has to end, and hasn't, that is said, and nobody may work on it."""
        stops, may_stop = threading.Event(), threading.Event()

        def stop(_: object) -> None:
            stops.set()
            may_stop.wait()

        self.make(20.0, start=lambda work: None, stop=stop)
        self.begin()
        self.addCleanup(may_stop.set)  # first of all
        self.assertEqual((self.get('/healthz')[2], self.status('/partitions/0')), ('live\n', 200))
        self.member.leave()
        stops.wait()
        self.assertEqual(self.get('/healthz')[::2], (200, 'stopping work; live\n'))
        self.assertEqual(self.get('/partitions/0')[::2], (503, 'stopping: work on it has to end, and has not\n'))

    def test_among_polls_and_halves_of_requests(self) -> None:
        """While all polls wait that may, and clients have asked whose bodies never come, each probe is answered."""
        self.make(20.0)
        statuses: list[int] = []
        polls = [
            threading.Thread(target=lambda: statuses.append(self.status('/group?after=0')))
            for _ in range(answers.POLLS_MAX)
        ]
        for poll in polls:
            poll.start()
        wait_until(lambda: vars(self.page._answers)['_polls']._value == 0)
        answered = 0
        with contextlib.ExitStack() as opened:
            for number in range(100):
                opened.enter_context(self.client()).sendall(
                    b'GET /livez HTTP/1.1\r\nHost: localhost\r\nContent-Length: 9\r\n\r\n'
                )
                with contextlib.suppress(OSError, http.client.HTTPException):
                    answered += self.status(PROBES[number % len(PROBES)]) in (200, 503)
        self.assertEqual((answered, statuses), (100, []))
        put(self.log, 'recover,1')
        for poll in polls:
            poll.join()
        self.assertEqual(statuses, [200] * answers.POLLS_MAX)

    def test_among_slow_readers(self) -> None:
        """Some connections are kept for probes: of others not so many are answered at once."""
        target, big = '/group', (200, 'text/plain', 'x' * 20_000_000)
        with contextlib.ExitStack() as opened:
            with mock.patch.object(
                self.page, '_answered', lambda told: big if told.path == target else (200, 'text/plain', 'x')
            ):
                for number in range(2 * server.CONNECTIONS_MAX):
                    with contextlib.suppress(OSError):  # it was closed
                        opened.enter_context(self.client()).sendall(b'GET /group HTTP/1.1\r\nHost: localhost\r\n\r\n')
                    wait_until(lambda: self.readers() > min(number, server.SHOWING_MAX - 1))
                self.assertEqual([self.status(PROBES[0]) for _ in range(100)], [200] * 100)
                self.assertEqual(self.status('/group'), 503)

    def readers(self) -> int:
        """How many connections wait for more than a status."""
        return list(self.page._server._open.values()).count(server.Asked.OTHER)

    def test_other_methods(self) -> None:
        """They are refused with what may be asked, also if much of the request isn't read."""
        for method in ('POST', 'PUT', 'DELETE', 'PATCH', 'TRACE', 'CONNECT', 'BREW'):
            connection = http.client.HTTPConnection('127.0.0.1', self.page.port, timeout=PATIENCE)
            connection.request(method, '/leader', body=b'x' * 300_000)
            answer = connection.getresponse()
            self.assertEqual((answer.status, answer.getheader('Allow')), (405, 'GET, HEAD, OPTIONS'))
            connection.close()

    def test_a_silent_store(self) -> None:
        """The process goes on, and isn't ready."""
        self.make(0.5)
        self.begin()
        self.wait_for_statuses([200] * 5)
        with self.assertLogs('bully'):
            self.log.is_silent, silent = True, seconds_of_boot()
            wait_until(lambda: self.member.stepped > silent + 2 * self.member.ttl)
            self.wait_for_statuses([200, 503, 503, 503, 503])
            self.log.is_silent = False
            self.wait_for_statuses([200] * 5)

    def test_a_stuck_member(self) -> None:
        """A process that takes no steps isn't alive, doesn't lead, and may not work, from when that isn't sure."""
        log = Hanging(Opening.first(HEADER, NAMES))
        self.make(0.5, log)
        self.begin()
        self.addCleanup(log.goes_on.set)
        log.goes_on.clear()
        log.hangs.wait()
        sure_until = self.member.sure_until
        statuses = {200, 503}
        while statuses != {503}:
            asked = seconds_of_boot()
            statuses = {self.status(target) for target in ('/leader', '/partitions/0', '/readyz')}
            self.assertTrue(asked < sure_until or statuses == {503}, statuses)
        self.assertGreaterEqual(seconds_of_boot(), sure_until, 'it told less than it might')
        wait_until(lambda: self.status('/livez') == 503)
        self.assertGreaterEqual(seconds_of_boot(), self.member.stepped + self.member.ttl)
        log.goes_on.set()
        self.wait_for_statuses([200] * 5)

    def test_before_it_takes_part(self) -> None:
        """While the store hasn't answered yet the process is alive, and knows nothing."""
        before = server.MemberServer(('127.0.0.1', 0), 'b')
        self.addCleanup(before.close)
        with mock.patch.object(self, 'page', before):
            self.assertEqual([self.status(target) for target in PROBES], [200, 503, 503, 503, 503])
            self.assertEqual([self.status(each) for each in ('/', '/group', '/assignment', '/no')], [503] * 3 + [404])
            self.assertEqual(self.measured(), {'bully_store_up': 0, 'bully_sure_seconds{node="b"}': 0})
        self.assertEqual([self.status(target) for target in PROBES], [200, 503, 503, 503, 503], 'nor if it is to begin')

    def test_partitions(self) -> None:
        """Each is that of one node, and only those of the group are."""
        log = Troubled(Opening.first(HEADER, NAMES))
        self.make(2.0, log)
        self.begin()
        for word in ('6', '-1', '', 'x', '01', '1/', '0?', '+1', '1' * 5000, '%31', '%c2%b2', '%d9%a3'):
            status = {'0?': 200, '%31': 200}.get(word, 404)
            self.assertEqual(self.status(f'/partitions/{word}'), status, word)
        other = self.other(3, log)
        wait_until(lambda: (other.assignment() and self.member.assignment()))
        pages = [self.page, server.MemberServer(('127.0.0.1', 0), 'c')]
        self.addCleanup(pages[1].close)
        pages[1].show(view.LogView(log), other, Workers(['true'], 'c', 0.0))
        members = [member.assignment() for member in (self.member, other)]
        for partition in range(6):
            told = []
            for each in pages:
                with mock.patch.object(self, 'page', each):
                    told.append(self.status(f'/partitions/{partition}'))
            self.assertEqual(told, [200 if partition in work.partitions else 503 for work in members if work])
            self.assertEqual(sorted(told), [200, 503])

    def test_a_leader_that_owns_nothing(self) -> None:
        """It leads all the same, up to when that isn't sure; and before it promises to be idle it doesn't any more."""
        log = Noting(Opening.first('bully,1,3,1', NAMES))
        first = self.other(1, log)
        wait_until(first.assignment)
        self.make(2.0, log)
        log.members['b'] = self.member
        self.run_apart(self.member)
        wait_until(lambda: self.status('/leader') == 200)
        self.assertEqual((self.member.assignment(), first.leads, self.status('/partitions/0')), (None, False, 503))
        self.assertIsNotNone(first.assignment())
        log.led.clear()
        highest = self.other(3, log)
        wait_until(lambda: highest.leads)
        self.assertFalse(self.member.leads or first.leads)
        self.assertIn(('promise', 'b', False), log.led)
        highest.leave()
        wait_until(lambda: self.status('/leader') == 200)
        self.member.leave()
        wait_until(lambda: any(asked == 'release' for asked, _, _ in log.led))
        self.assertEqual({leads for _, _, leads in log.led}, {False})
