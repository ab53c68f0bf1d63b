"""Tests of requests over HTTP: which hosts are taken, and that none of any form harms a member."""
from __future__ import annotations

import contextlib
import io
import random
import socket
import unittest
from unittest import mock

from bully import answers, hosts, server
from ..waiting import PATIENCE, wait_until
from .member_processes import call
from .paged import Paged

SEED, ROUNDS = 10, 1500
FINE = {200, 204, 400, 403, 404, 405, 414, 431}  # what a member may answer that is well

# Parts of requests, for which bytes stand that a client may send.
METHODS = ['GET', 'GET', 'GET', 'HEAD', 'OPTIONS', 'POST', 'get', 'BREW', 'G T', '', 'GET\0', 'g\xe9t', '\xa0']
TARGETS = [
    '/', '/group', '/healthz', '/livez', '/leader', '/partitions/1', '/metrics', '/assignment', '*', '//', '/\xe9',
    '/ ',
    'http://[', 'http://[::1', 'http://[::1]/', 'http://[x]/', 'http://a@b/', 'http:///', 'http://', 'http://a:b/',
    'HTTP://localhost/', 'https://localhost:1/group?after=0', 'http://evil.example/', 'http://\xe2\x84\x80/',
    'localhost:80', '[', '/%', '/%zz', '/%00', '/%c3%28', '/%2f', '/#x', '/?', '/group?after=%zz', '/group?after=\xb2',
    '/group?after=9&after=x&&=;', '/group?epoch=0&after=99999999', '/group?after=%d9%a3', '/partitions/\xb2', '\0',
    '/partitions/' + '9' * 5000, '/' + 'a' * 60_000, '/' + 'b' * 70_000, '/?' + '&' * 50_000, 'ftp://a/', '?x', '\\',
]  # fmt: skip
VERSIONS = [
    ' HTTP/1.1', ' HTTP/1.1', ' HTTP/1.1', ' HTTP/1.0', ' HTTP/0.9', ' HTTP/2.0', ' HTTP/1.1.1', ' HTTP/\xb2.0',
    ' HTTP/', ' HTTP/1.' + '1' * 5000, ' http/1.1', ' HTTP/-1.1', '', ' x', ' HTTP/1.1 x',
]  # fmt: skip
HEADERS = [
    'Host: localhost', 'Host: LOCALHOST:1', 'Host: evil.example', 'Host:', 'Host: [', 'Host: [::1]', 'Host: a, b',
    'Host: \xe9', 'Host: 127.0.0.1:x', 'Host: ' + 'a' * 50_000, 'Content-Length: 5', 'Content-Length: -1',
    'Content-Length: x',
    'Content-Length: \xb2', 'Content-Length: ' + '9' * 5000, 'Transfer-Encoding: chunked', 'Expect: 100-continue', 'x',
    ': x', ' folded', '\t', 'A: \0', '\xff: \xfe', 'B: ' + 'b' * 70_000, '\r', 'Connection: keep-alive',
    'Connection: \xe9', 'Upgrade: h2c', 'Content-Type: multipart/form-data',
]  # fmt: skip
ENDS = ['\r\n\r\n', '\r\n\r\n', '\n\n', '\r\n', '', '\r\n\r\nabcde', '\r\n\r\n5\r\nabcde\r\n0\r\n\r\n']
ENDS.append('\r\n\r\nGET / HTTP/1.1\r\n\r\n')


def request(chance: random.Random) -> bytes:
    """A request of some form, or of none."""
    if chance.random() < 0.05:
        return chance.randbytes(chance.randrange(200))
    count = 150 if chance.random() < 0.03 else chance.randrange(5)
    line = f'{chance.choice(METHODS)} {chance.choice(TARGETS)}{chance.choice(VERSIONS)}'
    headers = [chance.choice(HEADERS if count < 100 else HEADERS[:1]) for _ in range(count)]
    return ('\r\n'.join([line, *headers]) + chance.choice(ENDS)).encode('latin-1')


class Requests(Paged):
    """Requests of any form."""

    def raw(self, sent: bytes, port: int | None = None) -> bytes:
        """What is answered to these bytes, and nothing after them."""
        with socket.create_connection(('127.0.0.1', port or self.page.port), PATIENCE) as client:
            with contextlib.suppress(ConnectionError):  # it is refused before it is read
                client.sendall(sent)
                client.shutdown(socket.SHUT_WR)
            with client.makefile('rb') as file:
                return file.read()

    def raw_status(self, sent: bytes, port: int | None = None) -> int:
        """The status of that, after a `100 Continue`; 0, if there is none."""
        words = self.raw(sent, port).replace(b'HTTP/1.1 100 Continue\r\n\r\n', b'').split(b' ', 2)
        return int(words[1]) if words[0].startswith(b'HTTP/1.') else 0

    def of_host(self, host: str | None, port: int | None = None) -> int:
        """The status for a host, or for none."""
        named = '' if host is None else f'Host: {host}\r\n'
        return self.raw_status(f'GET /healthz HTTP/1.1\r\n{named}\r\n'.encode(), port)

    def test_targets(self) -> None:
        """Those that are none are refused, and nothing is said of them."""
        self.begin()
        cases = {
            'http://[': 400, 'http://[::1': 400, 'http://': 400, 'http:///healthz': 400,
            'http://a@localhost/healthz': 400, 'healthz': 400, 'localhost:80': 400, '/%': 400, '/%zz': 400,
            '/healthz#x': 400, '/h\xe9': 400, '/\0': 400,
            'http://localhost/healthz': 200, 'HTTP://LOCALHOST:1/healthz?x': 200, 'http://evil.example/healthz': 403,
            'http://localhost': 200, 'http://localhost?x': 200, '/health%7a': 200, '/healthz?after=%zz': 400,
            '/%c3%28': 404, '/' + 'a' * 70_000: 414,
        }  # fmt: skip
        with mock.patch.object(server._logger, 'exception') as failed:
            for target, status in cases.items():
                with self.subTest(target=target[:50]):
                    sent = f'GET {target} HTTP/1.1\r\nHost: localhost\r\n\r\n'.encode('latin-1')
                    self.assertEqual(self.raw_status(sent), status)
        self.assertEqual(failed.call_args_list, [])

    def test_forms(self) -> None:
        """Requests that break HTTP's rules."""
        self.begin()
        for head, status in (
            ('GET /healthz HTTP/1.0', 200), ('GET /healthz', 200), ('GET /healthz HTTP/3.0', 400),
            ('POST /healthz', 400), ('BREW /healthz HTTP/1.1', 405), ('GET /healthz x', 400),
            ('GET / HTTP/1.1\r\nHost: a\r\nHost: a', 400),
            ('GET /healthz HTTP/1.1\r\nContent-Length: x', 400), ('GET /healthz HTTP/1.1\r\nContent-Length: \xb2', 400),
            ('GET /healthz HTTP/1.1\r\nContent-Length: 1\r\nContent-Length: 2', 400),
            ('GET /healthz HTTP/1.1\r\nx: \xff', 200),
            ('GET /healthz HTTP/1.1\r\nContent-Length: 0', 200), (f'GET /healthz HTTP/1.1\r\nx: {"x" * 70_000}', 431),
            ('GET /healthz HTTP/1.1' + '\r\nx: x' * 200, 431),
        ):  # fmt: skip
            with self.subTest(head=head[:60]):
                self.assertEqual(self.raw_status(f'{head}\r\n\r\n'.encode('latin-1')), status)

    def test_any_form(self) -> None:
        """Whatever is sent, nothing is said, and the member answers as before."""
        self.begin()
        wait_until(lambda: self.status('/leader') == 200)
        chance, said = random.Random(SEED), io.StringIO()
        statuses: dict[int, int] = {}
        with mock.patch.object(answers, 'POLL_SECONDS', 0.0), contextlib.redirect_stderr(said):
            with mock.patch.object(server._logger, 'exception') as failed:
                for number in range(ROUNDS):
                    sent = request(chance)
                    status = self.raw_status(sent)
                    statuses[status] = statuses.get(status, 0) + 1
                    is_blank = not sent.partition(b'\n')[0].decode('latin-1').split()
                    self.assertTrue(status in FINE or (is_blank and not status), (number, status, sent[:200]))
            self.assertEqual((failed.call_args_list, said.getvalue()), ([], ''))
        self.assertEqual(set(statuses) - {0}, FINE)
        self.assertEqual((self.status('/healthz'), self.status('/group')), (200, 200))

    def test_hosts_of_this_machine(self) -> None:
        """A page of the loopback is asked by names of that, with a port or without, and by none else."""
        self.begin()
        for host in (
            'localhost', 'LocalHost', 'localhost.', 'LOCALHOST:80', 'localhost:', '127.0.0.1', '127.0.0.1:1', '[::1]',
            '[::1]:8081', '127.0.0.2', '127.0.0.1.', '', None,
        ):  # fmt: skip
            self.assertEqual(self.of_host(host), 200, host)
        for line in ('GET /healthz', 'OPTIONS /partitions/0', 'OPTIONS /livez'):  # as HAProxy asks
            self.assertEqual(self.raw_status(f'{line} HTTP/1.0\r\n\r\n'.encode()), 200)
        for host in ('evil.example', 'localhost.evil.example', 'evil', '192.0.2.1', 'a.local', socket.gethostname()):
            self.assertEqual(self.of_host(host), 403, host)
        for host in ('[', '[::1', '::1', 'a b', 'a:b', '[x]:1', 'http://localhost', '%', '*', 'a..b', '.'):
            self.assertEqual(self.of_host(host), 400, host)
        for method in ('HEAD', 'OPTIONS'):
            self.assertEqual(self.raw_status(f'{method} /livez HTTP/1.1\r\nHost: evil.example\r\n\r\n'.encode()), 403)

    def test_hosts_beyond(self) -> None:
        """A page of all addresses is asked by those, and by names that no site on the Internet has, or that are
        allowed."""
        cases: list[tuple[list[str], int]] = [([], 403), (['evil.example'], 503), (['*'], 503)]
        for allowed, status in cases:
            with contextlib.closing(server.MemberServer(('0.0.0.0', 0), 'b', allowed)) as beyond:
                hosts_taken = [
                    'localhost', '192.0.2.1', '192.0.2.1:8081', '[2001:db8::1]:8081', 'b', 'B:8081',
                    'a_1.svc.cluster.local', 'ip-10-0-0-1.ec2.internal', socket.gethostname(), None,
                ]  # fmt: skip
                self.assertEqual([self.of_host(host, beyond.port) for host in hosts_taken], [503] * 10)
                for host in ('evil.example', 'EVIL.example:80', 'evil.example.'):
                    self.assertEqual(self.of_host(host, beyond.port), status, (host, allowed))
                self.assertEqual(self.of_host('x.evil.example', beyond.port), 503 if allowed == ['*'] else 403)
                self.assertEqual(self.of_host('evil.local.example', beyond.port), 503 if allowed == ['*'] else 403)

    def test_a_listening_name(self) -> None:
        """The name that it was told to listen at is taken, and its machine's only beyond the loopback."""
        with mock.patch('socket.gethostname', lambda: 'Web1.Example.org'):
            beyond, local = hosts.Hosts('Lan.Example.org.', '192.0.2.7'), hosts.Hosts('Lan.Example.org', '127.0.1.1')
        self.assertEqual([each.takes('lan.example.org') for each in (beyond, local)], [True, True])
        self.assertEqual([each.takes('web1.example.org') for each in (beyond, local)], [True, False])


class Words(unittest.TestCase):
    """`--allow-host`."""

    def test_allowed(self) -> None:
        for word, host in (('*', '*'), ('A.Example.', 'a.example'), ('[::1]', '[::1]'), ('10.0.0.1', '10.0.0.1')):
            self.assertEqual(hosts.read_allowed(word), host)

    def test_bad_words(self) -> None:
        run = ['run', '--log', 'sqlite:/nowhere/x.db', '--node', 'a']
        for word in ('', 'a:80', '[::1]:80', 'a b', 'http://a', '*.example', '::1', 'b\xfc'):
            status, _, said = call(*run, '--listen', '0', '--allow-host', word, '--', 'true')
            self.assertEqual(status, 2, word)
            self.assertIn(f'bully-member: --allow-host is {word}, and must be a name or an address', said)
        status, _, said = call(*run, '--allow-host', 'a', '--', 'true')
        self.assertEqual((status, said), (2, 'bully-member: --allow-host needs --listen\n'))
