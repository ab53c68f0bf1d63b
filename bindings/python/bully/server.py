"""The HTTP server of a member. Nothing can be changed there."""
from __future__ import annotations

import enum
import functools
import logging
import socket
import socketserver
import sys
import threading
from collections.abc import Callable, Iterable
from contextlib import suppress
from email.message import Message
from http.server import BaseHTTPRequestHandler, ThreadingHTTPServer
from typing import Any

from .answers import PATHS, Answer, Answers, MemberAnswers, is_of_status, text_answer
from .clocks import seconds_of_boot
from .faults import BullyError
from .hosts import BadRequest, Hosts, Target
from .member import Member
from .page import POLICY
from .shared_log import LogError, Unanswered
from .view import LogView
from .worker import Workers

_logger = logging.getLogger('bully')

CONNECTIONS_MAX = 100  # at the same time; one more closes one that has its answer, or else the longest silent one
SHOWING_MAX = 80  # of these, that are answered at the same time with more than a status: the others are kept for probes
ASK_SECONDS = 10.0  # for which a connection may send nothing, or take nothing
REST_SECONDS, REST_MAX = 1.0, 1_000_000  # for how long, and how many bytes, the unused rest of a request is read
METHODS = 'GET, HEAD, OPTIONS'


class Asked(enum.Enum):
    """What a connection has asked: nothing; a status, or something else, that isn't answered yet; or what has been
    answered."""

    NOTHING, STATUS, OTHER, ANSWERED = range(4)


class BoundedServer(ThreadingHTTPServer):
    """A server whose requests end with it. It has a bound on connections, and a client that asks at once gets through,
    at least if it asks for a status."""

    daemon_threads = True
    block_on_close = False
    request_queue_size = CONNECTIONS_MAX

    def __init__(self, address: tuple[str, int], handler: Callable[..., BaseHTTPRequestHandler]) -> None:
        self.address_family = socket.AF_INET6 if ':' in address[0] else socket.AF_INET
        self._open: dict[Any, Asked] = {}  # connections, the oldest first
        self._lock = threading.Lock()
        super().__init__(address, handler)

    def server_bind(self) -> None:
        """Without a lookup of its name, which may take long."""
        socketserver.TCPServer.server_bind(self)
        self.server_name, self.server_port = str(self.server_address[0]), int(self.server_address[1])

    def process_request(self, request: Any, client_address: Any) -> None:
        with self._lock:
            self._open[request] = Asked.NOTHING
            useless = (
                each for kind in (Asked.ANSWERED, Asked.NOTHING) for each, asked in self._open.items() if asked is kind
            )
            closed = next(useless) if len(self._open) > CONNECTIONS_MAX else None
            self._open.pop(closed, None)
        if closed is request:
            self.shutdown_request(request)
            return
        if closed is not None:
            with suppress(OSError):
                closed.shutdown(socket.SHUT_RDWR)  # this ends its thread
        try:
            super().process_request(request, client_address)
        except RuntimeError:  # no thread can be started
            self.shutdown_request(request)

    def asks(self, request: Any, asked: Asked) -> bool:
        """The connection has asked this, or was answered. Whether it may be answered at the same time as others."""
        with self._lock:
            is_free = asked is not Asked.OTHER or list(self._open.values()).count(asked) < SHOWING_MAX
            if request in self._open and is_free:
                self._open[request] = asked
        return is_free

    def shutdown_request(self, request: Any) -> None:
        with self._lock:
            self._open.pop(request, None)
        super().shutdown_request(request)

    def handle_error(self, request: object, client_address: object) -> None:
        """The client may be gone before the answer. All other errors are logged."""
        if not isinstance(sys.exc_info()[1], OSError):
            _logger.exception('a request from %s failed', client_address)


class MemberServer:
    """The HTTP server of a member."""

    def __init__(self, address: tuple[str, int], name: str, allowed: Iterable[str] = ()) -> None:
        """Listens at this address, and answers for the node of this name, from now on. Further hosts are allowed beside
        those of `hosts`. Raises OSError if it can't listen."""
        self._answers = Answers(name)
        self._server = BoundedServer(address, functools.partial(RequestHandler, self))
        self._hosts = Hosts(address[0], str(self._server.server_address[0]), allowed)
        threading.Thread(target=self._server.serve_forever, name='bully page', daemon=True).start()

    @property
    def port(self) -> int:
        return int(self._server.server_address[1])

    def show(self, view: LogView, member: Member, workers: Workers) -> None:
        """Answers by these from now on, and closes the view at the end."""
        self._answers = MemberAnswers(view, member, workers)

    def close(self) -> None:
        """Ends the server."""
        self._server.shutdown()
        self._server.server_close()
        self._answers.close()

    def answer(self, method: str, words: str, headers: Message) -> Answer:
        """The answer to a request with this method for this target."""
        try:
            target = Target.read(words)
            host = target.asked_host(headers.get_all('Host', []))
            check_length(headers.get_all('Content-Length', []))
        except BadRequest as fault:
            return text_answer(400, str(fault))
        if not self._hosts.takes(host):
            return text_answer(403, 'this host is not allowed; bully-member run --allow-host allows it')
        if method == 'OPTIONS' and not is_of_status(target.path):
            return text_answer(204 if target.path in PATHS else 404, '')
        return self._answered(target)

    def _answered(self, target: Target) -> Answer:
        """Errors of the log aren't shown to unknown clients."""
        try:
            return self._answers.answer(target)
        except Unanswered:
            return text_answer(503, 'the store does not answer')
        except (LogError, BullyError):
            return text_answer(503, 'the log can not be read')


def check_length(lengths: list[str]) -> None:
    """Raises BadRequest for a body with a bad length."""
    if len(set(lengths)) > 1 or not all(each.isascii() and each.isdecimal() for each in lengths):
        raise BadRequest('the length is not a number')


class RequestHandler(BaseHTTPRequestHandler):
    """A connection, which has one request."""

    protocol_version = 'HTTP/1.1'
    default_request_version = 'HTTP/1.0'
    server_version = 'bully-member'
    sys_version = ''
    timeout = ASK_SECONDS
    server: BoundedServer

    def __init__(self, member: MemberServer, *arguments: Any) -> None:
        self.member = member
        self._has_rest = False  # whether a part of the request wasn't read
        super().__init__(*arguments)

    def parse_request(self) -> bool:
        """Refuses versions before HTTP/1.0, whose answers have no status."""
        is_request = super().parse_request()
        if is_request and self.request_version.startswith('HTTP/0'):
            self.send_error(400)
            return False
        return is_request

    def do_GET(self) -> None:
        asked = Asked.STATUS if is_of_status(self.path.partition('?')[0]) else Asked.OTHER
        self._has_rest = 'Content-Length' in self.headers or 'Transfer-Encoding' in self.headers
        if self.server.asks(self.connection, asked):
            self.send(*self.member.answer(self.command, self.path, self.headers))
        else:
            self.send(*text_answer(503, 'too many requests at the same time'))

    do_HEAD = do_OPTIONS = do_GET

    def send_error(self, code: int, message: str | None = None, explain: str | None = None) -> None:
        """Answers a bad request, or one whose method isn't known."""
        self._has_rest, self.request_version = True, self.default_request_version
        status = {501: 405, 505: 400}.get(code, code)
        self.send(
            *text_answer(status, f'only {METHODS} are answered' if status == 405 else 'this is not a valid request')
        )

    def send(self, status: int, kind: str, text: str) -> None:
        content = b'' if self.command == 'OPTIONS' else text.encode('utf-8', 'replace')
        headers = [
            ('Connection', 'close'), ('Cache-Control', 'no-store'), ('X-Content-Type-Options', 'nosniff'),
            ('Content-Security-Policy', POLICY),
        ]  # fmt: skip
        if status == 405 or self.command == 'OPTIONS':
            headers.append(('Allow', METHODS))
        if status != 204:
            headers.append(('Content-Type', kind if 'version' in kind else f'{kind}; charset=utf-8'))
            headers.append(('Content-Length', str(len(content))))
        self.send_response(status)
        for header, value in headers:
            self.send_header(header, value)
        self.end_headers()
        if self.command != 'HEAD':
            self.wfile.write(content)

    def finish(self) -> None:
        """Reads and drops the rest of the request: otherwise the answer may be lost with it."""
        super().finish()
        self.server.asks(self.connection, Asked.ANSWERED)
        with suppress(OSError):
            if self._has_rest:
                self.connection.shutdown(socket.SHUT_WR)
                self._take_rest(seconds_of_boot() + REST_SECONDS)

    def _take_rest(self, end: float) -> None:
        left, count = REST_SECONDS, REST_MAX
        while left > 0 and count > 0:
            self.connection.settimeout(left)
            part = self.connection.recv(min(count, 65_536))
            left, count = end - seconds_of_boot(), count - len(part) if part else 0

    def log_message(self, format: str, *args: object) -> None:
        """Requests aren't logged."""
