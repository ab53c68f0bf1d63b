"""What the tests of logs in etcd share: a log of their own, and a server that loses what it is asked."""
from __future__ import annotations

import contextlib
import random
import socket
import threading
from typing import Any

from bully.clocks import SECOND
from bully.core import Session
from bully.etcd import EtcdLog
from bully.etcd_client import Endpoint
from bully.shared_log import Unanswered
from ..etcd_servers import Server, WithEtcd
from ..steps import EMPTY, LONG, A

TXN, GRANT, KEEPALIVE = b'POST /v3/kv/txn ', b'POST /v3/lease/grant ', b'POST /v3/lease/keepalive '
PUT = b'request_put'


# Answers over HTTP that are not etcd's: the status and the text.
OF_OTHERS = (
    (404, 'nothing here'),
    (404, '{"code": 5, "message": "Not Found", "details": []}'),
    (403, '<html>Forbidden</html>'),
    (403, '{"message": "permission denied"}'),
    (401, '{"error": "user name is empty"}'),
    (408, ''),
    (429, 'slow down'),
    (429, '{"error": "rate limit"}'),
    (502, '<html>'),
    (503, '{"status": 503}'),
    (503, '{"code": 503, "message": "auth"}'),
    (504, '{"error": {"code": 7, "message": "permission denied"}}'),
    (500, '{"header": {"raft_term": "1"}}'),
    (200, '{}'),
    (200, '[]'),
    (200, '"x"'),
    (200, '<html>'),
    (200, ''),
    (200, '{"result": []}'),
    (200, '{"header": 1}'),
    (200, '{"header": {"raft_term": "1"}}'),
    (302, ''),
)


def answer(status: int, text: str) -> bytes:
    """An answer over HTTP."""
    return f'HTTP/1.0 {status} x\r\n\r\n{text}'.encode()


class Proxy:
    """Stands between a log and a server. It loses, once, an answer or a request, the first whose request has these
    bytes. A share of the requests it answers by itself, with an error or another page."""

    share, choice = 0.0, random.Random(1)
    answered = 0  # how many it has answered by itself

    def __init__(self, port: int, host: str = '127.0.0.1') -> None:
        self.port = port  # of the server
        self.requests = 0
        self._loses: tuple[str, bytes] = ('', b'')
        self.lost = threading.Event()
        self._listening = socket.create_server((host, 0), family=socket.AF_INET6 if ':' in host else socket.AF_INET)
        self.endpoint = str(Endpoint(host, self._listening.getsockname()[1]))
        threading.Thread(target=self._accept, daemon=True).start()

    def address(self, prefix: str) -> str:
        return f'etcd://{self.endpoint}/{prefix}'

    def lose(self, what: str, part: bytes) -> None:
        self.lost.clear()
        self._loses = (what, part)

    def close(self) -> None:
        with contextlib.suppress(OSError):
            self._listening.shutdown(socket.SHUT_RDWR)
        self._listening.close()

    def _accept(self) -> None:
        while True:
            try:
                client, _ = self._listening.accept()
                server = socket.create_connection(('127.0.0.1', self.port))
            except OSError:
                return
            threading.Thread(target=self._carry, args=[client, server], daemon=True).start()

    def _carry(self, client: socket.socket, server: socket.socket) -> None:
        """Carries requests and answers, one after the other."""
        with client, server, contextlib.suppress(OSError):
            threading.Thread(target=self._answer, args=[client, server], daemon=True).start()
            while True:
                request = client.recv(1 << 20)
                if not request:
                    break
                self.requests += 1
                what, part = self._loses
                if what == 'request' and part in request:
                    self._lose()
                    break
                if self.choice.random() < self.share:
                    self.answered += 1
                    client.sendall(answer(*self.choice.choice(OF_OTHERS)))
                    break
                self._is_next |= what == 'answer' and part in request
                server.sendall(request)
            for each in (client, server):
                each.shutdown(socket.SHUT_RDWR)

    _is_next = False

    def _answer(self, client: socket.socket, server: socket.socket) -> None:
        with contextlib.suppress(OSError):
            while True:
                answer = server.recv(1 << 20)
                if self._is_next:
                    self._lose()
                    answer = b''
                if not answer:
                    client.shutdown(socket.SHUT_RDWR)
                    return
                client.sendall(answer)

    def _lose(self) -> None:
        self._is_next = False
        self._loses = ('', b'')
        self.lost.set()


class InEtcd(WithEtcd):
    """Tests of logs, with what some of them share."""

    def begun(self, address: str = '', **more: Any) -> EtcdLog:
        """A log in which 'a' is live."""
        log = self.created(address, **more)
        self.assertTrue(log.acquire('a', A, EMPTY, LONG))
        return log

    def proxy(self, host: str = '127.0.0.1') -> Proxy:
        proxy = Proxy(self.server.port, host)
        self.addCleanup(proxy.close)
        return proxy

    def renewed(self, log: EtcdLog, session: Session = A, ttl: int = 2 * SECOND) -> bool:
        """Whether the lease of 'a' is renewed, once that is answered."""
        while True:
            with contextlib.suppress(Unanswered):
                return log.renew('a', session, ttl)

    def leases(self, server: Server | None = None, prefix: str = '') -> dict[str, str | None]:
        """The leases of etcd, by the keys of sessions and promises that are under them."""
        root = f'{prefix or self.prefix}/lease/'
        return {key[len(root) :]: pair.get('lease') for key, pair in (server or self.server).keys(root).items()}
