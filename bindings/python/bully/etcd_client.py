"""A client of etcd, 3.4 or later: requests over the JSON gateway of its servers, by the standard library alone."""
from __future__ import annotations

import http.client
import json
import queue
import re
import socket
import ssl
import threading
from base64 import b64decode, b64encode
from collections.abc import Sequence
from contextlib import suppress
from typing import Any, NamedTuple, NoReturn

from .clocks import seconds_of_boot, sleep_until_ready
from .display import shown_address
from .shared_log import DamagedLog, ForeignLog, LogError, Unanswered

PORT = 2379
LEAST_LIMIT = 0.01  # the shortest limit of a request, in seconds
RECEIVED = 65_536  # bytes of a watch that are read at once

KV_RANGE, KV_TXN, WATCH, LOGIN = '/v3/kv/range', '/v3/kv/txn', '/v3/watch', '/v3/auth/authenticate'
LEASE_GRANT, LEASE_KEEPALIVE = '/v3/lease/grant', '/v3/lease/keepalive'

# Codes of gRPC: why etcd refuses a request. By any other code it may be done when it is asked again: also if etcd is
# full or corrupt, has no leader, or doesn't know a lease.
INVALID_ARGUMENT, PERMISSION_DENIED, FAILED_PRECONDITION, OUT_OF_RANGE, UNAUTHENTICATED = 3, 7, 9, 11, 16
OF_USERS = frozenset({INVALID_ARGUMENT, PERMISSION_DENIED, FAILED_PRECONDITION, UNAUTHENTICATED})  # and of other things
OWN_WORDS = 'etcdserver: '  # each error of etcd has these, and none of a proxy before it
SAID_MAX = 200  # characters of an answer that are repeated

HEADER = frozenset({'cluster_id', 'raft_term'})  # what the header of each answer has

TARGETS = {'version': 'VERSION', 'create_revision': 'CREATE', 'mod_revision': 'MOD'}  # of a condition, by its number

Json = dict[str, Any]


class Denied(LogError):
    """etcd and this process don't accept each other: user, password, certificate or permission."""


# ---- Addresses

ENDPOINT = re.compile(r'(?:\[([^\[\]]+)\]|([^:\[\]]+))(?::([0-9]{1,5}))?')


class Endpoint(NamedTuple):
    """The address of a server of etcd."""

    host: str
    port: int

    def __str__(self) -> str:
        return f'[{self.host}]:{self.port}' if ':' in self.host else f'{self.host}:{self.port}'


class Address(NamedTuple):
    """The address of a log: the servers, the prefix of its keys, and whether TLS is used."""

    endpoints: tuple[Endpoint, ...]
    prefix: str
    is_secure: bool


def read_address(words: str) -> Address:
    """The address `etcd://HOST:PORT,HOST:PORT/PREFIX`, or with `etcds`. The prefix has no slash at its end.

    Raises ValueError."""
    kind, mark, rest = words.partition('://')
    servers, _, prefix = rest.partition('/')
    prefix = prefix.rstrip('/')
    if '@' in rest:  # a password may have a slash, and look like a port before that
        how = 'use --user NAME with BULLY_ETCD_PASSWORD or --password-file'
        raise ValueError(f'{shown_address(words)}, and an address can have no user and no password: {how}')
    if kind not in ('etcd', 'etcds') or not mark or not prefix:
        raise ValueError(f'{words}: an address must be etcd://HOST:PORT,HOST:PORT/PREFIX')
    prefix.encode()
    return Address(tuple(map(read_endpoint, servers.split(','))), prefix, kind == 'etcds')


def read_endpoint(words: str) -> Endpoint:
    """The endpoint HOST, HOST:PORT or [HOST]:PORT. Raises ValueError."""
    found = ENDPOINT.fullmatch(words)
    if found is None or int(found[3] or PORT) > 65_535:
        raise ValueError(f'{words or "an empty word"}: a server must be HOST:PORT')
    return Endpoint(found[1] or found[2], int(found[3] or PORT))


# ---- Keys, ranges and conditions


class Pair(NamedTuple):
    """A key with its value, its revisions and its lease."""

    key: bytes
    value: bytes
    created: int
    modified: int
    lease: int


def pair_of(document: Json) -> Pair:
    """The pair of such a document."""
    created, modified, lease = (int(document.get(name, 0)) for name in ('create_revision', 'mod_revision', 'lease'))
    return Pair(b64decode(document['key']), b64decode(document.get('value', '')), created, modified, lease)


def pairs_of(found: Json) -> list[Pair]:
    """The pairs that a range found."""
    return [pair_of(document) for document in found.get('kvs', ())]


def value_of(found: Json) -> bytes | None:
    """The value of a key that was read, if the key is there."""
    return next((pair.value for pair in pairs_of(found)), None)


def coded(text: bytes) -> str:
    """A key or a value in JSON."""
    return b64encode(text).decode()


def prefix_end(prefix: bytes) -> bytes:
    """The first key after all that have this prefix. (The last byte of a prefix is never the highest one.)"""
    return prefix[:-1] + bytes([prefix[-1] + 1])


def range_at(key: bytes, **more: object) -> Json:
    """The range of one key."""
    return {'key': coded(key), **more}


def range_from(begin: bytes, end: bytes, **more: object) -> Json:
    """The range of the keys from one on, up to the end, which isn't in it."""
    return range_at(begin, range_end=coded(end), **more)


def range_below(prefix: bytes, **more: object) -> Json:
    """The range of all keys with this prefix."""
    return range_from(prefix, prefix_end(prefix), **more)


def number_is(key: bytes, name: str, number: int) -> Json:
    """The condition that a number of the key is this one."""
    return {'key': coded(key), 'target': TARGETS[name], 'result': 'EQUAL', name: str(number)}


def is_before(revision: int, begin: bytes, end: bytes) -> Json:
    """The condition that each key of a range, as far as there are any, was put before this revision."""
    return {**number_is(begin, 'mod_revision', revision), 'result': 'LESS', 'range_end': coded(end)}


def value_is(key: bytes, value: bytes) -> Json:
    """The condition that the key is there, with this value."""
    return {'key': coded(key), 'target': 'VALUE', 'result': 'EQUAL', 'value': coded(value)}


def ranges(*asked: Json) -> list[Json]:
    """Ranges as operations of a transaction."""
    return [{'request_range': each} for each in asked]


def put_of(key: bytes, value: bytes, **more: str) -> Json:
    """Puts a key."""
    return {'request_put': {'key': coded(key), 'value': coded(value), **more}}


def put_at(key: bytes, text: str, **more: str) -> Json:
    """Puts a key, with a text as its value."""
    return put_of(key, text.encode(), **more)


def exists(key: bytes) -> Json:
    """The condition that the key is there."""
    return {**number_is(key, 'version', 0), 'result': 'GREATER'}


# ---- Requests and answers


class Silent(Exception):
    """A server didn't answer. It may have done what was requested, if `may_be_done`; it will never answer if
    `is_final`."""

    def __init__(self, endpoint: Endpoint, why: str, may_be_done: bool, is_final: bool = False) -> None:
        super().__init__(f'{endpoint}: {why}')
        self.may_be_done = may_be_done
        self.is_final = is_final


class Refusal(Exception):
    """A server answered that it refuses the request."""

    def __init__(self, code: int, said: str) -> None:
        super().__init__(said)
        self.code = code

    @property
    def is_of_token(self) -> bool:
        """Whether a new login may help."""
        return self.code == UNAUTHENTICATED or 'auth token' in str(self) or 'auth store is old' in str(self)

    @property
    def is_of_etcd(self) -> bool:
        """Whether etcd said so itself."""
        return OWN_WORDS in str(self)

    @property
    def denies(self) -> bool:
        """Whether etcd refuses this user."""
        names_it = any(part in str(self) for part in ('permission', 'auth', 'user name'))
        return self.is_of_etcd and self.code in OF_USERS and names_it

    @property
    def is_final(self) -> bool:
        """Whether etcd will never do what was requested."""
        return self.is_of_etcd and self.code == INVALID_ARGUMENT


class Compacted(Exception):
    """The requested revision is no longer kept."""


def refusal_of(error: object) -> Refusal:
    """The refusal in an error of an answer: of 3.4 or later, in a stream or not."""
    document = error if isinstance(error, dict) else {}
    code = document.get('code', document.get('grpc_code', 0))
    said = document.get('message') or document.get('error') or error
    return Refusal(code if isinstance(code, int) else 0, str(said)[:SAID_MAX])


def fail(endpoint: Endpoint, refusal: Refusal) -> NoReturn:
    """Raises what a refusal means."""
    said = f'{endpoint}: {refusal}'
    if refusal.code == OUT_OF_RANGE and refusal.is_of_etcd and 'compacted' in said:
        raise Compacted(said) from refusal
    if refusal.denies or refusal.is_final:
        raise (Denied if refusal.denies else LogError)(said) from refusal
    raise Silent(endpoint, str(refusal), may_be_done=True) from refusal


def document_in(text: bytes) -> Json:
    """The document of an answer; an empty one if it has none."""
    try:
        document = json.loads(text)
    except ValueError:
        return {}
    return document if isinstance(document, dict) else {}


def silent_of(endpoint: Endpoint, error: Exception, may_be_done: bool) -> Silent:
    """What an error of a connection means."""
    if isinstance(error, socket.timeout):
        return Silent(endpoint, 'it did not answer in time', may_be_done)
    is_of_tls = isinstance(error, ssl.SSLError)
    is_final = is_of_tls and not isinstance(error, (ssl.SSLEOFError, ssl.SSLZeroReturnError, ssl.SSLSyscallError))
    why = getattr(error, 'verify_message', '') or getattr(error, 'strerror', '') or str(error) or type(error).__name__
    return Silent(endpoint, f'TLS: {why}' if is_of_tls else why, may_be_done, is_final)


def alert_of(connection: http.client.HTTPConnection) -> ssl.SSLError | None:
    """The TLS alert that the other side sent before it closed the connection, if it sent one."""
    try:
        if isinstance(connection.sock, ssl.SSLSocket):
            connection.sock.settimeout(0)
            connection.sock.recv(1)
    except (OSError, ValueError) as error:
        if isinstance(error, ssl.SSLError) and not isinstance(error, (ssl.SSLWantReadError, ssl.SSLWantWriteError)):
            return error
    return None


def is_over(connection: http.client.HTTPConnection) -> bool:
    """Whether the other side has closed a connection on which no answer is awaited."""
    return connection.sock is None or bool(sleep_until_ready(0.0, connection.sock.fileno()))


class Answer(NamedTuple):
    """The result of a transaction: whether its conditions held; what its ranges found; etcd's revision and term."""

    is_done: bool
    ranges: Sequence[Json]
    revision: int
    term: int


class Names:
    """Looks up the names of servers, in threads, because a lookup has no timeout. An address needs none."""

    def __init__(self) -> None:
        self._asked: dict[Endpoint, queue.SimpleQueue[list[Any] | OSError]] = {}

    def places(self, endpoint: Endpoint, seconds: float) -> list[Any]:
        """The result of `getaddrinfo`. If it takes longer than that, the next call waits for it again. Raises
        Silent."""
        with suppress(OSError, UnicodeError):  # it is a name
            return found_at(endpoint, socket.AI_NUMERICHOST)
        if endpoint not in self._asked:
            self._asked[endpoint] = self._begun(endpoint)
        try:
            found = self._asked[endpoint].get(timeout=seconds)
        except queue.Empty:
            raise Silent(endpoint, 'its name was not looked up in time', may_be_done=False) from None
        del self._asked[endpoint]
        if isinstance(found, OSError):
            raise silent_of(endpoint, found, may_be_done=False) from found
        return found

    def _begun(self, endpoint: Endpoint) -> queue.SimpleQueue[list[Any] | OSError]:
        """What will have the result of a lookup that is begun now. Raises Silent."""
        answers: queue.SimpleQueue[list[Any] | OSError] = queue.SimpleQueue()
        try:
            threading.Thread(target=look_up, args=(endpoint, answers), name='bully names', daemon=True).start()
        except RuntimeError as error:
            said = 'its name can not be looked up, because no thread can be started'
            raise Silent(endpoint, said, may_be_done=False) from error
        return answers


def found_at(endpoint: Endpoint, flags: int = 0) -> list[Any]:
    """The result of `getaddrinfo`. Raises OSError, UnicodeError."""
    return list(socket.getaddrinfo(endpoint.host, endpoint.port, type=socket.SOCK_STREAM, flags=flags))


def look_up(endpoint: Endpoint, answers: queue.SimpleQueue[list[Any] | OSError]) -> None:
    try:
        answers.put(found_at(endpoint))
    except OSError as error:
        answers.put(error)
    except UnicodeError as error:
        answers.put(OSError(str(error)))


def reached(places: Sequence[Any], end: float) -> socket.socket:
    """A connection to the first of these places that answers. Raises OSError."""
    fault = OSError('it has no address')
    for family, kind, protocol, _, place in places:
        there = socket.socket(family, kind, protocol)
        try:
            there.settimeout(max(LEAST_LIMIT, end - seconds_of_boot()))
            there.setsockopt(socket.IPPROTO_TCP, socket.TCP_NODELAY, 1)
            there.connect(place)
            return there
        except OSError as error:
            there.close()
            fault = error
    raise fault


class Client:
    """Sends requests to the servers of an etcd, one at a time, and to the next server if one doesn't answer."""

    def __init__(self, address: Address, patience: float, tls: ssl.SSLContext | None, user: str, password: str) -> None:
        if tls is not None and not address.is_secure:
            raise ValueError('TLS needs an address that starts with etcds://')
        self._endpoints = address.endpoints
        self._tls = tls or ssl.create_default_context() if address.is_secure else None
        self._patience = patience
        self._user, self._password = user, password
        self._token = ''
        self._turn = 0
        self._end = 0.0
        self._connection: http.client.HTTPConnection | None = None
        self._cluster: str | None = None
        self._names = Names()
        self.seen = 0, 0  # the highest revision and term of a transaction

    @property
    def endpoint(self) -> Endpoint:
        """The server for the next request."""
        return self._endpoints[self._turn]

    def begin(self) -> None:
        """The time of a call starts now."""
        self._end = self._now() + self._patience

    def _now(self) -> float:
        """The clock by which a call ends."""
        return seconds_of_boot()

    def transact(self, conditions: Sequence[Json], done: Sequence[Json], refused: Sequence[Json] = ()) -> Answer:
        """One transaction: it does `done` if all conditions hold, and else reads the ranges `refused`."""
        request = {'compare': list(conditions), 'success': list(done), 'failure': ranges(*refused)}
        changes = any('request_range' not in each for each in done)
        answer = self.ask(KV_TXN, request, repeats=not changes)
        found = [each['response_range'] for each in answer.get('responses', ()) if 'response_range' in each]
        revision, term = int(answer['header']['revision']), int(answer['header']['raft_term'])
        if revision < self.seen[0] or term < self.seen[1]:
            was, now = f'revision {self.seen[0]} and term {self.seen[1]}', f'{revision} and {term}'
            back = 'it went back, as after a restore from a backup'
            raise DamagedLog(f'{self.endpoint}: etcd was at {was}, and is at {now}: {back}')
        self.seen = revision, term
        return Answer(bool(answer.get('succeeded')), found, revision, term)

    def ask(self, path: str, request: Json, repeats: bool = False) -> Json:
        """The answer of etcd. If a server doesn't answer, the next one is asked; but if the server may have done what
        was requested, only if `repeats`.

        Raises Unanswered, Denied and other LogErrors, Compacted."""
        causes: list[Silent] = []
        for count in range(len(self._endpoints), 0, -1):
            now = self._now()
            reached = now + (self._end - now) / count
            try:
                return self._ask_here(path, request, reached, reached if repeats else self._end)
            except Silent as silent:
                causes.append(silent)
                self._move_on()
                if silent.may_be_done and not repeats:
                    break
        said = '; '.join(map(str, causes))
        raise (Denied if all(cause.is_final for cause in causes) else Unanswered)(said) from causes[-1]

    def watch(self, request: Json) -> Subscription:
        """A watch at the server that is used now. Raises Silent."""
        self.begin()
        connection = self._connect(self._end)
        body = json.dumps({'create_request': request}).encode()
        lines = [f'POST {WATCH} HTTP/1.0', f'Host: {self.endpoint}', f'Content-Length: {len(body)}']
        lines += ['Grpc-Metadata-hasleader: true', *([f'Authorization: {self._token}'] if self._token else [])]
        try:
            connection.sock.sendall('\r\n'.join([*lines, '', '']).encode() + body)
        except OSError as error:
            connection.close()
            raise silent_of(self.endpoint, error, may_be_done=False) from error
        return Subscription(self.endpoint, connection)

    def close(self) -> None:
        if self._connection is not None:
            self._connection.close()
            self._connection = None

    def _move_on(self) -> None:
        """Uses the next server from now on."""
        self.close()
        self._turn = (self._turn + 1) % len(self._endpoints)

    def _ask_here(self, path: str, request: Json, reached: float, end: float) -> Json:
        """The answer of this server, if it can be reached by the time `reached` and answers by the time `end`. If it
        doesn't know the user any more, the client logs in again, once."""
        try:
            if self._user and not self._token:
                self._log_in(reached, end)
            try:
                return self._exchange(path, request, reached, end)
            except Refusal as refusal:
                if not (self._user and refusal.is_of_token):
                    raise
                self._log_in(reached, end)
                return self._exchange(path, request, reached, end)
        except Refusal as refusal:
            fail(self.endpoint, refusal)

    def _log_in(self, reached: float, end: float) -> None:
        self._token = ''
        who = {'name': self._user, 'password': self._password}
        self._token = str(self._exchange(LOGIN, who, reached, end)['token'])

    def _exchange(self, path: str, request: Json, reached: float, end: float) -> Json:
        """A request and its answer. Raises Silent, Refusal, ForeignLog, LogError."""
        if self._connection is None or is_over(self._connection):
            self.close()
            self._connection = self._connect(reached)
        connection = self._connection
        headers = {'Content-Type': 'application/json', **({'Authorization': self._token} if self._token else {})}
        try:
            limit(connection, end)
            connection.request('POST', path, json.dumps(request).encode(), headers)
            response = connection.getresponse()
            limit(connection, end)
            text = response.read()
        except (OSError, http.client.HTTPException) as error:
            cause = alert_of(connection) or error
            self.close()
            raise silent_of(self.endpoint, cause, may_be_done=True) from error
        return self._checked(response.status, text)

    def _connect(self, end: float) -> http.client.HTTPConnection:
        """A new connection to this server. Raises Silent."""
        places = self._names.places(self.endpoint, max(LEAST_LIMIT, end - seconds_of_boot()))
        connection = http.client.HTTPConnection(*self.endpoint)
        connection.auto_open = 0  # otherwise it would look up the name by itself, and use no TLS
        try:
            connection.sock = reached(places, end)
            if self._tls is not None:
                limit(connection, end)
                connection.sock = self._tls.wrap_socket(connection.sock, server_hostname=self.endpoint.host)
        except OSError as error:
            connection.close()
            raise silent_of(self.endpoint, error, may_be_done=False) from error
        return connection

    def _checked(self, status: int, text: bytes) -> Json:
        """The content of an answer, if it is one of this etcd. Any other one may come from a proxy before it."""
        document = document_in(text)
        if 'error' in document or 'code' in document:
            raise refusal_of(document['error'] if isinstance(document.get('error'), dict) else document)
        answer = document.get('result', document)
        header = answer.get('header') if isinstance(answer, dict) else None
        if status != 200 or not isinstance(header, dict) or not HEADER <= header.keys():
            what = f'with status {status}: {text[:80]!r}' if text else f'with status {status}'
            raise Silent(self.endpoint, f'it does not answer as etcd 3.4 or later does, but {what}', may_be_done=True)
        cluster = header['cluster_id']
        if self._cluster not in (None, cluster):
            raise ForeignLog(f'{self.endpoint}: it is a server of another etcd cluster')
        self._cluster = cluster
        return dict(answer)


class Subscription:
    """The changes that a server reports, over a connection of its own. (In HTTP/1.0 an answer isn't cut into
    chunks.)"""

    def __init__(self, endpoint: Endpoint, connection: http.client.HTTPConnection) -> None:
        self.endpoint = endpoint
        self._connection = connection
        self._text = b''
        self._has_begun = False

    def events(self, seconds: float, wake: int | None = None) -> list[Json]:
        """The next events, once there are some; or none, once the time is over or the descriptor can be read. Raises
        Silent, Denied."""
        try:
            there = self._connection.sock
            is_left = isinstance(there, ssl.SSLSocket) and there.pending() > 0
            if not is_left and there.fileno() not in sleep_until_ready(seconds, there.fileno(), wake):
                return []
            there.settimeout(LEAST_LIMIT)
            received = there.recv(RECEIVED)
        except socket.timeout:
            return []
        except OSError as error:
            raise silent_of(self.endpoint, error, may_be_done=False) from error
        if not received:
            raise Silent(self.endpoint, 'the server closed the watch', may_be_done=False)
        self._text += received
        return [event for line in self._lines() for event in self._events_of(line)]

    def close(self) -> None:
        self._connection.close()

    def _lines(self) -> list[bytes]:
        """The complete lines that have come, after the head of the answer."""
        if not self._has_begun:
            head, end, text = self._text.partition(b'\r\n\r\n')
            if not end:
                return []
            if head.split()[1:2] != [b'200']:
                said = f'the answer is no watch, but {head.splitlines()[0]!r}'
                raise Silent(self.endpoint, said, may_be_done=False)
            self._has_begun, self._text = True, text
        *lines, self._text = self._text.split(b'\n')
        return lines

    def _events_of(self, line: bytes) -> list[Json]:
        document = document_in(line)
        result = document.get('result')
        if 'error' in document:
            raise self._closed(refusal_of(document['error']))
        if not isinstance(result, dict):
            raise Silent(self.endpoint, f'the answer is no watch, but {line[:80]!r}', may_be_done=False)
        if result.get('canceled'):
            raise self._closed(result.get('cancel_reason', 'compacted'))
        events: list[Json] = result.get('events', [])
        return events

    def _closed(self, why: object) -> Exception:
        """The exception for a watch that the server has closed for this reason."""
        said = f'the server closed the watch: {why}'
        is_denied = f'{OWN_WORDS}permission' in said
        return Denied(f'{self.endpoint}: {said}') if is_denied else Silent(self.endpoint, said, may_be_done=False)


def limit(connection: http.client.HTTPConnection, end: float) -> None:
    """Whatever is done next over the connection must end by then. (A connection that ends with its answer has no
    socket.)"""
    if connection.sock is not None:
        connection.sock.settimeout(max(LEAST_LIMIT, end - seconds_of_boot()))
