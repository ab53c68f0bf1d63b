"""Servers of etcd in processes of their own, and what the tests of logs and of members over them share."""
from __future__ import annotations

import contextlib
import dataclasses
import http.client
import itertools
import json
import os
import shutil
import signal
import socket
import ssl
import subprocess
import tempfile
import unittest
from base64 import b64decode, b64encode
from collections.abc import Sequence
from pathlib import Path
from typing import Any, NamedTuple
from unittest import mock

from bully import etcd
from bully.epochs import Opening
from bully.etcd import EtcdLog
from bully.etcd_client import Answer, Endpoint
from .processes import has_stopped
from .steps import OPENING
from .waiting import wait_until

PROGRAM = shutil.which('etcd')
QUICK = ('--heartbeat-interval', '50', '--election-timeout', '500')  # milliseconds; so the shortest lease is of 1 s

Json = dict[str, Any]


def coded(word: str | bytes) -> str:
    return b64encode(word.encode() if isinstance(word, str) else word).decode()


def decoded(word: str) -> str:
    return b64decode(word).decode()


def free_ports(count: int) -> list[int]:
    """Ports of the loopback on which nobody listens."""
    found = [socket.create_server(('127.0.0.1', 0)) for _ in range(count)]
    ports = [int(each.getsockname()[1]) for each in found]
    for each in found:
        each.close()
    return ports


class Place(NamedTuple):
    """Where a server listens: for clients, and for the other servers; and the words by which a process is begun
    there."""

    client: Endpoint
    peer: Endpoint
    within: tuple[str, ...] = ()


def free_places(count: int) -> list[Place]:
    """Free places on the loopback."""
    found = [Endpoint('127.0.0.1', port) for port in free_ports(2 * count)]
    return [Place(client, peer) for client, peer in zip(found[::2], found[1::2])]


class Server:
    """A server of etcd, in a process of its own."""

    def __init__(self, folder: Path, name: str, place: Place, cluster: str, words: Sequence[str]) -> None:
        self.name, self.address, self.port = name, place, place.client.port
        self.folder = folder
        client, peer = f'{"https" if "--cert-file" in words else "http"}://{place.client}', f'http://{place.peer}'
        self.words = [
            *place.within, str(PROGRAM), '--name', name, '--data-dir', str(folder / name), '--listen-client-urls',
            client, '--advertise-client-urls', client, '--listen-peer-urls', peer, '--initial-advertise-peer-urls',
            peer, '--initial-cluster', cluster, *words,
        ]  # fmt: skip
        self.process: subprocess.Popen[bytes] | None = None

    def start(self) -> None:
        with open(self.folder / f'{self.name}.said', 'ab') as said:
            self.process = subprocess.Popen(self.words, stdin=subprocess.DEVNULL, stdout=said, stderr=said)

    def pause(self) -> None:
        """It does nothing more."""
        assert self.process is not None
        process = self.process.pid
        self.process.send_signal(signal.SIGSTOP)
        wait_until(lambda: has_stopped(process))

    def resume(self) -> None:
        assert self.process is not None
        self.process.send_signal(signal.SIGCONT)

    def kill(self) -> None:
        if self.process is not None:
            self.process.kill()
            self.process.wait()

    @property
    def has_ended(self) -> bool:
        return self.process is None or self.process.poll() is not None

    def ask(self, path: str, told: Json, tls: ssl.SSLContext | None = None, token: str = '') -> Json:
        """What it answers. Raises OSError, HTTPException, ValueError."""
        if tls is None:
            connection = http.client.HTTPConnection(*self.address.client, timeout=5.0)
        else:
            connection = http.client.HTTPSConnection(*self.address.client, timeout=5.0, context=tls)
        with contextlib.closing(connection):
            connection.request('POST', path, json.dumps(told), {'Authorization': token} if token else {})
            answer: Json = json.loads(connection.getresponse().read())
        if 'error' in answer:
            raise ValueError(answer['error'])
        return answer

    def is_up(self, tls: ssl.SSLContext | None = None) -> bool:
        """Whether it answers what needs a quorum; also that it doesn't know who asks."""
        try:
            self.ask('/v3/kv/range', {'key': coded('x')}, tls)
        except ValueError as error:
            return 'user name is empty' in str(error)
        except (OSError, http.client.HTTPException):
            return False
        return True

    def keys(self, prefix: str = '') -> dict[str, Json]:
        """What is known of the keys that begin so."""
        found = self.ask('/v3/kv/range', {'key': coded(prefix or '\0'), 'range_end': coded(prefix + '\x7f')})
        return {decoded(pair['key']): pair for pair in found.get('kvs', ())}

    def delete(self, key: str, end: str = '') -> None:
        self.ask('/v3/kv/deleterange', {'key': coded(key), **({'range_end': coded(end)} if end else {})})

    def put(self, key: str, value: str | bytes) -> None:
        self.ask('/v3/kv/put', {'key': coded(key), 'value': coded(value)})

    def compact(self) -> None:
        """Only the newest revision is kept."""
        revision = self.ask('/v3/kv/range', {'key': coded('x')})['header']['revision']
        self.ask('/v3/kv/compaction', {'revision': revision, 'physical': True})


class Servers:
    """Servers that are one etcd."""

    def __init__(
        self, count: int = 1, words: Sequence[str] = QUICK, tls: ssl.SSLContext | None = None,
        places: Sequence[Place] = (),
    ) -> None:  # fmt: skip
        """A server at each of the places; or, without places, so many servers on the loopback."""
        self._folder = tempfile.TemporaryDirectory()
        self._tls = tls
        self.each: list[Server] = []
        try:
            for _ in range(5):  # others may take a port before its server does
                self.each = self._begun(places or free_places(count), words)
                wait_until(lambda: self.have_ended() or self.are_up())
                if not self.have_ended():
                    return
                self._kill()
            said = '\n'.join(path.read_text()[-1000:] for path in Path(self._folder.name).glob('*.said'))
            raise AssertionError(f'etcd does not start: {said}')
        except BaseException:
            self.close()
            raise

    def have_ended(self) -> bool:
        """Whether one has."""
        return any(server.has_ended for server in self.each)

    def _begun(self, places: Sequence[Place], words: Sequence[str]) -> list[Server]:
        named = [(f's{number}', place) for number, place in enumerate(places)]
        cluster = ','.join(f'{name}=http://{place.peer}' for name, place in named)
        shutil.rmtree(self._folder.name)
        os.mkdir(self._folder.name)
        servers = [Server(Path(self._folder.name), name, place, cluster, words) for name, place in named]
        for server in servers:
            server.start()
        return servers

    def are_up(self) -> bool:
        return all(server.is_up(self._tls) for server in self.each)

    def leader(self) -> Server:
        """The one that is known as the leader to a server that answers."""
        found: list[Server] = []

        def is_found() -> bool:
            found[:] = [server for server in self.each if self.leads(server)]
            return len(found) == 1

        wait_until(is_found)
        return found[0]

    def leads(self, server: Server) -> bool:
        try:
            told = server.ask('/v3/maintenance/status', {})
        except (OSError, http.client.HTTPException, ValueError):
            return False
        return bool(told.get('leader') == told['header']['member_id'] and server.is_up())

    def address(self, prefix: str, *servers: Server, kind: str = 'etcd') -> str:
        return f'{kind}://{",".join(str(server.address.client) for server in servers or self.each)}/{prefix}'

    def _kill(self) -> None:
        for server in self.each:
            server.kill()

    def close(self) -> None:
        self._kill()
        self._folder.cleanup()


# ---- What tests share.

_alone: list[Servers] = []  # the server of the module that runs
NUMBERS = itertools.count()  # of tests, so that none meets what another one left


def begin_alone(module: str) -> None:
    """Begins the server that the tests of a module share, up to its end. Without the program they are skipped."""
    if PROGRAM is None:
        print(f'{module}.py: skipped, since no program `etcd` is on the path')
        raise unittest.SkipTest('no program `etcd` is on the path')
    _alone.append(Servers())
    unittest.addModuleCleanup(lambda: _alone.pop().close())


def alone(prefix: str, kind: str = 'etcd') -> str:
    """An address at that server."""
    return _alone[-1].address(prefix, kind=kind)


class WithEtcd(unittest.TestCase):
    """Tests with a server that others use, too, and a prefix of their own."""

    def setUp(self) -> None:
        self.server = _alone[-1].each[0]
        self.prefix = f'{self.id()}/{next(NUMBERS)}'.replace('.', '/')
        self.address = alone(self.prefix)

    def created(self, address: str = '', opening: Opening = OPENING, patience: float = 5.0, **more: Any) -> EtcdLog:
        return self.closing(etcd.EtcdLog.create(address or self.address, opening, patience, **more))

    def opened(self, address: str = '', patience: float = 5.0, **more: Any) -> EtcdLog:
        return self.closing(etcd.EtcdLog(address or self.address, patience, **more))

    def closing(self, log: EtcdLog) -> EtcdLog:
        self.addCleanup(log.close)
        return log

    def servers(self, count: int = 1, words: Sequence[str] = (), tls: ssl.SSLContext | None = None) -> Servers:
        """Servers of the test's own."""
        servers = Servers(count, [*QUICK, *words], tls)
        self.addCleanup(servers.close)
        return servers


@unittest.skipIf(shutil.which('openssl') is None, 'no program `openssl` is on the path')
class WithCertificates(WithEtcd):
    """Tests with servers over TLS."""

    certificates: Path

    @classmethod
    def setUpClass(cls) -> None:
        folder = tempfile.TemporaryDirectory()
        cls.addClassCleanup(folder.cleanup)
        cls.certificates = Path(folder.name)
        make_certificates(cls.certificates)

    def tls(self, authority: str = 'mine', client: str = '') -> ssl.SSLContext:
        tls = ssl.create_default_context(cafile=str(self.certificates / f'{authority}.pem'))
        if client:
            tls.load_cert_chain(self.certificates / f'{client}.pem', self.certificates / f'{client}.key')
        return tls

    def secure(self, certificate: str = 'server', *words: str) -> Servers:
        """Servers with this certificate."""
        files = [
            '--cert-file',
            str(self.certificates / f'{certificate}.pem'),
            '--key-file',
            str(self.certificates / f'{certificate}.key'),
        ]
        tls = self.tls(client='client')
        tls.check_hostname = False
        return self.servers(1, [*files, *words], tls)

    def secure_both(self) -> Servers:
        """Servers that take no client without a certificate."""
        return self.secure('server', '--client-cert-auth', '--trusted-ca-file', str(self.certificates / 'mine.pem'))


def make_certificates(folder: Path) -> None:
    """Makes authorities `mine` and `other`; and certificates `server`, `elsewhere` and `client` by the first."""

    def openssl(*words: str) -> None:
        subprocess.run(
            ['openssl', *words], cwd=folder, check=True, stdout=subprocess.DEVNULL, stderr=subprocess.DEVNULL
        )

    key = ['-newkey', 'ec', '-pkeyopt', 'ec_paramgen_curve:prime256v1', '-nodes']
    for name in ('mine', 'other'):
        openssl(
            'req', *key, '-new', '-x509', '-days', '2', '-subj', f'/CN={name}', '-keyout', f'{name}.key', '-out',
            f'{name}.pem',
        )  # fmt: skip
    for name, place in (('server', 'IP:127.0.0.1'), ('elsewhere', 'DNS:elsewhere.example'), ('client', 'DNS:client')):
        openssl('req', *key, '-new', '-subj', f'/CN={name}', '-keyout', f'{name}.key', '-out', f'{name}.csr')
        (folder / 'more').write_text(f'subjectAltName = {place}\n')
        openssl(
            'x509', '-req', '-in', f'{name}.csr', '-CA', 'mine.pem', '-CAkey', 'mine.key', '-CAcreateserial', '-days',
            '2', '-extfile', 'more', '-out', f'{name}.pem',
        )  # fmt: skip


def add_users(server: Server) -> None:
    """Users of an etcd that log in from now on, each with its name and ` password`: `member` writes below `x/`,
    `reader` reads there, and `other` writes elsewhere."""
    for user, role in (('root', 'root'), ('member', 'group'), ('reader', 'looking'), ('other', 'elsewhere')):
        server.ask('/v3/auth/user/add', {'name': user, 'password': f'{user} password'})
        server.ask('/v3/auth/role/add', {'name': role})
        server.ask('/v3/auth/user/grant', {'user': user, 'role': role})
    for role, kind, prefix in (
        ('group', 'READWRITE', 'x/'),
        ('looking', 'READ', 'x/'),
        ('elsewhere', 'READWRITE', 'y/'),
    ):
        permission = {'permType': kind, 'key': coded(prefix), 'range_end': coded(prefix[:-1] + '0')}
        server.ask('/v3/auth/role/grant', {'name': role, 'perm': permission})
    server.ask('/v3/auth/enable', {})


# The traces of the epochs of a log of the form before, two rows in each append, and the time of each append.
OLDER = {1: ['bully,1,3,6', *['start,1', 'move,1'] * 600], 2: ['bully,1,3,6', 'recover,1', 'größer']}
OLDER_TIME, OLDER_TEXT = 1_700_000_000_007, '2023-11-14T22:13:20.007Z'


def older_row(prefix: str, epoch: int, offset: int) -> str:
    """The key of a row in such a log."""
    return f'{prefix}/log/{epoch:010}/{offset:010}'


def put_older(server: Server, prefix: str) -> None:
    """Puts such a log below the prefix."""
    for epoch, (_, *rows) in OLDER.items():
        opening = dataclasses.replace(OPENING, epoch=epoch)
        server.put(f'{prefix}/opening/{epoch:010}', opening.text().replace('{', '{"form": 3, ', 1))
        for offset in range(0, len(rows), 2):
            server.put(older_row(prefix, epoch, offset), f'{rows[offset]}\n{rows[offset + 1]}\n')
            server.put(f'{prefix}/time/{epoch:010}/{offset:010}', str(OLDER_TIME))
    server.put(f'{prefix}/place', f'{epoch:010}/{len(rows):010}')
    server.put(f'{prefix}/first', f'{min(OLDER):010}')
    server.put(f'{prefix}/name', '3 0123456789abcdef')


def prune_in_part(log: EtcdLog, first: int) -> None:
    """The epochs before this one are taken away by a process that ends in the middle of that: after two appends."""
    change, left = log._change, ['that they are gone', 'a part of their rows']

    def end(conditions: Sequence[Json], done: Sequence[Json], *refused: Json) -> Answer:
        if not left:
            raise KeyboardInterrupt
        left.pop()
        return change(conditions, done, *refused)

    with mock.patch.object(etcd, 'PAGE', 2), mock.patch.object(log, '_change', end), contextlib.suppress(
        KeyboardInterrupt
    ):
        log.prune(first)
