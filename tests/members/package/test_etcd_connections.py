"""Tests of the servers of an etcd: several, killed, with users, and with certificates."""
from __future__ import annotations

import contextlib
import json
import socket
import threading
import time
from collections.abc import Callable
from typing import Any
from unittest import mock

from bully.clocks import SECOND
from bully.core import Promise, Session, Until
from bully.etcd import EtcdLog
from bully.etcd_client import Denied, read_address
from bully.shared_log import Holder, LogError, Unanswered
from ..etcd_servers import Servers, WithCertificates, add_users, alone, begin_alone, coded, free_ports
from ..steps import EMPTY, LONG, OPENING, A, B, add, live
from ..waiting import PATIENCE, wait_until
from .in_etcd import OF_OTHERS, InEtcd, answer

# The errors of etcd: the code of gRPC, the text, and what a call of the log raises.
REFUSALS: tuple[tuple[int, str, type[LogError]], ...] = (
    (3, 'user name is empty', Denied), (3, 'authentication failed, invalid user ID or password', Denied),
    (3, 'request is too large', LogError), (3, 'duplicate key given in txn request', LogError),
    (7, 'permission denied', Denied), (9, 'authentication is not enabled', Denied), (16, 'invalid auth token', Denied),
    (1, 'request cancelled', Unanswered), (2, 'unknown', Unanswered), (4, 'request timed out', Unanswered),
    (5, 'requested lease not found', Unanswered), (6, 'already exists', Unanswered),
    (8, 'mvcc: database space exceeded', Unanswered), (8, 'too many requests', Unanswered),
    (9, 'not leader', Unanswered), (9, 'rpc not supported for learner', Unanswered), (10, 'aborted', Unanswered),
    (11, 'mvcc: required revision is a future revision', Unanswered), (12, 'method not implemented', Unanswered),
    (13, 'internal', Unanswered), (14, 'no leader', Unanswered), (14, 'leader changed', Unanswered),
    (15, 'corrupt cluster', Unanswered),
)  # fmt: skip
TTL = 5  # seconds that leases last which thirty members renew in turn


def setUpModule() -> None:
    begin_alone(__name__)


class Endpoints(InEtcd):
    """Servers that don't answer, from the begin."""

    def setUp(self) -> None:
        super().setUp()
        add(self.begun(), ['recover,1'])
        self.silent = socket.create_server(('127.0.0.1', 0))  # it takes connections, and says nothing
        self.addCleanup(self.silent.close)
        self.dead, self.mute = (f'127.0.0.1:{port}' for port in (free_ports(1)[0], self.silent.getsockname()[1]))
        self.alive = f'127.0.0.1:{self.server.port}'

    def test_others(self) -> None:
        for first in (self.dead, self.mute, 'nowhere.invalid', f'{self.mute},{self.dead}'):
            with self.subTest(first=first):
                begun = time.monotonic()
                log = self.opened(f'etcd://{first},{self.alive}/{self.prefix}', 4.0)
                self.assertLess(time.monotonic(), begun + 4.0)
                end = add(log, ['recover,1'])
                self.assertEqual(set(live(log)), {'a'})
                log.wait(1, end.offset - 1, {'a': A}, Until.NEWS, PATIENCE)

    def test_none(self) -> None:
        for all_of_them in ((self.dead,), (self.mute,), (self.dead, self.mute), ('nowhere.invalid',)):
            begun = time.monotonic()
            with self.assertRaises(Unanswered) as caught:
                EtcdLog(f'etcd://{",".join(all_of_them)}/{self.prefix}', 0.5)
            self.assertLess(time.monotonic(), begun + PATIENCE)
            for each in all_of_them:
                self.assertIn(each, str(caught.exception))

    def test_no_thread(self) -> None:
        """Where no thread can be started a name isn't looked up, and that is said; an address needs none. The next call
        tries again."""
        named = f'etcd://localhost:{self.server.port}/{self.prefix}'
        log = self.opened(named, 0.5)
        log._client.close()
        with mock.patch.object(threading.Thread, 'start', side_effect=RuntimeError("can't start new thread")):
            self.assertEqual(set(live(self.opened(self.address, 0.5))), {'a'})
            said = f'^localhost:{self.server.port}: its name can not be looked up, because no thread can be started$'
            with self.assertRaisesRegex(Unanswered, said):
                log.snapshot(1, 0)
        self.assertEqual(set(live(log)), {'a'})

    def test_append(self) -> None:
        """What may have been done isn't asked of another server; the next call is."""
        log = self.opened(f'etcd://{self.alive},{self.alive}/{self.prefix}', 0.5)
        log._client._endpoints = read_address(f'etcd://{self.mute},{self.alive}/x').endpoints
        log._client.close()
        with self.assertRaisesRegex(Unanswered, f'^{self.mute}: it did not answer in time$'):
            log.append(1, 1, ['recover,2'])
        self.assertTrue(log.promise('a', A, Promise(1, 1)))
        self.assertTrue(log.append(1, 1, ['recover,3']))

    def test_no_etcd(self) -> None:
        """What isn't etcd's own answer is silence, as that of a load balancer before it, whatever its status is."""
        for said in (b'SSH-2.0-OpenSSH\r\n', b'', *(answer(status, text) for status, text in OF_OTHERS)):
            with self.subTest(said=said):
                self.assertIs(type(self.fault_of(said)), Unanswered)

    def test_refusals(self) -> None:
        """What etcd's errors mean, by the codes and texts of its `rpctypes`. One of another program is silence."""
        for code, text, fault in REFUSALS:
            for form in (
                {'error': f'etcdserver: {text}', 'code': code, 'message': f'etcdserver: {text}'},
                {'code': code, 'message': f'etcdserver: {text}', 'details': []},
            ):  # fmt: skip
                with self.subTest(form=form):
                    self.assertIs(type(self.fault_of(answer(400, json.dumps(form)))), fault)
            others = answer(400, json.dumps({'code': code, 'message': f'proxy: {text}'}))
            self.assertIs(type(self.fault_of(others)), Unanswered, code)

    def fault_of(self, said: bytes) -> Exception:
        """What a server that answers so is taken for. It is named."""
        thread = threading.Thread(target=self.say, args=[said])
        thread.start()
        with self.assertRaises(LogError) as caught:
            EtcdLog(f'etcd://{self.mute}/{self.prefix}', 5.0)
        thread.join()
        self.assertIn(self.mute, str(caught.exception))
        return caught.exception

    def say(self, said: bytes) -> None:
        """Answers one request so."""
        with self.silent.accept()[0] as connection:
            request = b''
            while not request.endswith(b'}'):
                request += connection.recv(1 << 20)
            connection.sendall(said)


class Killed(InEtcd):
    """Servers that are killed and paused, and come back."""

    def test_one(self) -> None:
        servers = self.servers()
        log, other, server = self.begun(servers.address('x')), self.opened(servers.address('x')), servers.each[0]
        log.snapshot(1, 0)
        log.wait(1, 0, {'a': A}, Until.NEWS, 0.1)
        server.kill()
        calls: list[Callable[[], object]] = [
            lambda: log.read(1, 0), lambda: log.append(1, 0, ['recover,1']), lambda: log.renew('a', A, LONG),
            lambda: log.snapshot(1, 0), lambda: log.promise('a', A, EMPTY),
            lambda: log.wait(1, 0, {'a': A}, Until.NEWS, 1.0),
        ]  # fmt: skip
        for call in calls:
            with self.assertRaisesRegex(Unanswered, f'^127.0.0.1:{server.port}: '):
                call()
        server.start()
        wait_until(servers.are_up)
        self.assertTrue(self.renewed(log, ttl=LONG))
        self.assertTrue(other.append(1, 0, ['recover,1']), 'its connection is a new one')
        log.wait(1, 0, {'a': A}, Until.NEWS, PATIENCE)
        self.assertEqual((list(log.read(1, 0)), set(live(log))), (['recover,1'], {'a'}))

    def test_no_quorum(self) -> None:
        servers = self.servers(3)
        log = self.begun(servers.address('x'))
        for server in servers.each[1:]:
            server.kill()
        calls: list[Callable[[], object]] = [
            lambda: log.read(1, 0), lambda: log.append(1, 0, ['recover,1']), lambda: log.acquire('b', B, EMPTY, LONG),
        ]  # fmt: skip
        for call in calls:
            with self.assertRaises(Unanswered):
                call()
        servers.each[1].start()
        wait_until(lambda: all(server.is_up() for server in servers.each[:2]))
        add(log, ['recover,2'])
        self.assertIn(len(log.read(1, 0)), (1, 2), 'the append may have been done by now')

    def test_leader(self) -> None:
        """A lease and a promise are kept while another leader is found, and the log goes on."""
        servers = self.servers(3)
        leader = servers.leader()
        servers.each.sort(key=lambda server: server is not leader)
        log, other = self.created(servers.address('x'), patience=1.0), self.opened(servers.address('x'), 1.0)
        self.assertTrue(log.acquire('a', A, EMPTY, 3 * SECOND))
        self.assertTrue(log.promise('a', A, Promise(0, 7)))
        log.snapshot(1, 0)
        log.wait(1, 0, {'a': A}, Until.NEWS, 0.1)
        before = self.leases(prefix='x', server=servers.each[1])
        leader.kill()
        for _ in range(3):
            self.assertTrue(self.renewed(log, ttl=3 * SECOND))
        wait_until(lambda: self.appended(other))
        log.wait(1, 0, {'a': A}, Until.NEWS, PATIENCE)
        self.assertEqual((log.read(1, 0)[0], live(log)), ('recover,1', {'a': Holder(A, EMPTY)}))
        after = self.leases(prefix='x', server=servers.each[1])
        self.assertEqual(
            (len(set(after.values())), set(after) == set(before), after == before), (1, True, False), 'both have moved'
        )

    def test_paused_server(self) -> None:
        """A watch at a server that says nothing any more is begun at another one, once that one is asked."""
        servers = self.servers(3)
        leader = servers.leader()
        servers.each.sort(key=lambda server: server is leader)
        log, other = self.created(servers.address('x'), patience=1.0), self.opened(servers.address('x', leader))
        self.assertTrue(other.acquire('a', A, EMPTY, LONG))
        log.snapshot(1, 0)
        log.wait(1, 0, {'a': A}, Until.NEWS, 0.1)
        servers.each[0].pause()
        self.assertEqual(set(live(log)), {'a'})
        self.assertTrue(other.append(1, 0, ['recover,1']))
        begun = time.monotonic()
        log.wait(1, 0, {'a': A}, Until.NEWS, PATIENCE)
        self.assertLess(time.monotonic(), begun + PATIENCE)

    def appended(self, log: EtcdLog) -> bool:
        with contextlib.suppress(Unanswered):
            return len(log.read(1, 0)) > 0 or log.append(1, 0, ['recover,1'])
        return False

    def test_all_paused(self) -> None:
        """A lease that is renewed after a pause was held all the time."""
        servers = self.servers(3)
        log = self.created(servers.address('x'), patience=0.5)
        self.assertTrue(log.acquire('a', A, EMPTY, 2 * SECOND))
        made = self.made(servers)
        for server in servers.each:
            server.pause()
        for _ in range(5):
            with self.assertRaises(Unanswered):
                log.renew('a', A, 2 * SECOND)
        for server in servers.each:
            server.resume()
        is_renewed = self.renewed(log)
        self.assertEqual(self.made(servers), made if is_renewed else None)

    def made(self, servers: Servers) -> str | None:
        """The revision at which the lease was acquired, if it is held."""
        wait_until(servers.are_up)
        found = servers.each[0].keys('x/lease/session/a').get('x/lease/session/a')
        return str(found['create_revision']) if found else None

    def test_leader_of_before(self) -> None:
        """A session whose server was paused, and that doesn't know that another session holds the lease: what it asks
        for late does nothing to that one."""
        servers = self.servers(3)
        self.created(servers.address('x'))
        for number in range(3):
            leader, old, new = servers.leader(), Session(1, number), Session(2, number)
            log = self.opened(servers.address('x', leader))
            other = self.opened(servers.address('x', *(server for server in servers.each if server is not leader)), 1.0)
            self.assertTrue(log.acquire('a', old, EMPTY, SECOND))
            leader.pause()
            late = threading.Thread(target=lambda: self.asked_late(log, old))
            late.start()
            wait_until(lambda: self.acquired(other, new))
            leader.resume()
            late.join()
            self.assertFalse(self.renewed(log, old, SECOND))
            wait_until(servers.are_up)
            self.assertEqual(live(other), {'a': Holder(new, EMPTY)})
            other.release('a', new)

    def asked_late(self, log: EtcdLog, session: Session) -> None:
        """A promise, whatever becomes of it."""
        with contextlib.suppress(Unanswered):
            log.promise('a', session, Promise(1, 500))

    def acquired(self, log: EtcdLog, session: Session) -> bool:
        with contextlib.suppress(Unanswered):
            return log.acquire('a', session, EMPTY, LONG) or log.renew('a', session, LONG)
        return False

    def test_renewal_at_a_leader_of_before(self) -> None:
        """A renewal that was answered lasts, also if it was asked of a leader that was paused meanwhile."""
        servers = self.servers(3)
        self.created(servers.address('x'))
        for _ in range(3):
            leader = servers.leader()
            log = self.opened(servers.address('x', leader))
            others = [server for server in servers.each if server is not leader]
            other = self.opened(servers.address('x', *others), 1.0)
            self.assertTrue(log.acquire('a', A, EMPTY, 4 * SECOND))
            leader.pause()
            wait_until(lambda: any(servers.leads(server) for server in others))
            time.sleep(1.5)
            leader.resume()
            begun = time.monotonic()
            with contextlib.suppress(Unanswered):
                if log.renew('a', A, 4 * SECOND):
                    wait_until(lambda: not self.is_live(other))
                    self.assertGreaterEqual(time.monotonic(), begun + 4.0)
            wait_until(servers.are_up)
            other.release('a', A)

    def is_live(self, log: EtcdLog) -> bool:
        try:
            return bool(live(log))
        except Unanswered:
            return True

    def test_a_watch_without_a_leader(self) -> None:
        """A server that knows no leader hears of nothing, so a watch there is over."""
        servers = self.servers(3)
        leader = servers.leader()
        alone, other = (server for server in servers.each if server is not leader)
        log = self.begun(servers.address('x', alone))
        log.snapshot(1, 0)
        log.wait(1, 0, {'a': A}, Until.NEWS, 0.1)
        self.assertLess(log._broken, 0, 'there is a watch')
        for server in (leader, other):
            server.pause()
            self.addCleanup(server.resume)

        def is_over() -> bool:
            with contextlib.suppress(Unanswered):
                log.wait(1, 0, {'a': A}, Until.NEWS, 0.1)
            return log._broken > 0

        wait_until(is_over)

    def test_late_end_by_a_leader_of_before(self) -> None:
        """A leader that was paused for longer than a lease, and comes back, doesn't end what was renewed meanwhile: nor
        does it take promises away."""
        servers = self.servers(3)
        self.created(servers.address('x'))
        for number in range(3):
            leader, session = servers.leader(), Session(1, number)
            address = servers.address('x', *(server for server in servers.each if server is not leader))
            members = {str(node): self.opened(address, 1.0) for node in range(1, 31)}
            for name, log in members.items():
                self.assertTrue(log.acquire(name, session, EMPTY, TTL * SECOND))
                self.assertTrue(log.promise(name, session, Promise(1, 8)))
            self.renew_for(members, session, 1.0)
            leader.pause()
            self.renew_for(members, session, 2.0 * TTL)
            leader.resume()
            self.renew_for(members, session, 2.0)
            wait_until(servers.are_up)
            self.assertEqual(live(members['1']), {name: Holder(session, Promise(1, 8)) for name in members})
            for name, log in members.items():
                log.release(name, session)

    def renew_for(self, members: dict[str, EtcdLog], session: Session, seconds: float) -> None:
        """The leases are renewed over and over, and are never found to be gone."""
        end = time.monotonic() + seconds
        while time.monotonic() < end:
            for name, log in members.items():
                with contextlib.suppress(Unanswered):
                    self.assertTrue(log.renew(name, session, TTL * SECOND))

    def test_full(self) -> None:
        """An etcd that is full may have done what it refuses, the first time."""
        servers = self.servers(words=['--quota-backend-bytes', '1000000'])
        log, count = self.begun(servers.address('x'), patience=PATIENCE), 0
        with self.assertRaisesRegex(Unanswered, 'space exceeded'):
            while log.promise('a', A, Promise(1, count)) and log.append(1, count, ['x' * 100_000]):
                count += 1
        rows = len(log.read(1, 0))
        self.assertIn(rows, (count, count + 1))
        with self.assertRaisesRegex(Unanswered, 'space exceeded'):
            log.promise('a', A, Promise(1, rows + 1))
        self.assertEqual(len(log.read(1, 0)), rows)


class Users(InEtcd):
    """An etcd whose users log in."""

    servers_of_users: Servers
    token: str

    @classmethod
    def setUpClass(cls) -> None:
        cls.servers_of_users = Servers()
        cls.addClassCleanup(cls.servers_of_users.close)
        add_users(cls.servers_of_users.each[0])

    def setUp(self) -> None:
        self.address = self.servers_of_users.address('x')

    def words(self, user: str) -> dict[str, Any]:
        return {'user': user, 'password': f'{user} password'}

    def tearDown(self) -> None:
        """Nothing is left for the next test."""
        server = self.servers_of_users.each[0]
        token = server.ask('/v3/auth/authenticate', {'name': 'root', 'password': 'root password'})['token']
        server.ask('/v3/kv/deleterange', {'key': coded('x/'), 'range_end': coded('x0')}, token=token)

    def denied(self, call: Callable[[], object], why: str) -> None:
        """It is refused, once the server answers: it takes long for a password if much else runs."""

        def is_answered() -> bool:
            with contextlib.suppress(Unanswered):
                call()
                return True
            return False

        with self.assertRaisesRegex(Denied, f'^127.0.0.1:{self.servers_of_users.each[0].port}: .*{why}'):
            wait_until(is_answered)

    def test_denied(self) -> None:
        create = EtcdLog.create
        self.denied(lambda: create(self.address, OPENING), 'user name is empty')
        for user, password in (('member', 'x'), ('member', ''), ('nobody', 'x')):
            self.denied(
                lambda: create(self.address, OPENING, user=user, password=password), '(authentication failed|user name)'
            )
        for user in ('reader', 'other'):
            self.denied(lambda: create(self.address, OPENING, **self.words(user)), 'permission denied')
        self.created(**self.words('member'))
        self.denied(lambda: EtcdLog(self.address), 'user name is empty')
        self.denied(lambda: EtcdLog(self.address, **self.words('other')), 'permission denied')

    def test_reader(self) -> None:
        self.begun(**self.words('member')).append(1, 0, ['recover,1'])
        log = self.opened(**self.words('reader'))
        self.assertEqual((list(log.read(1, 0)), set(live(log))), (['recover,1'], {'a'}))
        log.wait(1, 0, {'a': A}, Until.NEWS, PATIENCE)
        calls: list[Callable[[], object]] = [
            lambda: log.append(1, 1, ['recover,2']), lambda: log.acquire('b', B, Promise(1, 1), LONG),
            lambda: log.release('a', A), lambda: log.promise('a', A, Promise(1, 1)),
        ]  # fmt: skip
        for call in calls:
            self.denied(call, 'permission denied')

    def test_member(self) -> None:
        """A server that came back knows no login of before, and is told again."""
        log, other = self.created(**self.words('member')), self.opened(**self.words('member'))
        end = EMPTY
        for _ in range(2):
            self.assertTrue(log.acquire('a', A, end, LONG))
            self.assertTrue(log.renew('a', A, LONG))
            log.snapshot(1, 0)
            later = threading.Timer(0.1, lambda: other.append(1, end.offset, ['recover,1']))
            later.start()
            log.wait(1, end.offset, {'a': A}, Until.NEWS, PATIENCE)
            later.join()
            end = Promise(1, end.offset + 1)
            self.assertEqual((len(log.read(1, 0)), set(live(log))), (end.offset, {'a'}))
            self.assertTrue(log.renew('a', A, LONG))
            log.release('a', A)
            self.servers_of_users.each[0].kill()
            self.servers_of_users.each[0].start()
            wait_until(self.servers_of_users.are_up)

    def test_no_users(self) -> None:
        with self.assertRaisesRegex(Denied, 'authentication is not enabled'):
            EtcdLog.create(alone('x'), OPENING, **self.words('member'))


class Certificates(InEtcd, WithCertificates):
    """Logs over TLS."""

    def refused(self, call: Callable[[], object], why: str, fault: type[LogError] = Denied) -> None:
        with self.assertRaisesRegex(fault, f'^127.0.0.1:[0-9]+: .*{why}'):
            call()

    def test_trusted(self) -> None:
        servers = self.secure()
        address, tls = servers.address('x', kind='etcds'), self.tls()
        log, other = self.begun(address, tls=tls), self.opened(address, tls=tls)
        self.assertTrue(log.renew('a', A, LONG))
        log.snapshot(1, 0)
        later = threading.Timer(0.1, lambda: other.append(1, 0, ['recover,1' * 100] * 20))
        later.start()
        log.wait(1, 0, {'a': A}, Until.NEWS, PATIENCE)
        later.join()
        self.assertEqual((len(log.read(1, 0)), set(live(log))), (20, {'a'}))

        self.refused(lambda: EtcdLog(address, 5.0), 'TLS: .*certificate')
        self.refused(lambda: EtcdLog(address, 5.0, self.tls('other')), 'TLS: .*certificate')
        self.refused(lambda: EtcdLog(servers.address('x'), 5.0), '', Unanswered)
        # (a server without TLS answers in plain words, and may have ended the connection before they are read)
        self.refused(lambda: EtcdLog(alone('x', 'etcds'), 5.0, tls), 'TLS: |reset by peer', LogError)
        dead, port = free_ports(1)[0], servers.each[0].port
        self.assertEqual(len(self.opened(f'etcds://127.0.0.1:{dead},127.0.0.1:{port}/x', tls=tls).read(1, 0)), 20)
        mixed = f'etcds://127.0.0.1:{self.server.port},127.0.0.1:{port}/x'
        self.assertEqual(
            len(self.opened(mixed, tls=tls).read(1, 0)), 20, 'one server with a wrong certificate is passed over'
        )
        with self.assertRaises(ValueError):
            EtcdLog(servers.address('x'), tls=tls)

    def test_wrong_name(self) -> None:
        address = self.secure('elsewhere').address('x', kind='etcds')
        self.refused(lambda: EtcdLog.create(address, OPENING, 5.0, self.tls()), "TLS: .*127.0.0.1")

    def test_certificate_of_client(self) -> None:
        servers = self.secure_both()
        address = servers.address('x', kind='etcds')
        self.refused(lambda: EtcdLog.create(address, OPENING, 5.0, self.tls()), 'TLS: ')
        log = self.begun(address, tls=self.tls(client='client'))
        self.assertTrue(log.append(1, 0, ['recover,1']))
        log.wait(1, 0, {'a': A}, Until.NEWS, PATIENCE)
