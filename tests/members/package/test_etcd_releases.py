"""Tests of leases in etcd that watchdogs release; without the program `etcd` on the path they are skipped."""
from __future__ import annotations

from bully.epochs import Opening
from ..etcd_servers import WithEtcd, add_users, alone, begin_alone
from ..processes import is_running
from ..waiting import wait_until
from .configurations import TOP, toml
from .folders import WithFolder
from .member_processes import BEGINS, MemberProcess, call
from .test_releases import TTL


def setUpModule() -> None:
    begin_alone(__name__)


class InEtcd(WithEtcd, WithFolder):
    """The same over etcd, by the command that the watchdog becomes."""

    def setUp(self) -> None:
        WithEtcd.setUp(self)
        WithFolder.setUp(self)

    def test_at_once(self) -> None:
        self.see_released()

    def test_a_working_directory_of_others(self) -> None:
        """What lies there is never loaded, also not by the command, which has the member's password."""
        loaded = self.planted()
        self.see_released()
        self.assertFalse(loaded.exists())

    def see_released(self) -> None:
        """The lease of a member that is killed is released."""
        config = self.folder / 'group.toml'
        config.write_bytes(toml({**TOP, 'nodes': 1, 'names': ['a']}))
        address = alone(self.prefix)
        self.assertEqual(call('init', '--config', str(config), '--log', address)[0], 0)
        member = MemberProcess(self.folder, ['--log', address, '--node', 'a', '--ttl', TTL], ['sh', '-c', BEGINS])
        self.addCleanup(member.kill)
        worker, log = member.worker(), self.opened(address)
        self.assertEqual(list(log.snapshot(1, 0).holders), ['a'])
        member.process.kill()
        wait_until(lambda: not log.snapshot(1, 0).holders)
        self.assertFalse(is_running(worker))

    def test_a_user(self) -> None:
        """The command has the member's password, which neither its words nor the worker have; from the environment, or
        from a file."""
        servers = self.servers()
        add_users(servers.each[0])
        address, secret = servers.address('x'), self.folder / 'secret'
        secret.write_text('member password\n')
        secret.chmod(0o600)
        log = self.created(address, Opening.first('bully,1,1,6', ('a',)), user='member', password='member password')
        cases: list[tuple[list[str], dict[str, str]]] = [
            ([], {'BULLY_ETCD_PASSWORD': 'member password'}), (['--password-file', str(secret)], {}),
        ]  # fmt: skip
        for words, more in cases:
            with self.subTest(words=words):
                run = ['--log', address, '--node', 'a', '--ttl', TTL, '--user', 'member', *words]
                member = MemberProcess(self.folder, run, ['sh', '-c', BEGINS], **more)
                self.addCleanup(member.kill)
                member.worker()
                self.assertNotIn('member password', (self.folder / 'env').read_text())
                member.process.kill()
                wait_until(lambda: not log.snapshot(1, 0).holders)
                (self.folder / 'begun').unlink()
