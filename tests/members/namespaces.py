"""A network of a test's own on this machine: each host is a network namespace, and two bridges in another one join them
all.

Each host has an address on both bridges: 10.83.0.N, and 10.83.1.N, over which servers talk to one another. Nothing of
the machine's own network is touched. It takes root, and the programs `ip` and `bridge`.
"""
from __future__ import annotations

import ctypes
import os
import shutil
import subprocess
from collections.abc import Sequence
from pathlib import Path

NAMED = Path('/run/netns')  # where `ip` has its namespaces
PREFIX = 'bully-test-'
CLONE_NEWNET = 0x40000000
CLIENTS, PEERS = range(2)  # the bridges
DISABLED, FORWARDING = '0', '3'  # of the port of a bridge


class NoNetwork(Exception):
    """A network can't be made."""


def call(*words: str) -> None:
    """Runs a program. Raises NoNetwork."""
    if shutil.which(words[0]) is None:
        raise NoNetwork(f'there is no program `{words[0]}`')
    ended = subprocess.run(
        words, stdin=subprocess.DEVNULL, stdout=subprocess.PIPE, stderr=subprocess.STDOUT, check=False
    )
    if ended.returncode != 0:
        raise NoNetwork(f'`{" ".join(words)}`: {ended.stdout.decode(errors="replace").strip()}')


def remove_left() -> None:
    """Removes what tests left that were killed."""
    for path in NAMED.glob(f'{PREFIX}*'):
        process = path.name[len(PREFIX) :].split('-')[0]
        if not Path('/proc', process).exists():
            call('ip', 'netns', 'del', path.name)


class Network:
    """The hosts, by their names, and the bridges between them."""

    def __init__(self, names: Sequence[str]) -> None:
        """Makes them. This thread, and what it begins, is where the bridges are from then on. Raises NoNetwork."""
        self.hosts = {name: number for number, name in enumerate(names, 11)}
        self._made: list[str] = []
        if os.geteuid() != 0:
            raise NoNetwork('this is not root')
        remove_left()
        try:
            self._add('')
            for bridge in (CLIENTS, PEERS):
                self._in('', 'link', 'add', f'bridge{bridge}', 'type', 'bridge')
                self._in('', 'address', 'add', f'10.83.{bridge}.1/24', 'dev', f'bridge{bridge}')
                self._in('', 'link', 'set', f'bridge{bridge}', 'up')
            for name in names:
                self._add(name)
                self._join(name)
            self._enter()
        except BaseException:
            self.close()
            raise

    def _add(self, name: str) -> None:
        """A namespace; the one without a name has the bridges."""
        call('ip', 'netns', 'add', self._space(name))
        self._made.append(name)
        self._in(name, 'link', 'set', 'lo', 'up')

    def _space(self, name: str) -> str:
        return f'{PREFIX}{os.getpid()}-{name or "bridges"}'

    def _in(self, name: str, *words: str) -> None:
        call('ip', '-n', self._space(name), *words)

    def _join(self, name: str) -> None:
        """Joins a host to both bridges."""
        for bridge in (CLIENTS, PEERS):
            port = self._port(name, bridge)
            self._in('', 'link', 'add', port, 'type', 'veth', 'peer', 'name', f'to{bridge}', 'netns', self._space(name))
            self._in('', 'link', 'set', port, 'master', f'bridge{bridge}', 'up')
            self._in(name, 'address', 'add', f'{self.address(name, bridge)}/24', 'dev', f'to{bridge}')
            self._in(name, 'link', 'set', f'to{bridge}', 'up')
        self.heal(name, CLIENTS, PEERS)  # so that it is known at once if that can't be done

    def _port(self, name: str, bridge: int) -> str:
        return f'{name}-{bridge}'

    def address(self, name: str, bridge: int = CLIENTS) -> str:
        """The address of a host on a bridge."""
        return f'10.83.{bridge}.{self.hosts[name]}'

    def within(self, name: str) -> tuple[str, ...]:
        """The words by which a process is begun at a host."""
        return ('ip', 'netns', 'exec', self._space(name))

    def _enter(self) -> None:
        libc = ctypes.CDLL(None, use_errno=True)
        with open(NAMED / self._space(''), 'rb') as space:
            if libc.setns(space.fileno(), CLONE_NEWNET) != 0:
                raise NoNetwork(f'setns: {os.strerror(ctypes.get_errno())}')

    def cut(self, name: str, *bridges: int) -> None:
        """What a host sends on these bridges, and what is sent to it, is lost."""
        self._set(name, bridges, DISABLED)

    def heal(self, name: str, *bridges: int) -> None:
        """It isn't lost any more."""
        self._set(name, bridges, FORWARDING)

    def _set(self, name: str, bridges: Sequence[int], state: str) -> None:
        for bridge in bridges:
            call('bridge', '-n', self._space(''), 'link', 'set', 'dev', self._port(name, bridge), 'state', state)

    def close(self) -> None:
        """Removes all of it. Processes that are there have to have ended."""
        while self._made:
            call('ip', 'netns', 'del', self._space(self._made.pop()))
