"""How long `etcdctl lock` takes until another one holds a lock whose holder was killed."""
from __future__ import annotations

import os
import random
import select
import subprocess
import time
from collections.abc import Sequence
from contextlib import suppress

from .etcd_servers import Servers
from .waiting import wait_until

PATIENCE = 30.0


class Contender:
    """An `etcdctl` that waits for a lock, and holds it then."""

    def __init__(self, within: Sequence[str], servers: Servers, name: str, ttl: float) -> None:
        endpoints = ','.join(str(server.address.client) for server in servers.each)
        words = [*within, 'etcdctl', '--endpoints', endpoints, 'lock', name, '--ttl', f'{ttl:.0f}']
        self.process = subprocess.Popen(
            words, stdin=subprocess.DEVNULL, stdout=subprocess.PIPE, env={**os.environ, 'ETCDCTL_API': '3'}
        )

    def await_lock(self) -> None:
        """Returns once it holds the lock, which it says. Raises TimeoutError, ValueError."""
        assert self.process.stdout is not None
        poll = select.poll()
        poll.register(self.process.stdout, select.POLLIN)
        if not poll.poll(1000 * PATIENCE):
            raise TimeoutError('the lock is not given')
        if not os.read(self.process.stdout.fileno(), 1000):
            raise ValueError('etcdctl has ended')

    def close(self) -> None:
        self.process.kill()
        self.process.wait()
        if self.process.stdout is not None:
            self.process.stdout.close()


def time_lock(servers: Servers, hosts: Sequence[Sequence[str]], name: str, ttl: float, choice: random.Random) -> float:
    """The holder of a lock is killed at some moment: the seconds until the other contender holds it."""
    contenders: list[Contender] = []
    try:
        for count, within in enumerate(hosts, 1):
            contenders.append(Contender(within, servers, name, ttl))
            wait_until(lambda: is_asked_for(servers, name, count))
        contenders[0].await_lock()
        time.sleep(choice.uniform(0, ttl))  # so that it comes at any moment between two renewals
        begun = time.monotonic()
        contenders[0].process.kill()
        contenders[1].await_lock()
        return time.monotonic() - begun
    finally:
        for contender in contenders:
            contender.close()


def is_asked_for(servers: Servers, name: str, count: int) -> bool:
    """Whether so many wait for the lock, or hold it."""
    with suppress(OSError, ValueError):
        return len(servers.each[0].keys(f'{name}/')) >= count
    return False
