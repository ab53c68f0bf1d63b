"""The stores of groups of processes: a file, a server of etcd, or three servers of etcd, which may have a network of
their own."""
from __future__ import annotations

import contextlib
import sqlite3
from collections.abc import Callable, Sequence
from pathlib import Path

from bully.etcd_client import Endpoint
from .etcd_servers import QUICK, Place, Server, Servers
from .groups import NAMES
from .namespaces import CLIENTS, PEERS, Network, NoNetwork
from .package.in_etcd import Proxy

KINDS = ('file', 'etcd', 'servers', 'network')
SERVERS = ('s0', 's1', 's2')
CLIENT_PORT, PEER_PORT = 2379, 2380
PREFIX = 'group'  # of the log in etcd


class Store:
    """The store of a group: where its log is for each member, and for the view of the group ('')."""

    def __init__(self, kind: str, folder: Path, errors: float = 0.0) -> None:
        """A proxy before each of three servers answers this share of the requests by itself. Three servers have etcd's
        own pace."""
        self.kind, self.file, self.errors = kind, folder / 'group.db', errors
        self.addresses = dict.fromkeys(['', *NAMES], f'sqlite:{self.file}')
        self.servers: Servers | None = None
        self.network: Network | None = None
        self.proxies: list[Proxy] = []
        self._closing = contextlib.ExitStack()
        try:
            self._start()
        except BaseException:
            self.close()
            raise

    def _start(self) -> None:
        if self.kind == 'network':
            try:
                self.network = Network([*SERVERS, *NAMES])
                self._closing.callback(self.network.close)
            except NoNetwork as cause:
                print(f'no network namespaces, so nothing happens to the network: {cause}')
        if self.kind == 'file':
            return
        places = places_in(self.network) if self.network is not None else ()
        self.servers = Servers(1, QUICK) if self.kind == 'etcd' else Servers(3, [], places=places)
        self._closing.callback(self.servers.close)
        self.addresses = addresses(self.servers)
        for server in self.servers.each if self.errors else ():
            self.proxies.append(Proxy(server.port))
            self.proxies[-1].share = self.errors
            self._closing.callback(self.proxies[-1].close)
        through = f'etcd://{",".join(proxy.endpoint for proxy in self.proxies)}/{PREFIX}'
        self.addresses.update(dict.fromkeys(NAMES, through) if self.proxies else {})

    def within(self, name: str) -> Sequence[str]:
        """The words by which a process is begun where this member is."""
        return self.network.within(name) if self.network is not None else ()

    def silence(self) -> Callable[[], object] | None:
        """Nothing can be written into the store from now on. What ends that; nothing, if that isn't so."""
        if self.servers is not None:
            return self.pause_servers()
        locked = sqlite3.connect(self.file, timeout=0.0, isolation_level=None)
        try:
            locked.execute('begin immediate')
        except sqlite3.OperationalError:  # somebody else writes
            locked.close()
            return None
        return locked.close

    def pause_servers(self) -> Callable[[], object]:
        """All of them. What has them continue."""
        servers: list[Server] = self.servers.each if self.servers is not None else []
        for server in servers:
            server.pause()

        def resume() -> None:
            for server in servers:
                server.resume()

        return resume

    def close(self) -> None:
        self._closing.close()
        if self.proxies:
            answered = sum(proxy.answered for proxy in self.proxies)
            print(f'requests that a proxy answered by itself: {answered}')


def places_in(network: Network) -> list[Place]:
    """Where the servers listen."""
    return [
        Place(
            Endpoint(network.address(name, CLIENTS), CLIENT_PORT),
            Endpoint(network.address(name, PEERS), PEER_PORT),
            network.within(name),
        )
        for name in SERVERS
    ]


def addresses(servers: Servers) -> dict[str, str]:
    """The address of the log for each member, which asks another server first; and for the view of the group ('')."""
    turned = {name: number % len(servers.each) for number, name in enumerate(('', *NAMES))}
    return {
        name: servers.address(PREFIX, *servers.each[first:], *servers.each[:first]) for name, first in turned.items()
    }
