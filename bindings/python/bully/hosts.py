"""The targets of HTTP requests, and the hosts by which a server may be asked.

A site may have its own name lead to this machine after a while ("DNS rebinding"). A browser then takes what it reads
here for that site's own. Such a request has that name as its Host. So a name that a site on the Internet may have is
refused, unless it is allowed. A request without a Host doesn't come from a browser.
"""
from __future__ import annotations

import re
import socket
from collections.abc import Iterable, Sequence
from dataclasses import dataclass
from ipaddress import IPv4Address, IPv6Address, ip_address
from urllib.parse import unquote

ANY = '*'  # allows every host
PRIVATE = ('.local', '.internal')  # the ends of names that no site on the Internet has

_TARGET = re.compile(r'(?:[!-"$&-~]|%[0-9A-Fa-f]{2})+')  # visible ASCII without `#`, and `%` only before two digits
_NAME = r'[a-z0-9_-]+(?:\.[a-z0-9_-]+)*\.?'
_HOST = re.compile(rf'(\[[0-9a-f:.]+\]|{_NAME})(?::[0-9]*)?')


class BadRequest(Exception):
    """A request that isn't valid."""


@dataclass(frozen=True)
class Target:
    """The target of a request: a path, a query, and the host if the target names one."""

    path: str
    query: str
    host: str | None = None

    @staticmethod
    def read(words: str) -> Target:
        """The target in the first line of a request. Raises BadRequest."""
        if not _TARGET.fullmatch(words):
            raise BadRequest('the target has a character that must be escaped, or a bad escape')
        scheme, has_scheme, rest = words.partition('://')
        host = None
        if has_scheme and scheme.lower() in ('http', 'https'):
            host = re.split('[/?]', rest, maxsplit=1)[0]
            words = rest[len(host) :]
            words = words if words.startswith('/') else f'/{words}'
        if not words.startswith('/') and words != '*':
            raise BadRequest('the target is not a path')
        path, _, query = words.partition('?')
        return Target(unquote(path), query, host)

    def asked_host(self, headers: Sequence[str]) -> str:
        """The host of a request with these Host headers. Raises BadRequest."""
        if len(headers) > 1 or self.host == '':
            raise BadRequest('the request names no host, or more than one')
        return read_host(''.join(headers) if self.host is None else self.host)


def read_host(words: str) -> str:
    """A name or an address in lower case, without its port and without a dot at its end; empty for empty words. Raises
    BadRequest."""
    host = words.strip().lower()
    found = _HOST.fullmatch(host)
    if not host:
        return ''
    if found is None or found[1].startswith('[') and address_in(found[1]) is None:
        raise BadRequest('the host is neither a name nor an address')
    return found[1].rstrip('.')


def read_allowed(words: str) -> str:
    """A host to allow, or `*` for every host. Raises ValueError."""
    try:
        host = words if words == ANY else read_host(words)
    except BadRequest:
        host = ''
    if not host or ':' in words.rpartition(']')[2]:
        raise ValueError(f'{words}, and must be a name or an address without a port, or {ANY}')
    return host


def address_in(host: str) -> IPv4Address | IPv6Address | None:
    """The host as an address, if it is one."""
    try:
        return ip_address(host[1:-1] if host.startswith('[') else host)
    except ValueError:
        return None


class Hosts:
    """The hosts by which a server may be asked."""

    def __init__(self, listens: str, bound: str, allowed: Iterable[str] = ()) -> None:
        """The server listens at the host `listens`, which is the address `bound`. Further hosts are
        allowed."""
        address = address_in(bound)
        self._is_local = address is not None and address.is_loopback
        own = [] if self._is_local else [socket.gethostname().lower()]
        self._names = {'localhost', listens.lower().rstrip('.'), *own, *allowed}

    def takes(self, host: str) -> bool:
        """Whether the server may be asked by this host, in the form that `read_host` returns."""
        if not host or host in self._names or ANY in self._names:
            return True
        address = address_in(host)
        if address is not None:
            return address.is_loopback or not self._is_local
        return not self._is_local and ('.' not in host or host.endswith(PRIVATE))
