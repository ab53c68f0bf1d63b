#!/usr/bin/env python3
"""A resource with a fence for each partition: a service over HTTP. It keeps what it is sent, and the tokens, in a table
of SQLite.

    service.py FILE PORT

    PUT /partitions/5 with the header `Fencing-Token: TOKEN`      204; or 412 if partition 5 has seen a newer token

A client sends BULLY_TOKEN. An older token of one partition is refused, while a lower token of another one is accepted.
"""
import re
import sys
from contextlib import closing
from http.server import BaseHTTPRequestHandler, ThreadingHTTPServer
from typing import Tuple

from table import opened, write

PATH = re.compile('/partitions/([0-9]{1,4})')
TOKEN = re.compile('[0-9]{1,19}')
TOKEN_END = 1 << 63  # of the column that keeps it
LONGEST = 1 << 20  # bytes of a request, at most


class Service(ThreadingHTTPServer):
    """The service, over this file, at this address."""

    def __init__(self, path: str, address: Tuple[str, int]) -> None:
        super().__init__(address, Handler)
        self.path = path


class Handler(BaseHTTPRequestHandler):
    """A request."""

    def do_PUT(self) -> None:
        found, token, length = (
            PATH.fullmatch(self.path),
            self.headers.get('Fencing-Token', ''),
            self.headers.get('Content-Length', ''),
        )
        if (
            found is None
            or not TOKEN.fullmatch(token)
            or int(token) >= TOKEN_END
            or not length.isdecimal()
            or int(length) > LONGEST
        ):
            self.send_error(404 if found is None else 400)
            return
        body = self.rfile.read(int(length))
        if len(body) < int(length):
            self.send_error(400)  # the client was killed in the middle of it
            return
        assert isinstance(self.server, Service)
        with closing(opened(self.server.path)) as file:
            passes = write(file, int(found[1]), int(token), body.decode(errors='replace'))
        self.send_response(204 if passes else 412)
        self.end_headers()


if __name__ == '__main__':
    with Service(sys.argv[1], ('127.0.0.1', int(sys.argv[2]))) as service:
        service.serve_forever()
