"""Tests of the resources of `examples/members/fences`: each has a fence for each partition."""
from __future__ import annotations

import contextlib
import http.client
import importlib
import os
import socket
import subprocess
import sys
import threading
from collections.abc import Callable
from typing import Any
from unittest import mock

from bully.epochs import Token
from places import ROOT
from .folders import WithFolder

FENCES = ROOT / 'examples' / 'members' / 'fences'
LOW, MID, TOP = Token.of(3, 20), Token.of(3, 9_999_999), Token.of(4, 1)  # rising, over an epoch's end

with mock.patch.object(sys, 'path', [str(FENCES), *sys.path]):
    files, service, table = (importlib.import_module(name) for name in ('file', 'service', 'table'))


class Fences(WithFolder):
    """What each of them refuses."""

    def see(self, write: Callable[[int, int], bool]) -> None:
        """An older token of a partition is refused; a lower one of another partition isn't, nor the same one again."""
        for partition, token, passes in (
            (0, MID, True),
            (0, MID, True),
            (0, LOW, False),
            (5, LOW, True),
            (0, TOP, True),
            (0, MID, False),
            (5, LOW, True),
            (5, MID, True),
            (5, LOW, False),
            (0, TOP, True),
        ):
            self.assertEqual(write(partition, token), passes, (partition, token))

    def test_table(self) -> None:
        with contextlib.closing(table.opened(str(self.folder / 'table.db'))) as opened:
            self.see(lambda partition, token: bool(table.write(opened, partition, token, 'x')))
            asked = 'select token from work where partition = 0'
            self.assertEqual([token for token, in opened.execute(asked)], [MID, MID, TOP, TOP])

    def test_file(self) -> None:
        self.see(lambda partition, token: bool(files.write(str(self.folder), partition, token, 'x')))
        self.assertEqual((self.folder / '0').read_text(), ''.join(f'{token} x\n' for token in (MID, MID, TOP, TOP)))
        with open(self.folder / '0', 'a') as file:
            file.write('12')  # its writer was killed
        self.assertFalse(files.write(str(self.folder), 0, MID, 'x'))
        self.assertTrue(files.write(str(self.folder), 0, TOP, 'y'))
        self.assertEqual((self.folder / '0').read_text().splitlines()[-2:], [f'{TOP} x', f'{TOP} y'])

    def test_service(self) -> None:
        with service.Service(str(self.folder / 'table.db'), ('127.0.0.1', 0)) as serves:
            serving = threading.Thread(target=serves.serve_forever, daemon=True)
            with mock.patch.object(service.Handler, 'log_message'):
                serving.start()
                self.see(lambda partition, token: self.put(serves, f'/partitions/{partition}', token) == 204)
                self.assertEqual(self.put(serves, '/partitions/0', MID), 412)
                odd = (('/other', TOP), ('/partitions/0', 'x'), ('/partitions/0', 1 << 63), ('/partitions/0', ''))
                self.assertEqual([self.put(serves, *each) for each in odd], [404, 400, 400, 400])
                with socket.create_connection(serves.server_address) as client, client.makefile('rb') as answers:
                    client.sendall(b'PUT /partitions/7 HTTP/1.0\r\nFencing-Token: 1\r\nContent-Length: 9\r\n\r\nhalf')
                    client.shutdown(socket.SHUT_WR)  # as if it was killed
                    self.assertIn(b' 400 ', answers.readline())
                with contextlib.closing(table.opened(str(self.folder / 'table.db'))) as opened:
                    self.assertEqual(opened.execute('select * from work where partition = 7').fetchall(), [])
                serves.shutdown()
            serving.join()

    def put(self, serves: Any, path: str, token: object) -> int:
        """The status of the answer."""
        connection = http.client.HTTPConnection(*serves.server_address)
        with contextlib.closing(connection):
            connection.request('PUT', path, b'x', {'Fencing-Token': str(token)})
            return connection.getresponse().status

    def test_programs(self) -> None:
        """A worker in any language calls them."""
        for name, where in (('table.py', 'table.db'), ('file.py', '')):
            words = [sys.executable, str(FENCES / name), os.path.join(self.folder, where)]
            self.see(lambda partition, token: subprocess.run([*words, str(partition), str(token), 'x']).returncode == 0)


class Each(WithFolder):
    """The example of a worker for one partition."""

    def test_an_old_token(self) -> None:
        """It ends with a failure once its file has seen a newer token; one of another partition doesn't."""
        (self.folder / '5').write_text(f'{MID} b\n')
        words = [str(ROOT / 'examples' / 'members' / 'each.sh'), str(self.folder)]
        more = {**os.environ, 'BULLY_NODE': 'a', 'BULLY_TOKEN': str(LOW)}
        ran = subprocess.run(words, env={**more, 'BULLY_PARTITION': '5'}, stderr=subprocess.PIPE, text=True)
        self.assertEqual((ran.returncode, (self.folder / '5').read_text()), (1, f'{MID} b\n'))
        self.assertIn(f'a: partition 5 has seen a newer token than {LOW}', ran.stderr)
        other = subprocess.Popen(words, env={**more, 'BULLY_PARTITION': '0'})
        self.addCleanup(other.wait)
        self.addCleanup(other.kill)
        while not (self.folder / '0').exists() or (self.folder / '0').read_text().count('\n') < 3:
            self.assertIsNone(other.poll())
        self.assertEqual(set((self.folder / '0').read_text().splitlines()), {f'{LOW} a'})
