"""The command `bully-member`, in this process or in one of its own."""
from __future__ import annotations

import contextlib
import http.client
import io
import json
import logging
import os
import re
import socket
import subprocess
import sys
from collections.abc import Iterator, Sequence
from pathlib import Path
from typing import Any, BinaryIO, NamedTuple
from unittest import mock

from bully import command
from bully.shared_log import Holder
from places import PYTHON, ROOT, environment
from ..processes import children, ender, is_running, parent_of
from ..waiting import PATIENCE, wait_until
from .configurations import TOP, toml
from .folders import InFolder


def call(*words: str) -> tuple[int, str, str]:
    """The status of a command, and what it said. What signals do to this process stays, and no command before it
    decides where its messages go."""
    with contextlib.redirect_stdout(io.StringIO()) as said, contextlib.redirect_stderr(
        io.StringIO()
    ) as told, mock.patch('signal.signal'), mock.patch.object(logging.getLogger(), 'handlers', []):
        try:
            status = command.main(list(words))
        except SystemExit as ended:
            status = int(ended.code or 0)
    return status, said.getvalue(), told.getvalue()


# Workers in shell, whose folder is FOLDER: one that stays until it is ended, and one that stays over changes.
BEGINS = 'env > $FOLDER/env; echo $$ > $FOLDER/new; mv $FOLDER/new $FOLDER/begun; exec sleep 1000'
STARTS = f'sleep 1000 & echo $! > $FOLDER/child; {BEGINS}'  # it has begun something else
TALKS = """
    echo $$ > $FOLDER/new; mv $FOLDER/new $FOLDER/begun
    while read -r line; do
        echo "$line" >> $FOLDER/told
        case $line in *stop*) echo stopped >&3;; esac
    done
"""


Words = Sequence[str]


def started(folder: Path, words: Words, said: BinaryIO | None = None, /, **more: str) -> subprocess.Popen[bytes]:
    """The process of these words, with this folder as FOLDER, and more, in its environment. What it says is for that
    file, or one of the folder."""
    with said or open(folder / 'said', 'wb') as file:
        return subprocess.Popen(words, env=environment(FOLDER=str(folder), **more), stderr=file)


def asked(port: int, target: str, host: str = '127.0.0.1') -> tuple[int, str]:
    """The status and the text of a page; 0, if nobody answers."""
    connection = http.client.HTTPConnection(host, port, timeout=PATIENCE)
    with contextlib.closing(connection), contextlib.suppress(OSError):
        connection.request('GET', target)
        answer = connection.getresponse()
        return answer.status, answer.read().decode()
    return 0, ''


@contextlib.contextmanager
def manager_in(folder: Path, microseconds: int = 300_000) -> Iterator[socket.socket]:
    """A manager of services, which hears of what begins meanwhile, and takes it for stuck after so long."""
    path = str(folder / 'manager')
    with socket.socket(socket.AF_UNIX, socket.SOCK_DGRAM) as manager:
        manager.bind(path)
        manager.settimeout(PATIENCE)
        with mock.patch.dict(os.environ, NOTIFY_SOCKET=path, WATCHDOG_USEC=str(microseconds)):
            yield manager


class Line(NamedTuple):
    """The processes of a member whose worker has started something, each below the one before it."""

    member: int
    watchdog: int
    keeper: int
    worker: int
    child: int


def member_words(words: Words, worker: Words) -> list[str]:
    """The command `bully-member run` by these words, with those of the worker."""
    return [sys.executable, '-W', 'error', str(PYTHON / 'bully_member.py'), 'run', *words, '--', *worker]


class MemberProcess:
    """`bully-member run` in a process of its own, and what its worker writes into files of a folder."""

    def __init__(
        self,
        folder: Path,
        words: Words,
        worker: Words,
        said: BinaryIO | None = None,
        /,
        within: Words = (),
        **more: str,
    ) -> None:
        """By these words and those of the worker; another command may start it."""
        self.folder = folder
        self.words = [*within, *member_words(words, worker)]
        self.process = started(folder, self.words, said, **more)

    def begin_again(self) -> None:
        """It has ended, and is begun again by the same words."""
        self.process = started(self.folder, self.words)

    @property
    def said(self) -> str:
        """What the member says."""
        return (self.folder / 'said').read_text()

    def worker(self) -> int:
        """The worker that has begun, once one has."""
        wait_until((self.folder / 'begun').exists)
        return int((self.folder / 'begun').read_text())

    def next_worker(self) -> int:
        """The worker that has begun since this was asked last, once one has."""
        wait_until((self.folder / 'begun').exists)
        return int((self.folder / 'begun').rename(self.folder / 'seen').read_text())

    def environment(self) -> dict[str, str]:
        """That of the worker."""
        lines = (self.folder / 'env').read_text().splitlines()
        return dict(line.split('=', 1) for line in lines if '=' in line)

    def told(self, count: int) -> list[dict[str, Any]]:
        """What a worker that talks was told, once that are so many lines."""
        file = self.folder / 'told'
        wait_until(lambda: file.exists() and file.read_text().count('\n') >= count)
        return [json.loads(line) for line in file.read_text().splitlines()]

    def end(self) -> int:
        """It is told to leave. Its status."""
        self.process.terminate()
        return self.wait()

    def wait(self) -> int:
        """Its status, once it has ended."""
        return self.process.wait(PATIENCE)

    def kill(self) -> None:
        """It ends now, if it hasn't, and then its watchdog does, with the worker."""
        watchdogs = children(self.process.pid) if self.process.poll() is None else []
        self.process.kill()
        self.process.wait(PATIENCE)
        wait_until(lambda: not any(map(is_running, watchdogs)))


class WithMember(InFolder):
    """Tests of a member for the only node of a group, over a log in a file."""

    def init(self, *more: str) -> None:
        """There is a new log of a group of one node, and the options of its member."""
        for path in (self.path, self.folder / 'begun'):
            path.unlink(missing_ok=True)
        config, log = self.folder / 'group.toml', f'sqlite:{self.path}'
        config.write_bytes(toml({**TOP, 'nodes': 1, 'names': ['the only'], 'weights': [3]}))
        self.of_log('init', '--config', str(config))
        self.options = ['--config', str(config), '--log', log, '--node', 'the only', '--ttl', '2', *more]

    def of_log(self, *words: str, status: int = 0) -> None:
        """A command with that log ends by this status."""
        self.assertEqual(command.main([*words, '--log', f'sqlite:{self.path}']), status)

    def resize(self, *words: str, status: int = 0, **settings: Any) -> None:
        """The group gets such settings."""
        new = self.folder / 'new.toml'
        new.write_bytes(toml({**TOP, **settings}))
        self.of_log('resize', '--config', str(new), *words, status=status)

    def begin(self, worker: str, *more: str, said: BinaryIO | None = None) -> MemberProcess:
        """A member for the only node of a group, with a worker in shell."""
        self.init(*more)
        return self.begin_as(['sh', '-c', worker], said)

    def begin_as(self, worker: Words, said: BinaryIO | None = None, /, **more: Any) -> MemberProcess:
        """The same with any worker, over the log that is there; with more in its environment, or `within` another
        command that starts it."""
        member = MemberProcess(self.folder, self.options, worker, said, **more)
        self.words = member.words
        self.addCleanup(member.kill)
        return member

    def line(self, member: MemberProcess) -> Line:
        """The processes of a member whose worker is `STARTS`, which has begun. All end after the test."""
        worker = member.next_worker()
        keeper, child = parent_of(worker), int((self.folder / 'child').read_text())
        line = Line(member.process.pid, parent_of(keeper), keeper, worker, child)
        for process in line[1:]:
            self.addCleanup(ender(process))
        return line

    def left(self) -> tuple[str, dict[str, Holder]]:
        """The last row of the current log, and who holds a lease."""
        log = self.opened()
        found = log.snapshot(log.epochs()[-1], 0)
        return found.rows[-1], dict(found.holders)

    def container(self, port: int) -> tuple[list[str], dict[str, str]]:
        """By which words a container begins such a member, which listens on this port; and what more is in its
        environment. The log is there."""
        lines = (ROOT / 'examples' / 'members' / 'Containerfile').read_text()
        begun = re.search('^ENTRYPOINT (.*)$', lines.replace('\\\n', ''), re.MULTILINE)
        assert begun is not None
        program = self.folder / 'bully-member'
        program.write_text(f'#!/bin/sh\nexec {sys.executable} -m bully_member "$@"\n')
        program.chmod(0o755)
        self.init()
        words = [word.replace('8081', str(port)) for word in json.loads(begun[1])]
        more = {
            'PATH': f'{self.folder}:{os.environ["PATH"]}',
            'BULLY_NODE_NAME': 'the only',
            'BULLY_LOG': f'sqlite:{self.path}',
        }
        return [*words, 'sleep', '1000'], more


class WithLog(InFolder):
    """Commands on a log in a file, of a group whose configuration is in a file, too."""

    def setUp(self) -> None:
        super().setUp()
        self.config, self.log = Path(self.configured('group.toml')), f'sqlite:{self.path}'

    def use(self, name: object) -> None:
        """The log is another one from now on."""
        self.path = self.folder / f'{name}.db'
        self.log = f'sqlite:{self.path}'

    def of_log(self, *words: str) -> tuple[int, str, str]:
        return call(*words, '--log', self.log)

    def init(self, *words: str) -> tuple[int, str, str]:
        return self.of_log('init', '--config', str(self.config), *words)

    def configured(self, name: str, **more: Any) -> str:
        """The path of a configuration."""
        path = self.folder / name
        path.write_bytes(toml({**TOP, **more}))
        return str(path)
