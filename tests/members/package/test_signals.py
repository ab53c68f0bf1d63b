"""Tests of signals that tell `bully-member run` to leave, from its first moment on."""
from __future__ import annotations

import os
import signal
import subprocess
import sys
import time
from collections.abc import Callable, Sequence
from types import SimpleNamespace
from typing import Any

from bully.processes import ENDS
from bully.pruning import Pruning
from bully.systemd import Service
from places import environment
from ..etcd_servers import free_ports
from ..processes import children, has_loaded, is_running, name_of, parent_of, waits_for
from ..waiting import PATIENCE, wait_until
from .member_processes import BEGINS, WithMember, member_words, started

# A command that gets a signal as it begins, where all exceptions are caught.
CATCHES = '''
import os, signal, sys
from bully import command
from bully.commands import run

def store_of(options):
    try:
        os.kill(os.getpid(), signal.SIGTERM)
    except BaseException:
        os._exit(9)
    os._exit(8)

run.store_of = store_of
command.main(sys.argv[1:])
'''
MOMENTS = (0.0, 0.01, 0.03, 0.06, 0.1, 0.2, 0.4, 0.8)  # seconds, at which a signal comes
WITHIN = ('unshare', '--pid', '--fork', '--kill-child', '--mount-proc')  # where the member is the first process


class Signals(WithMember):
    """Signals that tell a member to leave."""

    def test_each(self) -> None:
        """It leaves in order: nothing of its worker is left, and its lease is given back."""
        member = self.begin(BEGINS)
        for count, number in enumerate(ENDS):
            with self.subTest(signal=number.name):
                if count:
                    member.begin_again()
                worker = member.next_worker()
                watchdog = parent_of(worker)
                wait_until(lambda: name_of(worker) == 'sleep')
                self.assertFalse(waits_for(worker, number), 'a worker begins as any process')
                os.kill(watchdog, number)  # as all processes of a service may get it
                member.process.send_signal(number)
                self.assertEqual(member.wait(), 0)
                self.assertIn(f'node the only: {number.name} told it to leave\n', member.said)
                self.assertFalse(is_running(worker) or is_running(watchdog))
                self.assertEqual(self.left(), ('crash,1', {}))

    def test_a_hangup_that_is_ignored(self) -> None:
        """What was begun by nohup stays at the end of its terminal."""
        self.init()
        member = self.begin_as(['sh', '-c', BEGINS], within=['sh', '-c', 'trap "" HUP; exec "$@"', 'sh'])
        member.next_worker()
        before = self.until()
        member.process.send_signal(signal.SIGHUP)
        wait_until(lambda: self.until() > before)
        self.assertEqual(member.end(), 0)
        self.assertNotIn('SIGHUP', member.said)

    def test_a_storm(self) -> None:
        """It leaves in order, with status 0, however many signals come up to its end."""
        member = self.begin(BEGINS)
        for count in range(3):
            if count:
                member.begin_again()
            member.next_worker()
            while member.process.poll() is None:
                for number in ENDS:
                    member.process.send_signal(number)
            self.assertEqual(member.process.returncode, 0, member.said)
            self.assertEqual(self.left(), ('crash,1', {}))

    def test_at_the_end(self) -> None:
        """Once a member has left, Python stops handling signals before it exits: so they are ignored then."""
        shows = 'print(all(signal.getsignal(each) == signal.SIG_IGN for each in processes.ENDS))'
        code = f'import signal, sys\nfrom bully import command, processes\nstatus = command.main(sys.argv[1:])\n'
        code += f'{shows}\nsys.exit(status)'
        words = [sys.executable, '-c', code, 'run', '--log', f'sqlite:{self.path}', '--node', 'a', '--', 'true']
        ran = subprocess.run(words, env=environment(), stdout=subprocess.PIPE, text=True, timeout=PATIENCE)
        self.assertEqual((ran.returncode, ran.stdout), (4, 'True\n'))  # there is no log

    def test_within_what_catches_all(self) -> None:
        """As it begins a signal ends it, whatever it does just now: some imports let no exception by."""
        words = [sys.executable, '-c', CATCHES, 'run', '--log', f'sqlite:{self.path}', '--node', 'a', '--', 'true']
        self.assertEqual(subprocess.run(words, env=environment(), timeout=PATIENCE).returncode, 0)

    def until(self) -> int:
        """Up to when the lease is held."""
        return int(self.opened()._one('select max(until) from leases'))

    def test_as_it_begins(self) -> None:
        """At whichever moment: it has acquired nothing yet, or releases it."""
        self.init()
        for moment in MOMENTS:
            with self.subTest(moment=moment):
                member = self.begin_as(['sh', '-c', BEGINS])
                time.sleep(moment)
                self.assertIn(member.end(), (0, -signal.SIGTERM), member.said)
                self.assertEqual(self.opened().snapshot(1, 0).holders, {})

    def test_what_has_not_begun(self) -> None:
        """A signal may come before a thread has begun, which is ended all the same."""
        closed: list[str] = []
        nobody: Any = SimpleNamespace(close=lambda: closed.append('the log'))
        Service(nobody, nobody).close()
        Pruning(nobody, nobody, 1).close()
        self.assertEqual(closed, ['the log'])

    def test_the_first_process(self) -> None:
        """As that of a container it hears signals since its first line: others of its kind lose what isn't heard."""
        self.init()
        self.see_first(member_words(self.options, ['sh', '-c', BEGINS]), {}, has_loaded_package)

    def test_a_container(self) -> None:
        """The first program of the container holds them back, so that none is lost since that has begun."""
        words, more = self.container(*free_ports(1))
        # (unshare holds it back for a moment, too, and lets it by before it becomes that program)
        self.see_first(words, more, lambda first: name_of(first) != WITHIN[0] and waits_for(first, signal.SIGTERM))

    def see_first(self, words: Sequence[str], more: dict[str, str], is_there: Callable[[int], bool]) -> None:
        """The first process of a container ends in order at whichever moment, once it is there."""
        if os.getuid() != 0:
            self.skipTest('only root can have processes of its own numbers')
        for moment in MOMENTS:
            with self.subTest(moment=moment):
                container = started(self.folder, [*WITHIN, *words], None, **more)
                self.addCleanup(container.wait, PATIENCE)
                self.addCleanup(container.kill)
                wait_until(lambda: children(container.pid))
                (first,) = children(container.pid)
                wait_until(lambda: is_there(first))
                time.sleep(moment)
                os.kill(first, signal.SIGTERM)
                self.assertEqual(container.wait(PATIENCE), 0)
                self.assertEqual(self.opened().snapshot(1, 0).holders, {})


def has_loaded_package(process: int) -> bool:
    """Whether it has begun to load the package, so that its first line has run."""
    return has_loaded(process, '_ctypes')
