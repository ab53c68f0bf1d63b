"""`bully-member run`."""
from __future__ import annotations

import argparse
import contextlib
import logging
import os
import signal
import time
from collections.abc import Callable
from typing import TYPE_CHECKING, TypeVar

from ..command_options import Command, OneOf, Option, count_option, count_or_none, seconds_option
from ..config_file import settings_in
from ..core import Ending
from ..display import LOG_FORMAT, shown_name, writes_json
from ..epochs import TTL
from ..exit_statuses import OK
from ..member import Member, NotInGroup
from ..messages import FORMATS, Messages
from ..operations import ASK_AGAIN
from ..processes import default_signals
from ..pruning import Pruning
from ..sessions import SessionNotes, releases_of
from ..settings import Settings
from ..shared_log import Unanswered
from ..signals import at_signals
from ..store_options import BadWords, FileStore, Store, check_ttl, store_of, warn_of_readers
from ..systemd import Service
from ..view import LogView
from ..work_failures import GIVE_UP, Failures
from ..worker import Kind, Workers, children_listed

if TYPE_CHECKING:
    from ..server import MemberServer

PORT_MAX = 65_535
STAY_IGNORED = {signal.SIGHUP, signal.SIGPIPE, signal.SIGXFSZ}  # by nohup; and by Python

_Answer = TypeVar('_Answer')
_logger = logging.getLogger('bully')


class CantListen(Exception):
    """The address of --listen can't be used."""


def run(options: argparse.Namespace) -> int:
    """Takes part with a worker, until a signal tells it to leave."""
    ignored = {each for each in signal.valid_signals() if signal.getsignal(each) == signal.SIG_IGN}
    default_signals(ignored - STAY_IGNORED)
    at_signals(lambda: os._exit(OK))  # until it takes part (an exception might end in whatever is imported just now)
    if options.log_format is not None:
        os.environ[LOG_FORMAT] = options.log_format  # for the watchdog, too
    children_listed()
    settings, store = settings_in(options.config) if options.config else None, store_of(options)
    if settings is not None and options.node not in settings.names:
        raise BadWords(f'--node is {options.node}, and the configuration has {", ".join(settings.names)}')
    with contextlib.ExitStack() as closing:
        messages = closing.enter_context(contextlib.closing(Messages(FORMATS['json' if writes_json() else 'text']())))
        logging.basicConfig(level=logging.WARNING if options.quiet else logging.INFO, handlers=[messages])
        warn_of_readers(store)
        server = server_of(options)  # it answers before the store does
        if server is not None:
            closing.callback(server.close)
        take_part(options, store, settings, server, closing)
    return OK


def take_part(
    options: argparse.Namespace,
    store: Store,
    settings: Settings | None,
    server: MemberServer | None,
    closing: contextlib.ExitStack,
) -> None:
    """Takes part with a member until it has left, and has all that it needs closed at the end. Raises NotInGroup, and
    what `Member.run` raises."""
    ttl = ask_until_answered(lambda: ttl_of(store, options.ttl))
    log = ask_until_answered(lambda: store.open(patience=min(1.0, ttl / 5)))
    closing.callback(log.close)
    failures = Failures(options.give_up, ttl)
    workers = Workers(options.worker, options.node, options.stop_seconds, kind_of(options), failures)
    sessions = SessionNotes(options.session_file, workers)
    member = ask_until_answered(
        lambda: Member(
            log, options.node, ttl=ttl, settings=settings, sure=workers.hear_until, failures=failures, work=workers,
            acquires=sessions.acquires,
        )
    )  # fmt: skip
    service = Service(member, workers)  # before any process starts that would inherit the environment
    workers.watch(member, store.path if isinstance(store, FileStore) else '', releases_of(options, store, log))
    closing.callback(workers.close)
    if server is not None:
        server.show(ask_until_answered(lambda: LogView(store.open(reads=True), member.waits, ttl)), member, workers)
    if options.keep:
        pruning = Pruning(ask_until_answered(store.open), member, options.keep)
        closing.callback(pruning.close)
        pruning.start()
    closing.callback(service.close)
    service.start()
    run_member(member, options.node, sessions)


def server_of(options: argparse.Namespace) -> MemberServer | None:
    """The HTTP server of the member, if --listen asks for one."""
    if not options.listen:
        if options.allow_host:
            raise BadWords('--allow-host needs --listen')
        return None
    address = address_of(options.listen)
    from ..hosts import read_allowed
    from ..server import MemberServer  # it takes much memory

    try:
        allowed = [read_allowed(word) for word in options.allow_host]
    except ValueError as fault:
        raise BadWords(f'--allow-host is {fault}') from fault
    try:
        return MemberServer(address, options.node, allowed)
    except OSError as error:
        raise CantListen(f'--listen {options.listen}: {error.strerror or error}') from error


def address_of(words: str) -> tuple[str, int]:
    """The address to listen on: if the words are only a port, on the loopback."""
    host, colon, port = words.rpartition(':')
    if not port.isdecimal() or int(port) > PORT_MAX:
        raise BadWords(f'--listen is {words}, and must be PORT or HOST:PORT, with a port up to {PORT_MAX}')
    return host.strip('[]') or '127.0.0.1', int(port)


def ttl_of(store: Store, word: float | None) -> float:
    """The ttl of all members: that of the log, if it has one. Otherwise each member has its own."""
    with contextlib.closing(store.open(reads=True)) as log:
        kept = log.opening().ttl
    check_ttl(kept, word)
    return kept or word or TTL


def ask_until_answered(ask: Callable[[], _Answer]) -> _Answer:
    """The answer of a log that may be busy: it is asked again until it answers."""
    while True:
        try:
            return ask()
        except Unanswered as unanswered:
            _logger.warning('%s', unanswered)
            time.sleep(ASK_AGAIN)


def kind_of(options: argparse.Namespace) -> Kind:
    """Which workers the options ask for."""
    return Kind.TALKS if options.talk else Kind.EACH if options.each else Kind.WHOLE


def run_member(member: Member, name: str, sessions: SessionNotes) -> None:
    """Runs the member until it has left. Raises NotInGroup, and what `Member.run` raises."""
    heard = at_signals(member.leave)
    with member:
        member.run()
        sessions.forget()
        if heard:
            _logger.info('node %s: %s told it to leave', shown_name(name), heard[0])
        if member.core.ending is Ending.NOT_THERE:
            raise NotInGroup(f'the group has no node {name} any more')


OPTIONS = (
    Option('--node', 'the name of the node', 'NODE', required=True),
    Option('--config', 'a configuration that the group has, had, or is requested to have; others are refused', 'FILE'),
    seconds_option('--ttl', f'how long the lease lasts without a renewal (default: that of the log, or else {TTL:g})'),
    seconds_option('--stop-seconds', 'the time from SIGTERM to SIGKILL of the worker', 10.0),
    OneOf(
        Option('--talk', 'keep the worker running during changes, and report them to it as lines of JSON'),
        Option('--each', 'run a worker for each partition, by itself'),
    ),
    Option(
        '--session-file',
        'write the session into this file before it may hold the lease of the node, for release',
        'FILE',
    ),
    Option('--listen', 'serve a page, probes and metrics over HTTP', 'HOST:PORT'),
    Option(
        '--allow-host',
        'also answer requests whose Host is this: a name, an address, or * for any',
        'NAME',
        action='append',
        default=[],
    ),
    Option('--quiet', 'write only warnings and errors'),
    Option(
        '--log-format',
        f'the format of messages on standard error (default: {LOG_FORMAT} of the environment, or else text)',
        choices=tuple(FORMATS),
    ),
    count_option(
        '--keep', 'COUNT', 'how many epochs to keep: the owner of partition 0 removes older ones (default: all)'
    ),
    Option(
        '--give-up',
        'give up the partitions after so many failures of the worker in a row, if another node works; '
        f'0: never (default: {GIVE_UP})',
        'COUNT',
        type=count_or_none,
        default=GIVE_UP,
    ),
    Option('worker', 'the command of the worker, after --', 'WORKER ARGS', nargs='+'),
)
COMMANDS = {'run': Command(run, OPTIONS)}
