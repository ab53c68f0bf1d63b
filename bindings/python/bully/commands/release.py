"""`bully-member release`."""
from __future__ import annotations

import argparse
import contextlib

from ..command_options import Command, OneOf, Option
from ..control_groups import is_alone
from ..core import Session
from ..display import shown_name
from ..encoding import session_of
from ..epochs import TTL
from ..exit_statuses import FAILED, OK
from ..member import node_number
from ..outputs import say_error
from ..sessions import session_in
from ..shared_log import found_in
from ..store_options import store_of


def session_word(word: str) -> Session:
    """A session, as P.N."""
    return session_of(word)


def release(options: argparse.Namespace) -> int:
    """Releases the lease of a session whose process is gone."""
    session, name = options.session or session_in(options.session_file), shown_name(options.node)
    with contextlib.closing(store_of(options).open()) as log:
        opening = log.opening()
        if options.node not in opening.names and options.node not in found_in(log).sessions:
            node_number(opening, options.node)  # raises NotInGroup
        if session is None:
            print(f'nothing to release: by {options.session_file} {name} has left in order, or holds no lease yet')
            return OK
        if options.alone and not is_alone(opening.ttl or TTL):
            say_error('nothing is released: other processes are left, which may work on; the lease ends by itself')
            return FAILED
        log.release(options.node, session)
    print(f'{name} does not hold a lease by {session.process}.{session.number}')
    return OK


OPTIONS = (
    Option('--node', 'the name of the node', 'NODE', required=True),
    OneOf(
        Option('--session', 'the session that holds the lease', 'P.N', type=session_word),
        Option('--session-file', 'a file with the session, as of run --session-file', 'FILE'),
        is_required=True,
    ),
    Option(
        '--alone',
        'first wait up to a ttl until no other process is in the control group (cgroup) of this one, or do nothing',
    ),
)
COMMANDS = {'release': Command(release, OPTIONS)}
