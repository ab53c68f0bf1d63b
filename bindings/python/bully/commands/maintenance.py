"""`bully-member drain`, `undrain`, `pause` and `resume`."""
from __future__ import annotations

import argparse
import contextlib

from .. import operations
from ..command_options import Command, Option, seconds_option
from ..display import shown_name
from ..exit_statuses import FAILED, OK
from ..outputs import say_error
from ..shared_log import found_in
from ..store_options import BadWords, store_of


def drain(options: argparse.Namespace) -> int:
    """Drains a node, and waits until it has left."""
    with contextlib.closing(store_of(options).open()) as log:
        try:
            maintenance, name = operations.drain(log, options.node, options.all), shown_name(options.node)
        except operations.LastNode as fault:
            raise BadWords(f'{fault}; use --all to drain it all the same') from fault
        if maintenance.is_paused:
            print(f'{name} is drained, and leaves once the group is not paused any more')
        elif not operations.has_left(log, options.node, options.seconds):
            say_error(f'{name} is drained, and has not left yet')
            return FAILED
        else:
            print(f'{name} is drained')
    return OK


def undrain(options: argparse.Namespace) -> int:
    """Ends the drain of a node."""
    name = options.node
    with contextlib.closing(store_of(options).open()) as log:
        before = found_in(log)
        operations.undrain(log, name)
    if name in before.maintenance.drained:
        change = 'is no longer drained'
    else:
        change = 'had given up, and tries again' if before.failing.get(name) else 'was not drained'
    print(f'{shown_name(name)} {change}')
    return OK


def pause(options: argparse.Namespace) -> int:
    """Pauses the group."""
    with contextlib.closing(store_of(options).open()) as log:
        is_paused = found_in(log).maintenance.is_paused
        operations.pause(log)
    print(f'the group {"was already" if is_paused else "is"} paused')
    return OK


def resume(options: argparse.Namespace) -> int:
    """Ends a pause."""
    with contextlib.closing(store_of(options).open()) as log:
        is_paused = found_in(log).maintenance.is_paused
        operations.resume(log)
    print(f'the group {"is no longer" if is_paused else "was not"} paused')
    return OK


NODE = Option('node', 'the name of the node', 'NODE')
OF_DRAIN = (
    NODE,
    seconds_option('--seconds', 'how long to wait until the node has left', 60.0),
    Option('--all', 'drain it even if no node would work then'),
)
COMMANDS = {
    'drain': Command(drain, OF_DRAIN), 'undrain': Command(undrain, (NODE,)), 'pause': Command(pause),
    'resume': Command(resume),
}  # fmt: skip
