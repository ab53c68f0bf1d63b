"""`bully-member prune`."""
from __future__ import annotations

import argparse
import contextlib

from ..command_options import Command, Option, count
from ..exit_statuses import OK
from ..store_options import store_of


def prune(options: argparse.Namespace) -> int:
    """Removes old epochs."""
    with contextlib.closing(store_of(options).open()) as log:
        log.prune(log.epochs()[-1] + 1 - options.keep)
        there = log.epochs()
    print(f'epochs {there[0]} to {there[-1]} are left' if len(there) > 1 else f'epoch {there[0]} is left')
    return OK


OPTIONS = (Option('--keep', 'how many epochs to keep, including the current one', 'COUNT', type=count, required=True),)
COMMANDS = {'prune': Command(prune, OPTIONS)}
