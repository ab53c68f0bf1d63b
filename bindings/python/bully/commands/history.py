"""`bully-member history`."""
from __future__ import annotations

import argparse
import sys

from ..command_options import Command, Option, count_option
from ..exit_statuses import OK
from ..store_options import store_of


def history(options: argparse.Namespace) -> int:
    """Writes the log of an epoch as a trace, or its rows with times."""
    sys.stdout.writelines(f'{row}\n' for row in store_of(options).history(options.epoch, options.times))
    return OK


OPTIONS = (
    count_option('--epoch', 'NUMBER', 'the epoch (default: the current one)'),
    Option('--times', 'write TIME,ROW instead of a trace, with the UTC time of the append'),
)
COMMANDS = {'history': Command(history, OPTIONS)}
