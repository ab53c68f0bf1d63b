"""`bully-member completion`."""
from __future__ import annotations

import argparse
import sys

from .. import completion as scripts
from ..command_options import Command, Option
from ..exit_statuses import OK
from . import COMMANDS as ALL, command_of


def completion(options: argparse.Namespace) -> int:
    """Writes the completion for a shell."""
    commands = {name: (about, command_of(name).shown) for name, (_, about) in ALL.items()}
    sys.stdout.write(scripts.completion(options.shell, commands))
    return OK


OPTIONS = (Option('shell', ', '.join(scripts.SHELLS), 'SHELL', choices=tuple(scripts.SHELLS)),)
COMMANDS = {'completion': Command(completion, OPTIONS, has_store=False)}
