"""The commands of `bully-member`. A command's module has its options beside its function, and is loaded only when that
command is used."""
from __future__ import annotations

from importlib import import_module

from ..command_options import Command

# The module of each command, and what the command does.
COMMANDS = {
    'init': ('init', 'make the log of a group'),
    'run': ('run', 'run a worker while its node owns partitions'),
    'status': ('status', 'show the state of the group, and exit with 0 if all is well, otherwise with 1'),
    'show-config': ('show_config', 'print the settings of the group, as init and resize take them'),
    'history': ('history', 'write the log of an epoch as a trace'),
    'resize': ('resize', 'give the group other settings, in a new epoch'),
    'switchover': ('resize', 'make another node the coordinator, in a new epoch'),
    'drain': ('maintenance', 'take a node out of service until undrain, even if its process restarts'),
    'undrain': ('maintenance', 'take a node back into service, also one that gave up because its worker fails'),
    'pause': ('maintenance', 'stop rebalancing the group until resume; members that work continue'),
    'resume': ('maintenance', 'end a pause'),
    'prune': ('prune', 'remove old epochs'),
    'release': ('release', 'release the lease of a member that is gone, so that others need not wait'),
    'repair': ('repair', 'show what is damaged in a log, and with --cut remove it'),
    'completion': ('completion', 'write a script by which a shell completes these commands'),
}


def command_of(name: str) -> Command:
    """The command of this name."""
    module, _ = COMMANDS[name]
    command: Command = import_module(f'.{module}', __name__).COMMANDS[name]
    return command
