"""The control group (cgroup) of this process, and which other processes are in it."""
from __future__ import annotations

import os
import time
from contextlib import suppress
from pathlib import Path

from .clocks import seconds_of_boot

ALONE_WAIT = 0.02  # seconds between two looks for other processes
CONTROL = '.control'  # the part of a unit's control group in which systemd may start a command of its own


def is_alone(seconds: float) -> bool:
    """Whether no other process is left in the control group of this one, or none is within so many seconds: a unit of
    systemd's has one of its own, so then nothing of the unit's worker is left. Not so if that can't be seen."""
    end = seconds_of_boot() + seconds
    while True:
        with suppress(OSError, ValueError):
            if not others_in_group():
                return True
        if seconds_of_boot() >= end:
            return False
        time.sleep(ALONE_WAIT)


def others_in_group() -> set[int]:
    """The processes in the control group of this process and below it, but for this one and those that wait for it.
    Raises OSError, ValueError."""
    folder = group_folder(
        Path('/proc/self/cgroup').read_text(encoding='utf-8'), Path('/proc/self/mountinfo').read_text(encoding='utf-8')
    )
    found: set[int] = set()
    for path, _, files in os.walk(folder, onerror=raise_it):
        if 'cgroup.procs' not in files:
            raise ValueError(f'{path} is no control group')
        found.update(map(int, Path(path, 'cgroup.procs').read_text(encoding='ascii').split()))
    own = ancestors()
    if os.getpid() not in found:
        raise ValueError('this process is not in its control group')
    return found - own


def raise_it(fault: OSError) -> None:
    raise fault


def group_folder(groups: str, mounts: str) -> str:
    """The folder of the control group, by these lists of this process: that of systemd's own hierarchy, or else of the
    unified one. Raises ValueError."""
    parts = [line.split(':', 2) for line in groups.splitlines()]
    paths = {name: path for _, name, path in parts}
    kind = 'name=systemd' if 'name=systemd' in paths else ''
    path = paths[kind] if kind in paths else ''
    for line in mounts.splitlines():
        before, _, after = line.partition(' - ')
        root, place, filesystem = *before.split()[3:5], after.split()[0]
        is_it = filesystem == 'cgroup' and 'name=systemd' in after if kind else filesystem == 'cgroup2'
        if is_it and path and (root == '/' or path == root or path.startswith(f'{root}/')):
            below = path if root == '/' else path[len(root) :]
            folder = f'{place}/{below.strip("/")}'.rstrip('/')
            return os.path.dirname(folder) if os.path.basename(folder) == CONTROL else folder
    raise ValueError('this process has no control group that can be seen')


def ancestors() -> set[int]:
    """This process, and those above it."""
    found, process = set(), os.getpid()
    while process > 0 and process not in found:
        found.add(process)
        status = Path(f'/proc/{process}/stat').read_text(encoding='ascii', errors='replace')
        process = int(status.rsplit(')', 1)[1].split()[1])
    return found
