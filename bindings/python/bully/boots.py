"""The clock of leases in a file: CLOCK_BOOTTIME of one boot of the machine, in one time namespace.

A time namespace shifts that clock, while the id of the boot stays the same. The machine's own namespace shifts nothing,
and adds nothing to the name of the clock.
"""
from __future__ import annotations

import os
from pathlib import Path

from .clocks import SECOND
from .releasing import LOST
from .shared_log import ForeignLog

OWN_NAMESPACE = 'time:[4026531834]'  # the machine's own, on every kernel that has time namespaces
BOOTTIME = ('boottime', '7')  # as kernels write it, and as Linux 5.6 does


def boot_name() -> str:
    """The id of this boot of the machine; followed by the time namespace, with its number and its offset, unless that
    is the machine's own. The leases of an earlier boot have ended. Raises ForeignLog."""
    boot = Path('/proc/sys/kernel/random/boot_id').read_text(encoding='ascii').strip()
    check_one_clock()
    namespace = namespace_of('time')
    return boot if namespace in ('', OWN_NAMESPACE) else f'{boot} {namespace} {own_offset()}'


def check_one_clock() -> None:
    """Raises ForeignLog if the children of this process, as its watchdog, would have another clock than the process
    itself."""
    if namespace_of('time') != namespace_of('time_for_children'):
        why = 'its watchdog would count by another clock; start it with unshare --fork'
        raise ForeignLog(f'/proc/self/ns: this process is in one time namespace and its children in another, so {why}')


def namespace_of(name: str) -> str:
    """The namespace of this kind of this process; empty if the kernel has none of this kind."""
    try:
        return os.readlink(f'/proc/self/ns/{name}')
    except FileNotFoundError:
        return ''


def own_offset() -> int:
    """By how many nanoseconds CLOCK_BOOTTIME is ahead of the machine's own, in the namespace of this process's
    children."""
    lines = Path('/proc/self/timens_offsets').read_text(encoding='ascii').splitlines()
    found = next(words for words in map(str.split, lines) if words[0] in BOOTTIME)
    return int(found[1]) * SECOND + int(found[2])


def offset_of(name: str) -> int:
    """The offset in a name; 0 if it has none."""
    *others, last = name.removesuffix(LOST).split(' ')
    return int(last) if others and last.lstrip('-').isdecimal() else 0


def machine_boot(name: str) -> str:
    """The boot in a name, without its time namespace."""
    return name.split(' ')[0]


def moment_of(now: int, own: str, other: str) -> int:
    """The moment by the clock `other`, if it is `now` by the clock `own`."""
    return now - offset_of(own) + offset_of(other)
