"""The file of a log in SQLite: which file it is, by which names and mounts it can be reached, and who may read it."""
from __future__ import annotations

import os
import stat
from collections.abc import Collection
from contextlib import suppress
from pathlib import Path

from .processes import READ, WRITE, is_stopped, lock_holder
from .shared_log import ForeignLog, NoLog, ReadOnlyLog

BESIDE = ('-wal', '-shm', '-journal')  # the ends of the files that SQLite puts beside a file, with its mode
OWNER_ALONE, ITS_GROUP = 0o600, 0o660  # modes of a file
OTHERS_BESIDE = 'so others would have another -wal and -shm beside it'
NEW = '.new'  # the end of a file's name while it is made

# File systems that machines share: each machine has its own boot, its own clock, and mostly its own locks and -shm.
SHARED = frozenset((
    'nfs', 'nfs4', 'cifs', 'smb3', 'smbfs', '9p', 'virtiofs', 'vboxsf', 'prl_fs', 'vmhgfs', 'fuse.vmhgfs-fuse', 'ceph',
    'fuse.ceph', 'lustre', 'gfs2', 'ocfs2', 'gpfs', 'beegfs', 'afs', 'coda', 'orangefs', 'fuse.glusterfs', 'fuse.sshfs',
    'fuse.rclone', 'fuse.s3fs', 'fuse.gcsfuse',
))  # fmt: skip


# ---- Which file it is


Identity = tuple[int, int]  # of a file, whatever its name


def identity_of(found: os.stat_result) -> Identity:
    return found.st_dev, found.st_ino


def check_file(path: str) -> os.stat_result:
    """What the system shows of this file. Raises NoLog, ForeignLog."""
    try:
        found = os.stat(path)
    except OSError as error:
        raise NoLog(f'{path}: {error.strerror}; bully-member init makes a log') from error
    if not stat.S_ISREG(found.st_mode):
        raise ForeignLog(f'{path}: it is not a file')
    return found


def beside(path: str) -> list[Identity]:
    """The files beside the one of this path while it is used, as far as they are there. If the path leads elsewhere by
    now, as by a symbolic link, these are other ones."""
    real, found = os.path.realpath(path), []
    for end in ('-wal', '-shm'):
        with suppress(OSError):
            found.append(identity_of(os.stat(real + end)))
    return found


def are_open(files: Collection[Identity]) -> bool:
    """Whether this process has these files open."""
    own: set[Identity] = set()
    for descriptor in os.listdir('/proc/self/fd'):
        with suppress(OSError):  # it was that of the list
            own.add(identity_of(os.stat(f'/proc/self/fd/{descriptor}')))
    return own.issuperset(files)


def check_alone(path: str) -> None:
    """Raises ForeignLog if the file can be reached by another path, because a process that uses that one has other
    files beside it; or if other machines may reach it."""
    if os.stat(path).st_nlink > 1:
        check_one_name(os.path.realpath(path))
    check_mounts(path, os.path.realpath(path))
    check_disk(path)


def check_mounts(path: str, real: str) -> None:
    """Raises ForeignLog if the file at this real path, or one beside it, isn't in the same mount as its folder."""
    folder = mount_of(os.path.dirname(real))
    for each in (path, *(real + end for end in BESIDE)):
        with suppress(FileNotFoundError):  # it isn't there, or not any more
            if mount_of(each) != folder:
                raise ForeignLog(f'{each}: it is mounted alone, {OTHERS_BESIDE}; mount its folder')


def check_one_name(path: str) -> None:
    """Raises ForeignLog if the file has another name than this. An `init` that was killed may have left the name by
    which it made the file; that name is removed."""
    folder = os.path.dirname(path)
    for other in other_names(path):
        if other.startswith(f'{os.path.basename(path)}.') and other.endswith(NEW):
            with suppress(OSError):
                os.remove(os.path.join(folder, other))
    if os.stat(path).st_nlink > 1:
        names = ', '.join(other_names(path)) or 'in another folder'
        raise ForeignLog(f'{path}: it has another name, a hard link, {OTHERS_BESIDE}: {names}')


def other_names(path: str) -> list[str]:
    """Other names of the file in the same folder."""
    folder, name = os.path.split(path)
    here, found = os.stat(path), []
    for other in sorted(os.listdir(folder)):
        with suppress(OSError):  # it has gone
            if other != name and os.path.samestat(here, os.lstat(os.path.join(folder, other))):
                found.append(other)
    return found


def mount_of(path: str) -> str:
    """The mount that has a path. (To open and close a file of SQLite in another way would lose its locks.)"""
    descriptor = os.open(path, os.O_PATH)
    try:
        lines = Path(f'/proc/self/fdinfo/{descriptor}').read_text(encoding='ascii').splitlines()
        return next(line for line in lines if 'mnt_id' in line)
    finally:
        os.close(descriptor)


def check_disk(path: str) -> None:
    """Raises ForeignLog if the path is on a file system that machines share."""
    kind = kind_of(mount_of(path), Path('/proc/self/mountinfo').read_text(encoding='utf-8', errors='replace'))
    if kind in SHARED:
        why = 'which have no common clock and locks; use a disk of this machine, or a log in etcd'
        raise ForeignLog(f'{path}: it is on a file system of more than one machine, {kind}, {why}')


def kind_of(mount: str, mounts: str) -> str:
    """The kind of file system of this mount, in this list of mounts; empty if the mount isn't there."""
    lines = (line for line in mounts.splitlines() if line.split(' ', 1)[0] == mount.split()[-1])
    return next((line.split(' - ', 1)[1].split()[0] for line in lines), '')


# ---- Making and removing it


def make(path: str, mode: int) -> None:
    """Makes an empty file with this mode, which must not be there yet."""
    descriptor = os.open(path, os.O_RDWR | os.O_CREAT | os.O_EXCL | os.O_CLOEXEC, mode)
    try:
        os.fchmod(descriptor, mode)  # whatever the mask of this process
    finally:
        os.close(descriptor)


def remove(path: str) -> None:
    """Removes a file of SQLite, with those beside it."""
    for end in ('', *BESIDE):
        with suppress(OSError):
            os.remove(path + end)


def keep_name(path: str) -> None:
    """Makes the name of a new file last, also if the power fails."""
    folder = os.open(os.path.dirname(path) or '.', os.O_RDONLY | os.O_DIRECTORY | os.O_CLOEXEC)
    try:
        os.fsync(folder)
    finally:
        os.close(folder)


# ---- Who may use it, and who uses it


def check_group(path: str) -> None:
    """Raises ReadOnlyLog unless new files in the file's folder get the folder's group."""
    folder = os.path.dirname(os.path.abspath(path))
    wanted = stat.S_ISGID | stat.S_IRWXG
    if os.stat(folder).st_mode & wanted != wanted:
        why = 'does not give new files its group, so others could not write the files that SQLite puts beside the log'
        raise ReadOnlyLog(f'{folder}: the folder {why}; chmod g+rwxs {folder}')


def readers_warning(path: str) -> str:
    """A warning, if users other than the owner and the group may read the file, or a file beside it."""
    real = os.path.realpath(path)
    for end in ('', *BESIDE[:2]):
        with suppress(OSError):
            mode = stat.S_IMODE(os.stat(real + end).st_mode)
            if mode & (stat.S_IROTH | stat.S_IWOTH):
                why = 'so every user who can reach its folder may read it, and whoever may read it can stop the group'
                return f'{real}{end}: its mode is {mode:04o}, {why}; chmod o= {real}*'
    return ''


def owner_text(path: str) -> str:
    """The owner and the mode of the file, if they are why this process may not read and write it."""
    with suppress(OSError):
        found = os.stat(path)
        if not os.access(path, os.R_OK | os.W_OK, effective_ids=True):
            return f': its mode is {stat.S_IMODE(found.st_mode):04o}, and its owner is user {found.st_uid}'
    return ''


def holder_text(file: str) -> str:
    """The process that has the lock of this file of SQLite's, if it can be found: a writer, or a reader that keeps all
    from writing."""
    writer = lock_holder(file, WRITE)
    holder = lock_holder(file, READ) if writer is None else writer
    if holder is None:
        return ''
    return f' by {process_text(holder)}' + (', which only reads' if writer is None else '')


def process_text(process: int) -> str:
    """A process, its user, and whether it is stopped."""
    if process < 0:
        return 'an unknown process, because its lock is one of an open file'
    user = ''
    with suppress(OSError):
        owner = os.stat(f'/proc/{process}').st_uid
        user = '' if owner == os.getuid() else f' of user {owner}'
    return f'process {process}{user}' + (', which is stopped' if is_stopped(process) else '')
