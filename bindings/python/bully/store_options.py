"""The command-line options that name a store: a file of SQLite, or etcd. Modules that only one kind of store needs are
loaded when it is used."""
from __future__ import annotations

import argparse
import os
import stat
from collections.abc import Sequence
from dataclasses import dataclass, field
from typing import TYPE_CHECKING, Union

from .command_options import Option
from .display import shown_address
from .shared_log import Log, LogError, OlderLog

if TYPE_CHECKING:
    import ssl

    from .epochs import Opening
    from .repair import Repairable

PASSWORD = 'BULLY_ETCD_PASSWORD'  # of the environment
LOG = 'BULLY_LOG'  # of the environment, like those of OF_ETCD
KINDS = 'sqlite:FILE or etcd://HOST:PORT,HOST:PORT/PREFIX'

# Options only for a log in etcd. The default of each is a variable of the environment, as BULLY_CACERT.
OF_ETCD = (
    ('--cacert', 'FILE', 'the CA certificate of the servers, if this machine does not trust that CA already'),
    ('--cert', 'FILE', 'the client certificate'), ('--key', 'FILE', 'the key of the client certificate'),
    ('--user', 'NAME', f'the user of etcd; its password is in {PASSWORD} of the environment or in --password-file'),
    ('--password-file', 'FILE', 'a file with the password in its first line'),
)  # fmt: skip


class BadWords(Exception):
    """Options that a command doesn't take."""


def name_of(word: str) -> str:
    """The attribute of an option: `password_file`."""
    return word[2:].replace('-', '_')


def variable_of(word: str) -> str:
    """The variable of the environment for an option: `BULLY_PASSWORD_FILE`."""
    return f'BULLY_{name_of(word).upper()}'


@dataclass(frozen=True)
class FileStore:
    """A file of SQLite."""

    path: str
    is_shared: bool = False  # whether the group of its folder may use a new file, too

    def create(self, opening: Opening) -> Log:
        """Makes a log."""
        from .sqlite import SqliteLog
        from .sqlite_file import ITS_GROUP, OWNER_ALONE, check_group

        if self.is_shared:
            check_group(self.path)
        return SqliteLog.create(self.path, opening, ITS_GROUP if self.is_shared else OWNER_ALONE)

    @property
    def readers_warning(self) -> str:
        """A warning, if other users may read the file."""
        from .sqlite_file import readers_warning

        return readers_warning(self.path)

    def open(self, patience: float = 1.0, reads: bool = False) -> Repairable:
        """Opens the log."""
        from .sqlite import SqliteLog

        return SqliteLog(self.path, patience, reads)

    def history(self, epoch: int | None = None, has_times: bool = False) -> Sequence[str]:
        """The trace of an epoch, or of the current one: also from a log of the form before this one."""
        from .history import OlderFile, trace

        try:
            return trace(self.open(reads=True), epoch, has_times)
        except OlderLog:
            return trace(OlderFile(self.path, reads=True), epoch, has_times)


@dataclass(frozen=True)
class EtcdStore:
    """Keys of etcd."""

    address: str
    tls: ssl.SSLContext | None
    user: str
    password: str = field(repr=False)
    readers_warning = ''  # etcd has permissions of its own

    def create(self, opening: Opening) -> Log:
        """Makes a log. Raises BadWords for a prefix below which another log may have keys."""
        from .etcd import EtcdLog

        try:
            return EtcdLog.create(self.address, opening, 1.0, self.tls, self.user, self.password)
        except ValueError as fault:
            raise BadWords(f'--log is {fault}') from fault

    def open(self, patience: float = 1.0, reads: bool = False) -> Repairable:
        """Opens the log."""
        from .etcd import EtcdLog

        return EtcdLog(self.address, patience, self.tls, self.user, self.password)

    def history(self, epoch: int | None = None, has_times: bool = False) -> Sequence[str]:
        """The trace of an epoch, or of the current one: also from a log of the form before this one."""
        from .history import OlderEtcd, trace

        try:
            return trace(self.open(), epoch, has_times)
        except OlderLog:
            older = OlderEtcd(self.address, 1.0, self.tls, self.user, self.password)
            return trace(older, epoch, has_times)


Store = Union[FileStore, EtcdStore]

# The options that name a store.
STORE_OPTIONS = (
    Option('--log', f'the log: {KINDS}; with TLS etcds://.. (default: {LOG} of the environment)', 'STORE'),
    *(Option(word, f'{about} (default: {variable_of(word)})', kind) for word, kind, about in OF_ETCD),
)


def store_of(options: argparse.Namespace) -> Store:
    """The store that the options and the environment name. The password is removed from the environment, whichever
    store it is: no worker needs it. Raises BadWords, LogError."""
    password = os.environ.pop(PASSWORD, None)
    if options.log is None:
        options.log = os.environ.get(LOG)
    if not options.log:
        raise BadWords(f'--log, or {LOG} of the environment, must be {KINDS}')
    kind, _, path = options.log.partition(':')
    is_shared = bool(getattr(options, 'group_access', False))
    words = [word for word, _, _ in OF_ETCD if getattr(options, name_of(word))]
    if kind in ('etcd', 'etcds'):
        if is_shared:
            raise BadWords('--group-access is for a log in a file')
        return etcd_of(options, password)
    if kind != 'sqlite' or not path:
        raise BadWords(f'--log is {shown_address(options.log)}, and must be {KINDS}')
    if words:
        raise BadWords(f'{words[0]} is for a log in etcd')
    return FileStore(path, is_shared)


def etcd_of(options: argparse.Namespace, password: str | None) -> EtcdStore:
    """The same for options that name a store in etcd, with the password of the environment."""
    from .etcd_client import read_address

    for word, _, _ in OF_ETCD:
        if not getattr(options, name_of(word)):
            setattr(options, name_of(word), os.environ.get(variable_of(word)))
    try:
        is_secure = read_address(options.log).is_secure
    except ValueError as fault:
        raise BadWords(f'--log is {fault}') from fault
    if not is_secure and (options.cacert or options.cert or options.key):
        raise BadWords(f'--log is {options.log}, and must start with etcds:// if there are certificates')
    if bool(options.cert) != bool(options.key):
        raise BadWords('--cert and --key must be given together')
    if options.password_file and not options.user:
        raise BadWords('--password-file needs --user')
    known = password_of(options.password_file, password) if options.user else ''
    return EtcdStore(options.log, tls_of(options) if is_secure else None, options.user or '', known)


def tls_of(options: argparse.Namespace) -> ssl.SSLContext:
    """The TLS context: which certificates are accepted, and which one is shown."""
    import ssl

    try:
        tls = ssl.create_default_context(cafile=options.cacert)
        if options.cert:
            tls.load_cert_chain(options.cert, options.key)
    except OSError as error:  # it doesn't name the file
        files = ', '.join(filter(None, (options.cacert, options.cert, options.key)))
        raise LogError(f'{files}: {error.strerror or error}') from error
    return tls


def password_of(path: str | None, variable: str | None) -> str:
    """The password in this file, or else that of the environment."""
    if path is not None:
        return password_in(path)
    if variable is None:
        raise BadWords(f'--user needs {PASSWORD} in the environment, or --password-file')
    return variable


def password_in(path: str) -> str:
    """The password in this file. Raises BadWords if others may read it; LogError."""
    try:
        with open(path, 'rb') as file:
            found, line = os.fstat(file.fileno()), file.readline()
    except OSError as error:
        raise LogError(f'{path}: {error.strerror}') from error
    of_group = stat.S_IWGRP | stat.S_IXGRP if found.st_uid == 0 else stat.S_IRWXG  # as in libpq
    if stat.S_ISREG(found.st_mode) and found.st_mode & (stat.S_IRWXO | of_group):
        mode = f'{stat.S_IMODE(found.st_mode):04o}'
        raise BadWords(f'--password-file {path}: others may read it (mode {mode}); chmod 600, or 640 if root owns it')
    try:
        return line.decode().rstrip('\r\n')
    except UnicodeDecodeError:
        raise BadWords(f'--password-file {path}: its first line is not UTF-8') from None


def check_ttl(of_log: float | None, word: float | None) -> None:
    """Raises BadWords if the log has another ttl than --ttl."""
    if of_log and word and of_log != word:
        raise BadWords(f'--ttl is {word:g}, and the log has {of_log:g} for all members')


def warn_of_readers(store: Store) -> None:
    """Warns if other users may read the file: an existing file keeps its mode, which may allow that."""
    if store.readers_warning:
        import logging

        logging.getLogger('bully').warning('%s', store.readers_warning)
