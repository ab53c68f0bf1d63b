#!/usr/bin/env python3
"""A resource with a fence for each partition: a table of SQLite, whose rows only the newest token of their partition
may add.

    table.py FILE PARTITION TOKEN TEXT      adds a row; the exit status is 1 if a newer token has been seen

The check and the write are one transaction. So nothing of a worker that was suspended for too long comes after the
first row of the next one. """
import sqlite3
import sys
from contextlib import closing

TABLES = """
create table if not exists fences (partition integer primary key, token integer not null);
create table if not exists work (partition integer not null, token integer not null, text text not null);
"""
# Does nothing if the partition has seen a newer token.
PASS = """
insert into fences values (:partition, :token)
on conflict (partition) do update set token = excluded.token where excluded.token >= token
"""


def write(file: sqlite3.Connection, partition: int, token: int, text: str) -> bool:
    """Adds a row, unless a newer token of this partition has been seen. Returns whether it did."""
    row = {'partition': partition, 'token': token, 'text': text}
    with file:
        file.execute('begin immediate')
        passes = file.execute(PASS, row).rowcount == 1
        if passes:
            file.execute('insert into work values (:partition, :token, :text)', row)
    return passes


def opened(path: str) -> sqlite3.Connection:
    """The file, with its tables."""
    file = sqlite3.connect(path, isolation_level=None)
    file.executescript(TABLES)
    return file


if __name__ == '__main__':
    with closing(opened(sys.argv[1])) as table:
        sys.exit(0 if write(table, int(sys.argv[2]), int(sys.argv[3]), sys.argv[4]) else 1)
