#!/usr/bin/env python3
"""A resource with a fence for each partition: a folder with a file for each, to which only the newest token may add
lines.

    file.py FOLDER PARTITION TOKEN TEXT      adds a line; the exit status is 1 if a newer token has been seen

The last line has the highest token. A lock makes the check and the write one step.
"""
import fcntl
import os
import sys

LONGEST = 4096  # bytes of a line, at most


def write(folder: str, partition: int, token: int, text: str) -> bool:
    """Adds the line `TOKEN TEXT`, unless a newer token of this partition has been seen. Returns whether it did."""
    line = f'{token} {text}\n'.encode()
    if b'\n' in line[:-1] or len(line) > LONGEST:
        raise ValueError(f'a line has no line end, and {LONGEST} bytes at most')
    with open(os.path.join(folder, str(partition)), 'ab+') as file:
        fcntl.flock(file, fcntl.LOCK_EX)  # until it is closed
        end = file.seek(0, os.SEEK_END)
        file.seek(max(0, end - 2 * LONGEST))
        *lines, rest = file.read().split(b'\n')
        if lines and int(lines[-1].split()[0]) > token:
            return False
        file.truncate(end - len(rest))  # what is left of a line whose writer was killed
        file.write(line)
    return True


if __name__ == '__main__':
    sys.exit(0 if write(sys.argv[1], int(sys.argv[2]), int(sys.argv[3]), sys.argv[4]) else 1)
