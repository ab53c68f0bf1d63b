"""Processes that write to one log at the same time."""
from __future__ import annotations

import contextlib
import json
import subprocess
import sys
import unittest
from typing import Any

from bully.shared_log import Log
from places import environment

OPENS = '''
import json, random, sys, time
from bully.shared_log import Precondition
from bully.core import Session, Promise
from bully.store_options import FileStore, EtcdStore
me, kind, where = sys.argv[1:]
log = FileStore(where).open(60.0) if kind == 'file' else EtcdStore(where, None, '', '').open(60.0)
'''
GOES = '''
print('there', flush=True)
sys.stdin.readline()
'''

# Appends, while `a` has promised the end of the log. It says how often it was refused.
APPENDS = f'''{OPENS}{GOES}
done = refused = 0
while done < 20:
    offset = len(log.snapshot(1, 0).rows)
    log.promise('a', Session(2**64 - 1, 1), Promise(1, offset))
    if log.append(1, offset, [f'{{me}},{{done}}'] * 7):
        done += 1
    else:
        refused += 1
log.close()
print(refused)
'''

ROWS = 40  # that are appended together by those that know leases

# Promises the end of the log again and again, keeps some partitions each time, and appends by what it knows of all.
# Each append says which promises these were. The process says how often it was refused; and for each offset what its
# last promise kept that was made while the log ended there.
KNOWS = f'''{OPENS}
name, session = f'n{{me}}', Session(int(me), 1)
chance, refused, made = random.Random(me), 0, {{}}
assert log.acquire(name, session, Promise(1, 0), 1000 * 10**9)
{GOES}
while True:
    end = Promise(1, len(log.snapshot(1, 0).rows))
    if end.offset >= {ROWS}:
        break
    kept = tuple(range(int(me), chance.randint(4, 9)))
    assert log.promise(name, session, end, kept)
    found = log.snapshot(1, 0)
    if Promise(1, len(found.rows)) != end:
        continue
    made[end.offset] = found.holders[name].kept
    told = json.dumps({{each: [holder.promise.offset, *holder.kept] for each, holder in found.holders.items()}})
    known = Precondition(frozenset(found.holders), found.holders, found.revision)
    time.sleep(chance.random() / 200)  # so that others come between
    refused += not log.append(1, end.offset, [told], known)
log.close()
print(json.dumps([refused, made]))
'''


def racing(test: unittest.TestCase, script: str, kind: str, where: str) -> list[str]:
    """What three processes say that run at the same time."""
    words = [sys.executable, '-W', 'error', '-c', script]
    pipes: dict[str, Any] = {'stdin': subprocess.PIPE, 'stdout': subprocess.PIPE, 'universal_newlines': True}
    with contextlib.ExitStack() as opened:
        racers = [
            opened.enter_context(subprocess.Popen([*words, str(number), kind, where], env=environment(), **pipes))
            for number in range(3)
        ]
        for racer in racers:
            assert racer.stdout is not None
            test.assertEqual(racer.stdout.readline(), 'there\n')
        for racer in racers:
            assert racer.stdin is not None
            racer.stdin.write('\n')
            racer.stdin.flush()
        said = [racer.communicate()[0] for racer in racers]
    test.assertEqual([racer.returncode for racer in racers], [0, 0, 0])
    return said


def race(test: unittest.TestCase, log: Log, kind: str, where: str) -> None:
    """Processes append, each as soon as it can. Each append is there once and as a whole, and in the order of its
    process."""
    refused = sum(map(int, racing(test, APPENDS, kind, where)))
    rows = list(log.read(1, 0))
    appends = [rows[offset] for offset in range(0, len(rows), 7)]
    test.assertEqual(rows, [row for row in appends for _ in range(7)])
    for number in range(3):
        test.assertEqual(
            [row for row in appends if row.startswith(f'{number},')], [f'{number},{done}' for done in range(20)]
        )
    test.assertGreater(refused, 0, 'no two have met')


def race_of_promises(test: unittest.TestCase, log: Log, kind: str, where: str) -> None:
    """Processes promise and append at the same time. Whoever appends knows each promise that was made before that, or
    one of the same offset after it, which keeps no more."""
    said = [json.loads(each) for each in racing(test, KNOWS, kind, where)]
    rows = [json.loads(row) for row in log.read(1, 0)]
    made = [(f'n{number}', int(offset), kept) for number, (_, made) in enumerate(said) for offset, kept in made.items()]
    for name, offset, kept in made:
        told, *left = rows[offset][name]
        test.assertEqual((told, set(left) <= set(kept)), (offset, True), (offset, name, kept, rows[offset]))
    test.assertEqual(len(rows), ROWS)
    test.assertGreater(sum(refused for refused, _ in said), 0, 'no two have met')
    test.assertGreater(len(made), ROWS, 'no two have promised one offset')
