#!/usr/bin/env python3
"""A worker that stays over changes: it is told of them by lines of JSON on its standard input, and keeps meanwhile what
it has in memory.

    bully-member run --talk .. -- talking.py FOLDER

    {"begin": TOKEN, "partitions": [0, 5], "coordinator": "c", "settings": {..}}
                      work on these and no others, by this token
    {"stop": true}    work on nothing, and then answer `stopped`
    {"stop": [5]}     the same for these; in a cooperative group

It answers on the descriptor BULLY_ANSWERS. As `worker.py` does it adds a line to the file of each of its partitions,
and refuses to if that has seen a newer token. What it keeps are the files that it has opened: whoever keeps more has to
see whether others have changed it. """
import fcntl
import json
import os
import queue
import sys
import threading
from typing import Any, Dict, List, Optional, TextIO

folder, node = sys.argv[1], os.environ['BULLY_NODE']
told: 'queue.Queue[Optional[Dict[str, Any]]]' = queue.Queue()
files: Dict[int, TextIO] = {}  # that are open, by the partition


def hear() -> None:
    """Takes line after line."""
    for line in sys.stdin:
        told.put(json.loads(line))
    told.put(None)


def work(partition: int, token: int) -> None:
    """A unit of work."""
    if partition not in files:
        files[partition] = open(os.path.join(folder, str(partition)), 'a+')
    file = files[partition]
    fcntl.flock(file, fcntl.LOCK_EX)
    try:
        file.seek(0)
        last = file.read().split('\n')[-2:-1]  # `TOKEN NODE` of the last unit of work
        if last and int(last[0].split()[0]) > token:
            sys.exit(f'{node}: partition {partition} has seen a newer token than {token}')
        file.write(f'{token} {node}\n')
        file.flush()
    finally:
        fcntl.flock(file, fcntl.LOCK_UN)


threading.Thread(target=hear, daemon=True).start()
answers = os.fdopen(int(os.environ['BULLY_ANSWERS']), 'w')
token = 0
owned: List[int] = []
while True:
    try:
        change = told.get(timeout=0.1) if owned else told.get()
    except queue.Empty:
        for each in owned:
            if told.empty():
                work(each, token)
        continue
    if change is None:
        sys.exit()  # its member is gone
    if 'begin' in change:
        token, owned = change['begin'], change['partitions']
    if 'stop' in change:
        owned = [] if change['stop'] is True else [each for each in owned if each not in change['stop']]
        print('stopped', file=answers, flush=True)
