#!/usr/bin/env python3
"""A worker: adds a line to the file of each partition that it owns, again and again. The file refuses an old token.

    bully-member run .. -- worker.py FOLDER
"""
import fcntl
import os
import sys
import time

folder, node, token = sys.argv[1], os.environ['BULLY_NODE'], int(os.environ['BULLY_TOKEN'])
while True:
    for partition in os.environ['BULLY_PARTITIONS'].split():
        with open(os.path.join(folder, partition), 'a+') as file:
            fcntl.flock(file, fcntl.LOCK_EX)  # until it is closed
            file.seek(0)
            last = file.read().split('\n')[-2:-1]  # `TOKEN NODE` of the last unit of work
            if last and int(last[0].split()[0]) > token:
                sys.exit(f'{node}: partition {partition} has seen a newer token than {token}')
            file.write(f'{token} {node}\n')
    time.sleep(0.1)
