"""Asks a server of etcd and the simulated one (`cluster.py`) the same, at random: both must answer the same.

    tests/members/run compare LIBRARY_FOLDER [--requests COUNT] [--logs COUNT] [--seed SEED]

LIBRARY_FOLDER is what `bin/library` wrote. It starts a server of its own, if the program `etcd` is on the path, and
else tries nothing. Asked are transactions that write or read, ranges of any revision, and leases that are granted,
renewed and ended. Terms aren't compared, nor are numbers of leases. Then logs over both are asked the same, each by
calls of its own; and a log in memory must answer the same, too. The last line is 'N passed, M failed'; the exit
status is 0 if M is 0, otherwise 1.
"""
from __future__ import annotations

import argparse
import os
import random
import sys
from base64 import b64decode
from pathlib import Path
from typing import Any

from bully.etcd import EtcdLog, same

from bully.etcd_client import (
    KV_RANGE, KV_TXN, LEASE_GRANT, LEASE_KEEPALIVE, Json, coded, exists, is_before, number_is, put_at, range_at,
    range_below, ranges, value_is,
)  # fmt: skip
from bully.memory import MemoryLog
from bully.shared_log import Log
from .asking import made, opened
from .calls import Calls, answer_of
from .cluster import Cluster, weather_of
from .etcd_servers import PROGRAM, Server, Servers
from .steps import OPENING, Clock

KEYS = [b'g/a/%d' % number for number in range(4)] + [b'g/b/%d' % number for number in range(4)]
FIELDS = ('key', 'value', 'create_revision', 'mod_revision')
CALLS = 30  # of a log


def read_options() -> argparse.Namespace:
    parser = argparse.ArgumentParser(description=__doc__, formatter_class=argparse.RawDescriptionHelpFormatter)
    parser.add_argument('library', type=Path)
    parser.add_argument('--requests', type=int, default=3000)
    parser.add_argument('--logs', type=int, default=1000)
    parser.add_argument('--seed', type=int, default=1)
    return parser.parse_args()


class Pair:
    """Both, and the leases of each."""

    def __init__(self, server: Server, seed: int) -> None:
        self.choice = random.Random(seed)
        self.server = server
        self.cluster = Cluster(
            random.Random(seed), weather_of(random.Random(seed)), lambda: 0.0, lambda seconds, action: None
        )
        self.leases: list[tuple[int, int]] = [(4711, 4711)]  # of the server and of the simulated one; the first is none

    def ask(self) -> tuple[object, object]:
        """What both answer to one request."""
        kind = self.choice.choice(['write', 'write', 'write', 'read', 'read', 'range', 'grant', 'renew', 'end'])
        if kind in ('write', 'read'):
            return self.transact(kind == 'write')
        if kind == 'range':
            told = {**self.interval(), 'revision': str(self.choice.randint(1, self.cluster.keys.revision))}
            return self.both(KV_RANGE, told, told)
        if kind == 'grant':
            return self.grant()
        real, simulated = self.choice.choice(self.leases)
        return self.renew(real, simulated) if kind == 'renew' else self.end(real, simulated)

    def both(self, path: str, real: Json, simulated: Json) -> tuple[object, object]:
        answer = self.cluster.do(path, simulated)
        return plain(path, self.answer(path, real)), plain(
            path, answer if isinstance(answer, dict) else {'refused': True}
        )

    def answer(self, path: str, told: Json) -> Json:
        try:
            answer = self.server.ask(path, told)
        except (OSError, ValueError):
            return {'refused': True}
        result: Json = answer.get('result', answer)
        return result

    def transact(self, writes: bool) -> tuple[object, object]:
        compare = [self.condition() for _ in range(self.choice.randint(0, 2))]
        lease = self.choice.choice(self.leases) if self.choice.random() < 0.3 else None
        kind = self.choice.choice(['', '', 'ignore_value', 'ignore_lease'])
        puts = self.choice.sample(KEYS, self.choice.randint(1, 3))
        value = str(self.choice.randint(0, 3))
        removes = self.choice.random() < 0.3
        told = []
        for number in (0, 1):
            under = lease[number] if lease else None
            changes = (
                [{'request_delete_range': range_at(puts[0])}]
                if removes
                else [put_by(kind, key, value, under) for key in puts]
            )
            told.append(
                {
                    'compare': compare,
                    'success': changes if writes else ranges(*self.asked(0)),
                    'failure': ranges(*self.asked(1)),
                }
            )
        return self.both(KV_TXN, told[0], told[1])

    def asked(self, seed: int) -> list[Json]:
        """Ranges, the same ones for both."""
        choice = random.Random(f'{self.cluster.keys.revision} {seed}')
        options: list[Json] = [
            {}, {'keys_only': True}, {'limit': 2}, {'count_only': True},
            {'sort_order': 'DESCEND', 'sort_target': 'KEY'},
        ]  # fmt: skip
        options.append({'min_mod_revision': str(max(0, self.cluster.keys.revision - choice.randint(-1, 9)))})
        return [
            {
                **choice.choice([range_at(choice.choice(KEYS)), range_below(b'g/'), range_below(b'g/b/')]),
                **choice.choice(options),
            }
            for _ in range(2)
        ]

    def interval(self) -> Json:
        return self.choice.choice([range_at(self.choice.choice(KEYS)), range_below(b'g/'), range_below(b'g/a/')])

    def condition(self) -> Json:
        key, revision = self.choice.choice(KEYS), self.choice.randint(0, self.cluster.keys.revision)
        return self.choice.choice([
            exists(key), number_is(key, 'version', self.choice.randint(0, 3)),
            number_is(key, 'create_revision', revision),
            number_is(key, 'mod_revision', self.cluster.keys.get(key).modified),
            value_is(key, b'%d' % self.choice.randint(0, 3)),
            {**range_below(b'g/b/'), **number_is(b'g/b/', 'version', 0)}, {**self.value(key), 'result': 'LESS'},
            {**self.value(b'g/a/'), **range_below(b'g/a/')}, {**self.value(b'g/b/'), **range_below(b'g/b/')},
            {**self.value(b'g/c/'), **range_below(b'g/c/')}, self.before(), self.before(),
            {**number_is(key, self.choice.choice(['version', 'create_revision']), revision), 'result': 'LESS'},
        ])  # fmt: skip

    def before(self) -> Json:
        """The condition that some keys, maybe none, were put before some revision: mostly one near that of one of
        them."""
        begin, end = sorted(self.choice.sample([*KEYS, b'g/b', b'g/c', b'g/d'], 2))
        newest = max((version.modified for _, version in self.cluster.keys.found(begin, end)), default=9)
        return is_before(max(0, newest + self.choice.choice([-1, 0, 1, 1, 2, 50])), begin, end)

    def value(self, key: bytes) -> Json:
        return value_is(key, b'%d' % self.choice.randint(0, 3))

    def grant(self) -> tuple[object, object]:
        told = {'TTL': '1000'}
        real, simulated = self.answer(LEASE_GRANT, told), self.cluster.do(LEASE_GRANT, told)
        assert isinstance(simulated, dict)
        self.leases = [*self.leases[-3:], (int(real['ID']), int(simulated['ID']))]
        return real['TTL'], simulated['TTL']

    def renew(self, real: int, simulated: int) -> tuple[object, object]:
        told = self.answer(LEASE_KEEPALIVE, {'ID': str(real)}), self.cluster.do(LEASE_KEEPALIVE, {'ID': str(simulated)})
        assert isinstance(told[1], dict)
        return int(told[0].get('TTL', 0)), int(told[1].get('TTL', 0))

    def end(self, real: int, simulated: int) -> tuple[object, object]:
        is_there = simulated in self.cluster.leases
        if is_there:
            self.cluster.revoke(simulated)
        return 'refused' not in self.answer('/v3/lease/revoke', {'ID': str(real)}), is_there


def put_by(kind: str, key: bytes, value: str, lease: int | None) -> Json:
    """A key is put, with its own value or under its own lease, if it is of this kind."""
    if kind == 'ignore_lease':
        return same(key, value=coded(value.encode()), ignore_lease=True)
    more = {'lease': str(lease)} if lease else {}
    return same(key, ignore_value=True, **more) if kind == 'ignore_value' else put_at(key, value, **more)


def plain(path: str, answer: dict[str, Any]) -> object:
    """What an answer says, however it is written: without terms and leases."""
    if 'refused' in answer:
        return 'refused'
    found = [answer] if path == KV_RANGE else [each.get('response_range') for each in answer.get('responses', ())]
    return (
        bool(answer.get('succeeded')),
        int(answer['header']['revision']),
        [each if each is None else plain_range(each) for each in found],
    )


def plain_range(found: dict[str, Any]) -> object:
    pairs = [tuple(pair.get(field, '') for field in FIELDS) for pair in found.get('kvs', ())]
    return (
        int(found.get('count', 0)),
        [(b64decode(key), *more) for key, *more in pairs],
        ['lease' in pair for pair in found.get('kvs', ())],
    )


def compare(server: Server, requests: int, seed: int) -> tuple[int, int]:
    """How many requests were answered the same way, and how many weren't."""
    failed, pair = 0, Pair(server, seed)
    for number in range(requests):
        real, simulated = pair.ask()
        if real != simulated:
            failed += 1
            print(f'FAILED: request {number}: etcd answers {real}, and the simulated one {simulated}')
    return requests - failed, failed


def compare_log(servers: Servers, seed: int, done: dict[str, int]) -> str | None:
    """What isn't answered the same way by a log over each, if something isn't. It is counted what was done."""
    address, clock = servers.address(f'logs/{seed}'), Clock()
    cluster = Cluster(random.Random(seed), weather_of(random.Random(seed)), lambda: 0.0, lambda seconds, action: None)
    real: list[Log] = [EtcdLog.create(address, OPENING, 10.0), EtcdLog(address, 10.0)]
    simulated: list[Log] = [made(cluster, OPENING), opened(cluster, 1.0, 1)]
    calls = Calls(random.Random(seed), MemoryLog(OPENING, clock))
    try:
        for _ in range(CALLS):
            name, ask = calls.choose()
            which = calls.choice.randrange(2)
            logs: list[Log] = [real[which], simulated[which], calls.memory]
            answers = [answer_of(ask, log) for log in logs]
            if answers[1:] != answers[:1] * 2:
                by_etcd, by_simulated, by_memory = answers
                return f'{name}: etcd answers {by_etcd}, the simulated one {by_simulated}, a log in memory {by_memory}'
    finally:
        for log in (*real, *simulated):
            log.close()
        for kind, count in calls.done.items():
            done[kind] = done.get(kind, 0) + count
    return None


def compare_logs(servers: Servers, logs: int, seed: int) -> tuple[int, int]:
    """Over how many logs all was answered the same way, and over how many it wasn't."""
    failed, done = 0, dict.fromkeys(('acquire', 'append', 'roll_over'), 0)
    for number in range(seed, seed + logs):
        said = compare_log(servers, number, done)
        if said:
            failed += 1
            print(f'FAILED: log {number}: {said}')
    print(f'{logs} logs; done were {", ".join(f"{count} of {kind}" for kind, count in done.items())}')
    if logs and not all(done.values()):
        failed += 1
        print('FAILED: one of these was never done')
    return logs - failed, failed


def main() -> int:
    options = read_options()
    os.environ['BULLY_LIBRARY'] = str(options.library.resolve())
    if not PROGRAM:
        print('tests/members/compare: skipped, since no program `etcd` is on the path\n0 passed, 0 failed, 1 skipped')
        return 0
    servers = Servers()
    try:
        requests, logs = compare(servers.each[0], options.requests, options.seed), compare_logs(
            servers, options.logs, options.seed
        )
    finally:
        servers.close()
    passed, failed = requests[0] + logs[0], requests[1] + logs[1]
    print(f'{passed} passed, {failed} failed')
    return 1 if failed else 0


if __name__ == '__main__':
    sys.exit(main())
