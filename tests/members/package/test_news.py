"""Tests of what a log in etcd knows of leases, over a simulated etcd: a snapshot shows what is there then, whatever was
read before, and whatever a watch has reported."""
from __future__ import annotations

import random
import unittest
from base64 import b64decode
from unittest import mock

from bully import etcd
from bully.core import Session, Until
from bully.etcd import EtcdLog
from bully.etcd_client import Endpoint, Json, Silent, read_address
from bully.shared_log import UNKNOWN, Holder
from ..asking import ADDRESS, Asking
from ..cluster import SERVERS, Cluster, pair_told, weather_of
from ..steps import EMPTY, LONG, OPENING

NAMES = 'abcd'
SEEDS, STEPS = 100, 80
BREAKS = 0.1  # how many reports of a watch break it


class Watch:
    """A watch of a simulated etcd, which reports what has happened up to some revision; or it breaks."""

    def __init__(self, cluster: Cluster, choice: random.Random, request: Json) -> None:
        self.cluster, self.choice, self.endpoint = cluster, choice, SERVERS[0]
        self.range = b64decode(request['key']), b64decode(request['range_end'])
        self.told = int(request['start_revision']) - 1

    def events(self, seconds: float, wake: int | None = None) -> list[Json]:
        if self.choice.random() < BREAKS:
            raise Silent(self.endpoint, 'the watch broke', may_be_done=False)
        upto = self.choice.randint(self.told, self.cluster.keys.revision)
        found = self.cluster.keys.since(self.told, *self.range)
        self.told = max(self.told, upto)
        return [
            {'type': 'DELETE' if version.value is None else 'PUT', 'kv': pair_told(key, version, {})}
            for revision, key, version in found if revision <= upto
        ]  # fmt: skip

    def close(self) -> None:
        """Nothing is left of it."""


class Watching(Asking):
    """Asks a simulated etcd, of which there are watches, too."""

    choice: random.Random

    @property
    def endpoint(self) -> Endpoint:
        return SERVERS[0]

    def watch(self, request: Json) -> Watch:  # type: ignore[override]
        return Watch(self.cluster, self.choice, request)


class Course:
    """One log reads snapshots and waits, while another one changes leases."""

    def __init__(self, seed: int) -> None:
        self.choice = random.Random(seed)
        cluster = Cluster(self.choice, weather_of(self.choice), lambda: 0.0, lambda seconds, action: None)
        self.client = Watching(cluster, read_address(ADDRESS), 1.0, 0)
        self.client.choice = self.choice
        with mock.patch.object(etcd, 'Client', lambda *_: self.client):
            EtcdLog.create(ADDRESS, OPENING)
            self.writer, self.reader = EtcdLog(ADDRESS), EtcdLog(ADDRESS)
        self.holders: dict[str, Holder] = {}
        self.sessions = 0

    def change(self) -> None:
        """Changes one lease."""
        name, choice = self.choice.choice(NAMES), self.choice
        holder = self.holders.get(name)
        if holder is None:
            self.sessions += 1
            self.holders[name] = Holder(Session(7, self.sessions), EMPTY)
            assert self.writer.acquire(name, self.holders[name].session, EMPTY, LONG)
        elif choice.random() < 0.4:
            del self.holders[name]
            self.writer.release(name, holder.session)
        elif choice.random() < 0.4:
            assert self.writer.renew(name, holder.session, LONG)
        else:
            kept = tuple(sorted(choice.sample(range(4), choice.randint(0, 2))))
            assert self.writer.promise(name, holder.session, EMPTY, kept)
            self.holders[name] = holder.after(EMPTY, kept)

    def wait(self) -> None:
        """Waits no time, for what was there once, or is there now."""
        there = {name: holder.session for name, holder in self.holders.items() if self.choice.random() < 0.9}
        self.reader.wait(1, 0, there, self.choice.choice(list(Until)), 0.0)

    def shown(self, promise_of: str | None) -> dict[str, Holder]:
        """What a snapshot has to show now."""
        return {
            name: holder if promise_of in (None, name) else Holder(holder.session, *UNKNOWN)
            for name, holder in self.holders.items()
        }  # fmt: skip


class News(unittest.TestCase):
    """What a snapshot shows."""

    def setUp(self) -> None:
        patch = mock.patch.multiple(etcd, WATCH_AGAIN=float('-inf'), FEW=2)
        patch.start()
        self.addCleanup(patch.stop)

    def see_snapshot(self, course: Course) -> None:
        """A snapshot shows what is there; another one after it shows the same objects."""
        alone = course.choice.choice([None, None, 'a', 'b', 'nobody'])
        found = course.reader.snapshot(1, 0, alone).holders
        self.assertEqual(found, course.shown(alone))
        self.assertIs(course.reader.snapshot(1, 0, alone).holders, found)

    def test_any_order(self) -> None:
        """It shows who holds a lease, and what these have promised, after any changes, snapshots and waits."""
        for seed in range(SEEDS):
            course = Course(seed)
            for step in range(STEPS):
                kind = course.choice.choices(['changes', 'waits', 'reads'], [4, 2, 4])[0]
                with self.subTest(seed=seed, step=step, kind=kind):
                    if kind == 'changes':
                        course.change()
                    elif kind == 'waits':
                        course.wait()
                    else:
                        self.see_snapshot(course)
