"""Tests of logs in etcd by the laws of all stores."""
from __future__ import annotations

import time
from typing import Any
from unittest import mock

from bully import etcd
from bully.clocks import SECOND
from bully.epochs import Opening
from bully.etcd import EtcdLog
from bully.shared_log import Log, NoEpoch
from ..etcd_servers import NUMBERS, alone, begin_alone
from ..steps import OPENING, A, add, be_idle, live
from ..waiting import wait_until
from .epoch_laws import EpochLaws
from .in_etcd import InEtcd
from .laws import Laws
from .races import race, race_of_promises
from .wait_laws import Waits


def setUpModule() -> None:
    begin_alone(__name__)


class Laid(InEtcd):
    """Logs for the laws."""

    def created(self, address: str = '', opening: Opening = OPENING, patience: float = 20.0, **more: Any) -> EtcdLog:
        self.address = alone(f'{self.prefix}/{next(NUMBERS)}')
        return super().created(address, opening, patience, **more)

    def handle(self, log: Log) -> Log:
        assert isinstance(log, EtcdLog)
        return self.opened(log.address, 20.0)


class OverEtcd(Laid, Laws, Waits):
    """The laws of a log in etcd."""

    TTL = 2 * SECOND
    SHORT = SECOND
    PAGE = 10
    COMPARES_ALL = True

    def setUp(self) -> None:
        super().setUp()
        patch = mock.patch.object(etcd, 'PAGE', self.PAGE)
        patch.start()
        self.addCleanup(patch.stop)

    def now(self) -> int:
        return time.monotonic_ns()

    def pass_time(self, time_: int) -> None:
        time.sleep(time_ / SECOND)

    def pass_end(self, log: Log) -> None:
        wait_until(lambda: not live(log))

    def test_processes(self) -> None:
        race(self, self.begun(), 'etcd', self.address)

    def test_promises_of_processes(self) -> None:
        race_of_promises(self, self.created(), 'etcd', self.address)


class ManyOverEtcd(Laid, Waits):
    """The same waits, where so many nodes are live that promises are reported only where they are waited for."""

    SHORT = SECOND

    def setUp(self) -> None:
        super().setUp()
        patch = mock.patch.object(etcd, 'FEW', 0)
        patch.start()
        self.addCleanup(patch.stop)


class EpochsOverEtcd(Laid, EpochLaws):
    """The laws of epochs of a log in etcd."""

    def setUp(self) -> None:
        super().setUp()
        patch = mock.patch.object(etcd, 'PAGE', 10)
        patch.start()
        self.addCleanup(patch.stop)

    def test_two_prunes(self) -> None:
        """Who takes fewer epochs away at the same time brings none back."""
        log, other = self.two()
        opening = OPENING
        for epoch in (1, 2, 3):
            opening = opening.next(None, ())
            here = be_idle(log, ('a', A), here=add(log, ['start,1']))
            self.assertTrue(log.roll_over(epoch, here.offset, opening))
        with mock.patch.object(other, 'epochs', return_value=log.epochs()):
            log.prune(3)
            other.prune(2)
        self.assertEqual(log.epochs(), range(3, 5))
        with self.assertRaises(NoEpoch):
            log.read(2, 0)
