"""One group of members that goes on for long: its epochs follow one another, and the memory of all may not grow."""
from __future__ import annotations

import gc
import os
import random
from pathlib import Path

from bully.learned import Learned
from .over_memory import OverMemory
from .stabilizing import Mode
from .trouble import Trouble

NODES = 5
ROWS = 600  # of an epoch, for each node
GROWTH = 2.0  # megabytes that may come to be from the first fifth on
PARTS = 10  # how often the memory is measured


def megabytes() -> float:
    """How much memory this process has."""
    pages = int(Path('/proc/self/statm').read_text().split()[1])
    return pages * os.sysconf('SC_PAGE_SIZE') / 1e6


class Little(Trouble):
    """Nothing goes wrong but that members come and go."""

    def __init__(self, choice: random.Random) -> None:
        super().__init__(choice)
        self.lost = self.unanswered = self.slow = self.late = self.pauses = self.ends = self.renewal_pauses = 0.0
        self.trip, self.patience, self.room, self.nodes_least, self.nodes = 0.002, 0.5, ROWS, NODES, NODES


class Long:
    """A group in which one member stays for good, and the others die, leave and come back."""

    def __init__(self, is_cooperative: bool) -> None:
        self.choice = random.Random(1)
        self.simulation = OverMemory(1, Little, Mode(is_cooperative))
        self.memory: list[float] = []
        self.open = self.rows = 0

    def run(self, changes: int) -> None:
        """So many times somebody goes or comes. Raises Wrong, and an AssertionError, if the memory grows."""
        simulation = self.simulation
        names = simulation.store.epoch.settings.names
        for name in names:
            simulation.begin(name)
        for number in range(changes):
            simulation.live(simulation.now + simulation.between(0.5, 3))
            self.change(self.choice.choice(names[1:]))
            if number % max(1, changes // PARTS) == changes // PARTS - 1:
                self.tidy()
        simulation.is_calm = True
        simulation.become_stable()
        self.tidy()
        simulation.close()
        grown = max(self.memory[2:]) - self.memory[1]
        assert grown < GROWTH, f'the memory has grown by {grown:.1f} MB'
        assert self.open <= 2 * NODES, f'{self.open} members are open'

    def change(self, name: str) -> None:
        """The member of this name goes, or another one comes for it."""
        simulation = self.simulation
        alive = [member for member in simulation.alive() if member.name == name]
        if not alive:
            simulation.begin(name)
        for member in alive:
            self.choice.choice([member.die, member.leave])()
        simulation.members = simulation.alive()

    def tidy(self) -> None:
        """Old epochs are judged and taken away, and the memory is measured."""
        store = self.simulation.store
        ended = [epoch for epoch in store.epochs if epoch.rows and epoch is not store.epoch]
        for epoch in ended:
            self.simulation.judge_epoch(epoch)
            self.rows += len(epoch.rows)
        store.prune()
        for epoch in ended:
            epoch.rows = []
        gc.collect()
        self.memory.append(megabytes())
        self.open = sum(isinstance(each, Learned) and not each.is_closed for each in gc.get_objects())

    def __str__(self) -> str:
        simulation = self.simulation
        return (
            f'{simulation.mode}: {simulation.begun} processes, {simulation.store.epoch.number} epochs, '
            f'{self.rows + len(simulation.store.epoch.rows)} rows, {simulation.now // simulation.ttl} ttl; '
            f'{" ".join(f"{each:.1f}" for each in self.memory)} MB, {self.open} members open'
        )
