"""Maintenance, which an operator sets over all epochs: nodes that are drained, and a pause of the group. Beside it
members note that they leave, and how often a watchdog killed their work.

A drained node takes no part. While a group is paused members that work continue, and nobody rebalances.
"""
from __future__ import annotations

import json
from collections.abc import Mapping, Set as AbstractSet
from dataclasses import dataclass, field, replace
from typing import Any, NamedTuple

from .core import Session


class Killed(NamedTuple):
    """How often the watchdog of this process killed its work, because the lease wasn't sure any more; and when last, in
    milliseconds since 1970."""

    process: int
    times: int
    last: int

    def is_of(self, session: Session | None) -> bool:
        """Whether it is of who holds the lease of its node, if anybody does."""
        return session is None or session.process == self.process


@dataclass(frozen=True)
class Maintenance:
    """The names of the drained nodes; while the group is paused, the sessions that were live when it was paused; by
    their nodes the sessions that have noted that they leave; and how often work was killed."""

    drained: frozenset[str] = frozenset()
    sessions: Mapping[str, Session] | None = None
    leaving: Mapping[str, Session] = field(default_factory=dict)
    killed: Mapping[str, Killed] = field(default_factory=dict)

    @staticmethod
    def parse(text: str) -> Maintenance:
        """The maintenance in this text. Raises ValueError, KeyError, TypeError or AttributeError if it has none."""
        document = json.loads(text or '{"drained": []}')
        paused, leaving = (_sessions_in(document.get(key, {})) for key in ('paused', 'leaving'))
        drained = frozenset(map(str, document['drained']))
        killed = {str(name): Killed(*map(int, each)) for name, each in document.get('killed', {}).items()}
        return Maintenance(drained, paused if 'paused' in document else None, leaving, killed)

    def text(self) -> str:
        """The maintenance as JSON, for a store; empty if there is none."""
        document: dict[str, Any] = {'drained': sorted(self.drained)}
        if self.sessions is not None:
            document['paused'] = _sessions_text(self.sessions)
        if self.leaving:
            document['leaving'] = _sessions_text(self.leaving)
        if self.killed:
            document['killed'] = dict(sorted(self.killed.items()))
        return '' if self == Maintenance() else json.dumps(document, ensure_ascii=False)

    @property
    def is_paused(self) -> bool:
        return self.sessions is not None

    def takes_out(self, name: str, is_live: bool) -> bool:
        """Whether the member of that node must leave. During a pause work continues, so a node that is live stays until
        the end of the pause."""
        return name in self.drained and not (self.is_paused and is_live)

    def is_known_to_leave(self, name: str, session: Session) -> bool:
        """Whether this session, which holds the lease of that node, is known to leave: the node is drained, or the
        session has noted it. During a pause nobody counts as leaving, because nobody rebalances."""
        return not self.is_paused and (name in self.drained or self.leaving.get(name) == session)

    def with_leaving(self, name: str, sessions: Mapping[str, Session]) -> Maintenance:
        """The same once the session of that node has noted that it leaves. These sessions hold leases; what others have
        noted is dropped."""
        leaving = {each: session for each, session in self.leaving.items() if sessions.get(each) == session}
        return replace(self, leaving={**leaving, name: sessions[name]})

    def with_killed(self, name: str, killed: Killed, sessions: Mapping[str, Session]) -> Maintenance:
        """The same with this note of that node. These sessions hold leases; a note of a process whose node another one
        acts for is dropped."""
        there = {each: note for each, note in self.killed.items() if note.is_of(sessions.get(each))}
        return replace(self, killed={**there, name: killed})

    def among(self, names: AbstractSet[str]) -> Maintenance:
        """The same without nodes that aren't in the group."""
        leaving = {name: session for name, session in self.leaving.items() if name in names}
        killed = {name: note for name, note in self.killed.items() if name in names}
        return replace(self, drained=self.drained & names, leaving=leaving, killed=killed)


def _sessions_in(document: dict[str, Any]) -> dict[str, Session]:
    return {str(name): Session(*map(int, session)) for name, session in document.items()}


def _sessions_text(sessions: Mapping[str, Session]) -> dict[str, list[int]]:
    return {name: [session.process, session.number] for name, session in sorted(sessions.items())}
