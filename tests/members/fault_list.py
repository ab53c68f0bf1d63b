"""The faults of the trials: what happens to members, their watchdogs, keepers and workers, to the store, its network
and its settings, and to clocks."""
from __future__ import annotations

import os
import signal
from collections.abc import Callable, Iterator, Sequence
from contextlib import ExitStack, contextmanager
from functools import partial

from bully.clocks import SECOND, seconds_of_boot
from .etcd_servers import Server
from .groups import live_in
from .namespaces import CLIENTS, PEERS, Network
from .processes import ProcessHandle, children, close_all, send_all
from .stores import PREFIX
from .trial import Fault, Step, Steps, Trial, waited
from .waiting import wait_until

# Whom a fault happens to, at one moment.
WHOM: dict[str, tuple[str, ...]] = {
    'a member': ('member',), 'a watchdog': ('watchdog',), 'a keeper': ('keeper',), 'a worker': ('worker',),
    'a member and its worker': ('member', 'worker'), 'a member and its watchdog': ('member', 'watchdog'),
}  # fmt: skip
SHORT, LONG = (0.1, 0.5), (1.5, 3.0)  # of the ttl
RETURNS = 3  # of a node, before a member is killed that then doesn't remember these
ENDS = (1, -signal.SIGKILL)  # the statuses of a member whose processes were killed, or that had the file locked
REFUSED, SAID = 6, 'another time namespace holds leases'  # the status of a member that no further try helps
LEADER, ANOTHER, FROM_OTHERS, FROM_ALL = 'the leader of etcd', 'another server', (PEERS,), (CLIENTS, PEERS)

# ---- Processes


@contextmanager
def handled(paused: Sequence[ProcessHandle], there: dict[str, ProcessHandle]) -> Iterator[None]:
    """In the end these continue, and those that are there aren't looked at any more."""
    try:
        yield
    finally:
        send_all(paused, signal.SIGCONT)
        close_all(there.values())


def strike(
    trial: Trial, killed: Sequence[str], paused: Sequence[str], span: tuple[float, float], is_first: bool = False
) -> Steps:
    """These of some member are killed, and these paused for so long, at one moment, or first. If member and keeper are
    both paused for long, no process is left that ends the worker, and then nothing is promised."""
    (name, there), what = trial.some_family(), trial.fault_name
    if not there:
        return
    dead, still = [there[each] for each in killed], [there[each] for each in paused]
    is_away = 'member' in killed or 'member' in paused and span is LONG
    with handled(still, there):
        send_all(still, signal.SIGSTOP)
        is_seen = not is_first or waited(lambda: all(each.is_stopped for each in still))
        after = [] if is_first else still  # whoever was paused before its member died goes on at once
        send_all(dead, signal.SIGKILL)
        is_seen &= waited(lambda: all(each.has_ended or each in after and each.is_stopped for each in [*dead, *after]))
        if not is_seen or any(each.has_ended for each in after):
            return
        seconds = trial.choice.uniform(*span) * trial.group.ttl if still else 0.0
        if is_away or still:
            yield Step(what if is_away else '', seconds, name if is_away else '')
    yield Step(f'{what}, and after that', ends=name if 'watchdog' in killed and 'member' not in killed else '')


def kill_again(trial: Trial) -> Steps:
    """A node comes back again and again, and once more after the highest member was killed, which doesn't remember
    that."""
    *others, highest = trial.names
    name, what = trial.choice.choice(others), trial.fault_name
    for each in (*[name] * RETURNS, highest, name):
        if not trial.kill(each):
            return
        yield Step(what, away=each)
        yield Step(f'{what}, and after that')


def pause_guards(trial: Trial) -> Steps:
    """A member and its guards are paused for long, so that nobody ends its worker: the recorder must see that."""
    work, (_, there) = trial.group.work, trial.some_family()
    if not there:
        return
    work.broken.append((0.0, float('inf')))
    guards = [there[each] for each in ('member', 'watchdog', 'keeper')]
    with handled(guards, there):
        send_all(guards, signal.SIGSTOP)
        if not waited(lambda: all(each.is_stopped for each in guards)):
            return
        is_seen = waited(lambda: bool(work.excused()))
        trial.group.count(is_seen, 'the recorder does not see that a worker works on which nobody ends')
    yield Step(f'{trial.fault_name}, and after that')


# ---- Settings and maintenance


def resize(trial: Trial) -> Steps:
    """The nodes get other numbers, in a new epoch. The members go on, by the configuration that they began with."""
    names = [node.name for node in trial.group.show().nodes]
    trial.group.resize([*names[1:], names[0]], trial.group.work.partitions)
    yield Step(trial.fault_name)


def maintain(trial: Trial, *words: str) -> None:
    """Runs a command by which an operator sets maintenance."""
    status = trial.group.ended(trial.group.command(*words))
    trial.group.count(status == 0, f'{" ".join(words)} ends with status {status}')


def drain(trial: Trial) -> Steps:
    """The node is drained, and taken back. Its process stays."""
    name, what = trial.choice.choice(trial.names), trial.fault_name
    command = trial.group.command('drain', name)
    yield Step(what, away=name)
    trial.group.count(trial.group.ended(command) == 0, 'a drain failed')
    maintain(trial, 'undrain', name)
    yield Step(f'{what}, and after that')


def halt(trial: Trial) -> Steps:
    """In a pause of the group a member is killed, and another process comes for its node: the others work on, and
    nothing is appended."""
    group, name = trial.group, trial.choice.choice(trial.names)
    maintain(trial, 'pause')
    is_frozen = trial.tend_until(lambda: group.show().is_frozen, group.patience)  # a change under way comes first
    group.count(is_frozen, 'a pause does not begin')
    before, member = group.show(), group.members.pop(name)
    member.kill()
    member.wait()
    for is_live in (False, True):
        if is_live:
            group.begin(name)
        is_seen = trial.tend_until(lambda: (name in live_in(group.show())) == is_live, group.patience)
        group.count(is_seen, f'{name} is {"not " if is_live else ""}live')
        for _ in range(3):
            group.count(group.goes_on(name), 'the others do not work on in a pause')
        after = group.show()
        is_same = (after.epoch, after.rows, after.token) == (before.epoch, before.rows, before.token)
        group.count(is_same and after.is_paused, f'in a pause the group has {after.rows} rows, and had {before.rows}')
    group.mark()
    maintain(trial, 'resume')
    yield Step(f'{trial.fault_name}, and after that')


# ---- The store


def silence(trial: Trial) -> Steps:
    """The store is silent for longer than a member waits for an answer."""
    end = trial.tend_until(trial.store.silence) if trial.servers_are_up() else None
    if end is None:
        return
    with trial.disturbing(lambda: None, end):
        yield Step('', trial.group.ttl / 2)
    yield Step(f'{trial.fault_name}, and after that')


def server_of(trial: Trial, what: str) -> Server:
    assert trial.store.servers is not None
    leader = trial.store.servers.leader()
    others = [server for server in trial.store.servers.each if server is not leader]
    return leader if what == LEADER else trial.choice.choice(others)


def strike_server(
    trial: Trial, which: str, begin: Callable[[Server], object], end: Callable[[Server], object]
) -> Steps:
    """That happens to the leader, or to another server, for a while."""
    what = trial.fault_name
    if not trial.servers_are_up():
        return
    server = server_of(trial, which)
    trial.group.mark()
    with trial.disturbing(lambda: begin(server), lambda: end(server)):
        yield Step(what, trial.choice.uniform(0.5, 3.0) * trial.group.ttl, is_steady=True)
    yield Step(f'{what}, and after that', is_steady=True)


def pause_servers(trial: Trial) -> Steps:
    """All of them are paused, each for a while."""
    what, servers = trial.fault_name, trial.store.servers
    if servers is None or not trial.servers_are_up():
        return
    with ExitStack() as ends:
        for server in servers.each:
            ends.enter_context(trial.disturbing(server.pause, server.resume))
        yield Step('', trial.choice.uniform(*LONG) * trial.group.ttl)
        for server in servers.each:
            server.resume()
            yield Step('', trial.choice.uniform(*SHORT) * trial.group.ttl)
    yield Step(f'{what}, and after that', is_steady=True)


def begin_unanswered(trial: Trial) -> Steps:
    """A member is killed, and another process comes for its node, while no server answers."""
    group, name = trial.group, trial.choice.choice(trial.names)
    if not trial.servers_are_up():
        return
    said = group.said(name)
    before = said.stat().st_size
    resume = trial.store.pause_servers()
    with trial.disturbing(lambda: None, resume):
        member = group.members.pop(name)
        member.kill()
        member.wait()
        group.begin(name)
        wait_until(lambda: 'in time' in said.read_text()[before:])
    group.mark()
    yield Step(f'{trial.fault_name}, and after that', is_steady=True)


def network_of(trial: Trial) -> Network:
    assert trial.store.network is not None
    return trial.store.network


def cut_member(trial: Trial, is_long: bool) -> Steps:
    """For less than the ttl; or until the others are stable without it."""
    network, name, what = network_of(trial), trial.choice.choice(trial.names), trial.fault_name
    with trial.disturbing(lambda: network.cut(name, CLIENTS), lambda: network.heal(name, CLIENTS)):
        seconds = trial.choice.uniform(*LONG if is_long else SHORT) * trial.group.ttl
        yield Step(what, seconds, name) if is_long else Step('', seconds)
    yield Step(f'{what}, and after that', is_steady=not is_long)


def cut_server(trial: Trial, which: str, bridges: Sequence[int]) -> Steps:
    network = network_of(trial)
    cut, heal = network.cut, network.heal
    return strike_server(trial, which, lambda each: cut(each.name, *bridges), lambda each: heal(each.name, *bridges))


def take_leases(trial: Trial, of_all: bool, are_revoked: bool) -> Steps:
    """Leases are taken away from members, which a premise forbids."""
    servers, work = trial.store.servers, trial.group.work
    if servers is None or not trial.servers_are_up():
        return
    server = servers.each[0]
    leases = [(key, pair['lease']) for key, pair in server.keys(f'{PREFIX}/lease/session/').items()]
    for key, lease in leases if of_all else leases[:1]:
        now = seconds_of_boot()
        work.broken.append((now, now + trial.group.ttl))
        if are_revoked:
            server.ask('/v3/lease/revoke', {'ID': lease})
        else:
            server.delete(key)
            server.delete(key.replace('/session/', '/promise/'))
    if leases:
        yield Step(trial.fault_name, is_steady=True)


# ---- Clocks


def other_namespace(trial: Trial, ahead: int) -> Steps:
    """A member comes in another time namespace, where the clock is so many seconds ahead: it is refused in words as
    long as the others hold leases, and they as long as it does."""
    group, (name, other), what = trial.group, trial.choice.sample(trial.names, 2), trial.fault_name
    acts = ('env', f'ACTS_AHEAD={ahead * SECOND}')
    around = ('unshare', '--time', '--boottime', str(ahead), '--fork', '--kill-child', *acts)
    leaves = group.members.pop(name)
    leaves.terminate()
    group.count(group.ended(leaves) == 0, f'{name} does not leave in order')
    for _ in range(2):
        see_refused(trial, name, around)
    yield Step(f'{what}: it is refused')
    group.leave()
    group.members.clear()
    group.begin(name, around)
    is_alone = trial.tend_until(lambda: all(node == name for _, node in group.work.last_units()))
    group.count(is_alone, f'{what}: it does not work once the others have left')
    see_refused(trial, other)
    leaves = group.members.pop(name)
    os.kill(children(leaves.pid)[0], signal.SIGTERM)  # `unshare` takes no signal
    group.count(group.ended(leaves) == 0, f'{name} does not leave in order')
    group.begin_all(trial.names)
    yield Step(f'{what}, and after that')


def see_refused(trial: Trial, name: str, around: Sequence[str] = ()) -> None:
    """A member of that name is begun, and is refused in words."""
    group = trial.group
    before = group.said(name).stat().st_size
    group.begin(name, around)
    status = group.ended(group.members.pop(name))
    said = group.said(name).read_text()[before:]
    group.count(status == REFUSED and SAID in said, f'{name} ends with status {status}: {said}')


def nothing(_: Trial) -> Steps:
    """The clocks of the members have other rates, and nothing else happens."""
    return iter(())


# ---- The list


def of_processes() -> Iterator[Fault]:
    for whom, names in WHOM.items():
        times = 3 if whom == 'a member' else 1
        yield Fault(f'{whom} killed', partial(strike, killed=names, paused=(), span=SHORT), ENDS, times=times)
        yield Fault(f'{whom} paused shortly', partial(strike, killed=(), paused=names, span=SHORT), ENDS)
        yield Fault(f'{whom} paused for long', partial(strike, killed=(), paused=names, span=LONG), ENDS)
    strikes = partial(strike, killed=('member',), paused=('worker',), span=LONG)
    yield Fault('a member killed whose worker is paused', strikes, ENDS)
    for guard in ('watchdog', 'keeper'):
        strikes = partial(strike, killed=(guard,), paused=('member',), span=LONG)
        yield Fault(f'a {guard} killed whose member is paused', strikes, ENDS)
        strikes = partial(strike, killed=('member',), paused=(guard,), span=LONG, is_first=True)
        yield Fault(f'a member killed whose {guard} is paused', strikes, ENDS)
    yield Fault('a member killed again and again, and once more after the highest', kill_again, ENDS)
    name = 'a member and its guards paused, so that nobody ends its worker'
    yield Fault(name, pause_guards, ENDS, breaks=('WorksInTime',), is_alone=True, is_named=True)


def of_servers() -> Iterator[Fault]:
    for which in (LEADER, ANOTHER):
        killed = partial(strike_server, which=which, begin=Server.kill, end=Server.start)
        paused = partial(strike_server, which=which, begin=Server.pause, end=Server.resume)
        yield Fault(f'{which} killed', killed, needs='servers')
        yield Fault(f'{which} paused', paused, needs='servers')
        cut = partial(cut_server, which=which, bridges=FROM_OTHERS)
        yield Fault(f'{which} cut off from the others', cut, needs='network')
    yield Fault(f'{LEADER} cut off from all', partial(cut_server, which=LEADER, bridges=FROM_ALL), needs='network')
    yield Fault('all servers paused', pause_servers, needs='servers')
    name = 'a member begun while all servers are paused'
    yield Fault(name, begin_unanswered, ENDS, needs='servers', is_alone=True)
    yield Fault('a member cut off shortly', partial(cut_member, is_long=False), needs='network')
    yield Fault('a member cut off for long', partial(cut_member, is_long=True), needs='network')
    for whom, of_all in (('all members', True), ('a member', False)):
        for what, are_revoked in (('leases of {} revoked', True), ('keys of leases of {} deleted', False)):
            takes = partial(take_leases, of_all=of_all, are_revoked=are_revoked)
            yield Fault(what.format(whom), takes, needs='etcd', breaks=('EndsNoSooner',), is_named=True)


def of_clocks() -> Iterator[Fault]:
    for what, ahead in (('far ahead', 100_000), ('a minute back', -60)):
        happens = partial(other_namespace, ahead=ahead)
        name = f'a member in another time namespace, {what}'
        yield Fault(name, happens, ENDS, 'namespaces', is_alone=True, is_named=True)
    cases: Sequence[tuple[str, str, Sequence[float], Sequence[str]]] = (
        ('one for all, a tenth fast', 'file', (1.1,), ()), ('one for all, a tenth slow', 'file', (0.9,), ()),
        ('one for all, three tenths slow', 'file', (0.7,), ()),
        ('one of three a tenth fast', 'file', (1.1, 1.0, 1.0), ('EndsNoSooner',)),
        ('a tenth fast, exact, a tenth slow', 'etcd', (1.1, 1.0, 0.9), ()),
        ('one of three three tenths slow', 'etcd', (1.0, 0.7, 1.0), ('KeepsUp',)),
    )  # fmt: skip
    for what, store, rates, breaks in cases:
        yield Fault(f'rates of clocks: {what}', nothing, needs=store, breaks=breaks, is_named=True, rates=rates)


FAULTS = [
    *of_processes(),
    Fault('other numbers', resize, is_alone=True),
    Fault('a node drained', drain, is_alone=True),
    Fault('the group paused', halt, ENDS, is_alone=True),
    Fault('the store silent', silence),
    *of_servers(),
    *of_clocks(),
]
# These give each kind of act, in this order.
FEW = ('the store silent', 'a member paused for long', 'other numbers', 'a member killed')
