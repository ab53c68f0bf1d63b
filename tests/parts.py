"""The parts of what is tried, and how they run: each as soon as what it needs is built, beside the others. Over what is
built without proofs here for `bin/test`, and over what the gate proves for `bin/prove`."""
import resource
import shutil
import tempfile
import time
from concurrent.futures import ThreadPoolExecutor, as_completed
from contextlib import ExitStack
from pathlib import Path
from threading import Event, Semaphore
from typing import Callable, Iterable, List, NamedTuple, Tuple

from building.crates import ROOT, Stopped, find_kit, read_crates
from building.kept import made_of
from building.library import make_library
from building.proving import Building, Say
from building.running import Children, all_jobs
from building.unproved import FOLDER, alone, build_for_tests, product_of
from counts import Counts


class Part(NamedTuple):
    """A part: a command that counts its tests by itself. Its words for a way to run it are `none` if it doesn't run in
    that way. A busy machine may starve processes that depend on time: if such a part fails, it is run once more after
    all others, with nothing beside it, and that run counts."""

    name: str
    words: str  # the command; BUILT stands for the folder of what was built, and KIT for the kit
    needs: str = ''  # what must be built first
    tools: str = ''  # the tools without which it is skipped
    short: str = ''  # further words in `bin/test`
    whole: str = ''  # further words in `bin/prove`
    full: str = ''  # further words with `--full`
    limit: int = 1800  # the seconds after which it is ended
    proved: str = ''  # a crate for whose proof it waits; it runs the prover over that
    is_timed: bool = False  # whether its processes depend on time

    def more(self, how: str) -> str:
        """The words more of a way to run it: `short`, `whole`, or `full`, which are those of `whole` if it has none of
        its own."""
        return {'short': self.short, 'whole': self.whole, 'full': self.full or self.whole}[how]


def simulated(name: str, words: str, short: int, whole: int, full: int) -> Part:
    """Simulations of members up to these seeds."""
    few, some, many = (f'--to {most}' for most in (short, whole, full))
    return Part(name, f'tests/members/run simulate BUILT/library{words}', 'library', '', few, some, many, LONG)


NONE = 'none'
LONG = 7200
FIRST = ('library', 'bully', 'bully_workbench')
FAULTS = 'tests/members/run faults BUILT/library'
PARTS = [
    Part('snippets', 'tests/snippets/compare'),
    Part('promises', 'tests/promises/compare'),
    Part('versions', 'tests/release/compare'),
    Part('types', 'tests/types', tools='mypy'),
    Part('format', 'tests/format', tools='black'),
    Part('wrong-bodies', 'tests/edits/try'),
    Part('wrong-members', 'tests/members/run wrong --fit'),
    Part('build', 'tests/build/try'),
    Part('c', 'bindings/c/try BUILT/library', 'library', 'gcc g++'),
    Part('rust', 'bindings/rust/try BUILT/library', 'library', 'cargo'),
    Part('package', 'tests/members/run package BUILT/library', 'library'),
    Part('rules', 'tests/members/run rules BUILT/library', 'library',
         short='--rebalance 100 --restarts 4 --forgetful 4 --manners 3',
         full='--rebalance 5000 --restarts 100 --forgetful 1000 --manners 300', limit=LONG),
    # (those that were found the longest ago; in full all, and those of the rules, for each of which a library is built)
    Part('bugs', 'tests/members/run wrong BUILT/library --jobs 4', 'library',
         short='--turn', whole='--turn', full='file', limit=LONG),
    Part('bugs-of-rules', 'tests/members/run wrong BUILT/library --edited BUILT/edited .edit', 'library',
         short=NONE, whole=NONE, full='--jobs 2', limit=LONG),
    simulated('members', '', 60, 300, 10_000),
    simulated('epochs', ' --epochs', 60, 300, 10_000),
    simulated('over-etcd', ' --over-etcd', 20, 100, 10_000),
    simulated('epochs-over-etcd', ' --over-etcd --epochs', 12, 60, 3_000),
    simulated('told', ' --told', 12, 60, 3_000),
    simulated('careless-store', ' --careless-store', 12, 60, 3_000),
    Part('long', 'tests/members/run simulate BUILT/library', 'library',
         short='--long 100', whole='--long 300', full='--long 10000', limit=LONG),
    Part('cooperating', 'tests/members/run cooperating BUILT/library', 'library',
         short='--to 25', whole='--to 100', full='--to 3000', limit=LONG),
    Part('etcd', 'tests/members/run compare BUILT/library', 'library', 'etcd', short='--requests 1000 --logs 300'),
    Part('kills', FAULTS, 'library', short='--count 8 --idle 10 --share 3', whole='--count 18 --idle 10 --share 3',
         full='--count 150 --idle 10 --share 2', limit=LONG, is_timed=True),
    Part('kills-cooperating', f'{FAULTS} --cooperative --kind each', 'library', short='--count 6 --idle 10 --share 4',
         whole='--count 10 --idle 10 --share 4', full='--count 80 --idle 10 --share 2', limit=LONG, is_timed=True),
    Part('premises', f'{FAULTS} --few', 'library', is_timed=True),
    Part('premises-cooperating', f'{FAULTS} --few --cooperative --kind each', 'library', is_timed=True),
    Part('premises-over-etcd', f'{FAULTS} --few --store etcd --cooperative --kind talk', 'library', 'etcd',
         is_timed=True),
    Part('guards-paused', f'{FAULTS} --nodes 3 --faults guards', 'library', is_timed=True),
    Part('time-namespaces', f'{FAULTS} --nodes 3 --worker stubborn --faults namespace', 'library', is_timed=True),
    Part('rates', f'{FAULTS} --faults rates', 'library', short=NONE, is_timed=True),
    Part('rates-over-etcd', f'{FAULTS} --faults rates --store etcd', 'library', 'etcd', NONE, is_timed=True),
    Part('network', f'{FAULTS} --store network', 'library', 'etcd', '--count 4', '--count 8', '--count 100 --locks 10',
         limit=LONG, is_timed=True),
    Part('soak', FAULTS, 'library', short=NONE, whole=NONE, full='--seconds 20', is_timed=True),
    Part('soak-over-etcd', f'{FAULTS} --store servers', 'library', 'etcd', '--seconds 10 --faults server,etcd',
         '--seconds 20 --faults server,etcd', '--seconds 20', is_timed=True),
    Part('soak-cooperating', f'{FAULTS} --cooperative --kind talk', 'library', short=NONE, whole=NONE,
         full='--seconds 20', is_timed=True),
    Part('python', 'bindings/python/try BUILT/library --simulator BUILT/bully_workbench', 'library bully_workbench',
         short='--seeds 60', whole='--seeds 200 --steps 2000', full='--seeds 1000 --steps 2000', limit=LONG),
    Part('memory', 'tests/hostile/memory', 'bully_workbench', 'rustc'),
    # (the gate runs these by itself)
    Part('programs', 'tests/programs', 'bully bully_workbench', whole=NONE),
    Part('tests', 'KIT/bin/rattle-test BUILT/bully_tests', 'bully_tests', whole=NONE),
    Part('cases', 'tests/cases/try', 'bully'),
    Part('logging', 'tests/logging/try', 'bully'),
    Part('terminal', 'tests/terminal/try', 'bully', is_timed=True),
    *(Part(name, f'tests/hostile/outside {name}', 'bully', 'rustc') for name in ('requests', 'spoiled', 'annotated')),
    Part('processes', 'tests/processes/try BUILT/library', 'library bully',
         short='1 10', whole='2 20', full='10 100', limit=LONG, is_timed=True),
    Part('nodes', 'tests/cluster/simulate', 'bully bully_workbench', 'rustc', '60', '300', '300'),
    Part('release', 'tests/release/try BUILT/library BUILT/bully', 'library bully'),
]  # fmt: skip


def chosen(names: List[str], how: str) -> List[Part]:
    """The parts of these names, or all that are run so."""
    known = {part.name: part for part in PARTS}
    strange = [name for name in names if name not in known]
    if strange:
        raise Stopped(f'there is no part {strange[0]}: bin/test --list has their names')
    parts = [known[name] for name in names] if names else PARTS
    return [part for part in parts if names or part.more(how) != NONE]


class Run:
    """A run of parts: what is tried is in a folder, each thing once it is done, and what is begun ends with the run."""

    def __init__(self, parts: List[Part], how: str, built: Path, more: Iterable[str] = ()) -> None:
        """`more` are things that nothing but the making of others waits for."""
        self.parts, self.how, self.built, self.children, self.counts = parts, how, built, Children(), Counts()
        # (two more than cores, because most parts wait, and one that waits for facts must get its turn)
        self.turns = Semaphore(all_jobs() + 2)
        # (the prover takes memory: one beside those of the gate)
        self.provers = Semaphore(1)
        self.done = {name: Event() for name in (*(name for part in parts for name in part.needs.split()), *more)}

    def is_done(self, name: str) -> None:
        self.done.get(name, Event()).set()

    def all_are_done(self, but: str = '') -> None:
        """Has all go on that wait."""
        for name in (each for each in self.done if each != but):
            self.is_done(name)

    def wait_for(self, names: Iterable[str]) -> None:
        for name in names:
            self.done[name].wait()

    def try_part(self, part: Part) -> Tuple[str, int, float]:
        """What the part said, its status, and how many seconds it took, once all is done that it needs."""
        needs, more = part.needs.split(), part.more(self.how)
        self.wait_for([*needs, *part.proved.split()])
        missing = [name for name in needs if not (self.built / name).exists()]
        lacking = [tool for tool in part.tools.split() if not shutil.which(tool)]
        if missing:
            return f'FAILED: {part.name}: {missing[0]} is not built\n0 passed, 1 failed', 1, 0.0
        if lacking:
            return f'skipped: {part.name}: there is no {lacking[0]}\n0 passed, 0 failed, 1 skipped', 0, 0.0
        kit = str(find_kit()) if 'KIT' in part.words else ''
        words = (
            f'{part.words} {"" if more == NONE else more}'.replace('BUILT', str(self.built)).replace('KIT', kit).split()
        )
        with self.provers if part.proved else self.turns, tempfile.TemporaryFile() as said:
            began = time.monotonic()
            status = self.children.begin(
                ['env', f'BULLY_BUILT={self.built}', 'timeout', str(part.limit), *words], ROOT, said
            ).wait()
            said.seek(0)
            return said.read().decode(errors='replace'), status, time.monotonic() - began

    def count(self, part: Part, outcome: Tuple[str, int, float]) -> bool:
        """Prints what came of a part, and adds its counts, unless it failed and is to be run once more. Returns whether
        it added them."""
        said, status, seconds = outcome
        print(f'{said.rstrip()}\n== {part.name}: {seconds:.0f} s', flush=True)
        counts = Counts()
        counts.add(said, status, part.name)
        if counts.failed and part.is_timed:
            return False
        self.counts.join(counts)
        return True

    def run(self, make: Callable[[ThreadPoolExecutor], bool]) -> bool:
        """Runs the parts beside what makes the things that they need, adds their counts, and prints how long all took.
        Returns what that gave. If this command is ended meanwhile, what runs is ended, too; then the parts that wait
        continue, and start nothing."""
        began = time.monotonic()
        with ThreadPoolExecutor(len(self.parts) + len(self.done) + 1) as pool, ExitStack() as closing, self.children:
            closing.callback(self.all_are_done)
            begun = {pool.submit(self.try_part, part): part for part in self.parts}
            is_green = make(pool)
            for _ in range(1, all_jobs()):
                self.provers.release()  # what the gate had is free
            starved = [part for each in as_completed(begun) if not self.count(part := begun[each], each.result())]
            for part in starved:
                print(f'== {part.name} failed beside other work: once more, alone', flush=True)
                self.count(part._replace(is_timed=False), self.try_part(part))
        own, children = (resource.getrusage(whose) for whose in (resource.RUSAGE_SELF, resource.RUSAGE_CHILDREN))
        processor = sum(each.ru_utime + each.ru_stime for each in (own, children))
        print(f'== all: {time.monotonic() - began:.0f} s, {processor:.0f} s of processor time', flush=True)
        return is_green


def make_unproved(name: str, run: Run, room: Path, say: Say) -> None:
    """Builds one of the things that are tried without its proofs."""
    kit, crates = find_kit(), read_crates()
    crate = crates['bully_c' if name == 'library' else name]
    try:
        build_for_tests(
            Building(kit, crates, crate, made_of(crates, crate.all, kit), say, run.children, room, time.monotonic())
        )
        if name == 'library':
            make_library(run.built / name, lambda _: product_of(crate), say)
    except (Stopped, OSError) as why:
        say(str(why))
    run.is_done(name)


def test(names: List[str], how: str, say: Say) -> Counts:
    """Tries these parts, or all, over what is built without proofs: as many things at once as there are cores, first
    those that most waits for."""
    run = Run(chosen(names, how), how, FOLDER)
    things = sorted(run.done, key=lambda name: FIRST.index(name) if name in FIRST else len(FIRST))
    with alone(say), tempfile.TemporaryDirectory() as room, ThreadPoolExecutor(all_jobs()) as builders:
        run.run(lambda _: bool([builders.submit(make_unproved, name, run, Path(room), say) for name in things]))
    return run.counts
