"""What the commands bring about: a crate proved and built over all that it stands on, if something changed, and run or
checked."""
import os
import sys
import tempfile
import time
from contextlib import suppress
from pathlib import Path
from typing import Callable, Dict, List, NamedTuple, NoReturn, Optional

from .crates import (
    ARCHIVES,
    Crate,
    Crates,
    Stopped,
    find_kit,
    read_crates,
    version_of_all,
    words_over_sources,
    words_to_build,
)
from .kept import drop, is_made_of, keep, locked, made_of, check_unchanged, stamp_of
from .running import Children, all_jobs, become, give_back_streams, run_beside

Say = Callable[[str], None]


def run_command(name: str, status: int, command: Callable[[List[str], Say], Optional[int]]) -> NoReturn:
    """Ends this process as the command ends, which gets its words. If it can't go on, why is told, and the exit status
    is this one."""

    def say(line: str) -> None:
        with suppress(OSError):
            os.write(2, f'{name}: {line}\n'.encode(errors='replace'))

    try:
        sys.exit(command(sys.argv[1:], say))
    except (Stopped, OSError) as why:
        say(str(why))
        sys.exit(status)


class Building(NamedTuple):
    """A call that builds a crate: what that and each crate below it were made of when it began, and a folder for what
    the tools say."""

    kit: Path
    crates: Crates
    crate: Crate
    made_of: Dict[str, str]
    say: Say
    children: Children
    room: Path
    began: float

    def minutes(self) -> str:
        return f'{(time.monotonic() - self.began) / 60:.1f} min'

    def build(self, name: str, processes: int) -> None:
        """Proves and builds a crate. The first time nothing is kept for the next one, and of a library only its
        statements are built, by which those above it are proved sooner."""
        kit, crate, product = self.kit, self.crates[name], self.crates[name].product
        file = f'{product}.o' if crate.kind == 'program' else str(product)
        words = [
            f'{kit}/bin/rattle',
            'build',
            *words_to_build(kit, self.crates, crate),
            '--jobs',
            str(processes),
            '-o',
            file,
        ]
        if product.exists() or (crate.folder / 'out' / 'incremental').exists():
            words += ['--incremental', 'out/incremental']
        elif crate.kind == 'library':
            words.append('--statements')
        check_unchanged([crate], self.made_of[name])
        # (the prover refuses libraries over another build of this one; a program that was built goes on without it)
        for upper in (each for each in self.crates.values() if name in each.below and each.kind == 'library'):
            stamp_of(upper.product).unlink(missing_ok=True)
        drop(product)
        self.run(name, words)
        if crate.kind == 'program':
            link = [
                f'{kit}/bin/rattle-link',
                '--target',
                'x86_64-unknown-linux-gnu',
                '--toolchain',
                f'{kit}/toolchain',
                '-o',
                str(product),
                file,
            ]
            self.run(name, [*link, *(f'{kit}/{each}' for each in ARCHIVES)])
        keep(product, self.made_of[name], [crate])

    def run(self, name: str, words: List[str]) -> None:
        if not self.children.run(words, self.crates[name].folder, self.room / name):
            raise Stopped(f'{name} was not built')


def chains(crates: Crates, crate: Crate) -> Dict[str, int]:
    """Of each crate the lines of code in the longest chain of crates from it on up, and 300 for what each reads: a
    guess of how long it takes."""
    found: Dict[str, int] = {}
    for name in reversed(crate.all):
        above = max((lines for upper, lines in found.items() if name in crates[upper].below), default=0)
        found[name] = (
            above + 300 + sum(path.read_bytes().count(b'\n') for path in (crates[name].folder / 'src').rglob('*.rt'))
        )
    return found


def build_all(building: Building) -> None:
    """Proves and builds each crate that isn't built of what it is made of now, as soon as those below it are."""
    crates, crate, say = building.crates, building.crate, building.say
    stale = {name for name in crate.all if not is_made_of(crates[name].product, building.made_of[name])}
    due = [name for name in crate.all if stale.intersection(crates[name].all)]
    needs = {name: [lower for lower in crates[name].below if lower in due] for name in due}
    length, new = chains(crates, crate), sum(not (crates[name].folder / 'out' / 'incremental').exists() for name in due)
    # (25 s for each from nothing, 10 s over what an earlier build kept, two minutes to compile and link; three times as
    # much on a slow machine)
    minutes = -(-(120 + 10 * len(due) + 15 * new) // 60)
    say(
        f'proves and builds {crate.name}: {len(due)} of {len(crate.all)} crates, {new} of them from nothing; '
        f'{minutes} to {3 * minutes} min on four cores that do nothing else'
    )
    for number, name in enumerate(run_beside(needs, length, building.build, building.children), 1):
        say(f'{number} of {len(due)} crates proved after {building.minutes()}: {name}')
        if name == 'bully_trace' and crate.name == 'bully':
            say('what judges a trace for the command check is proved; the other commands stand on what comes now')


def bring(product: Path, crates: Crates, crate: Crate, say: Say, make: Callable[[Building], None]) -> None:
    """Has the product made, if it isn't there of what the crate is made of now, also once a call that this one waited
    for is done."""
    kit, began = find_kit(), time.monotonic()
    if is_made_of(product, made_of(crates, crate.all, kit)[crate.name]):
        return
    with locked([crates[name] for name in crate.all], say) as handles, tempfile.TemporaryDirectory() as room, Children(
        handles
    ) as children:
        building = Building(kit, crates, crate, made_of(crates, crate.all, kit), say, children, Path(room), began)
        if not is_made_of(product, building.made_of[crate.name]):
            make(building)


def crate_of(crates: Crates, name: str, kind: str = '') -> Crate:
    if name not in crates or kind not in ('', crates[name].kind):
        raise Stopped(f'crates.txt has no {kind or "crate"} {name or "without a name"}')
    return crates[name]


def run_program(name: str, words: List[str], say: Say) -> NoReturn:
    """Runs a program with these words, once it is proved and built."""
    crates = read_crates()
    crate = crate_of(crates, name, 'program')
    if name == 'bully' and not crate.product.exists():
        archive = f'cinnabarloom-{version_of_all()}-x86_64-linux.tar.gz'
        say(f'to use it, take the archive {archive} of a release, which has it built')
    bring(crate.product, crates, crate, say, build_all)
    give_back_streams()
    become([str(crate.product), *words])


def check(name: str, words: List[str], say: Say) -> NoReturn:
    """Checks a crate and all below it in one run of the prover, over what earlier runs kept."""
    crates, kit = read_crates(), find_kit()
    crate = crate_of(crates, name)
    (crate.folder / 'out').mkdir(exist_ok=True)
    checked = [*words_over_sources(kit, crates, crate), '--jobs', str(all_jobs()), '--incremental', 'out/whole', *words]
    with locked([crates[each] for each in crate.all], say) as handles:
        for handle in handles:
            os.set_inheritable(handle, True)
        os.chdir(crate.folder)
        become([f'{kit}/bin/rattle', 'check', *checked])
