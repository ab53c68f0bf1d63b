"""The crates of crates.txt, what each stands on, and by which words the tools of the kit prove and build them."""
import re
import shutil
from graphlib import CycleError, TopologicalSorter
from pathlib import Path
from typing import Dict, Iterable, List, NamedTuple, Tuple

ROOT = Path(__file__).resolve().parents[2]
ARCHIVES = ('c/libos_c.a', 'c/liblibc_c.a')  # (of the kit, for each program: what asks the system, and the heap of C)


class Stopped(Exception):
    """Why a command can't go on, in a sentence for whoever called it."""


class Crate(NamedTuple):
    """A line of crates.txt: the libraries that it names, and those of this repository that the crate stands on, lowest
    first."""

    name: str
    folder: Path
    line: str
    named: Tuple[str, ...]
    below: Tuple[str, ...]

    @property
    def all(self) -> Tuple[str, ...]:
        """The crates that it is made of: those below it, and itself."""
        return (*self.below, self.name)

    @property
    def kind(self) -> str:
        if (self.folder / 'src' / 'main.rt').exists():
            return 'program'
        return 'archive' if self.line.partition(':')[0].endswith(' staticlib') else 'library'

    def library(self, part: str = 'built') -> Path:
        """The library, as these commands build it, or as the gate does in the part `rlib`."""
        return self.folder / 'out' / part / f'{self.name}.rlib'

    @property
    def product(self) -> Path:
        """What is built of it: a program, an archive or a library."""
        files = {'program': self.name, 'archive': f'lib{self.name}.a'}
        return self.folder / 'out' / files[self.kind] if self.kind in files else self.library()


Crates = Dict[str, Crate]


def read_crates(root: Path = ROOT) -> Crates:
    """The crates whose folders are there, each after those that it depends on."""
    heads = {
        line.split(':')[0].split()[0]: line
        for line in (root / 'crates.txt').read_text().splitlines()
        if ':' in line and line[0] != '#'
    }
    named = {name: line.partition(':')[2].split() for name, line in heads.items() if (root / 'crates' / name).is_dir()}
    crates: Crates = {}
    try:
        order = list(
            TopologicalSorter({name: [each for each in named[name] if each in named] for name in named}).static_order()
        )
    except CycleError as error:
        raise Stopped(f'crates.txt has crates that stand on themselves: {" ".join(error.args[1])}') from None
    for name in order:
        lower = {below for each in named[name] if each in crates for below in crates[each].all}
        below = tuple(each for each in crates if each in lower)
        crates[name] = Crate(name, root / 'crates' / name, heads[name], tuple(named[name]), below)
    return crates


def find_kit() -> Path:
    """The folder of the kit whose `rt` is on the path."""
    rt = shutil.which('rt')
    if rt is None:
        raise Stopped('there is no rt on the path, beside which the prover is')
    return Path(rt).resolve().parents[1]


def version_of(kit: Path) -> str:
    return (kit / 'KIT-ID').read_text().strip()


def version_of_all() -> str:
    """The version of all that is handed out: the first line of the constant that the program tells as its own."""
    text = (ROOT / 'crates' / 'bully_cli' / 'src' / 'help.rt').read_text()
    return str(re.findall(r'^pub const VERSION: &str = "(\d+\.\d+\.\d+)\\n', text, re.MULTILINE)[0])


def words_of(crate: Crate) -> List[str]:
    return ['--crate-name', crate.name, 'src/main.rt' if crate.kind == 'program' else 'src/lib.rt']


def words_of_logic(kit: Path, crate: Crate) -> List[str]:
    logic = ['--antt-project', f'{kit}/rattle/logic/antt-project.json', '--logic-built', f'{kit}/logic_built']
    return ['-L', f'dependency={kit}/rlibs', *logic, '--links', f'{crate.name}=']


def sources_below(crates: Crates, crate: Crate) -> List[str]:
    """The words that hand the libraries below a crate on as source."""
    uses = {lower: ','.join(dict.fromkeys(('core', 'std', *crates[lower].named))) for lower in crate.below}
    return [
        word for lower in crate.below for word in ('--lib', f'{lower}:{uses[lower]}={crates[lower].folder}/src/lib.rt')
    ]


def libraries_of_kit(crates: Crates, crate: Crate) -> List[str]:
    """The libraries of the kit that a crate and those below it name, with std."""
    return list(
        dict.fromkeys(
            ['std', *(library for each in crate.all for library in crates[each].named if library not in crates)]
        )
    )


def sources_of_kit(kit: Path, names: Iterable[str]) -> List[str]:
    """The words that hand these libraries of the kit, and those that they use, on as source."""
    words: List[str] = []
    left = list(names)
    for name in left:
        uses = re.findall(r'^dep (\w+)$', (kit / 'rlibs' / f'{name}.rlib' / 'format').read_text(), re.MULTILINE)
        left += [each for each in uses if each not in left]
        words += ['--lib', f'{name}:{",".join(uses)}={kit}/rattle/{name}/src/lib.rt']
    return words


def words_over_sources(kit: Path, crates: Crates, crate: Crate) -> List[str]:
    """The words by which `rattle` checks a crate, with those below it as source."""
    given = dict.fromkeys(['core', *libraries_of_kit(crates, crate)])
    libraries = [word for name in given for word in ('--extern', f'{name}={kit}/rlibs/{name}.rlib')]
    return [*words_of(crate), *words_of_logic(kit, crate), *libraries, *sources_below(crates, crate)]


def words_over_libraries(kit: Path, crates: Crates, crate: Crate, part: str = 'built') -> List[str]:
    """The words by which `rattle` checks a crate over the libraries that were built."""
    files = {
        name: crates[name].library(part) if name in crates else f'{kit}/rlibs/{name}.rlib'
        for name in ('std', *crate.named)
    }
    words = [word for name, file in files.items() for word in ('--extern', f'{name}={file}')]
    words += [word for lower in crate.below for word in ('-L', f'dependency={crates[lower].library(part).parent}')]
    kind = ['--crate-type', 'staticlib'] if crate.kind == 'archive' else []
    return [*words_of(crate), *words_of_logic(kit, crate), *words, *kind]


def words_to_build(kit: Path, crates: Crates, crate: Crate, part: str = 'built') -> List[str]:
    """The words by which it builds a crate so. rt uses the same words."""
    backend = ['--backend', 'llvm'] if crate.kind == 'program' else []
    return [*words_over_libraries(kit, crates, crate, part), *backend, '--toolchain', f'{kit}/toolchain']
