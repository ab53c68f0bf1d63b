"""The functions for C of a library: each is public, and marked as one whose name C sees. A static library shows C none
but its own functions, so one is made that has a function of the same name for each, and hands its arguments on. Thus
the library is proved once, as any other is."""
import re
from pathlib import Path
from typing import Iterator, NamedTuple, Tuple

from .crates import Crate, Stopped

MARK = '#[unsafe(no_mangle)]'
EXPORT = re.compile(re.escape(MARK) + r'\s*pub extern "C" fn (\w+)\(([^)]*)\)( -> \w+)?')


class Export(NamedTuple):
    """A function for C: its module, its name, its parameters as they are written, and the name of each; and what it
    gives."""

    module: str
    name: str
    takes: str
    names: Tuple[str, ...]
    gives: str


def has_exports(crate: Crate) -> bool:
    return any(MARK in path.read_text() for path in (crate.folder / 'src').rglob('*.rt'))


def exports_of(crate: Crate) -> Iterator[Export]:
    """The functions for C of a crate."""
    for path in sorted((crate.folder / 'src').rglob('*.rt')):
        text = path.read_text()
        found = EXPORT.findall(text)
        if len(found) != text.count(MARK):
            raise Stopped(f'{path.name} has a function for C of another form')
        for name, takes, gives in found:
            names = tuple(each.split(':')[0].strip() for each in takes.split(',') if each.strip())
            yield Export(path.stem, name, ' '.join(takes.split()).rstrip(','), names, gives)


def text_of_exports(crate: Crate) -> str:
    """The source of the static library."""
    exports = list(exports_of(crate))
    types = sorted({word for each in exports for word in re.findall(r'\b[A-Z]\w+', each.takes)} - {'Global'})
    text = [
        f'//! What C sees of {crate.name}.',
        '#![tactic(auto)]',
        f'use {crate.name}::{{{", ".join(types)}}};',
        'use std::alloc::Global;',
    ]
    for each in exports:
        text += [MARK, f'pub extern "C" fn {each.name}({each.takes}){each.gives} {{']
        text += [f'    {crate.name}::{each.module}::{each.name}({", ".join(each.names)})', '}']
    return '\n'.join([*text, ''])


def write_exports(crate: Crate, folder: Path) -> Crate:
    """Writes the static library into a folder: a crate over the one whose functions it hands on."""
    (folder / 'src').mkdir(parents=True)
    (folder / 'src' / 'lib.rt').write_text(text_of_exports(crate))
    name = f'{crate.name}_exports'
    return Crate(name, folder, f'{name} staticlib:', (*crate.named, crate.name), crate.all)
