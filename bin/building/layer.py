"""The layer of C before the proved functions, as far as `bully.h` says all of it: for each function that answers a
status a wrapper, which tests its pointers and lengths and calls the proved one; and the names of the statuses.
`bindings/c/bully.c` has the rest.

The rule is the header's: a pointer with a `size_t` after it leads to so many items, a slice; any other pointer leads to
one, a reference. What the rule doesn't say, as a text without a length, is refused, and never guessed.

    cd bin && python3 -m building.layer    prints the wrappers of `include/bully.h`, for whoever reads them
"""
import importlib.util
from pathlib import Path
from typing import TYPE_CHECKING, Dict, Iterable, List, NamedTuple

from .crates import ROOT, Stopped

if TYPE_CHECKING:
    from bully.header import Declared, Function

HEADER = ROOT / 'include' / 'bully.h'
READER = ROOT / 'bindings' / 'python' / 'bully' / 'header.py'
NUMBERS = ('uint8_t', 'uint16_t', 'uint32_t', 'uint64_t')
TEXTS = ('char *', 'uint8_t *')  # (never one item)


class Argument(NamedTuple):
    """An argument of a function as the header means it: a number, a reference, or a slice with its length."""

    told: 'Declared'
    length: str = ''

    @property
    def is_pointer(self) -> bool:
        return self.told.kind.endswith(' *')

    def declared(self) -> str:
        kind = ('const ' if self.told.is_const else '') + self.told.kind
        name = self.told.name
        return f'{kind}{"" if self.is_pointer else " "}{name}' + (f', size_t {self.length}' if self.length else '')

    def refused(self) -> str:
        """The condition under which it is null."""
        name = self.told.name
        return f'!can_lie({name}, {self.length}, sizeof *{name})' if self.length else f'{name} == NULL'

    def handed_on(self) -> str:
        name = self.told.name
        return (
            f'{"source" if self.told.is_const else "target"}({name}, {self.length}), {self.length}'
            if self.length
            else name
        )


class Header(NamedTuple):
    """What a header declares: its functions, its structures with their fields, and the numbers of the statuses."""

    functions: 'List[Function]'
    structures: 'Dict[str, List[Declared]]'
    statuses: Dict[str, int]


def read_header(text: str) -> Header:
    """What a header of this text declares, by the reader of the package for Python alone: the package itself needs the
    library."""
    spec = importlib.util.spec_from_file_location('header_of_bully', READER)
    assert spec and spec.loader
    reader = importlib.util.module_from_spec(spec)
    spec.loader.exec_module(reader)
    header = reader.Header(text)
    try:
        return Header(list(header.functions()), dict(header.structures()), header.statuses())
    except ImportError as fault:
        raise Stopped(str(fault)) from None


def fault_of(argument: Argument, structures: Iterable[str]) -> str:
    """Why the header's rule doesn't say what the argument is; '' if it does."""
    kind = argument.told.kind
    if kind == 'size_t':
        return 'a length after no pointer'
    if not argument.is_pointer:
        return '' if kind in NUMBERS else 'no number of a known size'
    if kind in TEXTS:
        return '' if argument.length else 'a text without its length'
    return '' if kind[:-2] in (*NUMBERS, 'size_t', *structures) else 'a pointer to what is not known'


def arguments_of(function: 'Function', structures: Iterable[str]) -> List[Argument]:
    """The arguments of a function, each length with the pointer before it."""
    arguments: List[Argument] = []
    for told in function.takes:
        last = arguments[-1] if arguments else None
        if told.kind == 'size_t' and last and last.is_pointer and not last.length:
            arguments[-1] = Argument(last.told, told.name)
        else:
            arguments.append(Argument(told))
    faults = [
        f'{each.told.name} of {function.name} is {fault}'
        for each in arguments
        for fault in [fault_of(each, structures)]
        if fault
    ]
    if faults:
        raise Stopped(f'bully.h: {faults[0]}, and bin/building/layer.py makes no wrapper of that')
    return arguments


def wrapper(function: 'Function', structures: Iterable[str]) -> str:
    """The declaration of the proved function for a function of the header, and the wrapper that calls it."""
    if function.gives != 'bully_status':
        raise Stopped(
            f'bully.h: {function.name} gives {function.gives}, and bin/building/layer.py makes no wrapper of that'
        )
    arguments = arguments_of(function, structures)
    declared, handed_on = (
        ', '.join(part(each) for each in arguments) for part in (Argument.declared, Argument.handed_on)
    )
    proved = function.name.replace('bully_', 'bully_c_', 1)
    wrong = ' || '.join(each.refused() for each in arguments if each.is_pointer)
    test = f'    if ({wrong}) {{\n        return BULLY_NULL;\n    }}\n' if wrong else ''
    head = f'__typeof__({function.name}) {proved};\nbully_status {function.name}({declared or "void"})'
    return f'{head} {{\n{test}    return {proved}({handed_on});\n}}\n'


def wrappers(header: Header) -> str:
    """A wrapper of each function but those that give texts, which stand in bully.c."""
    return '\n'.join(wrapper(each, header.structures) for each in header.functions if each.gives != 'char *')


def layer_of(header: Header) -> Dict[str, str]:
    """What bully.c includes, by its names, and the list of all functions."""
    names = ''.join(f'[{number}] = "{name}",\n' for name, number in header.statuses.items())
    declared = ''.join(f'{name}\n' for name in sorted(each.name for each in header.functions))
    return {'wrappers.h': wrappers(header), 'names.h': names, 'declared': declared}


if __name__ == '__main__':
    print(wrappers(read_header(HEADER.read_text())), end='')
