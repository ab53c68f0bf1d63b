#!/usr/bin/env python3
"""Writes calls of each function of a `bully.h` with arguments that are null, too long or of no items, for `nulls.c`
beside this file.

    bindings/c/tests/nulls.py HEADER

What is wanted comes from the header alone, which says: BULLY_NULL comes first, of a pointer that is null and must not
be, and of a length above PTRDIFF_MAX bytes; a pointer with a `size_t` after it points to that many items, and may be
null if these are none. Then a handle that isn't open is BULLY_CLOSED, and one that is opened a second time BULLY_OPEN.
What `bin/building` makes of this rule is not read here. """
import sys
from itertools import product
from pathlib import Path
from typing import TYPE_CHECKING, Dict, Iterator, List, NamedTuple

sys.path.append(str(Path(__file__).resolve().parents[3] / 'bin'))
from building.layer import read_header

if TYPE_CHECKING:
    from bully.header import Declared, Function


class Ways(NamedTuple):
    """The ways to give an argument, as C spells them: those that are right, with items first and without them last;
    those that are wrong; and the one with the most items that a memory has."""

    right: List[str]
    wrong: List[str]
    longest: str


def ways_of(argument: 'Declared', place: int, has_length: bool, given: str) -> Ways:
    """The ways to give a pointer, or a number."""
    if not argument.kind.endswith(' *'):
        return Ways(['number'], [], 'number')
    if not has_length:
        return Ways([given], ['NULL'], given)
    most = f'MOST({argument.kind[:-2]})'
    wrong = ['NULL, 1', f'NULL, {most}', 'NULL, SIZE_MAX', f'{given}, {most} + 1', f'{given}, SIZE_MAX']
    return Ways([f'{given}, 1', f'{given}, 0', 'NULL, 0'], wrong, f'{given}, {most}')


def all_ways(function: 'Function', handles: Dict[str, str]) -> List[Ways]:
    """The ways to give each argument, a pointer with the length after it."""
    kinds = [each.kind for each in function.takes]
    has_length = [kind == 'size_t' for kind in kinds[1:]] + [False]
    given = [handles.get(kind, f'({kind})at({place})') for place, kind in enumerate(kinds)]
    places = [place for place, kind in enumerate(kinds) if kind != 'size_t']
    return [ways_of(function.takes[place], place, has_length[place], given[place]) for place in places]


def wrong_calls(ways: List[Ways]) -> Iterator[List[str]]:
    """The arguments of calls of which one is wrong: the others all have items, or none has."""
    for place, each in enumerate(ways):
        for wrong, number in product(each.wrong, (0, -1)):
            arguments = [other.right[number] for other in ways]
            yield [*arguments[:place], wrong, *arguments[place + 1 :]]


def tests_of(function: 'Function', handles: Dict[str, str]) -> Iterator[str]:
    """The tests of a function. What is right is called only of a handle that refuses it."""
    ways = all_ways(function, handles)
    wrong = dict.fromkeys(', '.join(each) for each in wrong_calls(ways))
    right = [', '.join(each) for each in product(*(each.right for each in ways))]
    is_of_handle, is_open = any(each.kind in handles for each in function.takes), function.name.endswith('_open')
    status, state = ('OPEN', 'is_open') if is_open else ('CLOSED', '!is_open')
    refused = [*right, ', '.join(each.longest for each in ways)] if is_of_handle else []
    yield from (f'    REFUSED(BULLY_NULL, {function.name}({each}));' for each in wrong)
    yield from (f'    if ({state}) REFUSED(BULLY_{status}, {function.name}({each}));' for each in refused)
    if is_open or not is_of_handle:
        yield from (f'    {"if (!is_open) " if is_open else ""}TAKEN({function.name}({each}));' for each in right)


def main(file: str) -> None:
    header = read_header(Path(file).read_text())
    handles = {
        f'{name} *': '&' + name.partition('_')[2]
        for name, fields in header.structures.items()
        if [each.kind for each in fields] == ['void *']
    }
    functions = [each for each in header.functions if each.gives == 'bully_status']
    for function in functions:
        print(f'static void try_{function.name}(void) {{', *tests_of(function, handles), '}\n', sep='\n')
    print('static void try_each(void) {', *(f'    try_{each.name}();' for each in functions), '}', sep='\n')


if __name__ == '__main__':
    main(*sys.argv[1:])
