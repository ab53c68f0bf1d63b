"""What `bully.h` declares, by its names and as ctypes takes it.

The header is the only source of the numbers of statuses, of structures and of functions, so this package repeats none
of them. In the repository `bin/building` reads the header by this file alone, without the package.
"""
from __future__ import annotations

import ctypes
import functools
import os
import re
from collections.abc import Iterator, Mapping
from typing import Any, NamedTuple

FILE = 'bully.h'
HERE = os.path.dirname(__file__)

_NUMBERS: dict[str, Any] = {
    'uint8_t': ctypes.c_uint8, 'uint16_t': ctypes.c_uint16, 'uint32_t': ctypes.c_uint32, 'uint64_t': ctypes.c_uint64,
    'size_t': ctypes.c_size_t, 'bully_status': ctypes.c_uint32,
}  # fmt: skip
_POINTERS: dict[str, Any] = {
    'void': ctypes.c_void_p, 'char': ctypes.c_char_p, 'uint8_t': ctypes.c_char_p,  # bytes are passed as they are
    **{name: ctypes.POINTER(kind) for name, kind in _NUMBERS.items() if name != 'uint8_t'},
}  # fmt: skip


class Declared(NamedTuple):
    """A declaration: whether it is const, its type, as `uint16_t *`, and its name."""

    is_const: bool
    kind: str
    name: str


class Function(NamedTuple):
    """A function: its name, the type of its result, and its parameters."""

    name: str
    gives: str
    takes: tuple[Declared, ...]


def top_of_tree() -> Iterator[str]:
    """The top of the repository or of the archive that has this package, if one does."""
    if HERE.endswith(os.path.join(os.sep, 'bindings', 'python', 'bully')):
        yield os.path.join(HERE, *[os.pardir] * 3)


def _places() -> Iterator[str]:
    """The folders that may have the header: that of this file, as in a wheel; that of this tree; or that of the
    library."""
    yield HERE
    yield from (os.path.join(top, 'include') for top in top_of_tree())
    library = os.environ.get('BULLY_LIBRARY')
    if library:
        folder = library if os.path.isdir(library) else os.path.dirname(library)
        yield from (os.path.join(folder, 'include'), folder, os.path.join(folder, os.pardir, 'include'))


def _text() -> str:
    """The header's text."""
    files = [os.path.join(place, FILE) for place in _places()]
    file = next(filter(os.path.exists, files), None)
    if not file:
        raise ImportError(f'{FILE} is in none of these places: {", ".join(files)}')
    with open(file, encoding='ascii') as header:
        return header.read()


class Header:
    """The declarations of a header with this text. Raises ImportError for one that isn't understood here."""

    def __init__(self, text: str) -> None:
        uncommented = ''.join(piece.rpartition('*/')[2] for piece in text.split('/*'))
        self._text = '\n'.join(line for line in uncommented.splitlines() if not line.startswith('#'))

    def statuses(self) -> dict[str, int]:
        """The numbers of the statuses by name, as `OK`."""
        [listed] = re.findall(r'typedef uint32_t bully_status;\s*enum \{(.*?)\}', self._text, re.DOTALL)
        return {name: int(number) for name, number in re.findall(r'BULLY_(\w+) = (\d+)', listed)}

    def structures(self) -> Iterator[tuple[str, list[Declared]]]:
        """The structures, each with its fields in order."""
        for name, listed in re.findall(r'typedef struct (\w+) \{(.*?)\}', self._text, re.DOTALL):
            yield name, list(map(_declared, listed.split(';')[:-1]))

    def functions(self) -> Iterator[Function]:
        """The functions in order."""
        for declaration in self._text.split(';'):
            head, bracket, rest = declaration.partition('(')
            if bracket:
                parameters = rest.rpartition(')')[0]
                takes = [] if parameters == 'void' else parameters.split(',')
                yield Function(_declared(head).name, _declared(head).kind, tuple(map(_declared, takes)))


def _declared(text: str) -> Declared:
    """A declaration, as `const uint16_t *nodes`."""
    found = re.fullmatch(r'(const )?(\w+ \*?)(\w+)', ' '.join(text.split()))
    if not found:
        raise ImportError(f'{FILE} declares what is not understood here: {" ".join(text.split())}')
    return Declared(bool(found.group(1)), found.group(2).rstrip(), found.group(3))


def type_of(kind: str, structures: Mapping[str, Any]) -> Any:
    """The ctypes type of a type in the header, given the known structures; a pointer to any other structure is a void
    pointer."""
    target, is_pointer, _ = kind.partition(' *')
    if not is_pointer:
        return _NUMBERS[target]
    if target in structures:
        return ctypes.POINTER(structures[target])
    return ctypes.c_void_p if target.startswith('bully_') else _POINTERS[target]


@functools.lru_cache(maxsize=None)
def own() -> Header:
    """The header that came with this package."""
    return Header(_text())
