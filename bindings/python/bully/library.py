"""The library: how it is found, its functions as ctypes takes them, and conversions of their arguments and results."""
from __future__ import annotations

import ctypes
import functools
import operator
import os
from collections.abc import Callable, Iterable, Iterator, Sequence
from typing import Any, NoReturn, TypeVar, Union

from .faults import BadConfig, Short, TableLength, expect_ok
from .header import HERE, own, top_of_tree, type_of
from .values import Call, CallKind, Line, Owned, Rows, State, Status, Want

FILE = 'libbully.so'
UNPROVED = os.path.join('out', 'unproved', 'library')  # in the sources: what the demo builds
BUILDS = f'in the sources run bin/library, which proves and builds {FILE}'
SOONER = f'or bin/library --unproved {UNPROVED}, which builds it without proofs in minutes'
HOW_TO_FIND = (
    f'the wheel of a release has it, and an archive, in lib; {BUILDS}, {SOONER}, and then pip install bindings/python; '
    'or set BULLY_LIBRARY to the folder that has it'
)
ROOM_MIN = 256
UINT16_MAX = 0xFFFF
UINT32_MAX = 0xFFFF_FFFF
UINT64_MAX = 0xFFFF_FFFF_FFFF_FFFF

# The structures of the header, by name.
STRUCTURES: dict[str, type[ctypes.Structure]] = {
    name: type(name, (ctypes.Structure,), {'_fields_': [(field.name, type_of(field.kind, {})) for field in fields]})
    for name, fields in own().structures()
}


class NoLibrary(OSError):
    """The library isn't found, or is another one."""


# The library, loaded twice. Calls of a handle hold Python's lock, so that no two threads use a handle at once; a check
# of a long trace releases it.
_loaded: list[ctypes.CDLL] = []


def _prototypes() -> list[tuple[str, Any, list[Any]]]:
    """The functions of the library, with the types of their results and parameters."""
    typed = functools.partial(type_of, structures=STRUCTURES)
    return [(name, typed(gives), [typed(one.kind) for one in takes]) for name, gives, takes in own().functions()]


def _declared(library: ctypes.CDLL, prototypes: list[tuple[str, Any, list[Any]]]) -> ctypes.CDLL:
    """The library, with the types of its functions set for ctypes."""
    for name, gives, takes in prototypes:
        function = getattr(library, name)
        function.restype, function.argtypes = gives, takes
    return library


def _own_places() -> Iterator[str]:
    """The folders that may have the library that came with this package: in it, in an archive, or in the repository."""
    yield HERE
    for top in top_of_tree():
        yield os.path.join(top, 'lib')
        yield os.path.join(top, 'out', 'library', 'lib')
        yield os.path.join(top, UNPROVED, 'lib')


def _place_of(path: str | os.PathLike[str] | None) -> str:
    """The file to load."""
    place = os.fspath(path) if path is not None else os.environ.get('BULLY_LIBRARY') or ''
    if not place:
        files = (os.path.join(each, FILE) for each in _own_places())
        return next(filter(os.path.exists, files), FILE)
    if not os.path.isdir(place):
        return place
    within = os.path.join(place, 'lib', FILE)
    return within if os.path.exists(within) else os.path.join(place, FILE)


def load(path: str | os.PathLike[str] | None = None) -> None:
    """Loads the library from this path: its file, the folder of that, or a folder that has it in `lib`. Without a path
    it is BULLY_LIBRARY of the environment, or else libbully.so in the folder of this package, in `lib` of an archive or
    in `out/library` of the repository, or in its `out/unproved/library`, which isn't proved; or else the one that the
    system finds by that name.

    Raises NoLibrary, an OSError, if the library isn't there."""
    place, prototypes = _place_of(path), _prototypes()
    try:
        _loaded[:] = [_declared(ctypes.PyDLL(place), prototypes), _declared(ctypes.CDLL(place), prototypes)]
    except AttributeError as missing:
        raise NoLibrary(f'{place} is not the library of bully.h: {missing}; {HOW_TO_FIND}') from missing
    except OSError as missing:
        raise NoLibrary(f'the library of this package is not found: {missing}; {HOW_TO_FIND}') from missing


def loaded(for_long: bool = False) -> ctypes.CDLL:
    """The library: for calls during which other threads wait; or for long ones."""
    if not _loaded:
        load()
    return _loaded[for_long]


def number_of(what: str, value: int, most: int) -> int:
    """The number, if a parameter of the library has room for it: ctypes would cut it off."""
    number = operator.index(value)
    if not 0 <= number <= most:
        raise ValueError(f'{what} is {number}, and must be from 0 to {most}')
    return number


def node_of(value: int) -> int:
    return number_of('node', value, UINT16_MAX)


def numbers_of(what: str, values: Iterable[int]) -> tuple[ctypes.Array[ctypes.c_uint16], int]:
    """Numbers, as the two arguments that the library takes."""
    numbers = [number_of(what, value, UINT16_MAX) for value in values]
    return (ctypes.c_uint16 * len(numbers))(*numbers), len(numbers)


def owners_of(values: Iterable[int] | None) -> tuple[ctypes.Array[ctypes.c_uint16], int]:
    """The owners of a table, if there is one, as two arguments. For the library no owners are no table, but an empty
    table is too short."""
    numbers, count = numbers_of('an owner', () if values is None else values)
    if values is not None and not count:
        raise TableLength()
    return numbers, count


def line_bytes(line: Line) -> bytes:
    if isinstance(line, str):
        return line.encode('utf-8', 'surrogatepass')
    if isinstance(line, bytes):
        return line
    raise TypeError(f'a line must be str or bytes, and not {type(line).__name__}')


def line_of(line: Line) -> tuple[bytes, int]:
    """The line, as the two arguments that the library takes."""
    text = line_bytes(line)
    return text, len(text)


def row_bytes(line: Line) -> bytes:
    """The row, with its line end."""
    text = line_bytes(line)
    row = text[:-1] if text.endswith(b'\n') else text
    if not row or b'\n' in row or b'\r' in row:
        raise ValueError(f'{line!r} is not exactly one row')
    return row + b'\n'


def rows_bytes(rows: Sequence[Line]) -> bytes:
    """The rows, each with its line end."""
    try:
        text = rows.text if isinstance(rows, Rows) else '\n'.join(rows) + '\n' if rows else ''  # type: ignore[arg-type]
    except TypeError:
        text = '\r'  # if not all rows are str
    has_others = not isinstance(rows, Rows) and text.count('\n') != len(rows)
    if has_others or '\r' in text or '\n\n' in text or text[:1] == '\n':
        return b''.join(map(row_bytes, rows))
    return line_bytes(text)


class Room:
    """Room for the texts that the library writes: a power of two, which grows when the library asks for more."""

    def __init__(self) -> None:
        self._size = ROOM_MIN

    def text(self, function: Callable[..., int], *arguments: Any) -> str:
        """The text that the function writes, called with these arguments and the room after them."""
        length = ctypes.c_size_t()
        while True:
            text = ctypes.create_string_buffer(self._size)
            status = function(*arguments, text, self._size, ctypes.byref(length))
            if status == BadConfig.status:
                raise BadConfig(ctypes.string_at(text, length.value).decode())
            if status != Short.status:
                expect_ok(status)
                return ctypes.string_at(text, length.value).decode()
            self._size = 1 << (length.value - 1).bit_length()

    def row(self, function: Callable[..., int], *arguments: Any) -> str:
        """The same for a row, without its line end."""
        return self.text(function, *arguments).rstrip('\n')


def list_of(room: int, function: Callable[..., int], *arguments: Any) -> tuple[int, ...]:
    """The numbers that the function writes, called with these arguments and room for so many numbers after them."""
    numbers, count = (ctypes.c_uint16 * room)(), ctypes.c_size_t()
    expect_ok(function(*arguments, numbers, room, ctypes.byref(count)))
    return tuple(numbers[: count.value])


def owned_of(room: int, function: Callable[..., int], *arguments: Any) -> Owned | None:
    """What a node owns, as the function writes it, called with these arguments and room for so many partitions."""
    token = ctypes.c_uint32()
    partitions = list_of(room, function, *arguments, ctypes.byref(token))
    return Owned(token.value, partitions) if partitions else None


def call_of(raw: ctypes.Structure) -> Call | None:
    """The call in a state of the library, if there is one."""
    return Call(CallKind(raw.call), raw.callee, bool(raw.orphan)) if raw.callee else None


def state_of(raw: ctypes.Structure) -> State:
    """The state of a node, from that of the library."""
    status, wants = Status(raw.status), Want(raw.wants)
    return State(raw.node, status, raw.coordinator or None, raw.halter or None, wants, call_of(raw), raw.generation)


def texts_of(text: str) -> list[str]:
    """The rows of a text, without their line ends."""
    return text.split('\n')[:-1]


Self = TypeVar('Self', bound='Opened')
Filled = TypeVar('Filled', bound=Union[ctypes.Structure, ctypes.c_uint32])


class Opened:
    """A handle of the library, which holds memory of it until it is closed."""

    _kind = ''  # the prefix of the library's functions for it
    _single = ''  # why it can't be copied

    def __init__(self) -> None:
        self._library = loaded()
        self._handle = STRUCTURES[self._kind]()
        self._held = ctypes.byref(self._handle)
        self._room = Room()

    def _function(self, name: str) -> Callable[..., int]:
        """The library's function of this name for this handle."""
        return functools.partial(getattr(self._library, f'{self._kind}_{name}'), self._held)

    def _call(self, name: str, *arguments: Any) -> None:
        """Calls this function, whose status must be OK."""
        expect_ok(self._function(name)(*arguments))

    def _filled(self, filled: Filled, name: str, *arguments: Any) -> Filled:
        """The result that this function writes, called with these arguments and room for the result."""
        self._call(name, *arguments, ctypes.byref(filled))
        return filled

    def close(self) -> None:
        """Frees the library's memory of this handle. Each later call raises Closed."""
        self._call('close')

    @property
    def is_closed(self) -> bool:
        """Whether it is closed."""
        return not self._handle.held

    def _words(self) -> str:
        """What an open handle is for, as `repr` shows it."""
        raise NotImplementedError

    def __enter__(self: Self) -> Self:
        return self

    def __exit__(self, *error: object) -> None:
        if not self.is_closed:
            self.close()

    def __del__(self) -> None:
        handle = getattr(self, '_handle', None)
        if handle is not None and handle.held:
            self._function('close')()

    def __copy__(self, *memo: object) -> NoReturn:
        raise TypeError(self._single)

    __deepcopy__ = __copy__

    def __reduce__(self) -> str:
        raise TypeError(f'{type(self).__name__} can not be pickled: it is memory of this process')

    def __repr__(self) -> str:
        return f'<{type(self).__name__} {"closed" if self.is_closed else self._words()}>'
