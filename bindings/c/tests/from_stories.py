#!/usr/bin/env python3
"""Writes the tests that the stories of `bindings/stories` tell, in C, for `stories.c` beside this file.

    bindings/c/tests/from_stories.py HEADER
"""
import re
import sys
from pathlib import Path
from typing import TYPE_CHECKING, Dict, Iterator, List, NamedTuple, Set, Tuple

ROOT = Path(__file__).resolve().parents[3]
sys.path += [str(ROOT / 'bin'), str(ROOT / 'tests')]
from building.layer import Argument, arguments_of, read_header
from stories import Call, Fields, Reader, Story, Value, Word

if TYPE_CHECKING:
    from bully.header import Function

# What comes before a name in the header, if it isn't the name of the field or of the argument.
PREFIXES = {'kind': 'STEP_', 'request': 'ASK_', 'answer': 'STORE_', 'activities': 'ACTIVITY_'}
ROOM = '$room'  # stands for how much room there is, in a call


def told_statuses(header: str) -> Dict[str, Set[str]]:
    """The statuses that the comment of each function names: one by one, as a range, by a prefix, or as those of another
    function."""
    numbers = {
        name: int(number)
        for name, number in re.findall(r'^ {4}BULLY_(\w+) = (\d+)', header.partition('const char *')[0], re.MULTILINE)
    }
    told: Dict[str, Set[str]] = {}
    for comment, function in re.findall(r'/\*((?:(?!\*/).)*)\*/\nbully_status (\w+)\(', header, re.DOTALL):
        words = ' '.join(comment.replace('\n *', ' ').split())
        told[function] = set(re.findall(r'BULLY_([A-Z_]+)\b(?!\.\.)', words))
        for first, last in re.findall(r'BULLY_(\w+) to BULLY_(\w+)', words):
            told[function] |= {name for name, number in numbers.items() if numbers[first] <= number <= numbers[last]}
        for begin in re.findall(r'BULLY_([A-Z_]+)\.\.', words):
            told[function] |= {name for name in numbers if name.startswith(begin)}
        for other in re.findall(r'statuses are those of `(\w+)`', words):
            told[function] |= told[other]
    return told


def text_in_c(text: bytes) -> str:
    """A text and its length. One without bytes is null."""
    plain = ''.join(chr(byte) if 32 <= byte < 127 and byte not in b'"\\?' else f'\\{byte:03o}' for byte in text)
    return f'"{plain}", {len(text)}' if text else 'NULL, 0'


class Out(NamedTuple):
    """An argument that a function writes: its place, and whether a count of what is listed there comes after it."""

    place: int
    argument: Argument
    is_counted: bool


def shown(outs: List[Out]) -> List[Out]:
    """What a line tells of: all but the counts of lists."""
    return [each for before, each in zip([None, *outs], outs) if not (before and before.is_counted)]


def with_less_room(call: Call, spoken: str, place: int, length: int, wanted: List[str]) -> Iterator[str]:
    """The call with less room than it takes, which writes the length, and what else is a number; and with just so much,
    unless it must come once."""
    short, enough = (
        spoken.replace(f'at({place}), {ROOM}', f'some({place}, {room}), {room}') for room in ('room', length)
    )
    left = [
        f'EXPECT(is_left({place}))',
        f'IS_NUMBER({place + 1}, size_t, {length})',
        *(each for each in wanted if each.startswith('IS_NUMBER')),
    ]
    if length:
        rooms = f'room = first_room({length}); room < {length}; room = next_room(room, {length})'
        yield f'for ({rooms}) {{ANSWERS(SHORT, {short}); {"; ".join(left)};}}'
    if call.name != 'serve':
        yield f'if (tries_rooms()) ANSWERS({call.status}, {enough})'


class Writer:
    """Writes calls of the functions of a header."""

    def __init__(self, text: str) -> None:
        self.header = read_header(text)
        self.constants = set(re.findall(r'\bBULLY_(\w+)', text))
        self.functions = {each.name: each for each in self.header.functions}
        self.handles = {
            f'{name} *'
            for name, fields in self.header.structures.items()
            if [each.kind for each in fields] == ['void *']
        }
        self.partitions = 0  # those of the last setup

    def number(self, name: str, value: Value) -> str:
        """A number that is given or wanted under this name."""
        if isinstance(value, Word):
            prefixes = (f'{name.upper()}_', PREFIXES.get(name, ''), '')
            return 'BULLY_' + next(each for each in prefixes if each + value in self.constants) + value
        return f'UINT64_C({value})' if isinstance(value, int) and value > 0x7FFF_FFFF else str(value)

    def item(self, kind: str, name: str, value: Value) -> str:
        """A number or a struct of this kind."""
        if not isinstance(value, list):
            return self.number(name, value)
        fields = self.header.structures[kind]
        return '{' + ', '.join(self.number(field.name, each) for field, each in zip(fields, value)) + '}'

    def given(self, argument: Argument, value: Value) -> str:
        kind, name = argument.told.kind.rstrip(' *'), argument.told.name
        if isinstance(value, bytes):
            return ('(const uint8_t *)' if kind == 'uint8_t' and value else '') + text_in_c(value)
        if not argument.is_pointer:
            return self.number(name, value)
        if not argument.length:
            return f'&(const {kind}){self.item(kind, name, value)}'
        assert isinstance(value, list)
        items = ', '.join(self.item(kind, name, each) for each in value)
        return f'(const {kind}[]){{{items}}}, {len(value)}' if value else 'NULL, 0'

    def statements(self, call: Call) -> Iterator[str]:
        """The calls with too little room, the call, and what is wanted of it."""
        if call.name == 'log':
            header, rows = (text_in_c(each) for each in call.arguments if isinstance(each, bytes))
            taken, *events = [str(each) for each in call.answers if isinstance(each, int)]
            yield f'TRY_LOG({header}, {rows}, BULLY_{call.status}, {taken}, {events[0] if events else taken})'
            return
        spoken, outs, more = self.spoken(call)
        listed = next((each for each in outs if each.argument.length), None)
        room: object = more[0] if more else 'ENOUGH'
        wanted = [each for out, answer in zip(shown(outs), call.answers) for each in self.wanted(out, answer)]
        if listed and not listed.is_counted:
            room = more[0] if more else self.partitions
        elif listed and call.answers:
            length = next(len(each) for each in call.answers if isinstance(each, (bytes, list)))
            yield from with_less_room(call, spoken, listed.place, length, wanted)
            room = length if call.name == 'serve' else room
        if call.name == 'learn':
            text = self.given(arguments_of(self.function(call), self.header.structures)[1], call.arguments[0])
            yield f'begin_rows({text})'
            spoken = spoken.replace(text, 'ROWS')
        changes_nothing = call.status != 'OK' and not (
            call.name == 'learn' and (call.kind == 'member' or call.answers[:1] not in ([], [0]))
        )
        yield from ['see_before()'] if changes_nothing else []
        yield f'ANSWERS({call.status}, {spoken.replace(ROOM, str(room))})'
        yield from wanted or ['EXPECT(is_filled())']
        yield from ['EXPECT(is_as_before())'] if changes_nothing else []

    def function(self, call: Call) -> 'Function':
        return self.functions['_'.join(filter(None, ('bully', call.kind, call.name)))]

    def spoken(self, call: Call) -> 'Tuple[str, List[Out], List[Value]]':
        """The call, in which ROOM stands for how much room there is; what it writes; and what the line has more."""
        function = self.function(call)
        arguments = arguments_of(function, self.header.structures)
        values, outs, words = iter(call.arguments), [], []
        for place, argument in enumerate(arguments):
            if argument.told.kind in self.handles:
                words.append(f'&{call.kind}s[{call.handle[len(call.kind) :] or 0}]')
            elif argument.is_pointer and not argument.told.is_const:
                is_counted = bool(argument.length) and [
                    each.told.kind for each in arguments[place + 1 : place + 2]
                ] == ['size_t *']
                outs.append(Out(place, argument, is_counted))
                words.append(f'at({place})' + (f', {ROOM}' if argument.length else ''))
            else:
                value = next(values)
                if argument.told.kind == 'bully_setup *' and isinstance(value, list) and isinstance(value[1], int):
                    self.partitions = value[1]
                words.append(self.given(argument, value))
        return f'{function.name}({", ".join(words)})', outs, list(values)

    def wanted(self, out: 'Out', answer: Value) -> Iterator[str]:
        """What is wanted of what is written there."""
        place, kind, name = out.place, out.argument.told.kind[:-2], out.argument.told.name
        if isinstance(answer, bytes):
            yield f'IS_LISTED({place}, {place + 1}, 1, {text_in_c(answer)})'
        elif isinstance(answer, list):
            items = ', '.join(self.number(name, each) for each in answer)
            words = f'(const uint16_t[]){{{items}}}, {len(answer)}' if answer else 'NULL, 0'
            yield f'IS_LISTED({place}, {place + 1 if out.is_counted else "NO_COUNT"}, 2, {words})'
        elif isinstance(answer, Fields):
            given = {each: self.number(each, value) for each, value in answer.named.items()}
            fields = given or {self.header.structures[kind][0].name: '0'}
            if answer.is_whole:
                yield f'IS_WHOLE({place}, {kind}, {", ".join(f".{each} = {value}" for each, value in fields.items())})'
            else:
                yield from (f'IS_FIELD({place}, {kind}, {each}, {value})' for each, value in given.items())
        elif name == 'taken':
            yield f'IS_LEARNED({place}, {answer})'
        else:
            yield f'IS_NUMBER({place}, {kind}, {self.number(name, answer)})'

    def comparisons(self) -> Iterator[str]:
        """For each struct that is written a function that compares all its fields."""
        written = {
            each.kind for function in self.functions.values() for each in function.takes if not each.is_const
        } - self.handles
        for kind in sorted(each for each in self.header.structures if f'{each} *' in written):
            yield f'static void is_{kind}(const {kind} *shown, {kind} wanted, const char *file, int line) {{'
            for field in self.header.structures[kind]:
                yield f'    is_number(shown->{field.name}, wanted.{field.name}, file, line, "{kind}.{field.name}");'
            yield '}\n'

    def story(self, number: int, story: Story) -> Iterator[str]:
        yield f'/* {story.name} */\nstatic void story_{number}(void) {{\n    size_t room = 0;\n    (void)room;'
        for call in story.calls:
            try:
                last = 'begin_last(); ' if call is story.calls[-1] else ''
                yield f'#line {call.line} "{call.file}"\n    {last}' + ' '.join(
                    f'{each};' for each in self.statements(call)
                )
            except (KeyError, StopIteration, RuntimeError, AssertionError) as fault:
                raise SystemExit(f'{call.place}: it is not understood: {fault!r}')
        yield '    end_story();\n}\n'


def main(file: str) -> None:
    text = Path(file).read_text()
    writer = Writer(text)
    stories = list(Reader(set(writer.header.statuses)).stories())
    print(*writer.comparisons(), sep='\n')
    for number, story in enumerate(stories):
        print(*writer.story(number, story), sep='\n')
    print(
        'static void try_each_story(void) {',
        *(f'    story_{number}();' for number in range(len(stories))),
        '}\n',
        sep='\n',
    )
    taking = sorted(name for name, statuses in told_statuses(text).items() if 'OUT_OF_MEMORY' in statuses)
    print('#define TAKING', ', '.join(f'"{name}"' for name in taking))


if __name__ == '__main__':
    main(*sys.argv[1:])
