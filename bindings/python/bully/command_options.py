"""The options of commands, as data: from it are made the parser of a command, and its completion in shells."""
from __future__ import annotations

import argparse
from collections.abc import Callable, Iterable, Sequence
from typing import Any, NamedTuple


class Option:
    """An option of a command, or an argument that has no name before it: what its help says (nothing if help doesn't
    show it), what its value is called, if it has one, and which values there are, if not any. `more` has further
    keywords of `add_argument`."""

    def __init__(self, word: str, about: str, value: str = '', choices: Sequence[str] = (), **more: Any) -> None:
        self.word, self.about, self.value, self.choices, self.more = word, about, value, tuple(choices), more

    @property
    def is_argument(self) -> bool:
        """Whether no name comes before its value."""
        return not self.word.startswith('-')

    @property
    def is_switch(self) -> bool:
        """Whether it has no value."""
        return not self.value and not self.choices

    @property
    def needs_value(self) -> bool:
        return not self.is_switch and self.more.get('nargs') != '?'

    def add_to(self, add: Callable[..., object]) -> None:
        """Adds it to a parser, whose `add_argument` this is."""
        kind: dict[str, Any] = {'action': 'store_true'} if self.is_switch else {'metavar': self.value or None}
        if self.choices:
            kind['choices'] = self.choices
        add(self.word, help=self.about or argparse.SUPPRESS, **kind, **self.more)


class OneOf:
    """Options of which only one may be given; exactly one, if one is required."""

    def __init__(self, *options: Option, is_required: bool = False) -> None:
        self.options, self.is_required = options, is_required


class Command(NamedTuple):
    """A command: its function, and its options, beside those that name a store, if it uses one."""

    run: Callable[[argparse.Namespace], int]
    own: Sequence[Option | OneOf] = ()
    has_store: bool = True

    @property
    def options(self) -> Sequence[Option | OneOf]:
        """All of its options."""
        from .store_options import STORE_OPTIONS

        return [*(STORE_OPTIONS if self.has_store else ()), *self.own]

    @property
    def shown(self) -> list[Option]:
        """Those that its help shows."""
        each = (one for option in self.options for one in (option.options if isinstance(option, OneOf) else [option]))
        return [option for option in each if option.about]

    def add_to(self, parser: argparse.ArgumentParser) -> None:
        """Adds its options to a parser."""
        for option in self.options:
            if isinstance(option, OneOf):
                group = parser.add_mutually_exclusive_group(required=option.is_required)
                for each in option.options:
                    each.add_to(group.add_argument)
            else:
                option.add_to(parser.add_argument)


def parser_of(
    program: str, description: str, version: str, listed: Iterable[tuple[str, str, Command | None]]
) -> argparse.ArgumentParser:
    """The parser of a program with these commands: of each its name, what it does, and its options, if they are
    needed."""
    as_it_is = argparse.RawDescriptionHelpFormatter
    words = argparse.ArgumentParser(program, description=description, formatter_class=as_it_is, allow_abbrev=False)
    words.add_argument('--version', action='version', version=f'{program} {version}')
    commands = words.add_subparsers(dest='command', required=True, metavar='COMMAND')
    for name, about, command in listed:  # the help of a command starts with what it does
        parser = commands.add_parser(name, help=about, description=f'{about.capitalize()}.', allow_abbrev=False)
        if command is not None:
            command.add_to(parser)
    return words


# ---- Values


def seconds_option(word: str, about: str, default: float | None = None) -> Option:
    shown = about if default is None else f'{about} (default: {default:g})'
    return Option(word, shown, 'SECONDS', type=seconds, default=default)


def count_option(word: str, kind: str, about: str, default: int | None = None) -> Option:
    shown = about if default is None else f'{about} (default: {default})'
    return Option(word, shown, kind, type=count, default=default)


def seconds(word: str) -> float:
    """A number of seconds, from a hundredth to a day."""
    number = float(word)
    if not 0.01 <= number <= 86_400:
        raise argparse.ArgumentTypeError('it must be from 0.01 to 86400')
    return number


def count(word: str) -> int:
    """A number from 1 on."""
    number = int(word)
    if number < 1:
        raise argparse.ArgumentTypeError('it must be 1 or more')
    return number


def count_or_none(word: str) -> int:
    """A number from 0 on."""
    return 0 if word.isdecimal() and int(word) == 0 else count(word)
