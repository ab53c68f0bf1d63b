"""Completion of the words of `bully-member` in bash, zsh and fish, made from the options of its commands."""
from __future__ import annotations

from collections.abc import Iterable, Iterator, Mapping, Sequence

from .command_options import Option
from .outputs import PROGRAM

HELP = Option('--help', 'show this help message and exit')
OF_WORKER = 'worker'  # the words of another command, after `--`

Commands = Mapping[str, 'tuple[str, Sequence[Option]]']  # what each does, and its options


def completion(shell: str, commands: Commands) -> str:
    """The script for this shell."""
    return SHELLS[shell]({name: (about, [HELP, *options]) for name, (about, options) in commands.items()})


def named(options: Sequence[Option]) -> list[Option]:
    """The options that have a name."""
    return [each for each in options if not each.is_argument]


def arguments(options: Sequence[Option]) -> list[Option]:
    return [each for each in options if each.is_argument]


def is_file(option: Option) -> bool:
    return option.value == 'FILE'


def quoted(option: Option) -> str:
    """The help of an option, as it is in quotes."""
    return option.about.replace("'", '').replace('"', '')


# ---- bash


def for_bash(commands: Commands) -> str:
    names = ' '.join(commands)
    cases = ''.join(bash_case(name, options) for name, (_, options) in commands.items())
    return f"""\
# Completion of {PROGRAM} in bash: {PROGRAM} completion bash > FILE, and then source FILE.
_bully_member() {{
    local word=${{COMP_WORDS[COMP_CWORD]}} before=${{COMP_WORDS[COMP_CWORD - 1]}} words='--help' paths= values= more=
    case ${{COMP_WORDS[1]}} in
{cases}    esac
    if ((COMP_CWORD == 1)); then
        words='--help --version {names}'
    elif [[ $more && " ${{COMP_WORDS[*]:0:COMP_CWORD}} " == *' -- '* ]]; then
        mapfile -t COMPREPLY < <(compgen -c -f -- "$word")
        return
    elif [[ " $paths " == *" $before "* ]]; then
        compopt -o filenames 2>/dev/null
        mapfile -t COMPREPLY < <(compgen -f -- "$word")
        return
    elif [[ " $values " == *" $before "* ]]; then
        words=
    fi
    mapfile -t COMPREPLY < <(compgen -W "$words" -- "$word")
}}
complete -F _bully_member {PROGRAM}
"""


def bash_case(name: str, options: Sequence[Option]) -> str:
    """The case of a command: its words, those that take a path, and those that take another value."""
    words = [*(each.word for each in named(options)), *(each for one in arguments(options) for each in one.choices)]
    paths = [each.word for each in named(options) if is_file(each)]
    values = [each.word for each in named(options) if each.needs_value and not is_file(each) and not each.choices]
    more = ' more=1' if any(each.word == OF_WORKER for each in options) else ''
    line = f"        {name}) words='{' '.join(words)}' paths='{' '.join(paths)}' values='{' '.join(values)}'{more}"
    chosen = ''.join(
        f"\n            [[ $before != {each.word} ]] || words='{' '.join(each.choices)}'"
        for each in named(options) if each.choices
    )  # fmt: skip
    return f'{line}{chosen} ;;\n'


# ---- zsh


def for_zsh(commands: Commands) -> str:
    abouts = ''.join(f"        '{name}:{about}'\n" for name, (about, _) in commands.items())
    cases = ''.join(
        f'        {name}) _arguments {" ".join(zsh_words(each))} ;;\n' for name, (_, each) in commands.items()
    )
    return f"""\
#compdef {PROGRAM}
# Completion of {PROGRAM} in zsh: put it into a file _{PROGRAM} in a folder of fpath.
_bully_member() {{
    local -a commands
    commands=(
{abouts}    )
    if ((CURRENT == 2)); then
        _describe command commands
        _arguments '--help[show help]' '--version[show the version]'
        return
    fi
    shift words
    ((CURRENT--))
    case $words[1] in
{cases}    esac
}}
if [[ $funcstack[1] == _{PROGRAM} ]]; then
    _bully_member "$@"
else
    compdef _bully_member {PROGRAM}
fi
"""


def zsh_words(options: Sequence[Option]) -> Iterator[str]:
    """The specifications for `_arguments`."""
    for option in named(options):
        about = quoted(option).replace('[', '(').replace(']', ')').replace(':', '\\:')
        yield f"'{option.word}[{about}]{zsh_value(option) if option.needs_value else ''}'"
    for argument in arguments(options):
        yield "'*::WORKER:_normal'" if argument.word == OF_WORKER else f"'{zsh_value(argument)}'"


def zsh_value(option: Option) -> str:
    values = '_files' if is_file(option) else f'({" ".join(option.choices)})' if option.choices else ''
    return f':{option.value or option.word[2:].replace("-", "_")}:{values}'


# ---- fish


def for_fish(commands: Commands) -> str:
    first = f'complete -c {PROGRAM} -n __fish_use_subcommand'
    about_all = f"{first} -l help -d 'show help'", f"{first} -l version -d 'show the version'"
    lines = [f'complete -c {PROGRAM} -f', *about_all]
    for name, (about, options) in commands.items():
        lines.append(f"{first} -a {name} -d '{about}'")
        lines += fish_lines(f"complete -c {PROGRAM} -n '__fish_seen_subcommand_from {name}'", options)
    head = f'# Completion of {PROGRAM} in fish: put it into ~/.config/fish/completions/{PROGRAM}.fish.'
    return '\n'.join([head, *lines, ''])


def fish_lines(begin: str, options: Sequence[Option]) -> Iterable[str]:
    """The lines of a command, each of which starts with these words."""
    for option in named(options):
        value = ' -F -r' if is_file(option) else ' -x' if option.needs_value else ''
        chosen = f" -a '{' '.join(option.choices)}'" if option.choices else ''
        yield f"{begin} -l {option.word[2:]} -d '{quoted(option)}'{value}{chosen}"
    for argument in arguments(options):
        if argument.choices:
            yield f"{begin} -a '{' '.join(argument.choices)}'"
        elif argument.word == OF_WORKER:
            yield f'{begin} -F'


SHELLS = {'bash': for_bash, 'zsh': for_zsh, 'fish': for_fish}
