"""The wrong bodies: edits of crates/NAME/must-fail, wrong-bodies and more-wrong-bodies, and what each says of itself.
The gate tries those of the first two.

An edit has lines `file: PATH`, and then `old: TEXT` and `new: TEXT` of one line each, where the text stands once in
that file. Its first line names the clause that refuses it, and after that where a goal stays open, if that is
elsewhere: '# film_of (told), in keep'. Without brackets it is whichever clause stays open. A field of what a clause
says comes after a colon: '# World::apply_allowed (applied: step)'."""
import re
from pathlib import Path
from typing import Dict, List, NamedTuple, Optional, Set, Tuple

ROOT = Path(__file__).resolve().parents[1]
FOLDERS = ('must-fail', 'wrong-bodies', 'more-wrong-bodies')
FUNCTION = re.compile(r'^( *)(pub )?(?:pub\([a-z]+\) )?(?:extern "C" )?(?:const )?fn (\w+)')
REFUSED = re.compile(r'# ([\w:]+)(?: \((\w+)(?:: (\w+))?\))?(?:, in ([\w:]+)(?: \((\w+)\))?)?')
PAIR = re.compile(r'^file: (?P<file>.*)|^old: (?P<old>.*)|^new: ?(?P<new>.*)')


class Change(NamedTuple):
    """A text that an edit replaces in a file of its crate."""

    file: str
    old: str
    new: str


class Edit(NamedTuple):
    """A wrong body: its file, and what its first line names, each empty if it doesn't: the function and the clause that
    refuse it, a field of that clause, and the function or the type in which a goal stays open, with the clause
    there."""

    path: Path
    name: str
    clause: str
    field: str
    place: str
    clause_there: str
    changes: Tuple[Change, ...]

    @property
    def folder(self) -> Path:
        """Its crate's folder."""
        return self.path.parents[1]

    @property
    def crate(self) -> str:
        return self.folder.name

    @property
    def where(self) -> str:
        return str(self.path.relative_to(ROOT))

    @property
    def goal(self) -> Tuple[str, str]:
        """The function or the type in which a goal stays open, and the clause, if one is named, whose goal that is."""
        return (self.place, self.clause_there) if self.place else (self.name, self.clause)

    def applied(self, texts: Dict[str, str]) -> Optional[str]:
        """Makes its changes in these texts of its crate, to which it adds the files that it changes. Says why it can't,
        if it can't."""
        for file, old, new in self.changes:
            if not (self.folder / file).is_file():
                return f'there is no {file}'
            text = texts.setdefault(file, (self.folder / file).read_text(encoding='utf-8'))
            if text.count(old) != 1:
                return f'a text stands {text.count(old)} times, and not once: {old}'
            texts[file] = text.replace(old, new)
        return None if self.changes else 'it edits nothing'

    def functions(self) -> Set[str]:
        """The functions in whose bodies its changes lie; an empty name for a change that lies in none."""
        return {
            function_at((self.folder / change.file).read_text(encoding='utf-8'), change.old) for change in self.changes
        }


def function_at(text: str, old: str) -> str:
    """The name of the function in whose body a text lies, or an empty one."""
    before = text.partition(old)[0].splitlines()
    for number in range(len(before) - 1, -1, -1):
        begun = FUNCTION.match(before[number])
        if begun:
            return '' if f'{begun.group(1)}}}' in before[number:] else begun.group(3)
    return ''


def read_edit(path: Path) -> Edit:
    """What an edit has; its names are empty if its first line names nothing."""
    lines = path.read_text(encoding='utf-8').split('\n')
    first = REFUSED.fullmatch(lines[0])
    file, old, changes = '', '', []  # type: str, str, List[Change]
    for found in filter(None, map(PAIR.match, lines)):
        file, old = found['file'] or file, found['old'] or old
        if found['new'] is not None:
            changes.append(Change(file, old, found['new']))
    name, clause, field, place, clause_there = (word or '' for word in first.groups()) if first else ('',) * 5
    return Edit(path, name, clause, field, place, clause_there, tuple(changes))


def edits(*folders: str) -> List[Edit]:
    """The edits of these folders of all crates, in the order of their names."""
    return [
        read_edit(path) for path in sorted(ROOT.glob('crates/*/*/*.edit')) if path.parts[-2] in (folders or FOLDERS)
    ]
