"""Plants bugs, one at a time: in the package `bully`, in the proved rules of a member, or in both. Each must be found.

    tests/members/run wrong FOLDER [WORDS ..] [--edited FOLDER] [--jobs COUNT]
                                                plants each bug, or each whose entry has one of these words, and runs
                                                what must find it
    tests/members/run wrong FOLDER --turn       plants the quarter that was found the longest ago, as the gate does
    tests/members/run wrong --note              notes in `last-found.txt` what the last run with --turn found
    tests/members/run wrong --fit               checks that each bug fits its file, and has its test, as the gate does
    tests/members/run wrong --list [WORDS ..]   lists them, with the days when they were last found

The first FOLDER is what `bin/library` wrote. A bug in the rules is an edit of a crate, which takes a library that has
this edit and isn't proved. It is built in the other FOLDER, in some two minutes, unless it is there, made of what the
sources are now. Without that FOLDER it is left out.

`wrong-bodies.txt` has the bugs. An entry begins with what is changed, a colon, and a sentence that says what is wrong.
What is changed is a file of the package, an edit of a crate, or both, with a comma. Below that are indented:

- what must find it, once or more often: `test` and a test of the package; or `run` and the words of a program of
  `tests/members/run`, then a bar and a part of what that program says if it finds the bug;
- for a file lines after `-` that are there once, and after `+` what replaces them. Those after `file` and the name of
  another file are of that one.

`last-found.txt` has the day on which each was last found. If the list is noted and committed after each gate, all have
been planted within four gates.

Without the bug a test or a program must pass, and with it it must fail. What comes out otherwise is run up to twice
more, with twice the patience, because a busy machine may starve it. A test that doesn't end in a minute fails. The last
line is 'N passed, M failed'; the exit status is 0 if M is 0. """
from __future__ import annotations

import argparse
import os
import re
import shutil
import subprocess
import sys
import tempfile
import time
import unittest
import zlib
from collections.abc import Iterable, Iterator
from concurrent.futures import ThreadPoolExecutor
from dataclasses import dataclass, field
from datetime import date
from pathlib import Path

from bully.processes import adopt, end_children
from counts import Counts
from places import PYTHON, ROOT
from .edited import build

BUGS = Path(__file__).with_name('wrong-bodies.txt')
LAST_FOUND = BUGS.with_name('last-found.txt')
INDENT = '    '  # of the lines of an entry below its first one
TURN = ROOT / 'out' / 'found-in-turn.txt'  # what the last run with --turn found
TURNS = 4  # within so many all are planted
TRIES = 3  # of what comes out otherwise than it must
LONGEST = 400.0  # seconds that a test takes at most, with what it cleans up
RUN = """
import sys, unittest
from counting import CountingResult
tests = unittest.defaultTestLoader.loadTestsFromName(sys.argv[1])
result = unittest.TextTestRunner(resultclass=CountingResult).run(tests)
print('passed' if result.passed and not result.failed else 'failed' if result.failed else 'skipped')
"""


@dataclass
class Change:
    """Lines of a file of the package, and what replaces them."""

    file: str
    old: list[str] = field(default_factory=list)
    new: list[str] = field(default_factory=list)

    def made(self, package: Path) -> str | None:
        """The text of the file with the change; none if the lines aren't there once."""
        text, old = (package / self.file).read_text(), '\n'.join(self.old)
        return text.replace(old, '\n'.join(self.new)) if text.count(old) == 1 else None


@dataclass
class Bug:
    """An entry."""

    text: str
    sentence: str = ''
    finders: list[tuple[str, str]] = field(default_factory=list)  # the word, and what follows it
    edit: str = ''
    changes: list[Change] = field(default_factory=list)

    def read_head(self, line: str) -> None:
        """Its first line."""
        where, _, self.sentence = line.partition(': ')
        for name in where.split(', '):
            if name.endswith('.edit'):
                found = [str(path.relative_to(ROOT)) for path in ROOT.glob(f'crates/*/*wrong-bodies/{name}')]
                self.edit = found[0] if len(found) == 1 else name
            else:
                self.changes.append(Change(name))

    def read(self, line: str) -> None:
        """A line below that."""
        word, _, more = line.partition(' ')
        if word in ('test', 'run'):
            self.finders.append((word, more))
        elif word == 'file':
            self.changes.append(Change(more))
        elif word == '-' and self.changes[-1].new:
            self.changes.append(Change(self.changes[-1].file, [more]))
        else:
            {'-': self.changes[-1].old, '+': self.changes[-1].new}[word].append(more)

    def plant(self, package: Path) -> bool:
        """Whether all of its changes fit; then they are made."""
        for change in self.changes:
            made = change.made(package)
            if made is None:
                return False
            (package / change.file).write_text(made)
        return True

    def misfit(self) -> str:
        """Why it can't be tried, if it can't."""
        with tempfile.TemporaryDirectory() as folder:
            for name in {change.file for change in self.changes}:
                Path(folder, name).parent.mkdir(exist_ok=True)
                shutil.copy(PYTHON / 'bully' / name, Path(folder, name))
            if not self.plant(Path(folder)):
                return 'its lines are not in their file once'
        if self.edit and not (ROOT / self.edit).is_file():
            return f'there is no {self.edit}'
        missing = [test for word, test in self.finders if word == 'test' and not is_test(test)]
        return f'there is no {missing[0]}' if missing else '' if self.finders else 'it names nothing that must find it'


def is_test(name: str) -> bool:
    loader = unittest.TestLoader()
    return loader.loadTestsFromName(name).countTestCases() == 1 and not loader.errors


def bugs(words: list[str]) -> list[Bug]:
    """Those whose entries have one of these words; all, if there are none."""
    texts = re.split(r'\n(?=\S)', BUGS.read_text().strip())
    found = [Bug(text) for text in texts if not words or any(each in text for each in words)]
    for bug in found:
        head, *lines = bug.text.split('\n')
        bug.read_head(head)
        for line in lines:
            bug.read(line[len(INDENT) :])
    return found


def days_of(file: Path) -> dict[str, str]:
    """When bugs were found, by their sentences, in such a list."""
    lines = file.read_text().splitlines() if file.exists() else []
    return {sentence: day for day, _, sentence in (line.partition(' ') for line in lines)}


def in_turn(planted: list[Bug], days: dict[str, str]) -> list[Bug]:
    """The share of these that was found the longest ago, or never. Bugs of one file are beside each other in the list,
    so those of one day are mixed."""
    oldest = sorted(planted, key=lambda bug: (days.get(bug.sentence, ''), zlib.crc32(bug.sentence.encode())))
    return oldest[: -(-len(planted) // TURNS)]


def write_days(file: Path, days: dict[str, str], known: Iterable[Bug]) -> None:
    """Writes these days, without those of bugs that are gone."""
    file.parent.mkdir(parents=True, exist_ok=True)
    file.write_text(''.join(f'{days[bug.sentence]} {bug.sentence}\n' for bug in known if bug.sentence in days))


class Room:
    """A copy of the package and its tests, in which a bug is planted, or none."""

    def __init__(self, folder: Path, library: Path, bug: Bug | None = None) -> None:
        self.python, self.library, tests = folder / 'bindings' / 'python', library, folder / 'tests'
        told = {'BULLY_LIBRARY': str(library), 'PYTHONPATH': f'{tests}:{self.python}', 'PYTHONDONTWRITEBYTECODE': '1'}
        self.environment = {**os.environ, **told}
        for each in ('examples', 'docs', 'include', 'crates'):
            (folder / each).symlink_to(ROOT / each)
        for source, copy in ((PYTHON, self.python), (ROOT / 'tests', tests)):
            shutil.copytree(source, copy, symlinks=True, ignore=shutil.ignore_patterns('__pycache__'))
        if bug is not None:
            bug.plant(self.python / 'bully')

    def said(self, words: list[str]) -> tuple[int, str]:
        """What a command says, and its exit status; -1 if it doesn't end."""
        with tempfile.TemporaryFile('w+') as said:
            pipes = {'stdout': said, 'stderr': subprocess.STDOUT}
            begun = subprocess.Popen([sys.executable, *words], cwd=self.python, env=self.environment, **pipes)  # type: ignore[call-overload]
            try:
                status = begun.wait(LONGEST)
            except subprocess.TimeoutExpired:
                begun.kill()
                begun.wait()
                status = -1
            said.seek(0)
            return status, said.read()

    def outcome(self, finder: tuple[str, str]) -> str:
        """The outcome of what must find a bug: `passed`, `failed`, or something else."""
        word, more = finder
        words, _, says = more.partition(' | ')
        if word == 'test':
            status, told = self.said(['-c', RUN, words])
        else:
            program, *others = words.split()
            status, told = self.said(['-m', f'members.{program}', str(self.library), *others])
        if status == -1:
            return f'not ended in {LONGEST:.0f} s'
        if re.search('_FailedTest|SyntaxError|ImportError', told):
            return 'not run'
        if word == 'test':
            return told.rstrip().rsplit('\n', 1)[-1]
        return 'passed' if status == 0 else 'failed' if says in told else f'another failure: {told[-300:]}'


def patiently(finder: tuple[str, str], tries: int) -> tuple[str, str]:
    """The same with twice the patience for each try before."""
    word, more = finder
    return word, re.sub(r'--patience (\d+)', lambda found: f'--patience {int(found[1]) << tries}', more)


def outcome_of(room: Room, finder: tuple[str, str], wanted: str) -> tuple[str, str]:
    """The outcome in a room, of the first try that comes out as it must, or of the last one; and how long all took, and
    how many tries, if there was more than one."""
    began = time.monotonic()
    for tries in range(TRIES):
        outcome = room.outcome(patiently(finder, tries))
        if outcome in (wanted, 'skipped'):
            break
    took = f'in {time.monotonic() - began:.1f} s'
    return outcome, f'{took}, at try {tries + 1}' if tries else took


class Trial:
    """Bugs that are planted, over a library, and over libraries of rules with an edit."""

    def __init__(self, library: Path, edited: Path | None, counts: Counts, room: str, jobs: int) -> None:
        self.edited, self.counts, self.folder, self.jobs = edited, counts, Path(room), jobs
        self.libraries = {'': library}  # by the edits that they are built with
        self.right = self.room('right', library)
        self.before: dict[tuple[str, str], str] = {}  # what becomes of each finder without a bug
        self.found: dict[str, str] = {}  # today, by the sentences of the bugs that each of their finders found

    def room(self, name: str, library: Path, bug: Bug | None = None) -> Room:
        (self.folder / name).mkdir()
        return Room(self.folder / name, library, bug)

    def build(self, planted: list[Bug]) -> None:
        """Builds the libraries with their edits."""
        edits = sorted({bug.edit for bug in planted if bug.edit})
        folders = {edit: self.edited / Path(edit).stem for edit in edits if self.edited}
        with ThreadPoolExecutor(self.jobs) as pool:
            are_built = list(pool.map(lambda edit: build(ROOT / edit, folders[edit]), folders))
        self.libraries.update(each for each, is_built in zip(folders.items(), are_built) if is_built)

    def try_bug(self, number: int, bug: Bug) -> Iterator[tuple[str, str]]:
        """Of each of its finders whether it `found` it, and passes without it, `missed` it, or was `skipped`; and
        more."""
        if bug.edit not in self.libraries:
            yield 'missed', f'{bug.sentence}: no library was built with {bug.edit}'
            return
        room = self.room(str(number), self.libraries[bug.edit], bug)
        for finder in bug.finders:
            told = f'{" ".join(finder)}: {bug.sentence}'
            if finder not in self.before:
                self.before[finder], took = outcome_of(self.right, finder, 'passed')
                print(f'{self.before[finder]} {took} without it: {told}', flush=True)
            before, (after, took) = self.before[finder], outcome_of(room, finder, 'failed')
            print(f'{after} {took}: {told}', flush=True)
            both = f'{before} without it, and {after} with it: {told}'
            yield {('passed', 'failed'): 'found', ('skipped', 'skipped'): 'skipped'}.get(
                (before, after), 'missed'
            ), both
            if self.jobs == 1:
                end_children(frozenset(), LONGEST, print)  # what a bug left
        shutil.rmtree(self.folder / str(number))

    def run(self, planted: list[Bug]) -> None:
        self.build(planted)
        adopt()
        with ThreadPoolExecutor(self.jobs) as pool:
            for bug, found in zip(planted, pool.map(lambda each: list(self.try_bug(*each)), enumerate(planted))):
                if all(what == 'found' for what, _ in found):
                    self.found[bug.sentence] = date.today().isoformat()
                for what, told in found:
                    self.counts.skip(told, 'what it takes is not there') if what == 'skipped' else self.counts.hold(
                        what == 'found', told
                    )
        end_children(frozenset(), LONGEST, print)


def options_of(words: list[str]) -> argparse.Namespace:
    parser = argparse.ArgumentParser(description=__doc__, formatter_class=argparse.RawDescriptionHelpFormatter)
    parser.add_argument('words', nargs='*')
    parser.add_argument('--edited', type=Path)
    parser.add_argument('--jobs', type=int, default=1)
    for each in ('--turn', '--note', '--fit', '--list'):
        parser.add_argument(each, action='store_true')
    options = parser.parse_intermixed_args(words)
    needs_library = not (options.note or options.fit or options.list)
    if needs_library and not options.words:
        parser.error('there is no FOLDER')
    options.library = Path(options.words.pop(0)) if needs_library else None
    return options


def main(words: list[str]) -> int:
    options, counts = options_of(words), Counts()
    planted, days = bugs(options.words), days_of(LAST_FOUND)
    if options.note:
        write_days(LAST_FOUND, {**days, **days_of(TURN)}, planted)
        counts.hold(TURN.exists(), f'there is no {TURN}: no run with --turn ended')
    if options.list:
        print(
            *(
                f'{days.get(bug.sentence, "never")} {bug.sentence}: {"; ".join(map(" ".join, bug.finders))}'
                for bug in planted
            ),
            sep='\n',
        )
    if options.turn:
        planted = in_turn(planted if options.edited else [bug for bug in planted if not bug.edit], days)
    if not planted:
        counts.hold(False, 'there is no such bug')
    misfits = {bug.text: bug.misfit() for bug in planted}
    if options.fit:
        counts.hold(len({bug.sentence for bug in planted}) == len(planted), 'two bugs have one sentence')
    fitting = [bug for bug in planted if not misfits[bug.text]]
    for bug in planted:
        if misfits[bug.text] or options.library is None:
            counts.hold(not misfits[bug.text], f'{bug.sentence}: {misfits[bug.text]}')
    if options.library is not None:
        for bug in (each for each in fitting if each.edit and not options.edited):
            counts.skip(bug.sentence, 'it takes a library with an edit: --edited')
        fitting = [bug for bug in fitting if options.edited or not bug.edit]
        edited = options.edited.resolve() if options.edited else None
        with tempfile.TemporaryDirectory() as room:
            trial = Trial(options.library.resolve(), edited, counts, room, options.jobs)
            trial.run(fitting)
            if options.turn:
                write_days(TURN, {**days_of(TURN), **trial.found}, bugs([]))
    return counts.end()


if __name__ == '__main__':
    sys.exit(main(sys.argv[1:]))
