"""Tests of the package as a whole: what it says of itself, what of `include/bully.h` it has, and how the library is
found."""
from __future__ import annotations

import contextlib
import io
import os
import re
import shutil
import subprocess
import sys
import tempfile
import textwrap
import unittest
from pathlib import Path
from typing import Any

import bully
from bully import Answer, CallKind, Status, VerdictKind, Want
from bully.faults import FAULTS
from bully.header import own
from bully.values import Event
from places import PYTHON, ROOT


class Head(unittest.TestCase):
    """What stands at the head of the module."""

    def test_examples(self) -> None:
        for first in ('setup = ', 'header, log = '):
            with self.subTest(first=first):
                program = re.search(rf'\n    {first}.*?\n\n', bully.__doc__ or '', re.DOTALL)
                assert program is not None
                exec(textwrap.dedent(program.group()), vars(bully).copy())

    def test_page(self) -> None:
        """The program of `docs/NODE.md` prints what its comment says."""
        [program] = re.findall(
            r'^```python\n(.*?)^```$', (ROOT / 'docs' / 'NODE.md').read_text(), re.MULTILINE | re.DOTALL
        )
        said = io.StringIO()
        with contextlib.redirect_stdout(said):
            exec(program, {})
        self.assertEqual(said.getvalue(), program.rpartition('# ')[2])
        self.assertEqual(said.getvalue(), 'lawful 2\n')

    def test_docstrings(self) -> None:
        """Everything public says what it is."""
        classes = [
            each for each in vars(bully).values() if isinstance(each, type) and each.__module__.startswith('bully.')
        ]
        owners: list[Any] = [bully, *classes]
        for owner in owners:
            for name, each in vars(owner).items():
                if (
                    name[0] != '_'
                    and getattr(each, '__module__', 'bully').startswith('bully')
                    and (callable(each) or isinstance(each, property))
                ):
                    with self.subTest(owner=owner.__name__, name=name):
                        self.assertTrue((each.__doc__ or '').strip())


class Headers(unittest.TestCase):
    """The numbers and the names of `include/bully.h` are those of the module."""

    text = (ROOT / 'include' / 'bully.h').read_text()

    def numbers(self) -> dict[str, int]:
        named = re.findall(r'\bBULLY_([A-Z_]+)(?: =)? (\d+)\b', self.text)
        return {name: int(number) for name, number in named}

    def statuses(self) -> dict[int, str]:
        """The names of the statuses, which stand in the header up to the functions that tell of them."""
        listed = self.text[self.text.index('    BULLY_OK = 0') : self.text.index('bully_status_name(')]
        return {int(number): name for name, number in re.findall(r'^ +BULLY_([A-Z_]+) = (\d+)', listed, re.MULTILINE)}

    def test_functions(self) -> None:
        """Each function of the header is known, with as many parameters as it has there."""
        told = dict(re.findall(r'^\w.*\b(bully_\w+)\(([^)]*)\);$', self.text, re.MULTILINE))
        self.assertGreater(len(told), 50)
        wanted = {name: 0 if taken == 'void' else 1 + taken.count(',') for name, taken in told.items()}
        self.assertEqual({name: len(takes) for name, _, takes in own().functions()}, wanted)

    def test_statuses(self) -> None:
        """Each status of the header has its exception, which has its name, and no other number has a name."""
        statuses = self.statuses()
        self.assertEqual(set(FAULTS), set(statuses) - {0})
        for number in (*range(300), 0xFFFF_FFFF):
            with self.subTest(number=number):
                self.assertEqual(bully.status_name(number), statuses.get(number, '?'))
        for number, fault in FAULTS.items():
            with self.subTest(fault=fault.__name__):
                self.assertEqual(re.sub(r'(?<!^)(?=[A-Z])', '_', fault.__name__).upper(), statuses[number])
                self.assertIn(fault.__name__, bully.__all__)
                self.assertIs(getattr(bully, fault.__name__), fault)

    def test_limits(self) -> None:
        named = self.numbers()
        for name in ('NODES_MAX', 'PARTITIONS_MAX', 'WEIGHT_MAX', 'EVENTS_MAX'):
            self.assertEqual(named[name], getattr(bully, name))

    def test_enumerations(self) -> None:
        named = self.numbers()
        prefixes = {Status: '', Want: 'WANTS_', CallKind: '', Answer: '', VerdictKind: '', Event: 'EVENT_'}
        for kind, prefix in prefixes.items():
            for member in kind:
                with self.subTest(member=member):
                    self.assertEqual(named[prefix + member.name], member.value)

    def test_version(self) -> None:
        program = (ROOT / 'crates' / 'bully_cli' / 'src' / 'help.rt').read_text()
        told = re.search(r'VERSION: &str = "([0-9]+\.[0-9]+\.[0-9]+)', program)
        assert told is not None
        self.assertEqual(bully.version(), told.group(1))
        self.assertEqual(bully.__version__, told.group(1))

    def test_names(self) -> None:
        """A number of the library is shown by its name, as the rows of traces spell it."""
        spelled = [
            (Status, 'down election reorganization normal'),
            (Want, 'nothing start move plan await'),
            (CallKind, 'are-you-up are-you-normal halt new-coordinator ready'),
            (Answer, 'done yes no failed discarded'),
            (VerdictKind, 'lawful refused differs'),
            (Event, 'crash recover check timeout drop'),
        ]
        for kind, names in spelled:
            self.assertEqual([str(each) for each in kind], names.split())
            self.assertEqual([f'{each}' for each in kind], names.split())
        self.assertEqual(f'{Status.NORMAL:>8}', '  normal')
        self.assertEqual(f'{int(Status.NORMAL)}', '3')


class Loading(unittest.TestCase):
    """How the library is found."""

    def run_with(self, library: str | None, program: str, place: Path = PYTHON) -> subprocess.CompletedProcess[str]:
        environment = {name: value for name, value in os.environ.items() if name != 'BULLY_LIBRARY'}
        if library is not None:
            environment['BULLY_LIBRARY'] = library
        environment['PYTHONPATH'] = str(place)
        words = [sys.executable, '-c', program]
        return subprocess.run(words, env=environment, cwd=place, capture_output=True, text=True)

    def test_ways(self) -> None:
        folder = os.environ['BULLY_LIBRARY']
        name = 'import bully; print(bully.status_name(0))'
        for library, program in (
            (folder, name),
            (os.path.join(folder, 'lib'), name),
            (os.path.join(folder, 'lib', 'libbully.so'), name),
            (None, f'import bully; bully.load({folder!r}); print(bully.status_name(0))'),
            ('/nowhere', f'import bully, pathlib; bully.load(pathlib.Path({folder!r})); print(bully.status_name(0))'),
        ):
            with self.subTest(library=library, program=program):
                self.assertEqual(self.run_with(library, program).stdout, 'OK\n')

    def test_nowhere(self) -> None:
        for library in ('/nowhere', 'libc.so.6', __file__):
            with self.subTest(library=library):
                ran = self.run_with(library, 'import bully; bully.status_name(0)')
                self.assertEqual(ran.returncode, 1)
                self.assertRegex(ran.stderr, 'NoLibrary: .*bin/library.*BULLY_LIBRARY')

    def test_what_the_demo_built(self) -> None:
        """In the sources the library without proofs is found, if there is no other one, by the package and for a wheel,
        which says so."""
        with tempfile.TemporaryDirectory() as room:
            top, python = Path(room).resolve(), Path(room, 'bindings', 'python').resolve()
            shutil.copytree(PYTHON, python, ignore=shutil.ignore_patterns('__pycache__'))
            shutil.copytree(ROOT / 'include', top / 'include')
            shutil.copytree(os.environ['BULLY_LIBRARY'], top / 'out' / 'unproved' / 'library')
            self.assertEqual(self.run_with(None, 'import bully; print(bully.status_name(0))', python).stdout, 'OK\n')
            wheel = (
                'import sys; sys.path.append("building"); import wheel_of_bully; print(wheel_of_bully.find_library())'
            )
            ran = self.run_with(None, wheel, python)
            self.assertEqual(ran.stdout, f'{top}/out/unproved/library/lib/libbully.so\n')
            self.assertIn('which is not proved', ran.stderr)

    def test_a_package_alone(self) -> None:
        """One that was copied out of its tree takes the header that lies with the library, and says so if there is
        none."""
        name = 'import bully; print(bully.status_name(0))'
        with tempfile.TemporaryDirectory() as room:
            shutil.copytree(PYTHON / 'bully', Path(room) / 'bully', ignore=shutil.ignore_patterns('__pycache__'))
            self.assertEqual(self.run_with(os.environ['BULLY_LIBRARY'], name, Path(room)).stdout, 'OK\n')
            self.assertIn(
                'ImportError: bully.h is in none of these places', self.run_with(None, name, Path(room)).stderr
            )
