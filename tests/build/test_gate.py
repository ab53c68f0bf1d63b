"""The gate: what is counted, when a part begins, and what is kept of a green run."""
import contextlib
import io
import os
import shutil
import signal
import subprocess
import sys
import tempfile
import unittest
from pathlib import Path
from unittest import mock

from building.crates import read_crates, words_to_build
from building.exports import write_exports
from counting import run_folder
from counts import Counts
from reading import Case, Reader
from stand_in import ROOT, Tree, as_ever, is_there, program, waited

# A gate that proves base and bully and leaves what it built, once the test lets it go on; `verdict` has its last line.
GATE = r'''#!/bin/sh
echo $$ >ROOM/gate
mkdir -p crates/base/out/rlib/base.rlib crates/bully/out crates/bully_c/out
: >crates/base/out/rlib/base.rlib/format
echo gated >crates/base/out/rlib/base.rlib/code
echo 'rt: base proved'
echo 'rt: bully_c proved'
while [ -e ROOM/hold/gate ]; do sleep 0.01; done
echo program >crates/bully/out/bully; chmod 755 crates/bully/out/bully
echo archive >crates/bully_c/out/libbully_c.a
echo 'rt: bully proved'
while [ -e ROOM/hold/last ]; do sleep 0.01; done
cat ROOM/verdict
tail -n 1 ROOM/verdict | grep -q ', 0 failed$'
'''
# Runs the gate over these parts in place of its own, and prints the last line.
RUN = '''
import sys
sys.path[:0] = ['bin', 'tests']
import gate, parts
more = {{'left-out': {{'whole': 'none'}}, 'endless': {{'limit': 1}}, 'starved': {{'is_timed': True}}}}
part = lambda name, needs: parts.Part(name, './part ' + name, ' '.join(needs), **more.get(name, {{}}))
parts.PARTS[:] = [part(*each) for each in {parts!r}]
counts = gate.prove('whole')
print(counts.last())
'''
PART = r'''#!/bin/sh
echo "begin $1" >>ROOM/parts
[ "$1" != held ] || { echo $$ >ROOM/held; while [ -e ROOM/hold/held ]; do sleep 0.01; done; }
[ "$1" != empty ] || { echo '0 passed, 0 failed'; exit; }
[ "$1" != endless ] || exec sleep 100
[ "$1" != bad ] || { echo 'no count'; exit 1; }
[ "$1" != starved ] || [ -e ROOM/fed ] || { touch ROOM/fed; echo '2 passed, 1 failed'; exit 1; }
[ "$1" != starved ] || [ ! -e ROOM/hungry ] || { echo '1 passed, 2 failed'; exit 1; }
echo '2 passed, 1 failed'
[ "$1" = wrong ] || { echo '3 passed, 0 failed'; exit 0; }
echo '3 passed, 0 failed'; exit 7
'''


class Counting(unittest.TestCase):
    def add(self, said: str, status: int) -> 'tuple[int, int, str]':
        counts, told = Counts(), io.StringIO()
        with contextlib.redirect_stdout(told):
            counts.add(said, status, 'it')
        return counts.passed, counts.failed, told.getvalue()

    def test_the_last_line_is_added(self) -> None:
        self.assertEqual(self.add('1 passed, 1 failed\n20 passed, 3 failed\n', 1), (20, 3, ''))

    def test_a_status_that_no_failure_explains_is_one(self) -> None:
        self.assertEqual(self.add('20 passed, 0 failed\n', 2), (20, 1, 'FAILED: it ended with status 2\n'))

    def test_what_was_skipped_is_added_and_is_no_failure(self) -> None:
        self.assertEqual(self.add('0 passed, 0 failed, 2 skipped\n', 0), (0, 0, ''))
        self.assertEqual(self.add('test result: ok. 6 passed; 0 failed; 0 ignored; 0 filtered out\n', 0), (6, 0, ''))

    def test_the_last_line_says_what_was_skipped_and_that_nothing_was_tried(self) -> None:
        for call, wanted in (
            ('', ('0 passed, 1 failed', 1)),
            ("it.skip('it', 'why')", ('0 passed, 0 failed, 1 skipped', 0)),
            ("it.hold(True, 'it')", ('1 passed, 0 failed', 0)),
        ):
            words = [sys.executable, '-c', f'import counts, sys\nit = counts.Counts()\n{call}\nsys.exit(it.end())']
            ran = subprocess.run(words, cwd=ROOT / 'tests', stdout=subprocess.PIPE, text=True)
            self.assertEqual((ran.stdout.splitlines()[-1], ran.returncode), wanted)

    def test_a_last_line_that_counts_nothing_is_one(self) -> None:
        self.assertEqual(
            self.add('0 passed, 0 failed\n', 0), (0, 1, 'FAILED: it ended with no last line that counts\n')
        )
        self.assertEqual(
            self.add('20 passed, 0 failed\nbye\n', 0), (0, 1, 'FAILED: it ended with no last line that counts\n')
        )
        self.assertEqual(self.add('', 0)[1], 1)


class Folders(unittest.TestCase):
    def test_each_module_of_a_folder_is_run_or_those_that_are_named(self) -> None:
        with tempfile.TemporaryDirectory() as room, mock.patch.object(sys, 'path', [room, *sys.path]):
            Path(room, 'tried').mkdir()
            for name, count in (('one', 1), ('two', 2)):
                tests = ''.join(
                    f'    def test_{number}(self): self.assertEqual({number}, 0)\n' for number in range(count)
                )
                Path(room, 'tried', f'test_{name}.py').write_text(
                    f'import unittest\nclass It(unittest.TestCase):\n{tests}'
                )
            for names, wanted in (((), '2 passed, 1 failed'), (('test_two', 'test_six'), '1 passed, 2 failed')):
                counts = Counts()
                with contextlib.redirect_stdout(io.StringIO()):
                    run_folder(Path(room, 'tried'), 'tried', counts, names)
                self.assertEqual(counts.last(), wanted)


class Cases(unittest.TestCase):
    def read(self, text: str) -> 'tuple[list[tuple[str, str, str, str, str, int]], Counts]':
        counts = Counts()
        with contextlib.redirect_stdout(io.StringIO()):
            return [tuple(case) for case in Reader('a.txt', counts).read(text)], counts  # type: ignore[misc]

    def test_each_line_is_what_it_begins_as(self) -> None:
        found, counts = self.read(
            '# First.\n$ bully check\n< one\n<\n> two\n! three\n= 4\n\n\n# Second.\n$ bully help\n'
        )
        self.assertEqual(found[0], ('a.txt:1, First.', 'bully check', 'one\n\n', 'two\n', 'three\n', 4))
        self.assertEqual(found[1], ('a.txt:10, Second.', 'bully help', '', '', '', 0))
        self.assertEqual((len(found), counts.failed), (2, 0))

    def test_a_case_without_a_command_and_a_strange_line_are_failures(self) -> None:
        found, counts = self.read('# First.\n> two\n\n# Second.\n# bully help\n\n$ bully help\nstrange\n>strange\n')
        self.assertEqual((len(found), counts.failed), (1, 4))

    def test_a_second_command_is_a_failure(self) -> None:
        self.assertEqual(
            self.read('# First.\n$ bully help\n# Second.\n$ bully help\n\n# Third.\n$ bully help\n')[1].failed, 1
        )

    def test_a_case_whose_tool_is_missing_is_skipped(self) -> None:
        found, counts = self.read(
            '# First.\n? sh no-such-tool\n$ bully check\n> one\n\n# Second.\n? sh\n$ bully help\n\n$ bully help\n'
        )
        self.assertEqual([case[0] for case in found], ['a.txt:6, Second.', 'a.txt'])
        self.assertEqual(counts.last(), '0 passed, 0 failed, 1 skipped')


class Sessions(unittest.TestCase):
    def setUp(self) -> None:
        room = tempfile.TemporaryDirectory()
        self.addCleanup(room.cleanup)
        self.tried = program('cases')
        Path(room.name, 'bully').write_text('#!/bin/sh\ncat\necho told >&2\nexit 3\n')
        Path(room.name, 'bully').chmod(0o755)
        Path(room.name, 'room').mkdir()
        with mock.patch.object(self.tried, 'PROGRAM', Path(room.name, 'bully')):
            self.room = self.tried.Room(Path(room.name, 'room'), Counts())

    def run_case(self, case: Case) -> 'tuple[str, str]':
        self.room.counts, told = Counts(), io.StringIO()
        with contextlib.redirect_stdout(told):
            self.room.run(case)
        return self.room.counts.last(), told.getvalue()

    def test_output_errors_and_status_count_each(self) -> None:
        right = Case('it', 'bully', 'said\n', 'said\n', 'told\n', 3)
        for case, is_right in (
            (right, True), (right._replace(stdin=''), False), (right._replace(stdout=''), False),
            (right._replace(stderr=''), False), (right._replace(stderr='tell\n'), False),
            (right._replace(status=0), False), (right._replace(stderr='...\n'), True),
            (right._replace(command='bully 2>&-', stderr='...\n'), False),
            (right._replace(command='bully 2>&-', stderr=''), True),
        ):  # fmt: skip
            last, told = self.run_case(case)
            self.assertEqual(last, '1 passed, 0 failed' if is_right else '0 passed, 1 failed', f'{case}\n{told}')

    def test_one_that_never_ends_is_ended_whether_it_waits_or_is_busy(self) -> None:
        with mock.patch.multiple(self.tried, LOOK=0.2, IDLE_MAX=1, BUSY_MAX=1):
            for command in ('sleep 600', 'while :; do :; done'):
                last, told = self.run_case(Case('it', command, status=-signal.SIGTERM))
                self.assertEqual((last, 'it was ended' in told), ('0 passed, 1 failed', True), told)


class Gated(unittest.TestCase):
    def setUp(self) -> None:
        self.tree = Tree()
        self.addCleanup(self.tree.remove)
        self.tree.list_crates({'base': '', 'bully': 'base', 'bully_c': 'base'})
        self.tree.write('bully_c', 'src/lib.rt', '// the functions for C\n')
        self.install('kit/bin/rt', GATE)
        self.install('tree/part', PART)
        (self.tree.top / '.gitignore').write_text('out/\n__pycache__/\n')
        for words in (
            ['init', '-q'],
            ['add', '-A'],
            ['-c', 'user.name=a', '-c', 'user.email=a@b.example', 'commit', '-q', '-m', 'all'],
        ):
            self.git(*words)
        self.verdict = '10 passed, 0 failed\n'
        self.path = f'{self.tree.room}/kit/bin:/usr/bin:/bin'

    def git(self, *words: str) -> None:
        environment = {name: value for name, value in os.environ.items() if not name.startswith('GIT_')}
        subprocess.run(['git', '-C', str(self.tree.top), *words], env=environment, check=True)

    def install(self, name: str, text: str) -> None:
        path = self.tree.room / name
        path.write_text(text.replace('ROOM', str(self.tree.room)))
        path.chmod(0o755)

    def begin(self, *parts: 'tuple[str, tuple[str, ...]]') -> 'subprocess.Popen[str]':
        (self.tree.room / 'verdict').write_text(self.verdict)
        words = [sys.executable, '-c', RUN.format(parts=parts)]
        environment, pipe, joined = {'PATH': self.path}, subprocess.PIPE, subprocess.STDOUT
        return subprocess.Popen(
            words, cwd=self.tree.top, env=environment, stdout=pipe, stderr=joined, text=True, preexec_fn=as_ever
        )

    def parts_begun(self) -> str:
        begun = self.tree.room / 'parts'
        return begun.read_text() if begun.exists() else ''

    def last_of(self, *parts: 'tuple[str, tuple[str, ...]]') -> str:
        return self.begin(*parts).communicate(timeout=60)[0].splitlines()[-1]

    def record(self) -> str:
        path = self.tree.top / 'out' / 'proved'
        return path.read_text() if path.exists() else ''

    def test_all_are_counted_once_what_they_need_is_done(self) -> None:
        self.tree.hold('last')
        self.tree.hold('gate')
        run = self.begin(('at-once', ()), ('later', ('bully',)))
        waited(lambda: self.parts_begun() == 'begin at-once\n', 'the first part is begun')
        self.tree.let_go('gate')
        waited(lambda: 'begin later\n' in self.parts_begun(), 'the other part is begun behind its crates')
        self.tree.let_go('last')
        self.assertEqual(run.communicate(timeout=60)[0].splitlines()[-1], '16 passed, 0 failed')

    def test_a_red_part_is_counted_and_nothing_recorded(self) -> None:
        self.assertEqual(self.last_of(('bad', ()), ('wrong', ())), '13 passed, 3 failed')
        self.assertEqual(self.record(), '')

    def test_a_part_that_depends_on_time_is_run_once_more_if_it_fails(self) -> None:
        self.assertEqual(self.last_of(('starved', ()), ('fine', ())), '16 passed, 0 failed')
        self.assertEqual(sorted(self.parts_begun().split('\n')), ['', 'begin fine', 'begin starved', 'begin starved'])
        self.assertEqual(self.parts_begun().split('\n')[-2], 'begin starved')
        (self.tree.room / 'fed').unlink()
        (self.tree.room / 'hungry').touch()
        self.assertEqual(self.last_of(('starved', ()), ('fine', ())), '14 passed, 2 failed')

    def test_the_library_is_made_once_what_it_stands_on_is_done_and_counts_only_if_it_fails(self) -> None:
        self.install(
            'tree/bin/library', '#!/bin/sh\necho "begin $1" >>ROOM/parts\nmkdir -p "$2"\n[ ! -e ROOM/refuse/library ]\n'
        )
        self.tree.hold('gate')
        run = self.begin(('over-it', ('library',)))
        waited(
            lambda: self.parts_begun() == 'begin --gated\nbegin over-it\n', 'the part is begun before bully is proved'
        )
        self.tree.let_go('gate')
        self.assertEqual(run.communicate(timeout=60)[0].splitlines()[-1], '13 passed, 0 failed')
        (self.tree.room / 'refuse' / 'library').touch()
        self.assertEqual(self.last_of(('over-it', ('library',))), '13 passed, 1 failed')

    def test_the_wrong_bodies_of_a_crate_are_tried_once_it_is_proved(self) -> None:
        self.tree.write('bully', 'wrong-bodies/main_does_nothing.edit', '# main\n')
        (self.tree.top / 'tests' / 'edits').mkdir()
        self.install('tree/tests/edits/try', '#!/bin/sh\necho "begin $*" >>ROOM/parts\necho 4 passed, 0 failed\n')
        self.tree.hold('gate')
        run = self.begin(('at-once', ()), ('over-it', ('base',)))
        waited(lambda: self.parts_begun() == 'begin at-once\n', 'base is proved')
        self.tree.let_go('gate')
        self.assertEqual(run.communicate(timeout=60)[0].splitlines()[-1], '17 passed, 1 failed')
        self.assertIn('begin --gated bully\n', self.parts_begun())

    def test_what_is_left_out_by_its_words_is_not_run(self) -> None:
        self.assertEqual(self.last_of(('left-out', ()), ('fine', ())), '13 passed, 0 failed')

    def test_a_part_over_what_is_not_built_is_a_failure_and_is_not_run(self) -> None:
        self.assertEqual(self.last_of(('over-it', ('bully_c',))), '10 passed, 1 failed')
        self.assertEqual(self.parts_begun(), '')

    def test_a_red_gate_leaves_nothing_taken(self) -> None:
        self.verdict = '9 passed, 1 failed\n'
        self.assertEqual(self.last_of(('fine', ())), '12 passed, 1 failed')
        self.assertFalse((self.tree.top / 'crates' / 'bully' / 'out' / 'bully.made_of').exists())

    def test_a_bad_edit_is_a_failure(self) -> None:
        self.verdict = 'must-fail a: BAD EDIT\n10 passed, 0 failed\n'
        self.assertEqual(self.last_of(('fine', ())), '13 passed, 1 failed')

    def test_what_a_green_gate_built_is_taken_and_recorded(self) -> None:
        self.assertEqual(self.last_of(('fine', ())), '13 passed, 0 failed')
        archive = self.tree.top / 'crates' / 'bully_c' / 'out' / 'libbully_c.a'
        self.assertEqual(archive.read_text(), 'archive\n')
        self.assertEqual(self.record().splitlines()[0], '13 passed, 0 failed')
        self.tree.make_kit()
        (self.tree.top / 'crates' / 'bully' / 'out' / 'bully').write_text('#!/bin/sh\necho of the gate\n')
        self.assertEqual(self.tree.call('bully').stdout, 'of the gate\n')
        self.assertEqual(self.tree.begun(), [])

    def test_a_library_of_a_green_gate_is_taken(self) -> None:
        self.last_of(('fine', ()))
        self.tree.make_kit()
        self.tree.write('bully', 'src/main.rt', '// another program\n')
        self.assertEqual(self.tree.call('bully', 'it').stdout, 'stand-in it\n')
        self.assertEqual(self.tree.begun(), ['bully'])
        taken = self.tree.top / 'crates' / 'base' / 'out' / 'built' / 'base.rlib' / 'code'
        self.assertEqual(taken.read_text(), 'gated\n')

    def test_what_is_not_committed_is_not_recorded(self) -> None:
        self.git('config', 'status.showUntrackedFiles', 'no')
        (self.tree.top / 'another').touch()
        self.assertEqual((self.last_of(('fine', ())), self.record()), ('13 passed, 0 failed', ''))
        self.git('add', 'another')
        self.assertEqual((self.last_of(('fine', ())), self.record()), ('13 passed, 0 failed', ''))
        self.git('-c', 'user.name=a', '-c', 'user.email=a@b.example', 'commit', '-q', '-m', 'another')
        self.last_of(('fine', ()))
        self.assertNotEqual(self.record(), '')

    def test_without_git_all_is_counted_and_nothing_recorded(self) -> None:
        tools = self.tree.room / 'tools'
        tools.mkdir()
        for tool in ('sh', 'env', 'timeout', 'mkdir', 'chmod', 'sleep', 'cat', 'tail', 'grep'):
            (tools / tool).symlink_to(shutil.which(tool) or tool)
        self.path = f'{self.tree.room}/kit/bin:{tools}'
        self.assertEqual((self.last_of(('fine', ())), self.record()), ('13 passed, 0 failed', ''))

    def test_a_part_that_counts_nothing_is_a_failure(self) -> None:
        self.assertEqual(self.last_of(('empty', ())), '10 passed, 1 failed')

    def test_a_part_that_does_not_end_in_its_time_is_ended_and_a_failure(self) -> None:
        self.assertEqual(self.last_of(('endless', ())), '10 passed, 2 failed')

    def test_who_ends_it_ends_what_runs_and_nothing_more_begins(self) -> None:
        for number in (signal.SIGINT, signal.SIGTERM, signal.SIGHUP, signal.SIGQUIT):
            for name in ('gate', 'held'):
                self.tree.hold(name)
                (self.tree.room / name).unlink(missing_ok=True)
            run = self.begin(('held', ()), ('make_later', ('bully',)), ('later', ('make_later', 'base')))
            processes = [self.tree.room / name for name in ('gate', 'held')]
            waited(
                lambda: all(path.exists() and path.read_text().endswith('\n') for path in processes),
                'the gate and a part run',
            )
            # (twice, as who sees nothing happen presses Ctrl-C again)
            run.send_signal(number)
            run.send_signal(number)
            run.communicate(timeout=60)
            self.assertEqual(run.returncode, 128 + number)
            self.assertEqual([is_there(int(path.read_text())) for path in processes], [False, False])
            self.assertNotIn('later', self.parts_begun())

    def test_the_library_for_c_waits_for_all_that_it_is_built_over(self) -> None:
        crates = read_crates()
        exports = write_exports(crates['bully_c'], self.tree.room / 'exports')
        words = words_to_build(Path('/kit'), crates, exports, 'rlib')
        handed_on = {
            Path(word).parents[1].name
            for word in words
            if word.startswith('dependency=') and word.endswith('/out/rlib')
        }
        self.assertEqual({*crates['bully_c'].all}, handed_on)

    def test_what_was_committed_while_the_gate_ran_is_not_recorded(self) -> None:
        self.tree.hold('last')
        run = self.begin(('at-once', ('bully',)))
        waited(lambda: 'at-once' in self.parts_begun(), 'the gate is under way')
        self.git('-c', 'user.name=a', '-c', 'user.email=a@b.example', 'commit', '-q', '--allow-empty', '-m', 'another')
        self.tree.let_go('last')
        self.assertEqual((run.communicate(timeout=60)[0].splitlines()[-1], self.record()), ('13 passed, 0 failed', ''))

    def test_what_changed_while_the_gate_ran_is_not_taken(self) -> None:
        self.tree.hold('last')
        run = self.begin(('at-once', ('bully',)))
        waited(lambda: 'at-once' in self.parts_begun(), 'the gate is under way')
        self.tree.write('base', 'src/lib.rt', '// another base\n')
        self.tree.let_go('last')
        run.communicate(timeout=60)
        self.assertFalse((self.tree.top / 'crates' / 'bully' / 'out' / 'bully.made_of').exists())
        self.assertEqual(self.record(), '')
