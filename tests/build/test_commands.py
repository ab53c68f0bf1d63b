"""What the commands tell the prover, how they end, and what they do with what was built."""
import os
import re
import signal
import unittest
from pathlib import Path
from typing import List

from stand_in import HEADER, LAYOUT, Tree, files_of, is_there, waited


class Commands(unittest.TestCase):
    def setUp(self) -> None:
        self.tree = Tree()
        self.addCleanup(self.tree.remove)

    def words(self, name: str, source: str, *more: str) -> List[str]:
        """What the prover is told of each crate, and what more of this one."""
        kit = self.tree.room / 'kit'
        logic = [
            '--antt-project',
            f'{kit}/rattle/logic/antt-project.json',
            '--logic-built',
            f'{kit}/logic_built',
            '--links',
            f'{name}=',
        ]
        return ['--crate-name', name, f'src/{source}', '-L', f'dependency={kit}/rlibs', *logic, *more]

    def told(self, since: int = 0) -> 'dict[str, list[str]]':
        """What the prover was told of each crate, after so many runs of it. N stands for how many processes it might
        use."""
        return {
            name: re.sub(r'--jobs \d+', '--jobs N', ' '.join(words)).split()
            for name, *words in self.tree.words()[since:]
        }

    def test_the_prover_is_told_what_a_crate_stands_on_and_what_is_kept(self) -> None:
        kit, crates = self.tree.room / 'kit', self.tree.top / 'crates'
        std, tools = ['--extern', f'std={kit}/rlibs/std.rlib'], ['--toolchain', f'{kit}/toolchain', '--jobs', 'N', '-o']
        over = {
            name: ['--extern', f'{name}={crates}/{name}/out/built/{name}.rlib'] for name in ('base', 'left', 'right')
        }
        below = {name: ['-L', f'dependency={crates}/{name}/out/built'] for name in over}
        more = [*std, *over['base'], *below['base'], *tools, f'{crates}/left/out/built/left.rlib']
        left = ['build', *self.words('left', 'lib.rt', *more)]
        more = [*std, *over['left'], *over['right'], *(word for name in over for word in below[name])]
        bully = [
            'build',
            *self.words('bully', 'main.rt', *more, '--backend', 'llvm', *tools, f'{crates}/bully/out/bully.o'),
        ]
        self.tree.call('bully')
        first = self.told()
        self.assertEqual((first['left'], first['bully']), ([*left, '--statements'], bully))
        self.tree.write('left', 'src/lib.rt', '// another left\n')
        self.tree.call('bully')
        kept = ['--incremental', 'out/incremental']
        self.assertEqual(self.told(4), {'left': [*left, *kept], 'bully': [*bully, *kept]})

    def test_the_program_reads_the_standard_input(self) -> None:
        for command in ('bully', 'try'):
            for _ in range(2):
                self.assertEqual(self.tree.call(command, 'it', given='a row\n').stdout, 'stand-in it\na row\n')

    def test_the_program_has_the_streams_of_the_call_whatever_they_are(self) -> None:
        odd = {
            '': 'open open open',
            '<.': 'folder open open',
            '<&-': 'closed open open',
            '>&-': 'open closed open',
            '2>&-': 'open open closed',
        }
        odd.update({'<. 1<. 2<.': 'folder folder folder', '<&- >&- 2>&-': 'closed closed closed'})
        kinds = 'is=closed; [ ! -e /dev/fd/$each ] || is=open; [ ! -d /dev/fd/$each ] || is=folder'
        for command, place in (('bully', 'crates/bully/out/bully'), ('try', 'out/try/bully')):
            program = self.tree.top / place
            for streams, wanted in odd.items():
                with self.subTest(command=command, streams=streams):
                    program.unlink(missing_ok=True)
                    self.assertNotEqual(self.tree.status_over(streams, command), 125)
                    program.write_text(
                        f'#!/bin/sh\nfor each in 0 1 2 7 8 9; do {kinds}; echo $is >&6; done 6>{self.tree.room}/seen\n'
                        'exit 5\n'
                    )
                    self.assertEqual(self.tree.status_over(streams, command), 5)
                    self.assertEqual((self.tree.room / 'seen').read_text().split(), [*wanted.split(), *['closed'] * 3])

    def test_check_has_one_run_over_sources_and_keeps_others_out(self) -> None:
        call = self.tree.begin_held('left', 'check', 'left', '--only', 'half')
        beside = self.tree.begin('bully', 'it')
        waited(
            lambda: 'waits for another call, which builds or checks base' in self.tree.said(), 'the other call waits'
        )
        self.assertEqual(self.tree.begun(), ['left'])
        self.tree.let_go('left')
        call.communicate(timeout=60)
        self.assertEqual((call.returncode, beside.communicate(timeout=60)[0]), (3, 'stand-in it\n'))
        kit = self.tree.room / 'kit'
        sources = ['--lib', f'base:core,std={self.tree.top}/crates/base/src/lib.rt']
        given = [word for name in ('core', 'std') for word in ('--extern', f'{name}={kit}/rlibs/{name}.rlib')]
        more = ['--jobs', 'N', '--incremental', 'out/whole', '--only', 'half']
        words = re.sub(r'--jobs \d+', '--jobs N', ' '.join(self.tree.words()[0])).split()
        self.assertEqual(words, ['left', 'check', *self.words('left', 'lib.rt', *given, *sources, *more)])

    def test_check_is_of_bully_if_no_crate_is_named(self) -> None:
        self.assertEqual(self.tree.call('check').returncode, 3)
        self.assertEqual(self.tree.begun(), ['bully'])
        refused = self.tree.call('check', 'nobody')
        self.assertEqual((refused.returncode, refused.stderr), (2, 'check: crates.txt has no crate nobody\n'))

    def test_program_builds_the_one_that_is_named(self) -> None:
        self.assertEqual(self.tree.call('../bench/program', 'bully', 'one', 'two').stdout, 'stand-in one two\n')
        for words, said in (
            ((), 'program: crates.txt has no program without a name\n'),
            (('left',), 'left: crates.txt has no program left\n'),
        ):
            refused = self.tree.call('../bench/program', *words)
            self.assertEqual((refused.returncode, refused.stderr), (125, said))

    def test_library_is_made_of_the_archive_and_stays_if_that_is_not_proved(self) -> None:
        self.tree.add_library()
        folder = self.tree.room / 'library'
        made = self.tree.call('library', str(folder))
        self.assertEqual((made.returncode, made.stdout), (0, ''), made.stderr)
        self.assertEqual(files_of(folder), LAYOUT)
        self.assertEqual(os.readlink(folder / 'lib' / 'libbully.so'), 'libbully.so.1')
        self.assertNotIn('@', (folder / 'lib' / 'pkgconfig' / 'bully.pc').read_text())
        self.assertEqual(self.tree.begun(), ['base', 'bully_c', 'bully_c_exports'])
        words = self.tree.words()[2]
        self.assertEqual(words[words.index('--crate-type') + 1], 'staticlib')
        self.assertEqual(words[-2:], ['-o', f'{self.tree.top}/crates/bully_c/out/libbully_c.a'])
        before = {name: (folder / name).stat().st_ino for name in files_of(folder)}
        self.tree.write('base', 'src/lib.rt', '// another base\n')
        (self.tree.room / 'refuse' / 'base').touch()
        self.assertEqual(self.tree.call('library', str(folder)).returncode, 1)
        self.assertEqual({name: (folder / name).stat().st_ino for name in files_of(folder)}, before)
        proved = len(self.tree.words())
        (self.tree.top / 'include' / 'bully.h').write_text(HEADER.replace('uint32_t number', 'int number'))
        refused, begun = self.tree.call('library', str(folder)), len(self.tree.words())
        self.assertEqual((refused.returncode, begun), (1, proved))
        self.assertIn('library: bully.h: number of bully_begin is no number of a known size', refused.stderr)
        self.assertEqual({name: (folder / name).stat().st_ino for name in files_of(folder)}, before)
        strange = ('', 'a b', '--other a', '--gated', '--gated a b', '--gate a', '--unproved', '--gated a --unproved b')
        self.assertEqual(
            {words: self.tree.call('library', *words.split(' ')).returncode for words in strange},
            dict.fromkeys(strange, 2),
        )


class Ending(unittest.TestCase):
    def setUp(self) -> None:
        self.tree = Tree()
        self.addCleanup(self.tree.remove)

    def test_a_signal_ends_the_prover_and_what_that_began(self) -> None:
        for number in (signal.SIGINT, signal.SIGHUP, signal.SIGTERM, signal.SIGQUIT):
            with self.subTest(signal=number):
                self.setUp()
                self.tree.hold('base')
                (self.tree.room / 'child').touch()
                call = self.tree.begin('bully', 'it')
                waited(lambda: ['child', 'base'] in [line[:2] for line in self.tree.log()], 'the prover has a child')
                call.send_signal(number)
                self.assertEqual((call.communicate(timeout=60)[0], call.returncode), ('', 128 + number))
                self.assertFalse(is_there(self.tree.process_of('base') or 0))
                child = int((self.tree.room / 'child').read_text())
                waited(lambda: not is_there(child), 'the child is gone')

    def test_a_signal_that_is_ignored_ends_nothing(self) -> None:
        call = self.tree.begin_held('base', 'bully', 'it', ignored=(signal.SIGHUP,))
        call.send_signal(signal.SIGHUP)
        self.tree.let_go('base')
        self.assertEqual((call.communicate(timeout=60)[0], call.returncode), ('stand-in it\n', 0))

    def test_a_prover_that_is_killed_is_told(self) -> None:
        (self.tree.room / 'kill' / 'left').touch()
        ended = self.tree.call('bully')
        self.assertEqual(ended.returncode, 125)
        self.assertIn('rattle was ended by signal 9\n', ended.stderr)
        self.assertIn('bully: left was not built\n', ended.stderr)

    def test_what_builds_without_proofs_ends_before_its_folder_goes(self) -> None:
        call = self.tree.begin_held('try', 'try', 'it')
        call.send_signal(signal.SIGTERM)
        call.communicate(timeout=60)
        self.assertEqual(call.returncode, 128 + signal.SIGTERM)
        self.assertEqual([what for what, *_ in self.tree.log()], ['begin', 'end'])

    def test_a_program_without_proofs_has_the_signal(self) -> None:
        self.tree.call('try')
        (self.tree.top / 'out' / 'try' / 'bully').write_text(
            '#!/bin/sh\ntrap "exit 7" TERM\necho up\nwhile :; do sleep 0.01; done\n'
        )
        call = self.tree.begin('try')
        self.assertEqual(call.stdout.readline() if call.stdout else '', 'up\n')
        stat = Path(f'/proc/{call.pid}/stat')
        waited(lambda: stat.read_text().rpartition(')')[2].split()[0] == 'S', 'the command waits for its program')
        call.send_signal(signal.SIGTERM)
        call.communicate(timeout=60)
        self.assertEqual(call.returncode, 7)
