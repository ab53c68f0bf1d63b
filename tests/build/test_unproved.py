"""What bin/test builds without proofs, and which parts it runs."""
import fcntl
import signal
import subprocess
import sys
import unittest
from pathlib import Path

from building.crates import Stopped, read_crates
from building.exports import write_exports
from building.unproved import export, write_main
from stand_in import LAYOUT, Tree, as_ever, files_of, is_there, waited

# bin/test with these parts in place of its own.
RUN = '''
import sys
sys.path[:0] = ['bin', 'tests']
import parts
parts.PARTS[:] = [
    parts.Part('over-it', './part over-it', 'bully', short='few', whole='many'), parts.Part('alone', './part alone'),
    parts.Part('lacking', './part lacking', tools='sh no-such-tool'),
    parts.Part('long', './part long', short='none', whole='none', full='all')]
sys.exit(parts.test(sys.argv[1:], 'short', lambda line: print(line, file=sys.stderr)).end())
'''
PART = '''#!/bin/sh
echo "$*" >>ROOM/parts
[ "$1" != over-it ] || "$BULLY_BUILT/bully" it </dev/null
echo "1 passed, 0 failed"
'''
EXPORTS = '''
#[unsafe(no_mangle)]
pub extern "C" fn bully_c_one(alloc: Global) -> u32
{
}

#[unsafe(no_mangle)]
pub extern "C" fn bully_c_two(
    alloc: Global,
    owners: &mut [u16],
) -> u32
'''
HANDED_ON = '''//! What C sees of bully_c.
#![tactic(auto)]
use bully_c::{CGroup};
use std::alloc::Global;
#[unsafe(no_mangle)]
pub extern "C" fn bully_c_one(alloc: Global) -> u32 {
    bully_c::tables::bully_c_one(alloc)
}
#[unsafe(no_mangle)]
pub extern "C" fn bully_c_two(alloc: Global, owners: &mut [u16], group: &CGroup) -> u32 {
    bully_c::tables::bully_c_two(alloc, owners, group)
}
'''
MODULE = '''define internal noundef i32 @"bully_c::tables::bully_c_one"(ptr %a0) #0 {
  %r = call i32 @"bully_c::tables::bully_c_one"(ptr %a0)
define internal i32 @"bully_c::tables::helper"() #0 {
define i32 @main() #0 {
'''
EXPORTED = '''define noundef i32 @bully_c_one(ptr %a0) #0 {
  %r = call i32 @bully_c_one(ptr %a0)
define internal i32 @"bully_c::tables::helper"() #0 {
define internal i32 @main() #0 {
'''


class Unproved(unittest.TestCase):
    def setUp(self) -> None:
        self.tree = Tree()
        self.addCleanup(self.tree.remove)
        part = self.tree.top / 'part'
        part.write_text(PART.replace('ROOM', str(self.tree.room)))
        part.chmod(0o755)

    def begin(self, *words: str) -> 'subprocess.Popen[str]':
        environment, pipe = {'PATH': f'{self.tree.room}/kit/bin:/usr/bin:/bin'}, subprocess.PIPE
        command = [sys.executable, '-c', RUN, *words]
        return subprocess.Popen(
            command, cwd=self.tree.top, env=environment, stdout=pipe, stderr=pipe, text=True, preexec_fn=as_ever
        )

    def call(self, *words: str) -> 'subprocess.CompletedProcess[str]':
        child = self.begin(*words)
        written, said = child.communicate(timeout=60)
        return subprocess.CompletedProcess(words, child.returncode, written, said)

    def tried(self) -> 'list[str]':
        told = self.tree.room / 'parts'
        return sorted(told.read_text().splitlines()) if told.exists() else []

    def test_all_parts_run_over_what_is_built_and_one_without_its_tool_is_skipped(self) -> None:
        ran = self.call()
        self.assertEqual(
            (ran.stdout.splitlines()[-1], ran.returncode), ('2 passed, 0 failed, 1 skipped', 0), ran.stderr
        )
        self.assertIn('skipped: lacking: there is no no-such-tool\n', ran.stdout)
        self.assertIn('stand-in it\n', ran.stdout)
        self.assertEqual(self.tried(), ['alone', 'over-it few'])
        words = (self.tree.room / 'compiled').read_text().split()
        self.assertEqual((words.count('-O1'), words.count('-O0'), words.count('-fsanitize=address')), (1, 0, 0))

    def test_parts_by_name_and_nothing_is_built_twice(self) -> None:
        self.assertEqual(self.call('alone').stdout.splitlines()[-1], '1 passed, 0 failed')
        self.assertEqual((self.tree.begun(), self.tried()), ([], ['alone']))
        for begun in (['try'], ['try']):
            self.assertEqual(self.call('over-it').stdout.splitlines()[-1], '1 passed, 0 failed')
            self.assertEqual(self.tree.begun(), begun)
        self.tree.write('left', 'src/lib.rt', '// another left\n')
        self.call('over-it')
        self.assertEqual(self.tree.begun(), ['try', 'try'])

    def test_what_is_not_built_is_a_failure_of_each_part_over_it(self) -> None:
        (self.tree.room / 'refuse' / 'try').touch()
        ran = self.call()
        self.assertEqual((ran.stdout.splitlines()[-1], ran.returncode), ('1 passed, 1 failed, 1 skipped', 1))
        self.assertIn('error: expected an item\n', ran.stderr)
        self.assertEqual(self.tried(), ['alone'])

    def test_who_ends_it_ends_what_builds_and_no_part_over_that_begins(self) -> None:
        self.tree.hold('try')
        run = self.begin('over-it')
        waited(lambda: self.tree.process_of('try') is not None, 'it builds')
        run.send_signal(signal.SIGTERM)
        run.communicate(timeout=60)
        self.assertEqual(
            (run.returncode, is_there(self.tree.process_of('try') or 0), self.tried()),
            (128 + signal.SIGTERM, False, []),
        )

    def test_a_strange_name_is_refused(self) -> None:
        refused = self.tree.call('test', 'snippets', 'nobody')
        self.assertEqual(
            (refused.returncode, refused.stderr),
            (1, 'test: there is no part nobody: bin/test --list has their names\n'),
        )

    def test_the_library_is_built_once_and_says_that_nothing_is_proved(self) -> None:
        self.tree.add_library()
        self.tree.write('bully_c', 'src/tables.rt', EXPORTS)
        folder = self.tree.room / 'library'
        first, second = (self.tree.call('library', '--unproved', str(folder)) for _ in range(2))
        self.assertEqual((first.returncode, first.stdout, second.returncode), (0, '', 0), first.stderr)
        self.assertEqual((files_of(folder), self.tree.begun()), (LAYOUT, ['try']))
        said = 'library: builds it without its proofs, in about two minutes of processor time. '
        self.assertIn(f'{said}So this library is not proved: bin/library proves', first.stderr)
        self.assertNotIn('proof', second.stderr)

    def test_the_library_waits_for_another_call_that_builds(self) -> None:
        self.tree.add_library()
        self.tree.write('bully_c', 'src/tables.rt', EXPORTS)
        lock = self.tree.top / 'out' / 'unproved' / 'lock'
        lock.parent.mkdir(parents=True)
        with lock.open('w') as held:
            fcntl.flock(held, fcntl.LOCK_EX)
            call = self.tree.begin('library', '--unproved', str(self.tree.room / 'library'))
            waited(lambda: 'waits for another call, which builds or checks what is in ' in self.tree.said(), 'it waits')
            self.assertEqual(self.tree.begun(), [])
        call.communicate(timeout=60)
        self.assertEqual((call.returncode, self.tree.begun()), (0, ['try']))

    def test_the_main_of_a_library_reaches_each_function_for_c(self) -> None:
        self.tree.list_crates({'base': '', 'bully_c': 'base'})
        self.tree.write('bully_c', 'src/lib.rt', '//! For C.\nmod tables;\n')
        self.tree.write('bully_c', 'src/tables.rt', EXPORTS)
        crate = read_crates(self.tree.top)['bully_c']
        write_main(crate, self.tree.room / 'sources')
        main = (self.tree.room / 'sources' / 'src' / 'main.rt').read_text()
        self.assertTrue(main.startswith('//! For C.\nmod tables;\n'))
        self.assertTrue(
            main.endswith('fn main() {\ntables::bully_c_one(any());\ntables::bully_c_two(any(), any());\n}\n'), main
        )
        self.tree.write('bully_c', 'src/tables.rt', EXPORTS + '#[unsafe(no_mangle)]\npub fn bully_c_three() -> u32\n')
        with self.assertRaisesRegex(Stopped, 'tables.rt has a function for C of another form'):
            write_main(crate, self.tree.room / 'again')

    def test_a_static_library_hands_each_function_for_c_on(self) -> None:
        self.tree.list_crates({'base': '', 'bully_c': 'base'})
        self.tree.write(
            'bully_c', 'src/tables.rt', EXPORTS.replace('owners: &mut [u16]', 'owners: &mut [u16], group: &CGroup')
        )
        exports = write_exports(read_crates(self.tree.top)['bully_c'], self.tree.room / 'exports')
        self.assertEqual(
            (exports.name, exports.kind, exports.named, exports.below),
            ('bully_c_exports', 'archive', ('base', 'bully_c'), ('base', 'bully_c')),
        )
        self.assertEqual((exports.folder / 'src' / 'lib.rt').read_text(), HANDED_ON)

    def test_a_module_gives_its_functions_for_c_to_others_and_nothing_else(self) -> None:
        self.tree.list_crates({'bully_c': ''})
        self.tree.write('bully_c', 'src/tables.rt', EXPORTS)
        module = Path(self.tree.room, 'module.ll')
        module.write_text(MODULE)
        export(module, read_crates(self.tree.top)['bully_c'])
        self.assertEqual(module.read_text(), EXPORTED)
