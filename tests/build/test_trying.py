"""bin/try: the program built without its proofs, and run."""
import subprocess
import unittest
from pathlib import Path

from stand_in import Tree

# A program that ends as a check ends one: it writes AddressSanitizer's report with the places of its functions, and
# aborts.
CHECKED = r'''
#include <stdio.h>
#include <stdlib.h>
#include <string.h>
extern const char __ehdr_start[] __attribute__((visibility("hidden")));
void overflow(void) {}
void half(void) {}
void whole(void) {}
static void frame(FILE *report, void (*function)(void)) {
    fprintf(report, "frame 0x%lx (BuildId: 1f)\n", (unsigned long)((char *)function - __ehdr_start + 1));
}
int main(void) {
    char *path = strchr(strstr(getenv("ASAN_OPTIONS"), "log_path="), '=') + 1;
    char name[4096];
    snprintf(name, sizeof name, "%s.1", path);
    FILE *report = fopen(name, "w");
    frame(report, overflow);
    frame(report, half);
    frame(report, whole);
    fprintf(report, "frame 0x10 (BuildId: 2e)\nSUMMARY: AddressSanitizer: ILL (%s)\n", name);
    fclose(report);
    abort();
}
'''
NAMES = {'overflow': 'rattle-llvm-checks::Overflow', 'half': 'left::half', 'whole': 'bully::whole'}


def build_checked(program: Path) -> None:
    object_file = f'{program}.o'
    subprocess.run(['cc', '-x', 'c', '-c', '-', '-o', object_file], input=CHECKED, text=True, check=True)
    renamed = [f'--redefine-sym={name}={other}' for name, other in NAMES.items()]
    subprocess.run(['objcopy', *renamed, object_file], check=True)
    subprocess.run(['cc', object_file, '-o', str(program)], check=True)


class Trying(unittest.TestCase):
    def setUp(self) -> None:
        self.tree = Tree()
        self.addCleanup(self.tree.remove)

    def test_says_once_a_build_that_nothing_is_proved(self) -> None:
        first, second = (self.tree.call('try', 'check', 'it') for _ in range(2))
        self.assertEqual((first.returncode, first.stdout), (0, 'stand-in check it\n'))
        self.assertIn('not proved: bin/bully proves', first.stderr)
        self.assertEqual((second.returncode, second.stdout, second.stderr), (0, 'stand-in check it\n', ''))
        self.assertEqual(self.tree.begun(), ['try'])

    def test_builds_anew_behind_a_changed_comment(self) -> None:
        self.tree.call('try')
        self.tree.write('left', 'src/lib.rt', '// left, another comment\n')
        self.assertIn('not proved', self.tree.call('try').stderr)
        self.assertEqual(self.tree.begun(), ['try', 'try'])

    def test_tells_what_was_said_if_it_is_not_built(self) -> None:
        (self.tree.room / 'refuse' / 'try').touch()
        refused = self.tree.call('try')
        self.assertEqual((refused.returncode, refused.stdout), (125, ''))
        self.assertIn('error: expected an item\n', refused.stderr)
        (self.tree.room / 'refuse' / 'try').unlink()
        self.assertEqual(self.tree.call('try').returncode, 0)

    def test_what_is_not_built_leaves_nothing_of_before(self) -> None:
        self.tree.call('try')
        self.tree.write('left', 'src/lib.rt', '// another left\n')
        (self.tree.room / 'refuse' / 'try').touch()
        self.assertEqual([self.tree.call('try').returncode for _ in range(2)], [125, 125])
        self.assertFalse((self.tree.top / 'out' / 'try' / 'bully').exists())

    def test_what_changed_while_it_was_built_is_not_kept(self) -> None:
        call = self.tree.call_with_edit('try', 'try', 'base')
        self.assertEqual((call.stdout, call.returncode), ('', 125))
        self.assertIn('bully: base changed while it was built: call this again\n', call.stderr)
        self.tree.write('base', 'src/lib.rt', '// base\n')
        self.tree.call('try')
        self.assertEqual(self.tree.begun(), ['try', 'try'])

    def test_tells_in_a_sentence_which_check_ended_it(self) -> None:
        self.tree.call('try')
        program = self.tree.top / 'out' / 'try' / 'bully'
        program.unlink()
        build_checked(program)
        ended = self.tree.call('try')
        self.assertEqual(ended.returncode, 125)
        why = 'a check ended it in left::half: a result does not fit its type.'
        self.assertEqual(ended.stderr, f'bully: {why} bin/check left tells which proof fails of that\n')

    def test_gives_the_status_and_the_signal_of_the_program(self) -> None:
        self.tree.call('try')
        program = self.tree.top / 'out' / 'try' / 'bully'
        for text, status in (('exit 3', 3), ('kill -s KILL $$', 128 + 9)):
            program.write_text(f'#!/bin/sh\n{text}\n')
            self.assertEqual(self.tree.call('try').returncode, status)
