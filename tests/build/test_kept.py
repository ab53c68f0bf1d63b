"""What is built, and when: after a changed comment, contract or line of crates.txt, beside another call, and after a
call that was ended."""
import signal
import subprocess
import unittest
from concurrent.futures import Future, wait
from pathlib import Path
from threading import Barrier
from typing import Any, Callable, Dict, List, Tuple
from unittest import mock

from building.crates import Stopped, read_crates
from building.kept import made_of, stamp_of, sum_of
from building.proving import Building, chains
from building.running import Children, all_jobs, run_beside
from stand_in import Tree, is_there, waited

Work = Callable[[str], object]


class Graph(unittest.TestCase):
    def setUp(self) -> None:
        self.tree = Tree()
        self.addCleanup(self.tree.remove)

    def test_what_stands_below_is_lowest_first_whatever_the_order_of_the_lines(self) -> None:
        self.tree.list_crates({'bully': 'left right clap', 'left': 'base', 'right': 'left', 'base': ''})
        crates = read_crates(self.tree.top)
        self.assertEqual(crates['bully'].below, ('base', 'left', 'right'))
        self.assertEqual((crates['bully'].named, crates['base'].below), (('left', 'right', 'clap'), ()))

    def test_a_crate_whose_folder_is_gone_is_none(self) -> None:
        self.tree.list_crates({'base': '', 'left': 'base', 'gone': 'base', 'bully': 'left'})
        self.assertEqual(sorted(read_crates(self.tree.top)), ['base', 'bully', 'left'])

    def test_crates_that_stand_on_one_another_are_refused(self) -> None:
        self.tree.list_crates({'left': 'right', 'right': 'left'})
        with self.assertRaisesRegex(Stopped, 'left|right'):
            read_crates(self.tree.top)

    def given(
        self, needs: Dict[str, List[str]], length: Dict[str, int], cores: int = 4, room: int = 8, work: Work = str
    ) -> Dict[str, int]:
        """How many processes each task may use, in the order in which they begin, in the room of so many processes. A
        task does this work."""
        found: Dict[str, int] = {}

        def run(name: str, processes: int) -> bool:
            found[name] = processes
            work(name)
            return True

        with mock.patch('building.running.all_jobs', side_effect=lambda more=0: min(cores + more, room)):
            self.assertEqual(set(run_beside(needs, length, run, Children(()))), set(needs))
        self.assertGreaterEqual(min(found.values()), 1)
        return found

    def test_the_longest_chain_has_the_cores_that_the_others_leave(self) -> None:
        found = self.given({'low': [], 'beside': [], 'high': ['low', 'beside']}, {'low': 40, 'beside': 20, 'high': 10})
        self.assertEqual(found, {'low': 3, 'beside': 1, 'high': 4})

    def test_long_chains_have_two_processes(self) -> None:
        for length, wanted in (
            ({'longest': 40, 'long': 30, 'short': 10}, {'longest': 2, 'long': 2, 'short': 1}),
            (
                {'longest': 100, 'long': 60, 'short': 59, 'another': 10},
                {'longest': 2, 'long': 2, 'short': 1, 'another': 1},
            ),
        ):
            self.assertEqual(self.given({name: [] for name in length}, length), wanted)

    def test_a_chain_is_as_long_as_what_is_left(self) -> None:
        needs: Dict[str, List[str]] = {'low': [], 'high': ['low'], 'long': ['low'], 'short': ['low']}
        length = {'built before': 99, 'low': 90, 'high': 40, 'long': 39, 'short': 9}
        self.assertEqual(self.given(needs, length), {'low': 4, 'high': 2, 'long': 2, 'short': 1})

    def test_long_chains_are_first(self) -> None:
        needs: Dict[str, List[str]] = {'first': [], 'late': ['first'], 'middle': [], 'short': []}
        found = self.given(needs, {'first': 50, 'late': 20, 'middle': 30, 'short': 10}, room=1)
        self.assertEqual(list(found), ['first', 'middle', 'late', 'short'])

    def seen(self, length: Dict[str, int], cores: int = 4, room: int = 8) -> List[Tuple[int, int]]:
        """How many tasks are under way, and how many processes they may use, each time that the end of one is waited
        for."""
        found: List[Tuple[int, int]] = []

        def watched(under_way: 'Dict[Future[bool], Tuple[str, int]]', return_when: str) -> Any:
            found.append((len(under_way), sum(processes for _, processes in under_way.values())))
            return wait(under_way, return_when=return_when)

        with mock.patch('building.running.wait', watched):
            self.given({name: [] for name in length}, length, cores, room)
        return found

    def test_at_most_as_many_tasks_as_cores_are_under_way(self) -> None:
        length = {'long': 9, **{f'short {number}': 1 for number in range(6)}}
        for cores, first in ((1, (1, 1)), (2, (2, 3)), (4, (4, 5))):
            seen = self.seen(length, cores)
            self.assertEqual((seen[0], max(tasks for tasks, _ in seen)), (first, cores))

    def test_two_more_than_cores_are_under_way_if_memory_holds_them(self) -> None:
        length = {f'task {number}': number + 1 for number in range(9)}
        for room, first in ((8, (3, 6)), (5, (3, 5)), (3, (2, 3))):
            seen = self.seen(length, room=room)
            self.assertEqual((seen[0], max(processes for _, processes in seen)), (first, first[1]))

    def test_tasks_run_at_once(self) -> None:
        meeting = Barrier(4, timeout=60)
        length = {'long': 9, 'one': 1, 'other': 1, 'third': 1}
        self.assertEqual(
            set(self.given({name: [] for name in length}, length, work=lambda name: meeting.wait())), set(length)
        )

    def test_a_task_begins_while_another_goes_on(self) -> None:
        meeting = Barrier(2, timeout=60)  # of the one that goes on, and the one that stands on what is done
        needs: Dict[str, List[str]] = {'low': [], 'beside': [], 'high': ['low']}
        found = self.given(
            needs, {'low': 90, 'beside': 10, 'high': 60}, work=lambda name: name == 'low' or meeting.wait()
        )
        self.assertEqual(found, {'low': 3, 'beside': 1, 'high': 3})

    def test_a_process_for_each_core_or_two_more_as_far_as_memory_goes(self) -> None:
        for free, wanted in (
            (99_000_000, (5, 7)),
            (15_000_000, (5, 5)),
            (14_999_999, (4, 4)),
            (11_999_999, (3, 3)),
            (1_000, (1, 1)),
            (None, (5, 7)),
        ):
            told = 'MemTotal:  99000000 kB\n' + (f'MemAvailable:  {free} kB\n' if free else '')
            with mock.patch('os.sched_getaffinity', return_value=set(range(5))), mock.patch.object(
                Path, 'read_text', return_value=told
            ):
                self.assertEqual((all_jobs(), all_jobs(2)), wanted)

    def test_a_chain_has_the_lines_of_code_from_a_crate_on_up(self) -> None:
        self.tree.write('left', 'src/lib.rt', 50 * '// a line\n')
        self.tree.write('left', 'proofs/half/Answers.antt', 500 * 'an answer\n')
        crates = read_crates(self.tree.top)
        self.assertEqual(chains(crates, crates['bully']), {'bully': 301, 'left': 651, 'right': 602, 'base': 952})

    def test_a_sum_is_that_of_sha256sum(self) -> None:
        self.tree.write('left', 'proofs/half/Answers.antt', 'an answer\n')
        self.tree.write('left', 'specs/Lib.antt', 'a definition\n')
        files = 'find src specs proofs -type f -print0 | LC_ALL=C sort -z | xargs -0 sha256sum'
        command = f"{{ echo 'left: base'; {files}; }} | sha256sum | cut -d ' ' -f 1"
        wanted = subprocess.run(
            ['bash', '-c', command], cwd=self.tree.top / 'crates' / 'left', stdout=subprocess.PIPE, text=True
        )
        self.assertEqual(sum_of(read_crates(self.tree.top)['left']), wanted.stdout.strip())


class Kept(unittest.TestCase):
    def setUp(self) -> None:
        self.tree = Tree()
        self.addCleanup(self.tree.remove)

    def build(self) -> 'subprocess.CompletedProcess[str]':
        return self.tree.call('bully', 'check', 'it')

    def built_after(self) -> 'list[str]':
        """The crates that were built by a call after a first one."""
        before = len(self.tree.log())
        self.assertEqual(self.build().stdout, 'stand-in check it\n')
        return sorted(self.tree.begun(before))

    def build_first(self) -> None:
        self.build()
        self.assertEqual(sorted(self.tree.begun()), ['base', 'bully', 'left', 'right'])

    def test_nothing_is_built_twice(self) -> None:
        self.build_first()
        second = self.build()
        self.assertEqual((second.stdout, second.stderr, len(self.tree.begun())), ('stand-in check it\n', '', 4))

    def test_a_closed_pipe_ends_the_program_as_ever(self) -> None:
        self.build_first()
        program = self.tree.top / 'crates' / 'bully' / 'out' / 'bully'
        program.write_text('#!/bin/sh\nsed -n "s/^SigIgn://p" /proc/self/status\n')
        ignored = int(self.tree.call('bully').stdout, 16)
        self.assertEqual(ignored & (1 << signal.SIGPIPE - 1 | 1 << signal.SIGXFSZ - 1), 0)

    def test_a_changed_comment_has_the_crate_and_those_above_built(self) -> None:
        self.build_first()
        self.tree.write('left', 'src/lib.rt', '// left, another comment\n')
        self.assertEqual(self.built_after(), ['bully', 'left'])

    def test_a_changed_contract_has_all_above_built(self) -> None:
        self.build_first()
        self.tree.write('base', 'specs/Lib.antt', 'another definition\n')
        self.assertEqual(self.built_after(), ['base', 'bully', 'left', 'right'])

    def test_a_file_that_was_only_touched_has_nothing_built(self) -> None:
        self.build_first()
        (self.tree.top / 'crates' / 'base' / 'src' / 'lib.rt').touch()
        self.assertEqual(self.built_after(), [])

    def test_a_proof_that_was_taken_away_counts(self) -> None:
        self.tree.write('right', 'proofs/half/Answers.antt', 'an answer\n')
        self.build_first()
        subprocess.run(['rm', '-r', str(self.tree.top / 'crates' / 'right' / 'proofs')], check=True)
        self.assertEqual(self.built_after(), ['bully', 'right'])

    def test_a_library_that_was_taken_away_has_those_above_built(self) -> None:
        self.build_first()
        subprocess.run(['rm', '-r', str(self.tree.top / 'crates' / 'base' / 'out' / 'built')], check=True)
        self.tree.write('bully', 'src/main.rt', '// another program\n')
        self.assertEqual(self.built_after(), ['base', 'bully', 'left', 'right'])

    def test_a_program_that_was_taken_away_is_built(self) -> None:
        self.build_first()
        (self.tree.top / 'crates' / 'bully' / 'out' / 'bully').unlink()
        self.assertEqual(self.built_after(), ['bully'])

    def test_another_kit_has_all_built(self) -> None:
        self.build_first()
        (self.tree.room / 'kit' / 'KIT-ID').write_text('another one\n')
        self.assertEqual(self.built_after(), ['base', 'bully', 'left', 'right'])

    def test_libraries_over_a_new_build_have_no_stamps_and_the_program_keeps_its_own(self) -> None:
        self.build_first()
        crates, kit = read_crates(self.tree.top), self.tree.room / 'kit'
        prover = mock.create_autospec(Children, instance=True)
        prover.run.return_value = False
        building = Building(
            kit, crates, crates['bully'], made_of(crates, crates, kit), print, prover, self.tree.room, 0.0
        )
        with self.assertRaisesRegex(Stopped, 'left was not built'):
            building.build('left', 1)
        self.assertEqual(
            [name for name in crates if stamp_of(crates[name].product).exists()], ['base', 'right', 'bully']
        )
        with self.assertRaisesRegex(Stopped, 'base was not built'):
            building.build('base', 1)
        self.assertEqual([name for name in crates if stamp_of(crates[name].product).exists()], ['bully'])

    def test_what_is_made_and_not_proved_is_not_taken_for_what_was_before(self) -> None:
        self.build_first()
        self.tree.write('base', 'src/lib.rt', '// another base\n')
        (self.tree.room / 'late' / 'base').touch()
        self.assertIn('base is made, and was not proved\n', self.build().stderr)
        (self.tree.room / 'late' / 'base').unlink()
        self.tree.write('base', 'src/lib.rt', '// base\n')
        self.assertEqual(self.built_after(), [])
        self.tree.write('bully', 'src/main.rt', '// another program\n')
        self.assertEqual(self.built_after(), ['base', 'bully', 'left', 'right'])

    def test_what_changed_while_it_was_built_is_not_kept(self) -> None:
        call = self.tree.call_with_edit('bully', 'left', 'left')
        self.assertEqual((call.stdout, call.returncode), ('', 125))
        self.assertIn('bully: left changed while it was built: call this again\n', call.stderr)
        self.tree.write('left', 'src/lib.rt', '// left\n')
        self.assertIn('left', self.built_after())

    def test_what_changed_before_its_turn_is_not_built(self) -> None:
        call = self.tree.call_with_edit('bully', 'base', 'left')
        self.assertEqual((call.returncode, 'left' in self.tree.begun()), (125, False))
        self.assertIn('bully: left changed while it was built: call this again\n', call.stderr)

    def test_a_deleted_crate_has_those_above_built(self) -> None:
        self.build_first()
        self.tree.list_crates({'base': '', 'left': 'base', 'bully': 'left'})
        subprocess.run(['rm', '-r', str(self.tree.top / 'crates' / 'right')], check=True)
        self.assertEqual(self.built_after(), ['bully'])

    def test_what_is_not_proved_is_told_and_not_kept(self) -> None:
        (self.tree.room / 'refuse' / 'left').touch()
        refused = self.build()
        self.assertEqual((refused.returncode, refused.stdout), (125, ''))
        self.assertIn('a contract of left is not proved\n', refused.stderr)
        self.assertIn('left was not built\n', refused.stderr)
        (self.tree.room / 'refuse' / 'left').unlink()
        self.assertIn('left', self.built_after())

    def test_of_a_long_output_the_errors_are_shown(self) -> None:
        """If it has none, its end. A file has all of it, which is named last."""
        log = self.tree.top / 'out' / 'left.log'
        named = f'{log} has all 110 lines of left\nbully: left was not built\n'
        lines = [f'fn held_{number}: proved\n' for number in range(110)]
        for text, shown in (
            ([*lines[:50], './Answers.antt:3:5: error: not so\n', *lines[51:]], './Answers.antt:3:5: error: not so\n'),
            (lines, ''.join(lines[-20:])), (['error\n'] * 110, 'error\n' * 20),
        ):  # fmt: skip
            (self.tree.room / 'refuse' / 'left').write_text(''.join(text))
            refused = self.build()
            self.assertTrue(refused.stderr.endswith(f'\n{shown}{named}'), refused.stderr)
            self.assertEqual((refused.returncode, log.read_text()), (125, ''.join(text)))

    def test_two_calls_at_once_build_once(self) -> None:
        first = self.tree.begin_held('base', 'bully', 'one')
        second = self.tree.begin('bully', 'two')
        waited(lambda: 'waits for another call' in self.tree.said(), 'the second call waits')
        self.tree.let_go('base')
        written = [child.communicate(timeout=60)[0] for child in (first, second)]
        self.assertEqual(written, ['stand-in one\n', 'stand-in two\n'])
        self.assertEqual(len(self.tree.begun()), 4)

    def ended_by(self, number: int) -> int:
        """Ends a build while it proves base, and gives the process of the prover."""
        call = self.tree.begin_held('base', 'bully', 'it')
        call.send_signal(number)
        call.communicate(timeout=60)
        self.assertNotEqual(call.returncode, 0)
        return self.tree.process_of('base') or 0

    def test_a_build_that_is_ended_leaves_no_prover_and_nothing_kept(self) -> None:
        prover = self.ended_by(signal.SIGTERM)
        waited(lambda: not is_there(prover), 'the prover is gone')
        self.tree.let_go('base')
        self.assertEqual(self.built_after(), ['base', 'bully', 'left', 'right'])

    def test_the_prover_of_a_killed_build_keeps_others_out_until_it_ends(self) -> None:
        prover = self.ended_by(signal.SIGKILL)
        self.assertTrue(is_there(prover))
        call = self.tree.begin('bully', 'it')
        waited(lambda: 'waits for another call' in self.tree.said(), 'the next call waits')
        self.tree.let_go('base')
        self.assertEqual(call.communicate(timeout=60)[0], 'stand-in it\n')
        self.assertEqual(sorted(self.tree.begun()), ['base', 'base', 'bully', 'left', 'right'])
