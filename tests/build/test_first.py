"""What the first call of bin/bully says over the crates that stand here, and that it builds none before those below
it."""
import shutil
import unittest

from building.crates import read_crates, version_of_all
from stand_in import ROOT, Tree


class First(unittest.TestCase):
    def setUp(self) -> None:
        self.tree = Tree()
        self.addCleanup(self.tree.remove)
        shutil.copy(ROOT / 'crates.txt', self.tree.top)
        self.crates = read_crates()
        for crate in self.crates.values():
            shutil.copytree(crate.folder / 'src', self.tree.top / 'crates' / crate.name / 'src', dirs_exist_ok=True)
        for name in {name for crate in self.crates.values() for name in crate.named if name not in self.crates}:
            (self.tree.room / 'kit' / 'rlibs' / f'{name}.rlib').mkdir(exist_ok=True)
            (self.tree.room / 'kit' / 'rlibs' / f'{name}.rlib' / 'format').touch()

    def test_what_judges_a_trace_is_said_to_be_proved_once_it_is_and_the_rest_comes_then(self) -> None:
        first, second = (self.tree.call('bully', 'check', '--aloud') for _ in range(2))
        self.assertEqual(
            (first.stdout, second.stdout, second.stderr),
            ('stand-in check --aloud\n', 'stand-in check --aloud\n', ''),
            first.stderr,
        )
        lines = first.stderr.splitlines()
        self.assertIn(f'archive cinnabarloom-{version_of_all()}-x86_64-linux.tar.gz', lines[0])
        [judged] = [
            number for number, line in enumerate(lines) if 'what judges a trace for the command check is proved' in line
        ]
        place = {
            line.rpartition(': ')[2]: number for number, line in enumerate(lines) if ' crates proved after ' in line
        }
        self.assertEqual(place.keys(), {*self.crates['bully'].all})
        for name, crate in ((each, self.crates[each]) for each in place):
            with self.subTest(crate=name):
                self.assertTrue(all(place[lower] < place[name] for lower in crate.below))
                if name == 'bully_trace' or name in self.crates['bully_trace'].named:
                    self.assertLess(place[name], judged)
                if 'bully_trace' in crate.below:
                    self.assertGreater(place[name], judged)
