"""Tests of edits.py: which crates it chooses, what it reads of rt's answers, and its table; `tools/run_tests.py` runs them too."""
import os
import shutil
import subprocess
import tempfile
import unittest

import edits
from lib import edits_table
from lib.contracts import contracts_of
from lib.crates import ROOT
from lib.edits_table import Row
from lib.given import Wrong, contents

CODE = '''/// Adds one.
#[tactic(auto, unfolding(a::b))]
pub fn next(number: u64, marks: &[u8; { 3 }]) -> u64
    requires { number < 9 }
    ensures above { result ≡ number + 1 }
{
    if number > 3 { number + 1 } else { 1 + number }
}

pub struct Pair {
    pub low: u64,
    ghost invariant = { λ p. p.low < 5 };
}
'''

LOG = '''rt: a: trying its must-fail edits (3)
rt: must-fail a/one.edit: refused, as it must be: src/lib.rt:3:4: error: no
rt: must-fail a/two.edit: NOT REFUSED: the crate is still proved with this edit
'''


def write(path, text):
    os.makedirs(os.path.dirname(path), exist_ok=True)
    with open(path, 'w', encoding='utf-8') as file:
        file.write(text)


class Contracts(unittest.TestCase):
    def test_what_bodies_and_comments_say_is_left_out(self):
        for old, new in (('Adds one', 'Adds 1'), ('auto, ', ''), ('number > 3', "number == 7 && c != '}'"), ('{ 1 + number }', '{ { 2 } }')):
            self.assertIn(old, CODE)
            self.assertEqual(contracts_of(CODE), contracts_of(CODE.replace(old, new)), new)

    def test_what_callers_see_is_kept(self):
        for old, new in (('number < 9', 'number < 8'), ('number + 1 }\n{', 'number + 2 }\n{'), ('above ', ''), ('-> u64', '-> u32'), ('pub low', 'low'),
                         ('p.low < 5', 'p.low < 6'), ('{ 3 }', '{ 4 }')):
            self.assertIn(old, CODE)
            self.assertNotEqual(contracts_of(CODE), contracts_of(CODE.replace(old, new)), new)

    def test_derived_traits_and_imports_that_no_contract_has_are_left_out(self):
        old = 'ghost use Rattle.a.specs.{F.{f, g}, G.{h as k}};\nuse std::x::Y;\n#[derive(Debug, Clone)]\npub struct S;\nfn a(s: Y) ensures { f s k } { 1 }\n'
        for a, b in (('Debug, ', ''), ('F.{f, g}', 'F.{f}'), ('use std', 'use b::C;\nuse std'), ('use std::x::Y;', 'use std::x::{Y, Z};')):
            self.assertIn(a, old)
            self.assertEqual(contracts_of(old), contracts_of(old.replace(a, b)), b)
        for a, b in (('F.{f', 'E.{f'), ('h as k', 'f as k'), ('x::Y', 'z::Y'), ('use std', 'pub use std'), ('f s k', 'f k s')):
            self.assertNotEqual(contracts_of(old), contracts_of(old.replace(a, b)), b)

    def test_modules_of_tests_are_left_out(self):
        for tests in ('#[cfg(test)]\nmod tests;\n', '#[cfg(test)] mod tests { fn a() ensures { x } { } }\n'):
            self.assertEqual(contracts_of(tests + CODE), contracts_of(CODE))
        self.assertNotEqual(contracts_of('mod tests;\n' + CODE), contracts_of(CODE))

    def test_a_function_without_a_body_ends_with_its_head(self):
        self.assertEqual(contracts_of('fn a(); fn b() { 1 } fn c();'), contracts_of('fn a(); fn b() { } fn c();'))


class Table(unittest.TestCase):
    def page(self):
        return contents(os.path.join(ROOT, edits_table.PAGE))

    def test_the_page_names_crates_with_edits_all_of_which_were_refused(self):
        rows, there = edits_table.rows_of(self.page()), edits_table.crates_with_edits(ROOT)
        self.assertEqual([name for name, row in rows.items() if row.refused != row.edits], [])
        self.assertLessEqual(set(rows), set(there))

    def test_rows_are_read_as_they_are_written(self):
        rows = {'b': Row('0a', 2, 2), 'a': Row('0b', 3, 1)}
        page = edits_table.page_with(self.page(), rows)
        self.assertEqual(edits_table.rows_of(page), rows)
        self.assertEqual(edits_table.page_with(page, edits_table.rows_of(self.page())), self.page())
        self.assertLess(page.index('| a | 0b | 3 | 1 |'), page.index('| b | 0a | 2 | 2 |'))
        self.assertRaises(Wrong, edits_table.rows_of, 'no marks')


class Edits(unittest.TestCase):
    def test_each_edit_can_be_applied(self):
        for folder in ('edits', 'must-fail'):
            for crate in os.listdir(os.path.join(ROOT, 'crates')):
                for name, file in edits_table.edits_of(ROOT, crate, folder).items():
                    self.assertIsNone(edits_table.fault_of(file, os.path.join(ROOT, 'crates', crate)), '%s/%s' % (crate, name))

    def test_faults_of_edits(self):
        with tempfile.TemporaryDirectory() as room:
            for name, text in (('a.rt', 'x y x'), ('e', 'file: a.rt\nold: y\nnew: x\nold: x x x\nnew:\n')):
                write(os.path.join(room, name), text)
            edit = os.path.join(room, 'e')
            self.assertIsNone(edits_table.fault_of(edit, room))
            for text in ('file: b.rt\nold: y\nnew: z\n', 'file: a.rt\nold: x\nnew: z\n', 'file: a.rt\nold: z\nnew: x\n', 'file: a.rt\n', 'old: x\nnew: y\n'):
                write(edit, text)
                self.assertIsNotNone(edits_table.fault_of(edit, room), text)

    def test_what_rt_said_of_each(self):
        told = edits.answers_of('a', ['one.edit', 'two.edit', 'three.edit'], LOG)
        self.assertEqual([refused for refused, _ in told.values()], [True, False, False])
        self.assertTrue(told['two.edit'][1].startswith('NOT REFUSED'))
        self.assertTrue(told['three.edit'][1].startswith('NOT TRIED: '))
        self.assertEqual(edits.answers_of('b', ['one.edit'], LOG)['one.edit'][0], False)


@unittest.skipUnless(shutil.which('git'), 'there is no git here')
class Changes(unittest.TestCase):
    """What has changed since a commit, in a small repository."""

    def setUp(self):
        room = tempfile.TemporaryDirectory()
        self.addCleanup(room.cleanup)
        self.room, self.history = room.name, edits_table.History(room.name)
        self.git('init', '-q')
        for path, text in (('src/lib.rt', CODE), ('specs/A.antt', 'one = 1\n'), ('must-fail/e.edit', 'file: src/lib.rt\n')):
            self.write(path, text)
        self.commit = self.committed()
        os.rename(self.path('must-fail'), self.path('edits'))
        self.committed()

    def path(self, path):
        return os.path.join(self.room, 'crates', 'a', path)

    def write(self, path, text):
        write(self.path(path), text)

    def git(self, *words):
        who = ['-c', 'user.name=a', '-c', 'user.email=a@b']
        return subprocess.run(['git', '-C', self.room, *who, *words], check=True, stdin=subprocess.DEVNULL, stdout=subprocess.PIPE, text=True).stdout

    def committed(self):
        self.git('add', '-A')
        self.git('commit', '-q', '-m', 'a')
        return self.git('rev-parse', 'HEAD').strip()

    def reason(self):
        return self.history.reason('a', self.commit)

    def test_edits_that_moved_and_bodies_are_no_reason(self):
        self.write('src/lib.rt', CODE.replace('number > 3', 'number > 4'))
        self.assertIsNone(self.reason())
        self.write('src/tests.rt', CODE)
        self.assertIsNone(self.history.commit())
        self.committed()
        self.assertIsNone(self.reason())
        self.assertEqual(self.history.commit(), self.git('rev-parse', '--short=8', 'HEAD').strip())

    def test_reasons(self):
        for path, text in (('specs/A.antt', 'one = 2\n'), ('specs/B.antt', ''), ('src/lib.rt', CODE.replace('< 9', '< 8')), ('src/new.rt', CODE),
                           ('edits/e.edit', 'file: src/new.rt\n'), ('edits/f.edit', 'file: src/lib.rt\n')):
            old = contents(self.path(path)) if os.path.exists(self.path(path)) else None
            self.write(path, text)
            self.assertEqual(self.reason(), 'crates/a/' + path)
            os.remove(self.path(path))
            if old is not None:
                self.write(path, old)
            self.assertIsNone(self.reason())
        os.remove(self.path('specs/A.antt'))
        self.assertEqual(self.reason(), 'crates/a/specs/A.antt')

    def test_commits_that_are_not_there(self):
        self.assertEqual(self.history.reason('a', None), 'not tried yet')
        self.assertEqual(self.history.reason('a', '0123abcd'), 'no commit 0123abcd here')
