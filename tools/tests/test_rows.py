"""Tests of the rows of crates/rows and of what carries them out; `tools/run_tests.py` runs them too."""
import os
import tempfile
import unittest

import run_rows
from lib.crates import ROOT
from lib.given import Wrong, contents, data
from lib.rows import DATA, Fault, Files, rows_of
from tests import EXAMPLES

ROW = """# a comment
row a lamp
file a
:x
=0a00
*2 |yz
cut b from a 3
set b from b 1
:!
add b from b
|w
run show b "c d"
status 3
out
|one
|two
line 1 two
count 2
begins
|one
err
:no
holds b
=78
:!
=0077
=0a
size b 5
missing q
"""


class Rows(unittest.TestCase):
    def rows_in(self, text):
        with tempfile.NamedTemporaryFile('w', suffix='.rows', encoding='utf-8') as file:
            file.write(text)
            file.flush()
            return rows_of(file.name)

    def carried_out(self, text, answer=(3, b'one\ntwo\n', b'no')):
        """The words of the runs of the one row in a text, whose runs answer so; and how many runs were left out."""
        program = Answers(answer)
        row, = self.rows_in(text)
        with tempfile.TemporaryDirectory() as folder:
            for act in row.acts:
                act.carry_out(Files(folder), program)
        return program.words, program.left_out

    def test_a_row_is_carried_out(self):
        self.assertEqual(self.carried_out(ROW), ([['show', 'b', 'c d']], 0))

    def test_each_line_counts(self):
        for line, other in (('status 3\n', ''), ('|two\n', '|too\n'), ('line 1 two', 'line 1 one'), ('count 2', 'count 3'), ('begins\n|one', 'begins\n|two'),
                            (':no', ':yes'), ('size b 5', 'size b 4'), ('missing q', 'missing b'), ('=78', '=79'), ('err\n:no\n', '')):
            self.assertIn(line, ROW)
            with self.assertRaises(Fault, msg=line):
                self.carried_out(ROW.replace(line, other))

    def test_lines_that_are_not_understood(self):
        for line in ('stat 3', 'cut b from a', 'set b of a 1', 'run\n|x', '|x'):
            with self.assertRaises(Wrong, msg=line):
                self.rows_in(line + '\n' + ROW if line == '|x' else ROW + line + '\n')

    def test_what_is_printed_is_said(self):
        with self.assertRaises(Fault):
            self.carried_out('row r\nrun info a\n', (0, b'x', b''))
        self.assertEqual(self.carried_out('row r\nrun info a\n', (0, b'', b'')), ([['info', 'a']], 0))

    def test_failing_calls_are_left_out(self):
        self.assertEqual(self.carried_out('row r\nrun info a\nfail shelf 1 to 2\nstatus 5\n'), ([], 1))

    def test_examples_are_copies(self):
        for name in sorted(os.listdir(EXAMPLES)):
            for ending in ('oil', 'code', 'events', 'show', 'report', 'trace'):
                path = os.path.join(name, '%s.%s' % (name, ending))
                if os.path.isdir(os.path.join(EXAMPLES, name)):
                    self.assertEqual(data(os.path.join(DATA, 'examples', path)), data(os.path.join(EXAMPLES, path)), path)

    def test_all_rows_are_named_and_counted(self):
        named = run_rows.files_named()
        there = [os.path.join(folder, name) for folder, _, names in os.walk(DATA) for name in names if name.endswith('.rows')]
        self.assertEqual(sorted(named), sorted(there))
        rows = [row for path in named for row in rows_of(path)]
        self.assertEqual(contents(os.path.join(ROOT, 'crates', 'rows', 'stdout')), '%d rows hold\n' % len(rows))
        self.assertEqual(len({row.name for row in rows}), len(rows))


class Answers:
    """A program that answers the same each time."""

    def __init__(self, answer):
        self.answer, self.words, self.left_out = answer, [], 0

    def __call__(self, words, where):
        self.words.append(words)
        return self.answer


if __name__ == '__main__':
    unittest.main()
