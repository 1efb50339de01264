"""Tests of the measurement of a built osekfit, by the model in its place; `tools/run_tests.py` runs them too."""
import contextlib
import io
import os
import re
import subprocess
import sys
import tempfile
import unittest
import unittest.mock
from collections import Counter

from lib import model_trace, oil, pages
from lib.application import application_of
from lib.crates import ROOT
from lib.given import Wrong, contents
from tests import TOOLS

BENCH = os.path.join(ROOT, 'bench')

sys.path.insert(0, BENCH)

import make_worst
import run

PAGE = os.path.join(ROOT, 'docs', 'PERFORMANCE.md')


class Measurements(unittest.TestCase):
    def test_each_cell_of_the_page_is_filled(self):
        with tempfile.TemporaryDirectory() as folder:
            program, page = os.path.join(folder, 'osekfit'), os.path.join(folder, 'page.md')
            for name, text in ((program, '#!/bin/sh\nexec %s %s "$@"\n' % (sys.executable, os.path.join(TOOLS, 'model.py'))), (page, contents(PAGE))):
                with open(name, 'w', encoding='utf-8') as file:
                    file.write(text)
            os.chmod(program, 0o755)
            words = '--apps first --plays= --stacks 2x1 --worst waits:2:2:1 --events 6 --times 1 --page'.split()
            subprocess.run([sys.executable, os.path.join(BENCH, 'run.py'), *words, page, program], check=True, capture_output=True)
            text = contents(page)
        tables = {name: re.search(r'(?s)<!-- %s -->\n(.*?)<!-- end of %s -->' % (name, name), text).group(1) for name in [run.MEASURED, *run.TABLES]}
        version = re.escape(contents(os.path.join(ROOT, 'VERSION')).strip())
        self.assertRegex(tables.pop(run.MEASURED), r'^osekfit %s \(SHA-256 [0-9a-f]{16}\.\.\), on ' % version)
        for name, table in tables.items():
            cells = [line.strip('|').split('|') for line in table.splitlines()]
            self.assertEqual([len(cells), len({len(row) for row in cells})], [3, 1], name)
            for cell in cells[2]:
                self.assertRegex(cell.strip(), r'^(\d|a task|`examples|waits|any order)', name)
        self.assertEqual(tables['worst'].splitlines()[2].split('|')[1].strip(), 'a task that waits at 2 places for 1 events, which another one sets at 2')

    def test_two_programs_are_compared(self):
        with tempfile.TemporaryDirectory() as folder:
            programs = [os.path.join(folder, name) for name in ('before', 'now')]
            for name, more in zip(programs, ('', '; echo more')):
                with open(name, 'w', encoding='utf-8') as file:
                    file.write('#!/bin/sh\n%s %s "$@"%s\n' % (sys.executable, os.path.join(TOOLS, 'model.py'), more))
                os.chmod(name, 0o755)
            words = '--samples first,2x1,levels:2:1:1 --times 1'.split()
            tables = [subprocess.run([sys.executable, os.path.join(BENCH, 'compare.py'), *words, programs[0], other], check=True, capture_output=True,
                                     text=True).stdout.splitlines() for other in programs]
        for table, printed in zip(tables, ('the same', 'something else')):
            cells = [line.strip('|').split(' | ') for line in table]
            self.assertEqual([len(cells), len({len(row) for row in cells})], [5, 1])
            self.assertEqual([row[-1].strip() for row in cells[2:]], [printed] * 3)

    def test_the_page_has_the_marks_of_all_tables(self):
        text = run.marked_page(PAGE)
        self.assertEqual(pages.with_table(text, 'size', 'x\n').count('x\n<!-- end of size -->'), 1)
        self.assertRaises(Wrong, pages.with_table, text, 'sizes', '')

    def test_a_long_command_runs_once(self):
        words = unittest.mock.Mock(program='p', limit=1, times=3)
        for seconds, count in ((0.5, 3), (5, 1)):
            with unittest.mock.patch.object(run, 'run', return_value=run.Run(0, seconds, 2)) as ran:
                self.assertEqual(run.Bench(words, 'f').least('show', [], 'at').seconds, seconds)
            self.assertEqual(ran.call_count, count)
        for status, seconds, told in ((0, 0.0123, '0.012'), (0, 31.42, '31.4'), (7, 1, 'status 7'), (13, 1, 'too large'), (5, 0, 'no table'), (None, 9, 'stopped')):
            self.assertEqual(run.told_seconds(run.Run(status, seconds, 0)), told)

    def test_applications_that_take_long(self):
        self.assertEqual(make_worst.told('stacks', [1, 5, 1, 8, 60]), '5 resources in any order in one task, under 8 routines of 60 blocks')
        self.assertEqual(make_worst.told('stacks', [14, 6, 2, 8, 40]), '6 resources in any order in each of 14 tasks, ACTIVATION 2, under 8 routines of 40 blocks')
        for part in run.WORST:
            family, *numbers = part.split(':')
            with tempfile.TemporaryDirectory() as folder:
                self.assertGreater(make_worst.write_app(family, [int(number) for number in numbers], folder), 1000)
        self.assertRaises(Wrong, make_worst.write_app, 'stacks', [1, 2], 'folder')
        self.assertRaises(Wrong, make_worst.write_app, 'heaps', [1, 2], 'folder')

    def test_a_line_is_filled(self):
        """Each task has all its activations then, of which the one that runs takes no place."""
        with unittest.mock.patch.object(make_worst, 'FILLED', 3):
            texts, events = make_worst.full_line(), make_worst.full_line_events(5 * 3 * make_worst.LINED + 10)
        self.assertEqual((len(events), events[:6], events[-1]), (235, ['irq I7', 'run 1', 'run 1', 'run 1', 'run 1', 'irq I7'], 'run 1'))
        app = application_of('\n'.join(['CPU c {', 'OS os { USERESSCHEDULER = FALSE; };', *texts[0], '};']), '\n'.join(texts[1]))
        state = [played[0].state for played in model_trace.play(app, oil.DEFAULT_MODE, model_trace.events_of('\n'.join(events[:-10])))][-1]
        self.assertEqual(sorted(Counter(state.line).values()), [1, 2] + [3] * 14)

    def test_the_rows_are_told_as_they_come(self):
        with contextlib.redirect_stderr(io.StringIO()) as err:
            self.assertEqual(run.shown(iter([['a', 'b'], ['1', '2']])), '| a | b |\n| --- | --- |\n| 1 | 2 |\n')
        self.assertEqual(err.getvalue(), 'a | b\n1 | 2\n')
