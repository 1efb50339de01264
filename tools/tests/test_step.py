"""Tests of step.py over a pipe. The lines of the traces are those of the examples, which osekfit printed."""
import os
import subprocess
import sys
import tempfile
import unittest

from lib.given import contents
from lib.image import image
from lib.application import application_of
from lib.least_table import Analysis
from tests import EXAMPLES, TOOLS

ANSWER = '''#!/bin/sh
head -n %d %s
'''
"""A program that prints the first lines of a trace, whatever it is asked."""


def text_of(name, ending):
    return os.path.join(EXAMPLES, name, name + ending)


class Step(unittest.TestCase):
    def setUp(self):
        folder = tempfile.TemporaryDirectory()
        self.addCleanup(folder.cleanup)
        self.folder = folder.name

    def program(self, name, count):
        """A program that prints the first lines of an example's trace."""
        file = os.path.join(self.folder, 'program')
        with open(file, 'w') as out:
            out.write(ANSWER % (count, text_of(name, '.trace')))
        os.chmod(file, 0o755)
        return file

    def step(self, name, lines, count):
        """What the lines give beside a program that prints so many lines of the example's trace, and the status."""
        done = subprocess.run([sys.executable, os.path.join(TOOLS, 'step.py'), '--program', self.program(name, count), text_of(name, '.oil'),
                               text_of(name, '.code')], input=lines.encode(), stdout=subprocess.PIPE, stderr=subprocess.STDOUT)
        return done.stdout.decode(), done.returncode

    def test_the_trace_of_the_engine(self):
        said, status = self.step('engine', 'r1\nr0\ni Tooth\nr 3\nr\nr\nr\n', 10)
        due = contents(text_of('engine', '.trace')).splitlines()[:10]
        self.assertEqual([line for line in said.splitlines() if line[0].isdigit()], due)
        self.assertEqual((said.splitlines()[-1], status), ('osekfit trace prints the same 10 lines', 0))

    def test_what_has_changed_and_why(self):
        said, _ = self.step('engine', 'r1\nr\ni Tooth\nr\nr\n', 6)
        self.assertIn('  Injection=Y, was S: @Tooth has the processor; behind the last routine: IdleControl holds EngineData, whose ceiling keeps it out\n', said)
        self.assertIn('  next: engine.code:29: end of Tooth at b20/IdleControl\n', said)

    def test_a_choice_says_where_it_leads(self):
        said, _ = self.step('engine', '', 1)
        self.assertIn('next: engine.code:9: while (?); r: engine.code:17: TerminateTask(); r1: engine.code:10: GetResource(EngineData) at b5\n', said)

    def test_until_and_back(self):
        file = os.path.join(self.folder, 'lamp.events')
        said, status = self.step('lamp', 'u idle2\nu Lamp=W\nb\n\nu b1\nw %s\n' % file, 3)
        self.assertIn('  idle2 is no point, and no state\n', said)
        self.assertEqual([line for line in said.splitlines() if line[0].isdigit()][-1].split()[0], '1')
        self.assertEqual(contents(file), 'run 0\n')
        self.assertEqual(status, 1)
        self.assertIn('osekfit trace has 3 lines, and not 2', said)

    def test_until_comes_to_a_point(self):
        said, _ = self.step('engine', 'u b8 1\n', 5)
        self.assertEqual([line for line in said.splitlines() if line[0].isdigit()], [
            '0 IdleControl Injection=S IdleControl=R Diagnosis=S ^Startup ^PreTask',
            '1 IdleControl Injection=S IdleControl=R Diagnosis=S',
            '2 IdleControl Injection=S IdleControl=R+EngineData Diagnosis=S !E_OK',
            '3 IdleControl Injection=S IdleControl=R+EngineData Diagnosis=S',
            '4 IdleControl Injection=S IdleControl=R+EngineData Diagnosis=S'])

    def test_until_where_nothing_comes(self):
        """In the example `first` the processor is idle behind the first run."""
        said, _ = self.step('first', 'u halted\n', 2)
        self.assertEqual(said.count('- T1=S'), 1)
        self.assertIn('  halted does not come: the processor is idle, and a request is wanted\n', said)

    def test_until_shows_the_last_of_many_runs(self):
        said, _ = self.step('lamp', 'u Lamp=W\nu Lamp=S\n', 1)
        lines = [line for line in said.splitlines() if line[0].isdigit()]
        self.assertEqual([int(line.split(' ')[0]) for line in lines], [0, 1, 2, *range(1002 - 11, 1003)])
        self.assertIn('  .. 988 runs\n', said)
        self.assertIn('  Lamp=S did not come within 1000 runs\n', said)

    def test_wrong_lines(self):
        said, _ = self.step('engine', 'i Crank\nt Tooth\nr x\nu\nhelp\n', 1)
        self.assertEqual(said.count('nothing is called'), 2)
        self.assertIn('  a number from 1 on is wanted, not x\n', said)
        self.assertIn('  no such command: help; r, r1, i NAME', said)

    def test_an_image_that_traps(self):
        """Lamp's wait is made `never`: there the image has no step, and one goes back."""
        app = application_of(contents(text_of('lamp', '.oil')), contents(text_of('lamp', '.code')))
        analysis = Analysis(app).solve()
        analysis.shown[1] = set()
        file = os.path.join(self.folder, 'lamp.image')
        with open(file, 'wb') as out:
            out.write(image(app, analysis.shown, analysis.noted))
        done = subprocess.run([sys.executable, os.path.join(TOOLS, 'step.py'), text_of('lamp', '.oil'), text_of('lamp', '.code'), file],
                              input=b'r\nr\nr\nb 2\nu Lamp=W\nb\n', stdout=subprocess.PIPE, env=dict(os.environ, PATH=''))
        said = done.stdout.decode()
        self.assertEqual(said.count('trap 2\n'), 2)
        self.assertEqual(said.count('  the image has trapped; b goes back\n'), 2)

    def test_another_image(self):
        app = application_of(contents(text_of('first', '.oil')), contents(text_of('first', '.code')))
        analysis = Analysis(app).solve()
        file = os.path.join(self.folder, 'first.image')
        with open(file, 'wb') as out:
            out.write(image(app, analysis.shown, analysis.noted))
        done = subprocess.run([sys.executable, os.path.join(TOOLS, 'step.py'), text_of('lamp', '.oil'), text_of('lamp', '.code'), file], input=b'',
                              stdout=subprocess.PIPE, stderr=subprocess.PIPE)
        self.assertEqual((done.returncode, b'not the image of these texts' in done.stderr), (2, True))


if __name__ == '__main__':
    unittest.main()
