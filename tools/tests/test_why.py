"""Tests of why.py, and of what the hostile tools say of answers about certificates; `tools/run_tests.py` runs them too. What is
told of the engine controller is in the table of its sites in docs/FORMS.md, and the runs were counted by hand."""
import contextlib
import io
import os
import sys
import tempfile
import unittest
import unittest.mock

import fail_io
import model
import mutate
import refuse_memory
import why
from lib import margin, model_trace, printed
from lib.application import application_of
from lib.certified import table_of
from lib.given import Wrong, contents
from lib.least_table import Analysis
from lib.oil import DEFAULT_MODE
from lib.states import KEEP, To
from tests import EXAMPLES, TOOLS


def example_app(name):
    path = os.path.join(EXAMPLES, name, name)
    return application_of(contents(path + '.oil'), contents(path + '.code'))


class Why(unittest.TestCase):
    def lines(self, app, block, most=20000, most_asked=why.MOST_ASKED):
        site = why.site_of_model(app, block, most_asked)
        return list(why.lines_of(site, why.searched(site, most), 'c'))

    def test_a_general_site(self):
        self.assertEqual(self.lines(example_app('engine'), 8), [
            'b8, c:12: ReleaseResource(EngineData) of IdleControl: general', 'at b8', '  Injection, priority 10: suspended or ready at b0, line 2',
            '  IdleControl, priority 5: runs with EngineData', '  Diagnosis, priority 1, not preemptable: suspended or ready at b14, line 21; b16, line 23',
            'who holds EngineData is just above priority 10', 'IdleControl goes on: in OSDEFAULTAPPMODE by run 1, run 0 * 4',
            '  5 IdleControl Injection=S IdleControl=R Diagnosis=S !E_OK', 'Injection is dispatched: in OSDEFAULTAPPMODE by run 1, run 0, irq Tooth, run 0 * 6',
            '  9 Injection Injection=R IdleControl=Y Diagnosis=S !E_OK ^PostTask ^PreTask'])

    def test_what_the_table_alone_admits(self):
        lines = self.lines(example_app('engine'), 23)
        self.assertEqual(lines[0], 'b23, the end of Crank: general')
        self.assertRegex(lines[-1], r'^Injection is dispatched: the table admits it, but no run does it \(all \d+ states were looked at\)$')
        self.assertIn('Injection is dispatched: the table admits it, but none of the first 100 states shows it', self.lines(example_app('engine'), 23, 100))

    def test_other_sites(self):
        first = example_app('first')
        self.assertEqual(self.lines(first, 0), ['b0, c:3: TerminateTask() of T1: direct -', 'at b0', '  T1, priority 1: runs',
                                                'the processor becomes idle: in OSDEFAULTAPPMODE by run 0', '  1 - T1=S'])
        self.assertEqual(self.lines(first, 1), ['b1, c:4: the end of T1: never', 'no state of the table stands here'])

    def test_what_a_program_says_is_taken_in_place_of_the_model(self):
        """The program is the model here, by another way: its texts, and the bytes of its certificate."""
        name = os.path.join(EXAMPLES, 'engine', 'engine')
        with tempfile.TemporaryDirectory() as folder:
            program = os.path.join(folder, 'osekfit')
            with open(program, 'w', encoding='utf-8') as file:
                file.write('#!/bin/sh\nexec %s %s "$@"\n' % (sys.executable, os.path.join(TOOLS, 'model.py')))
            os.chmod(program, 0o755)
            said = printed.Printed(program, name + '.oil', name + '.code')
        app = example_app('engine')
        facts = margin.facts_of_texts(said.show, said.info, said.report, names=['p'])
        self.assertEqual(facts, margin.facts_of_model(app))
        analysis = Analysis(app).solve()
        self.assertEqual(said.table, table_of(analysis))
        for block in app.sites():
            self.assertEqual(printed.outcomes_of(said.show, app, block), analysis.shown[block], block)
        self.assertRaises(Wrong, printed.printed, os.path.join(folder, 'none'), name + '.oil', name + '.code')

    def test_what_was_printed_and_stored_is_read(self):
        app, name = example_app('engine'), os.path.join(EXAMPLES, 'engine', 'engine')
        with tempfile.TemporaryDirectory() as folder:
            names = [os.path.join(folder, file) for file in ('a.image', 'a.table')]
            model.store(app, None, *names)
            words = ['why.py', '--show', name + '.show', '--certificate', *names, name + '.oil', name + '.code', 'b8']
            with unittest.mock.patch('sys.argv', words), contextlib.redirect_stdout(io.StringIO()) as out:
                why.main()
        site = why.site_of_model(app, 8)
        self.assertEqual(out.getvalue().splitlines(), list(why.lines_of(site, why.searched(site, 100000), name + '.code')))

    def test_the_model_says_where_it_gives_up(self):
        name = os.path.join(EXAMPLES, 'engine', 'engine')
        with unittest.mock.patch('sys.argv', ['model.py', '--most', '10', 'show', name + '.oil', name + '.code']), self.assertRaises(Wrong) as caught:
            model.main()
        self.assertRegex(str(caught.exception), r'^the table is too large for the model: it asks more than 10 states')

    def test_without_a_table(self):
        lines = self.lines(example_app('engine'), 12, most_asked=10)
        self.assertEqual([line.partition(':')[0] for line in lines[::2]], ['b12, c', '  2 - Injection=S IdleControl=S Diagnosis=S ^PostTask',
                                                                           '  12 Diagnosis Injection=S IdleControl=S Diagnosis=R ^PostTask ^PreTask'])
        self.assertEqual(self.lines(example_app('first'), 1, most_asked=1)[1:], ['none of the first 2 states shows the site'])

    def test_runs_are_event_texts(self):
        app = example_app('engine')
        site = why.Site(app, 8)
        search = why.searched(site, 20000)
        with tempfile.TemporaryDirectory() as folder:
            names = list(why.stored(site, search, folder))
            shown = [list(model_trace.play(app, DEFAULT_MODE, model_trace.events_of(contents(name))))[-1][0].shown for name in names]
        self.assertEqual(([os.path.basename(name) for name in names], shown), (['b8-1.events', 'b8-2.events'], [KEEP, To(0)]))

    def test_the_site_is_named(self):
        app = example_app('engine')
        self.assertEqual((why.site_block(app, 'b8'), why.site_block(app, 'b20/Injection')), (8, 20))
        for text in ('b9', 'b99', '8', 'idle', ''):
            self.assertRaises(Wrong, why.site_block, app, text)


class Files:
    """The files of a trial."""

    def __init__(self, **files):
        self.files = files

    def get(self, name):
        return self.files[name.replace('.', '_')]


class HostileTools(unittest.TestCase):
    def test_answers_on_certificates(self):
        trial = Files(a_table=bytes(75))
        for status, out, err, due in ((11, b'', 'a.table:74: K1', True), (11, b'', 'a.table:76: K1', False), (11, b'', 'a.table:0: K7', False),
                                      (11, b'yes\n', 'a.table:0: K1', False), (11, b'', 'a.image:0: K1', False), (12, b'', 'a.table: N2 b3/T1', True),
                                      (12, b'', 'a.table: N2 halt', True), (12, b'', 'a.table: N1 OSDEFAULTAPPMODE', True), (12, b'', 'a.table: N3 b4', True),
                                      (12, b'', 'a.table: N4 b4/T1', False), (12, b'', 'a.table: N5 b4', False), (12, b'yes\n', 'a.table: N3 b4', False),
                                      (13, b'', 'a.table: too long', True), (13, b'', 'a.image: too long', False), (14, b'', '', False)):
            self.assertEqual(mutate.is_stated(trial, [], mutate.Answer(status, out, (err + '\n').encode())), due, err)

    def test_files_behind_a_failed_write(self):
        texts, whole = {'i': b'before', 't': b'before'}, refuse_memory.Answer(0, b'', b'', False, {'i': b'image', 't': b'table'})
        for stored, now, due in ((['i', 't'], {'i': b'before', 't': b'before'}, None), (['i', 't'], {'i': b'im', 't': b'before'}, None),
                                 (['i', 't'], {'i': b'image', 't': b'before'}, None), (['i', 't'], {'i': b'image', 't': b''}, None),
                                 (['i', 't'], {'i': b'im', 't': b'ta'}, 't was changed'), (['i', 't'], {'i': b'before', 't': b'table'}, 't was changed'),
                                 (['i', 't'], {'i': b'other', 't': b'before'}, 'i was changed'), ([], {'i': b'', 't': b'before'}, 'i was changed'),
                                 (['i'], {'i': b'image', 't': b''}, 't was changed'), (['n'], {**texts, 'n': b''}, 'n was changed')):
            answer = whole._replace(status=6, files=now)
            self.assertEqual(fail_io.file_fault_of(stored, answer, whole, texts), due, now)

    def test_what_refused_memory_may_come_to(self):
        ample = refuse_memory.Answer(11, b'', b'a.table:10: K3\n', False, {})
        for answer, is_good in ((ample, True), (ample._replace(err=b'memory\n', status=7), True), (ample._replace(status=0), False),
                                (ample._replace(status=12, err=b'a.table: N3 b0\n'), False)):
            self.assertEqual(refuse_memory.fault_of([], answer._replace(refused=True), ample, {}) is None, is_good, answer)
        self.assertFalse(refuse_memory.has_inputs(['check', 'a.image', 'a.table'], {'a.image': b''}))
        self.assertTrue(refuse_memory.has_inputs(['build', 'a.oil', 'a.code', 'a.image'], {}))
