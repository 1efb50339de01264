"""Tests of pictures, warnings and words of queued activations, INTERNAL resources and nested routines; `tools/run_tests.py` runs them too.
Expected values are worked out by hand. The two examples are compared with the model, which made their files."""
import io
import json
import os
import unittest
import unittest.mock

import lint
import why
from lib import btf, causes, certificate_chart, certified, covered, findings, least_table, model_trace, oil, opened, perfetto, \
    show_reader, timeline_chart, trace_reader, vcd
from lib.application import application_of
from lib.given import Wrong, contents
from lib.oil import DEFAULT_MODE
from lib.points import shown_point
from lib.table_words import Wording
from tests import EXAMPLES
from tests.small_systems import ROUTINES, bodies, isr, task
from tests.test_systems import application, text_of, with_parts

TRACE = """0 T1 T1=R T2=S
1 @I1 T1=R T2=S
2 @I1 T1=R T2=S @I1+R !E_OK
3 @I2 T1=R T2=Y*1 @I1+R
4 @I2 T1=R T2=Y*1 @I1+R @I2+Q !E_OK
5 @I1 T1=R T2=Y*1 @I1+R
6 @I1 T1=R T2=Y*1 !E_OK
7 T2 T1=Y T2=R*1
8 T2 T1=Y T2=R
"""
"""I1 takes R, I2 nests in it and takes Q, both end, and T2 runs twice."""

OPENED_FOR = {'gateway': opened.LATER, 'inverter': opened.LATER}
"""The examples, and what is opened for them."""


def trace_of(text):
    return trace_reader.Trace(io.StringIO(text))


def example(name, ending):
    return contents(os.path.join(EXAMPLES, name, name + ending))


class Pictures(unittest.TestCase):
    def test_a_line_is_read(self):
        line = trace_reader.line_of('4 @I2 T1=R T2=Y*12:3+G+R @I1+R @I2+Q %C !E_OK')
        self.assertEqual(line.tasks['T2'], trace_reader.Task('Y', '3', ['G', 'R'], 12))
        self.assertEqual(line.routines, {'@I1': ['R'], '@I2': ['Q'], '%C': []})
        self.assertEqual([trace_reader.has_begun(line, name) for name in ('@I1', '@I2', '%C', '@I3')], [True, True, True, False])
        self.assertEqual([trace_reader.waits_below(line, name) for name in ('@I1', '@I2', '%C', '@I3')], [True, False, True, False])
        for text in ('1 T1 T1=R*', '1 T1 T1=R:1*2', '1 T1 T1=R @', '1 T1 T1=R @I:1'):
            self.assertRaises(ValueError, trace_reader.line_of, text)

    def test_the_chart_shows_a_nest(self):
        lines = list(trace_of(TRACE))
        svg = timeline_chart.chart(lines, None, [(1, '@I1')], 'a nest')
        for text in ('@I1 waits below another routine from 3 to 4', '@I1 holds R', '@I2 holds Q', 'waits below another routine', '>*1<'):
            self.assertIn(text, svg)
        found = timeline_chart.Chart(lines, None, [(0, '@I1'), (2, '@I1')])
        self.assertEqual(found.latches('@I1'), [(0, 1), (2, 9)])  # going on at 5 is no begin

    def test_the_dump_has_wires_for_a_nest(self):
        text = ''.join(vcd.dump(trace_of(TRACE)))
        for name in ('isr_I1 ', 'isr_I1_waits ', 'isr_I1_holds_R ', 'isr_I2_holds_Q ', 'further [7:0] '):
            self.assertIn(name, text)
        self.assertNotIn('isr_I2_waits', text)

    def test_timing_tools_see_instances(self):
        lines = [line.partition(',')[0] + ' ' + ' '.join(line.split(',')[4:]) for line in ''.join(btf.dump(trace_of(TRACE), [])).splitlines() if ',I,' in line]
        self.assertEqual(lines, ['1 I1 0 start', '3 I1 0 preempt', '3 I2 0 start', '5 I2 0 terminate', '5 I1 0 resume', '7 I1 0 terminate'])
        lines = [','.join(line.split(',')[4:]) for line in ''.join(btf.dump(trace_of(TRACE), [])).splitlines() if ',T,T2,' in line]
        self.assertEqual(lines, ['T2,0,activate', 'T2,1,activate', 'T2,0,start', 'T2,0,terminate', 'T2,1,start'])

    def test_a_halt_ends_all_routines(self):
        text = ''.join(btf.dump(trace_of('0 @I1 T1=R\n1 @I2 T1=R @I1\n2 # T1=Y\n'), []))
        self.assertIn('2,Core_1,0,I,I2,0,terminate\n2,Core_1,0,I,I1,0,terminate\n', text)

    def test_tracks_begin_and_end(self):
        found = json.loads(''.join(perfetto.dump(trace_of(TRACE), [])))['traceEvents']
        numbers = {event['args']['name']: event['tid'] for event in found if event['name'] == 'thread_name'}
        slices = {name: [(e['name'], e['ts'], e['dur']) for e in found if e['ph'] == 'X' and e['tid'] == numbers[name]] for name in numbers}
        self.assertEqual(slices['@I1'], [('waits', 3, 2)])
        self.assertEqual(slices['@I1 holds'], [('R', 2, 4)])
        self.assertEqual(slices['task T2'], [('ready, 1 more', 3, 4), ('running, 1 more', 7, 1), ('running', 8, 1)])

    def test_edges_between_routines(self):
        with with_parts(*opened.LATER):
            system = ROUTINES['an end below another routine']
            show = show_reader.read_show(least_table.show(application(system)))
            owners = show_reader.Owners(show, system.code, oil.system_of(text_of(system.oil)))
            blind = show_reader.Owners(show, system.code)
        kinds = {tuple(map(show_reader.text_of, edge)): owners.kind_of_edge(*edge) for edge in show.edges}
        self.assertEqual([kinds[edge] for edge in (('b3/T1', 'b6/T1'), ('b6/T1', 'b7/T1'), ('b7/T1', 'b4/T1'), ('b7/T1', 'b3/T1'), ('b5/T1', 'b6/T1'))],
                         ['interrupt', 'flow', 'return', 'return', 'interrupt'])
        edge = next(edge for edge in show.edges if tuple(map(show_reader.text_of, edge)) == ('b7/T1', 'b3/T1'))
        self.assertEqual(blind.kind_of_edge(*edge), '')

    def test_a_return_to_a_routine_is_an_outcome(self):
        with with_parts(*opened.LATER):
            app = application(ROUTINES['an end below another routine'])
            show = show_reader.read_show(least_table.show(app))
        outcomes = {tuple(map(show_reader.text_of, edge)): covered.Owners(app).outcome(edge, show.sites) for edge in show.edges}
        self.assertEqual((outcomes['b7/T1', 'b4/T1'], outcomes['b5/T1', 'b6/T1']), ((7, 'returns'), None))


class Warnings(unittest.TestCase):
    def warnings(self, oil, code):
        with with_parts(*opened.LATER):
            return [text for _, _, text, _ in lint.warnings_of(text_of(oil), code, ('o', 'c'), ['end', 'dead'])]

    def test_activations_of_a_task_that_runs(self):
        self.assertEqual(self.warnings(task('T1', 1, 'auto', 'ACTIVATION = 2'), 'TASK(T1) { ActivateTask(T1); TerminateTask(); }'), [])
        self.assertEqual(len(self.warnings(task('T1', 1, 'auto'), 'TASK(T1) { ActivateTask(T1); TerminateTask(); }')), 1)

    def test_tasks_of_the_same_priority_never_run(self):
        code = bodies(('T1', 'while (1) { work 1; }'), ('T2', 'TerminateTask();'))
        self.assertEqual(self.warnings(task('T1', 1, 'auto') + task('T2', 1, 'auto'), code),
                         ['task T1 never gives up the processor from here on: no task of its priority or below ever runs'])

    def test_an_internal_resource_of_one_task(self):
        self.assertEqual(self.warnings('RESOURCE G { RESOURCEPROPERTY = INTERNAL; };' + task('T1', 1, 'auto', 'RESOURCE = G'), 'TASK(T1) { TerminateTask(); }'),
                         ['one task alone names the INTERNAL resource G, so it keeps no task away'])

    def test_resources_of_routines(self):
        found = self.warnings('RESOURCE R;' + isr('I', 1, 'R'), 'ISR(I) { ReleaseResource(R); GetResource(R); }')
        self.assertEqual(found, ['ReleaseResource(R): it may not be the resource taken last, and then this is refused (E_OS_NOFUNC)',
                                 'the end of I: R may be held here: it is given back, without a status'])

    def test_what_is_not_opened_is_refused(self):
        with with_parts():
            self.assertRaises(Wrong, lint.warnings_of, text_of('RESOURCE R;' + isr('I', 0, 'R')), 'ISR(I) { }', ('o', 'c'))

    def test_what_the_texts_tell_of_a_refusal(self):
        oil = text_of('\nRESOURCE G { RESOURCEPROPERTY = INTERNAL; };\nRESOURCE H { RESOURCEPROPERTY = INTERNAL; };\n' +
                      'TASK T1 { PRIORITY = 1; RESOURCE = G; RESOURCE = H; };\nRESOURCE R;\nRESOURCE Q;\n' + isr('I', 1, 'R'))
        code = 'TASK(T1) { GetResource(G); }\nISR(I) { GetResource(Q); }\n'
        files = {'a.oil': oil, 'a.code': code}
        for name, rule, line, told in (
                ('a.oil', 'O16', 4, ['here: TASK T1 names G, which line 2 makes INTERNAL', 'here: TASK T1 names H, which line 3 makes INTERNAL']),
                ('a.code', 'C10', 1, ['here: G is INTERNAL on line 2']), ('a.code', 'C6', 2, ['here: ISR I names R'])):
            with with_parts(*opened.LATER), unittest.mock.patch('lib.causes.contents', files.get):
                self.assertEqual(causes.told(rule, causes.Texts(name, line, ['build', 'a.oil', 'a.code']), ''), told)


class Examples(unittest.TestCase):
    def test_their_files(self):
        for name, parts in OPENED_FOR.items():
            with with_parts(*parts):
                app = application_of(example(name, '.oil'), example(name, '.code'))
                analysis = least_table.Analysis(app).solve()
                self.assertEqual(least_table.show(app, analysis), example(name, '.show'), name)
                self.assertEqual(findings.report(app, analysis), example(name, '.report'), name)
                steps = model_trace.play(app, DEFAULT_MODE, model_trace.events_of(example(name, '.events')))
                self.assertEqual(''.join(model_trace.line(app, n, step) + '\n' for n, (step, _, _) in enumerate(steps)), example(name, '.trace'), name)
                self.assertEqual(lint.warnings_of(example(name, '.oil'), example(name, '.code'), ('o', 'c')), [], name)

    def test_they_are_refused_before(self):
        with with_parts(), self.assertRaises(Wrong) as caught:
            application_of(example('inverter', '.oil'), example('inverter', '.code'), ('o', 'c'))
        self.assertEqual(str(caught.exception), 'o:18: O15')

    def test_a_certificate_in_words(self):
        with with_parts(*opened.LATER):
            app = application(ROUTINES['resources of routines'])
            table = certified.table_of(least_table.Analysis(app).solve())
            point = next(point for point in table if shown_point(app, point) == 'b9/T1')
            words = dict(Wording(app).parts(point, table[point]))
            svg = certificate_chart.chart(app, table, 't')
        self.assertEqual(words['I1'], '@I1: out or waits at b2, line 2; b5, line 2 or waits with R at b3, line 2; b4, line 2')
        self.assertEqual((words['I2'], words['I3']), ('@I2: out or waits at b6, line 3; b7, line 3; b8, line 3 or waits with R at b7, line 3', '@I3: runs'))
        self.assertIn('>@I3<', svg)
        self.assertEqual(svg.count('<title>'), len(table) * (len(app.tasks) + len(app.sources)), 'a cell is white only where no state stands')
        self.assertIn('@I3: out', svg)

    def test_why_a_task_waits_for_its_group(self):
        with with_parts(*OPENED_FOR['gateway']):
            app = application_of(example('gateway', '.oil'), example('gateway', '.code'))
            site = why.site_of_model(app, 5)
            lines = list(why.lines_of(site, why.searched(site, 20000), 'c'))
        self.assertEqual(lines[3], '  Route, priority 2: runs with Buffers or runs with Buffers, 1 more activation')
        self.assertIn('who holds Buffers is just above priority 2', lines)
