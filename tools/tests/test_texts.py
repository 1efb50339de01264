"""Tests of the tools that read OIL, task code and events, of the model, of the documents, and of how tools end; `tools/run_tests.py` runs them too."""
import contextlib
import io
import os
import re
import subprocess
import sys
import tempfile
import unittest

import check_documents
import events
import house
import reached
import regress
from lib import causes, covered, image, least_table, model_trace, oil, pages, reasons
from lib.application import application_of
from lib.given import Wrong, contents
from lib.oil import DEFAULT_MODE
from tests import EXAMPLES, TOOLS


def example(name, ending):
    return contents(os.path.join(EXAMPLES, name, name + ending))


def example_app(name):
    return application_of(example(name, '.oil'), example(name, '.code'))


def trace_of(app, text, mode=DEFAULT_MODE):
    played = model_trace.play(app, mode, model_trace.events_of(text))
    return ''.join(model_trace.line(app, n, step) + '\n' for n, (step, _, _) in enumerate(played))


def app_of(objects, code):
    return application_of('CPU c { OS os { USERESSCHEDULER = FALSE; }; %s };' % objects, code)


T1 = 'TASK T1 { PRIORITY = 1; AUTOSTART = TRUE; };'


class Oil(unittest.TestCase):
    def test_a_system_is_read(self):
        text = ('OIL_VERSION = "2.5" : "x"; IMPLEMENTATION i { TASK { UINT32 [0..9] STACK = 2; }; }; /* } */\n'
                'CPU c { OS os { ERRORHOOK = TRUE; }; APPMODE M; EVENT E; EVENT F { MASK = 0x1; };\n'
                'TASK T { PRIORITY = 3; SCHEDULE = NON; EVENT = E; AUTOSTART = TRUE { APPMODE = M; }; STACK = 9; } : "d"; ISR I { CATEGORY = 1; }; };')
        system = oil.system_of(text)
        self.assertEqual((system.hooks, system.modes, system.events), (['Error'], [DEFAULT_MODE, 'M'], {'E': 2, 'F': 1}))
        task = system.tasks['T']
        self.assertEqual((task.priority, task.is_full, task.own, task.modes, task.line), (3, False, 2, frozenset([1]), 3))
        self.assertEqual(system.resources['RES_SCHEDULER'].ceiling, 7)

    def test_a_fault_is_told_with_its_line(self):
        for text, line in (('CPU c {\n OS os\n TASK T { };\n};', 3), ('CPU c {', 1), ('', 1), ('TASK(T) { }', 1), ('CPU c { OS os; }; x', 1)):
            with self.assertRaises(Wrong) as caught:
                oil.objects_of(text, 'a.oil')
            self.assertTrue(str(caught.exception).startswith('a.oil:%d: ' % line), caught.exception)

    def test_texts_that_do_not_fit_are_told(self):
        oil_text = 'CPU c { OS os; %s };' % T1
        for code in ('', 'TASK(T2) { }', 'TASK(T1) { ActivateTask(T9); }', 'TASK(T1) { foo(); }', 'TASK(T1) { ActivateTask(1); }',
                     'TASK(T1) { Schedule(T1); }', 'TASK(T1) { WaitEvent(E); }', 'TASK(T1) { if (?) }', 'TASK(T1) { Schedule()'):
            self.assertRaises(Wrong, application_of, oil_text, code)


class Models(unittest.TestCase):
    def test_the_traces_of_the_examples(self):
        for name in ('first', 'lamp', 'body', 'engine'):
            self.assertEqual(trace_of(example_app(name), example(name, '.events')), example(name, '.trace'), name)

    def test_what_show_prints_of_the_examples(self):
        for name in ('first', 'lamp', 'engine'):
            self.assertEqual(least_table.show(example_app(name)), example(name, '.show'), name)

    def test_the_image_of_the_first_example(self):
        app = example_app('first')
        analysis = least_table.Analysis(app).solve()
        self.assertEqual(image.image(app, analysis.shown, analysis.noted).hex(),
                         '4f53454b464954020001000000010100020254310001010000000000000000010000000201ff0d5245535f5343484544554c4552'
                         '00000003000000104f5344454641554c544150504d4f4445040000000003000102ff091600000000040000ff')

    def test_refusals(self):
        code = ('TASK(T1) { GetResource(R); GetResource(R); TerminateTask(); ReleaseResource(R); ReleaseResource(R); SetEvent(T1, E);'
                ' ClearEvent(E); SetRelAlarm(A, 0, 0); SetRelAlarm(A, 10, 0); SetAbsAlarm(A, 0, 0); SetAbsAlarm(A, 0, 0); GetAlarm(A);'
                ' CancelAlarm(A); CancelAlarm(A); GetAlarm(A); ActivateTask(T1); GetTaskID(); GetTaskState(T1); GetActiveApplicationMode(); }')
        app = app_of('EVENT E; RESOURCE R; COUNTER C { MAXALLOWEDVALUE = 9; }; ALARM A { COUNTER = C; ACTION = ACTIVATETASK { TASK = T1; }; };'
                     ' TASK T1 { PRIORITY = 1; AUTOSTART = TRUE; RESOURCE = R; };', code)
        notes = [line.partition(' !')[2].split(' ') for line in trace_of(app, 'run 0\n' * 18).splitlines()[1:]]
        self.assertEqual([note[0] for note in notes], [
            'E_OK', 'E_OS_ACCESS', 'E_OS_RESOURCE', 'E_OK', 'E_OS_NOFUNC', 'E_OS_ACCESS', 'E_OS_ACCESS', 'E_OS_VALUE', 'E_OS_VALUE', 'E_OK',
            'E_OS_STATE', 'E_OK', 'E_OK', 'E_OS_NOFUNC', 'E_OS_NOFUNC', 'E_OS_LIMIT', 'E_OK', 'E_OK'])
        self.assertEqual((notes[11][1], notes[16][1], notes[17][1]), ('=10', '=T1', '=R'))

    def test_a_request_that_waits_takes_no_second(self):
        app = app_of(T1 + ' ISR I { CATEGORY = 2; };', 'TASK(T1) { SuspendOSInterrupts(); work 2; ResumeOSInterrupts(); } ISR(I) { }')
        lines = trace_of(app, 'run 0\nirq I\nirq I\n' + 'run 0\n' * 6).splitlines()
        self.assertEqual([line.split(' ')[1] for line in lines], ['T1'] * 7 + ['@I', 'T1', '-'])

    def test_a_table_has_either_of_two_tasks_that_share_a_ceiling_first(self):
        body = 'GetResource(R); ActivateTask(T3); ReleaseResource(R);'
        app = app_of('RESOURCE R; TASK T1 { PRIORITY = 1; AUTOSTART = TRUE; RESOURCE = R; }; TASK T2 { PRIORITY = 2; AUTOSTART = TRUE; RESOURCE = R; };'
                     ' TASK T3 { PRIORITY = 3; };', 'TASK(T1) { %s } TASK(T2) { %s } TASK(T3) { }' % (body, body))
        shown = least_table.show(app).splitlines()
        self.assertTrue({'edge b8 b2', 'edge b8 b6', 'edge b2 b3', 'edge b2 b6', 'edge b6 b2', 'edge b6 b7'} <= set(shown), shown)

    def test_wrong_words_are_told(self):
        app = example_app('lamp')
        for text in ('run\n', 'run 2\n', 'irq\n', 'x y\n', 'irq Nobody\n'):
            self.assertRaises(Wrong, trace_of, app, text)
        self.assertRaises(Wrong, trace_of, app, '', 'NoMode')


class Events(unittest.TestCase):
    def text(self, script, name=None):
        player = events.Player(example_app(name), DEFAULT_MODE) if name else None
        return events.event_text(script, 's', player)

    def test_repeats_and_comments(self):
        self.assertEqual(self.text('# a\nrun 0 * 2\nrepeat 2\nirq I\nend\n\ntick C'), '# a\nrun 0\nrun 0\nirq I\nirq I\n\ntick C\n')

    def test_sources_come_by_themselves(self):
        self.assertEqual(self.text('tick C every 2\nrun 1 * 5\ntick C never\nrun 0 * 2').split('\n'),
                         ['run 1', 'run 1', 'tick C', 'run 1', 'run 1', 'tick C', 'run 1', 'run 0', 'run 0', ''])

    def test_draws_are_the_same_each_time(self):
        self.assertEqual(self.text('run ? * 20'), self.text('seed 1\nrun ? * 20'))
        self.assertNotEqual(self.text('run ? * 20'), self.text('seed 2\nrun ? * 20'))

    def test_until(self):
        self.assertEqual(self.text('until Rest', 'lamp'), 'run 0\n' * 2)
        self.assertEqual(self.text('until Lamp=W\nirq Button\nuntil @Button\nuntil Lamp', 'lamp'), 'run 0\nrun 0\nirq Button\nrun 0\nrun 0\nrun 0\n')

    def test_where_the_processor_is_when_it_gives_up(self):
        """Rest loops at line 9 of the lamp's code, by two statements, and a processor that is halted stays so."""
        with self.assertRaises(Wrong) as caught:
            self.text('until Lamp=W\nuntil @Button most 9', 'lamp')
        self.assertEqual(str(caught.exception), 's:2: @Button did not come within 9 runs: Rest has the processor at the task code:9: work 1, '
                         'behind lines 2, 3, 9')
        app = application_of('CPU c { OS os; TASK T { PRIORITY = 1; AUTOSTART = TRUE; }; };', 'TASK(T) { ShutdownOS(E_OK); }')
        with self.assertRaises(Wrong) as caught:
            events.event_text('until idle most 3', 's', events.Player(app, DEFAULT_MODE))
        self.assertEqual(str(caught.exception), 's:1: idle did not come within 3 runs: the processor is halted')

    def test_wrong_scripts_are_told_with_their_line(self):
        for script in ('run 0\nrun', 'run 0\nrun 0 * x', 'run 0\nuntil idle', 'run 0\nrepeat 2', 'run 0\nend', 'run 0\ntick C every 5..2',
                       'run 0\nrun 0 * 99999999'):
            with self.assertRaises(Wrong) as caught:
                self.text(script)
            self.assertTrue(str(caught.exception).startswith('s:2: '), caught.exception)
        for script in ('until nobody', 'until Lamp=Q', 'until idle most 3', 'until Lamp by 2', 'irq Nobody'):
            self.assertRaises(Wrong, self.text, script, 'lamp')


class Annotations(unittest.TestCase):
    def reached(self, app, text):
        found, before = covered.Reached(app), None
        for step, words, _ in model_trace.play(app, DEFAULT_MODE, model_trace.events_of(text)):
            if words and words[0] == 'run':
                found.take(before, step, words[1])
            before = step.state
        return found

    def test_statements_are_named(self):
        app, before, texts = example_app('lamp'), None, []
        for step, words, _ in model_trace.play(app, DEFAULT_MODE, model_trace.events_of('run 0\nrun 0\nirq Button\nirq Button\nrun 0\nrun 0\nrun 0\n')):
            texts.append(reasons.told(app, before, step, words, 'c'))
            before = step.state
        self.assertEqual(texts, ['the start', 'c:2: while (1)', 'c:3: WaitEvent(Pressed)', 'Button is requested',
                                 'Button is requested already, and this is lost', 'the routine of Button begins',
                                 'c:12: SetEvent(Lamp, Pressed)', 'c:13: end of Button'])

    def test_what_was_reached_is_counted(self):
        app = example_app('engine')
        rows = covered.rows(app, self.reached(app, example('engine', '.events')), 'c', example('engine', '.show'))
        self.assertEqual([(row.name, row.reached, row.all) for row in rows],
                         [('statements', 17, 17), ('choices', 2, 2), ('outcomes', 10, 17), ('edges', 31, 99)])
        self.assertIn('outcome: c:12: ReleaseResource(EngineData) goes on', rows[2].missed)
        for text in ('edge: b3 idle: Injection line 5 to idle', 'edge: b23/- b14: Crank end over nobody to Diagnosis line 21'):
            self.assertIn(text, rows[3].missed)

    def test_show_of_other_texts_is_told(self):
        app = example_app('lamp')
        self.assertRaises(Wrong, covered.rows, app, self.reached(app, 'run 0\n'), 'c', 'points 1 height 1 values 1 edges 0\n')


class Regressions(unittest.TestCase):
    def test_differences_are_told(self):
        self.assertIsNone(regress.difference('a\nb\n', 'a\nb\n'))
        self.assertEqual(regress.difference('a\nb\n', 'a\nc\n'), "line 2: wanted 'b', got 'c'")
        self.assertEqual(regress.difference('a\n', 'a\nb\n'), "line 2: wanted no line, got 'b'")
        self.assertEqual(regress.difference('a\nb\n', ''), "line 1: wanted 'a', got no line")

    def test_applications_are_found(self):
        self.assertEqual([os.path.basename(f) for f in regress.applications(EXAMPLES)], ['body', 'engine', 'first', 'gateway', 'inverter', 'lamp'])
        self.assertRaises(Wrong, regress.applications, os.path.join(TOOLS, 'lib'))
        self.assertRaises(Wrong, regress.applications, 'nowhere')

    def test_what_is_written_is_said(self):
        with tempfile.TemporaryDirectory() as folder, contextlib.redirect_stdout(io.StringIO()) as out:
            tester, expected = regress.Tester('echo', True), os.path.join(folder, 'a.show')
            tester.case('a', 'show', ['sites'], expected)
            tester.case('a', 'show', ['sites'], expected)
        self.assertEqual((out.getvalue(), [case.fault for case in tester.cases]), ('%s is written\n' % expected, [None, None]))

    def test_a_report_is_xml(self):
        from xml.etree import ElementTree
        root = ElementTree.fromstring(regress.junit([regress.Case('a', 'b<', 0.5, 'x & y'), regress.Case('a', 'c', 0.5, None)]))
        self.assertEqual((root.get('tests'), root.get('failures'), root[0][0].text), ('2', '1', 'x & y'))


class Documents(unittest.TestCase):
    def test_blocks_of_commands_are_read(self):
        text = 'x\n```console\n$ cd a\n$ b\nout\n```\n```\n$ no\n```\n```console needs nowhere sh\n$ c\n```\n'
        blocks = check_documents.blocks_of(text)
        self.assertEqual(blocks, [([], [(3, 'cd a', []), (4, 'b', ['out'])]), (['nowhere', 'sh'], [(11, 'c', [])])])
        self.assertEqual([check_documents.missing(block) for block in blocks], [[], ['nowhere']])

    def test_links_lead_somewhere(self):
        self.assertEqual(list(pages.broken_links(check_documents.ROOT)), [])
        self.assertEqual(pages.anchors_of("# A B\n```\n# no\n```\n## What it isn't, `x`\n"), {'a-b', 'what-it-isnt-x'})

    def test_pages_are_laid_out(self):
        self.assertEqual(list(pages.overlong_lines(check_documents.ROOT)), [])
        self.assertLessEqual(contents(os.path.join(check_documents.ROOT, 'README.md')).count('\n'), 130)
        self.assertEqual(list(pages.older_versions(check_documents.ROOT)), [])
        self.assertEqual([pages.VERSION.findall(text) for text in ('of 2.6.0, and 2.7.0.', 'Python 3.8, 1.2.3.4, v1.2.3')], [['2.6.0', '2.7.0'], []])
        self.assertEqual(list(pages.lines_outside_code('a\n```\nb\n```\nc')), [(1, 'a'), (5, 'c')])

    def test_definitions_are_followed_by_imports(self):
        found = reached.Scope('use Rattle.a.specs.{F.{x, y}, declared.m.T.{T}}\nuse Rattle.a.specs.G as g\nuse Rattle.std.specs.P.{z}\n')
        self.assertEqual(found.names, {'x': ('a', 'F', 'x'), 'y': ('a', 'F', 'y'), 'T': ('a', 'src/m', 'T')})
        self.assertEqual(found.modules, {'g': ('a', 'G')})
        texts = reached.definitions_of('use Rattle.a.specs.F.{x}\n-- of a\nabbrev pub one : A\none = x\n\npub record Two : B where\n  pub f : C\n')
        self.assertEqual(texts, {'one': '-- of a\nabbrev pub one : A\none = x\n', 'Two': 'pub record Two : B where\n  pub f : C\n'})

    def test_confidence_names_what_is_there(self):
        folder = os.path.join(check_documents.ROOT, 'crates')
        code, words = {}, ''
        for crate in os.listdir(folder):
            code[crate] = ''.join(contents(file) for file in house.files_of(os.path.join(folder, crate, 'src'), '.rt'))
            words += code[crate] + ''.join(file + contents(file) for file in house.files_of(os.path.join(folder, crate, 'specs'), '.antt'))
        rows = code.get('command_cases', '') + ''.join(contents(file) for file in house.files_of(os.path.join(folder, 'rows', 'data'), '.rows'))
        matrix = contents(os.path.join(check_documents.ROOT, 'docs', 'CONFIDENCE.md')).partition('## From ISO 17356-3')[2]
        for service, definitions, functions, runs in list(causes.rows_of(matrix, 4))[2:]:
            for name in re.findall(r'`([^`]+)`', definitions):
                self.assertRegex(words, r'\b%s\b' % name.rpartition('/')[2], service)
            crate = None
            for name in re.findall(r'`([^`]+)`', functions):
                crate, function = name.split('::') if '::' in name else (name, '') if name in code else (crate, name)
                self.assertIn('fn %s' % function if function else '', code[crate], service)
            for run in runs.split('; ') if runs != 'all' else []:
                self.assertRegex(rows, r'(?m)^row %s$|"%s"' % (re.escape(run), re.escape(run)), service)

    def test_each_clause_of_readme_is_said_by_definitions_and_laws_that_are_there(self):
        root = check_documents.ROOT
        claims = re.findall(r'(?m)^(\d+)\. ', contents(os.path.join(root, 'README.md')).partition('## What is proved')[2])
        rows = list(causes.rows_of(contents(os.path.join(root, 'docs', 'CONFIDENCE.md')).partition('| of README |')[2].partition('\n\n')[0], 3))
        self.assertEqual([row[0] for row in rows[1:]], claims)
        specs = ''.join(contents(file) for file in house.files_of(os.path.join(root, 'crates'), '.antt') if '/specs/' in file and '/out/' not in file)
        laws = ''.join(contents(file) for crate in ('commands', 'command_laws', 'kernel_guarantees')
                       for file in house.files_of(os.path.join(root, 'crates', crate, 'src'), '.rt'))
        for number, definitions, said in rows[1:]:
            for name in re.findall(r'`(\w+)`', definitions):
                self.assertRegex(specs, r'\b(abbrev pub|record|data) %s\b' % name, number)
            for name in re.findall(r'`(\w+)`', said):
                self.assertRegex(laws, r'(?m)^pub fn %s\(\)$' % name, number)

    def test_architecture_names_calls_that_are_there(self):
        page = contents(os.path.join(check_documents.ROOT, 'docs', 'ARCHITECTURE.md'))
        proved = page.partition('## What is proved, crate by crate')[2].partition('\n## ')[0]
        lacking = []
        for head, text in re.findall(r'^\*\*(.*?)\*\*(.*?)(?=^\*\*|\Z)', proved, re.MULTILINE | re.DOTALL):
            named = re.findall(r'`(\w+)`', head)
            there = ''.join(contents(file) for crate in named for file in house.files_of(os.path.join(check_documents.ROOT, 'crates', crate), '.rt'))
            names = [name for call in re.findall(r'^- (.*(?:\n  .*)*)', text, re.MULTILINE) for name in re.findall(r'`(?:\w+::)?(\w+)`', call.partition(':')[0])]
            lacking += [(named, name) for name in names if not re.search(r'\b(fn|struct|enum|trait|type) %s\b' % name, there)]
        self.assertEqual(lacking, [])

class Ends(unittest.TestCase):
    """Each tool ends with one line and status 2 where it can't work, and with no word where nobody reads."""

    def ended(self, words, **more):
        env = dict(os.environ, LC_ALL='C', PYTHONIOENCODING='')
        return subprocess.run([sys.executable, os.path.join(TOOLS, words[0])] + words[1:], stdin=subprocess.DEVNULL, stderr=subprocess.PIPE, env=env, **more)

    def test_missing_files_and_wrong_words_are_told_in_one_line(self):
        for words in (['annotate.py', 'no', 'no', 'no'], ['check_documents.py', 'no/program'], ['compare_model.py', 'no/program'], ['events.py', 'no'],
                      ['explain.py', 'no/program'], ['graph.py', 'no'], ['lint.py', 'no', 'no'], ['model.py', 'show', 'no', 'no'],
                      ['model.py', 'check', 'no', 'no'], ['certificate.py', 'no', 'no'], ['why.py', 'no', 'no', 'b0'],
                      ['regress.py', '--program', 'no/program', 'no'], ['timeline.py', 'no'], ['timeline.py', '--first', 'x', 'no'], ['graph.py', '--no']):
            done = self.ended(words, stdout=subprocess.DEVNULL)
            self.assertEqual((done.returncode, done.stderr.count(b'\n')), (2, 1), (words, done.stderr))

    def test_a_closed_pipe_is_no_fault(self):
        name = os.path.join(EXAMPLES, 'engine', 'engine')
        reading, writing = os.pipe()
        os.close(reading)
        done = self.ended(['timeline.py', name + '.trace'], stdout=writing)
        os.close(writing)
        self.assertEqual((done.returncode, done.stderr), (0, b''))

    def test_output_is_utf_8_whatever_the_locale(self):
        name = os.path.join(EXAMPLES, 'engine', 'engine')
        done = self.ended(['graph.py', '--code', name + '.code', '--svg', name + '.show', '--title', 'é'], stdout=subprocess.PIPE)
        self.assertIn('→ '.encode() if b'direct' in done.stdout else 'é'.encode(), done.stdout)

    def test_scripts_can_be_run(self):
        for folder in (TOOLS, os.path.join(check_documents.ROOT, 'bench')):
            for name in sorted(os.listdir(folder)):
                file = os.path.join(folder, name)
                if name.endswith('.py') and "__name__ == '__main__'" in contents(file) and not name.startswith('test_texts'):
                    self.assertTrue(os.access(file, os.X_OK), name)
