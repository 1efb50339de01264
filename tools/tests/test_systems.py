"""Tests of the model with several activations, shared priorities and INTERNAL resources, and with the parts of the language that come later;
`tools/run_tests.py` runs them too. Expected values are those of small_systems.py, or worked out by hand."""
import contextlib
import io
import os
import tempfile
import unittest
import unittest.mock

import compare_model
import model
from lib import certified, findings, image, least_table, model_trace, opened, records, rules, table_bytes
from lib.application import application_of
from lib.given import contents
from lib.image_reader import read_image
from lib.oil import DEFAULT_MODE
from lib.table_bytes import Fault, read_table
from tests import EXAMPLES
from tests.small_systems import ACTIVATIONS, INTERNALS, ROUTINES, WITHOUT_SOURCES, bodies, isr, task


def with_parts(*parts):
    """Opens parts of the language for a while."""
    return unittest.mock.patch.object(opened, 'OPENED', set(parts))


def text_of(objects):
    return 'CPU c { OS os; %s };' % objects


def application(system):
    return application_of(text_of(system.oil), system.code)


def traced(app, events):
    found = model_trace.play(app, DEFAULT_MODE, model_trace.events_of('\n'.join(events)))
    return [model_trace.line(app, n, step) for n, (step, _, _) in enumerate(found)]


def refusal(oil, code='TASK(T1) { }\n'):
    """The rule by which texts are refused, or None."""
    try:
        application_of(text_of(oil), code, ('o', 'c'))
    except rules.Refused as refused:
        return str(refused)
    return None


class Systems(unittest.TestCase):
    def judge(self, name, system, numbers):
        app = application(system)
        analysis = least_table.Analysis(app).solve()
        found = {block: least_table.form(app, shown) for block, shown in analysis.shown.items()}
        self.assertEqual({b: f for b, f in found.items() if b in system.forms or f not in ('never', 'direct -')}, system.forms, name)
        told = least_table.show(app, analysis).splitlines()[-1].split()
        self.assertEqual(tuple(map(int, told[1::2])), numbers, name)
        for events, lines in system.runs:
            trace = traced(app, events)
            self.assertEqual([trace[int(line.split()[0])] for line in lines], lines, name)
        self.judge_files(name, app, analysis)

    def judge_files(self, name, app, analysis):
        """The image and the table mean what they were made of, and the runs of one are within the other."""
        data, table = image.image(app, analysis.shown, analysis.noted), certified.table_of(analysis)
        stored = read_image(data)
        self.assertEqual(image.image(stored.app, analysis.shown, analysis.noted), data, name)
        self.assertEqual(read_table(app, table_bytes.spelled(app, table)), table, name)
        self.assertEqual(certified.told(data, table_bytes.spelled(app, table), 'i', 't'), (0, 'yes'), name)
        events = [['run', str(k % 2)] if k % 3 else [('irq', 'tick')[s.mark == '%'], s.name] for k in range(60) for s in app.sources or [None] if s or k % 3]
        lines, status = records.record(stored, DEFAULT_MODE, [(words, 0) for words in events])
        self.assertEqual((status, records.watched(app, ''.join(text + '\n' for text in lines), 'r', analysis)[0]), (0, 0), name)
        replayed, _ = records.replay(stored, DEFAULT_MODE, [(words, 0) for words in events])
        self.assertEqual(replayed, traced(app, [' '.join(words) for words in events]), name)

    def test_several_activations(self):
        for name, system in ACTIVATIONS.items():
            self.judge(name, system, system.numbers)

    def test_internal_resources(self):
        for name, system in INTERNALS.items():
            self.judge(name, system, system.numbers)

    def test_nested_routines(self):
        with with_parts(*opened.LATER):
            for name, system in {**ACTIVATIONS, **INTERNALS, **ROUTINES}.items():
                self.judge(name, system, system.numbers)

    def test_numbers_without_sources(self):
        with with_parts():
            for name, numbers in WITHOUT_SOURCES.items():
                self.judge(name, ROUTINES[name], numbers)

    def test_systems_at_random(self):
        """Of systems that are made by chance: their files mean what they were made of, and no run leaves the table."""
        for parts in ((), opened.LATER):
            for seed in range(8):
                with with_parts(*parts):
                    maker = compare_model.Maker(seed)
                    app = application_of(maker.oil(), maker.code())
                    analysis = least_table.Analysis(app).solve(20000)
                    if analysis:
                        self.judge_files('seed %d' % seed, app, analysis)

    def test_an_end_goes_to_no_routine_that_does_not_come_first(self):
        with with_parts(*opened.LATER):
            edges = [line for line in least_table.show(application(ROUTINES['who comes before at an end'])).splitlines() if line.startswith('edge')]
        self.assertLessEqual({'edge b3/T1 b4/T1', 'edge b3/T1 b5/T1'}, set(edges))
        self.assertFalse({'edge b5/T1 b2/T1', 'edge b5/T1 b3/T1'} & set(edges))

    def test_a_held_resource_keeps_routines_away(self):
        with with_parts(*opened.LATER):
            edges = least_table.show(application(ROUTINES['a resource of a task and a routine'])).splitlines()
        self.assertFalse([line for line in edges if line.startswith(('edge b1 b7', 'edge b2 b7'))])

    def test_a_direct_dispatch_traps_where_another_routine_goes_on(self):
        system = ROUTINES['an end below another routine']
        with with_parts(*opened.LATER):
            app = application(system)
            analysis = least_table.Analysis(app).solve()
            data = image.image(app, {**analysis.shown, 7: {least_table.To(1)}}, analysis.noted)
            lines, status = records.replay(read_image(data), DEFAULT_MODE, model_trace.events_of('\n'.join(system.runs[0][0])))
        self.assertEqual((lines[-1], status), ('trap 6', records.TRAPPED))

    def test_the_generated_system_of_one_task(self):
        """Ten blocks of a task, two of a routine, three of a tick routine, and the resource of the scheduler beside another one."""
        with with_parts(*opened.LATER):
            oil = 'EVENT E; RESOURCE R; COUNTER C { MAXALLOWEDVALUE = 9; };' + task('T0', 0, 'auto', 'EVENT = E', 'RESOURCE = R') + \
                'ALARM A { COUNTER = C; ACTION = ACTIVATETASK { TASK = T0; }; AUTOSTART = TRUE { ALARMTIME = 1; CYCLETIME = 3; }; };' + \
                'ISR I { CATEGORY = 2; };'
            app = application_of(text_of(oil), bodies(('T0', 'while (?) { work 3; work 3; work 3; work 3; } work 3; work 3; work 3; work 3;'),
                                                      ('I', 'ActivateTask(T0);')))
            self.assertEqual((len(least_table.points_of(app)), least_table.heights(app, 1)), (22, 80))

    def test_the_height_of_sixteen_generated_tasks(self):
        with with_parts(*opened.LATER):
            oil = 'EVENT E; RESOURCE R; COUNTER C { MAXALLOWEDVALUE = 9; };' + ''.join(task('T%d' % k, k, 'EVENT = E', 'RESOURCE = R') for k in range(16)) + \
                'ALARM A { COUNTER = C; ACTION = ACTIVATETASK { TASK = T0; }; AUTOSTART = TRUE { ALARMTIME = 1; CYCLETIME = 3; }; };' + \
                'ISR I { CATEGORY = 2; };'
            app = application_of(text_of(oil), bodies(*[('T%d' % k, 'work 1; ' * 9) for k in range(16)], ('I', 'ActivateTask(T0);')))
            self.assertEqual((len(least_table.points_of(app)), least_table.heights(app, 16)), (247, 1025))

    def test_what_needs_none_of_it_stays(self):
        """An application of before has the image and the table that it had, until tables count sources; and its sites and edges then too."""
        for name in ('first', 'lamp', 'engine'):
            path = os.path.join(EXAMPLES, name, name)
            found = []
            for parts in ((), opened.LATER):
                with with_parts(*parts):
                    app = application_of(contents(path + '.oil'), contents(path + '.code'))
                    analysis = least_table.Analysis(app).solve()
                    table = table_bytes.spelled(app, certified.table_of(analysis))
                    found.append((image.image(app, analysis.shown, analysis.noted), least_table.show(app, analysis), table, findings.report(app, analysis)))
            self.assertEqual((found[1][0], found[1][1].splitlines()[:-1], found[1][3]), (found[0][0], found[0][1].splitlines()[:-1], found[0][3]), name)


class Rules(unittest.TestCase):
    NAMES_G = 'RESOURCE G { RESOURCEPROPERTY = INTERNAL; };'

    def test_what_is_not_opened_is_refused(self):
        with with_parts():
            self.assertEqual(refusal('RESOURCE R;' + isr('I', 0, 'R'), 'ISR(I) { }'), 'o:1: O15')
            self.assertEqual(refusal('RESOURCE R;' + isr('I', 0), 'ISR(I) {\n GetResource(R); }'), 'c:2: C6')

    def test_activations(self):
        event = 'EVENT E;'
        for number, words, rule in ((0, (), 'O9'), (1, (), None), (255, (), None), (256, (), 'O9'), (2, ('EVENT = E',), 'O9'), (1, ('EVENT = E',), None)):
            found = refusal(event + task('T1', 1, 'ACTIVATION = %d' % number, *words))
            self.assertEqual(found, rule and 'o:1: ' + rule, (number, words))
        self.assertIsNone(refusal(task('T1', 1) + task('T2', 1), bodies(('T1', ''), ('T2', ''))))

    def test_internal_resources(self):
        h, named = 'RESOURCE H { RESOURCEPROPERTY = INTERNAL; };', ('RESOURCE = G', '\nRESOURCE = H')
        self.assertEqual(refusal('RESOURCE L { RESOURCEPROPERTY = LINKED; };' + task('T1', 1)), 'o:1: O10')
        self.assertEqual(refusal(self.NAMES_G + h + task('T1', 1, *named)), 'o:2: O16')
        self.assertIsNone(refusal(self.NAMES_G + task('T1', 1, 'RESOURCE = G', 'RESOURCE = G')))
        self.assertEqual(refusal('RESOURCE RES_SCHEDULER { RESOURCEPROPERTY = INTERNAL; };' + task('T1', 1)), 'o:1: O17')
        self.assertEqual(refusal(self.NAMES_G + task('T1', 1, 'RESOURCE = G'), 'TASK(T1) {\n ReleaseResource(G); }'), 'c:2: C10')

    def test_routines(self):
        with with_parts(*opened.LATER):
            self.assertEqual(refusal('ISR I { CATEGORY = 2; PRIORITY = 256; };', 'ISR(I) { }'), 'o:1: O6')
            self.assertEqual(refusal('ISR I { CATEGORY = 1; PRIORITY = 256; };', ''), 'o:1: O6')
            self.assertIsNone(refusal(isr('I', 255), 'ISR(I) { }'))
            self.assertEqual(refusal('ISR I { CATEGORY = 3; };', ''), 'o:1: O15')
            self.assertEqual(refusal(isr('I', 0, 'RES_SCHEDULER'), 'ISR(I) { }'), 'o:1: O18')
            self.assertEqual(refusal(self.NAMES_G + isr('I', 0, 'G'), 'ISR(I) { }'), 'o:1: O18')
            self.assertEqual(refusal('RESOURCE R;' + isr('I', 0), 'ISR(I) { GetResource(R); }'), 'c:1: C6')
            self.assertIsNone(refusal('RESOURCE R;' + isr('I', 0, 'R'), 'ISR(I) { GetResource(R); }'))

    def test_the_program_refuses_with_status_1(self):
        with tempfile.TemporaryDirectory() as folder:
            names = [os.path.join(folder, name) for name in ('a.oil', 'a.code')]
            for name, text in zip(names, (text_of('RESOURCE R;' + isr('I', 0, 'R')), 'ISR(I) { }')):
                with open(name, 'w', encoding='ascii') as file:
                    file.write(text)
            for later, status, told in (([], 1, '%s:1: O15\n' % names[0]), (['--later', 'nested'], 0, '')):
                error = io.StringIO()
                with with_parts(), unittest.mock.patch('sys.argv', ['model.py', *later, 'show', *names]), contextlib.redirect_stderr(error), \
                        contextlib.redirect_stdout(io.StringIO()):
                    self.assertEqual((model.main(), error.getvalue()), (status, told))


class Bytes(unittest.TestCase):
    def faults(self, system, change):
        app = application(system)
        data = table_bytes.spelled(app, certified.table_of(least_table.Analysis(app).solve()))
        with self.assertRaises(Fault) as caught:
            read_table(app, change(data))
        return caught.exception.rule, caught.exception.offset

    def test_an_image_has_the_fields(self):
        with with_parts(*opened.LATER):
            app = application(ROUTINES['a flag stays while routines come'])
            data = image.image(app, {b: set() for b in app.sites()}, {b: set() for b in app.sites()})
        self.assertEqual(data[36:38], bytes([1, 0]))  # T1: one activation, inside resource 0
        self.assertEqual(data[57:59], bytes([1, 255]))  # T2: one activation, no INTERNAL resource
        with with_parts(*opened.LATER):
            app = application(ROUTINES['a ceiling over routines'])
            data = image.image(app, {b: set() for b in app.sites()}, {b: set() for b in app.sites()})
        isrs = data.index(b'\2I1')
        self.assertEqual([data[isrs + 7], data[isrs + 15]], [1, 2])  # the priorities of I1 and I2
        self.assertEqual(data[isrs + 16:isrs + 27], b'\3Res' + bytes([0, 0, 0, 3, 0, 0, 2]))

    def test_a_version_before_is_no_table(self):
        with with_parts(*opened.LATER):
            self.assertEqual(self.faults(ROUTINES['a nest'], lambda data: data[:7] + b'\1' + data[8:]), ('K2', 0))

    def test_fields_of_values(self):
        """The table of two tasks that share a priority begins with halt and idle, which have no entry, and b0: T1 live with 0 further activations."""
        with with_parts(*opened.LATER):
            system = ACTIVATIONS['a second activation behind another task']
            begins = bytes.fromhex('4f53454b54414202' '00' '00' '01' '00000001' '01' '0000' '00' '00' '00')
            app = application(system)
            data = table_bytes.spelled(app, certified.table_of(least_table.Analysis(app).solve()))
            self.assertEqual(data[:len(begins)], begins)
            self.assertEqual(self.faults(system, lambda data: data[:18] + b'\2' + data[19:]), ('K3', 18))
            self.assertEqual(self.faults(system, lambda data: data[:19] + b'\1' + data[20:]), ('K3', 19))
