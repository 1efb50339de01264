"""Tests of the model's `record`, `watch` and `report`; `tools/run_tests.py` runs them too. The expected values were worked out by
hand and by an implementation of its own."""
import os
import unittest
import unittest.mock

from lib import findings, image, records
from lib.application import application_of
from lib.given import contents
from lib.image_reader import read_image
from lib.least_table import Analysis
from lib.model_trace import events_of
from lib.oil import DEFAULT_MODE
from tests import EXAMPLES

ACTIVATION = application_of('CPU c { OS os; TASK T1 { PRIORITY = 1; AUTOSTART = TRUE; }; TASK T2 { PRIORITY = 2; }; };',
                            'TASK(T1) { ActivateTask(T2); TerminateTask(); }\nTASK(T2) { TerminateTask(); }\n')
"""T1 activates T2, which is above it. T1 has the blocks b0 to b2, and T2 has b3 and b4."""


def example(name):
    path = os.path.join(EXAMPLES, name, name)
    return application_of(contents(path + '.oil'), contents(path + '.code')), contents(path + '.events')


def stored(app, forms=()):
    """What the image of an application holds, with other forms at some sites."""
    analysis = Analysis(app).solve()
    found = read_image(image.image(app, analysis.shown, analysis.noted))
    return found._replace(forms={**found.forms, **dict(forms)})


class Records(unittest.TestCase):
    def record(self, count, forms=()):
        lines, status = records.record(stored(ACTIVATION, forms), DEFAULT_MODE, events_of('run 0\n' * count))
        return ' '.join(lines), status

    def test_the_image_that_is_built(self):
        self.assertEqual(self.record(3), ('b0 b3 b1 idle', 0))

    def test_other_forms(self):
        self.assertEqual(self.record(3, {0: image.STAY}), ('b0 b1 idle idle', 0))
        self.assertEqual(self.record(3, {0: image.NEVER}), ('b0 trap 1', 8))
        self.assertEqual(self.record(3, {3: image.STAY}), ('b0 b3 trap 2', 8))
        self.assertEqual(self.record(3, {1: b'\2\1'}), ('b0 b3 b1 trap 3', 8))
        self.assertEqual(self.record(3, dict.fromkeys(range(5), image.GENERAL)), ('b0 b3 b1 idle', 0))

    def test_known_statuses(self):
        for block, known, told in ((0, 4, ('b0 trap 1', 8)), (0, image.NONE_NOTED, ('b0 trap 1', 8)), (0, image.ANY, ('b0 b3 b1 idle', 0)), (3, 4, ('b0 b3 b1 idle', 0))):
            found = stored(ACTIVATION)
            lines, status = records.record(found._replace(known={**found.known, block: known}), DEFAULT_MODE, events_of('run 0\n' * 3))
            self.assertEqual((' '.join(lines), status), told)

    def test_traces_of_images(self):
        lines, status = records.replay(stored(ACTIVATION, {3: image.STAY}), DEFAULT_MODE, events_of('run 0\n' * 3))
        self.assertEqual((lines, status), (['0 T1 T1=R T2=S', '1 T2 T1=Y T2=R !E_OK', 'trap 2'], 8))
        app, events = example('lamp')
        trace = contents(os.path.join(EXAMPLES, 'lamp', 'lamp.trace')).splitlines()
        self.assertEqual(records.replay(stored(app), DEFAULT_MODE, events_of(events)), (trace, 0))

    def test_records_of_the_examples_are_quiet(self):
        for name in ('first', 'lamp', 'engine'):
            app, events = example(name)
            lines, status = records.record(stored(app), DEFAULT_MODE, events_of(events))
            self.assertEqual(records.watched(app, '\n'.join(lines), 'r'), (0, 'quiet %d' % len(lines)), name)
            self.assertEqual(status, 0)


class Watched(unittest.TestCase):
    def said(self, text):
        return records.watched(ACTIVATION, text, 'r')

    def test_quiet_texts(self):
        for text, count in (('', 0), ('b0\nb3\nb1\nidle\n', 4), ('b0\nb3\nb3\nb1\nidle\nidle', 6), ('# x\n\n \t\r\n b0 \r\n\tb3', 2), (' ' * 254 + 'b0\n', 1)):
            self.assertEqual(self.said(text), (0, 'quiet %d' % count), text)

    def test_alarms(self):
        for text, told in (('b0\nb1\n', '1 b1'), ('b2\n', '0 b2'), ('halt', '0 halt'), ('b0\nidle\nb9\n', '1 idle'), ('b0\n# x\nb3\n\nb0\nb3\n', '2 b0')):
            self.assertEqual(self.said(text), (15, 'alarm ' + told), text)

    def test_faults(self):
        for text, told in (('b9', '1: G2'), ('b0/T1', '1: G2'), ('b0/', '1: G1'), ('b00', '1: G1'), ('b0/x/y', '1: G2'), ('b' + '9' * 22, '1: G2'),
                           ('b0 b3', '1: G1'), ('idle # x', '1: G1'), ('b0\nb3\r', '2: G1'), ('b0\nb9\nidle', '2: G2'), ('b0\ntrap 1\n', '2: G1'),
                           (' ' * 255 + 'b0', '1: G3'), (' ' * 254 + 'b0\r\n', '1: G3'), ('b0\n' + 'b' * 257, '2: G3'), ('B0', '1: G1')):
            self.assertEqual(self.said(text), (14, 'r:' + told), text)

    def test_long_texts(self):
        self.assertEqual(self.said('\n' * 16777217), (14, 'r:0: G4'))
        with unittest.mock.patch('lib.records.MOST', 8):
            self.assertEqual((self.said('b0\n# xx\n'), self.said('b0\n# xxx\n')), ((0, 'quiet 1'), (14, 'r:0: G4')))

    def test_the_first_alarm_stays(self):
        watch = records.watch_of(ACTIVATION)
        self.assertEqual([watch.see(point) and watch.alarm.place for point in ('b0', 'b3', 'b0', 'b1', 'b3')], [None, None, 2, 2, 2])
        self.assertEqual((watch.alarm, watch.seen), (records.Alarm(2, 'b3', 'b0'), 2))


HOOKS = 'STARTUPHOOK = TRUE; ERRORHOOK = TRUE; SHUTDOWNHOOK = TRUE; PRETASKHOOK = TRUE; POSTTASKHOOK = TRUE;'


class Findings(unittest.TestCase):
    def report(self, oil, code):
        return findings.report(application_of('CPU c { %s };' % oil, code)).splitlines()

    def test_dead_blocks_and_hooks(self):
        self.assertEqual(findings.report(ACTIVATION), 'dead b2\ndead b4\n')
        ends = 'TASK(T1) { TerminateTask(); }'
        self.assertEqual(self.report('OS os { ERRORHOOK = TRUE; }; TASK T1 { PRIORITY = 1; AUTOSTART = TRUE; };', ends), ['silent Error', 'dead b1'])
        self.assertEqual(self.report('OS os; TASK T1 { PRIORITY = 1; AUTOSTART = TRUE; }; TASK T2 { PRIORITY = 2; };', ends + ' TASK(T2) { }'),
                         ['suspended T2', 'dead b1', 'dead b2'])

    def test_a_resource_that_is_never_held_here(self):
        oil = ('OS os; RESOURCE Res; TASK T1 { PRIORITY = 1; AUTOSTART = TRUE; RESOURCE = Res; }; TASK T2 { PRIORITY = 2; RESOURCE = Res; };')
        code = 'TASK(T1) { GetResource(Res); ActivateTask(T2); ReleaseResource(Res); TerminateTask(); } TASK(T2) { TerminateTask(); }'
        self.assertEqual(self.report(oil, code), ['free b0', 'dead b4', 'dead b6'])
        oil = 'OS os; RESOURCE R; TASK T1 { PRIORITY = 1; AUTOSTART = TRUE; RESOURCE = R; }; TASK T2 { PRIORITY = 5; AUTOSTART = TRUE; };'
        code = ('TASK(T1) { GetResource(R); GetResource(R); ReleaseResource(R); if (?) { work 1; } GetResource(R); ReleaseResource(R); }'
                ' TASK(T2) { GetResource(R); }')
        self.assertEqual(self.report(oil, code), ['free b0', 'free b5', 'free b8'])

    def test_events_and_alarms(self):
        oil = ('OS os; EVENT E { MASK = 3; }; EVENT F; COUNTER C { MAXALLOWEDVALUE = 3; }; TASK T1 { PRIORITY = 1; AUTOSTART = TRUE; EVENT = E; EVENT = F; };'
               ' ALARM A { COUNTER = C; ACTION = SETEVENT { TASK = T1; EVENT = E; }; };')
        self.assertEqual(self.report(oil, 'TASK(T1) { SetEvent(T1, F); WaitEvent(E); }'), ['unarmed A', 'unset T1 1', 'unset T1 2', 'dead b2'])

    def test_all_hooks(self):
        oil = 'OS os { %s }; TASK T1 { PRIORITY = 1; }; ISR I { CATEGORY = 2; };' % HOOKS
        quiet = ['silent ' + hook for hook in ('Error', 'Shutdown', 'PostTask', 'PreTask')]
        self.assertEqual(self.report(oil, 'TASK(T1) { ShutdownOS(E_OK); } ISR(I) { }'), ['suspended T1'] + quiet + ['dead b0', 'dead b1'])
        self.assertEqual(self.report(oil, 'TASK(T1) { } ISR(I) { ShutdownOS(E_OK); ActivateTask(T1); }'),
                         ['suspended T1', quiet[0]] + quiet[2:] + ['dead b0', 'dead b2', 'dead b3'])
        self.assertEqual((self.report('OS os;', ''), self.report('OS os { %s };' % HOOKS, '')), ([], quiet))
