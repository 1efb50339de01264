"""Tests of lint.py: what it warns of, and the rules that it sees violated; `tools/run_tests.py` runs them too."""
import os
import tempfile
import unittest

import explain
import lint
from lib import oil, seen_faults, task_code
from tests import EXAMPLES
from tests.test_texts import T1, example

FAULTY_OIL = """CPU c { OS os; EVENT A { MASK = 1; }; EVENT B { MASK = 3; }; EVENT U; RESOURCE R; RESOURCE S;
 COUNTER C { MAXALLOWEDVALUE = 9; }; COUNTER D { MAXALLOWEDVALUE = 9; }; APPMODE M;
 TASK T1 { PRIORITY = 3; SCHEDUEL = NON; AUTOSTART = TRUE { APPMOD = x; APPMODE = OSDEFAULTAPPMODE; }; EVENT = A; RESOURCE = S; };
 TASK T2 { PRIORITY = 2; AUTOSTART = TRUE { APPMODE = M; }; RESOURCE = R; };
 TASK T3 { PRIORITY = 1; };
 ALARM Z { COUNTER = C; ACTION = SETEVENT { TASK = T2; EVENT = A; }; };
 ISR I { CATEGORY = 2; };
};
"""

FAULTY_CODE = """TASK(T1) {
  while (1) { WaitEvent(A); SetEvent(T2, A); SetEvent(T1, U); SetEvent(T1, B); }
}
TASK(T2) {
  GetResource(S);
  if (?) { TerminateTask(); }
  if (?) { ReleaseResource(S); }
  SetRelAlarm(Z, 0, 0); SetRelAlarm(Z, 10, 0); SetAbsAlarm(Z, 3, 11);
  ActivateTask(T2); SetEvent(T1, A);
  if (?) { while (1) { work 1; } work 2; }
}
TASK(T3) { TerminateTask(); }
ISR(I) { WaitEvent(A); TerminateTask(); }
"""


SOUND_OIL = """CPU c {
OS os { ERRORHOOK = TRUE; };
EVENT E; RESOURCE R; RESOURCE G { RESOURCEPROPERTY = INTERNAL; }; COUNTER C { MAXALLOWEDVALUE = 100; MINCYCLE = 2; };
TASK T { PRIORITY = 2; AUTOSTART = TRUE; EVENT = E; RESOURCE = R; };
TASK U { PRIORITY = 1; RESOURCE = R; RESOURCE = G; };
ALARM A { COUNTER = C; ACTION = SETEVENT { TASK = T; EVENT = E; }; AUTOSTART = TRUE { ALARMTIME = 1; CYCLETIME = 5; }; };
ISR I { CATEGORY = 2; PRIORITY = 3; };
};
"""

SOUND_CODE = """TASK(T) {
WaitEvent(E);
ActivateTask(U);
TerminateTask(); }
TASK(U) {
GetResource(R); work 2; ReleaseResource(R);
TerminateTask(); }
ISR(I) {
work 1; }
"""

VIOLATIONS = [('ERRORHOOK = TRUE', 'ERRORHOOK = YES', 'o:2: O6'), ('OS os', 'OS x; OS os', 'o:2: O3'), ('OS os { ERRORHOOK = TRUE; };', '', 'o:1: O3'),
              ('EVENT E;', 'EVENT E; MESSAGE m;', 'o:3: O1'), ('TASK U {', 'TASK T {', 'o:5: O2'), ('PRIORITY = 1; RES', 'RES', 'o:5: O4'),
              ('PRIORITY = 1;', 'PRIORITY = 1; PRIORITY = 2;', 'o:5: O5'), ('PRIORITY = 1;', 'PRIORITY = 1; SCHEDULE = PREEMPTIVE;', 'o:5: O6'),
              ('PRIORITY = 1;', 'PRIORITY = 70000;', 'o:5: O6'), ('RESOURCE = R; };\nTASK', 'RESOURCE = X; };\nTASK', 'o:4: O7'),
              ('PRIORITY = 2;', 'PRIORITY = 2; ACTIVATION = 2;', 'o:4: O9'), ('PROPERTY = INTERNAL', 'PROPERTY = LINKED', 'o:3: O10'),
              ('SETEVENT { TASK = T; EVENT = E; }', 'ALARMCALLBACK { ALARMCALLBACKNAME = "f"; }', 'o:6: O11'),
              ('EVENT E;', 'EVENT E { MASK = 0; };', 'o:3: O12'),
              ('ISR I', ' '.join('ISR I%d { CATEGORY = 2; };' % k for k in range(8)) + ' ISR I', 'o:7: O13'), ('ALARMTIME = 1', 'ALARMTIME = 101', 'o:6: O14'),
              ('CYCLETIME = 5', 'CYCLETIME = 1', 'o:6: O14'), ('CATEGORY = 2', 'CATEGORY = 3', 'o:7: O15'),
              ('PRIORITY = 3;', 'PRIORITY = 3; RESOURCE = G;', 'o:7: O18'), ('PRIORITY = 3;', 'PRIORITY = 300;', 'o:7: O6'),
              ('ISR(I) {\nwork 1; }', '', 'c:0: C1'), ('ISR(I)', 'ISR(J) { } ISR(I)', 'c:8: C2'), ('ISR(I)', 'TASK(T) { } ISR(I)', 'c:8: C3'),
              ('ActivateTask(U)', 'ActivateTask(V)', 'c:3: C4'), ('work 1;', 'GetResource(R);', 'c:9: C6'), ('work 1;', 'SuspendOSInterrupts();', 'c:9: C7'),
              ('work 1;', 'SuspendOSInterrupts(); ActivateTask(T); ResumeOSInterrupts();', 'c:9: C7'), ('work 1;', 'work 0;', 'c:9: C9'),
              ('work 1;', 'work 100000;', 'c:9: C9'), ('work 2;', 'GetResource(G);', 'c:6: C10')]
"""What is changed in one of the texts, and the rule that then is violated, by the tables of rules."""


class SeenFaults(unittest.TestCase):
    def seen(self, oil_text, code):
        objects, blocks = oil.objects_of(oil_text, 'o'), task_code.blocks_of(code, 'c')
        found = [('o', line, rule) for rule, line in seen_faults.of_objects(objects, explain.guide())]
        found = found or [('c', line, rule) for rule, line in seen_faults.of_code(oil.SystemMaker(objects).make(), blocks, code, 'c')]
        return ['%s:%d: %s' % row for row in found]

    def test_each_rule_is_seen(self):
        self.assertEqual(self.seen(SOUND_OIL, SOUND_CODE), [])
        for old, new, told in VIOLATIONS:
            texts = [text.replace(old, new, 1) for text in (SOUND_OIL, SOUND_CODE)]
            self.assertNotEqual(texts, [SOUND_OIL, SOUND_CODE], old)
            self.assertEqual(self.seen(*texts)[:1], [told], new)

    def test_the_examples_violate_none(self):
        for name in sorted(os.listdir(EXAMPLES)):
            self.assertEqual(self.seen(example(name, '.oil'), example(name, '.code')), [], name)

    def test_errors_are_told_as_explain_tells_them(self):
        with tempfile.TemporaryDirectory() as folder:
            names = tuple(os.path.join(folder, name) for name in ('a.oil', 'a.code'))
            for changed, told in ((('ACTIVATION', 'ACTIVATION'), []), (('ERRORHOOK = TRUE', 'ERRORHOOK = YES'), ['%s:2: error: O6: ' % names[0]]),
                                  (('TASK(T) {', 'TASK(T) { int x;'), ['%s:1: error: int begins no statement' % names[1]])):
                texts = [text.replace(*changed) for text in (SOUND_OIL, SOUND_CODE)]
                for name, text in zip(names, texts):
                    with open(name, 'w', encoding='utf-8') as file:
                        file.write(text)
                found = lint.errors_of(*texts, names)
                self.assertEqual([line for line in found[:1] if not line.startswith(told[0])] if told else found, [], told)
                self.assertEqual(bool(found), bool(told))
        self.assertEqual(lint.errors_of(SOUND_CODE, SOUND_OIL, ('a', 'b')), ['a:1: error: this is task code, and b an OIL text: the OIL text comes first'])


class Lint(unittest.TestCase):
    def found(self, oil_text, code, without=()):
        return [(file, line, check) for file, line, _, check in lint.warnings_of(oil_text, code, ('o', 'c'), without)]

    def test_each_fault_is_found(self):
        found = self.found(FAULTY_OIL, FAULTY_CODE)
        for wanted in [('o', 3, 'attribute'), ('c', 2, 'mask'), ('o', 6, 'action'), ('o', 1, 'unused'), ('o', 2, 'unused'), ('o', 5, 'unused'),
                       ('c', 2, 'event'), ('c', 2, 'wait'), ('c', 5, 'resource'), ('c', 6, 'held'), ('c', 8, 'alarm'), ('c', 9, 'activation'), ('c', 9, 'mode'),
                       ('c', 10, 'endless'), ('c', 10, 'dead'), ('c', 11, 'held'), ('c', 11, 'end'), ('c', 13, 'routine')]:
            self.assertIn(wanted, found)
        self.assertEqual(found.count(('o', 3, 'attribute')), 2)
        self.assertEqual(found.count(('c', 8, 'alarm')), 3)
        self.assertEqual({check for _, _, check in found}, set(lint.CHECKS))

    def test_the_nearest_name_is_told(self):
        texts = [text for _, _, text, _ in lint.warnings_of(FAULTY_OIL, FAULTY_CODE, ('o', 'c'))]
        self.assertIn('SCHEDUEL of TASK T1 is passed over: SCHEDULE is known', texts)
        self.assertIn('APPMOD within AUTOSTART is passed over: APPMODE is known', texts)

    def test_a_check_is_left_out(self):
        self.assertNotIn('unused', [check for _, _, check in self.found(FAULTY_OIL, FAULTY_CODE, ['unused'])])

    def test_nothing_is_found_where_nothing_is_wrong(self):
        for name in ('first', 'lamp', 'engine'):
            self.assertEqual(self.found(example(name, '.oil'), example(name, '.code')), [], name)

    def test_what_implementation_declares_is_a_vendors(self):
        found = lint.warnings_of(example('body', '.oil'), example('body', '.code'), ('o', 'c'))
        self.assertEqual([text.split(' ')[0] for _, _, text, check in found if check == 'attribute'], ['CC'])

    def test_attributes_of_vendors_are_told_together(self):
        os = 'OS os { STACKSIZE = 9; ERORHOOK = TRUE; VENDOR = a; }; TASK T { PRIORITY = 1; AUTOSTART = TRUE; STACKSIZE = 7; };'
        texts = [text for _, _, text, _ in lint.warnings_of('CPU c { %s };' % os, 'TASK(T) { TerminateTask(); }', ('o', 'c'))]
        self.assertEqual(texts, ['3 attributes from here on are passed over: STACKSIZE, VENDOR', 'ERORHOOK of OS os is passed over: ERRORHOOK is known'])

    def test_bits_that_events_share(self):
        """Of one task alone, or where a call sends to it what it doesn't name."""
        events_text = 'OS os; EVENT A { MASK = 1; }; EVENT B { MASK = 1; }; '
        tasks = 'TASK T { PRIORITY = 2; AUTOSTART = TRUE; EVENT = A; };\n TASK U { PRIORITY = 1; AUTOSTART = TRUE; EVENT = B; };\n'
        code = 'TASK(T) { WaitEvent(A); TerminateTask(); }\nTASK(U) { WaitEvent(B); TerminateTask(); }\nISR(I) { SetEvent(T, A); SetEvent(U, B); }'
        isr = 'ISR I { CATEGORY = 2; };'
        self.assertEqual(self.found('CPU c { %s };' % (events_text + tasks + isr), code), [])
        both = self.found('CPU c { %s };' % (events_text + tasks.replace('EVENT = A;', 'EVENT = A; EVENT = B;') + isr), code)
        self.assertEqual([row for row in both if row[2] == 'mask'], [('o', 1, 'mask')])
        self.assertEqual([row for row in self.found('CPU c { %s };' % (events_text + tasks + isr), code.replace('(T, A)', '(T, B)')) if row[2] == 'mask'],
                         [('c', 3, 'mask')])

    def test_what_nothing_starts_in_a_mode(self):
        """The door of the body controller sends events to Light, which Service doesn't start."""
        found = self.found(example('body', '.oil'), example('body', '.code'))
        self.assertEqual([row for row in found if row[2] == 'mode'], [('c', 29, 'mode'), ('c', 31, 'mode')])
        oil_text = ('CPU c { OS os; APPMODE M; EVENT E; TASK T { PRIORITY = 1; AUTOSTART = TRUE; EVENT = E; };'
                    ' TASK U { PRIORITY = 2; AUTOSTART = TRUE { APPMODE = M; }; }; };')
        code = 'TASK(T) {\nWaitEvent(E); TerminateTask(); }\nTASK(U) { SetEvent(T, E); TerminateTask(); }'
        self.assertEqual(self.found(oil_text, code), [('c', 2, 'mode')])
        self.assertEqual(self.found(oil_text.replace('{ APPMODE = M; }', ''), code), [])

    def test_a_task_that_is_not_preempted_names_a_group_in_vain(self):
        group = ('RESOURCE G { RESOURCEPROPERTY = INTERNAL; }; TASK T { PRIORITY = 1; AUTOSTART = TRUE; RESOURCE = G; %s };\n'
                 'TASK U { PRIORITY = 2; AUTOSTART = TRUE; RESOURCE = G; };')
        code = 'TASK(T) { TerminateTask(); }\nTASK(U) { TerminateTask(); }'
        self.assertEqual([self.found('CPU c { OS os; %s };' % (group % word), code) for word in ('', 'SCHEDULE = NON;')], [[], [('o', 1, 'unused')]])

    def test_a_routine_that_never_ends(self):
        oil_text = 'CPU c { OS os; %s ISR I { CATEGORY = 2; }; };' % T1
        self.assertEqual(self.found(oil_text, 'TASK(T1) { TerminateTask(); }\nISR(I) {\nwhile (1) { work 1; }\n}'), [('c', 3, 'endless')])
        self.assertEqual(self.found(oil_text, 'TASK(T1) { TerminateTask(); }\nISR(I) {\nwhile (?) { work 1; }\n}'), [])

    def test_what_is_refused_neither_ends_nor_takes(self):
        oil_text = ('CPU c { OS os; RESOURCE R; TASK T1 { PRIORITY = 2; AUTOSTART = TRUE; }; TASK T2 { PRIORITY = 1; AUTOSTART = TRUE; RESOURCE = R; };'
                    ' ISR I { CATEGORY = 2; }; };')
        code = 'TASK(T1) {\nGetResource(R);\nTerminateTask();\n}\nTASK(T2) { TerminateTask(); }\nISR(I) {\nTerminateTask();\nActivateTask(T2);\n}'
        self.assertEqual([row for row in self.found(oil_text, code) if row[0] == 'c'], [('c', 2, 'resource'), ('c', 7, 'routine')])

    def test_a_resource_that_stays_held_in_a_loop(self):
        oil_text = 'CPU c { OS os; RESOURCE R; TASK T1 { PRIORITY = 1; AUTOSTART = TRUE; RESOURCE = R; }; };'
        self.assertEqual(self.found(oil_text, 'TASK(T1) {\nwhile (1) {\nGetResource(R);\n}\n}'), [('c', 3, 'held')])
        self.assertEqual(self.found(oil_text, 'TASK(T1) {\nGetResource(R);\nReleaseResource(R);\nTerminateTask();\n}'), [])
