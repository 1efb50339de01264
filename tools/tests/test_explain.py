"""Tests of explain.py, by the tables of rules in the documents; `tools/run_tests.py` runs them too."""
import os
import tempfile
import unittest

import explain
from lib import causes, lint_oil, locks, oil
from tests.test_texts import T1

CONDITION = 'write: a condition of C is written ?: if (?), while (?); and while (1) is a loop for ever'


class Explanations(unittest.TestCase):
    def test_the_guide_has_each_rule(self):
        rules = explain.rules_of(explain.guide())
        names = ['L%d' % k for k in range(1, 7)] + ['S1', 'S2', 'S3'] + ['O%d' % k for k in range(1, 19) if k != 8]
        names += ['C%d' % k for k in (1, 2, 3, 4, 6, 7, 8, 9, 10)] + ['E1', 'E2', 'E3', 'E4'] + ['I%d' % k for k in range(1, 8)]
        names += ['K%d' % k for k in range(1, 7)] + ['N%d' % k for k in range(1, 5)] + ['G%d' % k for k in range(1, 5)]
        self.assertEqual(sorted(rules), sorted(names + ['CS1']))

    def test_a_refusal_has_its_line_and_its_cause(self):
        with tempfile.TemporaryDirectory() as folder:
            for name, text in (('a.oil', 'CPU c { OS os; %s };' % T1), ('a.code', '\nint x;\n'), ('b.code', '')):
                with open(os.path.join(folder, name), 'w') as file:
                    file.write(text)
            rules, at = explain.rules_of(explain.guide()), [os.path.join(folder, name) for name in ('a.oil', 'a.code', 'b.code')]
            lines = explain.explained(at[1] + ':2: S1', [], rules)
            self.assertEqual(lines[:3], [at[1] + ":2: error: S1: the token isn't allowed here", '       1  ', '       2  int x;'])
            self.assertIn('    without code: TASK T1', explain.explained(at[2] + ':0: C1', ['build', at[0], at[2], 'i'], rules))
            self.assertIn('at byte 16 (0x10)', explain.explained('x:16: I3', [], rules)[0])
            self.assertIn('K5 at byte 75 (0x4b)', explain.explained('x:75: K5', [], rules)[0])
            self.assertTrue(explain.explained('x: N2 b3/T1', [], rules)[0].startswith('x: error: N2 at b3/T1: from a state'))
        self.assertEqual(explain.explained('usage', [], rules), [])

    def test_what_is_missing_and_what_is_not_declared_is_named(self):
        objects = oil.objects_of('CPU c { OS os;\nTASK T { PRIORTY = 1; EVENT = E; AUTOSTART = TRUE { APPMODE = M; }; };\n'
                                 'ALARM A { COUNTER = C;\nACTION = SETEVENT { TASK = T; };\nAUTOSTART = TRUE { ALARMTIME = 1; }; }; };')
        self.assertEqual(list(lint_oil.missing(objects, 2)), ['PRIORITY of TASK T'])
        self.assertEqual(list(lint_oil.missing(objects, 4)), ['EVENT within ACTION of ALARM A'])
        self.assertEqual(list(lint_oil.missing(objects, 5)), ['CYCLETIME within AUTOSTART of ALARM A'])
        self.assertEqual(list(lint_oil.undeclared(objects, 2)), ['EVENT E of TASK T', 'APPMODE M of TASK T'])

    def test_what_the_texts_tell_of_a_refusal(self):
        objects = ('EVENT Go; COUNTER C { MAXALLOWEDVALUE = 9; };\nTASK Door { PRIORITY = -1; };\nTASK Motor { PRIORITY = 7; SCHEDULE = ON; };\n'
                   'TASK Motor { PRIORITY = 7; };\nALARM A { COUNTER = C; AUTOSTART = TRUE { CYCLETIME = 10; }; };\nISR Tooth { CATEGORY = 2; }; '
                   'ISR J { CATEGORY = 1; };')
        code = 'TASK(Door) {\nint x;\n}\n'
        named = 'TASK(Door) {\nSetEvent(Moter, Goo); SetRelAlarm(C, 1, 0);\n}\nTASK(Tooth) { }\nISR(J) { }\n'
        for rule, line, text, told in (
                ('O6', 2, code, ['here: PRIORITY of TASK Door takes 0 to 65,535, larger is higher, not -1']),
                ('O6', 3, code, ['here: SCHEDULE of TASK Motor takes NON, FULL, not ON']),
                ('O2', 4, code, ['first: TASK Motor on line 3']),
                ('O14', 5, code, ['here: COUNTER C has MINCYCLE 1 and MAXALLOWEDVALUE 9']),
                ('S1', 2, code, ['here: int begins no statement: these are work, if, while and calls of services']),
                ('S1', 2, code.replace('int x', 'work'), ['here: a number is wanted, not ;']),
                ('S1', 3, 'TASK(Door) {\n\nTASK(Motor) { }', ['here: TASK begins a body: a } is missing above']),
                ('S1', 3, 'TASK(Door) {\n}\n}', ['here: a } too many, here or above']),
                ('L1', 2, 'TASK(Door) {\nif (x > 1) { } // é', ['here: >', CONDITION]), ('L1', 1, '\ufeffTASK', ['here: a byte order mark']),
                ('C4', 2, named, ['not declared: the task Moter; Motor is', 'not declared: the event Goo; Go is', 'not declared: the alarm C']),
                ('C1', 0, named, ['without code: TASK Motor', 'without code: ISR Tooth', 'of category 1, which has no code: ISR J',
                                  'not declared: TASK Tooth; ISR Tooth is'])):
            with self.subTest(rule=rule, line=line), tempfile.TemporaryDirectory() as folder:
                at = [os.path.join(folder, name) for name in ('a.oil', 'a.code')]
                for name, content in zip(at, ('CPU c { OS os; %s };' % objects, text)):
                    with open(name, 'w', encoding='utf-8') as file:
                        file.write(content)
                texts = causes.Texts(at[rule[0] != 'O'], line, ['build'] + at)
                self.assertEqual(causes.told(rule, texts, explain.guide()), told)

    def test_what_c_has_is_written_otherwise(self):
        helper = ['here: there is no service ReadCan', 'write: what ReadCan does in its place, and work N for what calls no service']
        for text, told in (('if (ev & Go) { }', ['here: &', CONDITION]), ('while (i < 3) { }', ['here: <', CONDITION]), ('while (1) { i < 3; }', ['here: <']),
                           ('if (x) { }', ['here: a condition is ?, and a loop for ever while (1)', CONDITION]), ('ReadCan();', helper),
                           ('for (i = 0; i < 3; i++) { }', ['here: <', 'write: a loop of C is while (?) { }, which says any number of turns']),
                           ('SetRelAlarm(A, 0.5, 0);', ['here: , is wanted, not .', 'write: numbers are whole: no decimals'])):
            with self.subTest(text):
                rule = 'L1' if told[0] in ('here: &', 'here: <') else 'S1'
                self.assertEqual(self.told_of('OS os;', 'TASK(T) {\n%s\n}\n' % text, rule, 2, is_code=True), told)

    def told_of(self, objects, code, rule, line, is_code=False):
        with tempfile.TemporaryDirectory() as folder:
            at = [os.path.join(folder, name) for name in ('a.oil', 'a.code')]
            for name, content in zip(at, ('CPU c {\n%s\n};\n' % objects, code)):
                with open(name, 'w', encoding='utf-8') as file:
                    file.write(content)
            return causes.told(rule, causes.Texts(at[is_code], line, ['build'] + at), explain.guide())

    def test_what_oil_files_have_besides(self):
        kinds = 'OS, APPMODE, TASK, ISR, COUNTER, ALARM, EVENT, RESOURCE'
        for objects, rule, told in (('OS os; OS b;', 'O3', ['first: OS os on line 2']), ('EVENT E;', 'O3', ['missing: an object OS, as OS os;']),
                                    ('OS os; SCHEDULETABLE s;', 'O1', ['here: SCHEDULETABLE s is of none of the kinds: ' + kinds]),
                                    ('OS os; Task T;', 'O1', ['here: Task T is of none of the kinds: %s; TASK is' % kinds]),
                                    ('TASK T { X = 0.5; };', 'S1', ['here: ; is wanted, not .', 'write: numbers are whole: no decimals'])):
            self.assertEqual(self.told_of(objects, '', rule, 2), told, objects)

    def test_words_that_are_changed_over(self):
        with tempfile.TemporaryDirectory() as folder:
            oil_file, code, events_file = at = [os.path.join(folder, name) for name in ('a.oil', 'a.code', 'a.events')]
            for name, content in zip(at, ('CPU c { OS os; APPMODE Sleep; };', 'TASK(T) { }', 'run 0\nrun 2\nrun 0 * 5\nuntil idle\n')):
                with open(name, 'w', encoding='utf-8') as file:
                    file.write(content)
            self.assertEqual(causes.told('S1', causes.Texts(code, 1, ['build', code, oil_file]), ''),
                             ['here: %s is task code, and the OIL text comes before the task code' % code])
            self.assertEqual(causes.modes(['trace', oil_file, code, 'sleep', events_file]), ['there are: OSDEFAULTAPPMODE, Sleep'])
            self.assertEqual(causes.modes(['trace', oil_file, code, events_file, 'Sleep'])[0],
                             'here: %s is a file, and the mode comes before the events' % events_file)
            told = [causes.told('E1', causes.Texts(events_file, line, ['trace', oil_file, code, 'Sleep', events_file]), '') for line in (2, 3, 4)]
            script = ['here: a line of a script; tools/events.py writes the event text']
            self.assertEqual(told, [['there are: run 0, run 1, irq NAME, tick NAME'], script, script])

    def test_no_hint_is_longer_than_twenty_words(self):
        for rule, (_, first) in explain.rules_of(explain.guide()).items():
            self.assertLessEqual(len(first.split()), 20, rule)

    def test_whose_the_block_of_a_record_is(self):
        with tempfile.TemporaryDirectory() as folder:
            at = [os.path.join(folder, name) for name in ('a.oil', 'a.code', 'a.record')]
            record = 'b0\nb0/T1\n b1/Tl\nb1\nb9/-\n# b9\n'
            for name, content in zip(at, ('CPU c { OS os; %s ISR I { CATEGORY = 2; }; };' % T1, 'TASK(T1) { }\nISR(I) { }\n', record)):
                with open(name, 'w') as file:
                    file.write(content)
            for line, told in ((2, ['here: b0 is of the task T1: b0']), (3, ['here: b1 is of the routine I: b1/-, b1/T1']),
                               (4, ['here: b1 is of the routine I: b1/-, b1/T1']), (5, ['there are: halt, idle, and points of the blocks b0 to b1'])):
                with self.subTest(line=line):
                    self.assertEqual(causes.told('G2', causes.Texts(at[2], line, ['watch'] + at), ''), told)

    def test_locks_that_do_not_pair(self):
        for body, told in (('SuspendAllInterrupts();\nResumeOSInterrupts();', [(3, 'ResumeOSInterrupts meets SuspendAllInterrupts of line 2 open')]),
                           ('ResumeAllInterrupts();', [(2, 'ResumeAllInterrupts meets no lock open')]),
                           ('DisableAllInterrupts();\nDisableAllInterrupts();', [(3, 'twice, since DisableAllInterrupts of line 2 open')]),
                           ('SuspendOSInterrupts();\nSchedule();', [(3, 'Schedule within SuspendOSInterrupts of line 2 open')]),
                           ('SuspendOSInterrupts();\n' * 9, [(10, 'a ninth lock')]),
                           ('if (?) { SuspendOSInterrupts();\n}', [(3, 'one branch ends with SuspendOSInterrupts of line 2 open, and the other way has no lock open')]),
                           ('while (?) { SuspendOSInterrupts();\n}', [(3, 'the loop goes round with SuspendOSInterrupts of line 2 open, and the other way has no lock open')]),
                           ('SuspendOSInterrupts();', [(3, 'the body ends with SuspendOSInterrupts of line 2 open')]),
                           ('if (?) { SuspendOSInterrupts(); work 1; } else { SuspendOSInterrupts(); }\nResumeOSInterrupts();', [])):
            self.assertEqual(locks.faults_of('TASK(T) {\n%s\n}\nTASK(U) { }' % body, 'c'), told)
