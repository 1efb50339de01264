"""Tests of model_c.py, skipped where there is no clang: models that were written by hand from C files, what is refused, and small C programs made at
random, of which each run has to be a run of the model."""
import os
import random
import shutil
import subprocess
import sys
import tempfile
import unittest

from lib import task_code
from lib.code_paths import Paths, firsts, missing
from lib.given import contents
from lib.task_code import Owner
from tests import TOOLS

OIL = '''CPU c { OS os; TASK T1 { PRIORITY = 2; AUTOSTART = TRUE; RESOURCE = R; EVENT = E1; EVENT = E2; }; TASK T2 { PRIORITY = 1; };
  EVENT E1; EVENT E2; RESOURCE R; COUNTER C { MAXALLOWEDVALUE = 100; };
  ALARM A { COUNTER = C; ACTION = ACTIVATETASK { TASK = T2; }; }; ISR I { CATEGORY = 2; }; };'''

REST = '\nTASK(T2) { TerminateTask(); }\nISR(I) { }\n'

HEAD = '#include "os.h"\nextern int c(void);\n'

MODELS = [
    ('if (c()) ActivateTask(T2);', 'if (?) { ActivateTask(T2); }'),
    ('if (c()) ActivateTask(T2); else Schedule(); Schedule();', 'if (?) { ActivateTask(T2); } else { Schedule(); } Schedule();'),
    ('if (c()) { ActivateTask(T2); return; } Schedule();', 'if (?) { ActivateTask(T2); } else { Schedule(); }'),
    ('while (c()) Schedule();', 'while (?) { Schedule(); }'),
    ('for (;;) { WaitEvent(E1 | E2); ClearEvent(E1); }', 'while (1) { WaitEvent(E1 | E2); ClearEvent(E1); }'),
    ('do Schedule(); while (c()); ActivateTask(T2);', 'Schedule(); while (?) { Schedule(); } ActivateTask(T2);'),
    ('do { Schedule(); } while (0);', 'Schedule();'),
    ('while (1) { Schedule(); if (c()) break; ActivateTask(T2); } Schedule();',
     'while (?) { Schedule(); if (?) { ActivateTask(T2); } } Schedule();'),
    ('for (int i = 0; i < 3; i++) { if (c()) continue; ActivateTask(T2); }', 'while (?) { if (?) { ActivateTask(T2); } }'),
    ('switch (c()) { case 1: Schedule(); break; case 2: case 3: ActivateTask(T2); break; }',
     'if (?) { if (?) { Schedule(); } else { ActivateTask(T2); } }'),
    ('switch (c()) { case 1: Schedule(); case 2: ActivateTask(T2); }', 'if (?) { Schedule(); } if (?) { ActivateTask(T2); }'),
    ('switch (c()) { case 1: Schedule(); break; default: ActivateTask(T2); }', 'if (?) { Schedule(); } else { ActivateTask(T2); }'),
    ('if (c() && ActivateTask(T2) == E_OK) Schedule();', 'if (?) { ActivateTask(T2); } if (?) { Schedule(); }'),
    ('TaskStateType s; GetTaskState(T2, &s); if (s == SUSPENDED) ActivateTask(T2);', 'GetTaskState(T2); if (?) { ActivateTask(T2); }'),
    ('SetRelAlarm(A, 5 * 2, 0); CancelAlarm(A);', 'SetRelAlarm(A, 10, 0); CancelAlarm(A);'),
    ('wake(T2); wake(T1);', 'if (?) { ActivateTask(T2); } if (?) { ActivateTask(T1); }'),
    ('inner();', 'GetResource(R); if (?) { ReleaseResource(R); } else { ReleaseResource(R); }'),
    ('ShutdownOS(E_OS_LIMIT);', 'ShutdownOS(E_OS_LIMIT);'),
    ('enum { PERIOD = 5, NEXT, LAST = 1 << 3 }; SetRelAlarm(A, PERIOD * 4 / 2, NEXT % 4 + LAST);', 'SetRelAlarm(A, 10, 10);'),
    ('enum { NO, YES }; while (YES) Schedule(); ActivateTask(T2);', 'while (1) { Schedule(); }'),
    ('enum { MANY = -1 }; while (MANY + 1) Schedule(); ActivateTask(T2);', 'while (?) { Schedule(); } ActivateTask(T2);'),
    ('(void)(ActivateTask(T2) ?: Schedule());', 'ActivateTask(T2); if (?) { Schedule(); }'),
    ('while ((unsigned char)256) Schedule(); ActivateTask(T2);', 'while (?) { Schedule(); } ActivateTask(T2);'),
    ('while (4294967295u + 1u) Schedule(); ActivateTask(T2);', 'while (?) { Schedule(); } ActivateTask(T2);'),
    ('while (1u) Schedule(); ActivateTask(T2);', 'while (1) { Schedule(); }'),
]
"""Bodies of T1 in C, and in task code."""

HELPERS = '''static void wake(TaskType t) { if (c()) ActivateTask(t); }
static int inner(void) { GetResource(R); if (c()) { ReleaseResource(R); return 1; } ReleaseResource(R); return 0; }
static void again(void) { if (c()) again(); }
static void change(TaskType t) { t = t + 1; ActivateTask(t); } static void done(int *x) { Schedule(); } static TaskType loaded(TaskType t) { __asm__("" : "=r"(t)); ActivateTask(t); return t; }
'''

FILES = {'blink': ['blink.c'], 'sensor': ['sensor.c', 'log.c'], 'can': ['can.c'], 'button': ['button.c'], 'motor': ['motor.c'], 'gear': ['gear.c'],
         'steering': ['steering.c'], 'diag': ['diag.c'], 'board': ['board.c', 'board_user.c'], 'pump': ['pump.c']}
"""The files in tests/c by applications, each with its OIL text, and a model that was written by hand."""

MORE = {'gear': 'gear.code: TASK(Shift) lacks the path TerminateTask() (gear.c:22)\n'}
"""Where a model by hand has fewer paths than the one that is made: groups of a `switch` that fall into the next one."""

OPEN = [
    ('TaskType t = T2; ActivateTask(t);', 'if (?) { ActivateTask(T1); } else { if (?) { ActivateTask(T2); } }'),
    ('change(T2);', 'work 1; if (?) { ActivateTask(T1); } else { if (?) { ActivateTask(T2); } }'),
    ('loaded(T2);', 'work 1; if (?) { ActivateTask(T1); } else { if (?) { ActivateTask(T2); } }'),
    ('EventMaskType m; GetEvent(T1, &m); ClearEvent(m);',
     'GetEvent(T1); if (?) { ClearEvent(E1); } else { if (?) { ClearEvent(E2); } else { if (?) { ClearEvent(E1 | E2); } } }'),
    ('SetEvent(T1, E1 | c());', 'if (?) { SetEvent(T1, E1); } else { if (?) { SetEvent(T1, E2); } else { if (?) { SetEvent(T1, E1 | E2); } } }'),
]
"""Bodies of T1 whose calls are by what is known at run time alone, and what they are taken to be."""

REFUSED = [
    ('again();', 'a recursion: again calls itself'),
    ('void (*f)(void) = inner; f();', 'a call through a pointer'),
    ('goto end; end: Schedule();', 'goto has no place'),
    ('longjmp(0, 1);', 'longjmp has no place'),
    ('TaskStateType s; GetTaskState(loaded(T2), &s);', 'GetTaskState by what is no task of the OIL text'),
    ('EventMaskType m = E1; WaitEvent(m);', 'WaitEvent by what is no event of the OIL text'),
    ('EventMaskType m = E1; SetEvent(T2, m);', 'SetEvent by what is no event of the OIL text'),
    ('ClearEvent(1);', 'ClearEvent by what is no event of the OIL text'),
    ('SetRelAlarm(A, 4 / 0, 0);', 'SetRelAlarm by what is no number'),
    ('ActivateTask(R);', 'ActivateTask by what is no task of the OIL text'),
    ('SetRelAlarm(A, c(), 0);', 'SetRelAlarm by what is no number'),
    ('SetRelAlarm(A, (unsigned char)300, 0);', 'SetRelAlarm by what is no number'),
    ('int x __attribute__((cleanup(done))) = 0;', 'a variable with a cleanup function has no place'),
    ('switch (c()) { while (c()) { case 1: Schedule(); } }', 'has no place'),
    ('switch (c()) { case 0: while (c()) { case 1: Schedule(); } }', 'a case within another statement'),
    ('Nothing(', "a.c:7:"),
]
"""Bodies of T1 that end with status 2, and what is said."""

HARNESS = '''#include <stdio.h>
#include <setjmp.h>
static unsigned long state; static int left; static jmp_buf out;
static int c(void) { if (--left < 0) longjmp(out, 1); state = state * 6364136223846793005UL + 1442695040888963407UL; return (state >> 40) & 3; }
static void say(const char *word) { printf(" %%s", word); if (--left < 0) longjmp(out, 1); }
#define ActivateTask(t) (say("ActivateTask(" #t ")"), 0)
#define SetEvent(t, e) (say("SetEvent(" #t ", " #e ")"), 0)
#define Schedule() (say("Schedule()"), 0)
%s
typedef void (*Body)(void);
static Body bodies[] = { %s };
int main(void) {
  for (int k = 0; k < %d; k++) for (unsigned long seed = 1; seed <= 30; seed++) {
    state = seed * 977; left = 60; printf("%%d", k);
    if (setjmp(out) == 0) { bodies[k](); printf(" end"); }
    printf("\\n");
  }
}
'''


class Programs:
    """C bodies made at random, and functions that they call."""

    def __init__(self, seed):
        self.random, self.helpers, self.leave = random.Random(seed), [], 'return;'

    def make_helpers(self, count):
        """The functions, each of which may call those before it."""
        for _ in range(count):
            self.leave = 'return %d;' % self.random.randint(0, 1)
            self.helpers.append(self.body(2, False, False))
        self.leave = 'return;'
        return ''.join('static int h%d(void) { %s return c(); }\n' % pair for pair in enumerate(self.helpers))

    def body(self, depth, in_loop, in_switch):
        return ' '.join(self.statement(depth, in_loop, in_switch) for _ in range(self.random.randint(1, 3)))

    def call(self):
        made = ['h%d()' % self.random.randrange(len(self.helpers))] if self.helpers else []
        return self.random.choice(['ActivateTask(T1)', 'ActivateTask(T2)', 'SetEvent(T1, E1)', 'Schedule()', *made])

    def condition(self):
        return self.random.choice(['c()', 'c() && %s' % self.call(), 'c() || !%s' % self.call(), '(c() ? %s : %s) || c()' % (self.call(), self.call()),
                                   '(%s, c())' % self.call(), 'c() ?: %s' % self.call(), '(%s ?: %s)' % (self.call(), self.call())])

    def statement(self, depth, in_loop, in_switch):
        jumps = [self.leave] + ['break;'] * (in_loop or in_switch) + ['continue;'] * in_loop
        kind = self.random.choice(['call', 'call', 'jump', 'if', 'if', 'while', 'for', 'do', 'switch'] if depth else ['call', 'call', 'jump'])
        if kind == 'call':
            return self.call() + ';'
        if kind == 'jump':
            return 'if (c()) { %s }' % self.random.choice(jumps)
        if kind == 'switch':
            return 'switch (%s) { %s }' % (self.condition(), self.groups(depth, in_loop))
        if kind == 'if':
            first, second = (self.body(depth - 1, in_loop, in_switch) for _ in range(2))
            return 'if (%s) { %s } else { %s %s }' % (self.condition(), first, second, self.random.choice(['', self.random.choice(jumps)]))
        inner = self.body(depth - 1, True, False)
        return {'while': 'while (%s) { %s }' % (self.random.choice([self.condition(), '1']), inner), 'do': 'do { %s } while (%s);' % (inner, self.condition()),
                'for': 'for (int i = 0; %s; %s) { %s }' % (self.random.choice([self.condition(), '']), self.random.choice(['i++', self.call()]), inner)}[kind]

    def groups(self, depth, in_loop):
        """The groups of a `switch`, with `default` at any place or none."""
        labels = ['case 0:', 'case 1:', self.random.choice(['case 2:', 'default:', 'case 2: default:'])]
        self.random.shuffle(labels)
        ends = ['break;', 'break;', '', self.leave] + ['continue;'] * in_loop
        return ' '.join('%s %s %s' % (label, self.body(depth - 1, in_loop, True), self.random.choice(ends)) for label in labels)


def words_of(text):
    """The blocks of a text, without their lines."""
    return [(block.owner, block.word, block.arguments, block.next, block.other) for block in task_code.blocks_of(text)]


@unittest.skipUnless(shutil.which('clang'), 'there is no clang')
class ModelC(unittest.TestCase):
    def setUp(self):
        folder = tempfile.TemporaryDirectory()
        self.addCleanup(folder.cleanup)
        self.folder = folder.name

    def file(self, name, text):
        path = os.path.join(self.folder, name)
        with open(path, 'w') as out:
            out.write(text)
        return path

    def run_(self, code, *words, oil=OIL):
        """What comes out, what is told, and the status."""
        done = subprocess.run([sys.executable, os.path.join(TOOLS, 'model_c.py'), '--oil', self.file('a.oil', oil), *words, self.file('a.c', code)],
                              stdin=subprocess.DEVNULL, stdout=subprocess.PIPE, stderr=subprocess.PIPE)
        return done.stdout.decode(), done.stderr.decode(), done.returncode

    def test_models_by_hand(self):
        """All bodies at once: each is that of a task of its own."""
        tasks = ''.join('TASK(M%d) { %s }\n' % (k, body) for k, (body, _) in enumerate(MODELS))
        oil = OIL.replace('TASK T2', ''.join('TASK M%d { PRIORITY = 1; }; ' % k for k in range(len(MODELS))) + 'TASK T2')
        said, told, status = self.run_(HEAD + HELPERS + 'TASK(T1) { }\n' + tasks + REST, oil=oil)
        self.assertEqual(status, 0, told)
        made = {block.owner: text for block, text in zip(task_code.blocks_of(said), words_of(said))}
        self.assertEqual(len(made), len(MODELS) + 3)
        for k, (body, due) in enumerate(MODELS):
            with self.subTest(body):
                begin = said.index('TASK(M%d)' % k)
                self.assertEqual(words_of(said[begin:said.index('\n}\n', begin) + 3]), words_of('TASK(M%d) { %s }' % (k, due)))

    def test_refusals(self):
        for body, due in REFUSED:
            with self.subTest(body):
                _, told, status = self.run_(HEAD + HELPERS + 'TASK(T1) { %s }' % body + REST)
                self.assertEqual(status, 2)
                self.assertIn(due, told)
                self.assertIn('a.c:7:', told.replace('a.c:5:', 'a.c:7:').replace('a.c:6:', 'a.c:7:'))

    def test_calls_by_what_is_known_at_run_time_alone(self):
        for body, due in OPEN:
            with self.subTest(body):
                said, told, status = self.run_(HEAD + HELPERS + 'TASK(T1) { %s }' % body + REST)
                self.assertEqual((status, words_of(said)), (0, words_of('TASK(T1) { %s }' % due + REST)), told)
                self.assertRegex(told, r'(ActivateTask|ClearEvent|SetEvent) is called by what is known at run time alone: taken to be by any of [23], or not at all')
        more = ''.join('EVENT = X%d; ' % k for k in range(3)), ''.join('EVENT X%d; ' % k for k in range(3))
        oil = OIL.replace('EVENT = E2; ', 'EVENT = E2; ' + more[0]).replace('EVENT E2;', 'EVENT E2; ' + more[1])
        told = self.run_(HEAD + 'TASK(T1) { EventMaskType m; ClearEvent(m); }' + REST, oil=oil)[1]
        self.assertIn('ClearEvent by what is no event of the OIL text', told)

    def test_what_is_assumed(self):
        _, told, _ = self.run_(HEAD + 'TASK(T1) { c(); __asm__("nop"); }' + REST)
        self.assertIn('a.c:3: c is in none of the files, and taken to call no service [assumed]', told)
        self.assertIn('a.c:3: the assembler is taken to call no service [assumed]', told)

    def test_what_is_assumed_stands_in_the_order_of_the_files(self):
        body = 'int two(int x, int y) { return 0; }\nTASK(T1) {\nSchedule() + Schedule();\ntwo(Schedule(), Schedule());\nSchedule(), Schedule();\nShutdownOS(c());\nc(); }'
        _, told, _ = self.run_(HEAD + body + REST)
        self.assertEqual([line.partition('a.c:')[2] for line in told.splitlines()],
                         ['5: the calls in one expression are taken from left to right [assumed]', '6: the calls in one expression are taken from left to right [assumed]',
                          '8: c is in none of the files, and taken to call no service [assumed]',
                          '8: the status of ShutdownOS is not said by its name, and taken to be E_OK [assumed]',
                          '9: c is in none of the files, and taken to call no service [assumed]'])

    def test_a_function_that_gives_way_to_another_one(self):
        weak = self.file('weak.c', '#include "os.h"\n__attribute__((weak)) void f(void) { Schedule(); }\nTASK(T1) { f(); }' + REST)
        said = subprocess.run([sys.executable, os.path.join(TOOLS, 'model_c.py'), '--oil', self.file('a.oil', OIL), weak,
                               self.file('strong.c', '#include "os.h"\nvoid f(void) { ActivateTask(T2); }')], stdin=subprocess.DEVNULL, capture_output=True, text=True,
                              check=True).stdout
        self.assertIn('ActivateTask(T2);  // ', said)
        self.assertNotIn('Schedule', said)

    def test_files_of_projects_have_the_paths_of_their_models(self):
        """Each path of a model by hand is one of the model that is made; the other way round too, where no group of a `switch` falls into the next one."""
        folder = os.path.join(TOOLS, 'tests', 'c')
        self.assertEqual({name for name in os.listdir(folder) if name.endswith('.c')}, {file for files in FILES.values() for file in files})
        for name, files in FILES.items():
            with self.subTest(name):
                words = [sys.executable, os.path.join(TOOLS, 'model_c.py'), '--oil', name + '.oil', '-I', 'include', *files]
                made, told = (subprocess.run([*words, *more], cwd=folder, stdin=subprocess.DEVNULL, capture_output=True, text=True, check=False)
                              for more in ([], ['--check', name + '.code']))
                self.assertEqual((made.returncode, told.stdout), (0, MORE.get(name, '')), made.stderr)
                model, hand = task_code.blocks_of(made.stdout), task_code.blocks_of(contents(os.path.join(folder, name + '.code')))
                for owner, first in firsts(hand).items():
                    self.assertIsNone(missing(Paths(hand, first), Paths(model, firsts(model)[owner])), owner)

    def test_a_task_without_a_body(self):
        self.assertIn('no file has TASK(T1)', self.run_('#include "os.h"\n' + REST)[1])

    def test_a_check(self):
        code = HEAD + 'TASK(T1) { Schedule(); if (c()) ActivateTask(T2); }' + REST
        for given, due in [('Schedule(); if (?) { ActivateTask(T2); }', []), ('while (?) { Schedule(); if (?) { ActivateTask(T2); } }', []),
                           ('Schedule(); ActivateTask(T2);', ['lacks the path Schedule(), the end of the body']),
                           ('Schedule();', ['lacks the path Schedule(), ActivateTask(T2) (']), ('ActivateTask(T2);', ['lacks the path Schedule() ('])]:
            with self.subTest(given):
                said, _, status = self.run_(code, '--check', self.file('a.code', 'TASK(T1) { %s }' % given + REST))
                self.assertEqual((len(said.splitlines()), status), (len(due), 1 if due else 0))
                for text in due:
                    self.assertIn(text, said)

    def test_runs_of_random_programs_are_runs_of_their_models(self):
        count, made = 40, Programs(5)
        helpers = made.make_helpers(5)
        texts = [made.body(2, False, False) for _ in range(count)]
        runs = self.runs_of(helpers, texts)
        oil = OIL.replace('TASK T2', ''.join('TASK M%d { PRIORITY = 1; }; ' % k for k in range(count)) + 'TASK T2')
        said, told, status = self.run_(HEAD + helpers + ''.join('TASK(M%d) { %s }\n' % pair for pair in enumerate(texts)) + 'TASK(T1) { }' + REST, oil=oil)
        self.assertEqual(status, 0, told)
        blocks = task_code.blocks_of(said)
        paths = {k: Paths(blocks, firsts(blocks)[Owner('TASK', 'M%d' % k)]) for k in range(count)}
        for number, words in runs:
            self.assertTrue(self.is_run(paths[number], words), '%s: %s' % (texts[number], ' '.join(words)))

    def runs_of(self, helpers, texts):
        """The calls of runs of the bodies, each with its body's number; the last word is `end` where the body came to its end."""
        functions = helpers + ''.join('static void body%d(void) { %s }\n' % pair for pair in enumerate(texts))
        names = ', '.join('body%d' % k for k in range(len(texts)))
        program = os.path.join(self.folder, 'runs')
        subprocess.run(['clang', '-w', '-o', program, self.file('runs.c', HARNESS % (functions, names, len(texts)))], check=True)
        for line in subprocess.run([program], check=True, stdout=subprocess.PIPE).stdout.decode().splitlines():
            number, _, calls = line.partition(' ')
            yield int(number), calls.replace(', ', ',').split()

    def is_run(self, paths, words):
        """Whether the model has a path with these calls."""
        state = paths.first
        for word in words:
            name, _, rest = word.partition('(')
            arguments = tuple((one,) for one in rest.rstrip(')').split(',') if one)
            state, can = paths.step(state, (name, arguments))
            if not can:
                return False
        return True


if __name__ == '__main__':
    unittest.main()
