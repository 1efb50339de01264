#!/usr/bin/env python3
"""Compares a built osekfit with the model of model.py on small applications that are made at random.

Each application has all kinds of objects and statements, right or wrong in use: tasks that share a priority, several activations, groups of
tasks by INTERNAL resources. What `build` stores has to be the model's image, byte for
byte; what `trace` prints, and `replay` of the image and of changed ones, what the model prints, in each mode; and `show` what it shows. Where the program has
`certify` and `check`, the table has to be the model's, and of changed images and tables both have to say the same. Where it has `record`,
`watch` and `report`, both have to print the same records of the image and of changed ones, and say the same of these and of changed records.
An application that differs is kept. The model goes state by state, so applications whose least tables admit too many are left out.

    tools/compare_model.py crates/osekfit/out/osekfit --count 100 --seed 7
"""
import os
import random
import shutil
import subprocess
import tempfile

from lib import certified, findings, image, least_table, opened, records, table_bytes
from lib.application import application_of
from lib.certificate_changes import Changes
from lib.given import Parser, Wrong, data, run
from lib.image_reader import read_image
from lib.model_trace import events_of, line, play
from lib.oil import HOOKS
from lib.points import points_of, shown_point
from lib.task_code import CLOSERS, OPENERS

FOR_TASKS = ['ActivateTask(%(task)s)', 'ActivateTask(%(task)s)', 'ChainTask(%(task)s)', 'TerminateTask()', 'Schedule()', 'GetResource(%(resource)s)',
             'GetResource(%(resource)s)', 'ReleaseResource(%(resource)s)', 'ReleaseResource(%(resource)s)', 'WaitEvent(%(mask)s)', 'WaitEvent(%(mask)s)']

FOR_ALL = ['work %(number)d', 'work %(number)d', 'SetEvent(%(task)s, %(mask)s)', 'ClearEvent(%(mask)s)', 'GetEvent(%(task)s)',
           'SetRelAlarm(A, %(number)d, %(cycle)d)', 'SetAbsAlarm(A, %(number)d, %(cycle)d)', 'CancelAlarm(A)', 'GetAlarm(A)', 'GetTaskID()',
           'GetTaskState(%(task)s)', 'GetActiveApplicationMode()', 'ActivateTask(%(task)s)']

RARE = ['ShutdownOS(E_OK)', 'Schedule()', 'TerminateTask()', 'WaitEvent(%(mask)s)']
"""Statements of routines that are refused, and the one that ends all."""

FOR_NESTS = ['GetResource(%(resource)s)', 'GetResource(%(resource)s)', 'ReleaseResource(%(resource)s)', 'work 1']
"""Those of routines that nest."""

CHANGED = 6
"""How many changed certificates of an application are checked."""

MOST_ASKED = 20000
"""How many states of an application the model asks at most."""


class Maker:
    """Makes the texts of a small application by a seed."""

    def __init__(self, seed):
        self.random = random.Random(seed)
        self.is_crowd = self.chance(0.3)  # more tasks, of short bodies
        self.tasks = ['T%d' % k for k in range(self.random.randint(3, 5) if self.is_crowd else self.random.randint(1, 3))]
        self.events = ['E%d' % k for k in range(self.random.randint(1, 2))]
        self.resources = ['R', 'Q'] if self.chance(0.2) else ['R']
        self.groups = ['G', 'H'] if self.chance(0.3) else ['G']
        self.has_alarm = self.random.random() < 0.6
        self.isrs = ['I', 'J'] if opened.has(opened.NESTED) and self.chance(0.6) else ['I']

    def chance(self, share):
        return self.random.random() < share

    def oil(self):
        priorities = self.random.sample(range(1, 9), len(self.tasks))
        if self.chance(0.7):
            priorities = [self.random.choice(priorities[:2]) for _ in priorities]
        os_ = ' '.join('%s = TRUE;' % hook for hook in HOOKS if self.chance(0.5)) + (' USERESSCHEDULER = FALSE;' if self.chance(0.5) else '')
        lines = ['OS os { %s };' % os_, 'APPMODE M1;', 'COUNTER C { MAXALLOWEDVALUE = 3; };'] + [self.isr(name) for name in self.isrs]
        lines += ['RESOURCE %s;' % r for r in self.resources]
        lines += ['RESOURCE %s { RESOURCEPROPERTY = INTERNAL; };' % g for g in self.groups]
        lines += ['EVENT %s%s;' % (e, self.random.choice(['', ' { MASK = 6; }'])) for e in self.events]
        lines += [self.task(*pair) for pair in zip(self.tasks, priorities)]
        lines += [self.alarm()] if self.has_alarm else []
        return 'CPU c {\n%s\n};\n' % '\n'.join(lines)

    def task(self, name, priority):
        words = ['PRIORITY = %d;' % priority, 'AUTOSTART = %s;' % self.random.choice(['TRUE', 'TRUE { APPMODE = M1; }', 'FALSE'])]
        words += ['SCHEDULE = NON;'] if self.chance(0.2) else []
        words += ['RESOURCE = %s;' % r for r in self.resources if self.chance(0.6)]
        words += ['RESOURCE = %s;' % self.random.choice(self.groups)] if self.chance(0.5) else []
        events = ['EVENT = %s;' % e for e in self.events if self.chance(0.5)]
        if self.chance(0.5):
            events = ['ACTIVATION = %d;' % self.random.choice([2, 2, 3, 3, 255])]
        return 'TASK %s { %s };' % (name, ' '.join(words + events))

    def isr(self, name):
        words = ['CATEGORY = 2;']
        if opened.has(opened.NESTED):
            words += ['PRIORITY = %d;' % self.random.randint(0, 2)] + ['RESOURCE = %s;' % r for r in self.resources]
        return 'ISR %s { %s };' % (name, ' '.join(words))

    def alarm(self):
        task = self.random.choice(self.tasks)
        action = self.random.choice(['ACTIVATETASK { TASK = %s; }' % task, 'SETEVENT { TASK = %s; EVENT = %s; }' % (task, self.events[0])])
        start = self.random.choice(['FALSE', 'TRUE { ALARMTIME = 2; CYCLETIME = %d; }' % self.random.choice([0, 2])])
        return 'ALARM A { COUNTER = C; ACTION = %s; AUTOSTART = %s; };' % (action, start)

    def code(self):
        most = 3 if self.is_crowd else 6
        bodies = ['TASK(%s) {\n%s}\n' % (name, self.statements(FOR_ALL + FOR_TASKS, most)) for name in self.tasks]
        words = FOR_ALL + RARE + (FOR_NESTS if opened.has(opened.NESTED) else [])
        return ''.join(bodies) + ''.join('ISR(%s) {\n%s}\n' % (name, self.statements(words, 3)) for name in self.isrs)

    def statements(self, words, most, depth=0):
        return ''.join(self.statement(words, depth) + '\n' for _ in range(self.random.randint(1, most)))

    def statement(self, words, depth):
        if depth < 2 and self.chance(0.25):
            return self.nested(words, depth + 1)
        text = self.random.choice([w for w in words if self.has_alarm or '(A' not in w]) % {
            'task': self.random.choice(self.tasks), 'resource': self.random.choice(self.resources), 'number': self.random.randint(1, 4), 'cycle': self.random.choice([0, 0, 2, 5]),
            'mask': ' | '.join(self.random.sample(self.events, self.random.randint(1, len(self.events))))}
        return text + ';'

    def nested(self, words, depth):
        inner = self.statements(words, 2, depth)
        kind = self.random.randrange(4)
        if kind == 0:
            opener, closer = self.random.choice(list(zip(OPENERS, CLOSERS)))
            return '%s(); work %d; %s();' % (opener, self.random.randint(1, 2), closer)
        head = ['', 'if (?)', 'while (?)', 'while (1)'][kind]
        return '%s {\n%s}%s' % (head, inner, ' else { work 1; }' if kind == 1 and self.chance(0.5) else '')

    def events_text(self, count):
        requests = ['irq ' + name for name in self.isrs] + ['tick C']
        return ''.join(self.random.choice(['run 0', 'run 1', 'run 0', 'run 1'] + requests) + '\n' for _ in range(count))


def answer(program, words, folder):
    done = subprocess.run([program] + words, cwd=folder, stdin=subprocess.DEVNULL, stdout=subprocess.PIPE, stderr=subprocess.PIPE)
    return (done.stdout + done.stderr).decode('latin-1')


def differences(program, folder, events, chance):
    """The commands whose answers differ from the model's over the texts of a folder; None where the model would take too long."""
    app, found = application_of(*(data(os.path.join(folder, name)).decode('ascii') for name in ('a.oil', 'a.code'))), []
    analysis = least_table.Analysis(app).solve(MOST_ASKED)
    if analysis is None:
        return None
    refusal = answer(program, ['build', 'a.oil', 'a.code', 'a.image'], folder)
    if refusal or data(os.path.join(folder, 'a.image')) != image.image(app, analysis.shown, analysis.noted):
        found.append('build')
    for mode in app.modes:
        due = ''.join(line(app, n, step) + '\n' for n, (step, _, _) in enumerate(play(app, mode, events)))
        found += ['trace %s' % mode] if answer(program, ['trace', 'a.oil', 'a.code', mode, 'a.events'], folder) != due else []
        found += ['replay %s' % mode] if answer(program, ['replay', 'a.image', mode, 'a.events'], folder) != due else []
    found += ['show'] if answer(program, ['show', 'a.oil', 'a.code'], folder) != least_table.show(app, analysis) else []
    found += replay_differences(program, folder, analysis, events, chance) + certificate_differences(program, folder, analysis, chance)
    return found + record_differences(program, folder, analysis, events, chance)


def replay_differences(program, folder, analysis, events, chance):
    """The first mode in which a changed image has another trace."""
    changes = Changes(chance, analysis, certified.table_of(analysis))
    for mode in analysis.app.modes * CHANGED:
        content = changes.image(True)
        write(folder, 'c.image', content)
        lines, _ = records.replay(read_image(content), mode, events)
        if answer(program, ['replay', 'c.image', mode, 'a.events'], folder) != lines_text(lines):
            return ['replay of c.image in %s' % mode]
    return []


def certificate_differences(program, folder, analysis, chance):
    """Those of the commands on certificates; none where the program doesn't have them."""
    app, table, names = analysis.app, certified.table_of(analysis), ('b.image', 'b.table')
    refusal = answer(program, ['certify', 'a.oil', 'a.code', *names], folder)
    if refusal == 'usage\n':
        return []
    due = (image.image(app, analysis.shown, analysis.noted), table_bytes.spelled(app, table))
    if refusal or tuple(data(os.path.join(folder, name)) for name in names) != due:
        return ['certify']
    changes = Changes(chance, analysis, table)
    for pair in [due] + [changes.pair() for _ in range(CHANGED)]:
        for name, content in zip(names, pair):
            write(folder, name, content)
        if answer(program, ['check', *names], folder) != certified.told(*pair, *names)[1] + '\n':
            return ['check of b.image and b.table']
    return []


def record_differences(program, folder, analysis, events, chance):
    """Those of `record`, `watch` and `report`; none where the program doesn't have them."""
    report = answer(program, ['report', 'a.oil', 'a.code'], folder)
    if report == 'usage\n':
        return []
    app, found = analysis.app, ['report'] if report != findings.report(analysis.app, analysis) else []
    changes = Changes(chance, analysis, certified.table_of(analysis))
    for mode in app.modes:
        for content in [changes.image(False)] + [changes.image(True) for _ in range(CHANGED)]:
            write(folder, 'b.image', content)
            lines, _ = records.record(read_image(content), mode, events)
            if answer(program, ['record', 'b.image', mode, 'a.events'], folder) != lines_text(lines):
                found.append('record of b.image in %s' % mode)
            found += watch_differences(program, folder, analysis, [lines, changed_record(chance, app, lines)])
    return found


def watch_differences(program, folder, analysis, all_lines):
    """The first record of which `watch` says something else."""
    for lines in all_lines:
        write(folder, 'b.record', lines_text(lines).encode('ascii'))
        due = records.watched(analysis.app, lines_text(lines), 'b.record', analysis)[1] + '\n'
        if answer(program, ['watch', 'a.oil', 'a.code', 'b.record'], folder) != due:
            return ['watch of b.record']
    return []


def changed_record(chance, app, lines):
    """A record with a line that is another one, or gone, or twice there."""
    place = chance.randrange(len(lines))
    others = [shown_point(app, chance.choice(points_of(app))), 'b%d' % len(app.blocks), 'b0/', 'b00', '# b0', '', ' idle\t', 'idle halt', 'b0/X']
    return lines[:place] + chance.choice([[], lines[place:place + 1] * 2, [chance.choice(others)]]) + lines[place + 1:]


def lines_text(lines):
    return ''.join(line + '\n' for line in lines)


def write(folder, name, content):
    with open(os.path.join(folder, name), 'wb') as file:
        file.write(content)


def compare(program, seed, folder):
    """Makes the application of a seed in a folder, and says what differs."""
    maker = Maker(seed)
    texts = {'a.oil': maker.oil(), 'a.code': maker.code(), 'a.events': maker.events_text(200)}
    for name, text in texts.items():
        with open(os.path.join(folder, name), 'w', encoding='ascii') as file:
            file.write(text)
    return differences(program, folder, events_of(texts['a.events']), maker.random)


def arguments():
    parser = Parser(__doc__)
    parser.add_argument('program', metavar='PROGRAM', help='the built osekfit')
    parser.add_argument('--count', type=int, default=100, metavar='N', help='how many applications are made')
    parser.add_argument('--seed', type=int, default=1, metavar='N', help='the seed of the first; each further one is one more')
    return parser.parse_args()


def main():
    words = arguments()
    program, wrong, left_out = os.path.abspath(words.program), 0, 0
    if not os.access(program, os.X_OK):
        raise Wrong('%s: no program' % words.program)
    for seed in range(words.seed, words.seed + words.count):
        folder = tempfile.mkdtemp(prefix='osekfit-model-')
        found = compare(program, seed, folder)
        left_out += found is None
        if found:
            wrong += 1
            print('seed %d: %s differ: %s' % (seed, ', '.join(found), folder), flush=True)
        else:
            shutil.rmtree(folder)
    print('%d applications, %d differ%s' % (words.count - left_out, wrong, ', %d left out' % left_out if left_out else ''))
    return 1 if wrong else 0


if __name__ == '__main__':
    run(main)
