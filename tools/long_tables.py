#!/usr/bin/env python3
"""Runs `check` of a built osekfit on tables of 16 MiB, each made to take much time or memory, and measures it.

A line of the table has what the bytes are, how many, the status and what is told, user and system time, and the largest memory.
A run that takes more than two seconds or 1 GB, or ends with a status that no table may bring, is marked and counted. The last lines tell
what md5sum takes for as many bytes, and how many runs were wrong.

    tools/long_tables.py crates/osekfit/out/osekfit
    tools/long_tables.py crates/osekfit/out/osekfit --only late --half       also at half the size, to see how it grows
"""
import itertools
import os
import shutil
import sys
import tempfile

HERE = os.path.dirname(os.path.abspath(__file__))
sys.path.insert(0, os.path.join(os.path.dirname(HERE), 'bench'))

import run as bench
from lib import given
from lib.image import name, number
from lib.image_reader import read_image
from lib.points import block_of, executing_at, points_of
from lib.table_bytes import IN, LIVE, MOST, OUT, SUSPENDED, magic, value_bytes

SECONDS, MEGABYTES = 2.0, 1024.0
STOPPED_AFTER = 60

TASKS, RESOURCES, EVENTS, ALARMS = 16, 7, 32, 16

TASK_STEPS, ROUTINE_STEPS = 100, 880
"""How many blocks the first task has, and the one interrupt routine: each of its own has a point over nobody and one over each task."""


def oil(events):
    """An application with nearly as many points as there may be; where it has events, each task has all of them, and there are alarms."""
    lines = ['CPU c { OS os;'] + ['EVENT E%d;' % k for k in range(events)] + ['RESOURCE R%d;' % k for k in range(RESOURCES)]
    uses = ' '.join(['EVENT = E%d;' % k for k in range(events)] + ['RESOURCE = R%d;' % k for k in range(RESOURCES)])
    lines += ['TASK T%d { PRIORITY = %d; %s };' % (k, k + 1, uses) for k in range(TASKS)] + ['ISR I { CATEGORY = 2; };']
    if events:
        lines += ['COUNTER C { MAXALLOWEDVALUE = 9; };']
        lines += ['ALARM A%d { COUNTER = C; ACTION = ACTIVATETASK { TASK = T0; }; };' % k for k in range(ALARMS)]
    return '\n'.join(lines + ['};\n'])


def code():
    bodies = ['TASK(T0) {\n' + 'work 1;\n' * TASK_STEPS + '}\n'] + ['TASK(T%d) { }\n' % k for k in range(1, TASKS)]
    return ''.join(bodies) + 'ISR(I) {\n' + 'work 1;\n' * ROUTINE_STEPS + '}\n'


def with_all_events(image, app):
    """The image with 64 event bits for each task, which no OIL gives."""
    for task in app.tasks:
        front = name(task.name) + number(task.priority, 2) + number(task.is_full, 1)
        image = image.replace(front + number(task.own, 8), front + b'\xff' * 8)
    return image


# The tables, each by its rows in the order of the points. A row is the bytes of its sets.


def listed(values):
    return number(len(values), 4) + b''.join(values)


def alone(*fields):
    return listed([value_bytes(fields)])


def row(app, point, first=None):
    """A row with one value for each component. The first task's set is the one that is given, where it neither runs nor is interrupted."""
    running = executing_at(app, point)
    sets = [alone(LIVE, app.first[t], 0, 0, 0) if t == running else alone(SUSPENDED) for t in range(len(app.tasks))]
    if first is not None and running != 0:
        sets[0] = first
    if running == 0 and block_of(point) in app.blocks_of_task(0):
        sets[0] = alone(LIVE, block_of(point), 0, 0, 0)
    inside = [block_of(point) in app.blocks_of_source(s) for s in range(len(app.sources))]
    routines = [alone(IN, block_of(point), 0) if is_in else alone(OUT) for is_in in inside]
    return b''.join(sets) + b'\1' * (len(app.own_bits()) + len(app.alarms)) + b''.join(routines)


def table_of(app, rows, most):
    """The bytes of a table: rows at the first points, as many as fit, and none at the others."""
    points = points_of(app)
    parts, left = [magic()], most - len(magic()) - len(points)
    for found in rows:
        left -= len(found)
        if left < 0:
            break
        parts.append(b'\1' + found)
    return b''.join(parts) + bytes(len(points) + 1 - len(parts))


def live_values(app):
    """The values of the first task where it is live, in their order."""
    stacks = [stack for size in range(RESOURCES + 1) for stack in itertools.permutations(range(RESOURCES), size)]
    for block in app.blocks_of_task(0):
        for stack in stacks:
            yield value_bytes((LIVE, block, 0, 0, len(stack)) + stack)


def within(values, most):
    """The first of the values that have so many bytes."""
    found, left = [], most
    for value in values:
        left -= len(value)
        if left < 0:
            break
        found.append(value)
    return found


def one_set(app, most):
    """The first row's first set is as long as may be."""
    first = points_of(app)[0]
    return [row(app, first, listed(within(live_values(app), most - 40000)))]


def late(app, most):
    """So many values in the first row that each later one, which has the last of them alone, needs a word for each 64 of them."""
    points = points_of(app)
    values = within(live_values(app), most - 107 * len(points))
    return [row(app, points[0], listed(values))] + [row(app, point, listed(values[-1:])) for point in points[1:]]


def short_rows(app, most):
    return (row(app, point) for point in points_of(app))


def repeated(app, most):
    """The same values in each row."""
    found = listed(within(live_values(app), 16000))
    return (row(app, point, found) for point in points_of(app))


def new_values(app, most):
    """The first value is the last in order and the longest, and as long as there are any each row has values that none before it has."""
    points, values = points_of(app), live_values(app)
    last = alone(LIVE, app.blocks_of_task(0)[-1], 0, 0, RESOURCES, *range(RESOURCES - 1, -1, -1))
    yield row(app, points[0], last)
    for point in points[1:]:
        found = list(itertools.islice(values, 72))
        yield row(app, point, listed(found) if found else None)


TABLES = [
    ('many components', True, short_rows),
    ('one set', False, one_set),
    ('values numbered late', False, late),
    ('the same values in each row', False, repeated),
    ('new values in each row', False, new_values),
]


class Runs:
    """The runs so far, in a folder of their own."""

    def __init__(self, program, folder):
        self.program, self.folder, self.wrong, self.runs = program, folder, 0, 0

    def path(self, name):
        return os.path.join(self.folder, name)

    def put(self, name, data):
        with open(self.path(name), 'wb') as file:
            file.write(data if isinstance(data, bytes) else data.encode('ascii'))

    def get(self, name):
        with open(self.path(name), 'rb') as file:
            return file.read()

    def application(self, events):
        """An application, and the file of its image."""
        self.put('a.oil', oil(events))
        self.put('a.code', code())
        done = bench.run([self.program, 'build', 'a.oil', 'a.code', 'a.image'], self.folder, 'out', STOPPED_AFTER)
        if done.status:
            raise given.Wrong('no image was built')
        image = self.get('a.image')
        if events:
            image = with_all_events(image, read_image(image).app)
        self.put('%d.image' % events, image)
        return read_image(image).app, '%d.image' % events

    def run(self, name, words, size):
        """Runs the program, prints a line of the table, and counts what is wrong."""
        done = bench.run([self.program] + words, self.folder, 'out', STOPPED_AFTER)
        text = self.get('out')[-200:].decode('latin-1').splitlines()[-1:]
        wrong = [mark for mark, holds in (('SLOW', done.seconds > SECONDS), ('LARGE', done.megabytes > MEGABYTES),
                                          ('STATUS', done.status not in (0, 7, 11, 12))) if holds]
        self.runs += 1
        self.wrong += bool(wrong)
        print('%-32s %8d %4s  %-20s %6.2f s %7.1f MB %s'
              % (name, size, done.status, ''.join(text)[:20], done.seconds, done.megabytes, ' '.join(wrong)), flush=True)


def run_all(runs, words):
    found = {many: runs.application(EVENTS if many else 0) for many in (False, True)}
    for name, many, rows in TABLES:
        for most in [MOST // 2, MOST] if words.half else [MOST]:
            if words.only is None or words.only in name:
                app, image = found[many]
                data = table_of(app, rows(app, most), most)
                runs.put('a.table', data)
                runs.run(name, ['check', image, 'a.table'], len(data))


def arguments():
    parser = given.Parser(__doc__)
    parser.add_argument('program', metavar='PROGRAM', help='the built osekfit')
    parser.add_argument('--only', metavar='WORD', help='only the tables whose names have this word')
    parser.add_argument('--half', action='store_true', help='also at half the size')
    return parser.parse_args()


def main():
    words = arguments()
    folder = tempfile.mkdtemp(prefix='osekfit-long-')
    runs = Runs(os.path.abspath(words.program), folder)
    try:
        run_all(runs, words)
        runs.put('bytes', bytes(MOST))
        done = bench.run(['md5sum', 'bytes'], folder, 'out', STOPPED_AFTER)
        print('md5sum of 16 MiB: %.3f s, %.1f MB' % (done.seconds, done.megabytes))
    finally:
        shutil.rmtree(folder)
    print('%d runs, %d wrong' % (runs.runs, runs.wrong))
    return 1 if runs.wrong else 0


if __name__ == '__main__':
    given.run(main)
