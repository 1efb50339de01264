#!/usr/bin/env python3
"""Runs a built osekfit on texts of a megabyte, in which one thing is repeated, and measures it.

Each text repeats a token, an object or a statement up to 1,048,576 bytes (event texts and records up to 16 times as many). A line of the
table has the text's name, its command, the most bytes, the status and what is told, user and system time, and the largest memory. A run
that takes more than a second (an event text or a record: 16) or 64 MiB, or ends with a status that no text may bring, is marked and counted. The
last lines tell what md5sum takes for a megabyte, and how many runs were wrong.

    tools/long_texts.py crates/osekfit/out/osekfit
    tools/long_texts.py crates/osekfit/out/osekfit --only attributes --half       also at half the size, to see how it grows
"""
import collections
import os
import shutil
import sys
import tempfile

HERE = os.path.dirname(os.path.abspath(__file__))
sys.path.insert(0, os.path.join(os.path.dirname(HERE), 'bench'))

import run as bench
from lib import given

MOST = 1 << 20
EVENT_SHARE = 16
"""How many times as many bytes an event text or a record may have."""

SECONDS, MEGABYTES = 1.0, 64.0
STOPPED_AFTER = 60
MODE = 'OSDEFAULTAPPMODE'

OIL = 'CPU c { OS os; TASK T1 { PRIORITY = 1; AUTOSTART = TRUE; }; };'
CODE = 'TASK(T1) { TerminateTask(); }\n'
EXTENDED = 'CPU c { OS os; EVENT E; RESOURCE R; COUNTER C { MAXALLOWEDVALUE = 9; }; ALARM A { COUNTER = C; ACTION = ACTIVATETASK { TASK = T1; }; };' \
    ' TASK T1 { PRIORITY = 1; AUTOSTART = TRUE; EVENT = E; RESOURCE = R; }; ISR I { CATEGORY = 2; }; };'

SHARED = 'n' * 56
"""What the names of 64 bytes share, before a number of seven digits and a letter."""

LONG = SHARED + '%07dx'

Text = collections.namedtuple('Text', 'name front part back')
"""A text in which the part is repeated, as often as it fits, between the front and the back; `%d` in it is its number."""


def filled(text, most):
    pieces, left, number = [], most - len(text.front) - len(text.back), 0
    while True:
        piece = text.part % number if '%' in text.part else text.part
        if len(piece) > left:
            return text.front + ''.join(pieces) + text.back
        pieces.append(piece)
        left -= len(piece)
        number += 1


def alone(name, part):
    return Text(name, '', part, '')


def in_implementation(name, part):
    return Text(name, 'IMPLEMENTATION i { ', part, ' }; ' + OIL)


def in_cpu(name, part, before=''):
    return Text(name, 'CPU c { OS os; ' + before, part, ' };')


def in_task(name, part, before=''):
    return Text(name, 'CPU c { OS os; ' + before + 'TASK T1 { PRIORITY = 1; ', part, ' }; };')


def in_body(name, part):
    return Text(name, 'TASK(T1) {\n', part, '}\n')


OIL_TEXTS = [
    alone('spaces', ' '),
    alone('newlines', '\n'),
    alone('open braces', '{'),
    alone('marks', '=;'),
    alone('short names', 'a '),
    alone('names and marks', 'a='),
    alone('names of 64 bytes', LONG + '\n'),
    alone('numbers', '1 '),
    alone('nines', '9'),
    alone('zeros', '0'),
    alone('empty texts', '""'),
    Text('a text', '"', 'x', '"'),
    Text('an open text', '"', 'x', ''),
    alone('comments', '/**/'),
    alone('lines of comments', '//\n'),
    Text('an open comment', '/*', '\n', ''),
    Text('a comment of stars', '/*', '*', ''),
    alone('a name too long', 'x'),
    alone('bytes of no token', '$'),
    in_implementation('braces in IMPLEMENTATION', '{}'),
    in_implementation('nested braces in IMPLEMENTATION', '{' * 14 + '}' * 14),
    Text('one brace too deep', 'IMPLEMENTATION i ' + '{' * 17, '}', ''),
    in_implementation('declarations in IMPLEMENTATION', 'UINT32 A = 1; '),
    in_implementation('texts in IMPLEMENTATION', '""'),
    in_cpu('objects without attributes', 'a b;'),
    in_cpu('objects with braces', 'a b{};'),
    in_cpu('OS objects', 'OS o;'),
    in_cpu('tasks', 'TASK T%d{PRIORITY=1;};'),
    in_cpu('tasks of one name', 'TASK T{PRIORITY=1;};'),
    in_cpu('tasks with names of 64 bytes', 'TASK ' + LONG + '{PRIORITY=1;};'),
    in_cpu('interrupts', 'ISR I%d{CATEGORY=2;};'),
    in_cpu('interrupts of category 1', 'ISR I%d{CATEGORY=1;};'),
    in_cpu('counters', 'COUNTER C%d{MAXALLOWEDVALUE=9;};'),
    in_cpu('alarms', 'ALARM A%d{COUNTER=C;ACTION=ACTIVATETASK{TASK=T;};};'),
    in_cpu('events', 'EVENT E%d;'),
    in_cpu('events of one name', 'EVENT E;'),
    in_cpu('events with names of 64 bytes', 'EVENT ' + LONG + ';'),
    in_cpu('events with masks', 'EVENT E%d{MASK=1;};'),
    in_cpu('events with AUTO', 'EVENT E%d{MASK=AUTO;};'),
    in_cpu('resources', 'RESOURCE R%d;'),
    in_cpu('modes', 'APPMODE M%d;'),
    in_cpu('modes with names of 64 bytes', 'APPMODE ' + LONG + ';'),
    in_cpu('objects of no kind', 'X%d x;'),
    in_cpu('descriptions', 'a b:"";'),
    in_task('attributes of no kind', 'a=b;'),
    in_task('attributes of many names', 'a%d=1;'),
    in_task('attributes with names of 64 bytes', LONG + '=1;'),
    in_task('attributes within attributes', 'a=b{c=d;};'),
    in_task('attributes in thirteen levels', 'a=b{' * 13 + '};' * 13),
    in_task('priorities', 'PRIORITY=1;'),
    in_task('autostarts', 'AUTOSTART=TRUE{APPMODE=M;};'),
    Text('modes of an autostart', 'CPU c { OS os; TASK T1 { PRIORITY = 1; AUTOSTART = TRUE {', 'APPMODE=OSDEFAULTAPPMODE;', '}; }; };'),
    in_task('references to nothing', 'EVENT=E%d;'),
    in_task('references to one event', 'EVENT=E;', 'EVENT E; '),
    in_task('references to one resource', 'RESOURCE=R;', 'RESOURCE R; '),
    in_task('references with names of 64 bytes', 'EVENT=' + LONG + ';'),
]

CODE_TEXTS = [
    (OIL, alone('spaces', ' ')),
    (OIL, alone('marks', '(')),
    (OIL, alone('names and marks', 'a=')),
    (OIL, in_body('work', 'work 1;')),
    (OIL, in_body('work out of its range', 'work 0;')),
    (OIL, in_body('calls', 'Schedule();')),
    (OIL, in_body('calls with a task', 'ActivateTask(T1);')),
    (OIL, in_body('calls with no such task', 'ActivateTask(x%d);')),
    (OIL, in_body('calls with names of 64 bytes', 'ActivateTask(' + LONG + ');')),
    (EXTENDED, Text('events in a mask', 'TASK(T1) { SetEvent(T1, E', '|E', '); }\nISR(I) { }\n')),
    (EXTENDED, Text('events of no name in a mask', 'TASK(T1) { SetEvent(T1, E', '|x%d', '); }\nISR(I) { }\n')),
    (EXTENDED, in_body('masks', 'SetEvent(T1,E);')),
    (EXTENDED, in_body('alarms', 'SetRelAlarm(A,1,0);')),
    (OIL, in_body('choices', 'if(?){}')),
    (OIL, in_body('choices of two', 'if(?){}else{}')),
    (OIL, in_body('loops', 'while(?){}')),
    (OIL, in_body('loops for ever', 'while(1){}')),
    (OIL, in_body('nested loops', 'while(1){' * 31 + '}' * 31)),
    (OIL, in_body('nested choices', 'if(?){' * 31 + '}' * 31)),
    (OIL, in_body('one loop too deep', 'while(1){')),
    (OIL, in_body('locks', 'SuspendOSInterrupts();ResumeOSInterrupts();')),
    (OIL, in_body('locks that stay open', 'SuspendOSInterrupts();')),
    (OIL, alone('empty bodies', 'TASK(T1){}')),
    (OIL, Text('bodies of many names', CODE, 'TASK(T%d){}', '')),
    (OIL, Text('bodies with names of 64 bytes', CODE, 'TASK(' + LONG + '){}', '')),
    (OIL, Text('bodies of interrupts', CODE, 'ISR(x){}', '')),
]

EVENT_TEXTS = [
    alone('runs', 'run 0\n'),
    alone('interrupts', 'irq I\n'),
    alone('empty lines', '\n'),
    alone('comments', '#\n'),
    alone('lines of 256 bytes', ' ' * 250 + 'run 0\n'),
    alone('a line that doesn\'t end', ' '),
]

RECORDS = [
    alone('points', 'b0\n'),
    alone('points of a routine', 'b2/T1\n'),
    alone('empty lines', '\n'),
    alone('comments', '#\n'),
    alone('lines of 256 bytes', ' ' * 253 + 'b0\n'),
    alone('a line that doesn\'t end', ' '),
    Text('a block of many digits', 'b', '9', ''),
]

IMAGES = [
    ('zeros', lambda image, most: bytes(most)),
    ('the image again and again', lambda image, most: (image * (most // len(image) + 1))[:most]),
    ('zeros behind the image', lambda image, most: image + bytes(most - len(image))),
]


class Table:
    """The runs so far, in a folder of their own."""

    def __init__(self, program, folder, only):
        self.program, self.folder, self.only, self.wrong, self.runs = program, folder, only, 0, 0

    def path(self, name):
        return os.path.join(self.folder, name)

    def put(self, name, text):
        with open(self.path(name), 'wb') as file:
            file.write(text if isinstance(text, bytes) else text.encode('ascii'))

    def get(self, name):
        with open(self.path(name), 'rb') as file:
            return file.read()

    def wants(self, name):
        return self.only is None or self.only in name

    def run(self, name, size, words, seconds=SECONDS):
        """Runs the program, prints a line of the table, and counts what is wrong."""
        done = bench.run([self.program] + words, self.folder, 'out', STOPPED_AFTER)
        text = self.get('out')[-200:].decode('latin-1').splitlines()[-1:]
        wrong = [mark for mark, holds in (('SLOW', done.seconds > seconds), ('LARGE', done.megabytes > MEGABYTES),
                                          ('STATUS', done.status not in (0, 1, 3, 4, 14))) if holds]
        self.runs += 1
        self.wrong += bool(wrong)
        print('%-42s %-6s %8d %4s  %-20s %6.2f s %6.1f MB %s'
              % (name, words[0], size, done.status, ''.join(text)[:20] if done.status else '', done.seconds, done.megabytes, ' '.join(wrong)),
              flush=True)


def run_all(table, sizes):
    for text in OIL_TEXTS:
        for most in sizes:
            if table.wants(text.name):
                table.put('a.oil', filled(text, most))
                table.put('a.code', CODE)
                table.run(text.name, most, ['build', 'a.oil', 'a.code', 'a.image'])
    for oil, text in CODE_TEXTS:
        for most in sizes:
            if table.wants(text.name):
                table.put('a.oil', oil)
                table.put('a.code', filled(text, most))
                table.run('code: ' + text.name, most, ['build', 'a.oil', 'a.code', 'a.image'])
    run_images(table, sizes)


def run_images(table, sizes):
    """Event texts over an image that is sound, records, and images."""
    table.put('a.oil', EXTENDED)
    table.put('a.code', 'TASK(T1) { while (1) { } }\nISR(I) { }\n')
    table.run('a sound image', len(EXTENDED), ['build', 'a.oil', 'a.code', 'a.image'])
    sound = table.get('a.image')
    for text in EVENT_TEXTS:
        for most in sizes:
            if table.wants(text.name):
                table.put('a.events', filled(text, most * EVENT_SHARE))
                table.run('events: ' + text.name, most * EVENT_SHARE, ['replay', 'a.image', MODE, 'a.events'], EVENT_SHARE * SECONDS)
    for text in RECORDS:
        for most in sizes:
            if table.wants(text.name):
                table.put('a.record', filled(text, most * EVENT_SHARE))
                table.run('record: ' + text.name, most * EVENT_SHARE, ['watch', 'a.oil', 'a.code', 'a.record'], EVENT_SHARE * SECONDS)
    for name, image in IMAGES:
        for most in sizes:
            if table.wants(name):
                table.put('a.image', image(sound, most))
                table.run('image: ' + name, most, ['info', 'a.image'])


def arguments():
    parser = given.Parser(__doc__)
    parser.add_argument('program', metavar='PROGRAM', help='the built osekfit')
    parser.add_argument('--only', metavar='WORD', help='only the texts whose names have this word')
    parser.add_argument('--half', action='store_true', help='also at half the size')
    parser.add_argument('--over', action='store_true', help='also with one byte more than may be')
    return parser.parse_args()


def main():
    words = arguments()
    folder = tempfile.mkdtemp(prefix='osekfit-long-')
    table = Table(os.path.abspath(words.program), folder, words.only)
    try:
        run_all(table, [MOST // 2, MOST] if words.half else [MOST, MOST + 1] if words.over else [MOST])
        table.put('megabyte', ' ' * MOST)
        done = bench.run(['md5sum', 'megabyte'], folder, 'out', STOPPED_AFTER)
        print('md5sum of a megabyte: %.3f s, %.1f MB' % (done.seconds, done.megabytes))
    finally:
        shutil.rmtree(folder)
    print('%d runs, %d wrong' % (table.runs, table.wrong))
    return 1 if table.wrong else 0


if __name__ == '__main__':
    given.run(main)
