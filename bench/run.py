#!/usr/bin/env python3
"""Measures a built osekfit, and prints a table a subject, as docs/PERFORMANCE.md has them: commands by the size of an application, `show` by
resources and activations, events a second, and applications on which the analysis takes long; before them what was measured, when and where.

Each command is a process of its own: times are user and system time in seconds, the least of some runs; memory is the largest that the process
had, in MB. With --page the tables take the place of those of a page. All of it takes some minutes of one processor, on a quiet machine.

    bench/run.py crates/osekfit/out/osekfit
    bench/run.py --apps engine,2 --stacks 5x1,5x4x72 --worst waits:100:100:8 --events 10000 crates/osekfit/out/osekfit
    bench/run.py --page docs/PERFORMANCE.md crates/osekfit/out/osekfit
"""
import hashlib
import os
import platform
import random
import shutil
import subprocess
import sys
import tempfile
import textwrap
import time
from collections import namedtuple

sys.path.insert(0, os.path.join(os.path.dirname(os.path.dirname(os.path.abspath(__file__))), 'tools'))

from lib import given, oil
from lib.crates import ROOT
from lib.pages import with_table

import make_app
import make_stacks
import make_worst

Run = namedtuple('Run', 'status seconds megabytes')
"""How a process ended: its status (None where it was stopped, for its time or by a signal), its time, its largest memory."""

MODE = 'OSDEFAULTAPPMODE'

CHECKED_BYTES = 100 * 1000 * 1000

NESTING = 8
"""How many routines nest, where they do."""

SHORT = 2
"""A command that takes more than so many seconds runs once."""

LINE = 'line'
"""The name of the application whose line of activations is full."""

Sample = namedtuple('Sample', 'name write')
"""An application that is measured, and what writes its texts and so many events into a folder."""


def run(words, folder, out, limit):
    """Runs a command with its output in a file, and stops it after `limit` seconds."""
    with open(os.path.join(folder, out), 'wb') as file:
        process = subprocess.Popen(words, cwd=folder, stdin=subprocess.DEVNULL, stdout=file, stderr=file)
    begun, kilobytes = time.monotonic(), 0
    while True:
        kilobytes = max(kilobytes, memory_of(process.pid))
        done, ended, usage = os.wait4(process.pid, os.WNOHANG)
        if done:
            break
        passed = time.monotonic() - begun
        if passed > limit:
            process.kill()
        time.sleep(0.0001 if passed < 0.05 else 0.005)
    process.returncode = ended
    status = os.WEXITSTATUS(ended) if os.WIFEXITED(ended) else None
    return Run(status, usage.ru_utime + usage.ru_stime, kilobytes / 1024)


def memory_of(process):
    """The largest memory of a running process so far, in KB. (What wait4 says counts this program's own, before the other began.)"""
    try:
        with open('/proc/%d/status' % process, encoding='ascii', errors='replace') as file:
            words = [line.split() for line in file if line.startswith(('Name:', 'VmHWM:'))]
    except OSError:
        return 0
    mine = words and words[0][1].startswith('python')
    return 0 if mine or len(words) < 2 else int(words[1][1])



def counts_of(folder):
    """The numbers of the last line of show, and how many sites have each form."""
    with open(os.path.join(folder, 'show.out'), encoding='ascii', errors='replace') as file:
        lines = file.read().splitlines()
    words = lines[-1].split(' ') if lines else []
    counts = {name: format(int(count), ',') for name, count in zip(words[::2], words[1::2])} if words[:1] == ['points'] else {}
    forms = [line.split(' ')[4] for line in lines if line.startswith('site ')]
    counts['forms'] = '/'.join(str(forms.count(form)) for form in ('never', 'stay', 'direct', 'general'))
    return counts


COUNTED = ('points', 'values', 'edges', 'forms')

TEXTS = ['app.oil', 'app.code']

COMMANDS = {'build': [*TEXTS, 'app.image'], 'show': TEXTS, 'report': TEXTS, 'certify': [*TEXTS, 'app.image', 'app.table'],
            'check': ['app.image', 'app.table']}
"""The commands of the first table, with their words."""

PLAYS = {'replay': ['app.image', MODE, 'app.events'], 'trace': [*TEXTS, MODE, 'app.events'], 'record': ['app.image', MODE, 'app.events'],
         'watch': [*TEXTS, 'record.out']}
"""Those that go through events or points."""


class Bench:
    """What all tables share: the program, how long one command may take, and how often it runs."""

    def __init__(self, words, folder):
        self.program, self.limit, self.times, self.folder = os.path.abspath(words.program), words.limit, words.times, folder

    def least(self, name, words, at):
        """The shortest of some runs of a command, whose output goes to a file of its name; of a long command one run."""
        folder, runs = os.path.join(self.folder, at), []
        while len(runs) < self.times and all(one.status is not None and one.seconds < SHORT for one in runs):
            runs.append(run([self.program, name] + words, folder, name + '.out', self.limit))
        return min(runs, key=lambda one: (one.status is None, one.seconds))

    def checksum(self):
        """How long md5sum takes for 100 MB, to compare machines by."""
        with open(os.path.join(self.folder, 'zeros'), 'wb') as file:
            file.truncate(CHECKED_BYTES)
        return min(run(['md5sum', 'zeros'], self.folder, 'md5sum.out', 600).seconds for _ in range(max(3, self.times)))

    def measured(self, load):
        """What was measured, when and where; and how busy the machine was before and is now."""
        version = given.contents(os.path.join(ROOT, 'VERSION')).strip()
        with open(self.program, 'rb') as file:
            checksum = hashlib.sha256(file.read()).hexdigest()
        told = ('osekfit %s (SHA-256 %s..), on %s: %d processors (%s, %s), %s. The machine had a load of %.1f at the begin and %.1f at the end. '
                '`md5sum` of 100 MB took %.2f s there.' % (
                    version, checksum[:16], time.strftime('%-d %B %Y'), os.cpu_count(), processor_name(), platform.machine(), system_name(),
                    load, os.getloadavg()[0], self.checksum()))
        return textwrap.fill(told, COLUMNS) + '\n'


def processor_name():
    """What the system says of its processors."""
    with open('/proc/cpuinfo', encoding='utf-8', errors='replace') as file:
        names = [line.partition(':')[2].strip() for line in file if line.startswith('model name')]
    return names[0] if names else 'of no name'


def system_name():
    try:
        with open('/etc/os-release', encoding='utf-8') as file:
            fields = dict(line.rstrip('\n').partition('=')[::2] for line in file)
    except OSError:
        fields = {}
    return fields.get('PRETTY_NAME', platform.system()).strip('"')


TOO_LARGE, NOT_THERE = 13, 5
"""The statuses of certify where the table would be over 16 MiB, and of check where there is none."""


def told_seconds(one):
    if one.status != 0:
        return {None: 'stopped', TOO_LARGE: 'too large', NOT_THERE: 'no table'}.get(one.status, 'status %s' % one.status)
    return '%.*f' % (3 if one.seconds < 1 else 1, one.seconds)


def told_megabytes(*runs):
    return '%.1f' % max(one.megabytes for one in runs)


def samples_of(names, seed):
    """The applications that are named: examples, numbers of tasks with an n where routines nest, and the line."""
    for name in (name for name in names.split(',') if name):
        yield line_sample() if name == LINE else made_sample(name, seed) if name.rstrip('n').isdigit() else example_sample(name, seed)


def line_sample():
    """An application whose line of activations is full, of tasks of one priority."""
    def write(folder, events):
        make_worst.write_texts(*make_worst.full_line(), folder)
        with open(os.path.join(folder, 'app.events'), 'w', encoding='ascii', newline='\n') as file:
            file.writelines(event + '\n' for event in make_worst.full_line_events(events))
    return Sample('%d tasks of one priority, of %d activations each' % (make_worst.LINED, make_worst.FILLED), write)


def made_sample(part, seed):
    tasks, nests = int(part.rstrip('n')), part.endswith('n')
    size = make_app.usual_size(tasks)
    size = size._replace(isrs=NESTING) if nests else size
    name = '%d tasks, %d nesting routines' % (tasks, NESTING) if nests else '%d tasks' % tasks
    return Sample(name, lambda folder, events: make_app.write_app(size, seed, events, folder, nests))


def example_sample(name, seed):
    def write(folder, events):
        os.makedirs(folder, exist_ok=True)
        texts = [os.path.join(ROOT, 'examples', name, name + ending) for ending in ('.oil', '.code')]
        for text, copy in zip(texts, TEXTS):
            shutil.copy(text, os.path.join(folder, copy))
        system, draw = oil.system_of(given.contents(texts[0]), texts[0]), random.Random(seed)
        sources = ['irq ' + isr.name for isr in system.isrs.values() if isr.category == 2] + ['tick ' + counter for counter in system.counters]
        with open(os.path.join(folder, 'app.events'), 'w', encoding='ascii', newline='\n') as file:
            file.writelines((draw.choice(sources) if sources and draw.random() < 0.2 else 'run %d' % draw.randrange(2)) + '\n' for _ in range(events))
    return Sample('`examples/%s`' % name, write)


def by_size(bench, words):
    """The commands, by the size of an application."""
    yield ['application', 'points', 'values', 'edges', 'never/stay/direct/general'] + [name + ' s' for name in COMMANDS] + ['MB']
    for number, sample in enumerate(samples_of(words.apps, words.seed)):
        at = os.path.join(bench.folder, 'app%d' % number)
        sample.write(at, words.events)
        runs = [bench.least(name, COMMANDS[name], at) for name in COMMANDS]
        counts = counts_of(at)
        yield [sample.name] + [counts.get(name, '') for name in COUNTED] + \
            [told_seconds(one) for one in runs] + [told_megabytes(*runs)]


def by_events(bench, words):
    """Millions of events or points a second, over the applications of the first table and some others."""
    yield ['application'] + ['`%s`' % name for name in PLAYS] + ['bytes a line of the trace', 'MB']
    for number, sample in enumerate(samples_of(words.apps + ',' + words.plays, words.seed)):
        at = os.path.join(bench.folder, 'app%d' % number)
        if not os.path.exists(at):
            sample.write(at, words.events)
            run([bench.program, 'build', *COMMANDS['build']], at, 'build.out', bench.limit)
        runs = [bench.least(name, PLAYS[name], at) for name in PLAYS]
        length = os.path.getsize(os.path.join(at, 'replay.out')) // (words.events + 1)
        yield [sample.name] + [rate(one, words.events) for one in runs] + [str(length), told_megabytes(*runs)]


def rate(one, events):
    return '%.1f' % (events / max(one.seconds, 0.001) / 1e6) if one.status == 0 else told_seconds(one)


def by_stacks(bench, words):
    """The commands, by resources and activations."""
    yield ['resources', 'taken in', 'tasks', 'calls', 'ACTIVATION', 'bytes of text', 'values'] + [name + ' s' for name in COMMANDS] + ['MB']
    for number, (size, is_nested) in enumerate(stack_sizes(words.stacks)):
        at = os.path.join(bench.folder, 'stacks%d' % number)
        names = make_stacks.write_app(size, at, is_nested)
        runs = [bench.least(name, COMMANDS[name], at) for name in COMMANDS]
        yield [str(size.resources), 'one order' if is_nested else 'any order', str(size.tasks), str(size.activations), str(size.queued),
               format(sum(map(os.path.getsize, names)), ','), counts_of(at).get('values', ''), *map(told_seconds, runs), told_megabytes(*runs)]


def stack_sizes(text):
    """The sizes that the option names, and whether each takes its resources in one order; a number that is left out is 1 task, no call or 1
    activation."""
    for part in (part for part in text.split(',') if part):
        size = [int(number) for number in part.rstrip('n').split('x')]
        yield make_stacks.Size(*(size + [1, 0, 1][len(size) - 1:])), part.endswith('n')


def by_worst(bench, words):
    """`show` of applications on which the analysis takes long."""
    yield ['application', '`bench/make_worst.py`', 'bytes of text', 'values', 'show s', 'MB']
    for part in (part for part in words.worst.split(',') if part):
        family, *numbers = part.split(':')
        at, numbers = os.path.join(bench.folder, 'worst'), [int(number) for number in numbers]
        size = make_worst.write_app(family, numbers, at)
        shown = bench.least('show', TEXTS, at)
        counts = counts_of(at) if shown.status == 0 else {}
        yield [make_worst.told(family, numbers), ' '.join(map(str, [family] + numbers)), format(size, ','), counts.get('values', ''),
               told_seconds(shown), told_megabytes(shown)]


COLUMNS = 110
"""How wide a line of a page is at most."""

WORST = ['stacks:1:5:1:8:60', 'stacks:1:7:1:8:60', 'stacks:1:5:60:8:30', 'stacks:14:6:1:8:40', 'activations:16:16:255', 'waits:400:400:32',
         'routine_waits:500:8:50', 'alarm_waits:900:16', 'routines:8:120']
"""What is measured of the families of make_worst.py."""

TABLES = {'size': by_size, 'events': by_events, 'stacks': by_stacks, 'worst': by_worst}
"""The tables, by the names that their marks have in a page."""


def told(rows):
    """The rows of a table, each told on standard error as soon as it is there."""
    for row in rows:
        sys.stderr.write(' | '.join(row) + '\n')
        yield row


def shown(rows):
    """A table as a page has it."""
    rows = list(told(rows))
    return '\n'.join('| %s |' % ' | '.join(cells) for cells in [rows[0], ['---'] * len(rows[0])] + rows[1:]) + '\n'


MEASURED = 'measured'
"""The mark of what was measured, when and where."""


def marked_page(name):
    """The text of a page that has the marks of all tables."""
    page = given.contents(name)
    for mark in [MEASURED, *TABLES]:
        with_table(page, mark, '')
    return page


def arguments():
    parser = given.Parser(__doc__)
    parser.add_argument('program', metavar='PROGRAM', help='the built osekfit')
    parser.add_argument('--apps', default='engine,2,4,8,12,16,8n,16n', help='examples, and numbers of tasks, n where routines nest; parted by commas')
    parser.add_argument('--plays', default=LINE, help='the same for events alone; and %s, whose line of activations is full' % LINE)
    parser.add_argument('--stacks', default='7x1,8x1,5x4x72,6x8x100,8x1x2x255n,1x16x8x255',
                        help='resources x tasks x calls x activations, n where resources are taken in one order; parted by commas')
    parser.add_argument('--worst', default=','.join(WORST), help='families of make_worst.py with their numbers; parted by commas')
    parser.add_argument('--events', type=int, default=1000000, metavar='N', help='how many events are played')
    parser.add_argument('--seed', type=int, default=1)
    parser.add_argument('--times', type=int, default=3, metavar='N', help='how often each command runs; the shortest counts')
    parser.add_argument('--limit', type=float, default=600, metavar='SECONDS', help='how long one command may take')
    parser.add_argument('--page', metavar='FILE', help='the page in which the tables are put')
    return parser.parse_args()


def main():
    words = arguments()
    page = marked_page(words.page) if words.page else None
    folder, load = tempfile.mkdtemp(prefix='osekfit-bench-'), os.getloadavg()[0]
    try:
        bench = Bench(words, folder)
        tables = {name: shown(rows(bench, words)) for name, rows in TABLES.items()}
        tables = {MEASURED: bench.measured(load), **tables}
    finally:
        shutil.rmtree(folder)
    for name, text in tables.items():
        page = with_table(page, name, text) if page is not None else print(text)
    if page is not None:
        with open(words.page, 'w', encoding='utf-8', newline='\n') as file:
            file.write(page)


if __name__ == '__main__':
    given.run(main)
