#!/usr/bin/env python3
"""Compares two built programs: `show` of applications by both in turn, in one run, and prints a table. Both have to print the same.

Times are user and system time, the least of some runs, as times of what `md5sum` of 100 MB takes; with --instructions the instructions are counted
too, by `valgrind --tool=callgrind`, where neither takes more than half a second: that takes some fifty times as long. An application is an example,
a number of tasks with an n where routines nest, resources x tasks x calls x activations, or a family of make_worst.py with its numbers.

    bench/compare.py BEFORE NOW
    bench/compare.py --instructions --samples engine,16,16n,5x4x72,waits:100:100:32 BEFORE NOW
    bench/compare.py --page docs/PERFORMANCE.md BEFORE NOW
"""
import argparse
import os
import re
import shutil
import subprocess
import sys
import tempfile

import make_stacks
import make_worst
from run import TEXTS, Bench, run, samples_of, shown, stack_sizes
from lib import given
from lib.pages import with_table

SAMPLES = ['16', '8n', '16n', '7x1', '6x8x100', '8x1x2x255n', '1x16x8x255', 'stacks:1:5:1:8:60', 'stacks:1:7:1:8:60', 'stacks:1:5:60:8:30',
           'nested_stacks:8:4', 'levels:16:8:8', 'routines:8:120', 'nested_routines:8:100', 'waits:400:400:32', 'waits:500:1:32', 'routine_waits:500:8:50',
           'alarm_waits:900:16']
"""What is compared where nothing is named."""

COUNTED = 0.5
"""Instructions are counted where no run takes more than so many seconds."""

MARK = 'compared'
"""The mark of the table in a page."""


def many(count, word):
    return '1 %s' % word if count == 1 else '%d %ss' % (count, word)


def written(part, folder, seed):
    """Writes the texts of a sample, and tells what it is."""
    if ':' in part:
        family, *numbers = part.split(':')
        make_worst.write_app(family, [int(number) for number in numbers], folder)
        return make_worst.told(family, [int(number) for number in numbers])
    if 'x' in part:
        [(size, is_nested)] = stack_sizes(part)
        make_stacks.write_app(size, folder, is_nested)
        return '%s in %s order in %s, %s, ACTIVATION %d' % (many(size.resources, 'resource'), 'one' if is_nested else 'any', many(size.tasks, 'task'),
                                                            many(size.activations, 'call'), size.queued)
    [sample] = samples_of(part, seed)
    sample.write(folder, 0)
    return sample.name


def least(benches, folder):
    """The shortest run of `show` by each program, in turn; those of a long one run once."""
    runs = [[] for _ in benches]
    for _ in range(benches[0].times):
        for bench, done in zip(benches, runs):
            done.append(run([bench.program, 'show'] + TEXTS, os.path.join(bench.folder, folder), 'show%d.out' % benches.index(bench), bench.limit))
        if any(done[-1].status is None or done[-1].seconds > 2 for done in runs):
            break
    return [min(done, key=lambda one: (one.status is None, one.seconds)) for done in runs]


def instructions(program, folder):
    """Millions of instructions of `show`."""
    words = ['valgrind', '--tool=callgrind', '--callgrind-out-file=/dev/null', program, 'show'] + TEXTS
    ran = subprocess.run(words, cwd=folder, stdout=subprocess.DEVNULL, stderr=subprocess.PIPE, stdin=subprocess.DEVNULL, text=True, errors='replace')
    found = re.search(r'Collected : (\d+)', ran.stderr)
    if found is None:
        raise given.Wrong('valgrind counted nothing: %s' % ran.stderr[-200:])
    return int(found.group(1)) / 1e6


def told_times(times):
    return '%.0f' % times if times >= 100 else '%.3g' % times


def same(folder):
    """Whether both programs printed the same."""
    return len({given.contents(os.path.join(folder, 'show%d.out' % k)) for k in range(2)}) == 1


def compared(benches, words):
    """The rows of the table."""
    counted = ['before, million instructions', 'now'] if words.instructions else []
    yield ['application', 'before, times md5sum', 'now', 'before, MB', 'now'] + counted + ['printed']
    unit = benches[0].checksum()
    for number, part in enumerate(words.samples.split(',')):
        at = 'sample%d' % number
        folder = os.path.join(benches[0].folder, at)
        name = written(part, folder, words.seed)
        runs = least(benches, at)
        is_short = all(one.status == 0 and one.seconds < COUNTED for one in runs)
        counts = ['%.1f' % instructions(bench.program, folder) if is_short else '' for bench in benches] if words.instructions else []
        times = [told_times(one.seconds / unit) if one.status == 0 else 'stopped' for one in runs]
        yield [name, *times, *('%.1f' % one.megabytes for one in runs), *counts, 'the same' if same(folder) else 'something else']


def arguments():
    parser = given.Parser(__doc__)
    parser.add_argument('before', metavar='BEFORE', help='the built osekfit that the other one is compared with')
    parser.add_argument('now', metavar='NOW', help='the other one')
    parser.add_argument('--samples', default=','.join(SAMPLES), help='what is compared, parted by commas')
    parser.add_argument('--instructions', action='store_true', help='instructions too')
    parser.add_argument('--seed', type=int, default=1)
    parser.add_argument('--times', type=int, default=7, metavar='N', help='how often each runs; the shortest counts')
    parser.add_argument('--limit', type=float, default=600, metavar='SECONDS', help='how long one run may take')
    parser.add_argument('--page', metavar='FILE', help='the page in which the table is put')
    return parser.parse_args()


def main():
    words = arguments()
    page = given.contents(words.page) if words.page else None
    folder = tempfile.mkdtemp(prefix='osekfit-compare-')
    try:
        benches = [Bench(argparse.Namespace(program=program, limit=words.limit, times=words.times), folder) for program in (words.before, words.now)]
        table = shown(compared(benches, words))
    finally:
        shutil.rmtree(folder)
    if page is None:
        sys.stdout.write(table)
        return
    with open(words.page, 'w', encoding='utf-8', newline='\n') as file:
        file.write(with_table(page, MARK, table))


if __name__ == '__main__':
    given.run(main)
