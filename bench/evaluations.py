#!/usr/bin/env python3
"""Counts how often the analysis of an application evaluates a point, in a built osekfit.

The program doesn't print it, so gdb counts the calls of `exit_groups` in the function that makes the least table, and those of other
callers (each site's, for its form). Names are those of the program as LLVM builds it.

    bench/evaluations.py crates/osekfit/out/osekfit app.oil app.code          needs gdb and objdump
"""
import os
import re
import subprocess
import sys
import tempfile

sys.path.insert(0, os.path.join(os.path.dirname(os.path.dirname(os.path.abspath(__file__))), 'tools'))

from lib import given

TABLE, EXITS = 'commands::fitting::least_table', 'point_exits::exits::exit_groups'


def calls_in_table(program):
    """The places, from the program's begin on, at which the least table's function calls for the exits of a point."""
    told = subprocess.run(['objdump', '-d', '--no-show-raw-insn', program], capture_output=True, text=True, check=True).stdout
    body = re.search(r'^[0-9a-f]+ <%s>:\n(.*?)\n\n' % re.escape(TABLE), told, re.S | re.M)
    return re.findall(r'^ *([0-9a-f]+):\tcall .*<%s>' % re.escape(EXITS), body.group(1), re.M) if body else []


def counts(program, words):
    """How often each place was passed, and the function called."""
    places = ['*(0x555555554000+0x%s)' % place for place in calls_in_table(program)] + [EXITS]
    commands = ['set confirm off', 'starti']
    for number, place in enumerate(places, 1):
        commands += ['break %s' % place, 'ignore %d 2000000000' % number]
    commands += ['continue', 'info breakpoints']
    told = subprocess.run(['gdb', '-q', '-batch'] + [word for command in commands for word in ('-ex', command)] + ['--args', program] + words,
                          capture_output=True, text=True, check=True).stdout
    return [int(count) for count in re.findall(r'already hit (\d+) time', told)]


def main():
    parser = given.Parser(__doc__)
    parser.add_argument('program', metavar='PROGRAM')
    parser.add_argument('oil', metavar='OIL')
    parser.add_argument('code', metavar='CODE')
    words = parser.parse_args()
    with tempfile.TemporaryDirectory() as folder:
        found = counts(os.path.abspath(words.program), ['build', words.oil, words.code, os.path.join(folder, 'image')])
    if len(found) < 2:
        raise given.Wrong('%s: the calls were not found' % words.program)
    print('%d evaluations, %d calls for the exits of a point in all' % (sum(found[:-1]), found[-1]))


if __name__ == '__main__':
    given.run(main)
