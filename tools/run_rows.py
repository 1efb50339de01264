#!/usr/bin/env python3
"""Carries out the rows of crates/rows/data with a program, over files of the system. docs/ROWS.md says what a row is.

Runs whose calls are to fail, or to move one byte, are left out: they are of files in memory. Prints what isn't as a row says, and a last
line 'N rows hold, M don't, L runs left out'; the status is 0 where all hold.

    tools/run_rows.py crates/osekfit/out/osekfit
    tools/run_rows.py --row "activation preempts" crates/osekfit/out/osekfit
    tools/run_rows.py --file crates/rows/data/kernel.rows tools/model.py
"""
import os
import subprocess
import sys
import tempfile

from lib.crates import ROOT
from lib.given import Parser, Wrong, run
from lib.rows import DATA, Fault, Files, rows_of


def files_named():
    """The files of rows that the proved program is given."""
    with open(os.path.join(ROOT, 'crates', 'rows', 'args'), encoding='utf-8') as names:
        return [os.path.join(DATA, name.rstrip('\n')) for name in names]


class Program:
    """A program, and how many of its runs were left out."""

    def __init__(self, words):
        self.words = [os.path.abspath(word) if os.path.exists(word) else word for word in words]
        if self.words[0].endswith('.py'):
            self.words.insert(0, sys.executable)
        self.left_out = 0

    def __call__(self, words, where):
        done = subprocess.run(self.words + words, cwd=where, stdin=subprocess.DEVNULL, stdout=subprocess.PIPE, stderr=subprocess.PIPE)
        return done.returncode, done.stdout, done.stderr


def holds(row, program):
    """Carries out a row; tells what isn't so."""
    with tempfile.TemporaryDirectory(prefix='osekfit-row-') as where:
        try:
            for act in row.acts:
                act.carry_out(Files(where), program)
        except Fault as fault:
            print('%s:%d: %s: %s' % (os.path.relpath(row.path), fault.line, row.name, fault))
            return False
    return True


def main():
    parser = Parser(__doc__)
    parser.add_argument('--file', metavar='ROWS', action='append', help='a file of rows, in place of all')
    parser.add_argument('--row', metavar='TEXT', default='', help='only rows whose name has this text')
    parser.add_argument('program', nargs='+', metavar='PROGRAM', help='the program, and words that stand before those of the rows')
    given = parser.parse_args()
    program = Program(given.program)
    rows = [row for path in given.file or files_named() for row in rows_of(path) if given.row in row.name]
    if not rows:
        raise Wrong('no row is named so')
    held = sum(holds(row, program) for row in rows)
    print("%d rows hold, %d don't, %d runs left out" % (held, len(rows) - held, program.left_out))
    return 0 if held == len(rows) else 1


if __name__ == '__main__':
    run(main)
