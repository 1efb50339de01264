#!/usr/bin/env python3
"""Tries the wrong programs of crates/NAME/edits: the prover has to refuse each. The gate tries those of must-fail; these are tried when a contract changes.

Each crate is tried by `rt must-fail` in a copy of the repository below the system's temporary folder, where edits/ stands as must-fail/. A line an
edit says how it ended, and the last line is `N refused, M not`; the status is 0 where all were refused, else 1. docs/EDITS.md then has the
commit at which the crates were tried, as long as no crate differs from it.

    tools/edits.py --changed                      the crates whose contracts or definitions have changed since they were last tried
    tools/edits.py bit_words osek_io              these crates; all that have edits where none is named
    tools/edits.py --changed --plan               says which, and why, and tries none
    tools/edits.py --jobs 3 --libraries ../other  three at a time, over the libraries that another clone built of the same sources
"""
import os
import re
import shutil
import signal
import subprocess
import sys
import tempfile
import time
from collections import namedtuple

from lib.crates import LIBRARY, ROOT, Crates, copy_sources, link, made_by, stamp
from lib.edits_table import PAGE, History, Row, crates_with_edits, edits_of, fault_of, page_with, rows_of
from lib.given import Parser, Wrong, contents, run

SHOWN = 5
"""How many lines of what rt said are shown where it tried nothing."""

TOLD = re.compile(r'rt: must-fail (\w+)/([^:]+\.edit): (.*)')

Work = namedtuple('Work', 'crate copy process log')


def answers_of(crate, edits, log):
    """What rt said of each edit of a crate, by name, and whether it was refused."""
    told = {match.group(2): match.group(3) for match in map(TOLD.match, log.splitlines()) if match and match.group(1) == crate}
    last = ' / '.join(log.splitlines()[-SHOWN:])
    return {name: (told.get(name, '').startswith('refused'), told.get(name, 'NOT TRIED: ' + last)) for name in edits}


class Tries:
    """Crates that are tried, each in a copy of its own, so many at a time."""

    def __init__(self, root, libraries):
        self.crates, self.libraries = Crates(root), libraries
        self.room = tempfile.mkdtemp(prefix='osekfit-edits-')
        self.free, self.running = [], []

    def begin(self, crate):
        copy = self.free.pop() if self.free else self.new_copy()
        for below in self.crates.below[crate]:
            self.bring(below, copy)
        edits = os.path.join(copy, 'crates', crate, 'must-fail')
        os.makedirs(edits)
        for file in edits_of(copy, crate).values():
            shutil.copy(file, edits)
        log = os.path.join(self.room, crate + '.log')
        with open(log, 'wb') as out:
            process = subprocess.Popen(['rt', 'must-fail', crate], cwd=copy, stdin=subprocess.DEVNULL, stdout=out, stderr=out)
        self.running.append(Work(crate, copy, process, log))

    def new_copy(self):
        """A copy of the sources, without the edits that the gate tries."""
        copy = tempfile.mkdtemp(dir=self.room)
        copy_sources(self.crates.root, copy)
        for crate in self.crates.below:
            shutil.rmtree(os.path.join(copy, 'crates', crate, 'must-fail'), ignore_errors=True)
        return copy

    def bring(self, crate, copy):
        """Gives a copy a library, where one stands; rt takes it where it was built over the same sources."""
        here = made_by(copy, crate, LIBRARY)
        for place in [self.libraries, *self.free]:
            there = made_by(place, crate, LIBRARY)
            if stamp(here) is None and stamp(there) is not None:
                link(there, here)

    def ended(self):
        """The crates that have ended since, each with what rt said."""
        for work in [work for work in self.running if work.process.poll() is not None]:
            self.running.remove(work)
            shutil.rmtree(os.path.join(work.copy, 'crates', work.crate, 'must-fail'))
            self.free.append(work.copy)
            yield work.crate, contents(work.log)

    def close(self):
        for work in self.running:
            work.process.terminate()
        for work in self.running:
            work.process.wait()
        shutil.rmtree(self.room, ignore_errors=True)


def tried(names, words, note):
    """Tries the edits of crates, says how each ended, and notes each crate: how many were refused, and how many not."""
    tries, left, counts = Tries(ROOT, words.libraries), list(names), [0, 0]
    try:
        while left or tries.running:
            while left and len(tries.running) < max(1, words.jobs):
                tries.begin(left.pop(0))
            time.sleep(0.1)
            for crate, log in tries.ended():
                answers = answers_of(crate, edits_of(ROOT, crate), log)
                for name, (is_refused, text) in answers.items():
                    counts[not is_refused] += 1
                    sys.stdout.write('%s/%s: %s\n' % (crate, name, text))
                sys.stdout.flush()
                note(crate, len(answers), sum(is_refused for is_refused, _ in answers.values()))
    finally:
        tries.close()
    return counts


def faults_of(crate):
    """The edits of a crate that can't be applied, each with why."""
    for name, file in edits_of(ROOT, crate).items():
        fault = fault_of(file, os.path.join(ROOT, 'crates', crate))
        if fault:
            yield name, fault


def noted(crate, row, page_file):
    """Writes a crate's row into the table, and leaves those of crates out that have no edits any more."""
    page, there = contents(page_file), crates_with_edits(ROOT)
    rows = {name: row for name, row in {**rows_of(page), crate: row}.items() if name in there}
    with open(page_file, 'w', encoding='utf-8') as file:
        file.write(page_with(page, rows))


def chosen(words, history):
    """The crates that are to be tried, each with a reason."""
    there = crates_with_edits(ROOT)
    for name in words.crates:
        if name not in there:
            raise Wrong('%s has no edits' % name)
    if not words.changed:
        return {name: 'named' for name in words.crates or there}
    rows = rows_of(contents(os.path.join(ROOT, PAGE)))
    reasons = {name: history.reason(name, rows[name].commit if name in rows else None) for name in there}
    return {name: reason for name, reason in reasons.items() if reason}


def arguments():
    parser = Parser(__doc__)
    parser.add_argument('crates', nargs='*', metavar='NAME')
    parser.add_argument('--changed', action='store_true', help='those whose contracts, definitions or edits have changed')
    parser.add_argument('--plan', action='store_true', help='tries nothing')
    parser.add_argument('--jobs', type=int, default=1, metavar='N', help='how many crates at a time')
    parser.add_argument('--libraries', default=ROOT, metavar='FOLDER', help='a clone that has libraries; this one where none is named')
    return parser.parse_args()


def main():
    words, history = arguments(), History()
    if words.changed and words.crates:
        raise Wrong('--changed chooses the crates itself')
    names = chosen(words, history)
    if words.plan:
        sys.stdout.write(''.join('%s: %s\n' % pair for pair in names.items()))
        return 0
    faults = ['%s/%s: %s' % (name, edit, fault) for name in names for edit, fault in faults_of(name)]
    if faults:
        raise Wrong('no edit was tried, since some can not be applied:\n' + '\n'.join(faults))
    if shutil.which('rt') is None:
        raise Wrong('rt, the command of the Rattle kit, is not on the PATH')
    signal.signal(signal.SIGTERM, lambda *_: sys.exit(128 + signal.SIGTERM))
    commit, page = history.commit(), os.path.join(ROOT, PAGE)
    if commit is None:
        sys.stderr.write('edits.py: crates differ from the commit here, so %s stays as it is\n' % PAGE)
    refused, kept = tried(names, words, lambda crate, *counts: commit and noted(crate, Row(commit, *counts), page))
    sys.stdout.write('%d refused, %d not\n' % (refused, kept))
    return 1 if kept else 0


if __name__ == '__main__':
    run(main)
