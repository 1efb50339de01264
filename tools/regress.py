#!/usr/bin/env python3
"""Runs applications and compares what they do with what was written down.

An application is a folder with one .oil file and one .code file. Each .events file there is a run, whose trace is to be the .trace file of
the same name; `# mode: NAME` in its first line says in which mode (OSDEFAULTAPPMODE else). A .show file of the OIL file's name is to be
what `show` prints, a .report file what `report` prints. Of each application `build` has to accept the texts; each run is played by `replay` of
the image and by `trace`, and its record has to be quiet, with a point for each line of the trace. An application is left out where a file
`later` says that it needs a part of the language which the program doesn't have yet.

    tools/regress.py examples
    tools/regress.py --junit report.xml --program crates/osekfit/out/osekfit examples
    tools/regress.py --write my_apps                  writes the .trace, .show and .report files that are missing

The status is 0 where all is as written, and 1 else.
"""
import glob
import os
import subprocess
import sys
import tempfile
import time
from collections import namedtuple
from xml.sax.saxutils import escape, quoteattr

from lib import opened, program
from lib.given import Parser, Wrong, contents, run
from lib.oil import DEFAULT_MODE

Case = namedtuple('Case', 'application name seconds fault')
"""A case: what was run, and what is wrong with it, or None."""

SECONDS = 600
"""How long one command may take."""


def only(folder, ending):
    """The one file of a folder with an ending."""
    found = glob.glob(os.path.join(glob.escape(folder), '*' + ending))
    if len(found) != 1:
        raise Wrong('%s: one %s file is wanted, not %d' % (folder, ending, len(found)))
    return found[0]


def applications(folder):
    """The folders at or below this one that have an OIL file and task code, in order."""
    if not os.path.isdir(folder):
        raise Wrong('%s: no folder' % folder)
    found = [at for at, _, names in os.walk(folder) if {'.oil', '.code'} <= {os.path.splitext(n)[1] for n in names} and opened.is_ready(at)]
    if not found:
        raise Wrong('%s: no application' % folder)
    return sorted(found)


def mode_of(events):
    """The mode that an event text names in its first line."""
    first = (contents(events).splitlines() or [''])[0]
    name, _, mode = first.partition(':')
    return mode.strip() if name.replace(' ', '') == '#mode' else DEFAULT_MODE


class Tester:
    def __init__(self, osekfit, writes):
        self.osekfit, self.writes, self.cases = osekfit, writes, []

    def answer(self, words):
        """What a command prints, its refusal behind it."""
        try:
            done = subprocess.run([self.osekfit] + words, stdin=subprocess.DEVNULL, stdout=subprocess.PIPE, stderr=subprocess.PIPE,
                                  timeout=SECONDS)
        except subprocess.TimeoutExpired:
            return 'no end within %d s\n' % SECONDS
        refusal = '' if done.returncode == 0 else 'status %d %s\n' % (done.returncode, done.stderr.decode('utf-8', 'replace'))
        return done.stdout.decode('utf-8', 'surrogateescape') + refusal

    def case(self, application, name, words, expected):
        """Runs a command and compares what it prints with a file, or, where there is none, with nothing."""
        begin = time.monotonic()
        got = self.answer(words)
        if expected and not os.path.exists(expected) and self.writes and 'status ' not in got[-60:]:
            with open(expected, 'w', encoding='utf-8', errors='surrogateescape', newline='') as file:
                file.write(got)
            sys.stdout.write('%s is written\n' % expected)
        if expected and not os.path.exists(expected):
            fault = '%s is missing' % expected
        else:
            fault = difference(contents(expected) if expected else '', got)
        self.cases.append(Case(application, name, time.monotonic() - begin, fault))

    def test(self, folder, scratch):
        """The cases of one application."""
        texts, image = [only(folder, '.oil'), only(folder, '.code')], os.path.join(scratch, 'image')
        self.case(folder, 'build', ['build'] + texts + [image], None)
        for command in ('show', 'report'):
            told = '%s.%s' % (os.path.splitext(texts[0])[0], command)
            if os.path.exists(told) or self.writes:
                self.case(folder, command, [command] + texts, told)
        for events in sorted(glob.glob(os.path.join(glob.escape(folder), '*.events'))):
            stem, mode = os.path.splitext(events)[0], mode_of(events)
            self.case(folder, 'replay ' + os.path.basename(stem), ['replay', image, mode, events], stem + '.trace')
            self.case(folder, 'trace ' + os.path.basename(stem), ['trace'] + texts + [mode, events], stem + '.trace')
            self.watch(folder, texts, ['record', image, mode, events], stem + '.trace')

    def watch(self, folder, texts, words, trace):
        """The case of a run's record, which stands beside the image."""
        begin, record = time.monotonic(), words[1] + '.record'
        with open(record, 'w', encoding='utf-8', errors='surrogateescape', newline='') as file:
            file.write(self.answer(words))
        due = 'quiet %d\n' % contents(trace).count('\n') if os.path.exists(trace) else None
        fault = difference(due, self.answer(['watch'] + texts + [record])) if due else '%s is missing' % trace
        name = 'watch ' + os.path.splitext(os.path.basename(trace))[0]
        self.cases.append(Case(folder, name, time.monotonic() - begin, fault))


def difference(expected, got):
    """Where two texts first differ, or None."""
    if expected == got:
        return None
    pairs = zip(expected.splitlines() + [None] * got.count('\n'), got.splitlines() + [None] * expected.count('\n'))
    for number, (one, other) in enumerate(pairs, 1):
        if one != other:
            return 'line %d: wanted %s, got %s' % (number, told(one), told(other))
    return 'the ends of lines differ'


def told(line):
    return 'no line' if line is None else repr(line[:200])


def junit(cases):
    """The cases as JUnit's XML."""
    failed = sum(case.fault is not None for case in cases)
    lines = ['<?xml version="1.0" encoding="UTF-8"?>',
             '<testsuite name="osekfit" tests="%d" failures="%d" time="%.3f">' % (len(cases), failed, sum(c.seconds for c in cases))]
    for case in cases:
        head = '<testcase classname=%s name=%s time="%.3f"' % (quoteattr(case.application), quoteattr(case.name), case.seconds)
        lines.append(head + ('/>' if case.fault is None else '><failure>%s</failure></testcase>' % escape(case.fault)))
    return '\n'.join(lines + ['</testsuite>', ''])


def arguments():
    parser = Parser(__doc__)
    parser.add_argument('folder', metavar='DIR')
    parser.add_argument('--program', metavar='FILE', help='the built osekfit')
    parser.add_argument('--junit', metavar='FILE', help='where a report for build servers is written')
    parser.add_argument('--write', action='store_true', help='writes files of expected texts that are missing')
    return parser.parse_args()


def main():
    words = arguments()
    tester = Tester(program.found(words.program), words.write)
    for folder in applications(words.folder):
        with tempfile.TemporaryDirectory(prefix='osekfit-regress-') as scratch:
            tester.test(folder, scratch)
    if words.junit:
        with open(words.junit, 'w', encoding='utf-8') as file:
            file.write(junit(tester.cases))
    for case in tester.cases:
        if case.fault is not None:
            sys.stdout.write('%s: %s: %s\n' % (case.application, case.name, case.fault))
    failed = sum(case.fault is not None for case in tester.cases)
    sys.stdout.write('%d passed, %d failed\n' % (len(tester.cases) - failed, failed))
    return 1 if failed else 0


if __name__ == '__main__':
    run(main)
