#!/usr/bin/env python3
"""Makes a page of a run: one file of HTML that needs no network, to be stepped through in a browser.

The page shows the timeline of the run, and of each event the line of the trace, the states, the statement with its form, and why who has the
processor has it and the others don't. Its other panes have the call sites, the table's states at a point, the report, the graph's edges that were
taken and not taken, and records. It works by keyboard; `?` there tells the keys.

    tools/page.py a.oil a.code a.events > run.html
    tools/page.py --mode Sleep --program osekfit a.oil a.code a.events > run.html
    tools/page.py --record bench.record a.oil a.code a.events > run.html

Forms, report, table and graph are those that osekfit tells, and the trace is compared with its own. Where it isn't found they are those of the
model in model.py, which is for small applications. --trace compares with a trace that osekfit has printed.
"""
import os
import sys

from lib import analysis_told
from lib.given import Parser, Wrong, contents, run
from lib.least_table import MOST_ASKED
from lib.model_trace import events_of, play
from lib.oil import DEFAULT_MODE, system_of
from lib.program import found, traced
from lib.run_columns import Run
from lib.run_page import page_of, records_data
from lib.texts import add_texts, application


def played(app, words):
    """The columns of the run."""
    kept, before = Run(app, os.path.basename(words.code)), None
    for step, said, _ in play(app, words.mode, events_of(contents(words.events), words.events), words.events):
        kept.take(before, step, said)
        before = step.state
    return kept


def compare(lines, given, name):
    """Stops where a given trace isn't that of the run."""
    for number, (due, is_) in enumerate(zip(lines, given)):
        if due != is_:
            raise Wrong('%s:%d: the trace is not that of these texts: %s is due' % (name, number + 1, due))
    if len(lines) != len(given):
        raise Wrong('%s: the trace has %d lines, and %d are due' % (name, len(given), len(lines)))


def judge_trace(words, program, kept):
    """Compares the trace with that of a file, and with what the program prints."""
    if words.trace:
        compare(list(kept.lines()), contents(words.trace).splitlines(), words.trace)
    if program:
        due = traced(program, ['trace', words.oil, words.code, words.mode], contents(words.events))
        compare(list(kept.lines()), due, 'osekfit trace')


def program_of(words):
    """The program that is named, or that is found; None where there is none."""
    try:
        return found(words.program)
    except Wrong:
        if words.program:
            raise
        return None


def arguments():
    parser = Parser(__doc__)
    add_texts(parser)
    parser.add_argument('events', metavar='EVENTS')
    parser.add_argument('--mode', default=DEFAULT_MODE, metavar='M')
    parser.add_argument('--program', metavar='FILE', help='osekfit, where it is not on the PATH')
    parser.add_argument('--trace', metavar='FILE', help='a trace that osekfit printed, which is compared')
    parser.add_argument('--record', action='append', default=[], metavar='FILE', help='what `osekfit record` printed, or a bench logged')
    parser.add_argument('--most', type=int, default=MOST_ASKED, metavar='N', help='how many states the model asks at most (%(default)s)')
    parser.add_argument('--title', metavar='TEXT', help="the page's heading, in place of the name of the task code")
    return parser.parse_args()


def main():
    words = arguments()
    app = application(words)
    program = program_of(words)
    run_ = played(app, words)
    judge_trace(words, program, run_)
    known = analysis_told.known_by_program(program, words) if program else analysis_told.known_by_model(app, words.most)
    records = records_data(words.record, known.show)
    code, system = contents(words.code), system_of(contents(words.oil), words.oil)
    sys.stdout.write(page_of(words, run_, known, (code, system), records))


if __name__ == '__main__':
    run(main)
