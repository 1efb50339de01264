#!/usr/bin/env python3
"""Puts beside each line of the task code what is known of it; beside each line of a trace the source line and the statement that did it; or
says what event texts reached of an application.

    tools/annotate.py a.oil a.code                                         the task code, with forms, known statuses, `dead` and `free`
    tools/annotate.py --html a.oil a.code > a.html                         the same as a page
    tools/annotate.py --show a.show --info a.info --report a.report a.oil a.code         by what osekfit printed
    tools/annotate.py a.oil a.code a.events                                the trace, annotated
    tools/annotate.py --trace a.trace a.oil a.code a.events                the same of a trace that osekfit printed
    tools/annotate.py --coverage a.oil a.code a.events b.events            statements and choices that these reached
    tools/annotate.py --coverage --show a.show a.oil a.code a.events       with outcomes of sites and edges of `osekfit show`

Without what osekfit printed, the task code is annotated by the least table of the model in model.py, which is for small applications; where it
is too large, a built osekfit is asked that --program names, or that is found. Of a site the margin has its block, its form, and its known status
where one is known. Which statement did a line of a trace is told by that model, which plays the events too. A given trace has to be what the
model prints, and each edge that is taken has to be one of `show`: where not, this is told and the status is 2. With --least N the status of
--coverage is 1 where less than N percent of some row was reached.
"""
import os
import sys

from lib import covered, margin
from lib.given import Parser, Wrong, contents, run
from lib.model_trace import events_of, line, play
from lib.oil import DEFAULT_MODE
from lib.printed import most_asked, printed
from lib.reasons import told
from lib.texts import add_texts, application


def annotated(app, files):
    """The lines of the trace, each with what did it."""
    name = files.events[0]
    given = contents(files.trace).splitlines() if files.trace else None
    before, lines = None, []
    for number, (step, words, _) in enumerate(play(app, files.mode, events_of(contents(name), name), name)):
        text = line(app, number, step)
        if given is not None and number < len(given) and given[number] != text:
            raise Wrong('%s:%d: the trace is not that of these texts: %s is due' % (files.trace, number + 1, text))
        lines.append((text, told(app, before, step, words, files.code)))
        before = step.state
    if given is not None and len(given) != len(lines):
        raise Wrong('%s: the trace has %d lines, and %d are due' % (files.trace, len(given), len(lines)))
    return lines


def print_annotated(lines):
    width = min(100, max(len(text) for text, _ in lines))
    for text, what in lines:
        sys.stdout.write('%s  | %s\n' % (text.ljust(width), what))


def reached(app, files):
    """What the event texts reached together."""
    found = covered.Reached(app)
    for name in files.events:
        before = None
        for step, words, _ in play(app, files.mode, events_of(contents(name), name), name):
            if words is not None and words[0] == 'run':
                found.take(before, step, words[1])
            before = step.state
    return found


def print_coverage(rows, least):
    """Prints the rows in numbers, then what wasn't reached; the status."""
    is_low = False
    for row in rows:
        share = 100 * row.reached // row.all if row.all else 100
        sys.stdout.write('%-10s %4d of %4d  %3d %%\n' % (row.name, row.reached, row.all, share))
        is_low = is_low or share < least
    for row in rows:
        for text in row.missed:
            sys.stdout.write('not reached: %s\n' % text)
    return 1 if is_low else 0


def print_margin(app, files):
    """Prints the task code with its margin, as text or as a page."""
    texts = [contents(name) if name else None for name in (files.show, files.info, files.report)]
    facts = margin.facts_of_texts(*texts, names=[files.show]) if any(texts) else facts_without_texts(app, files)
    code, notes = contents(files.code).splitlines(), margin.notes_of(app, facts)
    if files.html:
        sys.stdout.write(margin.page(code, notes, os.path.basename(files.code)))
    else:
        sys.stdout.write(''.join(line + '\n' for line in margin.lines_of(code, notes)))


def facts_without_texts(app, files):
    """The facts of the model, or of a built osekfit where that is named, or the model is too slow and it is found."""
    found = None if files.program else margin.facts_of_model(app, most_asked())
    if found is None:
        said = printed(files.program, files.oil, files.code)
        if said is None:
            raise Wrong('the table is too large for the model: --program names an osekfit, or --show, --info and --report take what it printed')
        found = margin.facts_of_texts(said.show, said.info, said.report, names=[said.program])
    return found


def arguments():
    parser = Parser(__doc__)
    add_texts(parser)
    parser.add_argument('events', nargs='*', metavar='EVENTS')
    parser.add_argument('--mode', default=DEFAULT_MODE)
    parser.add_argument('--trace', metavar='FILE', help='the trace that osekfit printed, which is compared')
    parser.add_argument('--coverage', action='store_true', help='what was reached, in place of a trace')
    parser.add_argument('--show', metavar='FILE', help='the text of `osekfit show`: for the margin, or for outcomes and edges')
    parser.add_argument('--info', metavar='FILE', help='the text of `osekfit info`, for known statuses')
    parser.add_argument('--report', metavar='FILE', help='the text of `osekfit report`, for `dead` and `free`')
    parser.add_argument('--program', metavar='PROGRAM', help='a built osekfit, which is asked in place of the model')
    parser.add_argument('--html', action='store_true', help='the task code as a page')
    parser.add_argument('--least', type=int, default=0, metavar='N', help='the percentage of each row that has to be reached')
    return parser.parse_args()


def main():
    files = arguments()
    if not files.events and (files.coverage or files.trace):
        raise Wrong('--coverage and --trace need an event text')
    if not files.coverage and len(files.events) > 1:
        raise Wrong('one event text gives one trace; several go with --coverage')
    app = application(files)
    if not files.events:
        return print_margin(app, files)
    if not files.coverage:
        return print_annotated(annotated(app, files))
    show = contents(files.show) if files.show else None
    return print_coverage(covered.rows(app, reached(app, files), os.path.basename(files.code), show, files.show), files.least)


if __name__ == '__main__':
    run(main)
