#!/usr/bin/env python3
"""Says why a call site has its form: what each task may be doing there, with which priority, and for each outcome of the site the shortest
run that has it.

    tools/why.py a.oil a.code b12
    tools/why.py --show a.show --certificate a.image a.table a.oil a.code b12        by what osekfit printed and stored
    tools/why.py --events DIR a.oil a.code b12        stores the runs as event texts for `osekfit replay`, as DIR/b12-1.events and so on

What may be is told by the least table of the model in model.py, which is for small applications. Where it is too large, a built osekfit is asked
that --program names, or that is found: its certificate has the table. Without one runs alone are looked for. The table keeps no relation between
two tasks. So it may have two outcomes where runs have one: this is said too, for certain where all states of the application were looked at.
And it may have values that no run has by what the standard guarantees: these stand apart, with the law of docs/GUARANTEES.md that says so.
"""
import os
import re

from lib import opened
from lib.certified import table_of
from lib.given import Parser, Wrong, contents, run
from lib.guarantees import Guarantees
from lib.least_table import MOST_ASKED, Analysis, form
from lib.model_trace import events_of, line, play
from lib.points import block_of, shown_point
from lib.printed import certificate_table, most_asked, outcomes_of, printed
from lib.site_runs import Search
from lib.states import KEEP
from lib.table_bytes import HELD, OUT
from lib.table_words import Wording
from lib.texts import add_texts, application


class Site:
    """A call site of an application, and what its table says of it, where the table isn't too large."""

    def __init__(self, app, block, table=None, admitted=None):
        self.app, self.block, self.table, self.admitted = app, block, table, admitted
        self.owner = app.blocks[block].owner

    def heading(self, code_name):
        block = self.app.blocks[self.block]
        what = 'the end of %s' % self.owner.name if block.word == 'end' else '%s of %s' % (block.text, self.owner.name)
        known = 'its table is too large for the model' if self.admitted is None else form(self.app, self.admitted)
        return 'b%d, %s%s: %s' % (self.block, '%s:%d: ' % (code_name, block.line) if block.line else '', what, known)

    def said(self, outcome):
        """An outcome in words."""
        if outcome == KEEP:
            return '%s goes on' % self.owner.name if self.owner.kind == 'TASK' else 'the routine returns'
        return 'the processor becomes idle' if outcome.task is None else '%s is dispatched' % self.app.tasks[outcome.task].name

    def table_lines(self):
        """What each task may be doing at the site's points, those of the highest priority first, and the routines that may have begun."""
        wording, guarantees, left = Wording(self.app), Guarantees(self.app), []
        for point in sorted(p for p in self.table if block_of(p) == self.block):
            yield 'at %s' % shown_point(self.app, point)
            parted = guarantees.parted(point, self.table[point])
            left.append(parted.left)
            for part, name in self.parts(self.table[point]):
                yield '  %s: %s' % (name, wording.part(point, part, parted.left[part]) or 'nothing that a run has')
                yield from ('    in no run, by %s: %s' % (law, wording.part(point, part, values)) for law, values in parted.gone[part].items())
        yield from self.ceiling_lines(left)

    def parts(self, sets):
        """The numbers of what is told of a point, each with its name: the tasks, and the routines beside the one whose site it is."""
        for t in sorted(range(len(self.app.tasks)), key=lambda t: -self.app.tasks[t].priority):
            task = self.app.tasks[t]
            yield t, '%s, priority %d%s' % (task.name, task.priority, '' if task.is_full else ', not preemptable')
        first = len(sets) - len(self.app.sources)
        for part, source in list(enumerate(self.app.sources, first))[::-1] if opened.has(opened.NESTED) else []:
            if list(sets[part]) != [(OUT,)] and source.name != self.owner.name:
                yield part, '%s%s, priority %d' % (source.mark, source.name, source.priority)

    def ceiling_lines(self, points):
        """What resources that are held here do to a priority."""
        found = set()
        for sets in points:
            for t, values in enumerate(sets[:len(self.app.tasks)]):
                found.update(r for fields in values for r in fields[HELD:])
                found.update([self.app.internal[t]] if any(fields[3:4] == (1,) for fields in values) else [])
        for resource in (self.app.resources[r] for r in sorted(found)):
            if resource.ceiling:
                yield 'who holds %s is just above priority %d' % (resource.name, resource.ceiling // 2)


def site_of_model(app, block, most_asked=MOST_ASKED):
    """A site by the least table of the model, without a table where that is too large."""
    analysis = Analysis(app).solve(most_asked)
    return Site(app, block, table_of(analysis), analysis.shown[block]) if analysis else Site(app, block)


def site_of(app, block, words):
    """A site by what osekfit printed and stored, where that is given; else by the model, or by a built osekfit where that is named, or the model is
    too slow and it is found."""
    if words.show or words.certificate:
        admitted = outcomes_of(contents(words.show), app, block, words.show) if words.show else None
        return Site(app, block, certificate_table(*words.certificate) if words.certificate else None, admitted)
    found = Site(app, block) if words.program else site_of_model(app, block, most_asked())
    said = printed(words.program, words.oil, words.code) if found.admitted is None else None
    return Site(app, block, said.table, outcomes_of(said.show, app, block)) if said else found


def searched(site, most):
    """The search for runs to each outcome that the table admits, or to two outcomes where there is no table."""
    search = Search(site.app, site.block)
    search.look(lambda found: len(found) > 1 if site.admitted is None else site.admitted <= found.keys(), most)
    return search


def outcome_order(outcome):
    """The order in which outcomes are told: the caller goes on, idle, then tasks in order of declaration."""
    return -2 if outcome == KEEP else -1 if outcome.task is None else outcome.task


def run_lines(site, search, outcome):
    """The run to an outcome: its events, and the line of the trace that shows it."""
    found = search.run_to(outcome)
    events = [event for event, count in found.events for _ in range(count)]
    step = list(play(site.app, found.mode, events_of('\n'.join(events))))[-1][0]
    yield '%s: in %s by %s' % (site.said(outcome), found.mode, ', '.join(shortened(events)))
    yield '  %s' % line(site.app, len(events), step)


def shortened(events):
    """Events as a script for events.py has them: several of one in one."""
    found = []
    for event in events:
        if found and found[-1][0] == event:
            found[-1][1] += 1
        else:
            found.append([event, 1])
    return [event if count == 1 else '%s * %d' % (event, count) for event, count in found]


def missing_lines(site, search):
    """What the table admits and no run showed."""
    if site.admitted == set():
        yield 'no state of the table stands here'
    for outcome in sorted((site.admitted or set()) - set(search.found), key=outcome_order):
        told = 'none of the first %d states shows it' if search.waiting else 'no run does it (all %d states were looked at)'
        yield '%s: the table admits it, but %s' % (site.said(outcome), told % len(search.came))


def lines_of(site, search, code_name):
    yield site.heading(code_name)
    if site.table:
        yield from site.table_lines()
    for outcome in sorted(search.found, key=outcome_order):
        yield from run_lines(site, search, outcome)
    yield from missing_lines(site, search)
    if site.admitted is None and len(search.found) < 2:
        yield 'none of the first %d states shows %s' % (len(search.came), 'another outcome' if search.found else 'the site')


def stored(site, search, folder):
    """Stores the runs as event texts; their names."""
    for number, outcome in enumerate(sorted(search.found, key=outcome_order), 1):
        name = os.path.join(folder, 'b%d-%d.events' % (site.block, number))
        found = search.run_to(outcome)
        with open(name, 'w', encoding='ascii') as file:
            file.write('# b%d: %s, in %s\n' % (site.block, site.said(outcome), found.mode))
            file.writelines('%s\n' % event * count for event, count in found.events)
        yield name


def site_block(app, text):
    """The number of the call site that is named."""
    match = re.fullmatch(r'b(\d+)(/.*)?', text)
    block = int(match.group(1)) if match else None
    if block not in app.sites():
        raise Wrong('%s is no call site: these are %s' % (text, ', '.join('b%d' % site for site in app.sites())))
    return block


def arguments():
    parser = Parser(__doc__)
    add_texts(parser)
    parser.add_argument('site', metavar='bN', help='the block of a call site, as `osekfit show` has it')
    parser.add_argument('--events', metavar='DIR', help='where the runs are stored')
    parser.add_argument('--show', metavar='FILE', help='what `osekfit show` printed, in place of the model')
    parser.add_argument('--certificate', nargs=2, metavar=('IMAGE', 'TABLE'), help='what `osekfit certify` stored, in place of the model')
    parser.add_argument('--program', metavar='PROGRAM', help='a built osekfit, whose certificate is read in place of the model')
    parser.add_argument('--most', type=int, default=100000, metavar='N', help='how many states are looked at for runs')
    return parser.parse_args()


def main():
    words = arguments()
    app = application(words)
    site = site_of(app, site_block(app, words.site), words)
    search = searched(site, words.most)
    for text in lines_of(site, search, words.code):
        print(text)
    for name in stored(site, search, words.events) if words.events else []:
        print(name)


if __name__ == '__main__':
    run(main)
