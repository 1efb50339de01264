#!/usr/bin/env python3
"""Makes a record for `osekfit watch` of what a test bench logged: at which time the processor came to which block.

    tools/bench_log.py a.oil a.code a.csv > a.record                     a CSV with a line of names, among them `time` and `block`
    tools/bench_log.py --block CpuBlock a.oil a.code a.vcd > a.record    a value change dump with a vector of this name
    tools/bench_log.py --place 17 a.oil a.code a.csv                     when the point came of which `watch` says `alarm 17 ..`

A block is a number, or `b` and a number, or `idle` or `halt`; no value, or in a dump an unknown one (x, z), is no block yet. The log has blocks
alone: which task a routine interrupted is told by the block before it. So it has to have each block to which the processor came, in order; `watch`
lets a block pass that comes several times in a row. Before the first block of a log, and where a routine begins at idle, nobody is interrupted.
"""
import csv
import io
import re
import sys
from collections import namedtuple

from lib.given import Parser, Wrong, contents, run
from lib.texts import add_texts, application

Sample = namedtuple('Sample', 'time text line')
"""When the processor came somewhere, where, as the log has it, and the line of the log."""

Came = namedtuple('Came', 'time point')
"""When the processor came to a point, as it is shown."""

BLOCK = re.compile(r'b?(\d+)')


def csv_samples(text, block, clock, name):
    """The samples of a CSV, whose columns are parted by commas, semicolons or tabs."""
    head = text.partition('\n')[0]
    rows = csv.DictReader(io.StringIO(text, newline=''), delimiter=max(',;\t', key=head.count))
    columns = rows.fieldnames or []
    for column, word in ((block, '--block'), (clock, '--time')):
        if column not in columns:
            raise Wrong('%s:1: no column %s; there are: %s (%s NAME says which)' % (name, column, ', '.join(columns) or 'none', word))
    for row in rows:
        if (row[block] or '').strip():
            yield Sample((row[clock] or '').strip(), row[block].strip(), rows.line_num)


def vcd_samples(text, block, name):
    """The samples of a value change dump: the changes of one vector."""
    marks = {words[4]: words[3] for words in (line.split() for line in text.splitlines() if line.startswith('$var')) if len(words) > 4}
    mark = marks.get(block)
    if mark is None:
        raise Wrong('%s: no vector %s; there are: %s (--block NAME says which)' % (name, block, ', '.join(marks) or 'none'))
    time = '0'
    for number, line in enumerate(text.splitlines(), 1):
        words = line.split()
        if line.startswith('#'):
            time = line[1:].strip()
        elif len(words) == 2 and words[1] == mark and re.fullmatch('b[01]+', words[0]):
            yield Sample(time, str(int(words[0][1:], 2)), number)


class Points:
    """The points of samples, one after the other: what a routine interrupted is what had the processor before it."""

    def __init__(self, app, name):
        self.app, self.name, self.over = app, name, '-'

    def came(self, sample):
        """The point that a sample says."""
        if sample.text in ('idle', 'halt'):
            self.over = '-'
            return Came(sample.time, sample.text)
        match = BLOCK.fullmatch(sample.text)
        if not match or int(match.group(1)) >= len(self.app.blocks):
            raise Wrong('%s:%d: no block: %s' % (self.name, sample.line, sample.text[:40]))
        number = int(match.group(1))
        owner = self.app.blocks[number].owner
        if owner.kind == 'TASK':
            self.over = owner.name
            return Came(sample.time, 'b%d' % number)
        return Came(sample.time, 'b%d/%s' % (number, self.over))


def points_of(app, samples, name):
    points = Points(app, name)
    return [points.came(sample) for sample in samples]


def told_place(found, place, name):
    """When a point came, and what came before it."""
    if place >= len(found):
        raise Wrong('%s: there are %d points' % (name, len(found)))
    before = ', behind %s at %s' % (found[place - 1].point, found[place - 1].time) if place else ''
    return '%s: %s%s' % (found[place].time, found[place].point, before)


def arguments():
    parser = Parser(__doc__)
    add_texts(parser)
    parser.add_argument('log', metavar='LOG', help='a CSV, or a value change dump where its name ends with .vcd')
    parser.add_argument('--block', default='block', metavar='NAME', help='the column, or the vector, of the block')
    parser.add_argument('--time', default='time', metavar='NAME', help='the column of the time')
    parser.add_argument('--place', type=int, metavar='N', help='the time of one point, counted from 0, in place of a record')
    return parser.parse_args()


def main():
    words = arguments()
    app, text = application(words), contents(words.log)
    is_dump = words.log.endswith('.vcd')
    samples = vcd_samples(text, words.block, words.log) if is_dump else csv_samples(text, words.block, words.time, words.log)
    found = points_of(app, samples, words.log)
    if words.place is not None:
        print(told_place(found, words.place, words.log))
    else:
        sys.stdout.write(''.join(one.point + '\n' for one in found))


if __name__ == '__main__':
    run(main)
