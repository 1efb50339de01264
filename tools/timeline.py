#!/usr/bin/env python3
"""Draws a trace of osekfit, the text of `replay` or `trace`, as a chart over events.

The chart is an SVG file: a row for each routine and task, and below them what was noted, in bands below each other where there are many events.
With --oil routines stand by their priority, the highest above. In other forms one unit of time is one event:
--vcd is a value change dump for viewers of waves, --perfetto a JSON text for ui.perfetto.dev, --btf a text in the Best Trace Format of
timing tools. A long trace is read line by line, and no more of it is kept than is drawn.

    osekfit replay a.image OSDEFAULTAPPMODE a.events | tools/timeline.py --oil a.oil --events a.events > a.svg
    tools/timeline.py --first 2000 --last 2100 a.trace > a.svg
    tools/timeline.py --vcd a.trace > a.vcd
"""
import sys

from lib import btf, perfetto, timeline_chart, vcd
from lib.given import Parser, Wrong, contents, run
from lib.oil import system_of
from lib.trace_reader import Events, trace_of

MOST = 2000
"""The most lines that a chart shows."""


def arguments():
    parser = Parser(__doc__)
    parser.add_argument('trace', nargs='?', help='the text of a trace (standard input where it is missing)')
    parser.add_argument('--events', metavar='FILE', help='the event text, to mark where interrupts and ticks were requested')
    parser.add_argument('--oil', metavar='FILE', help='the OIL text: routines stand by their priority')
    form = parser.add_mutually_exclusive_group()
    form.add_argument('--vcd', action='store_true', help='a value change dump in place of SVG')
    form.add_argument('--perfetto', action='store_true', help='a JSON text for ui.perfetto.dev in place of SVG')
    form.add_argument('--btf', action='store_true', help='the Best Trace Format in place of SVG')
    parser.add_argument('--first', type=int, default=0, metavar='N', help='the first line that is drawn')
    parser.add_argument('--last', type=int, metavar='N', help='the last line that is drawn (in SVG at most %d lines are)' % MOST)
    parser.add_argument('--title', default='', help='a heading for the chart')
    return parser.parse_args()


def by_priority(system):
    """The routines of a system as a trace names them: those of higher priority first, counters last."""
    isrs = sorted(system.isrs.values(), key=lambda isr: -isr.priority)
    return ['@' + isr.name for isr in isrs] + ['%' + name for name in system.counters]


def drawn(trace, requests, title, order):
    """The chart of a trace; of a longer one that of its first lines."""
    lines = []
    for line in trace:
        if len(lines) == MOST:
            sys.stderr.write('timeline.py: %d lines are drawn; --first and --last choose others, and --perfetto and --vcd take all\n' % MOST)
            break
        lines.append(line)
    return timeline_chart.chart(lines, trace.trap, requests, title, order)


def main():
    words = arguments()
    events = Events(contents(words.events), words.events) if words.events else None
    order = by_priority(system_of(contents(words.oil), words.oil)) if words.oil else []
    trace, requests = trace_of(words.trace, words.first, words.last, events), events.requests if events else []
    if next(iter(trace), None) is None:
        raise Wrong('%s: the trace has no such line' % trace.name)
    if words.vcd:
        parts = vcd.dump(trace)
    elif words.perfetto:
        parts = perfetto.dump(trace, requests)
    elif words.btf:
        parts = btf.dump(trace, requests)
    else:
        parts = [drawn(trace, requests, words.title, order)]
    for part in parts:
        sys.stdout.write(part)


if __name__ == '__main__':
    run(main)
