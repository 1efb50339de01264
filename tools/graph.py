#!/usr/bin/env python3
"""Draws the control-flow graph that `osekfit show` prints.

The graph comes out in DOT, the language of Graphviz, with every point and every edge; or, with --svg, as a drawing with a
column for each task and routine, which needs --code. Where that would be wider than an eye can follow it is a matrix of who comes next, or of
what comes before and behind each block of one task. Sites are coloured by their form. Edges are named by what they do, as far
as their ends tell: a dispatch (from a task's block to another task, or from a routine to a task that it didn't interrupt), an
interrupt (into a routine), a return (out of it), a restart (a task that ends and begins anew), idle, shutdown.

    osekfit show a.oil a.code | tools/graph.py --code a.code > a.dot
    tools/graph.py --code a.code --oil a.oil --svg a.show > a.svg           counters and alarms have their names
    tools/graph.py --code a.code --svg --task T1 a.show > t1.svg            one column, and what it has edges with
    tools/graph.py --code a.code --summary a.show                           who dispatches whom, in numbers of edges
    tools/graph.py --code a.code --svg --record a.record a.show > a.svg     what `osekfit record` printed took of it, in green
    tools/graph.py --code a.code --unseen --record a.record a.show          the edges that it didn't take: a plan of tests
    tools/graph.py --code a.code --svg --alarm --record a.record a.show     with the first step that no edge has, in red
    tools/graph.py --certificate a.image a.table .. a.show                  any of these without the edges that no run takes

How many edges and points the records have is told on standard error, with --unseen on standard output. --record may be given several times.
With a certificate, those edges of its table are left out that no run takes by what the standard guarantees (docs/GUARANTEES.md); a record that
has one has an alarm.
"""
import sys
from collections import Counter

from lib import graph_chart, graph_matrix, graph_record, oil, run_edges
from lib.drawing import FORM_COLOURS
from lib.given import Parser, Wrong, contents, run
from lib.graph_record import Unmarked
from lib.show_reader import SUMMED, Owners, around, points_of, read_show, text_of

EDGE_COLOURS = {
    'flow': '#57606a', 'dispatch': '#0969da', 'restart': '#0969da', 'interrupt': '#8250df', 'return': '#1b7c83',
    'idle': '#6e7781', 'shutdown': '#cf222e', '': '#57606a',
}

WIDEST = 3000
"""The widest drawing with all blocks and lines; a wider one can't be read."""


def label(graph, owners, point):
    lines = [text_of(point)]
    if point.block is not None:
        lines[0] += (' ' + owners.text(point.block)).rstrip()
        if point.block in graph.sites:
            site = graph.sites[point.block]
            lines.append('line %d: %s' % (site.line, site.form) if site.line else site.form)
    return '\\n'.join(line.replace('\\', '\\\\').replace('"', '\\"') for line in lines)


def node_line(graph, owners, point):
    values = {'label': label(graph, owners, point)}
    site = graph.sites.get(point.block)
    if site:
        values['fillcolor'], values['color'] = FORM_COLOURS[site.form.split(' ')[0]]
    if point.block is None:
        values['shape'] = 'ellipse'
    return '"%s" [%s];' % (text_of(point), ', '.join('%s="%s"' % item for item in values.items()))


def dot(graph, owners, marks=Unmarked()):
    """The graph in DOT; the marks say how edges are coloured."""
    lines = ['digraph osekfit {', '  rankdir=TB; newrank=true;',
             '  node [shape=box, style="filled,rounded", fillcolor="#ffffff", color="#d0d7de", fontname="Helvetica", fontsize=10];',
             '  edge [fontname="Helvetica", fontsize=9];']
    clusters = {}
    for point in points_of(graph, owners):
        clusters.setdefault(owners.owner(point), []).append(point)
    for owner, points in clusters.items():
        inner = [node_line(graph, owners, p) for p in points]
        if owner is None:
            lines += ['  ' + line for line in inner]
        else:
            lines += ['  subgraph "cluster_%s_%s" {' % owner,
                      '    label="%s"; color="#8c959f"; fontname="Helvetica";' % owner.name]
            lines += ['    ' + line for line in inner] + ['  }']
    lines += ['  ' + edge_line(owners, edge, marks) for edge in graph.edges]
    return '\n'.join(lines + ['}', ''])


def edge_line(owners, edge, marks):
    kind, is_alarm = owners.kind_of_edge(*edge), marks.alarm is not None and edge == marks.alarm.edge
    said = 'alarm' if is_alarm else '' if kind == 'flow' else kind
    shown = (', style="dashed"' if is_alarm else '') + (', label="%s"' % said if said else '')
    return '"%s" -> "%s" [color="%s"%s];' % (text_of(edge[0]), text_of(edge[1]), marks.colour([edge], EDGE_COLOURS[kind]), shown)


def summary(graph, owners):
    """A matrix of who dispatches whom, by the number of edges."""
    counts, names = Counter(), {}
    for before, after in graph.edges:
        if owners.kind_of_edge(before, after) in SUMMED:
            pair = [owners.owner(p).name if owners.owner(p) else p.kind for p in (before, after)]
            counts[tuple(pair)] += 1
            names.setdefault(pair[0]), names.setdefault(pair[1])
    blocks = {owner.name: None for owner in [b.owner for b in owners.blocks] + list(owners.ticks.values())}
    order = [name for name in list(blocks) + ['idle', 'halt'] if name in names]
    columns = [name for name in order if any(counts[row, name] for row in order)]
    lines = [[''] + columns]
    for row in order:
        if any(counts[row, column] for column in columns):
            lines.append([row] + [str(counts[row, column] or '.') for column in columns])
    widths = [max(len(cells[k]) for cells in lines) for k in range(len(columns) + 1)]
    return ''.join('  '.join(cell.rjust(width) for cell, width in zip(cells, widths)) + '\n' for cells in lines)


def arguments():
    parser = Parser(__doc__)
    parser.add_argument('show', nargs='?', help='the text of `osekfit show` (standard input where it is missing)')
    parser.add_argument('--code', metavar='FILE', help="the application's task code: names blocks and their owners")
    parser.add_argument('--oil', metavar='FILE', help='its OIL text: names counters and alarms')
    parser.add_argument('--svg', action='store_true', help='an SVG drawing in place of DOT; needs --code')
    parser.add_argument('--task', metavar='NAME', help='the edges of one task or routine alone; needs --code')
    parser.add_argument('--all', action='store_true', help='draws each block and line, however wide that is')
    parser.add_argument('--summary', action='store_true', help='a matrix in place of DOT; needs --code')
    parser.add_argument('--title', default='', help='a heading for the drawing')
    parser.add_argument('--record', action='append', metavar='FILE', help='what `osekfit record` printed, or a bench logged')
    parser.add_argument('--unseen', action='store_true', help='the edges that no record took, in place of a drawing')
    parser.add_argument('--alarm', action='store_true', help='draws the first step that no edge has')
    parser.add_argument('--certificate', nargs=2, metavar=('IMAGE', 'TABLE'), help='leaves out the edges of this table that no run takes')
    return parser.parse_args()


def marks_of(graph, words, gone):
    """What the records took; a step that no edge has is wrong where it isn't asked for."""
    marks = graph_record.Marks(graph, gone)
    for name in words.record:
        marks.take(contents(name), name)
    if marks.alarm and not words.alarm:
        raise Wrong('%s (--alarm draws it)' % marks.told_alarm())
    if words.alarm and not marks.alarm:
        raise Wrong('each step of these records is an edge')
    return marks


def print_recorded(words, graph, owners, gone):
    """Prints what is asked for of the graph with records."""
    marks = marks_of(graph, words, gone)
    graph_record.judge(marks, owners)
    (sys.stdout if words.unseen else sys.stderr).write(marks.told() + '\n')
    if marks.alarm:
        sys.stderr.write(marks.told_alarm() + '\n')
    if words.unseen:
        sys.stdout.write(''.join(line + '\n' for line in graph_record.unseen(marks, owners)))
    else:
        print_drawing(words, marks.with_alarm(), owners, marks)


def print_drawing(words, graph, owners, marks):
    shown = around(graph, owners, words.task) if words.task else graph
    sys.stdout.write(svg_of(words, shown, owners, marks) if words.svg else dot(shown, owners, marks))


def svg_of(words, graph, owners, marks):
    """The drawing with each block and line, where that isn't too wide to be read; else a matrix."""
    chart = graph_chart.Chart(graph, owners, words.task, marks)
    if words.all or chart.lay_out() <= WIDEST:
        return chart.paint(words.title)
    more = '' if words.task else '--task NAME shows the blocks of one, and '
    sys.stderr.write('graph.py: as lines this would be %d wide, so it is a matrix; %s--all draws the lines\n' % (chart.width, more))
    return graph_matrix.matrix(graph, owners, words.title, words.task, marks)


def main():
    words = arguments()
    if (words.svg or words.task or words.summary or words.oil) and not words.code:
        raise Wrong('--svg, --task, --summary and --oil need --code')
    if (words.unseen or words.alarm) and not words.record:
        raise Wrong('--unseen and --alarm need --record')
    graph = read_show(contents(words.show), words.show or 'standard input')
    system = oil.system_of(contents(words.oil), words.oil) if words.oil else None
    owners = Owners(graph, contents(words.code) if words.code else None, system)
    gone = run_edges.in_no_run(graph, *words.certificate) if words.certificate else {}
    if gone and not words.record:
        sys.stderr.write('graph.py: %d of %d edges are in no run, and left out\n' % (len(gone), len(graph.edges)))
    graph = graph._replace(edges=[edge for edge in graph.edges if edge not in gone])
    if words.summary:
        sys.stdout.write(summary(around(graph, owners, words.task) if words.task else graph, owners))
    elif words.record:
        print_recorded(words, graph, owners, gone)
    else:
        print_drawing(words, graph, owners, Unmarked())


if __name__ == '__main__':
    run(main)
