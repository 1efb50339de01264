"""What records took of the graph of graph.py: the edges and points that were seen, the others, and the first step that no edge has.

A record has a point a line, as `osekfit record` prints it. Equal neighbours take no edge: whether a task was dispatched anew between them, a
record doesn't tell. With which point a record may begin, `osekfit watch` knows."""
from collections import namedtuple

from lib.given import Wrong
from lib.records import lines_of
from lib.show_reader import SUMMED, point_of, text_of

Alarm = namedtuple('Alarm', 'name place edge')
"""The first step of a record that no edge has: the record's name, the place of its point, counted from 0, and the two points."""

TAKEN_COLOUR, OTHER_COLOUR, ALARM_COLOUR, INSTEAD_COLOUR = '#1a7f37', '#c8cfd6', '#cf222e', '#bf8700'


class Unmarked:
    """What stands in the place of the marks where there is no record."""

    alarm, is_drawn = None, False

    def colour(self, _edges, usual):
        return usual


class Marks:
    """What some records took of a graph, up to the first alarm of each."""

    is_drawn = True

    def __init__(self, graph, gone=None):
        """The edges that are gone are in no run, each by a law."""
        self.graph, self.listed, self.gone = graph, set(graph.edges), gone or {}
        self.taken, self.points, self.alarm = set(), set(), None

    def take(self, text, name):
        """Takes in a record."""
        last = None
        for place, point in enumerate(points_of(text, name)):
            edge, last = (last, point), point
            if edge[0] not in (None, point) and edge not in self.listed:
                self.alarm = self.alarm or Alarm(name, place, edge)
                return
            self.points.add(point)
            self.taken |= {edge} & self.listed if edge[0] != point else set()

    def colour(self, edges, _usual):
        """The colour of what stands for some edges."""
        if self.alarm and self.alarm.edge in edges:
            return ALARM_COLOUR
        if self.alarm and any(before == self.alarm.edge[0] for before, _ in edges):
            return INSTEAD_COLOUR
        return TAKEN_COLOUR if self.taken & set(edges) else OTHER_COLOUR

    def with_alarm(self):
        """The graph with the edge of the alarm, which isn't there."""
        return self.graph._replace(edges=self.graph.edges + ([self.alarm.edge] if self.alarm else []))

    def told(self):
        """How much was seen, in numbers."""
        most = self.graph.counts.get('points')
        told = 'edges %d of %d, points %d%s' % (len(self.taken), len(self.listed), len(self.points), '' if most is None else ' of %d' % most)
        return told + (', and %d edges of the table in no run' % len(self.gone) if self.gone else '')

    def told_alarm(self):
        """The first alarm, and what might have come."""
        name, place, (before, after) = self.alarm
        others = [text_of(q) for p, q in self.graph.edges if p == before and q != p]
        law = '' if self.alarm.edge not in self.gone else ', which the table has and no run, by %s' % self.gone[self.alarm.edge]
        return '%s: alarm %d %s%s; may follow %s: %s' % (name, place, text_of(after), law, text_of(before), ', '.join(others) or 'nothing')


def points_of(text, name):
    """The points of a record, up to a trap."""
    for number, line in enumerate(lines_of(text), 1):
        words = line.split()
        if words[:1] == ['trap']:
            return
        if words and not words[0].startswith('#'):
            try:
                yield point_of(line.strip(' \t'))
            except ValueError:
                raise Wrong('%s:%d: no point: %s' % (name, number, line[:60])) from None


def judge(marks, owners):
    """Stops where a record has a block that the task code doesn't have."""
    for point in marks.alarm.edge if marks.alarm and owners.blocks else ():
        if point.block is not None and owners.owner(point) is None:
            raise Wrong('%s: the task code does not have %s' % (marks.alarm.name, text_of(point)))


def unseen(marks, owners):
    """A line for each edge that no record took, by kind: first those that dispatch."""
    edges = [edge for edge in marks.graph.edges if edge not in marks.taken]
    kinds = {edge: owners.kind_of_edge(*edge) for edge in edges}
    for edge in sorted(edges, key=lambda edge: (kinds[edge] not in SUMMED, edges.index(edge))):
        kind = ' (%s)' % kinds[edge] if kinds[edge] else ''
        yield 'edge %s %s%s: %s, to %s' % (text_of(edge[0]), text_of(edge[1]), kind, *(place(marks.graph, owners, point) for point in edge))


def place(graph, owners, point):
    """Where a point is, in words, as far as the task code is known."""
    owner = owners.owner(point)
    if owner is None:
        return text_of(point)
    line = graph.sites[point.block].line if point.block in graph.sites else owners.line(point.block)
    over = {None: '', '-': ' over nobody'}.get(point.over, ' over %s' % point.over)
    return '%s%s%s: %s' % (owner.name, ' line %d' % line if line else '', over, owners.text(point.block).replace('}', 'end'))
