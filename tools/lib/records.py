"""Images at work in the model of model.py: their traces, the points that they come to, and what the least table says of a text of points.

A text of points has one a line; blank lines and those that begin with `#` say none. Lines end as those of event texts."""
import re
from collections import namedtuple

from lib.image_kernel import ImageKernel, Trap
from lib.least_table import Analysis, point_of
from lib.model_trace import line, play
from lib.points import points_of, shown_point

TRAPPED, DAMAGED, ALARMED = 8, 14, 15
"""The statuses of a record that ends with a trap, of a text of points with a fault, and of one with an alarm."""

LONGEST_LINE, MOST = 256, 16 * 1024 * 1024
"""How many bytes a line has at most, with the CR before its LF, and a text of points."""

FORM = re.compile(r'halt|idle|b(?:0|[1-9][0-9]*)(?:/[^ \t]+)?')

Line = namedtuple('Line', 'point fault')
"""What a line says: a point as it is shown, or None; and the rule that it breaks, or None."""

Alarm = namedtuple('Alarm', 'place before point')
"""The first point that can't come: its place among the points, counted from 0, the one before it or None, and the point."""


def played(stored, mode, events, name, shown):
    """The lines of an image's play, as a step with its number is shown, and the status."""
    found = []
    try:
        for step, _, _ in play(stored.app, mode, events, name, ImageKernel(stored)):
            found.append(shown(len(found), step))
    except Trap:
        return found + ['trap %d' % len(found)], TRAPPED
    return found, 0


def record(stored, mode, events, name='the event text'):
    """The lines of an image's record, and its status."""
    return played(stored, mode, events, name, lambda _, step: shown_point(stored.app, point_of(step.state)))


def replay(stored, mode, events, name='the event text'):
    """The lines of an image's trace, and its status."""
    return played(stored, mode, events, name, lambda number, step: line(stored.app, number, step))


def lines_of(text):
    """The lines of a text of points, without their ends."""
    lines = text.split('\n')
    ended = [line[:-1] if line.endswith('\r') and len(line) <= LONGEST_LINE else line for line in lines[:-1]]
    return ended + [line for line in lines[-1:] if line]


class Points:
    """The points of an application, as they are shown."""

    def __init__(self, app):
        self.shown = {shown_point(app, point) for point in points_of(app)}

    def said(self, line):
        """What a line says."""
        words = [word for word in re.split('[ \t]+', line) if word]
        if len(line) > LONGEST_LINE:
            return Line(None, 'G3')
        if not words or words[0].startswith('#'):
            return Line(None, None)
        if len(words) > 1 or not FORM.fullmatch(words[0]):
            return Line(None, 'G1')
        return Line(words[0], None) if words[0] in self.shown else Line(None, 'G2')


class Watch:
    """Follows points by a graph: those at which a record may begin, and the edges, all as they are shown."""

    def __init__(self, begins, edges):
        self.begins, self.edges = begins, edges
        self.seen, self.last, self.alarm = 0, None, None

    def may_come(self, point):
        return point in self.begins if self.last is None else point == self.last or (self.last, point) in self.edges

    def see(self, point):
        """The first alarm, with this point."""
        if self.alarm is None and not self.may_come(point):
            self.alarm = Alarm(self.seen, self.last, point)
        if self.alarm is None:
            self.seen, self.last = self.seen + 1, point
        return self.alarm


def watch_of(app, analysis=None):
    """The watch of an application, whose analysis may be given."""
    analysis = analysis or Analysis(app).solve()
    edges = {tuple(shown_point(app, point) for point in edge) for edge in analysis.edges}
    return Watch({shown_point(app, point) for point in analysis.table}, edges)


def watched(app, text, name, analysis=None):
    """The status of `watch` over a text of points, and its line."""
    if len(text) > MOST:
        return DAMAGED, '%s:0: G4' % name
    points, watch = Points(app), watch_of(app, analysis)
    for number, line in enumerate(lines_of(text), 1):
        point, fault = points.said(line)
        if fault:
            return DAMAGED, '%s:%d: %s' % (name, number, fault)
        if point is not None and watch.see(point):
            return ALARMED, 'alarm %d %s' % (watch.alarm.place, point)
    return 0, 'quiet %d' % watch.seen
