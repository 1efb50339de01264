"""The drawing of graph.py: a column for each task and routine, a row for each block, and lines for dispatches.

A dispatch leaves its block to the right, runs in the gaps between the columns and in a channel below them, and comes to its
targets from the left; each source has a colour of its own. Interrupts and returns are told by circles beside the blocks."""
from collections import namedtuple

from lib.drawing import FAINT, FORM_COLOURS, INK, LINE, MONO, Drawing, in_lines, number, rounded
from lib.graph_record import ALARM_COLOUR, INSTEAD_COLOUR, OTHER_COLOUR, TAKEN_COLOUR, Unmarked
from lib.show_reader import Point, text_of

ROW, GAP = 24, 8
"""The height of a block, and the room below it."""

CELL, LANE, TRACK, TRACKS = 16, 9, 8, 160
"""The width of a column of circles, of a lane for jumps, of a line between columns, and of all lines between two."""

CHARACTER = 6.65
"""The width of a character of 11 points."""

HEAD = 84
"""The room above the columns' first blocks."""

LEAST_WIDTH, LETTER = 760, 5.7
"""The least width of a drawing, and the width of a letter in what is said below it."""

MOST_NAMED = 12
"""How many targets a line's title names."""

STYLE = '.lines:hover .from{opacity:.12}.lines .from:hover{opacity:1}.from:hover path{stroke-width:2.6}'
"""What a viewer does with the lines of one block when it is pointed at: the others fade."""

SOURCE_COLOURS = ['#0969da', '#bf3989', '#1a7f37', '#bc4c00', '#8250df', '#1b7c83', '#9a6700', '#cf222e', '#4d2d8a', '#57606a']

FLOW_COLOUR, ROUTINE_COLOUR = '#57606a', '#8250df'
"""The colours of control flow, and of what routines do."""

FRONT = [OTHER_COLOUR, TAKEN_COLOUR, INSTEAD_COLOUR, ALARM_COLOUR]
"""The colours of marked lines, those in front last."""

Row = namedtuple('Row', 'points text form over')
"""A row of a column: the points that it stands for, what is written in it, its form or None, and, below the end of a routine,
what was interrupted."""


class Column:
    """A column: its heading, its rows from top to bottom, and which circles its rows have."""

    def __init__(self, title, kind, rows, circles):
        self.title, self.kind, self.rows, self.circles = title, kind, rows, circles
        self.jumps = []
        self.x = self.y = 0

    def box_width(self):
        widest = max(len(row.text) + (len(pill(row.form)) + 2 if row.form else 11 if row.over else 0) for row in self.rows)
        return max(110, 22 + CHARACTER * (widest + 1))

    def lanes(self):
        return max((lane for _, _, lane in self.jumps), default=-1) + 1

    def left(self):
        return self.x + 10 + LANE * self.lanes()

    def right(self):
        return self.left() + self.box_width() + CELL * len(self.circles)

    def width(self):
        return self.right() + 10 - self.x

    def top_of(self, place):
        return self.y + HEAD + place * (ROW + GAP)

    def middle_of(self, place):
        return self.top_of(place) + ROW / 2

    def bottom(self):
        return self.top_of(len(self.rows)) + 6


def pill(form):
    """What is written for a form."""
    return '→ idle' if form == 'direct -' else form.replace('direct', '→')


def columns_of(graph, owners, whole):
    """The columns: tasks, interrupt routines, tick routines, and who has the processor where no block has it. Where the name of one is
    given it is whole, and the others have the blocks alone that edges meet."""
    used = {p for edge in graph.edges for p in edge}
    met = {p.block for p in used}
    routines = [owner for owner in routine_names(owners) if whole is None or owner.name == whole or owner in map(owners.owner, used)]
    nests = nests_of(graph, owners)
    found = []
    for owner, blocks in blocks_by_owner(owners).items():
        rows = [row for block in blocks if whole in (None, owner.name) or block in met for row in rows_of(graph, owners, owner, block, used)]
        kind = {'TASK': 'task', 'ISR': 'interrupt routine', 'TICK': 'counter'}[owner.kind]
        over = routines if owner.kind == 'TASK' else [one for one in routines if (owner, one) in nests]
        if rows:
            found.append(Column(owner.name, kind, rows, over if whole in (None, owner.name) else []))
    rest = [kind for kind in ('idle', 'halt') if any(p.kind == kind for p in used)]
    if rest:
        names = {'idle': 'idle', 'halt': 'halted'}
        rows = [Row([Point(kind, None, None)], names[kind], None, None) for kind in rest]
        found.append(Column('No task', 'and no routine', rows, routines if 'idle' in rest and whole is None else []))
    return found


def nests_of(graph, owners):
    """The pairs of a routine and another one that may begin over it, or go back to it."""
    found = set()
    for before, after in graph.edges:
        if before.kind == after.kind == 'routine':
            below, above = owners.owner(before), owners.owner(after)
            kind = owners.kind_of_edge(before, after)
            found |= {(below, above)} if kind == 'interrupt' else {(above, below)} if kind == 'return' else set()
    return found


def blocks_by_owner(owners):
    found = {}
    for block in range(len(owners.blocks) + len(owners.ticks)):
        found.setdefault(owners.owner(Point('task', block, None)), []).append(block)
    return found


def routine_names(owners):
    return [owner for owner in blocks_by_owner(owners) if owner.kind != 'TASK']


def rows_of(graph, owners, owner, block, used):
    site = graph.sites.get(block)
    text = 'b%d %s' % (block, owners.text(block))
    form = site.form if site else None
    if owner.kind == 'TASK':
        return [Row([Point('task', block, None)], text, form, None)]
    points = sorted((p for p in used if p.block == block), key=lambda p: (p.over != '-', p.over))
    if form is None:
        return [Row(points, text, None, None)]
    return [Row([], text, form, None)] + [Row([p], 'over ' + ('idle' if p.over == '-' else p.over), None, p.over) for p in points]


class Chart:
    def __init__(self, graph, owners, whole, marks):
        self.graph, self.owners, self.marks = graph, owners, marks
        self.columns = columns_of(graph, owners, whole)
        self.place, self.heads = {}, {}
        for c, column in enumerate(self.columns):
            for r, row in enumerate(column.rows):
                head = (c, r) if row.over is None else head
                for point in row.points:
                    self.place[point], self.heads[point] = (c, r), head
        self.flows, self.trunks, self.circles, self.returns = {}, {}, {}, {}
        for before, after in graph.edges:
            self.sort_edge(before, after)
        self.find_jumps()
        self.drawing = Drawing()

    def sort_edge(self, before, after):
        kind = self.owners.kind_of_edge(before, after)
        if kind == 'flow':
            self.flows.setdefault((self.heads[before], self.heads[after]), []).append((before, after))
        elif kind == 'interrupt':
            self.circle_of(self.place[before], self.owners.owner(after))['begins'].append((before, after))
        elif kind == 'return':
            self.circle_of(self.place[after], self.owners.owner(before))['returns'].append((before, after))
            self.returns.setdefault(before, []).append((before, after))
        else:
            self.trunks.setdefault(before, []).append(after)

    def circle_of(self, place, owner):
        """The edges that the circle of a routine beside a row stands for, by kind."""
        return self.circles.setdefault((place, owner), {'begins': [], 'returns': []})

    def find_jumps(self):
        """Gives each flow that isn't to the next row a lane at the left of its column."""
        for (c, r), (_, r2) in sorted(self.flows, key=lambda f: abs(f[0][1] - f[1][1])):
            if r2 != r + 1:
                low, high = min(r, r2), max(r, r2)
                jumps = self.columns[c].jumps
                taken = {lane for a, b, lane in jumps if min(a, b) <= high and low <= max(a, b)}
                jumps.append((r, r2, next(n for n in range(len(jumps) + 1) if n not in taken)))

    def flow_colour(self, c, r, r2):
        return self.marks.colour(self.flows[(c, r), (c, r2)], FLOW_COLOUR)

    def lay_out(self):
        """Places the columns from left to right, with room for the lines between them; the width of all."""
        self.order = sorted(self.trunks, key=lambda p: self.place[p])
        self.tracks = [{} for _ in range(len(self.columns) + 1)]
        self.channel, self.entries = {}, {}
        for source in self.order:
            gap = self.place[source][0] + 1
            targets = {self.place[t][0] for t in self.trunks[source]}
            put_last(self.tracks[gap], source)
            if targets != {gap}:
                put_last(self.channel, source)
            for column in sorted(targets - {gap}):
                put_last(self.tracks[column], source)
            for target in self.trunks[source]:
                put_last(self.entries.setdefault(target, {}), source)
        x = 16
        for column, tracks in zip(self.columns, self.tracks):
            x += 14 + step_of(tracks) * len(tracks)
            column.x, column.y = x, 52
            x += column.width()
        self.width = x + 14 + step_of(self.tracks[-1]) * len(self.tracks[-1]) + 16
        self.floor = max((column.bottom() for column in self.columns), default=HEAD)
        return self.width

    def track_x(self, gap, source):
        tracks = self.tracks[gap]
        left = self.columns[gap - 1].x + self.columns[gap - 1].width() if gap else 16
        return left + 8 + step_of(tracks) * tracks[source]

    def channel_y(self, source):
        return self.floor + 16 + step_of(self.channel) * self.channel[source]

    # What is painted, from back to front.

    def paint(self, title):
        self.lay_out()
        for column in self.columns:
            self.paint_frame(column)
        for c, column in enumerate(self.columns):
            self.paint_jumps(c, column)
            for r in range(len(column.rows)):
                self.paint_row(c, column, r)
        self.paint_trunks()
        if title:
            self.drawing.text(16, 30, title, size=17, font_weight='600')
        y = self.floor + 34 + step_of(self.channel) * len(self.channel)
        height = self.paint_legend(y)
        return self.drawing.svg(max(self.width, LEAST_WIDTH), height, 0 if title else 36)

    def paint_frame(self, column):
        d = self.drawing
        d.rect(column.x, column.y, column.width(), column.bottom() - column.y, '#f6f8fa', stroke=LINE, rx=8)
        d.text(column.x + 12, column.y + 22, column.title, size=14, font_weight='600')
        d.text(column.x + 12, column.y + 38, column.kind, size=11, fill=FAINT)
        for k, owner in enumerate(column.circles):
            x = column.left() + column.box_width() + CELL * k + CELL / 2 + 5
            y = column.y + HEAD - 8
            d.text(x, y, shortened(owner.name), size=10, fill=INK, transform='rotate(-90 %.1f %.1f)' % (x, y))

    def paint_row(self, c, column, r):
        d, row = self.drawing, column.rows[r]
        x, y, width = column.left(), column.top_of(r), column.box_width()
        ground, edge = FORM_COLOURS[row.form.split(' ')[0]] if row.form else ('#ffffff', LINE)
        met = row.form != 'never' and (not row.points or any(p in self.place for p in row.points))
        if row.over is None:
            d.rect(x, y, width, ROW, ground, stroke=edge, rx=4, stroke_dasharray='3 2' if row.form == 'never' else None)
        else:
            self.paint_over(row, x, y, width, 0 if column.rows[r - 1].over is None else ROW / 2)
        d.text(x + (8 if row.over is None else 20), y + 16, row.text, size=11, font=MONO, fill=INK if met else FAINT)
        if row.form:
            d.text(x + width - 8, y + 16, pill(row.form), size=11, fill=FORM_COLOURS[row.form.split(' ')[0]][1], anchor='end',
                   font_weight='600')
        for k, owner in enumerate(column.circles):
            self.paint_circle(self.circles.get(((c, r), owner)), x + width + CELL * k + CELL / 2 + 1, y + ROW / 2)
        if ((c, r), (c, r + 1)) in self.flows:
            self.arrow(x + 16, y + ROW, x + 16, y + ROW + GAP, self.flow_colour(c, r, r + 1))

    def paint_over(self, row, x, y, width, above):
        """A row below a routine's end: whether the routine goes back to what was interrupted."""
        self.drawing.line(x + 8, y - GAP - above, x + 8, y + ROW / 2, LINE)
        self.drawing.line(x + 8, y + ROW / 2, x + 16, y + ROW / 2, LINE)
        returns = [edge for point in row.points for edge in self.returns.get(point, [])]
        if returns:
            self.drawing.text(x + width - 8, y + 16, 'returns', size=11, fill=self.marks.colour(returns, ROUTINE_COLOUR), anchor='end')

    def paint_circle(self, edges, x, y):
        if edges:
            begins, returns = (self.marks.colour(edges[kind], ROUTINE_COLOUR) for kind in ('begins', 'returns'))
            kind = kind_of_circle(edges)
            self.drawing.circle(x, y, RADII[kind], '#ffffff' if kind == 'open' else returns, stroke=returns if kind == 'point' else begins, stroke_width=1.4)

    def paint_jumps(self, c, column):
        for r, r2, lane in column.jumps:
            colour = self.flow_colour(c, r, r2)
            x = column.left() - 6 - LANE * lane
            points = [(column.left(), column.middle_of(r) + 4), (x, column.middle_of(r) + 4), (x, column.middle_of(r2) - 4),
                      (column.left(), column.middle_of(r2) - 4)]
            self.drawing.path(rounded(points), colour, stroke_width=1.1)
            self.head(points[-1], 'right', colour)

    def paint_trunks(self):
        """The lines of dispatches, those of one block as one group."""
        d = self.drawing
        d.style(STYLE)
        d.open_group('lines')
        for k, source in enumerate(self.order):
            d.open_group('from', self.title_of(source))
            self.paint_trunk(source, SOURCE_COLOURS[k % len(SOURCE_COLOURS)])
            d.close_group()
        d.close_group()

    def title_of(self, source):
        targets = [text_of(target) for target in self.trunks[source]]
        more = ' and %d more' % (len(targets) - MOST_NAMED) if len(targets) > MOST_NAMED else ''
        return '%s to %s%s' % (text_of(source), ', '.join(targets[:MOST_NAMED]), more)

    def paint_trunk(self, source, colour):
        """The lines from one block, those that were taken in front of the others."""
        c, r = self.place[source]
        column = self.columns[c]
        self.drawing.rect(column.left(), column.top_of(r), column.box_width(), ROW, 'none', pointer_events='all')
        by_colour = {}
        for target in self.trunks[source]:
            by_colour.setdefault(self.marks.colour([(source, target)], colour), []).append(target)
        for one in sorted(by_colour, key=FRONT.index) if self.marks.is_drawn else by_colour:
            self.paint_branches(source, by_colour[one], one)

    def paint_branches(self, source, targets, colour):
        """The lines from a block to some targets: out to the right, and to each column with a target along one upright line."""
        c, r = self.place[source]
        column = self.columns[c]
        x, y = self.track_x(c + 1, source), column.middle_of(r)
        by_column = {}
        for target in targets:
            by_column.setdefault(self.place[target][0], []).append(self.entry_y(source, target))
        parts, heads = ['M%s %sH%s' % (number(column.right()), number(y), number(x))], []
        if set(by_column) != {c + 1}:
            channel = self.channel_y(source)
            ends = [self.track_x(c2, source) for c2 in by_column if c2 != c + 1]
            parts += ['V%s' % number(channel)] + ['M%s %sH%s' % (number(x), number(channel), number(end)) for end in (min(ends), max(ends))]
        for c2, entries in by_column.items():
            begin, x2 = (y, x) if c2 == c + 1 else (channel, self.track_x(c2, source))
            parts += branches(x2, begin, entries, self.columns[c2].left())
            heads += [arrow_head(self.columns[c2].left(), entry) for entry in entries]
        self.drawing.path(''.join(parts), colour, stroke_width=1.6)
        self.drawing.path(''.join(heads), 'none', fill=colour)

    def entry_y(self, source, target):
        """Where a line comes to its target: beside those of other sources."""
        sources = self.entries[target]
        c, r = self.place[target]
        step = min(5, (ROW - 6) / max(1, len(sources)))
        return self.columns[c].middle_of(r) + step * (sources[source] - (len(sources) - 1) / 2)

    def arrow(self, x1, y1, x2, y2, colour):
        self.drawing.line(x1, y1, x2, y2, colour, stroke_width=1.1)
        self.head((x2, y2), 'down', colour)

    def head(self, tip, way, colour):
        x, y = tip
        back = [(x - 6, y - 3), (x - 6, y + 3)] if way == 'right' else [(x - 3, y - 5), (x + 3, y - 5)]
        self.drawing.path('M%.1f %.1fL%.1f %.1fL%.1f %.1fZ' % (x, y, *back[0], *back[1]), 'none', fill=colour)

    def paint_legend(self, y):
        d, width = self.drawing, max(self.width, LEAST_WIDTH)
        d.line(16, y - 14, width - 16, y - 14, LINE)
        x = 16
        for form, meaning in self.forms_said():
            ground, edge = FORM_COLOURS[form]
            if x > 16 and x + 71 + LETTER * len(meaning) > width - 16:
                x, y = 16, y + 26
            d.rect(x, y - 2, 64, 18, ground, stroke=edge, rx=4, stroke_dasharray='3 2' if form == 'never' else None)
            d.text(x + 32, y + 11, 'direct →' if form == 'direct' else form, size=11, fill=edge, anchor='middle', font_weight='600')
            d.text(x + 71, y + 11, meaning, size=11)
            x += 71 + LETTER * len(meaning) + 26
        y += 36
        for mark, text in self.said_below():
            for k, line in enumerate(in_lines(text, width - (76 if mark else 32), LETTER)):
                self.paint_said(y, mark if k == 0 else '', line, 60 if mark else 16)
                y += 16
            y += 4
        return y

    def forms_said(self):
        there = {row.form.split(' ')[0] for column in self.columns for row in column.rows if row.form}
        return [(form, meaning) for form, meaning in FORMS_SAID if form in there]

    def said_below(self):
        """What is said of the marks that are drawn, each with its mark."""
        shown = {kind_of_circle(edges) for (place, owner), edges in self.circles.items()
                 if owner in self.columns[place[0]].circles}
        said = [(self.marks.is_drawn, None, 'Green is what records took, and grey what none took.'),
                (self.marks.alarm is not None, None, 'Red is the first step that no edge has, and amber what might have come in its place.'),
                (bool(self.order), 'line', 'dispatch of a task, or of idle: from the block where the line begins to those at its arrows' + (
                    '' if self.marks.is_drawn else '. The lines of one block have one colour, which others share where there are many')),
                (bool(self.flows), 'flow', 'control flow within a task or routine'),
                ('open' in shown, 'open', 'the routine named above may begin at this block'),
                ('point' in shown, 'point', 'the routine named above may return to this block at its end, and doesn\'t begin here'),
                ('full' in shown, 'full', 'the routine named above may begin at this block, and also return here at its end' + (
                    ': its ring is the beginning, its inside the return' if self.marks.is_drawn else '')),
                (True, None, 'A white block is no call site. A dashed one is never reached, and one in grey letters has no edge. '
                             'At its end a routine returns to what it was over, or dispatches.'),
                (bool(self.graph.counts), None, self.numbers())]
        return [(mark, text) for is_said, mark, text in said if is_said]

    def numbers(self):
        return ', '.join('%s %d' % pair for pair in self.graph.counts.items())

    def paint_said(self, y, mark, text, x):
        d = self.drawing
        usual = {'line': SOURCE_COLOURS[0], 'flow': FLOW_COLOUR}.get(mark, ROUTINE_COLOUR)
        colour = INK if self.marks.is_drawn else usual
        if mark in ('line', 'flow'):
            d.line(18, y - 4, 48, y - 4, colour, stroke_width=1.6 if mark == 'line' else 1.1)
            self.head((50, y - 4), 'right', colour)
        elif mark:
            d.circle(34, y - 4, RADII[mark], '#ffffff' if mark == 'open' else colour, stroke=colour, stroke_width=1.4)
        d.text(x, y, text, size=11)


FORMS_SAID = [('never', 'no state comes here'), ('stay', 'the caller goes on'), ('direct', 'always this dispatch'),
              ('general', 'more than one outcome: the scheduler decides')]


RADII = {'open': 4, 'full': 4, 'point': 2}


def kind_of_circle(edges):
    """How the circle of a routine beside a block is drawn: where it may begin, may return to, or both."""
    return ('full' if edges['begins'] else 'point') if edges['returns'] else 'open'


def put_last(places, key):
    """Gives a key that has no place the next one."""
    places.setdefault(key, len(places))


def branches(x, begin, entries, end):
    """An upright line from where it begins to the entries above and below, and from it a way to each."""
    parts = ['M%s %sV%s' % (number(x), number(begin), number(limit)) for limit in (min(min(entries), begin), max(max(entries), begin))
             if limit != begin]
    return parts + ['M%s %sH%s' % (number(x), number(entry), number(end)) for entry in entries]


def arrow_head(x, y):
    return 'M%.1f %.1fL%.1f %.1fL%.1f %.1fZ' % (x, y, x - 6, y - 3, x - 6, y + 3)


def step_of(tracks):
    """How far apart lines run that run side by side."""
    return min(TRACK, TRACKS / max(1, len(tracks)))


def shortened(name):
    """A routine's name beside a column of circles."""
    name = name.replace('tick routine', 'tick')
    return name if len(name) <= 12 else name[:11] + '…'


def chart(graph, owners, title, whole=None, marks=Unmarked()):
    """The drawing of a graph whose owners are known; of one task or routine, whose name is given, and its neighbours. The marks say what
    records took of it."""
    return Chart(graph, owners, whole, marks).paint(title)
