"""The matrices of graph.py, for a graph with more lines than an eye can follow: who comes behind whom, by tasks and routines; or by the blocks of one.

A blue cell is a dispatch: the task or the end of a routine gives the processor to another task. A violet ring says that a routine may begin, and
a violet point that one may return."""
import math
from collections import Counter

from lib.drawing import FAINT, FORM_COLOURS, INK, LINE, MONO, PAPER, Drawing, in_lines
from lib.graph_chart import blocks_by_owner, pill, rows_of
from lib.graph_record import OTHER_COLOUR
from lib.show_reader import FORMS, text_of

ROW, BAR = 24, 110
"""The height of a row, and the width of the bar with a row's forms."""

CELL, NARROW = 40, 22
"""The width of a cell with a number, and of one without."""

CHARACTER, MONOSPACED, LEAST_WIDTH = 6.2, 6.65, 620

LIGHT, DARK = (0xdd, 0xf4, 0xff), (0x54, 0xae, 0xff)
"""The colours of one edge, and of the most that a cell has."""

ROUTINE_COLOUR = '#8250df'

MOST_NAMED = 6
"""How many edges a cell's title names."""


class Cell:
    """The edges of a row and a column, by what they do."""

    def __init__(self):
        self.dispatches, self.begins, self.returns = [], [], []

    def add(self, kind, edge):
        {'interrupt': self.begins, 'return': self.returns}.get(kind, self.dispatches).append(edge)


class Matrix:
    """What both matrices share: the names of columns, and how cells are painted."""

    def __init__(self, graph, owners, marks):
        self.graph, self.owners, self.marks, self.drawing = graph, owners, marks, Drawing()
        self.kinds = [(edge, owners.kind_of_edge(*edge)) for edge in graph.edges]

    def name(self, point):
        owner = self.owners.owner(point)
        return owner.name if owner else {'idle': 'no task', 'halt': 'halted'}[point.kind]

    def in_order(self, names):
        """Names in the order of the texts, and idle and halted behind them."""
        everyone = [owner.name for owner in blocks_by_owner(self.owners)] + ['no task', 'halted']
        return [name for name in everyone if name in names]

    def paint_heads(self, names, left, head, width):
        for k, name in enumerate(names):
            x = left + width * (k + 0.5) + 4
            self.drawing.text(x, head - 6, name, 11, transform='rotate(-90 %.1f %.1f)' % (x, head - 6))

    def paint_cell(self, x, y, width, cell, ground, title):
        d = self.drawing
        d.rect(x + 1, y + 1, width - 2, ROW - 2, ground, title)
        if cell.begins:
            d.rect(x + 3, y + 3, width - 6, ROW - 6, 'none', stroke=self.colour(cell.begins, ROUTINE_COLOUR), rx=8)
        if cell.returns:
            d.circle(x + width - 6, y + ROW - 6, 2.5, self.colour(cell.returns, ROUTINE_COLOUR))

    def colour(self, edges, usual):
        """The usual colour, or where there are records what they say of the edges."""
        return self.marks.colour(edges, usual)

    def titled(self, row, column, cell):
        """What a viewer says of a cell that is pointed at."""
        parts = []
        for edges, kind in ((cell.dispatches, 'dispatch'), (cell.begins, 'interrupt'), (cell.returns, 'return')):
            named = ', '.join('%s to %s' % tuple(map(text_of, edge)) for edge in edges[:MOST_NAMED])
            if edges:
                parts.append('%s, %d: %s%s' % (kind, len(edges), named, ' and more' if len(edges) > MOST_NAMED else ''))
        return '%s and %s. %s' % (row, column, '; '.join(parts))

    def paint_said(self, y, width):
        """What is said below; where the drawing ends."""
        recorded = ([RECORDED] if self.marks.is_drawn else []) + ([ALARMED] if self.marks.alarm else [])
        for line in self.said() + recorded + [', '.join('%s %d' % pair for pair in self.graph.counts.items())]:
            for part in in_lines(line, width - 32, 5.7) if line else []:
                self.drawing.text(16, y, part, 11, FAINT)
                y += 16
            y += 3
        return y + 6


RECORDED = 'Of a pair of numbers the first is how many edges records took. Green is where they took one, and grey where none.'

ALARMED = 'Red is the first step that no edge has, and amber what might have come in its place.'


class AllMatrix(Matrix):
    """A row and a column for each task and routine."""

    def __init__(self, graph, owners, marks):
        super().__init__(graph, owners, marks)
        self.cells = {}
        for edge, kind in self.kinds:
            if kind != 'flow':
                self.cells.setdefault(tuple(map(self.name, edge)), Cell()).add(kind, edge)
        self.names = self.in_order({name for pair in self.cells for name in pair})
        widest = CHARACTER * max(map(len, self.names), default=0)
        self.left, self.head = 24 + widest + BAR, 50 + widest
        self.most = max([len(cell.dispatches) for cell in self.cells.values()] + [1])

    def forms(self, name):
        """How many sites of a task or routine have each form."""
        blocks = {owner.name: blocks for owner, blocks in blocks_by_owner(self.owners).items()}.get(name, [])
        return Counter(self.graph.sites[block].form.split(' ')[0] for block in blocks if block in self.graph.sites)

    def shade(self, count):
        part = math.log(count) / math.log(self.most) if self.most > 1 else 0
        return '#%02x%02x%02x' % tuple(round(a + (b - a) * part) for a, b in zip(LIGHT, DARK))

    def paint_rows(self):
        right, floor = self.left + CELL * len(self.names), self.head + ROW * len(self.names)
        self.paint_heads(self.names, self.left, self.head, CELL)
        for k, name in enumerate(self.names + ['']):
            self.drawing.line(16, self.head + ROW * k, right, self.head + ROW * k, LINE)
            self.drawing.line(self.left + CELL * k, self.head, self.left + CELL * k, floor, LINE)
            self.drawing.text(16, self.head + ROW * k + 16, name, 11)
            self.paint_forms(name, self.head + ROW * k)

    def paint_forms(self, name, y):
        """A bar of the forms of a row's sites, each as wide as their share."""
        counts, x = self.forms(name), self.left - BAR + 4
        for form in FORMS:
            if counts[form]:
                width = (BAR - 14) * counts[form] / sum(counts.values())
                ground, edge = FORM_COLOURS[form]
                self.drawing.rect(x, y + 5, width, ROW - 10, ground, '%s: %d of %d sites' % (form, counts[form], sum(counts.values())), stroke=edge)
                x += width

    def paint(self, title):
        d = self.drawing
        d.text(16, 24, title or 'Who comes next', 14, font_weight='600')
        self.paint_rows()
        for (row, column), cell in self.cells.items():
            x, y = self.left + CELL * self.names.index(column), self.head + ROW * self.names.index(row)
            ground = PAPER if self.marks.is_drawn or not cell.dispatches else self.shade(len(cell.dispatches))
            self.paint_cell(x, y, CELL, cell, ground, self.titled(row, column, cell))
            counted = cell.dispatches or cell.begins
            if counted:
                d.text(x + CELL / 2, y + 16, self.told(counted), 10, fill=self.text_colour(counted), anchor='middle')
        width = max(self.left + CELL * len(self.names) + 16, LEAST_WIDTH)
        return d.svg(width, self.paint_said(self.head + ROW * len(self.names) + 26, width))

    def text_colour(self, edges):
        colour = self.colour(edges, INK)
        return FAINT if colour == OTHER_COLOUR else colour

    def told(self, edges):
        return '%d/%d' % (len(self.marks.taken & set(edges)), len(edges)) if self.marks.is_drawn else '%d' % len(edges)

    def said(self):
        return ['A row has the processor, and a column comes next. A number: by how many edges the task of the column is dispatched.',
                'A ring: the routine of the column may begin, with at how many points of the row. A point: the routine of the row may return there.',
                'The bar beside a name: how many of its call sites are never reached, let the caller go on, always dispatch the same, '
                'or let the scheduler decide.']


class OneMatrix(Matrix):
    """A row for each block of a task or routine: at its left who comes before it, and at its right who comes behind."""

    def __init__(self, graph, owners, name, marks):
        super().__init__(graph, owners, marks)
        self.title, self.rows = name, self.rows_of(name)
        places = {point: k for k, row in enumerate(self.rows) for point in row.points}
        self.before, self.behind = {}, {}
        for (first, last), kind in self.kinds:
            if kind != 'flow' and first in places:
                self.behind.setdefault((places[first], self.name(last)), Cell()).add(kind, (first, last))
            if kind != 'flow' and last in places:
                self.before.setdefault((places[last], self.name(first)), Cell()).add(kind, (first, last))
        self.sides = [self.in_order({name for _, name in cells}) for cells in (self.before, self.behind)]
        self.box = max(140, MONOSPACED * (max(len(row.text) + (len(pill(row.form)) + 3 if row.form else 0) for row in self.rows) + 3))
        self.left = 16 + NARROW * len(self.sides[0]) + 10
        self.head = 72 + CHARACTER * max(map(len, self.sides[0] + self.sides[1]), default=0)

    def rows_of(self, name):
        used = {point for edge in self.graph.edges for point in edge}
        owner, blocks = next((owner, blocks) for owner, blocks in blocks_by_owner(self.owners).items() if owner.name == name)
        return [row for block in blocks for row in rows_of(self.graph, self.owners, owner, block, used)]

    def paint(self, title):
        d, right = self.drawing, self.left + self.box + 10
        d.text(16, 24, title or self.title, 14, font_weight='600')
        for names, cells, left, said in zip(self.sides, (self.before, self.behind), (16, right), ('comes before', 'comes next')):
            d.text(left, 44, said if names else '', 11, FAINT)
            self.paint_heads(names, left, self.head, NARROW)
            for (row, name), cell in cells.items():
                ground = self.colour(cell.dispatches, '#%02x%02x%02x' % DARK) if cell.dispatches else PAPER
                x, y = left + NARROW * names.index(name), self.head + ROW * row
                self.paint_cell(x, y, NARROW, cell, ground, self.titled(self.rows[row].text, name, cell))
        for k, row in enumerate(self.rows):
            self.paint_block(row, self.head + ROW * k)
        width = max(right + NARROW * len(self.sides[1]) + 16, LEAST_WIDTH)
        return d.svg(width, self.paint_said(self.head + ROW * len(self.rows) + 26, width))

    def paint_block(self, row, y):
        d = self.drawing
        ground, edge = FORM_COLOURS[row.form.split(' ')[0]] if row.form else (PAPER, LINE)
        d.rect(self.left, y + 2, self.box, ROW - 4, ground, stroke=edge, rx=4, stroke_dasharray='3 2' if row.form == 'never' else None)
        d.text(self.left + (8 if row.over is None else 20), y + 16, row.text, 11, font=MONO)
        if row.form:
            d.text(self.left + self.box - 8, y + 16, pill(row.form), 11, fill=edge, anchor='end', font_weight='600')

    def said(self):
        return ['At the left of a block who had the processor before it, and at its right who comes next, but for control flow within %s itself.' % self.title,
                'A square: a dispatch. A ring: the routine begins. A point: a routine returns.']


def matrix(graph, owners, title, name, marks):
    """The matrix of a graph whose owners are known, or that of one task or routine, as SVG."""
    return (AllMatrix(graph, owners, marks) if name is None else OneMatrix(graph, owners, name, marks)).paint(title)
