"""The picture of certificate.py: a row for each point and a column for each task, and for each routine where they nest, dark by how many values it
may have there. A routine's cell is grey where it is out in each state, and a cell is white where no state stands at all."""
import math

from lib import opened
from lib.drawing import FAINT, INK, LINE, Drawing
from lib.points import block_of, points_of, shown_point
from lib.table_bytes import OUT
from lib.table_words import Wording

LIGHT, DARK = (0xdd, 0xf4, 0xff), (0x0a, 0x30, 0x69)
"""The colours of one value, and of the most that some task has at some point."""

OUT_ALONE = '#eaeef2'
"""The colour of a routine that is out in each state."""

HEIGHTS = [(120, 14), (600, 5)]
"""The height of a row where there are at most so many points; it is 2 where there are more."""

READABLE = 12
"""The least height of a row that has its point's name, and a text for each cell in viewers that show one."""

HEAD, CHARACTER, MOST_TOLD = 64, 6.2, 400
"""The room above the rows, the width of a letter, and how much is told of a cell."""


class Chart:
    def __init__(self, app, table):
        self.app, self.table, self.wording, self.drawing = app, table, Wording(app), Drawing()
        self.points = points_of(app)
        self.height = next((height for most, height in HEIGHTS if len(self.points) <= most), 2)
        self.columns = [(task.name, number) for number, task in enumerate(app.tasks)]
        if opened.has(opened.NESTED):
            last = len(app.tasks) + len(app.own_bits()) + len(app.alarms)
            self.columns += [(source.mark + source.name, last + number) for number, source in enumerate(app.sources)]
        self.most = max([self.count(point, component) or 0 for point in table for _, component in self.columns] + [1])
        self.left = max(CHARACTER * len(name) for point in self.points for name in (self.owner(point), shown_point(app, point))) + 24
        self.lefts = [self.left]
        for name, _ in self.columns:
            self.lefts.append(self.lefts[-1] + max(40, CHARACTER * len(name) + 12))

    def count(self, point, component):
        """How many values a component may have at a point, that of a routine which is out apart; None where no state stands at the point."""
        if point not in self.table:
            return None
        values = self.table[point][component]
        return len(values) if component < len(self.app.tasks) else len([value for value in values if value != (OUT,)])

    def owner(self, point):
        """Whose a point is."""
        block = block_of(point)
        return shown_point(self.app, point) if block is None else self.app.blocks[block].owner.name

    def shade(self, count):
        """The colour of so many values; None where no state stands."""
        if not count:
            return None if count is None else OUT_ALONE
        part = math.log(count) / math.log(self.most) if self.most > 1 else 0
        return '#%02x%02x%02x' % tuple(round(a + (b - a) * part) for a, b in zip(LIGHT, DARK))

    def top(self, row):
        return HEAD + self.height * row

    def draw_names(self):
        """The points' names, or where there are too many whose they are."""
        free = 0
        for row, point in enumerate(self.points):
            is_next = row == 0 or self.owner(point) != self.owner(self.points[row - 1])
            if is_next:
                self.drawing.line(self.left - 6, self.top(row), self.lefts[-1], self.top(row), LINE)
            if self.height >= READABLE or is_next and self.top(row) >= free:
                free = self.top(row) + READABLE
                text = shown_point(self.app, point) if self.height >= READABLE else self.owner(point)
                self.drawing.text(self.left - 10, self.top(row) + min(11, self.height + 3), text, 10, INK if point in self.table else FAINT, anchor='end')

    def draw_column(self, column):
        """The cells of a task or a routine; those of one shade that stand side by side are one where they are too low to be told apart."""
        name, component = self.columns[column]
        left, width = self.lefts[column], self.lefts[column + 1] - self.lefts[column] - 2
        self.drawing.text(left + width / 2, HEAD - 8, name, 11, anchor='middle')
        counts = [self.count(point, component) for point in self.points]
        row = 0
        while row < len(counts):
            end = row + 1
            while self.height < READABLE and end < len(counts) and counts[end] == counts[row]:
                end += 1
            if counts[row] is not None:
                self.drawing.rect(left, self.top(row), width, self.height * (end - row), self.shade(counts[row]), self.told(row, column))
            row = end

    def told(self, row, column):
        if self.height < READABLE:
            return None
        point, (name, component) = self.points[row], self.columns[column]
        values = self.table[point][component]
        said = self.wording.task(point, component, values) if component < len(self.app.tasks) else self.wording.routine(point, values)
        text = '%s, %s: %s' % (shown_point(self.app, point), name, said)
        return text if len(text) <= MOST_TOLD else text[:MOST_TOLD] + '..'

    def draw(self, title):
        self.drawing.text(12, 20, title, 14)
        told = 'white: no state of the table stands here; light: one value' + ('; dark: %d' % self.most if self.most > 1 else '')
        told += '; grey: the routine is out in each state' if len(self.columns) > len(self.app.tasks) else ''
        self.drawing.text(12, 38, told, 10, FAINT)
        for column in range(len(self.columns)):
            self.draw_column(column)
        self.draw_names()
        return self.drawing.svg(max(self.lefts[-1] + 12, CHARACTER * len(told), 9 * len(title)), self.top(len(self.points)) + 14)


def chart(app, table, title):
    """The picture of a table, as SVG."""
    return Chart(app, table).draw(title)
