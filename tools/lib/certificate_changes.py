"""Changes of a certificate at random, for compare_model.py: of the image's forms and known statuses, and of the table's bytes, points and
values."""
import copy

from lib import opened
from lib.image import image
from lib.points import points_of
from lib.states import KEEP, OK, To
from lib.table_bytes import IN, LIVE, OUT, SUSPENDED, WAITING, Shapes, spelled


class Changes:
    """Draws changes of an application's image and of its table."""

    def __init__(self, random, analysis, table):
        self.random, self.app, self.analysis, self.table = random, analysis.app, analysis, table
        self.shapes = Shapes(self.app)

    def pair(self):
        """An image and a table, as bytes, of which one or both are changed."""
        image_too, table_too = self.random.choice([(True, False), (False, True), (False, True), (True, True)])
        return self.image(image_too), self.table_data() if table_too else spelled(self.app, self.table)

    def image(self, is_changed):
        shown, noted = dict(self.analysis.shown), dict(self.analysis.noted)
        for block in self.random.sample(sorted(shown), min(len(shown), self.random.randint(1, 2))) if is_changed else []:
            task = self.random.choice([None] + list(range(len(self.app.tasks))))
            shown[block] = self.random.choice([shown[block], set(), {KEEP}, {To(task)}, {KEEP, To(None)}])
            noted[block] = self.random.choice([noted[block], set(), {None}, {OK}, {'E_OS_LIMIT'}])
        return image(self.app, shown, noted)

    def table_data(self):
        """The bytes of a table with one to three changes of its points and values, or of one of its bytes."""
        if self.random.random() < 0.3:
            data = spelled(self.app, self.table)
            place = self.random.randrange(len(data))
            changed = data[:place] + bytes([data[place] ^ self.random.choice([1, 2, 128, 255])]) + data[place + 1:]
            return self.random.choice([changed, changed, data[:place], data + b'\0'])
        table = copy.deepcopy(self.table)
        for _ in range(self.random.randint(1, 3)):
            self.random.choice([self.without_point, self.with_point, self.without_value, self.with_value, self.with_value])(table)
        return spelled(self.app, table)

    def without_point(self, table):
        if table:
            del table[self.random.choice(sorted(table))]

    def with_point(self, table):
        """A point more, with one value of each component."""
        point = self.random.choice(points_of(self.app))
        if point not in table:
            table[point] = [[self.value_at(point, component)] for component in range(self.components())]

    def components(self):
        sources = self.app.sources if opened.has(opened.NESTED) else []
        return len(self.app.tasks) + len(self.app.own_bits()) + len(self.app.alarms) + len(sources)

    def value_at(self, point, component):
        """A value that is possible for a component at a point."""
        last = len(self.app.tasks) + len(self.app.own_bits()) + len(self.app.alarms)
        if component < len(self.app.tasks):
            return self.value(self.shapes.at(point, component))
        return self.random.randrange(2) if component < last else self.routine(self.shapes.source_at(point, component - last))

    def without_value(self, table):
        if table:
            values = self.random.choice(self.random.choice(list(table.values())))
            if len(values) > 1:
                values.remove(self.random.choice(values))

    def with_value(self, table):
        if table:
            point = self.random.choice(sorted(table))
            component = self.random.randrange(len(table[point]))
            table[point][component] = sorted({self.value_at(point, component), *table[point][component]})

    def value(self, shape):
        """A value that is possible for a task of this shape."""
        tag = self.random.choice(shape.tags)
        if tag == SUSPENDED:
            return (tag,)
        if tag == WAITING:
            return (tag, self.random.choice(shape.waiting))
        return (LIVE, self.random.choice(shape.live), self.random.choice(shape.further), self.random.choice(shape.inside)) + self.stack(shape)

    def routine(self, shape):
        """A value that is possible for a source of this shape."""
        tag = self.random.choice(shape.tags)
        return (tag,) if tag == OUT else (IN, self.random.choice(shape.blocks)) + self.stack(shape)

    def stack(self, shape):
        held = self.random.sample(shape.resources, self.random.choice([0, 0, 0, len(shape.resources)]))
        return (len(held),) + tuple(held)
