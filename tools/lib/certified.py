"""Certificates in the model of model.py: the least table as bytes, and what is said of an image and a table. A table certifies an image where
it is closed under the kernel's steps, and the image has at each site what the table's states dictate, or asks less of it."""
import itertools

from lib import image
from lib.image_reader import read_image
from lib.least_table import Analysis, TableSteps, point_of
from lib.points import shown_point
from lib.states import OUT, SUSPENDED, In, Live, Waiting
from lib.table_bytes import HELD, LIVE, ROUTINE_HELD, Fault, read_table, spelled

DAMAGED, DENIED = 11, 12
"""The statuses of a table with a fault in its bytes, and of one that certifies nothing."""


def fields_of(value):
    """The fields of a task's value."""
    if value == SUSPENDED:
        return (0,)
    if isinstance(value, Waiting):
        return (2, value.block)
    return (1, value.block, value.further, int(value.inside), len(value.held)) + value.held


def value_of(fields):
    """The task's value that has these fields."""
    if len(fields) == 1:
        return SUSPENDED
    return Live(fields[1], 0, fields[HELD:], fields[2], fields[3] == 1) if fields[0] == LIVE else Waiting(fields[1])


def fields_of_routine(value):
    """The fields of a source's value."""
    return (0,) if value == OUT else (1, value.block, len(value.held)) + value.held


def routine_of(fields):
    """The source's value that has these fields."""
    return OUT if len(fields) == 1 else In(fields[1], 0, fields[ROUTINE_HELD:])


def by_kind(app, sets, of_task, of_flag, of_routine):
    """The sets of a point, each by what is done with a task's, with a bit's or an alarm's, and with a source's."""
    tasks, last = len(app.tasks), len(app.tasks) + len(app.own_bits()) + len(app.alarms)
    return [*map(of_task, sets[:tasks]), *map(of_flag, sets[tasks:last]), *map(of_routine, sets[last:])]


def table_of(analysis):
    """The table of an analysis, as table_bytes has tables."""
    def listed(fields):
        return lambda values: sorted(map(fields, values))
    return {point: by_kind(analysis.app, sets, listed(fields_of), listed(int), listed(fields_of_routine)) for point, sets in analysis.table.items()}


def certified(app, analysis=None):
    """The image of an application, whose analysis may be given, and the table that certifies it."""
    analysis = analysis or Analysis(app).solve()
    return image.image(app, analysis.shown, analysis.noted), spelled(app, table_of(analysis))


class Check(TableSteps):
    """What the states of a given table come to, beside an image."""

    def __init__(self, stored, table):
        super().__init__(stored.app)
        self.stored = stored
        self.table = {point: by_kind(self.app, sets, lambda values: set(map(value_of, values)), set, lambda values: set(map(routine_of, values)))
                      for point, sets in table.items()}

    def has(self, state):
        """Whether the table admits a state."""
        sets = self.table.get(point_of(state))
        return sets is not None and all(value in seen for value, seen in zip(self.values_of(state), sets))

    def denial(self):
        """The rule by which the table doesn't certify the image, and where; None where it does."""
        return self.left_at_start() or self.left_by_step() or self.unfit()

    def left_at_start(self):
        """The first mode whose start the table doesn't admit."""
        return next((('N1', mode) for k, mode in enumerate(self.app.modes) if not self.has(self.kernel.start(k).state)), None)

    def left_by_step(self):
        """The first point at which a state steps to one that the table doesn't admit."""
        for point in sorted(self.table):
            for values in itertools.product(*self.table[point]):
                for step in self.steps_of(self.state_of(point, values)):
                    if not self.has(step.state):
                        return 'N2', shown_point(self.app, point)
                    self.note(point, step)
        return None

    def unfit(self):
        """The first site whose form is another than the dictated one and looks at nothing less; else so of what it knows."""
        reached = [block for block, shown in self.shown.items() if shown]
        forms = [b for b in reached if self.stored.forms[b] not in (image.form(self.shown[b]), image.GENERAL)]
        known = [b for b in reached if image.number(self.stored.known[b], 1) not in (image.known(self.noted[b]), image.number(image.ANY, 1))]
        return next(((rule, 'b%d' % b) for rule, blocks in (('N3', forms), ('N4', known)) for b in blocks), None)


def told(image_data, table_data, image_name, table_name):
    """The status of `check`, and its line."""
    stored = read_image(image_data, image_name)
    try:
        denial = Check(stored, read_table(stored.app, table_data)).denial()
    except Fault as fault:
        return DAMAGED, '%s:%s' % (table_name, fault)
    return (DENIED, '%s: %s %s' % ((table_name,) + denial)) if denial else (0, 'yes')
