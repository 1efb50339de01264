"""The bytes of a certificate's table, written and read as docs/FORMATS.md has them: a second reader beside the program's.

A table is a dictionary: for each point with an entry, a list of sets, one a component. These are the tasks, each task's own event bits, the
lowest first, the alarms, and, where routines nest, the sources. The set of a task or a source is a list of values in the order of their bytes,
and a value is the tuple of its fields; the set of a bit or an alarm is a list of 0 (not set, idle) and 1 (set, armed)."""
from collections import namedtuple

from lib import opened
from lib.fields import Cut, Fields
from lib.given import Wrong
from lib.image import number
from lib.points import block_of, executing_at, points_of

MOST = 16 * 1024 * 1024
"""How many bytes a table has at most."""

SUSPENDED, LIVE, WAITING = 0, 1, 2
"""The first field of a task's value. Behind LIVE stand its block, its further activations, whether it is inside an INTERNAL resource, how
many resources it holds, and these, the first taken first; behind WAITING stands its block."""

HELD = 5
"""The place of the first resource among the fields of a task's value."""

OUT, IN = 0, 1
"""The first field of a source's value. Behind IN stand the block of its routine, how many resources it holds, and these, the first taken first."""

ROUTINE_HELD = 3
"""The place of the first resource among the fields of a source's value."""

RULES = {
    'K1': 'the bytes end early',
    'K2': 'no table, or one of another version',
    'K3': 'a field is out of its range, or no value that is possible at this point begins so',
    'K4': "a value isn't above the one before it",
    'K5': 'bytes stand after the end',
    'K6': 'the file is over 16 MiB',
}


class Fault(Exception):
    """The first fault of a table's bytes: its rule, and the offset of the field's, or the value's, first byte."""

    def __init__(self, rule, offset):
        super().__init__('%d: %s' % (offset, rule))
        self.rule, self.offset = rule, offset


def magic():
    """The first eight bytes: the last one is the version of tables, which is 2 where these have routines."""
    return b'OSEKTAB\2' if opened.has(opened.NESTED) else b'OSEKTAB\1'


# Writing.


def spelled(app, table):
    """The bytes of a table."""
    return magic() + b''.join(b'\1' + entry_bytes(app, table[p]) if p in table else b'\0' for p in points_of(app))


def entry_bytes(app, sets):
    tasks, last = len(app.tasks), len(app.tasks) + len(app.own_bits()) + len(app.alarms)
    flags = bytes(sum(1 << v for v in values) for values in sets[tasks:last])
    return b''.join(map(listed, sets[:tasks])) + flags + b''.join(map(listed, sets[last:]))


def listed(values):
    return number(len(values), 4) + b''.join(value_bytes(fields) for fields in values)


def value_bytes(fields):
    """A block has two bytes, and each other field one."""
    return b''.join(number(field, 2 if place == 1 else 1) for place, field in enumerate(fields))


# Reading.


Shape = namedtuple('Shape', 'tags live waiting further inside resources')
"""What a value of a task may be at a point: its first field, the blocks of a live and of a waiting one, how many further activations it may
have, whether it may be inside its INTERNAL resource (1) or not (0), and the resources that may be taken."""

RoutineShape = namedtuple('RoutineShape', 'tags blocks resources')
"""What a value of a source may be at a point: its first field, the blocks, and the resources that its routine may take."""


class Shapes:
    """The shapes of an application's tasks and sources."""

    def __init__(self, app):
        self.app, self.resources = app, tuple(app.takable())
        self.blocks = [tuple(app.blocks_of_task(t)) for t in range(len(app.tasks))]
        self.routines = [tuple(app.blocks_of_source(s)) for s in range(len(app.sources))]
        waits = [tuple(b for b in blocks if app.blocks[b].word == 'WaitEvent') for blocks in self.blocks]
        self.waiting = [blocks if task.own else () for task, blocks in zip(app.tasks, waits)]

    def at(self, point, task):
        """A task that has the processor here, or is interrupted, is live: at this point's block where that is its own."""
        further, has_internal = range(self.app.tasks[task].activation), self.app.internal[task] is not None
        if executing_at(self.app, point) == task:
            own = block_of(point) in self.blocks[task]
            return Shape((LIVE,), (block_of(point),) if own else self.blocks[task], (), further, (int(has_internal),), self.resources)
        waiting, inside = self.waiting[task], (0, 1) if has_internal else (0,)
        return Shape((SUSPENDED, LIVE) + (WAITING,) * bool(waiting), self.blocks[task], waiting, further, inside, self.resources)

    def source_at(self, point, source):
        """At a point of its own block a routine has begun; at that of another routine it may have; and at all others none has."""
        block = block_of(point)
        resources = self.resources if self.app.sources[source].mark == '@' else ()
        if block in self.routines[source]:
            return RoutineShape((IN,), (block,), resources)
        is_routine = any(block in blocks for blocks in self.routines)
        return RoutineShape((OUT, IN) if is_routine else (OUT,), self.routines[source], resources)


class TableReader(Fields):
    def __init__(self, app, data):
        super().__init__(data)
        self.app, self.shapes, self.flags = app, Shapes(app), len(app.own_bits()) + len(app.alarms)
        self.read_sets = {}

    def read(self):
        if len(self.data) < len(magic()):
            raise Fault('K1', 0)
        if self.take(len(magic())) != magic():
            raise Fault('K2', 0)
        table = {point: self.entry(point) for point in points_of(self.app) if self.one_of(range(2))}
        if self.place < len(self.data):
            raise Fault('K5', self.place)
        return table

    def one_of(self, allowed, size=1):
        """The next field, which has to be one of these numbers."""
        at, field = self.place, self.number(size)
        if field not in allowed:
            raise Fault('K3', at)
        return field

    def entry(self, point):
        tasks = [self.values(self.value, self.shapes.at(point, task)) for task in range(len(self.app.tasks))]
        flags = [self.one_of(range(1, 4)) for _ in range(self.flags)]
        sources = range(len(self.app.sources)) if opened.has(opened.NESTED) else []
        routines = [self.values(self.routine, self.shapes.source_at(point, source)) for source in sources]
        return tasks + [[v for v in (0, 1) if found >> v & 1] for found in flags] + routines

    def values(self, read, shape):
        """A set of values. Points have the same sets again and again, so each spelling is read once a shape."""
        known = self.read_sets.setdefault(shape, {})
        for spelling, values in known.items():
            if self.data.startswith(spelling, self.place):
                self.place += len(spelling)
                return list(values)
        at = self.place
        found = self.new_values(read, shape)
        known[self.data[at:self.place]] = tuple(found)
        return found

    def new_values(self, read, shape):
        """As many values as are counted, one at least, each above the one before."""
        found = []
        for _ in range(self.one_of(range(1, 2 ** 32), 4)):
            at, value = self.place, read(shape)
            if found and value <= found[-1]:
                raise Fault('K4', at)
            found.append(value)
        return found

    def value(self, shape):
        tag = self.one_of(shape.tags)
        if tag == SUSPENDED:
            return (tag,)
        if tag == WAITING:
            return (tag, self.one_of(shape.waiting, 2))
        return (tag, self.one_of(shape.live, 2), self.one_of(shape.further), self.one_of(shape.inside)) + self.stack(shape.resources)

    def routine(self, shape):
        tag = self.one_of(shape.tags)
        return (tag,) if tag == OUT else (tag, self.one_of(shape.blocks, 2)) + self.stack(shape.resources)

    def stack(self, resources):
        """How many resources are held, and these, none twice."""
        held = []
        for _ in range(self.one_of(range(len(resources) + 1))):
            held.append(self.one_of([r for r in resources if r not in held]))
        return (len(held),) + tuple(held)


def read_table(app, data):
    """The table of an application that these bytes spell; their first fault is raised."""
    if len(data) > MOST:
        raise Fault('K6', MOST)
    reader = TableReader(app, data)
    try:
        return reader.read()
    except Cut:
        raise Fault('K1', reader.place) from None


def table_told(app, data, name):
    """The table that these bytes spell; where they spell none, their first fault is told, with the name of the file."""
    try:
        return read_table(app, data)
    except Fault as fault:
        raise Wrong('%s: %s at byte %d (0x%x): %s' % (name, fault.rule, fault.offset, fault.offset, RULES[fault.rule])) from None
