"""The objects that an OIL text declares, with their lines, and the system that they are. A text without fault is read as osekfit
reads it; attributes that the table of docs/LANGUAGE.md doesn't have are kept among the objects, and the system leaves them out."""
from collections import namedtuple

from lib import opened
from lib.tokens import Cursor, number_of

Object = namedtuple('Object', 'kind name line attributes')

Attribute = namedtuple('Attribute', 'name value line attributes')
"""An attribute: its value is a word of the text, and what stands between the value's braces are attributes too."""

System = namedtuple('System', 'hooks modes tasks isrs counters alarms events resources')
"""What a text declares: the hooks that are TRUE, the names of the modes, and the other objects by their names, in order."""

Task = namedtuple('Task', 'name priority is_full events own resources modes line activation internal', defaults=(1, None))
"""A task: its events by name, and their bits together (`own`); the modes in which it is started, by number; how many activations it has at
most, and the name of its INTERNAL resource, or None."""

Isr = namedtuple('Isr', 'name category line priority resources', defaults=(0, ()))

Counter = namedtuple('Counter', 'name most least_cycle line')

Alarm = namedtuple('Alarm', 'name counter task event mask modes time cycle line')
"""An alarm: the event is None where the task is activated, and the mask 0 then."""

Resource = namedtuple('Resource', 'name ceiling line is_internal interrupt_ceiling', defaults=(False, 0))
"""A resource: its ceiling among tasks, and its ceiling among interrupt routines, which is 0 where none names it."""

HOOKS = {'STARTUPHOOK': 'Startup', 'SHUTDOWNHOOK': 'Shutdown', 'ERRORHOOK': 'Error', 'PRETASKHOOK': 'PreTask',
         'POSTTASKHOOK': 'PostTask'}

DEFAULT_MODE, SCHEDULER = 'OSDEFAULTAPPMODE', 'RES_SCHEDULER'


class OilReader(Cursor):
    def __init__(self, text, name):
        super().__init__(text, name)
        self.declared = {}

    def read(self):
        """The objects of the text, in order."""
        self.skip_head()
        self.want('CPU')
        self.take_name()
        self.want('{')
        found = []
        while not self.took('}'):
            line = self.line()
            found.append(Object(self.take_name(), self.take_name(), line, self.read_braces()))
            self.skip_end()
        self.skip_end()
        if not self.is_done():
            self.stop('nothing is wanted behind CPU')
        return found

    def skip_head(self):
        if self.took('OIL_VERSION'):
            self.want('=')
            self.take()
            self.skip_end()
        if self.took('IMPLEMENTATION'):
            self.take_name()
            self.want('{')
            self.read_declarations()
            self.skip_end()

    def read_declarations(self):
        """Passes over what an IMPLEMENTATION declares; for each kind of object the words in its braces are kept."""
        depth, kind = 1, None
        while depth:
            word = self.take()
            kind = word if depth == 1 and word.isalpha() else kind
            depth += (word == '{') - (word == '}')
            self.declared.setdefault(kind, set()).add(word)

    def skip_end(self):
        if self.took(':'):
            self.take()
        self.want(';')

    def read_braces(self):
        found = []
        if self.took('{'):
            while not self.took('}'):
                line, name = self.line(), self.take_name()
                self.want('=')
                value = self.take()
                if value in ('+', '-'):
                    value += self.take()
                found.append(Attribute(name, value, line, self.read_braces()))
                self.skip_end()
        return found


def objects_of(text, name='the OIL text'):
    """The objects of an OIL text; the name is the file's, for what is told."""
    return OilReader(text, name).read()


def first(attributes, name, default=None):
    """The first attribute of this name, or one with the default as its value."""
    for attribute in attributes:
        if attribute.name == name:
            return attribute
    return Attribute(name, default, 0, [])


def value(attributes, name, default=None):
    return first(attributes, name, default).value


def values(attributes, name):
    return [a.value for a in attributes if a.name == name]


class SystemMaker:
    """Makes the system of objects among which none is faulty."""

    def __init__(self, objects):
        self.objects = objects

    def of_kind(self, kind):
        return [o for o in self.objects if o.kind == kind]

    def make(self):
        os = self.of_kind('OS')[0] if self.of_kind('OS') else Object('OS', '', 0, [])
        self.modes = [DEFAULT_MODE] + [o.name for o in self.of_kind('APPMODE') if o.name != DEFAULT_MODE]
        self.masks = masks_of(self.of_kind('EVENT'))
        self.internal = {o.name for o in self.of_kind('RESOURCE') if value(o.attributes, 'RESOURCEPROPERTY') == 'INTERNAL'}
        hooks = [shown for word, shown in HOOKS.items() if value(os.attributes, word) == 'TRUE']
        named = {o.name: self.task(o) for o in self.of_kind('TASK')}
        counters = {o.name: counter_of(o) for o in self.of_kind('COUNTER')}
        isrs = {o.name: isr_of(o) for o in self.of_kind('ISR')}
        alarms = {o.name: self.alarm(o) for o in self.of_kind('ALARM')}
        resources = self.resources(named.values(), isrs.values(), value(os.attributes, 'USERESSCHEDULER', 'TRUE') == 'TRUE')
        return System(hooks, self.modes, named, isrs, counters, alarms, self.masks, resources)

    def started_in(self, autostart):
        """The numbers of the modes that an AUTOSTART names: all where it names none."""
        if autostart.value != 'TRUE':
            return frozenset()
        names = values(autostart.attributes, 'APPMODE')
        return frozenset(k for k, mode in enumerate(self.modes) if mode in names or not names)

    def task(self, found):
        a = found.attributes
        own = 0
        for event in values(a, 'EVENT'):
            own |= self.masks.get(event, 0)
        return Task(found.name, number_of(value(a, 'PRIORITY', '0')) or 0, value(a, 'SCHEDULE', 'FULL') == 'FULL', values(a, 'EVENT'), own,
                    values(a, 'RESOURCE'), self.started_in(first(a, 'AUTOSTART', 'FALSE')), found.line,
                    number_of(value(a, 'ACTIVATION', '1')) or 1, next((r for r in values(a, 'RESOURCE') if r in self.internal), None))

    def alarm(self, found):
        a = found.attributes
        action, start = first(a, 'ACTION', ''), first(a, 'AUTOSTART', 'FALSE')
        event = value(action.attributes, 'EVENT') if action.value == 'SETEVENT' else None
        modes = self.started_in(start)
        time, cycle = (number_of(value(start.attributes, word, '0')) if modes else 0 for word in ('ALARMTIME', 'CYCLETIME'))
        return Alarm(found.name, value(a, 'COUNTER'), value(action.attributes, 'TASK'), event, self.masks.get(event, 0), modes, time,
                     cycle, found.line)

    def resources(self, tasks, isrs, has_scheduler):
        found = {}
        for o in self.of_kind('RESOURCE'):
            if o.name != SCHEDULER or not has_scheduler:
                above = max((1 + i.priority for i in isrs if i.category == 2 and o.name in i.resources), default=0)
                below = ceiling(tasks, 1) if above else ceiling([t for t in tasks if o.name in t.resources], 0)
                found[o.name] = Resource(o.name, below, o.line, o.name in self.internal, above)
        if has_scheduler:
            found[SCHEDULER] = Resource(SCHEDULER, ceiling(tasks, 1), 0)
        return found


def isr_of(found):
    """An interrupt routine; priorities and resources count from where routines nest on."""
    a, is_later = found.attributes, opened.has(opened.NESTED)
    category = number_of(value(a, 'CATEGORY', '2'))
    return Isr(found.name, category, found.line, (number_of(value(a, 'PRIORITY', '0')) or 0) if is_later else 0, values(a, 'RESOURCE') if is_later else [])


def ceiling(tasks, where_none):
    """The ceiling of a resource that these tasks may take: above each of them, and below the next priority."""
    return max((2 * t.priority + 1 for t in tasks), default=where_none)


def counter_of(found):
    a = found.attributes
    return Counter(found.name, number_of(value(a, 'MAXALLOWEDVALUE', '1')) or 1, number_of(value(a, 'MINCYCLE', '1')) or 0, found.line)


def masks_of(events):
    """The mask of each event: what MASK says, and for AUTO the lowest bit that no explicit mask and no earlier AUTO takes."""
    said = {o.name: number_of(value(o.attributes, 'MASK', 'AUTO')) for o in events}
    used = 0
    for mask in said.values():
        used |= mask or 0
    for name in said:
        if said[name] is None:
            said[name] = ~used & (used + 1)
            used |= said[name]
    return said


def system_of(text, name='the OIL text'):
    """The system that an OIL text without fault declares."""
    return SystemMaker(objects_of(text, name)).make()
