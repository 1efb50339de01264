"""What lint.py finds in an OIL text alone: attributes that are passed over, and objects that nobody can use as they stand."""
import difflib

from lib import oil, opened

KNOWN = {
    'OS': {'STATUS', 'USERESSCHEDULER'} | set(oil.HOOKS),
    'APPMODE': set(),
    'TASK': {'PRIORITY', 'SCHEDULE', 'ACTIVATION', 'AUTOSTART', 'RESOURCE', 'EVENT'},
    'ISR': {'CATEGORY', 'RESOURCE'},
    'COUNTER': {'MAXALLOWEDVALUE', 'TICKSPERBASE', 'MINCYCLE'},
    'ALARM': {'COUNTER', 'ACTION', 'AUTOSTART'},
    'EVENT': {'MASK'},
    'RESOURCE': {'RESOURCEPROPERTY'},
}
"""The attributes that the table of docs/LANGUAGE.md has, by the kind of the object."""

WITHIN = {
    ('TASK', 'AUTOSTART', 'TRUE'): {'APPMODE'},
    ('ALARM', 'AUTOSTART', 'TRUE'): {'ALARMTIME', 'CYCLETIME', 'APPMODE'},
    ('ALARM', 'ACTION', 'ACTIVATETASK'): {'TASK'},
    ('ALARM', 'ACTION', 'SETEVENT'): {'TASK', 'EVENT'},
}
"""Those between the braces of a value, by the kind, the attribute and the value."""


REQUIRED = {'TASK': ['PRIORITY'], 'COUNTER': ['MAXALLOWEDVALUE'], 'ALARM': ['COUNTER', 'ACTION'], 'ISR': ['CATEGORY']}
"""The attributes that an object of a kind has to have."""

REQUIRED_WITHIN = {('ACTION', 'ACTIVATETASK'): ['TASK'], ('ACTION', 'SETEVENT'): ['TASK', 'EVENT'],
                   ('AUTOSTART', 'TRUE'): ['ALARMTIME', 'CYCLETIME']}
"""Those that have to stand between the braces of an alarm's attribute, by its name and value."""

REFERENCES = {'RESOURCE': 'RESOURCE', 'EVENT': 'EVENT', 'APPMODE': 'APPMODE', 'COUNTER': 'COUNTER', 'TASK': 'TASK'}
"""The attributes whose value names an object, and that object's kind."""


def missing(objects, line):
    """What is missing in the objects and attributes of a line, as words."""
    for found in objects:
        if found.line == line:
            yield from ('%s of %s %s' % (name, found.kind, found.name) for name in absent(found.attributes, REQUIRED.get(found.kind, [])))
        for attribute in found.attributes if found.kind == 'ALARM' else []:
            if attribute.line == line:
                wanted = REQUIRED_WITHIN.get((attribute.name, attribute.value), [])
                yield from ('%s within %s of ALARM %s' % (name, attribute.name, found.name) for name in absent(attribute.attributes, wanted))


def absent(attributes, wanted):
    there = {attribute.name for attribute in attributes}
    return [name for name in wanted if name not in there]


def undeclared(objects, line):
    """What the attributes of a line name and no object declares, as words."""
    there = {(o.kind, o.name) for o in objects} | {('APPMODE', oil.DEFAULT_MODE), ('RESOURCE', oil.SCHEDULER)}
    for found in objects:
        for attribute in found.attributes + [part for a in found.attributes for part in a.attributes]:
            kind = REFERENCES.get(attribute.name)
            if attribute.line == line and kind and (kind, attribute.value) not in there:
                yield '%s %s of %s %s' % (kind, attribute.value, found.kind, found.name)


MOST_NAMED = 12
"""How many attributes are told by name that are passed over."""


def nearest(name, known):
    """The known name that is most like this one, as words to add."""
    close = difflib.get_close_matches(name.upper(), sorted(known), 1, 0.6)
    return ': %s is known' % close[0] if close else ''


def known_of(kind):
    """The attributes that have an effect; the priority of a routine has one from where routines nest on."""
    return KNOWN.get(kind, set()) | ({'PRIORITY'} if kind == 'ISR' and opened.has(opened.NESTED) else set())


def passed_over(objects, declared):
    """Attributes that have no effect since the table doesn't have them; those that IMPLEMENTATION declares are a vendor's. Those whose name is like no
    known one are told together."""
    others = []
    for line, text, near in all_passed_over(objects, declared):
        if near:
            yield line, text + near
        else:
            others.append((line, text))
    if len(others) == 1:
        yield others[0]
    elif others:
        names = list(dict.fromkeys(text.split(' ')[0] for _, text in others))
        more = ' and %d more' % (len(names) - MOST_NAMED) if len(names) > MOST_NAMED else ''
        yield others[0][0], '%d attributes from here on are passed over: %s%s' % (len(others), ', '.join(names[:MOST_NAMED]), more)


def all_passed_over(objects, declared):
    """Each attribute that is passed over: its line, a text, and the known name that is like it as words to add."""
    for found in objects:
        known, vendors = known_of(found.kind), declared.get(found.kind, set())
        for attribute in found.attributes:
            if attribute.name in known:
                inner = WITHIN.get((found.kind, attribute.name, attribute.value), set())
                for part in attribute.attributes:
                    if part.name not in inner and part.name not in vendors:
                        yield part.line, '%s within %s is passed over' % (part.name, attribute.name), nearest(part.name, inner)
            elif attribute.name not in vendors:
                yield attribute.line, '%s of %s %s is passed over' % (attribute.name, found.kind, found.name), nearest(attribute.name, known)


def shared_masks(system):
    """Tasks that name two events which share a bit. Events of different tasks may: bits are counted by task."""
    for task in system.tasks.values():
        for k, name in enumerate(task.events):
            other = next((other for other in task.events[:k] if other != name and system.events.get(name, 0) & system.events.get(other, 0)), None)
            if other:
                yield task.line, 'task %s names the events %s and %s, which share a bit of their masks' % (task.name, other, name)


def moot_groups(system):
    """Tasks that aren't preempted at all, and name an INTERNAL resource besides."""
    for task in system.tasks.values():
        if task.internal and not task.is_full:
            yield task.line, 'task %s is NON and names the INTERNAL resource %s: ISO 17356-6 does not allow both, and NON alone keeps more away' % (
                task.name, task.internal)


def alarm_actions(system):
    """Alarms whose event their task can't take."""
    for alarm in system.alarms.values():
        task = system.tasks.get(alarm.task)
        if task and alarm.event and not task.own:
            yield alarm.line, 'alarm %s sets an event of the basic task %s, which is refused (E_OS_ACCESS)' % (alarm.name, task.name)
        elif task and alarm.event and alarm.event not in task.events and not alarm.mask & task.own:
            yield alarm.line, 'alarm %s sets %s, which task %s does not name: nothing happens' % (alarm.name, alarm.event, task.name)


def unused_modes(objects, system):
    started = {mode for starts in (system.tasks, system.alarms) for found in starts.values() for mode in found.modes}
    for found in objects:
        if found.kind == 'APPMODE' and system.modes.index(found.name) not in started:
            yield found.line, 'nothing is started in the mode %s' % found.name


def unused_counters(system):
    used = {alarm.counter for alarm in system.alarms.values()}
    for counter in system.counters.values():
        if counter.name not in used:
            yield counter.line, 'counter %s has no alarm' % counter.name
