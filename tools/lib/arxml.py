"""The configuration of an AUTOSAR OS (ECUC values in ARXML) as objects of OIL, for flatten.py."""
from collections import namedtuple
from xml.parsers import expat

from lib.flat_oil import Part, Thing
from lib.given import Wrong, data
from lib.oil_tokens import Token

Element = namedtuple('Element', 'name line children texts')
"""An element: its name without a namespace, its line, the elements in it, and the pieces of its text."""

Container = namedtuple('Container', 'kind name line values references parts')
"""A container of values: the last word of its definition, its own name, its line, its parameters and references by the last words of their
definitions, each with its line, and the containers in it."""

HOOKS = {'OsStartupHook': 'STARTUPHOOK', 'OsErrorHook': 'ERRORHOOK', 'OsShutdownHook': 'SHUTDOWNHOOK', 'OsPreTaskHook': 'PRETASKHOOK',
         'OsPostTaskHook': 'POSTTASKHOOK'}

VALUES = {
    'OsOS': {'OsStatus': 'STATUS', 'OsUseResScheduler': 'USERESSCHEDULER', **HOOKS},
    'OsTask': {'OsTaskPriority': 'PRIORITY', 'OsTaskSchedule': 'SCHEDULE', 'OsTaskActivation': 'ACTIVATION', 'OsTaskResourceRef': 'RESOURCE',
               'OsTaskEventRef': 'EVENT'},
    'OsIsr': {'OsIsrCategory': 'CATEGORY', 'OsIsrPriority': 'PRIORITY', 'OsIsrInterruptPriority': 'PRIORITY', 'OsIsrResourceRef': 'RESOURCE'},
    'OsCounter': {'OsCounterMaxAllowedValue': 'MAXALLOWEDVALUE', 'OsCounterTicksPerBase': 'TICKSPERBASE', 'OsCounterMinCycle': 'MINCYCLE'},
    'OsEvent': {'OsEventMask': 'MASK'},
    'OsResource': {'OsResourceProperty': 'RESOURCEPROPERTY'},
    'OsAlarm': {'OsAlarmCounterRef': 'COUNTER'},
    'OsAppMode': {},
}
"""The parameters and references that are carried, by the kind of container, and what they are in OIL."""

KINDS = {'OsOS': 'OS', 'OsTask': 'TASK', 'OsIsr': 'ISR', 'OsCounter': 'COUNTER', 'OsEvent': 'EVENT', 'OsResource': 'RESOURCE', 'OsAlarm': 'ALARM',
         'OsAppMode': 'APPMODE', 'OsScheduleTable': 'SCHEDULETABLE', 'OsSpinlock': 'SPINLOCK', 'OsApplication': 'OSAPPLICATION'}
"""What a container is in OIL; the last three are named as what isn't carried."""

CORES = 'OsNumberOfCores'

ACTIONS = {
    'OsAlarmActivateTask': ('ACTIVATETASK', {'OsAlarmActivateTaskRef': 'TASK'}),
    'OsAlarmSetEvent': ('SETEVENT', {'OsAlarmSetEventTaskRef': 'TASK', 'OsAlarmSetEventRef': 'EVENT'}),
    'OsAlarmCallback': ('ALARMCALLBACK', {}),
    'OsAlarmIncrementCounter': ('INCREMENTCOUNTER', {}),
}

AUTOSTARTS = {'OsTaskAutostart': {'OsTaskAppModeRef': 'APPMODE'},
              'OsAlarmAutostart': {'OsAlarmAlarmTime': 'ALARMTIME', 'OsAlarmCycleTime': 'CYCLETIME', 'OsAlarmAppModeRef': 'APPMODE'}}

WORDS = {'true': 'TRUE', 'false': 'FALSE', '1': 'TRUE', '0': 'FALSE', 'CATEGORY_1': '1', 'CATEGORY_2': '2'}
"""What words of parameters are in OIL; the numbers are those of parameters that are true or false."""


def element_of(text, name):
    """The root of an XML text."""
    parser, stack = expat.ParserCreate(), [Element('', 0, [], [])]

    def begin(tag, _attributes):
        stack.append(Element(tag.rpartition(':')[2], parser.CurrentLineNumber, [], []))

    def end(_tag):
        stack[-2].children.append(stack.pop())

    parser.StartElementHandler, parser.EndElementHandler = begin, end
    parser.CharacterDataHandler = lambda found: stack[-1].texts.append(found)
    try:
        parser.Parse(text, True)
    except expat.ExpatError as error:
        raise Wrong('%s:%d: no XML: %s' % (name, error.lineno, expat.ErrorString(error.code))) from None
    return stack[0].children[0]


def child(element, name):
    return next((one for one in element.children if one.name == name), Element(name, element.line, [], []))


def text_of(element):
    return ''.join(element.texts).strip()


def last_word(path):
    return path.rpartition('/')[2]


def named(element, list_name, value_name):
    """The parameters or references of a container: pairs of the last word of the definition, and the value with its line."""
    return [(last_word(text_of(child(one, 'DEFINITION-REF'))), (text_of(child(one, value_name)), one.line)) for one in child(element, list_name).children]


def container_of(element):
    parts = [container_of(one) for one in child(element, 'SUB-CONTAINERS').children]
    return Container(last_word(text_of(child(element, 'DEFINITION-REF'))), text_of(child(element, 'SHORT-NAME')), element.line,
                     named(element, 'PARAMETER-VALUES', 'VALUE'), named(element, 'REFERENCE-VALUES', 'VALUE-REF'), parts)


def containers(element):
    """The outermost containers below an element."""
    if element.name == 'ECUC-CONTAINER-VALUE':
        return [container_of(element)]
    return [found for one in element.children for found in containers(one)]


class Maker:
    """Makes objects of the containers of a file."""

    def __init__(self, name, notes):
        self.name, self.notes = name, notes

    def token(self, text, line):
        return Token(text, self.name, line)

    def part(self, name, text, line, parts=()):
        return Part(name, self.token(text, line), self.token(name, line), list(parts))

    def things(self, found):
        """The objects of the outermost containers. Of an OS's other kinds there is the name alone, to be told that they are dropped."""
        inner = [part for one in found for part in [one] + one.parts if part.kind in KINDS]
        others = [one for one in found if one.kind.startswith('Os') and one.kind not in KINDS]
        return [self.thing(one) for one in inner] + [Thing(one.kind, one.name, self.token(one.kind, one.line), []) for one in others]

    def thing(self, found):
        self.judge_cores(found)
        parts = list(self.values(found, VALUES.get(found.kind, {})))
        for inner in found.parts:
            parts += self.inner(found, inner)
        if found.kind == 'OsIsr' and 'CATEGORY' not in [part.name for part in parts]:
            parts.append(self.part('CATEGORY', '2', found.line))
        return Thing(KINDS[found.kind], found.name, self.token(KINDS[found.kind], found.line), parts)

    def judge_cores(self, found):
        for word, (text, line) in found.values:
            if word == CORES and text.strip() not in ('', '0', '1'):
                self.notes.note(self.token(word, line), '%s cores: all tasks are taken to run on one, one at a time' % text, True)

    def values(self, found, meant):
        """The attributes of a container's parameters and references; of others it is noted that they are passed over."""
        for word, (text, line) in found.values + found.references:
            if word in meant:
                yield self.part(meant[word], self.word(meant[word], last_word(text)), line)
            elif word != CORES:
                self.notes.passed[(found.kind, word, '')] += 1

    def word(self, name, text):
        is_switch = name in ('USERESSCHEDULER', *HOOKS.values())
        return WORDS.get(text, text) if is_switch or name == 'CATEGORY' and not text.isdigit() else text

    def inner(self, found, inner):
        """The attributes that a container within another one is."""
        if inner.kind in AUTOSTARTS:
            return [self.part('AUTOSTART', 'TRUE', inner.line, self.values(inner, AUTOSTARTS[inner.kind]))]
        if inner.kind == 'OsHooks':
            return list(self.values(inner, HOOKS))
        if inner.kind == 'OsAlarmAction':
            return [self.action(one) for one in inner.parts]
        if inner.kind in ACTIONS:
            return [self.action(inner)]
        if inner.kind.endswith('TimingProtection'):
            return [self.part('TIMING_PROTECTION', 'TRUE', inner.line)]
        self.notes.passed[(found.kind, inner.kind, '')] += 1
        return []

    def action(self, found):
        word, meant = ACTIONS.get(found.kind, (found.kind, {}))
        return self.part('ACTION', word, found.line, self.values(found, meant))


def objects_of(name, notes):
    """The objects of the OS configuration in a file, and the name of their package; what is passed over goes to the notes."""
    found = containers(element_of(data(name), name))
    things = Maker(name, notes).things(found)
    if not things:
        raise Wrong('%s: there are no ECUC values of an OS' % name)
    if 'OS' not in [thing.kind for thing in things]:
        things.append(Thing('OS', 'Os', Token('OS', name, 1), []))
    return things
