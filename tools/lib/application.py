"""An application: the system that an OIL text declares, with the blocks of its task code and of its tick routines. The two texts are
taken to be without fault."""
from collections import namedtuple

from lib import oil, rules, task_code
from lib.given import Wrong
from lib.states import Live
from lib.task_code import Block, Owner

Source = namedtuple('Source', 'mark name first priority', defaults=(0,))
"""A source of interrupts: a counter (%) or a category 2 ISR (@), the first block of its routine, and its priority among routines."""

SITE_CALLS = {'ActivateTask', 'TerminateTask', 'ChainTask', 'Schedule', 'ReleaseResource', 'SetEvent', 'WaitEvent', 'end'}
"""The statements of a task after which the kernel may dispatch another task."""

SHAPES = {
    'ActivateTask': 't', 'TerminateTask': '', 'ChainTask': 't', 'Schedule': '', 'GetTaskID': '', 'GetTaskState': 't',
    'GetResource': 'r', 'ReleaseResource': 'r', 'SetEvent': 'tm', 'ClearEvent': 'm', 'GetEvent': 't', 'WaitEvent': 'm',
    'SetRelAlarm': 'ann', 'SetAbsAlarm': 'ann', 'CancelAlarm': 'a', 'GetAlarm': 'a', 'GetActiveApplicationMode': '', 'ShutdownOS': 's',
    **dict.fromkeys(task_code.LOCKS, ''),
}
"""The services, each with its arguments: a task, a resource, a mask of events, an alarm, a number, a status."""


OWN = {'work', 'choice', 'loop', 'end'}
"""The words of blocks that are no calls."""


def misshapen(block):
    """Why a block of the text is no call of a service, or None."""
    shape = SHAPES.get(block.word)
    if block.word in OWN:
        return None
    if shape is None:
        return 'there is no service %s' % block.word
    if len(shape) != len(block.arguments) or any((letter == 'n') != isinstance(a, int) for letter, a in zip(shape, block.arguments)):
        return '%s has other arguments than the service' % block.text
    return None


class Application:
    """The tables of an application, by number, and what is looked up in them. The blocks are all, those of tick routines too."""

    def __init__(self, system, blocks):
        self.hooks, self.modes = system.hooks, system.modes
        self.tasks, self.alarms = list(system.tasks.values()), list(system.alarms.values())
        self.counters, self.resources = list(system.counters.values()), list(system.resources.values())
        self.events = system.events
        self.task_number = {task.name: k for k, task in enumerate(self.tasks)}
        self.alarm_number = {alarm.name: k for k, alarm in enumerate(self.alarms)}
        self.counter_number = {counter.name: k for k, counter in enumerate(self.counters)}
        self.resource_number = {resource.name: k for k, resource in enumerate(self.resources)}
        self.blocks = list(blocks)
        firsts = first_blocks(blocks)
        self.first = [firsts[Owner('TASK', task.name)] for task in self.tasks]
        ticks = [Source('%', counter.name, firsts[Owner('TICK', counter.name)]) for counter in self.counters]
        self.sources = ticks + [Source('@', isr.name, firsts[Owner('ISR', isr.name)], isr.priority)
                                for isr in system.isrs.values() if isr.category == 2]
        self.internal = [None if task.internal is None else self.resource_number[task.internal] for task in self.tasks]

    def occupied(self, task, activity):
        """The numbers of the resources that a task has: its INTERNAL one where it is inside, then those that it took; none where it isn't live."""
        if not isinstance(activity, Live):
            return ()
        return ((self.internal[task],) if activity.inside else ()) + activity.held

    def takable(self):
        """The numbers of the resources that calls take: those that aren't INTERNAL."""
        return [k for k, resource in enumerate(self.resources) if not resource.is_internal]

    def is_site(self, number):
        return is_site(self.blocks[number])

    def sites(self):
        return [number for number in range(len(self.blocks)) if self.is_site(number)]

    def mask(self, names):
        found = 0
        for name in names:
            found |= self.events[name]
        return found

    def own_bits(self):
        """The event bits that tasks have, as pairs of a task's number and a bit."""
        return [(t, bit) for t, task in enumerate(self.tasks) for bit in range(64) if task.own >> bit & 1]

    def blocks_of_source(self, source):
        owner = self.blocks[self.sources[source].first].owner
        return [k for k, block in enumerate(self.blocks) if block.owner == owner]

    def source_of(self, block):
        """The number of the source whose routine has a block."""
        owner = self.blocks[block].owner
        return next(k for k, source in enumerate(self.sources) if self.blocks[source.first].owner == owner)

    def blocks_of_task(self, task):
        return [k for k, block in enumerate(self.blocks) if block.owner == Owner('TASK', self.tasks[task].name)]

    def fault_of(self, block):
        """Why a block of the text can't be done, or None: what its call names isn't there."""
        fault = misshapen(block)
        if fault or block.word in OWN:
            return fault
        for letter, argument in zip(SHAPES[block.word], block.arguments):
            known = {'t': self.task_number, 'r': self.resource_number, 'm': self.events, 'a': self.alarm_number}.get(letter)
            if known is not None and any(name not in known for name in argument):
                return '%s names what is not declared' % block.text
        return None


def is_site(block):
    """Whether a block is a call site: a task's call that may dispatch, the end of a task, or that of a routine."""
    return block.word == 'end' if block.owner.kind != 'TASK' else block.word in SITE_CALLS


def tick_routines(system, first):
    """The blocks of the counters' routines, of which the first has this number: each counts, lets its counter's alarms expire, and ends."""
    found = []
    for counter in system.counters:
        alarms = [alarm.name for alarm in system.alarms.values() if alarm.counter == counter]
        for word, arguments in [('count', [])] + [('expire', [name]) for name in alarms] + [('end', [])]:
            next_ = None if word == 'end' else first + len(found) + 1
            found.append(Block(Owner('TICK', counter), 0, ' '.join([word] + arguments), word, arguments, False, next_, None))
    return found


def first_blocks(blocks):
    found = {}
    for number, block in enumerate(blocks):
        found.setdefault(block.owner, number)
    return found


def joined(system, blocks, names):
    """The application of a system and blocks; what keeps them from being one is told by the names of their files."""
    declared = {Owner('TASK', name) for name in system.tasks}
    declared |= {Owner('ISR', isr.name) for isr in system.isrs.values() if isr.category == 2}
    for owner in sorted(declared ^ {block.owner for block in blocks}):
        what = 'there is no code for' if owner in declared else 'the OIL text does not declare'
        raise Wrong('%s: %s %s %s (osekfit says which rule is violated)' % (names[1], what, owner.kind, owner.name))
    for alarm in system.alarms.values():
        if alarm.counter not in system.counters or alarm.task not in system.tasks or alarm.event not in [None] + list(system.events):
            raise Wrong('%s:%d: alarm %s names what is not declared' % (names[0], alarm.line, alarm.name))
    app = Application(system, blocks + tick_routines(system, len(blocks)))
    rules.judge_calls(system, blocks, names[1])
    for block in blocks:
        fault = app.fault_of(block)
        if fault:
            raise Wrong('%s:%d: %s (osekfit says which rule is violated)' % (names[1], block.line, fault))
    return app


def application_of(oil_text, code_text, names=('the OIL text', 'the task code')):
    """The application of the two texts; the names are the files', for what is told."""
    objects = oil.objects_of(oil_text, names[0])
    rules.judge_objects(objects, names[0])
    return joined(oil.SystemMaker(objects).make(), task_code.blocks_of(code_text, names[1]), names)
