"""What lint.py finds in task code, read with its OIL text: calls that are refused each time, ends that are reached by accident, and
objects that no call uses."""
from lib import opened
from lib.flow import REFUSED_WHILE_HELD, held_at, is_above, leads_to, ways

FOR_TASKS_ALONE = {'TerminateTask', 'ChainTask', 'Schedule', 'WaitEvent', 'ClearEvent'}

ALARM_CALLS = {'SetRelAlarm': 'increment', 'SetAbsAlarm': 'start'}


class Code:
    """An application with what its calls name."""

    def __init__(self, app):
        self.app = app
        self.tasks = {task.name: task for task in app.tasks}
        self.alarms = {alarm.name: alarm for alarm in app.alarms}
        self.counters = {counter.name: counter for counter in app.counters}
        self.written = [(number, block) for number, block in enumerate(app.blocks) if block.owner.kind != 'TICK']

    def calls(self, *words):
        """The calls of these services that stand in the text."""
        return [block for _, block in self.written if block.word in words]

    def named_by(self, *words):
        """The names that stand first in calls of these services."""
        return {block.arguments[0][0] for block in self.calls(*words)}

    def events_of(self, block):
        """The task whose events a call is about, or None in a routine, and the events that it names."""
        if block.word in ('SetEvent', 'GetEvent'):
            return self.tasks.get(block.arguments[0][0]), block.arguments[1] if block.word == 'SetEvent' else []
        return self.tasks.get(block.owner.name) if block.owner.kind == 'TASK' else None, block.arguments[0]

    def mask_of(self, block):
        return self.app.mask(self.events_of(block)[1])


def calls_of_routines(code):
    for block in code.calls(*FOR_TASKS_ALONE):
        if block.owner.kind == 'ISR':
            yield block.line, '%s in the routine %s is refused (E_OS_CALLEVEL)' % (block.word, block.owner.name)


def events_of_others(code):
    """Calls about events that their task doesn't have."""
    for block in code.calls('SetEvent', 'GetEvent', 'WaitEvent', 'ClearEvent'):
        task, events = code.events_of(block)
        if task and not task.own:
            yield block.line, '%s: %s is a basic task, so this is refused (E_OS_ACCESS)' % (block.text, task.name)
        elif task:
            for event in events:
                if not code.app.events.get(event, 0) & task.own:
                    after = ', and would wait for ever' if block.word == 'WaitEvent' and len(events) == 1 else ''
                    yield block.line, '%s: task %s does not name %s, so it is ignored%s' % (block.text, task.name, event, after)


def events_by_bits(code):
    """Calls that set an event which the task doesn't name, but one of whose bits is that of an event which it names."""
    for block in code.calls('SetEvent'):
        task, events = code.events_of(block)
        for event in events if task else []:
            met = [name for name in task.events if code.app.events.get(event, 0) & code.app.events.get(name, 0)]
            if event not in task.events and met:
                yield block.line, '%s: task %s does not name %s, which shares a bit with its %s: that is set' % (block.text, task.name, event, met[0])


def alarm_numbers(code):
    for block in code.calls(*ALARM_CALLS):
        name, first, cycle = block.arguments[0][0], block.arguments[1], block.arguments[2]
        counter = code.counters[code.alarms[name].counter]
        if block.word == 'SetRelAlarm' and first == 0:
            yield block.line, '%s: an increment of 0 is refused (E_OS_VALUE)' % block.text
        elif first > counter.most:
            yield block.line, '%s: the %s is above MAXALLOWEDVALUE of %s, %d (E_OS_VALUE)' % (block.text, ALARM_CALLS[block.word],
                                                                                               counter.name, counter.most)
        elif cycle and not counter.least_cycle <= cycle <= counter.most:
            yield block.line, '%s: the cycle is outside %d to %d of %s (E_OS_VALUE)' % (block.text, counter.least_cycle, counter.most,
                                                                                       counter.name)


def unnamed_resources(code):
    for block in code.calls('GetResource'):
        task = code.tasks.get(block.owner.name)
        if task and block.arguments[0][0] not in task.resources + ['RES_SCHEDULER']:
            low = 'is too low, and this is refused (E_OS_ACCESS)' if is_above(code.app, block) else 'may be too low'
            yield block.line, '%s: task %s does not name this resource, so its ceiling %s' % (block.text, task.name, low)


def own_activations(code):
    for block in code.calls('ActivateTask'):
        if block.owner == ('TASK', block.arguments[0][0]) and code.tasks[block.owner.name].activation == 1:
            yield block.line, '%s: a task that runs takes no second activation (E_OS_LIMIT)' % block.text


def held_resources(code):
    """Where the text shows that a resource is held too long, taken twice, or given back in another order."""
    routines = [(source.name, source.first) for source in code.app.sources if source.mark == '@']
    for name, first in [(task.name, first) for task, first in zip(code.app.tasks, code.app.first)] + routines:
        for number, stacks in sorted(held_at(ways(code.app, first)).items()):
            block = code.app.blocks[number]
            for stack in sorted(stacks):
                told = fault_of_held(block, stack)
                if told and not (block.owner.kind == 'ISR' and block.word in FOR_TASKS_ALONE):
                    yield block.line, '%s: %s' % (block.text if block.word != 'end' else 'the end of ' + name, told)
                    break


def fault_of_held(block, stack):
    """What is wrong with a block where these resources are held, or None."""
    if stack and block.word in REFUSED_WHILE_HELD:
        return '%s may be held here, and then this is refused (E_OS_RESOURCE)' % stack[-1]
    if stack and block.word == 'end':
        return '%s may be held here: it is given back, without a status' % stack[-1]
    if block.word == 'GetResource' and block.arguments[0][0] in stack:
        return 'it may be held already, and then this is refused (E_OS_ACCESS)'
    if block.word == 'ReleaseResource' and stack[-1:] != (block.arguments[0][0],):
        return 'it may not be the resource taken last, and then this is refused (E_OS_NOFUNC)'
    return None


def ends_without_a_call(code):
    """Tasks whose closing brace may be reached with nothing held, so that no TerminateTask or ChainTask was refused before."""
    for task, first in zip(code.app.tasks, code.app.first):
        for number, stacks in held_at(ways(code.app, first)).items():
            if code.app.blocks[number].word == 'end' and () in stacks:
                yield code.app.blocks[number].line, 'task %s may end here without TerminateTask or ChainTask' % task.name


def dead_statements(code):
    """The first statement of each stretch that no way leads to."""
    reached = {number for first in code.app.first + [s.first for s in code.app.sources] for number, _ in ways(code.app, first)}
    for number, block in code.written:
        is_first = number == 0 or number - 1 in reached or code.written[number - 1][1].owner != block.owner
        if number not in reached and is_first and block.word != 'end':
            yield block.line, '%s: no way leads here' % block.text


def endless_tasks(code):
    """Tasks that come to a loop for ever in which nothing waits, though others are below them."""
    for task, first in zip(code.app.tasks, code.app.first):
        others = [other.priority for other in code.app.tasks if other is not task and other.priority <= task.priority]
        which = 'below it' if task.priority not in others else 'of its priority or below'
        for number in sorted({number for number, _ in ways(code.app, first)}):
            inside = {b for b, _ in ways(code.app, number)}
            if code.app.blocks[number].word == 'loop' and others and not any(gives_up(code.app.blocks[b]) for b in inside):
                yield code.app.blocks[number].line, 'task %s never gives up the processor from here on: no task %s ever runs' % (task.name, which)
                break


def endless_routines(code):
    """Interrupt routines that come to a loop for ever."""
    for source in code.app.sources:
        reached = sorted({number for number, _ in ways(code.app, source.first)})
        for number in reached if source.mark == '@' else []:
            if not any(code.app.blocks[b].word == 'end' for b, _ in ways(code.app, number)) and code.app.blocks[number].word == 'loop':
                what = 'no task and no routine that is not above it' if opened.has(opened.NESTED) else 'nothing else'
                yield code.app.blocks[number].line, 'the routine %s never ends from here on: %s ever runs' % (source.name, what)
                break


def gives_up(block):
    return block.word in ('WaitEvent', 'TerminateTask', 'ChainTask', 'ShutdownOS', 'end')


def waits(code):
    """Events that are waited for and never set, or never cleared though the task waits again."""
    for block in code.calls('WaitEvent'):
        task, events = code.events_of(block)
        if task and task.own:
            yield from faults_of_wait(code, block, task, [e for e in events if code.app.events[e] & task.own])


def faults_of_wait(code, block, task, events):
    mask = code.app.mask(events) & task.own
    if events and not mask & set_in(code, task):
        yield block.line, '%s: nobody sets %s in %s, so it waits for ever' % (block.text, ' or '.join(events), task.name)
    cleared = 0
    for call in code.calls('ClearEvent'):
        cleared |= code.mask_of(call) if call.owner == block.owner else 0
    number = next(n for n, b in code.written if b is block)
    if any(number == b for to, held in leads_to(code.app, number, ()) for b, _ in ways(code.app, to)) and mask & ~cleared:
        yield block.line, '%s: task %s comes here again and never clears the event, so it waits once alone' % (block.text, task.name)


def set_in(code, task):
    """The events that calls and alarms set in a task."""
    found = 0
    for block in code.calls('SetEvent'):
        found |= code.mask_of(block) if block.arguments[0][0] == task.name else 0
    for alarm in code.app.alarms:
        found |= alarm.mask if alarm.task == task.name else 0
    return found


def unused_objects(code):
    """Objects that no call and no other object uses, by kind; what is told has the file of the OIL text."""
    app = code.app
    activated = code.named_by('ActivateTask', 'ChainTask') | {alarm.task for alarm in app.alarms if alarm.event is None}
    for task in app.tasks:
        if not task.modes and task.name not in activated:
            yield task.line, 'task %s is never activated' % task.name
    for alarm in app.alarms:
        if not alarm.modes and alarm.name not in code.named_by(*ALARM_CALLS):
            yield alarm.line, 'alarm %s is never set' % alarm.name
    taken = code.named_by('GetResource')
    for resource in app.resources:
        if resource.is_internal:
            names = [task for task in app.tasks if task.internal == resource.name]
            if len(names) < 2:
                yield resource.line, '%s names the INTERNAL resource %s, so it keeps no task away' % ('one task alone' if names else 'no task', resource.name)
        elif resource.name not in taken and resource.line:
            yield resource.line, 'no task takes the resource %s' % resource.name


def unused_events(code, lines):
    """Events that no task names, that nobody sets, or that no task looks at."""
    looked = {event for block in code.calls('WaitEvent', 'ClearEvent') for event in block.arguments[0]}
    asked = {event for name in code.named_by('GetEvent') if name in code.tasks for event in code.tasks[name].events}
    set_ = {event for block in code.calls('SetEvent') for event in block.arguments[1]} | {a.event for a in code.app.alarms}
    for name, line in lines.items():
        if not any(name in task.events for task in code.app.tasks):
            yield line, 'no task names the event %s' % name
        elif name not in set_:
            yield line, 'nobody sets the event %s' % name
        elif name not in looked | asked:
            yield line, 'no task waits for the event %s' % name
