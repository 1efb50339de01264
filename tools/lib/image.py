"""The bytes of an image of version 2, in the model of model.py: the tables of fields in docs/FORMATS.md, written down."""
from lib.application import SHAPES
from lib.states import KEEP, STATUSES
from lib.task_code import LOCKS

KINDS = {
    'work': 0, 'choice': 1, 'loop': 2, 'ActivateTask': 3, 'TerminateTask': 4, 'ChainTask': 5, 'Schedule': 6, 'GetResource': 7,
    'ReleaseResource': 8, 'SetEvent': 9, 'ClearEvent': 10, 'GetEvent': 11, 'WaitEvent': 12, 'SetRelAlarm': 13, 'SetAbsAlarm': 14,
    'CancelAlarm': 15, 'GetAlarm': 16, 'GetTaskID': 17, 'GetTaskState': 18, 'GetActiveApplicationMode': 19, 'ShutdownOS': 20,
    'count': 24, 'expire': 25,
}

END_OF_TASK, END_OF_ROUTINE, LOCK = 22, 23, 21

HOOKS = ['Startup', 'Shutdown', 'Error', 'PreTask', 'PostTask']

NONE_NOTED, ANY, NOBODY = 9, 255, 255

NEVER, STAY, GENERAL = b'\0\0', b'\1\0', b'\3\0'
"""The forms' bytes; those of a direct dispatch begin with 2."""


def known_word(number):
    """What is known of a site's status, by its byte."""
    return {ANY: 'any', NONE_NOTED: 'none'}.get(number) or STATUSES[number]


def number(value, size):
    return value.to_bytes(size, 'big')


def name(text):
    return number(len(text), 1) + text.encode('ascii')


def bits(numbers):
    return sum(1 << k for k in numbers)


def image(app, shown, noted):
    """The image of an application; of each site what the steps from the table's states show and note."""
    parts = [b'OSEKFIT\2', number(bits(HOOKS.index(hook) for hook in app.hooks), 1)]
    isrs = [source for source in app.sources if source.mark == '@']
    parts += [number(len(objects), 1) for objects in (app.tasks, isrs, app.counters, app.alarms, app.resources, app.modes)]
    parts += [number(len(app.blocks), 2)]
    parts += [task(app, k) for k in range(len(app.tasks))]
    parts += [name(isr.name) + place(app, isr.first) + number(isr.priority, 1) for isr in isrs]
    parts += [counter(app, source) for source in app.sources if source.mark == '%']
    parts += [alarm(app, one) for one in app.alarms]
    parts += [name(one.name) + number(one.ceiling, 4) + number(one.is_internal, 1) + number(one.interrupt_ceiling, 2) for one in app.resources]
    parts += [name(mode) for mode in app.modes]
    return b''.join(parts + [block(app, k, shown, noted) for k in range(len(app.blocks))])


def place(app, first):
    """The first block of an owner, and how many it has."""
    owner = app.blocks[first].owner
    return number(first, 2) + number(sum(1 for block in app.blocks if block.owner == owner), 2)


def task(app, k):
    one = app.tasks[k]
    return (name(one.name) + number(one.priority, 2) + number(one.is_full, 1) + number(one.own, 8) + number(bits(one.modes), 1)
            + place(app, app.first[k]) + number(one.activation, 1) + number(NOBODY if app.internal[k] is None else app.internal[k], 1))


def counter(app, source):
    one = app.counters[app.counter_number[source.name]]
    return name(one.name) + number(one.most, 4) + number(one.least_cycle, 4) + place(app, source.first)


def alarm(app, one):
    return (name(one.name) + number(app.counter_number[one.counter], 1) + number(one.event is not None, 1)
            + number(app.task_number[one.task], 1) + number(one.mask, 8) + number(bits(one.modes), 1) + number(one.time, 4) + number(one.cycle, 4))


def block(app, k, shown, noted):
    one = app.blocks[k]
    found = number(kind(one), 1) + number(one.is_locked, 1) + number(one.line, 4) + operands(app, one)
    found += b'' if one.next is None else number(one.next, 2)
    found += b'' if one.other is None else number(one.other, 2)
    return found + (form(shown[k]) + known(noted[k]) if app.is_site(k) else b'')


def kind(one):
    if one.word == 'end':
        return END_OF_TASK if one.owner.kind == 'TASK' else END_OF_ROUTINE
    return LOCK if one.word in LOCKS else KINDS[one.word]


def operands(app, one):
    if one.word == 'work':
        return number(one.arguments[0], 2)
    if one.word in LOCKS:
        return number(LOCKS.index(one.word), 1)
    if one.word == 'expire':
        return number(app.alarm_number[one.arguments[0]], 1)
    return b''.join(operand(app, letter, argument) for letter, argument in zip(SHAPES.get(one.word, ''), one.arguments))


def operand(app, letter, argument):
    """An argument of a call, by the letter that its shape has for it."""
    if letter == 'n':
        return number(argument, 8)
    if letter == 'm':
        return number(app.mask(argument), 8)
    if letter == 's':
        return b''
    return number({'t': app.task_number, 'r': app.resource_number, 'a': app.alarm_number}[letter][argument[0]], 1)


def form(shown):
    if len(shown) != 1:
        return GENERAL if shown else NEVER
    (only,) = shown
    return STAY if only == KEEP else b'\2' + number(NOBODY if only.task is None else only.task, 1)


def known(noted):
    """What is known of the status: the one that is always noted, that none ever is, or nothing."""
    if len(noted) != 1:
        return number(ANY, 1)
    (only,) = noted
    return number(NONE_NOTED if only is None else STATUSES.index(only), 1)
