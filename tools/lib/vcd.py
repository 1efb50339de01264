"""The value change dump of timeline.py (IEEE 1364): one unit of time is one event.

A task has its state as a letter (eight bits, to be shown as ASCII), whether the processor is its own, its events and its further activations; each
resource that it holds somewhere is a wire. A routine is a wire that is 1 while it has the processor, with another one that is 1 while it waits
below another routine, and one for each resource that it holds somewhere; a hook is one that is 1 at its event. The status is a number, and x
where none was noted."""
from collections import namedtuple

from lib.states import STATUSES
from lib.trace_reader import HOOKS, stacks_of, waits_below

Signal = namedtuple('Signal', 'scope name width value')
"""A signal: value gives its bits at a line of the trace."""


def identifier(number):
    """The short name of a signal: digits to the base 94, in visible characters."""
    word = chr(33 + number % 94)
    while number >= 94:
        number = number // 94
        word += chr(33 + number % 94)
    return word


def wire(scope, name, holds):
    return Signal(scope, name, 1, lambda line: '1' if holds(line) else '0')


def vector(scope, name, width, number):
    """A signal of several bits; x where there is no number."""
    def bits(line):
        value = number(line)
        return 'x' if value is None else format(value, 'b')
    return Signal(scope, name, width, bits)


class Seen:
    """What a trace shows anywhere: its tasks, routines and hooks, who has events, and what each task holds."""

    def __init__(self, trace):
        self.tasks, self.routines, self.hooks, self.extended, self.held = {}, {}, set(), set(), {}
        self.queued, self.nested = set(), set()
        for line in trace:
            if line.who[0] in '@%':
                self.routines.setdefault(line.who)
            self.hooks.update(line.hooks)
            self.nested.update(name for name in line.routines if waits_below(line, name))
            for name, task in line.tasks.items():
                self.tasks.setdefault(name)
                if task.events is not None:
                    self.extended.add(name)
                if task.further:
                    self.queued.add(name)
            for name, held in stacks_of(line).items():
                if held:
                    self.held.setdefault(name, set()).update(held)


def signals_of(seen):
    found = [wire('processor', 'idle', lambda line: line.who == '-'), wire('processor', 'halted', lambda line: line.who == '#')]
    for who in seen.routines:
        name = ('isr_' if who[0] == '@' else 'tick_') + who[1:]
        found.append(wire('processor', name, lambda line, who=who: line.who == who))
        if who in seen.nested:
            found.append(wire('processor', name + '_waits', lambda line, who=who: waits_below(line, who)))
        found += [wire('processor', '%s_holds_%s' % (name, r), lambda line, who=who, r=r: r in line.routines.get(who, ()))
                  for r in sorted(seen.held.get(who, ()))]
    for task in seen.tasks:
        found += task_signals(seen, task)
    found.append(vector('notes', 'status', 4, lambda line: STATUSES.index(line.status) if line.status else None))
    for hook in HOOKS:
        if hook in seen.hooks:
            found.append(wire('notes', hook, lambda line, hook=hook: hook in line.hooks))
    return found


def task_signals(seen, task):
    found = [vector(task, 'state', 8, lambda line: ord(line.tasks[task].state)),
             wire(task, 'running', lambda line: line.who == task)]
    if task in seen.extended:
        found.append(vector(task, 'events', 64, lambda line: events_of(line.tasks[task])))
    if task in seen.queued:
        found.append(vector(task, 'further', 8, lambda line: line.tasks[task].further))
    for resource in sorted(seen.held.get(task, ())):
        found.append(wire(task, 'holds_' + resource, lambda line, r=resource: r in line.tasks[task].held))
    return found


def events_of(task):
    return None if task.events is None else int(task.events, 16)


def declarations(signals):
    lines, scope = ['$version timeline.py of osekfit $end', '$timescale 1 ns $end', '$scope module osekfit $end'], None
    for number, signal in enumerate(signals):
        if signal.scope != scope:
            lines += (['$upscope $end'] if scope else []) + ['$scope module %s $end' % signal.scope]
            scope = signal.scope
        size = ' [%d:0]' % (signal.width - 1) if signal.width > 1 else ''
        lines.append('$var wire %d %s %s%s $end' % (signal.width, identifier(number), signal.name, size))
    return lines + ['$upscope $end', '$upscope $end', '$enddefinitions $end']


def change(signal, number, bits):
    return ('%s%s' if signal.width == 1 else 'b%s %s') % (bits, identifier(number))


def dump(trace):
    """The dump of a trace that has a line, part by part."""
    signals = signals_of(Seen(trace))
    yield '\n'.join(declarations(signals)) + '\n'
    last, begin, number = [None] * len(signals), '$dumpvars', 0
    for line in trace:
        now = [signal.value(line) for signal in signals]
        changes = [change(s, k, bits) for k, (s, bits) in enumerate(zip(signals, now)) if bits != last[k]]
        if begin:
            changes, begin = [begin] + changes + ['$end'], None
        if changes:
            yield '\n'.join(['#%d' % line.number] + changes) + '\n'
        last, number = now, line.number
    yield '#%d\n' % (number + 1)
