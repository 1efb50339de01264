"""A trace in the Best Trace Format, which timing tools of the automotive industry read: one event is a nanosecond. Tasks (T) and routines (I)
have the events of their states, resources (SEM) those of being taken and given back. A further activation is an activation of a later
instance of its task, which begins where the one before it ends."""
from lib.trace_reader import has_begun, stacks_of

HEAD = ['#version 2.1.3', '#creator timeline.py of osekfit', '#creationDate 1970-01-01T00:00:00Z', '#timeScale ns']

CORE = 'Core_1'


class Writer:
    """What was shown last, and how often each task and routine began."""

    def __init__(self):
        self.states, self.held, self.who, self.counts, self.started = {}, {}, '-', {}, set()
        self.further, self.begun = {}, []

    def line(self, number, kind, name, event, source=CORE):
        count = self.counts.get(name, 0)
        return '%d,%s,0,%s,%s,%d,%s' % (number, source, kind, name, count, event)

    def changes(self, line):
        """The lines for what changed: first resources, then who leaves the processor, what becomes of tasks, and who gets it."""
        stacks = stacks_of(line)
        for name in list(dict.fromkeys([*self.held, *stacks])):
            yield from self.held_changes(line, name, stacks.get(name, []))
        yield from self.left(line)
        for name, task in line.tasks.items():
            yield from self.task_changes(line, name, task.state)
            yield from self.queue_changes(line, name, task.further)
        yield from self.got(line)
        self.who, self.begun = line.who, [name for name in [line.who, *line.routines] if name[0] in '@%']

    def left(self, line):
        """The task or the routine that is interrupted, or the routines that ended: several at a halt."""
        for name in dict.fromkeys(self.begun):
            if not has_begun(line, name):
                yield self.line(line.number, 'I', name[1:], 'terminate')
            elif name == self.who != line.who:
                yield self.line(line.number, 'I', name[1:], 'preempt')
        if self.who == line.who or self.who[0] in '-#@%':
            return
        if line.tasks[self.who].state in 'RY':
            yield self.line(line.number, 'T', self.who, 'preempt')

    def task_changes(self, line, name, state):
        before = self.states.get(name, 'S')
        self.states[name] = state
        if before == 'S' and state != 'S':
            self.counts[name] = self.counts.get(name, -1) + 1
            self.started.discard(name)
            yield self.line(line.number, 'T', name, 'activate', 'STI')
        if before == 'W' and state in 'YR':
            yield self.line(line.number, 'T', name, 'release')
        if before != state and state == 'W':
            yield self.line(line.number, 'T', name, 'wait')
        if before != 'S' and state == 'S':
            yield self.line(line.number, 'T', name, 'terminate')

    def queue_changes(self, line, name, further):
        """Further activations that came, and the end of an instance by which one goes."""
        before = self.further.get(name, 0)
        self.further[name] = further
        if further > before:
            yield '%d,STI,0,T,%s,%d,activate' % (line.number, name, self.counts.get(name, 0) + further)
        elif further < before:
            yield self.line(line.number, 'T', name, 'terminate')
            self.counts[name] = self.counts.get(name, 0) + 1
            self.started.discard(name)

    def held_changes(self, line, name, held):
        for resource in sorted(set(self.held.get(name, ())) ^ set(held)):
            event = 'assigned' if resource in held else 'released'
            yield '%d,%s,%d,SEM,%s,0,%s' % (line.number, name.lstrip('@%'), self.counts.get(name.lstrip('@%'), 0), resource, event)
        self.held[name] = held

    def got(self, line):
        """The routine that begins, or the task that gets the processor; also the next instance of the same task."""
        if line.who in '-#' or self.who == line.who and (line.who[0] in '@%' or line.who in self.started):
            return
        if line.who[0] in '@%':
            name = line.who[1:]
            is_new = line.who not in self.begun
            self.counts[name] = self.counts.get(name, -1) + is_new
            yield self.line(line.number, 'I', name, 'start' if is_new else 'resume')
        else:
            yield self.line(line.number, 'T', line.who, 'resume' if line.who in self.started else 'start')
            self.started.add(line.who)


def dump(trace, requests):
    """The text, part by part."""
    writer, waiting = Writer(), list(requests)
    yield ''.join(head + '\n' for head in HEAD)
    for line in trace:
        while waiting and waiting[0][0] <= line.number:
            number, source = waiting.pop(0)
            if number == line.number:
                yield '%d,STI,0,I,%s,%d,activate\n' % (number, source[1:], writer.counts.get(source[1:], -1) + 1)
        for text in writer.changes(line):
            yield text + '\n'
