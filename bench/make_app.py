#!/usr/bin/env python3
"""Makes an application of a stated size by a seed: OIL, task code and an event text.

Half of the tasks wait for events in an endless loop, the others run to an end. They activate and chain each other, set events,
share resources in nested sections, lock interrupts, and set alarms; interrupts and alarms activate tasks and set events. What
isn't given goes with the number of tasks, up to the limits of an application at 16. With --nests each interrupt routine has a
priority of its own, so that they nest, and every second one shares a resource with tasks.

    bench/make_app.py --tasks 8 --seed 3 --events 1000 DIR        writes DIR/app.oil, DIR/app.code, DIR/app.events
"""
import os
import random
import sys
from collections import namedtuple

sys.path.insert(0, os.path.join(os.path.dirname(os.path.dirname(os.path.abspath(__file__))), 'tools'))

from lib import given

Size = namedtuple('Size', 'tasks isrs counters alarms resources events modes blocks')
"""How many there are of each: resources are those declared beside RES_SCHEDULER, OSDEFAULTAPPMODE is one of the modes, and blocks
are those of the text, about."""

LIMITS = Size(16, 8, 8, 16, 7, 32, 8, 1024)

HOOKS = ('STARTUPHOOK', 'ERRORHOOK', 'SHUTDOWNHOOK', 'PRETASKHOOK', 'POSTTASKHOOK')

COUNTS = [3, 9, 255, 65535]
"""Where counters begin anew."""

MASK_EVENTS = 3
"""The most events in one mask."""


def usual_size(tasks):
    """The size that goes with a number of tasks; at 16 it is the limits."""
    half = max(1, tasks // 2)
    return Size(tasks, half, half, tasks, max(1, half - half // 8), 2 * tasks, half, 64 * tasks)


class Task:
    def __init__(self, number, priority, events, resources):
        self.name, self.priority, self.events, self.resources = 'T%d' % number, priority, events, resources


class Maker:
    def __init__(self, size, seed, nests=False):
        self.size, self.random, self.nests = size, random.Random(seed), nests
        self.tasks = [self.task(k, p) for k, p in enumerate(self.random.sample(range(1, 4 * size.tasks + 1), size.tasks))]
        self.waiting = [task for task in self.tasks if task.events]
        self.left = 0

    def task(self, number, priority):
        """Every second task is extended; each names some resources, in the order in which it takes them."""
        events = self.some('E', self.size.events, 4) if number % 2 and self.size.events else []
        return Task(number, priority, events, self.some('R', self.size.resources, 3))

    def some(self, letter, count, most):
        """At least one and at most `most` of the objects of a kind, in order; none where there are none."""
        chosen = self.random.sample(range(count), self.random.randint(min(1, count), min(most, count)))
        return ['%s%d' % (letter, k) for k in sorted(chosen)]

    def one(self, letter, count):
        return '%s%d' % (letter, self.random.randrange(count))

    def chance(self, percent):
        return self.random.randrange(100) < percent

    # OIL

    def oil(self):
        size = self.size
        hooks = ' '.join('%s = TRUE;' % hook for hook in HOOKS if self.chance(60))
        lines = ['OS os { %s };' % hooks if hooks else 'OS os;']
        lines += ['APPMODE M%d;' % k for k in range(1, size.modes)]
        lines += ['EVENT E%d;' % k for k in range(size.events)]
        lines += ['RESOURCE R%d;' % k for k in range(size.resources)]
        lines += ['COUNTER C%d { MAXALLOWEDVALUE = %d; };' % (k, self.random.choice(COUNTS)) for k in range(size.counters)]
        lines += [self.task_line(task) for task in self.tasks]
        lines += [self.alarm_line(k) for k in range(size.alarms if size.counters else 0)]
        lines += ['ISR I%d { CATEGORY = 2; %s};' % (k, self.nesting(k)) for k in range(size.isrs)]
        return '\n'.join(['CPU bench {'] + ['  ' + line for line in lines] + ['};', ''])

    def nesting(self, number):
        priority = 'PRIORITY = %d; ' % (number + 1) if self.nests else ''
        shared = self.shared(number)
        return priority + ('RESOURCE = %s; ' % shared if shared else '')

    def shared(self, number):
        """The resource that an interrupt routine shares with tasks, if it does."""
        return 'R%d' % (number // 2 % self.size.resources) if self.nests and number % 2 and self.size.resources else None

    def task_line(self, task):
        words = ['PRIORITY = %d;' % task.priority, 'SCHEDULE = %s;' % ('NON' if self.chance(20) else 'FULL')]
        words += ['AUTOSTART = TRUE;'] if task is self.tasks[0] else [self.autostart('')] if self.chance(60) else []
        words += ['EVENT = %s;' % event for event in task.events] + ['RESOURCE = %s;' % name for name in task.resources]
        return 'TASK %s { %s };' % (task.name, ' '.join(words))

    def autostart(self, times):
        modes = '' if self.chance(50) or self.size.modes < 2 else 'APPMODE = M%d; ' % self.random.randrange(1, self.size.modes)
        return 'AUTOSTART = TRUE { %s%s};' % (times, modes) if times or modes else 'AUTOSTART = TRUE;'

    def alarm_line(self, number):
        counter = 'C%d' % (number % self.size.counters)
        target = self.random.choice(self.waiting) if self.waiting and self.chance(50) else None
        action = 'ACTIVATETASK { TASK = %s; }' % self.one('T', self.size.tasks)
        if target:
            action = 'SETEVENT { TASK = %s; EVENT = %s; }' % (target.name, self.random.choice(target.events))
        start = ' ' + self.autostart('ALARMTIME = %d; CYCLETIME = %d; ' % (self.random.randint(0, 3), self.random.randint(0, 3)))
        return 'ALARM A%d { COUNTER = %s; ACTION = %s;%s };' % (number, counter, action, start if self.chance(50) else '')

    # Task code

    def code(self):
        routines = (6 if self.nests else 4) * self.size.isrs
        share = max(3, (min(self.size.blocks, LIMITS.blocks) - routines) // self.size.tasks)
        lines = [line for task in self.tasks for line in self.body(task, share)]
        lines += [line for k in range(self.size.isrs) for line in self.routine(k)]
        return '\n'.join(lines + [''])

    def body(self, task, share):
        """A task of exactly so many blocks, its closing brace among them."""
        self.left = share - 1
        lines = ['TASK(%s) {' % task.name]
        if task.events and self.left >= 4:
            self.left -= 1
            lines += ['  while (1) {'] + ['    ' + line for line in self.waiting_loop(task)] + ['  }']
        else:
            self.left -= 1
            lines += ['  ' + line for line in self.statements(task, 0, [])]
            lines.append('  ' + self.last_call())
        return lines + ['}']

    def waiting_loop(self, task):
        self.left -= 2
        mask = ' | '.join(task.events[:MASK_EVENTS])
        return ['WaitEvent(%s);' % mask, 'ClearEvent(%s);' % mask] + self.statements(task, 0, [])

    def last_call(self):
        return 'ChainTask(%s);' % self.one('T', self.size.tasks) if self.chance(20) else 'TerminateTask();'

    def routine(self, number):
        shared = self.shared(number)
        lines = ['ISR(I%d) {' % number, '  if (?) {', '    ' + self.signal(), '  } else {', '    ' + self.signal(), '  }', '}']
        return lines[:1] + ['  GetResource(%s);' % shared, '  work 2;', '  ReleaseResource(%s);' % shared] + lines[1:] if shared else lines

    def statements(self, task, depth, held):
        """Statements up to the blocks that are left, or, inside of a block, a few of them."""
        lines, most = [], self.left if depth == 0 else self.random.randint(1, 6)
        while self.left > 0 and most > 0:
            before = self.left
            lines += self.statement(task, depth, held)
            most -= before - self.left
        return lines

    def statement(self, task, depth, held):
        """One statement or section; each takes at least one of the blocks that are left."""
        free = [name for name in task.resources if not held or name > held[-1]]
        ways = [(4, self.plain), (1, self.lock)] if self.left >= 3 else [(1, self.plain)]
        if depth < 4 and self.left >= 3:
            ways += [(2, self.branch), (1, self.loop)]
        if free and self.left >= 4:
            ways.append((2, self.section))
        weights, makers = zip(*ways)
        return self.random.choices(makers, weights)[0](task, depth, held)

    def plain(self, task, depth, held):
        self.left -= 1
        calls = ['work %d;' % self.random.randint(1, 5), self.signal(), self.signal(), self.alarm_call(), self.query(task)]
        if not held:
            calls.append('Schedule();')
        return [self.random.choice([call for call in calls if call])]

    def lock(self, task, depth, held):
        self.left -= 3
        kind = self.random.choice([('SuspendOS', 'ResumeOS'), ('SuspendAll', 'ResumeAll'), ('Disable', 'Enable')])
        names = ['%sInterrupts();' % k if 'able' not in k else '%sAllInterrupts();' % k for k in kind]
        return [names[0], 'work %d;' % self.random.randint(1, 3), names[1]]

    def branch(self, task, depth, held):
        self.left -= 1
        first = self.statements(task, depth + 1, held)
        second = self.statements(task, depth + 1, held) if self.left > 0 and self.chance(50) else []
        middle = ['} else {'] + ['  ' + line for line in second] if second else []
        return ['if (?) {'] + ['  ' + line for line in first] + middle + ['}']

    def loop(self, task, depth, held):
        self.left -= 1
        return ['while (?) {'] + ['  ' + line for line in self.statements(task, depth + 1, held)] + ['}']

    def section(self, task, depth, held):
        """A resource's section: what is taken inside is given back inside, and comes later in the order of names."""
        name = self.random.choice([name for name in task.resources if not held or name > held[-1]])
        self.left -= 2
        inner = self.statements(task, depth + 1, held + [name])
        return ['GetResource(%s);' % name] + ['  ' + line for line in inner] + ['ReleaseResource(%s);' % name]

    def signal(self):
        if self.waiting and self.chance(50):
            target = self.random.choice(self.waiting)
            return 'SetEvent(%s, %s);' % (target.name, self.random.choice(target.events))
        return 'ActivateTask(%s);' % self.one('T', self.size.tasks)

    def alarm_call(self):
        if not self.size.alarms or not self.size.counters:
            return None
        alarm = self.one('A', self.size.alarms)
        times = '%d, %d' % (self.random.randint(1, 3), self.random.randint(0, 3))
        return self.random.choice(['SetRelAlarm(%s, %s);' % (alarm, times), 'SetAbsAlarm(%s, %s);' % (alarm, times),
                                   'CancelAlarm(%s);' % alarm, 'GetAlarm(%s);' % alarm])

    def query(self, task):
        other = self.one('T', self.size.tasks)
        return self.random.choice(['GetTaskID();', 'GetTaskState(%s);' % other, 'GetEvent(%s);' % other,
                                   'GetActiveApplicationMode();'])

    # Events

    def events(self, count):
        """The event text's lines: four of five let the processor run."""
        sources = ['irq I%d' % k for k in range(self.size.isrs)] + ['tick C%d' % k for k in range(self.size.counters)]
        for _ in range(count):
            if sources and self.chance(20):
                yield self.random.choice(sources) + '\n'
            else:
                yield 'run %d\n' % self.random.randrange(2)


def write_app(size, seed, events, folder, nests=False):
    """Writes the three texts, and gives their names."""
    maker = Maker(size, seed, nests)
    os.makedirs(folder, exist_ok=True)
    names = [os.path.join(folder, 'app.' + end) for end in ('oil', 'code', 'events')]
    for name, lines in zip(names, ([maker.oil()], [maker.code()], maker.events(events))):
        with open(name, 'w', encoding='ascii', newline='\n') as file:
            file.writelines(lines)
    return names


def arguments():
    parser = given.Parser(__doc__)
    parser.add_argument('folder', metavar='DIR', help='where the three texts are written')
    parser.add_argument('--seed', type=int, default=1)
    parser.add_argument('--events', type=int, default=1000, metavar='N', help='how many events the event text has')
    parser.add_argument('--tasks', type=int, default=4, metavar='N', help='1 to 16')
    parser.add_argument('--nests', action='store_true', help='interrupt routines have priorities of their own, and resources')
    for name in Size._fields[1:]:
        option = 'oil-events' if name == 'events' else name
        parser.add_argument('--' + option, dest='of_' + name, type=int, metavar='N', help='at most %d' % getattr(LIMITS, name))
    return parser.parse_args()


def size_of(words):
    """The size that the options ask for, within the limits."""
    size = usual_size(max(1, words.tasks))
    given = {name: getattr(words, 'of_' + name) for name in Size._fields[1:] if getattr(words, 'of_' + name) is not None}
    return Size(*map(min, size._replace(**given), LIMITS))


def main():
    words = arguments()
    write_app(size_of(words), words.seed, words.events, words.folder, words.nests)


if __name__ == '__main__':
    given.run(main)
