#!/usr/bin/env python3
"""Makes an application on which the analysis takes long for its size: OIL and task code.

    stacks T R A I B    T tasks of A activations take R resources in any order, under I interrupt routines of B blocks each
    activations T C A   T tasks of A activations activate each other, C calls each, the first of which activates itself
    waits W S E         one task waits at W places for E events, and another one sets them at S places
    routine_waits W I S one task waits at W places for an event, which I interrupt routines set at S places each
    alarm_waits W A     one task waits at W places for an event, which A alarms set
    routines I B        I interrupt routines of B blocks each over sixteen tasks
    nested_routines I B the same, each routine with a priority of its own
    nested_stacks I R   I routines, each with a priority of its own, and a task take R resources in any order
    levels T R C        T tasks take R resources whose ceilings go up, one behind the other, with C activations in between

    bench/make_worst.py stacks 1 5 1 8 60 DIR        writes DIR/app.oil, DIR/app.code
"""
import os
import sys
from collections import namedtuple

sys.path.insert(0, os.path.join(os.path.dirname(os.path.dirname(os.path.abspath(__file__))), 'tools'))

from lib import given

TASKS = 16


def body(kind, name, lines):
    return ['%s(%s) {' % (kind, name)] + ['  ' + line for line in lines] + ['}']


def loop(lines, head='1'):
    return ['while (%s) {' % head] + ['  ' + line for line in lines] + ['}']


def idle_tasks(count):
    """Tasks below the others that run on and on."""
    return ['TASK T%d { PRIORITY = %d; AUTOSTART = TRUE; };' % (k, k) for k in range(1, count)], \
        [line for k in range(1, count) for line in body('TASK', 'T%d' % k, loop([], '?'))]


def waiting_task(events, places):
    """A task above the others that waits at so many places for all of these events."""
    named = ' '.join('EVENT = %s;' % event for event in events)
    mask = ' | '.join(events)
    oil = ['EVENT %s;' % event for event in events] + ['TASK T0 { PRIORITY = 20; AUTOSTART = TRUE; %s };' % named]
    return oil, body('TASK', 'T0', loop(['WaitEvent(%s);' % mask] * places + ['ClearEvent(%s);' % mask]))


def stacks(tasks, resources, activations, routines, blocks):
    """Each task activates the next one, and so do the routines, one behind the other."""
    names = ' '.join('RESOURCE = R%d;' % k for k in range(resources))
    queued = '' if activations == 1 else 'ACTIVATION = %d; ' % activations
    oil = ['RESOURCE R%d;' % k for k in range(resources)]
    oil += ['TASK T%d { PRIORITY = %d; AUTOSTART = TRUE; %s%s };' % (k, k + 1, queued, names) for k in range(tasks)]
    oil += ['ISR I%d { CATEGORY = 2; };' % k for k in range(routines)]
    takes, calls = ['if (?) { GetResource(R%d); }' % k for k in range(resources)], ['ActivateTask(T%d);' % (k % tasks) for k in range(blocks - 1)]
    code = [line for k in range(tasks) for line in body('TASK', 'T%d' % k, loop(takes + ['ActivateTask(T%d);' % ((k + 1) % tasks)]))]
    return oil, code + [line for k in range(routines) for line in body('ISR', 'I%d' % k, calls)]


def activations(tasks, calls, most):
    oil = ['TASK T%d { PRIORITY = %d; AUTOSTART = TRUE; ACTIVATION = %d; };' % (k, k + 1, most) for k in range(tasks)]
    return oil, [line for k in range(tasks) for line in body('TASK', 'T%d' % k, loop(['ActivateTask(T%d);' % ((k + j) % tasks) for j in range(calls)]))]


def waits(places, calls, events):
    names = ['E%d' % k for k in range(events)]
    oil, code = waiting_task(names, places)
    sets = body('TASK', 'T1', loop(['SetEvent(T0, %s);' % ' | '.join(names)] * calls))
    return oil + ['TASK T1 { PRIORITY = 1; AUTOSTART = TRUE; };'], code + sets


def routine_waits(places, routines, calls):
    (oil, code), (tasks, bodies) = waiting_task(['E0'], places), idle_tasks(TASKS)
    oil += tasks + ['ISR I%d { CATEGORY = 2; };' % k for k in range(routines)]
    return oil, code + bodies + [line for k in range(routines) for line in body('ISR', 'I%d' % k, ['SetEvent(T0, E0);'] * calls)]


def alarm_waits(places, alarms):
    (oil, code), (tasks, bodies) = waiting_task(['E0'], places), idle_tasks(TASKS)
    acts = 'ACTION = SETEVENT { TASK = T0; EVENT = E0; }; AUTOSTART = TRUE { ALARMTIME = 1; CYCLETIME = 1; };'
    oil += ['COUNTER C%d { MAXALLOWEDVALUE = 9; };' % k for k in range(8)] + tasks
    return oil + ['ALARM A%d { COUNTER = C%d; %s };' % (k, k % 8, acts) for k in range(alarms)], code + bodies


def routines(count, blocks, priority=''):
    oil = ['TASK T%d { PRIORITY = %d; AUTOSTART = TRUE; };' % (k, k + 1) for k in range(TASKS)]
    code = [line for k in range(TASKS) for line in body('TASK', 'T%d' % k, ['TerminateTask();'])]
    calls = ['ActivateTask(T%d);' % (k % TASKS) for k in range(blocks - 1)]
    return oil + ['ISR I%d { CATEGORY = 2; %s};' % (k, priority.replace('#', str(k + 1))) for k in range(count)], \
        code + [line for k in range(count) for line in body('ISR', 'I%d' % k, calls)]


def nested_routines(count, blocks):
    return routines(count, blocks, 'PRIORITY = #; ')


def nested_stacks(routines, resources):
    """Each may take each resource, and then give each back."""
    names = ' '.join('RESOURCE = R%d;' % k for k in range(resources))
    oil = ['RESOURCE R%d;' % k for k in range(resources)] + ['TASK T0 { PRIORITY = 1; AUTOSTART = TRUE; %s };' % names]
    oil += ['ISR I%d { CATEGORY = 2; PRIORITY = %d; %s };' % (k, k + 1, names) for k in range(routines)]
    moves = ['if (?) { %s(R%d); }' % (call, k) for call in ('GetResource', 'ReleaseResource') for k in range(resources)]
    return oil, body('TASK', 'T0', loop(moves)) + [line for k in range(routines) for line in body('ISR', 'I%d' % k, loop(moves, '?'))]


def levels(tasks, resources, calls):
    taken = [[r for r in range(resources) if r * tasks // resources >= k - 1] for k in range(tasks)]
    oil, code = ['RESOURCE R%d;' % r for r in range(resources)], []
    for k, names in enumerate(taken):
        oil.append('TASK T%d { PRIORITY = %d; %s%s };' % (k, k + 1, '' if k else 'AUTOSTART = TRUE; ', ' '.join('RESOURCE = R%d;' % r for r in names)))
        lines = ['if (?) { GetResource(R%d); }' % r for r in names] + ['ActivateTask(T%d);' % ((k + 1 + c) % tasks) for c in range(calls)]
        code += body('TASK', 'T%d' % k, loop(lines + ['ReleaseResource(R%d);' % r for r in reversed(names)], '?') + ['TerminateTask();'])
    return oil, code


LINED, FILLED = 15, 255
"""How many tasks of one priority fill the line of activations, and how many of each."""


def full_line():
    """Tasks of one priority, each of which activates itself; interrupts activate them, so that the line gets all the places that it has."""
    oil = ['TASK T%d { PRIORITY = 2; ACTIVATION = %d; };' % (k, FILLED) for k in range(LINED)] + ['TASK Rest { PRIORITY = 1; AUTOSTART = TRUE; };']
    oil += ['ISR I%d { CATEGORY = 2; };' % k for k in range(LINED // 2 + 1)]
    code = [line for k in range(LINED) for line in body('TASK', 'T%d' % k, ['ActivateTask(T%d);' % k])] + body('TASK', 'Rest', loop([]))
    for k in range(LINED // 2 + 1):
        first, second = ['ActivateTask(T%d);' % min(t, LINED - 1) for t in (2 * k, 2 * k + 1)]
        code += body('ISR', 'I%d' % k, ['if (?) { %s } else { %s }' % (first, second)])
    return oil, code


def full_line_events(count):
    """Event lines: all activations of each task, from the last task to the first; and then the processor runs."""
    filling = [event for k in reversed(range(LINED)) for event in ['irq I%d' % (k // 2), 'run 1', 'run %d' % (k % 2 == 0), 'run 1', 'run 1'] * FILLED]
    return filling[:count] + ['run 1'] * (count - len(filling))


Family = namedtuple('Family', 'make count words')
"""What makes an application of a family, how many numbers it takes, and what it is in words, with a place for each number."""

FAMILIES = {
    'stacks': Family(stacks, 5, '{1} resources in any order in each of {0} tasks, ACTIVATION {2}, under {3} routines of {4} blocks'),
    'activations': Family(activations, 3, '{0} tasks of ACTIVATION {2} that activate each other, {1} calls each'),
    'waits': Family(waits, 3, 'a task that waits at {0} places for {2} events, which another one sets at {1}'),
    'routine_waits': Family(routine_waits, 3, 'a task that waits at {0} places for an event, which {1} routines set at {2} places each'),
    'alarm_waits': Family(alarm_waits, 2, 'a task that waits at {0} places for an event, which {1} alarms set'),
    'routines': Family(routines, 2, '{0} routines of {1} blocks over 16 tasks'),
    'nested_routines': Family(nested_routines, 2, '{0} nesting routines of {1} blocks over 16 tasks'),
    'nested_stacks': Family(nested_stacks, 2, '{1} resources in any order in one task and in {0} nesting routines'),
    'levels': Family(levels, 3, '{1} resources whose ceilings go up, one behind the other in {0} tasks, {2} calls each'),
}


def told(family, numbers):
    """An application of a family in words."""
    return FAMILIES[family].words.format(*numbers).replace('each of 1 tasks', 'one task').replace(', ACTIVATION 1,', ',')


def write_app(family, numbers, folder):
    """Writes the two texts of an application of a family, and gives how many bytes they have."""
    if family not in FAMILIES or len(numbers) != FAMILIES[family].count:
        raise given.Wrong('%s: the families are %s' % (family, ', '.join('%s of %d numbers' % (name, one.count) for name, one in FAMILIES.items())))
    return write_texts(*FAMILIES[family].make(*numbers), folder)


def write_texts(oil, code, folder):
    """Writes the two texts, and gives how many bytes they have."""
    os.makedirs(folder, exist_ok=True)
    texts = {'app.oil': ['CPU worst {', '  OS os { USERESSCHEDULER = FALSE; };'] + ['  ' + line for line in oil] + ['};'], 'app.code': code}
    for name, lines in texts.items():
        with open(os.path.join(folder, name), 'w', encoding='ascii', newline='\n') as file:
            file.write('\n'.join(lines + ['']))
    return sum(os.path.getsize(os.path.join(folder, name)) for name in texts)


def main():
    parser = given.Parser(__doc__)
    parser.add_argument('family', choices=sorted(FAMILIES), metavar='FAMILY', help=', '.join(sorted(FAMILIES)))
    parser.add_argument('numbers', nargs='+', type=int, metavar='N', help='its numbers')
    parser.add_argument('folder', metavar='DIR', help='where the two texts are written')
    words = parser.parse_args()
    write_app(words.family, words.numbers, words.folder)


if __name__ == '__main__':
    given.run(main)
