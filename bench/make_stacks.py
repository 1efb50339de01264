#!/usr/bin/env python3
"""Makes an application whose tasks hold resources in every order: OIL and task code.

In an endless loop each task may take each of its resources, gives none back, and activates other tasks in between. So it can stand at
nearly each of its blocks with any of its resources, taken in any order: the text is short, and its table is long. With --nested each task takes
its resources one behind the other, and gives them back so. With --queued each task takes so many activations at once, and the first of its calls
activates itself.

    bench/make_stacks.py --resources 5 --tasks 4 --activations 3 DIR        writes DIR/app.oil, DIR/app.code
    bench/make_stacks.py --resources 8 --activations 1 --queued 255 --nested DIR
"""
import os
import sys
from collections import namedtuple

sys.path.insert(0, os.path.join(os.path.dirname(os.path.dirname(os.path.abspath(__file__))), 'tools'))

from lib import given

Size = namedtuple('Size', 'resources tasks activations queued', defaults=[1])
"""How many resources there are, which each task names, how many tasks, how many activations each has in its loop, and how many it takes at once."""

LIMITS = Size(8, 16, 200, 255)


def oil(size):
    """The tasks go up by priority, and the lowest starts."""
    names = ' '.join('RESOURCE = R%d;' % k for k in range(size.resources))
    lines = ['OS os { USERESSCHEDULER = FALSE; };'] + ['RESOURCE R%d;' % k for k in range(size.resources)]
    for k in range(size.tasks):
        start = '' if k else ' AUTOSTART = TRUE;'
        queued = '' if size.queued == 1 else ' ACTIVATION = %d;' % size.queued
        lines.append('TASK T%d { PRIORITY = %d; SCHEDULE = FULL;%s%s %s };' % (k, k + 1, queued, start, names))
    return '\n'.join(['CPU stacks {'] + ['  ' + line for line in lines] + ['};', ''])


def calls_of(size, task):
    """The activations of a task: of each other one in turn, and of itself first where it takes several."""
    others = ([task] if size.queued > 1 else []) + [k for k in range(size.tasks) if k != task]
    return ['ActivateTask(T%d);' % others[k % len(others)] for k in range(size.activations if others else 0)]


def body(size, task, is_nested):
    """The activations stand behind the resources, as many behind each."""
    calls, lines = calls_of(size, task), ['TASK(T%d) {' % task, '  while (%s) {' % ('?' if is_nested else '1')]
    for k in range(size.resources):
        first, behind = k * len(calls) // size.resources, (k + 1) * len(calls) // size.resources
        taken = 'GetResource(R%d);' % k
        lines += ['    ' + (taken if is_nested else 'if (?) { %s }' % taken)] + ['    ' + call for call in calls[first:behind]]
    lines += ['    ReleaseResource(R%d);' % k for k in reversed(range(size.resources)) if is_nested]
    return lines + ['  }', '}']


def write_app(size, folder, is_nested=False):
    """Writes the two texts, and gives their names."""
    os.makedirs(folder, exist_ok=True)
    names = [os.path.join(folder, 'app.' + end) for end in ('oil', 'code')]
    code = '\n'.join([line for k in range(size.tasks) for line in body(size, k, is_nested)] + [''])
    for name, text in zip(names, (oil(size), code)):
        with open(name, 'w', encoding='ascii', newline='\n') as file:
            file.write(text)
    return names


def main():
    parser = given.Parser(__doc__)
    parser.add_argument('folder', metavar='DIR', help='where the two texts are written')
    parser.add_argument('--nested', action='store_true', help='each task takes its resources in one order, and gives them back')
    for name, usual in zip(Size._fields, (5, 1, 0, 1)):
        parser.add_argument('--' + name, type=int, default=usual, metavar='N', help='at most %d' % getattr(LIMITS, name))
    words = parser.parse_args()
    write_app(Size(*(min(getattr(words, name), getattr(LIMITS, name)) for name in Size._fields)), words.folder, words.nested)


if __name__ == '__main__':
    given.run(main)
