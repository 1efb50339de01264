"""The lines of a trace, as `replay` and `trace` print them, read one by one; and the requests of an event text."""
import re
import shutil
import tempfile
from collections import namedtuple

from lib.given import Wrong, opened
from lib.states import STATUSES

STATES = {'S': 'suspended', 'Y': 'ready', 'R': 'running', 'W': 'waiting'}

HOOKS = ['Startup', 'Error', 'PreTask', 'PostTask', 'Shutdown']

Task = namedtuple('Task', 'state events held further', defaults=(0,))
"""What a line says of a task: its state's letter, its events in hexadecimal or None, the resources that it holds, and how many further
activations it has."""

Line = namedtuple('Line', 'number who tasks status value hooks routines', defaults=({},))
"""A line of a trace: its number, who has the processor, the tasks by name, what was noted, and by name what routines hold: those that wait below
another one, and the one at the processor where it holds something."""


class Trace:
    """The lines of a trace in a range of numbers. They are read anew each time that they are gone through, and judged by the events where there are
    some."""

    def __init__(self, file, name='the trace', first=0, last=None, events=None):
        self.file, self.name, self.first, self.last, self.events = file, name, first, last, events
        self.trap = None

    def __iter__(self):
        self.file.seek(0)
        tasks, before = None, None
        for place, text in enumerate(self.file, 1):
            text = text.rstrip('\r\n')
            number = number_of(text, self.name, place)
            if text.startswith('trap '):
                self.trap = number
            elif self.last is not None and number > self.last:
                return
            elif number >= self.first:
                line = line_at(text, self.name, place)
                tasks = tasks if tasks is not None else list(line.tasks)
                if list(line.tasks) != tasks:
                    raise Wrong('%s:%d: other tasks than in the lines before' % (self.name, place))
                if self.events:
                    self.events.judge(before, line)
                before = line
                yield line
        if self.events and self.trap is None and self.last is None and before:
            self.events.judge_end(before)


def number_of(text, name, place):
    """The number of a line, or of the event at which the image trapped."""
    word = text[5:] if text.startswith('trap ') else text.partition(' ')[0]
    if not (word.isascii() and word.isdigit()):
        raise Wrong('%s:%d: no line of a trace: %s' % (name, place, text[:60]))
    return int(word)


def line_at(text, name, place):
    try:
        return line_of(text)
    except ValueError:
        raise Wrong('%s:%d: no line of a trace: %s' % (name, place, text[:60])) from None


class Events:
    """The requests of an event text, and how many events it has."""

    def __init__(self, text, name):
        self.name, self.requests, self.count = name, requests_of(text), sum(1 for _ in events_in(text))
        self.first = {}
        for number, source in self.requests:
            self.first.setdefault(source, number)
        self.numbers = {number for number, _ in self.requests}

    def judge(self, before, line):
        """Stops where a line of a trace, with the one before it, can't be of these events."""
        if line.number > self.count:
            raise Wrong('%s has %d events, and the trace a line %d: these are the events of another run' % (self.name, self.count, line.number))
        if before and line.number in self.numbers and (line.who, line.tasks) != (before.who, before.tasks):
            raise Wrong('%s: event %d is a request, and the trace has another step there: these are the events of another run' % (self.name, line.number))
        if line.who[0] in '@%' and self.first.get(line.who, line.number) >= line.number:
            raise Wrong('%s: nothing requests %s before event %d, where it has the processor' % (self.name, line.who, line.number))


    def judge_end(self, line):
        """Stops where the last line of a whole trace isn't that of the last event."""
        if line.number < self.count:
            raise Wrong('%s has %d events, and the trace ends with line %d: these are the events of another run, or --last is wanted'
                        % (self.name, self.count, line.number))


def trace_of(name, first=0, last=None, events=None):
    """The trace in a file of this name, or on standard input, which is kept in a file meanwhile."""
    file = opened(name)
    if not file.seekable():
        kept = tempfile.TemporaryFile('w+', encoding='utf-8', errors='surrogateescape', newline='')
        shutil.copyfileobj(file, kept)
        file = kept
    return Trace(file, name or 'standard input', first, last, events)


TASK = re.compile(r'(\w+)=([SYRW])(?:\*(\d+))?(?::([0-9a-f]+))?((?:\+\w+)*)', re.ASCII)

ROUTINE = re.compile(r'([@%]\w+)((?:\+\w+)*)', re.ASCII)

WHO = re.compile(r'[-#]|[@%]?\w+', re.ASCII)


def task_of(word):
    """The name and the state of a task, as a word of a line says them; a ValueError where it says none."""
    match = TASK.fullmatch(word)
    if not match:
        raise ValueError(word)
    name, state, further, events, held = match.groups()
    return name, Task(state, events, held.split('+')[1:], int(further or 0))


def routine_of(word):
    """The name of a routine and what it holds, as a word of a line says them; a ValueError where it says none."""
    match = ROUTINE.fullmatch(word)
    if not match:
        raise ValueError(word)
    return match.group(1), match.group(2).split('+')[1:]


def has_begun(line, name):
    """Whether a routine has begun and hasn't ended: it has the processor, or waits below another one."""
    return line.who == name or name in line.routines


def waits_below(line, name):
    return line.who != name and name in line.routines


def stacks_of(line):
    """What tasks and routines hold, by name; no task is called as a routine is, whose name begins with a sign."""
    return {**{name: task.held for name, task in line.tasks.items()}, **line.routines}


def line_of(text):
    """What a line says; a ValueError where it is none of a trace."""
    number, who, *words = text.split(' ')
    tasks, status, value, hooks, routines = {}, None, None, [], {}
    for word in words:
        if word[:1] == '!':
            status = STATUSES[STATUSES.index(word[1:])]
        elif word[:1] == '^':
            hooks.append(HOOKS[HOOKS.index(word[1:])])
        elif word[:1] == '=':
            value = word[1:]
        elif word[:1] in ('@', '%'):
            name, held = routine_of(word)
            routines[name] = held
        else:
            name, task = task_of(word)
            tasks[name] = task
    if not WHO.fullmatch(who) or (who[0] not in '-#@%' and who not in tasks):
        raise ValueError(who)
    return Line(int(number), who, tasks, status, value, hooks, routines)


def requests_of(text):
    """The requests of an event text, irq and tick alone: pairs of the event's number and the name of its source."""
    return [(number, ('@' if words[0] == 'irq' else '%') + words[1]) for number, words in events_in(text) if words[0] in ('irq', 'tick')]


def events_in(text):
    """The words of each event of a text, with its number."""
    lines = (line.split() for line in text.split('\n'))
    return enumerate((words for words in lines if words and not words[0].startswith('#')), 1)


def routines_of(lines, requests=()):
    """The names of the routines that lines show or events ask for, in the order in which they come."""
    names = dict.fromkeys(name for _, name in requests)
    for line in lines:
        if line.who[0] in '@%':
            names.setdefault(line.who)
    return list(names)
