"""A trace as the JSON text that ui.perfetto.dev and chrome://tracing read: one event is a microsecond. The processor, each task and what it
holds, each routine that waits below another one and what it holds are tracks; statuses and hooks are marks on the processor's."""
import json

from lib.trace_reader import STATES, waits_below


class Tracks:
    """The tracks by their names, numbered as they come."""

    def __init__(self):
        self.numbers = {}

    def named(self, name):
        """The number of a track, and the text that names it where it is new."""
        if name in self.numbers:
            return self.numbers[name], []
        self.numbers[name] = len(self.numbers) + 1
        number = self.numbers[name]
        return number, [{'ph': 'M', 'name': 'thread_name', 'pid': 1, 'tid': number, 'args': {'name': name}},
                        {'ph': 'M', 'name': 'thread_sort_index', 'pid': 1, 'tid': number, 'args': {'sort_index': number}}]


def shown(line):
    """What each track shows at a line; None where it shows nothing."""
    found = {'processor': {'-': 'idle', '#': 'halted'}.get(line.who, line.who)}
    for name, held in line.routines.items():
        found[name] = 'waits' if waits_below(line, name) else None
        found['%s holds' % name] = '+'.join(held) or None
    for name, task in line.tasks.items():
        state = None if task.state == 'S' else 'interrupted' if task.state == 'R' and line.who != name else STATES[task.state]
        state = state if state is None or not task.further else '%s, %d more' % (state, task.further)
        found['task ' + name] = state if state is None or task.events is None else '%s, events %s' % (state, task.events)
        found['%s holds' % name] = '+'.join(task.held) or None
    return found


def marks(line):
    if line.status:
        yield line.status
    for hook in line.hooks:
        yield hook


def dump(trace, requests):
    """The text, part by part."""
    tracks, open_, number, first = Tracks(), {}, 0, True
    yield '{"displayTimeUnit":"ns","traceEvents":[\n'
    for line in trace:
        for event in changes(tracks, open_, line):
            yield ('' if first else ',\n') + json.dumps(event)
            first = False
        number = line.number
    for event in ends(tracks, open_, number + 1) + [request(tracks, *pair) for pair in requests if pair[0] <= number]:
        yield ('' if first else ',\n') + json.dumps(event)
        first = False
    yield '\n]}\n'


def changes(tracks, open_, line):
    """What begins, ends and is marked at a line."""
    now = shown(line)
    for name in [*now, *(name for name in open_ if name not in now)]:
        value = now.get(name)
        begun = open_.get(name)
        if begun is not None and begun[0] != value:
            yield slice_of(tracks.numbers[name], begun, line.number)
        if value is not None and (begun is None or begun[0] != value):
            yield from tracks.named(name)[1]
        if begun is None or begun[0] != value:
            open_[name] = None if value is None else (value, line.number)
    for mark in marks(line):
        yield {'ph': 'i', 's': 't', 'name': mark, 'pid': 1, 'tid': tracks.numbers['processor'], 'ts': line.number}


def slice_of(track, begun, end):
    return {'ph': 'X', 'name': begun[0], 'pid': 1, 'tid': track, 'ts': begun[1], 'dur': end - begun[1]}


def ends(tracks, open_, number):
    return [slice_of(tracks.numbers[name], begun, number) for name, begun in open_.items() if begun is not None]


def request(tracks, number, source):
    return {'ph': 'i', 's': 't', 'name': source + ' requested', 'pid': 1, 'tid': tracks.numbers['processor'], 'ts': number}
