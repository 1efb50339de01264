"""A run as columns, for the page of page.py: each column says of one thing, a task or who has the processor, what it is behind each event. A
value is kept where it changes alone, and each text once; so 100,000 events of sixteen tasks are some megabytes."""
import itertools

from lib.least_table import point_of
from lib.model_trace import notes, shown_resources, shown_task, who
from lib.points import shown_point
from lib.reasons import Reasons, told
from lib.services import letter
from lib.states import ARRIVAL, HALTED, IDLE, NOTHING, OUT, Live, Routine, To, place_of

REQUEST, LOST, BEGIN, DONE, DISPATCH, NOTHING_DONE = 'request', 'lost', 'begin', 'done', 'dispatch', 'nothing'
"""What an event came to: a request, one that is lost, the beginning of a routine, an instruction without and with a dispatch, and nothing."""


class Column:
    """What one thing is behind each event: where it changes, and to which of its texts."""

    def __init__(self):
        self.texts, self.steps, self.ids, self.place, self.known = [], [], [], 0, {}

    def put(self, place, text):
        """Says that the thing is so from this event on."""
        number = self.known.setdefault(text, len(self.texts))
        if number == len(self.texts):
            self.texts.append(text)
        if not self.ids or self.ids[-1] != number:
            self.steps.append(place - self.place)
            self.ids.append(number)
            self.place = place

    def each(self, count):
        """The text behind each of so many events."""
        ends = self.steps[1:] + [count - self.place]
        for number, length in zip(self.ids, ends):
            yield from itertools.repeat(self.texts[number], length)

    def data(self):
        """The column as the page has it: its texts, how far each change lies behind the one before, and which text it brings."""
        return {'texts': self.texts, 'steps': self.steps, 'ids': self.ids}


def outcome(before, step, words):
    """What an event came to, as a word."""
    if words is None or isinstance(step.shown, To):
        return DISPATCH
    if words[0] != 'run':
        return LOST if step.state == before else REQUEST
    return {ARRIVAL: BEGIN, NOTHING: NOTHING_DONE}.get(step.shown, DONE)


def since(app, before, state, task):
    """What brought a task to its state, where the step changed that; None where it didn't."""
    was, now, last, letter_now = before.tasks[task], state.tasks[task], letter(before, task), letter(state, task)
    has_ended = isinstance(was, Live) and isinstance(now, Live) and was.further > now.further
    if last == letter_now and not has_ended:
        return None
    if has_ended:
        return 'ready by its next activation' if letter_now == 'Y' else 'runs by its next activation'
    if letter_now == 'Y' and last == 'R':
        return 'the processor is halted' if state.processor == HALTED else 'preempted by %s' % who(app, state)
    return {'S': 'ended', 'W': 'waits', 'R': 'dispatched', 'Y': 'activated' if last == 'S' else 'released'}[letter_now]


def standing(app, state):
    """What of a state decides why tasks and routines stand as they do: all but where within its body each of them is, and the alarms."""
    lock = app.blocks[place_of(state)[0]].line if state.latched and is_locked(app, state) else None
    tasks = tuple((task.held, task.further, task.inside) if isinstance(task, Live) else task for task in state.tasks)
    sources = tuple(routine if routine == OUT else routine.held for routine in state.sources)
    return state.processor, tasks, sources, state.line, state.masks, state.latched, lock


def is_locked(app, state):
    place = place_of(state)
    return place is not None and app.blocks[place[0]].is_locked


class Run:
    """The columns of a run, as far as it was played. Each row is a dictionary of columns by what they say."""

    def __init__(self, app, code_name):
        self.app, self.code_name, self.reasons = app, code_name, Reasons(app)
        self.count, self.last, self.said = 0, None, [None] * len(app.tasks)
        self.all = {name: Column() for name in ('event', 'outcome', 'told', 'block', 'point', 'who', 'why', 'level', 'notes')}
        self.tasks = [{name: Column() for name in ('word', 'why', 'since')} for _ in app.tasks]
        self.sources = [{name: Column() for name in ('word', 'why', 'requested')} for _ in app.sources]
        self.alarms, self.counters = [Column() for _ in app.alarms], [Column() for _ in app.counters]

    def take(self, before, step, words):
        """Takes in the step of an event. What depends on the block within a task alone changes nothing of the others, and isn't asked anew."""
        state = step.state
        for name, value in self.step_values(before, step, words).items():
            self.all[name].put(self.count, value)
        last, self.last = self.last, standing(self.app, state)
        if last != self.last:
            for name, value in self.state_values(state).items():
                self.all[name].put(self.count, value)
            self.take_tasks(before, state)
            self.take_sources(state)
        self.take_alarms(before, state)
        self.count += 1

    def step_values(self, before, step, words):
        has_run = before is not None and words[0] == 'run' and step.shown not in (ARRIVAL, NOTHING) and before.processor not in (IDLE, HALTED)
        return {'event': ' '.join(words or ['start']), 'outcome': outcome(before, step, words), 'notes': ' '.join(notes(step)),
                'told': told(self.app, before, step, words, self.code_name), 'block': place_of(before)[0] if has_run else -1,
                'point': shown_point(self.app, point_of(step.state))}

    def state_values(self, state):
        level = '%d: %s' % (self.reasons.kernel.level(state), self.reasons.level(state))
        return {'who': who(self.app, state), 'why': self.reasons.processor(state), 'level': level}

    def take_tasks(self, before, state):
        for number, columns in enumerate(self.tasks):
            columns['why'].put(self.count, self.reasons.task(state, number))
            said = state.tasks[number], state.masks[number], letter(state, number)
            if said != self.said[number]:
                columns['word'].put(self.count, shown_task(self.app, state, number))
                began = before and since(self.app, before, state, number)
                if began or before is None:
                    columns['since'].put(self.count, '%s at %d' % (began, self.count) if began else 'the start')
                self.said[number] = said

    def take_sources(self, state):
        top = state.processor.source if isinstance(state.processor, Routine) else None
        for number, (routine, columns) in enumerate(zip(state.sources, self.sources)):
            source = self.app.sources[number]
            is_told = routine != OUT and (number != top or routine.held)
            columns['word'].put(self.count, source.mark + source.name + shown_resources(self.app, routine.held) if is_told else '')
            columns['why'].put(self.count, self.reasons.source(state, number))
            columns['requested'].put(self.count, 'requested' if number in state.latched else '')

    def take_alarms(self, before, state):
        if before is None or before.alarms is not state.alarms:
            for column, armed in zip(self.alarms, state.alarms):
                cycle = ', then every %d' % armed.cycle if armed and armed.cycle else ''
                column.put(self.count, 'due at %d%s' % (armed.at, cycle) if armed else 'not armed')
        if before is None or before.counters is not state.counters:
            for column, value in zip(self.counters, state.counters):
                column.put(self.count, str(value))

    def lines(self):
        """The lines of the trace, as the columns have them."""
        columns = [self.all['who'], *(row['word'] for row in self.tasks + self.sources), self.all['notes']]
        for number, words in enumerate(zip(*(column.each(self.count) for column in columns))):
            yield ' '.join([str(number), *filter(None, words)])

    def data(self):
        """The run as the page has it."""
        def rows(found):
            return [{name: column.data() for name, column in columns.items()} for columns in found]
        return {'count': self.count, 'all': {name: column.data() for name, column in self.all.items()}, 'tasks': rows(self.tasks),
                'sources': rows(self.sources), 'alarms': [c.data() for c in self.alarms], 'counters': [c.data() for c in self.counters]}
