"""The least table of an application in the model of model.py, and what `show` prints of it.

A table has for each point the values that each task, each event bit, each alarm and each routine may have there. The least one has the starts
of all modes, and the steps of all states that it admits. Here these are done one by one: every choice of one value a component is a state, with
every choice of what the table doesn't keep (latches, where within `work` the processor is, whether an alarm is due, which task stands first in
the line)."""
import itertools
import math

from lib import opened
from lib.kernel import Kernel
from lib.points import HALT_POINT, IDLE_POINT, NOBODY, block_point, points_of, shown_point
from lib.states import ARRIVAL, HALTED, IDLE, KEEP, NOTHING, OUT, Armed, In, Live, Routine, Running, State, To, at_place, executing, place_of, \
    replaced, with_alarm, without_first

MOST_ASKED, FEW_ASKED = 100000, 10000
"""How many states are asked at most where a tool can do without the table, and where a built osekfit can be asked for it."""


def point_of(state):
    if state.processor in (HALTED, IDLE):
        return HALT_POINT if state.processor == HALTED else IDLE_POINT
    over = state.processor.over if isinstance(state.processor, Routine) else None
    return block_point(place_of(state)[0], over, isinstance(state.processor, Routine))


class TableSteps:
    """The states that a table admits, and what their steps show. A table has for each of its points a list of sets, one a component: each
    task, each of its own event bits, the lowest first, each alarm, and, where routines nest, each source."""

    def __init__(self, app):
        self.app, self.kernel = app, Kernel(app)
        self.bits = app.own_bits()
        self.edges, self.hooks = set(), set()
        self.shown, self.noted = ({block: set() for block in app.sites()} for _ in range(2))

    # Values and states.

    def values_of(self, state):
        """The values of a state's components: tasks without their offsets, event bits, whether alarms are armed, and routines as tasks."""
        tasks = [task._replace(offset=0) if isinstance(task, Live) else task for task in state.tasks]
        sources = [routine if routine == OUT else routine._replace(offset=0) for routine in state.sources] if opened.has(opened.NESTED) else []
        return tasks + [state.masks[t] >> bit & 1 for t, bit in self.bits] + [alarm is not None for alarm in state.alarms] + sources

    def state_of(self, point, values):
        """A state at a point with these values; what a table doesn't keep is at rest."""
        app = self.app
        count = len(app.tasks)
        masks = [0] * count
        for (task, bit), value in zip(self.bits, values[count:]):
            masks[task] |= value << bit
        last = count + len(self.bits) + len(app.alarms)
        alarms = tuple(Armed(0, 0) if armed else None for armed in values[count + len(self.bits):last])
        processor, sources = self.processor_at(point), tuple(values[last:]) if opened.has(opened.NESTED) else (OUT,) * len(app.sources)
        if isinstance(processor, Routine):
            _, block, _, _ = point
            held = sources[processor.source].held if sources[processor.source] != OUT else ()
            sources = replaced(sources, processor.source, In(block, 0, held))
        state = State(0, processor, tuple(values[:count]), tuple(masks), (0,) * len(app.counters), alarms, frozenset(), (), sources)
        return state._replace(line=line_of(state))

    def processor_at(self, point):
        if point in (HALT_POINT, IDLE_POINT):
            return HALTED if point == HALT_POINT else IDLE
        _, block, over, is_routine = point
        owner = self.app.blocks[block].owner
        if not is_routine:
            return Running(self.app.task_number[owner.name])
        return Routine(self.app.source_of(block), None if over == NOBODY else over)

    def steps_of(self, state):
        """The steps of a state with each choice of what a table doesn't keep."""
        if state.processor == HALTED:
            return []
        found = [] if state.processor == IDLE else [self.kernel.run(*chosen) for s in self.with_lines(state) for chosen in self.chosen(s)]
        requested = (state._replace(latched=frozenset([s])) for s in range(len(self.app.sources)))
        return found + [self.kernel.run(s, False) for s in requested if self.kernel.arriving(s) is not None]

    def with_lines(self, state):
        """The state with each task first in the line that has a place there, where the line may matter."""
        firsts = dict.fromkeys(state.line) if self.app.is_site(place_of(state)[0]) else []
        return [state._replace(line=(t,) + without_first(state.line, t)) for t in firsts] or [state]

    def chosen(self, state):
        """The state with its offset, and with the alarm that may expire here, as they may be otherwise; each with a choice."""
        block = self.app.blocks[place_of(state)[0]]
        if block.word == 'choice':
            return [(state, False), (state, True)]
        if block.word == 'work':
            return [(at_place(state, place_of(state)[0], offset), False) for offset in {0, block.arguments[0] - 1}]
        if block.word == 'expire' and state.alarms[self.app.alarm_number[block.arguments[0]]]:
            alarm = self.app.alarm_number[block.arguments[0]]
            counter = self.app.counters[state.processor.source]
            often = Armed(0, max(1, counter.least_cycle))
            return [(with_alarm(state, alarm, armed), False) for armed in (Armed(0, 0), often, Armed(1, 0))]
        return [(state, False)]

    def note(self, point, step):
        """What a step says of edges and of hooks, and of the form and the status of its site."""
        target = point_of(step.state)
        self.hooks.update(step.hooks)
        if target != point or isinstance(step.shown, To):
            self.edges.add((point, target))
        if len(point) > 1 and point[1] in self.shown and step.shown not in (ARRIVAL, NOTHING):
            self.shown[point[1]].add(step.shown)
            self.noted[point[1]].add(step.status)


def line_of(state):
    """A line with the places that are due in a state: those of each task in turn."""
    found = []
    for task, activity in enumerate(state.tasks):
        if isinstance(activity, Live):
            found += [task] * (activity.further + (task != executing(state)))
    return tuple(found)


class Analysis(TableSteps):
    """The least table of an application, on its way."""

    def __init__(self, app):
        super().__init__(app)
        self.table, self.done, self.waiting = {}, {}, []
        for start in map(self.kernel.start, range(len(app.modes))):
            self.join(start.state)
            self.hooks.update(start.hooks)

    def join(self, state):
        """Puts a state's values into its point's entry."""
        point, values = point_of(state), self.values_of(state)
        entry = self.table.setdefault(point, [set() for _ in values])
        if any(value not in seen for value, seen in zip(values, entry)):
            for value, seen in zip(values, entry):
                seen.add(value)
            self.waiting.append(point)

    def solve(self, most=None):
        """Lets the table grow until the steps of all its states stay in it. Each state is asked once; None where more than `most` were."""
        asked = 0
        while self.waiting:
            point = self.waiting.pop()
            done = self.done.setdefault(point, set())
            for values in itertools.product(*map(list, self.table[point])):
                if values not in done:
                    asked += 1
                    if most is not None and asked > most:
                        return None
                    done.add(values)
                    for step in self.steps_of(self.state_of(point, values)):
                        self.join(step.state)
                        self.note(point, step)
        return self


def form(app, shown):
    """The form of a site by what its instruction's steps show."""
    if len(shown) != 1:
        return 'general' if shown else 'never'
    if shown == {KEEP}:
        return 'stay'
    (only,) = shown
    return 'direct ' + ('-' if only.task is None else app.tasks[only.task].name)


def heights(app, bits):
    """How many values an entry has at most."""
    count = len(app.takable())
    stacks = sum(math.perm(count, k) for k in range(count + 1))
    found = 2 * bits + 2 * len(app.alarms)
    for number, task in enumerate(app.tasks):
        blocks = len(app.blocks_of_task(number))
        found += 1 + blocks + blocks * stacks * task.activation * (1 if task.internal is None else 2)
    for number, source in enumerate(app.sources if opened.has(opened.NESTED) else []):
        found += 1 + len(app.blocks_of_source(number)) * (stacks if source.mark == '@' else 1)
    return found


def show(app, analysis=None):
    """What `show` prints of an application, whose analysis may be given."""
    analysis = analysis or Analysis(app).solve()
    lines = ['site b%d line %d %s' % (block, app.blocks[block].line, form(app, shown)) for block, shown in analysis.shown.items()]
    lines += ['edge %s %s' % (shown_point(app, p), shown_point(app, q)) for p, q in sorted(analysis.edges)]
    values = sum(len(seen) for entry in analysis.table.values() for seen in entry)
    lines += ['points %d height %d values %d edges %d' % (len(points_of(app)), heights(app, len(analysis.bits)), values, len(analysis.edges))]
    return ''.join(text + '\n' for text in lines)
