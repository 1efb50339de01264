"""A model of the kernel: the start of an application, and one step. It is written from docs/KERNEL.md and the definitions, beside the proved
program and for nothing but to be compared with it."""
from lib.services import activated, ended, event_set, service_effect
from lib.states import ARRIVAL, HALTED, IDLE, KEEP, LEFT, MAYBE, NO, NOTHING, OK, OUT, SUSPENDED, Armed, Effect, In, Live, Routine, Running, State, \
    Step, To, at_place, executing, place_of, replaced, with_alarm, with_source, with_task, without_first


class Kernel:
    """The kernel of an application."""

    def __init__(self, app):
        self.app = app

    # Priorities.

    def priority(self, state, task):
        """The current priority of a Live task: its own, or the highest ceiling that it has, by its INTERNAL resource too."""
        held = [self.app.resources[r].ceiling for r in self.app.occupied(task, state.tasks[task])]
        return max([2 * self.app.tasks[task].priority] + held)

    def turn(self, state, task):
        """Of tasks that share a priority the one with the least turn is first: who runs or is interrupted, then who stands first in the line."""
        if task == executing(state):
            return -1
        return state.line.index(task) if task in state.line else len(state.line) + task

    def best(self, state):
        """The Live task of the highest current priority, the first of those that share it; None where none is Live."""
        return min(self.tied(state), key=lambda t: self.turn(state, t), default=None)

    def tied(self, state):
        """The Live tasks of the highest current priority."""
        live = {t: self.priority(state, t) for t, activity in enumerate(state.tasks) if isinstance(activity, Live)}
        return [t for t, priority in live.items() if priority == max(live.values())]

    def level(self, state):
        """The level of interrupts: only a source whose priority isn't below it may begin. Each routine that began has one above its priority, and
        resources with an interrupt ceiling have that, where a routine holds them, or the task that runs or is interrupted."""
        found, task = [0], executing(state)
        held = list(self.app.occupied(task, state.tasks[task])) if task is not None else []
        for source, routine in zip(self.app.sources, state.sources):
            if routine != OUT:
                found.append(source.priority + 1)
                held += routine.held
        return max(found + [self.app.resources[r].interrupt_ceiling for r in held])

    def first_source(self, sources):
        """Of some sources the one of the highest priority, and of equal ones the first; None where there is none."""
        return min(sources, key=lambda s: (-self.app.sources[s].priority, s), default=None)

    # The start, and steps.

    def start(self, mode):
        """The start in the mode of this number."""
        app = self.app
        tasks = tuple(Live(app.first[t], 0, ()) if mode in task.modes else SUSPENDED for t, task in enumerate(app.tasks))
        alarms = tuple(Armed(a.time, a.cycle) if mode in a.modes else None for a in app.alarms)
        line = tuple(t for t, activity in enumerate(tasks) if activity != SUSPENDED)
        state = State(mode, IDLE, tasks, (0,) * len(tasks), (0,) * len(app.counters), alarms, frozenset(), line, (OUT,) * len(app.sources))
        state, _, hooks = self.switched(state, self.best(state), None)
        return Step(state, None, None, self.shown_hooks(['Startup'] + hooks), NOTHING)

    def request(self, state, source):
        """What `irq` and `tick` do: the source is latched."""
        return Step(state._replace(latched=state.latched | {source}), None, None, [], NOTHING)

    def run(self, state, choice):
        """What `run` does: a routine begins, or one instruction is done."""
        if state.processor == HALTED:
            return Step(state, None, None, [], NOTHING)
        source = self.arriving(state)
        if source is not None:
            return self.begin(state, source)
        if state.processor == IDLE:
            return Step(state, None, None, [], NOTHING)
        return self.instruct(state, choice)

    def arriving(self, state):
        """The latched source whose routine begins now; None where interrupts are locked, or none is above what runs."""
        if state.processor == HALTED or self.is_locked(state):
            return None
        level = self.level(state)
        return self.first_source([s for s in state.latched if self.app.sources[s].priority >= level])

    def is_locked(self, state):
        place = place_of(state)
        return place is not None and self.app.blocks[place[0]].is_locked

    def begin(self, state, source):
        begun = with_source(state, source, In(self.app.sources[source].first, 0, ()))
        return Step(begun._replace(processor=Routine(source, executing(state)), latched=state.latched - {source}), None, None, [], ARRIVAL)

    def instruct(self, state, choice):
        """One instruction: its effect, then what the scheduler does with the processor."""
        block, _ = place_of(state)
        effect = self.effect(state, choice)
        after, shown, hooks = self.dispatched(effect, block, executing(state))
        error = ['Error'] if effect.status not in (None, OK) else []
        shut = ['Shutdown'] if effect.shut_down else []
        return Step(after, effect.status, effect.value, self.shown_hooks(error + shut + hooks), shown)

    def shown_hooks(self, hooks):
        return [hook for hook in hooks if hook in self.app.hooks]

    def dispatched(self, effect, block, ran):
        """The state after the scheduler's turn at a block, what is shown of it, and the hooks of a dispatch; `ran` is the task that ran or
        was interrupted before."""
        state, best, is_schedule = effect.state, self.best(effect.state), self.app.blocks[block].word == 'Schedule'
        if effect.ask == LEFT:
            if best is None and ran is None:
                return state, KEEP, []
            return self.switched(state, best, ran)
        if effect.ask == MAYBE and (self.app.tasks[ran].is_full or is_schedule) and self.is_above(state, best, ran):
            return self.switched(state, best, ran)
        return self.kept(state), KEEP, []

    def is_above(self, state, task, other):
        return task is not None and self.priority(state, task) > self.priority(state, other)

    def kept(self, state):
        """The state in which who keeps the processor is inside its INTERNAL resource: an accepted Schedule has given it back."""
        return self.inside(state, state.processor.task) if isinstance(state.processor, Running) else state

    def inside(self, state, task):
        if self.app.internal[task] is None:
            return state
        return with_task(state, task, state.tasks[task]._replace(inside=True))

    def switched(self, state, task, ran):
        """The dispatch of a task, or of none: who loses the processor and is still Live comes first in the line, and who gets it leaves the
        line by its first place."""
        hooks = (['PostTask'] if ran is not None else []) + (['PreTask'] if task is not None else [])
        loser = executing(state)
        line = state.line if loser is None else (loser,) + state.line
        if task is None:
            return state._replace(processor=IDLE, line=line), To(task), hooks
        got = self.inside(state, task)
        return got._replace(processor=Running(task), line=without_first(line, task)), To(task), hooks

    # Effects.

    def effect(self, state, choice):
        """The effect of the instruction where the processor stands."""
        number, offset = place_of(state)
        block = self.app.blocks[number]
        if block.word == 'work' and offset + 1 < block.arguments[0]:
            return Effect(at_place(state, number, offset + 1), NO, None, None, False)
        if block.word == 'end':
            return self.end_of_task(state) if block.owner.kind == 'TASK' else self.end_of_routine(state)
        if block.word == 'choice':
            return Effect(at_place(state, block.next if choice else block.other), NO, None, None, False)
        if block.word in ('count', 'expire'):
            return getattr(self, block.word)(at_place(state, block.next), block)
        moved = at_place(state, block.next)
        if block.word in ('work', 'loop'):
            return Effect(moved, NO, None, None, False)
        return service_effect(self.app, state, moved, block)

    def end_of_task(self, state):
        return Effect(ended(self.app, state, state.processor.task), LEFT, None, None, False)

    def end_of_routine(self, state):
        """A routine that ends gives back what it holds. Where another one began before and hasn't ended, the processor goes to that one."""
        source, over = state.processor
        state = with_source(state, source, OUT)
        below = self.first_source([s for s, routine in enumerate(state.sources) if routine != OUT])
        if below is not None:
            return Effect(state._replace(processor=Routine(below, over)), NO, None, None, False)
        if over is None:
            return Effect(state._replace(processor=IDLE), LEFT, None, None, False)
        return Effect(state._replace(processor=Running(over)), MAYBE, None, None, False)

    def count(self, state, _block):
        counter = state.processor.source
        value = state.counters[counter] + 1
        value = 0 if value > self.app.counters[counter].most else value
        return Effect(state._replace(counters=replaced(state.counters, counter, value)), NO, None, None, False)

    def expire(self, state, block):
        """An alarm that is due goes on by its cycle or is no longer armed, and acts from interrupt level."""
        number = self.app.alarm_number[block.arguments[0]]
        alarm, armed = self.app.alarms[number], state.alarms[number]
        counter = self.app.counter_number[alarm.counter]
        if armed is None or armed.at != state.counters[counter]:
            return Effect(state, NO, None, None, False)
        most = self.app.counters[counter].most
        state = with_alarm(state, number, Armed((armed.at + armed.cycle) % (most + 1), armed.cycle) if armed.cycle else None)
        task = self.app.task_number[alarm.task]
        state, status, _ = event_set(self.app, state, task, alarm.mask) if alarm.event else activated(self.app, state, task)
        return Effect(state, NO, status, None, False)
