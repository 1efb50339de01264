"""What an event did, and why: who has the processor and why, why a ready task waits, and why a requested routine hasn't begun. All of it is
said in words, of the states of the model of kernel.py; page.py and step.py show it."""
from lib.kernel import Kernel
from lib.services import letter
from lib.states import ARRIVAL, HALTED, IDLE, OUT, Live, Routine, Running, Waiting, executing, place_of
from lib.texts import place_text


def told(app, before, step, words, code_name):
    """What an event did: the statement with its line, or what came of a request."""
    if words is None:
        return 'the start'
    if words[0] != 'run':
        kept = 'is requested already, and this is lost' if step.state == before else 'is requested'
        return '%s %s' % (words[1], kept)
    if step.shown == ARRIVAL:
        return 'the routine of %s begins' % app.sources[step.state.processor.source].name
    if before.processor in (IDLE, HALTED):
        return 'nothing: the processor is %s' % before.processor
    block = app.blocks[place_of(before)[0]]
    return place_text(block, code_name) + (' choice %s' % words[1] if block.word == 'choice' else '')


class Reasons:
    """Says of an application's states why they are as they are."""

    def __init__(self, app):
        self.app, self.kernel, self.last = app, Kernel(app), (None, None)

    # Names.

    def task_name(self, task):
        return self.app.tasks[task].name

    def source_name(self, source):
        return self.app.sources[source].mark + self.app.sources[source].name

    def own(self, task):
        """A task's own priority, as the OIL text has it."""
        return self.app.tasks[task].priority

    def is_ready(self, state, task):
        return isinstance(state.tasks[task], Live) and letter(state, task) == 'Y'

    def best(self, state):
        """The best task of a state, which is asked for each ready one."""
        if self.last[0] is not state:
            self.last = state, self.kernel.best(state)
        return self.last[1]

    # Who has the processor.

    def processor(self, state):
        """Why who has the processor has it."""
        if state.processor == HALTED:
            return 'ShutdownOS halted the processor for good'
        if state.processor == IDLE:
            return 'no task is ready'
        if isinstance(state.processor, Routine):
            return self.routine_first(state)
        task = state.processor.task
        ready = [t for t in range(len(self.app.tasks)) if self.is_ready(state, t)]
        above = [t for t in ready if self.own(t) > self.own(task)]
        if above:
            return 'it goes on: ' + '; '.join('%s of priority %d is ready, but %s' % (
                self.task_name(t), self.own(t), self.kept_out(state, t, task)) for t in above)
        if any(self.own(t) == self.own(task) for t in ready):
            return 'of the ready tasks of priority %d its activation is the first' % self.own(task)
        return 'of the ready tasks it has the highest priority, %d' % self.own(task) if ready else 'no other task is ready'

    def routine_first(self, state):
        source, over = state.processor
        below = [self.source_name(s) for s, routine in enumerate(state.sources) if routine != OUT and s != source]
        found = 'a routine goes before every task' + (', and its priority %d is above that of %s' % (
            self.app.sources[source].priority, ' and '.join(below)) if below else '')
        return found + ('; it interrupted %s' % self.task_name(over) if over is not None else '; it interrupted no task')

    # Tasks.

    def task(self, state, task):
        """Why a task doesn't go on; nothing of one that runs or is suspended."""
        activity = state.tasks[task]
        if isinstance(activity, Waiting):
            return 'waits for %s' % ' or '.join(self.app.blocks[activity.block].arguments[0])
        if not isinstance(activity, Live) or isinstance(state.processor, Running) and state.processor.task == task:
            return ''
        if state.processor == HALTED:
            return 'the processor is halted'
        if not isinstance(state.processor, Routine):
            return self.held_off(state, task, executing(state))
        over, name = executing(state), self.source_name(state.processor.source)
        if over == task:
            return 'interrupted by %s' % name
        return '%s has the processor; behind the last routine: %s' % (name, self.behind_routines(state, task, over))

    def behind_routines(self, state, task, over):
        """What comes of a ready task where the last routine ends, if nothing else changes."""
        best = self.best(state)
        if over is not None and not self.is_left(state, over, best):
            return self.held_off(state, task, over)
        return 'it is dispatched' if best == task else self.held_off(state, task, best)

    def is_left(self, state, over, best):
        """Whether the end of a routine leaves the task that it interrupted for the best one."""
        return self.app.tasks[over].is_full and self.kernel.is_above(state, best, over)

    def held_off(self, state, task, other):
        """Why another task keeps a ready one from the processor."""
        name, first, second = self.task_name(other), self.kernel.priority(state, task), self.kernel.priority(state, other)
        if self.own(task) > self.own(other):
            return self.kept_out(state, task, other)
        if first > second:
            return self.not_preempted(other)
        if self.own(task) < self.own(other):
            return '%s goes before it: priority %d is above %d' % (name, self.own(other), self.own(task))
        return '%s goes before it: of their priority %d it came first' % (name, self.own(other))

    def kept_out(self, state, task, other):
        """What keeps a task away from the one that has the processor, or that was interrupted, and is of a lower priority."""
        ceilings = [(self.app.resources[r].ceiling, r) for r in self.app.occupied(other, state.tasks[other])]
        ceiling, resource = max(ceilings, default=(0, None))
        if resource is None or ceiling < self.kernel.priority(state, task):
            return self.not_preempted(other)
        found = self.app.resources[resource]
        kept = 'is inside the group %s, which keeps it out' if found.is_internal else 'holds %s, whose ceiling keeps it out'
        return '%s %s' % (self.task_name(other), kept % found.name)

    def not_preempted(self, other):
        if not self.app.tasks[other].is_full:
            return '%s is SCHEDULE = NON, and is left only where it calls Schedule, waits or ends' % self.task_name(other)
        return 'the scheduler looks at the next call of %s' % self.task_name(other)

    # Routines.

    def source(self, state, source):
        """Why a routine that is requested hasn't begun, or hasn't ended; nothing of one that is out or has the processor."""
        found = []
        if state.sources[source] != OUT and state.processor.source != source:
            found.append('waits below %s' % self.source_name(state.processor.source))
        if source in state.latched:
            found.append('requested: ' + self.not_begun(state, source))
        return '; '.join(found)

    def not_begun(self, state, source):
        if state.processor == HALTED:
            return 'the processor is halted'
        if self.kernel.is_locked(state):
            block = self.app.blocks[place_of(state)[0]]
            return 'interrupts are locked at line %d' % block.line
        priority = self.app.sources[source].priority
        if priority < self.kernel.level(state):
            return 'its priority %d is below the level %d: %s' % (priority, self.kernel.level(state), self.level(state))
        first = self.kernel.arriving(state)
        if first == source:
            return 'its routine begins with the next run'
        why = 'is of a higher priority' if self.app.sources[first].priority > priority else 'comes first of this priority'
        return '%s %s' % (self.source_name(first), why)

    def level(self, state):
        """What makes the level of interrupts."""
        level, task, found = self.kernel.level(state), executing(state), []
        if level == 0:
            return 'no routine is kept away by its priority'
        for number, (source, routine) in enumerate(zip(self.app.sources, state.sources)):
            if routine != OUT:
                found += ['the routine of %s has begun' % source.name] * (source.priority + 1 == level)
                found += self.held_at(routine.held, level, self.source_name(number))
        if task is not None:
            found += self.held_at(self.app.occupied(task, state.tasks[task]), level, self.task_name(task))
        return ' and '.join(found)

    def held_at(self, held, level, name):
        """The resources whose interrupt ceiling is the level, as who holds them."""
        return ['%s holds %s' % (name, self.app.resources[r].name) for r in held if self.app.resources[r].interrupt_ceiling == level]
