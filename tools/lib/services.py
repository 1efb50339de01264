"""The services of the model of kernel.py, in the order of ISO 17356-3. Each one first has its refusals in the order in which they are
tested: a pair of a condition and a status."""
from lib.states import HALTED, IDLE, LEFT, MAYBE, NO, OK, OUT, SUSPENDED, Armed, Effect, Live, Routine, Waiting, executing, \
    replaced, with_alarm, with_source, with_task
from lib.task_code import LOCKS


class Call:
    """A call as a service sees it: the state before it, the one in which its caller stands at the next block, and its arguments."""

    def __init__(self, app, before, moved, block):
        self.app, self.before, self.moved, self.block = app, before, moved, block
        self.is_routine = isinstance(before.processor, Routine)
        self.caller = None if self.is_routine else before.processor.task
        self.source = before.processor.source if self.is_routine else None

    def caller_task(self):
        return self.app.tasks[self.caller]

    def holds(self):
        return not self.is_routine and len(self.before.tasks[self.caller].held) > 0

    def task(self):
        return self.app.task_number[self.block.arguments[0][0]]

    def alarm(self):
        return self.app.alarm_number[self.block.arguments[0][0]]

    def resource(self):
        return self.app.resource_number[self.block.arguments[0][0]]

    def mask(self):
        return self.app.mask(self.block.arguments[-1])

    # What a call comes to.

    def refused(self, tests):
        """The refusal by the first of these tests that holds, or None."""
        status = next((status for holds, status in tests if holds), None)
        return None if status is None else Effect(self.moved, NO, status, None, False)

    def accepted(self, state, ask=NO, status=OK, value=None):
        """The effect of an accepted call. A routine asks nothing of the scheduler."""
        return Effect(state, NO if self.is_routine else ask, status, value, False)

    # Tasks.

    def ActivateTask(self):
        state, status, woke = activated(self.app, self.moved, self.task())
        return self.refused([(not woke, status)]) or self.accepted(state, MAYBE)

    def TerminateTask(self):
        return self.refused([(self.is_routine, 'E_OS_CALLEVEL'), (self.holds(), 'E_OS_RESOURCE')]) \
            or self.accepted(self.without_caller(), LEFT, None)

    def ChainTask(self):
        task = self.task()
        has_no_room = task != self.caller and is_full(self.app, self.before, task)
        return self.refused([(self.is_routine, 'E_OS_CALLEVEL'), (self.holds(), 'E_OS_RESOURCE'), (has_no_room, 'E_OS_LIMIT')]) \
            or self.accepted(activated(self.app, self.without_caller(), task)[0], LEFT, None)

    def Schedule(self):
        return self.refused([(self.is_routine, 'E_OS_CALLEVEL'), (self.holds(), 'E_OS_RESOURCE')]) or self.accepted(self.outside(), MAYBE)

    def outside(self):
        """The caller at the next block, without its INTERNAL resource."""
        return with_task(self.moved, self.caller, self.moved.tasks[self.caller]._replace(inside=False))

    def GetTaskID(self):
        task = executing(self.before)
        return self.accepted(self.moved, value='-' if task is None else self.app.tasks[task].name)

    def GetTaskState(self):
        return self.accepted(self.moved, value=letter(self.before, self.task()))

    def without_caller(self):
        return ended(self.app, self.moved, self.caller)

    # Resources.

    def GetResource(self):
        resource, held = self.resource(), self.held()
        stacks = [task.held for task in self.before.tasks if isinstance(task, Live)] + [r.held for r in self.before.sources if r != OUT]
        is_taken = any(resource in stack for stack in stacks)
        return self.refused([(is_taken or self.is_below_caller(resource), 'E_OS_ACCESS')]) \
            or self.accepted(self.holding(held + (resource,)))

    def ReleaseResource(self):
        resource, held = self.resource(), self.held()
        return self.refused([(self.is_below_caller(resource), 'E_OS_ACCESS'), (held[-1:] != (resource,), 'E_OS_NOFUNC')]) \
            or self.accepted(self.holding(held[:-1]), MAYBE)

    def held(self):
        return self.before.sources[self.source].held if self.is_routine else self.before.tasks[self.caller].held

    def is_below_caller(self, resource):
        """Whether the caller's own priority is above a resource's ceiling: a routine's, above its interrupt ceiling."""
        found = self.app.resources[resource]
        if self.is_routine:
            return found.interrupt_ceiling < self.app.sources[self.source].priority + 1
        return found.ceiling < 2 * self.caller_task().priority

    def holding(self, held):
        if self.is_routine:
            return with_source(self.moved, self.source, self.moved.sources[self.source]._replace(held=held))
        return with_task(self.moved, self.caller, self.moved.tasks[self.caller]._replace(held=held))

    # Events.

    def SetEvent(self):
        state, status, woke = event_set(self.app, self.moved, self.task(), self.mask())
        return self.refused([(status != OK, status)]) or self.accepted(state, MAYBE if woke else NO)

    def ClearEvent(self):
        return self.refused(self.event_refusals()) or self.accepted(self.with_mask(self.before.masks[self.caller] & ~self.mask()))

    def GetEvent(self):
        task = self.task()
        return self.refused([(not self.app.tasks[task].own, 'E_OS_ACCESS'), (self.before.tasks[task] == SUSPENDED, 'E_OS_STATE')]) \
            or self.accepted(self.moved, value='%x' % self.before.masks[task])

    def WaitEvent(self):
        return self.refused(self.event_refusals() + [(self.holds(), 'E_OS_RESOURCE')]) or self.waits()

    def waits(self):
        if self.before.masks[self.caller] & self.mask():
            return self.accepted(self.moved)
        waiting = with_task(self.before, self.caller, Waiting(self.before.tasks[self.caller].block))
        return self.accepted(waiting._replace(processor=IDLE), LEFT)

    def event_refusals(self):
        return [(self.is_routine, 'E_OS_CALLEVEL'), (not self.is_routine and not self.caller_task().own, 'E_OS_ACCESS')]

    def with_mask(self, mask):
        return self.moved._replace(masks=replaced(self.moved.masks, self.caller, mask))

    # Alarms.

    def SetRelAlarm(self):
        increment = self.block.arguments[1]
        return self.armed_by(increment == 0, lambda counter, most: (self.before.counters[counter] + increment) % (most + 1))

    def SetAbsAlarm(self):
        return self.armed_by(False, lambda _counter, _most: self.block.arguments[1])

    def armed_by(self, is_none, due):
        """The alarm armed at the value that `due` gives, unless a number is out of its range."""
        number, (_, first, cycle) = self.alarm(), self.block.arguments
        counter = self.app.counter_number[self.app.alarms[number].counter]
        most, least = self.app.counters[counter].most, self.app.counters[counter].least_cycle
        is_outside = is_none or first > most or (cycle != 0 and not least <= cycle <= most)
        return self.refused([(self.before.alarms[number] is not None, 'E_OS_STATE'), (is_outside, 'E_OS_VALUE')]) \
            or self.accepted(with_alarm(self.moved, number, Armed(due(counter, most), cycle)))

    def CancelAlarm(self):
        number = self.alarm()
        return self.refused([(self.before.alarms[number] is None, 'E_OS_NOFUNC')]) or self.accepted(with_alarm(self.moved, number, None))

    def GetAlarm(self):
        armed = self.before.alarms[self.alarm()]
        return self.refused([(armed is None, 'E_OS_NOFUNC')]) or self.accepted(self.moved, value=str(self.ticks_to(armed)))

    def ticks_to(self, armed):
        counter = self.app.counter_number[self.app.alarms[self.alarm()].counter]
        turn = self.app.counters[counter].most + 1
        return (armed.at - self.before.counters[counter]) % turn or turn

    # The system.

    def GetActiveApplicationMode(self):
        return self.accepted(self.moved, status=None, value=self.app.modes[self.before.mode])

    def ShutdownOS(self):
        task, line = executing(self.moved), self.moved.line
        halted = self.moved._replace(processor=HALTED, line=line if task is None else (task,) + line, sources=(OUT,) * len(self.app.sources))
        return Effect(halted, NO, None, None, True)


def service_effect(app, before, moved, block):
    """The effect of a call; `moved` has its caller at the next block."""
    if block.word in LOCKS:  # what they lock stands in the blocks
        return Effect(moved, NO, None, None, False)
    return getattr(Call(app, before, moved, block), block.word)()


def activated(app, state, task):
    """The activation of a task: the state after it, its status, and whether it was one."""
    if is_full(app, state, task):
        return state, 'E_OS_LIMIT', False
    state, activity = in_line(state, task), state.tasks[task]
    if activity != SUSPENDED:
        return with_task(state, task, activity._replace(further=activity.further + 1)), OK, True
    live = with_task(state, task, Live(app.first[task], 0, ()))
    return live._replace(masks=replaced(state.masks, task, 0)), OK, True


def is_full(app, state, task):
    """Whether a task takes no activation more; one that waits takes none."""
    activity = state.tasks[task]
    return isinstance(activity, Waiting) or isinstance(activity, Live) and activity.further + 1 >= app.tasks[task].activation


def ended(app, state, task):
    """The end of the task that has the processor: by its next activation it is ready anew, which has its place in the line since it came."""
    further = state.tasks[task].further
    return with_task(state, task, Live(app.first[task], 0, (), further - 1) if further else SUSPENDED)._replace(processor=IDLE)


def in_line(state, task):
    """The state with a last place in the line for a task."""
    return state._replace(line=state.line + (task,))


def event_set(app, state, task, mask):
    """The events that are set in a task: the state after it, its status, and whether the task woke."""
    own = app.tasks[task].own
    if not own or state.tasks[task] == SUSPENDED:
        return state, 'E_OS_STATE' if own else 'E_OS_ACCESS', False
    after = state._replace(masks=replaced(state.masks, task, state.masks[task] | mask & own))
    activity = state.tasks[task]
    if not isinstance(activity, Waiting) or not awaited(app, activity.block) & mask & own:
        return after, OK, False
    return with_task(in_line(after, task), task, Live(app.blocks[activity.block].next, 0, ())), OK, True


def awaited(app, block):
    """The events that the WaitEvent at a block waits for."""
    return app.mask(app.blocks[block].arguments[0])


def letter(state, task):
    """The state of a task as the trace has it."""
    activity = state.tasks[task]
    if activity == SUSPENDED:
        return 'S'
    if isinstance(activity, Waiting):
        return 'W'
    return 'R' if state.processor != HALTED and executing(state) == task else 'Y'
