"""States of an application in the model of kernel.py, and their parts. No state is changed: what changes one makes a new one."""
from collections import namedtuple

State = namedtuple('State', 'mode processor tasks masks counters alarms latched line sources')
"""A state: who has the processor, the activity and the event mask of each task, the value of each counter, each alarm, the
sources that are latched, the line of activations, and where the routine of each source is. An alarm is None or Armed. The line has
the numbers of tasks, the oldest activation first: a live task that runs or is interrupted has a place for each further activation, and
another live task one more."""

Armed = namedtuple('Armed', 'at cycle')

Live = namedtuple('Live', 'block offset held further inside', defaults=(0, False))
"""A task that is ready, running or interrupted: where it stands, the resources that it took and holds, the first taken first, how many further
activations it has, and whether it is inside its INTERNAL resource."""

Waiting = namedtuple('Waiting', 'block')

SUSPENDED = 'suspended'

IDLE, HALTED = 'idle', 'halted'

Running = namedtuple('Running', 'task')
"""A task has the processor."""

Routine = namedtuple('Routine', 'source over')
"""The routine of a source has the processor, over the task that is interrupted, or over none."""

OUT = 'out'

In = namedtuple('In', 'block offset held')
"""A routine that began and hasn't ended: where it stands, and the resources that it holds. That of a source in which nothing began is OUT."""

Step = namedtuple('Step', 'state status value hooks shown')
"""A step: the state after it, what it notes, and what it shows: ARRIVAL, NOTHING, KEEP, or To a task or to none."""

To = namedtuple('To', 'task')

ARRIVAL, NOTHING, KEEP = 'arrival', 'nothing', 'keep'

Effect = namedtuple('Effect', 'state ask status value shut_down')
"""What an instruction does before anything is dispatched, and what it asks of dispatch."""

NO, MAYBE, LEFT = 'no', 'maybe', 'left'

STATUSES = ['E_OK', 'E_OS_ACCESS', 'E_OS_CALLEVEL', 'E_OS_ID', 'E_OS_LIMIT', 'E_OS_NOFUNC', 'E_OS_RESOURCE', 'E_OS_STATE', 'E_OS_VALUE']
"""The statuses by their numbers in ISO 17356-3."""

OK = STATUSES[0]


def replaced(parts, place, part):
    """The parts with another one at this place."""
    return parts[:place] + (part,) + parts[place + 1:]


def with_task(state, task, activity):
    return state._replace(tasks=replaced(state.tasks, task, activity))


def with_alarm(state, alarm, armed):
    return state._replace(alarms=replaced(state.alarms, alarm, armed))


def with_source(state, source, routine):
    return state._replace(sources=replaced(state.sources, source, routine))


def without_first(line, task):
    """A line without the first place of a task."""
    place = line.index(task)
    return line[:place] + line[place + 1:]


def executing(state):
    """The running task, or the one that is interrupted; None where there is none."""
    if isinstance(state.processor, Routine):
        return state.processor.over
    return state.processor.task if isinstance(state.processor, Running) else None


def place_of(state):
    """The block and the offset of what has the processor, or None."""
    if isinstance(state.processor, Running):
        return state.tasks[state.processor.task][:2]
    return state.sources[state.processor.source][:2] if isinstance(state.processor, Routine) else None


def at_place(state, block, offset=0):
    """The state in which what has the processor stands at another place."""
    if isinstance(state.processor, Routine):
        source = state.processor.source
        return with_source(state, source, state.sources[source]._replace(block=block, offset=offset))
    task = state.processor.task
    return with_task(state, task, state.tasks[task]._replace(block=block, offset=offset))
