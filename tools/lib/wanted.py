"""States that a run is let go on to: for `until` of events.py and of step.py. `idle` and `halted` say where the processor is, a task, `@ISR` or
`%COUNTER` who has it, `T1=W` a task's state, and a point, as b7 or b20/T1, where it stands."""
from lib.least_table import point_of
from lib.model_trace import who
from lib.points import point_shown, shown_point
from lib.services import letter


def knows(app, wanted):
    """Whether a word says a state of the application."""
    name, sign, due = wanted.partition('=')
    if sign:
        return name in app.task_number and due in tuple('SYRW')
    names = set(app.task_number) | {'idle', 'halted'} | {source.mark + source.name for source in app.sources}
    return wanted in names or point_shown(app, wanted) is not None


def has(app, state, wanted):
    """Whether a state is one that the word says."""
    name, sign, due = wanted.partition('=')
    if sign:
        return letter(state, app.task_number[name]) == due
    return wanted == shown_point(app, point_of(state)) or who(app, state) == {'idle': '-', 'halted': '#'}.get(wanted, wanted)
