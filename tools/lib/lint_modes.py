"""What lint.py finds by modes: calls for tasks that nothing starts in a mode in which the caller runs, and waits for what nobody sets there."""
from lib.lint_code import ALARM_CALLS
from lib.task_code import Owner


def running_in(code, mode):
    """The tasks and routines that may run in a mode, and the alarms that may be set there."""
    app = code.app
    owners = {Owner('TASK', task.name) for task in app.tasks if mode in task.modes}
    owners |= {Owner('ISR', source.name) for source in app.sources if source.mark == '@'}
    alarms, size = {alarm.name for alarm in app.alarms if mode in alarm.modes}, -1
    while size != len(owners) + len(alarms):
        size = len(owners) + len(alarms)
        calls = [block for _, block in code.written if block.owner in owners]
        alarms |= {block.arguments[0][0] for block in calls if block.word in ALARM_CALLS}
        owners |= {Owner('TASK', block.arguments[0][0]) for block in calls if block.word in ('ActivateTask', 'ChainTask')}
        owners |= {Owner('TASK', alarm.task) for alarm in app.alarms if alarm.name in alarms and alarm.event is None}
    return owners, alarms


def refused_in_modes(code):
    """What is refused, or waits for ever, in a mode in which tasks start, where there are several."""
    app = code.app
    modes = [number for number in range(len(app.modes)) if any(number in task.modes for task in app.tasks)]
    for mode in modes if len(modes) > 1 else []:
        owners, alarms = running_in(code, mode)
        for _, block in code.written:
            fault = fault_in(code, block, owners, alarms) if block.owner in owners else None
            if fault:
                yield block.line, '%s: in the mode %s %s' % (block.text, app.modes[mode], fault)


def fault_in(code, block, owners, alarms):
    """What is wrong with a call where these run, and these alarms are set; None where nothing is."""
    task, events = code.events_of(block) if block.word in ('SetEvent', 'GetEvent', 'WaitEvent') else (None, [])
    if task is None or not task.own:
        return None
    if block.word != 'WaitEvent':
        return None if Owner('TASK', task.name) in owners else 'nothing starts %s (E_OS_STATE)' % task.name
    mask = code.app.mask(events) & task.own
    return None if not mask or mask & set_by(code, task, owners, alarms) or not mask & set_by(code, task, None, None) else \
        'nobody sets %s, so it waits for ever' % ' or '.join(events)


def set_by(code, task, owners, alarms):
    """The bits that these set in a task; all do where they are None."""
    found = 0
    for block in code.calls('SetEvent'):
        if block.arguments[0][0] == task.name and (owners is None or block.owner in owners):
            found |= code.mask_of(block)
    for alarm in code.app.alarms:
        if alarm.task == task.name and (alarms is None or alarm.name in alarms):
            found |= alarm.mask
    return found
