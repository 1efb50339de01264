"""Runs of an application in the model of model.py: the step of each event, and the line of the trace that a step makes."""
from lib.given import Wrong
from lib.kernel import Kernel
from lib.services import letter
from lib.states import HALTED, IDLE, OUT, SUSPENDED, Live, Routine


def who(app, state):
    """Who has the processor, as the trace says it."""
    if state.processor in (IDLE, HALTED):
        return '-' if state.processor == IDLE else '#'
    if isinstance(state.processor, Routine):
        source = app.sources[state.processor.source]
        return source.mark + source.name
    return app.tasks[state.processor.task].name


def shown_task(app, state, number):
    task, activity = app.tasks[number], state.tasks[number]
    further = '*%d' % activity.further if isinstance(activity, Live) and activity.further else ''
    events = ':%x' % state.masks[number] if task.own and activity != SUSPENDED else ''
    return '%s=%s%s%s%s' % (task.name, letter(state, number), further, events, shown_resources(app, app.occupied(number, activity)))


def shown_resources(app, held):
    return ''.join('+' + app.resources[r].name for r in held)


def shown_routines(app, state):
    """The routines that began and haven't ended, each with what it holds; that at the processor only where it holds something."""
    top = state.processor.source if isinstance(state.processor, Routine) else None
    for number, (source, routine) in enumerate(zip(app.sources, state.sources)):
        if routine != OUT and (number != top or routine.held):
            yield source.mark + source.name + shown_resources(app, routine.held)


def line(app, number, step):
    """A line of the trace: the state after a step, and what it noted."""
    words = [str(number), who(app, step.state)] + [shown_task(app, step.state, t) for t in range(len(app.tasks))]
    return ' '.join([*words, *shown_routines(app, step.state), *notes(step)])


def notes(step):
    """What a step noted, as the words at the end of its line."""
    words = ['!' + step.status] if step.status else []
    words += ['^Error'] if 'Error' in step.hooks else []
    words += ['=' + step.value] if step.value is not None else []
    return words + ['^' + hook for hook in ('Startup', 'Shutdown', 'PostTask', 'PreTask') if hook in step.hooks]


def events_of(text, name='the event text'):
    """The events of a text, as lists of two words, each with its line."""
    found = []
    for number, text_line in enumerate(text.split('\n'), 1):
        words = text_line.split()
        if words and not words[0].startswith('#'):
            if len(words) != 2 or words[0] not in ('run', 'irq', 'tick') or (words[0] == 'run' and words[1] not in ('0', '1')):
                raise Wrong('%s:%d: no event: %s' % (name, number, ' '.join(words)))
            found.append((words, number))
    return found


def stepped(kernel, state, words):
    """The step that an event makes; a name of no source is a KeyError."""
    if words[0] == 'run':
        return kernel.run(state, words[1] == '1')
    marked = ('@' if words[0] == 'irq' else '%') + words[1]
    return kernel.request(state, {s.mark + s.name: k for k, s in enumerate(kernel.app.sources)}[marked])


def mode_number(app, mode):
    if mode not in app.modes:
        raise Wrong('%s: no such mode' % mode)
    return app.modes.index(mode)


def play(app, mode, events, name='the event text', kernel=None):
    """The start, and the step of each event, each with the event's words and line; by the kernel of the application, or by another."""
    kernel = kernel or Kernel(app)
    step = kernel.start(mode_number(app, mode))
    yield step, None, 0
    for words, number in events:
        try:
            step = stepped(kernel, step.state, words)
        except KeyError:
            raise Wrong('%s:%d: nothing is called %s' % (name, number, words[1])) from None
        yield step, words, number
