"""A run that is made step by step, for step.py: what each step has changed and why, and what may come next."""
import os

from lib.given import Wrong, contents
from lib.image_kernel import Trap
from lib.least_table import point_of
from lib.model_trace import line, mode_number, shown_routines, shown_task, stepped, who
from lib.points import shown_point
from lib.reasons import Reasons, told
from lib.states import HALTED, IDLE, place_of
from lib.texts import place_text
from lib.wanted import has, knows

AROUND = 4
"""How many lines of the task code are shown before and behind one."""


class Stepping:
    """The steps so far, each with its event; the first is the start."""

    def __init__(self, app, kernel, mode, code_name):
        self.app, self.kernel, self.code_name = app, kernel, code_name
        self.reasons, self.base = Reasons(app), os.path.basename(code_name)
        self.steps = [(self.kernel.start(mode_number(app, mode)), None)]
        self.trapped = False

    # What is done.

    def begin(self):
        return self.told_step()

    def do(self, words):
        """Does an event, and tells the step."""
        if self.trapped:
            raise Wrong('the image has trapped; b goes back')
        try:
            self.steps.append((stepped(self.kernel, self.state(), words), words))
        except KeyError:
            names = [source.mark.replace('@', 'irq ').replace('%', 'tick ') + source.name for source in self.app.sources]
            raise Wrong('nothing is called %s; there are: %s' % (words[1], ', '.join(names) or 'no sources')) from None
        except Trap:
            self.trapped = True
            self.steps.append((None, words))
            return ['trap %d' % (len(self.steps) - 1), '  the image has no step here: its form at this site, or its known status, is not what the kernel does']
        return self.told_step()

    def back(self, count):
        """Goes back so many events, at most to the start."""
        self.steps = self.steps[:max(1, len(self.steps) - count)]
        self.trapped = False
        return self.told_step()

    def state(self):
        return self.steps[-1][0].state

    def known(self, wanted):
        if not knows(self.app, wanted):
            raise Wrong('%s is no point, and no state' % wanted)
        return wanted

    def has(self, wanted):
        return not self.trapped and has(self.app, self.state(), wanted)

    def judge_rest(self, wanted):
        """Stops where no run brings anything but a request does."""
        state = self.steps[-1][0].state if not self.trapped else None
        if state and (state.processor == HALTED or state.processor == IDLE and self.kernel.arriving(state) is None):
            raise Wrong('%s does not come: the processor is %s%s' % (wanted, state.processor, ', and a request is wanted' if state.processor == IDLE else ''))

    # What is kept.

    def events(self):
        return [' '.join(words) for _, words in self.steps[1:]]

    def events_text(self):
        return ''.join(event + '\n' for event in self.events())

    def trace(self):
        return [line(self.app, number, step) if step else 'trap %d' % number for number, (step, _) in enumerate(self.steps)]

    # What is told.

    def told_step(self):
        """The line of the trace, what did it, what has changed, who has the processor and why, and what may come next."""
        step, words = self.steps[-1]
        before = self.steps[-2][0].state if len(self.steps) > 1 else None
        found = [line(self.app, len(self.steps) - 1, step), '  ' + told(self.app, before, step, words, self.base)]
        found += ['  ' + text for text in self.changes(before, step.state)] if before else []
        return found + ['  %s: %s' % (self.who(step.state), self.reasons.processor(step.state)), '  next: ' + self.next(step.state)]

    def who(self, state):
        return {'-': 'idle', '#': 'halted'}.get(who(self.app, state), who(self.app, state))

    def changes(self, before, state):
        """What has changed in tasks, routines, alarms and requests."""
        for number in range(len(self.app.tasks)):
            was, now = shown_task(self.app, before, number), shown_task(self.app, state, number)
            if was != now:
                yield with_reason('%s, was %s' % (now, was.partition('=')[2]), self.reasons.task(state, number))
        was, now = (list(shown_routines(self.app, one)) for one in (before, state))
        if was != now:
            yield 'routines: %s, was %s' % (' '.join(now) or 'none', ' '.join(was) or 'none')
        for alarm, was, now in zip(self.app.alarms, before.alarms, state.alarms):
            if was != now:
                yield '%s is %s' % (alarm.name, 'due at %d of %s' % (now.at, alarm.counter) if now else 'not armed')
        for number in sorted(state.latched - before.latched):
            yield '%s: %s' % (self.reasons.source_name(number), self.reasons.source(state, number))

    def next(self, state):
        """What a run would do."""
        if state.processor == HALTED:
            return 'nothing: the processor is halted'
        arriving = self.kernel.arriving(state)
        if arriving is not None:
            return 'the routine of %s begins' % self.app.sources[arriving].name
        if state.processor == IDLE:
            return 'nothing before a request: ' + ', '.join(('i ' if source.mark == '@' else 't ') + source.name for source in self.app.sources)
        block = self.app.blocks[place_of(state)[0]]
        said = place_text(block, self.base)
        if block.word == 'choice':
            ways = [place_text(self.app.blocks[to], self.base) for to in (block.other, block.next)]
            said += '; r: %s; r1: %s' % tuple(ways)
        return '%s at %s' % (said, shown_point(self.app, point_of(state)))

    def whole(self):
        """The whole state: each task and routine with why it waits, counters and alarms, and the level."""
        state = self.steps[-2 if self.trapped else -1][0].state
        for number in range(len(self.app.tasks)):
            yield with_reason('  %s, priority %d' % (shown_task(self.app, state, number), self.app.tasks[number].priority), self.reasons.task(state, number))
        for number, source in enumerate(self.app.sources):
            reason = self.reasons.source(state, number)
            if reason:
                yield '  %s, priority %d: %s' % (self.reasons.source_name(number), source.priority, reason)
        for counter, value in zip(self.app.counters, state.counters):
            yield '  %s is at %d' % (counter.name, value)
        for alarm, armed in zip(self.app.alarms, state.alarms):
            yield '  %s is %s' % (alarm.name, 'due at %d, cycle %d' % (armed.at, armed.cycle) if armed else 'not armed')
        yield '  level %d: %s' % (self.reasons.kernel.level(state), self.reasons.level(state))

    def code_lines(self):
        """The task code around the statement that comes next."""
        place = place_of(self.state()) if not self.trapped else None
        number = self.app.blocks[place[0]].line if place else 0
        if not number:
            raise Wrong('no statement of the task code comes next')
        lines = contents(self.code_name).splitlines()
        for at in range(max(1, number - AROUND), min(len(lines), number + AROUND) + 1):
            yield '%s%4d  %s' % ('>' if at == number else ' ', at, lines[at - 1])


def with_reason(text, reason):
    return text + (': ' + reason if reason else '')
