"""The shortest runs of an application that show what a call site does with the processor: for why.py, by the model of kernel.py.

What can't change what a site does is left out: a request comes where it is served, and `work` is done as a whole. So there are fewer states
than the application has, and each outcome of a site that some run has is still found."""
import heapq
from collections import namedtuple

from lib.kernel import Kernel
from lib.states import HALTED, IDLE, at_place, place_of

SiteRun = namedtuple('SiteRun', 'mode events')
"""A run from the start in a mode: its events, each with how often it comes. The last one is the site's."""

Move = namedtuple('Move', 'event count step')
"""What a run may do next: an event so often, the last of which makes this step. A request is followed by the run that serves it."""


class Search:
    """The states of an application that were looked at so far, in the order of their shortest runs, and the outcomes of a site."""

    def __init__(self, app, site):
        self.app, self.site, self.kernel = app, site, Kernel(app)
        self.came, self.waiting, self.found, self.pushed = {}, [], {}, 0
        for mode in range(len(app.modes)):
            self.push(0, self.kernel.start(mode).state, None)

    def push(self, length, state, way):
        """Keeps a state for later, with how long its run is, and with the state before it and the move that led here."""
        if state not in self.came:
            self.pushed += 1
            heapq.heappush(self.waiting, (length, self.pushed, state, way))

    def look(self, is_enough, most):
        """Looks at states until the outcomes that were found are enough, or so many states were looked at, or all."""
        while self.waiting and len(self.came) < most and not is_enough(self.found):
            length, _, state, way = heapq.heappop(self.waiting)
            if state in self.came:
                continue
            self.came[state] = way
            for move in self.moves(state):
                is_run = move.event.startswith('run')
                if is_run and self.is_at_site(state):
                    self.found.setdefault(move.step.shown, (state, move))
                self.push(length + move.count + (not is_run), move.step.state, (state, move))

    def is_at_site(self, state):
        return place_of(state) is not None and place_of(state)[0] == self.site

    def moves(self, state):
        if state.processor == HALTED:
            return
        if state.processor != IDLE:
            yield from self.instructions(state)
        for number, source in enumerate(self.app.sources):
            requested = state._replace(latched=frozenset([number]))
            if self.kernel.arriving(requested) is not None:
                yield Move(('irq ' if source.mark == '@' else 'tick ') + source.name, 1, self.kernel.run(requested, False))

    def instructions(self, state):
        number, _ = place_of(state)
        block = self.app.blocks[number]
        count = block.arguments[0] if block.word == 'work' else 1
        yield Move('run 0', count, self.kernel.run(at_place(state, number, count - 1), False))
        if block.word == 'choice':
            yield Move('run 1', 1, self.kernel.run(state, True))

    def run_to(self, outcome):
        """The shortest run that was seen with this outcome."""
        events, way = [], self.found[outcome]
        while way:
            state, move = way
            events += [('run 0', 1)] * (not move.event.startswith('run')) + [(move.event, move.count)]
            way = self.came[state]
        return SiteRun(self.app.modes[self.found[outcome][0].mode], events[::-1])
