"""What runs reached of an application, for annotate.py: statements and choices of the text; and outcomes of sites and edges, of those that
`show` lists."""
from collections import namedtuple

from lib.given import Wrong
from lib.least_table import point_of
from lib.points import shown_point
from lib.show_reader import read_show, text_of
from lib.states import ARRIVAL, HALTED, IDLE, NOTHING, To, place_of

Row = namedtuple('Row', 'name reached all missed')
"""A kind of thing, how many of its things were reached, how many there are, and a text for each that wasn't."""


class Reached:
    """What was reached so far."""

    def __init__(self, app):
        self.app = app
        self.blocks, self.choices, self.edges = set(), set(), set()

    def take(self, before, step, choice):
        """Takes in a `run`: the state before it, and the step."""
        source, target = point_of(before), point_of(step.state)
        if source != target or isinstance(step.shown, To):
            self.edges.add((shown_point(self.app, source), shown_point(self.app, target)))
        if step.shown in (ARRIVAL, NOTHING) or before.processor in (IDLE, HALTED):
            return
        block = place_of(before)[0]
        self.blocks.add(block)
        if self.app.blocks[block].word == 'choice':
            self.choices.add((block, choice))


def rows(app, reached, code_name, show=None, show_name='show'):
    """The rows of a report; those of sites and edges where the text of `show` is given."""
    written = [k for k, block in enumerate(app.blocks) if block.owner.kind != 'TICK' and block.word != 'end']

    def place(block):
        return '%s:%d: %s' % (code_name, app.blocks[block].line, app.blocks[block].text)

    choices = [(block, choice) for block in written if app.blocks[block].word == 'choice' for choice in '01']
    found = [row('statements', written, reached.blocks, place),
             row('choices', choices, reached.choices, lambda c: '%s choice %s' % (place(c[0]), c[1]))]
    return found + (site_rows(app, reached, show, show_name, place) if show is not None else [])


def row(name, things, reached, text):
    missed = [thing for thing in things if thing not in reached]
    return Row(name, len(things) - len(missed), len(things), [text(thing) for thing in missed])


def site_rows(app, reached, show, show_name, place):
    """The rows that come from `show`. An edge that was taken and isn't listed tells that the texts don't belong together."""
    shown = read_show(show, show_name)
    listed = [tuple(text_of(point) for point in edge) for edge in shown.edges]
    strange = reached.edges - set(listed)
    if strange:
        raise Wrong('%s: it lacks the edge %s %s, which was taken: is it of other texts?' % ((show_name,) + min(strange)))
    owners = Owners(app)
    outcomes, seen = {}, set()
    for edge, words in zip(shown.edges, listed):
        outcome = owners.outcome(edge, shown.sites)
        if outcome:
            outcomes.setdefault(outcome, len(outcomes))
            if words in reached.edges:
                seen.add(outcome)
    told = row('outcomes', list(outcomes), seen, lambda o: 'outcome: %s %s' % (site_text(app, o[0], place), o[1]))
    texts = {words: 'edge: %s %s: %s to %s' % (words + tuple(owners.text(point) for point in edge)) for edge, words in zip(shown.edges, listed)}
    return [told, row('edges', listed, reached.edges, texts.get)]


def site_text(app, block, place):
    return 'end of the tick routine of ' + app.blocks[block].owner.name if app.blocks[block].line == 0 else place(block)


class Owners:
    """Whose points are, and what an edge from a site is the outcome of."""

    def __init__(self, app):
        self.app = app

    def name(self, point):
        return self.app.blocks[point.block].owner.name if point.kind == 'task' else point.kind

    def text(self, point):
        """Where a point is, in words."""
        if point.block is None:
            return point.kind
        block = self.app.blocks[point.block]
        over = '' if point.over is None else ' over nobody' if point.over == '-' else ' over ' + point.over
        return block.owner.name + (' line %d' % block.line if block.line else ' ' + block.text) + over

    def goes_below(self, before, after):
        """Whether an edge from a routine's end goes to a routine that waits below it, and isn't an interrupt there."""
        if before.kind != 'routine':
            return False
        above, below = (self.app.sources[self.app.source_of(point.block)] for point in (before, after))
        return after.block != below.first or below.priority <= above.priority

    def outcome(self, edge, sites):
        """The site's block and what it does with the processor; None where the edge is none of a site's instruction."""
        before, after = edge
        if before.block not in sites or (after.kind == 'routine' and before != after and not self.goes_below(before, after)):
            return None
        if after.kind == 'routine' and before != after:
            return before.block, 'returns'
        if before.kind == 'routine' and after.kind == ('idle' if before.over == '-' else 'task') and \
                (after.kind == 'idle' or self.name(after) == before.over):
            return before.block, 'returns'
        if before.kind == 'task' and after.kind == 'task' and self.name(before) == self.name(after) and \
                after.block == self.app.blocks[before.block].next:
            return before.block, 'goes on'
        return before.block, 'dispatches %s' % self.name(after) if after.kind == 'task' else 'becomes %s' % after.kind
