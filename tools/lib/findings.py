"""What can't happen in an application, by the least table of model.py: the lines of `report`."""
from lib.least_table import Analysis
from lib.points import block_of
from lib.states import SUSPENDED, In, Live

HOOKS = ['Error', 'Startup', 'Shutdown', 'PostTask', 'PreTask']
"""The hooks in the order in which those that never come are told."""


class Findings:
    """What no state of a table has."""

    def __init__(self, app, analysis=None):
        self.app, self.analysis = app, analysis or Analysis(app).solve()
        self.table, self.count, self.bits = self.analysis.table, len(app.tasks), app.own_bits()

    def is_only(self, component, value):
        """Whether a component has one value alone in all states."""
        return all(sets[component] == {value} for sets in self.table.values())

    def lines(self):
        """The lines of `report`, in its order."""
        app = self.app
        yield from ('suspended %s' % task.name for t, task in enumerate(app.tasks) if self.is_only(t, SUSPENDED))
        first = self.count + len(self.bits)
        yield from ('unarmed %s' % alarm.name for a, alarm in enumerate(app.alarms) if self.is_only(first + a, False))
        yield from ('unset %s %x' % (app.tasks[t].name, 1 << bit) for k, (t, bit) in enumerate(self.bits) if self.is_only(self.count + k, 0))
        yield from ('silent %s' % hook for hook in HOOKS if hook in app.hooks and hook not in self.analysis.hooks)
        yield from ('free b%d' % block for block in range(len(app.blocks)) if self.is_free(block))
        yield from ('dead b%d' % block for block in range(len(app.blocks)) if not self.entries_at(block))

    def entries_at(self, block):
        return [sets for point, sets in self.table.items() if block_of(point) == block]

    def is_free(self, block):
        """Whether a GetResource is reached, and never while its resource is held."""
        word, arguments = self.app.blocks[block].word, self.app.blocks[block].arguments
        entries = self.entries_at(block)
        if word != 'GetResource' or not entries:
            return False
        resource = self.app.resource_number[arguments[0][0]]
        values = [value for sets in entries for found in sets for value in found]
        return not any(isinstance(value, (Live, In)) and resource in value.held for value in values)


def report(app, analysis=None):
    """What `report` prints of an application, whose analysis may be given."""
    return ''.join(line + '\n' for line in Findings(app, analysis).lines())
