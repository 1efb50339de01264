"""What a table has at a point, in words: for certificate.py and why.py."""
from lib.table_bytes import HELD, LIVE, OUT, ROUTINE_HELD, SUSPENDED
from lib.points import block_of, executing_at


class Wording:
    """Says where the tasks of an application may be, by names."""

    def __init__(self, app):
        self.app, self.bits, self.said = app, app.own_bits(), {}

    def place(self, block):
        line = self.app.blocks[block].line
        return 'b%d, line %d' % (block, line) if line else 'b%d' % block

    def parts(self, point, sets):
        """What may be at a point, as pairs of a name and words: tasks and the events of each, then alarms, then routines that began."""
        count, last = len(self.app.tasks), len(self.app.tasks) + len(self.bits) + len(self.app.alarms)
        for number, task in enumerate(self.app.tasks):
            yield task.name, '%s: %s' % (task.name, self.task(point, number, sets[number]))
            if task.own:
                own = [(bit, values) for (t, bit), values in zip(self.bits, sets[count:]) if t == number]
                yield task.name, "%s's events: %s" % (task.name, events(own))
        for alarm, values in zip(self.app.alarms, sets[count + len(self.bits):]):
            yield alarm.name, '%s: %s' % (alarm.name, ' or '.join(('idle', 'armed')[v] for v in values))
        for source, values in zip(self.app.sources, sets[last:]):
            if list(values) != [(OUT,)]:
                yield source.name, '%s%s: %s' % (source.mark, source.name, self.routine(point, values))

    def part(self, point, part, values):
        """What a component may be doing, by its number; None of an alarm."""
        bits, alarms, sources = self.firsts()
        if part < bits:
            return self.task(point, part, values)
        return self.routine(point, values) if part >= sources else events([(self.bits[part - bits][1], values)]) if part < alarms else None

    def firsts(self):
        """The numbers of the first component that is an event, of the first alarm, and of the first routine."""
        bits = len(self.app.tasks)
        return bits, bits + len(self.bits), bits + len(self.bits) + len(self.app.alarms)

    def name(self, part):
        """Whose a component is: a task's, an alarm's or a routine's name."""
        bits, alarms, sources = self.firsts()
        if part >= sources:
            return self.app.sources[part - sources].name
        return self.app.alarms[part - alarms].name if part >= alarms else self.app.tasks[part if part < bits else self.bits[part - bits][0]].name

    def in_no_run(self, point, gone, only=None):
        """Lines of the values that no run has at a point, of all components or of those of one name."""
        bits, alarms, _ = self.firsts()
        for part, laws in enumerate(gone):
            name = self.name(part) + ("'s events" if bits <= part < alarms else '')
            for law, values in laws.items() if only in (None, self.name(part)) else []:
                yield 'in no run, by %s: %s: %s' % (law, name, self.part(point, part, values))

    def task(self, point, number, values):
        """What a task may be doing. Many points have the same values, so each is said once."""
        key = number, tuple(values), block_of(point) if executing_at(self.app, point) == number else None
        if key not in self.said:
            self.said[key] = self.new_task(point, number, values)
        return self.said[key]

    def new_task(self, point, number, values):
        """What a task may be doing; values that differ in their block alone are told together."""
        places = {}
        for fields in values:
            places.setdefault((fields[0],) + fields[2:4] + fields[HELD:], []).append(fields[1:2])
        return ' or '.join(self.doing(point, number, key, [block for found in blocks for block in found]) for key, blocks in places.items())

    def doing(self, point, number, key, blocks):
        tag, further, inside, held = key[0], *(key[1:3] or (0, 0)), key[3:]
        if tag == SUSPENDED:
            return 'suspended'
        word = self.live(point, number, blocks) if tag == LIVE else 'waits'
        word += self.holding(((self.app.internal[number],) if inside else ()) + held)
        word += ', %d more activation%s' % (further, 's' if further > 1 else '') if further else ''
        return word if word.startswith('runs') else '%s at %s' % (word, '; '.join(map(self.place, blocks)))

    def holding(self, held):
        return ' with ' + ' and '.join(self.app.resources[r].name for r in held) if held else ''

    def routine(self, point, values):
        """Where a routine may be: it runs at a point of its own, and waits below another routine elsewhere."""
        places, told = {}, ['out'] if (OUT,) in values else []
        for fields in values:
            if fields != (OUT,):
                places.setdefault(fields[ROUTINE_HELD:], []).append(fields[1])
        for held, blocks in places.items():
            runs = [block_of(point)] == blocks
            told.append('runs' + self.holding(held) if runs else 'waits%s at %s' % (self.holding(held), '; '.join(map(self.place, blocks))))
        return ' or '.join(told)

    def live(self, point, number, blocks):
        if executing_at(self.app, point) != number:
            return 'ready'
        return 'runs' if [block_of(point)] == blocks else 'interrupted'


def events(bits):
    """The events of a task, as masks: those that are set, and those that may be."""
    masks = [(sum(1 << bit for bit, values in bits if list(values) == which), word) for which, word in (([1], 'set'), ([0, 1], 'set or not'))]
    return ', '.join('%x %s' % pair for pair in masks if pair[0]) or 'none set'
