"""An image, read from its bytes as the tables of fields in docs/FORMATS.md have them: a second reader beside the program's. Bytes that are
no image are told as such; osekfit alone judges which rule they violate."""
from collections import namedtuple

from lib import oil, opened
from lib.application import SHAPES, Application, is_site
from lib.fields import Cut, Fields
from lib.given import Wrong
from lib.image import ANY, END_OF_ROUTINE, END_OF_TASK, HOOKS, KINDS, LOCK, NOBODY
from lib.task_code import LOCKS, Block, Owner

Stored = namedtuple('Stored', 'version app forms known')
"""What an image holds: its version, its application, and by block the two bytes of each site's form and what is known of its status."""

WORDS = {kind: word for word, kind in KINDS.items()}

TEXTS = {'choice': 'if or while (?)', 'loop': 'while (1)', 'count': 'count'}
"""How blocks without operands are shown; calls are shown as such."""


class ImageReader(Fields):
    def read(self):
        if self.take(7) != b'OSEKFIT':
            raise Cut
        self.version = self.number(1)
        hooks = self.bits(1)
        counts = [self.number(1) for _ in range(6)]
        count, self.owners, self.masks = self.number(2), {}, {}
        lists = [[read() for _ in range(n)] for read, n in zip((self.task, self.isr, self.counter, self.alarm, self.resource, self.name), counts)]
        self.names = {letter: [one.name for one in objects] for letter, objects in zip('trac', (lists[0], lists[4], lists[3], lists[2]))}
        alarms = [one._replace(counter=self.names['c'][one.counter], task=self.names['t'][one.task]) for one in lists[3]]
        self.forms, self.known = {}, {}
        blocks = [self.block(k) for k in range(count)]
        lists[0] = [task._replace(internal=None if task.internal is None else self.names['r'][task.internal]) for task in lists[0]]
        tasks, isrs, counters, resources = ({one.name: one for one in lists[k]} for k in (0, 1, 2, 4))
        system = oil.System([HOOKS[k] for k in hooks], lists[5], tasks, isrs, counters, {one.name: one for one in alarms}, self.masks, resources)
        return Stored(self.version, Application(system, blocks), self.forms, self.known)

    # Parts of fields.

    def name(self):
        return self.take(self.number(1)).decode('ascii')

    def bits(self, size):
        """The places of the bits that are set."""
        found = self.number(size)
        return [k for k in range(8 * size) if found >> k & 1]

    def later(self, size, usual, part=None):
        """A field that version 1 doesn't have; as long as a part of the language isn't opened, only its usual value is one."""
        found = self.number(size) if self.version > 1 else usual
        if found != usual and part and not opened.has(part):
            raise Cut
        return found

    def place_of(self, kind, name):
        """Whose so many blocks from the first one are."""
        first, count = self.number(2), self.number(2)
        self.owners.update(dict.fromkeys(range(first, first + count), Owner(kind, name)))

    def mask(self):
        """The name that stands for a mask: an image has none of an event."""
        mask = self.number(8)
        self.masks['0x%x' % mask] = mask
        return '0x%x' % mask

    # The tables.

    def task(self):
        name, priority, is_full, own = self.name(), self.number(2), self.number(1) == 1, self.number(8)
        modes = frozenset(self.bits(1))
        self.place_of('TASK', name)
        activation, internal = self.later(1, 1), self.later(1, NOBODY)
        return oil.Task(name, priority, is_full, [], own, [], modes, 0, activation, None if internal == NOBODY else internal)

    def isr(self):
        name = self.name()
        self.place_of('ISR', name)
        return oil.Isr(name, 2, 0, self.later(1, 0, opened.NESTED))

    def counter(self):
        found = oil.Counter(self.name(), self.number(4), self.number(4), 0)
        self.place_of('TICK', found.name)
        return found

    def alarm(self):
        name, counter, is_event, task = self.name(), self.number(1), self.number(1) == 1, self.number(1)
        event = self.mask()
        modes = frozenset(self.bits(1))
        return oil.Alarm(name, counter, task, event if is_event else None, self.masks[event], modes, self.number(4), self.number(4), 0)

    def resource(self):
        return oil.Resource(self.name(), self.number(4), 0, self.later(1, 0) == 1, self.later(2, 0, opened.NESTED))

    # Blocks.

    def block(self, number):
        kind, is_locked, line, owner = self.number(1), self.number(1) == 1, self.number(4), self.owners[number]
        if kind in (END_OF_TASK, END_OF_ROUTINE):
            found = Block(owner, line, 'end' if owner.kind == 'TICK' else '}', 'end', [], is_locked, None, None)
        else:
            word = LOCKS[self.number(1)] if kind == LOCK else WORDS[kind]
            arguments = self.arguments(word)
            found = Block(owner, line, text_of(word, arguments), word, arguments, is_locked, self.number(2), None)
            if word == 'choice':
                found = found._replace(other=self.number(2))
        if is_site(found):
            self.forms[number] = self.take(2)
            self.known[number] = self.number(1) if self.version > 1 else ANY
        return found

    def arguments(self, word):
        if word == 'work':
            return [self.number(2)]
        if word == 'expire':
            return [self.names['a'][self.number(1)]]
        return [self.argument(letter) for letter in SHAPES.get(word, '') if letter != 's']

    def argument(self, letter):
        if letter == 'n':
            return self.number(8)
        return [self.mask() if letter == 'm' else self.names[letter][self.number(1)]]


def text_of(word, arguments):
    """A block as task code has it."""
    if word in ('work', 'expire'):
        return '%s %s' % (word, arguments[0])
    shown = ', '.join(argument[0] if isinstance(argument, list) else str(argument) for argument in arguments)
    return TEXTS.get(word) or '%s(%s)' % (word, shown)


def read_image(data, name='the image'):
    """What these bytes of an image hold; the name is the file's, for what is told."""
    reader = ImageReader(data)
    try:
        found = reader.read()
    except (Cut, KeyError, IndexError, UnicodeDecodeError):
        raise Wrong('%s: no image, or a damaged one, at byte %d (osekfit says which rule is violated)' % (name, reader.place)) from None
    if found.version not in (1, 2) or reader.place < len(data):
        raise Wrong('%s: no image of a version that is known here (osekfit says which rule is violated)' % name)
    return found
