"""What a rule leaves open and the texts tell, for explain.py: which name, which token, which value. Nothing is told where the texts can't
be read, and no more than one can see in them: osekfit alone says which rule is violated."""
import difflib
import os
import re

from lib import application, image_reader, lint_oil, locks, oil, task_code
from lib.given import Wrong, contents, data
from lib.guarantees import Guarantees
from lib.points import block_of, points_of, shown_point
from lib.table_bytes import table_told
from lib.table_words import Wording
from lib.task_code import Owner
from lib.tokens import HINT, is_name, number_of, tokens_of

SIGN = re.compile(r'[^\w\s{}()\[\]=;:+\-,|?."/*]|[^\x00-\x7f]')
"""What begins no token, outside of texts and comments."""

OF_C = [
    (r'\b(?:if|while)\s*\((?!\s*(?:\?|0*1|0[xX]0*1)\s*\))', 'a condition of C is written ?: if (?), while (?); and while (1) is a loop for ever'),
    (r'\bfor\s*\(|\bdo\b', 'a loop of C is while (?) { }, which says any number of turns'),
    (r'\bswitch\b|\bcase\b', 'a switch of C is if (?) { } else { if (?) { } else { } }'),
    (r'\breturn\b', 'no return: a task ends by TerminateTask() or ChainTask(T), and a routine at its last brace'),
    (r'\d\.\d', 'numbers are whole: no decimals'),
    (r'^\s*#', 'nothing is included or defined: each text stands alone'),
]
"""What C has and the texts don't, and how it is written in them."""

FIRST_WORDS = {'TASK': 'task code', 'ISR': 'task code', 'CPU': 'an OIL text', 'OIL_VERSION': 'an OIL text', 'IMPLEMENTATION': 'an OIL text'}

OF_SCRIPTS = re.compile(r'(?:until|repeat|seed)\b|end$|run \?|.*\*|.*\b(?:every|never)\b')
"""Lines that only a script for events.py has."""

OWNERS = {'TASK': 'task', 'ISR': 'routine', 'TICK': 'tick routine'}
"""Whose a block is."""

KINDS = {'t': 'task', 'r': 'resource', 'm': 'event', 'a': 'alarm'}
"""What an argument of a call names, by the letter of its shape."""


class Texts:
    """The texts of a command as far as they are needed: the one that is refused, and those that the command names."""

    def __init__(self, name, place, words):
        self.name, self.place, self.words = name, place, words
        self.is_code = words[2:3] == [name]

    def objects(self):
        return oil.objects_of(contents(self.words[1] if self.is_code else self.name), self.name)

    def system(self):
        return oil.system_of(contents(self.words[1]), self.words[1])

    def blocks(self):
        return task_code.blocks_of(contents(self.words[2]), self.words[2])

    def on_the_line(self):
        """The objects' attributes of the line, also those between braces, each with its object."""
        for found in self.objects():
            for attribute in found.attributes + [part for a in found.attributes for part in a.attributes]:
                if attribute.line == self.place:
                    yield found, attribute


def told(rule, texts, guide):
    """What the texts tell of a refusal, as lines."""
    tell = TELLERS.get(rule if rule in TELLERS else rule[0])
    try:
        return list(dict.fromkeys(tell(texts, guide))) if tell else []
    except (Wrong, OSError, IndexError, ValueError):
        return []


def signs(texts, _):
    """The first sign of the line that begins no token."""
    match = SIGN.search(bare_line(texts))
    if match:
        yield 'here: ' + ('a byte order mark' if match.group() == '\ufeff' else match.group())
    yield from said_of_c(texts)


def bare_line(texts):
    """The line of a refusal without texts and comments."""
    return re.sub(r'"[^"]*"|/\*.*?\*/|//.*', '', contents(texts.name).splitlines()[texts.place - 1])


def said_of_c(texts):
    """How what the line has of C is written."""
    return ('write: ' + said for pattern, said in OF_C if re.search(pattern, bare_line(texts)))


def wanted(texts, _):
    """What the readers of these tools want on the line of a fault of the grammar."""
    first = FIRST_WORDS.get((tokens_of(contents(texts.name)) or [('', 0)])[0][0])
    if first == ('an OIL text' if texts.is_code else 'task code'):
        return ['here: %s is %s, and the OIL text comes before the task code' % (texts.name, first)]
    try:
        blocks = texts.blocks() if texts.is_code else texts.objects() and []
    except Wrong as wrong:
        place, _, text = str(wrong)[len(texts.name) + 1:].partition(': ')
        return ['here: ' + text.replace(HINT, '')] * (place == str(texts.place)) + list(said_of_c(texts))
    calls = [block for block in blocks if block.line == texts.place]
    faults = ['here: ' + fault for fault in map(application.misshapen, calls) if fault][:1]
    helpers = [block.word for block in calls if block.word not in application.OWN and block.word not in application.SHAPES]
    return faults + ['write: what %s does in its place, and work N for what calls no service' % word for word in helpers[:1]] + list(said_of_c(texts))


def kinds(texts, _):
    """The kinds of objects that there are, where one is of none."""
    for found in texts.objects():
        if found.line == texts.place and found.kind not in lint_oil.KNOWN:
            yield 'here: %s %s is of none of the kinds: %s%s' % (found.kind, found.name, ', '.join(lint_oil.KNOWN), nearest(found.kind.upper(), lint_oil.KNOWN))


def second_os(texts, _):
    """Where OS stands, or that it stands nowhere."""
    there = ['OS %s on line %d' % (found.name, found.line) for found in texts.objects() if found.kind == 'OS']
    yield 'first: ' + there[0] if len(there) > 1 else 'missing: an object OS, as OS os;'


def event_forms(texts, _):
    """The forms that an event has, or what a script is for."""
    line = contents(texts.name).splitlines()[texts.place - 1].strip()
    yield 'here: a line of a script; tools/events.py writes the event text' if OF_SCRIPTS.match(line) else 'there are: run 0, run 1, irq NAME, tick NAME'


def modes(command):
    """The modes that a command may name, and what is named in their place."""
    verb, *words = command
    try:
        if verb == 'trace':
            there, mode = oil.system_of(contents(words[0]), words[0]).modes, words[2]
        else:
            there, mode = image_reader.read_image(data(words[0]), words[0]).app.modes, words[1]
    except (Wrong, OSError, IndexError):
        return []
    changed = ['here: %s is a file, and the mode comes before the events' % mode] if os.path.exists(mode) else []
    return changed + ['there are: ' + ', '.join(there)]


def in_no_run(command, place):
    """What the table of a `check` has and no run has, at the point that is named, or at those of the block."""
    try:
        app = image_reader.read_image(data(command[1]), command[1]).app
        table, guarantees, wording = table_told(app, data(command[2]), command[2]), Guarantees(app), Wording(app)
    except (Wrong, OSError, IndexError):
        return []
    points = [point for point in table if place in (shown_point(app, point), 'b%s' % block_of(point))]
    lines = [text for point in points for text in wording.in_no_run(point, guarantees.parted(point, table[point]).gone)]
    return list(dict.fromkeys(lines))


def missing(texts, _):
    return ('missing: ' + text for text in lint_oil.missing(texts.objects(), texts.place))


def undeclared(texts, _):
    objects = texts.objects()
    for text in lint_oil.undeclared(objects, texts.place):
        kind, name = text.split(' ')[:2]
        yield 'not declared: ' + text + nearest(name, [o.name for o in objects if o.kind == kind])


def nearest(name, known):
    """The known name that is most like this one, as words to add."""
    close = difflib.get_close_matches(name, sorted(known), 1)
    return '; %s is' % close[0] if close else ''


def unfit_values(texts, guide):
    """Attributes of the line whose value is none of those that the guide's table has."""
    table = {(row[0], name): row[2] for row in rows_of(guide, 4) for name in row[1].split(', ')}
    for found, attribute in texts.on_the_line():
        values = table.get((found.kind, attribute.name))
        if values and not allows(values, attribute.value):
            yield 'here: %s of %s %s takes %s, not %s' % (attribute.name, found.kind, found.name, re.split(r'; | \(', values)[0], attribute.value)


def rows_of(guide, width):
    """The rows of the guide's tables that have so many cells."""
    for line in guide.splitlines():
        cells = [cell.strip() for cell in line.strip().strip('|').split('|')]
        if line.startswith('|') and len(cells) == width:
            yield cells


def allows(values, value):
    """Whether what the guide says of an attribute's values allows this one."""
    number = number_of(value)
    if number is None:
        return value in re.findall(r'\b[A-Z]{3,}\b', values) or (values.startswith('a name') and is_name(value))
    span = re.match(r'([\d,]+) to (2\^32-1|[\d,]+)', values)
    if span:
        least, most = (2 ** 32 - 1 if '^' in text else int(text.replace(',', '')) for text in span.groups())
        return least <= number <= most
    return values[0].isdigit() or 'a number' in values


def second_ones(texts, _):
    """Where the object stands that has the name of one on this line."""
    seen = {}
    for found in texts.objects():
        if found.line == texts.place and (found.kind, found.name) in seen:
            yield 'first: %s %s on line %d' % (found.kind, found.name, seen[found.kind, found.name])
        seen.setdefault((found.kind, found.name), found.line)


def second_internal(texts, _):
    """The INTERNAL resources that a task of the line names, and where they stand."""
    objects = texts.objects()
    internal = {o.name: o.line for o in objects if o.kind == 'RESOURCE' and oil.value(o.attributes, 'RESOURCEPROPERTY') == 'INTERNAL'}
    for found in {o.name: o for o, _ in texts.on_the_line() if o.kind == 'TASK'}.values():
        for name in dict.fromkeys(n for n in oil.values(found.attributes, 'RESOURCE') if n in internal):
            yield 'here: TASK %s names %s, which line %d makes INTERNAL' % (found.name, name, internal[name])


def resources_in_calls(texts, _):
    """What the OIL text says of resources that calls of the line take or give back."""
    system = texts.system()
    for block in (b for b in texts.blocks() if b.line == texts.place and b.word in ('GetResource', 'ReleaseResource')):
        name, isr = block.arguments[0][0], system.isrs.get(block.owner.name) if block.owner.kind == 'ISR' else None
        if isr and name not in isr.resources:
            yield 'here: ISR %s names %s' % (isr.name, ', '.join(isr.resources) or 'no resource')
        elif name in system.resources and system.resources[name].is_internal:
            yield 'here: %s is INTERNAL on line %d' % (name, system.resources[name].line)


def counters(texts, _):
    """The values of the counters that the line is about."""
    objects = {(o.kind, o.name): o for o in texts.objects()}
    for found in {o.name: o for o, _ in texts.on_the_line()}.values():
        counter = objects.get(('COUNTER', oil.value(found.attributes, 'COUNTER'))) if found.kind == 'ALARM' else found
        if counter and counter.kind == 'COUNTER':
            values = [oil.value(counter.attributes, *word) for word in (('MINCYCLE', '1'), ('MAXALLOWEDVALUE', 'none'))]
            yield 'here: COUNTER %s has MINCYCLE %s and MAXALLOWEDVALUE %s' % (counter.name, *values)


def bodies(texts, _):
    """The tasks and routines that the task code has no body for, and bodies that nothing is declared for."""
    system, there = texts.system(), {block.owner for block in texts.blocks()}
    declared = [Owner('TASK', name) for name in system.tasks] + [Owner('ISR', name) for name in system.isrs]
    of_category_1 = [Owner('ISR', isr.name) for isr in system.isrs.values() if isr.category == 1]
    lacking = [owner for owner in declared if owner not in there and owner not in of_category_1]
    yield from ('without code: %s %s' % owner for owner in lacking)
    yield from ('of category 1, which has no code: ISR ' + owner.name for owner in of_category_1 if owner in there)
    for owner in sorted(there.difference(declared)):
        others = {other.name: '%s %s' % other for other in lacking}
        close = difflib.get_close_matches(owner.name, others, 1)
        yield 'not declared: %s %s%s' % (*owner, '; %s is' % others[close[0]] if close else '')


def names_in_calls(texts, _):
    """What calls of the line name and the OIL text doesn't declare."""
    system = texts.system()
    known = {'t': system.tasks, 'r': system.resources, 'm': system.events, 'a': system.alarms}
    calls = [block for block in texts.blocks() if block.line == texts.place and block.word not in application.OWN]
    pairs = [pair for block in calls for pair in zip(application.SHAPES[block.word], block.arguments)]
    names = {(letter, name): None for letter, argument in pairs if letter in known for name in argument if name not in known[letter]}
    return ['not declared: the %s %s%s' % (KINDS[letter], name, nearest(name, known[letter])) for letter, name in names]


def locks_that_do_not_pair(texts, _):
    return ('here: ' + what for line, what in locks.faults_of(contents(texts.words[2]), texts.name) if line == texts.place)


def sources(texts, _):
    """The sources of interrupts of the two texts that the command names."""
    if texts.words[:1] == ['trace']:
        system = texts.system()
        names = ['tick ' + name for name in system.counters] + ['irq ' + isr.name for isr in system.isrs.values() if isr.category == 2]
        yield 'there are: ' + ', '.join(names or ['none'])


def points_of_the_block(texts, _):
    """How many blocks the application has, or whose the block is that the line of a record names, and the points there."""
    app = application.application_of(contents(texts.words[1]), contents(texts.words[2]))
    block = contents(texts.name).splitlines()[texts.place - 1].strip(' \t')[1:].partition('/')[0]
    if int(block) >= len(app.blocks):
        yield 'there are: halt, idle, and points of the blocks b0 to b%d' % (len(app.blocks) - 1)
        return
    owner = app.blocks[int(block)].owner
    shown = [shown_point(app, point) for point in points_of(app) if point[1:2] == (int(block),)]
    yield 'here: b%s is of the %s %s: %s' % (block, OWNERS[owner.kind], owner.name, ', '.join(shown))


TELLERS = {'L1': signs, 'S': wanted, 'O1': kinds, 'O2': second_ones, 'O3': second_os, 'E1': event_forms, 'O4': missing, 'O6': unfit_values, 'O7': undeclared,
           'O14': counters, 'O16': second_internal, 'C6': resources_in_calls, 'C10': resources_in_calls, 'C1': bodies, 'C2': bodies, 'C4': names_in_calls,
           'C7': locks_that_do_not_pair, 'E2': sources, 'G2': points_of_the_block}
"""What tells of a rule, or of a letter of rules."""
