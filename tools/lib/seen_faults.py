"""The rules that two texts violate, as far as these tools see it: pairs of a rule and a line. osekfit alone judges which is the first, and that there
is none."""
from lib import application, causes, lint_oil, locks, oil, rules
from lib.task_code import Owner
from lib.tokens import number_of, tokens_of

MOST = {'TASK': 16, 'ISR': 8, 'COUNTER': 8, 'ALARM': 16, 'EVENT': 32, 'RESOURCE': 8, 'APPMODE': 8}
"""How many objects of a kind there may be; RES_SCHEDULER is a resource, and OSDEFAULTAPPMODE a mode."""

MANY = ('RESOURCE', 'EVENT', 'APPMODE')
"""The attributes that may stand several times."""

JUDGED_ELSEWHERE = {('ISR', 'CATEGORY'), ('TASK', 'ACTIVATION'), ('RESOURCE', 'RESOURCEPROPERTY'), ('ISR', 'PRIORITY')}
"""Attributes whose numbers or words have rules of their own."""

MOST_BLOCKS, MOST_WORK = 1024, 65535


def of_objects(objects, guide):
    """What the objects of an OIL text violate; the guide has the table of attributes."""
    found = [*names(objects), *attributes(objects), *values(objects, guide), *counts(objects), *times(objects)]
    found += [(7, line) for line in lines_of(objects) for _ in lint_oil.undeclared(objects, line)]
    found += [(4, line) for line in lines_of(objects) for _ in lint_oil.missing(objects, line)]
    return sorted({('O%d' % rule, line) for rule, line in found + list(rules.object_faults(objects))}, key=lambda pair: pair[1])


def lines_of(objects):
    attributes_there = [a for o in objects for a in o.attributes]
    return sorted({one.line for one in objects + attributes_there + [b for a in attributes_there for b in a.attributes]})


def names(objects):
    """O1 to O3: kinds, names that stand twice, and OS."""
    seen = set()
    for one in objects:
        if one.kind not in lint_oil.KNOWN:
            yield 1, one.line
        elif one.kind != 'OS' and (one.kind, one.name) in seen:
            yield 2, one.line
        elif one.kind == 'OS' and any(kind == 'OS' for kind, _ in seen):
            yield 3, one.line
        seen.add((one.kind, one.name))
    if not any(kind == 'OS' for kind, _ in seen):
        yield 3, 1


def attributes(objects):
    """O5: single attributes that stand twice."""
    for one in objects:
        for group in [one.attributes] + [a.attributes for a in one.attributes]:
            seen = set()
            for a in group:
                if a.name in seen and a.name not in MANY and (group is not one.attributes or a.name in lint_oil.known_of(one.kind)):
                    yield 5, a.line
                seen.add(a.name)


def values(objects, guide):
    """O6, O11 and O12: values that the table doesn't have, callbacks, and masks without a bit."""
    table = {(row[0], name): row[2] for row in causes.rows_of(guide, 4) for name in row[1].split(', ')}
    for one in objects:
        for a in one.attributes:
            known = table.get((one.kind, a.name))
            if (one.kind, a.name, a.value) == ('ALARM', 'ACTION', 'ALARMCALLBACK'):
                yield 11, a.line
            elif (one.kind, a.name) == ('EVENT', 'MASK') and number_of(a.value) == 0:
                yield 12, a.line
            elif known and (one.kind, a.name) not in JUDGED_ELSEWHERE and not causes.allows(known, a.value):
                yield 6, a.line
            yield from ((6, b.line) for b in a.attributes if b.name in ('ALARMTIME', 'CYCLETIME') and number_of(b.value) is None)


def counts(objects):
    """O13: more objects of a kind than there may be."""
    before = {'RESOURCE': int(rules.uses_scheduler(objects)), 'APPMODE': 1}
    for kind, most in MOST.items():
        some = [o for o in objects if o.kind == kind and (kind, o.name) != ('APPMODE', oil.DEFAULT_MODE)]
        some = [o for o in some if kind != 'ISR' or oil.value(o.attributes, 'CATEGORY') == '2']
        yield from ((13, o.line) for o in some[max(0, most - before.get(kind, 0)):][:1])


def times(objects):
    """O14: times of alarms and MINCYCLE that their counter doesn't allow."""
    counters = {}
    for one in (o for o in objects if o.kind == 'COUNTER'):
        least, most = (number_of(oil.value(one.attributes, *word)) for word in (('MINCYCLE', '1'), ('MAXALLOWEDVALUE', '')))
        if None not in (least, most):
            counters[one.name] = (least, most)
            yield from ((14, a.line) for a in one.attributes if a.name == 'MINCYCLE' and least > most)
    for one in (o for o in objects if o.kind == 'ALARM' and oil.value(o.attributes, 'COUNTER') in counters):
        least, most = counters[oil.value(one.attributes, 'COUNTER')]
        for part in (b for a in one.attributes if a.name == 'AUTOSTART' for b in a.attributes):
            number = number_of(part.value)
            if number is not None and (part.name == 'ALARMTIME' and number > most or part.name == 'CYCLETIME' and number and not least <= number <= most):
                yield 14, part.line


def of_code(system, blocks, text, name):
    """What task code violates, with the system of the OIL text."""
    found = [*bodies(system, text), *calls(system, blocks), *rules.resource_calls(system, blocks)]
    found += [(7, line) for line, _ in locks.faults_of(text, name)]
    found += [(8, block.line) for block in blocks[MOST_BLOCKS:][:1]]
    found += [(9, block.line) for block in blocks if block.word == 'work' and not 1 <= number_of(block.text[5:]) <= MOST_WORK]
    return sorted({('C%d' % rule, line) for rule, line in found}, key=lambda pair: pair[1])


def bodies(system, text):
    """C1 to C3: bodies that are missing, that nothing declares, and that stand twice."""
    declared = {Owner('TASK', name) for name in system.tasks} | {Owner('ISR', isr.name) for isr in system.isrs.values() if isr.category == 2}
    there, tokens, depth = {}, tokens_of(text), 0
    for place, (word, line) in enumerate(tokens):
        depth += (word == '{') - (word == '}')
        if depth == 0 and word in ('TASK', 'ISR') and place + 2 < len(tokens):
            owner = Owner(word, tokens[place + 2][0])
            if owner in there:
                yield 3, line
            elif owner not in declared:
                yield 2, line
            there.setdefault(owner, line)
    if declared - set(there):
        yield 1, 0


def calls(system, blocks):
    """C4: names that nothing declares as what a call needs."""
    known = {'t': system.tasks, 'r': system.resources, 'm': system.events, 'a': system.alarms}
    for block in blocks:
        for letter, argument in zip(application.SHAPES.get(block.word, ''), block.arguments):
            if letter in known and any(word not in known[letter] for word in argument):
                yield 4, block.line


def changed_over(first, second):
    """Whether the two texts stand each in the place of the other."""
    begin = [causes.FIRST_WORDS.get((tokens_of(text) or [('', 0)])[0][0]) for text in (first, second)]
    return begin == ['task code', 'an OIL text']
