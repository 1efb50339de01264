"""Those rules of osekfit, judged, that activations, INTERNAL resources and the parts of the language that come later have: which of them two texts
violate first. Of all other rules the texts are taken to be without fault. What isn't opened yet is refused as osekfit refuses it."""
from lib import opened
from lib.given import Wrong
from lib.tokens import number_of

MOST_ACTIVATIONS, MOST_PRIORITY = 255, 255
"""The most activations of a task, and the highest priority of an interrupt routine."""

SCHEDULER = 'RES_SCHEDULER'


class Refused(Wrong):
    """A text that violates a rule: told as osekfit tells it."""


def refuse(violated, name):
    """Stops at the least of some violations, pairs of a rule's number and a line; the letter is that of all of them."""
    letter, found = violated
    if found:
        rule, line = min(found)
        raise Refused('%s:%d: %s%d' % (name, line, letter, rule))


def judge_objects(objects, name):
    """Judges the objects of an OIL text, whose file has this name."""
    refuse(('O', list(object_faults(objects))), name)


def object_faults(objects):
    """The rules that the objects violate, each with the line."""
    tasks, isrs, resources = ([o for o in objects if o.kind == kind] for kind in ('TASK', 'ISR', 'RESOURCE'))
    internal, has_scheduler = internal_names(resources), uses_scheduler(objects)
    yield from [*isr_priorities(isrs), *activations(tasks), *properties(resources), *categories(isrs)]
    yield from [*two_internals(tasks, internal), *internal_scheduler(resources, has_scheduler), *isr_resources(isrs, internal, has_scheduler)]


def uses_scheduler(objects):
    return not any(said(o, 'USERESSCHEDULER') == ['FALSE'] for o in objects if o.kind == 'OS')


def all_of(found, name):
    return [a for a in found.attributes if a.name == name]


def said(found, name):
    return [a.value for a in all_of(found, name)]


def internal_names(resources):
    return {o.name for o in resources if said(o, 'RESOURCEPROPERTY') == ['INTERNAL']}


def isr_priorities(isrs):
    """O6 (O5 where there are two): the priority of a routine is a number from 0 to 255."""
    for a, place in ((a, place) for o in isrs for place, a in enumerate(all_of(o, 'PRIORITY')) if opened.has(opened.NESTED)):
        number = number_of(a.value)
        if place:
            yield 5, a.line
        if number is None or number > MOST_PRIORITY:
            yield 6, a.line


def activations(tasks):
    """O9: a basic task has 1 to 255 activations, and an extended one has 1."""
    for o in tasks:
        most = 1 if all_of(o, 'EVENT') else MOST_ACTIVATIONS
        for a in all_of(o, 'ACTIVATION'):
            number = number_of(a.value)
            if number is not None and not 1 <= number <= most:
                yield 9, a.line


def properties(resources):
    """O10: no resource is LINKED."""
    return ((10, a.line) for o in resources for a in all_of(o, 'RESOURCEPROPERTY') if a.value == 'LINKED')


def categories(isrs):
    """O15: a category is 1 or 2; and as long as routines don't nest, those of category 2 name no resource."""
    for o in isrs:
        numbers = [number_of(value) for value in said(o, 'CATEGORY')]
        yield from ((15, a.line) for a in all_of(o, 'CATEGORY') if number_of(a.value) not in (None, 1, 2))
        if numbers == [2] and not opened.has(opened.NESTED):
            yield from ((15, a.line) for a in all_of(o, 'RESOURCE')[:1])


def two_internals(tasks, internal):
    """O16: a task names one INTERNAL resource at most; the same one may be named twice."""
    for o in tasks:
        named = [a for a in all_of(o, 'RESOURCE') if a.value in internal]
        yield from [(16, a.line) for a in named if a.value != named[0].value][:1]


def internal_scheduler(resources, has_scheduler):
    """O17: the resource of the scheduler isn't INTERNAL."""
    return ((17, a.line) for o in resources if o.name == SCHEDULER and has_scheduler
            for a in all_of(o, 'RESOURCEPROPERTY') if a.value == 'INTERNAL')


def isr_resources(isrs, internal, has_scheduler):
    """O18: a routine of category 2 names neither the scheduler's resource nor an INTERNAL one."""
    barred = internal | ({SCHEDULER} if has_scheduler else set())
    return ((18, a.line) for o in isrs if [number_of(c) for c in said(o, 'CATEGORY')] == [2] for a in all_of(o, 'RESOURCE') if a.value in barred)


def judge_calls(system, blocks, name):
    """Judges the calls of task code, whose file has this name."""
    refuse(('C', list(resource_calls(system, blocks))), name)


def resource_calls(system, blocks):
    """C6: a call in a routine of a resource that it doesn't name; C10: one of an INTERNAL resource. A call is taken to stand on one line."""
    for block in (b for b in blocks if b.word in ('GetResource', 'ReleaseResource') and b.arguments and isinstance(b.arguments[0], list)):
        resource = system.resources.get(block.arguments[0][0])
        isr = system.isrs.get(block.owner.name) if block.owner.kind == 'ISR' else None
        if block.owner.kind == 'ISR' and (isr is None or not opened.has(opened.NESTED) or block.arguments[0][0] not in isr.resources):
            yield 6, block.line
        if resource is not None and resource.is_internal:
            yield 10, block.line
