"""The ways through the blocks of a task, with the resources that are held on each, as far as the text alone tells. Calls are taken to
succeed unless the text shows that they are refused."""


ENDS = {'TerminateTask', 'ChainTask'}

REFUSED_WHILE_HELD = ENDS | {'Schedule', 'WaitEvent'}


def leads_to(app, number, held):
    """The blocks that a block leads to, each with what is held there."""
    block = app.blocks[number]
    is_end = block.word in ENDS and block.owner.kind == 'TASK' and not held
    if block.word == 'ShutdownOS' or block.word == 'end' or is_end:
        return []
    if block.word == 'GetResource' and block.arguments[0][0] not in held and not is_above(app, block):
        held = held + (block.arguments[0][0],)
    if block.word == 'ReleaseResource' and held[-1:] == (block.arguments[0][0],):
        held = held[:-1]
    return [(to, held) for to in (block.next, block.other) if to is not None]


def is_above(app, block):
    """Whether the task of a resource's call is above the resource's ceiling by its own priority: then the call is refused."""
    if block.owner.name not in app.task_number:
        return False
    resource = app.resources[app.resource_number[block.arguments[0][0]]]
    return 2 * app.tasks[app.task_number[block.owner.name]].priority > resource.ceiling


def ways(app, first):
    """Each block that may be reached from the first one, with what may be held there: a set of pairs."""
    seen, waiting = {(first, ())}, [(first, ())]
    while waiting:
        for way in leads_to(app, *waiting.pop()):
            if way not in seen:
                seen.add(way)
                waiting.append(way)
    return seen


def held_at(found):
    """For each block that is reached the sets of resources that may be held there."""
    blocks = {}
    for number, held in found:
        blocks.setdefault(number, set()).add(held)
    return blocks
