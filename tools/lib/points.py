"""The points of an application: where the processor may be. They are tuples in the order in which they are shown: halt, idle, then by
block, and of a routine's block nobody first and then each task that it may have interrupted."""
HALT_POINT, IDLE_POINT = (0,), (1,)

NOBODY = -1
"""What stands for the task that a routine interrupted where it interrupted none."""


def block_point(block, over, is_routine):
    """The point of a task's block, or of a routine's over a task or over nobody (None)."""
    return (2, block, NOBODY if over is None else over, is_routine)


def points_of(app):
    """All points of an application, in order."""
    found = [HALT_POINT, IDLE_POINT]
    for number, block in enumerate(app.blocks):
        is_routine = block.owner.kind != 'TASK'
        found += [block_point(number, over, is_routine) for over in [None] + list(range(len(app.tasks)) if is_routine else [])]
    return found


def block_of(point):
    """The block of a point, or None."""
    return point[1] if len(point) > 1 else None


def executing_at(app, point):
    """The number of the task that runs at a point, or is interrupted there; None where there is none."""
    if len(point) == 1:
        return None
    _, block, over, is_routine = point
    if is_routine:
        return None if over == NOBODY else over
    return app.task_number[app.blocks[block].owner.name]


def shown_point(app, point):
    """A point as `show` has it."""
    if point in (HALT_POINT, IDLE_POINT):
        return 'halt' if point == HALT_POINT else 'idle'
    _, block, over, is_routine = point
    return 'b%d' % block + ('/' + ('-' if over == NOBODY else app.tasks[over].name) if is_routine else '')


def point_shown(app, text):
    """The point that is shown so, or None."""
    return next((point for point in points_of(app) if shown_point(app, point) == text), None)
