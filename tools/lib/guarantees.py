"""What the standard guarantees of each state of a run, held against a table of possible states: which of its values no run has, and by which
law of docs/GUARANTEES.md.

A table keeps each component by itself. A value is struck where a law rules it out at its point, or beside each value that some other component
may have there. What is left may still be in no run."""
from collections import namedtuple

from lib.points import HALT_POINT, IDLE_POINT, block_of, executing_at
from lib.table_bytes import HELD, LIVE, OUT, ROUTINE_HELD, WAITING

IDLE = 'idle_only_where_none_is_ready'
BEGUN = 'who_began_waits_for_higher_tasks'
NOBODY = 'none_is_underway_over_nobody'
HELD_TWICE = 'no_resource_is_held_twice'
GROUPS = 'one_task_of_a_group_is_inside'
CEILINGS = 'ceilings_keep_apart'
BEST = 'a_preemptive_task_runs_at_best'
AWAITED = 'who_waits_has_no_awaited_event'
NESTS = 'routines_nest'
LOCKS = 'no_routine_begins_at_a_lock'

LAWS = (IDLE, BEGUN, NOBODY, HELD_TWICE, GROUPS, CEILINGS, BEST, AWAITED, NESTS, LOCKS)
"""The laws that a value may be struck by, as docs/GUARANTEES.md has their names."""

Task = namedtuple('Task', 'own current is_live is_begun stack group ceilings level awaits is_locked')
"""What the laws ask of a task's value: its own and its current priority, whether it is live and underway, what it took, its INTERNAL resource
where it is inside, the ceilings of what it took, the level that all this makes, the events that it waits for, and whether it stands at a lock."""

Routine = namedtuple('Routine', 'priority is_in stack level is_locked')

Parted = namedtuple('Parted', 'left gone')
"""The sets of a point without the values that no run has; and of each component these, by the law that says so."""


def is_harmless(fact):
    """Whether no law rules out what this is said of: a suspended task, a routine that is out, an event that isn't set."""
    return not (fact.is_in if isinstance(fact, Routine) else fact.is_live or fact.awaits if isinstance(fact, Task) else fact)


class Guarantees:
    """Strikes values of an application's tables."""

    def __init__(self, app):
        self.app, self.known = app, {}
        self.bits = {len(app.tasks) + k: pair for k, pair in enumerate(app.own_bits())}
        self.sources = {len(app.tasks) + len(self.bits) + len(app.alarms) + k: source for k, source in enumerate(app.sources)}
        self.beside = {part: [other for other in self.others(part) if other != part] for part in [*range(len(app.tasks)), *self.bits, *self.sources]}
        self.has_groups = all(r is None or 2 * task.priority <= app.resources[r].ceiling for task, r in zip(app.tasks, app.internal))

    def parted(self, point, sets):
        """The sets of a point, parted in what runs may have and what none has."""
        struck, gone = self.struck(point, sets), [{} for _ in sets]
        for (part, value), law in sorted(struck.items()):
            gone[part].setdefault(law, []).append(value)
        return Parted([[value for value in values if (part, value) not in struck] for part, values in enumerate(sets)], gone)

    def struck(self, point, sets):
        """The values that no run has at a point, as pairs of a component's number and a value, each with the law by which."""
        facts = {part: self.facts(part, values) for part, values in enumerate(sets) if self.is_asked(part)}
        left, found, count = {part: list(known) for part, known in facts.items()}, {}, -1
        while count < len(found):
            count = len(found)
            for part in left:
                laws = [(fact, self.law(point, part, fact, left)) for fact in left[part]]
                found.update(((part, fact), law) for fact, law in laws if law)
                left[part] = [fact for fact, law in laws if not law]
                if not left[part]:
                    found.update(((other, fact), laws[0][1]) for other in left for fact in left[other])
                    left = dict.fromkeys(left, ())
                    break
        return {(part, value): law for (part, fact), law in found.items() for value in facts[part][fact]}

    def facts(self, part, values):
        """What the laws ask of values, each with the values that have it. Many points have the same values, so they are asked once."""
        key = part, tuple(values)
        if key not in self.known:
            found = self.known[key] = {}
            for value in values:
                found.setdefault(self.fact(part, value), []).append(value)
        return self.known[key]

    def fact(self, part, value):
        """What the laws ask of a value of a component."""
        if part in self.sources:
            return self.routine(self.sources[part], value)
        return self.task(part, value) if part < len(self.app.tasks) else value

    def is_asked(self, part):
        """Whether some law speaks of a component: none does of alarms."""
        return part < len(self.app.tasks) or part in self.bits or part in self.sources

    def others(self, part):
        """The components of which some law speaks together with this one: of an event its task alone."""
        tasks = list(range(len(self.app.tasks)))
        if part in self.bits:
            return [self.bits[part][0]]
        return tasks + [bit for bit, (task, _) in self.bits.items() if task == part] + list(self.sources)

    def law(self, point, part, fact, left):
        """The law by which a value is in no run: beside none that another component has left, or by itself."""
        if is_harmless(fact):
            return None
        laws = (self.barred(point, part, fact, other, left[other]) for other in self.beside[part])
        return next(filter(None, laws), None) or self.alone(point, part, fact)

    def barred(self, point, part, fact, other, facts):
        """The law by which a value is beside none of these of another component; that of the last one."""
        law = None
        for one in facts:
            law = self.apart(point, part, fact, other, one)
            if law is None:
                return None
        return law

    def task(self, number, value):
        app, task = self.app, self.app.tasks[number]
        stack, group = value[HELD:], app.internal[number] if value[0] == LIVE and value[3] == 1 else None
        has = [app.resources[r] for r in stack + ((group,) if group is not None else ())]
        is_begun = value[0] == LIVE and (bool(has) or not task.own and value[1] != app.first[number])
        awaits = app.mask(app.blocks[value[1]].arguments[0]) if value[0] == WAITING else 0
        return Task(2 * task.priority, max([2 * task.priority] + [r.ceiling for r in has]), value[0] == LIVE, is_begun, frozenset(stack), group,
                    frozenset(app.resources[r].ceiling for r in stack), max([0] + [r.interrupt_ceiling for r in has]), awaits,
                    value[0] == LIVE and app.blocks[value[1]].is_locked)

    def routine(self, source, value):
        if value == (OUT,):
            return Routine(source.priority, False, frozenset(), 0, False)
        stack = value[ROUTINE_HELD:]
        level = max([source.priority + 1] + [self.app.resources[r].interrupt_ceiling for r in stack])
        return Routine(source.priority, True, frozenset(stack), level, self.app.blocks[value[1]].is_locked)

    # One value at a point.

    def alone(self, point, part, fact):
        """The law by which a value is in no run at a point, whatever the others do."""
        if part in self.sources:
            return self.routine_alone(point, part, fact)
        return self.task_alone(point, part, fact) if part < len(self.app.tasks) else None

    def task_alone(self, point, number, task):
        if point == IDLE_POINT:
            return IDLE if task.is_live else None
        current = executing_at(self.app, point)
        if number == current:
            return LOCKS if task.is_locked and self.is_of_routine(point) else None
        if not task.is_begun or point == HALT_POINT:
            return None
        if current is None:
            return NOBODY
        return BEGUN if task.current >= 2 * self.app.tasks[current].priority else None

    def routine_alone(self, point, part, routine):
        """A routine that waits below another one has a lower priority, and stands at no lock."""
        if not routine.is_in or not self.is_of_routine(point):
            return None
        first = self.app.sources[self.app.source_of(block_of(point))]
        if self.sources[part] == first:
            return None
        return NESTS if routine.priority >= first.priority else LOCKS if routine.is_locked else None

    def is_of_routine(self, point):
        """Whether a routine has the processor at a point."""
        block = block_of(point)
        return block is not None and self.app.blocks[block].owner.kind != 'TASK'

    # Two values at a point.

    def apart(self, point, part, fact, other, second):
        """The law by which two components don't have these values at once."""
        count = len(self.app.tasks)
        if part > other:
            return self.apart(point, other, second, part, fact)
        if part >= count:
            return self.routines_apart(fact, second) if part in self.sources else None
        if other < count:
            return self.tasks_apart(point, {part: fact, other: second})
        if other in self.bits:
            task, bit = self.bits[other]
            return AWAITED if task == part and second and fact.awaits >> bit & 1 else None
        return self.task_and_routine_apart(point, part, fact, second)

    def tasks_apart(self, point, pair):
        first, second = pair.values()
        if first.stack & second.stack:
            return HELD_TWICE
        if self.has_groups and first.group is not None and first.group == second.group:
            return GROUPS
        if first.ceilings & second.ceilings:
            return CEILINGS
        if first.is_begun and second.is_begun and first.current >= second.own and second.current >= first.own:
            return BEGUN
        return BEST if self.is_above_one_that_runs(point, pair) else None

    def is_above_one_that_runs(self, point, pair):
        """Whether one of two tasks is preemptable and runs though the other one is live, with a higher current priority."""
        running = executing_at(self.app, point)
        return not self.is_of_routine(point) and running in pair and self.app.tasks[running].is_full and any(
            task.is_live and task.current > pair[running].current for number, task in pair.items() if number != running)

    def task_and_routine_apart(self, point, number, task, routine):
        if task.stack & routine.stack:
            return HELD_TWICE
        is_over = routine.is_in and executing_at(self.app, point) == number
        return NESTS if is_over and task.level > routine.priority else None

    def routines_apart(self, first, second):
        if first.stack & second.stack:
            return HELD_TWICE
        if not (first.is_in and second.is_in):
            return None
        is_kept_out = first.level > second.priority and second.level > first.priority
        return NESTS if first.priority == second.priority or is_kept_out else None
