"""Task code of C functions, for model_c.py. Each path of the C code is a list of choices of it: a condition is `?`, and what is left out behind an
early exit is a choice. So there are more paths than C has, and never fewer."""
import itertools
import operator
from collections import namedtuple

from lib.application import SHAPES
from lib.c_source import ISR, TASK, place_of
from lib.given import Wrong
from lib.states import STATUSES

Call = namedtuple('Call', 'word arguments place')
"""A call of a service: its arguments as they are written in task code."""

Choice = namedtuple('Choice', 'first second')

Loop = namedtuple('Loop', 'body is_endless')

WORK = 'work'
"""Statements that call no service."""

NEXT, BREAK, CONTINUE, RETURN = 'next', 'break', 'continue', 'return'
"""How a statement may end: by going on, or by one of C's jumps."""

GOES_ON = frozenset([NEXT])

TRANSPARENT = {'ImplicitCastExpr', 'ParenExpr', 'CStyleCastExpr', 'ConstantExpr', 'ExprWithCleanups'}

NO_VALUE = {'UnaryExprOrTypeTraitExpr'}
"""Expressions that aren't evaluated."""

WIDTHS = {'_Bool': 1, 'char': 7, 'signed char': 7, 'unsigned char': 8, 'short': 15, 'unsigned short': 16, 'int': 31, 'unsigned int': 32, 'long': 31,
          'unsigned long': 32, 'long long': 63, 'unsigned long long': 64}
"""The bits of the numbers from 0 on that each type has at least, where `int` has 32 bits."""

REFUSED = {'GotoStmt': 'goto', 'IndirectGotoStmt': 'goto', 'LabelStmt': 'a label', 'CaseStmt': 'a case within another statement',
           'DefaultStmt': 'a default within another statement', 'GenericSelectionExpr': '_Generic', 'ChooseExpr': '__builtin_choose_expr',
           'CleanupAttr': 'a variable with a cleanup function'}

WITHOUT_EFFECT = {'GetAlarmBase', 'StartOS'}
"""Services that task code doesn't have, and that change nothing that it speaks of."""

OPEN = {'ActivateTask': 0, 'ChainTask': 0, 'ClearEvent': 0, 'SetEvent': 1}
"""The services of which one argument need not be known, each with the place of that."""

MOST_OPEN = 16
"""Among how many calls one may be left open: so many tasks, or the sets of four events."""

JUMPS = {'longjmp', '_longjmp', 'siglongjmp', '__builtin_longjmp'}
"""Functions that leave others without a return."""

MOST_DEEP = 64
"""How deep functions are written out in each other."""


def stop(node, what):
    raise Wrong('%s:%d: %s' % (*place_of(node), what))


def merged(nodes):
    """Nodes without what has no effect: work beside work, and choices and loops over nothing but work."""
    found = []
    for node in nodes:
        if isinstance(node, Choice):
            node = node._replace(first=merged(node.first), second=merged(node.second))
            node = WORK if is_idle(node.first) and is_idle(node.second) else node if node.first else Choice(node.second, node.first)
        elif isinstance(node, Loop):
            node = node._replace(body=merged(node.body))
            node = WORK if is_idle(node.body) and not node.is_endless else node
        if node != WORK or found[-1:] != [WORK]:
            found.append(node)
    return found


def is_idle(nodes):
    return all(node == WORK for node in nodes)


def stripped(node):
    while node.get('kind') in TRANSPARENT:
        node = node['inner'][-1]
    return node


OPERATIONS = {'+': operator.add, '-': operator.sub, '*': operator.mul, '/': lambda left, right: left // right if right else None,
              '%': lambda left, right: left % right if right else None, '<<': lambda left, right: left << min(right, 64), '>>': operator.rshift,
              '&': operator.and_, '|': operator.or_}
"""What operators give of numbers that aren't negative."""


def constant(node):
    """The value of a whole number that isn't negative, or None where that isn't sure."""
    kind, found = node.get('kind'), None
    if kind in TRANSPARENT:
        found = constant(node['inner'][-1])
    elif kind in ('IntegerLiteral', 'CharacterLiteral'):
        found = int(node['value'])
    elif kind == 'DeclRefExpr':
        found = node['referencedDecl'].get('value')
    elif kind == 'BinaryOperator' and node['opcode'] in OPERATIONS:
        left, right = map(constant, node['inner'])
        found = OPERATIONS[node['opcode']](left, right) if None not in (left, right) else None
    return fitting(node, found)


def fitting(node, value):
    """A value that is the same in the type of an expression, else None."""
    said = node.get('type', {})
    words = said.get('desugaredQualType', said.get('qualType', '')).split()
    name = ' '.join(word for word in words if word not in ('const', 'volatile'))
    return value if value is not None and 0 <= value < 1 << WIDTHS.get(name, 0) else None


class Maker:
    """Makes the nodes of functions. The notes say what was assumed: of each the file, the line and the text."""

    def __init__(self, app, sources):
        self.app, self.sources, self.notes, self.stack = app, sources, [], []
        self.known = {'t': app.task_number, 'r': app.resource_number, 'a': app.alarm_number, 'm': app.events}

    def note(self, node, text):
        found = (*place_of(node), text)
        if found not in self.notes:
            self.notes.append(found)

    # Statements: the nodes, and how they may end.

    def sequence(self, statements, names):
        found = []
        for place, statement in enumerate(statements):
            rest = statements[place + 1:]
            if statement['kind'] == 'IfStmt' and rest:
                nodes, ends = self.branches(statement, rest, names)
                return found + nodes, ends
            nodes, ends = self.statement(statement, names)
            found += nodes
            if NEXT not in ends:
                return found, ends
            if ends != GOES_ON:
                behind, last = self.sequence(rest, names)
                return found + ([Choice(behind, [])] if behind else []), (ends - GOES_ON) | last
        return found, GOES_ON

    def branches(self, node, rest, names):
        """An `if` with what stands behind it: where one branch never goes on, the other one has the rest."""
        condition, first, second, ends, others = self.two(node, names)
        behind, last = self.sequence(rest, names)
        if NEXT not in ends and NEXT not in others:
            return condition + [Choice(first, second)], ends | others
        if NEXT not in ends and others == GOES_ON:
            return condition + [Choice(first, second + behind)], ends | last
        if NEXT not in others and ends == GOES_ON:
            return condition + [Choice(first + behind, second)], others | last
        is_sure = ends | others == GOES_ON
        return condition + [Choice(first, second)] + (behind if is_sure else [Choice(behind, [])]), ((ends | others) - GOES_ON) | last

    def two(self, node, names):
        condition, first, *other = node['inner']
        nodes, ends = self.statement(first, names)
        second, others = self.statement(other[0], names) if other else ([], GOES_ON)
        return self.calls(condition, names), nodes, second, ends, others

    def statement(self, node, names):
        kind = node.get('kind')
        if kind in REFUSED:
            stop(node, '%s has no place in task code' % REFUSED[kind])
        if kind == 'AttributedStmt':
            return self.statement(node['inner'][-1], names)
        action = {'CompoundStmt': self.compound, 'IfStmt': self.alone, 'WhileStmt': self.while_, 'DoStmt': self.do, 'ForStmt': self.for_,
                  'SwitchStmt': self.switch, 'ReturnStmt': self.return_, 'BreakStmt': self.jump, 'ContinueStmt': self.jump,
                  'NullStmt': self.nothing, 'GCCAsmStmt': self.assembler, 'DeclStmt': self.declaration}.get(kind)
        if action is None and kind.endswith('Stmt'):
            stop(node, '%s has no place in task code' % kind)
        return (action or self.plain)(node, names)

    def compound(self, node, names):
        return self.sequence(node.get('inner', []), names)

    def alone(self, node, names):
        condition, first, second, ends, others = self.two(node, names)
        return condition + [Choice(first, second)], ends | others

    def return_(self, node, names):
        return [found for one in node.get('inner', []) for found in self.calls(one, names)], frozenset([RETURN])

    def jump(self, node, _names):
        return [], frozenset([BREAK if node['kind'] == 'BreakStmt' else CONTINUE])

    def nothing(self, _node, _names):
        return [], GOES_ON

    def assembler(self, node, _names):
        self.note(node, 'the assembler is taken to call no service')
        return [WORK], GOES_ON

    def declaration(self, node, names):
        return self.calls(node, names), GOES_ON

    def plain(self, node, names):
        return self.calls(node, names) or [WORK], GOES_ON

    # Loops.

    def while_(self, node, names):
        condition, body = node['inner'][-2:]
        return self.loop(condition, body, [], names)

    def for_(self, node, names):
        begin, _, condition, step, body = node['inner']
        before = self.statement(begin, names)[0] if begin else []
        nodes, ends = self.loop(condition or None, body, self.calls(step, names) if step else [], names)
        return before + nodes, ends

    def loop(self, condition, body, step, names):
        """A loop whose condition is asked first: what it calls comes before the loop, and behind each turn."""
        asked = self.calls(condition, names) if condition else []
        nodes, ends = self.statement(body, names)
        is_left = bool(ends & {BREAK, RETURN})
        is_endless = condition is None or constant(condition) not in (None, 0)
        behind = step + asked
        turn = nodes + ([Choice(behind, [])] if behind and is_left else behind)
        if not ends & {NEXT, CONTINUE}:
            found = asked + [Choice(nodes, [])]
        else:
            found = asked + [Loop(turn or [WORK], is_endless and not is_left)]
        return found, self.left(ends, is_endless)

    def left(self, ends, is_endless):
        """How a loop may end, by how its body may."""
        return (frozenset() if is_endless and BREAK not in ends else GOES_ON) | (ends & {RETURN})

    def do(self, node, names):
        """The body once, and then the loop."""
        body, condition = node['inner']
        nodes, ends = self.statement(body, names)
        asked, value = self.calls(condition, names), constant(condition)
        again = asked + ([] if value == 0 else self.loop(condition, body, [], names)[0][len(asked):])
        is_sure = not ends & {BREAK, RETURN}
        return nodes + (again if is_sure or not again else [Choice(again, [])]), self.left(ends, value not in (None, 0))

    # Switch.

    def switch(self, node, names):
        """One of the groups where none falls into the next; else each of them or not, in order."""
        condition, body = node['inner'][-2:]
        groups, has_default = self.groups(body)
        found = [self.sequence(group, names) for group in groups]
        ends = frozenset().union(*(end for _, end in found)) if found else GOES_ON
        falls = any(NEXT in end for _, end in found[:-1])
        is_sure = has_default and BREAK not in ends and NEXT not in found[-1][1]
        if falls:
            nodes = [Choice(one, []) for one, _ in found]
        else:
            nodes = [] if has_default or not found else [Choice(self.chain([one for one, _ in found]), [])]
            nodes = nodes or self.chain([one for one, _ in found])
        return self.calls(condition, names) + nodes, (ends - {NEXT, BREAK}) | (frozenset() if is_sure and not falls else GOES_ON)

    def chain(self, groups):
        return groups[0] if len(groups) == 1 else [Choice(groups[0], self.chain(groups[1:]))] if groups else []

    def groups(self, body):
        """The statements behind each row of labels, and whether one of these is `default`."""
        groups, has_default, last = [], False, None
        for one in body.get('inner', []):
            while one.get('kind') in ('CaseStmt', 'DefaultStmt'):
                has_default = has_default or one['kind'] == 'DefaultStmt'
                if last != 'label':
                    groups.append([])
                last, one = 'label', one['inner'][-1]
            last = None
            if groups:
                groups[-1].append(one)
            elif one['kind'] != 'DeclStmt':
                stop(one, 'a statement before the first case has no place in task code')
        return groups, has_default

    # Expressions: the calls in them, in the order in which they stand.

    def calls(self, node, names):
        kind = node.get('kind')
        if kind in NO_VALUE:
            return []
        if kind in REFUSED:
            stop(node, '%s has no place in task code' % REFUSED[kind])
        if kind == 'StmtExpr':
            nodes, ends = self.statement(node['inner'][0], names)
            return nodes if ends == GOES_ON else stop(node, 'a jump out of an expression')
        if kind == 'CallExpr':
            return self.call(node, names)
        inner = [self.calls(one, names) for one in node.get('inner', [])]
        if kind == 'BinaryOperator' and node.get('opcode') in ('&&', '||'):
            return inner[0] + ([Choice(inner[1], [])] if inner[1] else [])
        if kind == 'ConditionalOperator':
            return inner[0] + ([Choice(*inner[-2:])] if any(inner[-2:]) else [])
        if kind == 'BinaryConditionalOperator':
            return inner[0] + ([Choice(inner[-1], [])] if inner[-1] else [])
        return self.in_order(node, inner)

    def in_order(self, node, parts):
        """The calls of the parts of an expression."""
        if sum(1 for one in parts if one) > 1 and node.get('opcode') != ',':
            self.note(node, 'the calls in one expression are taken from left to right')
        return [found for one in parts for found in one]

    def call(self, node, names):
        callee, *arguments = node['inner']
        function = stripped(callee).get('referencedDecl', {})
        before = self.in_order(node, [self.calls(one, names) for one in arguments])
        if function.get('kind') != 'FunctionDecl':
            stop(node, 'a call through a pointer: write out which functions it may call')
        word = function['name']
        if word in SHAPES:
            return before + self.service(word, node, arguments, names)
        if word in WITHOUT_EFFECT:
            return before
        return before + self.written_out(node, word, arguments, names)

    def service(self, word, node, arguments, names):
        """The call of a service; where a task or events are known at run time alone, the call by any of them, or none."""
        place = OPEN.get(word)
        if place is None or self.value(arguments[place], names) is not None:
            return [Call(word, self.arguments(word, arguments, names), place_of(node))]
        known = [self.argument(word, SHAPES[word][k], arguments[k], names) for k in range(place)]
        whose, found = self.any_of(word, known), []
        if not 0 < len(whose) <= MOST_OPEN:
            return [Call(word, self.arguments(word, arguments, names), place_of(node))]
        self.note(node, '%s is called by what is known at run time alone: taken to be by any of %d, or not at all' % (word, len(whose)))
        for one in reversed(whose):
            found = [Choice([Call(word, known + [one], place_of(node))], found)]
        return found

    def any_of(self, word, known):
        """All tasks, or all sets of events of the task that is known, else of the one whose body this is."""
        if SHAPES[word][0] == 't' and not known:
            return [task.name for task in self.app.tasks]
        owner = known[0] if known else self.stack[0].name[len(TASK):]
        events = next((task.events for task in self.app.tasks if task.name == owner), [])
        if len(events) > MOST_OPEN:
            return []
        return [' | '.join(some) for count in range(1, len(events) + 1) for some in itertools.combinations(events, count)]

    def written_out(self, node, word, arguments, names):
        """The nodes of a function that is called."""
        if word in JUMPS:
            stop(node, '%s has no place in task code' % word)
        found = self.sources.named(word, self.stack[-1].file)
        if found is None:
            if not word.startswith('__builtin_'):
                self.note(node, '%s is in none of the files, and taken to call no service' % word)
            return []
        if found in self.stack or len(self.stack) == MOST_DEEP:
            stop(node, 'a recursion: %s calls itself' % word)
        inner = {key: self.value(one, names) for key, one in zip(found.parameters, arguments) if not is_written(found.body, key)}
        return self.of(found, inner)

    def of(self, function, names):
        """The nodes of a function."""
        self.stack.append(function)
        found, _ = self.statement(function.body, names)
        self.stack.pop()
        return merged(found)

    # Arguments.

    def value(self, node, names):
        """What an argument is: a list of names, a number, or None."""
        found = constant(node)
        if found is not None:
            return found
        node = stripped(node)
        if node.get('kind') == 'DeclRefExpr':
            declared = node['referencedDecl']
            is_name = (self.stack[-1].file, declared['id']) in self.sources.externs
            return [declared['name']] if is_name else names.get(declared['id'])
        if node.get('kind') == 'BinaryOperator' and node['opcode'] == '|':
            parts = [self.value(one, names) for one in node['inner']]
            return parts[0] + parts[1] if all(isinstance(part, list) for part in parts) else None
        return None

    def arguments(self, word, arguments, names):
        return [self.argument(word, letter, one, names) for letter, one in zip(SHAPES[word], arguments)]

    def argument(self, word, letter, node, names):
        """An argument as task code has it."""
        found = self.value(node, names)
        if letter == 's':
            name = stripped(node).get('referencedDecl', {}).get('name')
            if name not in STATUSES:
                self.note(node, 'the status of ShutdownOS is not said by its name, and taken to be %s' % STATUSES[0])
            return name if name in STATUSES else STATUSES[0]
        if letter == 'n' and isinstance(found, int):
            return str(found)
        if letter != 'n' and isinstance(found, list) and all(name in self.known[letter] for name in found) and (letter == 'm' or len(found) == 1):
            return ' | '.join(found)
        stop(node, '%s by what is no %s of the OIL text' % (word, {'n': 'number', 't': 'task', 'r': 'resource', 'a': 'alarm', 'm': 'event'}[letter]))


def names_it(node, key):
    return node.get('referencedDecl', {}).get('id') == key or any(names_it(one, key) for one in node.get('inner', []))


def is_written(node, key):
    """Whether a body writes a parameter, takes its address, or has it in assembler."""
    if node.get('kind') == 'GCCAsmStmt' and names_it(node, key):
        return True
    is_write = node.get('kind') == 'UnaryOperator' and node.get('opcode') in ('&', '++', '--') or node.get('kind') == 'CompoundAssignOperator' or \
        node.get('kind') == 'BinaryOperator' and node.get('opcode') == '='
    if is_write and stripped(node['inner'][0]).get('referencedDecl', {}).get('id') == key:
        return True
    return any(is_written(one, key) for one in node.get('inner', []))


def bodies(app, sources):
    """The nodes of each task and of each routine of category 2, as pairs of a head and nodes; and what was assumed."""
    maker, found = Maker(app, sources), []
    heads = [('TASK(%s)' % task.name, TASK + task.name) for task in app.tasks]
    heads += [('ISR(%s)' % source.name, ISR + source.name) for source in app.sources if source.mark == '@']
    for head, name in heads:
        function = sources.named(name, None)
        if function is None:
            raise Wrong('no file has %s' % head)
        found.append((head, maker.of(function, {})))
    return found, sorted(maker.notes)


# Writing.


def written(nodes, indent):
    """The lines of nodes, each call with its place."""
    for node in nodes:
        if node == WORK:
            yield indent + 'work 1;'
        elif isinstance(node, Call):
            yield '%s%s(%s);  // %s:%d' % (indent, node.word, ', '.join(node.arguments), *node.place)
        elif isinstance(node, Loop):
            yield indent + ('while (1) {' if node.is_endless else 'while (?) {')
            yield from written(node.body, indent + '  ')
            yield indent + '}'
        else:
            yield from written_choice(node, indent)


def written_choice(node, indent):
    yield indent + 'if (?) {'
    yield from written(node.first, indent + '  ')
    if node.second:
        yield indent + '} else {'
        yield from written(node.second, indent + '  ')
    yield indent + '}'


def code_lines(found):
    """The lines of task code."""
    for head, nodes in found:
        yield head + ' {'
        yield from written(nodes, '  ')
        yield '}'
        yield ''
