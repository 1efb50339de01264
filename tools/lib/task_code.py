"""The blocks of a task code text, numbered as osekfit numbers them: one for each statement and each closing brace of a body, in
the order of the text. The text is taken to be without fault."""
from collections import namedtuple

from lib.tokens import Cursor, number_of

Block = namedtuple('Block', 'owner line text word arguments is_locked next other')
"""A block: its body's owner, the line of its first token, its text, and the numbers of the blocks that it leads to. The word is a
service's name, `work`, `choice`, `loop`, `end`, or, in a tick routine, `count` or `expire`. The arguments are names and numbers, and
a list of names for a mask."""

Owner = namedtuple('Owner', 'kind name')
"""Who a body belongs to: kind is TASK, ISR or, for a tick routine, TICK."""

LOCKS = ['SuspendAllInterrupts', 'ResumeAllInterrupts', 'SuspendOSInterrupts', 'ResumeOSInterrupts', 'DisableAllInterrupts',
         'EnableAllInterrupts']
"""The calls that lock interrupts, each before the one that ends its lock."""

OPENERS, CLOSERS = LOCKS[::2], LOCKS[1::2]

C_WORDS = ('for', 'switch', 'return')
"""Words of C before a parenthesis that are no service."""


class Statement:
    """A statement as it is read: its block's number, and the statements inside it."""

    def __init__(self, number):
        self.number, self.first, self.second = number, [], []


class CodeReader(Cursor):
    def __init__(self, text, name):
        super().__init__(text, name)
        self.blocks, self.owner, self.locks, self.bodies = [], None, 0, []

    def read(self):
        while not self.is_done():
            self.read_body()
        return self.blocks

    def push(self, line, text, word, arguments=()):
        self.blocks.append(Block(self.owner, line, text, word, list(arguments), self.locks > 0, None, None))
        return len(self.blocks) - 1

    def lead(self, number, next_, other=None):
        self.blocks[number] = self.blocks[number]._replace(next=next_, other=other)

    def read_body(self):
        self.bodies.append(self.line())
        if self.ahead() == '}':
            self.stop('a } too many, here or above')
        kind = self.want('TASK', 'ISR')
        self.want('(')
        self.owner, self.locks = Owner(kind, self.take_name()), 0
        self.want(')')
        self.want('{')
        statements, line = self.read_statements()
        end = self.push(line, '}', 'end')
        self.follow(statements, end)

    def read_statements(self):
        """The statements up to the closing brace, and the brace's line."""
        found = []
        while True:
            line = self.line()
            if self.took('}'):
                return found, line
            found.append(self.read_statement(self.take_name(), line))

    def read_statement(self, word, line):
        if word in ('if', 'while'):
            return self.read_choice(word, line)
        if word == 'work':
            number = self.take()
            if number_of(number) is None:
                self.stop('a number is wanted, not %s' % number, line)
            self.want(';')
            return Statement(self.push(line, 'work ' + number, 'work', [number_of(number) or 1]))
        if word in ('TASK', 'ISR'):
            self.stop('%s begins a body: a } is missing above' % word, line)
        if self.ahead() != '(' or word in C_WORDS:
            self.stop('%s begins no statement: these are work, if, while and calls of services' % word, line)
        arguments, text = self.read_arguments()
        number = self.push(line, word + text, word, arguments)
        self.locks += (word in OPENERS) - (word in CLOSERS)
        return Statement(number)

    def read_choice(self, word, line):
        self.want('(')
        condition = self.ahead()
        if condition != '?' and (word == 'if' or number_of(condition) != 1):
            self.stop('a condition is ?, and a loop for ever while (1)')
        self.take()
        self.want(')')
        self.want('{')
        is_loop = condition != '?'
        text = '%s (%s)' % (word, condition)
        statement = Statement(self.push(line, text, 'loop' if is_loop else 'choice'))
        locks = self.locks
        statement.first, _ = self.read_statements()
        if word == 'if' and self.took('else'):
            behind, self.locks = self.locks, locks
            self.want('{')
            statement.second, _ = self.read_statements()
            self.locks = behind
        return statement

    def read_arguments(self):
        """What stands between the parentheses of a call, as values and as it is shown."""
        self.want('(')
        arguments, texts = [], []
        while not self.took(')'):
            parts = [self.take()]
            while self.took('|'):
                parts.append(self.take())
            texts.append(' | '.join(parts))
            number = number_of(parts[0])
            arguments.append(parts if number is None else number)
            if self.ahead() != ')':
                self.want(',')
        self.want(';')
        return arguments, '(%s)' % ', '.join(texts)

    def follow(self, statements, after):
        """Lets each of the statements lead to what follows it; `after` follows the last."""
        follows = [s.number for s in statements[1:]] + [after]
        for statement, then in zip(statements, follows):
            text = self.blocks[statement.number].text
            inner = statement.number if text.startswith('while') else then
            first = statement.first[0].number if statement.first else inner
            self.follow(statement.first, inner)
            self.follow(statement.second, then)
            if text.startswith('if'):
                self.lead(statement.number, first, statement.second[0].number if statement.second else then)
            elif self.blocks[statement.number].word == 'choice':
                self.lead(statement.number, first, then)
            else:
                self.lead(statement.number, first if text.startswith('while') else then)


def blocks_of(text, name='the task code'):
    """The blocks of a task code text; the name is the file's, for what is told."""
    return CodeReader(text, name).read()
