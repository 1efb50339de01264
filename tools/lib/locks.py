"""Interrupt locks that don't pair, told as far as the text of task code shows which is meant; osekfit alone judges them."""
from lib.task_code import CLOSERS, LOCKS, OPENERS, CodeReader

MOST = 8
"""How many locks may be open."""


class LockReader(CodeReader):
    """Reads task code with the locks that are open, and keeps the first fault of each body: its line, and what it is."""

    def __init__(self, text, name):
        super().__init__(text, name)
        self.open, self.starts, self.ends, self.brace, self.faults = [], [], [], 0, {}

    def fault(self, line, what):
        self.faults.setdefault(len(self.bodies), (line, what))

    def read_body(self):
        self.starts, self.ends = [[]], [[]]
        super().read_body()
        if self.open:
            self.fault(self.brace, 'the body ends with ' + said(self.open))

    def read_statements(self):
        self.open = list(self.starts[-1])
        found, self.brace = super().read_statements()
        self.ends[-1].append(self.open)
        return found, self.brace

    def read_choice(self, word, line):
        before = self.open
        self.starts.append(before)
        self.ends.append([])
        statement = super().read_choice(word, line)
        self.starts.pop()
        ends = self.ends.pop()
        other = ends[-1] if len(ends) > 1 else before
        if words(ends[0]) != words(other):
            ways = 'the loop goes round' if word == 'while' else 'one branch ends'
            self.fault(self.brace, '%s with %s, and the other way has %s' % (ways, said(ends[0]), said(other)))
        self.open = ends[0]
        return statement

    def read_statement(self, word, line):
        statement = super().read_statement(word, line)
        if word in OPENERS:
            if word == 'DisableAllInterrupts' and word in words(self.open):
                self.fault(line, 'twice, since ' + said(self.open))
            elif len(self.open) == MOST:
                self.fault(line, 'a ninth lock')
            self.open.append((word, line))
        elif word in CLOSERS:
            if words(self.open[-1:]) != [LOCKS[LOCKS.index(word) - 1]]:
                self.fault(line, '%s meets %s' % (word, said(self.open[-1:])))
            self.open = self.open[:-1]
        elif word not in ('if', 'while', 'work') and self.open:
            self.fault(line, '%s within %s' % (word, said(self.open)))
        return statement


def words(locks):
    return [word for word, _ in locks]


def said(locks):
    return ', '.join('%s of line %d' % lock for lock in locks) + ' open' if locks else 'no lock open'


def faults_of(text, name):
    """The first fault of each body: pairs of a line and what it is."""
    reader = LockReader(text, name)
    reader.read()
    return list(reader.faults.values())
