"""The paths of calls through task code, for model_c.py: whether all those of one text are paths of another one."""
from collections import deque

SILENT = {'work', 'choice', 'loop'}
"""The words of blocks that are no calls."""


class Paths:
    """The paths of calls through one body: a state is a set of blocks with which a call, or the end, comes next."""

    def __init__(self, blocks, first):
        self.blocks = blocks
        self.first = self.closed([first])

    def closed(self, numbers):
        """The blocks that are no silent ones and that are reached from these by silent ones alone."""
        found, seen, left = set(), set(), list(numbers)
        while left:
            number = left.pop()
            if number not in seen:
                seen.add(number)
                block = self.blocks[number]
                left += [to for to in (block.next, block.other) if to is not None] if block.word in SILENT else []
                found |= set() if block.word in SILENT else {number}
        return frozenset(found)

    def label(self, number):
        """What a block calls, without how it is written."""
        block = self.blocks[number]
        return block.word, tuple(tuple(sorted(a)) if isinstance(a, list) else a for a in block.arguments)

    def step(self, state, label):
        """The state behind a call, and whether a block of the state makes it."""
        follow = [self.blocks[number].next for number in state if self.label(number) == label]
        return self.closed(to for to in follow if to is not None), bool(follow)


def missing(one, other):
    """The shortest path of calls through one body that is none through the other, as the numbers of its blocks; None where there is none."""
    seen, left = set(), deque([(number, other.first, (number,)) for number in sorted(one.first)])
    while left:
        number, state, path = left.popleft()
        after, can = other.step(state, one.label(number))
        if not can:
            return path
        follow = one.blocks[number].next
        for to in sorted(one.closed([follow])) if follow is not None else []:
            if (to, after) not in seen:
                seen.add((to, after))
                left.append((to, after, path + (to,)))
    return None


def firsts(blocks):
    """The first block of each body, by its owner."""
    found = {}
    for number, block in enumerate(blocks):
        found.setdefault(block.owner, number)
    return found
