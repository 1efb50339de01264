"""The tokens of OIL and of task code, each with the line of its first byte. The texts are taken to be without fault: what osekfit
refuses isn't judged here, and only what can't be read at all is told."""
import re

from lib.given import Wrong

TOKEN = re.compile(r'(?P<space>\s+|/\*.*?\*/|//[^\n]*)|(?P<token>"[^"\n]*"|[A-Za-z_]\w*|0[xX][0-9a-fA-F]+|\d+|.)', re.DOTALL | re.ASCII)

NAME = re.compile(r'[A-Za-z_]\w*', re.ASCII)


def tokens_of(text):
    """The tokens of a text, each with its line."""
    found, line = [], 1
    for match in TOKEN.finditer(text):
        if match.lastgroup == 'token':
            found.append((match.group(), line))
        line += match.group().count('\n')
    return found


def is_name(word):
    return NAME.fullmatch(word) is not None


def number_of(word):
    """The number that a token is, or None."""
    if word[:2] in ('0x', '0X'):
        return int(word, 16)
    return int(word) if word.isascii() and word.isdigit() else None


HINT = ' (osekfit says which rule is violated)'


class Cursor:
    """A place among the tokens of a text."""

    def __init__(self, text, name):
        self.tokens, self.place, self.name = tokens_of(text), 0, name

    def is_done(self):
        return self.place == len(self.tokens)

    def ahead(self):
        """The token that is ahead, or '' at the end."""
        return '' if self.is_done() else self.tokens[self.place][0]

    def line(self):
        """The line of the token that is ahead, or of the last one."""
        return self.tokens[min(self.place, len(self.tokens) - 1)][1] if self.tokens else 1

    def take(self):
        if self.is_done():
            self.stop('the text ends too early')
        self.place += 1
        return self.tokens[self.place - 1][0]

    def want(self, *words):
        """Takes the next token, which has to be one of these words."""
        if self.ahead() not in words:
            self.stop('%s is wanted, not %s' % (' or '.join(words), self.ahead() or 'the end'))
        return self.take()

    def take_name(self):
        if not is_name(self.ahead()):
            self.stop('a name is wanted, not %s' % (self.ahead() or 'the end'))
        return self.take()

    def took(self, word):
        """Whether this word was ahead, which then is taken."""
        found = self.ahead() == word
        self.place += found
        return found

    def stop(self, what, line=None):
        raise Wrong('%s:%d: %s%s' % (self.name, line or self.line(), what, HINT))
