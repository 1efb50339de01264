"""The tokens of the OIL files of a project, for flatten.py: each with its file and line, `#include` joined. What a C preprocessor leaves of its own
(`# 12 "file"`) says where the lines behind it come from."""
import os
import re
from collections import namedtuple

from lib.given import Wrong, contents

Token = namedtuple('Token', 'text file line')

TOKEN = re.compile(r'(?P<space>\s+|/\*.*?\*/|//[^\n]*)|(?P<directive>\#[^\n]*)|'
                   r'(?P<token>"(?:[^"\\]|\\.)*"|[A-Za-z_]\w*|[+-]?(?:0[xX][0-9a-fA-F]+|\d+(?:\.\d+)?(?:[eE][+-]?\d+)?)|.)', re.DOTALL | re.ASCII)

INCLUDE = re.compile(r'#\s*include\s*(?:"([^"]*)"|<([^>]*)>)')

MARKER = re.compile(r'#\s*(?:line\s+)?(\d+)\s+"([^"]*)".*')

MOST_DEEP = 32
"""How deep files may include others."""


class Files:
    """The files of a project, read as they include each other."""

    def __init__(self, folders):
        self.folders, self.included = folders, []

    def tokens(self, name, depth=0):
        """The tokens of a file, and of those that it includes."""
        text = contents(name)
        text = text[1:] if text.startswith('\ufeff') else text
        found, file, line = [], name or 'standard input', 1
        for match in TOKEN.finditer(text):
            if match.lastgroup == 'token':
                found.append(Token(match.group(), file, line))
            line += match.group().count('\n')
            marker = MARKER.fullmatch(match.group().strip()) if match.lastgroup == 'directive' else None
            if marker:
                file, line = marker.group(2), int(marker.group(1)) - 1
            elif match.lastgroup == 'directive':
                found += self.directive(match.group(), (file, line), depth)
        return found

    def directive(self, text, place, depth):
        match = INCLUDE.match(text)
        if not match:
            raise Wrong('%s:%d: %s: a preprocessor does that first: cpp -P big.oil | tools/flatten.py' % (*place, text.split()[0]))
        if depth == MOST_DEEP:
            raise Wrong('%s:%d: files include each other without an end' % place)
        name = self.found(match.group(1) or match.group(2), place)
        self.included.append(name)
        return self.tokens(name, depth + 1)

    def found(self, name, place):
        """The path of an included file: beside the file that includes it, or in one of the folders."""
        for folder in [os.path.dirname(place[0])] + self.folders:
            path = os.path.join(folder, name)
            if os.path.isfile(path):
                return path
        raise Wrong('%s:%d: %s is in none of the folders; -I FOLDER names more' % (*place, name))
