#!/usr/bin/env python3
"""Counts the definitions that the contract of the top call reaches, and compares them with docs/DEFINITIONS.md.

From the names in the contract of `osekfit` (commands/src/top.rt) it follows names to their definitions, by the imports of each file, and on to
the names in these; and types of src/ to the conditions that they keep. A definition counts with the comments above it, without imports
and blank lines. It says where the page and the tree differ, and then the status is 1.

    tools/reached.py
    tools/reached.py --list            each file with its lines, as the page's tables have them
    tools/reached.py --write           puts the numbers right; rows that the page lacks, or has too many, are still told
"""
import os
import re
import sys
from collections import namedtuple

from lib.crates import ROOT
from lib.given import Parser, Wrong, contents, run

CRATES = os.path.join(ROOT, 'crates')

PAGE = os.path.join('docs', 'DEFINITIONS.md')

TOP = ('commands', 'top')

IMPORT = re.compile(r'^ *(pub )?(?:ghost )?use Rattle\.(\w+)\.specs((?:\.\w+)*)(?:\.\{(.*)\}| as (\w+))?;?$', re.MULTILINE)

DEFINED = re.compile(r'^ *(?:(?:abbrev|unfoldable|pub|mutual|instance) +)*(?:(?:record|data) +)?(?:pub +)?([A-Za-z]\w*|◌\S+)(?= *[:({]| *$)')

BEGINS = re.compile(r'^ *(?:(?:abbrev|unfoldable|instance)\b|(?:pub +)?(?:record|data) +[A-Z])')

TYPE = re.compile(r'^pub (?:struct|enum|type|const) (\w+)')

WORD = re.compile(r'(?:[A-Za-z_]\w*\.)*[A-Za-z_]\w*')

Place = namedtuple('Place', 'crate file name')
"""A definition: in specs/, or, where the file has src/ before it, a type."""


def split_outside(text):
    """The parts between commas that stand in no braces."""
    parts, depth, part = [], 0, ''
    for letter in text:
        depth += (letter in '{(') - (letter in '})')
        if letter == ',' and depth == 0:
            parts.append(part)
            part = ''
        else:
            part += letter
    return [p.strip() for p in parts + [part] if p.strip()]


class Scope:
    """The names that a file sees by its imports: places of definitions, and modules under another name."""

    def __init__(self, text):
        self.names, self.modules, self.given = {}, {}, {}
        for public, crate, path, names, alias in IMPORT.findall(text):
            path = path.lstrip('.')
            if crate == 'std':
                continue
            for name, target in self.targets(crate, path, names):
                self.names[name] = target
                if public:
                    self.given[name] = target
            if alias:
                self.modules[alias] = (crate, path)

    def targets(self, crate, path, names):
        for part in split_outside(names or ''):
            head, brace, inner = part.partition('.{')
            if brace:
                yield from self.targets(crate, (path + '.' + head).lstrip('.'), inner[:-1])
            else:
                name, _, alias = head.partition(' as ')
                yield (alias or name).split('.')[-1], place(crate, path, name)


def place(crate, path, name):
    """The place that a name of a path says: of a declared path that of its type."""
    parts = path.split('.')
    if parts[0] != 'declared':
        return Place(crate, parts[0], name)
    types = [part for part in parts[1:] + [name] if part[:1].isupper() and part != 'TheVariants']
    return Place(crate, 'src/' + '/'.join(p for p in parts[1:] if not p[:1].isupper()), types[0] if types else name)


class Tree:
    """The definitions of all crates, as they are asked for."""

    def __init__(self):
        self.files, self.passed = {}, set()

    def file(self, crate, file):
        """The definitions of a file by name, and the names that it sees; None where there is no such file."""
        if (crate, file) not in self.files:
            ending = '.rt' if file.startswith('src/') else '.antt'
            path = os.path.join(CRATES, crate, file if ending == '.rt' else os.path.join('specs', file)) + ending
            text = contents(path) if os.path.exists(path) else None
            self.files[crate, file] = None if text is None else (types_of(text) if ending == '.rt' else definitions_of(text), Scope(text))
        return self.files[crate, file]

    def names_in(self, at):
        """The places that the definition at a place names."""
        definitions, scope = self.file(at.crate, at.file)
        text = uncommented(definitions[at.name])
        for name, target in [(n, at._replace(name=n)) for n in definitions] + list(scope.names.items()):
            if name.startswith('◌') and name.strip('◌') in text:
                yield target
        for word in WORD.findall(text):
            head, _, rest = word.partition('.')
            if rest and head in scope.modules:
                yield place(*scope.modules[head], rest.split('.')[0])
            elif head in scope.names:
                yield scope.names[head]
            elif head in definitions:
                yield at._replace(name=head)

    def found(self, at):
        """The place where a name is defined, through files that give it on; None where it is nowhere."""
        for _ in range(9):
            file = self.file(at.crate, at.file)
            if file is None:
                return None
            if at.name in file[0]:
                return at
            if at.name not in file[1].given:
                return None
            self.passed.add((at.crate, at.file))
            at = file[1].given[at.name]
        return None


def uncommented(text):
    return '\n'.join(re.split(r' *(?:--|//)', line)[0] for line in text.splitlines())


def definitions_of(text):
    """The definitions of a file of specs/: each paragraph by the names that are defined in it, and by its constructors."""
    found = {}
    for paragraph in re.split(r'\n[ \t]*\n', IMPORT.sub('', text)):
        lines = paragraph.splitlines()
        names = [DEFINED.match(line).group(1) for line in lines if BEGINS.match(line) and DEFINED.match(line)]
        if names and any(re.match(r' *(?:pub +)?data ', line) for line in lines):
            names += [m.group(1) for m in (re.match(r' +(?:pub +)?(\w+) *:', line) for line in lines) if m]
        for name in names:
            found[name] = found.get(name, '') + paragraph.strip('\n') + '\n' if found.get(name) != paragraph.strip('\n') + '\n' else found[name]
    return found


def types_of(text):
    """The types of a file of src/ with what they keep: from the line of each to its last brace, and the comments above."""
    found, lines = {}, text.splitlines()
    for number, line in enumerate(lines):
        match = TYPE.match(line)
        if match:
            begin, end = number, number
            while begin and (lines[begin - 1].startswith(('///', '//', '#['))):
                begin -= 1
            while end + 1 < len(lines) and not (lines[end].startswith('}') or lines[end].rstrip().endswith(';')):
                end += 1
            found[match.group(1)] = '\n'.join(lines[begin:end + 1]) + '\n'
    return found


def roots(tree):
    """The places that the contract of the top call names."""
    path = os.path.join(CRATES, TOP[0], 'src', TOP[1] + '.rt')
    text = contents(path)
    contract = re.search(r'^pub fn osekfit.*?^\{', text, re.MULTILINE | re.DOTALL)
    if not contract:
        raise Wrong('%s: no contract of osekfit' % path)
    scope = Scope(text)
    words = {word.split('.')[0] for word in WORD.findall(uncommented(contract.group()))}
    return [scope.names[word] for word in sorted(words) if word in scope.names]


def reached(tree):
    """All places that are reached from the top call."""
    seen, waiting = set(), roots(tree)
    while waiting:
        at = tree.found(waiting.pop())
        if at is not None and at not in seen:
            seen.add(at)
            waiting.extend(tree.names_in(at))
    return seen


def lines_of(tree, seen):
    """For each file the lines of its definitions that are reached, each paragraph once; none for a file that gives names on."""
    counts = dict.fromkeys(tree.passed, 0)
    for crate, file in {(at.crate, at.file) for at in seen}:
        texts = {tree.file(crate, file)[0][at.name] for at in seen if (at.crate, at.file) == (crate, file)}
        counts[crate, file] = sum(1 for text in texts for line in text.splitlines() if line.strip())
    return counts


def totals():
    """How many files of specs/ there are, and how many lines they have without imports and blank lines."""
    files = lines = 0
    for crate in sorted(os.listdir(CRATES)):
        folder = os.path.join(CRATES, crate, 'specs')
        for name in sorted(os.listdir(folder)) if os.path.isdir(folder) else []:
            if name != 'Lib.antt' and name.endswith('.antt'):
                files += 1
                lines += sum(1 for line in IMPORT.sub('', contents(os.path.join(folder, name))).splitlines() if line.strip())
    return files, lines


SAID = re.compile(r'In all (\d+) of (\d+) files and ([\d,]+) of ([\d,]+) lines of `specs/` are reached, and (\d+) types of src/, ([\d,]+) lines')

HEADING = re.compile(r'^### (.*?): (\d+) files, ([\d,]+) lines$', re.MULTILINE)

ROW = re.compile(r'^\| `(\w+)/(\w+)`(?:, [^|]*)? \| (\d+) \|', re.MULTILINE)


def differences(counts, sums):
    """Where the page says otherwise than the tree."""
    text = contents(os.path.join(ROOT, PAGE))
    match = SAID.search(' '.join(text.split()))
    said = tuple(int(n.replace(',', '')) for n in match.groups()) if match else None
    if said != sums:
        yield '%s: the totals are %s, and the page has %s' % (PAGE, sums, said)
    rows = {(crate, file): int(lines) for crate, file, lines in ROW.findall(text)}
    for key, lines in sorted(counts.items()):
        if key not in rows:
            yield '%s: %s/%s is reached (%d lines), and the page lacks it' % ((PAGE,) + key + (lines,))
        elif rows[key] != lines:
            yield '%s: %s/%s has %d lines that are reached, and the page says %d' % ((PAGE,) + key + (lines, rows[key]))
    for title, files, lines, body in parts_of(text):
        sums = [int(found[2]) for found in ROW.findall(body)]
        if (len(sums), sum(sums)) != (files, lines):
            yield '%s: %s: %d files and %d lines stand below a heading of %d and %d' % (PAGE, title, len(sums), sum(sums), files, lines)
    for key in sorted(set(rows) - set(counts)):
        yield '%s: %s/%s is not reached, and the page has it' % ((PAGE,) + key)


def mended(text, counts, sums):
    """The page with the numbers of the tree: those of rows, of headings, and the totals."""
    def row(match):
        lines = counts.get((match.group(1), match.group(2)))
        return match.group() if lines is None else re.sub(r'\| \d+ \|$', '| %d |' % lines, match.group())
    text = ROW.sub(row, text)
    for title, _, _, body in list(parts_of(text)):
        found = [int(one[2]) for one in ROW.findall(body)]
        text = re.sub(r'^### %s: \d+ files, [\d,]+ lines$' % re.escape(title), '### %s: %d files, %d lines' % (title, len(found), sum(found)),
                      text, flags=re.MULTILINE)
    said = 'In all %d of %d files and %s of %s lines of `specs/` are reached, and %d types of src/, %s lines' % (
        sums[0], sums[1], format(sums[2], ','), format(sums[3], ','), sums[4], format(sums[5], ','))
    return re.sub(SAID.pattern.replace(' ', r'\s+'), said, text)


def parts_of(text):
    """The parts of the page whose heading counts: the heading's words and numbers, and what stands below."""
    found = list(HEADING.finditer(text))
    for match in found:
        end = text.find('\n### ', match.end())
        yield match.group(1), int(match.group(2)), int(match.group(3).replace(',', '')), text[match.end():end if end >= 0 else len(text)]


def arguments():
    parser = Parser(__doc__)
    parser.add_argument('--list', action='store_true', help='each file of specs/ with its lines')
    parser.add_argument('--write', action='store_true', help='puts the numbers of the page right')
    return parser.parse_args()


def main():
    words, tree = arguments(), Tree()
    counts = lines_of(tree, reached(tree))
    specs = {key: lines for key, lines in counts.items() if not key[1].startswith('src/')}
    types = {at for at in reached(tree) if at.file.startswith('src/')}
    sums = (len(specs), totals()[0], sum(specs.values()), totals()[1], len(types), sum(counts.values()) - sum(specs.values()))
    sys.stdout.write('%d of %d files and %d of %d lines of specs/, and %d types of src/, %d lines\n' % sums)
    if words.list:
        for (crate, file), lines in sorted(specs.items()):
            sys.stdout.write('%s/%s %d\n' % (crate, file, lines))
    if words.write:
        page = os.path.join(ROOT, PAGE)
        text = mended(contents(page), specs, sums)
        with open(page, 'w', encoding='utf-8', newline='') as file:
            file.write(text)
    found = list(differences(specs, sums))
    for text in found:
        sys.stdout.write(text + '\n')
    return 1 if found else 0


if __name__ == '__main__':
    run(main)
