"""Rows: what a text of rows says, and whether a program does it over files of a folder. docs/ROWS.md says what a row is."""
import os
import shlex

from lib.crates import ROOT
from lib.given import Wrong

DATA = os.path.join(ROOT, 'crates', 'rows', 'data')
SIGNS = '|:=<*'


class Fault(Exception):
    """What isn't so, and the line that says it is."""

    def __init__(self, line, what):
        super().__init__(what)
        self.line = line


class Files:
    """The files of a folder."""

    def __init__(self, folder):
        self.folder = folder

    def get(self, name):
        try:
            with open(os.path.join(self.folder, name), 'rb') as file:
                return file.read()
        except OSError:
            return None

    def put(self, name, data):
        with open(os.path.join(self.folder, name), 'wb') as file:
            file.write(data)


# ---- texts of rows


class Entry:
    """A line with a word at its head, and the bytes of the text behind it; none where there are no lines of a text."""

    def __init__(self, line, text):
        self.line = line
        self.word, _, self.rest = text.partition(' ')
        self.text = None

    def wrong(self):
        return Wrong('line %d is not understood' % self.line)

    def bytes(self):
        return self.text or b''

    def words(self, count):
        """So many words behind the first."""
        words = self.rest.split(' ')
        if len(words) != count:
            raise self.wrong()
        return words

    def plain(self):
        """The same entry, behind which no text may stand."""
        if self.text is not None:
            raise self.wrong()
        return self


def piece(line):
    """The bytes of a line of a text."""
    sign, rest = line[0], line[1:]
    if sign == '*':
        count, _, rest = rest.partition(' ')
        return int(count) * piece(rest)
    if sign == '=':
        return bytes.fromhex(rest)
    if sign == '<':
        with open(os.path.join(DATA, rest), 'rb') as file:
            return file.read()
    return rest.encode() + (b'\n' if sign == '|' else b'')


def entries_of(path):
    entries = []
    with open(path, encoding='utf-8', newline='\n') as file:
        for number, line in enumerate(file.read().split('\n'), 1):
            if not line or line[0] == '#':
                continue
            if line[0] not in SIGNS:
                entries.append(Entry(number, line))
            elif entries:
                entries[-1].text = entries[-1].bytes() + piece(line)
            else:
                raise Entry(number, line).wrong()
    return entries


class Row:
    def __init__(self, path, entry):
        self.path, self.name, self.acts = path, entry.plain().rest, []


def rows_of(path):
    """The rows of a file."""
    rows = []
    for entry in entries_of(path):
        if entry.word == 'row':
            rows.append(Row(path, entry))
        elif not rows:
            raise entry.wrong()
        elif entry.word in ACTS:
            rows[-1].acts.append(ACTS[entry.word](entry))
        elif rows[-1].acts and isinstance(rows[-1].acts[-1], Run):
            rows[-1].acts[-1].want(entry)
        else:
            raise entry.wrong()
    return rows


# ---- what is done


class File:
    def __init__(self, entry):
        self.entry = entry

    def carry_out(self, files, program):
        files.put(self.entry.rest, self.entry.bytes())


class Change:
    def __init__(self, entry):
        self.entry = entry
        words = entry.rest.split(' ')
        if len(words) < 3 or words[1] != 'from':
            raise entry.wrong()
        self.to, self.source, self.numbers = words[0], words[2], [int(word) for word in words[3:]]
        if len(self.numbers) != {'cut': 1, 'set': 1, 'add': 0, 'remove': 2}[entry.word]:
            raise entry.wrong()

    def changed(self, data, more):
        if self.entry.word == 'cut':
            return data[:self.numbers[0]]
        if self.entry.word == 'add':
            return data + more
        place = self.numbers[0]
        behind = place + (len(more) if self.entry.word == 'set' else self.numbers[1])
        return data[:place] + more + data[behind:]

    def carry_out(self, files, program):
        data = files.get(self.source)
        if data is None:
            raise Fault(self.entry.line, 'no file %s' % self.source)
        files.put(self.to, self.changed(data, self.entry.bytes()))


class Seen:
    """What a run left."""

    def __init__(self, status, out, err, files):
        self.status, self.out, self.err, self.files = status, out, err, files
        self.lines = out.decode('utf-8', 'replace').split('\n')

    def site(self, point):
        """The form of a call site, without what is known of its status."""
        for line in self.lines:
            words = line.split(' known ')[0].split(' ')
            if words[0] == 'site' and words[1] == point:
                return ' '.join(words[4:])
        return None


class Run:
    """A run, and what is wanted of it."""

    def __init__(self, entry):
        self.entry = entry.plain()
        self.words = shlex.split(entry.rest) if '"' in entry.rest else entry.rest.split(' ')
        self.status, self.facts, self.fails = 0, [], False

    def want(self, entry):
        if entry.word == 'status':
            self.status = int(entry.plain().rest)
        elif entry.word in ('fail', 'move'):
            self.fails = True
        elif entry.word in FACTS:
            self.facts.append(entry)
        else:
            raise entry.wrong()

    def says(self, what):
        return any(what in (entry.word, entry.rest) or what == 'out' and entry.word in OF_OUT for entry in self.facts)

    def judge(self, seen):
        if seen.status != self.status:
            raise Fault(self.entry.line, 'the status is %d, and %r is told' % (seen.status, seen.err[-200:]))
        for entry in self.facts:
            found = FACTS[entry.word](entry, seen)
            if found is not None:
                raise Fault(entry.line, 'it is %s' % shortened(found))
        if seen.out and not self.says('out') and not self.says('of out'):
            raise Fault(self.entry.line, '%s is printed' % shortened(seen.out))
        if seen.err and not self.says('err') and not self.says('of err'):
            raise Fault(self.entry.line, '%s is told' % shortened(seen.err))

    def carry_out(self, files, program):
        if self.fails:
            program.left_out += 1
        else:
            self.judge(Seen(*program(self.words, files.folder), files))


class Play(Run):
    """The runs of an application by each command."""

    def carry_out(self, files, program):
        mode, line = self.entry.rest, self.entry.line

        def done(words, out=b''):
            seen = Seen(*program(words, files.folder), files)
            if (seen.status, seen.err) != (0, b'') or out is not None and seen.out != out:
                raise Fault(line, '%s: status %d, %s, %s' % (words[0], seen.status, shortened(seen.out), shortened(seen.err)))
            return seen

        done(['build', 'a.oil', 'a.c', 'a.img'])
        traced = done(['trace', 'a.oil', 'a.c', mode, 'e'], None)
        self.judge(traced)
        self.judge(done(['replay', 'a.img', mode, 'e'], None))
        done(['certify', 'a.oil', 'a.c', 'b.img', 'a.tab'])
        done(['check', 'b.img', 'a.tab'], b'yes\n')
        if files.get('a.img') != files.get('b.img'):
            raise Fault(line, 'certify stores another image than build')
        record = done(['record', 'a.img', mode, 'e'], None).out
        files.put('a.record', record)
        if record.count(b'\n') != traced.out.count(b'\n'):
            raise Fault(line, 'the record has %d points' % record.count(b'\n'))
        done(['watch', 'a.oil', 'a.c', 'a.record'], b'quiet %d\n' % record.count(b'\n'))


ACTS = {'file': File, 'cut': Change, 'set': Change, 'add': Change, 'remove': Change, 'run': Run, 'play': Play}


def shortened(data):
    text = repr(data)
    return text if len(text) < 300 else text[:300] + '..'


# ---- what is wanted: each answers what is found where it isn't so


def same(wanted, found):
    return None if wanted == found else (b'no file' if found is None else found)


def begun(whole, found):
    return None if found is not None and whole.startswith(found) else (b'no file' if found is None else found)


def part(entry, seen):
    if entry.rest == 'of out':
        return begun(entry.bytes(), seen.out)
    if entry.rest == 'of err':
        return begun(entry.bytes(), seen.err)
    if not entry.rest.startswith('of file '):
        raise entry.wrong()
    return begun(entry.bytes(), seen.files.get(entry.rest[len('of file '):]))


def numbered_line(entry, seen):
    number, _, line = entry.plain().rest.partition(' ')
    found = seen.lines[int(number)] if int(number) < len(seen.lines) else ''
    return same(line, found)


def site(entry, seen):
    point, _, form = entry.plain().rest.partition(' ')
    return same(form, seen.site(point) or 'no site')


def no_site(entry, seen):
    word, point = entry.plain().words(2)
    if word != 'site':
        raise entry.wrong()
    return seen.site(point)


def keep(entry, seen):
    if not entry.plain().rest.startswith('out as '):
        raise entry.wrong()
    seen.files.put(entry.rest[len('out as '):], seen.out)


def size(entry, seen):
    name, count = entry.plain().words(2)
    data = seen.files.get(name)
    return same(int(count), None if data is None else len(data))


def bytes_at(entry, seen):
    name, place = entry.words(2)
    data = seen.files.get(name)
    return same(entry.bytes(), None if data is None else data[int(place):][:len(entry.bytes())])


FACTS = {
    'out': lambda entry, seen: same(entry.bytes(), seen.out),
    'err': lambda entry, seen: same(entry.bytes(), seen.err),
    'part': part,
    'begins': lambda entry, seen: None if seen.out.startswith(entry.bytes()) else seen.out,
    'ends': lambda entry, seen: None if seen.out.endswith(entry.bytes()) else seen.out,
    'line': numbered_line,
    'has': lambda entry, seen: None if entry.plain().rest in seen.lines else seen.out,
    'count': lambda entry, seen: same(int(entry.plain().rest), seen.out.count(b'\n')),
    'site': site,
    'no': no_site,
    'keep': keep,
    'holds': lambda entry, seen: same(entry.bytes(), seen.files.get(entry.rest)),
    'at': bytes_at,
    'size': size,
    'missing': lambda entry, seen: seen.files.get(entry.plain().rest),
}

OF_OUT = ('out', 'begins', 'ends', 'line', 'has', 'count', 'site', 'no')
