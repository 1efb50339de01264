"""An OIL text of a project as osekfit reads it, for flatten.py: what its language has is carried, and of what is dropped it is told what that
changes."""
from collections import Counter, namedtuple

from lib.given import Wrong
from lib.lint_oil import REFERENCES, WITHIN, known_of, nearest
from lib.oil_tokens import Token
from lib.tokens import is_name, number_of

Part = namedtuple('Part', 'name value token parts')
"""An attribute: its name, its value's token, the token of its name, and the attributes between its braces."""

Thing = namedtuple('Thing', 'kind name token parts')
"""An object: its kind, its name, the token of its kind, and its attributes."""

Note = namedtuple('Note', 'file line text is_open')
"""What is told of something that was dropped. It is open where runs of the application may differ by it."""

KINDS = ['OS', 'APPMODE', 'COUNTER', 'EVENT', 'RESOURCE', 'TASK', 'ISR', 'ALARM']
"""The kinds that are carried, in the order in which they are written."""

MANY = ('RESOURCE', 'EVENT', 'APPMODE')
"""The attributes that may stand several times."""

DROPPED = {
    'SCHEDULETABLE': 'what its expiry points activate and set does not come: write an alarm or an interrupt for each',
    'MESSAGE': 'its notification does not come: what it activates or sets is left to an interrupt or a task',
    'COM': 'there is no communication',
    'NM': 'there is no network management',
    'SPINLOCK': 'there is one core',
    'APPLICATION': 'there is one application: no protection, and no restart of a part',
    'OSAPPLICATION': 'there is one application: no protection, and no restart of a part',
    'OsIoc': 'there is no communication between applications',
    'OsPeripheralArea': 'there is no memory protection',
}
"""What it changes that objects of a kind are dropped."""

OPEN_KINDS = {'SCHEDULETABLE', 'MESSAGE'}
"""The kinds without which tasks may be activated, or events set, less often."""

PROTECTION = {'TIMING_PROTECTION': 'no budget runs out, and no task is ended for it'}
"""Attributes that change runs elsewhere."""


NO_DEFAULTS = {'AUTO', 'NO_DEFAULT'}
"""Words in a default's place that are none."""


class Reader:
    """Reads the objects of tokens, and what IMPLEMENTATION parts say of attributes that objects don't have."""

    def __init__(self, tokens):
        self.tokens, self.place, self.defaults = tokens, 0, {}

    def ahead(self):
        return self.tokens[self.place].text if self.place < len(self.tokens) else ''

    def take(self):
        if self.place == len(self.tokens):
            self.stop('the text ends too early')
        self.place += 1
        return self.tokens[self.place - 1]

    def stop(self, what):
        at = self.tokens[min(self.place, len(self.tokens) - 1)] if self.tokens else Token('', 'the text', 1)
        raise Wrong('%s:%d: %s' % (at.file, at.line, what))

    def want(self, text):
        if self.ahead() != text:
            self.stop('%s is wanted, not %s' % (text, self.ahead() or 'the end'))
        return self.take()

    def objects(self):
        """The objects of all CPU parts, and the name of the first one."""
        found, name = [], None
        while self.place < len(self.tokens):
            word = self.take()
            if word.text == 'OIL_VERSION':
                self.want('=')
                self.take()
            elif word.text == 'IMPLEMENTATION':
                self.take()
                self.implementation()
            elif word.text == 'CPU':
                name = name or self.take()
                self.place += self.ahead() != '{'
                found += self.cpu()
            else:
                self.place -= 1
                self.stop('OIL_VERSION, IMPLEMENTATION or CPU is wanted, not %s' % word.text)
            self.end()
        return [self.with_defaults(thing) for thing in joined(found)], name

    def implementation(self):
        """Keeps the defaults of the attributes that it defines, by kinds."""
        self.want('{')
        while self.ahead() != '}':
            kind = self.take().text
            self.want('{')
            while self.ahead() != '}':
                self.definition(kind)
            self.take()
            self.end()
        self.take()

    def definition(self, kind):
        """An attribute's definition: its type, its range and its name, and perhaps `=` and its default."""
        words, depth = [], 0
        while depth or self.ahead() != ';':
            word = self.take()
            depth += (word.text in '[{') - (word.text in ']}')
            words += [word] if depth == 0 and word.text not in ']}' else []
        self.take()
        for name, sign, value in zip(words, words[1:], words[2:]):
            if sign.text == '=' and (name.text == 'MASK' or value.text not in NO_DEFAULTS):
                self.defaults[(kind, name.text)] = Part(name.text, value, name, [])

    def with_defaults(self, thing):
        """An object with the defaults of the attributes that osekfit's language has and that it doesn't say."""
        there = {part.name for part in thing.parts}
        more = [self.defaults[(thing.kind, name)] for name in sorted(known_of(thing.kind)) if name not in there and (thing.kind, name) in self.defaults]
        return thing._replace(parts=thing.parts + more)

    def end(self):
        if self.ahead() == ':':
            self.take()
            self.take()
        if self.ahead() == ';':
            self.take()
        elif self.place < len(self.tokens):
            self.stop('; is wanted, not %s' % self.ahead())

    def cpu(self):
        found = []
        self.want('{')
        while self.ahead() != '}':
            kind, name = self.take(), self.take()
            if not is_name(kind.text) or not is_name(name.text):
                self.place -= 2
                self.stop('an object is wanted: its kind and its name')
            found.append(Thing(kind.text, name.text, kind, self.braces()))
            self.end()
        self.take()
        return found

    def braces(self):
        found = []
        if self.ahead() == '{':
            self.take()
            while self.ahead() != '}':
                name = self.take()
                self.want('=')
                value = self.take()
                found.append(Part(name.text, value, name, self.braces()))
                self.end()
            self.take()
        return found


def joined(things):
    """The objects in order, those of the same kind and name as one, as files that add to each other declare them."""
    found = {}
    for thing in things:
        key = thing.kind, thing.name
        found[key] = found[key]._replace(parts=found[key].parts + thing.parts) if key in found else thing
    return list(found.values())


class Carrier:
    """Carries objects over, and notes what it drops."""

    def __init__(self):
        self.notes, self.passed, self.linked = [], Counter(), set()

    def note(self, token, text, is_open=False):
        self.notes.append(Note(token.file, token.line, text, is_open))

    def carried(self, things):
        """The objects that the language has, with the attributes that it has."""
        found = [self.thing(thing) for thing in things if self.is_carried(thing)]
        return sorted(self.without_linked(thing for thing in found if thing), key=lambda thing: KINDS.index(thing.kind))

    def is_carried(self, thing):
        if thing.kind in KINDS:
            return True
        what = DROPPED.get(thing.kind, 'osekfit has no such kind' + nearest(thing.kind, KINDS))
        self.note(thing.token, '%s %s is dropped: %s' % (thing.kind, thing.name, what), thing.kind in OPEN_KINDS)
        return False

    def thing(self, thing):
        """An object with what is carried of it; None where it can't be there without what is dropped."""
        if thing.kind == 'ALARM':
            action = next((part for part in thing.parts if part.name == 'ACTION'), None)
            if action and action.value.text not in ('ACTIVATETASK', 'SETEVENT'):
                self.note(action.token, 'ALARM %s is dropped: its action %s is not there; calls that name it have to go' % (thing.name, action.value.text), True)
                return None
        if thing.kind == 'RESOURCE' and any(part.value.text == 'LINKED' for part in thing.parts):
            self.linked.add(thing.name)
            self.note(thing.token, 'RESOURCE %s is dropped: it is LINKED; take the resource itself in its place' % thing.name, True)
            return None
        return thing._replace(parts=self.parts(thing, thing.parts, known_of(thing.kind), ()))

    def parts(self, thing, parts, known, path):
        """The attributes that are carried, each single one once."""
        found = []
        for part in parts:
            if part.name in PROTECTION:
                self.note(part.token, '%s of %s %s is dropped: %s' % (part.name, thing.kind, thing.name, PROTECTION[part.name]), True)
            elif part.name not in known:
                self.passed[(thing.kind, '.'.join(path + (part.name,)), nearest(part.name, known))] += 1
            elif part.name in MANY or part.name not in [other.name for other in found]:
                found += self.part(thing, part, path)
            elif part.value.text != next(other.value.text for other in found if other.name == part.name):
                self.note(part.token, '%s of %s %s stands a second time, and the first one counts' % (part.name, thing.kind, thing.name), True)
        return found

    def part(self, thing, part, path):
        text = part.value.text
        if text[:1] == '"' and part.name in REFERENCES and is_name(text[1:-1]):
            part = part._replace(value=part.value._replace(text=text[1:-1]))
        elif not is_name(text) and number_of(text.lstrip('+-')) is None:
            why = 'a text is no value here' if text[:1] == '"' else 'numbers are whole here'
            self.note(part.token, '%s = %s of %s %s is dropped: %s' % (part.name, text, thing.kind, thing.name, why), True)
            return []
        within = WITHIN.get((thing.kind, part.name, part.value.text), set())
        return [part._replace(parts=self.parts(thing, part.parts, within, path + (part.name,)))]

    def without_linked(self, things):
        """The objects without the attributes that name a LINKED resource."""
        return [thing._replace(parts=[part for part in thing.parts if not self.is_linked(thing, part)]) for thing in things]

    def is_linked(self, thing, part):
        found = part.name == 'RESOURCE' and part.value.text in self.linked
        if found:
            self.note(part.token, 'RESOURCE = %s of %s %s goes with the resource' % (part.value.text, thing.kind, thing.name), True)
        return found

    def summary(self):
        """A line for each attribute that is passed over."""
        for (kind, name, near), count in sorted(self.passed.items()):
            yield '%s.%s has no effect, and is left out (%d)%s' % (kind, name, count, near)


MARK = '  // from %s:%d'
"""What stands behind a line and says where it comes from; explain.py reads it."""


def written(name, things):
    """The lines of the text, each with where it comes from."""
    yield 'CPU %s {' % name
    for thing in things:
        yield from written_thing(thing)
    yield '};'


def written_thing(thing):
    mark = MARK % (thing.token.file, thing.token.line)
    if not thing.parts:
        yield '  %s %s;%s' % (thing.kind, thing.name, mark)
        return
    yield '  %s %s {%s' % (thing.kind, thing.name, mark)
    for part in thing.parts:
        yield from written_part(part, '    ')
    yield '  };'


def written_part(part, indent):
    mark = MARK % (part.token.file, part.token.line)
    if not part.parts:
        yield '%s%s = %s;%s' % (indent, part.name, part.value.text, mark)
        return
    yield '%s%s = %s {%s' % (indent, part.name, part.value.text, mark)
    for inner in part.parts:
        yield from written_part(inner, indent + '  ')
    yield indent + '};'
