"""What is stated in the definitions and proofs of all crates: which lemmas nothing cites, and which statements stand twice.

A lemma is taken to be cited where its name stands beyond its own head, in its file or in one that imports the name or the file. So where names
repeat some that nothing cites aren't found. Statements inside a `module` with parameters aren't compared, since the parameters are part of them."""
import os
import re
from collections import namedtuple

from lib.given import contents

STATED = re.compile(r"^( *)(?:(?:abbrev|unfoldable|pub) +)*([A-Za-z_][\w'-]*) : (.*)$")

WORD = re.compile(r"[A-Za-z_][\w'-]*")

USE = re.compile(r'^ *(?:pub )?(?:ghost )?use ')

BY_CONVENTION = ('Answers.antt', 'Invariants.antt', 'Lib.antt')
"""Files whose names the checker looks up by itself."""

SHORTEST = 40
"""How many letters a statement has at least that is compared."""

Stated = namedtuple('Stated', 'path line name text blanks')


def statements_of(path, text):
    """What a file states: each name with what stands behind its colon, up to its equation."""
    lines = text.splitlines()
    for number, line in enumerate(lines):
        match = STATED.match(line)
        if match:
            blanks, name, said = match.groups()
            for more in lines[number + 1:]:
                if not more.strip() or len(more) - len(more.lstrip()) <= len(blanks):
                    break
                said += ' ' + more
            yield Stated(path, number + 1, name, ' '.join(said.split()), len(blanks))


def words_by_place(text):
    """The names that a text imports, or cites by their path, and how often each word stands outside of imports, comments apart."""
    imported, used = set(), {}
    for line in text.splitlines():
        code = re.split(r' *(?:--|//)', line)[0]
        words = WORD.findall(code)
        is_import = USE.match(line)
        if is_import or 'proofs::' in code:
            imported.update(words)
        if not is_import:
            for word in words:
                used[word] = used.get(word, 0) + 1
    return imported, used


def heads_of(text, lemma):
    """How often the name of a lemma begins its statement and its equations, which have the same blanks before them."""
    begin = r"^ {%d}(?:(?:abbrev|unfoldable|pub) +)*%s(?![\w'-]).*(?: :| =)" % (lemma.blanks, re.escape(lemma.name))
    return len(re.findall(begin, text, re.MULTILINE))


class Texts:
    """The texts of some crates, by path: definitions, proofs and code."""

    def __init__(self, texts):
        self.texts, self.words = texts, {path: words_by_place(text) for path, text in texts.items()}
        self.users = {}
        for path, (_, used) in self.words.items():
            for word in used:
                self.users.setdefault(word, []).append(path)

    def proved(self):
        """What files of proofs state, those apart whose names the checker looks up."""
        for path, text in self.texts.items():
            if '/proofs/' in path and os.path.basename(path) not in BY_CONVENTION:
                yield from statements_of(path, text)

    def is_cited(self, lemma):
        if self.words[lemma.path][1][lemma.name] > heads_of(self.texts[lemma.path], lemma):
            return True
        module = os.path.splitext(os.path.basename(lemma.path))[0]
        others = (path for path in self.users[lemma.name] if path != lemma.path)
        return any(self.words[path][0] & {lemma.name, module} for path in others)

    def uncited(self):
        return [lemma for lemma in self.proved() if not self.is_cited(lemma)]

    def doubled(self):
        """The statements that stand more than once, each with the places where it stands."""
        places = {}
        for path, text in self.texts.items():
            if path.endswith('.antt') and os.path.basename(path) not in BY_CONVENTION:
                for one in statements_of(path, text):
                    if not one.blanks and len(one.text) >= SHORTEST and ('→' in one.text or '≡' in one.text):
                        places.setdefault(one.text, []).append(one)
        return {text: some for text, some in places.items() if len({one.path for one in some}) > 1}


def texts_below(folder):
    """The texts of the crates in a folder."""
    found = {}
    for at, folders, names in os.walk(folder):
        folders[:] = [name for name in folders if name != 'out']
        for name in names:
            if name.endswith(('.antt', '.rt')):
                path = os.path.join(at, name)
                found[os.path.relpath(path, folder)] = contents(path)
    return Texts(found)
