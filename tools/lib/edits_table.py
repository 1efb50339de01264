"""The edits that crates/NAME/edits have, and the table of docs/EDITS.md, which says when they were last tried."""
import glob
import os
import re
import subprocess
from collections import namedtuple

from lib.contracts import contracts_of
from lib.crates import ROOT
from lib.given import Wrong, contents

PAGE = os.path.join('docs', 'EDITS.md')

BEGIN, END = '<!-- written by tools/edits.py -->', '<!-- to here -->'

HEAD = ['| crate | tried at | edits | refused |', '|---|---|---|---|']

OF_TESTS = re.compile(r'/src/tests(?:\.rt|/)')

Row = namedtuple('Row', 'commit edits refused')


def edits_of(root, crate, folder='edits'):
    """The edits of a crate, by name."""
    return {os.path.basename(file): file for file in sorted(glob.glob(os.path.join(root, 'crates', crate, folder, '*.edit')))}


def crates_with_edits(root):
    return sorted({os.path.basename(os.path.dirname(folder)) for folder in glob.glob(os.path.join(root, 'crates', '*', 'edits'))})


def fault_of(edit, crate_folder):
    """Why an edit can't be applied, or None: each of its old texts stands once in a file of the crate."""
    path, old, texts, pairs = None, None, {}, 0
    for line in contents(edit).split('\n'):
        word, _, rest = line.partition(':')
        if word == 'file':
            path = rest.strip()
            file = os.path.join(crate_folder, path)
            if not os.path.isfile(file):
                return 'there is no %s' % path
            texts.setdefault(path, contents(file))
        elif word == 'old':
            old = rest[1:]
        elif word == 'new':
            if path is None or not old or texts[path].count(old) != 1:
                return 'a text stands %s times in %s' % (texts[path].count(old) if path and old else 'no', path)
            texts[path], old, pairs = texts[path].replace(old, rest[1:]), None, pairs + 1
    return None if pairs else 'it changes nothing'


def parts_of(page):
    """What stands before the table, the table's lines, and what stands behind it."""
    before, begin, rest = page.partition(BEGIN + '\n')
    table, end, after = rest.partition(END)
    if not begin or not end:
        raise Wrong('%s: the marks of the table are gone' % PAGE)
    return before + begin, table.splitlines(), end + after


def rows_of(page):
    """The rows of the table, by crate."""
    found = {}
    for line in parts_of(page)[1][len(HEAD):]:
        crate, commit, edits, refused = (cell.strip() for cell in line.strip('|').split('|'))
        found[crate] = Row(commit, int(edits), int(refused))
    return found


def page_with(page, rows):
    """The page with these rows in the place of its own."""
    before, _, after = parts_of(page)
    lines = HEAD + ['| %s | %s | %d | %d |' % (crate, *rows[crate]) for crate in sorted(rows)]
    return before + '\n'.join(lines) + '\n' + after


class History:
    """What git knows of a repository."""

    def __init__(self, root=ROOT):
        self.root = root

    def git(self, *words):
        """What git prints; None where it ends otherwise than well."""
        done = subprocess.run(['git', '-C', self.root, *words], stdin=subprocess.DEVNULL, capture_output=True, check=False)
        return done.stdout.decode('utf-8', 'surrogateescape') if done.returncode == 0 else None

    def commit(self):
        """The commit that stands here; None where a crate differs from it."""
        if self.git('status', '--porcelain', '--', 'crates', 'crates.txt'):
            return None
        return (self.git('rev-parse', '--short=8', 'HEAD') or '').strip() or None

    def before(self, commit, path):
        return self.git('show', '%s:%s' % (commit, path))

    def differing(self, commit, folder):
        """The files of a folder that differ from a commit, or that it doesn't have."""
        differing = self.git('diff', '--name-only', '--no-renames', commit, '--', folder)
        return sorted(set(differing.split() + (self.git('ls-files', '--others', '--exclude-standard', '--', folder) or '').split()))

    def reason(self, crate, commit):
        """What has changed of a crate since a commit, so that its edits have to be tried again; None where nothing has."""
        if commit is None or self.git('cat-file', '-e', commit + '^{commit}') is None:
            return 'not tried yet' if commit is None else 'no commit %s here' % commit
        folder = 'crates/' + crate
        for file in self.differing(commit, folder + '/specs'):
            return file
        for name, file in edits_of(self.root, crate).items():
            old = self.before(commit, '%s/edits/%s' % (folder, name)) or self.before(commit, '%s/must-fail/%s' % (folder, name))
            if old != contents(file):
                return '%s/edits/%s' % (folder, name)
        for file in self.differing(commit, folder + '/src'):
            here = os.path.join(self.root, file)
            now = contents(here) if os.path.exists(here) else ''
            if file.endswith('.rt') and not OF_TESTS.search(file) and contracts_of(self.before(commit, file) or '') != contracts_of(now):
                return file
        return None
