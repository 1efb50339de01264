"""Tests of package.sh, where dpkg-deb is, and of what editors read; `tools/run_tests.py` runs them too."""
import gzip
import json
import os
import re
import shutil
import subprocess
import sys
import tempfile
import unittest

from lib import lint_oil
from lib.application import SHAPES
from lib.flat_oil import KINDS
from lib.given import contents, data
from lib.states import STATUSES
from tests import EXAMPLES, TOOLS
from tests.test_front import model_as

PASSED = 'rt: ok\n3 passed, 0 failed\n'


@unittest.skipUnless(shutil.which('dpkg-deb'), 'there is no dpkg-deb here')
class Package(unittest.TestCase):
    """The program is the model here."""

    def setUp(self):
        folder = tempfile.TemporaryDirectory()
        self.addCleanup(folder.cleanup)
        self.folder = folder.name
        self.program = os.path.join(self.folder, 'osekfit')
        model_as(self.program)

    def made(self, log, name):
        """The status of package.sh over a gate's log, what it says, and the packages that it made in a folder of this name."""
        file, folder = os.path.join(self.folder, 'gate.log'), os.path.join(self.folder, name)
        with open(file, 'w', encoding='utf-8') as out:
            out.write(log)
        done = subprocess.run([os.path.join(TOOLS, 'package.sh'), self.program, file, folder], stdin=subprocess.DEVNULL, capture_output=True, text=True,
                              env=dict(os.environ, SOURCE_DATE_EPOCH='1700000000'), check=False)
        return done.returncode, done.stderr, [os.path.join(folder, one) for one in os.listdir(folder)] if os.path.isdir(folder) else []

    def test_a_package_has_all_of_it_with_its_sums(self):
        status, told, (package,) = self.made(PASSED, 'one')
        self.assertEqual((status, told), (0, ''))
        self.assertEqual(data(self.made(PASSED, 'two')[2][0]), data(package), 'the same inputs give the same bytes')
        tree = os.path.join(self.folder, 'tree')
        subprocess.run(['dpkg-deb', '-x', package, tree], check=True)
        share, doc = os.path.join(tree, 'usr', 'share', 'osekfit'), os.path.join(tree, 'usr', 'share', 'doc', 'osekfit')
        subprocess.run(['sha256sum', '--quiet', '-c', os.path.join(doc, 'SHA256SUMS')], cwd=tree, check=True)
        self.assertEqual(data(os.path.join(tree, 'usr', 'bin', 'osekfit')), data(self.program))
        self.assertEqual(contents(os.path.join(doc, 'gate.log')), PASSED)
        self.assertIn(b'.TH OSEKFIT 1', gzip.decompress(data(os.path.join(tree, 'usr', 'share', 'man', 'man1', 'osekfit.1.gz'))))
        self.assertEqual([name for name in ('tests', '__pycache__') if os.path.exists(os.path.join(share, 'tools', name))], [])
        self.works(os.path.join(share, 'tools', 'osekfit.py'), os.path.join(share, 'examples', 'lamp', 'lamp'))

    def works(self, front, name):
        """Runs what a package has, where it was unpacked."""
        def said(*words):
            return subprocess.run([sys.executable, '-B', front, *words], stdin=subprocess.DEVNULL, capture_output=True, text=True, check=True).stdout
        self.assertRegex(said('--version'), r'^version \d+\.\d+\.\d+, commit (?!unknown)')
        self.assertEqual(said('lint', name + '.oil', name + '.code'), '')
        self.assertEqual(said('--program', self.program, 'show', name + '.oil', name + '.code'), contents(name + '.show'))
        self.assertIn('look first', said('explain', '--help') + contents(os.path.join(os.path.dirname(front), '..', 'docs', 'LANGUAGE.md')))

    def test_a_gate_that_did_not_pass_makes_none(self):
        for log in ('3 passed, 1 failed\n', '', PASSED + 'more\n'):
            status, told, made = self.made(log, 'none')
            self.assertEqual((status, made), (2, []))
            self.assertIn('its last line is not that of a gate that passed', told)


class Grammar:
    """A grammar of an editor: each part of a text has the name of the first pattern that begins there."""

    def __init__(self, name):
        found = json.loads(contents(os.path.join(TOOLS, 'templates', 'vscode', name)))
        self.patterns = [(one['name'], re.compile(one.get('match', one.get('begin')), re.MULTILINE), one.get('end')) for one in found['patterns']]

    def parts(self, text):
        """The parts of a text that have a name: the name and the part."""
        place = 0
        while place < len(text):
            found = [(match.start(), number, match) for number, (_, pattern, _) in enumerate(self.patterns) for match in [pattern.search(text, place)] if match]
            if not found:
                return
            _, number, match = min(found, key=lambda one: one[:2])
            name, _, end = self.patterns[number]
            until = re.compile(end).search(text, match.end()).end() if end else match.end()
            yield name.rpartition('.')[0], text[match.start():until]
            place = max(until, place + 1)

    def names(self, text):
        return {part: name for name, part in self.parts(text)}


VENDORS = ('CC', 'STACKSIZE', 'TRIGGER')
"""Attributes of examples that osekfit passes over."""


class Editors(unittest.TestCase):
    def test_examples_have_nothing_that_is_marked(self):
        for ending, grammar in (('.oil', 'oil'), ('.code', 'code'), ('.events', 'events')):
            made = Grammar(grammar + '.tmLanguage.json')
            for name in os.listdir(EXAMPLES):
                text = contents(os.path.join(EXAMPLES, name, name + ending)).replace('\r', '')
                self.assertEqual([part for kind, part in made.parts(text) if kind.startswith('invalid') and part not in VENDORS], [], name)

    def test_the_words_of_the_language_are_known(self):
        oil, code = Grammar('oil.tmLanguage.json'), Grammar('code.tmLanguage.json')
        for kind in KINDS:
            self.assertEqual(oil.names('%s x {' % kind), {'%s x' % kind: 'meta.object'})
            for attribute in lint_oil.known_of(kind):
                self.assertEqual(oil.names(attribute + ' = '), {attribute: 'keyword.other'}, attribute)
        for service in SHAPES:
            self.assertEqual(code.names(service + '('), {service: 'support.function'}, service)
        for status in STATUSES:
            self.assertEqual(code.names(status), {status: 'constant.language'})

    def test_what_is_misspelt_is_marked(self):
        for grammar, text, part in (('oil', 'SCHEDUEL = NON;', 'SCHEDUEL'), ('code', 'ReadCan();', 'ReadCan'), ('events', 'run 2', 'run 2'),
                                    ('events', 'wait 5', 'wait 5')):
            names = Grammar(grammar + '.tmLanguage.json').names(text)
            self.assertTrue(names[part].startswith('invalid'), (text, names))

    def test_the_extension_names_files_that_are_there(self):
        folder = os.path.join(TOOLS, 'templates', 'vscode')
        said = json.loads(contents(os.path.join(folder, 'package.json')))['contributes']
        files = [one['path'] for one in said['grammars']] + [one['configuration'] for one in said['languages']]
        for file in files:
            json.loads(contents(os.path.join(folder, file)))
        self.assertEqual([one['scopeName'] for one in said['grammars']],
                         [json.loads(contents(os.path.join(folder, one['path'])))['scopeName'] for one in said['grammars']])
        task = json.loads(contents(os.path.join(folder, 'tasks.json')))['tasks'][0]['problemMatcher']
        self.assertEqual({key: said['problemMatchers'][0][key] for key in task}, task)


if __name__ == '__main__':
    unittest.main()
