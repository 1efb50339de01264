"""Tests of house.py and prove.py, and of what a process of the gate is told to work on; `tools/run_tests.py` runs them too."""
import contextlib
import io
import os
import re
import tempfile
import unittest
import unittest.mock
from collections import Counter

import house
import prove
from lib import crates, lemmas, pages
from lib.given import Wrong, contents
from tests import TOOLS


class House(unittest.TestCase):
    def test_the_page_of_the_scripts_names_each(self):
        page = contents(os.path.join(TOOLS, 'README.md'))
        commands = {name for name in os.listdir(TOOLS) if name.endswith('.py')}
        modules = {name[:-3] for name in os.listdir(os.path.join(TOOLS, 'lib')) if name.endswith('.py') and not name.startswith('_')}
        self.assertEqual({name for name in commands | modules if '`%s`' % name not in page}, set())

    def test_the_house_is_counted(self):
        sizes = house.sizes_of('osek_values')
        self.assertTrue(sizes.code > 0 and sizes.definitions > 0 and sizes.files > 2 and sizes.functions > 9 and sizes.apart > 0)

    def test_what_a_process_of_the_gate_works_on(self):
        for words, folder, told in (
                ('rattle check --crate-name a src/lib.rt', '/x/crates/a', ('a', 'proofs')), ('rattle build --crate-name a --test', '/x/crates/a', ('a', 'tests')),
                ('rattle check --crate-name a src/lib.rt', '/tmp/rt-edit-7-x', ('a', 'edits')), ('rattle-test --seconds 60 /tmp/rt-run-7-x/bin/a_tests', '/tmp/y', ('a', 'tests')),
                ('/tmp/rt-run-7-x/bin/a', '/tmp/y', ('a', 'tests')), ('rattle-link out/a.o', '/x/crates/a', ('a', 'proofs')), ('sh -c read', '/x', None)):
            self.assertEqual(house.work_told(words.split(' '), folder), told and house.Work(*told))
        edit = 'rattle check --crate-name a src/lib.rt --incremental /tmp/rt-edits-1'.split(' ')
        self.assertEqual(house.work_told(edit, '/tmp/rt-edit-7-x'), house.Work('a', 'edits', '/tmp/rt-edits-1'))

    def test_the_first_check_over_a_folder_of_edits_is_their_seed(self):
        gate = house.Gate.__new__(house.Gate)
        gate.seeds = {}
        first, second, alone = house.Work('a', 'edits', 'x'), house.Work('b', 'edits', 'y'), house.Work('c', 'edits')
        told = [gate.kind(work, key) for key, work in enumerate((first, first, second, alone, first))]
        self.assertEqual(told, ['seeds', 'edits', 'seeds', 'edits', 'edits'])

    def test_lemmas_that_nothing_cites_and_statements_that_stand_twice(self):
        said = '(a b : Bool) → a ≡ b → b ≡ a → a ≡ true → b ≡ true → a ≡ b'
        first = 'pub kept : %s\nkept a b e =\n    turned a b e\n\nturned : A\nturned a b e =\n  sym e\n\npub alone : B\nalone = refl\n' % said
        second = 'use Rattle.a.proofs.One.{kept}\n\npub held :\n    %s\nheld = kept\n\nby_hint : C\nby_hint = refl\n' % said
        code = '#[tactic(auto, using(crate::proofs::Two::by_hint))]\n// alone is not cited here: proofs::alone\n'
        found = lemmas.Texts({'a/proofs/One.antt': first, 'b/proofs/Two.antt': second, 'b/src/lib.rt': code, 'b/proofs/x/Answers.antt': 'pub a : B\n'})
        self.assertEqual([lemma.name for lemma in found.proved()], ['kept', 'turned', 'alone', 'by_hint'])
        self.assertEqual([(lemma.name, lemma.line) for lemma in found.uncited()], [('alone', 9)])
        self.assertEqual(found.doubled(), {})
        again = lemmas.Texts({'a/proofs/One.antt': first, 'b/proofs/Two.antt': 'held : %s\nheld = refl\n' % said})
        self.assertEqual([[one.name for one in some] for some in again.doubled().values()], [['kept', 'held']])


class Proving(unittest.TestCase):
    def test_crates_from_which_the_longest_way_leads_up_go_first(self):
        order = prove.Order.__new__(prove.Order)
        order.below = {'base': set(), 'side': {'base'}, 'low': {'base'}, 'high': {'base', 'low'}}
        order.seconds = {'base': 5, 'side': 20, 'low': 10, 'high': 15}
        order.way = order.ways()
        self.assertEqual(order.way, {'base': 30, 'side': 20, 'low': 25, 'high': 15})
        self.assertEqual((order.next(['side', 'low'], {'base'}), order.next(['high'], {'base'})), ('low', None))
        self.assertEqual((order.whole(1), order.whole(2)), (50, 30))

    def test_how_far_it_is(self):
        progress = prove.Progress({'a': 30, 'b': 60, 'c': 110})
        self.assertEqual(progress.ended('b', 71.9, {'a', 'b'}), 'b: proved (71 s), 2 of 3, 45 % of the work')
        self.assertEqual(progress.silent('14:21', 1510, [('c', 130)], {'a', 'b'}),
                         '14:21, after 25 min: 2 of 3, 45 % of the work; at work: c (2 min, about 2 on a quiet machine)')
        self.assertEqual(prove.plan(40, 4, 1740, 0.3, 4), '40 crates, at most 4 at a time; about 30 minutes from nothing on a quiet machine')
        self.assertEqual(prove.plan(40, 4, 1740, 8, 4)[-41:], 'machine, and 88 beside what runs here now')

    def test_what_the_gate_told_is_put_into_the_page(self):
        minutes = {'low': Counter(proofs=2.0, seeds=0.5), 'high': Counter(proofs=1.0, tests=3.0, edits=0.25)}
        sizes = {name: house.Sizes(1000, 2, 3, 4, 5, 6, 7, 8) for name in minutes}
        with contextlib.redirect_stdout(io.StringIO()) as out:
            house.printed(house.table(sizes, minutes, True))
        text = out.getvalue() + '7.5 minutes of a processor, 0.8 of them of rt itself and of what ended unseen\n3.2 minutes in all, status %d; log\n'
        told = house.read_told(text % 0, 'f')
        self.assertEqual((sorted(told.minutes), told.unseen, told.whole, told.clock, told.status), (['high', 'low'], 0.8, 7.5, 3.2, 0))
        self.assertEqual(told.minutes['high'], Counter(proofs=1.0, tests=3.0, seeds=0, edits=0.2))
        page = house.told_in_page(told)
        self.assertIn('| proofs | 3.0 |\n| tests and programs | 3.0 |\n', page)
        self.assertTrue(page.endswith('By the clock it took 3 minutes. The dearest crates, with all of these parts:\n\n- `high`: 4.2\n- `low`: 2.5\n'))
        self.assertRaises(Wrong, house.told_in_page, house.read_told(text % 1, 'f'))
        self.assertRaises(Wrong, house.read_told, 'x', 'f')
        self.assertEqual(pages.with_table(contents(os.path.join(crates.ROOT, 'docs', 'PERFORMANCE.md')), 'gate', 'x\n').count('-->\nx\n<!--'), 1)

    def test_readme_says_how_long_the_first_hour_takes(self):
        here = crates.Crates(crates.ROOT)
        whole = prove.Order(here, here.libraries(['osekfit']) + ['osekfit']).whole(4) / 60
        told = re.search(r'some (\d+) minutes on four quiet processors', contents(os.path.join(crates.ROOT, 'README.md')))
        self.assertLess(abs(int(told.group(1)) - whole), 4)

    def proved_by(self, script, room):
        """What is told where this script stands for rt, and crates a, b above a, c, and a program p above all; and what the repository has then."""
        files = {'crates.txt': 'a:\nb: a\nc:\np: a b c\n', 'crates/p/src/main.rt': '', 'bin/rt': '#!/bin/sh\n' + script}
        files.update(('crates/%s/src/lib.rt' % name, '') for name in 'abc')
        for name, text in files.items():
            path = os.path.join(room, name)
            os.makedirs(os.path.dirname(path), exist_ok=True)
            with open(path, 'w', encoding='utf-8') as file:
                file.write(text)
        os.chmod(os.path.join(room, 'bin', 'rt'), 0o755)
        here, out, fault = crates.Crates(room), io.StringIO(), None
        with unittest.mock.patch.dict(os.environ, PATH=os.path.join(room, 'bin') + ':' + os.environ['PATH']), contextlib.redirect_stdout(out), \
                contextlib.redirect_stderr(io.StringIO()):
            try:
                prove.Prover(here, here.libraries(['p']) + ['p'], 2).all()
            except Wrong as wrong:
                fault = str(wrong)
        there = [name for name in 'abc' if os.path.exists(os.path.join(crates.made_by(room, name, crates.LIBRARY), 'stamp'))]
        return re.sub(r'\(\d+ s\)', '(0 s)', out.getvalue()).splitlines(), fault, there

    def test_crates_are_proved_side_by_side_and_the_program_last(self):
        lib = 'if [ $1 = lib ]; then sleep 0.2; mkdir -p out/rlib; echo $PWD > out/rlib/stamp; exit 0; fi\n'
        with tempfile.TemporaryDirectory() as room:
            lines, fault, there = self.proved_by(lib + 'echo "rt: running out/p"; exit 2\n', room)
            self.assertEqual((fault, there, len(lines)), (None, ['a', 'b', 'c'], 4))
            self.assertEqual(lines[-1], '  p: proved (0 s), 4 of 4, 100 % of the work')
            self.assertFalse(os.path.exists(os.path.join(room, 'out')))

    def test_what_was_proved_is_kept_where_one_crate_is_not(self):
        lib = 'case $PWD in */b) sleep 1; exit 1;; esac\nmkdir -p out/rlib; echo $PWD > out/rlib/stamp\n'
        with tempfile.TemporaryDirectory() as room:
            lines, fault, there = self.proved_by(lib, room)
            self.assertEqual((fault, there), ('b was not proved; above is what rt said', ['a', 'c']))

    def test_the_program_is_the_last_of_all(self):
        here = crates.Crates(crates.ROOT)
        order = prove.Order(here, here.libraries(['osekfit']) + ['osekfit'])
        left, done = list(order.below), set()
        while left:
            done.add(order.next(left, done))
            left = [name for name in left if name not in done]
            self.assertTrue('osekfit' not in done or not left)

    def test_a_copy_is_given_the_libraries_that_others_built(self):
        with tempfile.TemporaryDirectory() as room:
            copies = prove.Copies.__new__(prove.Copies)
            copies.built = {'new': os.path.join(room, 'there'), 'same': os.path.join(room, 'there'), 'own': os.path.join(room, 'here')}
            for copy, crate, text in (('there', 'new', 'a'), ('there', 'same', 'b'), ('here', 'new', 'old'), ('here', 'same', 'b'), ('here', 'own', 'c')):
                library = crates.made_by(os.path.join(room, copy), crate, crates.LIBRARY)
                os.makedirs(library)
                with open(os.path.join(library, 'stamp'), 'w', encoding='utf-8') as file:
                    file.write(text)
            copies.bring(['new', 'same', 'own'], os.path.join(room, 'here'))
            stamps = [crates.stamp(crates.made_by(os.path.join(room, 'here'), crate, crates.LIBRARY)) for crate in ('new', 'same', 'own', 'none')]
            self.assertEqual(stamps, ['a', 'b', 'c', None])

    def test_crates_are_read_with_all_that_they_stand_on(self):
        here = crates.Crates(crates.ROOT)
        self.assertTrue({'osek_values', 'commands'} <= set(here.libraries(['osekfit'])))
        self.assertEqual(here.libraries(['osek_values']), ['osek_values'])
        self.assertRaises(Wrong, here.libraries, ['nobody'])
