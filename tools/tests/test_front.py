"""Tests of osekfit.py, the one command for the program and its scripts, and of lint.py's SARIF; `tools/run_tests.py` runs them too."""
import contextlib
import io
import json
import os
import re
import shutil
import subprocess
import sys
import tempfile
import unittest
import unittest.mock

import explain
import lint
import osekfit
from lib import json_lines, sarif
from lib.given import Wrong, contents
from lib.trace_reader import STATES
from tests import EXAMPLES, TOOLS
from tests.test_lint import SOUND_CODE, SOUND_OIL


class Front(unittest.TestCase):
    def test_words_of_the_program_and_of_scripts(self):
        self.assertEqual(osekfit.command(['show', 'a', 'b'], sys.executable), [sys.executable, 'show', 'a', 'b'])
        self.assertEqual(osekfit.command(['report-diff', 'a'], None), [sys.executable, os.path.join(TOOLS, 'report_diff.py'), 'a'])
        self.assertEqual(osekfit.command(['explain', 'build', 'a'], sys.executable), [sys.executable, os.path.join(TOOLS, 'explain.py'), sys.executable, 'build', 'a'])
        self.assertRaises(Wrong, osekfit.command, ['prove'], None)
        self.assertRaises(Wrong, osekfit.command, ['show'], '/nowhere/osekfit')

    def test_the_words_are_those_of_the_program(self):
        """The text that explains status 2 has the forms of all words."""
        self.assertEqual([word for word in osekfit.OWN if ' %s ' % word not in explain.STATUSES[2]], [])

    def test_each_script_is_told_in_a_phrase(self):
        for word in osekfit.scripts():
            self.assertLess(len(osekfit.summary(word)), 140, word)
            self.assertIn('  %s ' % word, osekfit.told())

    def test_each_word_of_the_program_is_told(self):
        self.assertEqual(sorted(osekfit.forms()), sorted(osekfit.OWN))
        self.assertIn('  watch OIL CODE RECORD\n', osekfit.told())
        with contextlib.redirect_stdout(io.StringIO()) as out:
            self.assertEqual(osekfit.front(['build', '--help']), 0)
        self.assertRegex(out.getvalue(), r'^osekfit build OIL CODE IMAGE\nstores the image ')

    def test_the_status_is_that_of_what_is_run(self):
        name = os.path.join(EXAMPLES, 'body', 'body')
        for words, status in ((['lint', name + '.oil', name + '.code'], 1), (['nope'], 2), ([], 2), (['--help'], 0), (['--version'], 0)):
            done = subprocess.run([sys.executable, os.path.join(TOOLS, 'osekfit.py'), *words], stdin=subprocess.DEVNULL, capture_output=True, check=False)
            self.assertEqual(done.returncode, status, (words, done.stderr))

    def test_the_version_has_the_sum_of_the_program(self):
        with tempfile.TemporaryDirectory() as folder:
            program = os.path.join(folder, 'osekfit')
            with open(program, 'wb') as file:
                file.write(b'abc')
            os.chmod(program, 0o755)
            lines = osekfit.version(program).splitlines()
        self.assertRegex(lines[0], r'^version \d+\.\d+\.\d+, commit ')
        self.assertEqual(lines[1:], ['program ' + program, 'SHA-256 ba7816bf8f01cfea414140de5dae2223b00361a396177a9cb410ff61f20015ad'])


    def test_bash_completes_words_and_options(self):
        script = 'source <(%s %s --completion bash); COMP_WORDS=(%s); COMP_CWORD=%d; _osekfit; echo ${COMPREPLY[*]}'
        for words, due in (('osekfit.py re', ['replay', 'report', 'record', 'report-diff', 'regress']), ('osekfit.py lint --w', ['--without']),
                           ('osekfit.py trace --', ['--json'])):
            typed = script % (sys.executable, os.path.join(TOOLS, 'osekfit.py'), words, words.count(' '))
            done = subprocess.run(['bash', '-c', typed], capture_output=True, text=True, check=True)
            self.assertEqual(done.stdout.split(), due, words)

    @unittest.skipUnless(shutil.which('zsh'), 'there is no zsh here')
    def test_zsh_reads_its_completion(self):
        """The function is called as zsh does it, where `compadd` prints what it is given."""
        script = 'compadd() { shift; print -l -- $@ }; _files() { print files }; words=(osekfit.py %s); CURRENT=%d; source /dev/stdin'
        for typed, due in (('re', 'report-diff'), ('lint --w', '--without'), ('lint a', 'files')):
            done = subprocess.run(['zsh', '-f', '-c', script % (typed, typed.count(' ') + 2)], input=osekfit.completed('zsh'), capture_output=True, text=True,
                                  check=True)
            self.assertIn(due, done.stdout.split(), typed)

    def test_options_are_those_that_scripts_take(self):
        for word in osekfit.scripts():
            said = subprocess.run([sys.executable, osekfit.file_of(word), '--help'], stdin=subprocess.DEVNULL, capture_output=True, text=True, check=True).stdout
            for option in osekfit.options_of(contents(osekfit.file_of(word))):
                self.assertTrue(option == '--help' or option in said, (word, option))

    def test_the_page_for_man(self):
        page = osekfit.man()
        for word in osekfit.OWN:
            self.assertIn('.B osekfit %s ' % word, page)
        for status in range(16):
            self.assertIn('\n.TP\n.B %d\n' % status, page)
        for sign in ('`', '**', ']('):
            self.assertNotIn(sign, page)

    @unittest.skipUnless(shutil.which('groff'), 'there is no groff here')
    def test_groff_takes_the_page_without_a_word(self):
        done = subprocess.run(['groff', '-man', '-Tutf8', '-ww'], input=osekfit.man(), capture_output=True, text=True, check=True)
        self.assertEqual(done.stderr, '')
        self.assertIn('EXIT STATUS', re.sub('.\x08', '', done.stdout))


def told_again(word, found):
    """The line that an object was made of."""
    kind = found['kind']
    if kind == 'site':
        form = found['form'] + (' %s' % (found['task'] or '-') if found['form'] == 'direct' else '')
        return 'site b%d line %d %s' % (found['block'], found['line'], form) + (' known ' + found['known'] if 'known' in found else '')
    if kind in ('counts', 'image'):
        return ' '.join('%s %d' % pair for pair in list(found.items())[1:])
    if kind in ('free', 'dead'):
        return '%s b%d' % (kind, found['block'])
    if kind == 'step':
        return step_again(found)
    words = {'unset': 'unset {task} {events}', 'edge': 'edge {from} {to}', 'quiet': 'quiet {points}', 'alarm': 'alarm {place} {point}', 'trap': 'trap {event}'}
    return words.get(kind, kind + ' {%s}' % json_lines.NAMED.get(kind, '')).format(**found)


def step_again(found):
    letters = {state: letter for letter, state in STATES.items()}
    tasks = ['%s=%s%s%s%s' % (name, letters[task['state']], '*%d' % task['further'] if task['further'] else '', ':' + task['events'] if task['events'] else '',
                              ''.join('+' + held for held in task['holds'])) for name, task in found['tasks'].items()]
    routines = [name + ''.join('+' + held for held in routine['holds']) for name, routine in found['routines'].items()]
    notes = ['!' + found['status']] if found['status'] else []
    notes += ['=' + found['value']] if found['value'] else []
    return ' '.join([str(found['event']), found['processor'], *tasks, *routines, *notes, *['^' + hook for hook in found['hooks']]])


class Json(unittest.TestCase):
    def test_each_line_of_the_examples_can_be_had_again(self):
        for name in os.listdir(EXAMPLES):
            for word in ('show', 'report', 'trace'):
                for line in contents(os.path.join(EXAMPLES, name, '%s.%s' % (name, word))).splitlines():
                    self.assertEqual(told_again(word, json.loads(json_lines.as_json(word, line))), line)

    def test_lines_that_no_example_has(self):
        for word, line in (('info', 'site b3 line 5 direct - known none'), ('info', 'version 1 blocks 5 sites 5 never 2 stay 0 direct 3 general 0'),
                           ('info', 'site b3 line 5 general'), ('show', 'site b3 line 5 direct T1'), ('report', 'unset T1 2'), ('report', 'unarmed A'),
                           ('replay', 'trap 7'), ('replay', '7 @I T=Y*2:1f+R+S @J+R @I+S !E_OK =S ^Error ^PostTask'), ('watch', 'quiet 8'),
                           ('watch', 'alarm 3 b20/-')):
            self.assertEqual(told_again(word, json.loads(json_lines.as_json(word, line))), line)
        self.assertRaises(Wrong, json_lines.as_json, 'show', 'dead b3')

    def test_a_word_with_its_status(self):
        """The program is the model here."""
        name = os.path.join(EXAMPLES, 'lamp', 'lamp')
        with tempfile.TemporaryDirectory() as folder:
            program, record = os.path.join(folder, 'osekfit'), os.path.join(folder, 'short.record')
            model_as(program)
            with open(record, 'w', encoding='utf-8') as file:
                file.write('b0\nb5\n')
            for words, status, due in ((['watch', '--json', name + '.oil', name + '.code', record], 15, '{"kind":"alarm","place":1,"point":"b5"}\n'),
                                       (['check', '--json', name + '.oil', name + '.code'], 2, '')):
                done = subprocess.run([sys.executable, os.path.join(TOOLS, 'osekfit.py'), '--program', program, *words], stdin=subprocess.DEVNULL,
                                      capture_output=True, text=True, check=False)
                self.assertEqual((done.returncode, done.stdout), (status, due), done.stderr)


def model_as(program):
    """Makes a program of this name, which is the model."""
    with open(program, 'w', encoding='utf-8') as file:
        file.write('#!/bin/sh\nexec %s %s "$@"\n' % (sys.executable, os.path.join(TOOLS, 'model.py')))
    os.chmod(program, 0o755)


class Templates(unittest.TestCase):
    def test_a_build_server_makes_and_checks_what_it_publishes(self):
        """The program is the model here."""
        name = os.path.join(EXAMPLES, 'first')
        with tempfile.TemporaryDirectory() as folder:
            program = os.path.join(folder, 'osekfit')
            model_as(program)
            script = os.path.join(TOOLS, 'templates', 'build_server.sh')
            environment = dict(os.environ, OSEKFIT=program)
            runs = [subprocess.run([script, name, *last], cwd=folder, env=environment, stdin=subprocess.DEVNULL, capture_output=True, text=True, check=False)
                    for last in ([], ['out/app.text'], ['nowhere'])]
            self.assertEqual([done.returncode for done in runs], [0, 0, 2], runs)
            self.assertEqual(sorted(os.listdir(os.path.join(folder, 'out'))),
                             ['app.image', 'app.sums', 'app.table', 'app.text', 'junit.xml', 'lint.sarif'])
            self.assertIn('yes', runs[0].stdout)

    @unittest.skipUnless(shutil.which('clang'), 'there is no clang here')
    def test_a_build_server_compares_c_files_with_the_task_code(self):
        """Of the last folder the task code lacks a call that the C code has."""
        with tempfile.TemporaryDirectory() as folder:
            program, source = os.path.join(folder, 'osekfit'), os.path.join(TOOLS, 'tests', 'c')
            model_as(program)
            shutil.copytree(os.path.join(source, 'include'), os.path.join(folder, 'app', 'include'))
            for name in ('sensor.oil', 'sensor.code', 'sensor.c', 'log.c'):
                shutil.copy(os.path.join(source, name), os.path.join(folder, 'app'))
            with open(os.path.join(folder, 'app', 'sensor.events'), 'w', encoding='utf-8') as file:
                file.write('run 0\n')
            subprocess.run([sys.executable, os.path.join(TOOLS, 'regress.py'), '--write', '--program', program, os.path.join(folder, 'app')],
                           stdin=subprocess.DEVNULL, stdout=subprocess.DEVNULL, check=True)
            words, more = [os.path.join(TOOLS, 'templates', 'build_server.sh'), 'app'], {'cwd': folder, 'env': dict(os.environ, OSEKFIT=program)}
            done = subprocess.run(words, stdin=subprocess.DEVNULL, capture_output=True, text=True, check=False, **more)
            self.assertEqual(done.returncode, 0, done.stderr)
            code = os.path.join(folder, 'app', 'sensor.code')
            text = contents(code)
            with open(code, 'w', encoding='utf-8') as file:
                file.write(text.replace('ActivateTask(Log);', 'work 1;'))
            done = subprocess.run(words, stdin=subprocess.DEVNULL, capture_output=True, text=True, check=False, **more)
        self.assertEqual(done.returncode, 1, done.stderr)
        self.assertIn('app/sensor.code: TASK(Sensor) lacks the path ', done.stdout)

    def test_lines_of_lint_are_matched_by_editors(self):
        with open(os.path.join(TOOLS, 'templates', 'vscode', 'tasks.json'), encoding='utf-8') as file:
            pattern = json.load(file)['tasks'][0]['problemMatcher']['pattern']
        for line in ('a.oil:3: warning: no task takes the resource S [unused]', 'dir/a.code:9: error: C9: `work` is outside 1 to 65,535'):
            match = re.match(pattern['regexp'], line)
            self.assertEqual((match.group(1).rpartition('/')[2][:2], match.group(3) in ('warning', 'error')), ('a.', True))


class Sarif(unittest.TestCase):
    def found(self, oil_text, code):
        """The status, and the results as rows."""
        with tempfile.TemporaryDirectory() as folder:
            names = [os.path.join(folder, name) for name in ('a.oil', 'a.code')]
            for name, text in zip(names, (oil_text, code)):
                with open(name, 'w', encoding='utf-8') as file:
                    file.write(text)
            with unittest.mock.patch('sys.argv', ['lint.py', '--sarif', *names]), contextlib.redirect_stdout(io.StringIO()) as out:
                status = lint.main()
        log = json.loads(out.getvalue())
        self.assertEqual((log['version'], len(log['runs'])), ('2.1.0', 1))
        places = [(one, one['locations'][0]['physicalLocation']) for one in log['runs'][0]['results']]
        return status, [(os.path.basename(at['artifactLocation']['uri']), at['region']['startLine'], one['level'], one['ruleId']) for one, at in places]

    def test_findings_have_their_place_and_rule(self):
        without_group = SOUND_OIL.replace(' RESOURCE = G;', '').replace('RESOURCE G { RESOURCEPROPERTY = INTERNAL; };', '')
        self.assertEqual(self.found(without_group, SOUND_CODE), (0, []))
        self.assertEqual(self.found(without_group.replace('RESOURCE R;', 'RESOURCE R; RESOURCE S;'), SOUND_CODE), (1, [('a.oil', 3, 'warning', 'unused')]))
        self.assertEqual(self.found(SOUND_OIL.replace('PRIORITY = 2;', 'PRIORITY = 2; ACTIVATION = 2;'), SOUND_CODE), (2, [('a.oil', 4, 'error', 'O9')]))
        self.assertEqual(self.found(SOUND_OIL, SOUND_CODE.replace('work 1;', 'int x;')), (2, [('a.code', 9, 'error', 'grammar')]))

    def test_refusals_have_their_place_and_rule(self):
        for lines, due in ((['a.code:4: error: C4: not declared', '    here: T1'], ('a.code', 4, 'not declared\nhere: T1', 'C4')),
                           (['a.table: error: N2 at b3/T1: from a state', '    look first: ..'], ('a.table', 1, 'at b3/T1: from a state\nlook first: ..', 'N2')),
                           (['a.image: error: K5 at byte 75 (0x4b): bytes stand after the end'],
                            ('a.image', 1, 'at byte 75 (0x4b): bytes stand after the end', 'K5')),
                           (['a.oil: read', '    status 5: a read failed'], (None, 0, 'a.oil: read\nstatus 5: a read failed', 'status 5'))):
            self.assertEqual(sarif.refusals(lines, 5), [due])
        self.assertEqual(sarif.refusals([], 0), [])

    def test_explain_writes_a_log(self):
        name = os.path.join(EXAMPLES, 'lamp', 'lamp')
        with tempfile.TemporaryDirectory() as folder:
            program, log = os.path.join(folder, 'osekfit'), os.path.join(folder, 'a.sarif')
            with open(program, 'w', encoding='utf-8') as file:
                file.write('#!/bin/sh\necho "$3:4: C4" >&2\nexit 1\n')
            os.chmod(program, 0o755)
            done = subprocess.run([sys.executable, os.path.join(TOOLS, 'osekfit.py'), '--program', program, 'explain', '--sarif', log, 'show', name + '.oil',
                                   name + '.code'], stdin=subprocess.DEVNULL, capture_output=True, text=True, check=False)
            found = json.loads(contents(log))['runs'][0]
        self.assertEqual((done.returncode, found['tool']['driver']['name'], [one['ruleId'] for one in found['results']]), (1, 'osekfit', ['C4']))
        self.assertIn('lamp.code:4: error: C4', done.stderr)
