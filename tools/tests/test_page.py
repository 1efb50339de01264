"""Tests of page.py: what it tells of runs, and the page in a browser, where there is one. The lines of the traces are those of the examples, which
osekfit printed; why tasks and routines wait is what the documents say of these runs."""
import json
import os
import subprocess
import sys
import tempfile
import unittest

from lib.application import application_of
from lib.given import contents
from lib.model_trace import events_of, play
from lib.oil import DEFAULT_MODE
from lib.reasons import Reasons
from lib.run_columns import Run
from tests import EXAMPLES, TOOLS
from lib.browser import Browser, path

NAMES = ['body', 'engine', 'first', 'gateway', 'inverter', 'lamp']

REASONS = [
    ('engine', 4, 'Injection', ''),
    ('engine', 5, 'Injection', '@Tooth has the processor; behind the last routine: IdleControl holds EngineData, whose ceiling keeps it out'),
    ('engine', 8, 'Injection', 'IdleControl holds EngineData, whose ceiling keeps it out'),
    ('engine', 9, 'IdleControl', 'Injection goes before it: priority 10 is above 5'),
    ('engine', 16, '@Tooth', 'requested: interrupts are locked at line 15'),
    ('engine', 17, '@Tooth', 'requested: its routine begins with the next run'),
    ('engine', 39, 'Diagnosis', 'interrupted by @Tooth'),
    ('engine', 42, 'Injection', 'Diagnosis is SCHEDULE = NON, and is left only where it calls Schedule, waits or ends'),
    ('gateway', 9, 'Route', 'Log is inside the group Buffers, which keeps it out'),
    ('gateway', 24, 'Status', 'Route goes before it: of their priority 2 it came first'),
    ('gateway', 27, 'Route', 'Status goes before it: of their priority 2 it came first'),
    ('inverter', 6, '@Current', 'requested: its priority 2 is below the level 3: @Encoder holds Duty'),
    ('inverter', 7, '@Overload', 'requested: its routine begins with the next run'),
    ('inverter', 13, '@Current', 'requested: its routine begins with the next run'),
    ('inverter', 14, '@Encoder', 'waits below @Current'),
    ('inverter', 24, '@Encoder', 'requested: its priority 1 is below the level 3: Control holds Duty'),
    ('inverter', 22, '@Overload', ''),
    ('lamp', 2, 'Lamp', 'waits for Pressed'),
]

WHO = [
    ('engine', 8, 'it goes on: Injection of priority 10 is ready, but IdleControl holds EngineData, whose ceiling keeps it out'),
    ('engine', 9, 'of the ready tasks it has the highest priority, 10'),
    ('engine', 49, 'no task is ready'),
    ('gateway', 24, 'of the ready tasks of priority 2 its activation is the first'),
    ('inverter', 8, 'a routine goes before every task, and its priority 3 is above that of @Encoder; it interrupted Display'),
]

STATES = {'R': 'runs', 'Y': 'ready', 'W': 'waits', 'S': 'suspended'}

SAID = '''JSON.stringify({number: document.getElementById('number').value, line: document.querySelector('#pane-event .trace code').textContent,
  states: [...document.querySelectorAll('.name.task')].map(row => [row.children[0].textContent, row.children[2].textContent])})'''
"""What the page says of the chosen event."""


PIECES = '''(() => {
  %s
  const { box } = timeline;
  let pieces = 0;
  timeline.box = function (...place) { pieces++; box.apply(this, place); };
  timeline.draw();
  timeline.box = box;
  return pieces;
})()'''
"""How many pieces are drawn behind some statement."""


def texts_of(name):
    return [os.path.join(EXAMPLES, name, name + ending) for ending in ('.oil', '.code', '.events')]


def run_of(name):
    """The columns of an example's run, and its states."""
    oil, code, events = texts_of(name)
    app = application_of(contents(oil), contents(code))
    kept, before, states = Run(app, name + '.code'), None, []
    for step, words, _ in play(app, DEFAULT_MODE, events_of(contents(events))):
        kept.take(before, step, words)
        before = step.state
        states.append(before)
    return kept, states


def page_of(file, *words):
    """Writes a page to a file."""
    with open(file, 'w') as out:
        subprocess.run([sys.executable, os.path.join(TOOLS, 'page.py'), *words], check=True, stdout=out)
    return file


class Told(unittest.TestCase):
    def test_columns_have_the_trace(self):
        for name in NAMES:
            with self.subTest(name):
                self.assertEqual(list(run_of(name)[0].lines()), contents(os.path.join(EXAMPLES, name, name + '.trace')).splitlines())

    def test_reasons(self):
        for name, event, whose, due in REASONS:
            with self.subTest('%s %d %s' % (name, event, whose)):
                kept, states = run_of(name)
                reasons, app = Reasons(kept.app), kept.app
                if whose[0] == '@':
                    number = [source.mark + source.name for source in app.sources].index(whose)
                    self.assertEqual(reasons.source(states[event], number), due)
                else:
                    self.assertEqual(reasons.task(states[event], app.task_number[whose]), due)

    def test_who_has_the_processor(self):
        for name, event, due in WHO:
            with self.subTest('%s %d' % (name, event)):
                kept, states = run_of(name)
                self.assertEqual(Reasons(kept.app).processor(states[event]), due)

    def test_since(self):
        kept, _ = run_of('engine')
        since = {task.name: list(row['since'].each(kept.count)) for task, row in zip(kept.app.tasks, kept.tasks)}
        self.assertEqual([since['Injection'][k] for k in (4, 5, 9, 13)], ['the start', 'activated at 5', 'dispatched at 9', 'ended at 13'])
        self.assertEqual(since['IdleControl'][9], 'preempted by Injection at 9')

    def test_no_network(self):
        with tempfile.TemporaryDirectory() as folder:
            page = contents(page_of(os.path.join(folder, 'lamp.html'), *texts_of('lamp')))
        for word in ('src=', 'href=', 'http:', 'https:', '@import', 'url('):
            self.assertNotIn(word, page)

    def test_another_trace(self):
        done = subprocess.run([sys.executable, os.path.join(TOOLS, 'page.py'), '--trace', os.path.join(EXAMPLES, 'lamp', 'lamp.trace'), *texts_of('engine')],
                              stdout=subprocess.DEVNULL, stderr=subprocess.PIPE)
        self.assertEqual(done.returncode, 2)
        self.assertIn(b'lamp.trace:1: the trace is not that of these texts', done.stderr)


@unittest.skipUnless(path(), 'there is no browser')
class Page(unittest.TestCase):
    """The page in a browser. Each test opens a page of its own in one browser."""

    @classmethod
    def setUpClass(cls):
        cls.folder, cls.browser = tempfile.TemporaryDirectory(), Browser()

    @classmethod
    def tearDownClass(cls):
        cls.browser.__exit__()
        cls.folder.cleanup()

    def open(self, *words):
        self.browser.open(page_of(os.path.join(self.folder.name, 'page.html'), *words))

    def long_events(self):
        """A text of 20,000 events of the engine controller."""
        events = os.path.join(self.folder.name, 'long.events')
        with open(events, 'w') as out:
            out.write('run 1\nrun 1\nirq Tooth\nrun 0\nrun 0\nrun 0\nrun 1\nrun 0\nrun 0\nrun 1\n' * 2000)
        return events

    def compare(self, lines):
        """Steps through a run by the keyboard, and compares what is shown with the lines of the trace."""
        for number, line in enumerate(lines):
            said, words = json.loads(self.browser.run(SAID)), line.split(' ')
            tasks = {word.split('=')[0]: word.split('=')[1][0] for word in words[2:] if word[0] not in '@%!^='}
            due = {name: 'interrupted' if letter == 'R' and words[1] != name else STATES[letter] for name, letter in tasks.items()}
            self.assertEqual((said['number'], said['line'], dict(said['states'])), (str(number), line, due))
            self.browser.press('ArrowRight')
        self.assertEqual(json.loads(self.browser.run(SAID))['line'], lines[-1])

    def test_the_examples_line_by_line(self):
        for name in NAMES:
            with self.subTest(name):
                self.open(*texts_of(name))
                self.compare(contents(os.path.join(EXAMPLES, name, name + '.trace')).splitlines())

    def test_sixteen_tasks_line_by_line(self):
        made = os.path.join(self.folder.name, 'made')
        subprocess.run([sys.executable, os.path.join(os.path.dirname(TOOLS), 'bench', 'make_app.py'), '--tasks', '16', '--seed', '3', '--events', '200', made],
                       check=True, stdout=subprocess.DEVNULL)
        texts = [os.path.join(made, 'app' + ending) for ending in ('.oil', '.code', '.events')]
        trace = subprocess.run([sys.executable, os.path.join(TOOLS, 'model.py'), 'trace', texts[0], texts[1], DEFAULT_MODE, texts[2]], check=True,
                               stdout=subprocess.PIPE).stdout.decode()
        self.open('--most', '0', *texts)
        self.compare(trace.splitlines())

    def test_steps(self):
        self.open(*texts_of('engine'))
        for key, modifiers, due in [('ArrowRight', 0, 1), ('ArrowRight', 8, 11), ('ArrowLeft', 0, 10), ('End', 0, 49), ('Home', 0, 0), ('n', 0, 9),
                                    ('n', 0, 13), ('p', 0, 9)]:
            self.browser.press(key, modifiers)
            self.assertEqual(self.browser.run('chosen'), due, key)

    def test_searches(self):
        self.open(*texts_of('body'))
        self.browser.press('/')
        self.browser.type('E_OS_NOFUNC')
        self.browser.press('Enter')
        self.assertEqual((self.browser.run('chosen'), self.browser.text('#hits')), (36, '1 of 1'))
        self.browser.run('document.activeElement.value = "Nobody"')
        self.browser.press('Enter')
        self.assertEqual((self.browser.run('chosen'), self.browser.text('#hits')), (36, 'not found'))

    def test_a_search_for_a_point(self):
        self.open(*texts_of('engine'))
        self.browser.press('/')
        self.browser.type('b19/IdleControl')
        self.browser.press('Enter')
        self.assertEqual(self.browser.run('chosen'), 4)
        self.assertEqual(self.browser.text('code.point'), 'b19/IdleControl')

    def test_zooms(self):
        self.open(*texts_of('engine'))
        for key in '++++':
            self.browser.press(key)
        self.browser.press('End')
        x, width = self.browser.run('[timeline.x(49), timeline.width]')
        self.assertTrue(0 <= x < width)
        self.browser.press('0')
        self.assertLessEqual(self.browser.run('timeline.zoom * run.count'), self.browser.run('timeline.width') + 1)
        place = self.browser.run('(box => [box.left + timeline.x(20.5), box.top + 40])(document.getElementById("canvas").getBoundingClientRect())')
        self.browser.click(*place)
        self.assertEqual(self.browser.run('chosen'), 20)

    def test_what_is_known_of_a_statement(self):
        """GetResource at event 2 is free by the report; ReleaseResource at event 9 is a general site that notes E_OK."""
        self.open(*texts_of('engine'))
        for event, due in ((2, 'free: nobody holds it here in any run'), (9, '? general, known E_OK'), (3, '')):
            self.browser.run('go(%d)' % event)
            self.assertEqual(self.browser.run('[...document.querySelectorAll("#pane-event .what .pill")].map(one => one.textContent).join()'), due)

    def test_panes(self):
        self.open(*texts_of('engine'))
        self.browser.press('2')
        self.assertEqual(self.browser.run('document.querySelectorAll("#pane-sites tbody tr").length'), 11)
        self.browser.press('4')
        report = contents(os.path.join(EXAMPLES, 'engine', 'engine.report')).split('\n')[:-1]
        self.assertEqual(self.browser.run('[...document.querySelectorAll("#pane-findings code")].map(one => one.textContent)'), report)
        self.browser.press('5')
        self.assertIn('31 of 99 edges taken', self.browser.text('#pane-graph'))
        self.browser.press('3')
        self.assertIn('IdleControl\truns', self.browser.text('#pane-table'))

    def test_the_matrix_is_that_of_the_summary(self):
        self.open(*texts_of('engine'))
        self.browser.press('5')
        rows = self.browser.run('[...document.querySelectorAll("#pane-graph .wide tbody tr")].map(row => row.innerText.replace(/[0-9]+\\//g, "").replace(/✓ /g, ""))')
        cells = {row.split('\t')[0].strip(): [cell.strip() for cell in row.split('\t')[1:]] for row in rows}
        self.assertEqual(cells['Injection'], ['·', '4', '2', '1'])
        self.assertEqual(cells['Crank'], ['1', '·', '1', '·'])

    def test_a_record_with_an_alarm(self):
        record = os.path.join(self.folder.name, 'short.record')
        with open(record, 'w') as out:
            out.write('b0\nb5\n')
        self.open('--record', record, *texts_of('lamp'))
        self.browser.press('6')
        self.assertIn('alarm 1 b5', self.browser.text('#pane-record'))

    def test_a_narrow_window(self):
        with Browser(420, 800, 'dark') as narrow:
            narrow.open(page_of(os.path.join(self.folder.name, 'narrow.html'), *texts_of('engine')))
            self.assertLessEqual(narrow.run('document.documentElement.scrollWidth'), 420)
            self.assertEqual(narrow.run('isDark()'), True)
            narrow.press('ArrowRight')
            self.assertEqual(narrow.run('chosen'), 1)

    def test_print(self):
        """Paper is light, has the whole run of an example, and leaves the screen as it was."""
        with Browser(1400, 900, 'dark') as dark:
            dark.open(page_of(os.path.join(self.folder.name, 'dark.html'), *texts_of('engine')))
            dark.run('dispatchEvent(new Event("beforeprint"))')
            pixel = 'document.querySelector(".band").getContext("2d").getImageData(2 * MARGIN + 20, 2 * HEAD + 2, 1, 1).data'
            self.assertGreater(min(dark.run('[...%s]' % pixel)), 200)
            self.assertEqual(dark.run('document.querySelectorAll(".band").length'), 1)
            self.assertGreater(len(dark.call('Page.printToPDF', landscape=True)['data']), 10000)
            dark.run('dispatchEvent(new Event("afterprint"))')
            self.assertEqual(dark.run('[isDark(), document.querySelectorAll(".band").length]'), [True, 0])

    def test_print_of_a_long_run(self):
        """One band stands around the chosen event."""
        self.open('--most', '0', *texts_of('engine')[:2], self.long_events())
        for event in (0, 10000, 20000):
            first, wide = self.browser.run('[paper.starts(%d), paper.events]' % event)
            self.assertEqual(len(first), 1)
            self.assertTrue(first[0] <= event < first[0] + wide <= 20001, event)

    def test_a_long_run_is_drawn_as_far_as_it_is_seen(self):
        """However long the run is, there are at most as many pieces as pixels in the rows, and stepping draws none of them anew."""
        self.open('--most', '0', *texts_of('engine')[:2], self.long_events())
        most = self.browser.run('timeline.width * (run.rows.length + 4)')
        for key in ['0', '+', 'End', '+', 'Home']:
            self.browser.press(key)
            self.assertTrue(0 < self.browser.run(PIECES % 'timeline.drawn = "";') < most, key)
            self.assertLess(self.browser.run(PIECES % 'timeline.draw();'), 50, key)


if __name__ == '__main__':
    unittest.main()
