"""Tests of what pictures show, of examples and of large applications, and that Graphviz draws them; `tools/run_tests.py` runs them too."""
import contextlib
import io
import os
import shutil
import subprocess
import unittest
import unittest.mock
from xml.etree import ElementTree

import graph
import pictures
import timeline
from lib import graph_chart, graph_matrix, oil, png, show_reader, timeline_chart, trace_reader
from lib.given import Wrong, contents, data
from tests import EXAMPLES


def example(name, ending):
    return contents(os.path.join(EXAMPLES, name, name + ending))


def owners_of(name):
    """What show prints of an example, with the owners of its blocks."""
    found = show_reader.read_show(example(name, '.show'))
    return found, show_reader.Owners(found, example(name, '.code'), oil.system_of(example(name, '.oil'), name))


class Tree(unittest.TestCase):
    def test_the_pictures_of_the_examples_are_what_the_tools_make(self):
        self.assertEqual([path for path, _ in pictures.differing()], [], 'tools/pictures.py makes them anew')

    def test_the_pictures_of_pages_show_the_pages_of_today(self):
        self.assertEqual([path for path, *_ in pictures.older_pages()], [], 'tools/pictures.py --pages makes them anew')
        self.assertEqual(set(os.listdir(pictures.SHOWN)), set(pictures.PAGES))

    def test_a_picture_says_what_it_was_made_of(self):
        picture = data(os.path.join(pictures.SHOWN, 'page-engine.png'))
        again = png.with_source(picture, 'something else')
        self.assertIn('something else', [words.partition(b'\0')[2].decode() for kind, words in png.chunks(again) if kind == b'tEXt'])
        self.assertEqual(len(list(png.chunks(again))), len(list(png.chunks(picture))) + 1)
        self.assertRaises(Wrong, png.source_of, b'GIF89a')

    def test_each_picture_is_one_that_is_made(self):
        there = {os.path.join(name, file) for name in os.listdir(EXAMPLES) for file in os.listdir(os.path.join(EXAMPLES, name))}
        self.assertEqual({path for path in there if path.endswith(('.svg', '.dot'))}, set(pictures.PICTURES))


class Dot(unittest.TestCase):
    @unittest.skipUnless(shutil.which('dot'), 'there is no Graphviz here')
    def test_graphviz_draws_each_example_without_a_word(self):
        for name in sorted(os.listdir(EXAMPLES)):
            text = graph.dot(*owners_of(name))
            done = subprocess.run(['dot', '-Tsvg'], input=text.encode(), stdout=subprocess.PIPE, stderr=subprocess.PIPE, check=False)
            self.assertEqual((done.returncode, done.stderr), (0, b''), name)
            self.assertEqual(done.stdout.count(b'class="edge"'), text.count(' -> '), name)


class Nests(unittest.TestCase):
    """Of the inverter: Encoder takes Duty from b10 to b11, which keeps Current away there, and Overload nests anywhere."""

    def test_circles_say_which_routine_may_begin_over_another(self):
        found = graph_chart.Chart(*owners_of('inverter'), None, graph.Unmarked())
        names = {column.title: [owner.name for owner in column.circles] for column in found.columns}
        self.assertEqual(names['Display'], ['Encoder', 'Current', 'Overload', 'Time'])
        self.assertEqual((names['Encoder'], names['Current'], names['Overload']), (['Current', 'Overload'], ['Overload'], []))
        column = next(column for column in found.columns if column.title == 'Encoder')
        shown = {}
        for ((c, r), owner), edges in found.circles.items():
            if found.columns[c] is column:
                shown.setdefault(owner.name, {})[column.rows[r].text] = sorted(kind for kind in edges if edges[kind])
        for routine, text in (('Current', 'b8 work 1'), ('Current', 'b9 GetResource(Duty)'), ('Overload', 'b10 work 2')):
            self.assertEqual(shown[routine][text], ['begins', 'returns'], (routine, text))


class Matrices(unittest.TestCase):
    """Of the engine controller; who dispatches whom by how many edges is in the guide to the tools."""

    def test_cells_count_dispatches(self):
        cells = graph_matrix.AllMatrix(*owners_of('engine'), graph.Unmarked()).cells
        due = {('Injection', 'IdleControl'): 4, ('Injection', 'Diagnosis'): 2, ('Injection', 'no task'): 1, ('IdleControl', 'Injection'): 1,
               ('IdleControl', 'Diagnosis'): 2, ('IdleControl', 'no task'): 1, ('Diagnosis', 'Injection'): 2, ('Diagnosis', 'no task'): 1,
               ('Tooth', 'Injection'): 2, ('Crank', 'Injection'): 1, ('Crank', 'Diagnosis'): 1}
        self.assertEqual({pair: len(cell.dispatches) for pair, cell in cells.items() if cell.dispatches}, due)
        self.assertNotIn(('Tooth', 'no task'), cells)

    def test_rows_of_one_task(self):
        """Where IdleControl holds EngineData a tooth begins and returns; elsewhere it doesn't return to it. b10 and b11 are locked."""
        found = graph_matrix.OneMatrix(*owners_of('engine'), 'IdleControl', graph.Unmarked())
        places = {row.text.split(' ')[0]: k for k, row in enumerate(found.rows)}
        returns = [block for block, k in places.items() if (k, 'Tooth') in found.before and found.before[k, 'Tooth'].returns]
        begins = [block for block, k in places.items() if (k, 'Tooth') in found.behind and found.behind[k, 'Tooth'].begins]
        self.assertEqual((returns, begins), (['b7', 'b8'], ['b5', 'b6', 'b7', 'b8', 'b9', 'b12']))

    def printed(self, *more):
        name = os.path.join(EXAMPLES, 'engine', 'engine')
        words = ['graph.py', '--code', name + '.code', '--oil', name + '.oil', '--svg', *more, name + '.show']
        out, told = io.StringIO(), io.StringIO()
        with unittest.mock.patch('sys.argv', words), contextlib.redirect_stdout(out), contextlib.redirect_stderr(told):
            graph.main()
        return [e.text for e in ElementTree.fromstring(out.getvalue()).iter() if e.text], told.getvalue()

    def test_what_would_be_too_wide_is_a_matrix(self):
        self.assertEqual(self.printed()[1], '')
        with unittest.mock.patch.object(graph, 'WIDEST', 300):
            texts, told = self.printed()
            self.assertIn('Who comes next', texts)
            self.assertRegex(told, 'it is a matrix; --task NAME')
            texts, told = self.printed('--task', 'Diagnosis')
            self.assertIn('comes before', texts)
            self.assertIn('b15 Schedule()', texts)
            self.assertNotIn('--task', told)
            self.assertEqual(self.printed('--all')[1], '')


def texts_of(svg):
    return [e.text for e in ElementTree.fromstring(svg).iter() if e.text]


def read(text, events=None):
    return trace_reader.Trace(io.StringIO(text), 'a.trace', events=events)


class Timelines(unittest.TestCase):
    def test_events_of_another_run_are_refused(self):
        for name in sorted(os.listdir(EXAMPLES)):
            for other in sorted(os.listdir(EXAMPLES)):
                events = trace_reader.Events(example(other, '.events'), other)
                if name == other:
                    self.assertEqual(len(list(read(example(name, '.trace'), events))), events.count + 1)
                else:
                    self.assertRaises(Wrong, list, read(example(name, '.trace'), events))

    def test_a_request_changes_nothing(self):
        trace = '0 T T=R\n1 T T=R\n2 @I T=R\n'
        self.assertEqual(len(list(read(trace, trace_reader.Events('irq I\nrun 0\n', 'e')))), 3)
        for text in ('run 0\nirq I\n', 'irq J\nrun 0\n', 'irq I\n'):
            self.assertRaises(Wrong, list, read(trace, trace_reader.Events(text, 'e')))

    def test_routines_stand_by_their_priority(self):
        order = timeline.by_priority(oil.system_of(example('inverter', '.oil'), 'o'))
        self.assertEqual(order, ['@Overload', '@Current', '@Encoder', '%Time'])
        lines = list(read(example('inverter', '.trace')))
        self.assertEqual(timeline_chart.Chart(lines, None, [], order).routines, [name for name in order if any(line.who == name for line in lines)])
        self.assertEqual(timeline_chart.in_order(['c', 'a', 'b'], ['b', 'x', 'a']), ['b', 'a', 'c'])

    def test_many_events_stand_in_bands_each_with_the_names(self):
        lines = list(read(''.join('%d T%d T1=R T2=Y !E_OK =5\n' % (n, 1 + n // 500 % 2) for n in range(2000))))
        found = timeline_chart.Chart(lines, None, [(349, '@I')])
        bands = found.bands()
        self.assertEqual((bands[0][0], bands[-1][1], {end - begin for begin, end in bands[:-1]}), (0, 2000, {bands[0][1]}))
        self.assertTrue(all(end == begin for (_, end), (begin, _) in zip(bands, bands[1:])))
        svg = found.paint('')
        self.assertEqual(texts_of(svg).count('T1'), len(bands))
        self.assertLess(found.width(), 1700)
        self.assertEqual(svg.count('@I is requested at 349'), 1)

    def test_what_waits_over_the_end_of_a_band_goes_on_in_the_next(self):
        lines = list(read(''.join('%d %s T=R\n' % (n, '@I' if n > 399 else 'T') for n in range(500))))
        found = timeline_chart.Chart(lines, None, [(10, '@I')])
        self.assertEqual((found.latches('@I'), len(found.bands())), ([(10, 400)], 3))
        self.assertEqual(found.paint('').count('fill-opacity="0.3"'), 3 + 1)

    def test_texts_that_have_no_room_are_points(self):
        texts = texts_of(timeline_chart.chart(list(read(''.join('%d T T=R !E_OS_LIMIT =%d\n' % (n, 1000000 + n) for n in range(170)))), None, [], ''))
        shown = [text for text in texts if text.isdigit() and len(text) == 7]
        self.assertEqual(shown[:2], ['1000000', '1000005'])
        self.assertLess(texts.count('LIMIT'), 60)
        self.assertIn('LIMIT at 1', texts)
        few = texts_of(timeline_chart.chart(list(read('0 T T=R !E_OS_LIMIT\n1 T T=R !E_OK\n2 T T=R !E_OS_STATE\n')), None, [], ''))
        self.assertTrue({'LIMIT', 'STATE'} <= set(few))

    def test_the_legend_says_what_a_dispatch_is(self):
        self.assertIn('the processor goes to another one', texts_of(timeline_chart.chart(list(read(example('engine', '.trace'))), None, [], '')))
