"""Tests of annotate.py's margin, of graph.py with records, of report_diff.py and of bench_log.py; `tools/run_tests.py` runs them too.
Expected values are worked out by hand, from the texts of `show` in docs/FORMS.md."""
import unittest
from xml.etree import ElementTree

import bench_log
import graph
import report_diff
from lib import graph_chart, graph_record, margin, show_reader, task_code, texts
from lib.application import application_of
from lib.given import Wrong

OIL = 'CPU c { OS os; TASK T1 { PRIORITY = 1; AUTOSTART = TRUE; }; TASK T2 { PRIORITY = 2; }; ISR I { CATEGORY = 2; }; };'

CODE = 'TASK(T1) { ActivateTask(T2); TerminateTask(); }\nTASK(T2) { TerminateTask(); }\nISR(I) { work 1; }\n'
"""T1 has the blocks b0 to b2, T2 has b3 and b4, and I has b5 and b6."""

SHOW = """site b0 line 1 direct T2
site b1 line 1 direct -
site b2 line 1 never
site b3 line 2 direct T1
site b4 line 2 never
site b6 line 3 stay
edge idle b5/-
edge b0 b3
edge b0 b5/T1
edge b1 idle
edge b3 b1
points 12 height 17 values 8 edges 5
"""

INFO = """version 2 blocks 7 sites 6 never 2 stay 1 direct 3 general 0
site b0 line 1 direct T2 known E_OK
site b1 line 1 direct - known none
site b2 line 1 never known any
"""


def marks(*records, show=SHOW):
    found = graph_record.Marks(show_reader.read_show(show))
    for record in records:
        found.take(record, 'r')
    return found


def owners():
    return show_reader.Owners(show_reader.read_show(SHOW), CODE)


class Records(unittest.TestCase):
    def test_what_records_took(self):
        self.assertEqual(marks('b0\nb3\nb3\nb1\nidle\n').told(), 'edges 3 of 5, points 4 of 12')
        self.assertEqual(marks('b0\nb3\n', 'b0\n# x\n\nb5/T1').told(), 'edges 2 of 5, points 3 of 12')
        self.assertEqual(marks('b0\ntrap 1\n').told(), 'edges 0 of 5, points 1 of 12')
        for text in ('b0\nb3 b1\n', 'x', 'b0/'):
            self.assertRaises(Wrong, marks, text)

    def test_what_they_did_not_take(self):
        self.assertEqual(list(graph_record.unseen(marks('b0\nb3\nb1\n'), owners())), [
            'edge b1 idle (idle): T1 line 1: TerminateTask(), to idle', 'edge idle b5/- (interrupt): idle, to I line 3 over nobody: work 1',
            'edge b0 b5/T1 (interrupt): T1 line 1: ActivateTask(T2), to I line 3 over T1: work 1'])

    def test_the_first_step_that_no_edge_has(self):
        found = marks('b0\nb1\nb9', 'b3\nb0\n')
        self.assertEqual((found.told_alarm(), found.told()), ('r: alarm 1 b1; may follow b0: b3, b5/T1', 'edges 0 of 5, points 2 of 12'))
        text = graph.dot(found.with_alarm(), owners(), found)
        self.assertIn('"b0" -> "b1" [color="#cf222e", style="dashed", label="alarm"];', text)
        self.assertIn('"b0" -> "b3" [color="#bf8700", label="dispatch"];', text)
        self.assertIn('"b3" -> "b1" [color="#c8cfd6", label="dispatch"];', text)
        self.assertRaises(Wrong, graph_record.judge, marks('b0\nb99'), owners())

    def test_taken_edges_are_green(self):
        found = marks('b0\nb3\nb1\n')
        self.assertIn('"b0" -> "b3" [color="#1a7f37", label="dispatch"];', graph.dot(found.with_alarm(), owners(), found))
        for record in ('b0\nb3\nb1\n', 'b0\nb1\n'):
            found = marks(record)
            svg = graph_chart.chart(found.with_alarm(), owners(), '', None, found)
            ElementTree.fromstring(svg)
            self.assertEqual(('#1a7f37' in svg, '#cf222e' in svg, '#c8cfd6' in svg), (found.alarm is None, found.alarm is not None, True), record)


class Margin(unittest.TestCase):
    def lines(self, facts):
        return list(margin.lines_of(CODE.splitlines(), margin.notes_of(application_of(OIL, CODE), facts)))

    def test_what_osekfit_printed(self):
        self.assertEqual(self.lines(margin.facts_of_texts(SHOW, INFO, 'dead b2\ndead b4\n', ['s'])), [
            'b0 direct T2, known E_OK; b1 direct -, known none; b2 never, dead | TASK(T1) { ActivateTask(T2); TerminateTask(); }',
            'b3 direct T1; b4 never, dead                                      | TASK(T2) { TerminateTask(); }',
            'b6 stay                                                           | ISR(I) { work 1; }'])
        self.assertEqual(self.lines(margin.facts_of_texts(None, None, 'free b0\n', ['s']))[0], 'b0 free | TASK(T1) { ActivateTask(T2); TerminateTask(); }')

    def test_the_model(self):
        facts = margin.facts_of_model(application_of(OIL, CODE))
        self.assertEqual((facts.forms, facts.told), ({0: 'direct T2', 1: 'direct -', 2: 'never', 3: 'direct T1', 4: 'never', 6: 'stay'}, {2: ['dead'], 4: ['dead']}))
        self.assertEqual(facts.known, {0: 'E_OK', 1: 'none', 2: 'any', 3: 'none', 4: 'any', 6: 'none'})

    def test_a_page(self):
        page = margin.page(['a < b'], {1: [('b0 direct T2', 'direct T2'), ('b1 free', None)]}, 'A & B')
        self.assertEqual([e.text for e in ElementTree.fromstring(page.split('\n', 1)[1].replace('<meta charset="utf-8">', '')).iter('span')],
                         ['b0 direct T2', 'b1 free'])
        self.assertIn('<pre>a &lt; b</pre>', page)


class Places(unittest.TestCase):
    def test_places_in_words(self):
        blocks = application_of(OIL, CODE).blocks
        self.assertEqual([texts.place_text(blocks[k], 'c') for k in (0, 2)], ['c:1: ActivateTask(T2)', 'c:1: end of T1'])
        self.assertEqual((texts.source_line(blocks[6], 'c', CODE.splitlines()), texts.source_line(blocks[6], 'c', [])), ('c:3: ISR(I) { work 1; }', None))


class Versions(unittest.TestCase):
    def changes(self, old, new, blocks=report_diff.Blocks()):
        return list(report_diff.differences(report_diff.version_of(old, 'o'), report_diff.version_of(new, 'n'), blocks))

    def told(self, *texts):
        return [change.text for change in self.changes(*texts)]

    def matched(self, new_code, ticks=(0, 0)):
        """The blocks of CODE in another code, with so many blocks of tick routines behind each."""
        counts = [len(task_code.blocks_of(code)) + more for code, more in zip((CODE, new_code), ticks)]
        return report_diff.matched((CODE, new_code), [report_diff.version_of('site b%d line 0 stay\n' % (count - 1), 'v') for count in counts])

    def test_tick_routines(self):
        blocks = self.matched(CODE.replace('work 1;', ''), (3, 3))
        self.assertEqual([blocks.moved(k) for k in (4, 5, 6, 7, 8, 9, 10)], [4, None, 5, 6, 7, 8, None])
        self.assertEqual(self.matched(CODE, (3, 4)).moved(7), None)

    def test_nothing_changed(self):
        self.assertEqual(self.changes(SHOW + 'dead b2\n', SHOW + 'dead b2\n'), [])

    def test_sites_findings_and_edges(self):
        new = SHOW.replace('direct T2', 'general').replace('edge b1 idle\n', 'edge b1 b3\nedge b1 b1\n').replace('values 8 edges 5', 'values 9 edges 6')
        self.assertEqual(self.told(SHOW + 'suspended T2\ndead b2\n', new + 'dead b2\nfree b0\n'), [
            'site b0: direct T2 -> general', 'suspended T2: no more', 'free b0: new', 'edges: 5 -> 6 (2 new, 1 gone)', 'values: 8 -> 9'])

    def test_a_resource_is_free_where_no_run_comes(self):
        changes = self.changes(SHOW + 'free b0\nfree b1\n', SHOW + 'dead b0\n')
        self.assertEqual([(change.text, sorted(change.kinds)) for change in changes],
                         [('free b0: dead now', []), ('free b1: no more', ['lost']), ('dead b0: new', [])])

    def test_what_counts(self):
        general = self.changes(SHOW, SHOW.replace('direct T2', 'general'))
        stay, lost = self.changes(SHOW, SHOW.replace('direct T2', 'stay')), self.changes(SHOW + 'dead b2\n', SHOW)
        statuses = [[report_diff.status_of(changes, kinds) for kinds in ([], ['general'], ['site'], ['lost'], ['general', 'lost'])]
                    for changes in ([], general, stay, lost)]
        self.assertEqual(statuses, [[0, 0, 0, 0, 0], [1, 1, 1, 0, 1], [1, 0, 1, 0, 0], [1, 0, 0, 1, 1]])

    def test_a_statement_more(self):
        new_code = CODE.replace('{ ActivateTask(T2);', '{ work 1; ActivateTask(T2);')
        blocks = self.matched(new_code)
        self.assertEqual([blocks.moved(k) for k in range(7)], [1, 2, 3, 4, 5, 6, 7])
        new = ''.join('site b%d line %d %s\n' % one for one in ((1, 1, 'stay'), (2, 1, 'direct -'), (3, 1, 'never'), (4, 2, 'direct T1'), (5, 2, 'never'), (7, 3, 'stay')))
        new += 'edge idle b6/-\nedge b0 b1\nedge b1 b4\nedge b0 b6/T1\nedge b1 b6/T1\nedge b2 idle\nedge b4 b2\n'
        self.assertEqual([change.text for change in self.changes(SHOW + 'dead b2\n', new + 'dead b3\n', blocks)], [
            'site b1 (b0 before): direct T2 -> stay', 'edges: 5 -> 7 (2 new, 0 gone)', 'points: 12 -> None', 'values: 8 -> None'])

    def test_sites_that_came_and_went(self):
        blocks = self.matched(CODE.replace(' TerminateTask(); }\nISR', ' Schedule(); }\nISR'))
        self.assertEqual([change.text for change in self.changes(SHOW, SHOW.replace('site b3 line 2 direct T1', 'site b3 line 2 stay'), blocks)][:2],
                         ['site b3: new -> stay', 'site b3 before: direct T1 -> gone'])

    def test_texts_of_something_else(self):
        self.assertRaises(Wrong, report_diff.version_of, 'site b0\n', 'o')


class Logs(unittest.TestCase):
    def points(self, samples):
        return [one.point for one in bench_log.points_of(application_of(OIL, CODE), samples, 'l')]

    def test_a_csv(self):
        text = 'time,core,block\n0.5,0,0\n1.0,0,5\r\n1.5,0,b6\n1.5,0,\n2,0,0\n3,0,3\n4,0,1\n5,0,idle\n6,0,5\n7,0,halt\n'
        found = bench_log.points_of(application_of(OIL, CODE), bench_log.csv_samples(text, 'block', 'time', 'l'), 'l')
        self.assertEqual([one.point for one in found], ['b0', 'b5/T1', 'b6/T1', 'b0', 'b3', 'b1', 'idle', 'b5/-', 'halt'])
        self.assertEqual((bench_log.told_place(found, 1, 'l'), bench_log.told_place(found, 0, 'l')), ('1.0: b5/T1, behind b0 at 0.5', '0.5: b0'))
        self.assertRaises(Wrong, bench_log.told_place, found, 9, 'l')

    def test_a_value_change_dump(self):
        text = ('$timescale 1 us $end\n$var wire 16 ! CpuBlock [15:0] $end\n$var wire 1 " other $end\n$enddefinitions $end\n'
                '#0\nbx !\n#10\nb0 !\n1"\n#12\nb11 !\nb1 "\n#20\nb1 !\n')
        samples = list(bench_log.vcd_samples(text, 'CpuBlock', 'l'))
        self.assertEqual([(one.time, one.text) for one in samples], [('10', '0'), ('12', '3'), ('20', '1')])
        self.assertEqual(self.points(samples), ['b0', 'b3', 'b1'])

    def test_what_is_no_log(self):
        self.assertRaises(Wrong, list, bench_log.csv_samples('a,b\n', 'block', 'time', 'l'))
        self.assertRaises(Wrong, list, bench_log.csv_samples('', 'block', 'time', 'l'))
        for text, words, told in (('Time,Block\n', ('block', 'time'), 'l:1: no column block; there are: Time, Block (--block NAME says which)'),
                                  ('t;block\n', ('block', 'time'), 'l:1: no column time; there are: t, block (--time NAME says which)')):
            with self.assertRaises(Wrong) as caught:
                list(bench_log.csv_samples(text, *words, 'l'))
            self.assertEqual(str(caught.exception), told)
        self.assertEqual(list(bench_log.csv_samples('time;block\n0,5;b3\n', 'block', 'time', 'l')), [bench_log.Sample('0,5', 'b3', 2)])
        with self.assertRaises(Wrong) as caught:
            list(bench_log.vcd_samples('$var wire 8 ! pc $end\n', 'block', 'l'))
        self.assertEqual(str(caught.exception), 'l: no vector block; there are: pc (--block NAME says which)')
        self.assertRaises(Wrong, list, bench_log.vcd_samples('', 'block', 'l'))
        for text in ('7', 'bx', 'Idle', '-1'):
            self.assertRaises(Wrong, self.points, [bench_log.Sample('0', text, 1)])
