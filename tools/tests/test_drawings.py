"""Tests of graph.py and timeline.py, of what application.py reads, and of what the tools for long texts and tables make; `tools/run_tests.py` runs
them too. Expected values are worked out by hand from docs/TOOLS.md."""
import io
import json
import time
import unittest
from xml.etree import ElementTree

import graph
import long_tables
import long_texts
from lib import application, btf, graph_chart, oil, perfetto, show_reader, table_bytes, task_code, timeline_chart, trace_reader, vcd
from lib.drawing import in_lines
from lib.given import Wrong

CODE = """TASK(T1) { ActivateTask(T2); TerminateTask(); }
TASK(T2) { TerminateTask(); }
"""

SHOW = """site b0 line 1 direct T2
site b1 line 1 direct -
site b2 line 1 never
site b3 line 2 direct T1
site b4 line 2 never
edge b0 b3
edge b1 idle
edge b3 b1
points 7 height 17 values 8 edges 3
"""

DOT = """digraph osekfit {
  rankdir=TB; newrank=true;
  node [shape=box, style="filled,rounded", fillcolor="#ffffff", color="#d0d7de", fontname="Helvetica", fontsize=10];
  edge [fontname="Helvetica", fontsize=9];
  "idle" [label="idle", shape="ellipse"];
  subgraph "cluster_TASK_T1" {
    label="T1"; color="#8c959f"; fontname="Helvetica";
    "b0" [label="b0 ActivateTask(T2)\\nline 1: direct T2", fillcolor="#ddf4ff", color="#0969da"];
    "b1" [label="b1 TerminateTask()\\nline 1: direct -", fillcolor="#ddf4ff", color="#0969da"];
    "b2" [label="b2 }\\nline 1: never", fillcolor="#eaeef2", color="#8c959f"];
  }
  subgraph "cluster_TASK_T2" {
    label="T2"; color="#8c959f"; fontname="Helvetica";
    "b3" [label="b3 TerminateTask()\\nline 2: direct T1", fillcolor="#ddf4ff", color="#0969da"];
    "b4" [label="b4 }\\nline 2: never", fillcolor="#eaeef2", color="#8c959f"];
  }
  "b0" -> "b3" [color="#0969da", label="dispatch"];
  "b1" -> "idle" [color="#6e7781", label="idle"];
  "b3" -> "b1" [color="#0969da", label="dispatch"];
}
"""

TRACE = """0 T1 T1=R T2=W:0 ^Startup ^PreTask
1 @I T1=R+Res T2=Y:1f !E_OS_LIMIT ^Error
2 - T1=S T2=S !E_OK =9
"""

VCD = """$version timeline.py of osekfit $end
$timescale 1 ns $end
$scope module osekfit $end
$scope module processor $end
$var wire 1 ! idle $end
$var wire 1 " halted $end
$var wire 1 # isr_I $end
$upscope $end
$scope module T1 $end
$var wire 8 $ state [7:0] $end
$var wire 1 % running $end
$var wire 1 & holds_Res $end
$upscope $end
$scope module T2 $end
$var wire 8 ' state [7:0] $end
$var wire 1 ( running $end
$var wire 64 ) events [63:0] $end
$upscope $end
$scope module notes $end
$var wire 4 * status [3:0] $end
$var wire 1 + Startup $end
$var wire 1 , Error $end
$var wire 1 - PreTask $end
$upscope $end
$upscope $end
$enddefinitions $end
#0
$dumpvars
0!
0"
0#
b1010010 $
1%
0&
b1010111 '
0(
b0 )
bx *
1+
0,
1-
$end
#1
1#
0%
1&
b1011001 '
b11111 )
b100 *
0+
1,
0-
#2
1!
0#
b1010011 $
0&
b1010011 '
bx )
b0 *
0,
#3
"""


def trace_of(text, first=0, last=None):
    return trace_reader.Trace(io.StringIO(text), 'a.trace', first, last)


def owners_of(show, code):
    found = show_reader.read_show(show)
    return found, show_reader.Owners(found, code)


def words_of(svg):
    """The texts of a drawing, which has to be well-formed."""
    return [e.text for e in ElementTree.fromstring(svg).iter('{http://www.w3.org/2000/svg}text')]


class TaskCode(unittest.TestCase):
    def ways(self, text):
        return [(b.line, b.text, b.next, b.other) for b in task_code.blocks_of(text)]

    def test_blocks_are_numbered_in_text_order(self):
        text = 'TASK(A) {\n if (?) { work 2; } else {\n SetEvent(B, E | F); }\n}\nISR(I) { }\n'
        self.assertEqual(self.ways(text), [(2, 'if (?)', 1, 2), (2, 'work 2', 3, None), (3, 'SetEvent(B, E | F)', 3, None),
                                           (4, '}', None, None), (5, '}', None, None)])

    def test_loops_lead_back(self):
        text = 'TASK(A) { /* { */ while (?) { while (1) { } } if (?) { } // }\n }'
        self.assertEqual(self.ways(text), [(1, 'while (?)', 1, 2), (1, 'while (1)', 1, None), (1, 'if (?)', 3, 3),
                                           (2, '}', None, None)])

    def test_a_hexadecimal_one_is_a_loop_for_ever(self):
        self.assertEqual(self.ways('TASK(A) { while (0x1) { work 1; } }'),
                         [(1, 'while (0x1)', 1, None), (1, 'work 1', 0, None), (1, '}', None, None)])


class Graphs(unittest.TestCase):
    def test_show_is_read(self):
        found = show_reader.read_show(SHOW)
        self.assertEqual(found.sites[1], show_reader.Site(1, 'direct -'))
        self.assertEqual(found.edges[1], (show_reader.Point('task', 1, None), show_reader.Point('idle', None, None)))
        self.assertEqual(found.counts, {'points': 7, 'height': 17, 'values': 8, 'edges': 3})
        self.assertRaises(Wrong, show_reader.read_show, 'site b0\n')

    def test_points_are_written_as_they_are_read(self):
        for word in ('halt', 'idle', 'b12', 'b3/-', 'b3/T1'):
            self.assertEqual(show_reader.text_of(show_reader.point_of(word)), word)

    def test_dot(self):
        self.assertEqual(graph.dot(*owners_of(SHOW, CODE)), DOT)

    def test_edges_are_named_by_their_ends(self):
        code = 'TASK(A) { ChainTask(A); }\nTASK(B) { work 1; }\nISR(I) { }\n'
        edges = ['b0 b0', 'b0 b1', 'b0 b2', 'b0 idle', 'b0 halt', 'b0 b4/A',
                 'b4/A b0', 'b4/A b2', 'b4/- idle', 'b4/- b2', 'b5/- b6/-']
        show = ''.join('edge %s\n' % edge for edge in edges) + 'site b4 line 3 general\nsite b6 line 0 stay\n'
        found, owners = owners_of(show, code)
        self.assertEqual([owners.kind_of_edge(*edge) for edge in found.edges],
                         ['restart', 'flow', 'dispatch', 'idle', 'shutdown', 'interrupt',
                          'return', 'dispatch', 'return', 'dispatch', 'flow'])
        found, owners = owners_of(show, None)
        self.assertEqual([owners.kind_of_edge(*edge) for edge in found.edges],
                         ['', '', '', 'idle', 'shutdown', 'interrupt', 'return', 'return', 'return', 'dispatch', 'flow'])

    def test_tick_routines_end_at_sites_of_line_0(self):
        _, owners = owners_of('site b1 line 1 never\nsite b4 line 0 stay\nsite b7 line 0 never\n', 'TASK(A) { work 1; }')
        self.assertEqual([owners.text(b) for b in range(8)],
                         ['work 1', '}', 'count', 'expire', 'end', 'count', 'expire', 'end'])
        self.assertEqual(owners.ticks[7].name, 'tick routine 2')

    def test_the_drawing_names_all_that_stands_in_it(self):
        words = words_of(graph_chart.chart(*owners_of(SHOW, CODE), 'A & B'))
        for word in ('A & B', 'T1', 'T2', 'b0 ActivateTask(T2)', '→ T2', '→ idle', 'never', 'idle'):
            self.assertIn(word, words)

    def test_counters_and_alarms_have_their_names(self):
        show, code = 'site b1 line 1 never\nsite b4 line 0 stay\n', 'TASK(A) { work 1; }'
        system = oil.system_of('CPU c { OS os; COUNTER C { MAXALLOWEDVALUE = 3; }; TASK A { PRIORITY = 1; };'
                               ' ALARM Z { COUNTER = C; ACTION = ACTIVATETASK { TASK = A; }; }; };')
        owners = show_reader.Owners(show_reader.read_show(show), code, system)
        self.assertEqual([owners.ticks[4].name] + [owners.text(b) for b in (2, 3, 4)], ['C', 'count', 'expire Z', 'end'])
        self.assertRaises(Wrong, show_reader.Owners, show_reader.read_show('site b1 line 1 never\n'), code, system)

    def test_one_task_and_its_neighbours(self):
        found, owners = owners_of(SHOW, CODE)
        part = show_reader.around(found, owners, 'T2')
        self.assertEqual([tuple(map(show_reader.text_of, edge)) for edge in part.edges], [('b0', 'b3'), ('b3', 'b1')])
        words = words_of(graph_chart.chart(part, owners, '', 'T2'))
        self.assertIn('b4 }', words)
        self.assertNotIn('b2 }', words)
        self.assertRaises(Wrong, show_reader.around, found, owners, 'T3')

    def test_who_dispatches_whom(self):
        self.assertEqual(graph.summary(*owners_of(SHOW, CODE)), '    T1  T2  idle\nT1   .   1     1\nT2   1   .     .\n')

    def test_the_legend_says_what_is_drawn(self):
        words = ' '.join(word for word in words_of(graph_chart.chart(*owners_of(SHOW, CODE), '')) if word)
        self.assertNotIn('may begin', words)
        self.assertNotIn('the caller goes on', words)
        for text in ('no state comes here', 'always this dispatch', 'points 7, height 17, values 8, edges 3'):
            self.assertIn(text, words)

    def test_lines_of_the_legend_are_no_wider_than_the_drawing(self):
        for line in in_lines('word ' * 200, 600, 5.7):
            self.assertLessEqual(5.7 * len(line), 600)

    def test_many_edges_are_drawn_in_little_time(self):
        blocks = 400
        code = 'TASK(A) { %s } TASK(B) { %s }' % ('ActivateTask(B); ' * blocks, 'work 1; ' * blocks)
        edges = ''.join('edge b%d b%d\n' % (a, blocks + 1 + b) for a in range(0, blocks, 4) for b in range(0, blocks, 2))
        begin = time.process_time()
        graph_chart.chart(*owners_of(edges, code), '')
        self.assertLess(time.process_time() - begin, 5)

    def test_nothing_at_all_is_drawn(self):
        words_of(graph_chart.chart(*owners_of('points 2 height 0 values 0 edges 0\n', ''), ''))


class Timelines(unittest.TestCase):
    def test_a_line_is_read(self):
        tasks = {'T1': trace_reader.Task('R', None, ['A', 'B']), 'T2': trace_reader.Task('W', '1f', [])}
        self.assertEqual(trace_reader.line_of('7 @I T1=R+A+B T2=W:1f !E_OK =- ^PreTask'),
                         trace_reader.Line(7, '@I', tasks, 'E_OK', '-', ['PreTask']))

    def test_a_trap_is_read(self):
        trace = trace_of('0 - T1=S\ntrap 1\n')
        self.assertEqual(([line.number for line in trace], trace.trap), ([0], 1))

    def test_other_texts_are_refused_in_one_line(self):
        for text in ('0 - T1=X\n', 'x\n', '0\n', '0 - T1\n', 'trap x\n'):
            self.assertRaises(Wrong, list, trace_of(text))

    def test_a_range_of_lines_is_read(self):
        self.assertEqual([line.number for line in trace_of(TRACE, 1, 1)], [1])

    def test_requests_are_counted_as_events(self):
        text = '# none\nrun 0\r\n\n irq  I\ntick C\n'
        self.assertEqual(trace_reader.requests_of(text), [(2, '@I'), (3, '%C')])

    def test_spans(self):
        self.assertEqual(timeline_chart.spans([1, 1, None, 2], lambda v: v), [(0, 2, 1), (3, 4, 2)])
        self.assertEqual(timeline_chart.spans([None], lambda v: v), [])

    def test_vcd(self):
        self.assertEqual(''.join(vcd.dump(trace_of(TRACE))), VCD)

    def test_perfetto(self):
        events = json.loads(''.join(perfetto.dump(trace_of(TRACE), [(1, '@I')])))['traceEvents']
        names = {e['tid']: e['args']['name'] for e in events if e['name'] == 'thread_name'}
        self.assertEqual(list(names.values()), ['processor', 'task T1', 'task T2', 'T1 holds'])
        slices = [(names[e['tid']], e['name'], e['ts'], e['dur']) for e in events if e['ph'] == 'X']
        self.assertIn(('task T1', 'interrupted', 1, 1), slices)
        self.assertIn(('processor', 'idle', 2, 1), slices)
        self.assertIn(('T1 holds', 'Res', 1, 1), slices)
        self.assertEqual([e['name'] for e in events if e['ph'] == 'i'],
                         ['Startup', 'PreTask', 'E_OS_LIMIT', 'Error', 'E_OK', '@I requested'])

    def test_btf(self):
        lines = ''.join(btf.dump(trace_of('0 T1 T1=R T2=S\n1 @I T1=R+Q T2=S\n2 T2 T1=Y T2=R\n3 T1 T1=R T2=W:0\n4 - T1=S T2=W:0\n'), [(1, '@I')]))
        self.assertEqual([line.split(',', 1)[0] + ' ' + ' '.join(line.split(',')[3:]) for line in lines.splitlines()[4:]], [
            '0 T T1 0 activate', '0 T T1 0 start', '1 I I 0 activate', '1 SEM Q 0 assigned', '1 T T1 0 preempt', '1 I I 0 start',
            '2 SEM Q 0 released', '2 I I 0 terminate', '2 T T2 0 activate', '2 T T2 0 start', '3 T T2 0 wait', '3 T T1 0 resume',
            '4 T T1 0 terminate'])

    def test_a_task_may_be_called_as_a_note_is(self):
        lines = list(trace_of('0 status status=R Startup=Y ^Startup\n1 Startup status=S Startup=R !E_OK\n'))
        chart = timeline_chart.Chart(lines, None, [])
        self.assertEqual(len(set(chart.rows.values())), 5)

    def test_a_request_while_one_waits_is_lost(self):
        lines = list(trace_of('0 T T=R\n1 T T=R\n2 T T=R\n3 @I T=R\n4 @I T=R\n5 T T=R\n6 @I T=R\n'))
        chart = timeline_chart.Chart(lines, None, [(1, '@I'), (2, '@I'), (4, '@I')])
        self.assertEqual(chart.latches('@I'), [(1, 3), (2, None), (4, 6)])
        self.assertIn('requested while it waits: lost', words_of(timeline_chart.chart(lines, None, [(1, '@I'), (2, '@I')], '')))

    def test_a_long_trace_is_read_as_far_as_it_is_drawn(self):
        def lines():
            yield from ('%d T1 T1=R\n' % n for n in range(10))
            raise AssertionError('read too far')
        file = lines()
        found = trace_reader.Trace(type('File', (), {'seek': lambda self, at: None, '__iter__': lambda self: file})(), 'a', 2, 5)
        self.assertEqual([line.number for line in found], [2, 3, 4, 5])

    def test_identifiers_differ(self):
        self.assertEqual(len({vcd.identifier(n) for n in range(20000)}), 20000)

    def test_the_chart_names_all_that_stands_in_it(self):
        words = words_of(timeline_chart.chart(list(trace_of(TRACE)), None, [(1, '@I')], 'A < B'))
        for word in ('A < B', 'T1', 'T2', '@I', 'LIMIT', '9', 'holds Res', 'requested', 'Startup', '1f'):
            self.assertIn(word, words)
        self.assertNotIn('tick routine', words)

    def test_a_trace_that_traps_is_drawn(self):
        self.assertIn('trap', words_of(timeline_chart.chart(list(trace_of('0 T1 T1=R\n')), 1, [], '')))


class LongTexts(unittest.TestCase):
    def test_texts_fill_their_size(self):
        for text in long_texts.OIL_TEXTS + [text for _, text in long_texts.CODE_TEXTS] + long_texts.EVENT_TEXTS:
            size = len(long_texts.filled(text, 2000))
            self.assertTrue(1400 < size <= 2000, '%s: %d' % (text.name, size))

    def test_parts_are_numbered(self):
        self.assertEqual(long_texts.filled(long_texts.Text('', '<', 'a%d;', '>'), 12), '<a0;a1;a2;>')


class LongTables(unittest.TestCase):
    def test_tables_fill_their_size_and_have_no_fault(self):
        for name, many, rows in long_tables.TABLES:
            app = application.application_of(long_tables.oil(long_tables.EVENTS if many else 0), long_tables.code())
            most = 2000000 if rows is long_tables.late else 400000
            data = long_tables.table_of(app, rows(app, most), most)
            table = table_bytes.read_table(app, data)
            self.assertTrue(9 * most // 10 < len(data) <= most, '%s: %d' % (name, len(data)))
            self.assertTrue(table, name)
