"""Tests of the values of tables that no run has, by what the standard guarantees: which law strikes what, and that states of runs are never
struck; `tools/run_tests.py` runs them too. What is struck was worked out by hand from docs/GUARANTEES.md."""
import os
import random
import re
import subprocess
import sys
import tempfile
import unittest

import certificate
import compare_model
import explain
import model
import why
from lib import analysis_told, causes, graph_record, guarantees, image, least_table, run_edges
from lib.application import application_of
from lib.certified import by_kind, fields_of, fields_of_routine
from lib.crates import ROOT
from lib.given import contents
from lib.guarantees import AWAITED, BEGUN, BEST, CEILINGS, GROUPS, HELD_TWICE, IDLE, LOCKS, NESTS, NOBODY, Guarantees
from lib.kernel import Kernel
from lib.least_table import TableSteps, point_of
from lib.points import HALT_POINT, IDLE_POINT, point_shown
from lib.show_reader import read_show, text_of
from lib.table_bytes import OUT, spelled
from tests import TOOLS
from tests.small_systems import isr, task

OBJECTS = ('RESOURCE R; RESOURCE Q; RESOURCE G { RESOURCEPROPERTY = INTERNAL; }; EVENT E;' + task('Low', 1, 'auto', 'RESOURCE = R') +
           task('Mid', 2, 'RESOURCE = R', 'RESOURCE = Q') + task('Top', 3, 'EVENT = E') + task('First', 1, 'RESOURCE = G') + task('Second', 1, 'RESOURCE = G')
           + isr('I', 1) + isr('J', 2, 'Q'))

CODE = ('TASK(Low) { GetResource(R); ReleaseResource(R); TerminateTask(); }\nTASK(Mid) { work 1; work 2; TerminateTask(); }\n'
        'TASK(Top) { WaitEvent(E); TerminateTask(); }\nTASK(First) { TerminateTask(); }\nTASK(Second) { TerminateTask(); }\n'
        'ISR(I) { }\nISR(J) { GetResource(Q); ReleaseResource(Q); }\n')

APP = application_of('CPU c { OS os; %s };' % OBJECTS, CODE)
"""Low has b0 to b3, Mid b4 to b7, Top b8 to b10, First b11 and b12, Second b13 and b14, I b15, J b16 to b18. Q's ceiling is that of RES_SCHEDULER."""

LOW, MID, TOP, FIRST, SECOND, EVENT, I, J = range(8)

R, Q = APP.resource_number['R'], APP.resource_number['Q']

S, IS_OUT = (0,), (OUT,)


def live(block, *held, inside=0):
    return (1, block, 0, inside, len(held)) + held


def at(block):
    return (1, block, 0)


class Struck(unittest.TestCase):
    def struck(self, point, **sets):
        """The laws by which values go at a point, where all else is suspended, not set and out."""
        found = [sets.get(name, [usual]) for name, usual in zip('low mid top first second event i j'.split(), [S] * 5 + [0] + [IS_OUT] * 2)]
        return Guarantees(APP).struck(point_shown(APP, point), found)

    def test_over_nobody(self):
        self.assertEqual(self.struck('idle', low=[S, live(0), live(1, R)]), {(LOW, live(0)): IDLE, (LOW, live(1, R)): IDLE})
        self.assertEqual(self.struck('b15/-', low=[S, live(0), live(2)], i=[at(15)]), {(LOW, live(2)): NOBODY})
        self.assertEqual(self.struck('halt', low=[S, live(0), live(2)]), {})

    def test_who_began_waits_for_higher_tasks(self):
        """Low may be preempted by Mid where it holds nothing; with R it may not."""
        self.assertEqual(self.struck('b5', mid=[live(5)], low=[S, live(0), live(3), live(1, R)]), {(LOW, live(1, R)): BEGUN})
        self.assertEqual(self.struck('b11', first=[live(11, inside=1)], low=[S, live(0), live(3)]), {(LOW, live(3)): BEGUN})
        self.assertEqual(self.struck('b8', top=[live(8)], low=[S, live(1, R)], mid=[S, live(5), live(4)]), {})
        self.assertEqual(self.struck('b8', top=[live(8)], low=[live(1, R)], mid=[S, live(5), live(4)]), {(MID, live(5)): BEGUN})

    def test_resources(self):
        self.assertEqual(self.struck('b8', top=[live(8)], low=[live(1, R)], mid=[S, live(5, R)]), {(MID, live(5, R)): HELD_TWICE})
        self.assertEqual(self.struck('b11', first=[live(11, inside=1)], second=[S, live(13), live(13, inside=1)]), {(SECOND, live(13, inside=1)): GROUPS})

    def test_two_resources_of_one_ceiling(self):
        resources = ['RESOURCE = R', 'RESOURCE = Q']
        app = application_of('CPU c { OS os; RESOURCE R; RESOURCE Q; %s };' % (task('T1', 1, *resources) + task('T2', 2, *resources) + task('T3', 3)),
                             ''.join('TASK(T%d) { TerminateTask(); }\n' % k for k in (1, 2, 3)))
        first, second = app.resource_number['R'], app.resource_number['Q']
        struck = Guarantees(app).struck(point_shown(app, 'b4'), [[live(0, first)], [S, live(2, second)], [live(4)]])
        self.assertEqual(struck, {(1, live(2, second)): CEILINGS})

    def test_a_preemptive_task_runs_at_best(self):
        self.assertEqual(self.struck('b0', low=[live(0)], mid=[S, live(4)]), {(MID, live(4)): BEST})
        self.assertEqual(self.struck('b1', low=[live(1, R), live(1)], mid=[S, live(4)]), {})
        self.assertEqual(self.struck('b15/Low', low=[live(0)], mid=[S, live(4)], i=[at(15)]), {})

    def test_who_waits_has_no_awaited_event(self):
        self.assertEqual(self.struck('b0', low=[live(0)], top=[S, (2, 8)], event=[0, 1]), {})
        self.assertEqual(self.struck('b0', low=[live(0)], top=[(2, 8)], event=[0, 1]), {(EVENT, 1): AWAITED})
        self.assertEqual(self.struck('b0', low=[live(0)], top=[S, (2, 8)], event=[1]), {(TOP, (2, 8)): AWAITED})

    def test_routines_nest(self):
        """I is below J; and J, which holds Q, isn't beside a task that has it."""
        self.assertEqual(self.struck('b15/Low', low=[live(0)], i=[at(15)], j=[IS_OUT, at(16)]), {(J, at(16)): NESTS})
        self.assertEqual(self.struck('b16/Low', low=[live(0)], j=[at(16)], i=[IS_OUT, at(15)]), {})
        self.assertEqual(self.struck('b16/Mid', mid=[live(5), live(5, Q)], j=[at(16)]), {(MID, live(5, Q)): NESTS})
        self.assertEqual(self.struck('b17/Mid', mid=[live(5), live(5, Q)], j=[(1, 17, 1, Q)]), {(MID, live(5, Q)): HELD_TWICE})

    def test_who_is_interrupted_stands_at_no_lock(self):
        app = application_of('CPU c { OS os; %s };' % (task('T', 1, 'auto') + isr('I', 1) + isr('J', 2)),
                             'TASK(T) { SuspendOSInterrupts(); work 1; ResumeOSInterrupts(); }\n'
                             'ISR(I) { SuspendOSInterrupts(); work 1; ResumeOSInterrupts(); }\nISR(J) { }\n')
        self.assertEqual([k for k, block in enumerate(app.blocks) if block.is_locked], [1, 2, 5, 6])
        struck = Guarantees(app).struck(point_shown(app, 'b8/T'), [[live(0), live(1), live(3)], [IS_OUT, at(4), at(6)], [at(8)]])
        self.assertEqual(struck, {(0, live(1)): LOCKS, (1, at(6)): LOCKS})
        self.assertEqual(Guarantees(app).struck(point_shown(app, 'b1'), [[live(1)], [IS_OUT], [IS_OUT]]), {})

    def test_where_nothing_is_left_all_goes(self):
        self.assertEqual(self.struck('b0', low=[live(0)], mid=[live(4)]), {(LOW, live(0)): BEST, (MID, live(4)): BEST, **{
            (part, value): BEST for part, value in [(TOP, S), (FIRST, S), (SECOND, S), (EVENT, 0), (I, IS_OUT), (J, IS_OUT)]}})

    def test_ceilings_that_no_text_has(self):
        """A group whose ceiling is below its tasks keeps none of them out: an image may have such a one."""
        low = application_of('CPU c { OS os; %s };' % OBJECTS, CODE)
        low.resources[low.resource_number['G']] = low.resources[low.resource_number['G']]._replace(ceiling=0)
        self.assertFalse(Guarantees(low).has_groups)
        sets = [[S], [S], [S], [live(11, inside=1)], [S, live(13, inside=1)], [0], [IS_OUT], [IS_OUT]]
        self.assertEqual(Guarantees(low).struck(point_shown(low, 'b11'), sets), {(SECOND, live(13, inside=1)): BEGUN})


class Laws(unittest.TestCase):
    def test_each_law_is_proved_and_told(self):
        folder = os.path.join(ROOT, 'crates', 'kernel_guarantees', 'src')
        proved = ''.join(contents(os.path.join(folder, name)) for name in os.listdir(folder))
        told = contents(os.path.join(ROOT, 'docs', 'GUARANTEES.md'))
        self.assertEqual(len(set(guarantees.LAWS)), len(guarantees.LAWS))
        self.assertEqual([law for law in guarantees.LAWS if 'pub fn %s()\n' % law not in proved or '`%s`' % law not in told], [])

    def test_the_page_names_laws_and_clauses_that_are_there(self):
        """In a row the law stands first, and behind it its clauses; each law of the crates is told, but for those that say no guarantee: of
        definitions, and of the answers of check."""
        crates, page = os.path.join(ROOT, 'crates'), contents(os.path.join(ROOT, 'docs', 'GUARANTEES.md'))
        code = ''.join(contents(os.path.join(at, name)) for crate in ('kernel_guarantees', 'text_guarantees', 'command_laws')
                       for at, _, names in os.walk(os.path.join(crates, crate, 'src')) for name in names if name not in ('definitions.rt', 'answers.rt'))
        laws = {name: re.findall(r'\bensures (\w+) \{', text) for name, text in re.findall(r'(?ms)^pub fn (\w+)\(\)\n(.*?)^\{\}', code)}
        rows = [re.findall(r'`(\w+)`', cell) for row in re.findall(r'(?m)^\| .* \|$', page) for cell in row.split(' | ')[1:2]]
        lacking = [(names[0], clause) for names in rows if names and names[0] in laws for clause in names[1:] if clause not in laws[names[0]]]
        unknown = [names[0] for names in rows if names and names[0] not in laws and '_' in names[0]]
        self.assertEqual((lacking, unknown, [law for law in laws if '`%s`' % law not in page and '::%s`' % law not in page]), ([], [], []))

    def test_what_a_run_has_is_never_struck(self):
        for seed in range(30):
            maker = compare_model.Maker(seed)
            app = application_of(maker.oil(), maker.code())
            kernel, guarded, draw = Kernel(app), Guarantees(app), random.Random(seed)
            for mode in range(len(app.modes)):
                state = kernel.start(mode).state
                for _ in range(60):
                    sets = by_kind(app, TableSteps(app).values_of(state), lambda v: [fields_of(v)], lambda v: [int(v)], lambda v: [fields_of_routine(v)])
                    self.assertEqual(guarded.struck(point_of(state), sets), {}, (seed, state))
                    is_run = draw.random() < 0.75
                    state = (kernel.run(state, draw.random() < 0.5) if is_run else kernel.request(state, draw.randrange(len(app.sources)))).state


    def test_no_run_takes_an_edge_that_is_struck(self):
        count = 0
        for seed in range(40):
            maker = compare_model.Maker(seed)
            app = application_of(maker.oil(), maker.code())
            analysis = why.Analysis(app).solve(2000)
            edges, kernel, draw = analysis and run_edges.RunEdges(app, why.table_of(analysis)), Kernel(app), random.Random(seed)
            for mode in range(len(app.modes) if analysis else 0):
                state = kernel.start(mode).state
                for _ in range(150):
                    state = kernel.request(state, draw.randrange(len(app.sources))).state if draw.random() < 0.25 else state
                    after = kernel.run(state, draw.random() < 0.5).state
                    self.assertIsNone(edges.law(point_of(state), point_of(after)), (seed, state))
                    state, count = after, count + 1
        self.assertGreater(count, 1000)


GROUP = ('RESOURCE G { RESOURCEPROPERTY = INTERNAL; }; RESOURCE R;' + task('First', 1, 'auto', 'RESOURCE = G') + task('Second', 1, 'RESOURCE = G') +
         task('Top', 2, 'RESOURCE = R') + isr('I', 0))

GROUP_CODE = ('TASK(First) { Schedule(); work 1; TerminateTask(); }\nTASK(Second) { work 1; TerminateTask(); }\nTASK(Top) { TerminateTask(); }\n'
              'ISR(I) { if (?) { ActivateTask(Second); } else { ActivateTask(Top); } }\n')


GONE = ['one_task_of_a_group_is_inside: ready with G at b0, line 1; b1, line 1; b2, line 1', 'who_began_waits_for_higher_tasks: ready at b1, line 1']
"""What the table has of First where Second runs, and no run: First inside of the group, and First behind a Schedule that let Top run, which goes on
before Second begins."""


class Told(unittest.TestCase):
    """Two tasks of a group, and one above them, which may preempt each of the two."""

    def setUp(self):
        self.app = application_of('CPU c { OS os; %s };' % GROUP, GROUP_CODE)

    def test_why(self):
        site = why.site_of_model(self.app, 5)
        lines = list(site.table_lines())
        self.assertEqual(lines[:6], [
            'at b5', '  Top, priority 2: suspended', '  First, priority 1: suspended', *('    in no run, by ' + text for text in GONE),
            '  Second, priority 1: runs with G'])
        self.assertEqual(lines[6:], ['who holds G is just above priority 1'])

    def test_a_certificate(self):
        table = why.table_of(why.Analysis(self.app).solve())
        point = point_shown(self.app, 'b5')
        lines = list(certificate.lines_of(self.app, table, [point], 'First', None, Guarantees(self.app)))
        self.assertEqual(lines[1:], ['    in no run, by ' + text.replace(': ', ': First: ', 1) for text in GONE])
        self.assertEqual(len(list(certificate.lines_of(self.app, table, [point], 'First'))), 1)
        self.assertEqual(list(certificate.lines_of(self.app, table, [IDLE_POINT] if IDLE_POINT in table else [], None, None, Guarantees(self.app)))[1:], [])
        self.assertNotIn(HALT_POINT, table)

    def test_a_page(self):
        told = analysis_told.table_data(self.app, why.table_of(why.Analysis(self.app).solve()), set())
        gone = [told['words'][number] for number in told['points']['b5'] if told['words'][number].startswith('in no run')]
        self.assertEqual(gone, ['in no run, by ' + text.replace(': ', ': First: ', 1) for text in GONE])

    def test_edges(self):
        """Who goes on inside of the group doesn't go on behind another one of it: at b0 Second doesn't come back to b5, nor at b5 First."""
        show = read_show(least_table.show(self.app))
        with tempfile.TemporaryDirectory() as folder:
            names = [os.path.join(folder, name) for name in ('a.image', 'a.table')]
            model.store(self.app, None, *names)
            gone = run_edges.in_no_run(show, *names)
            with open(os.path.join(folder, 'a.show'), 'w', encoding='ascii') as file:
                file.write(least_table.show(self.app))
            words = [sys.executable, os.path.join(TOOLS, 'graph.py'), '--certificate', *names, file.name]
            drawn = subprocess.run(words, capture_output=True, text=True, check=True)
        self.assertEqual((drawn.stderr, drawn.stdout.count('->')), ('graph.py: 5 of 52 edges are in no run, and left out\n', 47))
        self.assertEqual({tuple(map(text_of, edge)): law for edge, law in gone.items()}, {
            ('b0', 'b5'): GROUPS, ('b2', 'b5'): GROUPS, ('b5', 'b0'): GROUPS, ('b5', 'b1'): BEGUN, ('b5', 'b2'): GROUPS})
        marks = graph_record.Marks(show._replace(edges=[edge for edge in show.edges if edge not in gone]), gone)
        marks.take('b0\nb4\nb5\nb1\n', 'r')
        self.assertEqual((marks.told(), marks.told_alarm()), (
            'edges 2 of 47, points 3 of 27, and 5 edges of the table in no run',
            'r: alarm 3 b1, which the table has and no run, by %s; may follow b5: idle, b9/Second' % BEGUN))

    def test_a_denial(self):
        analysis = why.Analysis(self.app).solve()
        with tempfile.TemporaryDirectory() as folder:
            at_image, at_table = (os.path.join(folder, name) for name in ('a.image', 'a.table'))
            for name, data in ((at_image, image.image(self.app, analysis.shown, analysis.noted)), (at_table, spelled(self.app, why.table_of(analysis)))):
                with open(name, 'wb') as file:
                    file.write(data)
            lines = explain.explained('%s: N2 b5' % at_table, ['check', at_image, at_table], explain.rules_of(explain.guide()))
            self.assertEqual(lines[1:3], ['    the table has what is in no run, by ' + text.replace(': ', ': First: ', 1) for text in GONE])
            self.assertTrue(lines[3].startswith('    look first: '))
            self.assertEqual(causes.in_no_run(['check', at_image, at_table], 'b4'), causes.in_no_run(['check', at_image, at_table], 'b5'))
        self.assertEqual(causes.in_no_run(['check', at_image, at_table], 'b5'), [])
