"""Tests of certificates: their bytes, their faults, what the model says of them, and how they are told; `tools/run_tests.py` runs
them too. The bytes of the worked table and what is said of changed ones weren't taken from this model."""
import contextlib
import io
import itertools
import os
import tempfile
import unittest
from collections import Counter
from xml.etree import ElementTree

import certificate
import model
from lib import certificate_chart, certified, image, table_bytes
from lib.application import application_of
from lib.given import Wrong, contents, data
from lib.image_reader import read_image
from lib.least_table import Analysis
from lib.points import HALT_POINT, IDLE_POINT, block_of, executing_at, points_of
from lib.table_bytes import Fault, read_table, spelled
from tests import EXAMPLES

CODE = 'TASK(T1) { ActivateTask(T2); TerminateTask(); }\nTASK(T2) { TerminateTask(); }\n'

WORKED = application_of('CPU c { OS os; TASK T1 { PRIORITY = 1; AUTOSTART = TRUE; }; TASK T2 { PRIORITY = 2; }; };', CODE)
"""T1 activates T2, which is above it. T1 has the blocks b0 to b2, and T2 has b3 and b4."""

ONE_TASK = application_of('CPU c { OS os; TASK T1 { PRIORITY = 1; AUTOSTART = TRUE; }; };', 'TASK(T1) { TerminateTask(); }')

TABLE = bytes.fromhex('4f53454b54414202' '00' '01' '00000001' '00' '00000001' '00' '01' '00000001' '010000000000' '00000001' '00'
                      '01' '00000001' '010001000000' '00000001' '00' '00' '01' '00000001' '010001000000' '00000001' '010003000000' '00')
"""The table that certifies the image of WORKED."""

FIRST_VERSION = bytes.fromhex(
    '4f53454b46495401' '00' '020000000101' '0005' '025431' '0001' '01' '0000000000000000' '01' '0000' '0003'
    '025432' '0002' '01' '0000000000000000' '00' '0003' '0002' '0d5245535f5343484544554c4552' '00000005' '104f5344454641554c544150504d4f4445'
    '03' '00' '00000001' '01' '0001' '0201' '04' '00' '00000001' '0002' '02ff' '16' '00' '00000001' '0000'
    '04' '00' '00000002' '0004' '0200' '16' '00' '00000002' '0000')
"""The image of WORKED as version 1 has it."""

S = (table_bytes.SUSPENDED,)
"""The value of a suspended task."""


def L(block):
    """The value of a live task that holds nothing."""
    return (table_bytes.LIVE, block, 0, 0, 0)


def at(app, block):
    return next(point for point in points_of(app) if block_of(point) == block)


def image_of(app):
    analysis = Analysis(app).solve()
    return image.image(app, analysis.shown, analysis.noted)


def fault_of(app, data):
    """The fault of a table's bytes as `check` has it, or None."""
    try:
        read_table(app, data)
    except Fault as fault:
        return '%s at %d' % (fault.rule, fault.offset)
    return None


def every_value(app, point):
    """The sets of all values that are possible at a point."""
    found = []
    for task in range(len(app.tasks)):
        shape = table_bytes.Shapes(app).at(point, task)
        stacks = [stack for k in range(len(app.resources) + 1) for stack in itertools.permutations(shape.resources, k)]
        live = [(table_bytes.LIVE, block, 0, 0, len(stack)) + stack for block in shape.live for stack in stacks]
        found.append(sorted([S] * (table_bytes.SUSPENDED in shape.tags) + live + [(table_bytes.WAITING, block) for block in shape.waiting]))
    return found + [[0, 1]] * (len(app.own_bits()) + len(app.alarms))


class Bytes(unittest.TestCase):
    def test_the_worked_table(self):
        self.assertEqual(certified.certified(WORKED), (image_of(WORKED), TABLE))
        self.assertEqual(len(image_of(WORKED)), 149)

    def test_images_and_tables_are_read_as_they_are_written(self):
        for name in ('first', 'lamp', 'engine'):
            path = os.path.join(EXAMPLES, name, name)
            app = application_of(contents(path + '.oil'), contents(path + '.code'))
            analysis = Analysis(app).solve()
            data = image.image(app, analysis.shown, analysis.noted)
            stored, table = read_image(data), certified.table_of(analysis)
            self.assertEqual(image.image(stored.app, analysis.shown, analysis.noted), data, name)
            self.assertEqual((stored.forms[app.sites()[0]], stored.version), (image.form(analysis.shown[app.sites()[0]]), 2), name)
            self.assertEqual(read_table(stored.app, spelled(app, table)), table, name)
            self.assertIsNone(certified.Check(stored, table).denial(), name)

    def test_cut_tables(self):
        due = {8: 8, 10: 10, 11: 10, 12: 10, 13: 10, 26: 26, 27: 26, 60: 59, 74: 74, **dict.fromkeys(range(8), 0)}
        self.assertEqual({k: fault_of(WORKED, TABLE[:k]) for k in due}, {k: 'K1 at %d' % place for k, place in due.items()})

    def test_each_byte_changed(self):
        stored, found = read_image(image_of(WORKED)), Counter()
        for place, change in itertools.product(range(len(TABLE)), (1, 128, 255)):
            data = TABLE[:place] + bytes([TABLE[place] ^ change]) + TABLE[place + 1:]
            fault = fault_of(WORKED, data)
            found[fault.split(' ')[0] if fault else (place, change, certified.Check(stored, read_table(WORKED, data)).denial())] += 1
        # T1 is ready at b0 at b3 then, and from b0 it comes there standing at b1
        self.assertEqual(found, {'K1': 2, 'K2': 24, 'K3': 162, 'K4': 34, 'K5': 2, (60, 1, ('N2', 'b0')): 1})

    def test_values_of_a_suspended_task(self):
        first = '010000000000'
        for text, due in (('00000000', 'K3 at 10'), ('00000001 020000', 'K3 at 14'), ('00000002 00 00', 'K4 at 15'),
                          ('00000002' + first + '00', 'K4 at 20'), ('00000002' + first + '020000', 'K3 at 20'), ('00000002 00', 'K4 at 15'),
                          ('ffffffff 00', 'K4 at 15')):
            self.assertEqual(fault_of(WORKED, TABLE[:10] + bytes.fromhex(text) + TABLE[15:]), due, text)

    def test_values_of_a_running_task(self):
        for text, due in (('00', 'K3 at 25'), ('01 0000 01', 'K3 at 28'), ('01 0000 00 01', 'K3 at 29'), ('01 0000 00 00 02', 'K3 at 30'),
                          ('01 0000 00 00 01 01', 'K3 at 31')):
            self.assertEqual(fault_of(WORKED, TABLE[:25] + bytes.fromhex(text) + TABLE[31:]), due, text)
        for place, block, due in ((42, 0, 'K3 at 42'), (59, 3, 'K3 at 59')):
            self.assertEqual(fault_of(WORKED, TABLE[:place] + image.number(block, 2) + TABLE[place + 2:]), due)

    def test_tables_of_other_applications_and_long_ones(self):
        other = certified.certified(ONE_TASK)[1]
        self.assertEqual((fault_of(WORKED, other), fault_of(ONE_TASK, TABLE)), ('K3 at 20', 'K5 at 17'))
        self.assertEqual(fault_of(WORKED, TABLE.ljust(16777216, b'\0')), 'K5 at 75')
        self.assertEqual(fault_of(WORKED, TABLE.ljust(16777217, b'\0')), 'K6 at 16777216')

    def test_event_bits_alarms_waiting_tasks_and_routines(self):
        app = application_of('CPU c { OS os { USERESSCHEDULER = FALSE; }; EVENT E; COUNTER C { MAXALLOWEDVALUE = 3; }; TASK T { PRIORITY = 1; EVENT = E; };'
                             ' ALARM A { COUNTER = C; ACTION = SETEVENT { TASK = T; EVENT = E; }; }; };', 'TASK(T) { WaitEvent(E); ClearEvent(E); }')
        head = b'OSEKTAB\2' b'\1'
        for text, due in (('00000001 020000 03 02 00000001 00 ' + '00' * 10, None), ('00000001 020001', 'K3 at 14'), ('00000001 00 00', 'K3 at 14'),
                          ('00000001 00 04', 'K3 at 14'), ('00000001 00 01 00', 'K3 at 15'), ('00000001 00 01 01 00000000', 'K3 at 16'),
                          ('00000001 00 01 01 00000001 01', 'K3 at 20')):
            self.assertEqual(fault_of(app, head + bytes.fromhex(text)), due, text)

    def test_bytes_that_are_no_image(self):
        for data in (b'', b'OSEKFIT', b'CPU c {', image_of(WORKED)[:60], image_of(WORKED) + b'\0', b'OSEKFIT\3' + image_of(WORKED)[8:]):
            self.assertRaises(Wrong, read_image, data)


class Verdicts(unittest.TestCase):
    def said(self, app, table, forms=None, known=None, data=None):
        """What is said of a table beside the image of an application, with other forms and other known statuses at some sites."""
        stored = read_image(data or image_of(app))
        stored = stored._replace(forms={**stored.forms, **(forms or {})}, known={**stored.known, **(known or {})})
        denial = certified.Check(stored, table).denial()
        return 'yes' if denial is None else '%s %s' % denial

    def changed(self, app=WORKED, without=(), **sets):
        """The least table without some points, and with other sets at some: the names are blocks, `idle` and `halt`."""
        table = certified.table_of(Analysis(app).solve())
        places = {'idle': IDLE_POINT, 'halt': HALT_POINT, **{'b%d' % block: at(app, block) for block in range(len(app.blocks))}}
        for name in without:
            del table[places[name]]
        for name, (first, second) in sets.items():
            old = table.get(places[name], [None, None])
            table[places[name]] = [first or old[0], second or old[1]]
        return table

    def test_points_are_missing(self):
        for names, due in ((['b0'], 'N1 OSDEFAULTAPPMODE'), (['b0', 'b3'], 'N1 OSDEFAULTAPPMODE'), (['idle'], 'N2 b1'), (['b1'], 'N2 b3'),
                           (['idle', 'b0', 'b1', 'b3'], 'N1 OSDEFAULTAPPMODE')):
            self.assertEqual(self.said(WORKED, self.changed(without=names)), due, names)

    def test_more_than_the_least(self):
        for sets, due in (({'b4': ([L(1)], [L(4)])}, 'N3 b4'), ({'b4': ([L(2)], [L(4)])}, 'N2 b4'), ({'halt': ([S, L(0)], [S, L(3), L(4)])}, 'yes'),
                          ({'idle': ([S, L(0)], None)}, 'yes'), ({'b3': ([L(0), L(1)], None)}, 'yes'), ({'b0': (None, [S, L(3)])}, 'N2 b0')):
            self.assertEqual(self.said(WORKED, self.changed(**sets)), due, sets)

    def test_every_value_everywhere(self):
        table = {point: every_value(WORKED, point) for point in points_of(WORKED)}
        forms, known = dict.fromkeys(range(5), image.GENERAL), dict.fromkeys(range(5), image.ANY)
        self.assertEqual(self.said(WORKED, table), 'N3 b0')
        self.assertEqual(self.said(WORKED, table, forms, known), 'yes')
        self.assertEqual(self.said(WORKED, table, forms, {**known, 1: image.NONE_NOTED}), 'N4 b1')

    def test_other_images(self):
        for forms, known, due in (({0: image.NEVER}, {}, 'N3 b0'), ({2: b'\2\0'}, {2: 5}, 'yes'), ({}, {0: 4}, 'N4 b0'), ({}, {0: image.ANY}, 'yes'),
                                  ({}, {0: image.NONE_NOTED}, 'N4 b0'), ({3: image.STAY}, {0: 4}, 'N3 b3'), ({1: image.STAY, 3: image.STAY}, {}, 'N3 b1')):
            self.assertEqual(self.said(WORKED, self.changed(), forms, known), due, (forms, known))
        self.assertEqual(self.said(WORKED, self.changed(), data=FIRST_VERSION), 'yes')

    def test_modes(self):
        app = application_of('CPU c { OS os; APPMODE M1; TASK T1 { PRIORITY = 1; AUTOSTART = TRUE { APPMODE = M1; }; }; TASK T2 { PRIORITY = 2; }; };', CODE)
        for names, due in (([], 'yes'), (['b0'], 'N1 M1'), (['idle'], 'N1 OSDEFAULTAPPMODE'), (['b0', 'idle'], 'N1 OSDEFAULTAPPMODE')):
            self.assertEqual(self.said(app, self.changed(app, names)), due, names)

    def test_files_are_stored_and_checked(self):
        with tempfile.TemporaryDirectory() as folder:
            names = [os.path.join(folder, name) for name in 'it']
            model.store(WORKED, None, *names)
            self.assertEqual([data(name) for name in names], [image_of(WORKED), TABLE])
            with contextlib.redirect_stdout(io.StringIO()) as out, contextlib.redirect_stderr(io.StringIO()) as err:
                statuses = [model.check(*names), model.check(names[0], names[0])]
        self.assertEqual((statuses, out.getvalue(), err.getvalue()), ([0, 11], 'yes\n', '%s:0: K2\n' % names[0]))

    def test_what_check_prints(self):
        data = image_of(WORKED)
        for changed, table, told in ((data, TABLE, (0, 'yes')), (data[:106] + image.GENERAL + data[108:], TABLE, (0, 'yes')),
                                     (data[:106] + image.STAY + data[108:], TABLE, (12, 't: N3 b0')), (data, TABLE[:74], (11, 't:74: K1')),
                                     (data, TABLE[:35] + b'\2' + TABLE[36:], (11, 't:35: K3')), (data, TABLE[:53] + b'\0' + TABLE[74:], (12, 't: N2 b0'))):
            self.assertEqual(certified.told(changed, table, 'i', 't'), told)


class Words(unittest.TestCase):
    def lines(self, app, table, **more):
        return list(certificate.lines_of(app, table, sorted(table), **more))

    def test_the_worked_table_in_words(self):
        app, table = certificate.certificate(image_of(WORKED), TABLE)
        due = ['idle  T1: suspended | T2: suspended', 'b0    T1: runs | T2: suspended', 'b1    T1: runs | T2: suspended', 'b3    T1: ready at b1, line 1 | T2: runs']
        self.assertEqual(self.lines(app, table), due)
        self.assertEqual(self.lines(app, table, only='T2'), ['idle  T2: suspended', 'b0    T2: suspended', 'b1    T2: suspended', 'b3    T2: runs'])
        self.assertEqual(self.lines(app, table, code=('c', CODE.splitlines()))[5:], ['-- c:2: TASK(T2) { TerminateTask(); }', due[3]])
        self.assertEqual(certificate.chosen_points(app, table, 'b3'), [at(app, 3)])
        for text in ('b2', 'b9', 'b3/T1', ''):
            self.assertRaises(Wrong, certificate.chosen_points, app, table, text)

    def test_events_alarms_stacks_and_routines(self):
        app = application_of('CPU c { OS os { USERESSCHEDULER = FALSE; }; EVENT E; EVENT F; RESOURCE R; COUNTER C { MAXALLOWEDVALUE = 3; };'
                             ' TASK T { PRIORITY = 1; EVENT = E; EVENT = F; }; TASK U { PRIORITY = 2; RESOURCE = R; }; ISR I { CATEGORY = 2; };'
                             ' ALARM A { COUNTER = C; ACTION = ACTIVATETASK { TASK = U; }; }; };',
                             'TASK(T) {\nWaitEvent(E);\n}\nTASK(U) { work 1;\nwork 1; }\nISR(I) { }\n')
        over = next(point for point in points_of(app) if block_of(point) == 5 and executing_at(app, point) == 1)
        table = {over: [[S, L(1), (2, 0)], [(1, 2, 0, 0, 1, 0), L(3)], [1], [0, 1], [0, 1]]}
        self.assertEqual(self.lines(app, table), [
            "b5/U  T: suspended or ready at b1, line 3 or waits at b0, line 2 | T's events: 1 set, 2 set or not | U: interrupted with R at b2, line 4 or "
            'interrupted at b3, line 5 | A: idle or armed'])

    def test_faults_are_told(self):
        with self.assertRaises(Wrong) as caught:
            certificate.certificate(image_of(WORKED), TABLE[:74], ('i', 't'))
        self.assertEqual(str(caught.exception), 't: K1 at byte 74 (0x4a): the bytes end early')

    def test_the_picture(self):
        for app, table in ((WORKED, read_table(WORKED, TABLE)), (ONE_TASK, {})):
            words = [e.text for e in ElementTree.fromstring(certificate_chart.chart(app, table, 'A < B')).iter() if e.text]
            self.assertTrue({'A < B', 'T1', 'idle', 'b1'} <= set(words))
        self.assertIn('b3, T1: ready at b1, line 1', certificate_chart.chart(WORKED, read_table(WORKED, TABLE), ''))

    def test_the_picture_of_many_points(self):
        app = application_of('CPU c { OS os; TASK T1 { PRIORITY = 1; }; };', 'TASK(T1) { %s }' % ('work 1; ' * 700))
        svg = certificate_chart.chart(app, {at(app, k): [[L(k)]] for k in range(500)}, '')
        self.assertIn('T1', [e.text for e in ElementTree.fromstring(svg).iter()])
        self.assertLess(svg.count('<rect'), 10)
