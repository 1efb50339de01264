"""Tests of flatten.py. The files in tests/oil are written for them in the manner of the tools that makers of controllers use; what has to come out
was worked out by hand from the table of attributes in docs/LANGUAGE.md."""
import os
import subprocess
import sys
import tempfile
import unittest

from lib import explained, oil, rules
from lib.application import application_of
from lib.given import Wrong
from lib.oil_tokens import Files
from tests import TOOLS

FOLDER = os.path.join(TOOLS, 'tests', 'oil')

DRUID = '''CPU mySystem {
  OS myOs { STATUS = EXTENDED; STARTUPHOOK = FALSE; ERRORHOOK = TRUE; USERESSCHEDULER = FALSE; };
  COUNTER system_timer { MINCYCLE = 1; MAXALLOWEDVALUE = 2147483647; TICKSPERBASE = 1; };
  EVENT TimerEvent { MASK = AUTO; };
  RESOURCE Bus { RESOURCEPROPERTY = STANDARD; };
  TASK TaskSensor { PRIORITY = 0x02; SCHEDULE = FULL; AUTOSTART = TRUE; ACTIVATION = 1; EVENT = TimerEvent; RESOURCE = Bus; };
  TASK TaskLog { PRIORITY = 0x01; SCHEDULE = NON; ACTIVATION = 2; RESOURCE = Bus; };
  ALARM AcquireAlarm { COUNTER = system_timer; ACTION = SETEVENT { TASK = TaskSensor; EVENT = TimerEvent; };
    AUTOSTART = TRUE { ALARMTIME = 10; CYCLETIME = 10; }; };
};'''

GOIL = '''CPU only_one_periodic_task {
  OS config { STATUS = EXTENDED; };
  APPMODE std;
  COUNTER SystemCounter { MAXALLOWEDVALUE = 32767; TICKSPERBASE = 1; MINCYCLE = 1; };
  EVENT got { MASK = 0x1; };
  RESOURCE outer { RESOURCEPROPERTY = STANDARD; };
  TASK my_periodic_task { PRIORITY = 2; AUTOSTART = FALSE; ACTIVATION = 1; SCHEDULE = FULL; };
  TASK reader { PRIORITY = 3; AUTOSTART = TRUE { APPMODE = std; }; ACTIVATION = 1; SCHEDULE = FULL; EVENT = got; };
  ISR buttonInt { CATEGORY = 2; PRIORITY = 20; };
  ALARM one_second { COUNTER = SystemCounter; ACTION = ACTIVATETASK { TASK = my_periodic_task; };
    AUTOSTART = TRUE { ALARMTIME = 100; CYCLETIME = 100; APPMODE = std; }; };
};'''

TRESOS = '''CPU tresos {
  OS OsOS_0 { STATUS = EXTENDED; USERESSCHEDULER = FALSE; ERRORHOOK = TRUE; STARTUPHOOK = FALSE; };
  APPMODE OSDEFAULTAPPMODE;
  COUNTER Gpt { MAXALLOWEDVALUE = 65535; MINCYCLE = 1; };
  EVENT Frame;
  RESOURCE Buffer { RESOURCEPROPERTY = STANDARD; };
  TASK Com10ms { PRIORITY = 5; ACTIVATION = 1; SCHEDULE = FULL; EVENT = Frame; RESOURCE = Buffer; AUTOSTART = TRUE { APPMODE = OSDEFAULTAPPMODE; }; };
  ISR CanRx { CATEGORY = 2; PRIORITY = 7; };
  ALARM Cycle { COUNTER = Gpt; ACTION = SETEVENT { EVENT = Frame; TASK = Com10ms; }; AUTOSTART = TRUE { ALARMTIME = 10; CYCLETIME = 10; }; };
};'''

TRESOS_CODE = 'TASK(Com10ms) { while (1) { WaitEvent(Frame); ClearEvent(Frame); GetResource(Buffer); ReleaseResource(Buffer); } } ISR(CanRx) { }'

DRUID_PIC = '''CPU mySystem {
  OS myOs { USERESSCHEDULER = FALSE; };
  COUNTER myCounter { MAXALLOWEDVALUE = 100; };
  COUNTER sys { MINCYCLE = 1; MAXALLOWEDVALUE = 0xFFFF; TICKSPERBASE = 1; };
  EVENT TimerEvent { MASK = AUTO; };
  EVENT ButtonEvent { MASK = AUTO; };
  RESOURCE mutex { RESOURCEPROPERTY = STANDARD; };
  TASK Task1 { PRIORITY = 0x01; SCHEDULE = FULL; AUTOSTART = FALSE; ACTIVATION = 6; };
  TASK Task2 { PRIORITY = 0x02; SCHEDULE = FULL; EVENT = TimerEvent; EVENT = ButtonEvent; RESOURCE = mutex; };
  ISR button { CATEGORY = 2; PRIORITY = 3; };
  ALARM AlarmTask1 { COUNTER = sys; ACTION = ACTIVATETASK { TASK = Task1; }; };
};'''

GOIL_MODES = '''CPU events {
  OS config { PRETASKHOOK = FALSE; STATUS = EXTENDED; USERESSCHEDULER = FALSE; };
  APPMODE std;
  APPMODE diag;
  COUNTER SystemTimer { MAXALLOWEDVALUE = 65535; MINCYCLE = 2; };
  EVENT tick { MASK = AUTO; };
  TASK first { PRIORITY = 8; AUTOSTART = TRUE { APPMODE = std; APPMODE = diag; }; SCHEDULE = FULL; EVENT = tick; };
  TASK second { PRIORITY = 2; AUTOSTART = FALSE; SCHEDULE = NON; };
  ISR stop { CATEGORY = 2; PRIORITY = 1; };
  ALARM al { COUNTER = SystemTimer; ACTION = SETEVENT { TASK = first; EVENT = tick; };
    AUTOSTART = TRUE { APPMODE = std; ALARMTIME = 100; CYCLETIME = 0; }; };
};'''

CORES = '''CPU cores {
  OS OsOS;
  APPMODE Normal;
  APPMODE Update;
  TASK Init { PRIORITY = 100; SCHEDULE = NON; AUTOSTART = TRUE { APPMODE = Normal; APPMODE = Update; }; };
};'''

HEAD = 'CPU c { OS os; '


def words_of(text):
    """The words of a text, without what says where its lines come from."""
    return ' '.join(line.partition('  //')[0] for line in text.splitlines()).replace('{', ' { ').replace('}', ' } ').replace(';', ' ; ').split()


def flat(*words, given=None):
    """What comes out, the lines of standard error, and the status."""
    done = subprocess.run([sys.executable, os.path.join(TOOLS, 'flatten.py'), *words], cwd=FOLDER, stdout=subprocess.PIPE, stderr=subprocess.PIPE,
                          **({'input': given.encode()} if given is not None else {'stdin': subprocess.DEVNULL}))
    return done.stdout.decode(), done.stderr.decode().splitlines(), done.returncode


class Flatten(unittest.TestCase):
    def test_files_of_projects(self):
        corpus = {'druid.oil': DRUID, 'druid_pic.oil': DRUID_PIC, 'goil.oil': GOIL, 'goil_modes.oil': GOIL_MODES, 'tresos.arxml': TRESOS, 'cores.arxml': CORES}
        self.assertEqual(set(corpus) | {'druid_board.oil'}, set(os.listdir(FOLDER)))
        for name, due in corpus.items():
            with self.subTest(name):
                text = flat(*(['--arxml'] if name.endswith('.arxml') else []), name)[0]
                self.assertEqual(words_of(text), words_of(due))
                rules.judge_objects(oil.objects_of(text, name), name)

    def test_defaults_of_an_implementation(self):
        """An object has them where it says nothing, with the line of the definition; NO_DEFAULT is none, and AUTO is one of a mask alone."""
        self.assertIn('    SCHEDULE = NON;  // from goil_modes.oil:12\n', flat('goil_modes.oil')[0])
        given = 'IMPLEMENTATION i { TASK { UINT32 PRIORITY = 3; UINT32 ACTIVATION = AUTO; ENUM [NON { UINT32 X = 1; }, FULL] SCHEDULE[] = NON; }; };' + HEAD
        self.assertEqual(words_of(flat(given=given + 'TASK T; TASK T { SCHEDULE = FULL; }; };')[0]),
                         words_of('CPU c { OS os; TASK T { SCHEDULE = FULL; PRIORITY = 3; }; };'))

    def test_names_between_quotation_marks(self):
        given = HEAD + 'COUNTER C { MAXALLOWEDVALUE = 9; }; ALARM A { COUNTER = "C"; ACTION = ACTIVATETASK { TASK = "T"; }; }; TASK T { PRIORITY = "1"; }; };'
        text, told, status = flat(given=given)
        self.assertIn('ALARM A { COUNTER = C ; ACTION = ACTIVATETASK { TASK = T ; } ; } ;', ' '.join(words_of(text)))
        self.assertEqual((told, status), (['standard input:1: warning: PRIORITY = "1" of TASK T is dropped: a text is no value here'], 1))

    def test_arxml_tells_what_it_cannot_carry(self):
        _, told, status = flat('--arxml', 'cores.arxml')
        self.assertEqual((told, status), (['cores.arxml:11: warning: 2 cores: all tasks are taken to run on one, one at a time',
                                           'cores.arxml:30: note: OsIoc Queue is dropped: there is no communication between applications',
                                           'cores.arxml:31: note: SPINLOCK Lock is dropped: there is one core'], 1))

    def test_where_lines_come_from(self):
        text, _, _ = flat('druid.oil')
        self.assertIn('    MINCYCLE = 1;  // from druid_board.oil:8\n', text)
        self.assertIn('    PRIORITY = 0x02;  // from druid.oil:25\n', text)

    def test_what_is_dropped_is_told(self):
        _, told, status = flat('goil.oil')
        self.assertEqual(status, 1)
        self.assertEqual([line.split(' is dropped')[0] for line in told if 'warning' in line],
                         ['goil.oil:46: warning: MESSAGE msg_in', 'goil.oil:50: warning: SCHEDULETABLE table', 'goil.oil:51: warning: RESOURCE inner'])
        self.assertIn('note: TASK.STACKSIZE has no effect, and is left out (1)', told)

    def test_arxml_makes_an_application(self):
        text, told, _ = flat('--arxml', 'tresos.arxml')
        app = application_of(text, TRESOS_CODE)
        self.assertEqual([(source.mark + source.name, source.priority) for source in app.sources], [('%Gpt', 0), ('@CanRx', 7)])
        self.assertEqual((app.alarms[0].time, app.alarms[0].cycle, app.hooks), (10, 10, ['Error']))
        self.assertIn('tresos.arxml:73: warning: SCHEDULETABLE Startup is dropped', told[0])

    def test_nothing_dropped(self):
        self.assertEqual(flat(given=HEAD + 'TASK T { PRIORITY = 1; }; };')[1:], ([], 0))

    def test_a_task_in_two_parts(self):
        text, told, _ = flat(given=HEAD + 'TASK T { PRIORITY = 1; }; TASK T { SCHEDULE = NON; PRIORITY = 2; RESOURCE = A; RESOURCE = B; }; };')
        self.assertEqual(words_of(text), words_of('CPU c { OS os; TASK T { PRIORITY = 1; SCHEDULE = NON; RESOURCE = A; RESOURCE = B; }; };'))
        self.assertIn('PRIORITY of TASK T stands a second time, and the first one counts', told[0])

    def test_numbers_with_a_point(self):
        _, told, status = flat(given=HEAD + 'ALARM A { COUNTER = C; ACTION = ACTIVATETASK { TASK = T; }; AUTOSTART = TRUE { ALARMTIME = 0.5; CYCLETIME = 1; }; }; };')
        self.assertEqual((told, status), (['standard input:1: warning: ALARMTIME = 0.5 of ALARM A is dropped: numbers are whole here'], 1))

    def test_a_linked_resource_goes_from_its_tasks(self):
        text, told, _ = flat(given=HEAD + 'RESOURCE L { RESOURCEPROPERTY = LINKED { LINKEDRESOURCE = R; }; }; RESOURCE R; TASK T { PRIORITY = 1; RESOURCE = L; RESOURCE = R; }; };')
        self.assertEqual(words_of(text), words_of('CPU c { OS os; RESOURCE R; TASK T { PRIORITY = 1; RESOURCE = R; }; };'))
        self.assertEqual(len(told), 2)

    def test_lines_of_a_preprocessor(self):
        text, _, _ = flat(given='# 1 "big.oil"\n# 7 "inc/os.oil" 1\nCPU c {\nOS os;\n# 3 "big.oil" 2\nTASK T { PRIORITY = 1; }; };')
        self.assertIn('  OS os;  // from inc/os.oil:8\n', text)
        self.assertIn('  TASK T {  // from big.oil:3\n', text)

    def test_refusals(self):
        for given, due in [('#define A 1\nCPU c { };', 'standard input:1: #define: a preprocessor does that first'),
                           ('#include "nowhere.oil"\n', 'standard input:1: nowhere.oil is in none of the folders'),
                           ('TASK T { };', 'standard input:1: OIL_VERSION, IMPLEMENTATION or CPU is wanted, not TASK'),
                           ('CPU c { TASK T { PRIORITY 1; }; };', 'standard input:1: = is wanted, not 1'),
                           ('CPU c { OS os;', 'standard input:1: the text ends too early'),
                           ('', 'standard input: there is no CPU')]:
            with self.subTest(due):
                _, told, status = flat(given=given)
                self.assertEqual((status, len(told)), (2, 1))
                self.assertIn(due, told[0])

    def test_files_that_include_each_other(self):
        with tempfile.TemporaryDirectory() as folder:
            file = os.path.join(folder, 'a.oil')
            with open(file, 'w') as out:
                out.write('#include "a.oil"\n')
            with self.assertRaisesRegex(Wrong, 'include each other without an end'):
                Files([]).tokens(file)

    def test_explain_tells_the_place(self):
        with tempfile.TemporaryDirectory() as folder:
            file = os.path.join(folder, 'app.oil')
            with open(file, 'w') as out:
                out.write('CPU c {\n    PRIORITY = 70000;  // from big.oil:9\n')
            self.assertEqual(explained.origin(file, 2), ['    from: big.oil:9'])
            self.assertEqual(explained.origin(file, 1), [])


if __name__ == '__main__':
    unittest.main()
