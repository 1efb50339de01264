"""The functions of C files, by clang: its preprocessor and its parser say what stands there, and its syntax tree is read as JSON."""
import json
import os
import shutil
import subprocess
import tempfile
from collections import namedtuple

from lib.given import Wrong

Function = namedtuple('Function', 'name file is_static is_weak parameters body')
"""A function that has a body: its name and file, whether other files see it, whether it gives way to another one of the name, the ids of its
parameters, and the tree of its body."""

PLACES = ('loc', 'range', 'begin', 'end', 'spellingLoc', 'expansionLoc')

HEADERS = ('os.h', 'Os.h', 'osek.h', 'kernel.h', 'ee.h', 'tpl_os.h')
"""The names by which C files include the operating system."""

OS_HEADER = '''#ifndef OSEKFIT_OS_H
#define OSEKFIT_OS_H
typedef unsigned char StatusType;
typedef int TaskType, ResourceType, AlarmType, AppModeType, ISRType;
typedef unsigned long long EventMaskType;
typedef unsigned int TickType;
typedef enum { SUSPENDED, READY, WAITING, RUNNING } TaskStateType;
typedef struct { TickType maxallowedvalue, ticksperbase, mincycle; } AlarmBaseType;
typedef TaskType *TaskRefType;
typedef TaskStateType *TaskStateRefType;
typedef EventMaskType *EventMaskRefType;
typedef TickType *TickRefType;
typedef AlarmBaseType *AlarmBaseRefType;
enum { E_OK, E_OS_ACCESS, E_OS_CALLEVEL, E_OS_ID, E_OS_LIMIT, E_OS_NOFUNC, E_OS_RESOURCE, E_OS_STATE, E_OS_VALUE };
#define INVALID_TASK (-1)
#define TASK(name) void osekfit_task_##name(void)
#define ISR(name) void osekfit_isr_##name(void)
#define DeclareTask(name) extern const TaskType name
#define DeclareResource(name) extern const ResourceType name
#define DeclareEvent(name) extern const EventMaskType name
#define DeclareAlarm(name) extern const AlarmType name
StatusType ActivateTask(TaskType), TerminateTask(void), ChainTask(TaskType), Schedule(void), GetTaskID(TaskRefType);
StatusType GetTaskState(TaskType, TaskStateRefType), GetResource(ResourceType), ReleaseResource(ResourceType);
StatusType SetEvent(TaskType, EventMaskType), ClearEvent(EventMaskType), GetEvent(TaskType, EventMaskRefType), WaitEvent(EventMaskType);
StatusType GetAlarmBase(AlarmType, AlarmBaseRefType), GetAlarm(AlarmType, TickRefType), SetRelAlarm(AlarmType, TickType, TickType);
StatusType SetAbsAlarm(AlarmType, TickType, TickType), CancelAlarm(AlarmType);
AppModeType GetActiveApplicationMode(void);
void StartOS(AppModeType), ShutdownOS(StatusType);
void SuspendAllInterrupts(void), ResumeAllInterrupts(void), SuspendOSInterrupts(void), ResumeOSInterrupts(void);
void DisableAllInterrupts(void), EnableAllInterrupts(void);
%s
#endif
'''

TASK, ISR = 'osekfit_task_', 'osekfit_isr_'
"""What the names of the functions of tasks and of routines begin with."""


def header(app, modes):
    """The header of the operating system, with the names of an application."""
    names = [('TaskType', task.name) for task in app.tasks] + [('ResourceType', found.name) for found in app.resources]
    names += [('EventMaskType', name) for name in app.events] + [('AlarmType', alarm.name) for alarm in app.alarms] + [('AppModeType', mode) for mode in modes]
    return OS_HEADER % '\n'.join('extern const %s %s;' % pair for pair in names)


class Sources:
    """The functions of some files, and the ids of their extern variables, each with its file."""

    def __init__(self, app, names, options):
        if shutil.which('clang') is None:
            raise Wrong('clang is wanted, and not on the PATH')
        self.functions, self.externs = [], set()
        with tempfile.TemporaryDirectory(prefix='osekfit-c-') as folder:
            for name in HEADERS:
                with open(os.path.join(folder, name), 'w') as out:
                    out.write(header(app, app.modes))
            for name in names:
                self.read(name, ['-I', folder, *options])

    def read(self, name, options):
        words = ['clang', '-fsyntax-only', '-w', '-Xclang', '-ast-dump=json', *options, name]
        done = subprocess.run(words, stdin=subprocess.DEVNULL, stdout=subprocess.PIPE, stderr=subprocess.PIPE)
        if done.returncode:
            raise Wrong((done.stderr.decode('utf-8', 'replace').splitlines() or ['%s: clang can not read it' % name])[0])
        tree = json.loads(done.stdout)
        self.externs |= {(name, number) for number in Lines().walk(tree)}
        for node in tree['inner']:
            body = next((one for one in node.get('inner', []) if one.get('kind') == 'CompoundStmt'), None)
            if node['kind'] == 'FunctionDecl' and body:
                parameters = [one['id'] for one in node['inner'] if one['kind'] == 'ParmVarDecl']
                is_weak = any(one['kind'] == 'WeakAttr' for one in node['inner'])
                self.functions.append(Function(node['name'], name, node.get('storageClass') == 'static', is_weak, parameters, body))

    def named(self, name, file):
        """The function that a name means in a file, or None: one of its own, else the one that a linker takes."""
        found = [one for one in self.functions if one.name == name and (one.file == file or not one.is_static)]
        return min(found, key=lambda one: (one.is_weak, one.file != file), default=None)


class Lines:
    """Writes file and line to each place of a tree, where clang leaves out what is as in the place before; and its value to each name of an
    enumerator."""

    def __init__(self):
        self.file, self.line, self.enumerators = '', 0, {}

    def walk(self, node):
        """Goes through a tree in its order; the ids of the variables that are declared as extern."""
        if node.get('kind') == 'VarDecl' and node.get('storageClass') == 'extern':
            yield node['id']
        if node.get('kind') == 'EnumDecl':
            self.enumerators.update(enumerators(node))
        if node.get('kind') == 'DeclRefExpr' and node['referencedDecl']['id'] in self.enumerators:
            node['referencedDecl']['value'] = self.enumerators[node['referencedDecl']['id']]
        for key, value in list(node.items()):
            if key in PLACES and isinstance(value, dict):
                self.place(value)
            elif key == 'inner':
                for one in value:
                    yield from self.walk(one)

    def place(self, value):
        if 'offset' in value:
            self.file, self.line = value.get('file', self.file), value.get('line', self.line)
            value['at'] = self.file, self.line
        for key, inner in value.items():
            if key in PLACES and isinstance(inner, dict):
                self.place(inner)


def enumerators(node):
    """The values of the enumerators of an enumeration, by their ids."""
    last = -1
    for one in node.get('inner', []):
        if one['kind'] == 'EnumConstantDecl':
            said = next((part['value'] for part in one.get('inner', []) if part['kind'] == 'ConstantExpr' and 'value' in part), None)
            last = int(said) if said is not None else last + 1
            yield one['id'], last


def place_of(node):
    """The file and the line where a node begins; of what a macro made, where the macro stands."""
    begin = node.get('range', {}).get('begin', {})
    return begin.get('expansionLoc', begin).get('at', ('', 0))
