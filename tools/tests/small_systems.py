"""Small systems with several activations, shared priorities, INTERNAL resources and nested routines, for test_systems.py. None of
the forms, numbers and lines that stand here was taken from this model; some whole lines were worked out by hand."""
from collections import namedtuple

System = namedtuple('System', 'oil code forms numbers runs')
"""The objects of the OIL text; the bodies; the forms of sites by block, where each other one is `never` or `direct -`; points, height, values and
edges; and runs, pairs of events and of some lines of their traces."""


def task(name, priority, *words):
    """A task; the words are `auto`, or parts of the object as OIL has them."""
    parts = ['AUTOSTART = TRUE;' if word == 'auto' else word + ';' for word in words]
    return 'TASK %s { PRIORITY = %d; %s };' % (name, priority, ' '.join(parts))


def isr(name, priority, *resources):
    return 'ISR %s { CATEGORY = 2; PRIORITY = %d; %s };' % (name, priority, ' '.join('RESOURCE = %s;' % r for r in resources))


def forms(**found):
    """The forms by block: `b0='stay'`."""
    return {int(block[1:]): form for block, form in found.items()}


def bodies(*pairs):
    """Task code: pairs of a name, of a task where it begins with T, and statements."""
    return ''.join('%s(%s) { %s }\n' % ('TASK' if name[0] == 'T' else 'ISR', name, text) for name, text in pairs)


G, R = 'RESOURCE G { RESOURCEPROPERTY = INTERNAL; };', 'RESOURCE R;'

END, LOOP = 'TerminateTask();', 'while (1) { }'

LOOPING = task('T1', 1, 'auto')
"""The task of most systems with routines, which loops for ever."""


def runs(count):
    return ['run 0'] * count


ACTIVATIONS = {
    'a chain behind an activation': System(
        task('T0', 0, 'SCHEDULE = NON', 'auto') + task('T1', 1) + task('T2', 1),
        bodies(('T0', 'ActivateTask(T2); ChainTask(T1);'), ('T1', ''), ('T2', '')),
        forms(b0='stay', b1='direct T2', b4='direct T1'), (7, 18, 15, 4), []),
    'a second activation behind another task': System(
        task('T1', 1, 'ACTIVATION = 2', 'auto') + task('T2', 1, 'auto'),
        bodies(('T1', 'ActivateTask(T1); TerminateTask();'), ('T2', END)),
        forms(b0='stay', b1='general', b3='direct T1'), (7, 23, 8, 4),
        [(runs(2), ['1 T1 T1=R*1 T2=Y !E_OK', '2 T2 T1=Y T2=R'])]),
    'a chain to itself goes last': System(
        task('T1', 1, 'auto') + task('T2', 1, 'auto'), bodies(('T1', 'ChainTask(T1);'), ('T2', END)),
        forms(b0='general', b2='direct T1'), (6, 14, 5, 3), [(runs(1), ['1 T2 T1=Y T2=R'])]),
    'a chain to itself with activations left': System(
        task('T1', 1, 'ACTIVATION = 3', 'auto') + task('T2', 1, 'auto'), bodies(('T1', 'ActivateTask(T1); ChainTask(T1);'), ('T2', END)),
        forms(b0='stay', b1='general', b3='direct T1'), (7, 29, 12, 4),
        [(runs(6), ['1 T1 T1=R*1 T2=Y !E_OK', '2 T2 T1=Y*1 T2=R', '6 T1 T1=R*2 T2=S !E_OS_LIMIT'])]),
    'full by activations, or by waiting': System(
        'EVENT E;' + task('T1', 2, 'auto') + task('T2', 1, 'ACTIVATION = 2') + task('T3', 3, 'auto', 'EVENT = E'),
        bodies(('T1', 'ActivateTask(T2); ActivateTask(T2); ActivateTask(T2); ActivateTask(T3); TerminateTask();'), ('T2', END),
               ('T3', 'WaitEvent(E);')),
        forms(b0='stay', b1='stay', b2='stay', b3='stay', b4='direct T2', b6='general', b8='direct T1'), (12, 39, 33, 8),
        [(runs(5), ['4 T1 T1=R T2=Y*1 T3=W:0 !E_OS_LIMIT', '5 T1 T1=R T2=Y*1 T3=W:0 !E_OS_LIMIT'])]),
    'a woken task goes last': System(
        'EVENT E;' + task('T1', 2, 'auto', 'EVENT = E') + task('T2', 2, 'auto') + task('T3', 1, 'auto'),
        bodies(('T1', 'WaitEvent(E); TerminateTask();'), ('T2', 'SetEvent(T1, E); TerminateTask();'), ('T3', END)),
        forms(b0='direct T2', b1='direct T3', b3='stay', b4='direct T1'), (10, 29, 24, 5), []),
    'an end gives back for the next activation': System(
        R + task('T1', 1, 'ACTIVATION = 2', 'auto', 'RESOURCE = R') + task('T2', 2, 'RESOURCE = R'),
        bodies(('T1', 'GetResource(R); ActivateTask(T1); ActivateTask(T2);'), ('T2', '')),
        forms(b1='stay', b2='stay', b3='direct T2', b4='direct T1'), (7, 52, 10, 5),
        [(runs(5), ['2 T1 T1=R*1+R T2=S !E_OK', '5 T1 T1=R T2=S'])]),
    'several activations in order': System(
        task('T1', 1, 'ACTIVATION = 2', 'auto') + task('T2', 1),
        bodies(('T1', 'ActivateTask(T2); ActivateTask(T1); TerminateTask();'), ('T2', END)),
        forms(b0='stay', b1='stay', b2='general', b4='direct T1'), (8, 28, 9, 5),
        [(runs(5), ['0 T1 T1=R T2=S', '1 T1 T1=R T2=Y !E_OK', '2 T1 T1=R*1 T2=Y !E_OK', '3 T2 T1=Y T2=R', '4 T1 T1=R T2=S',
                    '5 T1 T1=R T2=Y !E_OK'])]),
    'a preempted task is first of its priority': System(
        task('T1', 1, 'auto') + task('T2', 1) + task('T3', 2),
        bodies(('T1', 'ActivateTask(T2); ActivateTask(T3);'), ('T2', ''), ('T3', '')),
        forms(b0='stay', b1='direct T3', b2='general', b3='general', b4='general'), (7, 18, 20, 8),
        [(runs(3), ['2 T3 T1=Y T2=Y T3=R !E_OK', '3 T1 T1=R T2=Y T3=S'])]),
}
"""Systems of several activations and shared priorities."""

INTERNALS = {
    'a flag stays while preempted': System(
        G + task('T1', 1, 'auto', 'RESOURCE = G') + task('T2', 2) + task('T3', 3, 'RESOURCE = G') + task('T4', 4),
        bodies(('T1', 'ActivateTask(T2); ActivateTask(T4); Schedule(); ActivateTask(T3); TerminateTask();'), ('T2', END), ('T3', END), ('T4', END)),
        forms(b0='stay', b1='direct T4', b2='direct T2', b3='stay', b4='direct T3', b6='direct T1', b10='direct T1'), (14, 56, 36, 8),
        [(runs(4), ['2 T4 T1=Y+G T2=Y T3=S T4=R !E_OK', '4 T2 T1=Y T2=R T3=S T4=S !E_OK'])]),
    'a refused Schedule': System(
        G + R + task('T1', 1, 'auto', 'RESOURCE = G', 'RESOURCE = R') + task('T2', 2, 'RESOURCE = G'),
        bodies(('T1', 'GetResource(R); ActivateTask(T2); Schedule(); ReleaseResource(R); TerminateTask();'), ('T2', END)),
        forms(b1='stay', b2='stay', b3='stay', b4='direct T2'), (10, 90, 14, 6), [(runs(3), ['3 T1 T1=R+G+R T2=Y !E_OS_RESOURCE'])]),
    'a Schedule that dispatches none': System(
        G + task('T1', 1, 'auto', 'RESOURCE = G') + task('T2', 2, 'RESOURCE = G'),
        bodies(('T1', 'Schedule(); ActivateTask(T2); TerminateTask();'), ('T2', END)),
        forms(b0='stay', b1='stay', b2='direct T2'), (8, 32, 10, 4), []),
    'a woken task is not inside': System(
        G + 'EVENT E;' + task('T1', 1, 'auto', 'RESOURCE = G', 'EVENT = E') + task('T2', 2, 'auto', 'RESOURCE = G'),
        bodies(('T1', 'WaitEvent(E); ClearEvent(E); TerminateTask();'), ('T2', 'while (?) { SetEvent(T1, E); Schedule(); }')),
        forms(b0='general', b5='stay', b6='stay', b7='direct T1'), (10, 44, 29, 9), []),
    'an INTERNAL resource at a halt': System(
        G + task('T1', 1, 'auto', 'RESOURCE = G') + task('T2', 1, 'auto', 'RESOURCE = G'), bodies(('T1', 'ShutdownOS(E_OK);'), ('T2', '')),
        {}, (5, 17, 4, 1), [(runs(1), ['1 # T1=Y+G T2=Y'])]),
    'an INTERNAL resource': System(
        G + task('T1', 1, 'auto', 'RESOURCE = G') + task('T2', 2, 'RESOURCE = G'),
        bodies(('T1', 'ActivateTask(T2); Schedule(); TerminateTask();'), ('T2', END)),
        forms(b0='stay', b1='direct T2', b4='direct T1'), (8, 32, 10, 4),
        [(runs(4), ['0 T1 T1=R+G T2=S', '1 T1 T1=R+G T2=Y !E_OK', '2 T2 T1=Y T2=R+G !E_OK', '3 T1 T1=R+G T2=S', '4 - T1=S T2=S'])]),
}
"""Systems of INTERNAL resources."""

ROUTINES = {
    'a preempted task stays first over routines': System(
        task('T1', 1, 'auto') + task('T2', 1, 'auto') + task('T3', 2) + isr('I', 0),
        bodies(('T1', 'work 2;'), ('T2', ''), ('T3', ''), ('I', 'ActivateTask(T3);')),
        forms(b1='general', b2='general', b3='general', b5='general'), (14, 20, 73, 23),
        [(['run 0', 'irq I'] + runs(4), ['5 T3 T1=Y T2=Y T3=R', '6 T1 T1=R T2=Y T3=S'])]),
    'alarms count activations': System(
        'COUNTER C { MAXALLOWEDVALUE = 9; }; ALARM A { COUNTER = C; ACTION = ACTIVATETASK { TASK = T2; }; '
        'AUTOSTART = TRUE { ALARMTIME = 1; CYCLETIME = 1; }; };' + task('T1', 2, 'auto') + task('T2', 1, 'ACTIVATION = 2'),
        bodies(('T1', LOOP), ('T2', '')), forms(b5='stay'), (14, 19, 28, 4),
        [((['tick C'] + runs(4)) * 3, ['9 %C T1=R T2=Y*1 !E_OK', '14 %C T1=R T2=Y*1 !E_OS_LIMIT'])]),
    'a flag stays while routines come': System(
        G + task('T1', 1, 'auto', 'RESOURCE = G') + task('T2', 2) + task('T3', 2, 'RESOURCE = G') + task('T5', 5) + isr('I', 0),
        bodies(('T1', 'work 1; Schedule();'), ('T2', ''), ('T3', ''), ('T5', 'ActivateTask(T2);'), ('I', 'ActivateTask(T5);')),
        forms(b1='general', b2='general', b3='general', b5='stay', b6='general', b8='general'), (19, 38, 109, 29),
        [(['irq I'] + runs(7), ['4 T5 T1=Y+G T2=S T3=S T5=R', '8 T2 T1=Y T2=R T3=S T5=S !E_OK'])]),
    'an end below another routine': System(
        isr('I1', 1) + isr('I2', 2) + LOOPING + task('T2', 2),
        bodies(('T1', LOOP), ('T2', ''), ('I1', 'work 1; work 1;'), ('I2', 'ActivateTask(T2);')),
        forms(b2='direct T1', b5='general', b7='general'), (20, 23, 64, 28),
        [(['irq I1', 'run 0', 'irq I2'] + runs(6), ['5 @I2 T1=R T2=Y @I1 !E_OK', '6 @I1 T1=R T2=Y', '9 T2 T1=Y T2=R'])]),
    'equal priorities do not nest': System(
        isr('I1', 1) + isr('I2', 1) + 'COUNTER C { MAXALLOWEDVALUE = 3; };' + LOOPING,
        bodies(('T1', LOOP), ('I1', 'work 1;'), ('I2', 'work 1;')), forms(b3='stay', b5='stay', b7='stay'), (16, 20, 36, 17),
        [(['irq I2', 'irq I1', 'tick C'] + runs(7), ['4 @I1 T1=R', '7 @I2 T1=R', '10 %C T1=R'])]),
    "a routine's lock": System(
        isr('I1', 1) + isr('I2', 2) + LOOPING,
        bodies(('T1', LOOP), ('I1', 'SuspendAllInterrupts(); work 1; ResumeAllInterrupts(); work 1;'), ('I2', '')),
        forms(b6='stay', b7='stay'), (16, 21, 24, 14), []),
    'resources of routines': System(
        R + isr('I1', 1, 'R') + isr('I2', 2, 'R') + isr('I3', 3) + LOOPING,
        bodies(('T1', LOOP), ('I1', 'GetResource(R); work 1; ReleaseResource(R);'), ('I2', 'GetResource(R); ReleaseResource(R);'), ('I3', '')),
        forms(b5='stay', b8='stay', b9='stay'), (20, 56, 57, 31),
        [(['irq I1', 'run 0', 'run 0', 'irq I2', 'irq I3'] + runs(6),
          ['6 @I3 T1=R @I1+R', '10 @I2 T1=R @I1', '11 @I2 T1=R @I1 @I2+R !E_OK'])]),
    'a resource of a task and a routine': System(
        R + isr('I1', 1, 'R') + task('T1', 1, 'auto', 'RESOURCE = R') + task('T2', 2, 'auto'),
        bodies(('T1', 'GetResource(R); ActivateTask(T2); ReleaseResource(R); TerminateTask();'), ('T2', END),
               ('I1', 'GetResource(R); ReleaseResource(R);')),
        forms(b1='stay', b2='direct T2', b5='direct T1', b9='stay'), (18, 60, 52, 20), []),
    'a halt within a nest': System(
        isr('I1', 1) + isr('I2', 2) + LOOPING, bodies(('T1', LOOP), ('I1', 'work 2;'), ('I2', 'ShutdownOS(E_OK);')),
        forms(b3='stay'), (12, 17, 17, 7), [(['irq I1', 'run 0', 'irq I2'] + runs(2), ['5 # T1=Y'])]),
    'a routine over a tick routine': System(
        'COUNTER C { MAXALLOWEDVALUE = 9; }; ALARM A { COUNTER = C; ACTION = ACTIVATETASK { TASK = T2; }; };' + isr('I', 1) + LOOPING + task('T2', 2),
        bodies(('T1', LOOP), ('T2', ''), ('I', 'SetAbsAlarm(A, 1, 0);')),
        forms(b2='direct T1', b4='general', b7='general'), (20, 22, 87, 29),
        [(['tick C', 'run 0', 'run 0', 'irq I'] + runs(4), ['5 @I T1=R T2=S %C', '8 %C T1=R T2=Y !E_OK'])]),
    'a nest over a task that is not preempted': System(
        isr('I1', 1) + isr('I2', 2) + task('T1', 1, 'SCHEDULE = NON', 'auto') + task('T2', 2),
        bodies(('T1', 'work 2;'), ('T2', ''), ('I1', 'work 1;'), ('I2', 'ActivateTask(T2);')),
        forms(b1='general', b4='general', b6='general'), (17, 21, 88, 39), []),
    "the top of a routine's stack": System(
        R + 'RESOURCE Q;' + isr('I1', 1, 'R', 'Q') + LOOPING, bodies(('T1', LOOP), ('I1', 'GetResource(R); GetResource(Q); ReleaseResource(R);')),
        forms(b5='stay'), (12, 100, 10, 5), [(['irq I1'] + runs(5), ['5 @I1 T1=R @I1+R+Q !E_OS_NOFUNC', '6 T1 T1=R'])]),
    'who comes before at an end': System(
        isr('I1', 1) + isr('J', 1) + isr('I2', 2) + LOOPING, bodies(('T1', LOOP), ('I1', 'work 1;'), ('J', 'work 1;'), ('I2', '')),
        forms(b3='stay', b5='stay', b6='stay'), (14, 20, 32, 18), []),
    'a nest': System(
        isr('I1', 1) + isr('I2', 2) + LOOPING, bodies(('T1', LOOP), ('I1', 'work 2;'), ('I2', '')), forms(b3='stay', b4='stay'), (10, 15, 14, 9),
        [(['irq I1', 'run 0', 'irq I2'] + runs(5), ['2 @I1 T1=R', '3 @I1 T1=R', '4 @I2 T1=R @I1', '5 @I1 T1=R', '6 @I1 T1=R', '7 @I1 T1=R', '8 T1 T1=R'])]),
    'a ceiling over routines': System(
        'RESOURCE Res;' + isr('I1', 1, 'Res') + isr('I2', 2) + task('T1', 1, 'auto', 'RESOURCE = Res'),
        bodies(('T1', 'GetResource(Res); work 1; ReleaseResource(Res); while (1) { }'), ('I1', ''), ('I2', '')),
        forms(b2='stay', b5='stay', b6='stay'), (11, 43, 25, 19),
        [(['run 0', 'irq I1', 'irq I2'] + runs(5), ['4 @I2 T1=R+Res', '5 T1 T1=R+Res', '6 T1 T1=R+Res', '7 T1 T1=R !E_OK', '8 @I1 T1=R'])]),
}
"""Systems of nested routines, and those whose numbers count sources."""

WITHOUT_SOURCES = {'a preempted task stays first over routines': (14, 15, 60, 23), 'alarms count activations': (14, 15, 24, 4),
                   'a flag stays while routines come': (19, 33, 94, 29)}
"""The numbers of some of them as long as routines don't nest."""
