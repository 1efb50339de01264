#!/usr/bin/env python3
"""Writes the task code of an application's C files: the services that each TASK and ISR calls, also through functions that it calls.

    tools/model_c.py --oil app.oil *.c > app.code
    tools/model_c.py --oil app.oil -I include -D BOARD=2 *.c > app.code
    tools/model_c.py --oil app.oil --check app.code *.c                says where the C code has a path of calls that app.code lacks

The files are read by clang, with its preprocessor; its header of the operating system (os.h, Os.h, osek.h, kernel.h, ee.h, tpl_os.h) is one that
this tool makes of the OIL text, so the generated one is left out of -I. Conditions are `?`. Behind an early exit what may be left out is an `if (?)`,
and a `switch` is one of its groups, or, where one falls into the next, each of them or not. So each path of calls in C is one of the model, and
the model has more. What was assumed is told on standard error. goto, recursion, calls through pointers, and arguments that are no names of the
OIL text end with status 2; but an ActivateTask, ChainTask, ClearEvent or SetEvent by what is known at run time alone is taken to be by any task or
events. With --check the status is 1 where a path is missing.
"""
import sys

from lib import task_code
from lib.application import Application, tick_routines
from lib.c_model import bodies, code_lines
from lib.c_source import Sources
from lib.code_paths import Paths, firsts, missing
from lib.given import Parser, contents, run
from lib.oil import system_of
from lib.task_code import Block, Owner


def named(oil_name):
    """The application of an OIL text whose bodies are empty: its names."""
    system = system_of(contents(oil_name), oil_name)
    owners = [Owner('TASK', name) for name in system.tasks] + [Owner('ISR', isr.name) for isr in system.isrs.values() if isr.category == 2]
    blocks = [Block(owner, 1, '}', 'end', [], False, None, None) for owner in owners]
    return Application(system, blocks + tick_routines(system, len(blocks)))


def place(blocks, number, name):
    return '%s:%d: %s' % (name, blocks[number].line, 'the end of the body' if blocks[number].word == 'end' else blocks[number].text)


def differences(code, lines, name):
    """The lines that say which paths of calls the C code has and the task code lacks."""
    model = task_code.blocks_of('\n'.join(lines), 'the C files')
    given, first = task_code.blocks_of(code, name), firsts(task_code.blocks_of(code, name))
    for owner, number in firsts(model).items():
        if owner not in first:
            yield '%s: there is no %s(%s)' % (name, *owner)
            continue
        path = missing(Paths(model, number), Paths(given, first[owner]))
        if path is not None:
            calls = [model[k].text if model[k].word != 'end' else 'the end of the body' for k in path]
            at = lines[model[path[-1]].line - 1].partition('  // ')[2]
            yield '%s: %s(%s) lacks the path %s%s' % (name, *owner, ', '.join(calls), ' (%s)' % at if at else '')


def arguments():
    parser = Parser(__doc__)
    parser.add_argument('files', nargs='+', metavar='FILE')
    parser.add_argument('--oil', required=True, metavar='OIL')
    parser.add_argument('--check', metavar='CODE', help='task code that is compared')
    parser.add_argument('-I', dest='include', action='append', default=[], metavar='FOLDER', help='where headers are')
    parser.add_argument('-D', dest='define', action='append', default=[], metavar='NAME[=VALUE]', help='a macro')
    return parser.parse_args()


def main():
    words = arguments()
    app = named(words.oil)
    options = ['-I' + folder for folder in words.include] + ['-D' + macro for macro in words.define]
    found, notes = bodies(app, Sources(app, words.files, options))
    lines = list(code_lines(found))
    for note in notes:
        sys.stderr.write('%s:%d: %s [assumed]\n' % note)
    if not words.check:
        sys.stdout.write(''.join(line + '\n' for line in lines))
        return 0
    told = list(differences(contents(words.check), lines, words.check))
    sys.stdout.write(''.join(line + '\n' for line in told))
    return 1 if told else 0


if __name__ == '__main__':
    run(main)
