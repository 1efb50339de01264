#!/usr/bin/env python3
"""Runs the commands that README and the pages of docs show, in a copy of the repository, and compares what they print with what stands there.

A block of commands begins with ```console. Its lines behind `$ ` are typed in a shell, all of a block in one, from the repository's root;
what stands below a command is what it has to print, and a command with nothing below may print anything. Each has to end with status 0,
or, where it prints warnings, with 1; and no file that the repository keeps may change. ```console needs clang begins a block that is left out, and
is told, where there is no such command. Besides, each link between pages has to lead
somewhere, no line is too long, and no page but CHANGES names an older version; with --links these alone are looked at, and no program is
needed.

    tools/check_documents.py crates/osekfit/out/osekfit
    tools/check_documents.py crates/osekfit/out/osekfit README.md docs/GUIDE.md        the commands of these pages alone
"""
import filecmp
import os
import shutil
import subprocess
import sys
import tempfile
from collections import namedtuple

from lib import pages
from lib.crates import ROOT
from lib.given import Parser, Wrong, contents, run

COPIED = ['README.md', 'CHANGES.md', 'VERSION', 'docs', 'examples', 'tools', 'bench']

Command = namedtuple('Command', 'line text due')
"""A command, where it stands, and the lines that it has to print."""

Block = namedtuple('Block', 'needs commands')
"""The commands that are typed in one shell, and what they need beside the program."""


def blocks_of(text):
    """The blocks of commands of a document."""
    found, block = [], None
    for number, line in enumerate(text.splitlines(), 1):
        if line.startswith('```'):
            block = Block(needed(line), []) if line.split(' ')[0] == '```console' else None
            if block is not None:
                found.append(block)
        elif block is not None and line.startswith('$ '):
            block.commands.append(Command(number, line[2:], []))
        elif block is not None and block.commands:
            block.commands[-1].due.append(line)
    return found


def needed(line):
    """The commands that the first line of a block says it needs."""
    words = line.split(' ')
    return words[2:] if words[1:2] == ['needs'] else []


def missing(block):
    """The commands that a block needs and that aren't there."""
    return [name for name in block.needs if shutil.which(name) is None]


MARK = 'check_documents: the next command'


def printed(commands, folder, program):
    """What each command of a block prints, and its status."""
    script = ''.join('%s\necho\necho "%s $?"\n' % (command.text, MARK) for command in commands)
    path = os.path.dirname(program) + os.pathsep + os.environ.get('PATH', '')
    done = subprocess.run(['bash'], input=script.encode(), cwd=folder, env=dict(os.environ, PATH=path), stdout=subprocess.PIPE,
                          stderr=subprocess.STDOUT)
    found, lines = [], []
    for line in done.stdout.decode('utf-8', 'replace').splitlines():
        if line.startswith(MARK):
            found.append((lines[:-1] if lines[-1:] == [''] else lines, line[len(MARK) + 1:]))
            lines = []
        else:
            lines.append(line)
    return found


def faults_of(document, folder, program):
    """What is wrong with the commands of a document, and how many there are."""
    found, count = [], 0
    for block in blocks_of(contents(os.path.join(folder, document))):
        if missing(block):
            sys.stderr.write('%s:%d: not run: there is no %s\n' % (document, block.commands[0].line, ', no '.join(missing(block))))
            continue
        for command, (lines, status) in zip(block.commands, printed(block.commands, folder, program)):
            count += 1
            is_warned = status == '1' and any('warning' in line for line in lines)
            if status != '0' and not is_warned:
                found.append('%s:%d: status %s: %s' % (document, command.line, status, ' / '.join(lines)[:300]))
            elif command.due and command.due != lines:
                pairs = list(zip(command.due + ['no line'], lines + ['no line']))
                due, got = next((pair for pair in pairs if pair[0] != pair[1]), ('no more', 'more'))
                found.append('%s:%d: wanted: %s, got: %s' % (document, command.line, due, got))
    return found, count


def changed(folder):
    """The files of the copy that aren't as the repository has them."""
    found = []
    for name in COPIED:
        for at, _, names in os.walk(os.path.join(ROOT, name)):
            for one in names:
                file = os.path.join(at, one)
                copy = os.path.join(folder, os.path.relpath(file, ROOT))
                if '__pycache__' not in file and not (os.path.exists(copy) and filecmp.cmp(file, copy, False)):
                    found.append(os.path.relpath(file, ROOT))
    return found


def arguments():
    parser = Parser(__doc__)
    parser.add_argument('program', nargs='?', metavar='PROGRAM', help='the built osekfit')
    parser.add_argument('pages', nargs='*', metavar='PAGE', help='the pages whose commands are run; none: all')
    parser.add_argument('--links', action='store_true', help='looks at links and lines alone')
    return parser.parse_args()


def run_all(program, chosen):
    """Runs the commands of these documents, or of all, in a copy: what is wrong, and how many commands there are."""
    faults, count = [], 0
    with tempfile.TemporaryDirectory(prefix='osekfit-documents-') as folder:
        at = os.path.join(folder, 'bin', 'osekfit')
        os.makedirs(os.path.dirname(at))
        os.symlink(os.path.abspath(program), at)
        clone = os.path.join(folder, 'osekfit')
        os.makedirs(clone)
        for name in COPIED:
            source = os.path.join(ROOT, name)
            (shutil.copytree if os.path.isdir(source) else shutil.copy)(source, os.path.join(clone, name))
        for document in chosen or [page for page in pages.pages(clone) if not page.startswith('tools')]:
            found, commands = faults_of(document, clone, at)
            faults, count = faults + found, count + commands
        faults += ['%s was changed' % name for name in changed(clone)]
    return faults, count


def main():
    words = arguments()
    faults, count = [*pages.broken_links(ROOT), *pages.overlong_lines(ROOT), *pages.older_versions(ROOT)], 0
    if not words.links:
        program = shutil.which(words.program or '')
        if program is None:
            raise Wrong('%s: no program' % (words.program or 'PROGRAM'))
        found, count = run_all(program, words.pages)
        faults += found
    for fault in faults:
        sys.stdout.write(fault + '\n')
    sys.stdout.write('%d commands, %d faults\n' % (count, len(faults)))
    return 1 if faults else 0


if __name__ == '__main__':
    run(main)
