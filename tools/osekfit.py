#!/usr/bin/env python3
"""One command for osekfit and its scripts: the program's own words go to the program, each other one to a script.

The program is the one that --program names in front of the word, else the one on the PATH, else the one that `./first.sh` built. The status is that
of what is run. --version says the version of this tree, its commit, and which program is found, with its sum, to compare it with the gate's.

    tools/osekfit.py build a.oil a.code a.image
    tools/osekfit.py build --help                            what a word does
    tools/osekfit.py lint a.oil a.code
    tools/osekfit.py explain build a.oil a.code a.image
    tools/osekfit.py show --json a.oil a.code                each line as an object of JSON: show, report, info, trace, replay, watch
    tools/osekfit.py explain --sarif refused.sarif build a.oil a.code a.image
    tools/osekfit.py --version
    source <(tools/osekfit.py --completion bash)             a shell completes the words; zsh by `--completion zsh > _osekfit`
    tools/osekfit.py --man | man -l -                        the page for man
"""
import ast
import hashlib
import os
import re
import subprocess
import sys

from lib import program, sarif
from lib.completion import completion, options_of
from lib.crates import ROOT
from lib.given import Wrong, contents, data, run
from lib.json_lines import READERS, as_json
from lib.man_page import forms, man_page

TOOLS = os.path.dirname(os.path.abspath(__file__))

OWN = ['build', 'replay', 'trace', 'show', 'report', 'info', 'upgrade', 'certify', 'check', 'record', 'watch', 'gen']
"""The words of the program."""

SCRIPTS = ['lint', 'explain', 'flatten', 'model-c', 'events', 'step', 'annotate', 'why', 'report-diff', 'graph', 'timeline', 'page', 'bench-log', 'certificate',
           'regress', 'model']
"""The words of scripts, in the order in which they are told."""

NAMES = ['osekfit.py', 'osekfit-tools']
"""The names of this command: here, and where a package installs it."""

OPTIONS = [
    ('--program FILE', 'in front of the word: the program'),
    ('--json', 'behind %s: prints each line as an object of JSON' % ', '.join(READERS)),
    ('--sarif FILE', 'behind explain: writes what is refused in the form that servers read which show findings beside the lines of a change'),
    ('--version', 'the version, the commit, and the program with its SHA-256'),
    ('--completion SHELL', 'what bash or zsh reads to complete the words'),
    ('--man', 'this page'),
]


def file_of(word):
    """The file of a script."""
    return os.path.join(TOOLS, word.replace('-', '_') + '.py')


def scripts():
    """The words of the scripts that this tree has."""
    return [word for word in SCRIPTS if os.path.exists(file_of(word))]


def summary(word):
    """The first phrase of what a script says of itself."""
    said = ast.get_docstring(ast.parse(contents(file_of(word)))) or ''
    return re.split(r'[.:;](?: |$)', ' '.join(said.split('\n\n')[0].split()))[0]


def told():
    """What --help says."""
    width = max(map(len, SCRIPTS))
    lines = ['  %s  %s' % (word.ljust(width), summary(word)) for word in scripts()]
    words = ['  %s' % form for form, _ in forms().values()]
    return '%s\nwords of the program:\n%s\n\nscripts:\n%s\n\nEach says more by --help.\n' % (__doc__, '\n'.join(words), '\n'.join(lines))


def version_number():
    return contents(os.path.join(ROOT, 'VERSION')).strip()


def commit():
    """The commit of the tree, which a package has in a file."""
    file = os.path.join(ROOT, 'COMMIT')
    if os.path.exists(file):
        return contents(file).strip()
    git = subprocess.run(['git', '-C', ROOT, 'describe', '--always', '--dirty'], stdin=subprocess.DEVNULL, capture_output=True, text=True, check=False)
    return git.stdout.strip() or 'unknown'


def version(named):
    """The version of the tree, its commit, and the program with its sum."""
    lines = ['version %s, commit %s' % (version_number(), commit())]
    try:
        path = program.found(named)
        lines += ['program %s' % path, 'SHA-256 %s' % hashlib.sha256(data(path)).hexdigest()]
    except Wrong:
        lines += ['program: none is found']
    return '\n'.join(lines) + '\n'


def completed(shell):
    """What a shell reads to complete the words."""
    if shell not in ('bash', 'zsh'):
        raise Wrong('--completion takes bash or zsh')
    options = {word: options_of(contents(file_of(word))) for word in scripts()}
    options.update((word, ['--json']) for word in READERS)
    options['explain'] = ['--sarif'] + options['explain']
    return completion(shell, NAMES, OWN + scripts() + ['--version', '--help', '--man'], options)


def man():
    return man_page(version_number(), NAMES[1], [(word, summary(word)) for word in scripts()], OPTIONS)


def command(words, named):
    """What is run for some words."""
    if words[0] in OWN:
        return [program.found(named)] + words
    if words[0] == 'explain' and words[1:2] and words[1] in OWN:
        words = ['explain', program.found(named)] + words[1:]
    if words[0] in scripts():
        return [sys.executable, file_of(words[0])] + words[1:]
    raise Wrong('%s is no word of osekfit (--help lists them)' % words[0])


# What is run, and what is made of what it prints.


def status_of(process):
    return process.returncode if process.returncode >= 0 else 128 - process.returncode


def plainly(words, named):
    return status_of(subprocess.run(command(words, named), check=False))


def in_json(words, named):
    """Runs a word of the program, and prints each of its lines as an object."""
    if words[0] not in READERS:
        raise Wrong('--json is for %s' % ', '.join(READERS))
    with subprocess.Popen(command(words, named), stdout=subprocess.PIPE, encoding='utf-8', errors='surrogateescape') as process:
        for line in process.stdout:
            sys.stdout.write(as_json(words[0], line.rstrip('\n')) + '\n')
    return status_of(process)


def in_sarif(words, named, file):
    """Runs explain.py, and writes to a file what it says of a refusal."""
    done = subprocess.run(command(words, named), stderr=subprocess.PIPE, encoding='utf-8', errors='surrogateescape', check=False)
    sys.stderr.write(done.stderr)
    with open(file, 'w', encoding='utf-8') as out:
        out.write(sarif.log(sarif.refusals(done.stderr.splitlines(), done.returncode), [], 'osekfit'))
    return status_of(done)


def front(words):
    """Does what the words ask for; the status."""
    named = None
    if words[:1] == ['--program'] and len(words) > 1:
        named, words = words[1], words[2:]
    whole = {'--version': lambda: version(named), '--completion': lambda: completed(words[1] if words[1:] else 'bash'), '--man': man, '-h': told, '--help': told}
    if not words or words[0] in whole:
        sys.stdout.write(whole[words[0]]() if words else told())
        return 0 if words else 2
    if words[0] in OWN and words[1:] in (['-h'], ['--help']):
        sys.stdout.write('osekfit %s\n%s\n' % forms()[words[0]])
        return 0
    if words[1:2] == ['--json']:
        return in_json([words[0]] + words[2:], named)
    if words[:2] == ['explain', '--sarif'] and len(words) > 3:
        return in_sarif(['explain'] + words[3:], named, words[2])
    return plainly(words, named)


def main():
    return front(sys.argv[1:])


if __name__ == '__main__':
    run(main)
