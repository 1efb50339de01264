#!/usr/bin/env python3
"""Makes the pictures of examples/ and of docs/pictures anew, of what stands in examples/. The tests compare them.

    tools/pictures.py                 writes those of examples/ that differ, and says which
    tools/pictures.py --pages         writes those of docs/pictures too, which wants a browser (chromium) and a built osekfit
    tools/pictures.py --check         says which differ; the status is 1 where one does

A picture in docs/pictures is one of a page of page.py. It has the sum of that page in it, without the parts that osekfit tells, so it is seen
without a browser where the page has changed since.
"""
import argparse
import hashlib
import os
import subprocess
import sys
import tempfile
from collections import namedtuple

import page
from lib import analysis_told, browser, png, run_page
from lib.crates import ROOT
from lib.given import Parser, Wrong, contents, data, run
from lib.oil import DEFAULT_MODE, system_of
from lib.program import found
from lib.texts import application

EXAMPLES, TOOLS, SHOWN = (os.path.join(ROOT, *folder) for folder in (['examples'], ['tools'], ['docs', 'pictures']))

GRAPH, TIMELINE = 'graph.py --code {0}.code --oil {0}.oil --svg {0}.show', 'timeline.py --oil {0}.oil --events {0}.events {0}.trace'

PICTURES = {
    'engine/graph.svg': GRAPH, 'engine/graph.dot': 'graph.py --code {0}.code --oil {0}.oil {0}.show', 'engine/timeline.svg': TIMELINE,
    'gateway/timeline.svg': TIMELINE, 'inverter/graph.svg': GRAPH, 'inverter/timeline.svg': TIMELINE,
}
"""The pictures by their path below examples/, each with the command that makes it there of the example's name."""

Page = namedtuple('Page', 'example event')
"""What a picture of a page shows: the run of an example, or of an application of sixteen tasks, and the chosen event."""

PAGES = {'page-engine.png': Page('engine', 9), 'page-sixteen.png': Page(None, 146)}

SIXTEEN = ['--tasks', '16', '--seed', '3', '--events', '400']

WIDTH, HEIGHT = 1400, 1000


def made(picture):
    """A picture as its command makes it."""
    folder = os.path.dirname(picture)
    tool, *words = PICTURES[picture].format(folder).split(' ')
    done = subprocess.run([sys.executable, os.path.join(TOOLS, tool), *words], cwd=os.path.join(EXAMPLES, folder), stdin=subprocess.DEVNULL,
                          capture_output=True, check=False)
    if done.returncode or done.stderr:
        raise Wrong('%s: %s' % (picture, done.stderr.decode('utf-8', 'replace').strip()))
    return done.stdout.decode('utf-8')


def differing():
    """The pictures that aren't as their commands make them, with what these make."""
    for picture in PICTURES:
        path, text = os.path.join(EXAMPLES, picture), made(picture)
        if not os.path.exists(path) or contents(path) != text:
            yield path, text


# Pictures of pages.


def texts_of(shown, folder):
    """The words of page.py for what a picture shows; the application of sixteen tasks is made in a folder."""
    if shown.example is None:
        subprocess.run([sys.executable, os.path.join(ROOT, 'bench', 'make_app.py'), *SIXTEEN, folder], stdout=subprocess.DEVNULL, check=True)
    name = os.path.join(EXAMPLES, shown.example, shown.example) if shown.example else os.path.join(folder, 'app')
    return argparse.Namespace(oil=name + '.oil', code=name + '.code', events=name + '.events', mode=DEFAULT_MODE, title=None)


def page_of(words, run_, known):
    return run_page.page_of(words, run_, known, (contents(words.code), system_of(contents(words.oil), words.oil)), [])


def source_of(words, run_):
    """What a picture says of the page that it shows."""
    return 'page.py ' + hashlib.sha256(page_of(words, run_, analysis_told.NOTHING_KNOWN).encode()).hexdigest()


def older_pages():
    """The pictures whose page has changed since, each with the page's words, its run and what the picture is to say."""
    for name, shown in PAGES.items():
        with tempfile.TemporaryDirectory(prefix='osekfit-pictures-') as folder:
            words = texts_of(shown, folder)
            run_ = page.played(application(words), words)
            path, source = os.path.join(SHOWN, name), source_of(words, run_)
            if not os.path.exists(path) or png.source_of(data(path)) != source:
                yield path, shown, words, run_, source


def photograph(path, shown, words, run_, source, program):
    """Writes the picture of a page."""
    if browser.path() is None:
        raise Wrong('%s: a browser is wanted, and none is on the PATH' % path)
    with tempfile.TemporaryDirectory(prefix='osekfit-pictures-') as folder, browser.Browser(WIDTH, HEIGHT) as window:
        file = os.path.join(folder, 'run.html')
        with open(file, 'w', encoding='utf-8') as out:
            out.write(page_of(words, run_, analysis_told.known_by_program(program, words)))
        window.open(file)
        window.run('go(%d)' % shown.event)
        window.picture(path)
    picture = data(path)
    with open(path, 'wb') as out:
        out.write(png.with_source(picture, source))


def arguments():
    parser = Parser(__doc__)
    parser.add_argument('--check', action='store_true', help='writes nothing')
    parser.add_argument('--pages', action='store_true', help='writes the pictures of pages too')
    parser.add_argument('--program', metavar='FILE', help='osekfit, where it is not on the PATH')
    return parser.parse_args()


def main():
    words, told = arguments(), []
    for path, text in differing():
        told.append(path)
        if not words.check:
            with open(path, 'w', encoding='utf-8') as file:
                file.write(text)
    for path, *what in older_pages() if words.check or words.pages else []:
        told.append(path)
        if not words.check:
            photograph(path, *what, found(words.program))
    for path in told:
        sys.stdout.write('%s %s\n' % (os.path.relpath(path, ROOT), 'differs' if words.check else 'is made anew'))
    return 1 if words.check and told else 0


if __name__ == '__main__':
    run(main)
