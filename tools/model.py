#!/usr/bin/env python3
"""A model of osekfit in Python, to compare the proved program with.

It is written from the pages of docs and the definitions, apart from the program, and in the plainest way: tables are found and judged by steps
of all states that a table admits, one by one. So all but `trace` is for small applications alone (some five tasks). Texts and images are
taken to be without fault. The files examples/*/*.show are its answers. `certify` stores an image with the least table, as a certificate of it,
and `check` says whether a table certifies an image: `yes`, or the first fault of its bytes (status 11), or why not (status 12). `replay` prints an
image's trace, and `record` the points that it comes to (with status 8 where it traps); `watch` says whether the application may come to the points of a text:
`quiet N`, or the first fault of its lines (status 14), or the first point that can't come (status 15). `report` prints what can't happen, and
`info` what an image has. What later parts of the language bring is refused by its rule (status 1) as long as the program refuses it;
`--later nested` opens what it will have.

    tools/model.py trace a.oil a.code OSDEFAULTAPPMODE a.events
    tools/model.py show a.oil a.code
    tools/model.py --later nested show a.oil a.code
    tools/model.py info a.image
    tools/model.py report a.oil a.code
    tools/model.py build a.oil a.code a.image
    tools/model.py certify a.oil a.code a.image a.table
    tools/model.py check a.image a.table
    tools/model.py replay a.image OSDEFAULTAPPMODE a.events
    tools/model.py record a.image OSDEFAULTAPPMODE a.events
    tools/model.py watch a.oil a.code a.record
"""
import sys

from lib import certified, findings, image, least_table, opened, records
from lib.given import Parser, Wrong, contents, data, run
from lib.image import known_word
from lib.image_reader import read_image
from lib.least_table import Analysis
from lib.model_trace import events_of, line, play
from lib.rules import Refused
from lib.texts import application

MOST = 500000
"""How many states are asked at most where --most says nothing: some minutes."""

REFUSED = 1
"""The status of texts that violate a rule."""


def solved(app, most):
    """The least table of an application, where that asks no more states than these."""
    analysis = Analysis(app).solve(most)
    if analysis is None:
        raise Wrong('the table is too large for the model: it asks more than %d states (--most N asks more, and osekfit answers at once)' % most)
    return analysis


def store(app, analysis, image_name, table_name=None):
    """Stores the image of an application, and the table that certifies it where that has a name."""
    stored = certified.certified(app, analysis)
    for name, found in zip((image_name, table_name), stored):
        if name is not None:
            with open(name, 'wb') as file:
                file.write(found)


def check(image_name, table_name):
    """Says whether a table certifies an image; the status."""
    status, told = certified.told(data(image_name), data(table_name), image_name, table_name)
    (sys.stderr if status else sys.stdout).write(told + '\n')
    return status


def play_image(verb, image_name, mode, events_name):
    """Prints the trace, or the record, of an image; the status."""
    show = records.replay if verb == 'replay' else records.record
    lines, status = show(read_image(data(image_name), image_name), mode, events_of(contents(events_name), events_name), events_name)
    sys.stdout.write(''.join(text + '\n' for text in lines))
    return status


def watch(app, analysis, name):
    """Says what the least table says of a text of points; the status."""
    status, told = records.watched(app, data(name).decode('latin-1'), name, analysis)
    (sys.stderr if status == records.DAMAGED else sys.stdout).write(told + '\n')
    return status


def trace(app, mode, name):
    """Prints the trace of an application over an event text."""
    for number, (step, _, _) in enumerate(play(app, mode, events_of(contents(name), name), name)):
        sys.stdout.write(line(app, number, step) + '\n')


def info(stored):
    """What `info` prints of an image."""
    app, forms = stored.app, {block: image_form(stored, block) for block in stored.app.sites()}
    counts = [(word, sum(1 for form in forms.values() if form.split(' ')[0] == word)) for word in ('never', 'stay', 'direct', 'general')]
    lines = ['version %d blocks %d sites %d %s' % (stored.version, len(app.blocks), len(forms), ' '.join('%s %d' % pair for pair in counts))]
    for block, form in forms.items():
        known = ' known ' + known_word(stored.known[block]) if stored.version > 1 else ''
        lines.append('site b%d line %d %s%s' % (block, app.blocks[block].line, form, known))
    return ''.join(text + '\n' for text in lines)


def image_form(stored, block):
    """The form of a site in an image, as `show` has it."""
    form = stored.forms[block]
    word = {image.NEVER: 'never', image.STAY: 'stay', image.GENERAL: 'general'}.get(form)
    return word or 'direct ' + ('-' if form[1] == image.NOBODY else stored.app.tasks[form[1]].name)


COMMANDS = {'trace': ['OIL', 'CODE', 'MODE', 'EVENTS'], 'show': ['OIL', 'CODE'], 'report': ['OIL', 'CODE'], 'build': ['OIL', 'CODE', 'IMAGE'],
            'certify': ['OIL', 'CODE', 'IMAGE', 'TABLE'], 'check': ['IMAGE', 'TABLE'], 'replay': ['IMAGE', 'MODE', 'EVENTS'],
            'record': ['IMAGE', 'MODE', 'EVENTS'], 'watch': ['OIL', 'CODE', 'RECORD'], 'info': ['IMAGE']}


def arguments():
    parser = Parser(__doc__)
    parser.add_argument('--later', default='', metavar='PARTS', help='parts of the language to open: ' + ', '.join(opened.LATER))
    parser.add_argument('--most', type=int, default=MOST, metavar='N', help='how many states are asked at most for a table')
    verbs = parser.add_subparsers(dest='verb', metavar='|'.join(COMMANDS), required=True)
    for verb, words in COMMANDS.items():
        one = verbs.add_parser(verb)
        for word in words:
            one.add_argument(word.lower(), metavar=word)
    return parser.parse_args()


def main():
    words = arguments()
    parts = words.later.split(',') if words.later else []
    if not set(parts) <= set(opened.LATER):
        raise Wrong('--later takes %s' % ', '.join(opened.LATER))
    opened.OPENED.update(parts)
    if words.verb == 'check':
        return check(words.image, words.table)
    if words.verb in ('replay', 'record'):
        return play_image(words.verb, words.image, words.mode, words.events)
    if words.verb == 'info':
        sys.stdout.write(info(read_image(data(words.image), words.image)))
        return 0
    try:
        app = application(words)
    except Refused as refusal:
        sys.stderr.write('%s\n' % refusal)
        return REFUSED
    return done(words, app)


def done(words, app):
    """Does what the words say with the application of two texts; the status."""
    if words.verb == 'trace':
        return trace(app, words.mode, words.events)
    analysis = solved(app, words.most)
    if words.verb == 'watch':
        return watch(app, analysis, words.record)
    if words.verb in ('show', 'report'):
        sys.stdout.write((least_table.show if words.verb == 'show' else findings.report)(app, analysis))
        return 0
    return store(app, analysis, words.image, words.table if words.verb == 'certify' else None)


if __name__ == '__main__':
    run(main)
