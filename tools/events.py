#!/usr/bin/env python3
"""Writes an event text from a short script, so that nobody counts `run` lines.

A line of the script is an event, or one of these; blank lines and those that begin with # come out as they are:

    run 0 * 5               so many of an event
    run ?                   a choice that is drawn; `seed 7` begins the draws anew (1 at first)
    tick C every 20         from here on, a tick behind each 20 runs; `every 10..30` draws how many; `tick C never` ends it
    until idle              runs until the processor is idle; or `until T1`, `until @I`, `until %C`, `until T1=W`, `until halted`, `until b7`
    until idle by ? most 50 by which choices (0 at first), and after how many runs to give up (1000)
    repeat 3                what stands from here to `end`, so often

`until` follows the application by the model of model.py, so it wants --oil and --code (and --mode, if it isn't OSDEFAULTAPPMODE). The
text that comes out has plain events alone, and the same script gives the same text.

    tools/events.py --oil a.oil --code a.code a.script > a.events
"""
import random
import sys

from lib.given import Parser, Wrong, contents, run
from lib.kernel import Kernel
from lib.model_trace import mode_number, stepped, who
from lib.oil import DEFAULT_MODE
from lib.states import place_of
from lib.texts import application, place_text
from lib.wanted import has, knows

MOST = 1000
"""After how many runs `until` gives up, where the script doesn't say."""

MOST_SAID = 8
"""How many of the last statements are told where `until` gives up."""

MOST_BYTES = 16 << 20
"""The largest event text that osekfit reads."""


class Player:
    """The application at work, as far as `until` has to know."""

    def __init__(self, app, mode, code='the task code'):
        self.app, self.kernel, self.code = app, Kernel(app), code
        self.state = self.kernel.start(mode_number(app, mode)).state
        self.passed = {}

    def step(self, words):
        """Makes a step, and notes which block it leaves."""
        place = place_of(self.state)
        if place and words[0] == 'run':
            self.passed.pop(place[0], None)
            self.passed[place[0]] = None
        try:
            self.state = stepped(self.kernel, self.state, words).state
        except KeyError:
            raise Wrong('nothing is called %s' % words[1]) from None

    def where(self):
        """Where the processor is, and by which statements it came here."""
        place = place_of(self.state)
        if place is None:
            return 'the processor is %s' % self.state.processor
        here = '%s has the processor at %s' % (who(self.app, self.state), place_text(self.app.blocks[place[0]], self.code))
        lines = [self.app.blocks[block].line for block in list(self.passed)[-MOST_SAID:]]
        return here + (', behind lines ' + ', '.join(str(line) for line in dict.fromkeys(lines) if line) if lines else '')


class Writer:
    """The event text as far as it is written, with the sources that come by themselves."""

    def __init__(self, player):
        self.player, self.lines, self.size = player, [], 0
        self.random, self.every, self.left = random.Random(1), {}, {}

    def line(self, text):
        self.lines.append(text)
        self.size += len(text) + 1
        if self.size > MOST_BYTES:
            raise Wrong('the event text would be over 16 MiB')

    def event(self, words):
        """An event, and behind a run the sources that are due."""
        if words == ['run', '?']:
            words = ['run', str(self.random.randrange(2))]
        self.line(' '.join(words))
        if self.player:
            self.player.step(words)
        if words[0] == 'run':
            for source in list(self.every):
                self.left[source] -= 1
                if self.left[source] == 0:
                    self.wind(source)
                    self.event(list(source))

    def come(self, source, least, most):
        """Lets a source come by itself, each time behind so many runs."""
        self.every[source] = (least, most)
        self.wind(source)

    def wind(self, source):
        self.left[source] = self.random.randint(*self.every[source])

    def until(self, wanted, choice, most):
        if self.player is None:
            raise Wrong('until needs --oil and --code')
        if not knows(self.player.app, wanted):
            raise Wrong('nothing is called %s' % wanted)
        for _ in range(most):
            if has(self.player.app, self.player.state, wanted):
                return
            self.event(['run', choice])
        if not has(self.player.app, self.player.state, wanted):
            raise Wrong('%s did not come within %d runs: %s' % (wanted, most, self.player.where()))


def number(word, least=1):
    if not (word.isascii() and word.isdigit()) or int(word) < least:
        raise Wrong('a number from %d on is wanted, not %s' % (least, word))
    return int(word)


def options(words):
    """What stands behind `until WANTED`: by which choices, and at most how many runs."""
    found = {'by': '0', 'most': str(MOST)}
    for name, value in zip(words[::2], words[1::2]):
        if name not in found:
            raise Wrong('until takes by and most, not %s' % name)
        found[name] = value
    if len(words) % 2 or found['by'] not in ('0', '1', '?'):
        raise Wrong('until takes by 0, 1 or ?, and most with a number')
    return found['by'], number(found['most'])


def is_event(words):
    return len(words) == 2 and (words[0] in ('irq', 'tick') or (words[0] == 'run' and words[1] in ('0', '1', '?')))


def write_line(writer, words):
    """Writes what one line of the script says."""
    if words[0] == 'seed' and len(words) == 2:
        writer.random = random.Random(number(words[1], 0))
    elif words[0] == 'until' and len(words) > 1:
        writer.until(words[1], *options(words[2:]))
    elif len(words) == 4 and words[0] in ('irq', 'tick') and words[2] == 'every':
        least, dots, most = words[3].partition('..')
        writer.come(tuple(words[:2]), number(least), number(most if dots else least, number(least)))
    elif len(words) == 3 and words[0] in ('irq', 'tick') and words[2] == 'never':
        writer.every.pop(tuple(words[:2]), None)
    elif is_event(words[:2]) and (len(words) == 2 or (len(words) == 4 and words[2] == '*')):
        for _ in range(number(words[3]) if len(words) == 4 else 1):
            writer.event(words[:2])
    else:
        raise Wrong('no line of a script: %s' % ' '.join(words))


def write(writer, lines, name):
    """Writes the lines of a script, pairs of a number and a text."""
    place = 0
    while place < len(lines):
        at, text = lines[place]
        words = text.split()
        place += 1
        try:
            if not words or words[0].startswith('#'):
                writer.line(text)
            elif words[0] == 'repeat' and len(words) == 2:
                behind = end_of(lines, place)
                for _ in range(number(words[1])):
                    write(writer, lines[place:behind - 1], name)
                place = behind
            else:
                write_line(writer, words)
        except Wrong as wrong:
            raise wrong if str(wrong).startswith(name + ':') else Wrong('%s:%d: %s' % (name, at, wrong)) from None


def end_of(lines, place):
    """The place behind the `end` that belongs to the `repeat` before this place."""
    depth = 1
    for k in range(place, len(lines)):
        word = (lines[k][1].split() or [''])[0]
        depth += (word == 'repeat') - (word == 'end')
        if depth == 0:
            return k + 1
    raise Wrong('repeat has no end')


def event_text(script, name='the script', player=None):
    """The event text of a script."""
    writer = Writer(player)
    write(writer, list(enumerate(script.splitlines(), 1)), name)
    return ''.join(line + '\n' for line in writer.lines)


def arguments():
    parser = Parser(__doc__)
    parser.add_argument('script', nargs='?', metavar='SCRIPT', help='standard input where it is missing')
    parser.add_argument('--oil', metavar='FILE')
    parser.add_argument('--code', metavar='FILE')
    parser.add_argument('--mode', default=DEFAULT_MODE)
    return parser.parse_args()


def main():
    words = arguments()
    if (words.oil is None) != (words.code is None):
        raise Wrong('--oil and --code go together')
    player = None
    if words.oil:
        player = Player(application(words), words.mode, words.code)
    sys.stdout.write(event_text(contents(words.script), words.script or 'the script', player))


if __name__ == '__main__':
    run(main)
