#!/usr/bin/env python3
"""Steps through an application in a terminal, or by lines of a pipe: who runs, what has changed and why, and what may come next.

    tools/step.py a.oil a.code
    tools/step.py a.oil a.code a.image            the forms of an image, whose traps are told
    tools/step.py --events a.events a.oil a.code  begins behind these events

    r, r1           one run by choice 0, or by choice 1; `r 5` five of them
    i NAME          an interrupt is requested (irq NAME); t NAME  a tick of a counter
    u POINT         runs until the processor is at b7 or b20/T1; or until idle, halted, T1, @ISR, %COUNTER, T1=W; `u POINT 1` by choice 1.
                    Of the runs on the way the lines of the last few alone are shown
    b               one event back; `b 5` five of them
    s               the whole state, with why each task waits
    l               the task code around what comes next
    w FILE          writes the events so far
    q               ends

A blank line does the last r, r1, i, t, u or b again. At the end the lines are compared with those that `osekfit trace` (with an image, `osekfit
replay`) prints, where the program is found: --program says where it is. The status is 1 where they differ.
"""
import sys

from lib.given import Parser, Wrong, contents, data, run
from lib.image_kernel import ImageKernel
from lib.image_reader import read_image
from lib.kernel import Kernel
from lib.model_trace import events_of
from lib.oil import DEFAULT_MODE
from lib.program import found, traced
from lib.stepping import Stepping
from lib.texts import add_texts, application

MOST = 1000
"""After how many runs `u` gives up."""

SHOWN = 12
"""How many lines `u` shows of the runs on the way."""


class Session:
    """What is typed, done one line after the other."""

    def __init__(self, stepping, out):
        self.stepping, self.out, self.last = stepping, out, ''

    def say(self, lines):
        for line in lines:
            self.out.write(line + '\n')

    def line(self, text):
        """Does a line; whether more are wanted."""
        words = text.split() or self.last.split()
        if not words:
            return True
        if words[0] in ('q', 'quit'):
            return False
        if words[0] in ('r', 'r0', 'r1', 'i', 't', 'u', 'b'):
            self.last = ' '.join(words)
        try:
            self.do(words[0], words[1:])
        except Wrong as wrong:
            self.say(['  ' + str(wrong)])
        return True

    def do(self, word, rest):
        actions = {'r': self.run_, 'r0': self.run_, 'r1': self.run_, 'i': self.request, 't': self.request, 'u': self.until, 'b': self.back,
                   's': self.state, 'l': self.code, 'w': self.write}
        if word not in actions:
            raise Wrong('no such command: %s; %s' % (word, 'r, r1, i NAME, t NAME, u POINT, b, s, l, w FILE, q'))
        actions[word](word, rest)

    def run_(self, word, rest):
        for _ in range(number(rest[0]) if rest else 1):
            self.say(self.stepping.do(['run', '1' if word == 'r1' else '0']))

    def request(self, word, rest):
        if len(rest) != 1:
            raise Wrong('%s takes a name' % word)
        self.say(self.stepping.do(['irq' if word == 'i' else 'tick', rest[0]]))

    def until(self, _word, rest):
        if len(rest) not in (1, 2) or rest[1:] not in ([], ['0'], ['1']):
            raise Wrong('u takes a point, or a state, and perhaps a choice')
        wanted, told = self.stepping.known(rest[0]), []
        try:
            while not self.stepping.has(wanted) and len(told) < MOST:
                self.stepping.judge_rest(wanted)
                told.append(self.stepping.do(['run', *(rest[1:] or ['0'])]))
        finally:
            self.say_way(told)
        if not self.stepping.has(wanted):
            raise Wrong('%s did not come within %d runs' % (wanted, MOST))

    def say_way(self, told):
        """Says the line of each of the last runs, and the last one whole."""
        if len(told) > SHOWN:
            self.say(['  .. %d runs' % (len(told) - SHOWN)])
        for lines in told[-SHOWN:-1]:
            self.say(lines[:1])
        self.say(told[-1] if told else [])

    def back(self, _word, rest):
        self.say(self.stepping.back(number(rest[0]) if rest else 1))

    def state(self, _word, _rest):
        self.say(self.stepping.whole())

    def code(self, _word, _rest):
        self.say(self.stepping.code_lines())

    def write(self, _word, rest):
        if len(rest) != 1:
            raise Wrong('w takes a file')
        with open(rest[0], 'w') as out:
            out.write(self.stepping.events_text())
        self.say(['  %s: %d events' % (rest[0], len(self.stepping.events()))])


def number(word):
    if not (word.isascii() and word.isdigit()) or int(word) < 1:
        raise Wrong('a number from 1 on is wanted, not %s' % word)
    return int(word)


def compared(stepping, words):
    """Says whether osekfit prints the same lines; the status."""
    try:
        program = found(words.program)
    except Wrong:
        if words.program:
            raise
        sys.stdout.write('not compared with osekfit: it was not found\n')
        return 0
    verb = ['replay', words.image] if words.image else ['trace', words.oil, words.code]
    due, is_ = traced(program, [*verb, words.mode], stepping.events_text()), stepping.trace()
    for place, (line, other) in enumerate(zip(due, is_)):
        if line != other:
            sys.stdout.write('osekfit %s differs at %d: %s\n' % (verb[0], place, line))
            return 1
    if len(due) != len(is_):
        sys.stdout.write('osekfit %s has %d lines, and not %d\n' % (verb[0], len(due), len(is_)))
        return 1
    sys.stdout.write('osekfit %s prints the same %d lines\n' % (verb[0], len(due)))
    return 0


def kernel_of(app, image_name):
    """The kernel of an image, which has to be one of the texts."""
    stored = read_image(data(image_name), image_name)
    if [(block.word, block.line) for block in stored.app.blocks] != [(block.word, block.line) for block in app.blocks]:
        raise Wrong('%s: not the image of these texts' % image_name)
    return ImageKernel(stored)


def arguments():
    parser = Parser(__doc__)
    add_texts(parser)
    parser.add_argument('image', nargs='?', metavar='IMAGE')
    parser.add_argument('--mode', default=DEFAULT_MODE, metavar='M')
    parser.add_argument('--events', metavar='FILE', help='events that are done first')
    parser.add_argument('--program', metavar='FILE', help='osekfit, for the comparison at the end')
    return parser.parse_args()


def main():
    words = arguments()
    app = application(words)
    kernel = kernel_of(app, words.image) if words.image else Kernel(app)
    stepping = Stepping(app, kernel, words.mode, words.code)
    session = Session(stepping, sys.stdout)
    session.say(stepping.begin())
    for event, _ in events_of(contents(words.events), words.events) if words.events else []:
        session.say(stepping.do(event))
    is_terminal = sys.stdin.isatty()
    while True:
        if is_terminal:
            sys.stdout.write('> ')
        sys.stdout.flush()
        text = sys.stdin.readline()
        if not text or not session.line(text):
            break
    return compared(stepping, words)


if __name__ == '__main__':
    run(main)
