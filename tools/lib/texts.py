"""What tools that take an application's two texts share: how they are asked for, and how a place in the task code is told."""
from lib.application import application_of
from lib.given import contents


def add_texts(parser):
    """Asks for the two texts."""
    parser.add_argument('oil', metavar='OIL')
    parser.add_argument('code', metavar='CODE')


def application(words):
    """The application of the texts that are named."""
    return application_of(contents(words.oil), contents(words.code), (words.oil, words.code))


def place_text(block, code_name):
    """A statement and its line in the task code, `a.code:3: WaitEvent(E)`; of a tick routine what it does there."""
    if block.owner.kind == 'TICK':
        return 'tick routine of %s: %s' % (block.owner.name, block.text)
    return '%s:%d: %s' % (code_name, block.line, 'end of ' + block.owner.name if block.word == 'end' else block.text)


def source_line(block, code_name, lines):
    """The line of the task code that a block stands on, `a.code:3: ` and its text; None where it is on none of these lines."""
    return '%s:%d: %s' % (code_name, block.line, lines[block.line - 1].strip()) if 0 < block.line <= len(lines) else None
