"""What all tools share: the text that a tool is given, and how a tool ends."""
import argparse
import os
import sys

STOPPED = 2
"""The status of a tool that couldn't do its work: a file is missing, a text is wrong, or the words are."""


class Wrong(Exception):
    """What keeps a tool from its work, as the one line that it tells."""


class Parser(argparse.ArgumentParser):
    """A reader of command lines by a tool's own text, which tells what is wrong with them in one line."""

    def __init__(self, description=None, **more):
        super().__init__(description=description, formatter_class=argparse.RawDescriptionHelpFormatter, **more)

    def error(self, message):
        raise Wrong('%s (--help says more)' % message)


def opened(name):
    """A file of this name, to be read byte for byte as text; standard input where the name is None."""
    if name is None:
        sys.stdin.reconfigure(encoding='utf-8', errors='surrogateescape', newline='')
        return sys.stdin
    return open(name, encoding='utf-8', errors='surrogateescape', newline='')


def contents(name):
    """The text of the file of this name, or of standard input where there is none."""
    if name is None:
        return opened(None).read()
    with opened(name) as file:
        return file.read()


def data(name):
    """The bytes of the file of this name."""
    with open(name, 'rb') as file:
        return file.read()


def run(main):
    """Runs the main function of a tool and ends with its status: STOPPED and one line where something is wrong, and no word
    where nobody reads the output any more."""
    for stream in (sys.stdout, sys.stderr):
        stream.reconfigure(encoding='utf-8', errors='surrogateescape')
    try:
        status = main() or 0
        sys.stdout.flush()
    except BrokenPipeError:
        os.dup2(os.open(os.devnull, os.O_WRONLY), sys.stdout.fileno())
        status = 0
    except KeyboardInterrupt:
        status = 130
    except (Wrong, OSError) as error:
        sys.stderr.write('%s: %s\n' % (os.path.basename(sys.argv[0]), told(error)))
        status = STOPPED
    sys.exit(status)


def told(error):
    """The line for an error: of a file its name and what is wrong with it."""
    if isinstance(error, OSError) and error.filename is not None:
        return '%s: %s' % (error.filename, error.strerror)
    return str(error)
