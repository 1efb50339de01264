#!/usr/bin/env python3
"""Makes of the OIL files of a project, or of the configuration of an AUTOSAR OS, the one text that osekfit reads.

Files that are named by #include are joined. Objects and attributes that osekfit's language doesn't have are dropped. What that changes is told
on standard error, as `FILE:LINE: note: ..`, and as `FILE:LINE: warning: ..` where runs may differ by it. Each line of the text says where it comes
from, and explain.py tells that place where osekfit refuses the line.

    tools/flatten.py big.oil > app.oil
    tools/flatten.py -I include -I config big.oil > app.oil
    cpp -P big.oil | tools/flatten.py > app.oil                  where the files have #define or #if
    tools/flatten.py --arxml Os.arxml > app.oil                  ECUC values: OsTask, OsIsr, OsCounter, OsAlarm, OsEvent, OsResource, OsAppMode

The status is 1 where there was a warning.
"""
import os
import sys

from lib import arxml
from lib.flat_oil import Carrier, Reader, joined, written
from lib.given import Parser, Wrong, run
from lib.oil_tokens import Files


def objects_of_oil(name, folders):
    """The objects of an OIL file, and the name of its CPU."""
    found, cpu = Reader(Files(folders).tokens(name)).objects()
    if cpu is None:
        raise Wrong('%s: there is no CPU' % (name or 'standard input'))
    return found, cpu.text


def flattened(words, carrier):
    """The lines of the text."""
    if words.arxml:
        if words.file is None:
            raise Wrong('--arxml needs a file')
        things, cpu = joined(arxml.objects_of(words.file, carrier)), os.path.splitext(os.path.basename(words.file))[0]
    else:
        things, cpu = objects_of_oil(words.file, words.include)
    return list(written(name_of(cpu), carrier.carried(things)))


def name_of(text):
    """A name of OIL, by a text that may be none."""
    found = ''.join(sign if sign.isascii() and (sign.isalnum() or sign == '_') else '_' for sign in text)
    return found if found[:1].isalpha() or found[:1] == '_' else '_' + found


def tell(carrier):
    """Tells what was dropped; the status."""
    for note in sorted(carrier.notes, key=lambda note: (note.file, note.line)):
        sys.stderr.write('%s:%d: %s: %s\n' % (note.file, note.line, 'warning' if note.is_open else 'note', note.text))
    for line in carrier.summary():
        sys.stderr.write('note: %s\n' % line)
    return 1 if any(note.is_open for note in carrier.notes) else 0


def arguments():
    parser = Parser(__doc__)
    parser.add_argument('file', nargs='?', metavar='FILE', help='standard input where it is missing')
    parser.add_argument('-I', dest='include', action='append', default=[], metavar='FOLDER', help='where included files are looked for')
    parser.add_argument('--arxml', action='store_true', help='the file is ARXML')
    return parser.parse_args()


def main():
    words, carrier = arguments(), Carrier()
    for line in flattened(words, carrier):
        sys.stdout.write(line + '\n')
    return tell(carrier)


if __name__ == '__main__':
    run(main)
