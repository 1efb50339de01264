#!/usr/bin/env python3
"""Runs a command of osekfit and explains why it refuses: the source line, what the rule says, and where to look first.

What the command prints comes through, and so does its status. A refusal is told as `FILE:LINE: error: RULE: ..`, to which editors and
build servers jump, and behind it in lines that begin with blanks. What rules mean stands in docs/LANGUAGE.md and docs/FORMATS.md alone, and is
read there.

    tools/explain.py osekfit build a.oil a.code a.image
"""
import subprocess
import sys

from lib import causes
from lib.explained import explained, guide, rules_of
from lib.given import Wrong, run

STATUSES = {
    2: 'the words are none of the forms; osekfit has: build OIL CODE IMAGE, replay IMAGE MODE EVENTS, trace OIL CODE MODE EVENTS, '
       'show OIL CODE, report OIL CODE, info IMAGE, upgrade IN OUT, certify OIL CODE IMAGE TABLE, check IMAGE TABLE, '
       'record IMAGE MODE EVENTS, watch OIL CODE RECORD, gen SEED TASKS (1 to 16 tasks)',
    5: 'a read failed: the file is there and a regular file? A pipe or a device is none',
    6: 'a write failed: the folder is there, and the disk has room?',
    7: 'memory ran out',
    8: 'the image traps at the event that the last line names: no image that build stores does, so these bytes were changed',
    9: 'there is no mode of this name: modes are the APPMODE objects of the OIL text, and OSDEFAULTAPPMODE',
    10: 'the image is of version 2 already',
    13: 'the table would be over 16 MiB, and no file was changed: tasks that take many resources in any order have many values',
    15: 'the record has the alarm that is printed: no run of the application of these texts has it, whatever the interrupts and choices; '
        'tools/graph.py --record says what might have come in its place',
}
"""What a status says, where no rule does."""

NO_MODE = 9


def main():
    if len(sys.argv) < 2 or sys.argv[1] in ('-h', '--help'):
        sys.stdout.write(__doc__)
        return 0 if len(sys.argv) > 1 else 2
    command = sys.argv[1:]
    try:
        done = subprocess.run(command, stdin=subprocess.DEVNULL, stderr=subprocess.PIPE)
    except OSError as error:
        raise Wrong('%s: %s' % (command[0], error.strerror)) from None
    told = done.stderr.decode('utf-8', 'surrogateescape')
    lines = explained(told.strip(), command[1:], rules_of(guide()))
    if lines:
        sys.stderr.write('\n'.join(lines) + '\n')
    else:
        sys.stderr.write(told + ('\n' if told and not told.endswith('\n') else ''))
        if done.returncode in STATUSES:
            sys.stderr.write('    status %d: %s\n' % (done.returncode, STATUSES[done.returncode]))
        if done.returncode == NO_MODE:
            sys.stderr.write(''.join('    %s\n' % text for text in causes.modes(command[1:])))
    return done.returncode if done.returncode >= 0 else 128 - done.returncode


if __name__ == '__main__':
    run(main)
