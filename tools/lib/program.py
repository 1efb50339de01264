"""Where tools that run osekfit find it."""
import os
import shutil
import subprocess
import tempfile

from lib.crates import ROOT
from lib.given import Wrong

BUILT = os.path.join(ROOT, 'crates', 'osekfit', 'out', 'osekfit')

TRAPPED = 8
"""The status of a replay in which the image traps."""


def found(name):
    """The path of the program: the one that is named, else the one on the PATH, else the one that `./first.sh` built."""
    path = shutil.which(name) if name else shutil.which('osekfit') or shutil.which(BUILT)
    if path is None:
        raise Wrong('%s: no program; --program says where osekfit is' % (name or 'osekfit'))
    return os.path.abspath(path)


def traced(program, words, events):
    """The lines that a call of the program prints over an event text; where an image traps, the line of the trap is the last."""
    with tempfile.NamedTemporaryFile('w', suffix='.events') as file:
        file.write(events)
        file.flush()
        done = subprocess.run([program, *words, file.name], stdin=subprocess.DEVNULL, stdout=subprocess.PIPE, stderr=subprocess.PIPE)
    if done.returncode not in (0, TRAPPED):
        raise Wrong('osekfit %s: status %d: %s' % (words[0], done.returncode, done.stderr.decode('utf-8', 'replace').strip()))
    return done.stdout.decode('utf-8', 'surrogateescape').splitlines()
