"""What a built osekfit says of an application, for tools whose model is too slow for it: its texts, and the table of its certificate."""
import os
import subprocess
import tempfile

from lib import program
from lib.covered import Owners
from lib.given import Wrong, data
from lib.image_reader import read_image
from lib.least_table import FEW_ASKED, MOST_ASKED
from lib.show_reader import read_show
from lib.states import KEEP, To
from lib.table_bytes import table_told

TOO_LARGE = 13
"""The status of `certify` where the table would be over 16 MiB."""


class Printed:
    """What the program prints of two texts, and the table that it certifies them by, None where that is too large."""

    def __init__(self, path, oil, code):
        self.program = path
        with tempfile.TemporaryDirectory(prefix='osekfit-printed-') as folder:
            image, table = (os.path.join(folder, name) for name in ('a.image', 'a.table'))
            self.show, self.report = (self.run([verb, oil, code])[1] for verb in ('show', 'report'))
            status, _ = self.run(['certify', oil, code, image, table], TOO_LARGE)
            if status == TOO_LARGE:
                self.run(['build', oil, code, image])
            self.info = self.run(['info', image])[1]
            self.table = None if status == TOO_LARGE else certificate_table(image, table)

    def run(self, words, other=0):
        """The status, which is 0 or this other one, and what is printed."""
        done = subprocess.run([self.program, *words], stdin=subprocess.DEVNULL, capture_output=True, check=False)
        if done.returncode not in (0, other):
            raise Wrong('%s %s ends with status %d: %s' % (self.program, words[0], done.returncode, done.stderr.decode('utf-8', 'replace').strip()))
        return done.returncode, done.stdout.decode('ascii', 'replace')


def certificate_table(image, table):
    """The table of the certificate in two files."""
    return table_told(read_image(data(image), image).app, data(table), table)


def outcomes_of(show, app, block, name='show'):
    """The outcomes of a site by the edges that a text of `show` has from it."""
    shown, owners, found = read_show(show, name), Owners(app), set()
    for edge in shown.edges:
        outcome = owners.outcome(edge, shown.sites) if edge[0].block == block else None
        if outcome:
            word, _, other = outcome[1].partition(' ')
            found.add(KEEP if word in ('returns', 'goes') else To(app.task_number.get(other)))
    return found


def most_asked():
    """How many states the model is asked for at most: fewer where a program is found that answers as well."""
    try:
        program.found(None)
    except Wrong:
        return MOST_ASKED
    return FEW_ASKED


def printed(path, oil, code):
    """What the program says that is named, or that is found; None where there is none."""
    try:
        return Printed(program.found(path), oil, code)
    except Wrong:
        if path is not None:
            raise
        return None
