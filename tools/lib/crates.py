"""The crates of this repository: what each stands on, and what a check leaves of it."""
import os
import shutil

from lib.given import Wrong, contents

ROOT = os.path.dirname(os.path.dirname(os.path.dirname(os.path.abspath(__file__))))

SECONDS_EACH, SECONDS_A_LINE = 12, 0.11
"""What a first check takes of a processor: so much, and more for each line of code. Measured, crate by crate, within twice or half of it."""

SECONDS_OF_A_PROGRAM = 300
"""What a program takes besides, at which all crates below it are judged."""

MEMORY_EACH = 4 << 30

LIBRARY, KEPT = 'rlib', 'incremental'
"""What a check leaves in a crate's out/: the library with a stamp of its sources, and the work for the next check."""


def made_by(copy, crate, part):
    """Where a check in a copy leaves a part of what it makes."""
    return os.path.join(copy, 'crates', crate, 'out', part)


def stamp(library):
    """The sum of the sources that a library was built over; None where it isn't there."""
    path = os.path.join(library, 'stamp')
    return contents(path) if os.path.exists(path) else None


def copy_sources(root, copy):
    """Copies what `rt` reads of a repository, without what it made."""
    shutil.copytree(os.path.join(root, 'crates'), os.path.join(copy, 'crates'), ignore=shutil.ignore_patterns('out'))
    shutil.copy(os.path.join(root, 'crates.txt'), copy)


def link(there, here):
    """Makes links to the files of a folder, or copies where the system makes none."""
    def linked(source, target):
        try:
            os.link(source, target)
        except OSError:
            shutil.copy2(source, target)
    shutil.rmtree(here, ignore_errors=True)
    shutil.copytree(there, here, copy_function=linked)


class Crates:
    """The crates of a repository, each behind those that it stands on."""

    def __init__(self, root):
        self.root, self.below = root, {}
        for line in contents(os.path.join(root, 'crates.txt')).splitlines():
            name, colon, rest = line.partition(':')
            if colon and not line.startswith('#'):
                own = [dep for dep in rest.split() if dep in self.below]
                self.below[name.split()[0]] = {deep for dep in own for deep in [dep, *self.below[dep]]}

    def is_program(self, name):
        return os.path.exists(os.path.join(self.root, 'crates', name, 'src', 'main.rt'))

    def libraries(self, tops):
        """The libraries among these crates and all below them, lowest first."""
        for top in tops:
            if top not in self.below:
                raise Wrong('%s is no crate of crates.txt' % top)
        wanted = {name for top in tops for name in [top, *self.below[top]]}
        return [name for name in self.below if name in wanted and not self.is_program(name)]

    def seconds(self, name):
        """About how long a first check of the crate takes."""
        lines = 0
        for at, _, files in os.walk(os.path.join(self.root, 'crates', name, 'src')):
            lines += sum(contents(os.path.join(at, file)).count('\n') for file in files)
        return SECONDS_EACH + SECONDS_A_LINE * lines + (SECONDS_OF_A_PROGRAM if self.is_program(name) else 0)


def jobs_here():
    """How many crates can be proved at a time on this machine."""
    memory = next(int(line.split()[1]) << 10 for line in contents('/proc/meminfo').splitlines() if line.startswith('MemAvailable:'))
    return max(1, min(len(os.sched_getaffinity(0)), memory // MEMORY_EACH))
