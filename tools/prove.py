#!/usr/bin/env python3
"""Proves and builds crates with all that they stand on, side by side where they don't stand on each other, and a line a crate. A program comes last.

A line says how much of the work is done, by what each crate takes on a quiet machine; where nothing ends for two minutes another one says the time
of day and what is at work. It may be interrupted: what was proved is kept, and isn't proved again.

A check locks the crates below it. So each one that goes on at a time has a copy of the sources of its own, in a folder below out/ that
goes at the end, and is given the libraries that other copies built: `rt` takes a library that was built over the same sources. There are
as many at a time as there are processors, and 4 GB of free memory for each. The crates from which the longest way leads up go first.

    tools/prove.py                          osekfit and all below it
    tools/prove.py --jobs 2 osek_io         osek_io and all below it, two at a time
    tools/prove.py --plan                   says how many there are and how long they take from nothing, about
"""
import contextlib
import os
import shutil
import signal
import subprocess
import sys
import time
from collections import namedtuple

from lib.crates import KEPT, LIBRARY, ROOT, Crates, copy_sources, jobs_here, link, made_by, stamp
from lib.given import Parser, Wrong, contents, run

SILENT = 120
"""After so many seconds in which nothing ended it is said what is at work."""

SHOWN = 20
"""How many lines of what rt said are shown where a crate isn't proved."""

Work = namedtuple('Work', 'crate process begun log')


class Order:
    """Which of the crates comes next, and how long all take."""

    def __init__(self, crates, names):
        self.below = {name: crates.below[name] & set(names) for name in names}
        self.seconds = {name: crates.seconds(name) for name in names}
        self.way = self.ways()

    def ways(self):
        """How long the longest way takes that leads up from each crate."""
        way = {}
        for name in reversed(self.below):
            way[name] = self.seconds[name] + max((way[other] for other in way if name in self.below[other]), default=0)
        return way

    def next(self, left, done):
        """The crate that can be proved now and has the longest way above it; None where there is none."""
        ready = [name for name in left if self.below[name] <= done]
        return max(ready, key=self.way.get, default=None)

    def whole(self, jobs):
        """About how many seconds all take, so many at a time."""
        now, left, done, running = 0, list(self.below), set(), []
        while left or running:
            name = self.next(left, done) if len(running) < jobs else None
            if name:
                left.remove(name)
                running.append((now + self.seconds[name], name))
            else:
                now, name = min(running)
                running.remove((now, name))
                done.add(name)
        return now


class Progress:
    """What is told meanwhile. The work is counted in the seconds that crates take on a quiet machine."""

    def __init__(self, seconds):
        self.seconds = seconds

    def share(self, done):
        percent = 100 * sum(self.seconds[name] for name in done) // max(1, sum(self.seconds.values()))
        return '%d of %d, %d %% of the work' % (len(done), len(self.seconds), percent)

    def ended(self, crate, took, done):
        return '%s: proved (%d s), %s' % (crate, took, self.share(done))

    def silent(self, clock, passed, running, done):
        """What is said where nothing ends: the time of day, since when, and what is at work for how long; pairs of a crate and its seconds so far."""
        works = ', '.join('%s (%d min, about %d on a quiet machine)' % (crate, took // 60, self.seconds[crate] // 60 + 1) for crate, took in running)
        return '%s, after %d min: %s; at work: %s' % (clock, passed // 60, self.share(done), works)


class Copies:
    """The repository, and copies of its sources beside it as they are needed."""

    def __init__(self, crates):
        self.crates, self.room = crates, os.path.join(crates.root, 'out', 'prove-%d' % os.getpid())
        self.free, self.all, self.built = [crates.root], [crates.root], {}

    def take(self):
        """A copy in which nothing is being proved."""
        if not self.free:
            copy = os.path.join(self.room, str(len(self.all)))
            copy_sources(self.crates.root, copy)
            self.all.append(copy)
            self.free.append(copy)
        return self.free.pop()

    def give(self, copy):
        """A copy is free again; the repository itself is taken before all others."""
        self.free.append(copy)
        self.free.sort(key=self.all.index, reverse=True)

    def bring(self, names, copy):
        """Gives a copy the libraries of these crates, as links to those that were built."""
        for name in names:
            there, here = made_by(self.built[name], name, LIBRARY), made_by(copy, name, LIBRARY)
            if self.built[name] != copy and stamp(here) != stamp(there):
                link(there, here)

    def bring_home(self, names):
        """Gives the repository what checks kept in copies, for its next check, and their libraries."""
        self.bring(names, self.crates.root)
        for name in names:
            here = made_by(self.crates.root, name, KEPT)
            for copy in self.all[1:]:
                there = made_by(copy, name, KEPT)
                if os.path.isdir(there) and not os.path.isdir(here):
                    os.makedirs(os.path.dirname(here), exist_ok=True)
                    os.rename(there, here)

    def end(self):
        shutil.rmtree(self.room, ignore_errors=True)
        with contextlib.suppress(OSError):
            os.rmdir(os.path.dirname(self.room))


class Prover:
    """Proves crates in their order, so many at a time."""

    def __init__(self, crates, names, jobs):
        self.names, self.jobs = names, jobs
        self.order, self.copies = Order(crates, names), Copies(crates)
        self.left, self.done, self.running = list(names), set(), {}
        self.progress, self.begun, self.told = Progress(self.order.seconds), time.monotonic(), time.monotonic()

    def all(self):
        try:
            while self.left or self.running:
                self.begin()
                time.sleep(0.1)
                for copy, work in list(self.running.items()):
                    if work.process.poll() is not None:
                        self.end(copy, work)
                self.say_what_is_at_work()
            self.gather()
        finally:
            for work in self.running.values():
                work.process.terminate()
            for work in self.running.values():
                work.process.wait()
            self.copies.bring_home([name for name in self.done if not self.copies.crates.is_program(name)])
            self.copies.end()

    def begin(self):
        """Begins with what can be begun."""
        while len(self.running) < self.jobs:
            crate = self.order.next(self.left, self.done)
            if crate is None:
                return
            self.left.remove(crate)
            copy = self.copies.take()
            self.running[copy] = self.work(crate, copy)

    def work(self, crate, copy):
        """Has rt prove and build a crate, over those below it that stand; a program it also runs, without words."""
        os.makedirs(self.copies.room, exist_ok=True)
        self.copies.bring(self.order.below[crate], copy)
        log = os.path.join(self.copies.room, crate + '.log')
        with open(log, 'wb') as out:
            verb = 'run' if self.copies.crates.is_program(crate) else 'lib'
            process = subprocess.Popen(['rt', verb], cwd=os.path.join(copy, 'crates', crate), stdin=subprocess.DEVNULL, stdout=out, stderr=out)
        return Work(crate, process, time.monotonic(), log)

    def end(self, copy, work):
        """Tells of a crate that is done, and stops where it isn't proved."""
        del self.running[copy]
        if not self.is_proved(work):
            sys.stderr.write(''.join(contents(work.log).splitlines(True)[-SHOWN:]))
            raise Wrong('%s was not proved; above is what rt said' % work.crate)
        self.copies.give(copy)
        self.copies.built[work.crate] = copy
        self.done.add(work.crate)
        self.say(self.progress.ended(work.crate, time.monotonic() - work.begun, self.done))

    def is_proved(self, work):
        """A program that was proved has been run; its own status is that of a command without words."""
        if self.copies.crates.is_program(work.crate):
            return 'rt: running out/%s' % work.crate in contents(work.log)
        return work.process.returncode == 0

    def say(self, text):
        self.told = time.monotonic()
        sys.stdout.write('  %s\n' % text)
        sys.stdout.flush()

    def say_what_is_at_work(self):
        now = time.monotonic()
        if self.running and now - self.told >= SILENT:
            running = [(work.crate, now - work.begun) for work in self.running.values()]
            self.say(self.progress.silent(time.strftime('%H:%M'), now - self.begun, running, self.done))

    def gather(self):
        """Has the repository itself take over the libraries that copies built."""
        if len(self.copies.all) == 1:
            return
        libraries = [name for name in self.names if not self.copies.crates.is_program(name)]
        self.copies.bring_home(libraries)
        above = set().union(*(self.order.below[name] for name in self.names))
        for crate in [name for name in libraries if name not in above]:
            work = self.work(crate, self.copies.all[0])
            if work.process.wait() != 0:
                raise Wrong('%s was not taken over: %s' % (crate, contents(work.log)[-200:]))


def plan(count, jobs, seconds, load, processors):
    """How many crates there are, and how long they take from nothing; longer by as much as others want of the processors."""
    told = '%d crates, at most %d at a time; about %d minutes from nothing on a quiet machine' % (count, jobs, seconds / 60 + 1)
    busy = (load + jobs) / processors
    return told if busy < 1.5 else told + ', and %d beside what runs here now' % (seconds / 60 * busy + 1)


def arguments():
    parser = Parser(__doc__)
    parser.add_argument('crates', nargs='*', metavar='CRATE', help='osekfit where none is named')
    parser.add_argument('--jobs', type=int, metavar='N', help='how many crates at a time')
    parser.add_argument('--plan', action='store_true', help='proves nothing')
    return parser.parse_args()


def main():
    words = arguments()
    crates, tops = Crates(ROOT), words.crates or ['osekfit']
    names = crates.libraries(tops) + [top for top in tops if crates.is_program(top)]
    jobs = max(1, words.jobs or jobs_here())
    if words.plan:
        sys.stdout.write(plan(len(names), jobs, Order(crates, names).whole(jobs), os.getloadavg()[0], len(os.sched_getaffinity(0))) + '\n')
        return
    if shutil.which('rt') is None:
        raise Wrong('rt, the command of the Rattle kit, is not on the PATH')
    signal.signal(signal.SIGTERM, lambda *_: sys.exit(128 + signal.SIGTERM))
    Prover(crates, names, jobs).all()


if __name__ == '__main__':
    run(main)
