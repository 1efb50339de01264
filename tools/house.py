#!/usr/bin/env python3
"""Prints the house in numbers: crates, lines of code, of definitions and of proofs, files, functions, edits that the gate tries and edits that are
tried when a contract changes, and the megabytes that the last check kept for the next one.

With --gate it runs the gate and adds the minutes of a processor by crate: of its proofs, of its tests and what is run, of the seed of its edits,
and of its edits. The seed is the first check of a crate with several edits, which proves the whole crate from nothing; the other edits stand on
what it kept. Processes are looked at four times a second, so their last moment isn't seen by crate. The last lines have the minutes of a
processor of all processes of the run, as the system counts them, whatever else the machine does, and those by the clock. The gate's output goes
to the file that --log names.

    tools/house.py
    tools/house.py --crates                      a line for each crate
    tools/house.py --lemmas                      lemmas that nothing cites, and statements that stand twice
    tools/house.py --gate --log gate.log > gate.told
    tools/house.py --page docs/PERFORMANCE.md --told gate.told       puts what a run of the gate told into the page
"""
import os
import re
import resource
import subprocess
import sys
import time
from collections import Counter, namedtuple

from lib.contracts import bodies_of
from lib.crates import KEPT, ROOT, made_by
from lib.given import Parser, Wrong, contents, run
from lib.lemmas import texts_below
from lib.pages import with_table

CRATES = os.path.join(ROOT, 'crates')

Sizes = namedtuple('Sizes', 'code definitions proofs files functions edits apart kept')
"""The edits that the gate tries, and those that are tried apart; what the last check kept, in megabytes."""

Stat = namedtuple('Stat', 'parent begun seconds')

PARTS = {'src': 'code', 'specs': 'definitions', 'proofs': 'proofs'}

KINDS = ('proofs', 'tests', 'seeds', 'edits')

Work = namedtuple('Work', 'crate kind kept', defaults=(None,))
"""What a process of the gate works on; of a check of an edit the folder of what those before it kept."""

Told = namedtuple('Told', 'minutes unseen whole clock status')
"""What a run of the gate told: the minutes of each crate by kind, those of `rt` itself and of what ended unseen, all of a processor, those by the
clock, and its status."""

NAMED = {'proofs': 'proofs', 'tests': 'tests and programs', 'seeds': 'the first checks of crates with several wrong changes',
         'edits': 'the other wrong changes'}
"""The kinds as the page names them."""

DEAREST = 8
"""How many crates the page names."""

TICKS = os.sysconf('SC_CLK_TCK')

LOOKS = 0.25
"""How many seconds lie between two looks at the processes."""


def files_of(folder, ending):
    return [os.path.join(at, name) for at, _, names in os.walk(folder) for name in names if name.endswith(ending)]


def lines_of(file):
    with open(file, 'rb') as text:
        return text.read().count(b'\n')


def sizes_of(crate):
    """The sizes of a crate: lines by part, files and functions of all parts, edits, what is kept."""
    lines, folder = Counter(), os.path.join(CRATES, crate)
    files = {part: files_of(os.path.join(folder, part), ('.rt', '.antt')) for part in PARTS}
    for part, name in PARTS.items():
        lines[name] = sum(map(lines_of, files[part]))
    functions = sum(bodies_of(contents(file)) for file in files['src'])
    edits, apart = (len(files_of(os.path.join(folder, place), '.edit')) for place in ('must-fail', 'edits'))
    kept = sum(map(os.path.getsize, files_of(made_by(ROOT, crate, KEPT), '')))
    return Sizes(lines['code'], lines['definitions'], lines['proofs'], sum(map(len, files.values())), functions, edits, apart, round(kept / 1e6))


class Gate:
    """A run of the gate, and the seconds of a processor that its processes took so far."""

    def __init__(self, log):
        self.seconds, self.seeds, self.begin, self.before = {}, {}, time.monotonic(), seconds_of_ended()
        self.process = subprocess.Popen([os.path.join(ROOT, '.ci', 'run')], cwd=ROOT, stdin=subprocess.DEVNULL, stdout=log, stderr=log)

    def watch(self):
        """Waits for the end, and answers the minutes of each crate by kind, and those of all processes."""
        while self.process.poll() is None:
            self.look()
            time.sleep(LOOKS)
        minutes = {}
        for crate, kind, seconds in self.seconds.values():
            minutes.setdefault(crate, Counter())[kind] += seconds / 60
        return minutes, (seconds_of_ended() - self.before) / 60

    def look(self):
        """Notes how long each check, test and program has taken, with all that it started."""
        stats = {pid: stat for pid, stat in ((pid, stat_of(pid)) for pid in os.listdir('/proc') if pid.isdigit()) if stat}
        children = {}
        for pid, stat in stats.items():
            children.setdefault(stat.parent, []).append(pid)
        left = [str(self.process.pid)]
        while left:
            pid = left.pop()
            work = pid in stats and work_of(pid)
            if work:
                key = pid, stats[pid].begun
                known = self.seconds.get(key, (work.crate, self.kind(work, key), 0))
                self.seconds[key] = known[:2] + (max(known[2], seconds_with_all_below(pid, stats, children)),)
            else:
                left += children.get(pid, [])

    def kind(self, work, key):
        """The kind of a process: the first one that keeps its work in a folder of edits is their seed."""
        return 'seeds' if work.kept and self.seeds.setdefault(work.kept, key) == key else work.kind


def seconds_of_ended():
    """The seconds of all processes that this one started, with those that they started, as far as they ended."""
    usage = resource.getrusage(resource.RUSAGE_CHILDREN)
    return usage.ru_utime + usage.ru_stime


def seconds_with_all_below(pid, stats, children):
    return stats[pid].seconds + sum(seconds_with_all_below(child, stats, children) for child in children.get(pid, []))


def stat_of(pid):
    """The parent, the time of birth and the seconds of a process, with those of its children that ended; None where it has ended."""
    try:
        with open('/proc/%s/stat' % pid, encoding='latin-1') as file:
            words = file.read().rpartition(')')[2].split()
    except OSError:
        return None
    return Stat(words[1], words[19], sum(map(int, words[11:15])) / TICKS)


def work_of(pid):
    """Which crate a process works on, and at what; None where that isn't told by its words and its folder."""
    try:
        with open('/proc/%s/cmdline' % pid, encoding='utf-8', errors='replace') as file:
            words = file.read().split('\0')
        folder = os.readlink('/proc/%s/cwd' % pid)
    except OSError:
        return None
    return work_told(words, folder)


def work_told(words, folder):
    """What the words of a process and its folder tell: a check of a crate, of its tests or of an edit, a link, or a run of what was built."""
    run_ones = [os.path.basename(word) for word in words if '/rt-run-' in word]
    if '--crate-name' in words[:-1]:
        crate = words[words.index('--crate-name') + 1]
        if '/rt-edit' in folder:
            return Work(crate, 'edits', words[words.index('--incremental') + 1] if '--incremental' in words[:-1] else None)
        return Work(crate, 'tests' if '--test' in words else 'proofs')
    if run_ones:
        return Work(run_ones[0].partition('_tests')[0], 'tests')
    if os.path.basename(os.path.dirname(folder)) == 'crates':
        return Work(os.path.basename(folder), 'tests' if any('_tests' in word for word in words) else 'proofs')
    return None


def printed(rows):
    """A table, its first column to the left."""
    widths = [max(len(row[k]) for row in rows) for k in range(len(rows[0]))]
    for row in rows:
        cells = [row[0].ljust(widths[0])] + [cell.rjust(width) for cell, width in zip(row[1:], widths[1:])]
        sys.stdout.write('  '.join(cells) + '\n')


def table(sizes, minutes, each):
    """The rows: each crate if it is asked for, then all together."""
    head = ['crate'] + list(Sizes._fields) + (['%s min' % kind for kind in KINDS] if minutes is not None else [])
    rows = [head]
    for name, one in sizes.items() if each or minutes is not None else []:
        rows.append(row(name, one, None if minutes is None else minutes.get(name, Counter())))
    tests = {name: one for name, one in sizes.items() if name.endswith('_cases')}
    for name, some in (('%d crates' % len(sizes), sizes), ('of these %d of tests' % len(tests), tests)):
        total = None if minutes is None else sum((minutes.get(crate, Counter()) for crate in some), Counter())
        if not some:
            break
        rows.append(row(name, Sizes(*map(sum, zip(*some.values()))), total))
    return rows


def row(name, sizes, minutes):
    return [name] + [format(size, ',') for size in sizes] + ([] if minutes is None else ['%.1f' % minutes[kind] for kind in KINDS])


def read_told(text, name):
    """What an earlier run of the gate printed."""
    rows, minutes = [line.split() for line in text.splitlines()], {}
    for row in rows:
        if len(row) == 1 + len(Sizes._fields) + len(KINDS) and re.fullmatch(r'[a-z]\w*', row[0]):
            minutes[row[0]] = Counter(dict(zip(KINDS, map(float, row[-len(KINDS):]))))
    whole = re.search(r'(?m)^([\d.]+) minutes of a processor, ([\d.]+) of them of rt', text)
    clock = re.search(r'(?m)^([\d.]+) minutes in all, status (\d+)', text)
    if not (minutes and whole and clock):
        raise Wrong('%s: not what house.py --gate prints' % name)
    return Told(minutes, float(whole.group(2)), float(whole.group(1)), float(clock.group(1)), int(clock.group(2)))


def told_in_page(told):
    """The table of the page, and the dearest crates."""
    if told.status != 0:
        raise Wrong('this gate ended with status %d' % told.status)
    sums = sum(told.minutes.values(), Counter())
    rows = [('part', 'minutes of a processor'), ('---', '---')] + [(NAMED[kind], '%.1f' % sums[kind]) for kind in KINDS]
    rows += [('`rt` itself, and what is over in a moment', '%.1f' % told.unseen), ('all', '%.1f' % told.whole)]
    dearest = sorted(told.minutes, key=lambda crate: -sum(told.minutes[crate].values()))[:DEAREST]
    named = '\n'.join('- `%s`: %.1f' % (crate, sum(told.minutes[crate].values())) for crate in dearest)
    return '%s\n\nBy the clock it took %.0f minutes. The dearest crates, with all of these parts:\n\n%s\n' % (
        '\n'.join('| %s | %s |' % row for row in rows), told.clock, named)


def print_lemmas():
    """Prints the lemmas that nothing cites, and the statements that stand more than once."""
    texts = texts_below(CRATES)
    uncited, doubled = texts.uncited(), texts.doubled()
    for lemma in uncited:
        sys.stdout.write('crates/%s:%d: %s is cited nowhere\n' % (lemma.path, lemma.line, lemma.name))
    for places in doubled.values():
        first, *others = places
        told = ', '.join('%s in crates/%s:%d' % (one.name, one.path, one.line) for one in others)
        sys.stdout.write('crates/%s:%d: %s says what %s\n' % (first.path, first.line, first.name, told))
    sys.stdout.write('%d of %d statements of proofs are cited nowhere, %d stand more than once\n' % (len(uncited), len(list(texts.proved())), len(doubled)))


def arguments():
    parser = Parser(__doc__)
    parser.add_argument('--crates', action='store_true', help='a line for each crate')
    parser.add_argument('--lemmas', action='store_true', help='what nothing cites, and what is stated twice')
    parser.add_argument('--gate', action='store_true', help='runs the gate and measures it')
    parser.add_argument('--log', metavar='FILE', help='where the output of the gate goes')
    parser.add_argument('--told', metavar='FILE', help='what a run with --gate printed')
    parser.add_argument('--page', metavar='FILE', help='the page that this is put into')
    return parser.parse_args()


def put_into_page(words):
    if not words.told:
        raise Wrong('--page wants --told')
    page = with_table(contents(words.page), 'gate', told_in_page(read_told(contents(words.told), words.told)))
    with open(words.page, 'w', encoding='utf-8', newline='\n') as file:
        file.write(page)


def main():
    words = arguments()
    if words.lemmas:
        print_lemmas()
        return 0
    if words.page:
        put_into_page(words)
        return 0
    sizes = {name: sizes_of(name) for name in sorted(os.listdir(CRATES)) if os.path.isdir(os.path.join(CRATES, name, 'src'))}
    if not words.gate:
        printed(table(sizes, None, words.crates))
        return 0
    if not words.log:
        raise Wrong('--gate wants --log')
    with open(words.log, 'wb') as log:
        gate = Gate(log)
        minutes, whole = gate.watch()
    printed(table(sizes, minutes, True))
    seen = sum(sum(some.values()) for some in minutes.values())
    sys.stdout.write('%.1f minutes of a processor, %.1f of them of rt itself and of what ended unseen\n' % (whole, whole - seen))
    sys.stdout.write('%.1f minutes in all, status %d; %s\n' % ((time.monotonic() - gate.begin) / 60, gate.process.returncode, words.log))
    return 0 if gate.process.returncode == 0 else 1


if __name__ == '__main__':
    run(main)
