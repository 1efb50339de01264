#!/usr/bin/env python3
"""Refuses a program its memory, one request at a time.

For each command and each k the program's k-th request for memory is refused, until a run meets no refusal. A run that met one
has to end with status 7 and `memory` on standard error (nothing there where the words weren't there yet), having printed nothing,
with no file created or changed. It may also get along without (std's `collect` asks for all its room at first, and then for less),
and end as with ample memory. Where the C library itself asked, the answer may be a failed read or write, with status 5 or 6, after
a prefix of what is printed with ample memory.

    tools/refuse_memory.py crates/osekfit/out/osekfit          needs cc: a library that is loaded first refuses the request
    tools/refuse_memory.py --try --every 10                    by `rt try --fail-alloc`, which needs no proved program, builds it
                                                               anew each time (half a minute), and doesn't show its files
"""
import collections
import os
import re
import shutil
import subprocess
import tempfile

from lib import given

HERE = os.path.dirname(os.path.abspath(__file__))
TOP = os.path.dirname(HERE)
MODE = 'OSDEFAULTAPPMODE'

COMMANDS = [['build', 'a.oil', 'a.code', 'a.image'], ['build', 'a.oil', 'a.code', 'new.image'],
            ['replay', 'a.image', MODE, 'a.events'], ['trace', 'a.oil', 'a.code', MODE, 'a.events'],
            ['show', 'a.oil', 'a.code'], ['info', 'a.image'], ['gen', '1', '1'], ['upgrade', 'first.image', 'new.image'],
            ['certify', 'a.oil', 'a.code', 'new.image', 'new.table'], ['check', 'a.image', 'a.table'], ['check', 'a.image', 'other.table'],
            ['record', 'a.image', MODE, 'a.events'], ['watch', 'a.oil', 'a.code', 'a.record'], ['watch', 'a.oil', 'a.code', 'other.record'],
            ['report', 'a.oil', 'a.code']]

OF_AN_IMAGE, STORED = ('replay', 'info', 'check', 'record'), ('a.image', 'a.table', 'other.table')
"""The commands that read what is stored, and the names of that."""

FIRST_IMAGE = bytes.fromhex(
    '4f53454b46495401' '00' '010000000101' '0002' '025431' '0001' '01' '0000000000000000' '01' '0000' '0002'
    '0d5245535f5343484544554c4552' '00000003' '104f5344454641554c544150504d4f4445'
    '04' '00' '00000001' '0001' '02ff' '16' '00' '00000001' '0000')
"""An image of version 1: a task that ends itself."""

DUE = (0, 11, 12, 14, 15)
"""The statuses with ample memory."""

SECONDS = 60
MOST = 200000
"""How many requests of one command are refused at most."""

LIBRARY = r"""
#include <fcntl.h>
#include <stdlib.h>
#include <unistd.h>

void *__libc_malloc(size_t);
void *__libc_calloc(size_t, size_t);
void *__libc_realloc(void *, size_t);
void *__libc_memalign(size_t, size_t);

static long requests, refused_at = -1;

/* Whether this request is the one to refuse; a file then tells that it came. */
static int refuse(void) {
    if (refused_at < 0) {
        const char *at = getenv("REFUSE_AT");
        refused_at = at ? atol(at) : 0;
    }
    if (++requests != refused_at)
        return 0;
    close(open(getenv("REFUSE_MARK"), O_CREAT | O_WRONLY, 0600));
    return 1;
}

void *malloc(size_t n) { return refuse() ? NULL : __libc_malloc(n); }
void *calloc(size_t n, size_t m) { return refuse() ? NULL : __libc_calloc(n, m); }
void *realloc(void *p, size_t n) { return refuse() ? NULL : __libc_realloc(p, n); }
void *memalign(size_t a, size_t n) { return refuse() ? NULL : __libc_memalign(a, n); }
void *aligned_alloc(size_t a, size_t n) { return memalign(a, n); }
int posix_memalign(void **p, size_t a, size_t n) { *p = memalign(a, n); return *p ? 0 : 12; }
"""

Answer = collections.namedtuple('Answer', 'status out err refused files')
"""How a run ended; files is None where they can't be seen."""


class Built:
    """A built program, with a library loaded before the C library's own."""

    def __init__(self, program, folder, texts, library=LIBRARY):
        self.program, self.folder, self.texts = os.path.abspath(program), folder, texts
        source, self.library = os.path.join(folder, 'refuse.c'), os.path.join(folder, 'refuse.so')
        with open(source, 'w', encoding='ascii') as file:
            file.write(library)
        subprocess.run(['cc', '-O1', '-shared', '-fPIC', '-o', self.library, source], check=True)

    def run(self, words, k, how=''):
        """Runs the program with its k-th request refused, in a way that the library knows; 0 refuses none."""
        place, mark = tempfile.mkdtemp(dir=self.folder), os.path.join(self.folder, 'mark')
        for name, data in self.texts.items():
            write(os.path.join(place, name), data)
        if os.path.exists(mark):
            os.remove(mark)
        environment = {'LD_PRELOAD': self.library, 'REFUSE_AT': str(k), 'REFUSE_HOW': how, 'REFUSE_MARK': mark}
        done = subprocess.run([self.program] + words, cwd=place, env=environment, stdin=subprocess.DEVNULL, capture_output=True,
                              timeout=SECONDS, check=False)
        files = {name: read(os.path.join(place, name)) for name in os.listdir(place)}
        shutil.rmtree(place)
        return Answer(done.returncode, done.stdout, done.stderr, os.path.exists(mark), files)


class Tried:
    """The program as `rt try` runs it. Whether a refusal was met is told by the status alone."""

    def __init__(self, folder, texts):
        self.data = []
        for name, data in texts.items():
            write(os.path.join(folder, name), data)
            self.data += ['--data', '%s=%s' % (name, os.path.join(folder, name))]

    def run(self, words, k):
        refusal = ['--fail-alloc', str(k)] if k else []
        done = subprocess.run(['rt', 'try'] + refusal + self.data + ['--'] + words, cwd=os.path.join(TOP, 'crates', 'osekfit'),
                              stdin=subprocess.DEVNULL, capture_output=True, check=False)
        err = done.stderr.decode('utf-8', 'replace')
        ended = re.search(r'run=ended status=(\d+)', err)
        status = int(ended.group(1)) if ended else done.returncode
        return Answer(status, done.stdout, b'memory\n' if status == 7 else b'', status == 7, None)


def write(name, data):
    with open(name, 'wb') as file:
        file.write(data)


def read(name):
    with open(name, 'rb') as file:
        return file.read()


def fault_of(words, answer, ample, texts):
    """What is wrong with the answer of a run that met a refusal, or None."""
    err = answer.err.decode('latin-1')
    if answer.status in DUE:
        return None if answer._replace(refused=False) == ample else 'status %d, and not all was done' % answer.status
    if answer.status == 7 and err not in ('memory\n', ''):
        return 'err is %r' % err
    if answer.status in (5, 6) and not re.fullmatch(r'([^\n:]+: (read|write)\n)?', err):
        return 'err is %r' % err
    if answer.status not in (5, 6, 7):
        return 'status %d' % answer.status
    if not ample.out.startswith(answer.out) or answer.out and answer.status == 7:
        return '%d bytes on out' % len(answer.out)
    if answer.files is not None and answer.files != texts and answer.status != 6:
        return 'a file was created or changed'
    return None


def refused_runs(runner, words, every=1):
    """The runs of a command that met a refusal, each with the number of what was refused."""
    for k in range(1, MOST, every):
        answer = runner.run(words, k)
        if not answer.refused:
            return
        yield k, answer


def judge(runner, words, every, what, fault_of_answer, say):
    """Judges each run of a command that met a refusal; the number of faults, and how often each status came."""
    faults, statuses = 0, collections.Counter()
    for k, answer in refused_runs(runner, words, every):
        statuses[answer.status] += 1
        fault = fault_of_answer(answer)
        if fault:
            faults += 1
            say('%s: %s: %s' % (' '.join(words), what % k, fault))
    return faults, ', '.join('%d times status %d' % (count, status) for status, count in sorted(statuses.items()))


def has_inputs(words, texts):
    """Whether what a command reads is there."""
    return words[0] not in OF_AN_IMAGE or all(name in texts for name in words if name in STORED)


def is_unknown(words, ample, say):
    """Whether the program doesn't have a command yet, which then is said."""
    if ample.status == 2:
        say('%s: no such command yet' % words[0])
    return ample.status == 2


def refuse_all(runner, words, texts, every, say):
    """Refuses each request of a command in turn; the number of faults."""
    ample = runner.run(words, 0)
    if is_unknown(words, ample, say):
        return 0
    if ample.status not in DUE:
        say('%s: status %d with ample memory' % (' '.join(words), ample.status))
        return 1
    faults, told = judge(runner, words, every, 'request %d refused', lambda answer: fault_of(words, answer, ample, texts), say)
    say('%s: %s, then no refusal' % (' '.join(words), told or 'none'))
    return faults


def arguments():
    parser = given.Parser(__doc__)
    parser.add_argument('program', metavar='PROGRAM', nargs='?', help='the built osekfit')
    parser.add_argument('--try', dest='tried', action='store_true', help='by rt try, in place of a built program')
    parser.add_argument('--example', default='first', help='the folder of examples/ whose texts are used')
    parser.add_argument('--image', metavar='FILE', help="the example's image; needed with --try for replay, info and check")
    parser.add_argument('--table', metavar='FILE', help='the table that certifies it; needed with --try for check')
    parser.add_argument('--every', type=int, default=1, metavar='N', help='refuse the first request and each N-th after it')
    parser.add_argument('--only', metavar='COMMAND', help='one command')
    return parser.parse_args()


def texts_of(words, folder):
    example = os.path.join(TOP, 'examples', words.example, words.example)
    texts = {'a.' + end: read('%s.%s' % (example, end)) for end in ('oil', 'code', 'events')}
    stored = {'a.image': words.image, 'a.table': words.table}
    if words.program:
        stored = {name: os.path.join(folder, name) for name in stored}
        program, sources = os.path.abspath(words.program), [example + '.oil', example + '.code']
        if subprocess.run([program, 'certify'] + sources + list(stored.values()), stderr=subprocess.DEVNULL, check=False).returncode:
            subprocess.run([program, 'build'] + sources + [stored['a.image']], check=True)
    texts.update({name: read(file) for name, file in stored.items() if file and os.path.exists(file)})
    if 'a.table' in texts:
        texts['other.table'] = texts['a.table'][:-1] + b'\xff'
    texts.update({'first.image': FIRST_IMAGE, 'a.record': b'b0\n# a point twice\nb0\n', 'other.record': b'b0\nhalt\n'})
    return texts


def main():
    words = arguments()
    if bool(words.program) == words.tried:
        raise given.Wrong('a built program is wanted, or --try')
    folder, faults = tempfile.mkdtemp(prefix='osekfit-memory-'), 0
    try:
        texts = texts_of(words, folder)
        runner = Tried(folder, texts) if words.tried else Built(words.program, folder, texts)
        for command in COMMANDS:
            if words.only in (None, command[0]) and has_inputs(command, texts):
                faults += refuse_all(runner, command, texts, words.every, lambda text: print(text, flush=True))
    finally:
        shutil.rmtree(folder)
    print('%d wrong' % faults)
    return 1 if faults else 0


if __name__ == '__main__':
    given.run(main)
