#!/usr/bin/env python3
"""Lets a program's calls on files and streams fail, one at a time.

For each command and each k the program's k-th call of the C library that looks up, opens, reads, writes or seeks fails, until a
run meets no failure. A run that met one has to end with status 5 and `FILE: read`, with no file created or changed, or with status 6
and `FILE: write` or `out: write` (or a prefix of what was to be told, where that failed), the image untouched or a prefix of what is
stored without a failure (or whole, where the table of `certify` is untouched or a prefix); either way with a prefix of what is printed
without one. Then each command runs once with reads and writes that move one byte at most, and once with each of them interrupted by a
signal at first: both end as without.

    tools/fail_io.py crates/osekfit/out/osekfit          needs cc: a library that is loaded first lets the call fail
"""
import re
import shutil
import tempfile

from lib import given
import refuse_memory

LIBRARY = r"""
#define _GNU_SOURCE
#include <dlfcn.h>
#include <errno.h>
#include <fcntl.h>
#include <stdarg.h>
#include <stdlib.h>
#include <sys/types.h>
#include <unistd.h>
#undef open64
#undef lseek64

static long calls;
static int interrupted;

static int is(char how) {
    const char *word = getenv("REFUSE_HOW");
    return word && *word == how;
}

static void mark(void) {
    int (*real)(const char *, int, ...) = dlsym(RTLD_NEXT, "open");
    close(real(getenv("REFUSE_MARK"), O_CREAT | O_WRONLY, 0600));
}

/* Whether this call fails, with its errno: the one of the number asked for, or each at its first time. */
static int fails(void) {
    if (is('i') && !interrupted) {
        interrupted = 1;
        errno = EINTR;
        return 1;
    }
    interrupted = 0;
    if (++calls != atol(getenv("REFUSE_AT")))
        return 0;
    mark();
    errno = EIO;
    return 1;
}

#define OPEN(name) \
    int name(const char *path, int flags, ...) { \
        static int (*real)(const char *, int, ...); \
        va_list rest; va_start(rest, flags); int mode = va_arg(rest, int); va_end(rest); \
        if (!real) real = dlsym(RTLD_NEXT, #name); \
        return !is('i') && fails() ? -1 : real(path, flags, mode); \
    }
OPEN(open)
OPEN(open64)

#define SEEK(name) \
    off_t name(int file, off_t place, int whence) { \
        static off_t (*real)(int, off_t, int); \
        if (!real) real = dlsym(RTLD_NEXT, #name); \
        return !is('i') && fails() ? -1 : real(file, place, whence); \
    }
SEEK(lseek)
SEEK(lseek64)

ssize_t read(int file, void *into, size_t most) {
    static ssize_t (*real)(int, void *, size_t);
    if (!real) real = dlsym(RTLD_NEXT, "read");
    return fails() ? -1 : real(file, into, is('s') && most > 1 ? 1 : most);
}

#define WRITE(name) \
    ssize_t name(int file, const void *from, size_t most) { \
        static ssize_t (*real)(int, const void *, size_t); \
        if (!real) real = dlsym(RTLD_NEXT, #name); \
        return fails() ? -1 : real(file, from, is('s') && most > 1 ? 1 : most); \
    }
WRITE(write)
WRITE(__write)

int statx(int folder, const char *path, int flags, unsigned mask, void *into) {
    static int (*real)(int, const char *, int, unsigned, void *);
    if (!real) real = dlsym(RTLD_NEXT, "statx");
    return !is('i') && fails() ? -1 : real(folder, path, flags, mask, into);
}
"""

COMMANDS = refuse_memory.COMMANDS + [['build', 'a.oil', 'a.code', 'old.image'], ['replay', 'a.image', 'NOPE', 'a.events'], ['info', 'a.oil'],
                                     ['upgrade', 'a.image', 'new.image'], ['upgrade', 'first.image', 'old.image'],
                                     ['certify', 'a.oil', 'a.code', 'old.image', 'old.table'],
                                     ['record', 'a.image', 'NOPE', 'a.events'], ['watch', 'a.oil', 'a.code', 'a.events']]


def fault_of(words, answer, ample, texts):
    """What is wrong with the answer of a run in which a call failed, or None."""
    err = answer.err.decode('latin-1')
    told = re.fullmatch(r'([^\n:]+): (read|write)\n', err)
    if answer.status == 5 and not (told and told.group(2) == 'read' and told.group(1) in words):
        return 'err is %r' % err
    if answer.status == 6 and not (told and told.group(2) == 'write' and told.group(1) in words + ['out']) \
            and not ample.err.startswith(answer.err):
        return 'err is %r' % err
    if answer.status not in (5, 6):
        return 'status %d' % answer.status
    if not ample.out.startswith(answer.out):
        return '%d bytes on out' % len(answer.out)
    stored = {'build': words[-1:], 'upgrade': words[-1:], 'certify': words[-2:]}.get(words[0], []) if answer.status == 6 else []
    return file_fault_of(stored, answer, ample, texts)


def file_fault_of(stored, answer, ample, texts):
    """What is wrong with the files. Those that are stored are so in turn: some as without a failure, and the next one may hold a prefix."""
    whole = next((k for k, name in enumerate(stored) if answer.files.get(name) != ample.files.get(name)), len(stored))
    for name in set(answer.files) | set(texts):
        now = answer.files.get(name)
        is_prefix = name in stored[whole:whole + 1] and None not in (now, ample.files.get(name)) and ample.files[name].startswith(now)
        if now != texts.get(name) and name not in stored[:whole] and not is_prefix:
            return '%s was changed' % name
    return None


def fail_all(runner, words, texts, say):
    """Lets each call of a command fail in turn; the number of faults."""
    ample = runner.run(words, 0)
    if refuse_memory.is_unknown(words, ample, say):
        return 0
    faults, told = refuse_memory.judge(runner, words, 1, 'call %d fails', lambda answer: fault_of(words, answer, ample, texts), say)
    for how in ('', 'short', 'interrupted'):
        if runner.run(words, 0, how)._replace(refused=False) != ample:
            faults += 1
            say('%s: %s: ends otherwise' % (' '.join(words), how or 'without a failure'))
    say('%s: status %d; with a failure %s' % (' '.join(words), ample.status, told or 'none'))
    return faults


def main():
    parser = given.Parser(__doc__)
    parser.add_argument('program', metavar='PROGRAM', help='the built osekfit')
    parser.add_argument('--example', default='first', help='the folder of examples/ whose texts are used')
    words = parser.parse_args()
    words.image = words.table = None
    folder, faults = tempfile.mkdtemp(prefix='osekfit-io-'), 0
    try:
        texts = refuse_memory.texts_of(words, folder)
        texts.update({'old.image': b'before', 'old.table': b'before'})
        runner = refuse_memory.Built(words.program, folder, texts, LIBRARY)
        for command in COMMANDS:
            faults += fail_all(runner, command, texts, lambda text: print(text, flush=True))
    finally:
        shutil.rmtree(folder)
    print('%d wrong' % faults)
    return 1 if faults else 0


if __name__ == '__main__':
    given.run(main)
