#!/usr/bin/env python3
"""Changes the examples' texts, images and tables at random and runs a built osekfit on them.

Each run has to end in time, with a status of the guide's table and the text on standard error that belongs to it; a refusal names
the file that was changed, and a line or offset in it; no file but the image is changed, and that one only where `build` ends with
0. What was built replays as `trace` prints it, and `info` has the sites that `show` has. Where there is `certify`, it stores the image that
`build` stores; `check` says yes of what it stored, and yes of no image that traps. Where there is `watch`, it is quiet at the record of what was
built, and of each image `record` ends as `replay` does. What goes wrong is said, and its files are kept. The last
lines count how often each answer came.

    tools/mutate.py crates/osekfit/out/osekfit --minutes 5 --seed 7
"""
import collections
import os
import random
import re
import shutil
import subprocess
import tempfile
import time

from lib import given, opened

HERE = os.path.dirname(os.path.abspath(__file__))
EXAMPLES = os.path.join(os.path.dirname(HERE), 'examples')
MODE = 'OSDEFAULTAPPMODE'
SECONDS = 20
"""How long a run may take."""

Answer = collections.namedtuple('Answer', 'status out err')

TOKEN = re.compile(rb'\w+|\s+|[^\w\s]')
NUMBERS = [b'0', b'1', b'2', b'65535', b'65536', b'4294967295', b'4294967296', b'18446744073709551615', b'18446744073709551616',
           b'0x10', b'0xffffffffffffffff', b'00']
PIECES = [b'{', b'}', b'(', b')', b';', b'=', b':', b'"', b'/*', b'*/', b'//', b'\n', b'\r', b'\0', b'\xff', b'?', b'|', b'-',
          b'TASK', b'ISR', b'if (?) {', b'} else {', b'while (1) {', b'while (?) {', b'TerminateTask();', b'Schedule();', b'AUTO',
          b'TRUE', b'SuspendOSInterrupts();', b'ResumeOSInterrupts();', b'run 1', b'irq ', b'tick ', b'#', b'x' * 65, b' ' * 257]


COUNTS = {'build': 4, 'replay': 4, 'trace': 5, 'show': 3, 'info': 2, 'gen': 3, 'upgrade': 3, 'certify': 5, 'check': 3, 'record': 4,
          'watch': 4, 'report': 3}
"""How many words each command has."""

WORDS = list(COUNTS) + ['a.oil', 'a.code', 'a.table', '1', '17', '-', '--help', '', 'x', '\u00e9']


class Fault(Exception):
    """Something that the program did against the guide."""


def text_changes(rng, text, others):
    """The text with one to four changes."""
    for _ in range(rng.randint(1, 4)):
        text = rng.choice([change_tokens, change_bytes, cut_slice, copy_slice, put_piece, splice])(rng, text, others)
    return text


def change_tokens(rng, text, others):
    """A token of the text in place of another, or a number."""
    tokens = TOKEN.findall(text) or [b'']
    place, token = rng.randrange(len(tokens)), rng.choice(tokens)
    if tokens[place].isdigit() or rng.random() < 0.2:
        token = rng.choice(NUMBERS)
    return b''.join(tokens[:place] + [token] + tokens[place + 1:])


def change_bytes(rng, text, others):
    """A byte changed, in one of its bits or to another."""
    if not text:
        return text
    place = rng.randrange(len(text))
    byte = text[place] ^ 1 << rng.randrange(8) if rng.random() < 0.5 else rng.randrange(256)
    return text[:place] + bytes([byte]) + text[place + 1:]


def slice_of(rng, text):
    begin = rng.randint(0, len(text))
    return begin, min(len(text), begin + rng.choice([1, 2, 8, 40, 200, len(text)]))


def cut_slice(rng, text, others):
    begin, end = slice_of(rng, text)
    return text[:begin] + text[end:]


def copy_slice(rng, text, others):
    begin, end = slice_of(rng, text)
    place = rng.randint(0, len(text))
    return (text[:place] + text[begin:end] + text[place:])[:2000000]


def put_piece(rng, text, others):
    place = rng.randint(0, len(text))
    return text[:place] + rng.choice(PIECES) + text[place:]


def splice(rng, text, others):
    """A piece of another example's text."""
    other = rng.choice(others)
    begin, end = slice_of(rng, other)
    place = rng.randint(0, len(text))
    return text[:place] + other[begin:end] + text[place:]


def image_changes(rng, image, others):
    """The image with one to three changes of bytes, or a cut or a copy."""
    for _ in range(rng.randint(1, 3)):
        change = rng.choices([change_bytes, cut_slice, copy_slice, splice], [4, 1, 1, 1])[0]
        image = change(rng, image, others)
    return image


class Trial:
    """A folder with the texts of an example, in which the program is run."""

    def __init__(self, program, folder, counts):
        self.program, self.folder, self.counts = program, folder, counts

    def path(self, name):
        return os.path.join(self.folder, name)

    def put(self, name, data):
        with open(self.path(name), 'wb') as file:
            file.write(data)

    def get(self, name):
        with open(self.path(name), 'rb') as file:
            return file.read()

    def files(self):
        return {name: self.get(name) for name in os.listdir(self.folder)}

    def run(self, words, *may_write):
        """Runs the program, and sees that the answer is of a stated form and that it changed nothing else."""
        before = self.files()
        try:
            done = subprocess.run([self.program] + words, cwd=self.folder, stdin=subprocess.DEVNULL, capture_output=True,
                                  timeout=SECONDS, check=False)
        except subprocess.TimeoutExpired as stopped:
            raise Fault('%s: no end within %d seconds' % (' '.join(words), SECONDS)) from stopped
        answer = Answer(done.returncode, done.stdout, done.stderr)
        self.see(words, answer)
        after = self.files()
        changed = {name for name in set(before) | set(after) if before.get(name) != after.get(name)}
        if changed - (set(may_write) if answer.status == 0 else set()):
            raise Fault('%s: changed %s with status %d' % (' '.join(words), sorted(changed), answer.status))
        return answer

    def see(self, words, answer):
        kind = words[0] if words and words[0] in COUNTS else 'other'
        rule = answer.err.decode('latin-1').rpartition(': ')[2].strip().partition(' ')[0]
        self.counts[kind, answer.status, rule if answer.status in (1, 3, 4, 11, 12, 14) else ''] += 1
        if not is_stated(self, words, answer):
            raise Fault('%s: status %d with err %r and %d bytes on out'
                        % (' '.join(words), answer.status, answer.err[:200], len(answer.out)))


REFUSALS = {1: (r'(a\.oil|a\.code):(\d+): ([LSOC])(\d+)\n', {'L': 6, 'S': 3, 'O': 15, 'C': 9}),
            3: (r'(a\.image):(\d+): (I)(\d+)\n', {'I': 7}),
            4: (r'(a\.events):(\d+): (E)(\d+)\n', {'E': 4}),
            11: (r'(a\.table):(\d+): (K)(\d+)\n', {'K': 6}),
            14: (r'(a\.record):(\d+): (G)(\d+)\n', {'G': 4})}

DENIAL = r'a\.table: (N1 \w+|N2 (halt|idle|b\d+(/(-|\w+))?)|N[34] b\d+)\n'
"""What is said of a table that doesn't certify an image."""


ALARM = rb'alarm \d+ (halt|idle|b\d+(/(-|\w+))?)\n'
"""What is printed of a record with an alarm."""


def is_stated(trial, words, answer):
    """Whether the status, the text on standard error and what was printed go together."""
    err = answer.err.decode('latin-1')
    if answer.status == 0:
        return err == ''
    if answer.status in REFUSALS:
        return is_refusal(trial, answer, *REFUSALS[answer.status])
    if answer.status == 8:
        return err == '' and re.search(rb'(^|\n)trap \d+\n$', answer.out) is not None
    if answer.status == 9:
        return answer.out == b'' and err == MODE + ': no such mode\n'
    if answer.status == 2:
        return answer.out == b'' and err == 'usage\n'
    if answer.status == 10:
        return answer.out == b'' and err == 'a.image: version 2\n'
    if answer.status == 12:
        return answer.out == b'' and re.fullmatch(DENIAL, err) is not None
    if answer.status == 13:
        return answer.out == b'' and err == 'a.table: too long\n'
    if answer.status == 15:
        return err == '' and re.fullmatch(ALARM, answer.out) is not None
    return False


def is_refusal(trial, answer, form, most):
    match = re.fullmatch(form, answer.err.decode('latin-1'))
    if not match or not 1 <= int(match.group(4)) <= most[match.group(3)]:
        return False
    data = trial.get(match.group(1))
    last = len(data) if match.group(3) in 'IK' else data.count(b'\n') + 1
    return int(match.group(2)) <= last and (answer.status == 4 or answer.out == b'')


def load_examples():
    """The texts of the examples, by name: OIL, code, events."""
    found = {}
    for name in (n for n in sorted(os.listdir(EXAMPLES)) if opened.is_ready(os.path.join(EXAMPLES, n))):
        texts = []
        for end in ('oil', 'code', 'events'):
            with open(os.path.join(EXAMPLES, name, '%s.%s' % (name, end)), 'rb') as file:
                texts.append(file.read())
        found[name] = texts
    return found


def try_texts(rng, trial, texts, others, knows):
    """A changed OIL or code text: a refusal of it, or an image that replays as trace prints it."""
    changed = rng.choice([0, 0, 1, 1, 1])
    for k, name in enumerate(('a.oil', 'a.code', 'a.events')):
        trial.put(name, text_changes(rng, texts[k], others[k]) if k == changed else texts[k])
    built = trial.run(['build', 'a.oil', 'a.code', 'a.image'], 'a.image')
    if built.status not in (0, 1) or built.out:
        raise Fault('build: status %d' % built.status)
    if built.status == 0:
        agree(trial)
        if 'show' in knows:
            sites_agree(trial)
        if 'report' in knows and trial.run(['report', 'a.oil', 'a.code']).status:
            raise Fault('report refuses what build takes')
        return
    for command, more in (('show', []), ('report', []), ('watch', ['a.record'])):
        if command in knows and trial.run([command, 'a.oil', 'a.code'] + more) != built:
            raise Fault('%s refuses otherwise than build' % command)


def agree(trial):
    """The image replays as trace prints it."""
    replayed = trial.run(['replay', 'a.image', MODE, 'a.events'])
    traced = trial.run(['trace', 'a.oil', 'a.code', MODE, 'a.events'])
    if replayed != traced or replayed.status not in (0, 4):
        raise Fault('replay (status %d) and trace (status %d) differ, or trap' % (replayed.status, traced.status))


def sites_agree(trial):
    shown, told = trial.run(['show', 'a.oil', 'a.code']), trial.run(['info', 'a.image'])
    sites = [[line.partition(b' known ')[0] for line in answer.out.split(b'\n') if line.startswith(b'site ')] for answer in (shown, told)]
    if shown.status or told.status or sites[0] != sites[1]:
        raise Fault('show and info differ in their sites')


def try_events(rng, trial, texts, others, knows):
    """A changed event text over a sound image."""
    for k, name in enumerate(('a.oil', 'a.code', 'a.events')):
        trial.put(name, text_changes(rng, texts[k], others[k]) if k == 2 else texts[k])
    if trial.run(['build', 'a.oil', 'a.code', 'a.image'], 'a.image').status:
        raise Fault('an example is refused')
    agree(trial)


def try_image(rng, trial, texts, others, knows):
    """A changed image: a refusal of it, another mode, or some trace."""
    for k, name in enumerate(('a.oil', 'a.code', 'a.events')):
        trial.put(name, texts[k])
    if trial.run(['build', 'a.oil', 'a.code', 'a.image'], 'a.image').status:
        raise Fault('an example is refused')
    image = trial.get('a.image')
    trial.put('a.image', image_changes(rng, image, [image]))
    replayed = trial.run(['replay', 'a.image', MODE, 'a.events'])
    if replayed.status not in (0, 3, 4, 8, 9):
        raise Fault('replay: status %d' % replayed.status)
    if 'info' in knows:
        told = trial.run(['info', 'a.image'])
        if told.status not in (0, 3) or (told.status == 3) != (replayed.status == 3) or told.status and told.err != replayed.err:
            raise Fault('info (status %d) judges the image otherwise than replay (status %d)' % (told.status, replayed.status))
        upgraded = trial.run(['upgrade', 'a.image', 'b.image'], 'b.image')
        if upgraded.status not in (0, 3, 10) or (upgraded.status == 3) != (told.status == 3) or upgraded.status == 3 and upgraded.err != told.err:
            raise Fault('upgrade (status %d) judges the image otherwise than info (status %d)' % (upgraded.status, told.status))


def try_certificate(rng, trial, texts, others, knows):
    """A changed table, or a changed image beside its table, or the table of a changed text: a refusal of image or table, a denial, or a yes of
    an image that doesn't trap."""
    for k, name in enumerate(('a.oil', 'a.code', 'a.events')):
        trial.put(name, texts[k])
    certified = trial.run(['certify', 'a.oil', 'a.code', 'a.image', 'a.table'], 'a.image', 'a.table')
    built = trial.run(['build', 'a.oil', 'a.code', 'b.image'], 'b.image')
    if certified.status or built.status or trial.get('a.image') != trial.get('b.image'):
        raise Fault('certify (status %d) stores another image than build (status %d)' % (certified.status, built.status))
    if trial.run(['check', 'a.image', 'a.table']).out != b'yes\n':
        raise Fault('check denies what certify stored')
    name = rng.choice(['a.image', 'a.table', 'a.oil', 'a.code'])
    data = trial.get(name)
    if name in ('a.image', 'a.table'):
        trial.put(name, image_changes(rng, data, [data]))
    else:
        trial.put(name, text_changes(rng, data, others[name == 'a.code']))
        if trial.run(['certify', 'a.oil', 'a.code', 'b.image', 'a.table'], 'b.image', 'a.table').status not in (0, 1, 13):
            raise Fault('certify ends otherwise than build may')
    judge_certificate(trial)


def judge_certificate(trial):
    """What `check` may say of an image and a table, whoever made them."""
    checked, told = trial.run(['check', 'a.image', 'a.table']), trial.run(['info', 'a.image'])
    if checked.status not in (0, 3, 11, 12) or (checked.status == 3) != (told.status == 3) or checked.status == 3 and checked.err != told.err:
        raise Fault('check (status %d) judges the image otherwise than info (status %d)' % (checked.status, told.status))
    if checked.status == 0 and (checked.out != b'yes\n' or trial.run(['replay', 'a.image', MODE, 'a.events']).status == 8):
        raise Fault('check prints %r of an image that traps, or no yes' % checked.out[:20])


def try_record(rng, trial, texts, others, knows):
    """A changed image, whose record is its trace's points and is quiet where it is the one that was built; and a changed record."""
    for k, name in enumerate(('a.oil', 'a.code', 'a.events')):
        trial.put(name, texts[k])
    if trial.run(['build', 'a.oil', 'a.code', 'a.image'], 'a.image').status:
        raise Fault('an example is refused')
    recorded = trial.run(['record', 'a.image', MODE, 'a.events'])
    trial.put('a.record', recorded.out)
    if trial.run(['watch', 'a.oil', 'a.code', 'a.record']).out != b'quiet %d\n' % recorded.out.count(b'\n'):
        raise Fault('watch is not quiet at a record of what was built')
    trial.put('a.record', text_changes(rng, recorded.out, [recorded.out]))
    watched = trial.run(['watch', 'a.oil', 'a.code', 'a.record'])
    if watched.status not in (0, 14, 15):
        raise Fault('watch: status %d' % watched.status)
    image = trial.get('a.image')
    trial.put('a.image', image_changes(rng, image, [image]))
    recorded, replayed = (trial.run([command, 'a.image', MODE, 'a.events']) for command in ('record', 'replay'))
    if recorded._replace(out=b'') != replayed._replace(out=b'') or recorded.out.count(b'\n') != replayed.out.count(b'\n'):
        raise Fault('record (status %d) ends otherwise than replay (status %d)' % (recorded.status, replayed.status))


def try_words(rng, trial, texts, others, knows):
    """Words of no stated form."""
    words = [rng.choice(WORDS) for _ in range(rng.randint(0, 6))]
    if words and COUNTS.get(words[0]) == len(words):
        words.append('x')
    answer = trial.run(words)
    if answer.status != 2:
        raise Fault('%r: status %d' % (words, answer.status))


def one_trial(rng, program, examples, knows, counts, keep):
    """Tries one change; what went wrong, or None."""
    folder = tempfile.mkdtemp(prefix='osekfit-mutate-')
    try:
        shares = {try_texts: 6, try_events: 2, try_image: 6, try_words: 1, try_certificate: 4 * ('certify' in knows), try_record: 3 * ('watch' in knows)}
        attempt = rng.choices(list(shares), list(shares.values()))[0]
        texts = examples[rng.choice(sorted(examples))]
        others = [[e[k] for e in examples.values()] for k in range(3)]
        attempt(rng, Trial(program, folder, counts), texts, others, knows)
        return None
    except Fault as fault:
        kept = os.path.join(keep, 'fault%d' % (len(os.listdir(keep)) + 1 if os.path.isdir(keep) else 1))
        shutil.copytree(folder, kept)
        return '%s (kept in %s)' % (fault, kept)
    finally:
        shutil.rmtree(folder)


def arguments():
    parser = given.Parser(__doc__)
    parser.add_argument('program', metavar='PROGRAM', help='the built osekfit')
    parser.add_argument('--seed', type=int, default=1)
    parser.add_argument('--minutes', type=float, default=1, metavar='M', help='how long to go on')
    parser.add_argument('--keep', default='mutate-faults', metavar='DIR', help='where the files of what goes wrong are kept')
    return parser.parse_args()


def known_commands(program):
    """The commands that the program has, of those whose inputs aren't there then."""
    found = set()
    for command in ('show', 'info', 'certify', 'check', 'record', 'watch', 'report'):
        words = [program, command] + ['a', 'b', 'c', 'd'][:COUNTS[command] - 1]
        if subprocess.run(words, cwd='/', capture_output=True, timeout=SECONDS, check=False).returncode != 2:
            found.add(command)
    return found


def main():
    words = arguments()
    program, keep = os.path.abspath(words.program), os.path.abspath(words.keep)
    rng, examples, counts = random.Random(words.seed), load_examples(), collections.Counter()
    knows, end, trials, faults = known_commands(program), time.monotonic() + 60 * words.minutes, 0, 0
    while time.monotonic() < end:
        trials += 1
        fault = one_trial(rng, program, examples, knows, counts, keep)
        if fault:
            faults += 1
            print('trial %d: %s' % (trials, fault), flush=True)
    for (command, status, rule), count in sorted(counts.items()):
        print('%-10s status %d %-4s %7d' % (command, status, rule, count))
    print('%d trials, %d wrong' % (trials, faults))
    return 1 if faults else 0


if __name__ == '__main__':
    given.run(main)
