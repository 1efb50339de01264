"""The page that `man` shows of osekfit: the commands and statuses as the guide has them, and the scripts with what each says of itself."""
import os
import re

from lib.crates import ROOT
from lib.given import contents

GUIDE = os.path.join(ROOT, 'docs', 'GUIDE.md')

HEAD = '''.TH OSEKFIT 1 "" "osekfit %s" "User Commands"
.SH NAME
osekfit \\- fit an OSEK kernel to an application, and say what it can do
.SH SYNOPSIS
'''

ABOUT = '''osekfit reads an application as OIL (ISO 17356-6) and the task code that models its calls. It says at each call which dispatches can
follow and what can't happen, stores an image with a kernel that is fitted to the application, and replays it.
That its answers are those of the kernel as its documents define it is proved. The scripts stand outside the proof.'''


def section(title, level='## '):
    """The lines of a section of the guide, as far as the next heading."""
    behind = contents(GUIDE).split('\n' + level + title + '\n')[1]
    return re.split(r'\n#', behind)[0].splitlines()


def rows(title):
    """The rows of the first table of a section."""
    found = [[cell.strip() for cell in line.strip().strip('|').split('|')] for line in section(title) if line.startswith('|')]
    return found[2:]


def bare(text):
    """Words of a page without its signs."""
    return re.sub(r'\[([^\]]*)\]\([^)]*\)', r'\1', text).replace('`', '').replace('*', '')


def forms():
    """The form of each word of osekfit, and what it does."""
    found = [(bare(row[0]).partition(' ')[2], bare(row[1])) for row in rows('The commands')]
    return {form.split(' ')[0]: (form, does) for form, does in found}


def plain(text):
    """Words of a page as troff takes them."""
    text = bare(text)
    text = text.replace('\\', '\\e').replace('-', '\\-')
    return '\\&' + text if text[:1] in '.\'' else text


def tagged(pairs):
    return ''.join('.TP\n.B %s\n%s\n' % (plain(head), plain(text)) for head, text in pairs)


def man_page(version, front, scripts, options):
    """The page; the front is the name of the one command for all, the scripts are pairs of a word and what it does, and the options those of the
    front."""
    commands = rows('The commands')
    synopsis = ''.join('.B %s\n.br\n' % plain(row[0]) for row in commands)
    statuses = [(row[0], row[1] + ('' if row[2] == 'nothing' else ' (on standard error: %s)' % row[2])) for row in rows('Statuses')]
    return ''.join([
        HEAD % version, synopsis, '.B %s\n.I WORD ..\n' % plain(front), '.SH DESCRIPTION\n', plain(ABOUT), '\n.SH COMMANDS\n',
        tagged((row[0], row[1]) for row in commands), '.SH SCRIPTS\n', plain('%s takes the words of osekfit and these; each says more by --help.' % front), '\n',
        tagged(scripts), '.SH OPTIONS OF %s\n' % plain(front.upper()), tagged(options), '.SH EXIT STATUS\n',
        plain('Scripts end with 2 where a text, a word or a file is wrong, and with 1 where they found something. The statuses of osekfit:'), '\n',
        tagged(statuses)])
