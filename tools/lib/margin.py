"""The task code with a margin: the form and the known status of each call site, and the blocks that are dead, or where a resource is free."""
import html
import re
from collections import namedtuple

from lib import findings
from lib.drawing import FAINT, FORM_COLOURS, INK, LINE
from lib.image import known as known_byte, known_word
from lib.least_table import MOST_ASKED, Analysis, form
from lib.show_reader import read_show

Facts = namedtuple('Facts', 'forms known told')
"""What is known of blocks by number: the form and the known status of each site, and what `report` tells, `dead` or `free`."""

KNOWN = re.compile(r'site b(\d+) line \d+ .* known (\w+)')

TOLD = re.compile(r'(dead|free) b(\d+)')


def facts_of_model(app, most_asked=MOST_ASKED):
    """The facts of the model's least table; None where that is too large."""
    analysis = Analysis(app).solve(most_asked)
    if analysis is None:
        return None
    return facts_of_analysis(app, analysis)


def facts_of_analysis(app, analysis):
    """The facts of a table of the model."""
    forms = {block: form(app, shown) for block, shown in analysis.shown.items()}
    known = {block: known_word(known_byte(noted)[0]) for block, noted in analysis.noted.items()}
    return Facts(forms, known, told_in(findings.report(app, analysis)))


def facts_of_texts(show, info, report, names):
    """The facts of what osekfit printed; each text may be missing. The first name is that of the text of `show`."""
    shown = read_show(show, names[0]).sites if show is not None else {}
    known = {int(match.group(1)): match.group(2) for match in map(KNOWN.fullmatch, (info or '').splitlines()) if match}
    return Facts({block: site.form for block, site in shown.items()}, known, told_in(report or ''))


def told_in(report):
    """What a report tells of blocks."""
    found = {}
    for word, block in (match.groups() for match in map(TOLD.fullmatch, report.splitlines()) if match):
        found.setdefault(int(block), []).append(word)
    return found


def notes_of(app, facts):
    """For each line of the task code what is noted beside it: pairs of a text and the form that colours it, or None."""
    found = {}
    for number, block in enumerate(app.blocks):
        form_word, words = facts.forms.get(number), list(facts.told.get(number, []))
        if form_word is not None:
            known = facts.known.get(number, 'any')
            words = [form_word] + (['known ' + known] if known != 'any' else []) + words
        if words and block.line:
            found.setdefault(block.line, []).append(('b%d %s' % (number, ', '.join(words)), form_word))
    return found


def lines_of(code, notes):
    """The lines of the task code, each behind what is noted of it."""
    texts = ['; '.join(text for text, _ in notes.get(number, [])) for number in range(1, len(code) + 1)]
    width = max(map(len, texts), default=0)
    for text, line in zip(texts, code):
        yield ('%-*s | %s' % (width, text, line)).rstrip()


STYLE = """body { font: 13px Helvetica, Arial, sans-serif; color: %s } table { border-collapse: collapse }
td { padding: 2px 8px; vertical-align: top } td.line { color: %s; text-align: right } pre { margin: 0 }
span { border: 1px solid %s; border-radius: 4px; padding: 0 4px; margin-right: 4px; white-space: nowrap }""" % (INK, FAINT, LINE)


def page(code, notes, title):
    """The same as a page of HTML, with the colours of graph.py."""
    rows = ['<tr><td>%s</td><td class="line">%d</td><td><pre>%s</pre></td></tr>' % (
        ''.join(pill(*note) for note in notes.get(number, [])), number, html.escape(line)) for number, line in enumerate(code, 1)]
    head = '<!DOCTYPE html>\n<html><head><meta charset="utf-8"><title>%s</title><style>%s</style></head>' % (html.escape(title), STYLE)
    return '\n'.join([head, '<body><h1>%s</h1><table>' % html.escape(title)] + rows + ['</table></body></html>', ''])


def pill(text, form_word):
    ground, edge = FORM_COLOURS[form_word.split(' ')[0]] if form_word else ('#ffffff', FAINT)
    return '<span style="background: %s; border-color: %s">%s</span>' % (ground, edge, html.escape(text))
