"""What a refusal means, in the form to which editors jump: the source line, what the rule says by the pages that have the rules, what the texts
tell of it, and where to look first."""
import os
import re

from lib import causes
from lib.crates import ROOT
from lib.given import contents

DOCS = os.path.join(ROOT, 'docs')

PAGES = ('LANGUAGE.md', 'FORMATS.md')

REFUSAL = re.compile(r'(?P<file>.+):(?P<place>\d+): (?P<rule>[LSOCEIKG]\d+)')

DENIAL = re.compile(r'(?P<file>.+): (?P<rule>N\d) (?P<place>\S+)')
"""What is said of a table that doesn't certify an image."""

FROM = re.compile(r'  // from (.+:\d+)$')

MOST_SHOWN = 160
"""How much of a long source line is shown."""

MOST_TOLD = 5
"""How many values of a table are told that no run has."""


def rules_of(guide):
    """The rows of the guide's tables of rules: what a rule means, and where to look first. A rule that has a row for OIL and one for task
    code has the latter under the letter of C too."""
    found = {}
    for line in guide.splitlines():
        cells = [cell.strip() for cell in re.split(r'(?<!\\)\|', line.strip().strip('|'))]
        if len(cells) > 2 and re.fullmatch(r'[LSOCEIKNG]\d+', cells[0]):
            found[cells[0] if cells[0] not in found else 'C' + cells[0]] = (cells[1], cells[-1])
    return found


def guide():
    """The pages that have the rules of texts, and those of images and tables."""
    return ''.join(contents(os.path.join(DOCS, page)) for page in PAGES)


def explained(refusal, words, rules):
    """The lines that explain a refusal."""
    denial = DENIAL.fullmatch(refusal)
    if denial and denial['rule'] in rules:
        told = causes.in_no_run(words, denial['place'])[:MOST_TOLD]
        return ['%s: error: %s at %s: %s' % (denial['file'], denial['rule'], denial['place'], rules[denial['rule']][0]),
                *('    the table has what is ' + text for text in told), '    look first: ' + rules[denial['rule']][1]]
    match = REFUSAL.fullmatch(refusal)
    if not match or match['rule'] not in rules:
        return []
    is_code = words[2:3] == [match['file']]
    meaning, first = rules['C' + match['rule'] if is_code and 'C' + match['rule'] in rules else match['rule']]
    if match['rule'][0] in 'IK':
        place = int(match['place'])
        return ['%s: error: %s at byte %d (0x%x): %s' % (match['file'], match['rule'], place, place, meaning), '    look first: ' + first]
    lines = ['%s:%s: error: %s: %s' % (match['file'], max(1, int(match['place'])), match['rule'], meaning)]
    before = 1 if match['rule'] == 'S1' else 0
    lines += ['    %s' % text for text in source_lines(match['file'], int(match['place']), before)]
    lines += origin(match['file'], int(match['place']))
    texts = causes.Texts(match['file'], int(match['place']), words)
    told = causes.told(match['rule'], texts, guide())
    is_exact = match['rule'] in ('L1', 'S1') and any(text.startswith(('here:', 'write:')) for text in told)
    return lines + ['    ' + text for text in told] + (['    look first: ' + first] if first and not is_exact else [])


def source_lines(name, number, before):
    """A line of a source with so many before it; none where the refusal is of the whole file."""
    lines = contents(name).splitlines()
    first = max(1, number - before)
    return ['%4d  %s' % (k, lines[k - 1][:MOST_SHOWN]) for k in range(first, number + 1)] if 0 < number <= len(lines) else []


def origin(name, number):
    """Where a line comes from, as flatten.py says it behind the line."""
    found = [FROM.search(text) for text in source_lines(name, number, 0)]
    return ['    from: ' + match.group(1) for match in found if match]
