"""What lint.py finds and explain.py tells in the form of SARIF 2.1.0, which servers that show findings beside the lines of a change read."""
import json
import os
import re

from lib.crates import ROOT
from lib.given import contents

SCHEMA = 'https://json.schemastore.org/sarif-2.1.0.json'

ERROR = re.compile(r'(?P<file>.+):(?P<line>\d+): error: (?:(?P<rule>[A-Z]\d+): )?(?P<text>.*)')


def found_errors(lines):
    """The errors of lines that begin with them: of each the file, the line, the text with what is told below it, and the rule."""
    found = []
    for line in lines:
        match = ERROR.fullmatch(line)
        if match:
            found.append((match['file'], int(match['line']), match['text'], match['rule'] or 'grammar'))
        elif found:
            file, number, text, rule = found[-1]
            found[-1] = (file, number, '%s\n%s' % (text, line.strip()), rule)
    return found


REFUSED = re.compile(r'(?P<file>.+?):(?:(?P<line>\d+):)? error: (?P<rule>[A-Z]+\d+)(?P<place> at [^:]+)?: (?P<text>.*)')
"""The first line of what explain.py tells of a refusal: of a text its line, of an image or a table the place in it."""


def refusals(lines, status):
    """What explain.py tells of a refusal, as one error; where no rule is refused it is of no file, and its rule is the status."""
    if status == 0:
        return []
    match = REFUSED.fullmatch(lines[0]) if lines else None
    behind = [line.strip() for line in lines[1:]]
    if not match:
        return [(None, 0, '\n'.join(lines[:1] + behind) or 'status %d' % status, 'status %d' % status)]
    text = (match['place'].strip() + ': ' if match['place'] else '') + match['text']
    return [(match['file'], int(match['line'] or 1), '\n'.join([text] + behind), match['rule'])]


def result(file, line, text, rule, level):
    found = {'ruleId': rule, 'level': level, 'message': {'text': text}}
    if file is None:
        return found
    place = {'artifactLocation': {'uri': file.replace(os.sep, '/')}, 'region': {'startLine': max(1, line)}}
    return {**found, 'locations': [{'physicalLocation': place}]}


def log(errors, warnings, tool='osekfit lint'):
    """The log of errors and warnings, each a file, a line, a text and a rule."""
    results = [result(*one, 'error') for one in errors] + [result(*one, 'warning') for one in warnings]
    driver = {'name': tool, 'version': contents(os.path.join(ROOT, 'VERSION')).strip(),
              'rules': [{'id': rule} for rule in dict.fromkeys(one['ruleId'] for one in results)]}
    return json.dumps({'$schema': SCHEMA, 'version': '2.1.0', 'runs': [{'tool': {'driver': driver}, 'results': results}]}, indent=1) + '\n'
