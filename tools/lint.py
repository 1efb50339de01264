#!/usr/bin/env python3
"""Tells what osekfit accepts in an OIL text and its task code and is most likely a mistake: attributes that are passed over, calls that
are refused each time, resources that are kept, objects that nobody uses.

Each is a line `FILE:LINE: warning: ..`, which ends with the name of its check in brackets. The status is 0 where nothing was found, 1
where something was, and 2 where the texts can't be read or violate a rule: then `FILE:LINE: error: RULE: ..` says which, as far as it is seen here,
and no warning is told. What is told of ways through the code takes each `?` either way.

    tools/lint.py a.oil a.code
    tools/lint.py --without unused --without end a.oil a.code
    tools/lint.py --sarif a.oil a.code > lint.sarif           for servers that show findings beside the lines of a change
"""
import sys

from lib import lint_code, lint_modes, lint_oil, oil, rules, sarif, seen_faults, task_code
from lib.application import joined
from lib.explained import explained, guide, rules_of
from lib.given import Parser, Wrong, contents, run
from lib.tokens import HINT

OIL_CHECKS = {
    'attribute': lambda texts: lint_oil.passed_over(texts.objects, texts.declared),
    'mask': lambda texts: lint_oil.shared_masks(texts.system),
    'action': lambda texts: lint_oil.alarm_actions(texts.system),
}
"""The checks of the OIL text, by name."""

UNUSED = [
    lambda texts: lint_oil.unused_modes(texts.objects, texts.system),
    lambda texts: lint_oil.unused_counters(texts.system),
    lambda texts: lint_oil.moot_groups(texts.system),
    lambda texts: lint_code.unused_objects(texts.code),
    lambda texts: lint_code.unused_events(texts.code, texts.lines_of('EVENT')),
]

CODE_CHECKS = {
    'routine': lint_code.calls_of_routines,
    'event': lint_code.events_of_others,
    'mask': lint_code.events_by_bits,
    'mode': lint_modes.refused_in_modes,
    'alarm': lint_code.alarm_numbers,
    'resource': lint_code.unnamed_resources,
    'activation': lint_code.own_activations,
    'held': lint_code.held_resources,
    'end': lint_code.ends_without_a_call,
    'dead': lint_code.dead_statements,
    'endless': lambda code: [*lint_code.endless_tasks(code), *lint_code.endless_routines(code)],
    'wait': lint_code.waits,
}

CHECKS = list(dict.fromkeys([*OIL_CHECKS, 'unused', *CODE_CHECKS]))


class Texts:
    """The two texts as they are read: objects, system, and code."""

    def __init__(self, oil_text, code_text, names):
        reader = oil.OilReader(oil_text, names[0])
        self.objects, self.declared = reader.read(), reader.declared
        rules.judge_objects(self.objects, names[0])
        self.system = oil.SystemMaker(self.objects).make()
        self.code = lint_code.Code(joined(self.system, task_code.blocks_of(code_text, names[1]), names))

    def lines_of(self, kind):
        return {o.name: o.line for o in self.objects if o.kind == kind}


def warnings_of(oil_text, code_text, names, without=()):
    """What is found: the file, the line, the text and the check's name, in the order of files and lines."""
    texts = Texts(oil_text, code_text, names)
    found = []
    for check, told in OIL_CHECKS.items():
        found += [(0, line, text, check) for line, text in told(texts)]
    for told in UNUSED:
        found += [(0, line, text, 'unused') for line, text in told(texts)]
    for check, told in CODE_CHECKS.items():
        found += [(1, line, text, check) for line, text in told(texts.code)]
    return [(names[file], line, text, check) for file, line, text, check in sorted(set(found)) if check not in without]


def errors_of(oil_text, code_text, names):
    """What keeps osekfit from taking the texts, as lines: the grammar, or the rules that are violated."""
    if seen_faults.changed_over(oil_text, code_text):
        return ['%s:1: error: this is task code, and %s an OIL text: the OIL text comes first' % names]
    errors, found, blocks = [], [], None
    try:
        blocks = task_code.blocks_of(code_text, names[1])
        objects = oil.objects_of(oil_text, names[0])
        found = [(names[0], *pair) for pair in seen_faults.of_objects(objects, guide())]
        if not found:
            system = oil.SystemMaker(objects).make()
            found = [(names[1], *pair) for pair in seen_faults.of_code(system, blocks, code_text, names[1])]
    except Wrong as wrong:
        errors.append(as_error(str(wrong), names))
    meanings = rules_of(guide())
    for name, rule, line in found:
        errors += explained('%s:%d: %s' % (name, line, rule), ['lint', *names], meanings)
    return errors


def as_error(told, names):
    """What a reader of these tools tells of a fault of the grammar, in the form to which editors jump."""
    name = next((name for name in names if told.startswith(name + ':')), '')
    line, colon, text = told[len(name) + 1:].partition(': ')
    return '%s:%s: error: %s' % (name, line, text.replace(HINT, '')) if name and colon and line.isdigit() else told


def arguments():
    parser = Parser(__doc__)
    parser.add_argument('oil', metavar='OIL')
    parser.add_argument('code', metavar='CODE')
    parser.add_argument('--without', action='append', default=[], choices=CHECKS, metavar='CHECK',
                        help='leaves a check out: ' + ', '.join(CHECKS))
    parser.add_argument('--sarif', action='store_true', help='prints what is found in the form of SARIF')
    return parser.parse_args()


def main():
    words = arguments()
    texts, names = (contents(words.oil), contents(words.code)), (words.oil, words.code)
    errors = errors_of(*texts, names)
    found = [] if errors else warnings_of(*texts, names, words.without)
    if words.sarif:
        sys.stdout.write(sarif.log(sarif.found_errors(errors), found))
    else:
        print_found(errors, found)
    return 2 if errors else 1 if found else 0


def print_found(errors, found):
    sys.stdout.write(''.join(line + '\n' for line in errors))
    for file, line, text, check in found:
        sys.stdout.write('%s:%d: warning: %s [%s]\n' % (file, line, text, check))


if __name__ == '__main__':
    run(main)
