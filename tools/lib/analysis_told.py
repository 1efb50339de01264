"""What is known of an application beside its runs, for the page of page.py: what `show`, `info`, `report` and `certify` say of it. It comes from
the program where there is one, and else from the model, whose table is for small applications."""
from collections import namedtuple

from lib import findings
from lib.certified import table_of
from lib.guarantees import Guarantees
from lib.least_table import MOST_ASKED, Analysis, show
from lib.margin import Facts, facts_of_analysis, facts_of_texts
from lib.points import points_of, shown_point
from lib.printed import Printed
from lib.show_reader import Owners, read_show, text_of
from lib.table_words import Wording

MOST_TOLD = 4000
"""The most points whose states are told; of an application with more, those alone that a run or a record came to."""

Known = namedtuple('Known', 'show facts report table source')
"""The text of `show`, the facts of the blocks, the lines of `report`, the table, and who says so. The table is None where it is too long, and
all but the last where the model can't tell."""

NOTHING_KNOWN = Known(None, Facts({}, {}, {}), None, None, 'the table is too large for the model, and osekfit was not found: --program says where it is')


def known_by_program(program, words):
    """What a built osekfit says of the texts that the words name."""
    said = Printed(program, words.oil, words.code)
    return Known(said.show, facts_of_texts(said.show, said.info, said.report, ['what osekfit shows']), said.report, said.table, 'osekfit')


def known_by_model(app, most=MOST_ASKED):
    """What the model says, as far as it asks at most so many states."""
    analysis = Analysis(app).solve(most)
    if analysis is None:
        return NOTHING_KNOWN
    return Known(show(app, analysis), facts_of_analysis(app, analysis), findings.report(app, analysis), table_of(analysis), 'the model of tools/model.py')


# What the page has of it.


def blocks_data(app, facts):
    """The blocks, each with its place and what is known of it."""
    return [{'owner': block.owner.name, 'kind': block.owner.kind, 'line': block.line, 'text': 'end' if block.word == 'end' else block.text,
             'form': facts.forms.get(number), 'known': facts.known.get(number), 'told': facts.told.get(number, []),
             'isSite': app.is_site(number)} for number, block in enumerate(app.blocks)]


def edges_data(known, code, system):
    """The points of `show` and its edges, each with the numbers of its points and what it does."""
    if known.show is None:
        return {'points': [], 'edges': []}
    graph = read_show(known.show)
    owners, numbers = Owners(graph, code, system), {}
    edges = [[numbers.setdefault(text_of(point), len(numbers)) for point in edge] + [owners.kind_of_edge(*edge)] for edge in graph.edges]
    return {'points': list(numbers), 'edges': edges}


def table_data(app, table, reached):
    """The table's states at each point, in words that are kept once, and what no run has of them. Of too many points those alone are told that were
    reached."""
    if table is None:
        return None
    wording, guarantees, numbers = Wording(app), Guarantees(app), {}
    points = [(point, shown_point(app, point)) for point in points_of(app) if point in table]
    is_part, told = len(points) > MOST_TOLD, {}
    for point, text in points:
        if not is_part or text in reached:
            lines = [words for _, words in wording.parts(point, table[point])]
            lines += wording.in_no_run(point, guarantees.parted(point, table[point]).gone)
            told[text] = [numbers.setdefault(words, len(numbers)) for words in lines]
    return {'words': list(numbers), 'points': told, 'isPart': is_part}


FINDINGS = {
    'suspended': 'the task %s is never activated, and in no mode autostarted',
    'unarmed': 'the alarm %s is never armed',
    'unset': 'this event of %s is never set',
    'silent': 'the hook %s never comes',
    'free': 'at this GetResource nobody holds the resource in any run',
    'dead': 'no run comes to this statement',
}
"""What the first word of a line of `report` says."""


def findings_data(app, report):
    """The lines of `report`, each with what it says, and the block that it is about or -1."""
    return None if report is None else [finding(app, line) for line in report.splitlines()]


def finding(app, line):
    word, name = line.split(' ')[:2]
    said = FINDINGS[word] % name if '%' in FINDINGS[word] else FINDINGS[word]
    events = [event for event, mask in app.events.items() if word == 'unset' and mask & int(line.split(' ')[2], 16)]
    block = int(name[1:]) if word in ('free', 'dead') else -1
    return {'line': line, 'said': said + (' (%s)' % ', '.join(events) if events else ''), 'block': block}
