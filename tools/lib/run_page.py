"""The page of page.py: what is embedded in it, and its parts, which lie in the folder `page` beside this module."""
import html
import json
import os

from lib.analysis_told import blocks_data, edges_data, findings_data, table_data
from lib.given import Wrong, contents
from lib.graph_record import Marks, points_of
from lib.show_reader import read_show, text_of

FOLDER = os.path.join(os.path.dirname(os.path.abspath(__file__)), 'page')

SCRIPTS = ['run.js', 'timeline.js', 'paper.js', 'panes.js', 'view.js']


def part(name):
    return contents(os.path.join(FOLDER, name))


def records_data(names, show):
    """What some records took of the graph, each up to its first alarm."""
    if names and show is None:
        raise Wrong('--record needs the graph: --program takes what osekfit says')
    return [record_data(name, contents(name), read_show(show)) for name in names]


def record_data(name, text, graph):
    marks = Marks(graph)
    marks.take(text, name)
    alarm = {'place': marks.alarm.place, 'told': marks.told_alarm()} if marks.alarm else None
    taken = [' '.join(map(text_of, edge)) for edge in marks.taken]
    return {'name': name, 'points': [text_of(point) for point in points_of(text, name)], 'taken': taken, 'told': marks.told(), 'alarm': alarm}


def tasks_data(app):
    return [{'name': task.name, 'priority': task.priority, 'events': [[name, '%x' % (app.events[name] & task.own)] for name in task.events]}
            for task in app.tasks]


def sources_data(app):
    return [{'mark': source.mark, 'name': source.name, 'priority': source.priority} for source in app.sources]


def page_data(app, run, known, texts, records):
    """All that is embedded in the page."""
    code, system = texts
    reached = set(run.all['point'].texts).union(*(record['points'] for record in records))
    return {'run': run.data(), 'tasks': tasks_data(app), 'sources': sources_data(app), 'code': code.splitlines(), 'records': records,
            'alarms': [{'name': alarm.name, 'counter': alarm.counter} for alarm in app.alarms],
            'counters': [{'name': counter.name} for counter in app.counters], 'blocks': blocks_data(app, known.facts),
            'graph': dict(edges_data(known, code, system), source=known.source), 'table': table_data(app, known.table, reached),
            'findings': findings_data(app, known.report), 'source': known.source}


def embedded(data):
    """Data as a script of a page holds it: no `<` begins a tag there."""
    return json.dumps(data, ensure_ascii=True, separators=(',', ':')).replace('<', '\\u003c')


def page_of(words, run, known, texts, records):
    """The page of a run; the words name its files."""
    name = os.path.basename(words.code)
    values = {
        'TITLE': html.escape(words.title or os.path.splitext(name)[0]), 'CODE': html.escape(name), 'LAST': str(run.count - 1),
        'ABOUT': html.escape('%s, %s in the mode %s; %s %s' % (
            os.path.basename(words.oil), os.path.basename(words.events), words.mode,
            'forms and table by' if known.show else 'without forms and table:', known.source)),
        'STYLE': part('style.css'), 'DATA': embedded(page_data(run.app, run, known, texts, records)),
        'SCRIPT': '\n'.join(part(script) for script in SCRIPTS),
    }
    found = part('page.html').split('@')
    return ''.join(values[text] if k % 2 else text for k, text in enumerate(found))
