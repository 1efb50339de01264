"""What osekfit prints, as JSON: each line becomes one object on one line, whose `kind` says what the line is about. Names, points and statuses are
those of the lines; numbers are numbers, and events are masks in hexadecimal as in the trace."""
import json
import re

from lib.given import Wrong
from lib.trace_reader import STATES, line_of

SITE = re.compile(r'site b(\d+) line (\d+) (never|stay|direct|general)(?: (\w+|-))??(?: known (\w+))?', re.ASCII)

EDGE = re.compile(r'edge (\S+) (\S+)')

COUNTS = re.compile(r'(?:points|version) \d+(?: [a-z]+ \d+)+')

FINDING = re.compile(r'(?:(suspended|unarmed|silent) (\w+)|unset (\w+) ([0-9a-f]+)|(free|dead) b(\d+))', re.ASCII)

VERDICT = re.compile(r'quiet (\d+)|alarm (\d+) (\S+)')

NAMED = {'suspended': 'task', 'unarmed': 'alarm', 'silent': 'hook'}
"""What a line of `report` names, by its first word."""


def site(line):
    block, number, form, task, known = SITE.fullmatch(line).groups()
    found = {'kind': 'site', 'block': int(block), 'line': int(number), 'form': form}
    if form == 'direct':
        found['task'] = None if task == '-' else task
    return {**found, **({'known': known} if known else {})}


def counts(kind, line):
    words = line.split(' ')
    return {'kind': kind, **dict(zip(words[::2], map(int, words[1::2])))}


def shown(line):
    """A line of `show`."""
    if SITE.fullmatch(line):
        return site(line)
    edge = EDGE.fullmatch(line)
    if edge:
        return {'kind': 'edge', 'from': edge.group(1), 'to': edge.group(2)}
    return counts('counts', line) if COUNTS.fullmatch(line) else None


def informed(line):
    """A line of `info`."""
    return site(line) if SITE.fullmatch(line) else counts('image', line) if COUNTS.fullmatch(line) else None


def reported(line):
    """A line of `report`."""
    match = FINDING.fullmatch(line)
    if not match:
        return None
    word, name, task, mask, of_block, block = match.groups()
    if word:
        return {'kind': word, NAMED[word]: name}
    return {'kind': 'unset', 'task': task, 'events': mask} if task else {'kind': of_block, 'block': int(block)}


def traced(line):
    """A line of `trace` and `replay`."""
    if re.fullmatch(r'trap \d+', line):
        return {'kind': 'trap', 'event': int(line[5:])}
    try:
        found = line_of(line)
    except (ValueError, IndexError):
        return None
    tasks = {name: {'state': STATES[task.state], 'events': task.events, 'further': task.further, 'holds': task.held} for name, task in found.tasks.items()}
    routines = {name: {'holds': held} for name, held in found.routines.items()}
    return {'kind': 'step', 'event': found.number, 'processor': found.who, 'tasks': tasks, 'routines': routines, 'status': found.status,
            'value': found.value, 'hooks': found.hooks}


def watched(line):
    """The line of `watch`."""
    match = VERDICT.fullmatch(line)
    if not match:
        return None
    count, place, point = match.groups()
    return {'kind': 'quiet', 'points': int(count)} if count else {'kind': 'alarm', 'place': int(place), 'point': point}


READERS = {'show': shown, 'report': reported, 'info': informed, 'trace': traced, 'replay': traced, 'watch': watched}
"""What a line says, by the word whose line it is; None where it is no such line."""


def as_json(word, line):
    """A line that a word of the program printed, as JSON."""
    found = READERS[word](line)
    if found is None:
        raise Wrong('no line of %s: %s' % (word, line[:60]))
    return json.dumps(found, ensure_ascii=False, separators=(',', ':'))
