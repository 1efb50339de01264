"""What `osekfit show` prints, read: sites, edges and counts, who owns each block by the task code, and what each edge does."""
import re
from collections import namedtuple

from lib import task_code
from lib.given import Wrong

Point = namedtuple('Point', 'kind block over')
"""Where the processor stands: kind is halt, idle, task or routine; over is the interrupted task's name, or `-`."""

Site = namedtuple('Site', 'line form')

Graph = namedtuple('Graph', 'sites edges counts')
"""What show prints: sites by block number, edges in order, and the last line's numbers by name."""

FORMS = ('never', 'stay', 'direct', 'general')
"""The first words of the forms of sites."""

SUMMED = ('dispatch', 'restart', 'idle', 'shutdown')
"""The kinds of edges by which a task, or idle, gets the processor anew."""

POINT = re.compile(r'b(\d+)(?:/(\w+|-))?', re.ASCII)


def point_of(word):
    """The point that a word says; a ValueError where it says none."""
    if word in ('halt', 'idle'):
        return Point(word, None, None)
    match = POINT.fullmatch(word)
    if not match:
        raise ValueError(word)
    return Point('routine' if match.group(2) else 'task', int(match.group(1)), match.group(2))


def text_of(point):
    if point.block is None:
        return point.kind
    return 'b%d' % point.block + ('/' + point.over if point.kind == 'routine' else '')


def read_show(text, name='show'):
    """The graph that a text of show says; the name is the file's."""
    graph = Graph({}, [], {})
    for place, line in enumerate(text.splitlines(), 1):
        try:
            read_line(graph, line.split(' '))
        except ValueError:
            raise Wrong('%s:%d: no line of show: %s' % (name, place, line[:60])) from None
    return graph


def read_line(graph, words):
    """Puts what a line says into the graph; a ValueError where it is none of show."""
    if words[0] == 'site' and len(words) in (5, 6) and words[2] == 'line' and words[4] in FORMS:
        graph.sites[point_of(words[1]).block] = Site(int(words[3]), ' '.join(words[4:]))
    elif words[0] == 'edge' and len(words) == 3:
        graph.edges.append((point_of(words[1]), point_of(words[2])))
    elif words[0] == 'points' and len(words) == 8:
        graph.counts.update(zip(words[::2], map(int, words[1::2])))
    else:
        raise ValueError(words[0])


class Owners:
    """Who each block belongs to, by the task code; without it, only what show tells. The system names counters and alarms."""

    def __init__(self, graph, code, system=None):
        self.blocks = task_code.blocks_of(code) if code is not None else []
        self.sites, self.system = graph.sites, system
        self.ticks = tick_routines(graph, len(self.blocks), system) if code is not None else {}
        self.alarms = alarms_of(self.ticks, system)
        if code is not None:
            self.judge(graph)

    def judge(self, graph):
        """Stops where show speaks of a block that the code doesn't have, or that isn't of its kind."""
        for point in {point for edge in graph.edges for point in edge if point.block is not None}:
            owner = self.owner(point)
            if owner is None or (owner.kind == 'TASK') != (point.kind == 'task'):
                raise Wrong('show speaks of %s, which this task code does not have' % text_of(point))

    def owner(self, point):
        """The owner of a point's block, or None where there is no block or it isn't known."""
        if point.block is None:
            return None
        if point.block < len(self.blocks):
            return self.blocks[point.block].owner
        return self.ticks.get(point.block)

    def line(self, block):
        return self.blocks[block].line if block < len(self.blocks) else 0

    def text(self, block):
        if block < len(self.blocks):
            return self.blocks[block].text
        return self.tick_text(block) if block in self.ticks else ''

    def tick_text(self, block):
        if self.ticks.get(block - 1) != self.ticks[block]:
            return 'count'
        if self.ticks.get(block + 1) != self.ticks[block]:
            return 'end'
        return ('expire ' + self.alarms.get(block, '')).rstrip()

    def kind_of_edge(self, before, after):
        """What an edge does, as far as its ends tell; '' where they don't."""
        if after.kind == 'halt':
            return 'shutdown'
        if after.kind == 'routine':
            return self.kind_of_routine_edge(before, after) if before.kind == 'routine' else 'interrupt'
        if before.kind == 'routine':
            return 'return' if self.is_return(before, after) else 'dispatch'
        if after.kind == 'idle':
            return 'idle'
        return self.kind_of_task_edge(before, after)

    def kind_of_routine_edge(self, before, after):
        """Within a routine, into another one that begins above it, or back to one that waits below it. At the end of a routine the priorities tell
        an interrupt from a return to a routine's first block."""
        first, last = self.owner(before), self.owner(after)
        if first is None or last is None or first == last:
            return 'flow'
        if before.block not in self.sites:
            return 'interrupt'
        if self.owner(after._replace(block=after.block - 1)) == last:
            return 'return'
        return '' if self.system is None else 'interrupt' if self.priority(last) > self.priority(first) else 'return'

    def priority(self, owner):
        """The priority of a routine; a tick routine has the lowest."""
        return self.system.isrs[owner.name].priority if owner.kind == 'ISR' else 0

    def is_return(self, before, after):
        """Whether a routine's end goes back to what was interrupted; an unknown owner counts as that."""
        if after.kind == 'idle' or before.over == '-':
            return after.kind == 'idle'
        owner = self.owner(after)
        return owner is None or owner.name == before.over

    def kind_of_task_edge(self, before, after):
        if self.owner(before) is None or self.owner(after) is None:
            return ''
        if self.owner(before) != self.owner(after):
            return 'dispatch'
        block = self.blocks[before.block]
        return 'flow' if after.block in (block.next, block.other) else 'restart'


def tick_routines(graph, first, system):
    """The tick routine of each block from `first` on: a routine ends with a site of line 0."""
    owners, number = {}, 0
    ends = [b for b in graph.sites if b >= first]
    names = list(system.counters) if system else ['tick routine' + (' %d' % (k + 1) if len(ends) > 1 else '') for k in range(len(ends))]
    if len(names) != len(ends):
        raise Wrong('the OIL text has %d counters, and show has %d tick routines' % (len(names), len(ends)))
    for block in range(first, max(ends, default=first - 1) + 1):
        owners[block] = task_code.Owner('TICK', names[number])
        number += block in ends
    return owners


def alarms_of(ticks, system):
    """The alarm of each block at which one may expire: those of a counter in order, behind the block that counts."""
    found = {}
    for counter in system.counters if system else []:
        first = min(block for block, owner in ticks.items() if owner.name == counter)
        alarms = [alarm.name for alarm in system.alarms.values() if alarm.counter == counter]
        found.update((first + 1 + k, alarm) for k, alarm in enumerate(alarms))
    return found


def points_of(graph, owners):
    """All points that show speaks of: ends of edges, and the sites that no edge meets."""
    points = {p for edge in graph.edges for p in edge}
    met = {p.block for p in points}
    points |= {Point('task', b, None) for b in graph.sites if b not in met}
    return sorted(points, key=lambda p: (p.block is not None, p.kind != 'task', p.block or 0, p.kind, p.over or ''))


def around(graph, owners, name):
    """The edges that begin or end in the blocks of a task, or of a routine, alone, with the sites of their blocks."""
    def is_there(point):
        owner = owners.owner(point)
        return owner is not None and owner.name == name
    if not any(owner.name == name for owner in [b.owner for b in owners.blocks] + list(owners.ticks.values())):
        raise Wrong('there is no task or routine %s' % name)
    edges = [edge for edge in graph.edges if is_there(edge[0]) or is_there(edge[1])]
    met = {point.block for edge in edges for point in edge}
    sites = {b: site for b, site in graph.sites.items() if b in met or is_there(Point('task', b, None))}
    return Graph(sites, edges, {})
