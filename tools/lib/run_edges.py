"""The edges of a table that no run takes, by what the standard guarantees. Whoever gets the processor by a step stood where it goes on before it,
or was activated or released by its call. No run takes an edge where none has that of it before, or where none comes to one of its points."""
from lib.guarantees import Guarantees
from lib.image_reader import read_image
from lib.given import data
from lib.points import block_of, points_of, shown_point
from lib.show_reader import text_of
from lib.table_bytes import LIVE, OUT, SUSPENDED, table_told


class RunEdges:
    """Strikes edges between the points of an application, by a table of its."""

    def __init__(self, app, table):
        self.app, self.table, self.guarantees, self.known = app, table, Guarantees(app), {}
        self.first_source = len(app.tasks) + len(app.own_bits()) + len(app.alarms)

    def law(self, before, after):
        """The law by which no run takes an edge; None where a run may."""
        if before not in self.table or after not in self.table:
            return None
        gone = self.at(before).gone or self.at(after).gone
        part = self.part(before, after)
        return gone or (None if part is None else self.at(before).law(part, block_of(after)))

    def called(self, point, part):
        """The word of a point's call where it activates a task or sets events of it."""
        block = self.app.blocks[block_of(point)] if block_of(point) is not None else None
        is_of_it = block and block.word in ('ActivateTask', 'ChainTask', 'SetEvent') and block.arguments[0] == [self.app.tasks[part].name]
        return block.word if is_of_it else None

    def at(self, point):
        """What no run has at a point."""
        if point not in self.known:
            sets = self.table[point]
            self.known[point] = AtPoint(self, point, sets, self.guarantees.struck(point, sets))
        return self.known[point]

    def part(self, before, after):
        """The number of the component that gets the processor by an edge and was there before; None where none is, as where a routine begins."""
        block, last = block_of(after), block_of(before)
        if block is None or last is not None and self.app.blocks[last].owner == self.app.blocks[block].owner:
            return None
        owner = self.app.blocks[block].owner
        if owner.kind == 'TASK':
            return self.app.task_number[owner.name]
        source = self.app.source_of(block)
        return None if self.app.sources[source].first == block else self.first_source + source

    def leads_to(self, point, part, value):
        """The block at which a task of this value goes on where the step dispatches it, or a routine to which the processor returns; None where it
        doesn't go on."""
        if part >= self.first_source:
            return None if value == (OUT,) else value[1]
        if value[0] == LIVE:
            return value[1]
        called = self.called(point, part)
        if value[0] == SUSPENDED:
            return self.app.first[part] if called in ('ActivateTask', 'ChainTask') else None
        return self.app.blocks[value[1]].next if called == 'SetEvent' else None


class AtPoint:
    """The sets of a point, and what of them no run has."""

    def __init__(self, edges, point, sets, struck):
        self.edges, self.point, self.sets, self.struck, self.laws = edges, point, sets, struck, {}
        counts = {}
        for (part, _), law in struck.items():
            counts.setdefault(part, []).append(law)
        self.gone = next((laws[0] for part, laws in counts.items() if len(laws) == len(sets[part])), None)

    def law(self, part, block):
        """The law by which a component doesn't go on at a block; None where it may, or nothing is known of it."""
        if part not in self.laws:
            laws = {}
            for value in self.sets[part]:
                laws.setdefault(self.edges.leads_to(self.point, part, value), []).append(self.struck.get((part, value)))
            self.laws[part] = {to: found[0] if all(found) else None for to, found in laws.items()}
        return self.laws[part].get(block)


def in_no_run(graph, image, table):
    """The edges of what show printed that no run takes, each with the law by which, by the certificate in two files."""
    app = read_image(data(image), image).app
    edges, points = RunEdges(app, table_told(app, data(table), table)), {shown_point(app, point): point for point in points_of(app)}
    laws = {edge: edges.law(*(points.get(text_of(point)) for point in edge)) for edge in graph.edges}
    return {edge: law for edge, law in laws.items() if law}
