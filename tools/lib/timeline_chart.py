"""The chart of timeline.py: rows over events, from left to right, in as many bands below each other as it takes. Column n shows the state after
event n, and each band has the names at its left."""
from lib.drawing import FAINT, INK, LINE, MONO, PAPER, Drawing
from lib.trace_reader import HOOKS, has_begun, routines_of, stacks_of, waits_below

STATE_COLOURS = {'running': '#0969da', 'interrupted': '#a5cdf8', 'ready': '#f2b84b', 'waiting': '#c7cfd8'}

ROUTINE_COLOURS = {'@': '#8250df', '%': '#1b7c83'}

RESOURCE_COLOURS = ['#1a7f37', '#bf3989', '#9a6700', '#57606a', '#0550ae', '#cf222e', '#4d2d8a', '#116329']

GOOD, BAD = '#2da44e', '#cf222e'

WAITS = 0.35
"""How much of a routine's colour is seen where it waits below another one."""

TOP, ROW, BAR, STRIP = 76, 30, 14, 4
"""The room above the first row; the heights of a row, of a bar, and of a strip for a held resource."""

NOTE_ROW = 18

WIDEST, STEPS, BETWEEN = 1400, (8, 20), 56
"""How wide the events of a band are at most, the least and the largest width of an event, and the room between two bands."""

LETTER = 5.3
"""The width of a letter of what is written beside or in a mark."""

ROUTINE, TASK, REST, NOTE = 'routine', 'task', 'rest', 'note'
"""The kinds of rows: a row is known by its kind and its name, since a task may be called as a note is."""


def state_of(line, name):
    """The state that is painted, or None for a suspended task."""
    state = line.tasks[name].state
    if state == 'R':
        return 'running' if line.who == name else 'interrupted'
    return {'Y': 'ready', 'W': 'waiting'}.get(state)


def spans(lines, value):
    """The stretches over which a value stays, as (first place, place behind the last, value), those of None left out."""
    found, begin = [], 0
    for place in range(1, len(lines) + 1):
        if place == len(lines) or value(lines[place]) != value(lines[begin]):
            if value(lines[begin]) is not None:
                found.append((begin, place, value(lines[begin])))
            begin = place
    return found


def bar_text(task):
    """What stands in a task's bar: its further activations, and its events; None where it has neither."""
    return ('*%d' % task.further if task.further else '') + (':' if task.further and task.events else '') + (task.events or '') or None


class Chart:
    """What all bands share: which rows there are, how wide an event is, and when requests are served."""

    def __init__(self, lines, trap, requests, order=()):
        self.lines, self.trap = lines, trap
        shown = {line.number for line in self.lines}
        self.requests = [(n, name) for n, name in requests if n in shown]
        self.routines = in_order(routines_of(lines, self.requests), order)
        self.tasks = list(self.lines[0].tasks)
        self.resources = sorted({r for line in self.lines for held in stacks_of(line).values() for r in held})
        self.notes = ['status'] + (['E_OS_'] if any(line.status not in (None, 'E_OK') for line in self.lines) else [])
        self.notes += ['value'] if any(line.value for line in self.lines) else []
        self.notes += [hook for hook in HOOKS if any(hook in line.hooks for line in self.lines)]
        self.gutter = 30 + 7.8 * max(len(name) for name in self.tasks + self.routines + ['PostTask'])
        self.step = max(STEPS[0], min(STEPS[1], WIDEST / len(self.lines)))
        self.served = {name: self.latches(name) for name in self.routines}
        self.drawing = Drawing()
        self.rows, self.height = self.row_places()

    def row_places(self):
        """The top of each row within a band, by its kind and name, and the height of a band."""
        places, y = {}, 0
        for row in [(ROUTINE, name) for name in self.routines] + [(TASK, name) for name in self.tasks]:
            places[row] = y
            y += ROW + STRIP * max(len(stacks_of(line).get(row[1], ())) for line in self.lines)
        places[REST, '-'] = y
        y += ROW + 8
        for name in self.notes:
            places[NOTE, name] = y
            y += NOTE_ROW
        return places, y

    def row_of(self, who):
        """The row of who has the processor."""
        if who in '-#':
            return REST, '-'
        return (ROUTINE, who) if who[0] in '@%' else (TASK, who)

    def place_of(self, number):
        return number - self.lines[0].number

    def latches(self, name):
        """The requests of a routine: the place of each, and where the routine begins; None for one that came while another waited, which
        is lost."""
        found, last = [], 0
        for begin in [self.place_of(n) for n, source in self.requests if source == name]:
            is_lost = begin < last
            last = last if is_lost else next((p for p in range(begin + 1, len(self.lines)) if self.begins(name, p)), len(self.lines))
            found.append((begin, None if is_lost else last))
        return found

    def begins(self, name, place):
        return self.lines[place].who == name and not has_begun(self.lines[place - 1], name)

    def bands(self):
        """The bands: of each the first place, and the place behind its last. The last one isn't much shorter than the others."""
        most = max(1, int(WIDEST / self.step))
        count = -(-len(self.lines) // most)
        size = -(-len(self.lines) // count)
        return [(begin, min(begin + size, len(self.lines))) for begin in range(0, len(self.lines), size)]

    def width(self):
        return max(self.gutter + self.step * max(end - begin for begin, end in self.bands()) + 24, 640)

    def paint(self, title):
        if title:
            self.drawing.text(16, 30, title, size=17, font_weight='600')
        top = TOP
        for begin, end in self.bands():
            Band(self, begin, end, top).paint()
            top += self.height + BETWEEN
        return self.drawing.svg(self.width(), self.paint_legend(top - BETWEEN + 30), 0 if title else TOP - 36)

    def paint_legend(self, y):
        d = self.drawing
        d.line(8, y - 16, self.width() - 8, y - 16, LINE)
        x = 16
        for mark, colour, text in self.keys():
            if x + 34 + 6.2 * len(text) > self.width() - 8:
                x, y = 16, y + 20
            self.paint_key(x, y, mark, colour)
            d.text(x + 30, y + 4, text, size=11)
            x += 30 + 6.2 * len(text) + 18
        if any(task.events is not None for line in self.lines for task in line.tasks.values()):
            y += 20
            d.text(16, y + 4, 'A number in a bar: the events that are set from here on, in hexadecimal.', size=11)
        if any(task.further for line in self.lines for task in line.tasks.values()):
            y += 20
            d.text(16, y + 4, 'A number behind * in a bar: so many further activations wait.', size=11)
        return y + 22

    def keys(self):
        """What the legend explains: the mark, its colour, and its meaning, of all that is drawn."""
        states = {state_of(line, name) for line in self.lines for name in self.tasks}
        keys = [('bar', colour, state) for state, colour in STATE_COLOURS.items() if state in states]
        keys += [('line', LINE, 'suspended')] if None in states else []
        keys += [('switch', INK, 'the processor goes to another one')] if len({self.row_of(line.who) for line in self.lines}) > 1 else []
        keys += [('bar', ROUTINE_COLOURS[c], t) for c, t in (('@', 'interrupt routine'), ('%', 'tick routine'))
                 if any(name[0] == c for name in self.routines)]
        keys += [('waits', ROUTINE_COLOURS['@'], 'waits below another routine')] if any(
            waits_below(line, name) for line in self.lines for name in line.routines) else []
        keys += [('request', '#57606a', 'requested')] if self.requests else []
        is_lost = any(until is None for waits in self.served.values() for _, until in waits)
        keys += [('lost', '#57606a', 'requested while it waits: lost')] if is_lost else []
        keys += [('strip', RESOURCE_COLOURS[k % len(RESOURCE_COLOURS)], 'holds ' + r) for k, r in enumerate(self.resources)]
        statuses = {line.status for line in self.lines}
        keys += [('dot', GOOD, 'E_OK')] if 'E_OK' in statuses else []
        return keys + ([('dot', BAD, 'an error')] if statuses - {'E_OK', None} else [])

    def paint_key(self, x, y, mark, colour):
        d = self.drawing
        if mark == 'bar':
            d.rect(x, y - 6, 24, 12, colour, rx=2)
        elif mark == 'waits':
            d.rect(x, y - 6, 24, 12, colour, rx=2, fill_opacity=WAITS)
        elif mark == 'strip':
            d.rect(x, y - 2, 24, STRIP, colour)
        elif mark == 'line':
            d.line(x, y, x + 24, y, colour, stroke_width=1.5)
        elif mark == 'switch':
            d.line(x + 12, y - 8, x + 12, y + 8, colour, stroke_width=1)
        elif mark == 'lost':
            d.path('M%.1f %.1fh8l-4 6Z' % (x + 8, y - 4), colour, fill=PAPER)
        elif mark == 'request':
            d.path('M%.1f %.1fh8l-4 6Z' % (x + 2, y - 6), 'none', fill=colour)
            d.rect(x + 4, y + 2, 20, 3, colour, fill_opacity=0.3)
        else:
            d.circle(x + 12, y, 3.2, colour)


class Band:
    """A stretch of the lines: those from one place to before another, below a height of the drawing."""

    def __init__(self, chart, begin, end, top):
        self.chart, self.drawing, self.step = chart, chart.drawing, chart.step
        self.first, self.lines, self.top = begin, chart.lines[begin:end], top
        self.floor = top + chart.height

    def row(self, kind, name):
        """The top of a row."""
        return self.top + self.chart.rows[kind, name]

    def x(self, place):
        return self.chart.gutter + self.step * place

    # What is painted, from back to front.

    def paint(self):
        self.paint_ground()
        self.paint_axis()
        for name in self.chart.routines:
            self.paint_routine(name)
        for name in self.chart.tasks:
            self.paint_task(name)
        for begin, end, who in spans(self.lines, lambda line: line.who if line.who in '-#' else None):
            self.drawing.rect(self.x(begin), self.row(REST, '-') + 8, self.step * (end - begin), BAR, FAINT if who == '-' else INK, rx=2)
        self.paint_switches()
        self.paint_notes()
        self.paint_trap()

    def paint_ground(self):
        d, right = self.drawing, self.x(len(self.lines))
        tops = [self.top + y for y in self.chart.rows.values()] + [self.floor]
        for k, ((kind, name), y) in enumerate(zip(self.chart.rows, tops)):
            if k % 2 == 0:
                d.rect(8, y, right - 8, tops[k + 1] - y, '#f6f8fa')
            size, colour = (13, INK) if kind == TASK else (12, '#57606a')
            middle = y + (NOTE_ROW - 5 if kind == NOTE else 20)
            d.text(16, middle, 'idle, halted' if kind == REST else name, size=size, fill=colour)

    def paint_axis(self):
        d = self.drawing
        every = next(n for n in (1, 5, 10) if n * self.step >= 36)
        d.text(16, self.top - 10, 'event', size=11, fill=FAINT)
        for place, line in enumerate(self.lines):
            if line.number % every == 0:
                x = self.x(place)
                d.line(x, self.top - 4, x, self.floor, LINE, stroke_width=0.8)
                d.text(x + self.step / 2, self.top - 10, str(line.number), size=11, fill=FAINT, anchor='middle')

    def paint_routine(self, name):
        d, y, colour = self.drawing, self.row(ROUTINE, name), ROUTINE_COLOURS[name[0]]
        for begin, until in self.chart.served[name]:
            self.paint_request(name, begin - self.first, None if until is None else until - self.first)
        for begin, end, waits in spans(self.lines, lambda line: waits_below(line, name) if has_begun(line, name) else None):
            title = '%s waits below another routine from %d to %d' % (name, self.lines[begin].number, self.lines[end - 1].number) if waits else None
            d.rect(self.x(begin), y + 8, self.step * (end - begin), BAR, colour, rx=2, fill_opacity=WAITS if waits else None, title=title)
        self.paint_stack(name, y)

    def paint_request(self, name, begin, until):
        """A request at a place, and how long it waits; the places are counted from the band's first line."""
        d, y, colour = self.drawing, self.row(ROUTINE, name), ROUTINE_COLOURS[name[0]]
        is_here, left = 0 <= begin < len(self.lines), max(0, begin)
        if until is not None and left < min(until, len(self.lines)):
            d.rect(self.x(left), y + 13, self.step * (min(until, len(self.lines)) - left), 4, colour, fill_opacity=0.3)
        if is_here:
            shape, title = 'M%.1f %.1fh8l-4 6Z' % (self.x(begin) + self.step / 2 - 4, y + 3), '%s is requested at %d' % (name, self.lines[begin].number)
            if until is None:
                d.path(shape, colour, fill=PAPER, title=title + ', and this is lost')
            else:
                d.path(shape, 'none', fill=colour, title=title)

    def paint_task(self, name):
        d, y = self.drawing, self.row(TASK, name)
        d.line(self.x(0), y + 8 + BAR / 2, self.x(len(self.lines)), y + 8 + BAR / 2, LINE, stroke_width=1)
        for begin, end, state in spans(self.lines, lambda line: state_of(line, name)):
            title = '%s is %s from %d to %d' % (name, state, self.lines[begin].number, self.lines[end - 1].number)
            d.rect(self.x(begin), y + 8, self.step * (end - begin), BAR, STATE_COLOURS[state], rx=2, title=title)
        for begin, end, text in spans(self.lines, lambda line: bar_text(line.tasks[name])):
            if 6 * len(text) + 4 <= self.step * (end - begin):
                d.text(self.x(begin) + 3, y + 18.5, text, size=9.5, font=MONO, fill=self.ink_over(name, begin))
        self.paint_stack(name, y)

    def paint_stack(self, name, y):
        for depth in range(len(self.chart.resources)):
            self.paint_held(name, depth, y + 8 + BAR + 1 + STRIP * depth)

    def ink_over(self, name, place):
        return '#ffffff' if state_of(self.lines[place], name) == 'running' else INK

    def paint_held(self, name, depth, y):
        """A strip for the resource that was taken at this depth."""

        def held(line):
            stack = stacks_of(line).get(name, ())
            return stack[depth] if depth < len(stack) else None
        for begin, end, resource in spans(self.lines, held):
            colour = RESOURCE_COLOURS[self.chart.resources.index(resource) % len(RESOURCE_COLOURS)]
            title = '%s holds %s' % (name, resource)
            self.drawing.rect(self.x(begin), y, self.step * (end - begin), STRIP - 0.5, colour, title=title)

    def paint_switches(self):
        """A line from who had the processor to who has it."""
        for place in range(1, len(self.lines)):
            before, after = (self.row(*self.chart.row_of(self.lines[p].who)) for p in (place - 1, place))
            if before != after:
                x = self.x(place)
                self.drawing.line(x, min(before, after) + 8 + BAR / 2, x, max(before, after) + 8 + BAR / 2, INK, stroke_width=1)

    def paint_notes(self):
        for place, line in enumerate(self.lines):
            x, good = self.x(place) + self.step / 2, line.status == 'E_OK'
            if line.status:
                self.drawing.circle(x, self.middle('status'), 3.2, GOOD if good else BAD, title='%s at %d' % (line.status, line.number))
            for hook in line.hooks:
                colour, title = BAD if hook == 'Error' else '#57606a', '%s at %d' % (hook, line.number)
                self.drawing.rect(x - 3, self.middle(hook) - 3, 6, 6, colour, rx=1, title=title)
        self.paint_texts('E_OS_', lambda line: line.status and line.status != 'E_OK' and line.status.replace('E_OS_', ''), BAD)
        self.paint_texts('value', lambda line: line.value, INK)

    def middle(self, note):
        return self.row(NOTE, note) + NOTE_ROW / 2

    def paint_texts(self, note, said, colour):
        """What lines say in a row, each below its event; a point where the text before it leaves no room."""
        free = 0
        for place, line in enumerate(self.lines):
            text, x = said(line), self.x(place) + self.step / 2
            half = LETTER * len(text or '') / 2
            if text and x - half < free:
                self.drawing.circle(x, self.middle(note), 1.6, colour, title='%s at %d' % (text, line.number))
            elif text:
                self.drawing.text(x, self.middle(note) + 3.5, text, size=9, fill=colour, anchor='middle')
                free = x + half + 2

    def paint_trap(self):
        trap = self.chart.trap
        place = None if trap is None else self.chart.place_of(trap) - self.first
        is_last = self.first + len(self.lines) == len(self.chart.lines)
        if place is not None and (0 <= place < len(self.lines) or place == len(self.lines) and is_last):
            x = self.x(place)
            self.drawing.line(x, self.top - 4, x, self.floor, BAD, stroke_width=2)
            self.drawing.text(x + 4, self.top + 8, 'trap', size=11, fill=BAD)


def in_order(names, order):
    """Names in an order, and those that it doesn't have behind them."""
    return [name for name in order if name in names] + [name for name in names if name not in order]


def chart(lines, trap, requests, title, order=()):
    """The drawing of the lines of a trace, of which there is one at least; the order is that of the routines."""
    return Chart(lines, trap, requests, order).paint(title)
