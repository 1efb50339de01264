"""A small writer of SVG, which graph.py and timeline.py share."""

SANS = "Helvetica, Arial, 'DejaVu Sans', sans-serif"
MONO = "'DejaVu Sans Mono', Menlo, Consolas, monospace"

INK = '#24292f'
FAINT = '#8c959f'
LINE = '#d0d7de'
PAPER = '#ffffff'

FORM_COLOURS = {
    'never': ('#eaeef2', '#8c959f'),
    'stay': ('#dafbe1', '#2da44e'),
    'direct': ('#ddf4ff', '#0969da'),
    'general': ('#fff1e5', '#e16f24'),
}
"""The ground and the edge of a site, by the first word of its form."""


def escaped(text):
    """The text as XML holds it."""
    text = text.encode('utf-8', 'replace').decode('utf-8')
    return (text.replace('&', '&amp;').replace('<', '&lt;').replace('>', '&gt;').replace('"', '&quot;'))


def number(value):
    """A coordinate with at most one decimal."""
    return ('%.1f' % value).rstrip('0').rstrip('.')


def attributes(values):
    """Attributes of an element; an underscore in a name stands for a dash, and None leaves the attribute out."""
    parts = []
    for name, value in values.items():
        if value is not None:
            text = number(value) if isinstance(value, (int, float)) else escaped(value)
            parts.append(' %s="%s"' % (name.rstrip('_').replace('_', '-'), text))
    return ''.join(parts)


class Drawing:
    """Elements in the order in which they are painted. Each call takes further attributes by name."""

    def __init__(self):
        self.elements = []

    def add(self, name, content=None, title=None, **values):
        inner = ('<title>%s</title>' % escaped(title) if title else '') + (escaped(content) if content else '')
        self.elements.append('<%s%s%s' % (name, attributes(values), '>%s</%s>' % (inner, name) if inner else '/>'))

    def rect(self, x, y, width, height, fill, title=None, **values):
        self.add('rect', title=title, x=x, y=y, width=width, height=height, fill=fill, **values)

    def line(self, x1, y1, x2, y2, stroke, **values):
        self.add('line', x1=x1, y1=y1, x2=x2, y2=y2, stroke=stroke, **values)

    def path(self, d, stroke, title=None, **values):
        self.add('path', title=title, d=d, fill=values.pop('fill', 'none'), stroke=stroke, **values)

    def circle(self, x, y, r, fill, title=None, **values):
        self.add('circle', title=title, cx=x, cy=y, r=r, fill=fill, **values)

    def text(self, x, y, content, size=12, fill=INK, font=SANS, anchor=None, **values):
        self.add('text', content, x=x, y=y, font_size=size, fill=fill, font_family=font, text_anchor=anchor,
                 xml_space=None, **values)

    def open_group(self, name, title=None):
        """Begins a group, to whose class a style may speak."""
        self.elements.append('<g class="%s">' % name + ('<title>%s</title>' % escaped(title) if title else ''))

    def close_group(self):
        self.elements.append('</g>')

    def style(self, text):
        self.elements.append('<style>%s</style>' % text)

    def svg(self, width, height, top=0):
        """The whole file from this line down, on a ground of its own colour."""
        shown = tuple(map(number, (width, height - top)))
        head = '<svg xmlns="http://www.w3.org/2000/svg" width="%s" height="%s" viewBox="0 %s %s %s">' % (shown + (number(top),) + shown)
        ground = '<rect x="0" y="%s" width="100%%" height="100%%" fill="%s"/>' % (number(top), PAPER)
        return '\n'.join([head, ground] + self.elements + ['</svg>', ''])


def rounded(points, radius=5):
    """The path along these points, whose segments are level or upright, with rounded corners."""
    points = [p for k, p in enumerate(points) if k == 0 or p != points[k - 1]]
    parts = ['M%s %s' % (number(points[0][0]), number(points[0][1]))]
    for (x0, y0), (x, y), (x2, y2) in zip(points, points[1:], points[2:]):
        r = min(radius, (abs(x - x0) + abs(y - y0)) / 2, (abs(x2 - x) + abs(y2 - y)) / 2)
        before = (x - r * sign(x - x0), y - r * sign(y - y0))
        after = (x + r * sign(x2 - x), y + r * sign(y2 - y))
        parts.append('L%s %sQ%s %s %s %s' % tuple(number(v) for v in before + (x, y) + after))
    parts.append('L%s %s' % (number(points[-1][0]), number(points[-1][1])))
    return ''.join(parts)


def in_lines(text, width, character):
    """The words of a text in lines of at most this width."""
    lines = ['']
    for word in text.split(' '):
        if lines[-1] and character * (len(lines[-1]) + 1 + len(word)) > width:
            lines.append('')
        lines[-1] += (' ' if lines[-1] else '') + word
    return lines


def sign(value):
    return (value > 0) - (value < 0)
