#!/usr/bin/env python3
"""Says in words what a certificate's table has: for each point that a state of it stands at, what each task may be doing, which of its events
may be set, and whether alarms may be armed. Both files are read here, and not by osekfit; the first fault of a table's bytes is told by its
rule and its offset. Whether the table certifies the image is what `osekfit check` says.

    tools/certificate.py a.image a.table                     a line a point
    tools/certificate.py --task T1 a.image a.table           one task, alarm or routine
    tools/certificate.py --point b3 a.image a.table          one point
    tools/certificate.py --code a.code a.image a.table       with the source lines
    tools/certificate.py --guarantees a.image a.table        with what no run has of it, by the laws of docs/GUARANTEES.md
    tools/certificate.py --chart a.image a.table > a.svg     a row a point, a column a task, dark by how many values it may have
"""
import sys

from lib import certificate_chart
from lib.given import Parser, Wrong, contents, data, run
from lib.guarantees import Guarantees
from lib.image_reader import read_image
from lib.points import block_of, point_shown, points_of, shown_point
from lib.table_bytes import table_told
from lib.table_words import Wording
from lib.texts import source_line


def certificate(image_data, table_data, names=('the image', 'the table')):
    """The application of an image, and the table that is beside it; the names are the files', for what is told."""
    app = read_image(image_data, names[0]).app
    return app, table_told(app, table_data, names[1])


def lines_of(app, table, points, only=None, code=None, guarantees=None):
    """The lines of these points, each with the parts of one name where that is given, below the source line where there is code, and above what
    no run has of it where there are guarantees."""
    shown = [(shown_point(app, point), point) for point in points]
    width, wording = max((len(text) for text, _ in shown), default=0), Wording(app)
    for text, point in shown:
        source = source_line(app.blocks[block_of(point)], *code) if code is not None and block_of(point) is not None else None
        if source:
            yield '-- ' + source
        parts = [words for name, words in wording.parts(point, table[point]) if only in (None, name)]
        yield ('%-*s  %s' % (width, text, ' | '.join(parts))).rstrip()
        if guarantees:
            yield from ('%*s  %s' % (width, '', gone) for gone in wording.in_no_run(point, guarantees.parted(point, table[point]).gone, only))


def chosen_points(app, table, text):
    """The points to be told of: one that is named, or all that have an entry."""
    if text is None:
        return [point for point in points_of(app) if point in table]
    point = point_shown(app, text)
    if point is None:
        raise Wrong('%s is no point of the image' % text)
    if point not in table:
        raise Wrong('%s: no state of the table stands here' % text)
    return [point]


def arguments():
    parser = Parser(__doc__)
    parser.add_argument('image', metavar='IMAGE')
    parser.add_argument('table', metavar='TABLE')
    parser.add_argument('--point', metavar='POINT', help='one point, as `osekfit show` has it')
    parser.add_argument('--task', metavar='NAME', help='one task, alarm or routine')
    parser.add_argument('--code', metavar='FILE', help='the task code, for its lines')
    parser.add_argument('--guarantees', action='store_true', help='says what no run has of it')
    parser.add_argument('--chart', action='store_true', help='a picture (SVG)')
    return parser.parse_args()


def main():
    words = arguments()
    app, table = certificate(data(words.image), data(words.table), (words.image, words.table))
    if words.chart:
        sys.stdout.write(certificate_chart.chart(app, table, words.table))
        return
    if words.task is not None and words.task not in [one.name for one in app.tasks + app.alarms + app.sources]:
        raise Wrong('%s is no task, alarm or routine of the image' % words.task)
    code = (words.code, contents(words.code).splitlines()) if words.code else None
    guarantees = Guarantees(app) if words.guarantees else None
    for line in lines_of(app, table, chosen_points(app, table, words.point), words.task, code, guarantees):
        print(line)
    if words.point is None and words.task is None:
        print('points %d entries %d values %d' % (len(points_of(app)), len(table), sum(len(values) for sets in table.values() for values in sets)))


if __name__ == '__main__':
    run(main)
