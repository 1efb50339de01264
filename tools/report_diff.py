#!/usr/bin/env python3
"""Says what changed between two versions of an application, by what osekfit printed of each: the text of `show`, and that of `report` behind it
where both have one.

    osekfit show a.oil a.code > old.text; osekfit report a.oil a.code >> old.text           of each version
    tools/report_diff.py old.text new.text
    tools/report_diff.py --code old.code new.code old.text new.text         finds statements again that have another block now
    tools/report_diff.py --fail-on general --fail-on lost old.text new.text

A line names the block of the new version, and behind it the old one's where that is another. The status is 1 where anything changed; with
--fail-on only where something changed of that kind: `general` is a site that has become general, `site` any change of a site, `lost` a
finding of `report` that holds no more.
"""
import difflib
import re
import sys
from collections import namedtuple

from lib import task_code
from lib.given import Parser, contents, run
from lib.show_reader import read_show

Version = namedtuple('Version', 'sites edges counts findings')
"""A version of an application: forms by block, edges, the numbers of show's last line, and the lines of its report."""

Change = namedtuple('Change', 'text kinds')
"""What changed, and for which words of --fail-on it counts."""

FINDING = re.compile(r'(?:suspended|unarmed|silent) \w+|unset \w+ [0-9a-f]+|(?:free|dead) b\d+')

KINDS = ('general', 'site', 'lost')

OF_A_BLOCK = re.compile(r'(free|dead) b(\d+)')


def version_of(text, name):
    """The version that a text tells of."""
    lines = text.splitlines()
    found = [line for line in lines if FINDING.fullmatch(line)]
    shown = read_show('\n'.join(line for line in lines if not FINDING.fullmatch(line)), name)
    return Version({block: site.form for block, site in shown.sites.items()}, shown.edges, shown.counts, found)


class Blocks:
    """Which block of the old version is which of the new one."""

    def __init__(self, pairs=None):
        self.new_of = None if pairs is None else dict(pairs)

    def moved(self, block):
        """The new block of an old one, or None."""
        return block if self.new_of is None else self.new_of.get(block)

    def named(self, old, new):
        """A block of the new version, with its old number where that was another; or one of the old version that is no more."""
        if new is None:
            return 'b%d before' % old
        return 'b%d' % new + (' (b%d before)' % old if old not in (None, new) else '')


def matched(codes, versions):
    """The pairs of blocks that have the same statement at the same place of a body. Tick routines stand behind all code, and keep their order
    where both versions have as many blocks of them."""
    old, new = map(task_code.blocks_of, codes)
    found = difflib.SequenceMatcher(None, *([(block.owner, block.text) for block in blocks] for blocks in (old, new)), autojunk=False)
    pairs = [(m.a + k, m.b + k) for m in found.get_matching_blocks() for k in range(m.size)]
    ticks = [max([block + 1 for block in version.sites], default=0) - len(blocks) for version, blocks in zip(versions, (old, new))]
    return Blocks(pairs + [(len(old) + k, len(new) + k) for k in range(ticks[0]) if ticks[0] == ticks[1]])


def differences(old, new, blocks):
    """All changes: of sites, of findings, of the graph."""
    yield from site_changes(old.sites, new.sites, blocks)
    yield from finding_changes(old.findings, new.findings, blocks)
    yield from graph_changes(old, new, blocks)


def site_changes(old, new, blocks):
    before = {blocks.moved(block): (block, form) for block, form in old.items() if blocks.moved(block) in new}
    for block, form in new.items():
        number, old_form = before.get(block, (None, 'new'))
        if form != old_form:
            yield Change('site %s: %s -> %s' % (blocks.named(number, block), old_form, form), {'site'} | ({form} & {'general'}))
    for block, form in old.items():
        if blocks.moved(block) not in new:
            yield Change('site %s: %s -> gone' % (blocks.named(block, None), form), {'site'})


def finding_changes(old, new, blocks):
    """The findings that hold no more, and those that are new. One of a block that is no more isn't told, and a resource that was free at a block is so
    still where no run comes to it."""
    before = {line: moved_finding(line, blocks) for line in old}
    for line, now in before.items():
        if now is not None and now not in new:
            is_dead = now.startswith('free') and now.replace('free', 'dead') in new
            yield Change('%s: %s' % (now, 'dead now' if is_dead else 'no more'), set() if is_dead else {'lost'})
    for line in new:
        if line not in before.values():
            yield Change('%s: new' % line, set())


def moved_finding(line, blocks):
    match = OF_A_BLOCK.fullmatch(line)
    if not match:
        return line
    block = blocks.moved(int(match.group(2)))
    return None if block is None else '%s b%d' % (match.group(1), block)


def graph_changes(old, new, blocks):
    """How many edges are new and how many are gone, of points that are in both; and the counts."""
    def moved(point):
        block = blocks.moved(point.block) if point.block is not None else None
        return point if point.block is None else point._replace(block=block)
    before, now = {(moved(p), moved(q)) for p, q in old.edges}, set(new.edges)
    if before != now:
        yield Change('edges: %d -> %d (%d new, %d gone)' % (len(old.edges), len(new.edges), len(now - before), len(before - now)), set())
    for name in ('points', 'values'):
        if old.counts.get(name) != new.counts.get(name):
            yield Change('%s: %s -> %s' % (name, old.counts.get(name), new.counts.get(name)), set())


def status_of(changes, kinds):
    """The status: whether there is a change, of these kinds where some are named."""
    return 1 if any(not kinds or change.kinds & set(kinds) for change in changes) else 0


def arguments():
    parser = Parser(__doc__)
    parser.add_argument('old', metavar='OLD', help='what osekfit printed of the old version')
    parser.add_argument('new', metavar='NEW', help='what it printed of the new one')
    parser.add_argument('--code', nargs=2, metavar=('OLD_CODE', 'NEW_CODE'), help='the task code of both')
    parser.add_argument('--fail-on', action='append', choices=KINDS, default=[], help='what makes the status 1; may be given several times')
    return parser.parse_args()


def main():
    words = arguments()
    old, new = (version_of(contents(name), name) for name in (words.old, words.new))
    blocks = matched([contents(name) for name in words.code], (old, new)) if words.code else Blocks()
    changes = list(differences(old, new, blocks))
    sys.stdout.write(''.join(change.text + '\n' for change in changes))
    return status_of(changes, words.fail_on)


if __name__ == '__main__':
    run(main)
