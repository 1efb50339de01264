"""The documents as pages: which there are, whether their links lead somewhere, and whether they are laid out as pages are to be."""
import os
import re

from lib.given import Wrong, contents

WIDEST_LINE, WIDEST_ROW = 110, 220
"""The most columns of a line of prose, and of a row of a table; a longer row is a list."""

FOLDERS = ['', 'docs', 'tools']

HISTORY = 'CHANGES.md'
"""The one page that names older versions."""

LINK = re.compile(r'\]\(([^)\s#]*)(?:#([^)\s]+))?\)')

VERSION = re.compile(r'(?<![\w.])\d+\.\d+\.\d+(?![\w.]*\w)')


def pages(root):
    """The names of the pages, from the root."""
    found = [os.path.join(folder, name) for folder in FOLDERS for name in os.listdir(os.path.join(root, folder)) if name.endswith('.md')]
    return sorted(found)


def lines_outside_code(text):
    """The lines that stand in no block of code, each with its number."""
    inside = False
    for number, line in enumerate(text.splitlines(), 1):
        if line.lstrip().startswith('```'):
            inside = not inside
        elif not inside:
            yield number, line


def anchors_of(text):
    """The anchors of a page's headings, as they are made of their words."""
    headings = [line.lstrip('#').strip() for _, line in lines_outside_code(text) if line.startswith('#')]
    return {re.sub(r'[^\w\- ]', '', heading.lower()).replace(' ', '-') for heading in headings}


def broken_links(root):
    """The links of all pages that lead nowhere."""
    for page in pages(root):
        for target, anchor in LINK.findall(contents(os.path.join(root, page))):
            if '://' not in target and not leads(root, page, target, anchor):
                yield '%s: the link %s leads nowhere' % (page, target + ('#' + anchor if anchor else ''))


def leads(root, page, target, anchor):
    """Whether a link of a page leads to a file, and to a heading there."""
    file = os.path.normpath(os.path.join(root, os.path.dirname(page), target) if target else os.path.join(root, page))
    return os.path.exists(file) and (not anchor or anchor in anchors_of(contents(file)))


def with_table(page, name, text):
    """A page with another text between the marks of this name."""
    begin, end = '<!-- %s -->\n' % name, '<!-- end of %s -->\n' % name
    before, found, rest = page.partition(begin)
    _, ended, after = rest.partition(end)
    if not found or not ended:
        raise Wrong('the page has no marks of %s' % name)
    return before + begin + text + end + after


def widest(line):
    """How many columns a line may have: a picture as many as its address takes."""
    return len(line) if line.startswith('![') else WIDEST_ROW if line.startswith('|') else WIDEST_LINE


def overlong_lines(root):
    """The lines of prose and the rows of tables that are too long."""
    for page in pages(root):
        for number, line in lines_outside_code(contents(os.path.join(root, page))):
            if len(line) > widest(line):
                yield '%s:%d: %d columns' % (page, number, len(line))


def older_versions(root):
    """Where a page names another version of osekfit than the one that this is."""
    this = contents(os.path.join(root, 'VERSION')).strip()
    for page in (page for page in pages(root) if page != HISTORY):
        for number, line in enumerate(contents(os.path.join(root, page)).splitlines(), 1):
            for version in VERSION.findall(line):
                if version != this:
                    yield '%s:%d: version %s' % (page, number, version)
