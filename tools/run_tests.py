#!/usr/bin/env python3
"""Runs the tests of tools/tests, which need no built program: all of them, or those of some files.

    tools/run_tests.py
    tools/run_tests.py test_texts test_why
    tools/run_tests.py -k margin              those whose name has the word
"""
import os
import sys
import unittest

from lib.given import Parser, run

TOOLS = os.path.dirname(os.path.abspath(__file__))


def arguments():
    parser = Parser(__doc__)
    parser.add_argument('files', nargs='*', metavar='FILE', help='a file of tools/tests, without its ending')
    parser.add_argument('-k', action='append', default=[], metavar='WORD', help='runs the tests whose name has this word alone')
    return parser.parse_args()


def main():
    words = arguments()
    wanted = [word for name in words.k for word in ('-k', name)]
    which = ['tests.' + name for name in words.files] or ['discover', '-s', os.path.join(TOOLS, 'tests'), '-t', TOOLS]
    unittest.main(module=None, argv=[sys.argv[0]] + which + wanted)


if __name__ == '__main__':
    run(main)
