"""What the program of this tree has of the parts of the language that come later; the model and the tools refuse the rest, as the program does.

A change that opens a part in the program puts its word into OPENED, and all tools follow. `tools/model.py --later` opens parts for one call.
An application whose folder has a file `later` with words of parts is run by the program from where these are opened on."""
import os

from lib.given import contents

(NESTED,) = LATER = ('nested',)
"""Priorities and resources of interrupt routines, which nest by them."""

OPENED = {NESTED}
"""The parts that the program has."""


def has(part):
    return part in OPENED


def is_ready(folder):
    """Whether the program has the parts that a folder's application needs."""
    file = os.path.join(folder, 'later')
    return not os.path.exists(file) or OPENED.issuperset(contents(file).split())
