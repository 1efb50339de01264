"""The tests of the commands in tools/, which `tools/run_tests.py` runs. None of them needs a built program."""
import os

TOOLS = os.path.dirname(os.path.dirname(os.path.abspath(__file__)))

EXAMPLES = os.path.join(os.path.dirname(TOOLS), 'examples')
