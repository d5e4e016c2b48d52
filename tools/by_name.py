"""Runs the subcommand of the Python package that a script's name says: tools/import_scen.py is `python3 -m warehouse import-scen`.

`tools/py` runs any subcommand.
"""
import os
import sys
from typing import NoReturn

sys.path.insert(0, os.path.join(os.path.dirname(os.path.dirname(os.path.realpath(__file__))), 'python'))

from warehouse.__main__ import main    # noqa: E402


def run() -> NoReturn:
    """Runs it on the script's arguments, and ends with its status."""
    name = os.path.basename(sys.argv[0])
    sys.exit(main([name.removesuffix('.py').replace('_', '-'), *sys.argv[1:]], name))
