"""For the scripts of this folder: the Python package on their path, and how they end at a mistake."""
import os
import sys
from typing import NoReturn

ROOT = os.path.dirname(os.path.dirname(os.path.abspath(__file__)))
sys.path.insert(0, os.path.join(ROOT, 'python'))


def fail(message: str) -> NoReturn:
    """Ends the script with a message on standard error and status 2."""
    print(f'{os.path.basename(sys.argv[0])}: {message}', file=sys.stderr)
    sys.exit(2)
