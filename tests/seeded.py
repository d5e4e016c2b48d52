"""Scripts whose runs are made from seeds: their options, what was seen in the runs, and their last line."""
from __future__ import annotations

import argparse
import collections
import random
import subprocess
import sys
import tempfile
from typing import Callable, NoReturn

from lives import PROGRAM, Wrong


def parser_of(page: str | None, name: str, count: int) -> argparse.ArgumentParser:
    """The options of each such script: how many runs, or what else it counts, the first seed, the program."""
    parser = argparse.ArgumentParser(description=page, formatter_class=argparse.RawDescriptionHelpFormatter)
    parser.add_argument(name, type=int, nargs='?', default=count)
    parser.add_argument('--seed', type=int, default=1)
    parser.add_argument('--program', default=PROGRAM)
    return parser


class Runs:
    """The runs so far, and what was seen in them."""

    def __init__(self, seed: int):
        self.seed, self.passed, self.failed = seed, 0, 0
        self.seen: collections.Counter[str] = collections.Counter()

    def attempt(self, number: int, one: Callable[[random.Random], None]) -> None:
        """A run with the chance of its number."""
        try:
            one(random.Random(self.seed * 1_000_003 + number))
            self.passed += 1
        except (Wrong, OSError, ValueError, subprocess.SubprocessError) as wrong:
            self.failed += 1
            print(f'run {number} of seed {self.seed}: {str(wrong)[:1500]}')

    def end(self) -> NoReturn:
        for name in sorted(self.seen):
            print(f'{name}: {self.seen[name]}')
        print(f'{self.passed} passed, {self.failed} failed')
        sys.exit(self.failed != 0)


def main(page: str | None, one: Callable[[random.Random, str, str, collections.Counter[str]], None]) -> NoReturn:
    """A script of so many runs, each with its chance, the program, a folder of its own, and what was seen."""
    options = parser_of(page, 'runs', 3).parse_args()
    runs = Runs(options.seed)
    for number in range(options.runs):
        with tempfile.TemporaryDirectory() as folder:
            runs.attempt(number, lambda chance: one(chance, options.program, folder, runs.seen))
    runs.end()
