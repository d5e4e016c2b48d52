"""Joins files into one input of the program: a map, points, and a script, or several for `live`.

    join my.map my.points my.script | ./warehouse replay
    join my.map my.points client0 client1 | ./warehouse live
    join my.map my.points | ./warehouse check
    join my.map my.points my.log | ./warehouse verify

The files are separated by lines `%%`. A file without a last LF gets one: without it `%%` would become part of its last
row, and the program says M3 there. Nothing else is changed. A file that has a line `%%` of its own is refused, since it
would become two sections.
"""
from __future__ import annotations

import argparse
import sys

from ..texts import Fault, lines_of, read_file


def add_options(parser: argparse.ArgumentParser) -> None:
    parser.add_argument('map', metavar='MAP')
    parser.add_argument('points', metavar='POINTS')
    parser.add_argument('scripts', metavar='SCRIPT', nargs='*')


def section(path: str) -> bytes:
    text = read_file(path)
    lines = lines_of(text)
    if '%%' in lines:
        raise Fault(f'line {lines.index("%%") + 1} is `%%`: this file is more than one section', path)
    return text if text.endswith(b'\n') or not text else text + b'\n'


def run(options: argparse.Namespace) -> int:
    files = [section(path) for path in [options.map, options.points, *options.scripts]]
    sys.stdout.buffer.write(b'%%\n'.join(files))
    return 0
