"""Makes an instance from a map of libMultiRobotPlanning (YAML): starts become parkings, goals stations.

    import-mrp MAP.yaml > INSTANCE

Agent I starts at point `PI` and its goal is the station `SI`, for which the order `submit mrp SI SI` is made: be there once. As with
`import-scen` any agent may serve any goal, so costs cannot be compared. A start that is another's goal is that station. The format is
written from knowledge of it, not checked against its text.
"""
from __future__ import annotations

import argparse
import sys

from ..texts import MOST_AGENTS, Fault, read_file
from .mrp import read_map_file


def add_options(parser: argparse.ArgumentParser) -> None:
    parser.add_argument('map', metavar='MAP.yaml')


def run(options: argparse.Namespace) -> int:
    site = read_map_file(options.map, read_file(options.map))
    if not 1 <= len(site.starts) <= MOST_AGENTS:
        raise Fault(f'{len(site.starts)} agents, and 1 to {MOST_AGENTS} can be run', options.map)
    grid = site.grid
    rows = [''.join('.' if grid.is_passable((x, y)) else '@' for x in range(grid.width)) for y in range(grid.height)]
    stations = {cell: f'S{number}' for number, cell in enumerate(site.goals)}
    parkings = {cell: f'P{number}' for number, cell in enumerate(site.starts) if cell not in stations}
    points = [f'{kind} {name} {x} {y}' for kind, found in (('parking', parkings), ('station', stations)) for (x, y), name in found.items()]
    agents = [f'agent {stations.get(cell) or parkings[cell]}' for cell in site.starts]
    script = [line for number in range(len(site.goals)) for line in ('# @0', f'submit mrp S{number} S{number}')]
    lines = ['type octile', f'height {grid.height}', f'width {grid.width}', 'map', *rows, '%%', *points, *agents, '%%', *script]
    sys.stdout.write('\n'.join(lines) + '\n')
    return 0
