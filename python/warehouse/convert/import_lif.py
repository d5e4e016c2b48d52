"""Makes an instance from a LIF file (VDMA's Layout Interchange Format): nodes become cells, stations stations.

    import-lif FILE --cell 1.2 --agents 4 > INSTANCE

The nodes must lie on a grid of --cell metres, and each must have edges to and from all its neighbours there: roads that go one way, or lie
elsewhere, are refused. The first --agents nodes without a station, by row and column, become parkings with an agent each. Station names
have 1 to 16 letters, digits, _ or -. There is no script: add orders. The format is written from knowledge of it, not checked against its
text.
"""
from __future__ import annotations

import argparse
import re
import sys

from ..texts import MOST_AGENTS, MOST_POINTS, Fault, read_file
from .lif import read_floor


def add_options(parser: argparse.ArgumentParser) -> None:
    parser.add_argument('file', metavar='FILE')
    parser.add_argument('--cell', type=float, default=1.0, metavar='METRES', help='the side of a cell (%(default)s)')
    parser.add_argument('--agents', type=int, default=1, metavar='N', help='how many agents start there (%(default)s)')


def run(options: argparse.Namespace) -> int:
    if not 0.01 <= options.cell <= 100 or not 1 <= options.agents <= MOST_AGENTS:
        raise Fault(f'--cell {options.cell:g} --agents {options.agents}: 0.01 to 100 m, and 1 to {MOST_AGENTS} agents can be had')
    floor = read_floor(options.file, read_file(options.file), options.cell)
    for name in floor.stations:
        if not re.fullmatch(r'[A-Za-z0-9_-]{1,16}', name):
            raise Fault(f'the station `{name[:40]}` has no name of 1 to 16 letters, digits, _ or -', options.file)
    taken = set(floor.stations.values())
    free = sorted((cell for cell in floor.cells if cell not in taken), key=lambda cell: (cell[1], cell[0]))[:options.agents]
    if len(taken) < len(floor.stations) or len(free) < options.agents or len(taken) + len(free) > MOST_POINTS:
        raise Fault(f'{len(free)} nodes without a station for {options.agents} agents; no two stations can lie in a cell, and {MOST_POINTS} '
                    'points can be', options.file)
    parkings = {name: cell for name, cell in zip(parking_names(set(floor.stations)), free)}
    rows = [''.join('.' if (x, y) in floor.cells else '@' for x in range(floor.width)) for y in range(floor.height)]
    points = [f'{kind} {name} {x} {y}' for kind, found in (('parking', parkings), ('station', floor.stations)) for name, (x, y) in found.items()]
    lines = ['type octile', f'height {floor.height}', f'width {floor.width}', 'map', *rows, '%%', *points, *(f'agent {name}' for name in parkings), '%%']
    sys.stdout.write('\n'.join(lines) + '\n')
    return 0


def parking_names(taken: set[str]) -> list[str]:
    """Names that no station has."""
    return [name for number in range(MOST_AGENTS + len(taken)) if (name := f'P{number}') not in taken]
