"""Makes a warehouse instance, the same for the same seed: a map of shelves, points, and a script.

    make-instance --columns 60 --rows 40 --agents 20 --tasks 200 --seed 7 > instance
    make-instance --layout kiva --columns 42 --rows 30 --stations 3 --agents 30 --nofollow > instance

The sections map, points and script stand on standard output, separated by lines `%%`. Shelves are blocks of
blocked cells with aisles around; stations stand beside shelves, parkings along the walls, so that any
two points are joined by a walk that meets no third one, and there is a parking for each agent: the instance is
well-formed. `./warehouse check` says so too.

With `--layout kiva` stations stand on both sides of each shelf, and `--stations` packing stations, C0, C1 and so on, along
the lower wall. Each order goes from stations at shelves, drawn from the seed, to a packing station.

With `--layout aisles` shelves are one cell high, each cell beside one is a station, and orders go from station to station.

In the script every agent asks for the token at each tick, due or not: much to do for a benchmark, and no model of a
client (`drive` asks only where an agent is due).

What the program would refuse is not made: the message says why, nothing is written, and the status is 2.
"""
from __future__ import annotations

import argparse
import random
import sys
from typing import Iterator

from ..texts import MOST_AGENTS, MOST_POINTS, MOST_SIDE, MOST_TASKS, Cell, Fault


def corners(columns: int, rows: int, shelf: int, aisles: bool) -> list[Cell]:
    """The upper left cell of each shelf, up to six columns from each wall: shelves of two rows have two rows between, those of one
    row, with `aisles`, three."""
    heights = range(2, rows - 2, 4) if aisles else range(3, rows - 4, 4)
    return [(x, y) for y in heights for x in range(6, columns - 6 - shelf + 1, shelf + 2)]


def floor(options: argparse.Namespace) -> list[list[str]]:
    """Rows of '.' and '@'."""
    aisles = options.layout == 'aisles'
    cells = [['.'] * options.columns for _ in range(options.rows)]
    for x, y in [] if options.open else corners(options.columns, options.rows, options.shelf, aisles):
        for dy in range(1 if aisles else 2):
            cells[y + dy][x:x + options.shelf] = '@' * options.shelf
    return cells


def beside_shelves(cells: list[list[str]], columns: int, rows: int) -> list[Cell]:
    """Passable cells right above a shelf, every third one; the aisle's other row stays free of points."""
    found = []
    for y in range(1, rows - 1):
        for x in range(6, columns - 6, 3):
            if cells[y][x] == '.' and cells[y + 1][x] == '@':
                found.append((x, y))
    return found


def around_shelves(columns: int, rows: int, shelf: int) -> list[Cell]:
    """Passable cells on both sides of each shelf, each fourth one; those of two sides of an aisle do not face each other."""
    found = []
    for x, y in corners(columns, rows, shelf, False):
        found += [(x + dx, y - 1) for dx in range(1, shelf, 4)] + [(x + dx, y + 2) for dx in range(3, shelf, 4)]
    return found


def along_aisles(columns: int, rows: int, shelf: int) -> list[Cell]:
    """All cells on both sides of each shelf of one row; a row of the aisle stays free of points."""
    return [(x + dx, y + dy) for x, y in corners(columns, rows, shelf, True) for dy in (-1, 1) for dx in range(shelf)]


def along_lower_wall(columns: int, rows: int, count: int) -> list[Cell]:
    """So many cells of the lower wall, evenly apart, and none beside another."""
    width = columns - 12
    return [(6 + (2 * i + 1) * width // (2 * count), rows - 1) for i in range(count)]


def along_walls(columns: int, rows: int, upper: bool) -> list[Cell]:
    """Cells for parkings: each second row of each second column at both sides, then each second cell of the upper wall."""
    cells = [(x, y) for y in range(0, rows, 2) for x in (0, columns - 1, 2, columns - 3)]
    # then in the next column of each side, and along the upper wall
    cells += [(x, y) for y in range(0, rows, 2) for x in (4, columns - 5)]
    return cells + [(x, 0) for x in range(6, columns - 6, 2) if upper]


def add_options(parser: argparse.ArgumentParser) -> None:
    parser.add_argument('--columns', type=int, default=60)
    parser.add_argument('--rows', type=int, default=40)
    parser.add_argument('--shelf', type=int, default=8, help='how many cells a shelf is long')
    parser.add_argument('--open', action='store_true', help='a map without shelves')
    parser.add_argument('--layout', choices=('rows', 'kiva', 'aisles'), default='rows', help='where stations stand')
    parser.add_argument('--stations', type=int, default=6, help='with --layout kiva: packing stations along the lower wall')
    parser.add_argument('--agents', type=int, default=20)
    parser.add_argument('--tasks', type=int, default=200)
    parser.add_argument('--ticks', type=int, default=1000)
    parser.add_argument('--every', type=int, default=2, help='a task is submitted every so many ticks')
    parser.add_argument('--stops', type=int, default=2, help='the most stops of a task')
    parser.add_argument('--seed', type=int, default=7)
    parser.add_argument('--nofollow', action='store_true')


def judge_options(options: argparse.Namespace) -> None:
    """Refuses what the program would refuse."""
    least = 13 if options.open else 12 + max(options.shelf, 1)
    height = 5 if options.open else 8
    if options.open and options.layout != 'rows':
        options.refuse(f'--open has no shelves, and --layout {options.layout} needs them')
    for name, low, high in (('agents', 1, MOST_AGENTS), ('tasks', 0, MOST_TASKS), ('ticks', 0, 10 ** 9), ('every', 1, 10 ** 9),
                            ('stops', 2, 8), ('shelf', 1, MOST_SIDE), ('columns', least, MOST_SIDE), ('rows', height, MOST_SIDE),
                            ('stations', 1, (options.columns - 12) // 2 if options.layout == 'kiva' else MOST_POINTS)):
        value = getattr(options, name)
        if not low <= value <= high:
            room = ' (room for one shelf, and parkings around)' if name in ('columns', 'rows') and value < low else ''
            options.refuse(f'--{name} {value}: {low} to {high} can be had{room}')


class Places:
    """The points of a floor, by their names."""

    def __init__(self, options: argparse.Namespace, cells: list[list[str]], chance: random.Random):
        columns, rows = options.columns, options.rows
        self.packing = along_lower_wall(columns, rows, options.stations) if options.layout == 'kiva' else []
        if options.open:
            stations = [(x, y) for y in range(2, rows - 2, 4) for x in range(6, columns - 6, 4)]
        elif options.layout == 'kiva':
            stations = around_shelves(columns, rows, options.shelf)
        elif options.layout == 'aisles':
            stations = along_aisles(columns, rows, options.shelf)
        else:
            stations = beside_shelves(cells, columns, rows)
        chance.shuffle(stations)
        self.stations = stations[:MOST_POINTS - options.agents - len(self.packing)]
        parkings = along_walls(columns, rows, options.layout != 'aisles')
        if len(parkings) < options.agents:
            raise Fault(f'--agents {options.agents}: a floor of {columns} x {rows} has {len(parkings)} parkings')
        self.parkings = parkings[:options.agents]

    def lines(self) -> list[str]:
        named = (('parking P', self.parkings), ('station S', self.stations), ('station C', self.packing))
        return [f'{word}{i} {x} {y}' for word, cells in named for i, (x, y) in enumerate(cells)]

    def stops(self, count: int, chance: random.Random) -> list[str]:
        """The stops of an order, drawn; the last of them is a packing station, where there are any."""
        drawn = [f'S{chance.randrange(len(self.stations))}' for _ in range(count - bool(self.packing))]
        return drawn + [f'C{chance.randrange(len(self.packing))}'] if self.packing else drawn


def script(options: argparse.Namespace, places: Places, chance: random.Random) -> Iterator[str]:
    submitted = 0
    for tick in range(options.ticks):
        if tick % options.every == 0 and submitted < options.tasks:
            count = chance.randint(2, options.stops) if options.stops > 2 else 2
            yield ' '.join([f'submit c{submitted % 5}', *places.stops(count, chance)])
            submitted += 1
        yield from (f'token {agent}' for agent in range(options.agents))
        yield 'tick'


def lines(options: argparse.Namespace) -> Iterator[str]:
    """The lines of the instance that the options name."""
    chance = random.Random(options.seed)
    cells = floor(options)
    places = Places(options, cells, chance)
    yield from ('type octile', f'height {options.rows}', f'width {options.columns}', 'map')
    yield from (''.join(row) for row in cells)
    yield '%%'
    if options.nofollow:
        yield 'rule nofollow'
    yield from places.lines()
    yield from (f'agent P{i}' for i in range(options.agents))
    yield '%%'
    yield from script(options, places, chance)


def run(options: argparse.Namespace) -> int:
    judge_options(options)
    sys.stdout.writelines(f'{line}\n' for line in lines(options))
    return 0
