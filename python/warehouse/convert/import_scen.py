"""Makes an instance from a MovingAI map and a scenario file of it: starts become parkings, goals stations.

    import-scen MAP SCEN --agents 20 > INSTANCE

SCEN is `version 1` and then lines of nine words: bucket, map, width, height, start x and y, goal x and y, optimal length.
The first N lines that fit are taken. A line does not fit where its start or goal is a cell that a line before has taken,
or both are one cell: a cell has at most one point here. How many were left out is said on standard error. Line I gives
`parking PI` with an agent, `station SI`, and a task `submit scen SI SI`: be at that goal once.

What this can mean, and what it cannot:
- A scenario gives each agent its own goal. Here nobody can: by Token Passing the agents that have ended their paths take
  tasks in turn, each the nearest that it may, so agent I need not go to goal I. It is the problem with goals that any
  agent may serve, solved online. Optimal lengths and costs of the scenario cannot be compared with it.
- An agent that has been at a goal is free again, takes another task, or rests or parks where it is not in the way. So
  not all agents stand at goals at the end.
- Scenarios are made with no thought of well-formed instances: points may cut others off. `./warehouse check` says
  whether it is well-formed; where it is not, requests may be `refused E6` for ever, and tasks stay open.

The map is passed on as it is, with a last LF where it has none. A map of another shape, a scenario of another shape, of
another map's sides, or with a cell that is outside or blocked is refused with its line, more than 256 agents with the
count, and the status is 2. The script has no `token` and no `tick`: `replay --deliver` makes them.
"""
from __future__ import annotations

import argparse
import re
import sys

from ..texts import MOST_AGENTS, PASSABLE, Cell, Fault, lines_of, read_file, read_map

Pair = tuple[Cell, Cell]


def read_pair(path: str, number: int, line: str, rows: list[str]) -> Pair:
    """Start and goal of one line."""
    words = line.split()
    if len(words) != 9 or not all(re.fullmatch('[0-9]{1,9}', word) for word in words[2:8]):
        raise Fault('bucket, map, width, height, start x and y, goal x and y, length wanted', path, number)
    width, height, *places = map(int, words[2:8])
    if (width, height) != (len(rows[0]), len(rows)):
        raise Fault(f'a map of {width} x {height}, and this one has {len(rows[0])} x {len(rows)}', path, number)
    start, goal = (places[0], places[1]), (places[2], places[3])
    for x, y in (start, goal):
        if x >= width or y >= height or rows[y][x] not in PASSABLE:
            raise Fault(f'the cell {x},{y} is outside the map or blocked', path, number)
    return start, goal


def fitting(path: str, lines: list[str], rows: list[str], agents: int) -> tuple[list[Pair], int]:
    """The first pairs whose cells are all different, and how many lines were left out for them."""
    pairs: list[Pair] = []
    taken: set[Cell] = set()
    left_out = 0
    for number, line in enumerate(lines[1:], 2):
        if len(pairs) == agents:
            break
        if not line.strip():
            continue
        pair = read_pair(path, number, line, rows)
        if pair[0] == pair[1] or taken & set(pair):
            left_out += 1
            continue
        taken |= set(pair)
        pairs.append(pair)
    return pairs, left_out


def add_options(parser: argparse.ArgumentParser) -> None:
    parser.add_argument('map', metavar='MAP')
    parser.add_argument('scen', metavar='SCEN')
    parser.add_argument('--agents', type=int, metavar='N', required=True, help='take the first N lines that fit')


def run(options: argparse.Namespace) -> int:
    if not 1 <= options.agents <= MOST_AGENTS:
        raise Fault(f'--agents {options.agents}: 1 to {MOST_AGENTS} can be run')
    level = read_file(options.map)
    rows = read_map(options.map, lines_of(level))
    lines = lines_of(read_file(options.scen))
    if not lines or not re.fullmatch(r'version\s+1(\.0)?\s*', lines[0]):
        raise Fault('`version 1` wanted', options.scen, 1)
    pairs, left_out = fitting(options.scen, lines, rows, options.agents)
    if len(pairs) < options.agents:
        raise Fault(f'{options.agents} agents wanted, and {len(pairs)} of its lines fit', options.scen)
    if left_out:
        print(f'{options.prog}: {left_out} lines left out, whose start or goal was taken', file=sys.stderr)
    points = [f'parking P{number} {start[0]} {start[1]}\nstation S{number} {goal[0]} {goal[1]}\n'
              for number, (start, goal) in enumerate(pairs)]
    agents = [f'agent P{number}\n' for number in range(options.agents)]
    script = [f'# @0\nsubmit scen S{number} S{number}\n' for number in range(options.agents)]
    made = ''.join(['%%\n', *points, *agents, '%%\n', *script])
    sys.stdout.buffer.write((level if level.endswith(b'\n') else level + b'\n') + made.encode('ascii'))
    return 0
