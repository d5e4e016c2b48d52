"""Makes an instance from the MAPD instances of Ma, Li, Kumar and Koenig (AAMAS 2017): a .map and a .task file.

    import-mapd kiva-20-500-5.map kiva-20-500-5.task > INSTANCE
    import-mapd --agents 10 MAP TASK > INSTANCE

The shape that is read, written down from memory of these files and not from a description:

    MAP     line 1            ROWS,COLUMNS
            line 2            how many task endpoints there are: the cells `e`
            line 3            how many agents there are: the cells `r`
            line 4            a greatest time, which becomes a comment
            then ROWS lines   of COLUMNS letters: `@` blocked, `.` free, `e` task endpoint, `r` an agent's own endpoint
    TASK    line 1            how many tasks there are
            then one line each: release time, pickup, delivery, and two waits, which must be 0: no stop has a wait here;
                              pickup and delivery are numbers of `e` cells in reading order, from 0

Blanks around numbers and empty lines at the end are allowed. What is of another shape is refused with its file and line;
more than 256 agents, 4096 points, 1,000,000 tasks or a side above 4096 with the count. Nothing is written then, and the
status is 2. --agents N takes the first N agents in reading order; the other `r` cells are free floor then.

Task endpoint I becomes `station SI`, agent I's endpoint `parking PI`. Each task is a `submit` with a comment line
`# @T` before it, its release time, in the order of these times. The script has no `token` and no `tick`: that is the
client's part, done by `drive`:

    import-mapd MAP TASK > INSTANCE && drive INSTANCE

Whether the instance is well-formed, `./warehouse check` says.
"""
from __future__ import annotations

import argparse
import re

from ..texts import MOST_AGENTS, MOST_POINTS, MOST_SIDE, MOST_TASKS, Cell, Fault, lines_of, read_file

MOST_CLOCK = 1_000_000_000
Task = tuple[int, int, int]


class Lines:
    """The lines of a file; blank ones at its end do not count."""

    def __init__(self, path: str):
        self.path = path
        self.lines = lines_of(read_file(path))
        while self.lines and not self.lines[-1].strip(' \t'):
            self.lines.pop()

    def fault(self, number: int, why: str) -> Fault:
        return Fault(why, self.path, number)

    def line(self, number: int, what: str) -> str:
        if number > len(self.lines):
            raise self.fault(number, f'missing: {what}')
        return self.lines[number - 1]

    def numbers(self, number: int, count: int, what: str, between: str = r'[ \t]+') -> list[int]:
        words = re.split(between, self.line(number, what).strip(' \t'))
        if len(words) != count or not all(re.fullmatch('[0-9]{1,10}', word) for word in words):
            raise self.fault(number, f'{what} wanted, found {self.lines[number - 1]!r}')
        return [int(word) for word in words]


def read_map(file: Lines) -> tuple[list[str], list[Cell], list[Cell], int]:
    """The rows, the cells `e`, the cells `r`, and the greatest time."""
    rows, columns = file.numbers(1, 2, 'ROWS,COLUMNS', r'[ \t]*,[ \t]*')
    if not 1 <= rows <= MOST_SIDE or not 1 <= columns <= MOST_SIDE:
        raise file.fault(1, f'{rows} rows of {columns} cells: a side is 1 to {MOST_SIDE}')
    endpoints, = file.numbers(2, 1, 'the number of task endpoints')
    agents, = file.numbers(3, 1, 'the number of agents')
    greatest, = file.numbers(4, 1, 'the greatest time')
    found: dict[str, list[Cell]] = {'e': [], 'r': []}
    for y in range(rows):
        row = file.line(y + 5, f'row {y + 1} of {rows}')
        if len(row) != columns:
            raise file.fault(y + 5, f'a row of {len(row)} letters, and line 1 says {columns}')
        for x, letter in enumerate(row):
            if letter not in '@.er':
                raise file.fault(y + 5, f'the letter {letter!r} at place {x + 1} is none of @ . e r')
            if letter in found:
                found[letter].append((x, y))
    if len(file.lines) > rows + 4:
        raise file.fault(rows + 5, f'text after the {rows} rows that line 1 says')
    if len(found['e']) != endpoints:
        raise file.fault(2, f'says {endpoints} task endpoints, and the rows have {len(found["e"])} letters e')
    if len(found['r']) != agents:
        raise file.fault(3, f'says {agents} agents, and the rows have {len(found["r"])} letters r')
    return file.lines[4:], found['e'], found['r'], greatest


def read_tasks(file: Lines, endpoints: int) -> list[Task]:
    """Release time, pickup and delivery of each task, by release time."""
    count, = file.numbers(1, 1, 'the number of tasks')
    if count > MOST_TASKS:
        raise file.fault(1, f'{count} tasks: at most {MOST_TASKS} can be run')
    tasks = []
    for number in range(2, count + 2):
        release, pickup, delivery, *waits = file.numbers(number, 5, 'release time, pickup, delivery, two waits')
        for stop in (pickup, delivery):
            if stop >= endpoints:
                raise file.fault(number, f'endpoint {stop}: the map has 0 to {endpoints - 1}')
        if waits != [0, 0]:
            raise file.fault(number, 'a wait that is not 0: no stop has a wait here')
        if release > MOST_CLOCK:
            raise file.fault(number, f'release time {release}: a clock goes up to {MOST_CLOCK}')
        tasks.append((release, pickup, delivery))
    if len(file.lines) > count + 1:
        raise file.fault(count + 2, f'text after the {count} tasks that line 1 says')
    return sorted(tasks, key=lambda task: task[0])


def add_options(parser: argparse.ArgumentParser) -> None:
    parser.add_argument('map', metavar='MAP')
    parser.add_argument('task', metavar='TASK')
    parser.add_argument('--agents', type=int, metavar='N', help='take the first N agents')


def run(options: argparse.Namespace) -> int:
    rows, endpoints, homes, greatest = read_map(Lines(options.map))
    tasks = read_tasks(Lines(options.task), len(endpoints))
    agents = len(homes) if options.agents is None else options.agents
    if not 1 <= agents <= len(homes):
        raise Fault(f'{agents} agents wanted, and it has {len(homes)}', options.map)
    if agents > MOST_AGENTS:
        raise Fault(f'{agents} agents: at most {MOST_AGENTS} can be run (--agents N takes the first N)', options.map)
    if len(endpoints) + agents > MOST_POINTS:
        raise Fault(f'{len(endpoints)} task endpoints and {agents} agents: at most {MOST_POINTS} points can be had', options.map)
    print(f'type octile\nheight {len(rows)}\nwidth {len(rows[0])}\nmap')
    for row in rows:
        print(row.replace('e', '.').replace('r', '.'))
    print('%%')
    for name, kind, cells in (('P', 'parking', homes[:agents]), ('S', 'station', endpoints)):
        for number, (x, y) in enumerate(cells):
            print(f'{kind} {name}{number} {x} {y}')
    for number in range(agents):
        print(f'agent P{number}')
    print(f'%%\n# the files give {greatest} as the greatest time')
    for release, pickup, delivery in tasks:
        print(f'# @{release}\nsubmit mapd S{pickup} S{delivery}')
    return 0
