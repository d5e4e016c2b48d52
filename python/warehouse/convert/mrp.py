"""libMultiRobotPlanning's files (YAML): a map with its agents' starts and goals, and a schedule.

Written from knowledge of the format, not checked against its text. A map is `map: dimensions: [WIDTH, HEIGHT]`, `obstacles: [X, Y]`
each, and `agents` with `name`, `start`, `goal`; a schedule has of each agent `x`, `y`, `t`, and an agent that has come to its goal stays.
"""
from __future__ import annotations

from dataclasses import dataclass
from typing import Any

from ..texts import MOST_SIDE, Cell, Fault, Run
from .block_yaml import read_yaml
from .plans import Grid, Plan, grid_of, plan_of


@dataclass
class Site:
    """A map, and of each agent its name, start and goal."""
    grid: Grid
    names: list[str]
    starts: list[Cell]
    goals: list[Cell]


def map_text(run: Run) -> str:
    """The map of a run, each agent with the cells where it began and ended."""
    plan, grid = plan_of(run), grid_of(run)
    cells = [(x, y) for y in range(grid.height) for x in range(grid.width)]
    walls = [f'  - [{cell[0]}, {cell[1]}]' for cell in cells if not grid.is_passable(cell)]
    lines = ['agents:']
    for agent, path in enumerate(plan.paths):
        start, goal = (f'[{cell[0]}, {cell[1]}]' for cell in (path[0], path[-1]))
        lines += [f'- name: agent{agent}', f'  start: {start}', f'  goal: {goal}']
    lines += ['map:', f'  dimensions: [{grid.width}, {grid.height}]', *(['  obstacles:', *walls] if walls else ['  obstacles: []'])]
    return '\n'.join(lines) + '\n'


def schedule_text(run: Run) -> str:
    """The schedule of a run. Its cost is the number of moves."""
    plan = plan_of(run)
    moves = sum(one != other for path in plan.paths for one, other in zip(path, path[1:]))
    lines = ['statistics:', f'  cost: {moves}', f'  makespan: {plan.makespan}', 'schedule:']
    for agent, path in enumerate(plan.paths):
        lines.append(f'  agent{agent}:')
        for time, cell in enumerate(path):
            lines += [f'    - x: {cell[0]}', f'      y: {cell[1]}', f'      t: {time}']
    return '\n'.join(lines) + '\n'


def cell_in(name: str, value: Any, what: str) -> Cell:
    if isinstance(value, list) and len(value) == 2 and all(isinstance(side, int) and side >= 0 for side in value):
        return value[0], value[1]
    raise Fault(f'{what} is no cell [X, Y]', name)


def field_of(name: str, value: Any, key: str, kind: type, where: str) -> Any:
    """What a map has under a key. Raises Fault where it is missing, or of another kind."""
    if not isinstance(value, dict) or not isinstance(value.get(key), kind):
        raise Fault(f'{where} has no {key}, or one of another form', name)
    return value[key]


def read_map_file(name: str, data: bytes) -> Site:
    """A map. Raises Fault."""
    value = read_yaml(name, data)
    floor = field_of(name, value, 'map', dict, 'the file')
    width, height = cell_in(name, floor.get('dimensions'), 'dimensions of the map')
    if not (1 <= width <= MOST_SIDE and 1 <= height <= MOST_SIDE):
        raise Fault(f'a map of {width} x {height}; sides from 1 to {MOST_SIDE} can be', name)
    walls = {cell_in(name, cell, f'obstacle {number}') for number, cell in enumerate(floor.get('obstacles') or [])}
    site = Site(Grid(width, height, walls), [], [], [])
    for number, agent in enumerate(field_of(name, value, 'agents', list, 'the file')):
        site.names.append(str(field_of(name, agent, 'name', str, f'agent {number}')))
        site.starts.append(cell_in(name, agent.get('start'), f'the start of {site.names[-1]}'))
        site.goals.append(cell_in(name, agent.get('goal'), f'the goal of {site.names[-1]}'))
        for cell in (site.starts[-1], site.goals[-1]):
            if not site.grid.is_passable(cell):
                raise Fault(f'{site.names[-1]} has the cell {cell[0]},{cell[1]}, outside the map or an obstacle', name)
    for kind, cells in (('start', site.starts), ('goal', site.goals)):
        if len(set(cells)) < len(cells):
            raise Fault(f'two agents have one {kind}', name)
    return site


def read_schedule(name: str, data: bytes, names: list[str]) -> Plan:
    """A schedule of agents of these names; each stays where its own ends. Raises Fault."""
    schedule = field_of(name, read_yaml(name, data), 'schedule', dict, 'the file')
    if set(schedule) != set(names):
        raise Fault('its agents are not those of the map', name)
    paths: list[list[Cell]] = []
    for agent in names:
        rows = field_of(name, schedule, agent, list, 'the schedule')
        path: list[Cell] = []
        for row in rows:
            match row:
                case {'x': int(x), 'y': int(y), 't': int(time)} if time >= len(path) and (path or time == 0):
                    path += [path[-1] if path else (x, y)] * (time - len(path)) + [(x, y)]
                case _:
                    raise Fault(f'`{str(row)[:40]}` of {agent} is no x, y and t that goes on', name)
        paths.append(path)
    last = max(map(len, paths))
    return Plan([path + [path[-1]] * (last - len(path)) for path in paths])
