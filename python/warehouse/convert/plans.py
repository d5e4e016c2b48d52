"""Plans of agents on a grid, as the formats of others tell them, and the rules by which all of them are judged.

At each time an agent is in one passable cell; from one time to the next it stays or goes to a neighbour; no two are in one cell, and no
two exchange cells.
"""
from __future__ import annotations

from dataclasses import dataclass, field
from typing import Container, Sequence

from ..texts import Cell, Fault, Run


@dataclass(frozen=True)
class Visit:
    """That an agent was at stop `number` of a task, from 0, at that time."""
    time: int
    agent: int
    task: int
    number: int


@dataclass
class Grid:
    """Passable cells within a width and a height."""
    width: int
    height: int
    blocked: Container[Cell]

    def is_passable(self, cell: Cell) -> bool:
        return 0 <= cell[0] < self.width and 0 <= cell[1] < self.height and cell not in self.blocked


@dataclass
class Plan:
    """Of each agent its cell at each time from 0 to the last; tasks by their stops, and their visits."""
    paths: list[list[Cell]]
    tasks: list[list[Cell]] = field(default_factory=list)
    visits: list[Visit] = field(default_factory=list)

    @property
    def makespan(self) -> int:
        return max(map(len, self.paths), default=1) - 1


def plan_of(run: Run) -> Plan:
    """The plan that a log tells. Of tasks with which it begins it has the stops that were left; those that were done keep theirs, and have
    no visits."""
    paths = [[run.cell_at(agent, clock) for clock in range(run.start, run.clock + 1)] for agent in range(len(run.paths))]
    tasks = [[run.instance.points[stop].cell for stop in task.stops[0 if task.done_before else task.before:]] for task in run.tasks]
    visits = [Visit(clock - run.start, task.agent, number, k) for number, task in enumerate(run.tasks) if task.agent is not None
              for k, clock in enumerate(task.visits[task.before:])]
    return Plan(paths, tasks, sorted(visits, key=lambda visit: (visit.time, visit.agent, visit.task, visit.number)))


def grid_of(run: Run) -> Grid:
    """The floor of a run."""
    rows = run.instance.rows
    return Grid(run.instance.width, run.instance.height,
                {(x, y) for y in range(len(rows)) for x in range(len(rows[0])) if not run.instance.is_passable((x, y))})


def judge_plan(name: str, grid: Grid | None, plan: Plan) -> None:
    """Raises Fault at the first step that breaks a rule."""
    for agent, path in enumerate(plan.paths):
        if len(path) != plan.makespan + 1:
            raise Fault(f'agent {agent} has {len(path)} times, others {plan.makespan + 1}', name)
    for time in range(plan.makespan + 1):
        judge_time(name, grid, plan.paths, time)
    made = [0] * len(plan.tasks)
    for visit in plan.visits:
        if visit.number != made[visit.task]:
            raise Fault(f'at time {visit.time} stop {visit.number} of task {visit.task} is told, and stop {made[visit.task]} is due', name)
        made[visit.task] += 1
        if plan.paths[visit.agent][visit.time] != plan.tasks[visit.task][visit.number]:
            raise Fault(f'at time {visit.time} agent {visit.agent} is not at stop {visit.number} of task {visit.task}', name)


def judge_time(name: str, grid: Grid | None, paths: Sequence[Sequence[Cell]], time: int) -> None:
    """The cells of one time, and the steps to them."""
    inside: dict[Cell, int] = {}
    for agent, path in enumerate(paths):
        cell = path[time]
        if grid is not None and not grid.is_passable(cell):
            raise Fault(f'at time {time} agent {agent} is in {cell[0]},{cell[1]}, outside or blocked', name)
        if cell in inside:
            raise Fault(f'at time {time} agents {inside[cell]} and {agent} are in {cell[0]},{cell[1]}', name)
        inside[cell] = agent
        if time and abs(cell[0] - path[time - 1][0]) + abs(cell[1] - path[time - 1][1]) > 1:
            raise Fault(f'at time {time} agent {agent} comes to {cell[0]},{cell[1]}, no neighbour of its cell before', name)
    for agent, path in enumerate(paths if time else ()):
        other = inside.get(path[time - 1], agent)
        if other != agent and paths[other][time - 1] == path[time]:
            raise Fault(f'at time {time} agents {agent} and {other} exchange cells', name)
