"""Where each agent is at each clock, by the full replies of a run alone; a judge for a fleet.

A command with its full reply is an entry of the log, so it is read as a log is, and judged so: a path begins
where the agent stands, each next cell is a neighbour or the same, all are passable, the stops of a task are visited in
turn, and it ends at the last, or in all paths of tasks on at home; one that parks ends at its point. Each tick's counts must be those of the cells, and no step may bring two agents
to one cell, exchange two, or break `rule nofollow`. What is none of that is a `Fault`.
"""
from __future__ import annotations

import collections
import copy
from typing import TextIO

from ..texts import Cell, Fault, Instance, Reader, Run, Task, standing
from ..texts.run import OTHER_PAIR


class Whereabouts(Reader):
    """A run as its replies tell it, up to the last one; its lines are written where that is asked for."""

    def __init__(self, instance: Instance, lines: TextIO | None = None, state: Run | None = None):
        super().__init__(copy.deepcopy(state) if state else standing(instance), '', 0)
        self.lines = lines
        self.stands = [paths[0].cells[0] for paths in self.run.paths]    # at the clock, and while vehicles go, at the next
        # how many tasks have their first, and their last visit at a clock to come
        self.picked: collections.Counter[int] = collections.Counter()
        self.dropped: collections.Counter[int] = collections.Counter()
        for task in self.run.tasks:
            self.expect(task, [visit for visit in task.visits[task.before:] if visit > self.run.clock])
        self.write(self.run.clock)

    def expect(self, task: Task, visits: list[int]) -> None:
        """These visits of the task are to come."""
        self.picked.update(visits[:1] if visits == task.visits else [])
        self.dropped.update(visits[-1:] if len(task.visits) == len(task.stops) else [])

    def fault(self, words: str) -> Fault:
        return Fault(words.removesuffix('; ' + OTHER_PAIR))

    def hear(self, line: str, reply: str) -> None:
        """Takes in a command and its reply."""
        self.entry(f'0 {" ".join(line.split())} = {reply}')

    def adopt(self, caller: int, agent: int, reply: list[str], cells: list[Cell]) -> None:
        own = self.run.halted.get(agent)
        had = 0 if own is None else len(self.run.tasks[own].visits)
        super().adopt(caller, agent, reply, cells)
        path = self.run.paths[agent][-1]
        if path.task is not None:
            task = self.run.tasks[path.task]
            last = self.run.instance.points[task.stops[-1]]
            if path.point is None and path.served is None and cells[-1] != last.cell:
                raise self.fault(f'the path of agent {agent} ends neither at {last.name}, the last stop of its task {path.task}, nor where it started')
            # a visit made as the path is taken stands in no tick's counts, and no tick comes to that clock
            self.expect(task, task.visits[had:])

    def on_tick(self, caller: int, words: list[str], reply: list[str]) -> bool:
        if not super().on_tick(caller, words, reply):
            return False
        clock = self.run.clock
        found = self.picked.pop(clock, 0), self.dropped.pop(clock, 0)
        if self.run.counts[-1] != found:
            raise self.fault(f'the cells give {found[0]} picked and {found[1]} dropped')
        return True

    def step(self) -> None:
        """The vehicles go to the cells of the next clock; the tick is due when they are there."""
        clock = self.run.clock + 1
        cells = [paths[-1].at(clock) for paths in self.run.paths]
        self.judge(clock, cells)
        self.stands = cells
        self.write(clock)

    def judge(self, clock: int, cells: list[Cell]) -> None:
        """Whether the agents may go from their cells to these."""
        before = {cell: agent for agent, cell in enumerate(self.stands)}
        after: dict[Cell, int] = {}
        for agent, cell in enumerate(cells):
            other, there = after.setdefault(cell, agent), before.get(cell, agent)
            if other != agent:
                raise self.fault(f'agents {other} and {agent} would both be at {cell[0]},{cell[1]} at clock {clock}')
            if there != agent and cells[there] == self.stands[agent]:
                raise self.fault(f'agents {min(agent, there)} and {max(agent, there)} would exchange cells at clock {clock}')
            if there != agent and self.run.instance.nofollow:
                raise self.fault(f'agent {agent} would follow agent {there} to {cell[0]},{cell[1]} at clock {clock}')

    def write(self, clock: int) -> None:
        if self.lines is not None:
            # flushed, for who moves vehicles by it
            print(clock, *(f'{x},{y}' for x, y in self.stands), file=self.lines, flush=True)
