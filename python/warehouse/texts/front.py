"""Fronts: the state with which the run of a log of version 3 begins, read line by line.

    wlog 3
    after 0                                      or the log before: its number, its bytes and their sum
    rules ends homes age 600                     no line where both are the defaults
    state 11 open edited
    entries 0:12 63:400
    agents 2
    agent slots 4 path 3,1 3,2                   of each agent the path from now on
    agent slots 4 path 4,1
    tasks 2
    task 0 x 0 agent 0 visits 5 stops 1,0 7,0    its caller, client, clock of submission, who has it, its visits so far, its stops
    task 0 x 3 open stops 4,0 3,2
    begin

A path may begin and end anywhere, and need not lead through the stops that are left of its agent's task. Whether agents meet is not
looked at: `warehouse verify` judges a state.
"""
from __future__ import annotations

import re
from dataclasses import replace
from typing import Callable

from .instance import MOST_TASKS, Cell, Point
from .lines import Fault, number_of
from .run import OTHER_PAIR, Front, Path, Run, Task, along

MOST_CALLER = 63
SUM = re.compile(r'[0-9a-f]{64}')
CELL = re.compile(r'([0-9]{1,5}),([0-9]{1,5})')
NAME = re.compile(r'[A-Za-z0-9_-]{1,16}')
COUNT = re.compile(r'[0-9]{1,2}:[1-9][0-9]*')
GONE = 'gone'    # the kind of a point that the instance has not: a task that was done stopped there


class FrontReader:
    """Takes the lines behind `wlog 3` into a run, up to `begin`. `fault` makes a Fault of a sentence, and `cells_of` the cells of an
    agent's path of its words."""

    def __init__(self, run: Run, fault: Callable[[str], Fault], cells_of: Callable[[int, list[str]], list[Cell]]):
        self.run, self.fault, self.cells_of, self.front = run, fault, cells_of, Front()
        self.due: tuple[str, ...] = ('after',)    # the words with which the next line may begin
        self.agents = self.tasks = 0              # how many there are to be
        self.paths: list[list[Cell]] = []
        self.own: dict[int, int] = {}             # of each agent the task that it has, with stops left
        self.points = {point.cell: number for number, point in enumerate(run.instance.points)}

    @property
    def is_done(self) -> bool:
        return not self.due

    def read(self, line: str) -> None:
        word, *words = line.split(' ')
        if word not in self.due or not getattr(self, 'on_' + word)(words):
            raise self.fault(f'`{line[:60]}` is no line of a state, or not the next one')

    # Each of these takes the words of a line behind its first, and says whether they are of the format.

    def on_after(self, words: list[str]) -> bool:
        self.due, self.run.front = ('rules', 'state'), self.front
        if words == ['0']:
            return True
        if len(words) != 3 or not all(word.isdecimal() for word in words[:2]) or not SUM.fullmatch(words[2]):
            return False
        self.front.after, self.front.size, self.front.sum = int(words[0]), int(words[1]), words[2]
        return True

    def on_rules(self, words: list[str]) -> bool:
        self.due = ('state',)
        self.run.homes = words[:2] == ['ends', 'homes']
        rest = words[2:] if self.run.homes else words
        self.run.age = number_of(rest[1]) if len(rest) == 2 and rest[0] == 'age' else None
        return (self.run.homes or self.run.age is not None) and len(rest) == 2 * (self.run.age is not None)

    def on_state(self, words: list[str]) -> bool:
        clock = number_of(words[0]) if len(words) == 3 else None
        if clock is None or words[1] not in ('open', 'closed') or words[2] not in ('whole', 'stopped', 'edited'):
            return False
        self.due, run = ('entries',), self.run
        run.start, run.clock, self.front.kind = clock, clock, words[2]
        run.closed, run.homes = words[1] == 'closed', bool(run.homes)
        return True

    def on_entries(self, words: list[str]) -> bool:
        self.due = ('agents',)
        callers = [int(word.split(':')[0]) for word in words if COUNT.fullmatch(word)]
        self.run.earlier = sum(int(word.split(':')[1]) for word in words if COUNT.fullmatch(word))
        return len(callers) == len(words) and callers == sorted(set(callers)) and all(caller <= MOST_CALLER for caller in callers)

    def on_agents(self, words: list[str]) -> bool:
        agents, there = number_of(words[0]) if len(words) == 1 else None, len(self.run.instance.starts)
        if agents is None:
            return False
        if agents != there:
            raise self.fault(f'the log has {agents} agents, the instance {there}; {OTHER_PAIR}')
        self.agents, self.due = agents, ('agent',)
        return True

    def on_agent(self, words: list[str]) -> bool:
        if len(words) < 4 or words[::2][:2] != ['slots', 'path'] or not words[1].isdecimal():
            return False
        self.paths.append(self.cells_of(len(self.paths), words[3:]))
        self.due = ('agent',) if len(self.paths) < self.agents else ('tasks',)
        return True

    def on_tasks(self, words: list[str]) -> bool:
        tasks = number_of(words[0], MOST_TASKS) if len(words) == 1 else None
        self.tasks, self.due = tasks or 0, ('task',) if tasks else ('begin',)
        self.run.tasks = []
        return tasks is not None

    def on_task(self, words: list[str]) -> bool:
        if len(words) < 5 or 'stops' not in words[4:]:
            return False
        at = words.index('stops', 4)
        caller, client, submitted = number_of(words[0], MOST_CALLER), words[1], number_of(words[2])
        who, stops = words[3:at], [self.cell_of(word) for word in words[at + 1:]]
        agent = number_of(who[1]) if who[0] == 'agent' and len(who) > 1 else None
        visits = [number_of(word) for word in who[3:]]
        if caller is None or submitted is None or not NAME.fullmatch(client) or not 2 <= len(stops) <= 8 or len(visits) > len(stops):
            return False
        if who != ['open'] and (agent is None or who[2:3] != ['visits'] * bool(visits) or None in visits):
            return False
        self.add(Task(client, [], submitted, agent, None, [visit for visit in visits if visit is not None], agent is not None, len(visits)), stops)
        self.due = ('task',) if len(self.run.tasks) < self.tasks else ('begin',)
        return True

    def cell_of(self, word: str) -> Cell:
        found = CELL.fullmatch(word)
        if not found:
            raise self.fault(f'`{word[:20]}` is no cell')
        return int(found[1]), int(found[2])

    def add(self, task: Task, stops: list[Cell]) -> None:
        """Takes a task, judged over what was read before."""
        run, number, is_left = self.run, len(self.run.tasks), task.before < len(stops)
        clocks = [task.submitted, *task.visits, run.start]
        if clocks != sorted(clocks):
            raise self.fault(f'the clocks of task {number} are out of order, or later than that of the state')
        if task.agent is not None:
            if task.agent >= self.agents:
                raise self.fault(f'there is no agent {task.agent}; {OTHER_PAIR}')
            if is_left and self.own.setdefault(task.agent, number) != number:
                raise self.fault(f'agent {task.agent} has task {self.own[task.agent]} already')
            task.taken = run.start
        task.stops = [self.stop_at(cell, is_left) for cell in stops]
        run.tasks.append(task)

    def stop_at(self, cell: Cell, is_left: bool) -> int:
        """The number of the point at a cell; of a task that is done it may have gone."""
        points = self.run.instance.points
        if is_left and (cell not in self.points or points[self.points[cell]].kind != 'station'):
            raise self.fault(f'the instance has no station at {cell[0]},{cell[1]}; {OTHER_PAIR}')
        if cell not in self.points:
            self.points[cell] = len(points)
            self.run.instance = replace(self.run.instance, points=[*points, Point(GONE, f'{cell[0]},{cell[1]}', cell)])
        return self.points[cell]

    def on_begin(self, words: list[str]) -> bool:
        """The agents go on their paths, and visit what is left of their tasks where these lead there."""
        self.due = ()
        self.run.paths = [[self.path(agent, cells)] for agent, cells in enumerate(self.paths)]
        self.run.halted = self.own
        return not words

    def path(self, agent: int, cells: list[Cell]) -> Path:
        run, number = self.run, self.own.get(agent)
        if number is None:
            return Path(run.start, cells, point=self.points.get(cells[-1]), served=0 if run.homes else None)
        task = run.tasks[number]
        steps = along([run.instance.points[stop].cell for stop in task.stops[task.before:]], cells)
        task.visits += [run.start + step for step in steps]
        if len(task.visits) < len(task.stops):
            return Path(run.start, cells, task=number)    # it asks for its task again at the path's end
        del self.own[agent]
        return Path(run.start, cells, task=number, served=steps[-1] if run.homes else None)
