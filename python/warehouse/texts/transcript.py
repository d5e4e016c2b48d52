"""Transcripts of `replay --vehicles`: how vehicles carried out a plan late.

A transcript has the lines that the program wrote, each behind the second at which it came: `12.350 go 3 14 20,7`. Such
a line makes `drive --late SEED --transcript FILE`, or `ts -s %.s` behind the program. Lines that tell nothing of
clock or vehicles are skipped, and what follows a line `%%` is not read.

A vehicle occupies the cells from the step where it has arrived to the last that it was told; where it is told into a cell
that another occupies, the two *meet*. Of a log that begins with a state the program counts steps from the state's clock; here they are clocks
of the plan. Whatever else does not fit the log is a `Fault` with its line.
"""
from __future__ import annotations

import bisect
import dataclasses
import re
from dataclasses import dataclass, field

from .instance import Cell
from .lines import Fault, lines_of, number_of
from .run import Run, Task

NUMBERS = {'clock': 1, 'go': 4, 'arrived': 2, 'visited': 3, 'held': 2}    # that are read of a line; `held` is `refused V1`
OTHER_RUN = 'is this the transcript of another run?'


@dataclass
class Meeting:
    second: float
    agent: int
    other: int
    cell: Cell

    def __str__(self) -> str:
        return (f'second {self.second:g}: vehicle {self.agent} is told into {self.cell[0]},{self.cell[1]}, '
                f'which vehicle {self.other} occupies')


@dataclass
class State:
    behind: int               # steps behind its plan
    last: int                 # the last step that it was told, or where it is
    cells: list[Cell]    # that it occupies, from where it is


@dataclass
class Execution:
    """What a transcript tells: seconds, and of each vehicle its steps in their order, as clocks of the plan."""
    run: Run
    end: float = 0.0
    ticks: list[float] = field(default_factory=list)                        # when the clock came to 1, 2, .. from the log's first
    told: list[list[tuple[float, int]]] = field(default_factory=list)       # each step that leads away, as it is told
    came: list[list[tuple[float, int]]] = field(default_factory=list)       # each arrival that was not known before
    visits: list[list[tuple[float, int]]] = field(default_factory=list)     # of each task, with the agent
    held: list[tuple[float, int]] = field(default_factory=list)             # ticks refused, and for whom
    meetings: list[Meeting] = field(default_factory=list)
    marks: list[tuple[list[int], list[int]]] = field(default_factory=list)  # before each tick, how many arrived and told
    most_behind: int = 0

    @property
    def clock(self) -> int:
        return self.run.start + len(self.ticks)

    def second(self, clock: int) -> float:
        """The last moment of a clock: before the next tick, or the transcript's end."""
        return self.ticks[clock - self.run.start] if clock < self.clock else self.end

    def state(self, agent: int, clock: int) -> State:
        """As the vehicle is when that clock ends."""
        arrived, told = self.came[agent], self.told[agent]
        if clock < self.clock:
            most, told_most = self.marks[clock - self.run.start]
            arrived, told = arrived[:most[agent]], told[:told_most[agent]]
        came = arrived[-1][1] if arrived else self.run.start
        step = passed(self.run, agent, came, clock)
        ahead = [further for _, further in told[bisect.bisect_right(told, came, key=lambda pair: pair[1]):]]
        return State(clock - step, ahead[-1] if ahead else step, [self.run.cell_at(agent, further) for further in [came, *ahead]])

    def tasks(self) -> list[Task]:
        """The log's tasks, with the clocks at which vehicles made their visits."""
        return [dataclasses.replace(task, visits=[self.run.start + bisect.bisect_right(self.ticks, second) for second, _ in visits])
                for task, visits in zip(self.run.tasks, self.visits)]


def passed(run: Run, agent: int, step: int, clock: int) -> int:
    """The step of a vehicle that has come to this one: the plan's stays that follow are passed at once."""
    paths = run.paths[agent]
    i = bisect.bisect_right(paths, step, key=lambda path: path.clock) - 1
    while step < clock:
        path, next_clock = paths[i], paths[i + 1].clock if i + 1 < len(paths) else clock
        if step >= next_clock and i + 1 < len(paths):
            i += 1
        elif step - path.clock >= len(path.cells) - 1:
            step = min(clock, next_clock)
        elif path.cells[step - path.clock] == path.cells[step + 1 - path.clock]:
            step += 1
        else:
            break
    return step


def read_transcript(run: Run, name: str, data: bytes) -> Execution:
    if run.start != 0 and not run.front:
        raise Fault(f'the log begins at clock {run.start}, and with no state', name)
    reader = Reader(run, name)
    for line in lines_of(data):
        reader.line += 1
        if not reader.read(line):
            break
    if not reader.found.ticks:
        raise Fault(f'no line `SECONDS clock {run.start + 1} ..` is in it', name)
    return reader.found


class Reader:
    def __init__(self, run: Run, name: str):
        self.run, self.name, self.line = run, name, 0
        agents = range(len(run.paths))
        self.found = Execution(run, told=[[] for _ in agents], came=[[] for _ in agents], visits=[[] for _ in run.tasks])
        self.reached, self.told = [run.start for _ in agents], [run.start for _ in agents]
        self.by_cell: dict[Cell, list[int]] = {}
        self.cells = [[run.cell_at(agent, run.start)] for agent in agents]    # that each occupies, in order
        for agent in agents:
            self.by_cell.setdefault(self.cells[agent][0], []).append(agent)

    def fault(self, words: str, other_run: bool = True) -> Fault:
        return Fault(f'{words}; {OTHER_RUN}' if other_run else words, self.name, self.line)

    def read(self, line: str) -> bool:
        """Takes a line; whether more may follow."""
        time, _, text = line.partition(' ')
        if not re.fullmatch(r'\d{1,9}(\.\d{1,9})?', time):
            raise self.fault(f'`{line[:40]}` does not begin with a second', False)
        if float(time) < self.found.end:
            raise self.fault(f'the second {time} stands behind {self.found.end:g}', False)
        self.found.end = float(time)
        if text == '%%':
            return False
        kind, _, rest = ('held ' + text.removeprefix('refused V1 ') if text.startswith('refused V1 ') else text).partition(' ')
        if kind in NUMBERS:
            self.take(kind, text, [number_of(word) for word in rest.replace(',', ' ').split(' ')])
        return True

    def take(self, kind: str, text: str, numbers: list[int | None]) -> None:
        due = numbers[:1] if kind == 'clock' else numbers    # the counts are the log's affair
        values = [value for value in due if value is not None]
        if len(values) != len(due) or len(values) != NUMBERS[kind]:
            raise self.fault(f'`{text[:40]}` is no line of `replay --vehicles`', False)
        if kind != 'clock' and values[0] >= len(self.told):
            raise self.fault(f'there is no agent {values[0]}')
        if kind in ('go', 'arrived'):
            values[1] += self.run.start
        getattr(self, kind)(*values)

    def settle(self, agent: int) -> None:
        self.reached[agent] = passed(self.run, agent, self.reached[agent], self.found.clock)
        self.told[agent] = max(self.told[agent], self.reached[agent])

    def clock(self, clock: int) -> None:
        found = self.found
        if clock != found.clock + 1 or clock > self.run.clock:
            raise self.fault(f'the clock goes from {found.clock} to {clock}, and that of the log to {self.run.clock}')
        found.marks.append(([len(steps) for steps in found.came], [len(steps) for steps in found.told]))
        found.ticks.append(found.end)
        for agent in range(len(self.told)):
            self.settle(agent)
        found.most_behind = max(found.most_behind, clock - min(self.reached))

    def go(self, agent: int, step: int, x: int, y: int) -> None:
        place, cell = self.run.cell_at, (x, y)
        if not self.told[agent] < step <= self.found.clock:
            raise self.fault(f'agent {agent} is told step {step} behind {self.told[agent]}, at clock {self.found.clock}')
        if place(agent, step) != cell or cell == self.cells[agent][-1] or passed(self.run, agent, self.told[agent], step - 1) != step - 1:
            raise self.fault(f'step {step} of agent {agent} is not to {x},{y} by the log')
        others = self.by_cell.setdefault(cell, [])
        self.found.meetings += [Meeting(self.found.end, agent, other, cell) for other in others if other != agent]
        others.append(agent)
        self.cells[agent].append(cell)
        self.found.told[agent].append((self.found.end, step))
        self.told[agent] = step

    def arrived(self, agent: int, step: int) -> None:
        if step > self.told[agent]:
            raise self.fault(f'agent {agent} has arrived at step {step}, and was told {self.told[agent]}')
        if step <= self.reached[agent]:
            return    # known before
        kept = 1 + sum(told > step for _, told in self.found.told[agent][-len(self.cells[agent]):])
        while len(self.cells[agent]) > kept:
            self.by_cell[self.cells[agent].pop(0)].remove(agent)
        self.found.came[agent].append((self.found.end, step))
        self.reached[agent] = step
        self.settle(agent)

    def visited(self, agent: int, task: int, number: int) -> None:
        if task >= len(self.run.tasks) or self.run.tasks[task].agent != agent or number != len(self.found.visits[task]):
            raise self.fault(f'visit {number} of task {task} is not the next of agent {agent}')
        visits = self.run.tasks[task].visits
        if number >= len(visits) or visits[number] > self.reached[agent]:
            raise self.fault(f'vehicle {agent} has not come to stop {number} of task {task}')
        self.found.visits[task].append((self.found.end, agent))

    def held(self, agent: int, steps: int) -> None:
        if self.found.clock - self.reached[agent] != steps:
            raise self.fault(f'agent {agent} is {self.found.clock - self.reached[agent]} steps behind, and not {steps}')
        self.found.held.append((self.found.end, agent))
