"""What the core's replies say of each vehicle, as a vehicle needs it: its legs.

A *leg* is a path that the core has adopted for an agent, without the stays of the plan: its *nodes* are the cells where the vehicle
comes, one after another. Each has the step by which the core knows it; the stops of the leg's task lie at nodes. Where paths go on home
the next path may begin before a leg's end: it is cut there, and none of what is cut off was ever released.
"""
from __future__ import annotations

import bisect
from dataclasses import dataclass, field
from typing import Callable, Iterator

from ..replies import Go, Parked, Reply, Took
from ..texts import Cell


@dataclass
class Leg:
    """A path of one agent, from the path before it. `told` and `came` are nodes: the last that is released, and where the vehicle is."""
    number: int                # of the agent's paths, from 0
    clock: int                 # at which it was taken up
    steps: list[int]           # of each node the step at which the plan comes there
    cells: list[Cell]          # of each node
    task: int | None = None
    visits: list[int] = field(default_factory=list)    # of each stop of the task the node where it is made
    told: int = 0
    came: int = 0
    is_cut: bool = False

    def cut(self, clock: int) -> None:
        """Another path begins at that clock: what is left of this one is never gone."""
        kept = bisect.bisect_right(self.steps, clock)
        self.is_cut = kept < len(self.steps)
        del self.steps[kept:], self.cells[kept:]

    @property
    def last(self) -> int:
        return len(self.cells) - 1

    def visits_at(self, node: int) -> list[int]:
        """The stops that are made at that node."""
        return [visit for visit, at in enumerate(self.visits) if at == node]


def leg_of(number: int, clock: int, cells: tuple[Cell, ...], task: int | None, stops: list[Cell]) -> Leg:
    """The leg of a path that begins at that clock."""
    leg = Leg(number, clock, [], [], task)
    for step, cell in enumerate(cells, clock):
        if not leg.cells or cell != leg.cells[-1]:
            leg.steps.append(step)
            leg.cells.append(cell)
        while len(leg.visits) < len(stops) and cell == stops[len(leg.visits)]:
            leg.visits.append(len(leg.cells) - 1)
    return leg


class Plan:
    """The legs of each agent that are not done yet; `made(task)` says how many visits of a task are made."""

    def __init__(self, starts: list[Cell], stops: Callable[[int], list[Cell]], made: Callable[[int], int]):
        self.stops, self.made = stops, made
        self.legs = [[Leg(0, 0, [0], [start])] for start in starts]
        self.agent_of: dict[int, int] = {}      # of each task that was taken
        self.doing: dict[int, Leg] = {}         # of each task its leg
        self.ended: Callable[[Leg], None] = lambda leg: None    # called where a later leg shows that one was done

    def hear(self, clock: int, command: str, reply: Reply) -> None:
        """Takes up a path that the reply tells."""
        match reply:
            case Took(task, cells, _):
                agent = int(command.split(' ')[1])
                self.agent_of[task] = agent
                self.doing[task] = self.adopt(agent, clock, cells, task, self.stops(task))
            case Parked(_, cells, _):
                self.adopt(int(command.split(' ')[1]), clock, cells, None, [])

    def adopt(self, agent: int, clock: int, cells: tuple[Cell, ...], task: int | None, stops: list[Cell]) -> Leg:
        self.legs[agent][-1].cut(clock)
        leg = leg_of(self.legs[agent][-1].number + 1, clock, cells, task, stops)
        self.legs[agent].append(leg)
        return leg

    def arrived(self, agent: int, step: int) -> None:
        """The vehicle is at that step, or was."""
        legs = self.legs[agent]
        for leg in legs:
            leg.came = max(leg.came, bisect.bisect_right(leg.steps, step) - 1)
            leg.told = max(leg.told, leg.came)
        for place in range(len(legs) - 1, 0, -1):
            if legs[place].came > 0:
                self.drop(agent, place)
                break

    def drop(self, agent: int, count: int) -> None:
        """The first legs are done: the vehicle is on a later one."""
        for leg in self.legs[agent][:count]:
            self.ended(leg)
        del self.legs[agent][:count]

    def told(self, one: Go) -> None:
        """The vehicle may set out for that cell."""
        legs = self.legs[one.agent]
        place = max(bisect.bisect_left(legs, one.step, key=lambda leg: leg.steps[0]) - 1, 0)
        leg = legs[place]
        node = bisect.bisect_left(leg.steps, one.step)
        if node <= leg.last and leg.cells[node] == one.cell:
            leg.told = max(leg.told, node)
            for before in legs[:place]:
                before.told = before.last

    def is_done(self, leg: Leg) -> bool:
        """Whether the vehicle is at the leg's end, and has made all its visits."""
        return leg.came == leg.last and (leg.task is None or self.made(leg.task) >= len(leg.visits))

    def current(self, agent: int) -> Leg | None:
        """The first leg that is not done; None where the vehicle has nothing to do. Those before are forgotten, but the last one."""
        legs = self.legs[agent]
        while len(legs) > 1 and self.is_done(legs[0]):
            legs.pop(0)
        return None if self.is_done(legs[0]) else legs[0]

    def occupied(self, agent: int) -> list[Cell]:
        """The cells where the vehicle may be: where it has arrived, then those that it was told."""
        self.current(agent)
        first, *later = self.legs[agent]
        cells = first.cells[first.came:first.told + 1]
        for leg in later:
            cells += leg.cells[1:leg.told + 1]
        return cells

    def under_way(self) -> Iterator[int]:
        """The agents whose vehicles have something to do."""
        return (agent for agent in range(len(self.legs)) if self.current(agent))
