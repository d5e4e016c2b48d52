"""Vehicles by their reports: where each is, which cells it occupies, and what it has visited.

Which cells a vehicle was granted stands in no file. It follows from the log and the reports by the one rule of grants: a cell is
granted once all that the plan has there earlier have left it, at most `--ahead` steps of the plan beyond the last report. Times are
hundredths of a second since the page's server began.
"""
from __future__ import annotations

from collections import deque
from typing import Any

from ..texts import Cell, Run, passed

MOST_WAITS = 100    # spans in which the clock waited that are kept
Pair = tuple[int, int]


class Vehicles:
    def __init__(self, run: Run, ahead: int, steps: list[int], now: int):
        """They stand where their reports have them; what was before has no times."""
        self.run, self.ahead, self.end = run, ahead, now
        self.base, self.since = run.clock, now
        self.arrived = [min(step, run.clock) for step in steps]
        self.reached = list(self.arrived)
        self.granted: list[deque[int]] = [deque() for _ in steps]     # steps beyond the last report
        self.ticks: list[int] = []
        self.came: list[list[Pair]] = [[(now, step)] for step in self.arrived]
        self.go: list[list[Pair]] = [[] for _ in steps]
        self.tasks: list[deque[int]] = [deque() for _ in steps]       # of each agent, with visits to come
        self.visits: dict[int, list[int]] = {}
        self.held: list[list[int]] = []                               # from when to when the clock waited, for whom
        self.most = 0
        self.new: dict[str, list[list[int]]] = {'go': [], 'came': [], 'visits': []}
        self.settle()

    # ---- what is new

    def take(self, now: int, steps: list[int], ticks: int) -> None:
        """So many ticks, and of each the last step that it has reported."""
        self.end, self.new = now, {'go': [], 'came': [], 'visits': []}
        self.ticks += [now] * ticks
        for agent, step in enumerate(steps):
            if self.arrived[agent] < min(step, self.run.clock):
                self.arrive(agent, min(step, self.run.clock))
        self.settle()

    def arrive(self, agent: int, step: int) -> None:
        last = self.last(agent)
        while (stays := passed(self.run, agent, last, step)) < step:    # it was granted more than the rule had given so far
            last = stays + 1
            self.grant(agent, last)
        while self.granted[agent] and self.granted[agent][0] <= step:
            self.granted[agent].popleft()
        self.arrived[agent], self.reached[agent] = step, max(step, self.reached[agent])
        self.came[agent].append((self.end, step))
        self.new['came'].append([agent, self.end, step])

    def last(self, agent: int) -> int:
        """The last step that it was granted, or where it is."""
        return self.granted[agent][-1] if self.granted[agent] else self.reached[agent]

    def cells(self, agent: int) -> list[Cell]:
        """That it occupies, from where it has arrived."""
        return [self.run.cell_at(agent, step) for step in (self.reached[agent], *self.granted[agent])]

    def meetings(self) -> list[str]:
        """Cells that two vehicles occupy now, which nobody is ever granted."""
        owner: dict[Cell, int] = {}
        return [f'vehicles {other} and {agent} are both granted cell {cell[0]},{cell[1]}' for agent in range(len(self.arrived))
                for cell in self.cells(agent) if (other := owner.setdefault(cell, agent)) != agent]

    def grant(self, agent: int, step: int) -> None:
        self.granted[agent].append(step)
        self.go[agent].append((self.end, step))
        self.new['go'].append([agent, self.end, step])

    def settle(self) -> None:
        """Stays of the plan are passed at once, visits are made, and cells are granted."""
        run, clock = self.run, self.run.clock
        for agent in range(len(self.reached)):
            self.reached[agent] = passed(run, agent, self.reached[agent], clock)
            self.visit(agent)
        late = [agent for agent, behind in enumerate(self.behind()) if behind > 0]
        due: dict[Cell, list[Pair]] = {}
        for agent in late:
            for step in range(self.reached[agent], clock + 1):
                due.setdefault(run.cell_at(agent, step), []).append((step, agent))
        for agent in late:
            most = min(clock, self.reached[agent] + self.ahead)
            while (stays := passed(run, agent, self.last(agent), clock)) < most:
                if any(other != agent and earlier <= stays for earlier, other in due[run.cell_at(agent, stays + 1)]):
                    break
                self.grant(agent, stays + 1)
        self.most = max([self.most, *self.behind()])

    def behind(self) -> list[int]:
        return [self.run.clock - reached for reached in self.reached]

    def plan(self, agent: int, number: int) -> None:
        """It is to visit that task's stops, behind those that it has to visit already."""
        self.tasks[agent].append(number)
        self.visit(agent)

    def visit(self, agent: int) -> None:
        while self.tasks[agent]:
            number = self.tasks[agent][0]
            planned, made = self.run.tasks[number].visits, self.visits.setdefault(number, [])
            while len(made) < len(planned) and planned[len(made)] <= self.reached[agent]:
                self.new['visits'].append([number, self.end, len(made)])
                made.append(self.end)
            if len(made) < len(planned):
                return
            self.tasks[agent].popleft()

    def is_done(self, number: int) -> bool:
        return len(self.visits.get(number, ())) == len(self.run.tasks[number].stops)

    def hold(self, behind: int) -> int | None:
        """The vehicle for which the clock waits: the one furthest behind, where that is so many steps."""
        steps = self.behind()
        worst = steps.index(max(steps))
        waits = self.held[-1] if self.held and self.held[-1][1] < 0 else None
        if waits and (steps[worst] < behind or waits[2] != worst):
            waits[1], waits = self.end, None
        if steps[worst] < behind:
            return None
        if not waits:
            self.held = [*self.held[1 - MOST_WAITS:], [self.end, -1, worst]]
        return worst

    # ---- what a page has of it

    def first(self) -> int:
        """The clock from which a page needs the plan."""
        return min(self.base, *(came[0][1] for came in self.came))

    def drop(self, since: int) -> None:
        """Forgets what was before that moment, but for where each vehicle was then."""
        if since <= self.since:
            return
        self.since = since
        older = sum(tick <= since for tick in self.ticks)
        self.base += older
        del self.ticks[:older]
        for agent, came in enumerate(self.came):
            del came[:max(0, sum(second <= since for second, _ in came) - 1)]
            came[0] = (came[0][0], passed(self.run, agent, came[0][1], self.base))    # stays are passed: no older path is needed
            self.go[agent] = [(second, step) for second, step in self.go[agent] if step > came[0][1]]

    def forget(self, tasks: set[int]) -> None:
        for number in tasks:
            self.visits.pop(number, None)

    def begun(self, tasks: list[int]) -> dict[str, Any]:
        """From `since` on, counted from there."""
        def after(pairs: list[Pair]) -> list[list[int]]:
            return [[max(0, second - self.since), step] for second, step in pairs]
        return {'since': self.since, 'base': self.base, 'end': self.end - self.since, 'ticks': [tick - self.since for tick in self.ticks],
                'go': [after(go) for go in self.go], 'at': [after(came) for came in self.came], 'most': self.most, 'meetings': [],
                'held': [[begin - self.since, end - self.since if end >= 0 else -1, agent] for begin, end, agent in self.held],
                'visits': [[max(0, second - self.since) for second in self.visits.get(number, [])] for number in tasks]}

    def news(self, ticks: int) -> dict[str, Any]:
        return {'end': self.end, 'ticks': self.ticks[len(self.ticks) - ticks:], 'held': self.held[-3:], 'most': self.most, **self.new}
