"""A run as its files tell it while it grows: the log, and beside it the vehicles' reports in `FILE.at`.

`Follower.look()` takes in what is new and gives it as the player takes it (`add` of player.js); `begun()` gives the last minutes as
a run (`load`).
"""
from __future__ import annotations

import bisect
import time
from collections import deque
from typing import Any

from ..texts import Fault, Instance, Reader, Run, read_arrivals, standing
from .data import floor_of, front_of, task_of, way_of
from .reports import Vehicles
from .tail import Tail

WINDOW = 600    # clocks, or with vehicles seconds, that a page has when it is opened
EVERY = 64      # clocks after which what is older is dropped


class Follower:
    """The run of a log that grows. Where all begins anew, as with a log that was cut or replaced, `number` goes up."""

    def __init__(self, instance: Instance, title: str, log: str, ahead: int = 1):
        self.instance, self.title, self.name, self.ahead = instance, title, log, ahead
        self.began, self.number = time.monotonic(), 0
        self.out: list[int] = []    # agents that are out of use in this run
        self.wrong = ''             # why this log is not the one that should follow, or ''
        self.forget()

    def forget(self) -> None:
        self.log, self.reports = Tail(self.name, end=True), Tail(self.name + '.at')
        self.reader = Reader(standing(self.instance), self.name, 0)
        self.vehicles: Vehicles | None = None
        self.fault, self.unread, self.is_new, self.dropped = '', '', True, 0
        self.steps = [0] * len(self.instance.starts)            # by the reports
        self.events: list[tuple[Any, ...]] = []
        self.kept: list[int] = []                               # tasks that a page may need
        self.coming: dict[int, list[tuple[int, int]]] = {}      # of a clock the visits that the plan makes then
        self.planned: dict[int, int] = {}                       # of tasks whose paths do not lead through all stops, how many these are
        self.served: deque[tuple[int, int]] = deque(maxlen=10_000)    # deliveries: when, and ticks since the order came in
        self.missing: deque[int] = deque(maxlen=10_000)         # when E6 came
        self.resting: set[bytes] = set()                        # agents that were answered `rested` since the last change
        self.done = self.moved = 0

    @property
    def run(self) -> Run:
        return self.reader.run

    def now(self) -> int:
        """Hundredths of a second since the page's server began."""
        return round(100 * (time.monotonic() - self.began))

    # ---- what is new

    def look(self) -> dict[str, Any] | None:
        """What is new for those who have the rest, or None."""
        try:
            reports = self.reports.look()    # first: the log has all that a report is about
            lines = self.log.look()
        except OSError as error:
            self.unread = f'{error.filename}: {error.strerror}'
            return None
        self.unread = ''
        if lines is None or reports is None or (self.reports.is_there and not self.vehicles and not self.is_new):
            self.forget()
            self.number += 1
            return None
        if self.fault or not (lines or reports):
            return None
        clock, tasks, had = self.run.clock, len(self.run.tasks), [len(paths) for paths in self.run.paths]
        try:
            self.read(lines)
            data = b''.join(line + b'\n' for line in reports)
            self.steps = [max(pair) for pair in zip(self.steps, read_arrivals(self.reports.path, data, len(self.steps)))]
            if not self.reader.has_begun:
                return None
        except Fault as fault:
            self.fault, self.number = str(fault), self.number + 1
            return None
        return self.news(clock, tasks, had)

    def read(self, lines: list[bytes]) -> None:
        for line in lines:
            self.reader.line += 1
            self.reader.read(line.decode('latin-1'))
            if line.endswith(b' = rested'):
                self.resting.add(line.split(b' ')[2])
            elif b' = refused E6' in line:
                self.missing.append(self.now())
            elif b' = accepted ' in line or b' path ' in line:
                self.resting.clear()

    def news(self, clock: int, tasks: int, had: list[int]) -> dict[str, Any] | None:
        """Of what was read since that clock, with so many tasks, and so many paths of each agent."""
        run, now = self.run, self.now()
        events = [event[3:] for event in self.reader.events]
        self.reader.events.clear()
        grown, self.reader.grown = sorted(set(self.reader.grown)), []
        self.kept += range(0 if self.is_new else tasks, len(run.tasks))
        self.plan(grown)
        events = sorted(self.visits(max(clock, run.start), now) + events, key=lambda event: int(event[0]))    # at a clock the tick's visits come first
        self.events += events
        self.moved = now
        if self.is_new:
            self.done += sum(task.done_before for task in run.tasks)
            self.start()
            return None
        if self.vehicles:
            self.vehicles.take(now, self.places(), run.clock - clock)
            self.deliver(now)
        ways = [[agent, way_of(path)] for agent, count in enumerate(had) for path in run.paths[agent][count:]]
        found = {'clock': run.clock, 'entries': run.entries, 'answers': dict(run.answers), 'events': events, 'ways': ways,
                 'tasks': [[*task_of(run.tasks[i]), i] for i in range(tasks, len(run.tasks))],
                 'changed': [[i, *task_of(run.tasks[i])[3:]] for i in grown if i < tasks],
                 'vehicles': self.vehicles.news(run.clock - clock) if self.vehicles else None}
        self.trim()
        return found

    def start(self) -> None:
        """After all that stood in the files at the first look: what comes from here on has its times."""
        self.is_new, self.number = False, self.number + 1
        self.served.clear()
        self.missing.clear()
        if self.reports.is_there:
            self.vehicles = Vehicles(self.run, self.ahead, self.places(), self.now())
            for number in sorted(range(len(self.run.tasks)), key=self.turn):
                if (agent := self.run.tasks[number].agent) is not None:
                    self.vehicles.plan(agent, number)
            self.done = sum(self.vehicles.is_done(i) for i in self.kept)
        self.trim(True)

    def turn(self, number: int) -> tuple[bool, list[int]]:
        """What orders the tasks of an agent: by their last visits, behind them the one with stops to which no path leads yet."""
        task = self.run.tasks[number]
        return len(task.visits) < len(task.stops), task.visits[-1:]

    def places(self) -> list[int]:
        """Of each vehicle the clock at which the plan is where it has arrived: steps are counted from the log's first clock."""
        return [self.run.start + step for step in self.steps]

    def plan(self, grown: list[int]) -> None:
        """Visits of these tasks are to come, which were not before."""
        for number in grown:
            task = self.run.tasks[number]
            if self.vehicles and task.agent is not None:
                self.vehicles.plan(task.agent, number)
            had = self.planned.pop(number, task.before)
            for k, visit in enumerate(task.visits[had:], had):
                self.coming.setdefault(visit, []).append((number, k))
            if len(task.visits) < len(task.stops):
                self.planned[number] = len(task.visits)

    def visits(self, clock: int, now: int) -> list[tuple[Any, ...]]:
        """Events of the visits that the plan makes from that clock on."""
        found: list[tuple[Any, ...]] = []
        for at in range(clock, self.run.clock + 1):
            for number, k in self.coming.pop(at, []):
                task = self.run.tasks[number]
                if task.taken is not None and at > task.taken:
                    found.append((at, 0, 'visit', number, k))    # those made at once are told already
                if k == len(task.stops) - 1 and not self.vehicles:
                    self.done += 1
                    self.served.append((now, at - task.submitted))
        return found

    def deliver(self, now: int) -> None:
        for number, _, k in self.vehicles.new['visits'] if self.vehicles else ():
            task = self.run.tasks[number]
            if k == len(task.stops) - 1:
                self.done += 1
                self.served.append((now, self.run.clock - task.submitted))

    # ---- what is kept

    def first(self) -> int:
        """The clock from which a page is told all."""
        return self.vehicles.first() if self.vehicles else max(self.run.start, self.run.clock - WINDOW)

    def trim(self, at_once: bool = False) -> None:
        """Drops what no page needs any more, now and then."""
        run = self.run
        if not at_once and run.clock < self.dropped + EVERY:
            return
        self.dropped = run.clock
        if self.vehicles:
            self.vehicles.drop(max(0, self.now() - 100 * WINDOW))
        first = self.first()
        for agent, paths in enumerate(run.paths):
            del paths[:max(0, bisect.bisect_right(paths, first, key=lambda path: path.clock) - 1)]
        kept = [number for number in self.kept if not self.is_over(number, first)]
        if self.vehicles:
            self.vehicles.forget(set(self.kept) - set(kept))
        self.kept = kept
        self.events = [event for event in self.events if event[0] >= first]
        run.counts.clear()

    def is_done(self, number: int) -> bool:
        task = self.run.tasks[number]
        return self.vehicles.is_done(number) if self.vehicles else len(task.visits) == len(task.stops) and task.visits[-1] <= self.run.clock

    def is_over(self, number: int, first: int) -> bool:
        task = self.run.tasks[number]
        return len(task.visits) == len(task.stops) and task.visits[-1] < first and (not self.vehicles or self.vehicles.is_done(number))

    def begun(self) -> dict[str, Any]:
        """The last minutes, as a run."""
        run, first = self.run, self.first()
        tasks = [number for number in self.kept if not self.is_over(number, first)]
        return floor_of(run.instance, self.title) | {
            'live': True, 'start': 0 if self.vehicles else first, 'clock': run.clock, 'cut': False, 'entries': run.entries, 'verified': None,
            'front': front_of(run, tasks), 'left_out': self.done - sum(map(self.is_done, tasks)), 'differ': [], 'answers': dict(run.answers), 'ways': [[way_of(path) for path in paths] for paths in run.paths],
            'tasks': [[*task_of(run.tasks[number]), number] for number in tasks], 'events': [event for event in self.events if event[0] >= first],
            'vehicles': self.vehicles.begun(tasks) if self.vehicles else None}
