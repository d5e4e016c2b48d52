"""Vehicles that are late: `drive INSTANCE --late SEED` moves simulated vehicles by `replay --vehicles` to the end.

    drive INSTANCE --late 1                          the orders are those of INSTANCE's third section
    drive INSTANCE --late 1 --behind 1               with a barrier: the clock waits for all
    drive INSTANCE --late 1 --spread 0.5 --stop 60   each step up to half as long again or short; vehicle 0 stands a minute
    drive INSTANCE --late 1 --save run.log --transcript run.told    what `play --vehicles` plays
    drive INSTANCE --late 1 --log run.log --kills 20 the program keeps the run, is killed 20 times, and goes on

A line `rule nofollow` is added where INSTANCE has none. The time is the simulation's own: a step takes a second, times
the vehicle's own pace and a chance factor (both from SEED, as far from 1 as --spread says), and half a second more where the
vehicle stood before it. A vehicle sets out as soon as `go` tells it to, if it stands; it reports each step by `at`, one report in
twenty comes up to three seconds late, and one in twenty is sent twice, the second time later. The controller hands in the orders
that are due by the plan's clock, asks for agents that are due, and ticks once a second, or as soon as the vehicle that
`refused V1` named has reported.

It judges on its own what is told: `go` names the next step of a vehicle, to a neighbour of the cell where it goes before, passable,
and one that no other vehicle occupies, from the cell where it has arrived to the last that it was told. So no two vehicles are
ever at one cell or exchange cells, whatever their times; and each order is delivered, its visits told in order.

With --transcript FILE each line that the program writes stands there, behind the simulation's second; with --save FILE the log
at the end.

With --log FILE the program keeps the run in FILE and the arrivals in FILE.at, and with --kills N it is ended by signal 9 N times at
chance moments: before a line is sent, or while the program is at it. Vehicles go on meanwhile. Then it is started again over the
files: what it tells must be what it had told, an entry whose reply was lost is told again (`--told`), a report whose answer did not come
is sent again, each step that was told and not reported is told again, and no step that was answered `arrived`.

It prints a name and a number a line: orders, done, `seconds` to the last delivery, `per100s` orders delivered in 100 of them,
ticks, `held` ticks that were refused since a vehicle was behind, `steps` that vehicles made, `waits` of vehicles that stood before
one, `repeated` reports, and with --kills `killed` times.
"""
from __future__ import annotations

import argparse
import heapq
import random
import time
from collections import deque
from dataclasses import dataclass
from typing import Sequence, TextIO

from ..fleet import POLICIES, Fleet, Stop
from ..pipe import FENCE
from ..process import Process, SessionError
from ..replies import Accepted, Arrived, Go, Reply, Visited
from ..session import Session, Vehicles, ends_words
from ..texts import Cell, Instance, Order

STANDING = 0.5              # seconds that a vehicle needs more where it stood
MOST_SECONDS = 1e6


@dataclass
class Plan:
    """How a simulation is made: the words of its options."""
    seed: int
    spread: float = 0.3
    stop: float = 0.0
    behind: int = 8
    ahead: int = 1
    kills: int = 0
    ask: str = 'number'
    ends: str = 'stops'


def add_late_options(parser: argparse.ArgumentParser) -> None:
    add = parser.add_argument
    add('--late', type=int, metavar='SEED', help='move vehicles that are late, in a simulation, under `rule nofollow`, which is added where '
                                                      'INSTANCE has none: warehouse/simulate/late.py has all of it')
    add('--behind', type=int, default=8, metavar='N', help='with --late: the clock waits for a vehicle so far behind (%(default)s)')
    add('--ahead', type=int, default=1, metavar='N', help='with --late: steps that a vehicle is granted in advance (%(default)s)')
    add('--spread', type=float, default=0.3, metavar='X', help='with --late: how far speeds differ, 0 to 0.9 (%(default)s)')
    add('--kills', type=int, default=0, metavar='N', help='with --late and --log: end the program so often by signal 9, and resume')
    add('--stop', type=float, default=0.0, metavar='SECONDS', help='with --late: so long vehicle 0 stands once, from second 100 on')
    add('--transcript', metavar='FILE', help='with --late: write there what the program replies, each line behind its second')


class Floor:
    """Which vehicle occupies which cells: from where it has arrived to the last that it was told."""

    def __init__(self, instance: Instance):
        self.instance = instance
        self.cells = [deque([instance.points[start].cell]) for start in instance.starts]
        self.owner = {cells[0]: agent for agent, cells in enumerate(self.cells)}

    def take(self, agent: int, cell: Cell) -> None:
        x, y = self.cells[agent][-1]
        if abs(cell[0] - x) + abs(cell[1] - y) != 1 or not self.instance.is_passable(cell):
            raise Stop(f'agent {agent} is told to go from {x},{y} to {cell[0]},{cell[1]}')
        if self.owner.setdefault(cell, agent) != agent:
            raise Stop(f'agent {agent} is told to go to {cell[0]},{cell[1]}, which agent {self.owner[cell]} occupies')
        self.cells[agent].append(cell)

    def leave(self, agent: int) -> None:
        cell = self.cells[agent].popleft()
        if cell not in self.cells[agent]:
            del self.owner[cell]


class Vehicle:
    def __init__(self, pace: float):
        self.pace = pace
        self.cells: dict[int, Cell] = {}      # the cell of each step that it was told
        self.arrived = 0                      # the last step that was answered `arrived`
        self.told: deque[int] = deque()       # steps that it is to make
        self.reported: deque[int] = deque()   # steps that it made, whose reports are on their way
        self.last = 0                         # the last step that it was told
        self.moves = False


class Killed(Process):
    """A program that is killed so many times, each before a line is sent or while it is at it."""

    def __init__(self, words: Sequence[str], kills: int, seed: int):
        super().__init__(words)
        self.kills, self.random = kills, random.Random(seed + 1)
        self.asks = self.killed = 0
        self.next_kill = self.random.randint(1, 200)

    def exchange(self, data: bytes, count: int = 0, last: str | None = None, more: bool = False) -> list[str]:
        self.asks += 1
        if last is None or data.startswith(FENCE.encode()) or self.killed >= self.kills or self.asks < self.next_kill:
            return super().exchange(data, count, last, more)
        if self.random.random() < 0.7:
            self.turn(memoryview(data))
            time.sleep(self.random.choice((0, 0, 0.0005, 0.002)))
        self.drop()
        self.killed += 1
        self.next_kill = self.asks + self.random.randint(1, 200)
        return []


class Late:
    """The simulation: what vehicles do by their own time, and a fleet that plans by the program's clock."""

    def __init__(self, core: Session, orders: Sequence[Order], plan: Plan, transcript: TextIO | None = None):
        self.core, self.plan, self.transcript = core, plan, transcript
        self.fleet = Fleet(core, orders, POLICIES[plan.ask], listen=self.hear)
        self.random = random.Random(plan.seed)
        self.floor = Floor(core.instance)
        agents = range(len(core.instance.starts))
        self.vehicles = [Vehicle(1 + plan.spread * self.random.uniform(-0.5, 0.5)) for _ in agents]
        self.visited: list[int] = []          # of each accepted order how many visits were told
        self.now = self.last_delivery = 0.0
        self.done = self.held = self.steps = self.waits = self.repeated = self.restarts = self.killed = self.number = 0
        self.queue: list[tuple[float, int, str, int, int]] = []
        self.sent: tuple[int, int] | None = None    # a report whose answer has not come
        self.stood = plan.stop <= 0

    # ---- what the program says

    def hear(self, line: str, reply: Reply) -> None:
        """What came to a line, and what vehicles are told behind it."""
        told = self.core.take_told()
        if self.transcript:
            self.transcript.writelines(f'{self.now:.3f} {said}\n' for said in (reply, *told))
        if line.startswith('submit ') and isinstance(reply, Accepted):
            self.visited.append(0)
        for restart in self.core.restarts[self.restarts:]:
            self.goes_on([one for one in restart.told if isinstance(one, Go)])
        self.restarts = len(self.core.restarts)
        for one in told:
            if isinstance(one, Go):
                self.go(one)
            else:
                self.visit(one)

    def goes_on(self, told: list[Go]) -> None:
        """What was told before is told again, but for steps at which a vehicle has arrived."""
        again = {(one.agent, one.step): one.cell for one in told}
        for agent, vehicle in enumerate(self.vehicles):
            # a step that was reported by a line whose answer did not come is told again, or not
            known = max(vehicle.arrived, self.sent[1] if self.sent and self.sent[0] == agent else 0)
            for step, cell in vehicle.cells.items():
                if step > known and (agent, step) not in again:
                    raise Stop(f'step {step} of agent {agent} is not told again')
                if (agent, step) in again and (step <= vehicle.arrived or again[agent, step] != cell):
                    raise Stop(f'step {step} of agent {agent} is told again, to {again[agent, step]}')

    def visit(self, one: Visited) -> None:
        if self.visited[one.task] != one.visit:
            raise Stop(f'visit {one.visit} of task {one.task} is told after {self.visited[one.task]}')
        self.visited[one.task] += 1
        if self.visited[one.task] == len(self.fleet.tasks[one.task].stops):
            self.done += 1
            self.last_delivery = self.now

    def go(self, one: Go) -> None:
        vehicle = self.vehicles[one.agent]
        self.floor.take(one.agent, one.cell)
        vehicle.told.append(one.step)
        vehicle.cells[one.step] = one.cell
        vehicle.last = one.step
        if not vehicle.moves:
            self.waits += 1
            self.set_out(one.agent, STANDING)

    # ---- what vehicles do

    def at(self, time: float, kind: str, agent: int = -1, step: int = 0) -> None:
        self.number += 1
        heapq.heappush(self.queue, (time, self.number, kind, agent, step))

    def set_out(self, agent: int, more: float) -> None:
        vehicle = self.vehicles[agent]
        vehicle.moves = True
        takes = vehicle.pace * (1 + self.plan.spread * self.random.uniform(-1, 1)) + more
        if agent == 0 and not self.stood and self.now >= 100:
            self.stood, takes = True, takes + self.plan.stop
        self.at(self.now + takes, 'arrives', agent, vehicle.told[0])

    def arrives(self, agent: int, step: int) -> None:
        """It has left the cell before. It goes on at once where it knows whereto."""
        vehicle = self.vehicles[agent]
        vehicle.reported.append(step)
        vehicle.told.popleft()
        vehicle.moves = False
        self.steps += 1
        late = self.random.uniform(0, 3) if self.random.random() < 0.05 else 0.0
        self.at(self.now + late, 'reports', agent, step)
        if self.random.random() < 0.05:
            self.repeated += 1
            self.at(self.now + late + self.random.uniform(0, 5), 'again', agent, step)
        if vehicle.told:
            self.set_out(agent, 0.0)

    def reports(self, agent: int, step: int, again: bool) -> None:
        """The cells that it has left by this report are free from here on: it says that all steps before were made."""
        vehicle = self.vehicles[agent]
        while not again and vehicle.reported and vehicle.reported[0] <= step:
            vehicle.reported.popleft()
            self.floor.leave(agent)
        self.sent = (agent, step)
        reply = self.core.at(agent, step)
        self.hear(f'at {agent} {step}', reply)
        self.sent = None
        if reply != Arrived(agent, step):
            raise Stop(f'`{reply}` came to `at {agent} {step}`')
        vehicle.arrived = max(vehicle.arrived, step)
        if self.fleet.held == agent:
            self.fleet.held = None

    # ---- what the controller does

    def plan_on(self) -> None:
        """Orders that are due, and agents that may ask."""
        self.fleet.policy(self.fleet)
        if self.fleet.left_out:
            raise Stop(self.fleet.left_out[0])

    def tick(self) -> None:
        """A second of the controller's."""
        if self.fleet.held is not None:
            self.at(self.now + 0.1, 'tick')
            return
        if self.fleet.tick():
            self.plan_on()
        else:
            self.held += 1
        self.at(self.now + 1.0, 'tick')

    def run(self) -> None:
        if self.core.place or self.core.state:
            raise Stop(f'`entries {self.core.place}` came where 0 entries were known' if self.core.place else 'the log begins with a state')
        self.plan_on()
        self.at(1.0, 'tick')
        while self.queue:
            self.now, _, kind, agent, step = heapq.heappop(self.queue)
            if kind == 'arrives':
                self.arrives(agent, step)
            elif kind in ('reports', 'again'):
                self.reports(agent, step, kind == 'again')
            elif not self.fleet.is_done():
                self.tick()
            if self.now > MOST_SECONDS:
                raise Stop('nothing ends')


def late_figures(late: Late) -> list[tuple[str, object]]:
    return [('orders', len(late.visited)), ('done', late.done), ('seconds', f'{late.last_delivery:.0f}'),
            ('per100s', f'{100 * late.done / late.last_delivery:.1f}' if late.last_delivery else 0), ('ticks', late.fleet.clock),
            ('held', late.held), ('steps', late.steps), ('waits', late.waits), ('repeated', late.repeated),
            *([('killed', late.killed)] if late.plan.kills else [])]


def drive_late(words: Sequence[str], instance: Instance, orders: Sequence[Order], plan: Plan, transcript: TextIO | None = None,
               log: str | None = None) -> Late:
    """Drives all orders to their ends by a program of these words; raises Stop where that is not so, or vehicles would meet."""
    vehicles = Vehicles(plan.behind, plan.ahead)
    # where paths go on home, their cells tell when an agent is due
    form = 'short' if plan.ends == 'stops' else 'full'
    process = Killed([*words, *([] if form == 'short' else ['--replies', form]), *ends_words(plan.ends), *vehicles.words], plan.kills, plan.seed)
    try:
        with Session(instance.with_nofollow(), log=log, vehicles=vehicles, replies=form, process=process) as core:
            late = Late(core, orders, plan, transcript)
            late.run()
            status = core.end()
    except SessionError as error:
        raise Stop(str(error)) from None
    late.killed = process.killed
    if status != 0 or late.done != len(late.visited) or late.fleet.waiting:
        raise Stop(f'{late.done} of {len(late.visited)} orders were delivered, and the program ended with status {status}')
    return late
