#!/usr/bin/env python3
"""The figures of docs/STAYS.md: stays at stops that the plan knows or does not know, and urgent orders with and without a class.

    dev/experiments_stays.py                      both tables, the means over seeds 1 to 3
    dev/experiments_stays.py --seeds 1 --part stays

The plan is the prototype's, dev/peer with the word `stays`, built by g++ into a temporary folder. The floors are
examples/packing, orders drawn from the seed, and `tools/make_instance.py --layout kiva --columns 42 --rows 30 --stations 6 --agents 30
--nofollow --seed SEED`. The agent nearest to the order that it would be given asks first.

Stays: all orders come at clock 0. Vehicles move as `replay --vehicles` grants it, each cell visited in the planned order and never in the
tick in which another leaves it; a step takes a tick, and at each stop a vehicle stays as long as the order says. The plan knows of the
stays, or it does not, and then its clock waits for a vehicle that is --behind steps behind. A figure is orders in 100 ticks to the last
delivery.

Urgent: orders come evenly, one in ten urgent, and paths go on home; all have stays of 15 ticks that the plan knows, so vehicles are on time. A figure is the mean and the
longest time from an order's release to the end of its last stay, over all seeds. `submit` hands them in without a class.
"""
from __future__ import annotations

import argparse
import os
import random
import statistics
import subprocess
import sys
import tempfile
from collections import deque
from dataclasses import dataclass, field

from package import ROOT, fail

from warehouse.texts import Cell, Instance, read_instance

FAR = 10 ** 9


@dataclass
class Order:
    release: int
    stops: list[str]
    urgent: bool = False
    done: int = -1                       # when its last stay has ended


@dataclass
class Vehicle:
    cell: Cell
    step: int = 0                        # of the plan, at which it has arrived
    busy: int = 0                        # until then it stays where it is
    work: deque[tuple[int, Order | None]] = field(default_factory=deque)    # the steps of stops ahead, and the order that ends there


class Core:
    """The prototype behind a pipe, and what its replies say."""

    def __init__(self, program: str, site: Instance, orders: list[Order], stay: int, classes: bool, ends: str):
        words = [program, 'stays'] + ['homes'] * (ends == 'homes')
        self.process = subprocess.Popen(words, stdin=subprocess.PIPE, stdout=subprocess.PIPE, text=True)
        assert self.process.stdin and self.process.stdout
        self.process.stdin.write(site.text.decode())
        self.site, self.stay, self.classes, self.homes = site, stay, classes, ends == 'homes'
        self.points = {point.name: point.cell for point in site.points}
        self.waiting, self.tasks = deque(orders), list[Order]()
        self.open: dict[int, list[Cell]] = {}
        self.clock = 0
        self.paths: list[list[Cell]] = [[site.points[start].cell] for start in site.starts]
        self.due = [0] * len(self.paths)
        self.fields: dict[Cell, dict[Cell, int]] = {}

    def ask(self, line: str) -> list[str]:
        assert self.process.stdin and self.process.stdout
        self.process.stdin.write(line + '\n')
        self.process.stdin.flush()
        return self.process.stdout.readline().split()

    def distance(self, start: Cell, goal: Cell) -> int:
        if goal not in self.fields:
            found, queue = {goal: 0}, deque([goal])
            while queue:
                x, y = queue.popleft()
                for cell in ((x + 1, y), (x - 1, y), (x, y + 1), (x, y - 1)):
                    if cell not in found and self.site.is_passable(cell):
                        found[cell] = found[x, y] + 1
                        queue.append(cell)
            self.fields[goal] = found
        return self.fields[goal].get(start, FAR)

    def submit(self, now: int) -> None:
        while self.waiting and self.waiting[0].release <= now:
            order = self.waiting.popleft()
            stops = [f'{name}:{self.stay}' for name in order.stops]
            said = self.ask(' '.join(['urgent' if order.urgent and self.classes else 'submit', 'x', *stops]))
            if said != ['accepted', str(len(self.tasks))]:
                fail(f'{" ".join(said)} to an order')
            self.open[len(self.tasks)] = [self.points[name] for name in order.stops]
            self.tasks.append(order)

    def next_to_ask(self, agents: set[int]) -> tuple[int, int, int] | None:
        """Of these agents the one that is nearest to the order that it would be given, an urgent one first; None where none is given one."""
        owner = {} if self.homes else {path[-1]: agent for agent, path in enumerate(self.paths)}
        best: tuple[int, int, int] | None = None
        for number, stops in self.open.items():
            ends = {owner[stop] for stop in stops if stop in owner}
            later = int(not (self.classes and self.tasks[number].urgent))
            if len(ends) <= 1 and (best is None or later <= best[0]):
                near = min(((later, self.distance(self.paths[agent][0], stops[0]), agent) for agent in agents if ends <= {agent}), default=None)
                best = min((one for one in (near, best) if one), default=None)
        return best

    def requests(self) -> list[tuple[int, list[tuple[int, Order | None]]]]:
        """Asks for who is due, and answers which agents took an order, with the steps of its stops."""
        taken = []
        agents = {agent for agent, due in enumerate(self.due) if due <= self.clock}
        while (near := self.next_to_ask(agents)) is not None:
            agents.remove(near[2])
            if said := self.path(near[2]):
                taken.append((near[2], self.took(near[2], int(said[1]))))
        for agent in () if self.homes else sorted(agents):
            if any(stops[-1] == self.paths[agent][0] for stops in self.open.values()) and self.path(agent):
                self.due[agent] = self.clock + len(self.paths[agent]) - 1    # it makes way
        return taken

    def path(self, agent: int) -> list[str]:
        """The reply, where it gives the agent a path."""
        said = self.ask(f'token {agent}')
        if said[0] not in ('took', 'parked'):
            return []
        self.paths[agent] = [(int(x), int(y)) for x, y in (word.split(',') for word in said[3:])]
        return said

    def took(self, agent: int, number: int) -> list[tuple[int, Order | None]]:
        """The steps at which its stays begin, found by place; and from when on it is due."""
        path, stops, begun, time = self.paths[agent], self.open.pop(number), [], 0
        for stop in stops:
            while path[time:time + self.stay + 1] != [stop] * (self.stay + 1):
                time += 1
            begun.append((self.clock + time, self.tasks[number] if len(begun) == len(stops) - 1 else None))
            time += self.stay
        self.due[agent] = self.clock + (time if self.homes else len(path) - 1)
        return begun

    def tick(self) -> None:
        if (said := self.ask('tick'))[0] != 'clock':
            fail(' '.join(said))
        self.clock += 1
        self.paths = [path[1:] or path for path in self.paths]

    def end(self) -> None:
        self.process.communicate()


class Floor:
    """The vehicles: each carries out its agent's plan, in the planned order at each cell."""

    def __init__(self, core: Core, stay: int, behind: int):
        self.core, self.stay, self.behind = core, stay, behind
        self.rows = [[path[0] for path in core.paths]]
        self.vehicles = [Vehicle(cell) for cell in self.rows[0]]
        self.turns: dict[Cell, deque[int]] = {cell: deque([agent]) for agent, cell in enumerate(self.rows[0])}

    def plan(self) -> None:
        """The plan's clock advances, unless a vehicle is too far behind."""
        if max(self.core.clock - vehicle.step for vehicle in self.vehicles) >= self.behind:
            return
        self.core.tick()
        self.rows.append([path[0] for path in self.core.paths])
        for agent, (before, cell) in enumerate(zip(self.rows[-2], self.rows[-1])):
            if cell != before:
                self.turns.setdefault(cell, deque()).append(agent)

    def arrive(self, agent: int, now: int) -> None:
        """Steps that stay are passed at once; a stop's work begins."""
        vehicle = self.vehicles[agent]
        while True:
            if vehicle.work and vehicle.work[0][0] <= vehicle.step:
                _, order = vehicle.work.popleft()
                vehicle.busy = max(vehicle.busy, now) + self.stay
                if order:
                    order.done = vehicle.busy
            elif vehicle.step < self.core.clock and self.rows[vehicle.step + 1][agent] == vehicle.cell:
                vehicle.step += 1
            else:
                return

    def move(self, now: int) -> None:
        """One tick of time, from now."""
        moving = []
        for agent, vehicle in enumerate(self.vehicles):
            self.arrive(agent, now)
            if vehicle.step == self.core.clock or now < vehicle.busy:
                continue
            cell = self.rows[vehicle.step + 1][agent]
            if self.turns[cell][0] == agent:
                moving.append((agent, cell))
        for agent, cell in moving:
            vehicle = self.vehicles[agent]
            if self.turns[vehicle.cell].popleft() != agent:
                fail('a cell is left out of turn')
            vehicle.cell, vehicle.step = cell, vehicle.step + 1
            self.arrive(agent, now + 1)
        if len({vehicle.cell for vehicle in self.vehicles}) < len(self.vehicles):
            fail('two vehicles are at one cell')


def carried_out(program: str, site: Instance, orders: list[Order], stay: int, planned: bool, behind: int, ends: str, classes: bool = False) -> list[Order]:
    """All orders delivered by vehicles."""
    core = Core(program, site, orders, stay if planned else 0, classes, ends)
    floor = Floor(core, stay, behind)
    for now in range(1_000_000):
        if all(order.done >= 0 for order in orders):
            core.end()
            return orders
        core.submit(now)
        for agent, begun in core.requests():
            floor.vehicles[agent].work += begun
            floor.arrive(agent, now)
        floor.plan()
        floor.move(now)
    fail('it does not end')


def packing(seed: int, count: int) -> tuple[Instance, list[list[str]]]:
    with open(os.path.join(ROOT, 'examples/packing'), 'rb') as file:
        site = read_instance('examples/packing', file.read())
    chance = random.Random(seed)
    return site, [[f'S{chance.randrange(18)}', f'K{chance.randrange(8)}'] for _ in range(count)]


def kiva(seed: int, count: int) -> tuple[Instance, list[list[str]]]:
    words = '--layout kiva --columns 42 --rows 30 --stations 6 --agents 30 --nofollow --every 1 --ticks'.split()
    make = [sys.executable, os.path.join(ROOT, 'tools/make_instance.py'), *words, str(count), '--tasks', str(count), '--seed', str(seed)]
    text = subprocess.run(make, stdout=subprocess.PIPE, check=True).stdout
    return read_instance('kiva', text), [line.split()[2:] for line in text.decode().split('\n') if line.startswith('submit ')]


FLOORS = {'packing': packing, 'kiva': kiva}
EVERY = {'packing': 7, 'kiva': 3}    # ticks from an order to the next


def stays(program: str, options: argparse.Namespace) -> None:
    print('| floor | ends | stay | not known, --behind 8 | not known, --behind 32 | planned |\n|---|---|---|---|---|---|')
    for name, made in FLOORS.items():
        for ends in options.ends:
            for stay in options.stay:
                row = []
                for planned, behind in ((False, 8), (False, 32), (True, 8)):
                    found = []
                    for seed in range(1, options.seeds + 1):
                        site, stops = made(seed, options.orders)
                        done = carried_out(program, site, [Order(0, names) for names in stops], stay, planned, behind, ends)
                        found.append(100 * len(done) / max(order.done for order in done))
                    row.append(f'{statistics.mean(found):.1f}')
                print('| ' + ' | '.join([name, ends, str(stay), *row]) + ' |', flush=True)


def urgent(program: str, options: argparse.Namespace) -> None:
    print('| floor | class | urgent: mean | worst | others: mean | worst |\n|---|---|---|---|---|---|')
    for name, made in FLOORS.items():
        every = options.every or EVERY[name]
        for classes in (False, True):
            times: dict[bool, list[int]] = {True: [], False: []}
            for seed in range(1, options.seeds + 1):
                site, stops = made(seed, options.orders)
                orders = [Order(number * every, names, number % 10 == 9) for number, names in enumerate(stops)]
                for order in carried_out(program, site, orders, 15, True, 8, 'homes', classes):
                    times[order.urgent].append(order.done - order.release)
            figures = [f'{figure:.0f}' for kind in (True, False) for figure in (statistics.mean(times[kind]), max(times[kind]))]
            print('| ' + ' | '.join([name, 'urgent' if classes else 'none', *figures]) + ' |', flush=True)


def main() -> None:
    parser = argparse.ArgumentParser(description=__doc__, formatter_class=argparse.RawDescriptionHelpFormatter)
    parser.add_argument('--part', choices=('stays', 'urgent'), help='one table alone')
    parser.add_argument('--seeds', type=int, default=3, metavar='N', help='seeds 1 to N (%(default)s)')
    parser.add_argument('--orders', type=int, default=300, metavar='N', help='(%(default)s)')
    parser.add_argument('--stay', type=int, nargs='+', default=[15, 30], metavar='TICKS', help='at each stop (15 30)')
    parser.add_argument('--ends', nargs='+', default=['stops', 'homes'], choices=('stops', 'homes'),
                        help='where paths end in the table of stays (stops homes)')
    parser.add_argument('--every', type=int, metavar='TICKS', help='from an order to the next in the table of urgent orders')
    options = parser.parse_args()
    with tempfile.TemporaryDirectory() as folder:
        program = os.path.join(folder, 'peer')
        subprocess.run(['g++', '-O2', '-std=c++17', '-o', program, os.path.join(ROOT, 'dev/peer/main.cpp')], check=True)
        for part in (stays, urgent):
            if options.part in (None, part.__name__):
                part(program, options)


if __name__ == '__main__':
    main()
