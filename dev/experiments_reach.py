"""How far one process goes: an hour of ticks with orders kept coming, for dev/experiments.py."""
from __future__ import annotations

import argparse
import os
import random
import subprocess
import time
from dataclasses import dataclass, field
from typing import Callable, NamedTuple, Sequence

import experiments_plot
from package import fail

from warehouse.fleet import Fleet, Stop, by_number
from warehouse.process import Process
from warehouse.session import Session
from warehouse.simulate import drive
from warehouse.texts import Instance, Order, read_instance

LATE = 1.0       # seconds of a tick above which it is counted as missed
QUARTERS = 4
MB = 1 << 20


class Floor(NamedTuple):
    words: Sequence[str]      # for make_instance.py
    agents: Sequence[int]


# 35 columns by 21 rows have 78 parkings, so that many agents fit; the program takes 256 at most
FLOORS = {
    '35x21': Floor(('--columns', '35', '--rows', '21', '--shelf', '10'), (50, 78)),
    '81x81': Floor(('--columns', '81', '--rows', '81'), (50, 100, 200, 256)),
    '256x256': Floor(('--columns', '256', '--rows', '256'), (50, 100, 200, 256)),
    '512x512': Floor(('--columns', '512', '--rows', '512'), (50, 100, 200, 256)),
}


class Meter(Process):
    """A program whose processor time can be read, and the wall time for which its replies were waited."""

    wall = 0.0

    def exchange(self, data: bytes, count: int = 0, last: str | None = None, more: bool = False) -> list[str]:
        began = time.perf_counter()
        try:
            return super().exchange(data, count, last, more)
        finally:
            self.wall += time.perf_counter() - began

    def processor(self) -> float:
        # Linux's number for the processor time of all threads of a process, as clock_getcpuclockid(3) gives it
        return time.clock_gettime((~self.number << 3) | 2)

    def memory(self, name: str) -> int:
        """VmRSS or VmHWM in bytes; 0 where the system tells none."""
        with open(f'/proc/{self.number}/status') as file:
            return next((int(line.split()[1]) * 1024 for line in file if line.startswith(name + ':')), 0)


class Kept(Fleet):
    """A fleet with as many orders open as are wanted, at each clock."""

    def __init__(self, core: Session, level: int, seed: int):
        super().__init__(core, policy=by_number, batch=drive.MOST_IN_BATCH)
        self.level = level
        self.chance = random.Random(seed)
        self.stations = [point.name for point in self.instance.points if point.kind == 'station']

    def due_orders(self) -> list[Order]:
        orders = [Order(self.clock, f'submit c {self.chance.choice(self.stations)} {self.chance.choice(self.stations)}')
                  for _ in range(self.level - len(self.open))]
        return orders[::-1]    # the last drawn comes first, as in the tables of docs/PERFORMANCE.md


@dataclass
class Reached:
    """What was measured."""
    floor: str
    agents: int
    processor: list[float] = field(default_factory=list)    # seconds, tick by tick
    wall: list[float] = field(default_factory=list)
    memory: list[int] = field(default_factory=list)         # bytes, at the start and at each quarter of the ticks
    most: int = 0
    requests: int = 0
    taken: int = 0


def rank(values: list[float], percent: int) -> float:
    """The nearest rank: so many of 100 are no greater."""
    return sorted(values)[-(-percent * len(values) // 100) - 1]


def one_tick(fleet: Kept, to: Meter, found: Reached) -> None:
    wall, processor = to.wall, to.processor()
    fleet.policy(fleet)
    if fleet.left_out:
        raise Stop(fleet.left_out[0])
    fleet.tick()
    found.wall.append(to.wall - wall)
    found.processor.append(to.processor() - processor)


def judge(program: str, site: Instance, log: bytes, commands: int, name: str) -> None:
    """Ends the script where `verify` does not say that the log is a run of so many commands."""
    done = subprocess.run([program, 'verify'], input=site.text + log, stdout=subprocess.PIPE)
    if done.stdout != f'run {commands}\n'.encode():
        fail(f'{name}: `verify` says {done.stdout!r} to {commands} commands')


def reached(name: str, agents: int, instance: Instance, options: argparse.Namespace) -> Reached:
    to = Meter([options.program, 'replay', '--planner', options.planner, '--tail', 'log'])
    found = Reached(name, agents)
    with Session(instance, replies='short', process=to) as core:
        fleet = Kept(core, options.open or agents, options.seed)
        for tick in range(options.ticks):
            one_tick(fleet, to, found)
            if tick == 0 or (tick + 1) * QUARTERS // options.ticks > tick * QUARTERS // options.ticks:
                found.memory.append(to.memory('VmRSS'))
        found.most = to.memory('VmHWM')
        found.requests, found.taken = fleet.requests, len(fleet.tasks) - len(fleet.open)
        if status := core.end():
            fail(f'{name}, {agents} agents: the program ended with status {status}')
    judge(options.program, instance, drive.log_of(core.tail), fleet.commands, f'{name}, {agents} agents')
    return found


def row(found: Reached) -> list[str]:
    """A row of the table; milliseconds and MB."""
    def spread(values: list[float]) -> list[str]:
        told = sum(values) / len(values), rank(values, 95), max(values[1:], default=values[0]), values[0]
        return [f'{1000 * value:.2f}' for value in told]
    busy = sum(found.processor)
    return [found.floor, str(found.agents), str(found.taken), f'{found.requests / len(found.processor):.1f}',
            *spread(found.processor), f'{found.requests / busy:.0f}', *spread(found.wall),
            str(sum(wall > LATE for wall in found.wall)), ', '.join(f'{value / MB:.0f}' for value in found.memory),
            f'{found.most / MB:.0f}']


HEAD = ('Floor', 'Agents', 'Orders taken', 'Requests a tick', 'Processor ms a tick: mean', 'p95', 'most', 'first tick',
        'Requests a processor second', 'Wall ms a tick: mean', 'p95', 'most', 'first tick', 'Missed', 'Memory, MB', 'Most')


def table(options: argparse.Namespace, make: Callable[[Sequence[str], int, int, int], bytes]) -> None:
    print('| ' + ' | '.join(HEAD) + ' |\n' + '|---' * len(HEAD) + '|', flush=True)
    lines: dict[str, list[tuple[float, float]]] = {}
    for name in options.floors:
        for agents in options.agents or FLOORS[name].agents:
            words = [*FLOORS[name].words, *(['--nofollow'] if options.nofollow else [])]
            site = read_instance(name, make(words, agents, 0, options.seed))
            found = reached(name, agents, site, options)
            print('| ' + ' | '.join(row(found)) + ' |', flush=True)
            lines.setdefault(name, []).append((agents, 1000 * sum(found.processor) / len(found.processor)))
    if options.plots:
        experiments_plot.write(os.path.join(options.plots, 'experiments-reach.svg'), experiments_plot.Plot(
            'Processor time a tick, mean', 'agents', 'milliseconds', lines))
