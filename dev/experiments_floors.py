"""The floors of docs/EXPERIMENTS.md: seeded instances run to their ends, the same orders by several rules, for dev/experiments.py.

    aamas      35 columns by 21 rows, 500 orders between 200 stations on both sides of shelves: the sizes, numbers and orders a tick
               of the AAMAS 2017 paper
    large      81 by 81, 1000 orders between 2240 such stations
    packing    42 by 30, 300 orders from 72 stations at shelves to 1 to 12 packing stations, all at clock 0, `rule nofollow`

tools/make_instance.py makes floor and orders from the seed; order i is released at clock i / F, rounded down, where F is the orders a
tick (`# @T` before a submit). The instance is asked of `check`. Where all orders are there at clock 0, `replay --deliver` has them
delivered; else a fleet of the Python package asks and ticks, the agent first that is nearest to its order, or by number. The log is
read and judged, and asked of `verify`. Whatever is not `formed`, delivered and `run N` ends the script.

A line of the CSV is a case. A figure is the mean over its seeds, and NAME_pm half the width of the interval of 95 percent (Student's t):

    makespan        the clock of the last delivery
    per100          orders delivered in 100 ticks of it
    service_mean    ticks from an order's release to its delivery; service_p95, the time within which 95 of 100 of all seeds' orders were served
    driven          cells that the agents went, for an order
    cpu_ms          milliseconds of processor time (user and system) of a process of `replay` of what was sent, the least of --runs:
                    this alone depends on the machine
"""
from __future__ import annotations

import argparse
import csv
import functools
import os
import statistics
import subprocess
import sys
import tempfile
from concurrent.futures import ProcessPoolExecutor
from fractions import Fraction
from typing import Callable, Iterator, NamedTuple, Sequence, TypeVar

import experiments_plot
from package import ROOT, fail

from warehouse.fleet import POLICIES, Fleet, stop_at
from warehouse.process import Process
from warehouse.replies import Clock
from warehouse.session import Session, ends_words
from warehouse.simulate import drive
from warehouse.texts import Instance, Order, orders_of, read_instance, read_log, read_orders, sections_of, steps_made

ENDS = ('stops', 'homes')
Wanted, Found = TypeVar('Wanted'), TypeVar('Found')
# Half the width of an interval of 95 percent, in standard errors, for 2 seeds and more
STUDENT = (12.706, 4.303, 3.182, 2.776, 2.571, 2.447, 2.365, 2.306, 2.262)
MEANS = {'makespan': 0, 'per100': 1, 'service_mean': 0, 'driven': 1, 'cpu_ms': 0}    # and their decimals


class Floor(NamedTuple):
    words: Sequence[str]    # for make_instance.py
    tasks: int


FLOORS = {
    'aamas': Floor(('--layout', 'aisles', '--columns', '35', '--rows', '21', '--shelf', '10'), 500),
    'large': Floor(('--layout', 'aisles', '--columns', '81', '--rows', '81'), 1000),
    'packing': Floor(('--layout', 'kiva', '--columns', '42', '--rows', '30', '--nofollow'), 300),
}


class Case(NamedTuple):
    """What is run once for each seed; `stations` are the packing stations, 0 where orders go from shelf to shelf."""
    floor: str
    stations: int
    agents: int
    orders_per_tick: str
    ends: str
    ask: str = 'nearest'
    rule: str = 'none'
    planner: str = 'near'

    @property
    def name(self) -> str:
        return ' '.join(map(str, self))


class Measured(NamedTuple):
    """One run; `served` are the service times, sorted."""
    makespan: int
    served: list[int]
    cells: int
    seconds: float


class Recorder(Process):
    """A program, and what was sent to it."""

    def __init__(self, words: Sequence[str]):
        super().__init__(words)
        self.sent: list[bytes] = []

    def exchange(self, data: bytes, count: int = 0, last: str | None = None, more: bool = False) -> list[str]:
        self.sent.append(data)
        return super().exchange(data, count, last, more)


def cases() -> Iterator[Case]:
    """All that the page has."""
    for stations in (1, 3, 6, 12):
        for agents in (10, 30, 50):
            for ends in ENDS:
                yield Case('packing', stations, agents, 'all', ends, rule='nofollow')
    for ends in ENDS:
        yield Case('packing', 12, 10, 'all', ends, rule='nofollow', planner='patient')
    for agents in (50, 100, 150, 200):
        for rule in ('none', 'nofollow'):
            for ends in ENDS:
                yield Case('large', 0, agents, 'all', ends, rule=rule)
    for agents in (10, 20, 30, 40, 50):
        for frequency in ('0.2', '1', '10') if agents in (10, 30, 50) else ('10',):
            for ends in ENDS:
                yield Case('aamas', 0, agents, frequency, ends)
    for agents in (30, 50):
        for ends in ENDS:
            yield Case('aamas', 0, agents, '10', ends, ask='number')
            yield Case('aamas', 0, agents, '10', ends, rule='nofollow')


# ------------------------------------------------------------------------------------------------- the instance

def release_clocks(count: int, frequency: str) -> list[int]:
    """The clock of each order where so many come a tick: order i at i / frequency, rounded down."""
    return [0 if frequency == 'all' else int(i / Fraction(frequency)) for i in range(count)]


def released(made: bytes, frequency: str, nofollow: bool) -> bytes:
    """An instance with the orders of one that make_instance.py made, each released at its clock."""
    cut = sections_of(made)
    orders = [order.line for order in orders_of(cut[2].lines)]
    script = [text for clock, order in zip(release_clocks(len(orders), frequency), orders) for text in (f'# @{clock}', order)]
    points = (['rule nofollow'] if nofollow else []) + cut[1].lines
    return ''.join(line + '\n' for line in [*cut[0].lines, '%%', *points, '%%', *script]).encode('latin-1')


def make(floor: Sequence[str], agents: int, tasks: int, seed: int) -> bytes:
    words = [sys.executable, os.path.join(ROOT, 'tools', 'make_instance.py'), *floor, '--agents', str(agents), '--tasks',
             str(tasks), '--every', '1', '--ticks', str(tasks), '--seed', str(seed)]
    done = subprocess.run(words, capture_output=True)
    if done.returncode:
        fail(done.stderr.decode().strip().split('\n')[-1])
    return done.stdout


def instance_of(case: Case, seed: int, tasks: int | None = None) -> bytes:
    floor = FLOORS[case.floor]
    words = [word for word in floor.words if word != '--nofollow'] + (['--stations', str(case.stations)] if case.stations else [])
    return released(make(words, case.agents, tasks or floor.tasks, seed), case.orders_per_tick, case.rule == 'nofollow')


# ------------------------------------------------------------------------------------------------- one run

def asked(words: Sequence[str], text: bytes) -> str:
    return subprocess.run(words, input=text, stdout=subprocess.PIPE).stdout.decode('latin-1').strip()


def processor_seconds(words: Sequence[str], given: str) -> float:
    """User and system time of one process with that file as its input."""
    with open(given, 'rb') as text:
        process = subprocess.Popen(words, stdin=text, stdout=subprocess.DEVNULL)
        _, status, usage = os.wait4(process.pid, 0)
        process.returncode = os.waitstatus_to_exitcode(status)
    if process.returncode:
        fail(f'{words[0]} ended with status {process.returncode} at what it was sent before')
    return usage.ru_utime + usage.ru_stime


def timed(words: Sequence[str], sent: bytes, count: int) -> float:
    """The least processor time of `replay` of what was sent."""
    with tempfile.NamedTemporaryFile() as file:
        file.write(sent)
        file.flush()
        return min(processor_seconds(words, file.name) for _ in range(count))


def quiet(fleet: Fleet) -> int:
    """For how many ticks nobody can have anything to ask: up to the next release, or until an agent is due and an order is open."""
    clocks = [fleet.waiting[0].release] if fleet.waiting else []
    clocks += [due for due in fleet.due if due > fleet.clock] if fleet.open else []
    return max(min(clocks or [max(fleet.still)]) - fleet.clock, 1)


def driven(case: Case, site: Instance, orders: list[Order], words: Sequence[str]) -> tuple[bytes, bytes]:
    """A run with orders that come in time: what was sent, and the log. The ticks of a quiet time go in one write."""
    to = Recorder([*words, '--replies', 'full', '--tail', 'log'])
    with Session(site, replies='full', process=to) as core:
        fleet = Fleet(core, orders, POLICIES[case.ask], drive.MOST_IN_BATCH)
        while not fleet.is_done():
            fleet.policy(fleet)
            if fleet.open and fleet.stands() or fleet.left_out:
                fail(f'{case.name}: all agents stand, {len(fleet.open)} orders are open; {len(fleet.left_out)} were refused')
            for line, reply in fleet.ask(['tick'] * quiet(fleet)):
                if not isinstance(reply, Clock):
                    stop_at(line, reply)
                fleet.clock = reply.now
        core.end()
        return b''.join(to.sent), drive.log_of(core.tail)


def delivered(case: Case, instance: bytes, words: Sequence[str]) -> tuple[bytes, bytes]:
    """A run with all orders at clock 0, which the program has delivered: what was sent, and the log."""
    done = subprocess.run([*words, '--deliver', '--tail', 'log'], input=instance, capture_output=True)
    if done.returncode or done.stderr:
        fail(f'{case.name}: status {done.returncode}, {done.stderr.decode()}')
    return instance, drive.log_of(done.stdout[done.stdout.index(b'%%\n'):])


def measured(case: Case, instance: bytes, program: str, runs: int) -> Measured:
    """One run to its end, judged."""
    ends = ends_words(case.ends)
    if (answer := asked([program, 'check', *ends], instance)) != 'formed':
        fail(f'{case.name}: `check` says `{answer}`')
    site, orders = read_instance(case.name, instance), read_orders(case.name, instance)
    words = [program, 'replay', '--planner', case.planner, *ends]
    at_once = case.orders_per_tick == 'all'
    sent, log = delivered(case, instance, words) if at_once else driven(case, site, orders, words)
    verdict = asked([program, 'verify', *ends], site.text + log)
    run = read_log(site, case.name, log)
    if verdict != f'run {run.entries}' or run.cut or run.differences() or len(run.tasks) != len(orders):
        fail(f'{case.name}: `verify` says `{verdict}`, and its tasks or counts are not those of its paths')
    done = [task.done or 0 for task in run.tasks]
    served = sorted(end - order.release for end, order in zip(done, orders))
    cells = sum(before != after for before, after in steps_made(run))
    return Measured(max(done), served, cells, timed([*words, *(['--deliver'] if at_once else [])], sent, runs))


# ------------------------------------------------------------------------------------------------- the figures

def half_width(values: Sequence[float]) -> float:
    """Of the interval of 95 percent of the mean; 0 of one value."""
    return STUDENT[len(values) - 2] * statistics.stdev(values) / len(values) ** 0.5 if len(values) > 1 else 0.0


def line_of(case: Case, found: Sequence[Measured]) -> dict[str, str]:
    """A line of the CSV."""
    values = {
        'makespan': [float(one.makespan) for one in found],
        'per100': [100 * len(one.served) / one.makespan for one in found],
        'service_mean': [statistics.mean(one.served) for one in found],
        'driven': [one.cells / len(one.served) for one in found],
        'cpu_ms': [1000 * one.seconds for one in found],
    }
    line = {**{name: str(value) for name, value in case._asdict().items()}, 'seeds': str(len(found))}
    for name, decimals in MEANS.items():
        line[name] = f'{statistics.mean(values[name]):.{decimals}f}'
        line[f'{name}_pm'] = f'{half_width(values[name]):.{decimals}f}'
    served = sorted(time for one in found for time in one.served)
    return {**line, 'service_p95': str(served[-(-95 * len(served) // 100) - 1])}    # the nearest rank


def run_once(case: Case, seed: int, program: str, runs: int, tasks: int | None) -> Measured:
    return measured(case, instance_of(case, seed, tasks), program, runs)


def lines(wanted: Sequence[Wanted], run: Callable[[Wanted, int], Found], line: Callable[[Wanted, list[Found]], dict[str, str]],
          options: argparse.Namespace) -> list[dict[str, str]]:
    """A line for each case, which is printed when all of its seeds have run."""
    found: list[dict[str, str]] = []
    out = csv.writer(sys.stdout, lineterminator='\n')
    with ProcessPoolExecutor(options.jobs) as pool:
        begun = [(case, [pool.submit(run, case, seed) for seed in range(1, options.seeds + 1)]) for case in wanted]
        for case, seeds in begun:
            found.append(line(case, [one.result() for one in seeds]))
            if len(found) == 1:
                out.writerow(found[0].keys())
            out.writerow(found[-1].values())
            sys.stdout.flush()
    return found


def write(path: str, found: Sequence[dict[str, str]]) -> None:
    with open(path, 'w', encoding='utf-8', newline='') as text:
        out = csv.DictWriter(text, list(found[0]), lineterminator='\n')
        out.writeheader()
        out.writerows(found)


def plots(folder: str, found: Sequence[dict[str, str]]) -> None:
    """Orders in 100 ticks: by agents, shelf to shelf; and by packing stations."""
    def write_plot(name: str, title: str, across: str, label: str, by: tuple[str, ...], **wanted: str) -> None:
        drawn: dict[str, list[tuple[float, float]]] = {}
        for line in found:
            if all(line[key] == value for key, value in wanted.items()):
                drawn.setdefault(', '.join(line[key] for key in by), []).append((float(line[across]), float(line['per100'])))
        if drawn:
            experiments_plot.write(os.path.join(folder, f'experiments-{name}.svg'), experiments_plot.Plot(title, label, 'orders in 100 ticks', drawn))

    write_plot('aamas', 'Shelf to shelf, 35 by 21, 10 orders a tick', 'agents', 'agents', ('ends', 'ask'),
               floor='aamas', orders_per_tick='10', rule='none', planner='near')
    write_plot('packing', 'Shelf to packing stations, 42 by 30', 'stations', 'packing stations', ('agents', 'ends'), floor='packing', planner='near')


def table(options: argparse.Namespace) -> None:
    run = functools.partial(run_once, program=options.program, runs=options.runs, tasks=options.tasks)
    found = lines([case for case in cases() if case.floor in options.floors], run, line_of, options)
    if options.csv:
        write(options.csv, found)
    if options.plots:
        plots(options.plots, found)
