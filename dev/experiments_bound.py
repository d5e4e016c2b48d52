#!/usr/bin/env python3
"""What share of the bound on ticks runs take, in percent: the figures beside `all_is_delivered` (docs/GUARANTEES.md).

    dev/experiments_bound.py > docs/experiments-bound.csv

The bound is that of the definitions, computed by tests/measure.py: two spans for each agent and order, or, where paths go on home, a span
for each order. All orders are there at clock 0. The program is that of WAREHOUSE, else crates/warehouse/out/warehouse.

    packing, aamas, large    floors of dev/experiments_floors.py, seeds 1 to 5, as `replay --deliver` has them delivered; ticks are those to
                             the last delivery, and `verify` says that it is a run
    hall                     the halls of tests/tools_measure.py, seeds 1 to 400, with the slowest paths that the rules allow
"""
from __future__ import annotations

import csv
import os
import statistics
import sys
from typing import NamedTuple

import experiments_floors
from package import ROOT

sys.path.insert(0, os.path.join(ROOT, 'tests'))

import ends    # noqa: E402
import measure    # noqa: E402
import tools_measure    # noqa: E402

PROGRAM = os.environ.get('WAREHOUSE') or os.path.join(ROOT, 'crates', 'warehouse', 'out', 'warehouse')
CASES = [experiments_floors.Case(floor, stations, agents, 'all', way, rule=rule)
         for floor, stations, agents, rule in (('packing', 3, 30, 'nofollow'), ('aamas', 0, 30, 'none'), ('large', 0, 100, 'none')) for way in experiments_floors.ENDS]


class Run(NamedTuple):
    cells: int
    agents: int
    orders: int
    ticks: int
    bound: int

    @property
    def percent(self) -> float:
        return 100 * self.ticks / self.bound


def bounded(floor: ends.Floor, homes: bool, orders: list[list[str]], ticks: int) -> Run:
    """A run of these orders' stops from the opening."""
    s = ends.Judge(floor, homes)
    for stops in orders:
        s.submit(['x', *stops], ['accepted', str(len(s.tasks))])
    kind = measure.Measure(max(map(len, orders)))
    return Run(len(floor.cells), len(s.paths), len(orders), ticks, kind.left_to_do(s) if homes else kind.bound(s))


def delivered(case: experiments_floors.Case, seed: int) -> Run:
    instance = experiments_floors.instance_of(case, seed)
    orders = [line.split()[2:] for line in instance.decode().split('\n') if line.startswith('submit ')]
    ticks = experiments_floors.measured(case, instance, PROGRAM, 1).makespan
    return bounded(ends.Floor(instance.decode()), case.ends == 'homes', orders, ticks)


def slowest(seed: int) -> tuple[bool, Run]:
    course, site, homes, entries, _ = tools_measure.slow(seed)
    orders = [entry.partition(' = ')[0].split()[3:] for entry in entries if ' submit ' in entry]
    return homes, bounded(ends.Floor(site), homes, orders, course.rounds)


def median_of(values: list[int]) -> str:
    return f'{statistics.median(values):.0f}'


def line(floor: str, way: str, runs: list[Run]) -> list[str]:
    shares = [run.percent for run in runs]
    return [floor, way, str(len(runs)), *(median_of([run[column] for run in runs]) for column in range(len(Run._fields))),
            f'{statistics.median(shares):.3g}', f'{max(shares):.3g}']


def main() -> None:
    out = csv.writer(sys.stdout, lineterminator='\n')
    out.writerow(['floor', 'ends', 'runs', *Run._fields, 'percent_median', 'percent_most'])
    for case in CASES:
        out.writerow(line(case.floor, case.ends, [delivered(case, seed) for seed in range(1, 6)]))
        sys.stdout.flush()
    slow = [slowest(seed) for seed in range(1, 401)]
    for way in experiments_floors.ENDS:
        out.writerow(line('hall', way, [run for homes, run in slow if homes == (way == 'homes')]))


if __name__ == '__main__':
    main()
