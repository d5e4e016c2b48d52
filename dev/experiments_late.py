"""Vehicles that are late, for dev/experiments.py: orders in 100 seconds of the simulation, by how far a vehicle may be behind and how
far ahead it is told, at several spreads of speed.

Each run is that of `tools/drive.py examples/shelves --late SEED --ask number ..`, which judges that no two vehicles meet; its transcript is read again
against the log, as by `tools/play.py --vehicles .. --check`. A run that is not so, or leaves an order, ends the script with status 2.
A line of the CSV has the mean over the seeds, and per100_pm half the width of the interval of 95 percent (Student's t).
"""
from __future__ import annotations

import argparse
import functools
import io
import os
import statistics
from typing import NamedTuple, Sequence

import experiments_plot
from experiments_floors import half_width, lines, write
from package import ROOT, fail

from warehouse.simulate.drive import log_of
from warehouse.simulate.late import Plan, drive_late
from warehouse.texts import read_file, read_instance, read_log, read_orders, read_transcript

INSTANCE = os.path.join(ROOT, 'examples', 'shelves')
AHEAD, BEHIND = (1, 3), (1, 2, 8, 32)


class Speeds(NamedTuple):
    name: str
    spread: float
    stop: float    # seconds for which one vehicle stands


SPEEDS = [Speeds('all alike', 0.0, 0), Speeds('± 30 %', 0.3, 0), Speeds('± 60 %', 0.6, 0), Speeds('± 30 %, one stands 60 s', 0.3, 60)]


class Case(NamedTuple):
    """What is run once for each seed."""
    speeds: Speeds
    ahead: int
    behind: int


def per100(case: Case, seed: int, program: str) -> float:
    """One run: orders in 100 seconds."""
    data = read_file(INSTANCE)
    instance, transcript = read_instance(INSTANCE, data), io.StringIO()
    plan = Plan(seed, case.speeds.spread, case.speeds.stop, case.behind, case.ahead)
    late = drive_late([program, 'replay', '--tail', 'log'], instance, read_orders(INSTANCE, data), plan, transcript)
    run = read_log(instance, 'the log', log_of(late.core.tail))
    found = read_transcript(run, 'the transcript', transcript.getvalue().encode())
    if found.meetings or found.most_behind > case.behind or sum(map(len, found.told)) != late.steps:
        fail(f'seed {seed}, {case}: the transcript does not agree')
    return 100 * late.done / late.last_delivery


def line_of(case: Case, found: Sequence[float]) -> dict[str, str]:
    return {'speeds': case.speeds.name, 'ahead': str(case.ahead), 'behind': str(case.behind), 'seeds': str(len(found)),
            'per100': f'{statistics.mean(found):.1f}', 'per100_pm': f'{half_width(found):.1f}'}


def cases() -> list[Case]:
    return [Case(speeds, ahead, behind) for speeds in SPEEDS for ahead in AHEAD for behind in BEHIND]


def plot(folder: str, found: Sequence[dict[str, str]]) -> None:
    drawn: dict[str, list[tuple[float, float]]] = {}
    for line in found:
        if 'stands' not in line['speeds']:
            drawn.setdefault(f'{line["speeds"]}, ahead {line["ahead"]}', []).append((float(line['behind']), float(line['per100'])))
    experiments_plot.write(os.path.join(folder, 'vehicles-late.svg'), experiments_plot.Plot(
        'Orders of vehicles that are late', 'steps behind before the clock waits', 'orders in 100 s', drawn, log_x=True))


def table(options: argparse.Namespace) -> None:
    found = lines(cases(), functools.partial(per100, program=options.program), line_of, options)
    if options.csv:
        write(options.csv, found)
    if options.plots:
        plot(options.plots, found)
