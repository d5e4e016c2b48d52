"""Prints the figures of runs as CSV: a row of names, then one row for each log.

    ./warehouse replay --tail log < examples/shelves > shelves.out
    stats examples/shelves shelves.out

All logs are of the one instance: a log names stops, and only the instance says where these are. A log may be the
output of `replay --tail log`; what stands before it is skipped. `-` is the standard input. Clocks are counted in ticks.

    log             the name of the file
    agents          how many agents there are
    tasks           how many tasks were accepted; those that were done when the log began, with a state, count nowhere
    done            how many of them have their last stop visited
    makespan        ticks from the log's first clock to the last visit of the last task that is done
    service_mean    service time of a done task: ticks from its submission to its last visit; the mean,
    service_median  the median,
    service_p95     and the least time within which 95 of 100 done tasks were served
    per100          done tasks in 100 ticks of the makespan: an idle end of the run plays no part
    distance        steps to a neighbouring cell, of all agents together
    waits           steps of a path that stay in their cell; to rest with no steps left is no wait
    parkings        requests for the token answered `parked`: a way to a point where the agent is in no one's way
    e6              requests for the token refused for lack of a path
    ticks           how far the log's clock went
    cut             1 where the log is cut in a line, or before the last line of a run that was closed, else 0

A cell is empty where no task is done, and per100 also where the makespan is 0. Where fewer tasks are done than came in,
makespan and service times are those of the tasks done. Steps are counted that were made by the log's last clock.
"""
from __future__ import annotations

import argparse
import csv
import statistics
import sys

from ..texts import Run, read_file, read_instance, read_log, steps_made

FAULT = 1

COLUMNS = ('log agents tasks done makespan service_mean service_median service_p95 per100 distance waits parkings e6 '
           'ticks cut').split()


def row(name: str, run: Run) -> list[object]:
    tasks = [task for task in run.tasks if not task.done_before]
    served = sorted(task.service_time for task in tasks if task.service_time is not None)
    makespan = max((task.done - run.start for task in tasks if task.done is not None), default=None)
    waits = moves = 0
    for before, after in steps_made(run):
        waits += before == after
        moves += before != after
    times: list[object] = ['', '', '']
    if served:
        # the nearest rank: 95 of 100 are no later than the one at 0.95 n, rounded up
        times = [f'{statistics.mean(served):.2f}', f'{statistics.median(served):g}', served[-(-95 * len(served) // 100) - 1]]
    per100 = f'{100 * len(served) / makespan:.2f}' if makespan else ''
    return [name, len(run.paths), len(tasks), len(served), '' if makespan is None else makespan, *times, per100,
            moves, waits, run.answers['parked'], run.answers['E6'], run.clock - run.start, int(run.cut)]


def add_options(parser: argparse.ArgumentParser) -> None:
    parser.add_argument('instance', metavar='INSTANCE', help='a file with the sections map and points')
    parser.add_argument('logs', metavar='LOG', nargs='+')
    parser.add_argument('--no-header', action='store_true', help='leave out the row of names')


def run(options: argparse.Namespace) -> int:
    table = csv.writer(sys.stdout, lineterminator='\n')
    instance = read_instance(options.instance, read_file(options.instance))
    if not options.no_header:
        table.writerow(COLUMNS)
    for name in options.logs:
        found = read_log(instance, name, read_file(name))
        for clock, told, have in found.differences()[:1]:
            print(f'{name}: at clock {clock} the log counts {told[0]} picked and {told[1]} dropped, its paths give '
                  f'{have[0]} and {have[1]}', file=sys.stderr)
        table.writerow(row(name, found))
    return 0
