#!/usr/bin/env python3
"""Runs seeded instances to their ends: the figures of docs/EXPERIMENTS.md, and how far one process goes.

    experiments.py page             all that docs/EXPERIMENTS.md has, into docs/experiments-*.csv, its plots and its tables
    experiments.py floors           floors of the field, where paths end at the last stop and where they lead home
    experiments.py late             vehicles that are late
    experiments.py reach            four floors, 50 to 256 agents, an hour of one tick a second with orders kept coming
    experiments.py floors --floors packing --csv found.csv --plots .      some, and into other files

The program is --program, else that of WAREHOUSE, else crates/warehouse/out/warehouse; it runs as it is, with no launcher
between, so that its times are its own. Whether it was proved no run can tell: say it where you keep the figures.

floors and late print what they find as CSV; dev/experiments_floors.py and dev/experiments_late.py say what the columns are.

reach: at each clock as many orders are handed in as make --open of them open (as many as agents, if not named), between
stations drawn from the seed; all who are due are asked, and one tick is sent. Through the pipe, up to 1000 lines at once.
The log is asked of `verify`, after the memory was read.

    processor       of the program's process, from before a clock's first command to the reply to its tick; `most` is of
                    all ticks but the first, in which every agent asks
    wall            the same by the clock on the wall, pipe included and the client's own work not: other work on the
                    machine is in it; `missed` counts ticks above 1 second of it
    memory          resident, MB of 1,048,576 bytes: at the start, at each quarter of the ticks, and the most

Status 0, or 2 where a run could not be made.
"""
from __future__ import annotations

import argparse
import datetime
import os
import signal
import subprocess
import sys

import experiments_floors
import experiments_late
import experiments_reach
from package import ROOT, fail

from warehouse.fleet import Stop
from warehouse.process import SessionError
from warehouse.texts import Fault, number_of

BUILT = os.path.join(ROOT, 'crates', 'warehouse', 'out', 'warehouse')
DOCS = os.path.join(ROOT, 'docs')


def print_head(options: argparse.Namespace) -> None:
    with open('/proc/cpuinfo') as file:
        model = next((line.split(':', 1)[1].strip() for line in file if line.startswith('model name')), 'unknown')
    commit = subprocess.run(['git', '-C', ROOT, 'rev-parse', '--short', 'HEAD'], capture_output=True, text=True).stdout.strip()
    print(f'{datetime.date.today()}, {model}, {os.cpu_count()} processors, load {os.getloadavg()[0]:.1f}; tools at commit '
          f'{commit or "unknown"}; program {options.program}; seed {options.seed}.\n', flush=True)


def page(options: argparse.Namespace) -> None:
    """Everything that docs/EXPERIMENTS.md has, and the page."""
    options.plots = DOCS
    for name, module in (('floors', experiments_floors), ('late', experiments_late)):
        options.csv = os.path.join(DOCS, f'experiments-{name}.csv')
        module.table(options)
    subprocess.run([sys.executable, os.path.join(ROOT, 'tools', 'figures_pages.py')], check=True)


# ------------------------------------------------------------------------------------------------- the words

def numbers(text: str) -> list[int]:
    found = [number_of(word) for word in text.split(',') if word]
    if not found or None in found or 0 in found:
        raise argparse.ArgumentTypeError(f'{text}: numbers above 0 with commas between are wanted')
    return found


def positive(text: str) -> int:
    return numbers(text)[0]


def options_of_words() -> argparse.Namespace:
    parser = argparse.ArgumentParser(description=__doc__, formatter_class=argparse.RawDescriptionHelpFormatter)
    parser.add_argument('what', choices=('page', 'floors', 'late', 'reach'))
    parser.add_argument('--program', default=os.environ.get('WAREHOUSE', BUILT), metavar='FILE', help='the program (%(default)s)')
    parser.add_argument('--plots', metavar='FOLDER', help='write plots there')
    parser.add_argument('--floors', metavar='NAME,..', help=f'{", ".join(experiments_floors.FLOORS)}; of reach {", ".join(experiments_reach.FLOORS)} (all)')
    table = parser.add_argument_group('floors and late')
    table.add_argument('--csv', metavar='FILE', help='write the figures there too')
    table.add_argument('--seeds', type=positive, default=5, metavar='N', help='seeds 1 to N (%(default)s)')
    table.add_argument('--tasks', type=positive, metavar='N', help='so many orders, not those of the floor')
    table.add_argument('--runs', type=positive, default=3, metavar='N', help='replays of what was sent; the least time counts (%(default)s)')
    table.add_argument('--jobs', type=positive, default=os.cpu_count(), metavar='N', help='runs side by side (%(default)s)')
    reach = parser.add_argument_group('reach')
    reach.add_argument('--seed', type=int, default=7, help='of floor and orders (%(default)s)')
    reach.add_argument('--agents', type=numbers, metavar='N,..')
    reach.add_argument('--ticks', type=positive, default=3600, metavar='N', help='(%(default)s)')
    reach.add_argument('--open', type=positive, metavar='N', help='how many orders are kept open (as many as agents)')
    reach.add_argument('--nofollow', action='store_true', help='with `rule nofollow`')
    reach.add_argument('--planner', choices=('near', 'patient'), default='near')
    options = parser.parse_args()
    known = experiments_reach.FLOORS if options.what == 'reach' else experiments_floors.FLOORS
    options.floors = [name for name in (options.floors or ','.join(known)).split(',') if name]
    for name in options.floors:
        if name not in known:
            fail(f'--floors {name}: there are {", ".join(known)}')
    if options.seeds > len(experiments_floors.STUDENT) + 1:
        fail(f'--seeds {options.seeds}: {len(experiments_floors.STUDENT) + 1} at most')
    if not os.access(options.program, os.X_OK):
        fail(f'{options.program}: no program is there (--program, or WAREHOUSE)')
    return options


def main() -> None:
    options = options_of_words()
    if options.plots and not os.path.isdir(options.plots):
        fail(f'{options.plots}: no such folder')
    if options.what == 'reach':
        print_head(options)
        experiments_reach.table(options, experiments_floors.make)
    elif options.what == 'page':
        page(options)
    else:
        (experiments_late if options.what == 'late' else experiments_floors).table(options)


if __name__ == '__main__':
    signal.signal(signal.SIGPIPE, signal.SIG_DFL)    # `| head` ends it quietly
    try:
        main()
    except (Fault, Stop, SessionError) as fault:
        fail(str(fault))
    except OSError as error:
        fail(f'{error.filename}: {error.strerror}' if error.filename else str(error.strerror))
    except KeyboardInterrupt:
        fail('interrupted')
