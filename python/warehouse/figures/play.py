"""Makes a page that plays a run, a picture of it, or a table of where everything is.

    ./warehouse replay --tail log < examples/deliveries > run.out
    play examples/deliveries run.out > run.html

INSTANCE has the sections map and points; LOG is a log, or the output of `replay --tail log`, where what stands before
the log is skipped; `-` is the standard input. Without LOG the agents stand at their starts. The page needs no network, and
shows where agents wait (key h: waits of the plan, as `stats` counts them, up to the moment shown);
a log that is cut is played as far as it goes, and marked CUT.

When a stop is visited no log says: it is redone from the paths and compared with the counts `picked P dropped Q` of
each tick. Where they differ the page has a red banner. A visit made as a path is taken stands in no tick's counts.
The state at a clock is the one after all entries of that clock. Phases of a task: open, assigned (an agent is on its
way to the first stop), carried, done.

    --verify [PROGRAM]  has `PROGRAM verify` judge the log, and the page has its answer (default: the environment's
                        WAREHOUSE, or ./warehouse at the repository's top); without it the page has no verdict
    --svg T             a still of clock T as SVG on standard output
    --animate           the whole run as an SVG that moves by itself; for a few hundred ticks
    --check [T ..]      no picture: a line `clock T cells X,Y .. phases LETTERS` for each of the clocks, or for all: the
                        cell of each agent, and o, a, c or d for each task (`-` where there is none); then whether the
                        counts agree, and `cut` where the log is cut in a line, or before the end of a run that was closed. Status 1 where they do not agree.

    --beside INSTANCE2 LOG2
                        the page plays a second run beside the first, by one clock, which is counted from each run's first

    --vehicles TRANSCRIPT
                        also the vehicles that carried out the plan late, from what `replay --vehicles` wrote, each line behind
                        its second (`drive --late 1 --save LOG --transcript TRANSCRIPT` makes both).
                        The page then plays seconds: each vehicle, all cells that it occupies, where its plan is at the clock
                        and how many steps it is behind; tasks are carried as vehicles carry them. --svg and --check take it as
                        it is when the clock T ends; rows of --check continue with `vehicles X,Y>X,Y .. behind N ..`, cells from
                        where a vehicle is to the last it was granted. No two may ever occupy one cell: status 1 where they do

A mistake in what was given is one line on standard error with the file's line, and status 1.
"""
from __future__ import annotations

import argparse
import json
import os
import subprocess
import sys
from typing import Any

from ..session import ends_words, program
from ..texts import Execution, Fault, Run, log_text, read_file, read_instance, read_log, read_transcript, standing
from .. import web
from ..web.data import data_of, differences
from . import picture

FAULT = 1


def late_row(vehicles: Execution, clock: int) -> str:
    states = [vehicles.state(agent, clock) for agent in range(len(vehicles.run.paths))]
    cells = ' '.join('>'.join('%d,%d' % cell for cell in state.cells) for state in states)
    return f' vehicles {cells} behind {" ".join(str(state.behind) for state in states)}'


def check(run: Run, clocks: list[int], vehicles: Execution | None) -> int:
    last = vehicles.clock if vehicles else run.clock
    for clock in clocks or range(run.start, last + 1):
        if not run.start <= clock <= last:
            raise Fault(f'clock {clock} is none of {run.start} to {last}')
        cells = ' '.join('%d,%d' % run.cell_at(agent, clock) for agent in range(len(run.paths)))
        phases = ''.join(task.phase(clock)[:1] for task in run.tasks)
        print(f'clock {clock} cells {cells} phases {phases or "-"}' + (late_row(vehicles, clock) if vehicles else ''))
    wrong = differences(run)
    for line in wrong:
        print('counts differ at', line)
    if not wrong:
        print(f'counts agree in {len(run.counts)} ticks')
    if run.cut:
        print('cut')
    if vehicles:
        for meeting in vehicles.meetings:
            print('vehicles meet at', meeting)
        if not vehicles.meetings:
            steps, visits = sum(map(len, vehicles.told)), sum(map(len, vehicles.visits))
            print(f'no two vehicles meet in {vehicles.end:g} seconds: {steps} steps, {visits} visits, at most '
                  f'{vehicles.most_behind} steps behind')
    return 1 if wrong or (vehicles and vehicles.meetings) else 0


def verdict(program: str, run: Run, log: bytes) -> str:
    """What the program's `verify` says of the log of a run, under that run's rules."""
    words = ends_words('homes' if run.homes else 'stops') + ['--wlog', '3'] * (run.version == 3) + (['--age', str(run.age)] if run.age else [])
    try:
        done = subprocess.run([program, 'verify', '--unended', *words], input=run.instance.text + log, capture_output=True)
    except OSError as error:
        raise Fault(f'{program}: {error.strerror}') from None
    answer = done.stdout.decode('latin-1').strip()
    if not answer:
        raise Fault(f'{program} verify: {done.stderr.decode("latin-1").strip()} (status {done.returncode})')
    return answer


def page(runs: list[dict[str, Any]]) -> str:
    """The player with these runs in it."""
    texts = [json.dumps(run, separators=(',', ':')).replace('<', '\\u003c') for run in runs]
    data = [f'<script type="application/json" id="{name}">{text}</script>' for name, text in zip(('run', 'beside'), texts)]
    return web.page('\n'.join([*data, f"<script>\n{web.asset('player.js')}</script>", f"<script>\n{web.asset('finished.js')}</script>"]))


def add_options(parser: argparse.ArgumentParser) -> None:
    parser.add_argument('instance', metavar='INSTANCE')
    parser.add_argument('log', metavar='LOG', nargs='?')
    parser.add_argument('--verify', metavar='PROGRAM', nargs='?', const=program())
    parser.add_argument('--vehicles', metavar='TRANSCRIPT')
    parser.add_argument('--beside', metavar=('INSTANCE2', 'LOG2'), nargs=2)
    kind = parser.add_mutually_exclusive_group()
    kind.add_argument('--svg', metavar='T', type=int)
    kind.add_argument('--animate', action='store_true')
    kind.add_argument('--check', metavar='T', type=int, nargs='*')


def title(instance: str, log: str | None) -> str:
    return ', '.join(os.path.basename(name) for name in (instance, log) if name)


def beside(options: argparse.Namespace) -> list[dict[str, Any]]:
    """The run that `--beside` names, or none."""
    if not options.beside:
        return []
    name, log = options.beside
    instance = read_instance(name, read_file(name))
    data = read_file(log)
    found = read_log(instance, log, data)
    verified = verdict(options.verify, found, log_text(log, data)[1]) if options.verify else None
    return [data_of(found, title(name, log), verified, None)]


def run(options: argparse.Namespace) -> int:
    instance = read_instance(options.instance, read_file(options.instance))
    data = read_file(options.log) if options.log else None
    found = read_log(instance, options.log, data) if data is not None else standing(instance)
    if options.vehicles and (data is None or options.animate):
        raise Fault('--vehicles: it wants LOG, and no --animate')
    vehicles = read_transcript(found, options.vehicles, read_file(options.vehicles)) if options.vehicles else None
    if options.beside and (data is None or options.vehicles or options.animate or options.svg is not None or options.check is not None):
        raise Fault('--beside: it wants LOG, and a page without --vehicles')
    verified = None
    if options.verify and data is not None:
        verified = verdict(options.verify, found, log_text(options.log, data)[1])
    if options.check is not None:
        return check(found, options.check, vehicles)
    for meeting in vehicles.meetings[:1] if vehicles else []:
        print(f'{options.prog}: vehicles meet at', meeting, file=sys.stderr)
    for line in differences(found)[:1]:
        print(f'{options.prog}: counts differ at', line, file=sys.stderr)
    if options.svg is not None:
        print(picture.still(found, options.svg, vehicles))
    elif options.animate:
        print(picture.animated(found))
    else:
        print(page([data_of(found, title(options.instance, options.log if options.beside else None), verified, vehicles), *beside(options)]))
    return 0
