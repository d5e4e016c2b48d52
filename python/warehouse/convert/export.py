"""Writes a run, or a floor, in a format of others, reads it back, and judges it by that format's rules.

    export mrp-map INSTANCE LOG > map.yaml          libMultiRobotPlanning: the map, with agents' starts and last cells
    export mrp INSTANCE LOG > schedule.yaml         libMultiRobotPlanning: the schedule
    export planviz INSTANCE LOG > result.json       League of Robot Runners: what PlanViz plays
    export tables INSTANCE LOG --to FOLDER          tasks.csv and paths.csv
    export lif INSTANCE > floor.lif                 LIF: the floor alone, with the node names of the VDA 5050 adapter

What was written is read again before it is passed on: the same cells at the same times, all passable, no two agents in one, none
exchange cells, visits where they say. The formats of others are written from knowledge of each, not checked against its text. In a LIF
file and for the adapter a cell has --cell metres.
"""
from __future__ import annotations

import argparse
import os
import sys

from ..texts import Fault, Instance, Run, read_file, read_instance, read_log
from ..vda5050.layout import Layout
from . import lif, mrp, planviz, tables
from .plans import Plan, grid_of, judge_plan, plan_of

FORMATS = ('mrp-map', 'mrp', 'planviz', 'tables', 'lif')


def add_options(parser: argparse.ArgumentParser) -> None:
    parser.add_argument('format', choices=FORMATS)
    parser.add_argument('instance', metavar='INSTANCE')
    parser.add_argument('log', metavar='LOG', nargs='?')
    parser.add_argument('--to', metavar='FOLDER', help='where the tables go')
    parser.add_argument('--cell', type=float, default=1.0, metavar='METRES', help='the side of a cell (%(default)s)')


def written(kind: str, run: Run) -> dict[str, str]:
    """The files of a run, by name."""
    match kind:
        case 'mrp-map':
            return {'': mrp.map_text(run)}
        case 'mrp':
            return {'': mrp.schedule_text(run)}
        case 'planviz':
            return {'': planviz.text_of(run)}
    return {'tasks.csv': tables.tasks_text(run), 'paths.csv': tables.paths_text(run)}


def judge_written(kind: str, run: Run, files: dict[str, str]) -> None:
    """Reads what was written again. Raises Fault where it is not the run, or breaks a rule of the format."""
    data = {name: text.encode() for name, text in files.items()}
    wanted = plan_of(run)
    if kind == 'mrp-map':
        site = mrp.read_map_file(kind, data[''])
        found = Plan([[start, goal] for start, goal in zip(site.starts, site.goals)])
        wanted = Plan([[path[0], path[-1]] for path in wanted.paths])
    elif kind == 'mrp':
        found = mrp.read_schedule(kind, data[''], [f'agent{agent}' for agent in range(len(wanted.paths))])
    elif kind == 'planviz':
        found, _ = planviz.read_result(kind, data[''])
    else:
        found = tables.read_tables(run.instance, ('tasks.csv', data['tasks.csv']), ('paths.csv', data['paths.csv']))
    if found.paths != wanted.paths or (found.visits and len(found.visits) != len(wanted.visits)):
        raise Fault('what was written is not the run when it is read', kind)
    if kind != 'mrp-map':
        judge_plan(kind, grid_of(run), found)


def judge_layout(instance: Instance, text: str, side: float) -> None:
    """Reads a layout again. Raises Fault where it is not the floor."""
    floor = lif.read_floor('lif', text.encode(), side)
    cells = {(x, y) for y in range(instance.height) for x in range(instance.width) if instance.is_passable((x, y))}
    left, top = min(x for x, _ in cells), min(y for _, y in cells)
    stations = {point.name: (point.cell[0] - left, point.cell[1] - top) for point in instance.points if point.kind == 'station'}
    if {(x + left, y + top) for x, y in floor.cells} != cells or floor.stations != stations:
        raise Fault('what was written is not the floor when it is read', 'lif')


def run(options: argparse.Namespace) -> int:
    if not 0.01 <= options.cell <= 100:
        raise Fault(f'--cell {options.cell:g}: 0.01 to 100 can be had')
    if (options.format == 'lif') == (options.log is not None) or (options.format == 'tables') != (options.to is not None):
        raise Fault('lif takes no log, and the others want one; tables, and no other, wants --to FOLDER')
    instance = read_instance(options.instance, read_file(options.instance))
    if options.format == 'lif':
        text = lif.text_of(instance, Layout(instance.height, options.cell))
        judge_layout(instance, text, options.cell)
        sys.stdout.write(text)
        return 0
    made = read_log(instance, options.log, read_file(options.log))
    files = written(options.format, made)
    judge_written(options.format, made, files)
    if options.to is None:
        sys.stdout.write(files[''])
        return 0
    os.makedirs(options.to, exist_ok=True)
    for name, text in files.items():
        with open(os.path.join(options.to, name), 'w', encoding='utf-8', newline='') as file:
            file.write(text)
    return 0
