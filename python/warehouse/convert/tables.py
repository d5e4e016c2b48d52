"""Tables of a run as CSV, for pandas, DuckDB, R: `tasks.csv`, a row for each task, and `paths.csv`, a row for each agent and clock.

Written from knowledge of the format (RFC 4180), not checked against its text: a line of names, then rows, with LF at their ends; an empty
field is unknown, as when a task was taken that had its agent before the log began. A stop that the floor has no more is told by its
cell, `X,Y`.
"""
from __future__ import annotations

import csv
import io
import re
from typing import Any, Iterable

from ..texts import Cell, Fault, Instance, Run, number_of
from .plans import Plan, Visit

TASKS = ['task', 'client', 'stops', 'submitted', 'taken', 'agent', 'visits', 'done', 'service']
PATHS = ['agent', 'clock', 'x', 'y', 'task', 'left']


def table(names: list[str], rows: Iterable[list[Any]]) -> str:
    out = io.StringIO()
    writer = csv.writer(out, lineterminator='\n')
    writer.writerow(names)
    writer.writerows(rows)
    return out.getvalue()


def tasks_text(run: Run) -> str:
    """Each task: its stops by name, and the clocks of what was done."""
    return table(TASKS, ([number, task.client, ' '.join(run.instance.points[stop].name for stop in task.stops), task.submitted,
                          None if task.held else task.taken,
                          task.agent, ' '.join(map(str, task.visits)), task.done, task.service_time] for number, task in enumerate(run.tasks)))


def paths_text(run: Run) -> str:
    """Where each agent is at each clock, which task it has, and how many steps are left of its path."""
    def rows() -> Iterable[list[Any]]:
        for agent in range(len(run.paths)):
            for clock in range(run.start, run.clock + 1):
                path, (x, y) = run.path_at(agent, clock), run.cell_at(agent, clock)
                yield [agent, clock, x, y, path.task, max(0, path.end - clock)]
    return table(PATHS, rows())


def read_rows(name: str, data: bytes, names: list[str]) -> list[tuple[int, dict[str, str]]]:
    """The rows of a table with these columns, each with its line. Raises Fault."""
    reader = csv.DictReader(io.StringIO(data.decode('utf-8', 'replace'), newline=''), strict=True)
    rows: list[tuple[int, dict[str, str]]] = []
    try:
        if reader.fieldnames is None or list(reader.fieldnames) != names:
            raise Fault(f'the columns are {",".join(names)}', name, 1)
        for row in reader:
            if None in row or None in row.values():
                raise Fault(f'{len(names)} fields are wanted', name, reader.line_num)
            rows.append((reader.line_num, row))
    except csv.Error as error:
        raise Fault(f'it is no CSV: {error}', name, reader.line_num) from None
    return rows


def number_in(name: str, line: int, row: dict[str, str], column: str) -> int:
    value = number_of(row[column])
    if value is None:
        raise Fault(f'`{row[column][:20]}` under {column} is no number', name, line)
    return value


def cell_of(instance: Instance, stop: str) -> Cell | None:
    """The cell of a stop: of a point by its name; of one that is gone it is told itself."""
    if stop in instance.by_name:
        return instance.cell_of(stop)
    gone = re.fullmatch(r'([0-9]{1,4}),([0-9]{1,4})', stop)
    return (int(gone[1]), int(gone[2])) if gone else None


def read_tables(instance: Instance, tasks: tuple[str, bytes], paths: tuple[str, bytes]) -> Plan:
    """The plan of both tables, the name and the bytes of each; clocks from the first of the paths on. Raises Fault."""
    plan = Plan([])
    name, first = paths[0], 0
    for line, row in read_rows(*paths, PATHS):
        agent, clock, x, y = (number_in(name, line, row, column) for column in PATHS[:4])
        if not plan.paths:
            first = clock
        if agent == len(plan.paths):
            plan.paths.append([])
        if agent != len(plan.paths) - 1 or clock - first != len(plan.paths[agent]):
            raise Fault(f'agent {agent} at clock {clock} is not the next row', name, line)
        plan.paths[agent].append((x, y))
    name = tasks[0]
    for line, row in read_rows(*tasks, TASKS):
        if number_in(name, line, row, 'task') != len(plan.tasks):
            raise Fault(f'task {len(plan.tasks)} is due', name, line)
        words = row['stops'].split(' ')
        stops = [cell for stop in words if (cell := cell_of(instance, stop))]
        if len(stops) < len(words):
            unknown = next(stop for stop in words if not cell_of(instance, stop))
            raise Fault(f'the instance has no station {unknown[:20]}', name, line)
        visits = [number_of(word) for word in row['visits'].split()]
        # those that were made before the log began, which are no visits of its plan
        before = sum(clock is not None and clock <= first for clock in visits) if row['agent'] and not row['taken'] else 0
        plan.tasks.append(stops[0 if before == len(stops) else before:])
        for number, clock_of in enumerate(visits[before:]):
            if clock_of is None or clock_of < first or number >= len(plan.tasks[-1]):
                raise Fault(f'`{row["visits"][:40]}` are no visits of its stops', name, line)
            plan.visits.append(Visit(clock_of - first, number_in(name, line, row, 'agent'), len(plan.tasks) - 1, number))
    if any(visit.agent >= len(plan.paths) or visit.time > plan.makespan for visit in plan.visits):
        raise Fault('a visit is of an agent or a clock that the paths do not have', name)
    plan.visits.sort(key=lambda visit: (visit.time, visit.task, visit.number))
    return plan
