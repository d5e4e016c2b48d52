"""Runs as the player takes them (`load` of player.js): plain lists and numbers, written as JSON."""
from __future__ import annotations

import bisect
from typing import Any, Iterable

from ..texts import PASSABLE, Cell, Execution, Instance, Path, Run, Task

LETTERS = {(0, 0): '.', (1, 0): 'R', (-1, 0): 'L', (0, 1): 'D', (0, -1): 'U'}


def letters(cells: list[Cell]) -> str:
    """A path as a letter for each step."""
    return ''.join(LETTERS[b[0] - a[0], b[1] - a[1]] for a, b in zip(cells, cells[1:]))


def run_lengths(rows: list[str]) -> str:
    """How many cells are passable, then how many blocked, and so on, row by row."""
    lengths, free = [0], True
    for row in rows:
        for cell in row:
            if (cell in PASSABLE) != free:
                free = not free
                lengths.append(0)
            lengths[-1] += 1
    return ' '.join(map(str, lengths))


def differences(run: Run) -> list[str]:
    return [f'clock {clock}: the log counts picked {told[0]} dropped {told[1]}, the paths give picked {found[0]} dropped {found[1]}'
            for clock, told, found in run.differences()]


def way_of(path: Path) -> list[Any]:
    """Its clock, first cell, task, point (-1: none) and letters."""
    return [path.clock, *path.cells[0], -1 if path.task is None else path.task, -1 if path.point is None else path.point, letters(path.cells)]


def task_of(task: Task) -> list[Any]:
    """Client, stops, clock of its submission, agent and clock when it was taken (-1: none), clocks of its visits."""
    return [task.client, task.stops, task.submitted, -1 if task.agent is None else task.agent, -1 if task.taken is None else task.taken,
            task.visits]


def floor_of(instance: Instance, title: str) -> dict[str, Any]:
    return {'title': title, 'width': instance.width, 'height': instance.height, 'floor': run_lengths(instance.rows), 'nofollow': instance.nofollow,
            'points': [[point.kind[0], point.name, *point.cell] for point in instance.points]}


def front_of(run: Run, numbers: Iterable[int]) -> dict[str, Any] | None:
    """The state with which the log begins: the log's number in its chain, the state's clock and kind, entries before, and those of these
    tasks that were done before. None where it begins with none."""
    if run.front is None:
        return None
    return {'log': run.front.after + 1, 'clock': run.start, 'kind': run.front.kind, 'entries': run.earlier,
            'done': [number for number in numbers if run.tasks[number].done_before]}


def data_of_vehicles(vehicles: Execution | None) -> dict[str, Any] | None:
    """Seconds are in hundredths; steps are clocks, and `base` is the first one."""
    if vehicles is None:
        return None
    pairs = [[[[round(100 * second), step] for second, step in steps] for steps in lists] for lists in (vehicles.told, vehicles.came)]
    waits: list[list[int]] = []    # from a refused tick to the next that was made
    for second, agent in vehicles.held:
        until = vehicles.run.start + bisect.bisect_right(vehicles.ticks, second)
        end = round(100 * vehicles.second(until))
        if not waits or waits[-1][1] != end:
            waits.append([round(100 * second), end, agent])
    return {'base': vehicles.run.start, 'end': round(100 * vehicles.end), 'ticks': [round(100 * second) for second in vehicles.ticks], 'go': pairs[0],
            'at': pairs[1], 'visits': [[round(100 * second) for second, _ in visits] for visits in vehicles.visits],
            'held': waits, 'most': vehicles.most_behind, 'meetings': [str(meeting) for meeting in vehicles.meetings[:20]]}


def data_of(run: Run, title: str, verified: str | None, vehicles: Execution | None) -> dict[str, Any]:
    return floor_of(run.instance, title) | {
        'start': 0 if vehicles else run.start, 'clock': run.clock, 'cut': run.cut, 'entries': run.entries, 'verified': verified,
        'front': front_of(run, range(len(run.tasks))),
        'differ': differences(run)[:20], 'answers': dict(run.answers), 'ways': [[way_of(path) for path in paths] for paths in run.paths],
        'tasks': [task_of(task) for task in run.tasks], 'events': run.events, 'vehicles': data_of_vehicles(vehicles),
    }
