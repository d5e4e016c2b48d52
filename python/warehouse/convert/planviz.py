"""The League of Robot Runners' result files (JSON), which PlanViz plays: agents that go to neighbours, action model `MAPF`.

Written from knowledge of the format, not checked against its text. A place is `[ROW, COLUMN]`; the actions of an agent are letters with
commas: U, D, L and R to the neighbour above, below, left and right, W to wait. A task is `[NUMBER, RELEASE, [ROW, COLUMN, ..]]`, an event
`[TIME, AGENT, TASK, STOPS MADE]`, an entry of a schedule `TIME:TASK`.
"""
from __future__ import annotations

import json
from typing import Any

from ..json_texts import Json, read_json
from ..texts import Cell, Fault, Run
from .plans import Plan, Visit, plan_of

STEPS: dict[str, Cell] = {'W': (0, 0), 'R': (1, 0), 'L': (-1, 0), 'D': (0, 1), 'U': (0, -1)}
LETTERS = {step: letter for letter, step in STEPS.items()}
NUMBERS: Json = {'type': 'array', 'items': {'type': 'integer', 'minimum': 0}}
FORM: Json = {
    'type': 'object', 'required': ['actionModel', 'teamSize', 'start', 'actualPaths', 'numTaskFinished', 'makespan', 'tasks', 'events'],
    'properties': {'actionModel': {'enum': ['MAPF']}, 'teamSize': {'type': 'integer', 'minimum': 1}, 'numTaskFinished': {'type': 'integer', 'minimum': 0},
                   'makespan': {'type': 'integer', 'minimum': 0}, 'start': {'type': 'array', 'items': {'type': 'array', 'minItems': 2}},
                   'actualPaths': {'type': 'array', 'items': {'type': 'string', 'pattern': '^([UDLRW](,[UDLRW])*)?$'}},
                   'tasks': {'type': 'array', 'items': {'type': 'array', 'minItems': 3}}, 'events': {'type': 'array', 'items': NUMBERS}}}


def text_of(run: Run) -> str:
    """The result file of a run."""
    plan = plan_of(run)
    actions = [','.join(LETTERS[b[0] - a[0], b[1] - a[1]] for a, b in zip(path, path[1:])) for path in plan.paths]
    taken: list[list[tuple[int, int]]] = [[] for _ in plan.paths]
    for number, task in enumerate(run.tasks):
        if task.agent is not None and task.taken is not None and not task.done_before:
            taken[task.agent].append((task.taken - run.start, number))
    schedule = [','.join(f'{time}:{task}' for time, task in sorted(rows)) for rows in taken]
    return json.dumps({
        'actionModel': 'MAPF', 'version': '2024 LoRR', 'AllValid': 'Yes', 'teamSize': len(plan.paths),
        'start': [[path[0][1], path[0][0], 'E'] for path in plan.paths], 'numTaskFinished': sum(task.done is not None and not task.done_before for task in run.tasks),
        'sumOfCost': len(plan.paths) * plan.makespan, 'makespan': plan.makespan, 'actualPaths': actions, 'plannerPaths': actions,
        'plannerTimes': [], 'errors': [], 'scheduleErrors': [], 'actualSchedule': schedule, 'plannerSchedule': schedule,
        'events': [[visit.time, visit.agent, visit.task, visit.number + 1] for visit in plan.visits],
        'tasks': [[number, max(0, task.submitted - run.start), [side for x, y in plan.tasks[number] for side in (y, x)]]
                  for number, task in enumerate(run.tasks)]}, separators=(',', ':')) + '\n'


def read_result(name: str, data: bytes) -> tuple[Plan, Json]:
    """The plan of a result file, and the file. Raises Fault where it is none, or its numbers are not those of its plan."""
    result = read_json(name, data, FORM)
    plan = Plan([path_of(start, actions) for start, actions in zip(result['start'], result['actualPaths'])])
    try:
        plan.tasks = [stops_of(task) for task in result['tasks']]
        plan.visits = [Visit(time, agent, task, made - 1) for time, agent, task, made in result['events']]
    except (TypeError, ValueError):
        raise Fault('a task is no [NUMBER, RELEASE, [ROW, COLUMN, ..]], or an event no [TIME, AGENT, TASK, MADE]', name) from None
    judge_numbers(name, plan, result)
    return plan, result


def path_of(start: list[Any], actions: str) -> list[Cell]:
    """The cells of an agent."""
    path: list[Cell] = [(start[1], start[0])]
    for letter in actions.split(',') if actions else ():
        path.append((path[-1][0] + STEPS[letter][0], path[-1][1] + STEPS[letter][1]))
    return path


def stops_of(task: list[Any]) -> list[Cell]:
    places = [int(side) for side in task[2]]
    return [(x, y) for y, x in zip(places[::2], places[1::2], strict=True)]


def judge_numbers(name: str, plan: Plan, result: Json) -> None:
    """Raises Fault where a number in the file is not that of its plan."""
    for visit in plan.visits:
        if not (visit.task < len(plan.tasks) and 0 <= visit.number < len(plan.tasks[visit.task]) and visit.agent < len(plan.paths) and visit.time <= plan.makespan):
            raise Fault(f'the event at time {visit.time} names agent {visit.agent} and task {visit.task}, and there is no such', name)
    done = sum(visit.number == len(plan.tasks[visit.task]) - 1 for visit in plan.visits)
    for key, found in (('teamSize', len(plan.paths)), ('makespan', plan.makespan), ('numTaskFinished', done)):
        if result[key] != found:
            raise Fault(f'{key} is {result[key]}, and its plan gives {found}', name)
