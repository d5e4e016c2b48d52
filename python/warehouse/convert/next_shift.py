"""Writes the instance of the next shift: the same map and points, the agents where they now rest, the tasks still open.

    ./warehouse replay --tail log < shift1 > shift1.out
    next-shift shift1.out shift1 > shift2

LOG is a log or the output of `replay --tail log`, of a run on INSTANCE; `-` is the standard input. The map is INSTANCE's,
byte for byte, and so are the points but for the `agent` lines: agent N starts at the point where it rests at LOG's end.
These lines stay in their places and in their order; one whose point is defined only further down moves behind that
line, and those after it with it. Then each open task is a `submit` line, with its client and its stops, in the order in
which they were submitted. Other sections of INSTANCE are not looked at.

Numbers of tasks and the clock begin at 0 again; a comment has each task's earlier number and clock. Orders that were
refused or never submitted are not in it: put those that are still wanted behind what this writes.

It refuses, with one line on standard error, status 1 and nothing on standard output,

    where a task is under way (assigned or carried), or an agent has steps left: it says how many ticks more, with no
    request, bring all agents to rest (docs/OPERATIONS.md says how to end a shift)
    where an agent rests at no point, or two at one
    where LOG is cut, is no log, or does not fit INSTANCE: its agents, stations, paths, or counts of visits

More of LOG is not judged: `./warehouse verify` does that (`log-input`).
"""
from __future__ import annotations

import argparse
import sys

from ..texts import Fault, Run, read_file, read_instance, read_log, sections_of
from ..texts.run import OTHER_PAIR

FAULT = 1


def steps_left(run: Run, agent: int) -> int:
    return max(0, run.paths[agent][-1].end - run.clock)


def judge_counts(name: str, run: Run) -> None:
    """Refuses a log that is cut, or counts visits that its paths do not make on this instance."""
    if run.cut:
        raise Fault('the log is cut, and what came then is not known', name)
    for clock, told, found in run.differences()[:1]:
        raise Fault(f'at clock {clock} it counts {told[0]} picked and {told[1]} dropped, its paths give '
                    f'{found[0]} and {found[1]}; {OTHER_PAIR}', name)


def judge_rest(run: Run) -> None:
    """Refuses where a task is under way or an agent has steps left."""
    left = [steps_left(run, agent) for agent in range(len(run.paths))]
    rest = f'{max(left)} more ticks, with no token, bring all agents to rest'
    for number, task in enumerate(run.tasks):
        phase = task.phase(run.clock)
        if phase in ('assigned', 'carried') and task.agent is not None:
            stands = 'its path does not lead through all stops that are left: ask for it until it takes the task again'
            remedy = stands if run.halted.get(task.agent) == number else rest
            raise Fault(f'task {number} is {phase} at clock {run.clock}: agent {task.agent} has it, '
                        f'with {left[task.agent]} steps left; {remedy}')
    for agent, steps in enumerate(left):
        if steps:
            x, y = run.cell_at(agent, run.clock)
            raise Fault(f'agent {agent} is at {x},{y} at clock {run.clock}, with {steps} steps left; {rest}')


def places(run: Run) -> list[str]:
    """Of each agent the name of the point where it rests."""
    points = {point.cell: point.name for point in run.instance.points}
    resting: dict[str, int] = {}
    for agent in range(len(run.paths)):
        x, y = run.cell_at(agent, run.clock)
        if (x, y) not in points:
            raise Fault(f'agent {agent} rests at {x},{y}, where no point is: it cannot start there; ask for it until it has parked')
        other = resting.setdefault(points[x, y], agent)
        if other != agent:
            raise Fault(f'agents {other} and {agent} both rest at {points[x, y]}, {x},{y}: this is the log of no run')
    return list(resting)


def with_starts(lines: list[str], names: list[str]) -> list[str]:
    """The points' lines, each with the CR that may end it, and with these starts of the agents in place of theirs."""
    made: list[str] = []
    ends: list[str] = []    # of the agent lines met, what ends them
    defined: set[str] = set()
    placed = 0
    for line in lines:
        words = line.split()
        if words[:1] == ['agent']:
            ends.append('\r' if line.endswith('\r') else '')
        else:
            made.append(line)
            defined.update(words[1:2] if words[:1] in (['station'], ['parking']) else [])
        # an agent line names a point that stands before it
        while placed < len(ends) and names[placed] in defined:
            made.append(f'agent {names[placed]}{ends[placed]}')
            placed += 1
    return made


def instance(data: bytes, run: Run) -> bytes:
    points = sections_of(data)[1]
    lines = data.decode('latin-1').split('\n')    # a CR at the end of a line stays
    first = points.first - 1
    made = lines[:first] + with_starts(lines[first:first + len(points.lines)], places(run)) + ['%%']
    for number, task in enumerate(run.tasks):
        if task.agent is None:
            made.append(f'# task {number} of the shift before, handed in at its clock {task.submitted}')
            made.append(' '.join(['submit', task.client, *(run.instance.points[stop].name for stop in task.stops)]))
    return ''.join(line + '\n' for line in made).encode('latin-1')


def add_options(parser: argparse.ArgumentParser) -> None:
    parser.add_argument('log', metavar='LOG')
    parser.add_argument('instance', metavar='INSTANCE')


def run(options: argparse.Namespace) -> int:
    data = read_file(options.instance)
    found = read_log(read_instance(options.instance, data), options.log, read_file(options.log))
    judge_counts(options.log, found)
    judge_rest(found)
    sys.stdout.buffer.write(instance(data, found))
    return 0
