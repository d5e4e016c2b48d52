#!/usr/bin/env python3
"""The ten rows of docs/STAYS.md, read from the page, through the prototype: dev/peer with the word `stays`.

The prototype is built with its own checks (-DCHECK), so each path of a row, and of ten runs at chance, is compared with a plain search
through time too; and of these runs each reply is judged by the page's definitions. A row is a drawing (`/` ends its rows; small letters are stations, capitals parkings with an
agent), lines, and the replies to them; of ticks how many tasks were picked and dropped in each.

The last line is `N passed, M failed`, and the status is 1 where one failed.
"""
from __future__ import annotations

import copy
import os
import random
import re
import subprocess
import sys
import tempfile
from dataclasses import dataclass
from typing import Iterator

import peer
from docs import instance_of

ROOT = os.path.dirname(os.path.dirname(os.path.abspath(__file__)))
sys.path.insert(0, os.path.join(ROOT, 'python'))
sys.dont_write_bytecode = True

from warehouse.texts import Cell, read_instance    # noqa: E402

ROWS, RUNS = 10, 10
TICKS = re.compile(r'([0-9]+) ticks?')
DOTS = 'A.b.c'
LINES = re.compile(r'^(?:tick|token [0-9]|submit \w+(?: S[0-9]+){2,8})$', re.MULTILINE)    # of a script, with one reply each


class Row:
    def __init__(self, name: str):
        number, drawing, *rule = name.split()
        self.number, self.drawing, self.words = int(number), drawing.strip('`').replace('/', '\n') + '\n', rule
        self.lines: list[str] = []
        self.replies: list[str] = []

    def add(self, line: str, reply: str, clock: int) -> int:
        """A line of the table, at a clock; answers the clock after it."""
        ticks = TICKS.fullmatch(line)
        if not ticks:
            self.lines.append(line.strip('`'))
            self.replies.append(reply.strip('`'))
            return clock
        counts = [count.split('/') for count in reply.split()]
        assert len(counts) == int(ticks[1]), f'row {self.number}: {line} and {len(counts)} replies'
        self.lines += ['tick'] * len(counts)
        self.replies += [f'clock {clock + i} picked {picked} dropped {dropped}' for i, (picked, dropped) in enumerate(counts, 1)]
        return clock + len(counts)


def rows() -> list[Row]:
    with open(os.path.join(ROOT, 'docs/STAYS.md'), encoding='utf-8') as page:
        table = page.read().split('<!-- rows -->')[1].split('<!-- end -->')[0]
    found: list[Row] = []
    clock = 0
    for line in [line for line in table.split('\n') if line.startswith('|')][2:]:
        name, said, reply = line.strip('|').split('|') if not line.startswith('||') else ['', *line.strip('|').split('|')]
        if name:
            found.append(Row(name))
            clock = 0
        clock = found[-1].add(said, reply, clock)
    return found


def run(program: str, words: list[str], instance: str, lines: list[str]) -> list[str]:
    """What the prototype writes; the word CHECK where it found a path of its own wrong."""
    done = subprocess.run([program, *words], input=instance + '\n'.join(['%%', *lines, '']), capture_output=True, text=True, timeout=60)
    return done.stdout.split('\n')[:-1] if done.returncode == 0 else [f'status {done.returncode}', done.stderr]


def difference(found: list[str], wanted: list[str]) -> str:
    place = len(os.path.commonprefix([found, wanted]))
    return '' if found == wanted else f'line {place + 1}: {found[place:place + 1]}, and by hand {wanted[place:place + 1]}'


def by_hand(program: str) -> Iterator[tuple[str, str]]:
    """The rows of the page, and texts that none of them has."""
    found = rows()
    yield 'rows', '' if [row.number for row in found] == list(range(1, ROWS + 1)) else f'{len(found)} rows'
    for row in found:
        yield f'row {row.number}', difference(run(program, ['stays', *row.words], instance_of(row.drawing), row.lines), row.replies)
    path = ' '.join(['0,0 1,0', *['2,0'] * 101, '3,0 4,0'])
    yield 'a long stay', difference(run(program, ['stays'], instance_of(DOTS), ['submit x b:100 c', 'token 0']), ['accepted 0', f'took 0 path {path}'])
    lines = ['submit x b:02 c:0', 'urgent y c b:9999', 'submit x b:1:2 c', 'submit x:1 b c', 'submit x b c :1']
    log = ['accepted 0', 'accepted 1', *['refused C1'] * 3, '%%', 'wlog 2', 'start 0 slots 4',
           '0 submit x b:2 c = accepted 0', '0 urgent y c b:9999 = accepted 1', 'end 2']
    yield 'log', difference(run(program, ['stays', 'log'], instance_of(DOTS), lines), log)
    yield 'without the word', difference(run(program, [], instance_of(DOTS), ['submit x b:2 c', 'urgent x b c', 'submit x b c', 'token 0']),
                                         ['refused C1', 'refused C1', 'accepted 0', 'took 0 end 4'])


@dataclass
class Task:
    stops: list[tuple[Cell, int]]
    urgent: bool
    open: bool = True
    visited: int = 0

    def is_eligible(self, ends: set[Cell]) -> bool:
        return self.open and not ends & {cell for cell, _ in self.stops}


@dataclass
class Agent:
    path: list[Cell]
    task: Task | None = None
    since: int | None = None    # when the stay under way began

    def step(self) -> None:
        self.path = self.path[1:] or self.path

    def arrive(self, clock: int) -> tuple[int, int]:
        """The visits that are made now: how many tasks they pick up and deliver."""
        picked = 0
        while self.task and self.task.stops[self.task.visited][0] == self.path[0]:
            self.since = clock if self.since is None else self.since
            if clock < self.since + self.task.stops[self.task.visited][1]:
                return picked, 0
            picked += self.task.visited == 0
            self.task.visited, self.since = self.task.visited + 1, clock
            if self.task.visited == len(self.task.stops):
                self.task = self.since = None
                return picked, 1
        self.since = None
        return picked, 0

    def free_in(self, clock: int) -> int:
        """The ticks until it has no task."""
        later, ticks = copy.deepcopy(self), 0
        while later.task:
            ticks += 1
            later.step()
            later.arrive(clock + ticks)
        return ticks


class Judge:
    """Judges replies by the definitions of the page, and knows of no search."""

    def __init__(self, text: str, homes: bool):
        self.site, self.homes = read_instance('made', text.encode()), homes
        self.agents = [Agent([self.site.points[start].cell]) for start in self.site.starts]
        self.cells = {point.name: point.cell for point in self.site.points}
        self.passable = sum(self.site.is_passable((x, y)) for x in range(self.site.width) for y in range(self.site.height))
        self.tasks: list[Task] = []
        self.clock = 0

    def eligible(self, number: int) -> list[Task]:
        ends = {agent.path[-1] for other, agent in enumerate(self.agents) if other != number}
        return [task for task in self.tasks if task.is_eligible(ends)]

    def took(self, number: int, words: list[str]) -> bool:
        agent, task, eligible = self.agents[number], self.tasks[int(words[1])], self.eligible(number)
        others = max((len(other.path) - 1 for other in self.agents if other is not agent), default=0)
        path: list[Cell] = [(int(x), int(y)) for x, y in (word.split(',') for word in words[3:])]
        legs, staying = len(task.stops) + self.homes, sum(stay for _, stay in task.stops)
        good = path[0] == agent.path[0] and task in eligible and task.urgent == any(other.urgent for other in eligible)
        agent.path, agent.task, agent.since, task.open = path, task, None, False
        agent.arrive(self.clock)
        return good and agent.free_in(self.clock) <= len(path) - 1 <= others + legs * self.passable + staying

    def is_right(self, line: str, reply: str) -> bool:
        words, said = line.split(), reply.split()
        if said[0] == 'accepted':
            self.tasks.append(Task([(self.cells[name], int(stay)) for name, stay in (word.split(':') for word in words[2:])], words[0] == 'urgent'))
        elif said[0] == 'took':
            return self.took(int(words[1]), said)
        elif said[0] == 'parked':
            self.agents[int(words[1])].path = [(int(x), int(y)) for x, y in (word.split(',') for word in said[3:])]
        elif said[0] == 'clock':
            self.clock += 1
            for agent in self.agents:
                agent.step()
            counts = [agent.arrive(self.clock) for agent in self.agents]
            return said == f'clock {self.clock} picked {sum(one for one, _ in counts)} dropped {sum(one for _, one in counts)}'.split()
        elif said[:2] == ['refused', 'E5']:
            agent = self.agents[int(words[1])]
            return int(said[2]) == (agent.free_in(self.clock) if self.homes else len(agent.path) - 1) > 0
        elif said[0] == 'rested':
            return not self.eligible(int(words[1]))
        return True


def at_chance(program: str, seed: int) -> tuple[str, str]:
    """An instance of tests/peer.py with stays and urgent orders: all paths are least, by the prototype's own checks, and the rest is judged."""
    chance = random.Random(seed)
    homes = seed % 2 == 0
    text = peer.instance(chance, False, homes).decode()
    instance, _, script = text.rpartition('%%\n')
    lines = LINES.findall(script)
    for place, line in enumerate(lines):
        if line.startswith('submit'):
            words = line.split()
            words[0] = chance.choice(['submit', 'submit', 'urgent'])
            lines[place] = ' '.join(words[:2] + [f'{word}:{chance.choice([0, 1, 2, 5])}' for word in words[2:]])
    found = run(program, ['stays'] + ['homes'] * homes, instance, lines)
    judge = Judge(text, homes)
    wrong = [f'`{reply}` to `{line}`' for line, reply in zip(lines, found) if not judge.is_right(line, reply)]
    return f'seed {seed}', '\n'.join(wrong[:1]) if len(found) == len(lines) else '\n'.join(found[:2])


def main() -> int:
    passed = failed = 0
    with tempfile.TemporaryDirectory() as scratch:
        program = os.path.join(scratch, 'peer')
        subprocess.run(['g++', '-O1', '-std=c++17', '-Wall', '-Wextra', '-DCHECK', '-o', program, os.path.join(ROOT, 'dev/peer/main.cpp')], check=True)
        for name, wrong in [*by_hand(program), *(at_chance(program, seed) for seed in range(1, 1 + RUNS))]:
            passed, failed = passed + (not wrong), failed + bool(wrong)
            if wrong:
                print(f'{name}: {wrong}')
    print(f'{passed} passed, {failed} failed')
    return int(failed != 0)


if __name__ == '__main__':
    sys.exit(main())
