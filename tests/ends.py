"""Judges logs by the definitions alone, under both rules of where paths end: at the last stop, or at home (`--ends homes`).

It is written from docs/DEFINITIONS.md and docs/FORMATS.md, searches for no path, and takes each that is lawful, least or not. So
what it says of a log is what `verify` must say.
"""
from collections import deque

LAST_CLOCK, MOST_TASKS = 10 ** 9, 10 ** 6


# a row of cells with a station at each side of two places, two agents, and a parking more
CROSSING = """type octile
height 3
width 6
map
@.@.@@
......
@.@.@@
%%
parking P0 0 1
parking P1 4 1
parking P2 5 1
station A 1 0
station B 3 0
station C 1 2
station D 3 2
agent P0
agent P1
%%
"""


class Bad(Exception):
    """An entry that no run has here."""


def demand(good, why):
    if not good:
        raise Bad(why)


class Floor:
    """Map and points of an instance that is right."""

    def __init__(self, text):
        level, points = text.split('%%\n')[:2]
        rows = level.split('\n')[4:-1]
        self.cells = {(x, y) for y, row in enumerate(rows) for x, mark in enumerate(row) if mark in '.GS'}
        lines = [line.split() for line in points.split('\n') if line.split() and not line.startswith('#')]
        self.points = {words[1]: (words[0], (int(words[2]), int(words[3]))) for words in lines if words[0] in ('station', 'parking')}
        self.starts = [self.points[words[1]][1] for words in lines if words[0] == 'agent']
        self.nofollow = ['rule', 'nofollow'] in lines
        self.fields = {}

    def reached(self, cell, avoid=frozenset()):
        """The distance of each cell to which a walk leads from this one that avoids some cells, its own first too."""
        found = {} if cell in avoid else {cell: 0}
        waiting = deque(found)
        while waiting:
            x, y = waiting.popleft()
            for other in ((x - 1, y), (x + 1, y), (x, y - 1), (x, y + 1)):
                if other in self.cells and other not in avoid and other not in found:
                    found[other] = found[x, y] + 1
                    waiting.append(other)
        return found

    def distance(self, cell, stop):
        """None where no walk leads there."""
        if stop not in self.fields:
            self.fields[stop] = self.reached(stop)
        return self.fields[stop].get(cell)


class Task:
    def __init__(self, stops):
        self.stops, self.agent, self.visited = stops, None, 0

    def left(self):
        return self.stops[self.visited:]


def visits_in(stops, path):
    """How far the path goes until it has been at the stops in their order; None where it never has."""
    k = 0
    for stop in stops:
        if stop not in path[k:]:
            return None
        k = path.index(stop, k)
    return k


class Judge:
    """The warehouse after the entries so far. A path is what is left of it, from the agent's cell on."""

    def __init__(self, floor, homes):
        self.floor, self.homes = floor, homes
        self.clock, self.closed, self.tasks = 0, False, []
        self.paths = [[start] for start in floor.starts]
        self.loads = [None] * len(floor.starts)    # of each agent the task that it has

    def run(self, log):
        """Takes all entries; what `verify` says of a log in its format, with why."""
        lines = log.split('\n')[:-1]
        self.clock = int(lines[1].split()[1])
        for number, line in enumerate(lines[2:-1], 3):
            event, reply = (side.split(' ') for side in line.split(' = '))
            try:
                getattr(self, event[1])(event[2:], reply)
            except Bad as why:
                return f'bad {number}', str(why)
        return f'run {len(lines) - 3}', ''

    # ---- what the definitions say of an agent

    def others(self, agent):
        return [path for other, path in enumerate(self.paths) if other != agent]

    def other_ends(self, agent):
        return {path[-1] for path in self.others(agent)}

    def tour(self, agent, stops):
        return stops + [self.floor.starts[agent]] if self.homes else stops

    def ticks_until_idle(self, agent):
        """Without homes until it has no steps left, with them until it has no task."""
        if not self.homes:
            return len(self.paths[agent]) - 1
        return 0 if self.loads[agent] is None else visits_in(self.loads[agent].left(), self.paths[agent])

    def next_for(self, agent):
        """The task that a due agent takes: of those that are open, at no stop of which another's path ends, the nearest."""
        ends, here = self.other_ends(agent), self.paths[agent][0]
        eligible = [number for number, task in enumerate(self.tasks) if task.agent is None and not ends & set(task.stops)]
        steps = {number: self.floor.distance(here, self.tasks[number].stops[0]) for number in eligible}
        return min(eligible, key=lambda number: (steps[number] is None, steps[number], number), default=None)

    def next_to_ask(self, asked):
        """Who asks next where all is delivered: who would take the nearest order; else the first that has to make way; else none."""
        due = [agent for agent in range(len(self.paths)) if agent not in asked and not self.ticks_until_idle(agent)]
        far = {}
        for agent in due:
            number = self.next_for(agent)
            if number is not None:
                steps = self.floor.distance(self.paths[agent][0], self.tasks[number].stops[0])
                far[agent] = (steps is None, steps, agent)
        if far:
            return min(far, key=far.__getitem__)
        return next((agent for agent in due if not self.homes and self.is_delivery_cell(self.paths[agent][0])), None)

    def is_delivered(self, entries):
        """Takes entries by which all is delivered: who asks next does, once a round, then the clock ticks; and at the end nobody would
        do anything, or all stand and ask in vain."""
        asked, vain = set(), True
        for number, line in enumerate(entries):
            event, reply = (side.split(' ') for side in line.split(' = '))
            agent = self.next_to_ask(asked)
            demand(agent is not None or not self.is_at_rest(vain), f'entry {number}: nothing is left to do')
            demand(event[1:] == (['tick'] if agent is None else ['token', str(agent)]), f'entry {number}: {agent} is next to ask')
            getattr(self, event[1])(event[2:], reply)
            asked, vain = (set(), True) if agent is None else (asked | {agent}, vain and reply == ['refused', 'E6'])
        demand(self.next_to_ask(asked) is None and self.is_at_rest(vain), 'something is left to do')

    def is_at_rest(self, vain):
        """All stand, and whoever asked in this round did so in vain."""
        return vain and all(len(path) == 1 for path in self.paths)

    def is_delivery_cell(self, cell):
        return any(task.agent is None and task.stops[-1] == cell for task in self.tasks)

    def allowed(self, agent):
        """The cells where it may park."""
        cells = {cell for _, cell in self.floor.points.values()}
        return {cell for cell in cells - self.other_ends(agent) if not self.is_delivery_cell(cell)}

    def has_way(self, agent, stops):
        """Whether a walk leads from its path's end through the stops, round where the others' paths end."""
        avoid, cell = self.other_ends(agent), self.paths[agent][-1]
        for stop in stops:
            if stop not in self.floor.reached(cell, avoid):
                return False
            cell = stop
        return True

    # ---- a path

    def lawful(self, agent, path, legs):
        demand(path[0] == self.paths[agent][0], 'the path begins elsewhere')
        demand(all(cell in self.floor.cells for cell in path), 'the path meets a blocked cell')
        demand(all(abs(x - u) + abs(y - v) <= 1 for (x, y), (u, v) in zip(path, path[1:])), 'the path is no walk')
        for other in self.others(agent):
            self.apart(path, other)
        horizon = max((len(other) - 1 for other in self.others(agent)), default=0)
        demand(len(path) - 1 <= horizon + legs * len(self.floor.cells), 'the path is too long')

    def apart(self, one, other):
        for k in range(max(len(one), len(other))):
            a, b = (one[min(k, len(one) - 1)], one[min(k + 1, len(one) - 1)]), (other[min(k, len(other) - 1)], other[min(k + 1, len(other) - 1)])
            demand(a[0] != b[0] and a[1] != b[1], 'two meet')
            demand(not (a[0] == b[1] and a[1] == b[0]), 'two exchange cells')
            demand(not (self.floor.nofollow and (a[1] == b[0] or b[1] == a[0])), 'one follows another')

    def arrive(self):
        """Visits at the agents' cells: how many were the first of their task, and how many the last."""
        first = last = 0
        for agent, task in enumerate(self.loads):
            while task is not None and task.left() and task.left()[0] == self.paths[agent][0]:
                first += task.visited == 0
                task.visited += 1
                last += not task.left()
            if task is not None and not task.left():
                self.loads[agent] = None
        return first, last

    # ---- entries: the event's words and the reply's

    def submit(self, words, reply):
        names, points = words[1:], self.floor.points
        fault = next((name for name in names if points.get(name, ('',))[0] != 'station'), None)
        if self.closed:
            wanted = ['refused', 'E8']
        elif fault is not None:
            wanted = ['refused', 'E2' if fault in points else 'E1', fault]
        elif len(self.tasks) == MOST_TASKS:
            wanted = ['refused', 'E3']
        else:
            wanted = ['accepted', str(len(self.tasks))]
        demand(reply == wanted, f'{wanted} is due')
        if reply[0] == 'accepted':
            self.tasks.append(Task([points[name][1] for name in names]))

    def token(self, words, reply):
        agent = int(words[0])
        left = 0 if self.closed or agent >= len(self.paths) else self.ticks_until_idle(agent)
        if self.closed or agent >= len(self.paths) or left:
            wanted = ['refused', 'E8'] if self.closed else ['refused', 'E5', str(left)] if left else ['refused', 'E4', str(agent)]
            return demand(reply == wanted, f'{wanted} is due')
        return self.answer(agent, reply)

    def answer(self, agent, reply):
        """A due agent's request."""
        number = self.next_for(agent)
        if number is not None:
            return self.take(agent, number, reply)
        if not self.homes and self.is_delivery_cell(self.paths[agent][0]):
            return self.make_way(agent, reply)
        return demand(reply == ['rested'], 'it is to rest')

    def take(self, agent, number, reply):
        task = self.tasks[number]
        tour = self.tour(agent, task.left())
        if reply == ['refused', 'E6']:
            return demand(not self.has_way(agent, tour), f'there is a way for task {number}')
        demand(reply[:3:2] == ['took', 'path'] and reply[1] == str(number), f'task {number} is its next')
        path = cells_of(reply[3:])
        self.lawful(agent, path, len(self.tour(agent, task.stops)))
        demand(visits_in(tour, path) is not None, 'the path goes not through the stops')
        demand(path[-1] == tour[-1], 'the path ends elsewhere')
        self.paths[agent], self.loads[agent], task.agent = path, task, agent
        return self.arrive()

    def make_way(self, agent, reply):
        allowed = self.allowed(agent)
        if reply == ['refused', 'E6']:
            reached = self.floor.reached(self.paths[agent][-1], self.other_ends(agent))
            return demand(not any(cell in reached for cell in allowed), 'there is a way to park')
        demand(reply[:3:2] == ['parked', 'path'], 'it is to make way')
        path = cells_of(reply[3:])
        self.lawful(agent, path, 2)
        demand(path[-1] in allowed and self.floor.points.get(reply[1], ('', None))[1] == path[-1], 'it may not park there')
        self.paths[agent] = path
        return None

    def tick(self, words, reply):
        if self.closed or self.clock == LAST_CLOCK:
            return demand(reply == ['refused', 'E8' if self.closed else 'E7'], 'no tick is due')
        self.clock += 1
        self.paths = [path[1:] or path for path in self.paths]
        first, last = self.arrive()
        return demand(reply == f'clock {self.clock} picked {first} dropped {last}'.split(), f'{first} picked and {last} dropped')

    def replace(self, words, reply):
        known = int(words[0]) < len(self.paths)
        wanted = 'refused E8' if self.closed else f'refused E4 {words[0]}' if not known else 'refused E10' if words[1] == 'none' else (
            'refused E9' if words[1] == 'foreign' else f'replaced {words[2]}')
        demand(' '.join(reply) == wanted, f'{wanted} is due')

    def close(self, words, reply):
        demand(reply == (['refused', 'E8'] if self.closed else ['closed']), 'it closes once')
        self.closed = True


def cells_of(words):
    return [(int(x), int(y)) for x, y in (word.split(',') for word in words)]


def judged(floor, log, homes):
    """What `verify` says of a log in its format, with why."""
    return Judge(floor, homes).run(log)
