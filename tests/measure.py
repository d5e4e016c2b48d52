"""How much is left to do, and what is proved of it, judged in logs by the definitions alone.

It is written from docs/DEFINITIONS.md and the definitions of record, crates/wh_progress/specs; what a run is tests/ends.py says. The
names are those of the definitions. `Course` takes a log entry by entry, and demands of each step and each round what the laws say.
"""
from ends import Judge, demand

LACKS_PATH = ['refused', 'E6']


class Measure:
    """What is left to do in a state, where no task has more stops than so many."""

    def __init__(self, stops):
        self.stops = stops

    def legs(self, s):
        return self.stops + 1 if s.homes else self.stops

    def span(self, s):
        return self.legs(s) * len(s.floor.cells) + 1

    def in_way(self, s):
        awaited = {task.stops[-1] for task in s.tasks if task.agent is None}
        return sum(path[-1] in awaited for path in s.paths)

    def weight(self, s):
        return open_tasks(s) if s.homes else self.in_way(s) + 2 * open_tasks(s)

    def horizon(self, s):
        return max((len(path) - 1 for path in s.paths), default=0)

    def left_to_do(self, s):
        return self.span(s) * self.weight(s) + self.horizon(s)

    def bound(self, s):
        """Of a state without homes that an opening leads to."""
        return 2 * self.span(s) * (len(s.paths) + open_tasks(s))


def open_tasks(s):
    return sum(task.agent is None for task in s.tasks)


def is_done(task):
    return task.agent is not None and not task.left()


def all_done(s):
    return all(map(is_done, s.tasks))


def due(s):
    """The agents that are."""
    return {agent for agent in range(len(s.paths)) if not s.closed and not s.ticks_until_idle(agent)}


def has_homes(s):
    kinds = {cell: kind for kind, cell in s.floor.points.values()}
    return s.homes and all(kinds[start] == 'parking' for start in s.floor.starts)


def is_of_two_places(task):
    return len(set(task.stops) - {task.stops[-1]}) <= 1


def none_can_stand(s):
    return has_homes(s) or not s.homes and all(map(is_of_two_places, s.tasks))


def may_rest(s, agent):
    """Of a run from an opening, in which nobody is stopped under way."""
    cell = s.paths[agent][-1]
    is_berth = cell in {point for _, point in s.floor.points.values()} and (not s.homes or cell == s.floor.starts[agent])
    none_is_next = s.loads[agent] is None and s.next_for(agent) is None
    return none_is_next and is_berth and (s.homes or not s.is_delivery_cell(cell))


def stands_still(s):
    return all(len(path) == 1 for path in s.paths) and all(may_rest(s, agent) for agent in range(len(s.paths)))


def is_held(s, task):
    """Two agents, which are never at one cell, are at two of its stops, neither at its last."""
    return sum(path[0] in set(task.stops) - {task.stops[-1]} for path in s.paths) >= 2


def is_formed(floor):
    cells = {cell for _, cell in floor.points.values()}
    if sum(kind == 'parking' for kind, _ in floor.points.values()) < len(floor.starts):
        return False
    for cell in cells:
        near = floor.reached(cell, cells - {cell})
        if any(not any((x + u, y + v) in near for u, v in ((1, 0), (-1, 0), (0, 1), (0, -1))) for x, y in cells - {cell}):
            return False
    return True


def most_stops(entries):
    """Of the tasks that these entries submit."""
    return max((len(line.partition(' = ')[0].split()) - 3 for line in entries if ' = accepted ' in line), default=0)


class Course:
    """A run from an opening, and its rounds, each as short as it can be."""

    def __init__(self, floor, homes, measure, clock=0):
        self.s, self.measure, self.formed = Judge(floor, homes), measure, is_formed(floor)
        self.s.clock = clock
        self.rounds = 0
        self.ends = []        # of each task that is not done: its number, and the round before which it is, less three spans for each task
        self.rest = None      # the round before which all stands still, less three spans for each task
        self.held = 0         # with how many tasks open all stood still, at most
        self.left = self.measure.left_to_do(self.s)
        self.begin()

    def three_spans(self, tasks):
        return 3 * self.measure.span(self.s) * tasks

    def begin(self):
        """A round begins."""
        s = self.s
        self.clock, self.tasks, self.asked, self.lacks_path = s.clock, len(s.tasks), set(), False
        self.due, self.old, self.still = due(s) if open_tasks(s) else set(), self.left, stands_still(s)
        known = {number for number, _ in self.ends}
        fresh = self.rounds + self.left - self.three_spans(len(s.tasks))
        self.ends += [(number, fresh) for number, task in enumerate(s.tasks) if number not in known and not is_done(task)]
        self.ends = [(number, end) for number, end in self.ends if not is_done(s.tasks[number])]
        if self.still:
            return self.stand()
        demand(self.rest is None or self.rounds < self.rest + self.three_spans(len(s.tasks)), 'all has not stood still within what was left to do')
        self.rest = fresh if self.rest is None else min(self.rest, fresh)
        return None

    def stand(self):
        """All stands still."""
        self.rest, self.held = None, max(self.held, open_tasks(self.s))
        if not self.s.homes:
            wrong = [number for number, task in enumerate(self.s.tasks) if not is_done(task) and not (task.agent is None and is_held(self.s, task))]
            demand(not wrong, f'all stands still, and the tasks {wrong} are neither done nor held')
        demand(all_done(self.s) or not none_can_stand(self.s), 'all stands still, not all is done, and none can stand')

    def take(self, line):
        """An entry."""
        event, reply = (side.split(' ') for side in line.split(' = '))
        s, old, tasks = self.s, self.left, len(self.s.tasks)
        getattr(s, event[1])(event[2:], reply)
        self.left = self.measure.left_to_do(s)
        demand(self.left <= old + self.three_spans(len(s.tasks) - tasks), f'a step raises what is left to do from {old} to {self.left}')
        if not s.homes:
            demand(self.left <= self.measure.bound(s), f'{self.left} are left to do, beyond the bound')
            most = len(s.paths) * self.measure.stops * len(s.floor.cells)
            demand(self.measure.horizon(s) <= most, 'an agent has more steps left than all passes over the map')
        if event[1] == 'token':
            self.asked.add(int(event[2]))
            self.lacks_path |= reply == LACKS_PATH
        demand(not (self.formed and self.lacks_path), 'a request is refused a path on a well-formed instance')
        if s.clock > self.clock and self.due <= self.asked and not s.closed:
            self.end_round()

    def end_round(self):
        added = len(self.s.tasks) - self.tasks
        self.rounds += 1
        fell = self.left < self.old + self.three_spans(added)
        demand(fell or self.still or self.lacks_path, f'round {self.rounds} brings what is left to do from {self.old} to {self.left}')
        if self.formed and none_can_stand(self.s):
            late = [number for number, end in self.ends if not is_done(self.s.tasks[number]) and self.rounds >= end + self.three_spans(len(self.s.tasks))]
            demand(not late, f'the tasks {late} are not done within the bound')
        if self.lacks_path:
            self.rest = None
        self.begin()

    def take_delivered(self, entries):
        """Entries by which all is delivered. Who would be told to rest does not ask there; here each that is due is told so."""
        for line in entries:
            if ' tick = ' in line:
                for agent in sorted(due(self.s) - self.asked):
                    self.take(f'0 token {agent} = rested')
            self.take(line)


# ---- the slowest run that the rules allow

def steps_to(floor, cell, stop, avoid):
    """The cells behind this one on a shortest way to a stop that avoids some cells."""
    far, way = floor.reached(stop, avoid), [cell]
    while far[way[-1]]:
        x, y = way[-1]
        way.append(next(other for other in ((x + 1, y), (x - 1, y), (x, y + 1), (x, y - 1)) if far.get(other) == far[way[-1]] - 1))
    return way[1:]


def slowest(s, agent, stops, legs):
    """The longest path for a duty: as before until all others stand, then a wait, then a way round them."""
    horizon = max((len(path) - 1 for path in s.others(agent)), default=0)
    path = [s.paths[agent][min(k, len(s.paths[agent]) - 1)] for k in range(horizon + 1)]
    way = [path[-1]]
    for stop in stops:
        way += steps_to(s.floor, way[-1], stop, s.other_ends(agent))
    return path + [path[-1]] * (legs * len(s.floor.cells) - len(way) + 1) + way[1:]


def slow_reply(s, agent):
    """What a due agent is told whose planner finds the slowest paths."""
    number = s.next_for(agent)
    if number is not None:
        tour = s.tour(agent, s.tasks[number].stops)
        return f'took {number} path {text_of(slowest(s, agent, tour, len(tour)))}'
    if s.homes or not s.is_delivery_cell(s.paths[agent][0]):
        return 'rested'
    name = min(name for name, (_, cell) in s.floor.points.items() if cell in s.allowed(agent))
    return f'parked {name} path {text_of(slowest(s, agent, [s.floor.points[name][1]], 2))}'


def text_of(path):
    return ' '.join(f'{x},{y}' for x, y in path)


def tick_reply(s):
    first = last = 0
    for path, task in zip(s.paths, s.loads):
        stops = task.left() if task else []
        count = next((k for k, stop in enumerate(stops) if stop != path[:2][-1]), len(stops))
        first += count > 0 and task.visited == 0
        last += count > 0 and count == len(stops)
    return f'clock {s.clock + 1} picked {first} dropped {last}'


def slow_entries(course, chance, most):
    """The entries of a run on from here until all stands still, or for so many rounds; who is due asks, in an order that is drawn."""
    s = course.s
    for _ in range(most):
        if course.still:
            return
        agents = list(range(len(s.paths)))
        chance.shuffle(agents)
        for agent in agents:
            if not s.ticks_until_idle(agent):
                yield f'0 token {agent} = {slow_reply(s, agent)}'
        yield f'0 tick = {tick_reply(s)}'
