"""Judges states, with which a log of version 3 may begin, by docs/FORMATS.md alone: sound, or the first line that is not, and why.

A line's flaws are tested in the order S1 to S11. One flaw of an agent's line is tested behind all lines: that its slots are none of 2 to 64,
which is S1.
"""
import re

import ends

NUMBER = '(0|[1-9][0-9]{0,8})'
CLOCK = '(0|[1-9][0-9]{0,9})'
WIDE = '(0|[1-9][0-9]{0,19})'
NAME = '[A-Za-z0-9_-]{1,16}'
CELLS = r'((?:0|[1-9][0-9]{0,4}),(?:0|[1-9][0-9]{0,4})(?: (?:0|[1-9][0-9]{0,4}),(?:0|[1-9][0-9]{0,4}))*)'
FORMS = {
    'wlog': re.compile('wlog 3'),
    'after': re.compile(f'after (?:0|{NUMBER} {WIDE} [0-9a-f]{{64}})'),
    'rules': re.compile(f'rules (?:ends (homes)|(?:ends (homes) )?age {CLOCK})'),
    'state': re.compile(f'state {CLOCK} (open|closed) (whole|stopped|edited)'),
    'entries': re.compile(f'entries((?: {NUMBER}:{WIDE})*)'),
    'agents': re.compile(f'agents {NUMBER}'),
    'agent': re.compile(f'agent slots {CLOCK} path {CELLS}'),
    'tasks': re.compile(f'tasks {NUMBER}'),
    'task': re.compile(f'task {NUMBER} ({NAME}) {CLOCK} (?:(open)|agent {NUMBER}(?: visits ({CLOCK}(?: {CLOCK})*))?) stops {CELLS}'),
    'begin': re.compile('begin'),
}


class Flaw(Exception):
    """Why the line that is read is in no sound state."""


class Task:
    def __init__(self, submitted, agent, visits, stops):
        self.submitted, self.agent, self.visits, self.stops = submitted, agent, visits, stops

    def left(self):
        return self.stops[len(self.visits):]


def pairs(text):
    return [tuple(int(side) for side in word.split(',')) for word in text.split(' ')]


class Judge:
    """A state over a floor, as far as it was read, by the rules of the options."""

    def __init__(self, floor, homes, age):
        self.floor, self.rules = floor, (homes, age)
        self.stations = {cell for kind, cell in floor.points.values() if kind == 'station'}
        self.due, self.agents_left, self.tasks_left = ('wlog',), 0, 0
        self.clock, self.closed, self.paths, self.slots, self.tasks, self.lines = 0, False, [], [], [], []

    def judge(self, text):
        """The number of the first line that is in no sound state, and why; or 0, and the number of the line behind the state."""
        lines = text.split('\n')
        for number, line in enumerate(lines, 1):
            if not self.due:
                return self.judge_slots() or (0, number)
            try:
                self.take(line, number == len(lines), number)
            except Flaw as flaw:
                return number, str(flaw)
        raise AssertionError

    def take(self, line, is_torn, number):
        word = line.split(' ')[0]
        found = FORMS[word].fullmatch(line) if word in FORMS and not is_torn else None
        if not found or not getattr(self, 'fits_' + word, lambda *_: True)(*found.groups()):
            raise Flaw('S1')
        if word not in self.due:
            wrong = (self.due[0], word) in {('agent', 'tasks'), ('tasks', 'agent'), ('task', 'begin'), ('begin', 'task')}
            raise Flaw('S2' if wrong else 'S1')
        getattr(self, 'on_' + word)(*found.groups())
        if word == 'agent':
            self.lines.append(number)

    # ---- ranges of a line that is in its form

    def fits_after(self, number, size):
        return number is None or int(number) >= 1 and int(size) < 2 ** 64

    def fits_rules(self, one, other, age):
        return age is None or 1 <= int(age) <= 10 ** 9

    def fits_state(self, clock, *_):
        return int(clock) <= 10 ** 9

    def fits_entries(self, words, *_):
        counts = [tuple(int(side) for side in word.split(':')) for word in words.split()]
        callers = [caller for caller, _ in counts]
        return callers == sorted(set(callers)) and all(caller <= 63 and 1 <= count < 2 ** 64 for caller, count in counts)

    def fits_agents(self, count):
        return 1 <= int(count) <= 256

    def fits_agent(self, slots, cells):
        return int(slots) < 2 ** 32 and max(map(max, pairs(cells))) < 2 ** 16

    def fits_tasks(self, count):
        return int(count) <= 10 ** 6

    def fits_task(self, caller, client, submitted, is_open, agent, visits, *rest):
        clocks, stops = [int(word) for word in (visits or '').split()], pairs(rest[-1])
        return (int(caller) <= 63 and max(clocks + [int(submitted)]) <= 10 ** 9 and max(map(max, stops)) < 2 ** 16
                and 2 <= len(stops) <= 8 and len(clocks) <= len(stops))

    # ---- a line that is due: what is wrong with it, in the order of the tests

    def on_wlog(self):
        self.due = ('after',)

    def on_after(self, *_):
        self.due = ('rules', 'state')

    def on_rules(self, one, other, age):
        if (bool(one or other), None if age is None else int(age)) != self.rules:
            raise Flaw('S11')
        self.due = ('state',)

    def on_state(self, clock, is_open, *_):
        if len(self.due) == 2 and self.rules != (False, None):
            raise Flaw('S11')
        self.clock, self.closed, self.due = int(clock), is_open == 'closed', ('entries',)

    def on_entries(self, *_):
        self.due = ('agents',)

    def on_agents(self, count):
        if int(count) != len(self.floor.starts):
            raise Flaw('S2')
        self.agents_left, self.due = int(count), ('agent',)

    def on_agent(self, slots, cells):
        path = pairs(cells)
        for cell in path:
            if cell not in self.floor.cells:
                raise Flaw('S3 %d,%d' % cell)
        if any(abs(x - u) + abs(y - v) > 1 for (x, y), (u, v) in zip(path, path[1:])):
            raise Flaw('S4')
        for agent, other in enumerate(self.paths):
            if not self.apart(path, other):
                raise Flaw(f'S5 {agent}')
        self.paths.append(path)
        self.slots.append(int(slots))
        self.due = ('agent',) if len(self.paths) < self.agents_left else ('tasks',)

    def apart(self, one, other):
        """Whether they never meet, exchange cells or, by the rule, follow, up to the time from which both stand, and so for ever."""
        def at(path, k):
            return path[min(k, len(path) - 1)]
        for k in range(max(len(one), len(other))):
            a, b, c, d = at(one, k), at(one, k + 1), at(other, k), at(other, k + 1)
            if a == c or (a == d and b == c) or (self.floor.nofollow and (b == c or d == a)):
                return False
        return True

    def on_tasks(self, count):
        self.tasks_left, self.due = int(count), ('task',) if int(count) else ('begin',)

    def on_task(self, caller, client, submitted, is_open, agent, visits, *rest):
        task = Task(int(submitted), None if agent is None else int(agent), [int(word) for word in (visits or '').split()], pairs(rest[-1]))
        if task.left():
            for cell in task.stops:
                if cell not in self.stations:
                    raise Flaw('S6 %d,%d' % cell)
        clocks = [task.submitted, *task.visits, self.clock]
        if clocks != sorted(clocks):
            raise Flaw('S7')
        if task.agent is not None and task.agent >= len(self.paths):
            raise Flaw(f'S8 {task.agent}')
        if task.agent is not None and task.left():
            other = self.own(task.agent)
            if other is not None:
                raise Flaw(f'S9 {other}')
            if task.left()[0] == self.paths[task.agent][0]:
                raise Flaw(f'S10 {len(self.tasks)}')
        self.tasks.append(task)
        self.due = ('task',) if len(self.tasks) < self.tasks_left else ('begin',)

    def on_begin(self):
        self.due = ()

    def own(self, agent):
        """The task of the agent of which stops are left."""
        return next((number for number, task in enumerate(self.tasks) if task.agent == agent and task.left()), None)

    def judge_slots(self):
        return next(((line, 'S1') for line, slots in zip(self.lines, self.slots) if not 2 <= slots <= 64), None)


def judged(site, text, homes=False, age=None):
    return Judge(ends.Floor(site), homes, age).judge(text)
