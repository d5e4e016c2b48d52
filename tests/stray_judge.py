"""Judges runs that begin with any sound state, by the rules of docs/FORMATS.md alone: whether each entry is a step of the warehouse.

It is the judge of tests/ends.py, for states too at which an agent is not on its way, and like that it searches for no path: it takes each that
is valid. What it says of a log of version 3 is what `verify --wlog 3` must say.

A *stray* is a due agent that has a task, or whose path ends at no berth of its: at no point, or with homes elsewhere than at its home.

    a due agent that has a task takes that again, through the stops that are left; any other one the nearest that it may take
    a stray that has no clear way for its next task makes way, if its cell is wanted or is no berth; else that is E6
    who has no task to take rests, or makes way, if the cell is wanted or is no berth
    to make way is to go to a berth that nobody wants and where nobody's path ends; E6 where no clear way leads to one

A cell is wanted where an open task is delivered, or where an agent is still to go whose path does not lead through the stops that are left of its
task; with homes none is.
"""
import ends
from ends import Bad, demand, visits_in
from state_judge import Judge as Front


class Task(ends.Task):
    """Of a task of the state also what was done for it before."""

    def __init__(self, told):
        super().__init__(told.stops)
        self.agent, self.visited = told.agent, len(told.visits)


class Judge(ends.Judge):
    """The warehouse after the entries so far, from the state that the lines of a front have."""

    def __init__(self, site, front, homes=False):
        super().__init__(ends.Floor(site), homes)
        told = Front(self.floor, homes, None)
        flaw, self.line = told.judge(front)
        assert not flaw, f'the state is not sound: line {flaw}, {self.line}'
        self.clock, self.closed, self.paths = told.clock, told.closed, told.paths
        self.tasks = [Task(task) for task in told.tasks]
        for task in self.tasks:
            if task.agent is not None and task.left():
                self.loads[task.agent] = task

    def hear(self, entry):
        """Takes `CALLER EVENT = REPLY`, or raises Bad."""
        event, reply = (side.split(' ') for side in entry.split(' = '))
        getattr(self, event[1])(event[2:], reply)

    # ---- what the rules say of an agent

    def ticks_until_idle(self, agent):
        """Until it has no steps left; with homes, if that is sooner, until it has no task."""
        steps, task = len(self.paths[agent]) - 1, self.loads[agent]
        if not self.homes:
            return steps
        done = 0 if task is None else visits_in(task.left(), self.paths[agent])
        return steps if done is None else min(steps, done)

    def next_for(self, agent):
        own = self.loads[agent]
        return super().next_for(agent) if own is None else self.tasks.index(own)

    def is_berth(self, agent, cell):
        """Whether it may come to rest there."""
        return cell == self.floor.starts[agent] if self.homes else any(cell == there for _, there in self.floor.points.values())

    def is_halted(self, agent):
        """Whether its path does not lead through the stops that are left of its task, and to the end."""
        if self.loads[agent] is None:
            return False
        path, tour = self.paths[agent], self.tour(agent, self.loads[agent].left())
        return visits_in(tour, path) is None or path[-1] != tour[-1]

    def is_wanted(self, cell):
        if self.homes:
            return False
        return self.is_delivery_cell(cell) or any(cell in self.loads[agent].left() for agent in range(len(self.paths)) if self.is_halted(agent))

    def may_rest(self, agent, cell):
        return self.is_berth(agent, cell) and not self.is_wanted(cell)

    def allowed(self, agent):
        return {cell for _, cell in self.floor.points.values() if self.may_rest(agent, cell) and cell not in self.other_ends(agent)}

    def is_stray(self, agent):
        return self.loads[agent] is not None or not self.is_berth(agent, self.paths[agent][-1])

    def is_on_its_way(self, agent):
        return not self.is_halted(agent) and self.is_berth(agent, self.paths[agent][-1])

    # ---- a due agent's request

    def answer(self, agent, reply):
        number, here = self.next_for(agent), self.paths[agent][-1]
        if number is None:
            if self.may_rest(agent, here):
                return demand(reply == ['rested'], 'it is to rest')
            return self.make_way(agent, reply)
        if reply[0] == 'took':
            return self.take(agent, number, reply)
        demand(not self.has_way(agent, self.tour(agent, self.tasks[number].left())), f'there is a way for task {number}')
        if not self.is_stray(agent) or self.may_rest(agent, here):
            return demand(reply == ['refused', 'E6'], 'it has no way, and stays where it is')
        return self.make_way(agent, reply)


def judged(site, log, homes=False):
    """What `verify` says of a log in its format that begins with a sound state, with why."""
    front, begin, rest = log.partition('\nbegin\n')
    judge = Judge(site, front + begin, homes)
    lines = rest.split('\n')[:-2]    # the last one is `end COUNT`
    for number, line in enumerate(lines, judge.line):
        try:
            judge.hear(line)
        except Bad as why:
            return f'bad {number}', str(why)
    return f'run {len(lines)}', ''
