"""A fleet over a session: who is asked when, and the one loop that asks and ticks.

    with Session('floor') as core:
        fleet = Fleet(core, read_orders('floor', read_file('floor')))
        print(fleet.run() or 'all is delivered')

A policy decides who is asked, and when an order is handed in: `nearest_first`, the default, `by_number`, `hold`, and the
client's own `Queue`.
"""
from __future__ import annotations

import functools
import time
from array import array
from collections import OrderedDict, deque
from typing import Callable, Iterable, Iterator, NoReturn, Protocol, Sequence

from .refusals import SENTENCES
from .replies import Accepted, Clock, Parked, Refused, Reply, Rested, Took
from .session import Session
from .pipe import shortened
from .texts import Cell, Fault, Instance, Order, Run, along

LEFT_OUT = ('E1', 'E2', 'E3')    # refusals of an order that end no run
MOST_FIELDS = 1024               # distance fields that are kept
HELPER = 'helper'                # the client of helper orders
FAR = 1 << 30                    # the distance where there is no walk


class Stop(Exception):
    """The run cannot go on. Sound: the program still answers, and may be asked for its log."""

    def __init__(self, message: str, sound: bool = False):
        super().__init__(message)
        self.sound = sound


class Judge(Protocol):
    """Who looks at what a fleet hears, and raises Fault where that is no run."""

    def hear(self, line: str, reply: str) -> None:
        """A command and its reply that the fleet goes by."""

    def step(self) -> None:
        """A tick is to be sent."""


class Distances:
    """Steps between cells on the map without agents; FAR where there is no walk."""

    def __init__(self, instance: Instance):
        self.instance = instance
        self.across = instance.width + 2    # cells are kept row by row, with a border of blocked ones
        self.fields: OrderedDict[Cell, array[int]] = OrderedDict()

    def __call__(self, start: Cell, end: Cell) -> int:
        field = self.fields.get(end)
        if field is None:
            field = self.fields[end] = self.field(end)
            if len(self.fields) > MOST_FIELDS:
                self.fields.popitem(last=False)
        return field[self.number(start)]

    def number(self, cell: Cell) -> int:
        return (cell[1] + 1) * self.across + cell[0] + 1

    @functools.cached_property
    def passable(self) -> bytes:
        sides = range(-1, self.instance.height + 1), range(-1, self.instance.width + 1)
        return bytes(self.instance.is_passable((x, y)) for y in sides[0] for x in sides[1])

    def field(self, end: Cell) -> array[int]:
        """Of each cell, by its number, the distance to this one."""
        passable, beside = self.passable, (1, -1, self.across, -self.across)
        field = array('l', [FAR]) * len(passable)
        field[self.number(end)] = 0
        waiting = deque([self.number(end)])
        while waiting:
            cell = waiting.popleft()
            steps = field[cell] + 1
            for step in beside:
                if passable[cell + step] and field[cell + step] == FAR:
                    field[cell + step] = steps
                    waiting.append(cell + step)
        return field


class Fleet:
    """The plan as the replies tell it, and the orders that are not handed in yet.

    Over a session that goes on with a run it begins with what that run's entries tell.
    """

    def __init__(self, core: Session, orders: Iterable[Order] = (), policy: Callable[[Fleet], None] | None = None, batch: int = 1,
                 judge: Judge | None = None, listen: Callable[[str, Reply], None] | None = None, helpers: bool = False, state: Run | None = None):
        """`orders` by their release; `batch` is how many commands are written at once; `judge` sees what the fleet goes by, and
        `listen` is called with each command and its reply before that. With `helpers` a standstill is ended by orders of the client
        `helper`, as `help` says. `state` is that with which the session's log begins (`core.state`), where it is no opening."""
        self.core, self.instance, self.batch, self.judge, self.listen = core, core.instance, batch, judge, listen
        self.policy, self.helpers = policy or nearest_first, helpers
        self.helped: set[tuple[int, int]] = set()    # open orders, and whom a helper order sent away for each
        self.waiting = deque(orders)
        self.distance = Distances(self.instance)
        agents = len(self.instance.starts)
        self.clock = 0
        self.due = [0] * agents      # the clock from which it may be asked for
        self.still = [0] * agents    # the clock at which it has no steps left: where paths go on home it may be due before
        self.ways: list[tuple[int, Sequence[Cell]]] = []    # its path, and the clock when it was taken up; no cells by short replies
        self.ends = [self.instance.points[start].cell for start in self.instance.starts]    # where its path ends
        self.ways += [(0, (end,)) for end in self.ends]
        self.again = [0] * agents    # the clock from which it may ask again after `refused E6`
        # Rested, and also E6, last as long as no order comes in and no path is taken up: such changes are counted, and
        # an agent keeps at which count it was told to rest, or had E6 first.
        self.changes = 0
        self.rested: list[int | None] = [None] * agents
        self.barred: list[int | None] = [None] * agents
        self.tasks: list[Order] = []     # of each task its order
        self.stops: list[list[Cell]] = []
        self.open: set[int] = set()
        self.left_out: list[str] = []    # orders that were refused, with their replies
        self.held: int | None = None     # the vehicle for which the clock waits
        self.commands = self.requests = self.refused = 0
        self.seconds = 0.0               # of wall time, spent on requests
        # of agents whose paths do not lead through all stops left of their task, that task and these stops
        self.halted: dict[int, tuple[int, list[Cell]]] = {}
        self.homes = False               # whether a state says that paths go on home
        self.has_state = state is not None
        self.accepted = 0                # orders that it has handed in
        if state:
            self.begin_with(state)
        for entry in core.begun:
            self.hear_entry(entry.command, entry.reply)

    def begin_with(self, state: Run) -> None:
        """Begins where a state has its agents and tasks."""
        cells = [point.cell for point in state.instance.points]
        self.clock, self.homes = state.clock, bool(state.homes)
        for agent, (path,) in enumerate(state.paths):
            self.due[agent], self.still[agent], self.ends[agent] = path.free, path.end, path.cells[-1]
            self.ways[agent] = path.clock, path.cells
        for task in state.tasks:
            names = [state.instance.points[stop].name for stop in task.stops]
            self.tasks.append(Order(task.submitted, ' '.join(['submit', task.client, *names])))
            self.stops.append([cells[stop] for stop in task.stops])
        self.open = {number for number, task in enumerate(state.tasks) if task.agent is None}
        self.halted = {agent: (number, self.stops[number][len(state.tasks[number].visits):]) for agent, number in state.halted.items()}

    # ---- what is asked

    def ask(self, lines: Sequence[str]) -> Iterator[tuple[str, Reply]]:
        """Each command with its reply; a batch is written when the replies to the one before have been taken."""
        for first in range(0, len(lines), self.batch):
            batch = lines[first:first + self.batch]
            began = time.perf_counter()
            replies = self.core.ask_all(batch)
            self.commands += len(batch)
            if batch[0].startswith('token '):
                self.requests += len(batch)
                self.seconds += time.perf_counter() - began
            for line, reply in zip(batch, replies):
                self.refused += isinstance(reply, Refused)
                if self.listen:
                    self.listen(line, reply)
                yield line, reply

    def due_orders(self) -> list[Order]:
        """The orders that are released, which wait no longer."""
        due = []
        while self.waiting and self.waiting[0].release <= self.clock:
            due.append(self.waiting.popleft())
        return due

    def hand_in(self, orders: Sequence[Order]) -> list[int | None]:
        """Hands the orders in; of each the task that it is, None where it was refused."""
        return [self.hear_order(order, reply) for order, (_, reply) in zip(orders, self.ask([order.line for order in orders]))]

    def request(self, agents: Sequence[int]) -> list[Reply]:
        """Asks the token for these agents, in their order."""
        replies = []
        for agent, (line, reply) in zip(agents, self.ask([f'token {agent}' for agent in agents])):
            self.hear_answer(agent, line, reply)
            replies.append(reply)
        return replies

    def tick(self) -> bool:
        """Lets the clock go on; False where it waits for a vehicle, which `held` names."""
        if self.judge:
            try:
                self.judge.step()
            except Fault as fault:
                raise Stop(f'no tick is sent: {fault}') from None
        (_, reply), = self.ask(['tick'])
        match reply:
            case Clock(now, _, _) if now == self.clock + 1:
                self.hear('tick', reply)
                self.clock, self.held = now, None
                return True
            case Refused('V1', (int(agent), _)):
                self.held = agent
                return False
        stop_at('tick', reply)

    # ---- what is heard

    def hear(self, line: str, reply: Reply) -> None:
        """Has it judged, where there is a judge."""
        if self.judge:
            try:
                self.judge.hear(line, str(reply))
            except Fault as fault:
                raise Stop(f'`{shortened(str(reply))}` came to `{line}`, and {fault}') from None

    def hear_order(self, order: Order, reply: Reply) -> int | None:
        match reply:
            case Accepted(task) if task == len(self.tasks) and self.are_known(order):
                self.hear(order.line, reply)
                self.open.add(task)
                self.accepted += 1
                self.tasks.append(order)
                self.stops.append(self.stops_of(order))
                self.changes += 1
                return task
            case Refused(code) if code in LEFT_OUT:
                self.left_out.append(f'`{order.line}` is left out: {reply}')
                return None
        stop_at(order.line, reply)

    def hear_answer(self, agent: int, line: str, reply: Reply) -> None:
        match reply:
            case Rested():
                self.rested[agent] = self.changes
            case Refused('E6'):
                # at the second time with nothing changed between, it is as lasting as a rest; but for one that walks, for which
                # another order may be the nearest soon; and for a stray while others walk, which may come to stops that it must keep free
                self.again[agent] = self.clock + 1
                waits = self.still[agent] > self.clock or self.is_stray(agent) and self.under_way() > 0
                self.rested[agent] = self.changes if self.barred[agent] == self.changes and not waits else None
                self.barred[agent] = self.changes
            case Took(task):
                own = self.halted.get(agent)
                if task != own[0] if own else task not in self.open:
                    raise Stop(f'`{shortened(str(reply))}` came to `{line}`, and ' + (f'agent {agent} has task {own[0]}' if own else f'no task {task} is open'))
                self.hear(line, reply)
                self.goes(agent, reply)
                self.open.discard(task)
                self.halted.pop(agent, None)
            case Parked(point):
                if point not in self.instance.by_name:
                    raise Stop(f'`{shortened(str(reply))}` came to `{line}`, and the instance has no point {point}')
                self.hear(line, reply)
                self.goes(agent, reply)
                if agent in self.halted:
                    self.pass_by(agent, reply.cells)
            case _:
                stop_at(line, reply)

    def goes(self, agent: int, reply: Took | Parked) -> None:
        self.ends[agent] = reply.cells[-1] if reply.cells else self.end_of(reply)
        self.due[agent] = self.clock + self.busy(agent, reply, self.ends[agent])
        self.still[agent] = self.clock + reply.steps
        self.ways[agent] = self.clock, reply.cells
        self.changes += 1

    def pass_by(self, agent: int, cells: Sequence[Cell]) -> None:
        """A path on which it makes way may come to stops that are left of its task."""
        number, left = self.halted.pop(agent)
        if left := left[len(along(left, cells)):]:
            self.halted[agent] = number, left

    def busy(self, agent: int, reply: Took | Parked, end: Cell) -> int:
        """For how many ticks it may not be asked for: to the end of its path; or, where that goes on home, to the last stop; none where it
        goes home without a task."""
        if self.homes and isinstance(reply, Parked) and agent not in self.halted:
            return 0
        stops = [end] if isinstance(reply, Parked) else self.halted[agent][1] if agent in self.halted else self.stops[reply.task]
        if end == stops[-1]:
            return reply.steps
        try:
            step = 0
            for stop in stops:
                step = reply.cells.index(stop, step)
            return step
        except ValueError:
            raise Stop(f'`{shortened(str(reply))}` does not go through its stops') from None

    def end_of(self, reply: Took | Parked) -> Cell:
        """Where a path ends by a short reply: at its task's last stop, or at the point."""
        return self.instance.cell_of(reply.point if isinstance(reply, Parked) else self.tasks[reply.task].stops[-1])

    def hear_entry(self, command: str, reply: Reply) -> None:
        """An entry of the run that the session goes on with."""
        match command.split(' '), reply:
            case ['submit', *_], Accepted():
                self.hear_order(Order(self.clock, command), reply)
            case ['token', agent], Took() | Parked() | Rested() | Refused('E6'):
                self.hear_answer(int(agent), command, reply)
            case ['tick'], Clock(now):
                self.hear(command, reply)
                self.clock = now

    # ---- what is known

    def may_ask(self, agent: int) -> bool:
        """Whether the agent is due, and its answer not known."""
        is_asking = bool(self.open) or self.is_stray(agent) or self.ends[agent] in self.awaited()
        return is_asking and max(self.due[agent], self.again[agent]) <= self.clock and self.rested[agent] != self.changes

    def under_way(self) -> int:
        """How many agents have steps left."""
        return sum(still > self.clock for still in self.still)

    def place(self, agent: int, clock: int | None = None) -> Cell:
        """Where the agent is now, or will be at a later clock."""
        began, cells = self.ways[agent]
        step = (self.clock if clock is None else clock) - began
        return cells[min(step, len(cells) - 1)] if cells else self.ends[agent]

    def pending(self) -> int:
        """How many orders are not handed in yet, those in a policy's own queue among them."""
        return len(self.waiting) + len(getattr(self.policy, 'waiting', ()))

    def is_done(self) -> bool:
        """Whether no order waits or is open, and nobody has steps left."""
        return not self.pending() and not self.open and not self.under_way() and not any(map(self.is_stray, range(len(self.due))))

    def is_stray(self, agent: int) -> bool:
        """Whether its path does not lead through all stops left of its task, or ends where it may not stay: so may a state have it."""
        point = self.instance.starts[agent] if self.homes else None
        return agent in self.halted or (self.ends[agent] not in self.berths if point is None else self.ends[agent] != self.instance.points[point].cell)

    def awaited(self) -> set[Cell]:
        """The cells where agents are still to go that were stopped with their tasks: where paths end at stops, others keep off these."""
        return set() if self.homes else {cell for _, left in self.halted.values() for cell in left}

    @functools.cached_property
    def berths(self) -> set[Cell]:
        """The cells of all points."""
        return {point.cell for point in self.instance.points}

    def stands(self) -> bool:
        """Whether no later reply can differ: all that could ask have been answered since the last change."""
        return not self.pending() and not self.under_way() and all(self.rests(agent) for agent in range(len(self.due)))

    def rests(self, agent: int) -> bool:
        """Whether a request of the due agent would change nothing, now and later."""
        return self.rested[agent] == self.changes or self.answer(agent) is None

    def are_known(self, order: Order) -> bool:
        """Whether the order stops at stations of the instance alone, at two or more."""
        return len(order.stops) >= 2 and all(self.instance.is_station(stop) for stop in order.stops)

    def stops_of(self, order: Order) -> list[Cell]:
        return [self.instance.cell_of(stop) for stop in order.stops]

    def may_take(self, agent: int, order: Order) -> bool:
        """Whether no other agent's path ends at a stop of the order: then it is eligible for this one."""
        stops = self.stops_of(order)
        return all(end not in stops for other, end in enumerate(self.ends) if other != agent)

    def eligible(self) -> tuple[list[int], dict[int, list[int]]]:
        """The open tasks at whose stops no path ends, which any agent may take, and those that one agent alone may take."""
        ending: dict[Cell, list[int]] = {}
        for agent, end in enumerate(self.ends):
            ending.setdefault(end, []).append(agent)
        free: list[int] = []
        own: dict[int, list[int]] = {}
        for task in sorted(self.open):
            there = {agent for stop in self.stops[task] for agent in ending.get(stop, ())}
            if not there:
                free.append(task)
            elif len(there) == 1:
                own.setdefault(there.pop(), []).append(task)
        return free, own

    def answer(self, agent: int, eligible: tuple[list[int], dict[int, list[int]]] | None = None) -> tuple[int, int | None] | None:
        """What a due agent's request would come to: the distance to the first stop of the task that it would take, and that
        task, the nearest, then the lowest, or its own; FAR and None where it would make way; None where it would rest."""
        if agent in self.halted:
            number, left = self.halted[agent]
            return self.distance(self.place(agent), left[0]), number
        free, own = eligible or self.eligible()
        here = self.place(agent)
        tasks = free + own.get(agent, [])
        if tasks:
            return min((self.distance(here, self.stops[task][0]), task) for task in tasks)
        is_wanted = here in self.awaited() or any(self.stops[task][-1] == here for task in self.open)
        return (FAR, None) if self.is_stray(agent) or is_wanted else None

    def next_to_ask(self) -> int | None:
        """Of the due agents whose request would not be `rested` the one nearest to the first stop of the order that it would be
        given; ties to the lowest number; those that would only make way come last. None where there is none."""
        asking = [agent for agent in range(len(self.due)) if self.may_ask(agent)]
        eligible = self.eligible() if asking else None
        found = [(answer[1] is None, answer[0], agent) for agent in asking if (answer := self.answer(agent, eligible)) is not None]
        return min(found)[2] if found else None

    # ---- a standstill

    def help(self) -> bool:
        """Sends an agent at rest away from a stop of an open order, which two bar to each other, say: hands in `submit helper S S` for the
        nearest station S where nobody's path ends and no open order stops, and asks for it, once for each agent and order. False where
        there is no such agent, or station."""
        taken = {*self.ends, *(cell for task in self.open for cell in self.stops[task])}
        free = [point for point in self.instance.points if point.kind == 'station' and point.cell not in taken]
        for task in sorted(self.open):
            for agent, end in enumerate(self.ends):
                near = [(self.distance(end, point.cell), point.name) for point in free] if end in self.stops[task] else []
                if near and (task, agent) not in self.helped and min(near)[0] < FAR:
                    self.helped.add((task, agent))
                    name = min(near)[1]
                    helper, = self.hand_in([Order(self.clock, f'submit {HELPER} {name} {name}')])
                    reply, = self.request([agent])
                    return isinstance(reply, Took) and reply.task == helper
        return False

    # ---- the loop

    def run(self, most: int | None = None, shift: int | None = None) -> str:
        """From its clock to the end: all delivered and nobody under way, no later reply can differ, or clock `most`. With
        `shift` nobody is asked from that clock on. Returns why it ended before all was delivered and not as asked, or ''."""
        while True:
            over = shift is not None and self.clock >= shift
            if over:
                self.hand_in(self.due_orders())
            else:
                self.policy(self)
            if self.is_done() or (over and not self.under_way()):
                return ''
            if self.stands() and not (self.helpers and not over and self.help()):
                return f'at clock {self.clock} all agents stand, {len(self.open) + len(self.halted)} orders are open, and no reply can differ any more'
            if most is not None and self.clock >= most:
                return (f'at clock {self.clock} it was not at its end (--ticks): {self.pending()} orders not released, '
                        f'{len(self.open)} open, {self.under_way()} agents on their way')
            self.tick()


# ---- policies: each hands in what is to be handed in at this clock, and asks until no answer can be another one

def by_number(fleet: Fleet) -> None:
    """All that are released are handed in; then rounds of all who may ask, in the order of their numbers."""
    fleet.hand_in(fleet.due_orders())
    while agents := [agent for agent in range(len(fleet.due)) if fleet.may_ask(agent)]:
        fleet.request(agents)


def nearest_first(fleet: Fleet) -> None:
    """All that are released are handed in; then the agent that `next_to_ask` names, again and again."""
    fleet.hand_in(fleet.due_orders())
    ask_nearest(fleet)


def ask_nearest(fleet: Fleet) -> None:
    """Asks the agent that `next_to_ask` names, until it names none."""
    while (agent := fleet.next_to_ask()) is not None:
        fleet.request([agent])


def hold(fleet: Fleet) -> None:
    """As nearest first, but an order is handed in only when no agent that is busy could be at its first stop sooner than all
    who may be asked for."""
    held = []
    for order in fleet.due_orders():
        if is_better_served_later(fleet, order):
            held.append(order)
        else:
            fleet.hand_in([order])
            ask_nearest(fleet)
    fleet.waiting.extendleft(reversed(held))
    ask_nearest(fleet)


def is_better_served_later(fleet: Fleet, order: Order) -> bool:
    """Whether an agent that is busy could be at the first stop, from where it is due, before every agent that may be asked for."""
    if not fleet.are_known(order):
        return False    # it will be refused
    pickup = fleet.stops_of(order)[0]
    times = [max(due - fleet.clock, 0) + fleet.distance(fleet.place(agent, max(due, fleet.clock)), pickup) for agent, due in enumerate(fleet.due)]
    idle = [time for agent, time in enumerate(times) if fleet.due[agent] <= fleet.clock and agent not in fleet.halted]
    busy = [time for agent, time in enumerate(times) if fleet.due[agent] > fleet.clock and agent not in fleet.halted]
    return min(busy, default=FAR) < min(idle, default=FAR)


POLICIES: dict[str, Callable[[Fleet], None]] = {'nearest': nearest_first, 'number': by_number, 'hold': hold}


def stop_at(line: str, reply: Reply) -> NoReturn:
    """Ends the run at a reply that is no answer, or a refusal after which there is no going on."""
    if isinstance(reply, Refused) and reply.code in SENTENCES:
        raise Stop(f'`{reply}` came to `{line}`: {reply.sentence}', sound=True)
    raise Stop(f'`{shortened(str(reply))}` is no reply to `{line}`')
