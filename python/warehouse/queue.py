"""The client's own queue: orders that wait here, with a key each, until an agent is to take them.

    queue = Queue()
    fleet = Fleet(core, policy=queue)
    queue.put('WMS-17', 'anna', ['A', 'C'])
    queue.put('WMS-18', 'bert', ['D', 'B'], urgent=True)     # before all that are not
    queue.put('charge-3', 'charger', ['L1', 'L1'], agent=3)  # this vehicle; a charger is a station
    queue.take_back('WMS-17')                                # as long as it waits here
    fleet.run()

An order is handed in only together with the request of the agent that is to take it, so nothing else is open then. What
waits here is in no log: who needs it after a stop of the client keeps it. A key that stands is not put in twice.
"""
from __future__ import annotations

from dataclasses import dataclass, field
from typing import Sequence

from .fleet import Fleet, ask_nearest
from .replies import Took
from .texts import Fault, Order, is_command

PATIENCE = 200    # ticks


class KeyTaken(Exception):
    """The key stands with other stops."""


@dataclass
class Waiting:
    """An order that waits."""
    key: str
    order: Order
    urgent: bool
    agent: int | None                 # who alone may take it
    since: int | None = None          # the clock at which the fleet saw it first
    number: int = field(default=0)    # of its coming


class Queue:
    """A policy for a fleet. An order for any agent that waits for longer than `patience` ticks is handed in in the ordinary way,
    and taken by whom it is nearest to: where an agent at rest stands at one of its stops, nobody else may take it before."""

    def __init__(self, patience: int = PATIENCE):
        self.patience = patience
        self.waiting: list[Waiting] = []
        self.orders: dict[str, Order] = {}    # of each key
        self.tasks: dict[str, int] = {}       # of each key that was handed in
        self.refused: dict[str, str] = {}     # of each key that was refused, with the reply

    def put(self, key: str, client: str, stops: Sequence[str], urgent: bool = False, agent: int | None = None) -> bool:
        """Puts an order in, behind those that are as urgent; False where it stands already. Raises KeyTaken, and Fault where
        it is no order: names have 1 to 16 letters, digits, _ or -, and 2 to 8 of them are stops."""
        order = Order(0, ' '.join(['submit', client, *stops]))
        if not is_command(order.line) or len(order.stops) != len(stops):
            raise Fault(f'`{order.line[:60]}` is no order', key)
        if key in self.orders:
            if self.orders[key] != order:
                raise KeyTaken(f'{key} stands with `{self.orders[key].line}`')
            return False
        self.orders[key] = order
        self.waiting.append(Waiting(key, order, urgent, agent, number=len(self.orders)))
        self.waiting.sort(key=lambda one: (not one.urgent, one.number))
        return True

    def put_before(self, key: str, other: str) -> bool:
        """Moves an order that waits before another that waits, and makes it as urgent; whether both wait."""
        found = {one.key: one for one in self.waiting}
        if key not in found or other not in found or key == other:
            return False
        moved = found[key]
        moved.urgent, moved.number = found[other].urgent, found[other].number
        self.waiting.remove(moved)
        self.waiting.insert(self.waiting.index(found[other]), moved)
        return True

    def take_back(self, key: str) -> bool:
        """Takes an order out that waits still; its key is free again. False where it is handed in, or unknown."""
        for one in self.waiting:
            if one.key == key:
                self.waiting.remove(one)
                del self.orders[key]
                return True
        return False

    def __call__(self, fleet: Fleet) -> None:
        """Hands in what an agent can take at this clock: the urgent ones first, each by the nearest agent that may."""
        for order in fleet.due_orders():
            self.put(f'script-{len(self.orders)}', order.client, order.stops)
        for one in list(self.waiting):
            if one.since is None:
                one.since = fleet.clock
            if one.agent is not None and not 0 <= one.agent < len(fleet.due):
                self.waiting.remove(one)
                self.refused[one.key] = f'there is no agent {one.agent}'
                continue
            if not fleet.are_known(one.order) or (one.agent is None and fleet.clock - one.since > self.patience):
                self.hand_in(fleet, one)
        ask_nearest(fleet)
        for one in [one for one in self.waiting if one.urgent or one.agent is not None]:
            self.give(fleet, one, self.able(fleet, one))
        for agent in [agent for agent, due in enumerate(fleet.due) if due <= fleet.clock]:
            self.serve(fleet, agent)

    def serve(self, fleet: Fleet, agent: int) -> None:
        """Gives an agent the nearest order that it may take, again where that takes no time; none where it has a task."""
        while fleet.due[agent] <= fleet.clock and agent not in fleet.halted:
            able = [(fleet.distance(fleet.place(agent), fleet.stops_of(one.order)[0]), one.number, one)
                    for one in self.waiting if one.agent in (None, agent) and fleet.may_take(agent, one.order)]
            if not able or not self.give(fleet, min(able, key=lambda row: row[:2])[2], [agent]):
                return

    def able(self, fleet: Fleet, one: Waiting) -> list[int]:
        """The agents that are due and may take the order."""
        agents = range(len(fleet.due)) if one.agent is None else [one.agent]
        return [agent for agent in agents if fleet.due[agent] <= fleet.clock and agent not in fleet.halted and fleet.may_take(agent, one.order)]

    def give(self, fleet: Fleet, one: Waiting, agents: list[int]) -> bool:
        """Hands the order in and asks for the nearest of these agents; whether that one took it."""
        if not agents:
            return False
        pickup = fleet.stops_of(one.order)[0]
        agent = min(agents, key=lambda agent: (fleet.distance(fleet.place(agent), pickup), agent))
        task = self.hand_in(fleet, one)
        if task is None:
            return False
        reply, = fleet.request([agent])
        return isinstance(reply, Took) and reply.task == task

    def hand_in(self, fleet: Fleet, one: Waiting) -> int | None:
        """Hands an order in, which waits no longer; its task, None where it was refused."""
        self.waiting.remove(one)
        refused = len(fleet.left_out)
        task, = fleet.hand_in([one.order])
        if task is None:
            self.refused[one.key] = fleet.left_out[refused]
        else:
            self.tasks[one.key] = task
        return task
