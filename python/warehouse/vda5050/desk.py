"""Orders of transport: taken with a key each, handed in to the core once, and told how far they are."""
from __future__ import annotations

from typing import Callable

from ..fleet import Fleet
from ..texts import Fault, Instance, Order
from .book import Book, Transport
from .plan import Plan
from .schema import Json

MOST_TOLD = 10_000    # orders whose answers are told again to a broker that comes


class Desk:
    """Keys, and what is told of each. `answer(key, message, retain)` tells a client."""

    def __init__(self, base: Instance, book: Book, answer: Callable[[str, Json, bool], None]):
        self.base, self.book, self.answer = base, book, answer
        self.unwritten: dict[str, int] = {}    # visits that are made, and not in the file yet
        self.told: dict[str, Json] = {}        # of each key what was told last

    # ---- what clients send

    def take(self, fleet: Fleet, plan: Plan, message: Json) -> None:
        """An order that came. Raises Fault where the list of keys cannot be written: then it is not answered, and comes again."""
        key, stops, client = message['id'], message['stops'], message.get('client', 'vda5050')
        known = self.book.transports.get(key)
        if known is not None:
            if (known.stops, known.client) != (stops, client):
                self.answer(key, {'id': key, 'state': 'refused', 'why': f'the key stands with {known.client} {" ".join(known.stops)}'}, False)
            else:
                self.tell(plan, known, True)
            return
        if not 2 <= len(stops) <= 8:
            self.answer(key, {'id': key, 'state': 'refused', 'why': f'{len(stops)} stops, and 2 to 8 can be'}, False)
            return
        if not all(map(fleet.instance.is_station, stops)) and all(map(self.base.is_station, stops)):
            # a stop lies where a vehicle that is out of use may be: the order waits for the next run
            self.tell(plan, self.book.put_aside(key, client, stops))
            return
        transport = self.book.put(key, client, stops, len(fleet.tasks))
        why = self.hand_in(fleet, transport, stops)
        if why:
            self.answer(key, {'id': key, 'state': 'refused', 'why': why}, False)
        else:
            self.tell(plan, transport)

    def hand_in(self, fleet: Fleet, transport: Transport, stops: list[str]) -> str:
        """Hands an order in whose line is in the file; why it was refused, or ''."""
        task, = fleet.hand_in([Order(fleet.clock, ' '.join(['submit', transport.client, *stops]))])
        if task is None:
            self.book.free(transport.run, transport.task)
            return fleet.left_out.pop()
        return ''

    def hand_in_left(self, fleet: Fleet, stands: Callable[[int], str]) -> None:
        """In a run that began where vehicles stand, the orders of those before: what is left of those that are carried, first, from where
        its vehicle stands; then the others, but for those at whose stops there is no station now."""
        for one in self.book.left():
            agent = self.book.opening.carried.get(one.key)
            first = 0 if agent is None else max(one.made - 1, 0)
            stops = one.stops if agent is None else [stands(agent), *one.stops[first + 1:]]
            if all(fleet.instance.is_station(stop) for stop in stops):
                transport = self.book.put(one.key, one.client, one.stops, len(fleet.tasks), first)
                self.hand_in(fleet, transport, stops)

    # ---- what vehicles do

    def make(self, transport: Transport, made: int) -> None:
        """So many visits of the order are made, or were before."""
        if made > transport.made:
            transport.made = self.unwritten[transport.key] = made

    def write(self, plan: Plan) -> None:
        """Writes what was made, then tells it. Raises Fault where it cannot be written: then it is tried again."""
        if not self.unwritten:
            return
        self.book.make(self.unwritten)
        written, self.unwritten = self.unwritten, {}
        for key in written:
            self.tell(plan, self.book.transports[key])

    # ---- what is told

    def state(self, plan: Plan, one: Transport) -> Json:
        """How far an order is."""
        agent = plan.agent_of.get(one.task) if one.run == self.book.opening.number else self.book.opening.carried.get(one.key)
        state = 'delivered' if one.is_delivered else 'picked' if one.made else 'accepted' if agent is None else 'assigned'
        return {'id': one.key, 'state': state, **({} if one.run == 0 else {'run': one.run, 'task': one.task}),
                **({} if agent is None else {'agent': agent})}

    def tell(self, plan: Plan, one: Transport, again: bool = False) -> None:
        """Tells it where it is another than what was told, or again."""
        message = self.state(plan, one)
        if again or self.told.get(one.key) != message:
            self.told[one.key] = message
            self.answer(one.key, message, True)

    def tell_task(self, plan: Plan, task: int) -> None:
        """A task was taken."""
        if (one := self.book.of_task(task)) is not None:
            self.tell(plan, one)

    def tell_all(self, plan: Plan) -> None:
        """To a broker that may have lost what it kept, or never got it: all that are not delivered, and the last ones that are."""
        transports = list(self.book.transports.values())
        late = len(transports) - MOST_TOLD
        for number, one in enumerate(transports):
            if number >= late or not one.is_delivered:
                self.tell(plan, one, True)


def judge_log(book: Book, fleet: Fleet, log: str) -> None:
    """Raises Fault where the core's log has an order that is not the one in the list of keys."""
    book.settle(len(fleet.tasks))
    for task, order in enumerate(fleet.tasks):
        one = book.of_task(task)
        if one is None or one.client != order.client:
            raise Fault(f'its task {task}, `{order.line}`, is in no line of {book.path}: the log is another client\'s', log)
