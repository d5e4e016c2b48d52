"""A vehicle that is lost, and one that is back: all halt, the run ends, and the next one begins where they stand.

A vehicle that is lost may be in any cell from where it has arrived to the last that it was told, and in none else. So the next run is
safe without knowing where it is: these cells are blocked in it. What it carries, or may carry, waits for it.
"""
from __future__ import annotations

from typing import TYPE_CHECKING

from ..texts import Cell
from .book import Opening, Transport
from .plan import Leg
from .vehicle import Vehicle

if TYPE_CHECKING:
    from .loop import Adapter

SETTLED = 5.0    # seconds after a start or a broker's return before anything is called lost: what was sent before may be on its way
FRESH = 5.0      # seconds: a state that is no older counts as of now
SURE = 1.0       # seconds after which what was sent is heard, where the vehicle answers
ANOTHER = -1     # wanted for no vehicle in particular: one stands where the plan does not have it
GONE = ('lost', 'unheard')


class Handover:
    """Which vehicles are to go out of use, or to come back; and the halt in between."""

    def __init__(self, adapter: Adapter):
        self.adapter = adapter
        self.wanted: dict[int, bool] = {}    # of agents: whether they are to be out of use
        self.asked: dict[int, bool] = {}     # by an operator
        self.halts = False
        self.began = 0.0
        self.back: dict[int, float] = {}     # of vehicles out of use that are there again: when they were called back

    def want(self, agent: int, out: bool) -> None:
        """An operator's word."""
        self.asked[agent] = out

    def judge(self, now: float) -> None:
        """Sees who is lost or back; where somebody is, all halt, and once they stand the next run begins."""
        adapter = self.adapter
        if not adapter.settings.out_after or now - adapter.up < SETTLED:
            return
        self.wanted = {agent: out for vehicle in adapter.vehicles for agent, out in self.wanted_of(vehicle, now)}
        if sum(vehicle.row in GONE for vehicle in adapter.vehicles) > len(adapter.vehicles) / 2:
            self.wanted = {}    # that is the network
        if self.wanted and not self.halts:
            names = ', '.join(adapter.vehicles[agent].serial for agent in self.wanted if agent >= 0) or 'a vehicle'
            adapter.tell(f'all vehicles halt, for {names}')
            self.began = now
        self.halts = bool(self.wanted)
        if self.halts and all(self.stands(vehicle) for vehicle in self.in_use()):
            self.begin(now)

    def wanted_of(self, vehicle: Vehicle, now: float) -> list[tuple[int, bool]]:
        """What follows for one vehicle."""
        agent, after = vehicle.agent, self.adapter.settings.out_after
        is_there = self.is_there(vehicle, now)
        if vehicle.out:
            is_back = is_there and vehicle.is_idle and self.is_at_node(vehicle) and vehicle.heard > self.back.get(agent, now) + SURE and self.asked.get(agent) is not True
            return [(agent, False)] if is_back else []
        if self.asked.get(agent) is True or (vehicle.row in GONE and now - vehicle.since > after):
            return [(agent, True)]
        return [(ANOTHER, False)] if vehicle.row == 'astray' and vehicle.is_idle and is_there and now - vehicle.since > after else []

    def is_there(self, vehicle: Vehicle, now: float) -> bool:
        return vehicle.state is not None and not vehicle.is_broken and now - vehicle.heard < FRESH

    def in_use(self) -> list[Vehicle]:
        """Those that are to be in use in the next run."""
        return [vehicle for vehicle in self.adapter.vehicles if not self.wanted.get(vehicle.agent, vehicle.out)]

    def stands(self, vehicle: Vehicle) -> bool:
        """Whether it stands at a node, and nothing that was sent to it is on its way."""
        has_heard = vehicle.has_heard or vehicle.out    # one that is back was called back, and said so since
        is_told = vehicle.is_idle and not vehicle.is_broken and vehicle.heard > self.began + SURE
        return has_heard and is_told and vehicle.cell is not None and self.is_at_node(vehicle)

    def is_at_node(self, vehicle: Vehicle) -> bool:
        """Whether it is not between two nodes, where one that was killed can stand. One that says no position must not."""
        return vehicle.apart <= self.adapter.settings.layout.tolerance

    def next_cell(self, vehicle: Vehicle) -> Cell | None:
        """The cell that one that is out of use, and there again, stands in beside its own: of those that are blocked for such vehicles."""
        layout, cell, state = self.adapter.settings.layout, vehicle.cell, vehicle.state
        if vehicle.agent not in self.back or not vehicle.is_idle or self.is_at_node(vehicle) or cell is None or state is None:
            return None
        near = [(layout.off(other, state['agvPosition']), other) for other in self.adapter.book.opening.blocked
                if abs(other[0] - cell[0]) + abs(other[1] - cell[1]) == 1]
        off, found = min(near, default=(layout.side, cell))
        return found if off < layout.side else None

    def calls_back(self, vehicle: Vehicle) -> bool:
        """Whether its order is to be cancelled: one that has not answered what was sent last gets that again first."""
        if vehicle.out:
            return self.calls_back_once(vehicle)
        return self.halts and not vehicle.out and vehicle.has_heard and not vehicle.is_idle

    def calls_back_once(self, vehicle: Vehicle) -> bool:
        """One that is out of use, and there again, may have an order of a run that has ended, or get one that was on its way: it is called
        back as it comes, which it hears behind all that was sent before, and as long as it is at something."""
        if not self.is_there(vehicle, vehicle.now):
            self.back.pop(vehicle.agent, None)
            return False
        is_new = vehicle.agent not in self.back
        self.back.setdefault(vehicle.agent, vehicle.now)
        return is_new or not vehicle.is_idle

    def keeps(self, vehicle: Vehicle) -> bool:
        """Whether it gets no order now. One that stands between two nodes gets its own, and is called back at the next."""
        return self.halts and vehicle.has_heard and self.is_at_node(vehicle)

    # ---- the next run

    def begin(self, now: float) -> None:
        """Ends the run, and begins the next one where vehicles stand."""
        adapter, book = self.adapter, self.adapter.book
        out = sorted({vehicle.agent for vehicle in adapter.vehicles} - {vehicle.agent for vehicle in self.in_use()})
        cells, blocked = self.places(out)
        taken = {cells[agent] for agent in range(len(cells))}
        if len(taken) < len(cells) or not all(adapter.base.is_passable(cell) for cell in cells):
            adapter.alarm('hand-over', f'vehicles stand at {cells}: two in one cell, or one in none')
            return
        carried = self.loads(out)
        adapter.desk.write(adapter.plan)
        adapter.core.end()
        adapter.core.kill()
        adapter.is_open = False
        book.begin_run(Opening(book.opening.number + 1, cells, sorted(blocked - taken), out, carried))
        adapter.open()
        self.wanted, self.halts, self.back = {}, False, {}
        self.asked = {agent: is_out for agent, is_out in self.asked.items() if is_out}
        adapter.alarm('hand-over', '')
        names = ' '.join(adapter.vehicles[agent].serial for agent in out) or 'none'
        adapter.tell(f'run {book.opening.number} begins; out of use: {names}; {len(blocked - taken)} cells blocked, {len(carried)} loads, '
                     f'{len(adapter.fleet.open)} orders open; all stood after {now - self.began:.1f} s')

    def places(self, out: list[int]) -> tuple[list[Cell], set[Cell]]:
        """Where each agent begins, and the cells where a vehicle that is out of use may be."""
        adapter, opening = self.adapter, self.adapter.book.opening
        cells: list[Cell] = []
        blocked: set[Cell] = set()
        for vehicle in adapter.vehicles:
            if vehicle.agent in out:
                first, *ahead = adapter.plan.occupied(vehicle.agent)
                cells.append(first)
                blocked |= set(ahead)
            else:
                assert vehicle.cell is not None
                cells.append(vehicle.cell)
        if any(agent in opening.out for agent in out):
            blocked |= set(opening.blocked)    # of one that stays out of use
        return cells, blocked

    def loads(self, out: list[int]) -> dict[str, int]:
        """What each agent carries, and what one that is out of use may carry; what one that is back has put down is delivered."""
        adapter, opening = self.adapter, self.adapter.book.opening
        carried: dict[str, int] = {}
        for one in adapter.book.transports.values():
            is_of_run = one.run == opening.number
            agent = adapter.plan.agent_of.get(one.task) if is_of_run else opening.carried.get(one.key)
            if one.is_delivered or agent is None:
                continue
            vehicle = adapter.vehicles[agent]
            if agent in out:
                leg = adapter.plan.doing.get(one.task) if is_of_run else None
                if one.made or leg is None or may_have_picked(leg):
                    carried[one.key] = agent
            elif self.is_aboard(vehicle, one):
                adapter.desk.make(one, 1)
                carried[one.key] = agent
            elif one.made and vehicle.state is not None and 'loads' in vehicle.state:
                adapter.desk.make(one, len(one.stops))
        return carried

    def is_aboard(self, vehicle: Vehicle, one: Transport) -> bool:
        """Whether the vehicle carries the order's load, by what it says, or by what is known where it says nothing of loads."""
        if vehicle.state is None or 'loads' not in vehicle.state:
            return bool(one.made)
        return one.key in vehicle.loads or ('' in vehicle.loads and bool(one.made))


def may_have_picked(leg: Leg) -> bool:
    """Whether the vehicle was told to the first stop of its task."""
    return bool(leg.visits) and leg.told >= leg.visits[0]
