"""What is known of a vehicle, and the one table of its states.

`TABLE` has a row for each state, in this order: the first whose condition holds is the vehicle's. A row says what is alarmed, whether the
vehicle's reports of where it is go to the core, and what may be sent to it.
"""
from __future__ import annotations

from dataclasses import dataclass
from enum import Enum
from typing import Callable, NamedTuple

from ..texts import Cell, number_of
from .layout import cell_of
from .plan import Leg
from .schema import Json

SILENT = 40.0    # seconds without a state after which a vehicle is taken for lost; by the standard one comes every 30 s at the least
AUTOMATIC = ('AUTOMATIC', 'SEMIAUTOMATIC')


class Sends(Enum):
    """What may be sent to a vehicle."""
    NOTHING = 'nothing'
    UPDATE = 'an update of its order'
    ORDER = 'a new order'
    AGAIN = 'a new order for what is left of its path'
    CANCEL = 'cancelOrder'


class Name(NamedTuple):
    """An `orderId` of this adapter: the list's name and the run's number, the agent, its path's number, the node of the path where the
    order begins, and how often one that began there was called back or failed."""
    run: str
    agent: int
    leg: int
    begin: int
    again: int = 0

    def __str__(self) -> str:
        return f'{self.run}.{self.agent}.{self.leg}.{self.begin}.{self.again}'


@dataclass
class Vehicle:
    """A vehicle as the adapter sees it. Seconds are of the monotonic clock."""
    agent: int
    maker: str
    serial: str
    state: Json | None = None
    heard: float = 0.0                   # when its last state came
    connection: str = ''
    connected: float = 0.0               # when that was told
    sheet: Json | None = None
    unfit: str = ''                      # why it cannot be told into cells
    wrong: str = ''                      # why its last message was not taken
    out: bool = False                    # it is out of use in this run
    sent: tuple[Name, int] | None = None  # the order and update that were sent last
    sent_at: float = 0.0
    called: float = 0.0                  # when it was called back last
    asked: float = 0.0                   # when its factsheet was asked for
    off: str = ''                        # that it is not where it says
    apart: float = 0.0                   # metres from its node's middle, 0 where it does not say
    since: float = 0.0                   # when the row of the table began to hold that holds now
    row: str = ''
    # as of the last look
    now: float = 0.0
    limit: float = SILENT
    run: str = ''
    leg: Leg | None = None               # the path that it is to go, or goes
    node: int | None = None              # where on that path it is

    @property
    def is_broken(self) -> bool:
        """Whether its connection was told broken, and no state has come since."""
        return self.connection in ('CONNECTIONBROKEN', 'OFFLINE') and self.connected >= self.heard

    @property
    def is_silent(self) -> bool:
        return self.now - self.heard > self.limit

    @property
    def is_idle(self) -> bool:
        """Whether it has nothing left to do of any order."""
        state = self.state
        return state is not None and not state['nodeStates'] and not state['driving'] and all(
            action['actionStatus'] in ('FINISHED', 'FAILED') for action in state['actionStates'])

    @property
    def failed(self) -> list[Json]:
        return [action for action in (self.state or {}).get('actionStates', []) if action['actionStatus'] == 'FAILED']

    @property
    def errors(self) -> str:
        """Its fatal errors."""
        return ', '.join(' '.join(filter(None, (error['errorType'], error.get('errorDescription'))))
                         for error in (self.state or {}).get('errors', []) if error['errorLevel'] == 'FATAL')

    @property
    def loads(self) -> set[str]:
        return {load.get('loadId', '') for load in (self.state or {}).get('loads', [])}

    @property
    def cell(self) -> Cell | None:
        """The cell that it left last, or where it stands."""
        return cell_of(self.state['lastNodeId']) if self.state else None

    @property
    def named(self) -> Name | None:
        """Its order's name, where that is of this adapter's list of keys."""
        run, *words = (self.state or {}).get('orderId', '').split('.')
        numbers = [number_of(word) for word in words]
        if run.split('-')[0] != self.run.split('-')[0] or len(numbers) != 4 or None in numbers or numbers[0] != self.agent:
            return None
        return Name(run, *(number or 0 for number in numbers))

    @property
    def has_our_order(self) -> bool:
        """Whether its order is of this run."""
        named = self.named
        return named is not None and named.run == self.run

    @property
    def has_leg(self) -> bool:
        """Whether its order is for the path that it is to go."""
        named = self.named
        return self.has_our_order and named is not None and self.leg is not None and named.leg == self.leg.number

    @property
    def base(self) -> int:
        """The last node of its path that it was released to, by what it says."""
        named = self.named
        base = named.begin + int(self.state['orderUpdateId']) if named and self.state else 0
        return min(base, self.leg.last) if self.leg is not None and self.leg.is_cut and self.has_leg else base

    @property
    def waits_on(self) -> bool:
        """Whether it is at the end of what it was released to, with a horizon beyond that it is never to go."""
        state, named = self.state, self.named
        return (state is not None and named is not None and self.leg is not None and self.has_our_order and named.leg < self.leg.number
                and bool(state['nodeStates']) and not state['driving'] and not any(node['released'] for node in state['nodeStates'])
                and all(action['actionStatus'] in ('FINISHED', 'FAILED', 'WAITING') for action in state['actionStates']))

    @property
    def has_heard(self) -> bool:
        """Whether a state has answered what was sent last, so that nothing is on its way."""
        if self.state is None or self.sent is None:
            return self.state is not None
        name, update = self.sent
        return (self.state['orderId'] == str(name) and self.state['orderUpdateId'] >= update) or (
            self.state['orderId'] != str(name) and self.heard > self.sent_at + 2)


class Row(NamedTuple):
    """A state of a vehicle: its name, when it is in it, what is alarmed ('' for nothing), whether its reports count, what it may be sent."""
    name: str
    holds: Callable[[Vehicle], bool]
    alarm: Callable[[Vehicle], str] = lambda vehicle: ''
    reports: bool = True
    sends: Sends = Sends.NOTHING


def order_of(vehicle: Vehicle) -> str:
    return str((vehicle.state or {}).get('orderId', ''))


TABLE = (
    Row('out of use', lambda v: v.out, lambda v: 'is out of use', False),
    Row('unheard', lambda v: v.state is None, lambda v: 'no state has come', False),
    Row('lost', lambda v: v.is_broken or v.is_silent,
        lambda v: f'its connection is {v.connection}' if v.is_broken else f'no state for {v.now - v.heard:.0f} s', False),
    Row('unfit', lambda v: bool(v.unfit), lambda v: v.unfit, False),
    Row('by hand', lambda v: v.state is not None and v.state['operatingMode'] not in AUTOMATIC,
        lambda v: f'operating mode {v.state and v.state["operatingMode"]}', False),
    Row('elsewhere', lambda v: bool(v.off), lambda v: v.off, False),
    Row('of a run before', lambda v: v.named is not None and not v.has_our_order and not v.is_idle,
        lambda v: f'has the order {order_of(v)} of a run before', False, Sends.CANCEL),
    Row('foreign', lambda v: v.named is None and not v.is_idle,
        lambda v: f'has the order {order_of(v) or "(none)"}, which is none of these', False),
    Row('astray', lambda v: v.node is None,
        lambda v: f'stands at {v.state and v.state["lastNodeId"]}, none of its cells', False),
    Row('too far', lambda v: v.leg is not None and v.node is not None and v.node > v.leg.told,
        lambda v: f'is at {v.state and v.state["lastNodeId"]}, which it was not told', False),
    Row('broken down', lambda v: bool(v.errors), lambda v: v.errors),
    Row('stopped', lambda v: v.state is not None and v.state['safetyState']['eStop'] != 'NONE',
        lambda v: f'emergency stop {v.state and v.state["safetyState"]["eStop"]}', sends=Sends.UPDATE),
    Row('paused', lambda v: bool(v.state and v.state.get('paused')), lambda v: 'is paused', sends=Sends.UPDATE),
    Row('failed', lambda v: bool(v.failed) and v.has_leg and v.is_idle and v.called <= v.sent_at,
        lambda v: ', '.join(f'action {action["actionId"]} failed: {action.get("resultDescription", "")}' for action in v.failed),
        sends=Sends.AGAIN),
    Row('called back', lambda v: v.has_leg and v.is_idle and v.node is not None and (v.node < v.base or bool(v.failed)),
        sends=Sends.AGAIN),
    Row('under way', lambda v: v.has_leg, sends=Sends.UPDATE),
    Row('at a cut', lambda v: v.waits_on, sends=Sends.CANCEL),
    Row('ending', lambda v: not v.is_idle),
    Row('at rest', lambda v: True, sends=Sends.ORDER),
)


def row_of(vehicle: Vehicle) -> Row:
    """The vehicle's state."""
    return next(row for row in TABLE if row.holds(vehicle))
