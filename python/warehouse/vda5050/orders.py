"""Orders for vehicles: what is released as base, the rest of the path as horizon, stops as node actions."""
from __future__ import annotations

from dataclasses import dataclass
from typing import Callable

from ..fleet import HELPER
from .book import Transport
from .layout import Layout, longest_order, node_name
from .plan import Leg
from .schema import Json
from .vehicle import Name, Sends, Vehicle

RESEND = 1.0    # seconds without a word of what was sent before it is sent again
RETRY = 5.0     # seconds between two tries of an action that failed


@dataclass
class Writer:
    """Makes orders. `transport_of` is the order of transport that a task is; `horizon` how many nodes beyond the base are told."""
    layout: Layout
    transport_of: Callable[[int], Transport | None]
    horizon: int = 12

    def due(self, vehicle: Vehicle, sends: Sends, now: float) -> tuple[Name, int, Json] | None:
        """The order that is to be sent now: its name, its update, and its nodes and edges. None where nothing is."""
        leg, named, node = vehicle.leg, vehicle.named, vehicle.node
        if leg is None or node is None:
            return None
        if sends is Sends.UPDATE and named is not None and vehicle.state is not None:
            name, first = named, named.begin + int(vehicle.state['orderUpdateId'])
        else:
            again = named.again + 1 if named is not None and sends is Sends.AGAIN and (named.leg, named.begin) == (leg.number, node) else 0
            name, first = Name(vehicle.run, vehicle.agent, leg.number, node, again), node
        told = leg.told + (leg.is_cut and leg.told == leg.last)    # of a path that was cut one update more takes the horizon back
        update = told - name.begin
        if sends is Sends.UPDATE and first >= told:
            return None
        if vehicle.sent is not None and vehicle.sent[0] == name:
            waits = RETRY if vehicle.failed else RESEND
            if now - vehicle.sent_at < waits:
                if vehicle.sent[1] >= update or vehicle.sent[1] + name.begin < first:
                    return None
                first = name.begin + vehicle.sent[1]    # the one before is still on its way
        return name, update, self.body(vehicle, leg, name, min(first, leg.last))

    def body(self, vehicle: Vehicle, leg: Leg, name: Name, first: int) -> Json:
        """Nodes from `first`, which the vehicle has or where it stands, to the end of the horizon, and the edges between."""
        most = longest_order(vehicle.sheet)
        end = min(leg.last, leg.told + self.horizon, leg.last if most is None else max(first + most - 1, leg.told))
        nodes, edges = [], []
        for node in range(first, end + 1):
            cell, released, number = leg.cells[node], node <= leg.told, 2 * (node - name.begin)
            nodes.append({'nodeId': node_name(cell), 'sequenceId': number, 'released': released,
                          'nodePosition': self.layout.position(cell), 'actions': self.actions(leg, name, node)})
            if node > first:
                begin, to = node_name(leg.cells[node - 1]), node_name(cell)
                edges.append({'edgeId': f'{begin}-{to}', 'sequenceId': number - 1, 'released': released, 'startNodeId': begin,
                              'endNodeId': to, 'actions': []})
        return {'nodes': nodes, 'edges': edges}

    def actions(self, leg: Leg, name: Name, node: int) -> list[Json]:
        """What is to be done at a node: the visits that are not made. Where a helper order leads nothing is to be done."""
        transport = None if leg.task is None else self.transport_of(leg.task)
        if transport is None or transport.client == HELPER:
            return []
        return [self.action(transport, f'{name}.{visit}:{transport.key}', visit + transport.first) for visit in leg.visits_at(node)
                if visit + transport.first >= transport.made]

    def action(self, transport: Transport, name: str, stop: int) -> Json:
        """One action: a pick at the first stop, a drop at the last, a visit between."""
        kind = 'pick' if stop == 0 else 'drop' if stop == len(transport.stops) - 1 else 'visit'
        return {'actionType': kind, 'actionId': name, 'blockingType': 'HARD',
                'actionParameters': [{'key': 'stationName', 'value': transport.stops[stop]}, {'key': 'loadId', 'value': transport.key}]}
