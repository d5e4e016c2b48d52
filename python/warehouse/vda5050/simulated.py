"""A simulated VDA 5050 vehicle: a process of its own with its own clock, for tests and demonstrations.

    vda5050-vehicle v3 --start 12,7 --rows 40 --world FOLDER

What is physical survives its process in FOLDER/v3.json: the cell where it is, the one it is on its way to, its loads. Its order does
not: one that was killed comes back with none. FOLDER/v3.trace has each cell that it occupied, from when to when, and each pick and drop,
by the machine's monotonic clock; `here` at a new start the cells where it is.

Its position in metres wants the adapter's --cell, and how many --rows the map has. It takes orders and updates as the standard has it: an update must begin at the last released node, a new order only when idle and where
it stands. It also misbehaves: speeds differ, states come twice, and with --leaves it is away from the broker now and then.
"""
from __future__ import annotations

import argparse
import json
import math
import os
import random
import time
from typing import Any

from ..texts import Fault
from .adapter import MAKER
from .broker import CONNECTED, Broker, Mqtt, add_broker_options
from .layout import Layout, cell_of
from .loop import VERSION, stamp
from .schema import Json, read_message
from .wire import reach

STATES = 2.0      # seconds between two states at the most
REPEATED = 0.05   # of all states


class World:
    """What a kill of the process does not undo."""

    def __init__(self, folder: str, serial: str, start: str):
        self.path = os.path.join(folder, serial + '.json')
        self.trace = open(os.path.join(folder, serial + '.trace'), 'a', buffering=1)
        self.cell, self.toward = start, ''
        self.loads: list[str] = []
        if os.path.exists(self.path):
            with open(self.path) as file:
                self.cell, self.toward, self.loads = json.load(file)
            # a kill may have come before its last line: it is in these cells, and in no other
            self.note('here', ','.join(filter(None, (self.cell, self.toward))))
        else:
            self.note('in', start)
            self.keep()

    def note(self, what: str, of: str) -> None:
        self.trace.write(f'{time.monotonic():.4f} {what} {of}\n')

    def keep(self) -> None:
        with open(self.path + '.new', 'w') as file:
            json.dump([self.cell, self.toward, self.loads], file)
        os.replace(self.path + '.new', self.path)

    def set_out(self, node: str) -> None:
        if self.toward != node:    # else it stands between the two already
            self.note('in', node)
            self.toward = node
            self.keep()

    def arrive(self) -> None:
        left, self.cell, self.toward = self.cell, self.toward, ''
        self.keep()
        self.note('out', left)

    def handle(self, action: Json) -> None:
        """A pick or a drop, once: one that was made before a kill is not made again."""
        kind = action['actionType']
        load = next((str(row['value']) for row in action.get('actionParameters', []) if row['key'] == 'loadId'), '')
        if (kind == 'pick') == (load in self.loads) or kind not in ('pick', 'drop'):
            return
        if kind == 'pick':
            self.loads.append(load)
        else:
            self.loads.remove(load)
        self.keep()
        self.note(kind, load)


class Simulated:
    """The vehicle. `busy` is what it does, until when, and for which action."""

    def __init__(self, options: argparse.Namespace, broker: Broker):
        self.options, self.broker = options, broker
        self.random = random.Random(options.seed * 1000 + os.getpid() % 1000)
        self.world = World(options.world, options.serial, options.start.replace(',', '_'))
        self.layout = Layout(options.rows, options.cell)
        self.topic = f'uagv/v2/{options.maker}/{options.serial}/'
        self.heads: dict[str, int] = {}
        self.order, self.update, self.last = '', 0, 0
        self.nodes: list[Json] = []      # those to come, base and horizon
        self.due: list[Json] = []        # actions that are due where it stands
        self.states: list[Json] = []     # of the order's actions
        self.errors: list[Json] = []
        self.busy: tuple[str, float, Json] | None = None
        self.battery = 90.0
        self.paused = False
        self.pace = options.pace * (1 + 0.15 * self.random.uniform(-1, 1))
        self.told = self.away = 0.0
        broker.subscribe([(self.topic + 'order', 0), (self.topic + 'instantActions', 0)])

    # ---- what it says

    def head(self, kind: str) -> Json:
        return header(self.heads, kind, self.options.maker, self.options.serial)

    def publish(self, kind: str, message: Json, quality: int = 0, retain: bool = False) -> None:
        self.broker.publish(self.topic + kind, json.dumps(self.head(kind) | message, separators=(',', ':')), quality, retain)

    @property
    def drives(self) -> bool:
        return self.busy is not None and self.busy[0] == 'drives'

    def position(self) -> Json:
        """In metres: at its cell, or half way to the next."""
        cells = [cell for name in (self.world.cell, self.world.toward) if (cell := cell_of(name))]
        places = [self.layout.metres(cell) for cell in cells]
        x, y = (sum(place[axis] for place in places) / len(places) for axis in (0, 1))
        return {'x': x, 'y': y, 'theta': 0.0, 'mapId': self.layout.name, 'positionInitialized': True}

    def tell(self) -> None:
        """Its state, now and then twice."""
        state: Json = {
            'orderId': self.order, 'orderUpdateId': self.update, 'lastNodeId': self.world.cell, 'lastNodeSequenceId': self.last,
            'nodeStates': [{name: node[name] for name in ('nodeId', 'sequenceId', 'released')} for node in self.nodes], 'edgeStates': [],
            'driving': self.drives, 'paused': self.paused, 'actionStates': self.states, 'agvPosition': self.position(),
            'batteryState': {'batteryCharge': round(self.battery, 1), 'charging': False}, 'operatingMode': 'AUTOMATIC',
            'loads': [{'loadId': load} for load in self.world.loads], 'errors': self.errors,
            'safetyState': {'eStop': 'NONE', 'fieldViolation': False}}
        self.publish('state', state)
        if self.random.random() < REPEATED:
            self.publish('state', state)
        self.publish('visualization', {'agvPosition': self.position()})
        self.told = time.monotonic()

    def sheet(self) -> None:
        actions = [{'actionType': kind, 'actionScopes': ['NODE']} for kind in ('pick', 'drop', 'visit')]
        actions += [{'actionType': kind, 'actionScopes': ['INSTANT']} for kind in ('cancelOrder', 'startPause', 'stopPause', 'factsheetRequest')]
        self.publish('factsheet', {
            'typeSpecification': {'seriesName': 'simulated', 'agvKinematic': 'DIFF', 'agvClass': 'CARRIER', 'maxLoadMass': 100,
                                  'localizationTypes': ['GRID'], 'navigationTypes': ['VIRTUAL_LINE_GUIDED']},
            'physicalParameters': {'speedMin': 0.1, 'speedMax': 1.5, 'accelerationMax': 1, 'decelerationMax': 1, 'heightMax': 0.4,
                                   'width': self.options.width, 'length': self.options.length},
            'protocolLimits': {'maxStringLens': {}, 'maxArrayLens': {'order.nodes': 64}, 'timing': {'minOrderInterval': 0.05, 'minStateInterval': 0.05}},
            'protocolFeatures': {'optionalParameters': [], 'agvActions': actions}, 'agvGeometry': {}, 'loadSpecification': {}}, 0, True)

    # ---- what it is told

    def refuse(self, kind: str, why: str) -> None:
        self.errors = [{'errorType': kind, 'errorLevel': 'WARNING', 'errorDescription': why, 'errorReferences': []}]

    def take_order(self, order: Json) -> None:
        """As the standard has it: discarded, an update, refused, or begun."""
        nodes = order['nodes']
        if order['orderId'] == self.order:
            if order['orderUpdateId'] <= self.update:
                return
            self.take_update(order, nodes)
        elif self.busy or self.nodes or self.due:
            self.refuse('orderError', 'it has an order')
        elif nodes[0]['nodeId'] != self.world.cell:
            self.refuse('noRouteError', f'it stands at {self.world.cell}, and the order begins at {nodes[0]["nodeId"]}')
        else:
            self.order, self.update, self.last, self.errors = order['orderId'], order['orderUpdateId'], nodes[0]['sequenceId'], []
            self.nodes, self.due = nodes[1:], list(nodes[0]['actions'])
            self.states = waiting(nodes)
        self.tell()

    def take_update(self, order: Json, nodes: list[Json]) -> None:
        base = [node for node in self.nodes if node['released']]
        end = base[-1]['sequenceId'] if base else self.last
        if nodes[0]['sequenceId'] != end:
            self.refuse('orderUpdateError', f'it begins at {nodes[0]["sequenceId"]}, and the base ends at {end}')
            return
        self.nodes, self.update, self.errors = base + nodes[1:], order['orderUpdateId'], []
        known = {state['actionId'] for state in self.states}
        self.states += [state for state in waiting(nodes[1:]) if state['actionId'] not in known]

    def take_call(self, action: Json) -> None:
        """An instant action."""
        match action['actionType']:
            case 'cancelOrder':
                # it ends at the next node; what it is at goes on to its end
                self.nodes = [self.nodes[0] | {'actions': []}] if self.drives else []
                self.due = []
                for state in self.states:
                    if state['actionStatus'] == 'WAITING':
                        state['actionStatus'] = 'FAILED'
            case 'startPause' | 'stopPause' as kind:
                self.paused = kind == 'startPause'
            case 'factsheetRequest':
                self.sheet()
        self.tell()

    # ---- what it does

    def act(self, now: float) -> None:
        """Ends what it does, and begins what comes next."""
        if self.busy and now >= self.busy[1]:
            kind, _, action = self.busy
            self.busy = None
            if kind == 'drives':
                node = self.nodes.pop(0)
                self.world.arrive()
                self.last, self.due = node['sequenceId'], list(node['actions'])
                self.battery = max(5.0, self.battery - 0.01)
            else:
                self.world.handle(action)
                self.set_action(action, 'FINISHED')
            self.begin(now)
            self.tell()
        elif not self.busy and self.begin(now):
            self.tell()

    def begin(self, now: float) -> bool:
        if self.paused:
            return False
        if self.due:
            action = self.due.pop(0)
            self.set_action(action, 'RUNNING')
            self.busy = 'acts', now + self.options.handling * self.random.uniform(0.7, 1.3), action
        elif self.nodes and self.nodes[0]['released']:
            self.world.set_out(self.nodes[0]['nodeId'])
            self.busy = 'drives', now + self.pace * self.random.uniform(0.8, 1.2), {}
        else:
            return False
        return True

    def set_action(self, action: Json, status: str) -> None:
        for state in self.states:
            if state['actionId'] == action['actionId']:
                state['actionStatus'] = status

    # ---- its loop

    def take(self, topic: str, payload: bytes) -> None:
        kind = topic.rsplit('/', 1)[-1]
        try:
            if topic == CONNECTED:
                self.publish('connection', {'connectionState': 'ONLINE'}, 1, True)
                self.sheet()
                self.tell()
            elif kind == 'order':
                self.take_order(read_message(kind, topic, payload))
            else:
                for action in read_message(kind, topic, payload)['actions']:
                    self.take_call(action)
        except Fault as fault:
            self.refuse('validationError', str(fault))
            self.tell()

    def turn(self) -> None:
        now = time.monotonic()
        wait = min(0.5, self.busy[1] - now) if self.busy else 0.5
        for message in self.broker.take(max(0.001, wait)):
            self.take(message.topic, message.payload)
        now = time.monotonic()
        self.act(now)
        if now - self.told > STATES:
            self.tell()
        if isinstance(self.broker, Mqtt):
            self.leave(self.broker, now)

    def leave(self, broker: Mqtt, now: float) -> None:
        """Goes away from the broker, and comes again."""
        if self.away and now > self.away:
            self.away = 0.0
            broker.start()
        elif not self.away and self.random.random() < self.options.leaves / 100:
            broker.end()
            self.away = now + self.random.uniform(0.5, 3)


def waiting(nodes: list[Json]) -> list[Json]:
    """The states of all actions at these nodes."""
    return [{'actionId': action['actionId'], 'actionType': action['actionType'], 'actionStatus': 'WAITING'}
            for node in nodes for action in node['actions']]


def header(heads: dict[str, int], kind: str, maker: str, serial: str) -> dict[str, Any]:
    """A message's first fields, with the next number of its topic."""
    heads[kind] = heads.get(kind, -1) + 1
    return {'headerId': heads[kind], 'timestamp': stamp(), 'version': VERSION, 'manufacturer': maker, 'serialNumber': serial}


def add_options(parser: argparse.ArgumentParser) -> None:
    add = parser.add_argument
    add('serial')
    add('--start', required=True, metavar='X,Y', help='where it stands at first')
    add('--world', required=True, metavar='FOLDER', help='where its place, its loads and its trace are kept')
    add_broker_options(parser)
    add('--maker', default=MAKER, help='%(default)s')
    add('--rows', type=int, default=100, help='of the map, for its position in metres (%(default)s)')
    add('--cell', type=float, default=1.0, metavar='METRES', help='%(default)s')
    add('--length', type=float, default=0.6, metavar='METRES', help='%(default)s')
    add('--width', type=float, default=0.5, metavar='METRES', help='%(default)s')
    add('--pace', type=float, default=1.0, metavar='SECONDS', help='a cell (%(default)s)')
    add('--handling', type=float, default=1.0, metavar='SECONDS', help='a pick or a drop (%(default)s)')
    add('--leaves', type=float, default=0.0, metavar='PERCENT', help='chance of a turn to leave the broker for up to 3 s')
    add('--seed', type=int, default=0)


def run(options: argparse.Namespace) -> int:
    start = cell_of(options.start.replace(',', '_'))
    if start is None or not math.isfinite(options.pace) or options.pace < 0:
        raise Fault(f'--start {options.start}: X,Y is wanted')
    os.makedirs(options.world, exist_ok=True)
    topic = f'uagv/v2/{options.maker}/{options.serial}/connection'
    will = json.dumps(header({}, 'connection', options.maker, options.serial) | {'connectionState': 'CONNECTIONBROKEN'})
    broker = reach(options, f'{options.maker}-{options.serial}', options.serial, (topic, will))
    vehicle = Simulated(options, broker)
    broker.start()
    try:
        while True:
            vehicle.turn()
    except KeyboardInterrupt:
        return 0
    finally:
        broker.end()
