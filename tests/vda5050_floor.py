"""For the tests of the VDA 5050 adapter: messages that are right, and a whole fleet in this process, over a bus of its own."""
import argparse
import contextlib
import io
import json
import os
import sys
import tempfile
import time

# no power is cut here, and each arrival is a sync
tempfile.tempdir = '/dev/shm' if os.access('/dev/shm', os.W_OK) else None

from fleet_cast import Judge    # noqa: E402
from tools_drive import A_TO_B, PROGRAM, ROOT, SCRATCH, has, same, warehouse    # noqa: E402

sys.path.insert(0, os.path.join(ROOT, 'python'))
sys.dont_write_bytecode = True

from warehouse import Vehicles, read_instance    # noqa: E402
from warehouse.vda5050.adapter import read_fleet    # noqa: E402
from warehouse.vda5050.book import Book    # noqa: E402
from warehouse.vda5050.broker import CONNECTED, Message    # noqa: E402
from warehouse.vda5050.layout import Layout    # noqa: E402
from warehouse.vda5050.loop import Adapter, Settings    # noqa: E402
from warehouse.vda5050.schema import fault_in, schema    # noqa: E402
from warehouse.vda5050.simulated import Simulated    # noqa: E402

HEAD = {'headerId': 0, 'timestamp': '2026-01-02T03:04:05.67Z', 'version': '2.0.0', 'manufacturer': 'm', 'serialNumber': 'v0'}
STATE = HEAD | {'orderId': '', 'orderUpdateId': 0, 'lastNodeId': '0_1', 'lastNodeSequenceId': 0, 'driving': False, 'operatingMode': 'AUTOMATIC',
                'nodeStates': [], 'edgeStates': [], 'actionStates': [], 'batteryState': {'batteryCharge': 80, 'charging': False}, 'errors': [],
                'safetyState': {'eStop': 'NONE', 'fieldViolation': False}}
SHEET = HEAD | {
    'typeSpecification': {'seriesName': 's', 'agvKinematic': 'DIFF', 'agvClass': 'CARRIER', 'maxLoadMass': 1, 'localizationTypes': [], 'navigationTypes': []},
    'physicalParameters': {'speedMin': 0, 'speedMax': 1, 'accelerationMax': 1, 'decelerationMax': 1, 'heightMax': 1, 'width': 0.5, 'length': 0.6},
    'protocolLimits': {'maxStringLens': {}, 'maxArrayLens': {}, 'timing': {}},
    'protocolFeatures': {'optionalParameters': [], 'agvActions': [{'actionType': kind, 'actionScopes': ['NODE']} for kind in ('pick', 'drop')]},
    'agvGeometry': {}, 'loadSpecification': {}}
PATH = tuple((int(x), int(y)) for x, y in (word.split(',') for word in A_TO_B.split()))


# --------------------------------------------------------------------------------------------- a bus

class Bus:
    """A broker of this process: what is retained, and who has subscribed."""

    def __init__(self):
        self.lines, self.retained, self.log = [], {}, []

    def client(self) -> 'Line':
        self.lines.append(Line(self))
        return self.lines[-1]

    def publish(self, topic: str, text: str, retain: bool) -> None:
        self.log.append((topic, text))
        if retain:
            self.retained[topic] = text
        for line in self.lines:
            if line.hears(topic):
                line.inbox.append(Message(topic, text.encode(), time.monotonic()))


class Line:
    """One client's connection. It is up, or lets nothing through."""

    def __init__(self, bus: Bus):
        self.bus, self.topics, self.up = bus, set(), True
        self.inbox = [Message(CONNECTED, b'', time.monotonic())]

    def hears(self, topic: str) -> bool:
        return self.up and (topic in self.topics or topic.rpartition('/')[0] + '/+' in self.topics)

    def subscribe(self, topics) -> None:
        self.topics |= {topic for topic, _ in topics}
        self.inbox += [Message(topic, text.encode(), time.monotonic()) for topic, text in self.bus.retained.items() if self.hears(topic)]

    def publish(self, topic: str, text: str, quality: int = 0, retain: bool = False) -> None:
        if self.up:
            self.bus.publish(topic, text, retain)

    def take(self, wait: float, most: int = 200) -> list:
        taken, self.inbox = self.inbox[:most], self.inbox[most:]
        return taken

    def end(self) -> None:
        self.up = False


class Floor:
    """A fleet in this process. What adapters say is in `said`."""

    def __init__(self, name: str, text: str, out_after: float = 0.0, program: str = PROGRAM, pace: float = 0.004, cell: float = 1.0, silent: float = 40.0,
                 helpers: bool = False, ends: str = 'stops'):
        self.folder = os.path.join(SCRATCH.name, name)
        os.mkdir(self.folder)
        self.instance = read_instance(name, text.encode()).with_nofollow()
        self.settings = Settings(os.path.join(self.folder, 'run.log'), program, Vehicles(4, 3), Layout(self.instance.height, cell, cell / 20), step=pace,
                                 silent=silent, out_after=out_after, helpers=helpers, ends=ends)
        self.bus, self.pace, self.said = Bus(), pace, io.StringIO()
        self.desk = self.bus.client()
        self.desk.subscribe([('warehouse/order/+', 1), ('warehouse/status', 0)])
        self.answers, self.status, self.all_answers, self.wrong = {}, {}, [], set()
        self.begin()
        self.vehicles = [self.vehicle(agent) for agent in range(len(self.instance.starts))]

    def vehicle(self, agent: int) -> Simulated:
        x, y = self.instance.points[self.instance.starts[agent]].cell
        return Simulated(argparse.Namespace(serial=f'v{agent}', maker='torchdaisy', start=f'{x},{y}', world=self.folder, rows=self.instance.height,
                                            cell=self.settings.layout.side, seed=agent, pace=self.pace, handling=self.pace, leaves=0, length=0.6, width=0.5),
                         self.bus.client())

    def begin(self) -> None:
        """An adapter, over what the one before left."""
        with contextlib.redirect_stderr(self.said):
            self.adapter = Adapter(self.instance, self.settings, self.bus.client(), Book(self.settings.log + '.keys'), read_fleet(None, len(self.instance.starts)))
            self.adapter.open()

    def kill_adapter(self) -> None:
        """As signal 9 would: what it had heard, and not done, is gone."""
        self.adapter.broker.up = False
        self.bus.lines.remove(self.adapter.broker)
        self.adapter.core.kill()
        os.close(self.adapter.book.file)
        self.begin()

    def kill_vehicle(self, agent: int) -> None:
        self.bus.lines.remove(self.vehicles[agent].broker)
        self.vehicles[agent].world.trace.close()
        self.vehicles[agent] = self.vehicle(agent)

    def order(self, key: str, *stops: str, **more: str) -> None:
        self.desk.publish('warehouse/order', json.dumps({'id': key, 'stops': stops, **more}))

    def turn(self, each=lambda: None) -> None:
        with contextlib.redirect_stderr(self.said):
            self.adapter.go_on(time.monotonic())
            for vehicle in self.vehicles:
                vehicle.turn()
        for message in self.desk.take(0):
            kind, answer = message.topic.rpartition('/')[2], json.loads(message.payload or b'{}')
            if message.topic == 'warehouse/status':
                self.status = answer
            elif message.topic:
                self.all_answers.append(answer)
                if answer['state'] != 'refused' or kind not in self.answers:
                    self.answers[kind] = answer
        each()

    def until(self, holds, seconds: float = 20.0, each=lambda: None) -> None:
        end = time.monotonic() + seconds
        while not holds():
            assert time.monotonic() < end, (self.answers, self.status, self.said.getvalue()[-1500:], [v.row for v in self.adapter.vehicles])
            self.turn(each)
            time.sleep(0.0005)

    def delivered(self, *keys: str) -> bool:
        return all(self.answers.get(key, {}).get('state') == 'delivered' for key in keys)

    def end(self) -> Judge:
        """Ends all: each log is a run, and no two vehicles were in one cell."""
        with contextlib.redirect_stderr(self.said):
            self.adapter.end()
        for vehicle in self.vehicles:
            vehicle.world.trace.close()
        for number in range(1, self.adapter.book.opening.number + 1):
            log = self.settings.log + (f'.{number}' if number > 1 else '')
            with open(log, encoding='latin-1') as kept, open(log + '.site', encoding='latin-1') as site:
                has(site.readline(), 'wsite')
                text = kept.read()
            self.judge_log(number, text)
        for topic, text in self.bus.log:
            if topic.startswith('uagv/') and topic not in self.wrong:
                same((topic, fault_in(schema(topic.rpartition('/')[2]), json.loads(text))), (topic, None))
        judge = Judge(self.folder)
        same(judge.wrong, [])
        return judge

    def judge_log(self, number: int, text: str) -> None:
        if number == 1:
            has(warehouse(self.instance.text.decode() + text, 'verify', '--unended', *(['--ends', 'homes'] if self.settings.ends == 'homes' else [])), 'run ')

    def last(self, topic: str) -> dict:
        return json.loads(next(text for name, text in reversed(self.bus.log) if name.endswith(topic)))
