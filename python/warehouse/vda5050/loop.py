"""The adapter's loop: what comes from the broker, what goes to the core, what is sent to vehicles."""
from __future__ import annotations

import contextlib
import json
import os
import sys
import time
from dataclasses import dataclass
from datetime import datetime, timezone

from ..fleet import HELPER, Stop
from ..process import SessionError
from ..replies import Arrived, Go, Parked, Reply, Took
from ..session import Session, Vehicles
from ..texts import Fault, Instance, read_arrivals, read_file
from .book import Book
from .broker import CONNECTED, Broker, Message
from .desk import Desk, judge_log
from .dispatch import Dispatch
from .handover import Handover
from .layout import Layout, node_name
from .opening import instance_of
from .orders import RESEND, Writer
from .plan import Leg, Plan
from .schema import Json, read_message
from .vehicle import Name, Sends, Vehicle, row_of

VERSION = '2.0.0'
CALLS = 1.0          # seconds between two of one instant action
LOOKS = 0.5          # seconds after which each vehicle is looked at again
MOST_REPORTS = 500   # in one write
LONGEST_PAUSE = 10.0
LONGEST_WAIT = 120.0  # seconds for a reply of the core


def stamp() -> str:
    return datetime.now(timezone.utc).strftime('%Y-%m-%dT%H:%M:%S.%f')[:-4] + 'Z'


@dataclass(frozen=True)
class Settings:
    """How an adapter runs."""
    log: str
    program: str | None
    late: Vehicles
    layout: Layout
    prefix: str = 'warehouse'
    step: float = 1.0
    horizon: int = 12
    silent: float = 40.0
    out_after: float = 0.0
    helpers: bool = False
    said: str = 'vda5050'
    ends: str = 'stops'


class Adapter:
    """Vehicles by MQTT, orders of transport by MQTT, and the core between."""
    core: Session
    fleet: Dispatch
    plan: Plan

    def __init__(self, instance: Instance, settings: Settings, broker: Broker, book: Book, vehicles: list[Vehicle]):
        self.base, self.settings, self.broker, self.book, self.vehicles = instance, settings, broker, book, vehicles
        self.by_name = {(vehicle.maker, vehicle.serial): vehicle for vehicle in vehicles}
        self.desk = Desk(instance, book, self.answer)
        self.writer = Writer(settings.layout, book.of_task, settings.horizon)
        self.handover = Handover(self)
        self.reports: dict[int, int] = {}        # steps that states tell, not reported yet
        self.taken: list[int] = []               # tasks that were taken, not told yet
        self.heads: dict[str, int] = {}
        self.changed: set[int] = set()           # agents of which something is new since the last look
        self.paused: set[int] = set()            # vehicles that are to be paused
        self.resumed: set[int] = set()
        self.alarms: dict[str, str] = {}
        self.restarts = self.starts = 0
        self.is_open = False
        self.tried, self.pause = 0.0, 1.0        # when the core was begun last, and how long until the next try
        self.next_tick = self.next_look = self.next_status = self.next_help = 0.0
        self.up = time.monotonic()               # since when the broker is there
        broker.subscribe([*((f'{self.topic(vehicle)}{name}', quality) for vehicle in vehicles
                            for name, quality in (('state', 0), ('connection', 1), ('visualization', 0), ('factsheet', 0))),
                          (f'{settings.prefix}/order', 1), (f'{settings.prefix}/command', 1)])

    @property
    def run(self) -> str:
        return f'{self.book.name}-{self.book.opening.number}'

    def tell(self, line: str) -> None:
        print(f'{self.settings.said}: {line}', file=sys.stderr, flush=True)

    # ---- the core

    def open(self) -> None:
        """Begins the run, or goes on with it. Raises SessionError, Stop, Fault."""
        opening, settings = self.book.opening, self.settings
        instance = instance_of(self.base, opening)
        log = settings.log + (f'.{opening.number}' if opening.number > 1 else '')
        self.core = Session(instance, settings.program, log=log, vehicles=settings.late, ends=settings.ends, wait=LONGEST_WAIT)
        try:
            self.fleet = Dispatch(self.core, opening, self.book, self.hear)
            judge_log(self.book, self.fleet, log)
            starts = [instance.points[start].cell for start in instance.starts]
            self.plan = Plan(starts, lambda task: self.fleet.stops[task], self.made)
            self.plan.ended = self.is_over
            self.read_run(log)
        except BaseException:
            self.core.kill()
            raise
        for vehicle in self.vehicles:
            vehicle.out = vehicle.agent in opening.out
        self.reports.clear()    # of the run before, it may be: what still holds comes again at the next look
        self.is_open, self.restarts, self.starts = True, 0, self.starts + 1
        self.desk.hand_in_left(self.fleet, lambda agent: instance.points[instance.starts[agent]].name)
        self.take_told()
        self.next_look = 0.0

    def read_run(self, log: str) -> None:
        """What the log and the file of arrivals say of paths, and of where vehicles are."""
        for clock, entry in self.fleet.clocks(self.core.begun):
            self.plan.hear(clock, entry.command, entry.reply)
        if os.path.exists(log + '.at'):
            for agent, step in enumerate(read_arrivals(log + '.at', read_file(log + '.at'), len(self.vehicles))):
                self.plan.arrived(agent, step)
        self.take_told()

    def hear(self, line: str, reply: Reply) -> None:
        """What the core answers to the fleet."""
        self.plan.hear(self.fleet.clock, line, reply)
        if isinstance(reply, Took):
            self.taken.append(reply.task)
        if isinstance(reply, (Took, Parked)):
            self.changed.add(int(line.split(' ')[1]))

    def take_told(self) -> None:
        for one in self.core.take_told():
            if isinstance(one, Go):
                self.plan.told(one)
                self.changed.add(one.agent)

    def made(self, task: int) -> int:
        """How many visits of a task of this run are made."""
        transport = self.book.of_task(task)
        return 0 if transport is None else transport.made - transport.first

    def is_over(self, leg: Leg) -> None:
        """A vehicle is on a later path, so it has made all visits of this one."""
        transport = None if leg.task is None else self.book.of_task(leg.task)
        if transport is not None:
            self.desk.make(transport, transport.first + len(leg.visits))

    def fail(self, why: str, now: float) -> None:
        """The core is not to be gone on with: it is begun again, soon."""
        if self.is_open:
            self.core.kill()
            self.is_open = False
        self.tell(f'the core stops: {why}; it is begun again in {self.pause:g} s')
        self.tried, self.pause = now + self.pause, min(2 * self.pause, LONGEST_PAUSE)

    # ---- one turn

    def go_on(self, now: float) -> None:
        """Takes what has come, and does what follows. No fault of the core, of a file or of a message leaves it."""
        for message in self.broker.take(max(0.01, min(0.1, self.next_tick - now))):
            try:
                self.take(message)
            except (SessionError, Stop) as error:
                self.fail(str(error), time.monotonic())
            except Fault as fault:
                self.tell(str(fault))
        now = time.monotonic()
        try:
            if not self.is_open and now >= self.tried:
                self.open()
            if self.is_open:
                self.turn(now)
        except (SessionError, Stop, Fault) as error:
            self.fail(str(error), now)
        if now >= self.next_status:
            self.next_status = now + 1
            self.tell_status()

    def turn(self, now: float) -> None:
        """Reports arrivals, asks and ticks, and sends what is due."""
        self.report()
        self.handover.judge(now)
        if not self.handover.halts:
            self.fleet.policy(self.fleet)
            if now >= self.next_tick and self.fleet.under_way() and self.fleet.held is None:
                if self.fleet.tick():
                    self.next_tick = max(self.next_tick + self.settings.step, now - self.settings.step)
                self.fleet.policy(self.fleet)
            self.take_told()
            self.help(now)
        for restart in self.core.restarts[self.restarts:]:
            self.tell(str(restart))
            self.restarts += 1
        if now >= self.next_look:
            self.next_look = now + LOOKS
            self.changed.update(range(len(self.vehicles)))
        for agent in sorted(self.changed):
            self.serve(self.vehicles[agent], now)
        self.changed.clear()
        for task in self.taken:
            self.desk.tell_task(self.plan, task)
        self.taken.clear()
        self.write()
        self.pause = 1.0

    def help(self, now: float) -> None:
        """Alarms a standstill; ends it by a helper order where that is asked for."""
        if now < self.next_help:
            return
        self.next_help = now + 1
        stands = bool(self.fleet.open) and not any(self.plan.under_way()) and self.fleet.stands()
        self.alarm('standstill', f'{len(self.fleet.open)} orders are open, and no agent can take one' if stands else '')
        if stands and self.settings.helpers:
            self.fleet.help()

    def write(self) -> None:
        try:
            self.desk.write(self.plan)
        except Fault as fault:
            self.alarm('keys', f'{fault}: what is delivered is written when that can be')
        else:
            self.alarm('keys', '')

    def report(self) -> None:
        """Where vehicles are, in one write."""
        rows = list(self.reports.items())
        for first in range(0, len(rows), MOST_REPORTS):
            part = rows[first:first + MOST_REPORTS]
            for (agent, step), reply in zip(part, self.core.ask_all([f'at {agent} {step}' for agent, step in part])):
                del self.reports[agent]
                if not isinstance(reply, Arrived):
                    self.tell(f'{self.vehicles[agent].serial}: its step {step} is not taken: {reply}')
                    continue
                self.plan.arrived(agent, step)
                self.changed.add(agent)
                if self.fleet.held == agent:
                    self.fleet.held = None
        if rows:
            self.take_told()

    # ---- from the broker

    def take(self, message: Message) -> None:
        """Takes one message. Raises Fault for one that is wrong."""
        words = message.topic.split('/')
        if message.topic == CONNECTED:
            self.up = message.came
            if self.is_open:
                self.desk.tell_all(self.plan)
        elif message.topic == f'{self.settings.prefix}/order':
            order = read_message('transport', message.topic, message.payload)
            if self.is_open:    # else it comes again
                self.desk.take(self.fleet, self.plan, order)
        elif message.topic == f'{self.settings.prefix}/command':
            self.command(read_message('command', message.topic, message.payload))
        elif len(words) == 5 and (words[2], words[3]) in self.by_name:
            self.take_from(self.by_name[words[2], words[3]], words[4], message)

    def take_from(self, vehicle: Vehicle, kind: str, message: Message) -> None:
        """A vehicle's message."""
        try:
            content = read_message(kind, message.topic, message.payload)
        except Fault as fault:
            if vehicle.wrong != str(fault):    # once, and not at each state
                vehicle.wrong = str(fault)
                raise
            return
        if kind == 'connection':
            vehicle.connection, vehicle.connected = content['connectionState'], message.came
        elif kind == 'factsheet':
            vehicle.sheet, vehicle.unfit = content, self.settings.layout.misfits(content)
        elif kind == 'state':
            vehicle.wrong = ''
            if vehicle.state is None or content['timestamp'] >= vehicle.state['timestamp']:
                vehicle.state, vehicle.heard = content, message.came
                self.judge_position(vehicle, content.get('agvPosition'))
                self.changed.add(vehicle.agent)

    def judge_position(self, vehicle: Vehicle, position: Json | None) -> None:
        """Whether the vehicle is where its node is, or on the way to the next."""
        cell, layout = vehicle.cell, self.settings.layout
        vehicle.off, vehicle.apart = '', 0.0
        if cell is None or position is None or not position['positionInitialized'] or position['mapId'] != layout.name:
            return
        off = vehicle.apart = layout.off(cell, position)
        if off > 2 * layout.side:
            x, y = layout.metres(cell)
            vehicle.off = f'says {position["x"]:.2f}, {position["y"]:.2f}, which is {off:.2f} m from {node_name(cell)} at {x:g}, {y:g}'

    def command(self, message: Json) -> None:
        """An operator's command. Raises Fault where there is no such vehicle."""
        serial = message.get('vehicle')
        chosen = [vehicle.agent for vehicle in self.vehicles if serial in (None, vehicle.serial)]
        if not chosen:
            raise Fault(f'there is no vehicle {str(serial)[:40]}', f'{self.settings.prefix}/command')
        match message['command']:
            case 'pause':
                self.paused |= set(chosen)
            case 'resume':
                self.paused -= set(chosen)
                self.resumed |= set(chosen)
            case word if serial is None or not self.settings.out_after:
                raise Fault(f'`{word}` wants a vehicle, and the option --out-after', f'{self.settings.prefix}/command')
            case word:
                self.handover.want(chosen[0], word == 'out')
        self.next_look = 0.0

    # ---- to vehicles

    def look(self, vehicle: Vehicle, now: float) -> None:
        """Where the vehicle is on its path, by what it said last."""
        vehicle.now, vehicle.run = now, self.run
        vehicle.limit = self.settings.silent + max(0.0, self.up - vehicle.heard)    # a broker's own fall does not count
        state, named = vehicle.state, vehicle.named
        if state is not None and not vehicle.is_broken:
            if named is not None:
                self.take_actions(vehicle, named)
            if vehicle.has_our_order and named is not None:
                self.finish_before(vehicle, named)
            self.place(vehicle)
        vehicle.leg = self.plan.current(vehicle.agent)

    def finish_before(self, vehicle: Vehicle, named: Name) -> None:
        """It was given this order because it had done those before."""
        legs = self.plan.legs[vehicle.agent]
        while len(legs) > 1 and legs[0].number < named.leg and named.leg <= legs[-1].number:
            self.plan.drop(vehicle.agent, 1)

    def take_actions(self, vehicle: Vehicle, named: Name) -> None:
        """What of its order's actions has ended, also of a run before where the order waits for this vehicle."""
        for action in vehicle.state['actionStates'] if vehicle.state else ():
            name, _, key = action['actionId'].partition(':')
            order, _, visit = name.rpartition('.')
            transport = self.book.transports.get(key)
            if transport is None or order != str(named) or not visit.isdecimal() or action['actionStatus'] != 'FINISHED':
                continue
            if f'{self.book.name}-{transport.run}' == named.run:
                self.desk.make(transport, min(transport.first + int(visit) + 1, len(transport.stops)))

    def place(self, vehicle: Vehicle) -> None:
        """The node where it is, and its arrival there. It is at no node where its cell is none that it may be in."""
        self.plan.current(vehicle.agent)
        leg, named, state = self.plan.legs[vehicle.agent][0], vehicle.named, vehicle.state
        assert state is not None
        vehicle.leg, vehicle.node = leg, None
        if vehicle.has_our_order and named is not None and named.leg == leg.number:
            node = named.begin + state['lastNodeSequenceId'] // 2
            if node <= leg.last:
                vehicle.node = node
        else:
            vehicle.node = next((node for node in range(leg.came, leg.told + 1) if leg.cells[node] == vehicle.cell), None)
        transport = None if leg.task is None else self.book.of_task(leg.task)
        if vehicle.node is None:
            return
        if leg.came < vehicle.node <= leg.told and row_of(vehicle).reports:
            self.reports[vehicle.agent] = max(self.reports.get(vehicle.agent, 0), leg.steps[vehicle.node])
        if transport is not None and vehicle.node <= leg.told:
            passed = vehicle.node + (transport.client == HELPER)
            self.desk.make(transport, transport.first + sum(at < passed for at in leg.visits))
            if 'loads' in state:
                self.by_load(vehicle, leg)

    def by_load(self, vehicle: Vehicle, leg: Leg) -> None:
        """What its loads say of an order whose end no state told: the vehicle was killed, and has no order."""
        transport = self.book.of_task(leg.task) if leg.task is not None else None
        assert transport is not None and vehicle.node is not None
        is_aboard = transport.key in vehicle.loads or '' in vehicle.loads
        if transport.key in vehicle.loads:
            self.desk.make(transport, 1)
        elif not is_aboard and not vehicle.has_leg and vehicle.is_idle and vehicle.node == leg.last and transport.made == len(transport.stops) - 1:
            self.desk.make(transport, len(transport.stops))

    def serve(self, vehicle: Vehicle, now: float) -> None:
        """Looks at a vehicle, alarms what is wrong, and sends what is due."""
        self.look(vehicle, now)
        row = row_of(vehicle)
        if row.name != vehicle.row:
            vehicle.row, vehicle.since = row.name, now
        is_new = row.name == 'unheard' and now - self.up < 5
        self.alarm(vehicle.serial, '' if is_new else row.alarm(vehicle) or vehicle.wrong)
        if vehicle.sheet is None and vehicle.state is not None and now - vehicle.asked > 10:
            vehicle.asked = now
            self.call(vehicle, 'factsheetRequest')
        self.call_pause(vehicle, now)
        if row.sends is Sends.CANCEL or self.handover.calls_back(vehicle):
            self.call_back(vehicle, now)
        elif vehicle.out:
            self.send_on(vehicle, now)
        elif row.sends is not Sends.NOTHING and not self.handover.keeps(vehicle):
            self.send(vehicle, row.sends, now)

    def send(self, vehicle: Vehicle, sends: Sends, now: float) -> None:
        """Its order, or an update of it, where one is due."""
        due = self.writer.due(vehicle, sends, now)
        if due is not None:
            name, update, body = due
            self.publish(vehicle, 'order', {'orderId': str(name), 'orderUpdateId': update, **body})
            vehicle.sent, vehicle.sent_at = (name, update), now

    def send_on(self, vehicle: Vehicle, now: float) -> None:
        """To the next node, where one that is out of use and there again stands between two."""
        cell, to = vehicle.cell, self.handover.next_cell(vehicle)
        if cell is not None and to is not None and now - vehicle.sent_at > RESEND:
            leg = Leg(0, 0, [0, 1], [cell, to], told=1)
            name = Name(vehicle.run, vehicle.agent, 0, 0, 0 if vehicle.named is None else vehicle.named.again + 1)
            self.publish(vehicle, 'order', {'orderId': str(name), 'orderUpdateId': 1, **self.writer.body(vehicle, leg, name, 0)})
            vehicle.sent, vehicle.sent_at = (name, 1), now

    def call_pause(self, vehicle: Vehicle, now: float) -> None:
        """Pauses it, or lets it go on, until it says so."""
        is_paused = bool(vehicle.state and vehicle.state.get('paused'))
        if vehicle.agent in self.resumed and not is_paused:
            self.resumed.discard(vehicle.agent)
        if now - vehicle.called > CALLS and (vehicle.agent in self.paused and not is_paused or vehicle.agent in self.resumed):
            vehicle.called = now
            self.call(vehicle, 'stopPause' if vehicle.agent in self.resumed else 'startPause')

    def call_back(self, vehicle: Vehicle, now: float) -> None:
        if now - vehicle.called > CALLS:
            vehicle.called = now
            self.call(vehicle, 'cancelOrder')

    def call(self, vehicle: Vehicle, kind: str) -> None:
        """An instant action."""
        name = f'{kind}.{self.run}.{time.monotonic_ns()}'
        self.publish(vehicle, 'instantActions', {'actions': [
            {'actionType': kind, 'actionId': name, 'blockingType': 'HARD' if kind == 'cancelOrder' else 'NONE', 'actionParameters': []}]})

    def topic(self, vehicle: Vehicle) -> str:
        return f'uagv/v2/{vehicle.maker}/{vehicle.serial}/'

    def publish(self, vehicle: Vehicle, kind: str, message: Json) -> None:
        topic = self.topic(vehicle) + kind
        self.heads[topic] = self.heads.get(topic, -1) + 1
        head = {'headerId': self.heads[topic], 'timestamp': stamp(), 'version': VERSION, 'manufacturer': vehicle.maker, 'serialNumber': vehicle.serial}
        self.broker.publish(topic, json.dumps(head | message, separators=(',', ':')))

    # ---- to clients

    def answer(self, key: str, message: Json, retain: bool) -> None:
        self.broker.publish(f'{self.settings.prefix}/order/{key}', json.dumps(message, separators=(',', ':')), 1, retain)

    def alarm(self, of: str, words: str) -> None:
        """Tells an alarm as it begins and as it ends."""
        if not words:
            if self.alarms.pop(of, None) is not None:
                self.tell(f'{of}: is well again')
        elif words != self.alarms.get(of):
            is_told = of in self.alarms and words[:12] == self.alarms[of][:12]    # the same with other seconds
            self.alarms[of] = words
            if not is_told:
                self.tell(f'{of}: {words}')

    def tell_status(self) -> None:
        transports = self.book.transports.values()
        status: Json = {'run': self.book.opening.number, 'core': 'open' if self.is_open else 'stopped', 'starts': self.starts,
                        'orders': len(transports), 'delivered': sum(one.is_delivered for one in transports),
                        'out': [self.vehicles[agent].serial for agent in self.book.opening.out], 'alarms': self.alarms}
        if self.is_open:
            held = self.fleet.held
            status |= {'clock': self.fleet.clock, 'open': len(self.fleet.open), 'held': None if held is None else self.vehicles[held].serial}
        self.broker.publish(f'{self.settings.prefix}/status', json.dumps(status), 0, True)

    def end(self) -> None:
        """Ends the core; its log can be gone on with."""
        if self.is_open:
            self.is_open = False
            with contextlib.suppress(SessionError):
                self.core.end()
            self.core.kill()
        self.book.close()
