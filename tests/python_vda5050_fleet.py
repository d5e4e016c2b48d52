#!/usr/bin/env python3
"""Tests of the VDA 5050 adapter without a broker: whole fleets in this process, over a bus of its own, with the core and the adapter
killed, and a vehicle lost. tests/python_broker.py has the real parts.

The program is that of WAREHOUSE, else the one that the gate built. The last line is `N passed, M failed`, and `, K skipped` where a test needs what is not
here; status 1 where one failed.
"""
import contextlib
import errno
import json
import os
import re
import sys
import tempfile
import time
import types
from unittest import mock

# no power is cut here, and each arrival is a sync
tempfile.tempdir = '/dev/shm' if os.access('/dev/shm', os.W_OK) else None

import counting    # noqa: E402
from tools_drive import PROGRAM, ROOT, SCRATCH, TWO, file, has, same, text_of, tool    # noqa: E402

sys.path.insert(0, os.path.join(ROOT, 'python'))
sys.dont_write_bytecode = True

from warehouse import Fault, read_instance, read_orders    # noqa: E402
from warehouse.vda5050 import handover, loop, simulated    # noqa: E402
from warehouse.process import CoreDied, NoProgram    # noqa: E402
from warehouse.vda5050.adapter import may_begin_later    # noqa: E402
from warehouse.vda5050.book import Opening    # noqa: E402
from warehouse.vda5050.broker import CONNECTED, Message    # noqa: E402
from warehouse.vda5050.layout import cell_of    # noqa: E402
from warehouse.vda5050.loop import stamp    # noqa: E402
from warehouse.vda5050.opening import instance_of    # noqa: E402
from vda5050_floor import Floor, HEAD, SHEET, STATE    # noqa: E402


# --------------------------------------------------------------------------------------------- whole fleets

def test_an_order_is_delivered_once() -> None:
    floor = Floor('once', TWO)
    floor.order('k1', 'A', 'B', client='anna')
    floor.order('k2', 'D', 'C')
    floor.until(lambda: floor.delivered('k1', 'k2'))
    states = [answer['state'] for answer in floor.all_answers if answer['id'] == 'k1']
    same(states, ['accepted', 'assigned', 'picked', 'delivered'])
    # again: the same is answered, with nothing handed in; with other stops it is refused; and so is what cannot be
    floor.all_answers.clear()
    for key, stops in (('k1', 'A B'), ('k1', 'B A'), ('k3', 'A Z'), ('k4', 'A P0'), ('k5', 'A B A B A B A B A')):
        floor.order(key, *stops.split(), **({'client': 'anna'} if key == 'k1' else {}))
    floor.until(lambda: len(floor.all_answers) >= 5)
    same([(answer['id'], answer['state'], answer.get('why', '')) for answer in floor.all_answers], [
        ('k1', 'delivered', ''), ('k1', 'refused', 'the key stands with anna A B'), ('k3', 'refused', '`submit vda5050 A Z` is left out: refused E1 Z'),
        ('k4', 'refused', '`submit vda5050 A P0` is left out: refused E2 P0'), ('k5', 'refused', '9 stops, and 2 to 8 can be')])
    # a key that was refused is free
    floor.order('k3', 'A', 'C')
    floor.until(lambda: floor.delivered('k3'))
    judge = floor.end()
    same((sorted(judge.loads.items()), judge.stays > 10), ([((what, key), 1) for what in ('drop', 'pick') for key in ('k1', 'k2', 'k3')], True))


def test_what_is_sent_is_valid_and_what_is_told_is_true() -> None:
    floor = Floor('valid', TWO, cell=1.2)
    for number in range(6):
        floor.order(f'k{number}', *('AB', 'DC', 'BD', 'CA')[number % 4])
    floor.until(lambda: floor.delivered(*(f'k{number}' for number in range(6))))
    kinds = {}
    for topic, text in floor.bus.log:
        kind = topic.rpartition('/')[2]
        if topic.startswith('uagv/'):
            kinds[kind] = kinds.get(kind, 0) + 1
    assert {'order', 'state', 'connection', 'visualization', 'factsheet'} == set(kinds) and kinds['order'] > 12, kinds
    # of each order the base only grows, by its update; an update begins where the base ended
    bases: dict = {}
    for topic, text in floor.bus.log:
        if topic.endswith('/order') and topic.startswith('uagv/'):
            order = json.loads(text)
            base = [node for node in order['nodes'] if node['released']]
            same(base[-1]['sequenceId'], 2 * order['orderUpdateId'])
            before = bases.get(order['orderId'])
            assert order['nodes'][0]['sequenceId'] <= (0 if before is None else before) and base[-1]['sequenceId'] >= (before or 0), order
            bases[order['orderId']] = base[-1]['sequenceId']
    # the middle of a cell of 1.2 m
    node = next(node for topic, text in floor.bus.log if topic.endswith('v0/order') for node in json.loads(text)['nodes'] if node['nodeId'] == '1_1')
    same(node['nodePosition'], {'x': 1.8, 'y': 1.8, 'mapId': 'floor', 'allowedDeviationXY': 0.06})
    floor.end()


def test_a_broker_that_lost_all_is_told_again() -> None:
    floor = Floor('again', TWO)
    floor.order('k', 'A', 'B')
    floor.until(lambda: floor.delivered('k'))
    # its delivery was told to nobody, or the broker has lost it; a new adapter, and any new connection, tells it
    for kill in (True, False):
        floor.answers.clear()
        floor.bus.retained.clear()
        if kill:
            floor.kill_adapter()
        else:
            floor.adapter.broker.inbox.append(Message(CONNECTED, b'', time.monotonic()))
        floor.until(lambda: floor.delivered('k'), 5)
        same(floor.bus.retained['warehouse/order/k'], json.dumps({'id': 'k', 'state': 'delivered', 'run': 1, 'task': 0, 'agent': 0}, separators=(',', ':')))
    floor.end()


def test_more_than_two_stops() -> None:
    floor = Floor('stops', TWO)
    floor.order('k', 'A', 'D', 'D', 'B')
    floor.until(lambda: floor.delivered('k'))
    kinds = {}
    for topic, text in floor.bus.log:
        if topic.endswith('/order') and topic.startswith('uagv/'):
            for node in json.loads(text)['nodes']:
                kinds |= {(node['nodeId'], action['actionId'][-3]): action['actionType'] for action in node['actions']}
    same(sorted(kinds.items()), [(('1_0', '0'), 'pick'), (('3_0', '3'), 'drop'), (('3_2', '1'), 'visit'), (('3_2', '2'), 'visit')])
    floor.end()


def test_a_standstill_and_helper_orders() -> None:
    # agents at A and C bar an order A C D to each other: alarmed, and with helpers one is sent away, with nothing to pick or drop
    text = TWO.replace('agent P0\nagent P1', 'agent A\nagent C')
    floor = Floor('stands', text)
    floor.order('k', 'A', 'C', 'D')
    floor.until(lambda: floor.adapter.alarms.get('standstill') == '1 orders are open, and no agent can take one')
    floor.end()
    floor = Floor('helped', text, helpers=True)
    floor.order('k', 'A', 'C', 'D')
    floor.until(lambda: floor.delivered('k', 'helper-1-1') and 'standstill' not in floor.adapter.alarms)
    has(floor.said.getvalue(), 'vda5050: standstill: is well again')
    same(sorted(floor.end().loads), [('drop', 'k'), ('pick', 'k')])


def test_wrong_messages_are_a_line_each() -> None:
    floor = Floor('wrong', TWO)
    topic = 'uagv/v2/torchdaisy/v0/'
    for name, text in (('warehouse/order', 'noise'), ('warehouse/order', '{"id": "$(touch x)", "stops": ["A", "B"]}'), ('warehouse/order', '{"id": "a"}'),
                       ('warehouse/command', '{"command": "dance"}'), ('warehouse/command', '{"command": "pause", "vehicle": "v9"}'),
                       ('warehouse/command', '{"command": "out", "vehicle": "v0"}'), (topic + 'state', '{}'), (topic + 'state', '{}'), (topic + 'connection', '[]'),
                       (topic + 'factsheet', json.dumps(HEAD)), (topic + 'visualization', '"')):
        floor.desk.publish(name, text)
        floor.wrong.add(name)
    floor.order('k', 'A', 'B')
    floor.until(lambda: floor.delivered('k'))
    said = floor.said.getvalue()
    assert 'Traceback' not in said, said
    for line in ('vda5050: warehouse/order: it is no JSON', 'vda5050: warehouse/order: /id is `$(touch x)`, and not as', 'vda5050: warehouse/order: /stops is missing',
                 'vda5050: warehouse/command: /command is none of', 'vda5050: warehouse/command: there is no vehicle v9', '`out` wants a vehicle, and the option --out-after',
                 f'{topic}state: /timestamp is missing', f'{topic}connection: the text is no object', f'{topic}factsheet: /typeSpecification is missing',
                 f'{topic}visualization: it is no JSON'):
        same((line, said.count(line)), (line, 1))
    floor.end()


def test_alarms_come_and_go() -> None:
    floor = Floor('alarms', TWO)
    state = STATE | {'serialNumber': 'v0', 'lastNodeId': '0_1', 'timestamp': stamp()}
    told = floor.vehicles[0].tell
    for change, words in (({'operatingMode': 'MANUAL'}, 'operating mode MANUAL'), ({'safetyState': {'eStop': 'REMOTE', 'fieldViolation': False}}, 'emergency stop REMOTE'),
                          ({'errors': [{'errorType': 'laser', 'errorLevel': 'FATAL'}]}, 'laser'), ({'lastNodeId': '4_1'}, 'stands at 4_1, none of its cells'),
                          ({'lastNodeId': 'dock'}, 'stands at dock, none of its cells'),
                          ({'agvPosition': {'x': 4.5, 'y': 1.5, 'theta': 0, 'mapId': 'floor', 'positionInitialized': True}}, 'says 4.50, 1.50, which is 4.00 m from 0_1 at 0.5, 1.5')):
        floor.vehicles[0].tell = lambda: None
        floor.vehicles[0].publish('state', state | change | {'timestamp': stamp()})
        floor.until(lambda: floor.adapter.alarms.get('v0', '') == words, 5)
        floor.vehicles[0].tell = told
        floor.vehicles[0].tell()
        floor.until(lambda: 'v0' not in floor.adapter.alarms, 5)
        has(floor.said.getvalue(), f'vda5050: v0: {words}\nvda5050: v0: is well again\n')
    floor.desk.publish('uagv/v2/torchdaisy/v1/factsheet', json.dumps(SHEET | {'physicalParameters': SHEET['physicalParameters'] | {'length': 2}}))
    floor.until(lambda: 'its factsheet says 2 m long' in floor.adapter.alarms.get('v1', ''), 5)
    # it is told nothing while that holds
    floor.order('k', 'B', 'A')
    floor.until(lambda: floor.delivered('k') or floor.adapter.fleet.held == 1 or floor.adapter.fleet.clock > 20, 5)
    same([name for name, _ in floor.bus.log if name.endswith('v1/order')], [])
    floor.until(lambda: floor.status.get('alarms', {}).get('v1', '').startswith('its factsheet'), 5)
    floor.end()


def test_pause_and_resume() -> None:
    with mock.patch.object(loop, 'CALLS', 0.02):
        floor = Floor('pause', TWO, pace=0.02)
        floor.order('k', 'A', 'B')
        floor.until(lambda: floor.answers.get('k', {}).get('state') == 'assigned')
        floor.desk.publish('warehouse/command', '{"command": "pause"}')
        floor.until(lambda: all(vehicle.paused for vehicle in floor.vehicles) and len(floor.adapter.alarms) == 2)
        same(set(floor.adapter.alarms.values()), {'is paused'})
        cells = [vehicle.world.cell for vehicle in floor.vehicles]
        end = time.monotonic() + 0.3
        floor.until(lambda: time.monotonic() > end)
        # one that was on its way to a node comes there
        assert sum(a != b for a, b in zip(cells, [vehicle.world.cell for vehicle in floor.vehicles])) <= 1
        floor.desk.publish('warehouse/command', '{"command": "resume", "vehicle": "v0"}')
        floor.desk.publish('warehouse/command', '{"command": "resume", "vehicle": "v1"}')
        floor.until(lambda: floor.delivered('k'))
        floor.end()


def test_a_failed_action_is_alarmed_and_tried_again() -> None:
    from warehouse.vda5050 import orders as orders_module
    with mock.patch.object(orders_module, 'RETRY', 0.05):
        floor = Floor('failed', TWO)
        vehicle, fails = floor.vehicles[0], [True]
        real = vehicle.world.handle

        def handle(action: dict) -> None:
            if fails and action['actionType'] == 'pick':
                fails.clear()
                raise KeyError(action['actionId'])
            real(action)
        vehicle.world.handle = handle
        act = vehicle.act

        def once(now: float) -> None:
            try:
                act(now)
            except KeyError as failed:
                for state in vehicle.states:
                    state['actionStatus'] = 'FAILED'
                vehicle.nodes, vehicle.due = [], []
                vehicle.tell()
                same(str(failed).count('.'), 5)
        vehicle.act = once
        floor.order('k', 'A', 'B')
        floor.until(lambda: floor.delivered('k'))
        has(floor.said.getvalue(), 'vda5050: v0: action ', ' failed: ', 'vda5050: v0: is well again')
        floor.end()


def test_what_was_done_before_a_kill_is_seen_by_loads() -> None:
    """A vehicle is killed behind a pick, or a drop, of which it said nothing: it comes back with no order, and is not told to do it again."""
    for kind, left in (('pick', ['drop']), ('drop', [])):
        floor = Floor(f'loads-{kind}', TWO)
        vehicle = floor.vehicles[0]
        floor.order('k', 'A', 'B')
        floor.until(lambda: vehicle.busy is not None and vehicle.busy[2].get('actionType') == kind)
        vehicle.world.handle(vehicle.busy[2])
        floor.kill_vehicle(0)
        before = len(floor.bus.log)
        floor.until(lambda: floor.delivered('k'))
        sent = {action['actionType'] for topic, text in floor.bus.log[before:] if topic.endswith('v0/order') for node in json.loads(text)['nodes']
                for action in node['actions']}
        same((kind, sorted(sent)), (kind, left))
        same(sorted(floor.end().loads), [('drop', 'k'), ('pick', 'k')])


def busy_floor(name: str, tasks: int = 20, **named) -> tuple[Floor, list[str]]:
    """Six agents on a small floor, and orders that are sent at once."""
    text, _, _ = tool('make_instance.py', '--columns', '24', '--rows', '16', '--shelf', '4', '--agents', '6', '--tasks', str(tasks), '--seed', '5')
    floor = Floor(name, text, **named)
    orders = read_orders('i', text.encode())
    for number, order in enumerate(orders):
        floor.order(f'o{number}', *order.stops)
    return floor, [f'o{number}' for number in range(len(orders))]


def once_each(floor: Floor, keys: list[str]) -> None:
    """Each load was picked up once, and put down once, and the vehicles made the visits of all."""
    judge = floor.end()
    same(sorted(judge.loads), sorted((what, key) for what in ('pick', 'drop') for key in keys))


def test_kills_of_core_adapter_and_vehicles() -> None:
    kill_them('kills')


def test_kills_where_paths_go_on_home() -> None:
    kill_them('kills-homes', ends='homes')


def kill_them(name: str, **named) -> None:
    """Killed at chance moments, the adapter as if by signal 9, in the middle of what it does: every order is delivered once."""
    import random
    chance, kills = random.Random(4), {'core': 0, 'adapter': 0, 'vehicle': 0}
    floor, keys = busy_floor(name, pace=0.02, **named)
    sent = [0]

    def each() -> None:
        sent[0] += 1
        if sent[0] % 400 == 0:    # until it is answered
            for key, order in list(orders.items()):
                if key not in floor.answers:
                    floor.order(key, *order)
        if chance.random() < 0.1 and sum(kills.values()) < 45:
            kind = chance.choice(sorted(kills))
            kills[kind] += 1
            if kind == 'core':
                floor.adapter.core.carrier.process.child.kill()
            elif kind == 'adapter':
                floor.kill_adapter()
            else:
                floor.kill_vehicle(chance.randrange(len(floor.vehicles)))
    orders = {json.loads(text)['id']: json.loads(text)['stops'] for topic, text in floor.bus.log if topic == 'warehouse/order'}
    floor.until(lambda: floor.delivered(*keys), 40, each)
    assert min(kills.values()) >= 5, kills
    same(len(floor.adapter.fleet.tasks), len(keys))
    once_each(floor, keys)


def test_a_core_that_finds_a_full_disk() -> None:
    """The core ends with status 3 as often as it is begun: a line each, and nothing is lost, or done twice, once there is room."""
    full = os.path.join(SCRATCH.name, 'full')
    program = file('full-core', f'#!/bin/sh\n[ -e {full} ] && {{ echo "refused X5" >&2; exit 3; }}\nexec {PROGRAM} "$@"\n')
    os.chmod(program, 0o700)
    with mock.patch.object(loop, 'LONGEST_PAUSE', 0.1):
        floor = Floor('fulldisk', TWO, program=program)
        floor.order('k1', 'A', 'B')
        floor.until(lambda: floor.answers.get('k1', {}).get('state') == 'assigned')
        open(full, 'w').close()
        floor.adapter.core.carrier.process.child.kill()
        floor.until(lambda: not floor.adapter.is_open)
        floor.order('k2', 'D', 'C')
        end = time.monotonic() + 1.5
        floor.until(lambda: time.monotonic() > end)
        same(('k2' in floor.answers, floor.status['core']), (False, 'stopped'))
        os.remove(full)
        floor.order('k2', 'D', 'C')
        floor.until(lambda: floor.adapter.is_open)
        floor.order('k2', 'D', 'C')
        floor.until(lambda: floor.delivered('k1', 'k2'))
        said = floor.said.getvalue()
        assert 'Traceback' not in said
        has(said, 'vda5050: the core stops: the program ended with status 3 ', '; it is begun again in ')
        once_each(floor, ['k1', 'k2'])


def test_which_beginnings_are_tried_again() -> None:
    # 3: another program has the log, or the disk is full; 9: killed; 1: the map is wrong, and would be again
    same([may_begin_later(error) for error in (CoreDied('', 3), CoreDied('', -9), CoreDied('', 1), CoreDied('', 2), NoProgram(''))], [True, True, False, False, False])


def test_a_list_of_keys_that_finds_a_full_disk() -> None:
    floor = Floor('fullkeys', TWO)
    keys, real = floor.adapter.book.file, os.write

    def write(to: int, data: bytes) -> int:
        if to == keys:
            raise OSError(errno.ENOSPC, 'No space left on device')
        return real(to, data)
    floor.order('k1', 'A', 'B')
    floor.until(lambda: floor.answers.get('k1', {}).get('state') == 'assigned')
    with mock.patch('os.write', side_effect=write):
        floor.order('k2', 'D', 'C')
        floor.until(lambda: floor.adapter.desk.book.transports['k1'].is_delivered)
        floor.until(lambda: 'keys' in floor.adapter.alarms)
        # done, and not told: it could not be written
        same(('k2' in floor.answers, floor.delivered('k1')), (False, False))
    floor.order('k2', 'D', 'C')
    floor.until(lambda: floor.delivered('k1', 'k2'))
    has(floor.said.getvalue(), 'run.log.keys: No space left on device', 'vda5050: keys: is well again')
    once_each(floor, ['k1', 'k2'])


def test_a_log_of_another_client_is_refused() -> None:
    floor = Floor('foreign', TWO)
    floor.order('k1', 'A', 'B')
    floor.until(lambda: floor.delivered('k1'))
    floor.end()
    os.remove(floor.settings.log + '.keys')
    try:
        floor.begin()
        raise AssertionError
    except Fault as fault:
        has(str(fault), 'run.log: its task 0, `submit vda5050 A B`, is in no line of')


# ---------------------------------------------------------------------------------------- a lost vehicle

@contextlib.contextmanager
def quick():
    """Tenths of seconds in place of the adapter's seconds."""
    with contextlib.ExitStack() as stack:
        for where, name, value in ((handover, 'SETTLED', 0.1), (handover, 'FRESH', 0.5), (handover, 'SURE', 0.1), (loop, 'CALLS', 0.02), (loop, 'LOOKS', 0.02),
                                   (simulated, 'STATES', 0.05)):
            stack.enter_context(mock.patch.object(where, name, value))
        yield


def test_a_lost_vehicle_and_its_return() -> None:
    """All halt, and the others deliver what they can; what it carries waits for it; once it is back it is delivered, once."""
    with quick():
        for kill in (False, True):
            floor, keys = busy_floor(f'lost-{kill}', out_after=0.3, silent=0.4, pace=0.01)
            floor.until(lambda: any(vehicle.world.loads for vehicle in floor.vehicles), 30)
            lost = next(vehicle for vehicle in floor.vehicles if vehicle.world.loads)
            load, agent = lost.world.loads[0], int(lost.options.serial[1:])
            floor.vehicles.remove(lost)
            lost.broker.up = False
            floor.bus.publish('uagv/v2/torchdaisy/' + lost.options.serial + '/connection', json.dumps(HEAD | {'connectionState': 'CONNECTIONBROKEN'}), True)
            floor.until(lambda: floor.adapter.book.opening.number == 2, 30)
            same((floor.adapter.book.opening.out, floor.adapter.book.opening.carried.get(load)), ([agent], agent))
            if kill:
                floor.kill_adapter()
            blocked = floor.adapter.book.opening.blocked
            # everything but what it carries, and what stops where it may be, or where it rests
            stuck = {key for key in keys if key == load or floor.adapter.book.transports[key].run != 2
                     or any(floor.instance.cell_of(stop) in [*blocked, floor.adapter.book.opening.cells[agent]] for stop in floor.adapter.book.transports[key].stops)}
            floor.until(lambda: floor.delivered(*(key for key in keys if key not in stuck)), 40)
            assert load in stuck and len(stuck) < 12 and not floor.delivered(load), stuck
            lost.broker.up = True
            floor.bus.publish('uagv/v2/torchdaisy/' + lost.options.serial + '/connection', json.dumps(HEAD | {'connectionState': 'ONLINE'}), True)
            floor.vehicles.insert(agent, lost)
            floor.until(lambda: floor.adapter.book.opening.number >= 3, 30)
            same(floor.adapter.book.opening.out, [])
            floor.until(lambda: floor.delivered(*keys), 40)
            has(floor.said.getvalue(), f'vda5050: all vehicles halt, for v{agent}', f'run 2 begins; out of use: v{agent};', 'run 3 begins; out of use: none; 0 cells blocked')
            once_each(floor, keys)


def test_one_that_stands_between_nodes_goes_to_the_next_first() -> None:
    """A vehicle that is killed on its way, and comes back with no order, occupies two cells: no run begins while it does, neither where that
    is while all halt, nor where it was taken out and is back."""
    with quick():
        for is_out in (False, True):
            floor, keys = busy_floor(f'between-{is_out}', 10 if is_out else 4, out_after=0.3, silent=0.4, pace=0.02 if is_out else 0.2)
            floor.until(lambda: any(vehicle.drives for vehicle in floor.vehicles), 30)
            gone = next(agent for agent, vehicle in enumerate(floor.vehicles) if vehicle.drives)
            lost, between = floor.vehicles[gone], gone
            lost.broker.up = False
            floor.vehicles[gone] = types.SimpleNamespace(turn=lambda: None, world=lost.world, drives=False)    # it stops where it is
            if not is_out:
                floor.until(lambda: floor.adapter.handover.halts and any(vehicle.drives for vehicle in floor.vehicles), 30)
                between = next(agent for agent, vehicle in enumerate(floor.vehicles) if vehicle.drives)
                floor.kill_vehicle(between)
            stood, toward = floor.vehicles[between].world.cell, floor.vehicles[between].world.toward
            assert toward, (between, stood)
            floor.until(lambda: floor.adapter.book.opening.number == 2, 30)
            opening = floor.adapter.book.opening
            if is_out:
                assert cell_of(toward) in opening.blocked, (toward, opening)
            else:
                assert opening.cells[between] != cell_of(stood), (stood, toward, opening)
            floor.bus.lines.remove(lost.broker)
            lost.world.trace.close()
            floor.vehicles[gone] = floor.vehicle(gone)    # back, with no order
            floor.until(lambda: floor.adapter.book.opening.number == 3, 30)
            if is_out:
                same(floor.adapter.book.opening.cells[between], cell_of(toward))
            floor.until(lambda: floor.delivered(*keys), 60)
            once_each(floor, keys)


def test_what_a_lost_vehicle_did_meanwhile_is_known_when_it_is_back() -> None:
    """It picks and drops what it was told to, while nobody hears it: neither is handed in again, nor done again."""
    with quick():
        # agent 0 stands at A; the order's pickup is there, and its delivery C two steps on: within what a vehicle is told at once
        floor = Floor('meanwhile', TWO.replace('agent P0', 'agent A') + '', out_after=0.3, silent=0.4, pace=0.05)
        floor.order('k', 'A', 'C')
        vehicle = floor.vehicles[0]
        floor.until(lambda: len([node for node in vehicle.nodes if node['released']]) == 2)
        same((vehicle.world.cell, vehicle.world.loads), ('1_0', []))
        vehicle.broker.up = False
        floor.until(lambda: floor.adapter.book.opening.number == 2, 30)
        floor.until(lambda: not vehicle.world.loads and vehicle.world.cell == '1_2' and vehicle.busy is None)
        same((floor.adapter.book.transports['k'].made, floor.adapter.book.opening.carried, floor.adapter.book.left()), (0, {'k': 0}, []))
        # C is blocked in this run, since the vehicle may be there: an order to it is taken, and waits for the next one, also over a kill
        floor.order('w', 'D', 'C')
        floor.until(lambda: floor.answers.get('w') == {'id': 'w', 'state': 'accepted'})
        floor.kill_adapter()
        same([one.key for one in floor.adapter.book.left()], ['w'])
        vehicle.broker.up = True
        floor.until(lambda: floor.adapter.book.opening.number == 3 and floor.delivered('k', 'w'), 30)
        same([order.line for order in floor.adapter.fleet.tasks], ['submit vda5050 D C'])
        once_each(floor, ['k', 'w'])


def test_out_and_back_by_command() -> None:
    with quick():
        floor, keys = busy_floor('out', out_after=30, pace=0.01)
        floor.until(lambda: len(floor.answers) == len(keys), 30)
        floor.desk.publish('warehouse/command', '{"command": "out", "vehicle": "v2"}')
        floor.until(lambda: floor.adapter.book.opening.number == 2, 30)
        same((floor.adapter.book.opening.out, floor.adapter.alarms.get('v2', 'is out of use')), ([2], 'is out of use'))
        floor.desk.publish('warehouse/command', '{"command": "back", "vehicle": "v2"}')
        floor.until(lambda: floor.adapter.book.opening.number == 3, 30)
        floor.until(lambda: floor.delivered(*keys), 40)
        once_each(floor, keys)


def test_the_instance_of_an_opening() -> None:
    base = read_instance('i', TWO.encode()).with_nofollow()
    same(instance_of(base, Opening()), base)
    # agent 0 stands at P0 with a load, agent 1 between two cells of the corridor, of which one is blocked
    made = instance_of(base, Opening(2, [(0, 1), (2, 1)], [(3, 1), (3, 0)], [1], {'k': 0, 'l': 1}))
    same((made.rows, made.nofollow), (['@.@@@', '...@.', '@.@.@'], True))
    same([(point.kind, point.name, point.cell) for point in made.points], [('station', 'P0', (0, 1)), ('parking', 'P1', (4, 1)), ('station', 'A', (1, 0)),
                                                                          ('station', 'C', (1, 2)), ('station', 'D', (3, 2)), ('station', 'at-1', (2, 1))])
    same([made.points[start].name for start in made.starts], ['P0', 'at-1'])


if __name__ == '__main__':
    own = text_of('tests', os.path.basename(__file__))
    NEEDS = [name for name in list(globals()) if f'\ndef {name}(' in own and name.startswith('test_')
             and re.search(r'\b(?:busy_f|F)loor\(', own.split(f'\ndef {name}(')[1].split('\ndef ')[0])]
    counting.main(globals(), NEEDS, SCRATCH)
