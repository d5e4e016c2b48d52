#!/usr/bin/env python3
"""Tests of the VDA 5050 adapter without a broker: messages, the table of states, the list of keys, files and options.
tests/python_vda5050_fleet.py has whole fleets, tests/python_broker.py the real parts.

The program is that of WAREHOUSE, else the one that the gate built. The last line is `N passed, M failed`, and `, K skipped` where a test needs what is not
here; status 1 where one failed.
"""
import contextlib
import errno
import io
import json
import os
import re
import sys
import tempfile
import types
from unittest import mock

# no power is cut here, and each arrival is a sync
tempfile.tempdir = '/dev/shm' if os.access('/dev/shm', os.W_OK) else None

import counting    # noqa: E402
from tools_drive import ROOT, SCRATCH, file, has, same, text_of    # noqa: E402

sys.path.insert(0, os.path.join(ROOT, 'python'))
sys.dont_write_bytecode = True

from warehouse import Fault    # noqa: E402
from warehouse.__main__ import main    # noqa: E402
from warehouse.vda5050 import broker as broker_module    # noqa: E402
from warehouse.vda5050.adapter import read_fleet    # noqa: E402
from warehouse.vda5050.book import Book, Opening    # noqa: E402
from warehouse.vda5050.broker import client_of    # noqa: E402
from warehouse.vda5050.feed import Feed, read_table    # noqa: E402
from warehouse.vda5050.layout import Layout, cell_of, node_name    # noqa: E402
from warehouse.vda5050.orders import Writer    # noqa: E402
from warehouse.vda5050.plan import leg_of    # noqa: E402
from warehouse.vda5050.schema import TOPICS, fault_in, read_message, schema    # noqa: E402
from warehouse.vda5050.vehicle import TABLE, Name, Sends, Vehicle, row_of    # noqa: E402
from vda5050_floor import Bus, HEAD, PATH, SHEET, STATE    # noqa: E402


# --------------------------------------------------------------------------------------------- messages

def test_schemas_say_what_they_are() -> None:
    for topic in TOPICS:
        same(schema(topic)['$comment'], 'Written from knowledge of VDA 5050 2.x, not checked against its text.')
    for topic in ('transport', 'command'):
        same(schema(topic)['$comment'], 'Of this adapter alone: no message of VDA 5050.')


ORDER = HEAD | {'orderId': 'a', 'orderUpdateId': 0, 'nodes': [{'nodeId': '0_1', 'sequenceId': 0, 'released': True, 'actions': []}], 'edges': []}
VALID = {'order': ORDER, 'state': STATE, 'factsheet': SHEET, 'connection': HEAD | {'connectionState': 'ONLINE'},
         'instantActions': HEAD | {'actions': [{'actionType': 'cancelOrder', 'actionId': '1', 'blockingType': 'HARD'}]},
         'visualization': HEAD | {'agvPosition': {'x': 0, 'y': 1, 'theta': 0, 'mapId': 'floor', 'positionInitialized': True}},
         'transport': {'id': 'o.1', 'stops': ['A', 'B']}, 'command': {'command': 'pause'}}
WRONG = [('state', {'lastNodeSequenceId': -1}, '/lastNodeSequenceId is -1, out of its range'),
         ('state', {'driving': 'no'}, '/driving is no boolean'), ('state', {'orderUpdateId': True}, '/orderUpdateId is no integer'),
         ('state', {'operatingMode': 'AUTO'}, '/operatingMode is none of AUTOMATIC, SEMIAUTOMATIC, MANUAL, SERVICE, TEACHIN'),
         ('state', {'nodeStates': [{'nodeId': 'a', 'sequenceId': 2}]}, '/nodeStates/0/released is missing'),
         ('state', {'timestamp': 'today'}, '/timestamp is `today`, and not as ^'), ('state', {'errors': [7]}, '/errors/0 is no object'),
         ('order', {'nodes': []}, '/nodes has 0 elements, 1 are wanted'), ('order', {'orderId': ''}, '/orderId has 0 letters'),
         ('order', {'nodes': [ORDER['nodes'][0] | {'actions': [{'actionType': 'pick', 'actionId': '1', 'blockingType': 'FIRM'}]}]},
          '/nodes/0/actions/0/blockingType is none of NONE, SOFT, HARD'),
         ('transport', {'id': 'a b'}, '/id is `a b`, and not as ^'), ('transport', {'stops': ['A']}, '/stops has 1 elements, 2 are wanted'),
         ('command', {'command': 'stop'}, '/command is none of pause, resume, out, back')]


def test_messages_are_judged_with_their_places() -> None:
    for topic, message in VALID.items():
        same((topic, fault_in(schema(topic), message)), (topic, None))
        same(read_message(topic, 't', json.dumps(message).encode()), message)
        for name in schema(topic)['required']:
            same(fault_in(schema(topic), {key: value for key, value in message.items() if key != name}), f'/{name} is missing')
    for topic, change, words in WRONG:
        has(str(fault_in(schema(topic), VALID[topic] | change)), words)
    for payload, words in ((b'', 't: it is no JSON'), (b'\xff\x00', 't: it is no JSON'), (b'[1', 't: it is no JSON'),
                           (b'7', 't: the text is no object'), (b'{"x": NaN}', 't: it is no JSON: NaN'), (b'[' * 100000, 't: it is no JSON'),
                           (b'"' + b'a' * (1 << 20) + b'"', 't: the message has 1048578 bytes')):
        try:
            read_message('state', 't', payload)
            raise AssertionError(payload[:20])
        except Fault as fault:
            has(str(fault), words)


def test_the_validator_against_jsonschema() -> None:
    try:
        import jsonschema
    except ImportError:
        jsonschema = None
    if jsonschema is None:
        raise counting.Skipped('no jsonschema for this Python (apt-get install python3-jsonschema, PYTHON=/usr/bin/python3)')
    for topic, message in VALID.items():
        jsonschema.Draft7Validator.check_schema(schema(topic))
        for change in [{}, *(change for kind, change, _ in WRONG if kind == topic)]:
            valid = jsonschema.Draft7Validator(schema(topic)).is_valid(message | change)
            same((topic, change, fault_in(schema(topic), message | change) is None), (topic, change, valid))


# ---------------------------------------------------------------------------------------- a floor in metres

def test_metres_and_names() -> None:
    layout = Layout(3, 1.2, 0.06)
    # the middle of the third column of the upper row: 2.5 cells from the left, 2.5 from below
    same((layout.metres((2, 0)), layout.metres((0, 2))), ((3.0, 3.0), (0.6, 0.6)))
    same((node_name((12, 7)), cell_of('12_7'), cell_of('12'), cell_of('-1_2'), cell_of('1_2_3')), ('12_7', (12, 7), None, None, None))
    same(layout.position((2, 0)), {'x': 3.0, 'y': 3.0, 'mapId': 'floor', 'allowedDeviationXY': 0.06})


def test_the_factsheet_against_the_cell() -> None:
    def sized(length: float, width: float, kind: str = 'DIFF') -> dict:
        return SHEET | {'physicalParameters': SHEET['physicalParameters'] | {'length': length, 'width': width},
                        'typeSpecification': SHEET['typeSpecification'] | {'agvKinematic': kind}}
    # the diagonal of 0.8 by 0.6 is 1.0, with 0.06 on both sides 1.12: it fits 1.2 and not 1.1
    same((Layout(3, 1.2, 0.06).misfits(sized(0.8, 0.6)), Layout(3, 1.1, 0.06).misfits(sized(0.8, 0.6))),
         ('', 'its factsheet says 0.8 m long and 0.6 m wide: turning on the spot it takes 1.12 m, with 0.06 m of deviation on each side, and a cell has 1.1 m'))
    # one that need not turn takes its length alone, 0.92
    same(Layout(3, 1.1, 0.06).misfits(sized(0.8, 0.6, 'OMNI')), '')
    has(Layout(3, 0.9, 0.06).misfits(sized(0.8, 0.6, 'OMNI')), 'it takes 0.92 m', 'a cell has 0.9 m')
    unable = SHEET | {'protocolFeatures': {'optionalParameters': [], 'agvActions': [{'actionType': 'pick', 'actionScopes': ['NODE']}]}}
    same(Layout(3).misfits(unable), 'its factsheet has no action drop')


# ------------------------------------------------------------------------------------------------ orders

def book(name: str) -> Book:
    path = os.path.join(SCRATCH.name, name)
    if os.path.exists(path):
        os.remove(path)
    return Book(path)


def test_legs() -> None:
    # a stay in between is no node; A is node 2, B node 6; clock 3 is its beginning
    leg = leg_of(1, 3, PATH[:2] + PATH[1:], 4, [(1, 0), (3, 0)])
    same((leg.cells, leg.steps, leg.visits), (list(PATH), [3, 4, 6, 7, 8, 9, 10], [2, 6]))
    same(leg_of(1, 0, ((1, 0),), 0, [(1, 0), (1, 0)]).visits, [0, 0])


def test_an_order_by_hand() -> None:
    keys = book('keys.order')
    keys.put('k', 'c', ['A', 'B'], 0)
    vehicle = Vehicle(0, 'm', 'v0', STATE, now=1.0, run='r-1', leg=leg_of(1, 0, PATH, 0, [(1, 0), (3, 0)]), node=0)
    vehicle.leg.told = 2
    writer = Writer(Layout(3), keys.of_task, 3)
    name, update, body = writer.due(vehicle, Sends.ORDER, 1.0)
    same((str(name), update), ('r-1.0.1.0.0', 2))
    same([(node['nodeId'], node['sequenceId'], node['released'], [action['actionType'] for action in node['actions']]) for node in body['nodes']],
         [('0_1', 0, True, []), ('1_1', 2, True, []), ('1_0', 4, True, ['pick']), ('1_1', 6, False, []), ('2_1', 8, False, []), ('3_1', 10, False, [])])
    same([(edge['edgeId'], edge['sequenceId'], edge['released']) for edge in body['edges']],
         [('0_1-1_1', 1, True), ('1_1-1_0', 3, True), ('1_0-1_1', 5, False), ('1_1-2_1', 7, False), ('2_1-3_1', 9, False)])
    same(body['nodes'][2]['actions'], [{'actionType': 'pick', 'actionId': 'r-1.0.1.0.0.0:k', 'blockingType': 'HARD', 'actionParameters': [
        {'key': 'stationName', 'value': 'A'}, {'key': 'loadId', 'value': 'k'}]}])
    same(fault_in(schema('order'), HEAD | {'orderId': str(name), 'orderUpdateId': update} | body), None)
    # once it has that, and is told further, the update begins at the last node that it was released to
    vehicle.state = STATE | {'orderId': 'r-1.0.1.0.0', 'orderUpdateId': 2, 'lastNodeId': '1_1', 'lastNodeSequenceId': 2,
                             'nodeStates': [{'nodeId': '1_0', 'sequenceId': 4, 'released': True}]}
    vehicle.sent, vehicle.sent_at, vehicle.leg.told, vehicle.node = (name, 2), 1.0, 4, 1
    _, update, body = writer.due(vehicle, Sends.UPDATE, 1.1)
    same((update, [node['sequenceId'] for node in body['nodes']], [node['released'] for node in body['nodes']]), (4, [4, 6, 8, 10, 12], [True, True, True, False, False]))
    # that is on its way, so the next one goes on from it; a second later it is sent again from what the vehicle has
    vehicle.sent, vehicle.sent_at = (name, 4), 1.1
    same(writer.due(vehicle, Sends.UPDATE, 1.5), None)
    vehicle.leg.told = 5
    same([node['sequenceId'] for node in writer.due(vehicle, Sends.UPDATE, 1.5)[2]['nodes']][:2], [8, 10])
    same([node['sequenceId'] for node in writer.due(vehicle, Sends.UPDATE, 2.2)[2]['nodes']][:2], [4, 6])
    # an order that was called back at node 4 is followed by one of another name, from there; what is picked is picked
    keys.transports['k'].made = 1
    vehicle.node = 2
    name, update, body = writer.due(vehicle, Sends.AGAIN, 9.0)
    same((str(name), update, body['nodes'][0]['nodeId'], body['nodes'][0]['actions'], [a['actionType'] for a in body['nodes'][-1]['actions']]),
         ('r-1.0.1.2.0', 3, '1_0', [], ['drop']))
    vehicle.state = vehicle.state | {'orderId': 'r-1.0.1.2.0'}
    same(str(writer.due(vehicle, Sends.AGAIN, 9.0)[0]), 'r-1.0.1.2.1')
    # a factsheet that knows orders of two nodes gets no horizon beyond
    vehicle.sheet = SHEET | {'protocolLimits': {'maxStringLens': {}, 'maxArrayLens': {'order.nodes': 2}, 'timing': {}}}
    vehicle.leg.told = 3
    same(len(writer.due(vehicle, Sends.AGAIN, 9.0)[2]['nodes']), 2)
    keys.close()


def seen(**changes) -> Vehicle:
    """A vehicle whose state is that of one at rest at node 0 of a path of which it was told 2 nodes, but for these."""
    state = {name: changes.pop(name) for name in list(changes) if name in STATE or name == 'paused'}
    made = {'heard': 9.0, 'now': 10.0, 'run': 'r-1', 'leg': leg_of(1, 0, PATH, 0, [(1, 0), (3, 0)]), 'node': 0, 'state': STATE | state} | changes
    vehicle = Vehicle(0, 'm', 'v0', **made)
    if vehicle.leg:
        vehicle.leg.told = 2
    return vehicle


GOES = {'orderId': 'r-1.0.1.0.0', 'orderUpdateId': 2, 'nodeStates': [{'nodeId': '1_1', 'sequenceId': 2, 'released': True}], 'driving': True}
FAILED = [{'actionId': 'r-1.0.1.0.0.0', 'actionStatus': 'FAILED', 'resultDescription': 'no load'}]
ROWS = [('out of use', seen(out=True), 'is out of use'), ('unheard', seen(state=None), 'no state has come'),
        ('lost', seen(connection='CONNECTIONBROKEN', connected=9.5), 'its connection is CONNECTIONBROKEN'),
        ('at rest', seen(connection='CONNECTIONBROKEN', connected=8.5), ''), ('lost', seen(now=60.0), 'no state for 51 s'),
        ('unfit', seen(unfit='too long'), 'too long'), ('by hand', seen(operatingMode='MANUAL'), 'operating mode MANUAL'),
        ('at rest', seen(operatingMode='SEMIAUTOMATIC'), ''), ('elsewhere', seen(off='says 9, 9'), 'says 9, 9'),
        ('of a run before', seen(**GOES | {'orderId': 'r-0.0.4.0.0'}), 'has the order r-0.0.4.0.0 of a run before'),
        ('at rest', seen(orderId='r-0.0.4.0.0'), ''), ('foreign', seen(**GOES | {'orderId': 'theirs'}), 'has the order theirs, which is none of these'),
        ('astray', seen(node=None), 'stands at 0_1, none of its cells'), ('too far', seen(node=3, lastNodeId='1_1'), 'is at 1_1, which it was not told'),
        ('broken down', seen(errors=[{'errorType': 'motor', 'errorLevel': 'FATAL', 'errorDescription': 'hot'}]), 'motor hot'),
        ('at rest', seen(errors=[{'errorType': 'motor', 'errorLevel': 'WARNING'}]), ''),
        ('stopped', seen(safetyState={'eStop': 'MANUAL', 'fieldViolation': False}), 'emergency stop MANUAL'), ('paused', seen(paused=True), 'is paused'),
        ('failed', seen(orderId='r-1.0.1.0.0', orderUpdateId=0, actionStates=FAILED), 'action r-1.0.1.0.0.0 failed: no load'),
        ('called back', seen(orderId='r-1.0.1.0.0', orderUpdateId=2), ''), ('called back', seen(orderId='r-1.0.1.0.0', actionStates=FAILED, called=8.0, sent_at=7.0), ''), ('under way', seen(**GOES), ''), ('ending', seen(**GOES | {'orderId': 'r-1.0.0.0.0'}), ''),
        ('at a cut', seen(orderId='r-1.0.0.0.0', nodeStates=[{'nodeId': '1_1', 'sequenceId': 2, 'released': False}]), ''),
        ('at rest', seen(), ''), ('at rest', seen(leg=None), '')]


def test_the_table_of_states() -> None:
    for name, vehicle, alarm in ROWS:
        row = row_of(vehicle)
        same((name, row.name, row.alarm(vehicle)), (name, name, alarm))
    same({name for name, _, _ in ROWS}, {row.name for row in TABLE})
    # what may move a vehicle comes only where nothing is wrong with it, or to go on where it stands still
    same({row.name for row in TABLE if row.sends in (Sends.ORDER, Sends.AGAIN)}, {'failed', 'called back', 'at rest'})
    same({row.name for row in TABLE if row.sends is Sends.UPDATE}, {'stopped', 'paused', 'under way'})
    same([row.name for row in TABLE if not row.reports], ['out of use', 'unheard', 'lost', 'unfit', 'by hand', 'elsewhere', 'of a run before', 'foreign', 'astray', 'too far'])
    same(str(Name('r-1', 2, 3, 4, 5)), 'r-1.2.3.4.5')


# ------------------------------------------------------------------------------------------- the list of keys

def test_keys_at_every_byte() -> None:
    """A file that is cut at any byte has all lines that were whole, and none of the rest."""
    keys = book('keys.cut')
    keys.put('a', 'c', ['A', 'B'], 0)
    keys.make({'a': 1})
    keys.put('b', 'c', ['B', 'A'], 1)
    keys.free(1, 1)    # the core refused it
    keys.put('c', 'c', ['A', 'A'], 1)
    keys.make({'a': 2})
    keys.begin_run(Opening(2, [(0, 1), (4, 1)], [(2, 1)], [1], {'c': 1}))
    keys.put('c', 'c', ['A', 'A'], 0)
    keys.close()
    data = open(keys.path, 'rb').read()
    for cut in range(len(data) + 1):
        with open(keys.path, 'wb') as kept:
            kept.write(data[:cut])
        again = Book(keys.path)
        whole = data[:cut].count(b'\n')
        same((cut, sorted(again.transports)), (cut, ['a', 'b'] if whole == 4 else ['a', 'c'] if whole > 4 else ['a'] if whole > 1 else []))
        if 'a' in again.transports:
            same((cut, again.transports['a'].made), (cut, 0 if whole < 3 else 1 if whole < 6 else 2))
        same((cut, again.opening.number, again.name == keys.name), (cut, 1 if whole < 7 else 2, whole > 0))
        if whole >= 7:
            # what the vehicle that is out of use has waits for it
            same((again.opening, again.left()), (Opening(2, [(0, 1), (4, 1)], [(2, 1)], [1], {'c': 1}), []))
        if whole == 8:
            again.settle(0)
            same((again.transports['c'].run, again.of_task(0)), (0, None))
        again.put_aside('e', 'c', ['A', 'B'])
        same([one.key for one in again.left()][-1], 'e')
        again.write([{'key': 'd', 'run': 9, 'task': 0, 'client': 'c', 'stops': ['A', 'B'], 'first': 0}])
        again.close()
        has(open(keys.path, 'rb').read().decode().splitlines()[-1], '"key":"d"')
        Book(keys.path).close()
    # what the core's log does not have was not handed in
    with open(keys.path, 'wb') as kept:
        kept.write(data[:data.index(b'{"run":2')])
    again = Book(keys.path)
    again.settle(1)
    same(sorted(again.transports), ['a'])
    again.close()


def test_keys_that_cannot_be_read_or_written() -> None:
    for text, words in (('{"key": "a"}\n', 'line 1: `{"key": "a"}` is no line of a list of keys'), ('noise\n', 'line 1: `noise` is no line'),
                        ('{"book":1,"name":"x"}\n{"key":"a","made":1}\n', 'line 2: '), ('{"book":1,"name":"x"}\n{"run":2}\n', 'line 2: '),
                        ('{"book":2,"name":"x"}\n', 'line 1: '), ('{"book":1,"name":"x"}\n{"book":1,"name":"x"}\n', 'line 2: ')):
        try:
            Book(file('keys.bad', text))
            raise AssertionError(text)
        except Fault as fault:
            has(str(fault), 'keys.bad ' + words)
    for path in (SCRATCH.name, '/none/such/keys'):
        try:
            Book(path)
            raise AssertionError(path)
        except Fault as fault:
            has(str(fault), path + ': ')
    keys = book('keys.full')
    keys.put('a', 'c', ['A', 'B'], 0)
    before = open(keys.path, 'rb').read()
    with mock.patch('os.write', side_effect=OSError(errno.ENOSPC, 'No space left on device')):
        try:
            keys.put('b', 'c', ['A', 'B'], 1)
            raise AssertionError
        except Fault as fault:
            same((str(fault), 'b' in keys.transports), (f'{keys.path}: No space left on device', False))
    real = os.write
    with mock.patch('os.write', side_effect=lambda to, data: real(to, data[:9])):    # a disk that fills up within a line
        try:
            keys.put('b', 'c', ['A', 'B'], 1)
            raise AssertionError
        except Fault as fault:
            has(str(fault), 'it was not written whole')
    keys.put('c', 'c', ['A', 'B'], 1)
    has(open(keys.path, 'rb').read().decode(), before.decode())
    same(open(keys.path, 'rb').read()[len(before):].count(b'\n'), 1)
    keys.close()


# ------------------------------------------------------------------------------------------- files and options

def said_by(*words: str) -> tuple[str, int]:
    said = io.StringIO()
    with contextlib.redirect_stderr(said), contextlib.redirect_stdout(io.StringIO()):
        try:
            status = main(list(words))
        except SystemExit as end:
            status = end.code
    return said.getvalue(), status


def test_wrong_files_and_options_are_refused_in_words() -> None:
    instance, log = os.path.join(ROOT, 'examples', 'deliveries'), os.path.join(SCRATCH.name, 'o.log')
    begin = ['vda5050', instance, '--log', log]
    for more, words in ((['--cell', '0'], '--cell 0: 0.01 to 100 can be had'), (['--ahead', '0'], '--ahead 0: 1 to'), (['--deviation', '0.6'], '--deviation 0.6: '),
                        (['--port', '0'], '--port 0: 1 to 65535'), (['--step', 'nan'], '--step nan: '), (['--fleet', '/none/such'], '/none/such: No such file'),
                        (['--fleet', file('f1', 'm v0\n')], 'f1: 1 vehicles, and the instance has 2 agents'), (['--fleet', file('f2', '# x\nm v0\nm v0\n')], 'f2 line 3: the vehicle v0 stands earlier'),
                        (['--fleet', file('f3', 'm v0\nm v/1\n')], 'f3 line 2: `m v/1` is no line `MAKER SERIAL`'), (['--password-file', '/none/such'], '/none/such: No such file')):
        said, status = said_by(*begin, *more)
        has(said, words)
        same((more, said.count('\n'), status), (more, 1, 2))
    same([(vehicle.maker, vehicle.serial) for vehicle in read_fleet(file('f4', 'm v0\n\nn v0\n'), 2)], [('m', 'v0'), ('n', 'v0')])
    for text, words in (('', 'line 1: the first line names no column `key`'), ('key,stop\n', 'line 1: the first line names no column `stops`'),
                        ('key,stops\na,A B\nb,A\n', 'line 3: /stops has 1 elements'), ('key,stops\na,A B\na,A B\n', 'line 3: the key a stands earlier'),
                        ('key,stops,at\na,A B,soon\n', 'line 2: `soon` is no second'), ('key,stops\n$(x),A B\n', 'line 2: /id is `$(x)`'), ('key,stops\n"a,A B\n', 'it is no CSV')):
        said, status = said_by('vda5050-orders', file('table', text))
        has(said, words)
        same((text, said.count('\n'), status), (text, 1, 2))
    has(said_by('vda5050-vehicle', 'v0', '--start', 'here', '--world', SCRATCH.name)[0], '--start here: X,Y is wanted')


def test_a_missing_library_and_both_versions_of_it() -> None:
    with mock.patch.dict(sys.modules, {'paho.mqtt.client': None}):
        said, status = said_by('vda5050', os.path.join(ROOT, 'examples', 'deliveries'), '--log', os.path.join(SCRATCH.name, 'm.log'))
        has(said, 'apt-get install python3-paho-mqtt', 'pip install "warehouse[mqtt]"')
        same((said.count('\n'), status, os.path.exists(os.path.join(SCRATCH.name, 'm.log.keys'))), (1, 2, False))
    made = []
    old = types.SimpleNamespace(Client=lambda *words, **named: made.append((words, named)))
    new = types.SimpleNamespace(Client=old.Client, CallbackAPIVersion=types.SimpleNamespace(VERSION2='form 2'))
    client_of(old, 'n')
    client_of(new, 'n', False)
    same(made, [((), {'client_id': 'n', 'clean_session': True}), (('form 2',), {'client_id': 'n', 'clean_session': False})])
    # what either version calls back with is taken: a number in 1.6, an object in 2.x
    said = io.StringIO()
    client = mock.Mock()
    with mock.patch.object(broker_module, 'paho', lambda: types.SimpleNamespace(Client=lambda *words, **named: client)), contextlib.redirect_stderr(said):
        mqtt = broker_module.Mqtt('n', broker_module.Address(), 'me')
        mqtt.on_connect(client, None, {}, 0)
        mqtt.on_disconnect(client, None, 7)
        mqtt.on_connect(client, None, {}, types.SimpleNamespace(is_failure=False), None)
        mqtt.on_disconnect(client, None, {}, types.SimpleNamespace(is_failure=True), None)
        mqtt.on_connect(client, None, {}, 5)
        mqtt.on_connect(client, None, {}, types.SimpleNamespace(is_failure=True), None)
    same(said.getvalue().splitlines()[:3], ['me: the broker is gone: it is tried again', 'me: the broker is back', 'me: the broker is gone: it is tried again'])
    same((said.getvalue().count('the broker refuses the connection'), len(mqtt.take(0))), (2, 2))


def test_the_feed() -> None:
    rows = read_table('t', b'key,client,stops,at\nk2,bo,A B,9\nk1,,B A,\n')
    same([(row.order, row.at) for row in rows], [({'id': 'k1', 'stops': ['B', 'A']}, 0.0), ({'id': 'k2', 'stops': ['A', 'B'], 'client': 'bo'}, 9.0)])
    bus = Bus()
    feed, desk = Feed(rows, bus.client(), 'warehouse'), bus.client()
    same((feed.turn(0), [text for _, text in bus.log]), ([], ['{"id": "k1", "stops": ["B", "A"]}']))
    feed.turn(0)
    feed.rows['k1'].sent -= 4
    feed.began -= 10
    feed.turn(0)
    same(len(bus.log), 3)    # again, and the one whose time has come
    for key, answer in (('k1', '{"state": "accepted"}'), ('k9', '{"state": "accepted"}'), ('k1', 'noise'), ('k2', '{"state": "refused", "why": "no"}'), ('k1', '7')):
        desk.publish(f'warehouse/order/{key}', answer)
    same((feed.turn(0), feed.is_done()), (['k1 accepted', 'k2 refused no'], False))
    # what is answered, and not at its end, is sent again much later: the last answer may be lost with its broker
    sent = len(bus.log)
    feed.rows['k1'].sent -= 4
    feed.turn(0)
    feed.rows['k1'].sent -= 12
    feed.turn(0)
    same([text for _, text in bus.log[sent:]], ['{"id": "k1", "stops": ["B", "A"]}'])
    desk.publish('warehouse/order/k1', '{"state": "delivered"}')
    same((feed.turn(0), feed.is_done()), (['k1 delivered'], True))


if __name__ == '__main__':
    own = text_of('tests', os.path.basename(__file__))
    NEEDS = [name for name in list(globals()) if f'\ndef {name}(' in own and name.startswith('test_')
             and re.search(r'\b(?:busy_f|F)loor\(', own.split(f'\ndef {name}(')[1].split('\ndef ')[0])]
    counting.main(globals(), NEEDS, SCRATCH)
