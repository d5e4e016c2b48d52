#!/usr/bin/env python3
"""Tests of the package's readers of texts and replies, with expected values worked out by hand; no program is run.

The last line is `N passed, M failed`; status 1 where one failed.
"""
import os
import random
import sys
import tempfile

import counting

ROOT = os.path.dirname(os.path.dirname(os.path.abspath(__file__)))
sys.path.insert(0, os.path.join(ROOT, 'python'))
sys.dont_write_bytecode = True

from warehouse.replies import (Accepted, Arrived, Clock, Closed, Go, NotAReply, Parked, Refused, Replaced, Rested, Stopped, Took, Visited,    # noqa: E402
                               is_entry, reply_of, told_of, unplaced, without_cells)
from warehouse.texts import (Fault, Order, orders_of, read_arrivals, read_file, read_instance, read_log, read_orders,    # noqa: E402
                             read_transcript)

MAP = 'type t\nheight 3\nwidth 5\nmap\n@.@.@\n..S.G\n@.@T@\n'
POINTS = '# floor\n\nparking P0 0 1\n\tstation  A 1 0\nagent P0\nrule nofollow\n'
LOG = 'wlog 2\nstart 3 slots 4\n0 submit x A A = accepted 0\n7 token 0 = took 0 path 0,1 1,1 1,0\n0 tick = clock 4 picked 0 dropped 0\n'


def same(found: object, wanted: object) -> None:
    assert found == wanted, f'found {found!r}, wanted {wanted!r}'


def fault_of(read, *given) -> Fault:
    try:
        read(*given)
    except Fault as fault:
        assert str(fault).startswith(f'{fault.file} line {fault.line}: ' if fault.line else f'{fault.file}: '), fault
        return fault
    raise AssertionError(f'{given!r} is taken')


def test_an_instance() -> None:
    text = (MAP + '%%\n' + POINTS).encode()
    for data in (text, text.replace(b'\n', b'\r\n'), text + b'%%\nsubmit x A A\n%%\n', text[:-1]):
        found = read_instance('f', data)
        same((found.width, found.height, found.starts, found.nofollow), (5, 3, [0], True))
        same([(point.kind, point.name, point.cell) for point in found.points], [('parking', 'P0', (0, 1)), ('station', 'A', (1, 0))])
        same(found.text, text + b'%%\n')
        same([found.is_passable(cell) for cell in ((0, 0), (1, 0), (2, 1), (4, 1), (3, 2), (5, 1), (1, -1))],
             [False, True, True, True, False, False, False])
        same((found.is_station('A'), found.is_station('P0'), found.is_station('B'), found.cell_of('A')), (True, False, False, (1, 0)))
    plain = read_instance('f', text.replace(b'rule nofollow\n', b''))
    same((plain.nofollow, plain.with_nofollow().text), (False, text + b'%%\n'))


def test_faults_of_an_instance_have_their_line() -> None:
    text = MAP + '%%\n' + POINTS
    for old, new, line in (('type t', 'type', 1), ('type t', '', 1), ('height 3', 'height 0', 2), ('width 5', 'height 5', 3), ('map\n', 'mab\n', 4),
                           ('height 3', 'height 4097', 2), ('@.@.@', '@.@.', 5), ('..S.G', '..x.G', 6), ('height 3', 'height 4', 8),
                           ('height 3', 'height 2', 7), ('station', 'stadion', 12), ('A 1 0', 'A 0 0', 12), ('A 1 0', 'A 9 0', 12),
                           ('A 1 0', 'A 1', 12), ('A 1 0', 'P0 1 0', 12), ('agent P0', 'agent B', 13), ('agent P0', 'agent', 13)):
        fault = fault_of(read_instance, 'floor', text.replace(old, new, 1).encode())
        same((old, fault.file, fault.line), (old, 'floor', line))
    fault_of(read_instance, 'floor', text.replace('agent P0\n', '').encode())
    same(fault_of(read_instance, 'floor', MAP.encode()).line, 7)
    same(fault_of(read_file, '/none/such').file, '/none/such')


def test_orders() -> None:
    # the second is due at the clock at which it stands, the third when its comment says
    lines = 'submit x  A B\n# @0 not alone\ntick\n\tsubmit y A B C\n # @1\n# why\nsubmit z C A\ntoken 0\ntick\nsubmit w A A'.split('\n')
    same(orders_of(lines), [Order(0, 'submit x A B'), Order(1, 'submit y A B C'), Order(1, 'submit z C A'), Order(2, 'submit w A A')])
    same((orders_of(lines)[1].client, orders_of(lines)[1].stops), ('y', ['A', 'B', 'C']))
    same(read_orders('f', b'%%\n%%\nsubmit x A B\n%%\nsubmit y A B\n'), [Order(0, 'submit x A B')])
    fault_of(read_orders, 'f', b'%%\n')
    fault_of(read_orders, 'f', b'%%\n%%\n', '/none/such')


def test_a_log() -> None:
    instance = read_instance('f', (MAP + '%%\n' + POINTS).encode())
    run = read_log(instance, 'l', LOG.encode() + b'0 ti')
    # at A at clock 5, which the log does not come to: both stops are there
    same((run.start, run.clock, run.entries, run.cut, run.tasks[0].visits, run.tasks[0].phase(4)), (3, 4, 3, True, [], 'assigned'))
    same([run.cell_at(0, clock) for clock in (3, 4, 5, 9)], [(0, 1), (1, 1), (1, 0), (1, 0)])
    run = read_log(instance, 'l', b'accepted 0\n%%\n' + LOG.encode() + b'0 tick = clock 5 picked 1 dropped 0\nend 4\n')
    same((run.tasks[0].visits, run.tasks[0].service_time, run.tasks[0].phase(5), run.cut), ([5, 5], 2, 'done', False))
    same(run.differences(), [(5, (1, 0), (1, 1))])
    for old, new, line in (('wlog 2', 'wlog 9', 1), ('start 3', 'start x', 2), ('slots 4', 'slots 4 4', 2), ('0 submit', '64 submit', 3),
                           ('accepted 0', 'accepted 1', 3), (' A A', ' A P0', 3), ('1,1 1,0', '1,0', 4), ('0,1 1,1', '0,1 0,0', 4),
                           ('path 0,1', 'path 1,1', 4), ('token 0', 'token 5', 4), ('clock 4', 'clock 5', 5), ('tick', 'tock', 5)):
        fault = fault_of(read_log, instance, 'l', LOG.replace(old, new, 1).encode())
        same((old, fault.file, fault.line), (old, 'l', line))


def test_arrivals() -> None:
    same(read_arrivals('a', b'at 0 0\nat 1 3\nat 0 2\nat 1 1\nat 1', 3), [2, 3, 0])
    same(read_arrivals('a', b'', 2), [0, 0])
    for text, line in ((b'at 0 0\nat 0\n', 2), (b'at 0 0\nto 0 1\n', 2), (b'at 0 0\nat 2 1\n', 2), (b'at 0 -1\n', 1), (b'\n', 1)):
        same((text, fault_of(read_arrivals, 'a', text, 2).line), (text, line))


def test_replies() -> None:
    for text, wanted in (
            ('accepted 3', Accepted(3)), ('took 0 path 0,1 1,1', Took(0, ((0, 1), (1, 1)), 1)), ('took 0 end 6', Took(0, (), 6)),
            ('parked P-1 path 4,4095', Parked('P-1', ((4, 4095),), 0)), ('parked P end 2', Parked('P', (), 2)), ('rested', Rested()),
            ('clock 1000000000 picked 2 dropped 0', Clock(1000000000, 2, 0)), ('arrived 0 17', Arrived(0, 17)), ('replaced 4', Replaced(4)),
            ('closed', Closed()), ('stopped', Stopped()), ('refused E1 17', Refused('E1', ('17',))), ('refused E5 3', Refused('E5', (3,))),
            ('refused E6', Refused('E6')), ('refused V1 0 8', Refused('V1', (0, 8)))):
        same((reply_of(text), str(wanted)), (wanted, text))
    for text in ('', 'accepted', 'accepted x', 'accepted 1 2', 'accepted 01', 'took 0', 'took 0 path', 'took 0 path 1', 'took 0 path 1,x', 'took 0 end',
                 'rested 1', 'clock 1 picked 0', 'clock 1 dropped 0 picked 0', 'refused', 'refused E5 x', 'go 0 1 1,1', 'closed ', 'took 0 path  0,1'):
        try:
            raise AssertionError(f'{text!r} is {reply_of(text)}')
        except NotAReply:
            pass
    same((told_of('go 3 14 20,7'), told_of('visited 1 0 2'), told_of('closed')), (Go(3, 14, (20, 7)), Visited(1, 0, 2), None))
    same((unplaced('12 3 rested'), unplaced('rested')), ((12, 3, 'rested'), (None, None, 'rested')))
    same([is_entry(text) for text in ('rested', 'refused E6', 'refused C1', 'refused E90', 'refused V1 0 3', 'arrived 0 1')],
         [True, True, False, False, False, False])
    same((without_cells(Took(1, ((0, 0), (0, 1)), 1)), without_cells(Rested())), (Took(1, (), 1), Rested()))


def test_a_damaged_text_is_a_fault_with_its_place() -> None:
    """Texts with some bytes changed, left out or doubled are read, or refused in words; nothing else is raised."""
    chance = random.Random(1)
    with open(os.path.join(ROOT, 'examples', 'deliveries'), 'rb') as file:
        whole = file.read()
    with open(os.path.join(ROOT, 'examples', 'deliveries.log'), 'rb') as file:
        log = file.read()
    instance = read_instance('i', whole)
    run = read_log(instance, 'l', log)
    told = b'0.5 clock 1 picked 0 dropped 0\n0.6 go 0 1 1,1\n0.7 go 1 1 3,1\n1.0 arrived 0 1\n1.5 clock 2 picked 2 dropped 0\n2 refused V1 1 2\n'
    refused = 0
    for read, given, data in ((read_instance, ('i',), whole), (read_log, (instance, 'l'), log), (read_transcript, (run, 't'), told)):
        for _ in range(400):
            place, size = chance.randrange(len(data)), chance.randrange(1, 9)
            piece = bytes(chance.choice(b'0 19,=%.@\n\r#xA\xff\x80') for _ in range(chance.randrange(5)))
            try:
                read(*given, data[:place] + piece + data[place + chance.choice((0, size)):])
            except Fault as fault:
                assert fault.file == given[-1] and '\n' not in str(fault), fault
                refused += 1
    assert 600 < refused < 1200, refused


def test_a_file_that_is_a_folder() -> None:
    with tempfile.TemporaryDirectory() as folder:
        same(str(fault_of(read_file, folder)), f'{folder}: Is a directory')


if __name__ == '__main__':
    sys.exit(counting.run(globals()))
