#!/usr/bin/env python3
"""Tests of the package over runs with `--ends homes`, where paths go on home and what is taken up under way replaces the rest. Expected
values are worked out by hand; the stand-in of tools_replies.py takes the program's place, but in the last part.

The last line is `N passed, M failed`; status 1 where one failed.
"""
import json
import os
import subprocess
import sys

import counting
import ends
from tools_drive import ONE, PROGRAM, ROOT, SCRATCH, TWO, drive, figures, file, has, log_of, same, ticks, tool, warehouse
from tools_replies import taped

sys.path.insert(0, os.path.join(ROOT, 'python'))
sys.dont_write_bytecode = True

from warehouse import Fault, Fleet, Queue, Session, Stop, Took, hold, read_instance    # noqa: E402
from warehouse.convert.tables import paths_text    # noqa: E402
from warehouse.fleet import ask_nearest    # noqa: E402
from warehouse.replies import reply_of    # noqa: E402
from warehouse.simulate.judge import Whereabouts    # noqa: E402
from warehouse.texts import Order, read_log    # noqa: E402
from warehouse.vda5050.layout import Layout    # noqa: E402
from warehouse.vda5050.orders import Writer    # noqa: E402
from warehouse.vda5050.plan import Plan    # noqa: E402
from warehouse.vda5050.vehicle import Sends, Vehicle, row_of    # noqa: E402
from warehouse.web.follow import Follower    # noqa: E402
from warehouse.web.status import Status    # noqa: E402

# Agent 0 takes A and B from P0: at A at 2, at B at 6, at home at 10. At 7 it is at 3,1, and takes D and C: at D at 8, at C at 12, at home at 14.
HOME = '0,1 1,1 1,0 1,1 2,1 3,1 3,0 3,1 2,1 1,1 0,1'
NEXT = '3,1 3,2 3,1 2,1 1,1 1,2 1,1 0,1'
FIRST = ['submit x A B = accepted 0', f'token 0 = took 0 path {HOME}', *ticks(1, 7, 2, 6)]
SECOND = [*FIRST, 'submit y D C = accepted 1', f'token 0 = took 1 path {NEXT}', *ticks(8, 14, 8, 12)]
ORDERS = 'submit x A B\n# @7\nsubmit y D C\n'
HOMES = ('--ends', 'homes')

# A corridor of 21 cells; agent 0 at home at its left end, agent 1 at its right one, and stations S0 .. S9 at columns 1, 3, .. 19 above it.
ROW = ('type t\nheight 3\nwidth 21\nmap\n' + '@.' * 10 + '@\n' + '.' * 21 + '\n.' + '@' * 19 + '.\n%%\nparking L 0 2\nparking R 20 2\n'
       + ''.join(f'station S{k} {2 * k + 1} 0\n' for k in range(10)) + 'agent L\nagent R\n%%\n')


def along(*columns: int) -> str:
    """A path from L through the stations over these columns and home to L, or from a cell of the corridor where the first is not 0."""
    cells = [(0, 2)] if columns[0] == 0 else []
    for begin, end in zip(columns, columns[1:]):
        cells += [(x, 1) for x in range(begin, end, 1 if begin < end else -1)] + ([(end, 1), (end, 0)] if end else [(0, 1), (0, 2)])
    return ' '.join(f'{x},{y}' for x, y in cells)


class Tape:
    """A core that has its answers ready, and is asked for nothing else."""
    form, restarts = 'full', ()

    def __init__(self, text: str, *entries: str):
        self.instance, self.begun = read_instance('i', text.encode()), []
        self.entries = [entry.split(' = ') for entry in entries]

    def ask_all(self, lines):
        rows = [self.entries.pop(0) for _ in lines]
        same([row[0] for row in rows], list(lines))
        return [reply_of(row[1]) for row in rows]


def refused(text: str, *entries: str) -> str:
    """What the judge of drive says at the last of these entries."""
    judge = Whereabouts(read_instance('i', text.encode()))
    for entry in entries:
        line, reply = entry.split(' = ')
        try:
            if line == 'tick':
                judge.step()
            judge.hear(line, reply)
        except Fault as fault:
            same(entry, entries[-1])
            return str(fault)
    return ''


# ------------------------------------------------------------------------------------------------ readers

def test_a_log_in_which_a_path_is_replaced() -> None:
    run = read_log(read_instance('i', ONE.encode()), 'log', log_of(*SECOND).encode())
    same((run.homes, run.differences(), [task.visits for task in run.tasks]), (True, [], [[2, 6], [8, 12]]))
    same([run.cell_at(0, clock) for clock in (6, 7, 8, 10, 14)], [(3, 0), (3, 1), (3, 2), (2, 1), (0, 1)])
    same([(path.free, path.end) for path in run.paths[0]], [(0, 0), (6, 10), (12, 14)])
    # agent, clock, cell, task, steps left
    rows = paths_text(run).splitlines()
    same([rows[1 + clock] for clock in (6, 7, 8)], ['0,6,3,0,0,4', '0,7,3,1,1,7', '0,8,3,2,1,6'])
    same(read_log(read_instance('i', ONE.encode()), 'log', log_of('submit x A A = accepted 0').encode()).homes, None)


def test_only_steps_that_were_made_count() -> None:
    # 7 steps of the first path, of which 3 are never made, and 7 of the second; and one in which it stays in place of the 8th
    for entries, moves, waits in ((FIRST[:-1], 6, 0), (SECOND, 14, 0),
                                  ([*FIRST[:1], FIRST[1].replace('3,1 2,1 1,1 0,1', '3,1 3,1 2,1 1,1 0,1'), *SECOND[2:]], 14, 0),
                                  ([*FIRST[:1], FIRST[1].replace('3,1 2,1 1,1 0,1', '3,1 3,1 2,1 1,1 0,1'), *ticks(1, 8, 2, 6)], 7, 1)):
        head, row = (line.split(',') for line in tool('stats.py', file('instance', ONE), file('log', log_of(*entries)))[0].splitlines())
        same((row[head.index('distance')], row[head.index('waits')]), (str(moves), str(waits)))


def test_a_run_is_played() -> None:
    out, said, status = tool('play.py', file('instance', ONE), file('log', log_of(*SECOND)), '--check', '6', '7', '8', '9', '14')
    same((out.splitlines(), said, status), (['clock 6 cells 3,0 phases d', 'clock 7 cells 3,1 phases da', 'clock 8 cells 3,2 phases dc', 'clock 9 cells 3,1 phases dc',
                                             'clock 14 cells 0,1 phases dd', 'counts agree in 14 ticks'], '', 0))


def test_the_next_shift_begins_when_all_are_home() -> None:
    def next_shift(*entries):
        return tool('next_shift.py', file('log', log_of(*entries)), file('instance', ONE))
    has(next_shift(*FIRST)[1], 'agent 0 is at 3,1 at clock 7, with 3 steps left; 3 more ticks, with no token')
    has(next_shift(*SECOND[:-4])[1], 'task 1 is carried at clock 10: agent 0 has it, with 4 steps left; 4 more ticks')
    same(next_shift(*SECOND), (ONE, '', 0))


def test_a_log_of_both_rules_is_read_as_none() -> None:
    instance = read_instance('i', ONE.encode())
    try:
        read_log(instance, 'log', log_of(*FIRST[:-1], *ticks(7, 10), 'submit x A B = accepted 1', f'token 0 = took 1 path {HOME[:27]}').encode())
        raise AssertionError('it is read')
    except Fault as fault:
        has(str(fault), 'log line 17: the path of agent 0 ends at the last stop, and those before do not')


def test_what_the_replies_tell_is_judged() -> None:
    same(refused(ONE, *SECOND), '')
    # asked too soon, from its home, from where it was; at another's home, at none
    has(refused(ONE, *FIRST[:7], 'submit y D C = accepted 1', f'token 0 = took 1 path {NEXT}'), 'agent 0 is answered took, and due in 1 ticks')
    has(refused(ONE, *FIRST, 'submit y D C = accepted 1', 'token 0 = took 1 path 0,1 1,1 2,1 3,1 3,2'), 'begins at 0,1, and it stands at 3,1')
    has(refused(ONE, *FIRST, 'submit y D C = accepted 1', f'token 0 = took 1 path 3,0 {NEXT}'), 'begins at 3,0, and it stands at 3,1')
    for end in ('3,1 4,1', '3,1'):
        has(refused(ONE, FIRST[0], f'token 0 = took 0 path {HOME[:27]} {end}'), 'ends neither at B, the last stop of its task 0, nor where it started')
    # the counts are those of the path that it goes by now
    has(refused(ONE, *SECOND[:-7], 'tick = clock 8 picked 0 dropped 0'), 'the cells give 1 picked and 0 dropped')


def test_a_log_that_grows_is_followed() -> None:
    """What a page gets line by line, and at once; visits come at their clocks, and the agent goes by its last path."""
    lines = log_of(*SECOND).splitlines(keepends=True)[1:]
    log = file('grows', '')
    follower, news = Follower(read_instance('i', ONE.encode()), 'i', log), []
    for number in range(2, len(lines) + 1):
        file('grows', ''.join(lines[:number]))
        news += [more] if (more := follower.look()) else []
    events = [event for more in news for event in more['events'] if event[2] in ('took', 'visit')]
    same([(event[0], *event[2:]) for event in events], [(0, 'took', 0, 0, 10), (2, 'visit', 0, 0), (6, 'visit', 0, 1), (7, 'took', 0, 1, 7), (8, 'visit', 1, 0),
                                                        (12, 'visit', 1, 1)])
    same([way[:5] for more in news for _, way in more['ways']], [[0, 0, 1, 0, -1], [7, 3, 1, 1, -1]])
    same((follower.done, list(ticks for _, ticks in follower.served), follower.run.cell_at(0, 9), Status(follower, 8, 5, 1.0).alarms()), (2, [6, 5], (3, 1), []))


# ------------------------------------------------------------------------------------------------ fleets

def test_it_asks_where_an_agent_has_delivered() -> None:
    wanted = figures(2, 12, '5.50', 6, '16.67', 14, 18, 2)
    same(taped(SECOND, log_of(*SECOND), *HOMES, instance=ONE + ORDERS), (wanted, '', 0))
    # an order that came while it carried one: it asks at its last stop, at 6, and is at D at 8
    soon = [SECOND[0], 'submit y D C = accepted 1', *FIRST[1:8], f'token 0 = took 1 path 3,0 {NEXT}', *ticks(7, 14, 8, 12)]
    same(taped(soon, log_of(*soon), *HOMES, instance=ONE + ORDERS.replace('# @7\n', '')), (figures(2, 12, '9.00', 12, '16.67', 14, 18, 2), '', 0))
    _, said, status = drive(ONE + ORDERS, *HOMES, '--replies', 'short')
    same((said, status), ('drive.py: --ends homes: short replies do not tell when an agent is due\n', 2))
    has(drive(ONE + ORDERS, '--program', f'{PROGRAM} replay --ends=homes')[1], '--ends stands there')


def test_the_nearest_is_where_it_is_and_not_where_its_path_ends() -> None:
    # at S9 at 23, and at 33 back at column 10, 2 steps from S5; agent 1 at R is 11 steps from it, and L 13
    tape = Tape(ROW, 'submit c S0 S9 = accepted 0', f'token 0 = took 0 path {along(0, 1, 19, 0)}', *ticks(1, 33, 3, 23), 'submit c S5 S4 = accepted 1',
                f'token 0 = took 1 path {along(10, 11, 9, 0)}')
    fleet = Fleet(tape)
    fleet.hand_in([Order(0, 'submit c S0 S9')])
    same((fleet.next_to_ask(), fleet.answer(0)), (0, (3, 0)))
    fleet.request([0])
    same((fleet.due[0], fleet.still[0], fleet.under_way()), (23, 44, 1))
    for _ in range(33):
        fleet.tick()
    same((fleet.place(0), fleet.place(0, 99), fleet.may_take(1, Order(0, 'submit c S9 S9'))), ((10, 1), (0, 2), True))
    fleet.hand_in([Order(33, 'submit c S5 S4')])
    same([fleet.answer(agent) for agent in (0, 1)], [(2, 1), (11, 1)])
    ask_nearest(fleet)
    # S5 is at column 11, S4 at 9: 2 steps and 4; then 11 steps home
    same((fleet.due[0] - 33, fleet.still[0] - 33, tape.entries), (6, 17, []))


def test_hold_looks_where_an_agent_will_be_due() -> None:
    # at S0 at 3, at S9 at 23, at S1 at 41; 7 ticks before that, S1 and 6 steps are left to S3, and for agent 1 at R 15
    fleet = Fleet(Tape(ROW, 'submit c S0 S9 S1 = accepted 0', f'token 0 = took 0 path {along(0, 1, 19, 3, 0)}', *ticks(1, 41, 3, 41),
                       'submit c S3 S3 = accepted 1', f'token 0 = took 1 path {along(3, 3, 7, 0)[4:]}'), [Order(0, 'submit c S0 S9 S1')], hold)
    hold(fleet)
    for _ in range(34):
        fleet.tick()
    same(fleet.due[0] - fleet.clock, 7)
    fleet.waiting.append(Order(34, 'submit c S3 S3'))
    for clock in range(35, 42):
        hold(fleet)
        same((len(fleet.waiting), fleet.clock), (1, clock - 1))
        fleet.tick()
    hold(fleet)
    same((fleet.pending(), fleet.open), (0, set()))


def test_a_queue_gives_to_the_nearest_on_its_way() -> None:
    queue = Queue()
    tape = Tape(ROW, 'submit c S0 S9 = accepted 0', f'token 0 = took 0 path {along(0, 1, 19, 0)}', *ticks(1, 33, 3, 23), 'submit c S5 S4 = accepted 1',
                f'token 0 = took 1 path {along(10, 11, 9, 0)}')
    fleet = Fleet(tape, policy=queue)
    queue.put('a', 'c', ['S0', 'S9'])
    queue(fleet)
    for _ in range(33):
        fleet.tick()
    queue.put('b', 'c', ['S5', 'S4'], urgent=True)
    queue(fleet)
    same((queue.waiting, tape.entries), ([], []))


def test_no_path_lasts_only_where_it_stands() -> None:
    # E6 comes on the way home; each tick another order may be the nearest, so it asks again at each until it is home
    entries = [entry for clock in range(8, 11) for entry in ('token 0 = refused E6', *ticks(clock, clock))]
    fleet = Fleet(Tape(ONE, *FIRST, 'submit y D C = accepted 1', *entries, 'token 0 = refused E6'), [Order(0, 'submit x A B'), Order(7, 'submit y D C')])
    has(fleet.run(), 'at clock 10 all agents stand, 1 orders are open')


def test_a_path_without_its_stops_ends_the_run() -> None:
    fleet = Fleet(Tape(ONE, 'submit x A B = accepted 0', 'token 0 = took 0 path 0,1 1,1 0,1'), [Order(0, 'submit x A B')])
    try:
        fleet.run()
        raise AssertionError('it goes on')
    except Stop as stop:
        has(str(stop), 'does not go through its stops')


def test_what_is_said_of_it() -> None:
    has(tool('explain.py', 'refused H1 3')[0], 'H1: With `--ends homes`', 'starts at a station')
    stand_in = file('formed.py', 'import sys\nassert sys.argv[1] == "check"\nsys.stdin.read()\nprint("formed")\n')
    program = file('formed', f'#!/bin/sh\nexec {sys.executable} {stand_in} "$@"\n')
    os.chmod(program, 0o755)
    for words, most in (([], 'At most 2 orders can be under way at once: 2 agents, 10 stations'), ([*HOMES], 'At most 2 orders can be under way at once, one for each agent')):
        has(checked(program, words, ROW), most)
    has(checked(program, [], ROW + 'submit c S0 S1\n'), 'At most 1 orders')
    has(checked(program, [*HOMES], ROW + 'submit c S0 S1\n'), 'At most 2 orders')


def checked(program: str, words: list[str], text: str) -> str:
    """What explain says beside `check`."""
    with open(file('instance', text), encoding='latin-1') as given:
        done = subprocess.run([sys.executable, os.path.join(ROOT, 'tools/explain.py'), '--run', program, 'check', *words], stdin=given, capture_output=True, check=True)
    return done.stderr.decode()


# ------------------------------------------------------------------------------------------------ VDA 5050

def cells(text: str) -> tuple[tuple[int, int], ...]:
    return tuple((int(x), int(y)) for x, y in (word.split(',') for word in text.split()))


def made_plan(made: list[int]) -> Plan:
    stops = [[(1, 0), (3, 0)], [(3, 2), (1, 2)]]
    plan = Plan([(0, 1)], lambda task: stops[task], lambda task: made[task])
    plan.hear(0, 'token 0', Took(0, cells(HOME), 10))
    return plan


def test_a_leg_is_cut_where_the_next_begins() -> None:
    made = [0, 0]
    plan = made_plan(made)
    first = plan.current(0)
    same((first.number, first.last, first.visits, first.is_cut), (1, 10, [2, 6], False))
    plan.hear(7, 'token 0', Took(1, cells(NEXT), 7))
    same((first.last, first.cells[-1], first.is_cut), (7, (3, 1), True))
    same((plan.legs[0][-1].steps, plan.legs[0][-1].visits), ([7, 8, 9, 10, 11, 12, 13, 14], [1, 5]))
    # it is done where the next begins, once its visits are made
    plan.arrived(0, 7)
    same(plan.current(0).number, 1)
    made[0] = 2
    same(plan.current(0).number, 2)
    # one that was gone to its end is not cut
    plan.hear(14, 'token 0', Took(0, cells(HOME), 10))
    same(plan.legs[0][-2].is_cut, False)


STATE = {'orderId': 'r-1.0.1.0.0', 'orderUpdateId': 5, 'lastNodeId': '3_1', 'lastNodeSequenceId': 10, 'driving': False, 'operatingMode': 'AUTOMATIC',
         'actionStates': [], 'errors': [], 'safetyState': {'eStop': 'NONE', 'fieldViolation': False}}


def ahead(*nodes: int, base: int) -> list[dict]:
    return [{'nodeId': 'n', 'sequenceId': 2 * node, 'released': node <= base} for node in nodes]


def test_the_horizon_is_taken_back() -> None:
    plan = made_plan([2, 0])
    leg = plan.legs[0][1]
    leg.told = leg.came = 5
    vehicle = Vehicle(0, 'm', 'v0', STATE | {'nodeStates': ahead(6, 7, 8, base=5)}, heard=9.0, now=9.0, run='r-1', leg=leg, node=5)
    writer = Writer(Layout(3), lambda task: None, 3)
    same(writer.due(vehicle, Sends.UPDATE, 9.0), None)
    plan.hear(7, 'token 0', Took(1, cells(NEXT), 7))
    # to node 7, where it is cut, it is released by update 8, with nothing beyond
    leg.told = 6
    _, update, body = writer.due(vehicle, Sends.UPDATE, 9.0)
    same((update, [(node['sequenceId'], node['released']) for node in body['nodes']]), (6, [(10, True), (12, True), (14, False)]))
    leg.told = 7
    _, update, body = writer.due(vehicle, Sends.UPDATE, 9.0)
    same((update, [(node['sequenceId'], node['released']) for node in body['nodes']]), (8, [(10, True), (12, True), (14, True)]))
    # so also where it had been released to node 7 before, with a horizon
    vehicle.state = STATE | {'orderUpdateId': 7, 'lastNodeSequenceId': 12, 'nodeStates': ahead(7, 8, 9, base=7)}
    _, update, body = writer.due(vehicle, Sends.UPDATE, 9.0)
    same((update, [node['sequenceId'] for node in body['nodes']], body['edges']), (8, [14], []))
    vehicle.state = STATE | {'orderUpdateId': 8, 'lastNodeSequenceId': 12, 'nodeStates': ahead(7, base=7)}
    same((writer.due(vehicle, Sends.UPDATE, 9.0), row_of(vehicle).name), (None, 'under way'))
    # at its end it is neither called back nor cancelled, and gets the next order
    vehicle.state = STATE | {'orderUpdateId': 8, 'lastNodeSequenceId': 14, 'nodeStates': []}
    vehicle.node = 7
    same(row_of(vehicle).name, 'under way')
    vehicle.leg, vehicle.node = plan.legs[0][2], 0
    same(row_of(vehicle).name, 'at rest')
    name, update, body = writer.due(vehicle, Sends.ORDER, 9.0)
    same((str(name), update, body['nodes'][0]['nodeId']), ('r-1.0.2.0.0', 0, '3_1'))


def test_one_that_waits_at_a_cut_is_told_to_end_its_order() -> None:
    plan = made_plan([2, 0])
    plan.hear(7, 'token 0', Took(1, cells(NEXT), 7))
    waits = STATE | {'orderUpdateId': 7, 'lastNodeSequenceId': 14, 'nodeStates': ahead(8, 9, base=7)}
    for state, name, sends in ((waits, 'at a cut', Sends.CANCEL), (waits | {'driving': True}, 'ending', Sends.NOTHING),
                               (waits | {'nodeStates': ahead(7, 8, base=7)}, 'ending', Sends.NOTHING),
                               (waits | {'actionStates': [{'actionId': 'a', 'actionStatus': 'RUNNING'}]}, 'ending', Sends.NOTHING), (waits | {'nodeStates': []}, 'at rest', Sends.ORDER)):
        row = row_of(Vehicle(0, 'm', 'v0', state, heard=9.0, now=9.0, run='r-1', leg=plan.legs[0][2], node=0))
        same((row.name, row.sends), (name, sends))


# ------------------------------------------------------------------------------------------------ the program

def is_run(text: str, log: str) -> None:
    """By the judge of definitions, and by `verify`."""
    if not log.splitlines()[-1].startswith('end '):    # the run is not closed
        log += f'end {log.count(chr(10)) - 2}\n'
    same((ends.judged(ends.Floor(text), log, True)[0], warehouse(text + log, 'verify', *HOMES).strip()), (f'run {log.count(chr(10)) - 3}',) * 2)


def test_the_program_is_driven() -> None:
    log = file('log', '')
    same(drive(ONE + ORDERS, *HOMES, '--save', log), (figures(2, 12, '5.50', 6, '16.67', 14, 18, 2), '', 0))
    with open(log, encoding='latin-1') as made:
        made = made.read()
    same(made, log_of(*SECOND)[3:])
    is_run(ONE, made)
    has(tool('play.py', file('instance', ONE), log, '--verify', PROGRAM)[0], '"verified":"run 18"')


def pack(*words: str) -> str:
    return tool('make_instance.py', '--layout', 'kiva', '--columns', '42', '--rows', '30', '--nofollow', '--ticks', '100', '--every', '2', *words)[0]


def test_a_packing_station_serves_many() -> None:
    text = pack('--stations', '1', '--agents', '10', '--tasks', '12')
    for ask in ('nearest', 'number', 'hold'):
        log = file('log', '')
        found, said, status = drive(text, *HOMES, '--ask', ask, '--log', log)
        same((said, status, found.split()[5]), ('', 0, '12'))
        with open(log, encoding='latin-1') as made:
            is_run(''.join(part + '%%\n' for part in text.split('%%\n')[:2]), made.read())


def test_late_vehicles() -> None:
    text = pack('--stations', '2', '--agents', '8', '--tasks', '20')
    site = ''.join(part + '%%\n' for part in text.split('%%\n')[:2])
    for words in ([], ['--behind', '1'], ['--spread', '0.6', '--stop', '60', '--ahead', '3'], ['--kills', '6']):
        log = file('late.log', '')
        if os.path.exists(log + '.at'):
            os.remove(log + '.at')
        kept = ['--log', log] if '--kills' in words else ['--save', log]
        out, said, status = tool('drive.py', file('instance', text), *HOMES, '--late', '3', *words, *kept, '--transcript', file('told', ''))
        same((said, status, out.splitlines()[:2]), ('', 0, ['orders 20', 'done 20']))
        with open(log, encoding='latin-1') as made:
            is_run(site, made.read())
        if '--kills' not in words:
            has(tool('play.py', file('instance', text), log, '--vehicles', os.path.join(SCRATCH.name, 'told'), '--check', '0')[0], 'counts agree', 'no two vehicles meet')


def test_a_session_goes_on_with_its_run() -> None:
    log = file('session.log', '')
    words = {'program': PROGRAM, 'log': log, 'ends': 'homes'}
    with Session(read_instance('i', TWO.encode()), **words) as core:
        fleet = Fleet(core, [Order(0, 'submit x A B'), Order(0, 'submit y D B')])
        fleet.policy(fleet)
        for _ in range(7):
            fleet.tick()
        seen = fleet.due, fleet.still, fleet.ends, [fleet.place(agent) for agent in (0, 1)]
    with Session(read_instance('i', TWO.encode()), **words) as core:
        fleet = Fleet(core)
        same((fleet.due, fleet.still, fleet.ends, [fleet.place(agent) for agent in (0, 1)]), seen)
        fleet.hand_in([Order(7, 'submit x C A')])
        same(fleet.run(), '')
    with open(log, encoding='latin-1') as made:
        is_run(TWO, made.read())


def test_vehicles_of_vda_5050() -> None:
    from vda5050_floor import Floor
    floor = Floor('homes', TWO, ends='homes')
    keys = [f'k{number}' for number in range(12)]
    for number, key in enumerate(keys):
        floor.order(key, *('AB', 'DB', 'BC', 'CA')[number % 4])
    floor.until(lambda: floor.delivered(*keys), 60.0)
    judge = floor.end()
    same(sorted(judge.loads.items()), sorted(((what, key), 1) for what in ('drop', 'pick') for key in keys))


def test_a_vehicle_at_its_plan_gets_an_order_on_its_way_home() -> None:
    """It has the horizon of the way home, and stands where that is cut: it is told to end its order, and gets the next from there."""
    from dataclasses import replace
    from vda5050_floor import Floor
    floor = Floor('at-plan', ONE, ends='homes')
    floor.adapter.settings = floor.settings = replace(floor.settings, step=0.2)
    leg = floor.adapter.plan.legs[0]
    floor.order('k1', 'A', 'B')
    # home is four steps from B, at node 6
    floor.until(lambda: floor.delivered('k1') and leg[0].last == 10 and leg[0].came == leg[0].told in (7, 8, 9))
    stands = leg[0].cells[leg[0].came]
    floor.order('k2', 'D', 'C')
    floor.until(lambda: floor.delivered('k2'))
    same([topic.rpartition('/')[2] for topic, text in floor.bus.log if 'cancelOrder' in text and topic.endswith('instantActions')], ['instantActions'])
    orders = [json.loads(text) for topic, text in floor.bus.log if topic.startswith('uagv/') and topic.endswith('/order')]
    first = next(order for order in orders if order['orderId'] == orders[-1]['orderId'])
    same((len({order['orderId'] for order in orders}), first['nodes'][0]['nodeId']), (2, f'{stands[0]}_{stands[1]}'))
    floor.end()


NEEDS_PROGRAM = {'test_a_vehicle_at_its_plan_gets_an_order_on_its_way_home', 'test_the_program_is_driven', 'test_a_packing_station_serves_many', 'test_late_vehicles', 'test_a_session_goes_on_with_its_run',
                 'test_vehicles_of_vda_5050'}


if __name__ == '__main__':
    counting.main(globals(), NEEDS_PROGRAM, SCRATCH)
