#!/usr/bin/env python3
"""Tests of the package's fleets, policies and queue, with expected values worked out by hand, and by a judge of this file that reads
a log by itself. The program is that of WAREHOUSE, else the one that the gate built.

The last line is `N passed, M failed`; status 1 where one failed.
"""
import faulthandler
import os
import random
import sys
from collections import deque

import counting
from tools_drive import MAP, ONE, PROGRAM, ROOT, SCRATCH, TWO, are_lawful, file, has, same, text_of, tool
from tools_measure import hall, replayed

sys.path.insert(0, os.path.join(ROOT, 'python'))
sys.dont_write_bytecode = True

from warehouse import Fault, Fleet, Order, Parked, Queue, Rested, Session, Stop, Took, by_number, hold, nearest_first, read_instance, read_orders    # noqa: E402
from warehouse.fleet import FAR, POLICIES, Distances    # noqa: E402
from warehouse.queue import KeyTaken    # noqa: E402

# A corridor of 21 cells with parkings below both ends and below the middle, and stations S0 .. S9 at columns 1, 3, .. 19 of the row above.
ROW = ('type t\nheight 3\nwidth 21\nmap\n' + '@.' * 10 + '@\n' + '.' * 21 + '\n' + '.' + '@' * 9 + '.' + '@' * 9 + '.\n%%\n' + 'parking L 0 2\nparking M 10 2\nparking R 20 2\n'
       + ''.join(f'station S{k} {2 * k + 1} 0\n' for k in range(10)))
ENDS = ROW + 'agent L\nagent R\n%%\n'


def session(text: str, **named) -> Session:
    return Session(read_instance('i', text.encode()), PROGRAM, **named)


def orders(*lines: str) -> list[Order]:
    """Lines `CLOCK CLIENT STOPS`."""
    return [Order(int(clock), f'submit {rest}') for clock, _, rest in (line.partition(' ') for line in lines)]


def by_log(text: str, log: str) -> tuple[list[tuple[int, list[tuple[int, int]]]], list[dict]]:
    """The cells of all agents at each clock, and the tasks, read from a log by themselves."""
    level, points, *_ = text.split('%%\n')
    cell = {words[1]: (int(words[2]), int(words[3])) for words in map(str.split, points.splitlines()) if words[:1] in (['station'], ['parking'])}
    paths = [[cell[line.split()[1]]] for line in points.splitlines() if line.startswith('agent ')]
    ahead = [deque() for _ in paths]
    tasks, lines = [], []
    lines.append((0, [path[-1] for path in paths]))
    for entry in log.split('\n')[2:]:
        event, _, reply = entry.partition(' = ')
        words, said = event.split(' ')[1:], reply.split(' ')
        if words[:1] == ['submit'] and said[0] == 'accepted':
            tasks.append({'client': words[1], 'stops': [cell[stop] for stop in words[2:]], 'at': len(lines) - 1, 'visits': []})
        elif words[:1] == ['token'] and said[0] in ('took', 'parked'):
            told = [tuple(map(int, word.split(','))) for word in said[3:]]
            assert told[0] == lines[-1][1][int(words[1])] and not ahead[int(words[1])], entry
            ahead[int(words[1])].extend(told[1:])
            if said[0] == 'took':
                task = tasks[int(said[1])]
                assert 'agent' not in task, entry
                task['agent'] = int(words[1])
                visit(task, told[0], len(lines) - 1)
        elif words == ['tick'] and said[0] == 'clock':
            lines.append((len(lines), [way.popleft() if way else old for way, old in zip(ahead, lines[-1][1])]))
            for task in tasks:
                if 'agent' in task:
                    visit(task, lines[-1][1][task['agent']], len(lines) - 1)
    return lines, tasks


def visit(task: dict, cell: tuple[int, int], clock: int) -> None:
    while len(task['visits']) < len(task['stops']) and task['stops'][len(task['visits'])] == cell:
        task['visits'].append(clock)


def judged(text: str, log: str) -> list[dict]:
    """The tasks of a run that is lawful: no two agents in a cell, none exchange cells, all steps to neighbours."""
    lines, tasks = by_log(text, log)
    are_lawful(lines, text.split('%%\n')[0].split('\n')[4:])
    return tasks


def run_of(text: str, given: list[Order], policy, most: int | None = 5000) -> tuple[Fleet, list[dict], str]:
    """A fleet driven to its end, and its tasks as the judge sees them."""
    with session(text, options=['--tail', 'log']) as core:
        fleet = Fleet(core, given, policy)
        why = fleet.run(most)
        core.end()
    return fleet, judged(text, core.tail.decode().split('%%\n')[1]), why


# ---------------------------------------------------------------------------------------------- who asks first

def test_distances() -> None:
    far = Distances(read_instance('i', (MAP.replace('.....', '..@..') + 'parking P 0 1\nagent P\n').encode()))
    same([far((0, 1), (1, 0)), far((1, 0), (1, 2)), far((0, 1), (0, 1)), far((4, 1), (0, 1))], [2, 2, 0, FAR])


def test_next_to_ask() -> None:
    with session(ENDS) as core:
        fleet = Fleet(core)
        same(fleet.next_to_ask(), None)
        # from L, 0,2, to S2 at 5,0 are 7 steps, and to S9 at 19,0 are 21; from R, 20,2, they are 17 and 3
        fleet.hand_in(orders('0 x S2 S4', '0 x S9 S5'))
        same([fleet.answer(0), fleet.answer(1), fleet.next_to_ask()], [(7, 0), (3, 1), 1])
        same(fleet.request([1])[0].task, 1)
        same([fleet.answer(0), fleet.next_to_ask()], [(7, 0), 0])
        fleet.request([0])
        same((fleet.next_to_ask(), fleet.open, fleet.under_way()), (None, set(), 2))
    # both are 11 steps from the middle, S4 at 9,0 and S5 at 11,0: the lower task, and of equal ones the lower agent
    with session(ENDS) as core:
        fleet = Fleet(core)
        fleet.hand_in(orders('0 x S5 S0', '0 x S4 S1', '0 x S4 S2'))
        same([fleet.answer(0), fleet.answer(1), fleet.next_to_ask()], [(11, 1), (11, 0), 0])


def test_who_makes_way_comes_last() -> None:
    # agent 0 stands at the delivery S0, and agent 1 at no stop: only agent 0 is asked, and makes way; then agent 1 takes the order
    with session(ROW + 'agent S0\nagent R\n%%\n') as core:
        fleet = Fleet(core)
        fleet.hand_in(orders('0 x S3 S0'))
        # agent 0 may take it itself, from 1,0 to 7,0: 8 steps
        same([fleet.answer(0), fleet.answer(1), fleet.next_to_ask()], [(8, 0), None, 0])
        fleet.request([0])
    with session(ROW + 'agent S0\nagent S3\n%%\n') as core:
        fleet = Fleet(core)
        fleet.hand_in(orders('0 x S3 S0'))
        # each stands at a stop of the other's: nobody may take it, and agent 0, at the delivery, makes way
        same([fleet.answer(0), fleet.answer(1), fleet.next_to_ask()], [(FAR, None), None, 0])
        assert isinstance(fleet.request([0])[0], Parked)
        same((fleet.answer(1), fleet.next_to_ask()), ((0, 0), 1))


def test_answers_are_foreseen() -> None:
    """Wherever an agent is asked, the program answers as the rule says: this task, way is made, or a rest."""
    asked = {Took: 0, Parked: 0, Rested: 0}

    def each(fleet: Fleet) -> None:
        fleet.hand_in(fleet.due_orders())
        for agent in range(len(fleet.due)):
            if fleet.due[agent] <= fleet.clock and fleet.open:
                foreseen = fleet.answer(agent)
                reply, = fleet.request([agent])
                asked[type(reply)] += 1
                match reply:
                    case Took(task):
                        same((fleet.clock, agent, foreseen and foreseen[1]), (fleet.clock, agent, task))
                    case Parked():
                        same((fleet.clock, agent, foreseen), (fleet.clock, agent, (FAR, None)))
                    case Rested():
                        same((fleet.clock, agent, foreseen), (fleet.clock, agent, None))

    for seed, stops, agents in ((1, 2, 6), (2, 4, 8)):
        text, _, _ = tool('make_instance.py', '--columns', '24', '--rows', '16', '--shelf', '4', '--agents', str(agents), '--tasks', '40', '--stops',
                          str(stops), '--seed', str(seed), '--ticks', '90', '--every', '1')
        fleet, tasks, _ = run_of(text, read_orders('i', text.encode()), each, 400)
        assert len(tasks) == 40
    assert min(asked.values()) >= 3 and asked[Took] >= 70, asked


# ---------------------------------------------------------------------------------------------------- policies

def test_each_policy_delivers_all() -> None:
    text = text_of('examples', 'shelves')
    given = [order for order in read_orders('i', text.encode()) if order.release < 120]
    made = {}
    for name, policy in POLICIES.items():
        fleet, tasks, why = run_of(text, given, policy)
        same((name, why, len(tasks), len(fleet.tasks)), (name, '', len(given), len(given)))
        # each order once, by one agent, all its stops in turn
        same(sorted((task['client'], task['at'], len(task['visits'])) for task in tasks),
             sorted((order.client, at, len(order.stops)) for order, at in zip(fleet.tasks, (task['at'] for task in tasks))))
        made[name] = sum(task['visits'][-1] - order.release for task, order in zip(tasks, fleet.tasks)) / len(tasks), fleet.requests
    # who asks only where something comes of it has a request for each order, and now and then one that makes way
    assert made['nearest'][1] <= len(given) + 10 < made['number'][1], made
    assert made['nearest'][0] < made['number'][0], made


def test_the_nearest_and_not_the_lowest_agent() -> None:
    # agent 0 is 21 steps from S9, agent 1 is 3: by number the order takes 21 + 4 ticks, nearest first 3 + 4
    for policy, wanted in ((by_number, 25), (nearest_first, 7)):
        _, tasks, why = run_of(ENDS, orders('0 x S9 S8'), policy)
        same((why, tasks[0]['visits'][-1]), ('', wanted))


def test_nearest_first_asks_as_deliver_does() -> None:
    """On formed floors, by both rules, with standstills: the same requests and ticks in the same order, and the same paths. Not where all
    stops of an order are one cell: who has taken it there and is due at once may be asked again at that clock, and by `--deliver` at the next."""
    requests = stood = 0
    for seed in range(1, 21):
        chance, homes = random.Random(seed), seed % 2 == 0
        text, drawn = hall(chance, homes, crowded=seed % 4 == 1)
        lines = [line for line in drawn if len(set(line.split()[2:])) > 1]
        with session(text, options=['--tail', 'log'], ends='homes' if homes else 'stops') as core:
            fleet = Fleet(core, [Order(0, line) for line in lines], nearest_first)
            stood += fleet.run(5000) != ''
            core.end()
        wanted = replayed((text + ''.join(f'{line}\n' for line in lines)).encode(), ['--deliver'], homes)
        same((seed, core.tail.decode().split('%%\n')[1].split('\n')[2:-2]), (seed, wanted))
        requests += fleet.requests
    assert requests > 60 and stood >= 2, (requests, stood)


def test_hold() -> None:
    # Agent 1 takes the first order: 3 steps to S9, 4 more to S8, so it is there at 7. The second order's pickup, S7 at 15,0, is 4
    # steps from there, so it could be there at 11 or 10 from clock 1 on; agent 0 is 17 steps off. Handed in at once agent 0 takes it.
    given = orders('0 x S9 S8', '1 y S7 S6')
    _, tasks, _ = run_of(ENDS, given, nearest_first)
    same([(task['agent'], task['at']) for task in tasks], [(1, 0), (0, 1)])
    _, tasks, why = run_of(ENDS, given, hold)
    same((why, [(task['agent'], task['at'], task['visits']) for task in tasks]), ('', [(1, 0, [3, 7]), (1, 7, [11, 15])]))


def test_the_end_of_a_run() -> None:
    # agent 0 at A and agent 1 at C bar an order A C D for ever: it is told, with no request at all
    text = TWO.replace('agent P0\nagent P1', 'agent A\nagent C')
    fleet, _, why = run_of(text, orders('0 x A C D'), nearest_first)
    same((why, fleet.requests), ('at clock 0 all agents stand, 1 orders are open, and no reply can differ any more', 0))
    _, _, why = run_of(ONE, orders('0 x A B', '9 x A B'), nearest_first, 3)
    has(why, 'at clock 3 it was not at its end (--ticks): 1 orders not released, 0 open, 1 agents on their way')
    fleet, _, why = run_of(ONE, orders('0 x A Z', '0 x A P1', '0 x A B'), nearest_first)
    same((why, fleet.left_out), ('', ['`submit x A Z` is left out: refused E1 Z', '`submit x A P1` is left out: refused E2 P1']))
    try:
        run_of(ONE, orders('0 x A'), nearest_first)
        raise AssertionError
    except Stop as stop:
        has(str(stop), '`refused C1` came to `submit x A`: This line is no command')


def test_helper_orders_only_where_asked_for() -> None:
    # The order A C D of the test above. Agent 0 is sent to B, the one station that is free, 4 steps off, and is at 1,1 one step after; so
    # agent 1 is there at two and at A at three, then 2 steps to C and 4 to D.
    text = TWO.replace('agent P0\nagent P1', 'agent A\nagent C')
    with session(text, options=['--tail', 'log']) as core:
        fleet = Fleet(core, orders('0 x A C D'), helpers=True)
        why = fleet.run()
        core.end()
    tasks = judged(text, core.tail.decode().split('%%\n')[1])
    same((why, [(task['client'], task['agent'], task['visits']) for task in tasks]), ('', [('x', 1, [3, 5, 9]), ('helper', 0, [4, 4])]))
    # where nothing is free there is no help, and it ends
    with session(text.replace('station B 3 0\n', 'parking B 3 0\n')) as core:
        has(Fleet(core, orders('0 x A C D'), helpers=True).run(), 'at clock 0 all agents stand, 1 orders are open')


def test_a_fleet_over_a_run_that_began_before() -> None:
    """A client that is killed at any clock, and one that begins anew over the log, come to the run of one that is not."""
    given = orders('0 x S0 S9', '0 y S7 S2', '3 z S4 S5', '9 w S8 S1')
    logs = []
    for stops in ((), (4, 11)):
        log = file('fleet.log', '')
        begun = 0
        for most in (*stops, None):
            with session(ENDS, log=log) as core:
                fleet = Fleet(core)
                fleet.waiting.extend(given[len(fleet.tasks):])
                same((fleet.clock, len(fleet.tasks)), (begun, sum(order.release <= begun for order in given) if begun else 0))
                why = fleet.run(most)
                begun = fleet.clock
                core.kill()    # no `end` line
        same(why, '')
        with open(log) as text:
            logs.append(text.read())
    same(logs[1], logs[0])
    same(len([task for task in judged(ENDS, logs[0]) if len(task['visits']) == 2]), 4)


# ------------------------------------------------------------------------------------------------------- queue

def queued(put, text: str = ENDS, patience: int = 200, most: int = 2000) -> tuple[Queue, Fleet, list[dict]]:
    queue = Queue(patience)
    put(queue)
    fleet, tasks, why = run_of(text, [], queue, most)
    same(why, '')
    return queue, fleet, tasks


def test_urgent_orders_go_first() -> None:
    def put(queue: Queue) -> None:
        for number in range(6):
            queue.put(f'k{number}', f'c{number}', [f'S{number + 1}', f'S{number + 2}'], urgent=number == 5)
        same([one.key for one in queue.waiting], ['k5', 'k0', 'k1', 'k2', 'k3', 'k4'])

    queue, fleet, tasks = queued(put)
    # S6 at 13,0 is 15 steps from L and 9 from R: agent 1 goes to the urgent order first, and agent 0 to its nearest, k0
    same([(task['client'], task['agent']) for task in tasks[:2]], [('c5', 1), ('c0', 0)])
    same((queue.tasks['k5'], sorted(queue.tasks), queue.waiting, fleet.requests), (0, [f'k{number}' for number in range(6)], [], 6))


def test_urgent_orders_are_served_sooner_beside_many() -> None:
    """As many orders as the floor carries, one in ten urgent: in the queue these wait less than with all handed in."""
    text = text_of('examples', 'shelves').split('%%\n')
    text = '%%\n'.join(text[:2]) + '%%\n'
    chance = random.Random(3)
    stations = [line.split()[1] for line in text.splitlines() if line.startswith('station')]
    given, made = [], []
    for clock in range(0, 400):
        while chance.random() < 0.35:
            given.append((clock, f'{"urgent" if chance.random() < 0.1 else "other"}', chance.sample(stations, 2)))
    queue, waiting = Queue(), deque(given)

    def through(fleet: Fleet) -> None:
        while waiting and waiting[0][0] <= fleet.clock:
            _, client, stops = waiting.popleft()
            queue.put(str(len(queue.orders)), client, stops, urgent=client == 'urgent')
        queue(fleet)

    for policy, handed in ((nearest_first, [Order(clock, f'submit {client} {" ".join(stops)}') for clock, client, stops in given]), (through, [])):
        with session(text, options=['--tail', 'log']) as core:
            fleet = Fleet(core, handed, policy)
            while fleet.clock < 600:
                fleet.policy(fleet)
                fleet.tick()
            core.end()
        tasks = judged(text, core.tail.decode().split('%%\n')[1])
        came = {}
        for clock, client, stops in given:
            came.setdefault((client, *stops), []).append(clock)
        cells = {words[1]: (int(words[2]), int(words[3])) for words in map(str.split, text.splitlines()) if words[:1] == ['station']}
        names = {cell: name for name, cell in cells.items()}
        served = [task['visits'][-1] - came[task['client'], *(names[cell] for cell in task['stops'])].pop(0)
                  for task in tasks if task['client'] == 'urgent' and len(task['visits']) == 2]
        assert len(served) >= 10, served
        made.append(sum(served) / len(served))
    assert made[1] < made[0], made


def test_keys() -> None:
    queue = Queue()
    same((queue.put('k', 'x', ['S1', 'S2']), queue.put('k', 'x', ['S1', 'S2'])), (True, False))
    try:
        queue.put('k', 'x', ['S1', 'S3'])
        raise AssertionError
    except KeyTaken as taken:
        same(str(taken), 'k stands with `submit x S1 S2`')
    for client, names in (('x', ['S1']), ('x y', ['S1', 'S2']), ('WMS-ORDER-2026-000123456', ['S1', 'S2']), ('x', ['S1'] * 9), ('x', ['S1', 'tick\n'])):
        try:
            queue.put('n', client, names)
            raise AssertionError((client, names))
        except Fault as fault:
            has(str(fault), 'n: `submit ', 'is no order')
    queue.put('l', 'x', ['S3', 'S4'])
    queue.put('m', 'x', ['S5', 'S6'], urgent=True)
    same((queue.put_before('l', 'k'), queue.put_before('l', 'none'), [one.key for one in queue.waiting]), (True, False, ['m', 'l', 'k']))
    same((queue.take_back('l'), queue.take_back('l'), [one.key for one in queue.waiting]), (True, False, ['m', 'k']))
    with session(ENDS) as core:
        fleet = Fleet(core, policy=queue)
        same((fleet.run(), len(fleet.tasks), queue.take_back('k'), queue.put('k', 'x', ['S1', 'S2'])), ('', 2, False, False))


def test_this_vehicle_and_a_charger() -> None:
    def put(queue: Queue) -> None:
        queue.put('a', 'x', ['S0', 'S1'], agent=1)             # agent 0 is nearer
        queue.put('charge', 'charger', ['S9', 'S9'], agent=0)    # a visit of a station

    _, _, tasks = queued(put)
    same([(task['client'], task['agent'], len(task['visits'])) for task in tasks], [('x', 1, 2), ('charger', 0, 2)])


def test_an_order_under_an_agent_at_rest() -> None:
    # agent 0 stands at S0, the delivery, and agent 1 at S3, the pickup: nobody may take it, until it is handed in in the ordinary way
    queue, _, tasks = queued(lambda queue: queue.put('k', 'x', ['S3', 'S0']), ROW + 'agent S0\nagent S3\n%%\n', patience=5)
    same((tasks[0]['agent'], tasks[0]['at'], len(tasks[0]['visits'])), (1, 6, 2))
    queue, fleet, _ = queued(lambda queue: queue.put('k', 'x', ['S3', 'Z']))
    same((queue.refused, fleet.left_out), ({'k': '`submit x S3 Z` is left out: refused E1 Z'}, ['`submit x S3 Z` is left out: refused E1 Z']))


def test_an_order_for_an_agent_that_there_is_not() -> None:
    for agent in (2, -1):
        queue, fleet, _ = queued(lambda queue: queue.put('k', 'x', ['S3', 'S0'], agent=agent))
        same((queue.refused, queue.waiting, fleet.commands), ({'k': f'there is no agent {agent}'}, [], 0))


def test_drive_asks_as_it_is_told() -> None:
    instance = file('ends', ENDS + 'submit x S9 S8\n')
    for ask, wanted in (('number', 'makespan 25'), ('nearest', 'makespan 7'), ('hold', 'makespan 7')):
        out, said, status = tool('drive.py', instance, '--ask', ask)
        same((said, status), ('', 0))
        has(out, wanted)
    out, said, status = tool('drive.py', file('ruled', ENDS.replace('%%\nparking L', '%%\nrule nofollow\nparking L') + 'submit x S9 S8\n'), '--late', '1',
                             '--ask', 'nearest', '--spread', '0')
    same((said, status), ('', 0))
    has(out, 'done 1', 'steps 7')


if __name__ == '__main__':
    faulthandler.dump_traceback_later(85, exit=True)    # a test that waits for ever says where
    counting.main(globals(), [name for name in globals() if name.startswith('test_') and name != 'test_distances'], SCRATCH)
