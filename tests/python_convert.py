#!/usr/bin/env python3
"""Tests of the package's exports and imports, with expected values worked out by hand, and by a judge of this file that reads the formats
by itself.

The program is that of WAREHOUSE, else the one that the gate built. The last line is `N passed, M failed`, and `, K skipped` where a test needs what is not
here; status 1 where one failed.
"""
import csv
import json
import os
import sys

import counting
from python_package import run_here
from tools_drive import ROOT, SCRATCH, file, has, same, text_of, tool, warehouse

sys.path.insert(0, os.path.join(ROOT, 'python'))
sys.dont_write_bytecode = True

from warehouse import Fault, read_instance, read_log    # noqa: E402
from warehouse.convert.block_yaml import read_yaml    # noqa: E402
from warehouse.convert.plans import Grid, Plan, Visit, judge_plan    # noqa: E402

DELIVERIES, LOG = os.path.join(ROOT, 'examples', 'deliveries'), os.path.join(ROOT, 'examples', 'deliveries.log')
# Both agents of examples/deliveries.log at clocks 0 to 9, as its lines `took` tell; agent 0 stays from 6 on.
PATHS = [['0,1', '1,1', '1,0', '1,1', '2,1', '3,1', '3,0', '3,0', '3,0', '3,0'], ['4,1', '3,1', '3,2', '3,1', '3,1', '3,2', '3,1', '2,1', '1,1', '1,2']]


def ran(*words: str) -> tuple[str, str, int]:
    """Standard output, standard error and status of a subcommand in this process."""
    out, said, status = run_here(*words)
    return out.decode('latin-1'), said, status


def export(kind: str, *words: str) -> str:
    out, said, status = ran('export', kind, *words)
    same((kind, said, status), (kind, '', 0))
    return out


def shelves() -> tuple[str, str]:
    """An instance of 20 agents, and its log."""
    log = os.path.join(SCRATCH.name, 'shelves.log')
    if not os.path.exists(log):
        tool('drive.py', os.path.join(ROOT, 'examples', 'shelves'), '--save', log)
    return os.path.join(ROOT, 'examples', 'shelves'), log


# ------------------------------------------------------------------------------------------------ by hand

def test_planviz_by_hand() -> None:
    made = json.loads(export('planviz', DELIVERIES, LOG))
    same((made['actionModel'], made['teamSize'], made['makespan'], made['numTaskFinished'], made['sumOfCost']), ('MAPF', 2, 9, 2, 18))
    same(made['start'], [[1, 0, 'E'], [1, 4, 'E']])
    same(made['actualPaths'], ['R,U,D,R,R,U,W,W,W', 'L,D,U,W,D,U,L,L,D'])
    # row and column of A, B, D and C
    same(made['tasks'], [[0, 0, [0, 1, 0, 3]], [1, 0, [2, 3, 2, 1]]])
    same(made['events'], [[2, 0, 0, 1], [2, 1, 1, 1], [6, 0, 0, 2], [9, 1, 1, 2]])
    same(made['actualSchedule'], ['0:0', '0:1'])


def test_mrp_by_hand() -> None:
    same(export('mrp-map', DELIVERIES, LOG), 'agents:\n- name: agent0\n  start: [0, 1]\n  goal: [3, 0]\n- name: agent1\n  start: [4, 1]\n  goal: [1, 2]\nmap:\n'
         '  dimensions: [5, 3]\n  obstacles:\n' + ''.join(f'  - [{x}, {y}]\n' for y in (0, 2) for x in (0, 2, 4)))
    made = export('mrp', DELIVERIES, LOG)
    # agent 0 makes 6 moves, agent 1 makes 8
    wanted = 'statistics:\n  cost: 14\n  makespan: 9\nschedule:\n'
    for agent, path in enumerate(PATHS):
        wanted += f'  agent{agent}:\n' + ''.join(f'    - x: {cell[0]}\n      y: {cell[2]}\n      t: {time}\n' for time, cell in enumerate(path))
    same(made, wanted)


def test_tables_by_hand() -> None:
    folder = os.path.join(SCRATCH.name, 'tables')
    export('tables', DELIVERIES, LOG, '--to', folder)
    with open(os.path.join(folder, 'tasks.csv'), newline='') as table:
        rows = list(csv.reader(table))
    client = [line.split()[2] for line in text_of('examples', 'deliveries.log').splitlines() if ' submit ' in line]
    same(rows, [['task', 'client', 'stops', 'submitted', 'taken', 'agent', 'visits', 'done', 'service'], ['0', client[0], 'A B', '0', '0', '0', '2 6', '6', '6'],
                ['1', client[1], 'D C', '0', '0', '1', '2 9', '9', '9']])
    with open(os.path.join(folder, 'paths.csv'), newline='') as table:
        rows = list(csv.DictReader(table))
    same([f'{row["x"]},{row["y"]}' for row in rows], PATHS[0] + PATHS[1])
    same([(row['agent'], row['clock'], row['task'], row['left']) for row in rows[:10:3]], [('0', '0', '0', '6'), ('0', '3', '0', '3'), ('0', '6', '0', '0'), ('0', '9', '0', '0')])


def test_lif_by_hand() -> None:
    layout = json.loads(export('lif', DELIVERIES, '--cell', '1.2'))['layouts'][0]
    nodes = {node['nodeId']: (node['nodePosition']['x'], node['nodePosition']['y']) for node in layout['nodes']}
    # the corridor of row 1, and A, B above, C, D below; y upwards in cells of 1.2 m
    same(nodes, {'1_0': (1.8, 3.0), '3_0': (4.2, 3.0), '0_1': (0.6, 1.8), '1_1': (1.8, 1.8), '2_1': (3.0, 1.8), '3_1': (4.2, 1.8), '4_1': (5.4, 1.8), '1_2': (1.8, 0.6),
                 '3_2': (4.2, 0.6)})
    # 4 in the corridor and 4 to the stations, both ways
    same(len(layout['edges']), 16)
    same({station['stationId']: station['interactionNodeIds'] for station in layout['stations']}, {'A': ['1_0'], 'B': ['3_0'], 'C': ['1_2'], 'D': ['3_2']})


# -------------------------------------------------------------------------------------------- a longer run

def lawful(paths: list[list[tuple[int, int]]]) -> None:
    """A judge of this file: no two in a cell, none exchange cells."""
    for time in range(len(paths[0])):
        now = [path[time] for path in paths]
        assert len(set(now)) == len(now), time
        before = {path[time - 1]: agent for agent, path in enumerate(paths)} if time else {}
        for agent, path in enumerate(paths):
            other = before.get(path[time], agent)
            assert other == agent or paths[other][time] != path[time - 1], (time, agent, other)


def test_a_long_run_in_every_format() -> None:
    instance, log = shelves()
    run = read_log(read_instance('i', open(instance, 'rb').read()), log, open(log, 'rb').read())
    wanted = [[run.cell_at(agent, clock) for clock in range(run.clock + 1)] for agent in range(20)]
    made = json.loads(export('planviz', instance, log))
    paths = []
    for (row, column, _), actions in zip(made['start'], made['actualPaths']):
        x, y = column, row
        path = [(x, y)]
        for letter in actions.split(','):
            x, y = x + (letter == 'R') - (letter == 'L'), y + (letter == 'D') - (letter == 'U')
            path.append((x, y))
        paths.append(path)
    lawful(paths)
    same((paths == wanted, len(made['events']), made['numTaskFinished']), (True, 400, 200))
    for time, agent, task, stops in made['events']:
        row, column = made['tasks'][task][2][2 * stops - 2:2 * stops]
        same(paths[agent][time], (column, row))
    try:
        import yaml
    except ImportError:
        yaml = None
    schedule = export('mrp', instance, log)
    if yaml is not None:
        value = yaml.safe_load(schedule)
        same([[(row['x'], row['y']) for row in path] for path in value['schedule'].values()], wanted)
    same(read_yaml('y', schedule.encode())['schedule']['agent7'][33], {'x': wanted[7][33][0], 'y': wanted[7][33][1], 't': 33})
    folder = os.path.join(SCRATCH.name, 'long')
    export('tables', instance, log, '--to', folder)
    with open(os.path.join(folder, 'paths.csv'), newline='') as table:
        same([(int(row['x']), int(row['y'])) for row in csv.DictReader(table)], [cell for path in wanted for cell in path])


def test_the_reader_of_yaml_against_another() -> None:
    try:
        import yaml
    except ImportError:
        yaml = None
    if yaml is None:
        raise counting.Skipped('no yaml for this Python (apt-get install python3-yaml, PYTHON=/usr/bin/python3)')
    for text in ('a: 1\n', 'a:\n  b: [1, -2, 3.5]\n  c: {x: 1, y: [2, 3]}\n', '- 1\n- [a, b]\n-\n  - 2\n- x: 1\n  y: 2\n', 'a:\n- 1\n- 2\nb: true\nc: ~\n', 'a: []\nb: {}\nc:\n',
                 '# head\n---\na: word two  # why\n', 'a:\n    -   goal: [2, 0]\n        name: agent0\n    -   name: b\n', 'y: .5\nz: 2.\n'):
        same((text, read_yaml('y', text.encode())), (text, yaml.safe_load(text)))


# ------------------------------------------------------------------------------------------------ imports

EXAMPLE = '''agents:
-   goal: [2, 0]
    name: agent0
    start: [0, 0]
-   name: agent1
    goal: [0, 0]
    start: [2, 0]
map:
    dimensions: [3, 3]
    obstacles:
    - !!python/tuple [0, 1]
    - [2, 1]
'''


def test_import_of_mrp() -> None:
    made, said, status = ran('import-mrp', file('map.yaml', EXAMPLE))
    # each starts at the other's goal: both points are stations
    same((made, said, status), ('type octile\nheight 3\nwidth 3\nmap\n...\n@.@\n...\n%%\nstation S0 2 0\nstation S1 0 0\nagent S1\nagent S0\n%%\n# @0\nsubmit mrp S0 S0\n'
                                '# @0\nsubmit mrp S1 S1\n', '', 0))
    made, _, _ = ran('import-mrp', file('map.yaml', EXAMPLE.replace('goal: [0, 0]', 'goal: [1, 2]')))
    has(made, '\nparking P0 0 0\nstation S0 2 0\nstation S1 1 2\nagent P0\nagent S0\n')
    _, said, status = tool('drive.py', file('imported', made))
    same((said, status), ('', 0))
    # what was exported comes back
    made, _, _ = ran('import-mrp', file('map.yaml', export('mrp-map', DELIVERIES, LOG)))
    same(made.split('%%\n')[0], text_of('examples', 'deliveries').split('%%\n')[0].replace('type t\n', 'type octile\n'))
    same(warehouse(made.split('%%\n')[0] + '%%\n' + made.split('%%\n')[1], 'check').split()[0] in ('formed', 'few', 'cut'), True)


def test_import_of_lif() -> None:
    path = file('floor.lif', export('lif', DELIVERIES, '--cell', '1.2'))
    made, said, status = ran('import-lif', path, '--cell', '1.2', '--agents', '2')
    same((said, status), ('', 0))
    level, points, _ = made.split('%%\n')
    same(level, text_of('examples', 'deliveries').split('%%\n')[0].replace('type t\n', 'type octile\n'))
    same(points, 'parking P0 0 1\nparking P1 1 1\nstation A 1 0\nstation B 3 0\nstation C 1 2\nstation D 3 2\nagent P0\nagent P1\n')
    # shelves, which has no cell in its first column or row that is blocked, comes back as it was
    made, _, status = ran('import-lif', file('floor.lif', export('lif', shelves()[0])), '--agents', '20')
    same((status, made.split('%%\n')[0].split('map\n')[1]), (0, text_of('examples', 'shelves').split('%%\n')[0].split('map\n')[1]))


# ------------------------------------------------------------------------------------------------ what is refused

def refusal(call, *words) -> str:
    try:
        call(*words)
    except Fault as fault:
        return str(fault)
    raise AssertionError('nothing was refused')


def test_the_rules_of_plans() -> None:
    grid = Grid(3, 2, {(2, 1)})
    judge_plan('p', grid, Plan([[(0, 0), (1, 0), (1, 0)], [(1, 0), (1, 1), (0, 1)]], [[(1, 0), (1, 0)]], [Visit(1, 0, 0, 0), Visit(2, 0, 0, 1)]))
    for paths, words in (([[(0, 0), (1, 0)], [(1, 0), (0, 0)]], 'p: at time 1 agents 0 and 1 exchange cells'),
                         ([[(0, 0), (1, 0)], [(1, 1), (1, 0)]], 'p: at time 1 agents 0 and 1 are in 1,0'),
                         ([[(0, 0), (2, 0)]], 'p: at time 1 agent 0 comes to 2,0, no neighbour'), ([[(0, 0), (1, 1)]], 'p: at time 1 agent 0 comes to 1,1, no neighbour'),
                         ([[(1, 1), (2, 1)]], 'p: at time 1 agent 0 is in 2,1, outside or blocked'), ([[(0, 0), (-1, 0)]], 'p: at time 1 agent 0 is in -1,0, outside'),
                         ([[(0, 0)], [(1, 0), (1, 1)]], 'p: agent 0 has 1 times, others 2')):
        has(refusal(judge_plan, 'p', grid, Plan(paths)), words)
    has(refusal(judge_plan, 'p', grid, Plan([[(0, 0), (1, 0)]], [[(1, 0), (0, 0)]], [Visit(0, 0, 0, 0)])), 'at time 0 agent 0 is not at stop 0 of task 0')
    has(refusal(judge_plan, 'p', grid, Plan([[(0, 0), (1, 0)]], [[(1, 0), (0, 0)]], [Visit(1, 0, 0, 1)])), 'stop 1 of task 0 is told, and stop 0 is due')


def test_wrong_files_are_refused_with_their_place() -> None:
    from warehouse.convert.lif import read_floor
    from warehouse.convert.mrp import read_map_file, read_schedule
    from warehouse.convert.planviz import read_result
    from warehouse.convert.tables import PATHS as COLUMNS, TASKS, read_tables
    for text, words in (('', 'm line 1: nothing is in it'), ('a: 1\n b: 2\n', 'm line 2: `b: 2` is indented as nothing before it'), ('a: "x"\n', 'm line 1: `"x"` is no value that is read here'),
                        ('a: [1, 2\n', 'm line 1: `]` is missing'), ('a: 1\na: 2\n', 'm line 2: a stands twice'), ('\ta: 1\n', 'm line 1: a tab indents it'), ('a: [1] 2\n', 'stands behind a value'),
                        ('a: ' + '[' * 5000, 'm: its brackets stand too deep'), ('map:\n  dimensions: [0, 3]\nagents: []\n', 'm: a map of 0 x 3'),
                        (EXAMPLE.replace('start: [0, 0]', 'start: [0, 1]'), 'm: agent0 has the cell 0,1, outside the map or an obstacle'),
                        (EXAMPLE.replace('start: [2, 0]', 'start: [0, 0]'), 'm: two agents have one start'), (EXAMPLE.replace('goal: [2, 0]', 'goal: here'), 'm: the goal of agent0 is no cell [X, Y]'),
                        ('- 1\n', 'm: the file has no map'), (EXAMPLE.replace('name: agent0', 'name: [1]'), 'm: agent 0 has no name')):
        has(refusal(read_map_file, 'm', text.encode()), words)
    schedule = 'schedule:\n  agent0:\n    - {x: 0, y: 0, t: 0}\n    - {x: 1, y: 0, t: 2}\n'
    same(read_schedule('s', schedule.encode(), ['agent0']).paths, [[(0, 0), (0, 0), (1, 0)]])    # it waits in between
    for text, words in ((schedule.replace('t: 2', 't: 0'), '} of agent0 is no x'.replace('}', '}`')), (schedule.replace('agent0', 'b'), 's: its agents are not those of the map'),
                        (schedule.replace('x: 1', 'x: one'), 'of agent0 is no x, y and t')):
        has(refusal(read_schedule, 's', text.encode(), ['agent0']), words)
    result = json.loads(export('planviz', DELIVERIES, LOG))
    for change, words in (({'actionModel': 'MAPF_T'}, '/actionModel is none of MAPF'), ({'actualPaths': ['R,X', 'W']}, '/actualPaths/0 is `R,X`'), ({'makespan': 8}, 'makespan is 8, and its plan gives 9'),
                          ({'events': [[2, 0, 0, 1]]}, 'numTaskFinished is 2, and its plan gives 0'), ({'events': [[2, 0, 7, 1]]}, 'the event at time 2 names agent 0 and task 7'),
                          ({'tasks': [[0, 0, [1]]]}, 'a task is no [NUMBER, RELEASE'), ({'teamSize': 3}, 'teamSize is 3, and its plan gives 2')):
        has(refusal(read_result, 'r', json.dumps(result | change).encode()), 'r: ', words)
    has(refusal(read_result, 'r', b'{'), 'r: it is no JSON')
    layout = json.loads(export('lif', DELIVERIES))

    def changed(**parts) -> bytes:
        return json.dumps(layout | {'layouts': [layout['layouts'][0] | parts]}).encode()
    nodes, edges, stations = (layout['layouts'][0][name] for name in ('nodes', 'edges', 'stations'))
    moved = [nodes[0] | {'nodePosition': {'x': 1.9, 'y': 2.5}}, *nodes[1:]]
    for data, words in ((changed(nodes=moved), 'l: node 1_0 at 1.9, 2.5 lies on no grid of 1 m'), (changed(nodes=nodes + nodes[:1]), 'l: two nodes have one nodeId'),
                        (changed(edges=edges[1:]), 'l: no edge leads from 1_0 to its neighbour 1_1'), (changed(edges=[*edges, edges[0] | {'endNodeId': '9_9'}]), 'ends at a node that is none'),
                        (changed(edges=[*edges, edges[0] | {'endNodeId': '3_2'}]), 'leads to no neighbour'), (changed(stations=stations + stations[:1]), 'l: station A stands twice'),
                        (changed(nodes=[]), 'l: /layouts/0/nodes has 0 elements'), (b'[]', 'l: the text is no object'), (b'{', 'l: it is no JSON')):
        has(refusal(read_floor, 'l', data, 1.0), words)
    instance = read_instance('i', text_of('examples', 'deliveries').encode())
    head, tasks = ','.join(COLUMNS), ','.join(TASKS)
    good = f'{head}\n0,0,0,1,,0\n0,1,1,1,,0\n'
    for paths, rows, words in (('a,b\n', tasks, 'p line 1: the columns are agent,clock'), (f'{head}\n0,0,x,1,,0\n', tasks, 'p line 2: `x` under x is no number'),
                               (f'{head}\n0,0,0,1\n', tasks, 'p line 2: 6 fields are wanted'), (f'{head}\n0,0,0,1,,0\n0,2,0,1,,0\n', tasks, 'p line 3: agent 0 at clock 2 is not the next row'),
                               (good, f'{tasks}\n0,x,A Z,0,,,,,\n', 't line 2: the instance has no station Z'), (good, f'{tasks}\n1,x,A B,0,,,,,\n', 't line 2: task 0 is due'),
                               (good, f'{tasks}\n0,x,A B,0,0,0,9,,\n', 't: a visit is of an agent or a clock'), (good, f'{tasks}\n0,x,A B,0,0,0,1 soon,,\n', 't line 2: `1 soon` are no visits')):
        has(refusal(read_tables, instance, ('t', (rows + '\n').encode()), ('p', paths.encode())), words)


def test_options_are_refused_in_words() -> None:
    for words, said in ((('export', 'lif', DELIVERIES, LOG), 'lif takes no log'), (('export', 'mrp', DELIVERIES), 'the others want one'), (('export', 'tables', DELIVERIES, LOG), 'wants --to FOLDER'),
                        (('export', 'lif', DELIVERIES, '--cell', 'nan'), '--cell nan: 0.01 to 100'), (('export', 'mrp', DELIVERIES, DELIVERIES), 'no log is in it'),
                        (('import-lif', '/none/such'), '/none/such: No such file'), (('import-mrp', '/none/such'), '/none/such: No such file'),
                        (('import-lif', file('x.lif', export('lif', DELIVERIES)), '--agents', '6'), '5 nodes without a station for 6 agents'), (('import-mrp', SCRATCH.name), 'Is a directory')):
        out, told, status = ran(*words)
        has(told, said)
        same((words, out, told.count('\n'), status), (words, '', 1, 2))


def test_every_page_says_its_source() -> None:
    folder = os.path.join(ROOT, 'python', 'warehouse')
    for name in ('convert/mrp.py', 'convert/planviz.py', 'convert/lif.py', 'convert/tables.py', 'convert/export.py', 'convert/import_mrp.py', 'convert/import_lif.py',
                 'vda5050/__init__.py', 'vda5050/schema.py', 'vda5050/adapter.py'):
        with open(os.path.join(folder, name), encoding='utf-8') as text:
            has(' '.join(text.read().split('"""')[1].split()), 'ritten from knowledge of', ', not checked against its text')


if __name__ == '__main__':
    counting.main(globals(), ['test_a_long_run_in_every_format', 'test_import_of_mrp', 'test_import_of_lif'], SCRATCH)
