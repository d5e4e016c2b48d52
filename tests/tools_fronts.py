#!/usr/bin/env python3
"""Tests of the tools over a log of version 3, which begins with a state, with expected values worked out by hand; no program is run.

    tests/tools_fronts.py [--no-program]

The floor is that of examples/deliveries. The state is of clock 9: agent 0 carries task 1 from A to B, picked up at 8, and has three steps to
go; agent 1 was stopped at C with task 2 on board, whose stop D is left, and asks for it again; task 0 was done before, at stops that the
floor has no more; task 3 is open. The last line is `N passed, M failed`; status 1 where one failed.
"""
from __future__ import annotations

import csv
import io
import json
import os
import subprocess
import sys
import xml.etree.ElementTree as tree

import counting
from tools_drive import ROOT, SCRATCH, file, has, same, text_of, tool

sys.path.insert(0, os.path.join(ROOT, 'python'))
sys.dont_write_bytecode = True

from warehouse.figures.play import verdict    # noqa: E402
from warehouse.fleet import Fleet, Stop    # noqa: E402
from warehouse.process import Process    # noqa: E402
from warehouse.replies import reply_of    # noqa: E402
from warehouse.session import Session    # noqa: E402
from warehouse.simulate.judge import Whereabouts    # noqa: E402
from warehouse.texts import Fault, Path, read_arrivals, read_file, read_front, read_instance, read_log    # noqa: E402
from warehouse.web.follow import Follower    # noqa: E402
from warehouse.web.status import Status    # noqa: E402

DELIVERIES = os.path.join(ROOT, 'examples', 'deliveries')
INSTANCE = read_instance(DELIVERIES, read_file(DELIVERIES))
FRONT = '''wlog 3
after 1 805 4be10123456789abcdef0123456789abcdef0123456789abcdef0123456789ab
state 9 open stopped
entries 0:12 62:3
agents 2
agent slots 4 path 1,1 2,1 3,1 3,0
agent slots 4 path 1,2
tasks 4
task 0 w 0 agent 1 visits 2 5 stops 2,1 4,1
task 0 x 3 agent 0 visits 8 stops 1,0 3,0
task 0 x 4 agent 1 visits 7 stops 1,2 3,2
task 62 y 9 open stops 3,2 1,2
begin
'''
ENTRIES = '''0 token 1 = took 2 path 1,2 1,1 2,1 3,1 3,2
0 tick = clock 10 picked 0 dropped 0
0 token 0 = refused E5 2
0 tick = clock 11 picked 0 dropped 0
0 tick = clock 12 picked 0 dropped 1
0 token 0 = rested
0 tick = clock 13 picked 0 dropped 1
0 token 1 = took 3 path 3,2 3,1 2,1 1,1 1,2
0 tick = clock 14 picked 0 dropped 0
0 tick = clock 15 picked 0 dropped 0
0 tick = clock 16 picked 0 dropped 0
0 tick = clock 17 picked 0 dropped 1
end 12
'''
# Agent 0 is at B at 12. Agent 1 takes task 2 again at 9, is at D at 13, and there takes task 3, which begins at D: it is at C at 17.
CELLS = (['1,1', '2,1', '3,1'] + ['3,0'] * 6, ['1,2', '1,1', '2,1', '3,1', '3,2', '3,1', '2,1', '1,1', '1,2'])
PHASES = ['dcco', 'dcco', 'dcco', 'ddco', 'dddc', 'dddc', 'dddc', 'dddc', 'dddd']
ROWS = [f'clock {9 + i} cells {one} {two} phases {phases}' for i, (one, two, phases) in enumerate(zip(*CELLS, PHASES))]


def cells(text: str) -> list[tuple[int, int]]:
    return [(int(word.split(',')[0]), int(word.split(',')[1])) for word in text.split(' ')]


def run_of(text: str):
    return read_log(INSTANCE, 'l', text.encode())


def is_refused(old: str, new: str, line: int, *parts: str) -> None:
    text = FRONT + ENTRIES
    assert old in text, old
    try:
        run_of(text.replace(old, new, 1))
    except Fault as fault:
        same((old, fault.file, fault.line), (old, 'l', line))
        has(fault.words, *parts)
        return
    raise AssertionError(f'{new!r} in place of {old!r} is taken')


# ------------------------------------------------------------------------------------------------ the reader

def test_a_state_alone() -> None:
    run = run_of(FRONT)
    same((run.version, run.start, run.clock, run.entries, run.homes, run.age, run.closed, run.halted, run.cut), (3, 9, 9, 0, False, None, False, {1: 2}, False))
    same(run.paths, [[Path(9, cells('1,1 2,1 3,1 3,0'), task=1)], [Path(9, [(1, 2)], task=2)]])
    same([(task.client, task.submitted, task.agent, task.visits, task.before, task.phase(9)) for task in run.tasks],
         [('w', 0, 1, [2, 5], 2, 'done'), ('x', 3, 0, [8], 1, 'carried'), ('x', 4, 1, [7], 1, 'carried'), ('y', 9, None, [], 0, 'open')])
    # 2,1 is no point of this floor, 4,1 is P1
    same([[run.instance.points[stop].name for stop in task.stops] for task in run.tasks], [['2,1', 'P1'], ['A', 'B'], ['C', 'D'], ['D', 'C']])
    same((len(INSTANCE.points), run.instance.is_station('2,1')), (6, False))


def test_a_run_from_a_state() -> None:
    run = run_of(FRONT + ENTRIES)
    same(([task.visits for task in run.tasks], run.halted, run.differences(), run.entries), ([[2, 5], [8, 12], [7, 13], [13, 17]], {}, [], 12))
    same([[run.cell_at(agent, clock) for clock in range(9, 18)] for agent in (0, 1)], [cells(' '.join(row)) for row in CELLS])
    # visits within the log alone are its events: that of task 3 at D as it is taken, the others at ticks
    same([event for event in run.events if event[2] == 'visit'], [(12, 0, 'visit', 1, 1), (13, 0, 'visit', 2, 1), (13, 0, 'visit', 3, 0), (17, 0, 'visit', 3, 1)])
    same(run_of((FRONT + ENTRIES).replace('clock 12 picked 0 dropped 1', 'clock 12 picked 1 dropped 1')).differences(), [(12, (1, 1), (0, 1))])
    # a state behind replies, and one that is cut
    same(read_log(INSTANCE, 'l', ('accepted 0\n%%\n' + FRONT + ENTRIES).encode()).clock, 17)
    for text in (FRONT[:-6], FRONT[:FRONT.index('agents')], 'wlog 3\n'):
        try:
            raise AssertionError(f'{run_of(text).clock} is read')
        except Fault as fault:
            same(fault.words, 'the log is cut before its entries begin')


def test_version_three_without_a_state() -> None:
    run = run_of('wlog 3\nstart 3 slots 4 4\n0 tick = clock 4 picked 0 dropped 0\nend 1\n')
    same((run.version, run.start, run.clock, run.homes, [path[0].cells for path in run.paths]), (3, 3, 4, None, [[(0, 1)], [(4, 1)]]))


def test_what_an_agent_does_that_was_stopped() -> None:
    """It takes its own task, parks with it, or has no path; a path that is left may come to one stop of three, and end anywhere."""
    is_refused('took 2 path', 'took 3 path', 14, 'agent 1 takes task 3, and has task 2')
    is_refused('0 token 1 = took 2 path 1,2 1,1 2,1 3,1 3,2', '0 token 1 = rested', 14, 'has task 2')
    is_refused('took 2 path 1,2 1,1 2,1 3,1 3,2', 'took 2 path 1,2 1,1 2,1', 14, 'does not come to D at 3,2, a stop of its task 2')
    is_refused('took 2 path 1,2', 'took 2 path 1,1', 14, 'begins at 1,1, and it stands at 1,2')
    is_refused('took 3 path 3,2', 'took 1 path 3,2', 21, 'no task 1 is open')
    text = FRONT.replace('path 1,2', 'path 1,2 1,1 2,1').replace('visits 7 stops 1,2 3,2', 'visits 7 stops 1,2 1,1 3,2')
    text = text.replace('1,1 2,1 3,1 3,0', '3,0').replace('visits 8 stops 1,0 3,0', 'visits 8 9 stops 1,0 3,0').replace('2,1 4,1', '1,0 3,0')
    site = read_instance('i', read_file(DELIVERIES).replace(b'agent P0', b'station M 1 1\nagent P0'))
    more = ['0 token 1 = refused E5 2', '0 tick = clock 10 picked 0 dropped 0', '0 tick = clock 11 picked 0 dropped 0', '0 token 1 = refused E6',
            '0 token 1 = parked P0 path 2,1 1,1 0,1', '0 tick = clock 12 picked 0 dropped 0', '0 tick = clock 13 picked 0 dropped 0',
            '0 token 1 = took 2 path 0,1 1,1 2,1 3,1 3,2', *(f'0 tick = clock {clock} picked 0 dropped {int(clock == 17)}' for clock in range(14, 18))]
    run = read_log(site, 'l', (text + '\n'.join(more) + '\n').encode())
    same((run.tasks[2].visits, run.tasks[2].taken, run.differences(), run.answers['parked']), ([7, 10, 17], 9, [], 1))
    same([(path.clock, path.task, path.point) for path in run.paths[1]], [(9, 2, None), (11, 2, 0), (13, 2, None)])


def test_paths_go_home() -> None:
    """Where they do, an agent may take a task once it has none, wherever it is; the front says so, and no path need."""
    text = FRONT.replace('state', 'rules ends homes age 600\nstate').replace('path 1,1 2,1 3,1 3,0', 'path 1,1 2,1 3,1 3,0 3,1 2,1 1,1 0,1')
    text = text.replace('path 1,2', 'path 1,2 1,2 1,2 1,2 1,2 1,2 1,2 1,2 1,2 1,1').replace('agent 1 visits 7', 'agent 1 visits 7 8')
    run = run_of(text)
    same((run.homes, run.age, run.paths[0][0].free, run.paths[0][0].end, run.paths[1][0].free), (True, 600, 12, 16, 9))
    run = run_of(text + '0 token 1 = took 3 path 1,2 1,2 1,2 1,2 1,1 2,1 3,1 3,2 3,1 2,1 1,1 1,2 1,1 2,1 3,1 4,1\n')
    same(run.tasks[3].agent, 1)
    # one without a task that parks is due at once, and may take a task on the way
    run = run_of(text + '0 token 1 = parked P1 path 1,2 1,1 2,1 3,1 4,1\n0 token 1 = rested\n0 tick = clock 10 picked 0 dropped 0\n'
                 '0 token 1 = took 3 path 1,1 2,1 3,1 3,2 3,1 2,1 1,1 1,2 1,1 2,1 3,1 4,1\n')
    same([(path.clock, path.task, path.point, path.free) for path in run.paths[1]], [(9, None, None, 9), (9, None, 1, 9), (10, 3, None, 17)])
    # one with a task that parks through all stops that are left is due at the last of them
    run = run_of(text.replace('visits 7 8', 'visits 7').replace(' 1,2' * 9 + ' 1,1\n', ' 1,2\n') + '0 token 1 = parked P1 path 1,2 1,1 2,1 3,1 3,2 3,1 4,1\n')
    same(([(path.task, path.point, path.free) for path in run.paths[1]], run.halted), ([(2, None, 9), (2, 1, 13)], {}))
    is_refused('state 9', 'rules ends homes\nstate 9', 15, 'ends at the last stop')


def test_faults_have_their_line() -> None:
    for old, new, line in (('wlog 3', 'wlog 4', 1), ('after 1', 'after x', 2), ('9ab\n', '9a\n', 2), ('state 9', 'rules ends\nstate 9', 3), ('open stopped', 'open halted', 3),
                           ('entries 0:12 62:3', 'entries 62:3 0:12', 4), ('entries 0:12 62:3', 'entries 0:0', 4), ('agents 2', 'agents 3', 5),
                           ('1,1 2,1', '1,1 3,1', 6), ('2,1 3,1 3,0', '2,1 2,0 3,0', 6), ('slots 4 path 1,2', 'slots 4', 7), ('tasks 4', 'agent slots 4 path 0,1', 8),
                           ('4,1\n', '4\n', 9), ('visits 8 stops', 'visits 2 stops', 10), ('visits 8 stops', 'visits 10 stops', 10), ('1,0 3,0', '1,0 2,1', 10),
                           ('1,0 3,0', '1,0 0,1', 10), ('agent 0 visits 8', 'agent 2 visits 8', 10), ('x 4 agent 1', 'x 4 agent 0', 11), ('y 9 open', 'y 9 done', 12),
                           ('y 9 open', 'y 10 open', 12), ('begin', 'task 0 y 9 open stops 3,2 1,2\nbegin', 13), ('begin\n', 'begin 1\n', 13),
                           ('begin\n', '', 13), ('end 12', 'end 27', 26)):
        is_refused(old, new, line)


# ------------------------------------------------------------------------------------------------ the tools

def test_play() -> None:
    log = file('log', FRONT + ENTRIES)
    same(tool('play.py', DELIVERIES, log, '--check'), ('\n'.join(ROWS + ['counts agree in 8 ticks', '']), '', 0))
    same(tool('play.py', DELIVERIES, file('front', FRONT), '--check')[0], f'{ROWS[0]}\ncounts agree in 0 ticks\n')
    for words in (['--svg', '9'], ['--svg', '13'], ['--animate']):
        out, said, status = tool('play.py', DELIVERIES, log, *words)
        same((said, status, out.count('>2,1</text>')), ('', 0, 0))
        tree.fromstring(out)
        assert '-0.' not in out and 'keyTimes="-' not in out, words
    page, said, status = tool('play.py', DELIVERIES, log)
    same((said, status), ('', 0))
    data = json.loads(page.split('id="run">')[1].split('</script>')[0])
    same((data['start'], data['clock'], data['points'][-1], data['differ']), (9, 17, ['g', '2,1', 2, 1], []))
    same([way[0] for way in data['ways'][1]], [9, 9, 13])
    same(data['tasks'][2], ['x', [4, 5], 4, 1, 9, [7, 13]])
    # the page has no sentence on parking for a path that leads to no point
    same(json.loads(tool('play.py', DELIVERIES, file('front', FRONT.replace('1 visits 7', '1 visits 7 8')))[0].split('id="run">')[1].split('</script>')[0])['ways'][1][0][:5],
         [9, 1, 2, -1, 4])


TOLD = '''0 took 2 path 1,2 1,1 2,1 3,1 3,2
1 clock 10 picked 0 dropped 0
1 visited 1 0 0
1 go 0 1 2,1
2 clock 11 picked 0 dropped 0
3.5 arrived 0 1
3.5 go 0 2 3,1
3.5 go 1 1 1,1
4 arrived 1 1
4 refused V1 0 1
4 arrived 0 2
4.5 go 1 2 2,1
5 clock 12 picked 0 dropped 1
'''


def test_vehicles_of_a_run_from_a_state() -> None:
    """Steps are told from the state's clock, 9, on. Vehicle 1 is granted 1,1 once vehicle 0 has left it."""
    words = [DELIVERIES, file('log', FRONT + ENTRIES), '--vehicles', file('told', TOLD)]
    out, said, status = tool('play.py', *words, '--check')
    ends = ['vehicles 1,1 1,2 behind 0 0', 'vehicles 1,1>2,1 1,2 behind 1 1', 'vehicles 3,1 1,1>2,1 behind 0 1', 'vehicles 3,1 1,1>2,1 behind 1 2']
    same([row.partition(' vehicles ')[2] for row in out.splitlines()[:4]], [end.removeprefix('vehicles ') for end in ends])
    same((out.splitlines()[4:], said, status), (['counts agree in 8 ticks', 'no two vehicles meet in 5 seconds: 4 steps, 1 visits, at most 2 steps behind'], '', 0))
    data = json.loads(tool('play.py', *words)[0].split('id="run">')[1].split('</script>')[0])
    vehicles = data['vehicles']
    same((data['start'], data['clock'], data['front']), (0, 17, {'log': 2, 'clock': 9, 'kind': 'stopped', 'entries': 15, 'done': [0]}))
    same((vehicles['base'], vehicles['ticks'], vehicles['go'], vehicles['at'], vehicles['held']),
         (9, [100, 200, 500], [[[100, 10], [350, 11]], [[350, 10], [450, 11]]], [[[350, 10], [400, 11]], [[400, 10]]], [[400, 500, 0]]))
    tree.fromstring(tool('play.py', *words, '--svg', '11')[0])
    has(tool('play.py', *words[:3], file('told', TOLD.replace('1 go 0 1 2,1', '1 go 0 10 2,1')))[1], 'line 4: agent 0 is told step 19 behind 9, at clock 10')
    has(tool('play.py', *words[:3], file('told', '0 took 2 path 1,2\n'))[1], 'no line `SECONDS clock 10 ..` is in it')


def test_the_program_is_asked_by_the_rules_of_the_state() -> None:
    program = file('judge', '#!/bin/sh\ncat > /dev/null\necho "$@"\n')
    os.chmod(program, 0o755)
    same(verdict(program, run_of(FRONT), b''), 'verify --unended --wlog 3')
    same(verdict(program, run_of(FRONT.replace('state', 'rules ends homes age 600\nstate')), b''), 'verify --unended --ends homes --wlog 3 --age 600')


def test_stats() -> None:
    # task 0 was done before: three tasks, done at 12, 13 and 17, the last 8 ticks behind the state, served in 9, 9 and 8; 3 and 8 moves
    out, said, status = tool('stats.py', DELIVERIES, file('log', FRONT + ENTRIES))
    same((out.splitlines()[1].split(',', 1)[1], said, status), ('2,3,3,8,8.67,9,9,37.50,11,0,0,0,8,0', '', 0))
    same(tool('stats.py', DELIVERIES, file('log', FRONT))[0].splitlines()[1].split(',', 1)[1], '2,3,0,,,,,,0,0,0,0,0,0')


def test_the_next_shift() -> None:
    site = text_of('examples', 'deliveries').split('%%\n')
    out, said, status = tool('next_shift.py', file('log', FRONT + ENTRIES), DELIVERIES)
    same((out, said, status), ('%%\n'.join([site[0], site[1].replace('agent P0', 'agent B').replace('agent P1', 'agent C'), '']), '', 0))
    open_too = tool('next_shift.py', file('log', FRONT.replace('path 1,1 2,1 3,1 3,0', 'path 3,0').replace('visits 8', 'visits 8 9').replace('visits 7', 'visits 7 8')), DELIVERIES)
    has(open_too[0], 'agent B\nagent C\n', '# task 3 of the shift before, handed in at its clock 9\nsubmit y D C\n')
    for text, words in ((FRONT, 'agent 0 has it, with 3 steps left; 3 more ticks, with no token'), (FRONT + ENTRIES[:ENTRIES.index('0 token 0 = rested')], 'task 2 is carried at clock 12'),
                        (FRONT.replace('path 1,1 2,1 3,1 3,0', 'path 3,0').replace('visits 8', 'visits 8 9'), 'ask for it until it takes the task again')):
        out, said, status = tool('next_shift.py', file('log', text), DELIVERIES)
        same((out, status, said.count('\n')), ('', 1, 1))
        has(said, words)


def test_sections_are_put_together() -> None:
    site, log = '%%\n'.join(text_of('examples', 'deliveries').split('%%\n')[:2]) + '%%\n', FRONT + ENTRIES
    same(tool('log_input.py', DELIVERIES, file('log', 'accepted 0\n%%\n' + log)), (site + log, '', 0))
    level, points = (file(name, text) for name, text in zip(('map', 'points'), site.split('%%\n')))
    same(tool('join.py', level, points, file('log', log)), (site + log, '', 0))


def exported(kind: str, *words: str) -> str:
    done = subprocess.run([os.path.join(ROOT, 'tools', 'py'), 'export', kind, DELIVERIES, file('log', FRONT + ENTRIES), *words], capture_output=True, timeout=30)
    same((done.stderr, done.returncode), (b'', 0))
    return done.stdout.decode()


def test_exports() -> None:
    """Times count from the state. Stops that were visited before are no stops of the plan."""
    result = json.loads(exported('planviz'))
    same((result['makespan'], result['numTaskFinished']), (8, 3))
    same(result['events'], [[3, 0, 1, 1], [4, 1, 2, 1], [4, 1, 3, 1], [8, 1, 3, 2]])
    same(result['tasks'], [[0, 0, [1, 2, 1, 4]], [1, 0, [0, 3]], [2, 0, [2, 3]], [3, 0, [2, 3, 2, 1]]])
    same(result['actualSchedule'], ['0:1', '0:2,4:3'])
    has(exported('mrp'), '  makespan: 8\n')
    folder = os.path.join(SCRATCH.name, 'tables')
    exported('tables', '--to', folder)
    with open(os.path.join(folder, 'tasks.csv'), newline='') as table:
        same(list(csv.reader(table))[1:], [['0', 'w', '2,1 P1', '0', '', '1', '2 5', '5', '5'], ['1', 'x', 'A B', '3', '', '0', '8 12', '12', '9'],
                                           ['2', 'x', 'C D', '4', '', '1', '7 13', '13', '9'], ['3', 'y', 'D C', '9', '13', '1', '13 17', '17', '8']])
    with open(os.path.join(folder, 'paths.csv'), newline='') as table:
        same([f'{row["x"]},{row["y"]}' for row in csv.DictReader(table)], CELLS[0] + CELLS[1])


def test_sentences() -> None:
    for code in [f'S{number}' for number in range(1, 12)]:
        out, said, status = tool('explain.py', f'refused {code} 2')
        same((out.startswith(f'{code}: '), said, status), (True, '', 0))
    log = file('log', FRONT)
    same(tool('explain.py', 'refused L1 line 7', log)[0].splitlines()[1:], ['Line 7 of the log file:', '    agent slots 4 path 1,2'])
    same(tool('explain.py', 'bad 12', file('input', '%%\n'.join(text_of('examples', 'deliveries').split('%%\n')[:2]) + '%%\n' + FRONT))[0].splitlines()[2:],
         ['    task 62 y 9 open stops 3,2 1,2'])


# ------------------------------------------------------------------------------------------------ fleets

class Tape:
    """A core that has its answers ready, and is asked for nothing else."""
    form, restarts, begun = 'full', (), ()

    def __init__(self, *entries: str):
        self.instance, self.entries = INSTANCE, [entry.split(' = ') for entry in entries]

    def ask_all(self, lines):
        rows = [self.entries.pop(0) for _ in lines]
        same([row[0] for row in rows], list(lines))
        return [reply_of(row[1]) for row in rows]


def state_in(text: str):
    return read_front(INSTANCE, 'l', io.BytesIO(text.encode()))


def driven(front: str, *entries: str) -> tuple[str, list[list[str]], int]:
    """How a fleet ends that begins with a state, which of these answers were not asked for, and its clock."""
    tape = Tape(*entries)
    state = state_in(front)
    fleet = Fleet(tape, judge=Whereabouts(INSTANCE, state=state), state=state)
    return fleet.run(), tape.entries, fleet.clock


def ticks(first: int, last: int, *dropped: int) -> list[str]:
    return [f'tick = clock {clock} picked 0 dropped {dropped.count(clock)}' for clock in range(first, last + 1)]


def test_a_fleet_goes_on_from_a_state() -> None:
    own, then = 'token 1 = took 2 path 1,2 1,1 2,1 3,1 3,2', 'token 1 = took 3 path 3,2 3,1 2,1 1,1 1,2'
    same(driven(FRONT, own, *ticks(10, 13, 12, 13), then, *ticks(14, 17, 17)), ('', [], 17))
    # without a path it asks at the next tick; and takes nothing else
    same(driven(FRONT, 'token 1 = refused E6', *ticks(10, 10), own, *ticks(11, 14, 12, 14), then, *ticks(15, 18, 18)), ('', [], 18))
    for entry, words in ((own.replace('took 2', 'took 3'), 'agent 1 has task 2'), (own.replace('1,2 1,1', '1,1 1,1'), 'begins at 1,1, and it stands at 1,2')):
        try:
            raise AssertionError(driven(FRONT, entry))
        except Stop as stop:
            has(str(stop), words)
    # it makes way to a point, though nobody wants its cell, and asks again from there
    aisle = FRONT.replace('path 1,2\n', 'path 1,1\n').replace('1,1 2,1 3,1 3,0', '3,0').replace('visits 8', 'visits 8 9')
    aisle = aisle.replace('y 9 open stops 3,2 1,2', 'y 9 agent 0 visits 9 9 stops 3,2 1,2')
    same(driven(aisle, 'token 1 = parked P0 path 1,1 0,1', *ticks(10, 10), 'token 1 = took 2 path 0,1 1,1 2,1 3,1 3,2', *ticks(11, 14, 14)), ('', [], 14))
    # one without a task leaves the aisle too
    idle = aisle.replace('visits 7 stops', 'visits 7 8 stops')
    same(driven(idle, 'token 1 = parked P0 path 1,1 0,1', *ticks(10, 10)), ('', [], 10))
    same(driven(idle, 'token 1 = refused E6', *ticks(10, 10), 'token 1 = refused E6'), ('at clock 10 all agents stand, 0 orders are open, and no reply can differ any more', [], 10))
    # while another walks it asks at each tick; once all stand a second time is the last
    busy = FRONT.replace('y 9 open', 'y 9 agent 1 visits 9 9')
    same(driven(busy, *(entry for clock in (9, 10, 11) for entry in ('token 1 = refused E6', *ticks(clock + 1, clock + 1, 12))), 'token 1 = refused E6'),
         ('at clock 12 all agents stand, 1 orders are open, and no reply can differ any more', [], 12))
    # one that rests where it is to deliver is asked too, and makes way
    before = busy.replace('1,1 2,1 3,1 3,0', '3,0').replace('visits 8', 'visits 8 9').replace('visits 7 stops 1,2 3,2', 'visits 7 stops 1,2 3,0')
    same(driven(before, 'token 1 = refused E6', 'token 0 = parked D path 3,0 3,1 3,2', *ticks(10, 10), 'token 1 = took 2 path 1,2 1,1 2,1 3,1 3,0', *ticks(11, 14, 14)), ('', [], 14))
    # where paths go home its home alone is a berth
    home = idle.replace('state', 'rules ends homes\nstate').replace('path 3,0', 'path 0,1')
    same(driven(home, 'token 1 = parked P1 path 1,1 2,1 3,1 4,1', *ticks(10, 12)), ('', [], 12))
    same([state_in(text) for text in (FRONT[:-3], 'wlog 2\nstart 0 slots 4 4\n', 'wlog 3\nstart 0 slots 4 4\n', '')], [None] * 4)
    same((state_in(FRONT + ENTRIES).tasks, state_in(FRONT).earlier), (state_in(FRONT).tasks, 15))


# A program that answers as it is written in a file, and keeps the entries behind the state in the log, as `replay --log` does.
ANSWERS = '''
import sys
rows = open(sys.argv[1]).read().splitlines()
log = open(sys.argv[sys.argv.index('--log') + 1], 'a')
separators = 0
while separators < 2:
    separators += sys.stdin.readline() == '%%\\n'
kept = open(sys.argv[sys.argv.index('--log') + 1]).read().split('begin\\n')[1].splitlines()
print('entries', 15 + len(kept), flush=True)
if '--told' in sys.argv:
    first = int(sys.argv[sys.argv.index('--told') + 1])
    if first < 15:
        sys.exit('refused L2 15')
    for row in kept[first - 15:]:
        print(row, flush=True)
for line, row in zip(sys.stdin, rows):
    event, reply = row.split(' = ')
    assert line.rstrip() == event, (line, row)
    log.write('62 ' + row + '\\n')
    log.flush()
    head, path, cells = reply.partition(' path ')
    print(reply if 'full' in sys.argv or not path else f'{head} end {cells.count(" ")}', flush=True)
'''


def test_drive() -> None:
    """Order z is taken at 12 by agent 0, at B, and is at A at 16: four deliveries, at 12, 13, 16 and 17, the last 8 ticks behind the state, served in
    9, 9, 7 and 8."""
    rows = ['submit z A A = accepted 4', 'token 1 = took 2 path 1,2 1,1 2,1 3,1 3,2', *ticks(10, 12, 12), 'token 0 = took 4 path 3,0 3,1 2,1 1,1 1,0', *ticks(13, 13, 13),
            'token 1 = took 3 path 3,2 3,1 2,1 1,1 1,2', *ticks(14, 15), 'tick = clock 16 picked 1 dropped 1', *ticks(17, 17, 17)]
    program = f'{sys.executable} {file("answers.py", ANSWERS)} {file("rows", chr(10).join(rows))}'
    cells_told = os.path.join(SCRATCH.name, 'cells')
    for words in (['--cells', cells_told], ['--replies', 'short']):
        out, said, status = tool('drive.py', DELIVERIES, file('orders', 'submit z A A\n'), '--log', file('run-2.log', FRONT), '--program', program, *words)
        same((said, status), ('', 0))
        same(' '.join(out.splitlines()[:-1]), 'orders 1 accepted 1 done 4 makespan 17 service_mean 8.25 service_p95 9 per100 50.00 ticks 17 commands 12 requests 3 refused 0')
    same(text_of(cells_told).splitlines()[::8], ['9 1,1 1,2', '17 1,0 1,2'])
    # a state with entries behind it is another's run
    out, said, status = tool('drive.py', DELIVERIES, file('orders', 'submit z A A\n'), '--log', file('run-3.log', FRONT + ENTRIES[:ENTRIES.index('end')]), '--program', program)
    same(status, 2)
    has(said, 'holds an earlier run (27 entries)')


def test_a_session_over_a_state() -> None:
    """Places count on over the logs before; all entries of this one are told again, and none before."""
    program = [sys.executable, file('answers.py', ANSWERS), file('rows', '0 token 0 = rested\n'.replace('0 token', 'token'))]
    log = file('run-4.log', FRONT + ''.join(ENTRIES.splitlines(keepends=True)[:3]))
    with Session(DELIVERIES, process=Process(program, 30.0), log=log, replies='full') as core:
        same((core.place, core.clock, core.state.clock, [(entry.place, entry.command) for entry in core.begun]), (18, 10, 9, [(15, 'token 1'), (16, 'tick'), (17, 'token 0')]))
        fleet = Fleet(core, state=core.state)
        same((fleet.clock, fleet.halted, fleet.due, fleet.open, fleet.place(1), fleet.tasks[3].line), (10, {}, [12, 13], {3}, (1, 1), 'submit y D C'))
        same((str(core.ask('token 0')), core.place), ('rested', 19))


# ------------------------------------------------------------------------------------------------ the page of a running floor

def test_a_page_of_a_log_that_grows() -> None:
    """The state may come in pieces, and after it entries: no page sees half of it."""
    name, text = file('growing', ''), FRONT + ENTRIES[:ENTRIES.index('end')]
    floor = Follower(INSTANCE, 'deliveries', name)
    for size in (0, 30, FRONT.index('agent slots'), FRONT.index('task 62') + 4):
        with open(name, 'a') as log:
            log.write(text[os.path.getsize(name):size])
        same((size, floor.look(), floor.number, floor.fault), (size, None, 0, ''))
    with open(name, 'a') as log:
        log.write(text[os.path.getsize(name):len(FRONT)])
    floor.look()
    same((floor.number, floor.run.clock, floor.done, floor.kept), (1, 9, 1, [1, 2, 3]))
    same(Status(floor, 8, 5, 1.0).phases(), {'open': 1, 'assigned': 0, 'carried': 2, 'done': 1})
    begun = floor.begun()
    same(([task[:2] + task[-1:] for task in begun['tasks']], begun['start'], begun['points'][-1][0]),
         ([['x', [2, 3], 1], ['x', [4, 5], 2], ['y', [5, 4], 3]], 9, 'g'))
    news = []
    for end in range(len(FRONT), len(text) + 1):
        if text[end - 1] == '\n' and end > len(FRONT):
            with open(name, 'a') as log:
                log.write(text[os.path.getsize(name):end])
            news.append(floor.look())
    same([event[1:] for one in news for event in one['events'] if event[2] == 'visit'], [(0, 'visit', 1, 1), (0, 'visit', 2, 1), (0, 'visit', 3, 0), (0, 'visit', 3, 1)])
    same((news[0]['changed'], news[7]['changed']), ([[2, 1, 9, [7, 13]]], [[3, 1, 13, [13, 17]]]))
    same((floor.done, [ticks for _, ticks in floor.served], floor.planned), (4, [9, 9, 8], {}))


def test_a_page_of_vehicles_behind_a_state() -> None:
    """Steps count from the state's clock, beside a first line that names it."""
    name = file('late', FRONT + ENTRIES[:ENTRIES.index('0 token 0 = rested')])
    sum_of = 'a' * 64
    file('late.at', f'front 100 {sum_of}\nat 0 2\nat 1 1\n')
    same(read_arrivals('late.at', read_file(name + '.at'), 2), [2, 1])
    floor = Follower(INSTANCE, 'deliveries', name)
    floor.look()
    same((floor.fault, floor.vehicles.reached, floor.vehicles.behind(), floor.vehicles.cells(0)[0], floor.vehicles.cells(1)[0]), ('', [11, 10], [1, 2], (3, 1), (1, 1)))
    # B is not reached, so task 1 is not done though the plan has it
    same((floor.done, floor.vehicles.is_done(1), floor.vehicles.is_done(2)), (1, False, False))
    os.remove(name + '.at')


if __name__ == '__main__':
    counting.main(globals(), (), SCRATCH)
