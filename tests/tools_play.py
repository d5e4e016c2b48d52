#!/usr/bin/env python3
"""Tests tools/play.py and tools/stats.py, without a browser.

    tests/tools_play.py [--shelves LOG]

The rows for examples/deliveries were worked out by hand from the two paths in examples/deliveries.log, and so were those of
vehicles that carry these out late. For the log of
examples/shelves (made by the program, by --shelves or the environment's WAREHOUSE, default ./warehouse) a small judge in
this file redoes cells and phases by itself at random clocks. The last line is `N passed, M failed`; status 1 if any failed.
"""
from __future__ import annotations

import argparse
import json
import os
import random
import re
import shlex
import subprocess
import sys
import tempfile

import counting

ROOT = os.path.dirname(os.path.dirname(os.path.abspath(__file__)))
INSTANCE, LOG = os.path.join(ROOT, 'examples/deliveries'), os.path.join(ROOT, 'examples/deliveries.log')
SHELVES = os.path.join(ROOT, 'examples/shelves')
SCRATCH = tempfile.TemporaryDirectory()

# Agent 0 goes 0,1 1,1 1,0 1,1 2,1 3,1 3,0 from clock 0, with task 0 from A at 1,0 to B at 3,0; agent 1 goes
# 4,1 3,1 3,2 3,1 3,1 3,2 3,1 2,1 1,1 1,2 with task 1 from D at 3,2 to C at 1,2. So both are picked up at clock 2, task
# 0 is delivered at 6 and task 1 at 9, and agent 0 rests at 3,0 from 6 on.
ROWS = ['clock 0 cells 0,1 4,1 phases aa', 'clock 1 cells 1,1 3,1 phases aa', 'clock 2 cells 1,0 3,2 phases cc',
        'clock 3 cells 1,1 3,1 phases cc', 'clock 4 cells 2,1 3,1 phases cc', 'clock 5 cells 3,1 3,2 phases cc',
        'clock 6 cells 3,0 3,1 phases dc', 'clock 7 cells 3,0 2,1 phases dc', 'clock 8 cells 3,0 1,1 phases dc',
        'clock 9 cells 3,0 1,2 phases dd']
# 2 tasks in 9 ticks; served in 6 and 9; agent 0 makes 6 moves, agent 1 makes 8 and waits once at 3,1
FIGURES = '2,2,2,9,7.50,7.5,9,22.22,14,1,0,0,9,0'


def tool(name: str, *words: str) -> tuple[int, str, str]:
    done = subprocess.run([sys.executable, os.path.join(ROOT, 'tools', name), *words], capture_output=True, text=True)
    return done.returncode, done.stdout, done.stderr


def file_of(text: str) -> str:
    handle, name = tempfile.mkstemp(dir=SCRATCH.name)
    with os.fdopen(handle, 'w') as file:
        file.write(text)
    return name


def log() -> str:
    with open(LOG) as file:
        return file.read()


def check(text: str, *clocks: str) -> tuple[int, list[str]]:
    status, out, errors = tool('play.py', INSTANCE, file_of(text), '--check', *clocks)
    assert not errors, errors
    return status, out.splitlines()


def refused(instance: str, text: str, tool_name: str = 'play.py') -> str:
    status, out, errors = tool(tool_name, instance, file_of(text))
    assert status == 1 and out == '', (status, out)
    assert 'Traceback' not in errors and errors.count('\n') == 1, errors
    return errors


def data_of(page: str) -> dict:
    return json.loads(re.search(r'<script type="application/json" id="run">(.*?)</script>', page, re.S)[1])


def test_rows_worked_by_hand():
    assert check(log()) == (0, ROWS + ['counts agree in 9 ticks'])


def test_given_clocks():
    assert check(log(), '5', '9') == (0, [ROWS[5], ROWS[9], 'counts agree in 9 ticks'])


def test_replies_before_the_log_are_skipped():
    assert check('accepted 0\ntook 0 end 6\n%%\n' + log())[1][:10] == ROWS


def test_cut_log_plays():
    # cut in the line of the third tick: its clock is not reached
    text = log()[:log().index('clock 3') + 3]
    assert check(text) == (0, ROWS[:3] + ['counts agree in 2 ticks', 'cut'])
    status, page, errors = tool('play.py', INSTANCE, file_of(text))
    assert status == 0 and errors == '' and data_of(page)['cut'] is True and data_of(page)['clock'] == 2


def test_changed_counts_give_the_banner():
    text = log().replace('clock 3 picked 0', 'clock 3 picked 1')
    line = 'clock 3: the log counts picked 1 dropped 0, the paths give picked 0 dropped 0'
    assert check(text) == (1, ROWS + ['counts differ at ' + line])
    status, page, _ = tool('play.py', INSTANCE, file_of(text))
    assert status == 0 and data_of(page)['differ'] == [line]
    assert data_of(tool('play.py', INSTANCE, LOG)[1])['differ'] == []


def test_visits_at_once_stand_in_no_tick():
    # agent 0 stands at B from clock 6 on: what is to go from B to B is picked up and delivered as it is taken
    entries = '0 submit x B B = accepted 2\n0 token 0 = took 2 path 3,0\n0 close = closed\n'
    text = log().replace('0 close = closed\n', entries).replace('end 16', 'end 18')
    assert check(text, '8', '9') == (0, [ROWS[8], ROWS[9] + 'd', 'counts agree in 9 ticks'])


def test_wrong_pairs_are_told_with_their_line():
    assert 'line 2: the log has 2 agents, the instance 20' in refused(SHELVES, log())
    assert 'line 4: the path of agent 0 begins at 1,1' in refused(INSTANCE, log().replace('path 0,1 1,1', 'path 1,1', 1))
    assert 'line 3: the instance has no station E' in refused(INSTANCE, log().replace('x A B', 'x A E'))
    assert 'line 4: the path of agent 0 does not come to C at 1,2' in refused(INSTANCE, log().replace('x A B', 'x A C'))
    assert 'line 4: the path of agent 0 meets 0,0' in refused(INSTANCE, log().replace('path 0,1 1,1', 'path 0,1 0,0'))
    assert 'line 7' in refused(INSTANCE, log().replace('clock 1 picked', 'clock 2 picked', 1))
    assert 'line 19: `end 15` stands behind 16 entries' in refused(INSTANCE, log().replace('end 16', 'end 15'))
    assert 'no log is in it' in refused(INSTANCE, 'accepted 0\n')
    assert 'line 2' in refused(INSTANCE, 'wlog 2\n')


def test_wrong_files():
    for words in (['/nonexistent', LOG], [INSTANCE, '/nonexistent'], [LOG, LOG], [INSTANCE, LOG, '--check', '10']):
        status, _, errors = tool('play.py', *words)
        assert status == 1 and errors.startswith('play.py: ') and errors.count('\n') == 1, errors


def test_page_has_no_verdict_of_its_own_and_no_network():
    page = tool('play.py', INSTANCE, LOG)[1]
    assert data_of(page)['verified'] is None and 'http' not in page and 'src=' not in page
    judge = file_of('#!/bin/sh\ncat > /dev/null\necho bad 7\n')
    os.chmod(judge, 0o755)
    assert data_of(tool('play.py', INSTANCE, LOG, '--verify', judge)[1])['verified'] == 'bad 7'


def test_pictures_are_xml():
    import xml.etree.ElementTree as tree
    for words in (['--svg', '2'], ['--animate']):
        status, out, errors = tool('play.py', INSTANCE, LOG, *words)
        assert status == 0 and errors == '', errors
        root = tree.fromstring(out)
        assert len(root.findall('.//{*}circle')) == 2    # the agents
    assert len(root.findall('.//{*}animateTransform')) == 2


def test_two_runs_side_by_side():
    status, page, errors = tool('play.py', INSTANCE, LOG, '--beside', INSTANCE, LOG)
    assert (status, errors) == (0, ''), errors
    second = json.loads(re.search(r'<script type="application/json" id="beside">(.*?)</script>', page, re.S)[1])
    first = data_of(page)
    assert first['title'] == second['title'] == 'deliveries, deliveries.log' and first == second
    assert 'id="beside"' not in tool('play.py', INSTANCE, LOG)[1] and data_of(tool('play.py', INSTANCE, LOG)[1])['title'] == 'deliveries'
    for words, told in ((['--beside', INSTANCE, LOG, '--animate'], 'it wants LOG, and a page'), (['--beside', SHELVES, LOG], 'line 2: the log has 2 agents')):
        status, out, errors = tool('play.py', INSTANCE, LOG, *words)
        assert (status, out) == (1, '') and told in errors, errors


def test_waits_are_in_the_page():
    # agent 1 waits once, at 3,1 from clock 3 to 4: the letter `.` of its path, which the heat map counts
    assert [way[5] for ways in data_of(tool('play.py', INSTANCE, LOG)[1])['ways'] for way in ways] == ['', 'RUDRRU', '', 'LDU.DULLD']


def test_figures_worked_by_hand():
    status, out, errors = tool('stats.py', '--no-header', INSTANCE, LOG)
    assert (status, out, errors) == (0, f'{LOG},{FIGURES}\n', ''), out
    assert 'the log has 2 agents' in tool('stats.py', SHELVES, LOG)[2]


# ---- vehicles behind their plan: the two paths above, carried out late, with up to two cells told ahead

TRANSCRIPT = """0 accepted 0
0 clock 1 picked 0 dropped 0
0 go 0 1 1,1
0 go 1 1 3,1
1 clock 2 picked 2 dropped 0
1 go 0 2 1,0
1 go 1 2 3,2
1.5 arrived 1 1
2 clock 3 picked 0 dropped 0
2.25 arrived 1 2
2.25 visited 1 1 0
2.25 go 1 3 3,1
3 clock 4 picked 0 dropped 0
4 clock 5 picked 0 dropped 0
4.2 refused V1 0 5
4.5 arrived 0 2
4.5 visited 0 0 0
4.5 go 0 3 1,1
4.5 go 0 4 2,1
5 arrived 1 3
5 go 1 5 3,2
6 arrived 1 5
6 arrived 1 2
7 arrived 0 4
7 go 0 5 3,1
8 clock 6 picked 0 dropped 1
8 go 0 6 3,0
9 arrived 0 6
9 visited 0 0 1
9 go 1 6 3,1
10 clock 7 picked 0 dropped 0
10 go 1 7 2,1
"""
# as each clock ends, before the next tick: step 4 of agent 1 stays at 3,1 and is passed at once, as is each of agent 0 from 7 on
VEHICLES = ['0,1 4,1 behind 0 0', '0,1>1,1 4,1>3,1 behind 1 1', '0,1>1,1>1,0 3,1>3,2 behind 2 1', '0,1>1,1>1,0 3,2>3,1 behind 3 1',
            '0,1>1,1>1,0 3,2>3,1 behind 4 2', '2,1>3,1 3,2 behind 1 0', '3,0 3,2>3,1 behind 0 1', '3,0 3,2>3,1>2,1 behind 0 2']


def late(transcript: str, *words: str) -> tuple[int, str, str]:
    return tool('play.py', INSTANCE, LOG, '--vehicles', file_of(transcript), *words)


def test_vehicles_worked_by_hand():
    rows = [f'{row} vehicles {cells}' for row, cells in zip(ROWS, VEHICLES)]
    last = ['counts agree in 9 ticks', 'no two vehicles meet in 10 seconds: 12 steps, 3 visits, at most 5 steps behind']
    status, out, errors = late(TRANSCRIPT, '--check')
    assert (status, out.splitlines(), errors) == (0, rows + last, ''), out + errors
    assert late(TRANSCRIPT, '--check', '5')[1].splitlines() == [rows[5]] + last


def test_vehicles_that_meet_are_told():
    # agent 0 is told into 3,1 while agent 1 is on its way out of it
    wrong = TRANSCRIPT.replace('7 go 0 5 3,1\n', '').replace('6 arrived 1 5\n', '5.5 arrived 0 4\n5.5 go 0 5 3,1\n6 arrived 1 5\n')
    line = 'second 5.5: vehicle 0 is told into 3,1, which vehicle 1 occupies'
    status, out, _ = late(wrong, '--check', '5')
    assert (status, out.splitlines()[-1]) == (1, 'vehicles meet at ' + line), out
    status, page, errors = late(wrong)
    assert (status, data_of(page)['vehicles']['meetings'], errors) == (0, [line], f'play.py: vehicles meet at {line}\n')


def test_page_with_vehicles():
    page = late(TRANSCRIPT)[1]
    found = data_of(page)['vehicles']
    assert (found['end'], found['ticks'], found['most'], found['meetings']) == (1000, [0, 100, 200, 300, 400, 800, 1000], 5, [])
    assert found['go'][1] == [[0, 1], [100, 2], [225, 3], [500, 5], [900, 6], [1000, 7]]
    assert found['at'] == [[[450, 2], [700, 4], [900, 6]], [[150, 1], [225, 2], [500, 3], [600, 5]]]
    assert (found['visits'], found['held']) == ([[450, 900], [225]], [[420, 800, 0]])
    assert data_of(tool('play.py', INSTANCE, LOG)[1])['vehicles'] is None and 'http' not in page


def test_still_with_vehicles():
    import xml.etree.ElementTree as tree
    root = tree.fromstring(late(TRANSCRIPT, '--svg', '4')[1])
    # two agents and a ring where the plan of each is; five cells are occupied
    assert len(root.findall('.//{*}circle')) == 4 and len(root.findall('.//{*}rect[@fill-opacity]')) == 5


def test_transcripts_that_do_not_fit():
    for old, new, told in (
            ('0 clock 1', 'clock 1', 'line 2: `clock 1 picked 0 dropped 0` does not begin with a second'),
            ('2 clock 3', '1.2 clock 3', 'line 9: the second 1.2 stands behind 1.5'),
            ('2 clock 3', '2 clock 4', 'line 9: the clock goes from 2 to 4'),
            ('go 0 1 1,1', 'go 2 1 1,1', 'line 3: there is no agent 2'),
            ('go 0 1 1,1', 'go 0 1 1,', 'line 3: `go 0 1 1,` is no line of'),
            ('go 0 1 1,1', 'go 0 1 0,0', 'line 3: step 1 of agent 0 is not to 0,0'),
            ('go 0 1 1,1', 'go 0 2 1,0', 'line 3: agent 0 is told step 2 behind 0, at clock 1'),
            ('arrived 1 1', 'arrived 1 3', 'line 8: agent 1 has arrived at step 3, and was told 2'),
            ('visited 1 1 0', 'visited 1 0 0', 'line 11: visit 0 of task 0 is not the next of agent 1'),
            ('1.5 arrived 1 1', '1.5 visited 1 1 0', 'line 8: vehicle 1 has not come to stop 0 of task 1'),
            ('V1 0 5', 'V1 0 4', 'line 15: agent 0 is 5 steps behind, and not 4')):
        assert old in TRANSCRIPT
        status, out, errors = late(TRANSCRIPT.replace(old, new, 1), '--check')
        assert (status, out, errors.count('\n')) == (1, '', 1) and told in errors, (told, errors)
    assert 'no line `SECONDS clock 1 ..`' in late('0 accepted 0\n', '--check')[2]
    assert 'is none of 0 to 7' in late(TRANSCRIPT, '--check', '8')[2] and '--animate' in late(TRANSCRIPT, '--animate')[2]


def test_vehicles_of_a_run_that_is_driven():
    kept, transcript = file_of(''), file_of('')
    status, out, errors = tool('drive.py', SHELVES, '--late', '3', '--ahead', '3', '--spread', '0.6', '--save', kept, '--transcript',
                               transcript, '--program', f'{shlex.quote(OPTIONS.program)} replay')
    assert status == 0, errors
    figures = dict(line.split(' ') for line in out.splitlines())
    status, out, errors = tool('play.py', SHELVES, kept, '--vehicles', transcript, '--check', '0', figures['ticks'])
    rows = out.splitlines()
    assert (status, errors) == (0, '') and rows[1].endswith(' behind' + 20 * ' 0') and rows[2].startswith('counts agree'), out
    last = re.fullmatch(r'no two vehicles meet in [0-9.]+ seconds: (\d+) steps, (\d+) visits, at most [1-8] steps behind', rows[-1])
    assert last and last.groups() == (figures['steps'], '400'), (rows[-1], figures)
    assert tool('drive.py', SHELVES, '--transcript', transcript)[::2] == (2, 'drive.py: --transcript: it is for --late\n')


# ---- a judge of its own: a state that goes forward entry by entry, as the warehouse's does

def judged(instance: str, text: str) -> dict[int, str]:
    """The row of each clock, from a state that each tick moves by one step."""
    points = {words[1]: words[2] + ',' + words[3] for words in map(str.split, instance.split('%%\n')[1].splitlines())
              if words[0] in ('station', 'parking')}
    ahead = [[points[line.split()[1]]] for line in instance.split('%%\n')[1].splitlines() if line.startswith('agent ')]
    tasks, load, rows, clock = [], {}, {}, 0

    def arrive():
        for agent, n in load.items():
            while tasks[n][1] < len(tasks[n][0]) and tasks[n][0][tasks[n][1]] == ahead[agent][0]:
                tasks[n][1] += 1

    for line in text.splitlines():
        event, _, reply = line.partition(' = ')
        words = reply.split()
        if words[:1] == ['accepted']:
            tasks.append([[points[name] for name in event.split()[3:]], 0, False])
        elif words[:1] in (['took'], ['parked']):
            agent = int(event.split()[2])
            assert len(ahead[agent]) == 1 and ahead[agent][0] == words[3]
            ahead[agent] = words[3:]
            if words[0] == 'took':
                load[agent] = int(words[1])
                tasks[load[agent]][2] = True
            arrive()
        elif words[:1] == ['clock']:
            ahead = [path[1:] or path for path in ahead]
            clock = int(words[1])
            arrive()
        phases = ''.join('o' if not taken else 'a' if made == 0 else 'c' if made < len(stops) else 'd'
                         for stops, made, taken in tasks)
        rows[clock] = f'clock {clock} cells {" ".join(path[0] for path in ahead)} phases {phases or "-"}'
    return rows


def test_own_judge_on_deliveries():
    with open(INSTANCE) as file:
        assert list(judged(file.read(), log()).values()) == ROWS


def test_shelves_at_random_clocks():
    with open(SHELVES) as file:
        instance = file.read()
    if OPTIONS.shelves:
        with open(OPTIONS.shelves) as file:
            out = file.read()
    else:
        out = subprocess.run([OPTIONS.program, 'replay', '--tail', 'log'], input=instance, capture_output=True, text=True,
                             check=True).stdout
    text = out[out.index('wlog '):]
    rows = judged(instance, text)
    clocks = random.Random(5).sample(sorted(rows), 40)
    name = file_of(text)
    status, out, _ = tool('play.py', SHELVES, name, '--check', *map(str, clocks))
    assert out.splitlines()[:-1] == [rows[clock] for clock in clocks]
    assert status == 0 and out.splitlines()[-1] == f'counts agree in {max(rows)} ticks'
    # some hundred ticks as a picture that moves by itself
    assert max(rows) > 400 and len(tool('play.py', SHELVES, name, '--animate')[1].encode()) < 500_000


if __name__ == '__main__':
    parser = argparse.ArgumentParser(description=__doc__, formatter_class=argparse.RawDescriptionHelpFormatter)
    parser.add_argument('--shelves', metavar='LOG', help='a log of examples/shelves, in place of running the program')
    parser.add_argument('--program', default=os.environ.get('WAREHOUSE') or os.path.join(ROOT, 'crates/warehouse/out/warehouse'))
    OPTIONS = parser.parse_args()
    sys.exit(counting.run(globals()))
