#!/usr/bin/env python3
"""Tests of the scripts that make, join and explain inputs, with expected values worked out by hand.

    tests/tools_field.py            all; what runs the program takes it from WAREHOUSE, else the one that the gate built
    tests/tools_field.py --no-program

The last line is `N passed, M failed`, and the status is 1 where one failed.
"""
import os
import random
import re
import subprocess
import sys
import tempfile

import counting

ROOT = os.path.dirname(os.path.dirname(os.path.abspath(__file__)))
sys.path.insert(0, os.path.join(ROOT, 'python'))
from warehouse import cuts    # noqa: E402
from warehouse.texts import read_instance    # noqa: E402
PROGRAM = os.environ.get('WAREHOUSE') or os.path.join(ROOT, 'crates/warehouse/out/warehouse')
ENVIRONMENT = {**os.environ, 'WAREHOUSE': PROGRAM}
SCRATCH = tempfile.TemporaryDirectory()
SITE = b'type t\nheight 1\nwidth 4\nmap\n....\n'
POINTS = b'parking P 0 0\nstation S 3 0\nagent P\n'


def file(name: str, text: str | bytes) -> str:
    path = os.path.join(SCRATCH.name, name)
    with open(path, 'wb') as made:
        made.write(text if isinstance(text, bytes) else text.encode())
    return path


def tool(name: str, *words: str) -> tuple[str, str, int]:
    """Standard output, standard error and status of a script."""
    done = subprocess.run([sys.executable, os.path.join(ROOT, 'tools', name), *words], capture_output=True, env=ENVIRONMENT)
    assert b'Traceback' not in done.stderr, done.stderr.decode()
    return done.stdout.decode(), done.stderr.decode(), done.returncode


def warehouse(text: str | bytes, *words: str) -> tuple[str, int]:
    given = text if isinstance(text, bytes) else text.encode()
    done = subprocess.run([PROGRAM, *words], input=given, capture_output=True)
    return (done.stdout + done.stderr).decode(), done.returncode


def same(found: object, wanted: object) -> None:
    assert found == wanted, f'found {found!r}, wanted {wanted!r}'


def refused(done: tuple[str, str, int], *parts: str) -> None:
    """A message with these parts, nothing on standard output, status 2."""
    same((done[0], done[2]), ('', 2))
    for part in parts:
        assert part in done[1], f'{part!r} not in {done[1]!r}'


def test_join_adds_the_last_lf() -> None:
    level, points, script = file('m', SITE[:-1]), file('p', POINTS[:-1]), file('s', b'tick')
    same(tool('join.py', level, points, script), ((SITE + b'%%\n' + POINTS + b'%%\ntick\n').decode(), '', 0))
    same(tool('join.py', level, points), ((SITE + b'%%\n' + POINTS).decode(), '', 0))
    same(tool('join.py', level, points, script, script)[0].count('%%\ntick\n'), 2)


def test_join_refuses_a_file_of_two_sections() -> None:
    refused(tool('join.py', file('m', SITE + b'%%\r\n'), file('p', POINTS)), 'line 6 is `%%`')
    refused(tool('join.py', os.path.join(SCRATCH.name, 'none'), file('p', POINTS)), 'No such file')


def test_log_input() -> None:
    site = SITE + b'%%\n' + POINTS + b'%%\n'
    instance, log = file('i', site + b'tick\n'), b'wlog 2\nstart 0 slots 4\n0 tick = clock 1 picked 0 dropped 0\nend 1\n'
    for output in (log, b'clock 1 picked 0 dropped 0\n%%\n' + log, b'%%\n' + log):
        same(tool('log_input.py', instance, file('o', output)), ((site + log).decode(), '', 0))
    refused(tool('log_input.py', instance, file('o', b'clock 1 picked 0 dropped 0\n')), 'no log')
    refused(tool('log_input.py', instance, file('o', b'closed\n%%\nc submitted 0\n')), '--tail ledger')
    refused(tool('log_input.py', file('j', SITE), file('o', log)), 'two sections')


def test_every_code_of_the_formats_has_a_sentence() -> None:
    told = dict(line.split(': ', 1) for line in tool('explain.py', '--all')[0].splitlines())
    named = set()
    for page in ('FORMATS.md', 'PROTOCOL.md', 'CLI.md'):
        with open(os.path.join(ROOT, 'docs', page), encoding='utf-8') as text:
            named |= set(re.findall(r'\b[A-Z][0-9]{1,2}\b', text.read())) - {'S1', 'N0', 'N1', 'P0', 'P1'}
    assert {'M1', 'M7', 'P10', 'C2', 'E10', 'E95', 'B2', 'L1', 'X4', 'X5'} <= named, named
    same(named - set(told), set())
    for verdict in ('formed', 'few', 'cut', 'bad', 'run', 'orders', 'standstill', 'vehicles'):
        assert told[verdict].endswith('.')
    same(len(set(told.values())), len(told))


def test_explain_tells_the_place() -> None:
    site = 'type t\nheight 1\nwidth 4\nmap\n..@.\n%%\n# points\nparking P 0 0\nstation S 2 0\nagent P\n%%\n'
    instance = file('i', site + 'tick\n%%\ntick\ngo\n')
    lines = tool('explain.py', 'refused P4 line 3', instance)[0].splitlines()
    same(lines[1:], ['Line 3 of its section is line 9 of the whole input:', '    station S 2 0', "The map has '@' at x = 2, y = 0."])
    # line 2 of the first script is missing, so it is the second script's, which begins at line 14
    same(tool('explain.py', 'refused C1 line 2', instance)[0].splitlines()[1:],
         ['Line 2 of its section is line 15 of the whole input:', '    go'])
    same(tool('explain.py', 'refused P7 line 5', instance)[0].splitlines()[1:],
         ['The section ends before its line 5; in the whole input it would be line 11.'])
    assert 'is it the one' in tool('explain.py', 'bad 1', file('j', 'type t\n'))[0]
    log = file('l', 'wlog 2\nstart 0 slots 4\n%%\n')
    same(tool('explain.py', 'refused L1 line 3', log)[0].splitlines()[1:], ['Line 3 of the log file:', '    %%'])
    same(tool('explain.py', 'refused L1 line 4', log)[0].splitlines()[1:], ['The log file ends before its line 4.'])
    refused(tool('explain.py', 'refused Z9'), 'no message of the program is known to me')


def test_explain_sends_a_terminal_no_commands() -> None:
    points = 'station\tA\x1b[2J\x07é'.encode() + b'\x9b31m 0 0\n'
    lines = tool('explain.py', 'refused P2 line 1', file('odd', SITE + b'%%\n' + points))[0].splitlines()
    same(lines[2], '    station\t' + r'A\x1b[2J\x07é\x9b31m 0 0')


def test_explain_sees_a_separator_in_a_row() -> None:
    lines = tool('explain.py', 'refused M3 line 5', file('i', SITE[:-1] + b'%%\n' + POINTS))[0].splitlines()
    same(lines[2], '    ....%%')
    assert 'tools/join.py' in lines[3]
    lines = tool('explain.py', 'refused M4 line 5', file('i', 'type t\nheight 1\nwidth 3\nmap\n.x.\n'))[0].splitlines()
    same(lines[3], "The byte is 'x', at x = 1.")


CUT = 'type t\nheight 5\nwidth 9\nmap\n.........\n.@@@@@@@.\n.........\n.@@@@@@@.\n.........\n%%\n'
CUT_POINTS = 'parking H 4 0\nstation S 2 2\nstation T 4 2\nstation U 6 2\nagent H\n'


def test_explain_lists_the_points_that_cut() -> None:
    # S and U bar both ways to T; S and U themselves are joined by the lowest row
    lines = tool('explain.py', 'cut H T', file('i', CUT + CUT_POINTS))[0].splitlines()
    same(lines[1:], ['Points that cut others (X below; o are the others):', 'S (x = 2, y = 2) cuts H from T.', 'U (x = 6, y = 2) cuts H from T.',
                     'Columns 0 to 8, rows 0 to 4:', '    ....o....', '    .@@@@@@@.', '    ..X.o.X..', '    .@@@@@@@.', '    .........',
                     'Move them off the only way, or widen it (docs/MODELING.md).'])
    # with S in the shelf above, T is beside the way from the left
    mended = CUT.replace('.@@@@@@@.', '.@.@@@@@.', 1) + CUT_POINTS.replace('S 2 2', 'S 2 1')
    assert 'No point of this instance cuts others' in tool('explain.py', 'cut H T', file('i', mended))[0]
    # only what is around them is drawn
    wide = 'type t\nheight 1\nwidth 20\nmap\n' + '.' * 20 + '\n%%\nparking H 7 0\nstation S 10 0\nstation T 13 0\nagent H\n'
    same(tool('explain.py', 'cut H T', file('i', wide))[0].splitlines()[2:5], ['S (x = 10, y = 0) cuts H from T.', 'Columns 8 to 12, rows 0 to 0:', '    ..X..'])


def test_points_cut_where_the_program_says_so() -> None:
    chance, seen = random.Random(5), set()
    for _ in range(40):
        rows = [''.join(chance.choice('...@') for _ in range(7)) for _ in range(5)]
        free = [(x, y) for y in range(5) for x in range(7) if rows[y][x] == '.']
        points = [f'parking P{n} {x} {y}\n' for n, (x, y) in enumerate(chance.sample(free, 6))]
        instance = 'type t\nheight 5\nwidth 7\nmap\n' + '\n'.join(rows) + '\n%%\n' + ''.join(points) + 'agent P0\n'
        site = read_instance('made', instance.encode())
        found = cuts.cutting(site)
        floor = cuts.Floor(site)
        pairs = [(a, b) for a in range(6) for b in range(a + 1, 6) if not floor.joined(a, b)]
        said = warehouse(instance, 'check')[0]
        same(said, 'cut P%d P%d\n' % pairs[0] if pairs else 'formed\n')
        assert all(pair in pairs and number not in pair for number, pair in found)
        seen.add((said[:3], bool(found)))
    assert {('cut', True), ('for', False)} <= seen, seen


def test_explain_says_which_name_is_too_long() -> None:
    instance = file('i', SITE + b'%%\n' + POINTS + b'%%\nsubmit WMS-ORDER-2026-000123456 S S\n')
    same(tool('explain.py', 'refused C1 line 1', instance)[0].splitlines()[3],
         '`WMS-ORDER-2026-000123456` is no name: it has 24 bytes, and a name 1 to 16 letters, digits, _ or -.')
    assert 'A name has 1 to 16 bytes' in tool('explain.py', 'C1')[0]


def test_explain_beside_a_program() -> None:
    explain = [sys.executable, os.path.join(ROOT, 'tools', 'explain.py'), '--run']
    def ran(text: str) -> tuple[str, str, int]:
        done = subprocess.run([*explain, 'bash', '-c', text], input=b'in', capture_output=True, timeout=30)
        return done.stdout.decode(), done.stderr.decode(), done.returncode
    m4 = dict(line.split(': ', 1) for line in tool('explain.py', '--all')[0].splitlines())['M4']
    same(ran('cat; echo refused M4 line 5 >&2; exit 1'), ('in', f'refused M4 line 5\nM4: {m4} (tools/explain.py shows the line)\n', 1))
    for words in ('echo one >&2; echo two >&2; exit 3', 'echo refused M4 line 5 >&2; exit 0', 'echo refused M4 >&2; echo more >&2; exit 1'):
        assert m4 not in ran(words)[1]
    same((ran('exit 7')[2], ran('kill -9 $$')[2], ran('kill -15 $$')[2]), (7, -9, -15))
    same(ran("trap 'echo got; exit 9' TERM; kill -15 $PPID; for k in {1..500}; do sleep 0.02; done"), ('got\n', '', 9))


def test_explain_beside_check() -> None:
    explain = [sys.executable, os.path.join(ROOT, 'tools', 'explain.py'), '--run', PROGRAM, 'check']
    def checked(name: str) -> tuple[str, list[str], int]:
        with open(name, 'rb') as text:
            done = subprocess.run(explain, stdin=text, capture_output=True, timeout=30)
        return done.stdout.decode(), done.stderr.decode().splitlines(), done.returncode
    example = os.path.join(ROOT, 'examples', 'packing')
    out, said, status = checked(example)
    same((out, status, len(said)), ('formed\n', 0, 2))
    assert said[1].startswith('At most 8 orders can be under way at once: 12 agents, 26 stations, of which orders end at 8'), said
    with open(example, 'rb') as text:
        bare = file('i', b'%%\n'.join(text.read().split(b'%%\n')[:2]))
    assert checked(bare)[1][1].startswith('At most 12 orders can be under way at once: 12 agents, 26 stations ('), checked(bare)
    out, said, status = checked(file('i', CUT + CUT_POINTS))
    same((out, said[2], said[-2], status), ('cut H T\n', 'S (x = 2, y = 2) cuts H from T.', '    .........', 1))
    out, said, status = checked(file('i', CUT + CUT_POINTS.replace('parking H 4 0\n', 'station H 4 0\n')))
    same((out, len(said), said[0][:4], status), ('few parkings 0 1\n', 1, 'few:', 1))
    # a pipe cannot be read once more, and a refused input gets its own sentence alone
    done = subprocess.run(explain, input=(CUT + CUT_POINTS).encode(), capture_output=True, timeout=30)
    same((done.stdout.decode(), done.stderr.decode(), done.returncode), ('cut H T\n', '', 1))
    same([line[:3] for line in checked(file('i', CUT + 'station S 1 1\n'))[1]], ['ref', 'P4:'])


MAPD_MAP = '3,4\n2\n1\n50\n.e..\nr..@\n..e.\n'
MAPD_TASK = '2\n7\t1\t0\t0\t0\n3 0 1 0 0\n\n'
MAPD_INSTANCE = '''type octile
height 3
width 4
map
....
...@
....
%%
parking P0 0 1
station S0 1 0
station S1 2 2
agent P0
%%
# the files give 50 as the greatest time
# @3
submit mapd S0 S1
# @7
submit mapd S1 S0
'''


def mapd(level: str, task: str, *words: str) -> tuple[str, str, int]:
    return tool('import_mapd.py', file('mapd.map', level), file('mapd.task', task), *words)


def test_mapd_instance() -> None:
    same(mapd(MAPD_MAP, MAPD_TASK), (MAPD_INSTANCE, '', 0))
    same(mapd(MAPD_MAP.replace('\n', '\r\n'), MAPD_TASK), (MAPD_INSTANCE, '', 0))
    two = MAPD_MAP.replace('\n1\n', '\n2\n').replace('..e.', 'r.e.')
    same(mapd(two, MAPD_TASK, '--agents', '1'), (MAPD_INSTANCE, '', 0))
    assert 'parking P1 0 2\n' in mapd(two, MAPD_TASK)[0]


def test_mapd_of_another_shape_is_refused_with_its_line() -> None:
    for old, new, line in (('3,4', '3 4', 1), ('3,4', '3,5', 5), ('3,4', '4,4', 8), ('3,4', '2,4', 7), ('\n2\n', '\n3\n', 2),
                           ('\n1\n', '\n2\n', 3), ('\n50\n', '\n.\n', 4), ('r..@', 'r..T', 6), ('3,4', '0,4', 1), ('3,4', '3,5000', 1)):
        refused(mapd(MAPD_MAP.replace(old, new, 1), MAPD_TASK), f'mapd.map line {line}:')
    for old, new, line in (('2\n7', '3\n7', 4), ('2\n7', '1\n7', 3), ('3 0 1', '3 0 2', 3), ('1 0 0\n', '1 0 5\n', 3),
                           ('3 0 1 0 0', '3 0 1 0', 3), ('7', '-7', 2), ('2\n7', '1000001\n7', 1)):
        refused(mapd(MAPD_MAP, MAPD_TASK.replace(old, new, 1)), f'mapd.task line {line}:')


def test_mapd_of_too_many_is_refused_with_the_count() -> None:
    level = '1,300\n1\n257\n5\ne' + 'r' * 257 + '.' * 42 + '\n'
    refused(mapd(level, '0\n'), '257 agents', '--agents N')
    same(mapd(level, '0\n', '--agents', '256')[2], 0)
    refused(mapd(level, '0\n', '--agents', '258'), '258 agents wanted, and it has 257')
    level = '1,4096\n4095\n1\n5\n' + 'e' * 4095 + 'r\n'
    same(mapd(level, '0\n')[2], 0)
    level = '2,4096\n4096\n1\n5\n' + 'e' * 4096 + '\nr' + '.' * 4095 + '\n'
    refused(mapd(level, '0\n'), '4096 task endpoints and 1 agents')


SCEN = 'version 1\n0\tm.map\t4\t1\t0\t0\t3\t0\t3.0\n0 m.map 4 1 1 0 0 0 1\n0 m.map 4 1 2 0 1 0 1\n'


def scen(text: str, agents: int, level: bytes = SITE) -> tuple[str, str, int]:
    return tool('import_scen.py', file('m', level), file('s', text), '--agents', str(agents))


def test_scenario() -> None:
    # the second line's goal is the first one's start, so the third is taken for it
    wanted = (SITE.decode() + '%%\nparking P0 0 0\nstation S0 3 0\nparking P1 2 0\nstation S1 1 0\nagent P0\nagent P1\n%%\n'
              '# @0\nsubmit scen S0 S0\n# @0\nsubmit scen S1 S1\n')
    for level in (SITE, SITE[:-1]):
        same(scen(SCEN, 2, level), (wanted, 'import_scen.py: 1 lines left out, whose start or goal was taken\n', 0))
    refused(scen(SCEN, 3), '3 agents wanted, and 2 of its lines fit')
    refused(scen(SCEN, 257), '1 to 256')
    refused(scen(SCEN.replace('version 1', 'version 9'), 1), 'line 1')
    refused(scen(SCEN.replace('4\t1', '5\t1'), 1), 'line 2')
    refused(scen(SCEN.replace('3\t0\t3.0', '4\t0\t3.0'), 1), 'line 2', 'outside')
    refused(scen(SCEN, 1, SITE.replace(b'....', b'@...')), 'line 2', 'blocked')


def test_made_instances_are_told_off_and_not_broken() -> None:
    refused(tool('make_instance.py', '--agents', '300'), '--agents 300', '1 to 256')
    refused(tool('make_instance.py', '--columns', '12', '--rows', '6'), '--columns 12', '20 to 4096')
    refused(tool('make_instance.py', '--rows', '6'), '--rows 6')
    refused(tool('make_instance.py', '--stops', '9'), '2 to 8')
    # rows 0, 2, 4 and 6 have six parkings each, and the upper wall every second cell of 6 to 13
    refused(tool('make_instance.py', '--columns', '20', '--rows', '8', '--agents', '29'), 'has 28 parkings')


def test_the_last_block_of_shelves_stands() -> None:
    row = tool('make_instance.py', '--tasks', '0', '--ticks', '0')[0].splitlines()[7]
    # five blocks of 8 from column 6 with aisles of 2 end at column 53, six columns before the wall
    same(row, '......' + '..'.join(['@' * 8] * 5) + '......')


def test_made_instances_are_formed() -> None:
    for words in ('', '--columns 20 --rows 8 --agents 28 --tasks 9', '--columns 13 --rows 5 --open --agents 1', '--columns 13 --rows 8 --shelf 1 --agents 2',
                  '--columns 35 --rows 21 --agents 50 --seed 3', '--columns 81 --rows 81 --agents 256 --nofollow', '--columns 47 --rows 33 --shelf 3 --seed 11',
                  '--columns 64 --rows 64 --open --agents 100 --stops 8', '--columns 300 --rows 300 --agents 256 --seed 5',
                  *(f'--layout kiva --columns 42 --rows 30 --agents 50 --stations {count}' for count in (1, 3, 12, 15)),
                  '--layout kiva --columns 20 --rows 8 --agents 28 --stations 4', '--layout kiva --columns 81 --rows 81 --agents 250 --stations 34 --stops 8',
                  '--layout kiva --columns 47 --rows 33 --shelf 3 --stations 2', '--layout aisles --columns 35 --rows 21 --shelf 10 --agents 50',
                  '--layout aisles --columns 20 --rows 8 --agents 16', '--layout aisles --columns 81 --rows 80 --agents 200'):
        made, told, status = tool('make_instance.py', *(words + ' --ticks 3').split())
        same((told, status), ('', 0))
        same((words, warehouse(made, 'check')), (words, ('formed\n', 0)))


def test_packing_stations() -> None:
    """72 stations on both sides of 18 shelves, and each order ends at a packing station, of which each has some."""
    made, told, status = tool('make_instance.py', '--layout', 'kiva', '--columns', '42', '--rows', '30', '--stations', '3', '--tasks', '60', '--stops', '4')
    same((told, status), ('', 0))
    rows, points, script = made.split('%%\n')
    stations = {name: (int(x), int(y)) for name, x, y in re.findall(r'station (\w+) (\d+) (\d+)', points)}
    same((len(stations), sorted(name for name in stations if name[0] == 'C')), (75, ['C0', 'C1', 'C2']))
    cells = rows.split('\n')[4:]
    for name, (x, y) in stations.items():
        beside = [cells[other][x] for other in (y - 1, y + 1) if other < 30]
        same((name, cells[y][x], beside.count('@')), (name, '.', int(name[0] == 'S')))
    orders = [line.split()[2:] for line in script.split('\n') if line.startswith('submit')]
    same((len(orders), {stop[0] for order in orders for stop in order[:-1]}, {order[-1] for order in orders}), (60, {'S'}, {'C0', 'C1', 'C2'}))
    refused(tool('make_instance.py', '--layout', 'kiva', '--columns', '42', '--stations', '16'), '--stations 16', '1 to 15')
    refused(tool('make_instance.py', '--layout', 'kiva', '--open'), '--layout kiva')


def test_stations_along_aisles() -> None:
    """Two shelves of 10 in each of the rows 2, 6, .. 18, and a station at each of the 20 cells beside a shelf: 200."""
    made, told, status = tool('make_instance.py', '--layout', 'aisles', '--columns', '35', '--rows', '21', '--shelf', '10', '--tasks', '0', '--ticks', '0')
    same((told, status), ('', 0))
    rows, points, _ = made.split('%%\n')
    cells = rows.split('\n')[4:]
    same([y for y in range(21) if '@' in cells[y]], [2, 6, 10, 14, 18])
    same((cells[2], cells[0]), ('......' + '@' * 10 + '..' + '@' * 10 + '.......', '.' * 35))
    beside = {(x, y) for y in range(21) for x in range(35) if cells[y][x] == '.' and '@' in [cells[other][x] for other in (y - 1, y + 1) if 0 <= other < 21]}
    found = {(int(x), int(y)) for x, y in re.findall(r'station \w+ (\d+) (\d+)', points)}
    same((len(found), found), (200, beside))
    refused(tool('make_instance.py', '--layout', 'aisles', '--open'), '--layout aisles')


def test_an_imported_instance_is_delivered() -> None:
    replies, status = warehouse(MAPD_INSTANCE, 'replay', '--deliver', '--tail', 'ledger')
    same((status, replies.split('%%\n')[1].split(' time ')[0]), (0, 'mapd submitted 2 open 0 assigned 0 carried 0 done 2'))


def test_examples() -> None:
    with open(os.path.join(ROOT, 'examples/shelves'), 'rb') as text:
        shelves = text.read()
    replies, status = warehouse(shelves, 'replay', '--tail', 'log')
    same((status, replies.split('%%\n')[0].count('refused'), replies.split('%%\n')[0].count('took ')), (0, 0, 200))
    joined = tool('log_input.py', os.path.join(ROOT, 'examples/shelves'), file('o', replies))[0]
    same(warehouse(joined, 'verify')[0][:4], 'run ')
    for name, wanted in (('verify-run', ('run 5\n', 0)), ('verify-bad', ('bad 6\n', 1))):
        with open(os.path.join(ROOT, 'examples', name), 'rb') as text:
            same((name, warehouse(text.read(), 'verify')), (name, wanted))
    with open(os.path.join(ROOT, 'examples/live-two'), 'rb') as text:
        live = text.read()
    log, status = warehouse(live, 'live', '--turns', '8')
    # 3 commands of two clients, 8 requests of each of two agents, 8 ticks
    same((status, log.splitlines()[-1]), (0, 'end 27'))
    joined = tool('log_input.py', os.path.join(ROOT, 'examples/live-two'), file('o', log))[0]
    same(warehouse(joined, 'verify'), ('run 27\n', 0))


NEEDS_PROGRAM = {'test_points_cut_where_the_program_says_so', 'test_explain_beside_check', 'test_made_instances_are_formed', 'test_an_imported_instance_is_delivered', 'test_examples'}


if __name__ == '__main__':
    counting.main(globals(), NEEDS_PROGRAM, SCRATCH)
