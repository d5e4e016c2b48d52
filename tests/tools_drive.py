#!/usr/bin/env python3
"""Tests of tools/drive.py, with expected values worked out by hand.

    tests/tools_drive.py            all; what runs the program takes it from WAREHOUSE, else the one that the gate built
    tests/tools_drive.py --no-program

tests/tools_replies.py has those that need no program but a stand-in. The last line is `N passed, M failed`; status 1 where
one failed.
"""
import os
import re
import subprocess
import sys
import tempfile

import counting
from lives import over_file

ROOT = os.path.dirname(os.path.dirname(os.path.abspath(__file__)))
PROGRAM = os.environ.get('WAREHOUSE') or os.path.join(ROOT, 'crates/warehouse/out/warehouse')
ENVIRONMENT = {**os.environ, 'WAREHOUSE': PROGRAM}
SCRATCH = tempfile.TemporaryDirectory()

# The map of examples/deliveries: a corridor of five cells in row 1, and A, B above it, C, D below, at columns 1 and 3.
MAP = 'type t\nheight 3\nwidth 5\nmap\n@.@.@\n.....\n@.@.@\n%%\n'
POINTS = 'parking P0 0 1\nparking P1 4 1\nstation A 1 0\nstation B 3 0\nstation C 1 2\nstation D 3 2\n'
ONE, TWO = MAP + POINTS + 'agent P0\n%%\n', MAP + POINTS + 'agent P0\nagent P1\n%%\n'
# The one least path of agent 0 from P0 by A to B: 2 steps to A, 4 from there.
A_TO_B = '0,1 1,1 1,0 1,1 2,1 3,1 3,0'


def file(name: str, text: str) -> str:
    path = os.path.join(SCRATCH.name, name)
    with open(path, 'w', encoding='latin-1', newline='') as made:
        made.write(text)
    if os.path.exists(path + '.site'):
        os.remove(path + '.site')    # of a log that was kept there before
    return path


def text_of(*names: str) -> str:
    with open(os.path.join(ROOT, *names), encoding='utf-8') as text:
        return text.read()


def tool(name: str, *words: str) -> tuple[str, str, int]:
    """Standard output, standard error and status of a script."""
    done = subprocess.run([sys.executable, os.path.join(ROOT, 'tools', name), *words], capture_output=True, env=ENVIRONMENT, timeout=30)
    assert b'Traceback' not in done.stderr, done.stderr.decode()
    return done.stdout.decode(), done.stderr.decode(), done.returncode


def warehouse(text: str, *words: str) -> str:
    return subprocess.run([PROGRAM, *words], input=text.encode(), stdout=subprocess.PIPE).stdout.decode()


def same(found: object, wanted: object) -> None:
    assert found == wanted, f'found {found!r}, wanted {wanted!r}'


def has(text: str, *parts: str) -> None:
    for part in parts:
        assert part in text, f'{part!r} not in {text!r}'


def drive(instance: str, *words: str) -> tuple[str, str, int]:
    """The figures but for the time, each `NAME VALUE`, what it said, and the status."""
    out, said, status = tool('drive.py', file('instance', instance), *words)
    rows = out.splitlines()
    if rows and rows[-1].startswith('wall_us '):
        assert float(rows.pop().split()[1]) > 0
    return ' '.join(rows), said, status


def figures(orders: int, makespan: int, mean: str, p95: int, per100: str, ticks: int, commands: int, requests: int, refused: int = 0) -> str:
    return (f'orders {orders} accepted {orders} done {orders} makespan {makespan} service_mean {mean} service_p95 {p95} '
            f'per100 {per100} ticks {ticks} commands {commands} requests {requests} refused {refused}')


# ------------------------------------------------------------------------------------------- with the program

def test_one_order() -> None:
    # 2 steps to A and 4 to B; one submit, one request, six ticks
    found, said, status = drive(ONE + 'submit x A B\n')
    same((found, status), (figures(1, 6, '6.00', 6, '16.67', 6, 8, 1), 0))
    # the same orders from a file of their own; what else a script says is left out
    script = file('script', '# a shift\ntoken 0\nsubmit x A B\ntick\nclose\n')
    same(drive(ONE, script)[0], found)


def test_two_agents_on_one_corridor() -> None:
    # As examples/README.md says: agent 0 comes by 1,1 at 3, 2,1 at 4, 3,1 at 5. Agent 1 is at D at 2; it cannot be at 1,1
    # before 3, so it enters the corridor at 6 and is at C at 9.
    wanted = figures(2, 9, '7.50', 9, '22.22', 9, 14, 2)
    for batch in ('1', '7'):
        log = file('log', '')
        same(drive(TWO + 'submit x A B\nsubmit y D C\n', '--close', '--log', log, '--batch', batch)[::2], (wanted, 0))
    with open(log) as made:
        made = made.read()
    # two submits, two requests, nine ticks, close
    same((made.splitlines()[-2:], made.count('\n')), (['62 close = closed', 'end 14'], 17))
    same(warehouse(TWO + made, 'verify'), 'run 14\n')


# Runs a program, and kills it and itself behind so many lines of it, entries told again not counted, in the first three lives.
KILLER = '''
import os, subprocess, sys
state, lines = sys.argv[1], int(sys.argv[2])
life = int(open(state).read())
open(state, 'w').write(str(life + 1))
program = subprocess.Popen(sys.argv[3:], stdout=subprocess.PIPE)
number = 0
for line in program.stdout:
    if number == lines and life < 3 and b' = ' not in line:
        program.kill()
        program.wait()
        os.kill(os.getpid(), 9)
    number += b' = ' not in line
    os.write(1, line)
sys.exit(program.wait())
'''


def test_a_program_that_is_killed() -> None:
    log, cells = file('log', ''), file('cells', '')
    instance = TWO + 'submit x A B\nsubmit y D C\n'
    wanted, said, _ = drive(instance, '--save', log, '--cells', cells)
    same(said, '')
    with open(log) as text, open(cells) as lines:
        made = over_file(text.read().encode()).decode().removesuffix('end 13\n'), lines.read()    # the run is not closed
    for lines, batch in ((0, 1), (1, 1), (3, 1), (5, 1), (2, 7), (4, 7)):
        state, log, cells = file('state', '0'), file('log', ''), file('cells', '')
        program = f'{sys.executable} {file("killer.py", KILLER)} {state} {lines} {PROGRAM} replay'
        found, said, status = drive(instance, '--program', program, '--log', log, '--cells', cells, '--batch', str(batch))
        if lines == 0:
            # it was not begun
            same(status, 2)
            has(said, 'the program ended with status -9 and began no run')
            continue
        # a life serves one line more than it tells
        stops = said.count('was started again')
        same((said.count('gave no reply to'), stops), (stops, min(3, 12 // lines) if batch == 1 else max(1, stops)))
        with open(log) as text, open(cells) as rows:
            same((found, status, text.read(), rows.read()), (wanted, 0, *made))


def test_a_file_with_a_run_of_before() -> None:
    log = file('log', '')
    instance = ONE + 'submit x A B\n'
    same(drive(instance, '--log', log)[2], 0)
    with open(log) as text:
        made = text.read()
    found, said, status = drive(instance, '--log', log)
    same((found, status), ('orders 1 accepted 0 ticks 0 commands 0 requests 0 refused 0', 2))
    has(said, 'log holds an earlier run (8 entries)', 'log.site, or name another file')
    with open(log) as text:
        same(text.read(), made)


def test_an_order_released_later() -> None:
    # nobody asks before clock 4, where the order comes; delivered 6 ticks after
    same(drive(ONE + '# @4\nsubmit x A B\n')[::2], (figures(1, 10, '6.00', 6, '10.00', 10, 12, 1), 0))
    # behind three ticks of a script it is released at clock 3
    same(drive(ONE + 'tick\ntick\ntick\nsubmit x A B\n')[0], figures(1, 9, '6.00', 6, '11.11', 9, 11, 1))


def test_an_order_that_waits_for_another() -> None:
    # Both end at B. Agent 0 takes the first, and B is where its path ends, so agent 1 rests, and is not asked again while
    # nothing changes. At 6 agent 0 is at B, takes the second: 4 steps to C and 4 back, so it is delivered at 14.
    found, _, status = drive(TWO + 'submit x A B\nsubmit y C B\n', '--ask', 'number')
    same((found, status), (figures(2, 14, '10.00', 14, '14.29', 14, 19, 3), 0))
    # nearest first, who would rest is not asked: one request less
    same(drive(TWO + 'submit x A B\nsubmit y C B\n')[::2], (figures(2, 14, '10.00', 14, '14.29', 14, 18, 2), 0))


ROW = 'type t\nheight 1\nwidth 5\nmap\n.....\n%%\nparking P0 0 0\nparking P1 2 0\nstation A 3 0\nstation B 4 0\nagent P0\nagent P1\n%%\n'


def test_no_path_now() -> None:
    # agent 1 stands between agent 0 and A, so agent 0 is refused E6; agent 1 goes one step to A and one to B
    same(drive(ROW + 'submit x A B\n', '--ask', 'number')[::2], (figures(1, 2, '2.00', 2, '50.00', 2, 5, 2, 1), 0))
    # agent 1, one step from A, is the nearest
    same(drive(ROW + 'submit x A B\n')[::2], (figures(1, 2, '2.00', 2, '50.00', 2, 4, 1), 0))


def test_no_path_ever() -> None:
    instance = ROW.replace('.....', '..@..').replace('agent P1\n', '').replace('P1 2 0', 'P1 1 0') + 'submit x A B\n'
    found, said, status = drive(instance)
    # E6 at clock 0, again at 1, and nobody moves
    same((found, status), ('orders 1 accepted 1 done 0 ticks 1 commands 4 requests 2 refused 2', 1))
    has(said, 'at clock 1 all agents stand, 1 orders are open')


def test_an_order_of_three_stops_that_nobody_may_take() -> None:
    # Agent 0 is at A and agent 1 at C, so for each the other's path ends at a stop, and neither is at D, the delivery.
    instance = TWO.replace('agent P0\nagent P1', 'agent A\nagent C') + 'submit x A C D\n'
    found, said, status = drive(instance, '--ask', 'number')
    same((found, status), ('orders 1 accepted 1 done 0 ticks 0 commands 3 requests 2 refused 0', 1))
    has(said, 'at clock 0 all agents stand, 1 orders are open')
    # Once agent 0 is sent to B, 4 steps off, agent 1 may take it: agent 0 is at 1,1 one step after, so agent 1 is there at
    # two and at A at three, then 2 steps to C and 4 to D. All that begins at clock 2.
    same(drive(instance + '# @2\nsubmit move B B\n', '--ask', 'number')[::2], (figures(2, 11, '7.50', 11, '18.18', 11, 17, 4), 0))


def test_a_bound_on_ticks() -> None:
    found, said, status = drive(ONE + 'submit x A B\n# @9\nsubmit x A B\n', '--ticks', '3')
    same((found, status), ('orders 2 accepted 1 done 0 ticks 3 commands 5 requests 1 refused 0', 1))
    has(said, 'at clock 3 it was not at its end', '1 orders not released, 0 open, 1 agents on their way')


def test_a_shift_that_ends_with_an_open_order() -> None:
    # the second order comes at 3, when nobody asks any more; agent 0 is at B at 6, and the shift is over
    log = file('shift.log', '')
    instance = ONE + 'submit x A B\n# @3\nsubmit y D C\n# @7\nsubmit z A B\n'
    wanted = 'orders 3 accepted 2 done 1 makespan 6 service_mean 6.00 service_p95 6 per100 16.67 ticks 6 commands 9 requests 1 refused 0'
    same(drive(instance, '--shift', '3', '--log', log)[::2], (wanted, 0))
    out, said, status = tool('next_shift.py', log, file('instance', instance))
    same((out.split('agent ')[1], said, status), ('B\n%%\n# task 1 of the shift before, handed in at its clock 3\nsubmit y D C\n', '', 0))


def test_refused_orders_are_left_out() -> None:
    found, said, status = drive(ONE + 'submit x A Z\nsubmit x P1 A\nsubmit x A B\n')
    same((found.startswith('orders 3 accepted 1 done 1 makespan 6 service_mean 6.00 '), status), (True, 1))
    has(said, '`submit x A Z` is left out: refused E1 Z', '`submit x P1 A` is left out: refused E2 P1')
    assert found.endswith('commands 10 requests 1 refused 2'), found
    _, said, status = drive(ONE + 'submit x A\n')
    same(status, 2)
    has(said, '`refused C1` came to `submit x A`')


def test_batches_that_are_longer_than_a_pipe() -> None:
    # 146 bytes an order, so a batch of 1000 is more than the 65,536 that a pipe holds
    names = {letter: letter * 16 for letter in 'ABCD'}
    points = re.sub(r'station (\w)', lambda found: 'station ' + names[found[1]], POINTS)
    order = 'submit client12 ' + ' '.join([names['A'], names['B']] * 4) + '\n'
    assert len(order) * 1000 > 2 * 65536
    found, _, status = drive(MAP + points + 'agent P0\n%%\n' + order * 2500, '--batch', '1000', '--ticks', '0')
    same((found, status), ('orders 2500 accepted 2500 done 0 ticks 0 commands 2501 requests 1 refused 0', 1))


def test_a_reply_that_is_longer_than_a_pipe() -> None:
    # from the left end of a corridor to the right one and back, four times, so 8 x 2599 steps
    row = f'type t\nheight 1\nwidth 2600\nmap\n{"." * 2600}\n%%\nstation A 0 0\nstation B 2599 0\nparking P 1 0\nagent A\n%%\n'
    instance = row + 'submit x' + ' B A' * 4 + '\n'
    lines = file('cells', '')
    found, said, status = drive(instance, '--ticks', '0', '--cells', lines)
    same((found, status), ('orders 1 accepted 1 done 0 ticks 0 commands 2 requests 1 refused 0', 1))
    has(said, 'at clock 0 it was not at its end')
    same(written(lines), [(0, [(0, 0)])])
    # some 21,000 cells, most of 7 bytes: more than two pipes hold
    told = warehouse(instance + 'token 0\n', 'replay', '--replies', 'full').split('\n')[1]
    way = [*range(1, 2600), *range(2598, -1, -1)]
    same(told, 'took 0 path 0,0' + ''.join(f' {x},0' for x in way * 4))
    assert len(told) > 2 * 65536


def written(path: str) -> list[tuple[int, list[tuple[int, int]]]]:
    """What --cells wrote: of each line the clock and the cells."""
    lines = []
    with open(path) as text:
        for line in text:
            assert re.fullmatch(r'\d+( \d+,\d+)+\n', line), line
            clock, *cells = line.split()
            lines.append((int(clock), [tuple(map(int, cell.split(','))) for cell in cells]))
    same([clock for clock, _ in lines], list(range(len(lines))))
    return lines


def are_lawful(lines: list[tuple[int, list[tuple[int, int]]]], rows: list[str]) -> None:
    """Each agent on a passable cell, no two on one; in each step to a neighbour or none, and no two exchange cells."""
    for clock, cells in lines:
        same(len(set(cells)), len(cells))
        assert all(rows[y][x] == '.' for x, y in cells), (clock, cells)
    for (clock, old), (_, new) in zip(lines, lines[1:]):
        assert all(abs(x - u) + abs(y - v) <= 1 for (x, y), (u, v) in zip(old, new)), clock
        went = {(a, b) for a, b in zip(old, new) if a != b}
        assert not any((b, a) in went for a, b in went), clock


def test_the_cells_of_the_example() -> None:
    lines = file('cells', '')
    out, said, status = tool('drive.py', os.path.join(ROOT, 'examples', 'deliveries'), '--cells', lines)
    same((said, status), ('', 0))
    cells = written(lines)
    are_lawful(cells, MAP.split('\n')[4:7])
    same(len(cells), 10)
    # agent 0 has one least path, by A to B, and stays there
    same([row[0] for _, row in cells[:7]], [tuple(map(int, cell.split(','))) for cell in A_TO_B.split()])
    same({row[0] for _, row in cells[6:]}, {(3, 0)})
    # agent 1 is at D at 2, out of the way at 5, where agent 0 is at 3,1, and at C at 9, by one way since 6
    same([cells[clock][1][1] for clock in (0, 1, 2)], [(4, 1), (3, 1), (3, 2)])
    assert cells[5][1][1] in ((3, 2), (4, 1))
    same([row[1] for _, row in cells[6:]], [(3, 1), (2, 1), (1, 1), (1, 2)])
    # the same on the standard output, before the figures
    on_output, said, _ = tool('drive.py', os.path.join(ROOT, 'examples', 'deliveries'), '--cells', '-')
    with open(lines) as text:
        same(on_output.split('orders ')[0], text.read())
    same((said, on_output.splitlines()[10:-1]), ('', out.splitlines()[:-1]))


def test_the_cells_where_one_makes_way() -> None:
    # Agent 0 stands at the delivery, A, and goes to P0, the nearest parking. Agent 1 is at the pickup, C; at 1 agent 0 is
    # at 1,1, so agent 1 is there at 2 and at A at 3.
    instance = TWO.replace('agent P0\nagent P1', 'agent A\nagent C') + 'submit x C A\n'
    lines = file('cells', '')
    wanted = 'orders 1 accepted 1 done 1 makespan 3 service_mean 3.00 service_p95 3 per100 33.33 ticks 3 commands 6 requests 2 refused 0'
    same(drive(instance, '--cells', lines), (wanted, '', 0))
    with open(lines) as text:
        same(text.read(), '0 1,0 1,2\n1 1,1 1,2\n2 0,1 1,1\n3 0,1 1,0\n')
    # a program that tells no cells gives the same figures
    same(drive(instance, '--replies', 'short'), (wanted, '', 0))


def test_the_cells_of_the_shelves() -> None:
    lines = file('cells', '')
    out, said, status = tool('drive.py', os.path.join(ROOT, 'examples', 'shelves'), '--batch', '1000', '--cells', lines)
    same((said, status), ('', 0))
    cells = written(lines)
    same(len(cells), int(re.search(r'^ticks (\d+)$', out, re.MULTILINE)[1]) + 1)
    assert len(cells) > 500 and all(len(row) == 20 for _, row in cells)
    are_lawful(cells, text_of('examples', 'shelves').split('\n')[4:44])


def test_the_program_refuses_the_points() -> None:
    instance = ONE.replace('%%\nparking', '%%\nparking P9 1 0\nparking')    # the cell of A
    _, said, status = drive(instance + 'submit x A B\n')
    same(status, 2)
    has(said, 'refused P5 line 4', 'the program ended with status 1 and gave no reply to `submit x A B`')


# ------------------------------------------------------------------------------------------ texts of a run

def log_of(*entries: str, agents: int = 1) -> str:
    return '\n'.join(['%%', 'wlog 2', 'start 0 slots' + ' 4' * agents, *('0 ' + entry for entry in entries), f'end {len(entries)}', ''])


def ticks(first: int, last: int, picked: int = 0, dropped: int = 0) -> list[str]:
    """Entries, with the clocks of the one pickup and the one delivery."""
    return [f'tick = clock {now} picked {int(now == picked)} dropped {int(now == dropped)}' for now in range(first, last + 1)]


def short(entries: list[str]) -> list[str]:
    """Entries of a log as commands and short replies: a path is told by its last index."""
    return [re.sub(r' path (.*)', lambda path: f' end {path[1].count(" ")}', entry) for entry in entries]


# ---------------------------------------------------------------------------------------------------- the page

def test_the_page_names_every_refusal() -> None:
    section = text_of('docs', 'FORMATS.md').split('## Replies')[1].split('## The log')[0]
    codes = set(re.findall(r'\b[CE][0-9]{1,2}\b', section))
    assert {'E1', 'E10', 'C2', 'E90'} <= codes, codes
    rows = set(re.findall(r'^\| ?`refused ([A-Z][0-9]+)', text_of('docs', 'PROTOCOL.md'), re.MULTILINE))
    same(codes - rows, set())


def test_the_dialogue_of_the_page() -> None:
    page = text_of('docs', 'PROTOCOL.md')
    spoken = re.findall(r'^> (.*?) +< (.*)$', page.split('<!-- dialogue -->')[1], re.MULTILINE)
    sent, wanted = [line for line, _ in spoken], [reply for _, reply in spoken]
    same(len(sent), 22)
    site = '%%\n'.join(text_of('examples', 'deliveries').split('%%\n')[:2]) + '%%\n'
    same(warehouse(site + '\n'.join(sent) + '\n', 'replay', '--replies', 'full').splitlines(), wanted)
    same(sum(' path ' in reply for reply in wanted), 4)
    same(warehouse(site + '\n'.join(sent) + '\n', 'replay').splitlines(), short(wanted))


def test_full_replies_are_the_log() -> None:
    instance = text_of('examples', 'deliveries')
    asked = [line for line in instance.split('%%\n')[2].splitlines() if not line.startswith('#')]
    told = warehouse(instance, 'replay', '--replies=full').splitlines()
    same(len(told), len(asked))
    entries = [f'0 {line} = {reply}' for line, reply in zip(asked, told)]
    made = '\n'.join(['wlog 2', 'start 0 slots 4 4', *entries, f'end {len(entries)}', ''])
    same(warehouse(instance, 'replay', '--tail', 'log').split('%%\n')[1], made)
    # what was told up to a kill is a run too
    cut = '\n'.join(['wlog 2', 'start 0 slots 4 4', *entries[:7], 'end 7', ''])
    same(warehouse('%%\n'.join(instance.split('%%\n')[:2]) + '%%\n' + cut, 'verify'), 'run 7\n')


NEEDS_PROGRAM = {'test_full_replies_are_the_log', 'test_a_program_that_is_killed', 'test_a_file_with_a_run_of_before', 'test_one_order', 'test_two_agents_on_one_corridor', 'test_an_order_released_later',
                 'test_an_order_that_waits_for_another', 'test_no_path_now', 'test_no_path_ever',
                 'test_an_order_of_three_stops_that_nobody_may_take', 'test_a_bound_on_ticks', 'test_a_shift_that_ends_with_an_open_order',
                 'test_refused_orders_are_left_out', 'test_batches_that_are_longer_than_a_pipe', 'test_the_program_refuses_the_points',
                 'test_the_dialogue_of_the_page', 'test_a_reply_that_is_longer_than_a_pipe', 'test_the_cells_of_the_example',
                 'test_the_cells_where_one_makes_way', 'test_the_cells_of_the_shelves'}


if __name__ == '__main__':
    counting.main(globals(), NEEDS_PROGRAM, SCRATCH)
