#!/usr/bin/env python3
"""Tests of dev/experiments.py and its parts, with expected values worked out by hand.

    tests/tools_experiments.py            all; what runs the program takes it from WAREHOUSE, else the one that the gate built
    tests/tools_experiments.py --no-program

A stand-in for the program answers `check` and `verify` with one text, and a replay from a tape of commands and replies: at
any other command it ends with status 9. The last line is `N passed, M failed`; status 1 where one failed.
"""
import argparse
import contextlib
import io
import os
import subprocess
import sys
import tempfile
import xml.etree.ElementTree as tree

ROOT = os.path.dirname(os.path.dirname(os.path.abspath(__file__)))
sys.path.insert(0, os.path.join(ROOT, 'dev'))
sys.dont_write_bytecode = True
import counting             # noqa: E402
sys.path.insert(0, os.path.join(ROOT, 'tools'))
import experiments_bound               # noqa: E402
import experiments_floors as floors    # noqa: E402
import experiments_late                # noqa: E402
import experiments_plot                # noqa: E402
import experiments_reach               # noqa: E402
import figures_pages                   # noqa: E402

from warehouse.texts import read_instance, read_orders    # noqa: E402

PROGRAM = os.environ.get('WAREHOUSE') or os.path.join(ROOT, 'crates/warehouse/out/warehouse')
SCRATCH = tempfile.TemporaryDirectory()

# One agent at the left end of a row of five cells; A is one step away, B three.
ROW = 'type t\nheight 1\nwidth 5\nmap\n.....\n%%\nparking P 0 0\nstation A 1 0\nstation B 3 0\nagent P\n%%\n'
CASE = floors.Case('aamas', 0, 1, '0.5', 'stops')
TAPE = ['tick = clock 1 picked 0 dropped 0', 'tick = clock 2 picked 0 dropped 0', 'submit x A B = accepted 0',
        'token 0 = took 0 path 0,0 1,0 2,0 3,0', 'tick = clock 3 picked 1 dropped 0', 'tick = clock 4 picked 0 dropped 0',
        'tick = clock 5 picked 0 dropped 1']
LOG = ''.join(line + '\n' for line in ['wlog 2', 'start 0 slots 4', *(f'0 {line}' for line in TAPE), 'end 7'])

STAND_IN = '''#!{python}
import sys, time
folder, words = {folder!r}, sys.argv[1:]
if words[0] != 'replay':
    sys.stdin.buffer.read()
    print(open(folder + '/' + words[0]).read())
    sys.exit(0)
cut = 0
while cut < 2:
    cut += sys.stdin.readline() == '%%\\n'
for row in open(folder + '/tape'):
    wanted, reply = row.rstrip('\\n').split(' = ')
    line = sys.stdin.readline().rstrip('\\n')
    if line != wanted:
        sys.stderr.write('stand-in: ' + repr(line) + ' came in place of ' + repr(wanted) + '\\n')
        sys.exit(9)
    busy = time.process_time()
    while wanted == 'tick' and time.process_time() < busy + {busy}:
        pass
    print(reply, flush=True)
sys.stdin.read()
if '--tail' in words:
    sys.stdout.write('%%\\n' + open(folder + '/log').read())
'''


def stand_in(tape: list[str] = TAPE, verify: str = 'run 7', log: str = LOG, busy: float = 0) -> str:
    folder = tempfile.mkdtemp(dir=SCRATCH.name)
    texts = {'tape': '\n'.join(tape) + '\n', 'check': 'formed', 'verify': verify, 'log': log,
             'program': STAND_IN.format(python=sys.executable, folder=folder, busy=busy)}
    for name, text in texts.items():
        with open(os.path.join(folder, name), 'w') as file:
            file.write(text)
    program = os.path.join(folder, 'program')
    os.chmod(program, 0o755)
    return program


def same(found: object, wanted: object) -> None:
    assert found == wanted, f'found {found!r}, wanted {wanted!r}'


def refused(call, *words) -> str:
    """What a call says on standard error as it ends the script with status 2."""
    said = io.StringIO()
    try:
        with contextlib.redirect_stderr(said):
            call(*words)
    except SystemExit as end:
        same(end.code, 2)
        return said.getvalue()
    raise AssertionError('it went on')


def tool(*words: str) -> tuple[str, str, int]:
    done = subprocess.run([sys.executable, os.path.join(ROOT, 'dev', 'experiments.py'), *words], capture_output=True, timeout=30)
    assert b'Traceback' not in done.stderr, done.stderr.decode()
    return done.stdout.decode(), done.stderr.decode(), done.returncode


# ------------------------------------------------------------------------------------------- orders and arithmetic

def test_when_orders_are_released() -> None:
    same(floors.release_clocks(4, '0.2'), [0, 5, 10, 15])
    same(floors.release_clocks(4, '0.5'), [0, 2, 4, 6])
    same(floors.release_clocks(5, '2'), [0, 0, 1, 1, 2])
    same(floors.release_clocks(11, '10'), [0] * 10 + [1])
    # 1 / 0.3 = 3.3.., 2 / 0.3 = 6.6.., 3 / 0.3 = 10 and 7 / 0.7 = 10 exactly
    same(floors.release_clocks(4, '0.3'), [0, 3, 6, 10])
    same(floors.release_clocks(8, '0.7')[7], 10)
    same(floors.release_clocks(3, 'all'), [0, 0, 0])


def test_an_instance_with_other_clocks() -> None:
    made = ROW + 'submit x A B\ntoken 0\ntick\nsubmit y B A\ntick\nsubmit z A A\n'
    same(floors.released(made.encode(), '2', False).decode(), ROW + '# @0\nsubmit x A B\n# @0\nsubmit y B A\n# @1\nsubmit z A A\n')
    ruled = ROW.replace('parking P', 'rule nofollow\nparking P')
    same(floors.released(made.encode(), '0.25', True).decode(), ruled + '# @0\nsubmit x A B\n# @4\nsubmit y B A\n# @8\nsubmit z A A\n')


def test_intervals() -> None:
    # 1 to 5: the deviation is the root of 10 / 4, over the root of 5 it is 0.70711; 2.776 times that is 1.96293
    same(round(floors.half_width([1, 2, 3, 4, 5]), 4), 1.9629)
    # 0 and 2: the root of 2 over the root of 2
    same(floors.half_width([0, 2]), 12.706)
    same(floors.half_width([7]), 0.0)


def test_a_line_of_the_table() -> None:
    # 2 orders in 4 and in 5 ticks are 50 and 40 in 100 ticks: 45, and half of 10 by 12.706; service 2 and 4: 3 and 12.706
    found = floors.line_of(CASE, [floors.Measured(4, [1, 3], 6, 0.002), floors.Measured(5, [3, 5], 10, 0.004)])
    same(found, {'floor': 'aamas', 'stations': '0', 'agents': '1', 'orders_per_tick': '0.5', 'ends': 'stops', 'ask': 'nearest', 'rule': 'none',
                 'planner': 'near', 'seeds': '2', 'makespan': '4', 'makespan_pm': '6', 'per100': '45.0', 'per100_pm': '63.5',
                 'service_mean': '3', 'service_mean_pm': '13', 'driven': '4.0', 'driven_pm': '12.7', 'cpu_ms': '3', 'cpu_ms_pm': '13', 'service_p95': '5'})
    same(experiments_late.line_of(experiments_late.Case(experiments_late.SPEEDS[1], 3, 8), [10.0, 12.0]),
         {'speeds': '± 30 %', 'ahead': '3', 'behind': '8', 'seeds': '2', 'per100': '11.0', 'per100_pm': '12.7'})


def test_cells_of_a_page() -> None:
    line = {'ends': 'homes', 'agents': '30', 'seeds': '5', 'per100': '45.0', 'per100_pm': '1.5'}
    same([figures_pages.value_of(line, name) for name in ('ends', 'agents+ends', 'per100±')], ['homes', '30, homes', '45.0±1.5'])
    same(figures_pages.value_of({**line, 'seeds': '1'}, 'per100±'), '45.0')


def test_each_case_stands_once() -> None:
    found = list(floors.cases())
    same((len(found), {case.floor for case in found}), (len(set(found)), set(floors.FLOORS)))


def test_ranks() -> None:
    # 95 of 100 of 1 .. 20 is 19; of 1 .. 21 it is 20, since 0.95 * 21 = 19.95
    same([experiments_reach.rank(list(range(n, 0, -1)), 95) for n in (1, 20, 21, 100)], [1, 19, 20, 95])


# ------------------------------------------------------------------------------------------------------ one run

def test_a_run_is_driven_and_judged() -> None:
    # Released at 2, delivered 3 steps later: one submit, one request, five ticks.
    instance = (ROW + '# @2\nsubmit x A B\n').encode()
    program = stand_in()
    same(floors.measured(CASE, instance, program, 1)[:3], (5, [3], 3))
    # what is sent: the two ticks before the release in one write, and the three of the path
    site, orders = read_instance('n', instance), read_orders('n', instance)
    sent, log = floors.driven(CASE, site, orders, [program, 'replay'])
    same((sent.decode(), log.decode()), (ROW + ''.join(line.split(' = ')[0] + '\n' for line in TAPE), LOG))
    # the least time counts
    taken = iter([0.3, 0.1, 0.2])
    real, floors.processor_seconds = floors.processor_seconds, lambda words, given: next(taken)
    try:
        same(floors.timed([program, 'replay'], sent, 3), 0.1)
    finally:
        floors.processor_seconds = real
    # five ticks of a hundredth of a second each: no less can be counted
    assert floors.timed([stand_in(busy=0.01), 'replay'], sent, 1) >= 0.05


def test_a_run_that_is_not_as_told() -> None:
    instance = (ROW + '# @2\nsubmit x A B\n').encode()
    for verdict in ('bad 4', 'run 6'):
        assert f'`verify` says `{verdict}`' in refused(floors.measured, CASE, instance, stand_in(verify=verdict), 1)
    # a log whose count is not that of its path
    other = LOG.replace('clock 3 picked 1', 'clock 3 picked 0')
    assert 'not those of its paths' in refused(floors.measured, CASE, instance, stand_in(log=other), 1)
    # an order that nobody takes up
    stands = stand_in(['submit x A B = accepted 0', 'token 0 = rested'], log='')
    assert 'all agents stand, 1 orders are open' in refused(floors.measured, CASE, (ROW + 'submit x A B\n').encode(), stands, 1)


def test_words_that_are_refused() -> None:
    program = stand_in()
    for words, part in ((['floors', '--seeds', '0'], 'numbers above 0'), (['floors', '--seeds', '11'], '10 at most'),
                        (['floors', '--floors', 'small'], 'aamas, large, packing'), (['floors', '--program', '/nowhere'], 'no program is there'),
                        (['late', '--plots', '/nowhere'], 'no such folder'), (['reach', '--floors', '9x9'], '35x21')):
        out, said, status = tool(*words, *(() if '--program' in words else ('--program', program)))
        same(status, 2)
        assert part in said, said


# -------------------------------------------------------------------------------------------------------- reach

def test_shares_of_the_bound():
    """Five passable cells: a span of two stops is 11, with homes 16; and one of three stops is 16."""
    floor = experiments_bound.ends.Floor(ROW)
    runs = [experiments_bound.bounded(floor, homes, orders, 6) for homes, orders in ((False, [['A', 'B']]), (True, [['A', 'B']]), (False, [['A', 'B', 'A'], ['B', 'A']]))]
    same([(run.cells, run.agents, run.orders, run.bound) for run in runs], [(5, 1, 1, 2 * 11 * 2), (5, 1, 1, 16), (5, 1, 2, 2 * 16 * 3)])
    same(experiments_bound.line('x', 'stops', runs), ['x', 'stops', '3', '5', '1', '1', '6', '44', '13.6', '37.5'])


def test_orders_are_kept_open_and_ticks_timed() -> None:
    # All between A and A, one step from P: with two open, the first clock hands in two, the next one for the one taken.
    site = read_instance('row', ROW.replace('station B 3 0\n', '').encode())
    tape = ['submit c A A = accepted 0', 'submit c A A = accepted 1', 'token 0 = took 0 end 1', 'tick = clock 1 picked 1 dropped 1',
            'submit c A A = accepted 2', 'token 0 = took 1 end 0', 'token 0 = took 2 end 0', 'tick = clock 2 picked 0 dropped 0']
    program = stand_in(tape, verify='run 8', log='wlog 2\n', busy=0.02)
    options = argparse.Namespace(program=program, planner='near', open=2, seed=1, ticks=2)
    found = experiments_reach.reached('row', 1, site, options)
    same((found.requests, found.taken, len(found.processor), len(found.wall)), (3, 3, 2, 2))
    assert min(found.processor) >= 0.02 and min(found.wall) >= 0.02, found
    assert found.most >= max(found.memory) > 0, found
    bad = argparse.Namespace(**{**vars(options), 'program': stand_in(tape, verify='run 9', log='wlog 2\n')})
    assert 'to 8 commands' in refused(experiments_reach.reached, 'row', 1, site, bad)


def test_a_row_of_reach() -> None:
    mb = 1024 * 1024
    found = experiments_reach.Reached('9x9', 4, [0.5, 0.001, 0.002, 0.097], [1.5, 0.002, 1.0, 0.098], [2 * mb, 3 * mb], 4 * mb, 300, 7)
    # 0.6 s for 4 ticks: 150 ms each; 300 requests are 75 a tick and 500 a second; only 1.5 s is above 1 s
    same(experiments_reach.row(found), ['9x9', '4', '7', '75.0', '150.00', '500.00', '97.00', '500.00', '500', '650.00', '1500.00', '1000.00',
                                        '1500.00', '1', '2, 3', '4'])


# --------------------------------------------------------------------------------------------------------- plots

def test_steps_of_an_axis() -> None:
    same(experiments_plot.steps(884), [0, 200, 400, 600, 800, 1000])
    same(experiments_plot.steps(5), [0, 1, 2, 3, 4, 5])
    same(experiments_plot.steps(12), [0, 2.5, 5, 7.5, 10, 12.5])
    same(experiments_plot.steps(0), [0, 1])


def test_a_plot() -> None:
    lines = {'a & b': [(0.1, 0.0), (1, 50), (10, 100)], 'c': [(0.1, 100), (10, 100)]}
    picture = experiments_plot.svg(experiments_plot.Plot('T', 'orders a tick', 'ticks', lines, log_x=True))
    root = tree.fromstring(picture)
    space = '{http://www.w3.org/2000/svg}'
    texts = [text.text for text in root.iter(space + 'text')]
    # 100 is the top of an axis with steps of 20
    same(texts, ['T', '0', '20', '40', '60', '80', '100', '0.1', '1', '10', 'orders a tick (logarithmic)', 'ticks', 'a & b', 'c'])
    paths = {path.get('class'): path.get('d') for path in root.iter(space + 'path')}
    # From x 78 to 14 before the end of the axes, 640 - 44 - 6.6 * 5 = 563: 549, and 1 is halfway between on a logarithmic axis;
    # from y 308 for 0 to 40 for 100.
    same((paths['l0'], paths['l1']), ('M78.0 308.0L313.5 174.0L549.0 40.0', 'M78.0 40.0L549.0 40.0'))
    assert 'prefers-color-scheme:dark' in root.find(space + 'style').text
    # a mark at each point, and one beside each name
    same(len(list(root.iter(space + 'g'))), 3 + 1 + 2 + 1)


# ---------------------------------------------------------------------------------------------- with the program

def test_the_figures_are_those_of_stats() -> None:
    """They are those of stats over the log that drive makes of the same instance, where orders come in time and where all are there."""
    site = os.path.join(SCRATCH.name, 'site')
    for case in (floors.Case('aamas', 0, 3, '0.5', 'homes'), floors.Case('aamas', 0, 3, '0.5', 'stops', ask='number', rule='nofollow'),
                 floors.Case('packing', 1, 3, 'all', 'stops', rule='nofollow'), floors.Case('packing', 1, 3, 'all', 'homes', rule='nofollow')):
        found = floors.run_once(case, 1, PROGRAM, 1, 8)
        with open(site, 'wb') as file:
            file.write(floors.instance_of(case, 1, 8))
        subprocess.run([sys.executable, os.path.join(ROOT, 'tools/drive.py'), site, '--ends', case.ends, '--ask', case.ask, '--program', f'{PROGRAM} replay',
                        '--save', site + '.log'], stdout=subprocess.PIPE, check=True)
        told = subprocess.run([sys.executable, os.path.join(ROOT, 'tools/stats.py'), site, site + '.log'], stdout=subprocess.PIPE, text=True, check=True)
        stats = dict(zip(*(line.split(',') for line in told.stdout.splitlines())))
        same((case, str(found.makespan), f'{sum(found.served) / 8:.2f}', str(found.cells), stats['done']),
             (case, stats['makespan'], stats['service_mean'], stats['distance'], '8'))


def test_a_table_of_late_vehicles() -> None:
    """The figure of a run is that of `drive --late --ask number`."""
    found = experiments_late.per100(experiments_late.Case(experiments_late.SPEEDS[1], 3, 8), 1, PROGRAM)
    told = subprocess.run([sys.executable, os.path.join(ROOT, 'tools/drive.py'), experiments_late.INSTANCE, '--late', '1', '--ask', 'number', '--ahead', '3', '--behind', '8',
                           '--spread', '0.3', '--program', f'{PROGRAM} replay'], stdout=subprocess.PIPE, text=True, check=True)
    same(f'per100s {found:.1f}' in told.stdout.splitlines(), True)


NEEDS_PROGRAM = {'test_the_figures_are_those_of_stats', 'test_a_table_of_late_vehicles'}


def guarded(test):
    """A test that fails where what it calls ends the script."""
    def call() -> None:
        try:
            test()
        except SystemExit as end:
            raise AssertionError(f'the script was ended with status {end.code}') from end
    return call


if __name__ == '__main__':
    guarded_tests = {name: guarded(test) for name, test in globals().items() if name.startswith('test_')}
    counting.main({'__doc__': __doc__, **guarded_tests}, NEEDS_PROGRAM, SCRATCH)
