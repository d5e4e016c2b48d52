#!/usr/bin/env python3
"""Where paths end, at the last stop or at home: logs of both rules, judged by tests/ends.py, which is written from the definitions alone.

    tests/tools_ends.py                    few instances, for the gate; --no-program: those of the peer alone
    tests/tools_ends.py --runs 2000        by hand

Each instance is made from its seed as tests/peer.py makes them. Its log, of the peer and of the program, is a run under its rule and
none under the other. Then a log is made wrong, each time in one entry: its path cut at the last stop or led on, an order taken too
soon, a number told wrong, a line left out. `verify` and the judge must say the same of it.
"""
import argparse
import os
import random
import re
import subprocess
import sys
import tempfile

import counting
import ends
import peer

ROOT = os.path.dirname(os.path.dirname(os.path.abspath(__file__)))
PROGRAM = os.environ.get('WAREHOUSE') or os.path.join(ROOT, 'crates/warehouse/out/warehouse')
SCRATCH = tempfile.TemporaryDirectory()
OPTIONS = argparse.Namespace(runs=12, seed=1)
SITE = ends.CROSSING
ALONE = SITE.replace('agent P1\n', '')
TAKEN = ['submit x A B = accepted 0', 'token 0 = took 0 path 0,1 1,1 1,0 1,1 2,1 3,1 3,0 3,1 2,1 1,1 0,1']
# two ticks to A, four more to B
DONE = TAKEN + [f'tick = clock {clock} picked {int(clock == 2)} dropped {int(clock == 6)}' for clock in range(1, 7)]
NEXT = DONE + ['submit y D C = accepted 1']
TWO = ['submit x A B = accepted 0', 'submit y D B = accepted 1', TAKEN[1],
       'token 1 = took 1 path 4,1 3,1 3,2 3,2 3,2 3,2 3,2 3,2 3,1 3,0 3,1 4,1', 'token 0 = refused E5 6', 'tick = clock 1 picked 0 dropped 0',
       'tick = clock 2 picked 2 dropped 0']


def same(found, wanted):
    assert found == wanted, f'{found!r}, and not {wanted!r}'


def log_of(site, entries):
    slots = ' 4' * site.count('\nagent ')
    return ''.join(f'{line}\n' for line in ['wlog 2', f'start 0 slots{slots}', *(f'0 {entry}' for entry in entries), f'end {len(entries)}'])


def verified(site, log, homes):
    """What the program's `verify` says."""
    words = [PROGRAM, 'verify'] + ['--ends', 'homes'] * homes
    return subprocess.run(words, input=(site + log).encode(), stdout=subprocess.PIPE, check=False).stdout.decode().strip()


def says(site, entries, wanted, homes=True):
    """What the judge says of these entries, and `verify`, where a program is at hand."""
    log = log_of(site, entries)
    same((entries[-1], ends.judged(ends.Floor(site), log, homes)[0]), (entries[-1], wanted))
    if not OPTIONS.no_program:
        same((entries[-1], verified(site, log, homes)), (entries[-1], wanted))


def test_paths_go_on_home():
    says(ALONE, DONE, 'run 8')
    says(ALONE, DONE + ['token 0 = rested'], 'run 9')
    says(ALONE, NEXT + ['tick = clock 7 picked 0 dropped 0', 'token 0 = took 1 path 3,1 3,2 3,1 2,1 1,1 1,2 1,1 0,1'], 'run 11')
    says(SITE, TWO, 'run 7')
    # an order that waits for another one's station waits no longer
    says(SITE, TWO[:3] + ['token 1 = rested'], 'bad 6')


def test_paths_end_at_the_last_stop():
    at_stop = [DONE[0], 'token 0 = took 0 path 0,1 1,1 1,0 1,1 2,1 3,1 3,0', *DONE[2:]]
    says(ALONE, at_stop + ['submit y D C = accepted 1', 'token 0 = took 1 path 3,0 3,1 3,2 3,1 2,1 1,1 1,2'], 'run 10', homes=False)
    says(SITE, at_stop[:1] + [TWO[1], at_stop[1], 'token 1 = rested'], 'run 4', homes=False)


def test_a_log_is_of_one_rule():
    says(ALONE, DONE, 'bad 4', homes=False)
    says(ALONE, [DONE[0], 'token 0 = took 0 path 0,1 1,1 1,0 1,1 2,1 3,1 3,0'], 'bad 4')


def test_wrong_ends():
    for path in ('0,1 1,1 1,0 1,1 2,1 3,1 3,0', '0,1 1,1 1,0 1,1 2,1 3,1 3,0 3,1', '0,1 1,1 1,0 1,1 2,1 3,1 3,0 3,1 4,1 5,1',
                 '0,1 1,1 1,0 1,1 0,1 1,1 2,1 3,1 3,0', '0,1 1,1 2,1 3,1 3,0 3,1 2,1 1,1 1,0 1,1 0,1'):
        says(ALONE, [TAKEN[0], f'token 0 = took 0 path {path}'], 'bad 4')


def test_taken_too_soon_or_from_elsewhere():
    on_the_way = 'submit y D C = accepted 1'
    tick = 'tick = clock 1 picked 0 dropped 0'
    # while it fetches, and while it carries; it says when it has delivered, not when it is home
    says(ALONE, TAKEN + [on_the_way, tick, 'token 0 = took 1 path 1,1 2,1 3,1 3,2 3,1 2,1 1,1 1,2 1,1 0,1'], 'bad 7')
    says(ALONE, TAKEN + [tick, 'token 0 = refused E5 5'], 'run 4')
    says(ALONE, TAKEN + [tick, 'token 0 = refused E5 9'], 'bad 6')
    says(ALONE, DONE[:6] + ['token 0 = refused E5 2'], 'run 7')
    # it has delivered: it is due, and begins where it is
    says(ALONE, NEXT + ['token 0 = refused E5 4'], 'bad 12')
    says(ALONE, NEXT + ['token 0 = rested'], 'bad 12')
    says(ALONE, NEXT + ['token 0 = took 1 path 0,1 1,1 2,1 3,1 3,2 3,1 2,1 1,1 1,2 1,1 0,1'], 'bad 12')
    says(ALONE, NEXT + ['token 0 = took 1 path 3,0 3,1 3,2 3,1 2,1 1,1 1,2 1,1 0,1'], 'run 10')


def built_peer():
    path = os.path.join(SCRATCH.name, 'peer')
    if not os.path.exists(path):
        try:
            subprocess.run(['g++', '-O2', '-std=c++17', '-o', path, os.path.join(ROOT, 'dev/peer/main.cpp')], check=True)
        except FileNotFoundError:
            raise counting.Skipped('no g++') from None
    return path


def made_log(words, text):
    """Map and points of an instance, and the log that a program makes of it."""
    ran = subprocess.run(words, input=text, capture_output=True, check=True, timeout=600)
    return ran.stdout.decode().partition('\n%%\n')[2]


def instance(seed):
    """Map and points made from a seed, all of it, and whether its paths go home."""
    homes, lanes = seed % 2 == 0, seed % 5 == 0
    text = peer.instance(random.Random(seed), lanes, homes)
    return '%%\n'.join(text.decode().split('%%\n')[:2]) + '%%\n', text, homes


def judge_made(words, option):
    """Judges the logs that a program makes: of the instances' rules; of those with paths none is of the other rule."""
    for seed in range(OPTIONS.seed, OPTIONS.seed + OPTIONS.runs):
        site, text, homes = instance(seed)
        log, floor = made_log(words + option * homes, text), ends.Floor(site)
        lines = log.split('\n')
        same((seed, *ends.judged(floor, log, homes)), (seed, f'run {len(lines) - 4}', ''))
        took = next((number for number, line in enumerate(lines, 1) if ' = took ' in line), None)
        if took is not None and all(floor.points[point][0] == 'parking' for point in starts_of(site)):
            same((seed, ends.judged(floor, log, not homes)[0]), (seed, f'bad {took}'))


def starts_of(site):
    return [line.split()[1] for line in site.split('\n') if line.startswith('agent ')]


def test_logs_of_the_peer():
    judge_made([built_peer(), 'log'], ['homes'])


def test_logs_of_the_program():
    judge_made([PROGRAM, 'replay', '--tail', 'log'], ['--ends', 'homes'])


def test_what_is_delivered_behind_the_script():
    """On a formed floor with homes all is delivered, nobody makes way or is refused a path, and all come home; of orders of 2 to 8 stops."""
    for seed in range(OPTIONS.seed, OPTIONS.seed + OPTIONS.runs):
        chance = random.Random(seed)
        words = f'--columns {chance.randint(20, 34)} --rows {chance.randint(8, 16)} --agents {chance.randint(1, 12)} --ticks 40 --every 1'.split()
        words += ['--tasks', str(chance.randint(1, 40)), '--stops', chance.choice('2238'), '--seed', str(seed)] + ['--nofollow'] * chance.randint(0, 1)
        words += ['--layout', 'kiva', '--stations', str(chance.randint(1, 3))] * chance.randint(0, 1)
        made = subprocess.run([sys.executable, os.path.join(ROOT, 'tools/make_instance.py'), *words], stdout=subprocess.PIPE, text=True, check=True).stdout
        site, orders = '%%\n'.join(made.split('%%\n')[:2]) + '%%\n', re.findall('submit .*\n', made)
        log, floor = made_log([PROGRAM, 'replay', '--ends', 'homes', '--deliver', '--tail', 'log'], (site + ''.join(orders)).encode()), ends.Floor(site)
        judge = ends.Judge(floor, True)
        same((seed, judge.run(log)), (seed, (f'run {log.count(chr(10)) - 3}', '')))
        same((seed, [task.left() for task in judge.tasks], judge.paths), (seed, [[]] * len(orders), [[start] for start in floor.starts]))
        same((seed, 'refused' in log, 'parked' in log), (seed, False, False))


def test_who_asks_behind_the_script():
    """By both rules, on floors that are formed and others: who asks, in which order, that nobody asks in vain before the end, and no tick too many."""
    entered = 0
    for seed in range(OPTIONS.seed, OPTIONS.seed + OPTIONS.runs):
        site, text, homes = instance(seed)
        floor, judge = ends.Floor(site), ends.Judge(ends.Floor(site), homes)
        names = {name for name, (kind, _) in floor.points.items() if kind == 'station'}
        orders = [f'{line}\n' for line in text.decode().split('\n') if re.fullmatch(r'submit \w+( [\w-]+){2,8}', line) and set(line.split()[2:]) <= names]
        words = [PROGRAM, 'replay', '--deliver', '--tail', 'log'] + ['--ends', 'homes'] * homes
        entries = made_log(words, (site + ''.join(orders)).encode()).split('\n')[2:-2]
        for order in orders:
            judge.submit(order.split()[1:], ['accepted', str(len(judge.tasks))])
        try:
            judge.is_delivered(entries[len(orders):])
        except ends.Bad as why:
            raise AssertionError(f'{seed}: {why}') from None
        entered += len(entries)
    assert entered > 5 * OPTIONS.runs, entered


def made_wrong(chance, lines, floor):
    """The entries of a log with one of them made wrong, mostly."""
    number = chance.choice([n for n, line in enumerate(lines) if ' took ' in line] or [0]) if chance.random() < 0.5 else chance.randrange(len(lines))
    head, _, tail = lines[number].partition(' = ')
    words = tail.split(' ')
    if words[0] in ('took', 'parked') and chance.random() < 0.8:
        path = words[3:]
        cut = path[:chance.randint(1, len(path))]
        led_on = path + chance.choice([path[-2::-1], path[-1:], path[:0:-1]])
        words[3:] = chance.choice([cut, led_on, path[:len(cut)] + path[len(cut) - 1:]])
    elif words[0] == 'took':
        words[1] = str(chance.randrange(int(words[1]) + 2))
    elif words[:2] == ['refused', 'E5'] or words[0] == 'clock':
        place = -1 if words[0] == 'refused' else chance.choice([1, 3, 5])
        words[place] = str(abs(int(words[place]) + chance.choice([-1, 1])))
    elif words[0] == 'rested':
        words = chance.choice([['refused', 'E6'], ['refused', 'E5', '1']])
    else:
        return lines[:number] + lines[number + 1:]
    return lines[:number] + [f'{head} = {" ".join(words)}'] + lines[number + 1:]


def test_wrong_logs_are_told_alike():
    peer_words = [built_peer(), 'log']
    found = 0
    for seed in range(OPTIONS.seed, OPTIONS.seed + OPTIONS.runs):
        site, text, homes = instance(seed)
        log, chance, floor = made_log(peer_words + ['homes'] * homes, text), random.Random(seed), ends.Floor(site)
        head, entries = log.split('\n')[:2], log.split('\n')[2:-2]
        for _ in range(4 if entries else 0):
            wrong = made_wrong(chance, entries, floor)
            changed = '\n'.join([*head, *wrong, f'end {len(wrong)}', ''])
            said, why = ends.judged(floor, changed, homes)
            same((seed, why, verified(site, changed, homes)), (seed, why, said))
            found += said.startswith('bad ')
    assert found >= OPTIONS.runs, found


NEEDS_PROGRAM = {'test_logs_of_the_program', 'test_what_is_delivered_behind_the_script', 'test_who_asks_behind_the_script', 'test_wrong_logs_are_told_alike'}


if __name__ == '__main__':
    parser = argparse.ArgumentParser(description=__doc__, formatter_class=argparse.RawDescriptionHelpFormatter)
    parser.add_argument('--runs', type=int, default=12)
    parser.add_argument('--seed', type=int, default=1)
    parser.add_argument('--no-program', action='store_true')
    OPTIONS = parser.parse_args()
    result = counting.run(globals(), NEEDS_PROGRAM if OPTIONS.no_program else ())
    SCRATCH.cleanup()
    sys.exit(result)
