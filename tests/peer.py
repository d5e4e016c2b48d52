#!/usr/bin/env python3
"""Replays made instances by the built program and by its peer, and compares what they print, byte for byte: the
replies, and then the log, which has each cell of each path.

    tests/peer.py --runs 200 --seed 1

The peer, dev/peer, is built by g++ into a temporary folder; with --check it checks its own paths too. Each run makes
an instance by tools/make_instance.py from its seed: mostly a small site, with shelves or without. Most lose stations
and cells, and have agents that start at stations, so that agents stand in each other's way; then some tokens are left
out, others change their order, and odd lines come in. Each second run is under `--ends homes`, where all agents start at
parkings; --ends names one rule for all. Three runs in seven have a `--slack`; --slack names one for all. A run whose outputs differ is printed with its seed and the first
line that differs, and its input is kept in a file. Before the last line stands how many replies of each kind came, and
how many cells the paths have.
"""
import argparse
import collections
import os
import random
import re
import subprocess
import sys
import tempfile

SLACKS = (0, 4, 0, 1, 0, 30, 0)    # by turns
KIND = re.compile(r'^refused \w+|^\w+', re.MULTILINE)
ROOT = os.path.dirname(os.path.dirname(os.path.abspath(__file__)))
ODD = ['', '  ', '# note', '#' + 'y' * 300, 'go', 'x' * 257, 'token', 'token x', 'token 0 0', 'token 99', '\ttoken  0 ',
       'token 000', 'token 0000000001', 'tick 1', 'tick\r', ' tick', 'close 1', 'submit a S0', 'submit a S0 nope',
       'submit a P0 S0', 'submit a S0 S1 P0', 'submit a S0 abcdefghijklmnopq', 'submit a S0 S+1', 'submit S0',
       'submit a' + ' S0' * 8, 'submit a' + ' S0' * 9, 'submit a S0 S0 S1 S1', 'submit S0\tS0  S1\t']


def words_of(chance):
    """The words for tools/make_instance.py: of the small sites most have more agents than stations."""
    kind = chance.choice(['shelves', 'open', 'small', 'small'] * 4 + ['large'])
    columns, rows, agents = {'small': ((17, 20), (9, 13), (8, 24)), 'large': ((50, 80), (40, 60), (50, 100))}.get(
        kind, ((20, 40), (9, 22), (1, 12)))
    words = {'columns': chance.randint(*columns), 'rows': chance.randint(*rows), 'shelf': chance.choice([2, 4]),
             'agents': chance.randint(*agents), 'tasks': chance.randint(1, 80), 'ticks': chance.randint(30, 120),
             'every': chance.choice([1, 1, 2, 5]), 'stops': chance.choice([2, 2, 3, 5, 8]),
             'seed': chance.randrange(10 ** 6)}
    flags = ['--open'] * (kind == 'open') + ['--nofollow'] * (chance.random() < 0.4)
    return [word for name, value in words.items() for word in (f'--{name}', str(value))] + flags


def narrowed(chance, level, points):
    """The map with some cells blocked that are no points."""
    taken = {tuple(line.split()[2:]) for line in points if line.startswith(('station ', 'parking '))}
    blocked = chance.choice([0, 0.1, 0.25, 0.35]) if len(level) < 40 else 0    # finding no path takes long there
    return level[:4] + [''.join('@' if chance.random() < blocked and (str(x), str(y)) not in taken else cell
                                for x, cell in enumerate(row)) for y, row in enumerate(level[4:])]


def crowded(chance, points, homes):
    """The points with some stations left out, and with agents that start at any point; where paths go on home, at any parking."""
    stations = [line for line in points if line.startswith('station ')]
    dropped = chance.sample(stations, chance.randint(0, max(0, len(stations) - 2)))
    agents = [line for line in points if line.startswith('agent ')]
    kept = [line for line in points if line not in dropped and line not in agents]
    names = [line.split()[1] for line in kept if line.startswith('parking ') or not (homes or line.startswith('rule '))]
    return kept + [f'agent {name}' for name in chance.sample(names, len(agents))]


def in_lanes(chance, level, points, homes):
    """Long lanes in place of the map, each joined to the next at one end and by few gaps, so that agents must go far
    out of each other's way; and some points on them, from which few agents start."""
    width, lanes = chance.randint(24, 48), chance.randint(2, 4)
    gaps = chance.choice([0, 0.02, 0.05])
    rows = []
    for lane in range(lanes):
        ends = [0, width - 1][lane % 2]
        rows.append('.' * width)
        rows.append(''.join('.' if x == ends or chance.random() < gaps else '@' for x in range(width)))
    rows.pop()
    cells = [f'{x} {y}' for y, row in enumerate(rows) for x, cell in enumerate(row) if cell == '.']
    stations = [line.split()[:2] for line in points if line.startswith('station ')][:chance.randint(3, 16)]
    parkings = [line.split()[:2] for line in points if line.startswith('parking ')][:chance.randint(2, 6)]
    taken = chance.sample(cells, len(stations + parkings))
    names = [name for kind, name in stations + parkings if kind == 'parking' or not homes]
    agents = chance.sample(names, min(len(names), chance.randint(2, 6)))
    kept = [' '.join(words + [cell]) for words, cell in zip(stations + parkings, taken)]
    rules = [line for line in points if line.startswith('rule ')]
    sides = {'height': len(rows), 'width': width}
    head = [' '.join([word, str(sides.get(word, rest))]) if word in sides else line
            for line in level[:4] for word, _, rest in [line.partition(' ')]]
    return head + rows, kept + rules + [f'agent {name}' for name in agents]


def altered(chance, commands, stations):
    """The commands with stops that the points have, some tokens left out or moved, and some odd lines."""
    lines, tokens, eager = [], [], chance.choice([1, 0.9, 0.5])
    for line in commands:
        if line.startswith('token '):
            tokens += [line] * (chance.random() < eager)
            continue
        if line.startswith('submit ') and stations and chance.random() < 0.97:
            line = ' '.join(line.split()[:2] + [chance.choice(stations) for _ in line.split()[2:]])
        lines += chance.sample(tokens, len(tokens)) + [line]
        tokens = []
    for _ in range(chance.choice([0, 3, 20])):
        lines.insert(chance.randrange(len(lines)), chance.choice(ODD))
    if chance.random() < 0.3:
        place = chance.randint(len(lines) * 9 // 10, len(lines))
        lines[place:place] = ['close', 'close', 'tick', 'token 0', 'token 99', 'submit c S0 S1', '# note']
    return lines


def instance(chance, lanes=False, homes=False):
    make = [sys.executable, os.path.join(ROOT, 'tools/make_instance.py')] + words_of(chance)
    made = subprocess.run(make, stdout=subprocess.PIPE, text=True, check=True).stdout
    level, points, commands = (section.split('\n')[:-1] for section in made.split('%%\n'))
    if lanes:
        level, points = in_lanes(chance, level, points, homes)
    elif chance.random() < 0.8:
        points = crowded(chance, points, homes)
        level = narrowed(chance, level, points)
    stations = [line.split()[1] for line in points if line.startswith('station ')]
    lines = level + ['%%'] + points + ['%%'] + altered(chance, commands, stations)
    return ('\n'.join(lines) + chance.choice(['\n', '\n', ''])).encode()


def difference(program, peer):
    """What is wrong with how the two ended (None: nothing)."""
    if program.returncode or peer.returncode:
        return f'status {program.returncode}, {program.stderr!r}; the peer {peer.returncode}, {peer.stderr!r}'
    if program.stdout == peer.stdout:
        return None
    ours, theirs = program.stdout.split(b'\n'), peer.stdout.split(b'\n')
    place = len(os.path.commonprefix([ours, theirs]))
    return f'line {place + 1}: {ours[place:place + 1]}; the peer {theirs[place:place + 1]}'


def replayed(words, text, seconds):
    """How a program ended on an input; where it took too long, as one that failed."""
    try:
        return subprocess.run(words, input=text, capture_output=True, timeout=seconds)
    except subprocess.TimeoutExpired:
        return subprocess.CompletedProcess(words, -1, b'', b'took too long')


def counted(output):
    """How many replies of each kind an output has, and how many cells the paths of its log."""
    replies, _, log = output.decode().partition('%%\n')
    counts = collections.Counter(KIND.findall(replies))
    counts['cells'] = sum(line.count(',') for line in log.split('\n') if ' path ' in line)
    return counts


def main():
    parser = argparse.ArgumentParser(description=__doc__, formatter_class=argparse.RawDescriptionHelpFormatter)
    parser.add_argument('--program', default=os.environ.get('WAREHOUSE') or os.path.join(ROOT, 'crates/warehouse/out/warehouse'))
    parser.add_argument('--runs', type=int, default=200)
    parser.add_argument('--seed', type=int, default=1)
    parser.add_argument('--seconds', type=float, default=120, help='for each replay; one that takes longer has failed')
    parser.add_argument('--check', action='store_true', help='the peer checks its own paths too, which takes longer')
    parser.add_argument('--lanes', action='store_true', help='all maps are long lanes, where agents make way far')
    parser.add_argument('--ends', choices=('stops', 'homes', 'both'), default='both', help='where paths end (%(default)s: by turns)')
    parser.add_argument('--slack', type=int, help='by how many steps paths may be late (if not given: by turns)')
    options = parser.parse_args()
    counts, failed = collections.Counter(), 0
    with tempfile.TemporaryDirectory() as scratch:
        peer = os.path.join(scratch, 'peer')
        build = ['g++', '-O2', '-march=x86-64-v2', '-std=c++17', '-Wall', '-Wextra'] + ['-DCHECK'] * options.check
        subprocess.run(build + ['-o', peer, os.path.join(ROOT, 'dev/peer/main.cpp')], check=True)
        for seed in range(options.seed, options.seed + options.runs):
            homes = seed % 2 == 0 if options.ends == 'both' else options.ends == 'homes'
            slack = SLACKS[seed % len(SLACKS)] if options.slack is None else options.slack
            text = instance(random.Random(seed), options.lanes, homes)
            done = [replayed(words, text, options.seconds)
                    for words in ([options.program, 'replay', '--tail', 'log'] + ['--ends', 'homes'] * homes + ['--slack', str(slack)],
                                  [peer, 'log', 'slack', str(slack)] + ['homes'] * homes)]
            counts.update(counted(done[0].stdout))
            wrong = difference(*done)
            if wrong:
                failed += 1
                kept = os.path.join(tempfile.gettempdir(), f'peer-{seed}')
                with open(kept, 'wb') as file:
                    file.write(text)
                print(f'seed {seed}: {kept}: {wrong}')
    print(', '.join(f'{kind} {count}' for kind, count in sorted(counts.items())))
    print(f'{options.runs - failed} passed, {failed} failed')
    sys.exit(failed != 0)


if __name__ == '__main__':
    main()
