#!/usr/bin/env python3
"""Writes an instance of which one request is expensive for a search that is not careful.

  dev/floods.py FAMILY NUMBERS.. > instance
  crates/warehouse/out/warehouse replay < instance

Families, and their numbers:

  stops N K FAR      an open map of N by N; agent 0 walks FAR stops to and fro, agent 1 takes a task of K stops (2 to 8)
  unreachable N K    the same, nobody walks, and walls stand round the last of the K stops
  ring W H           the short way along the top is shut by an agent at rest in its middle; the long way is a serpentine
  door N LEGS        the near door of a room is the place of an agent at rest; the other way is a serpentine
  hall N L           a hall with a corridor of length L: one agent comes out of it while another is to go in, and waits about L
  late N LEGS SHUT   agent 0 walks LEGS stops to and fro and then over the last stop of agent 1, which is near to it and may
                     come to rest there only then; where SHUT is 1, agent 2 comes to rest in the way there later, so that
                     no path leads to it
  beside N LEGS      agent 0 walks LEGS stops to and fro on an open map and ends beside agent 1, whose way is straight on
  shut N             an open map of N by N, cut by a wall, in whose only door an agent is at rest; another is to make way, and the
                     nearest cell where it may park is close, but beyond the door, and the next one is far
  sides N K          an open map of N by N; the last of K stops (2 to 8), behind far corners, has agents at rest on its near sides
  soon N FAR         an open map of N by N, cut by a wall with a door at each end; agent 0 comes to rest in the one, through which
                     agent 1, from the wall or, where FAR is 1, from far away, would have the shorter way
  blocked T A        A agents, T open tasks, none of which can be done for where an agent rests
  rests T A N        the same tasks, and then N requests by turns, which all find that nothing can be done
  wide N A           an open map of N by N, A agents, one far task each: distance fields of whole maps
  maze N A T         a maze of N by N with its points in dead ends, A agents, T tasks, one a tick, and each agent asks at each tick
  queue N A RULE     the floor `--layout kiva` of tools/make_instance.py, N by N with one packing station, to which each of A agents
                     gets one task at clock 0; where RULE is 1, nobody may follow. It is for `replay --ends homes`: without it the
                     first task holds the station

All but `unreachable`, `late` and `shut` are well-formed where the numbers are large enough: `warehouse check` says so.
The last request of an instance is the expensive one, of `queue` each of the later ones; of `rests`, `wide` and `maze` none is by itself.
"""
import argparse
import os
import random
import sys

import package    # noqa: F401

from warehouse.simulate import make_instance


def put(rows, points, script):
    print('type octile\nheight %d\nwidth %d\nmap' % (len(rows), len(rows[0])))
    for part in (rows, points, script):
        if part is not rows:
            print('%%')
        for line in part:
            print(''.join(line))


def open_rows(width, height):
    return [['.'] * width for _ in range(height)]


def to_and_fro(legs):
    return ['submit x ' + ' '.join((['A', 'B'] * 4)[:legs]), 'token 0'] if legs else []


def stops(n, k, far, walled=False):
    rows, q = open_rows(n, n), n // 8
    cells = [(n - 3 - q, n - 3), (2, 2 + q), (n - 3, n - 3 - q), (2 + q, 4), (n - 5, n - 3 - 2 * q), (6, 6 + 2 * q), (n - 7, n - 7), (8, 8)]
    if walled:
        x, y = cells[k - 1]
        for a, b in ((x - 1, y), (x + 1, y), (x, y - 1), (x, y + 1)):
            rows[b][a] = '@'
    points = ['parking P0 0 0', f'parking P1 {n - 1} 0', f'station A 2 {n - 3}', f'station B {n - 3} 2']
    points += [f'station S{i} {x} {y}' for i, (x, y) in enumerate(cells)] + ['agent P0', 'agent P1']
    put(rows, points, to_and_fro(far) + ['submit y ' + ' '.join(f'S{i}' for i in range(k)), 'token 1'])


def ring(w, h):
    rows = [['@'] * w for _ in range(h)]
    rows[0] = ['.'] * w
    for y in range(1, h):
        rows[y][w - 1] = '.'
    rows[1][0] = '.'
    last, side = 2, 0
    while True:
        for x in range(w - 2):
            rows[last][x] = '.'
        if last + 2 >= h - 1:
            break
        rows[last + 1][w - 3 if side == 0 else 0] = '.'
        side, last = 1 - side, last + 2
    if side == 0:
        rows[last][w - 2] = '.'
    else:
        rows[last + 1][0] = '.'
        low = last + 2 if last + 2 < h else last + 1
        for x in range(w):
            rows[low][x] = '.'
    pockets = ['@'] * w
    for x in (1, 3, w - 4):
        pockets[x] = '.'
    points = ['parking P0 1 0', f'parking P1 {w // 2} 1', 'station S 3 0', f'station T {w - 4} 0', 'agent P0', 'agent P1']
    put([pockets] + rows, points, ['submit x S T', 'token 0'])


def door(n, legs):
    k, m = 40, n // 2
    rows = [['.'] * n + ['@'] * k for _ in range(n)]
    for y in range(n):
        rows[y][n - 1] = '@'
    rows[m][n - 1] = rows[m][n] = '.'
    for x in (n - 1, n, n + 1):
        rows[0][x] = '.'
    columns = list(range(n + 2, n + k - 1, 2))
    if len(columns) % 2:
        columns.pop()
    for j, x in enumerate(columns):
        for y in range(1, n - 2):
            rows[y][x] = '.'
        if j == 0:
            rows[0][x] = '.'
        if j + 1 < len(columns):
            rows[n - 3 if j % 2 == 0 else 1][x + 1] = '.'
    x = columns[-1] + 2
    rows[1][x - 1] = '.'
    for y in range(1, n):
        rows[y][x] = '.'
    for a in range(n, x + 1):
        rows[n - 1][a] = '.'
    for y in range(m, n):
        rows[y][n] = '.'
    points = ['parking P0 0 2', f'parking P1 {n - 4} {m}', f'parking P2 {n - 1} {m}', f'station A 2 {n - 3}', 'station B 6 6',
              f'station S {n - 8} {m}', f'station T {n} {m + 3}', 'agent P0', 'agent P1', 'agent P2']
    put(rows, points, to_and_fro(legs) + ['submit y S T', 'token 1'])


def hall(n, length):
    width, m = n + length + 3, n // 2
    rows = [['.'] * n + ['@'] * (length + 3) for _ in range(n)]
    for x in range(n, width):
        rows[m][x] = '.'
    for x in range(width - 3, width):
        rows[m - 1][x] = rows[m + 1][x] = '.'
    points = [f'parking A {n - 2} {m}', f'parking B {width - 1} {m + 1}', 'parking C 0 0', f'station IN {width - 1} {m - 1}',
              f'station IN2 {width - 2} {m - 1}', f'station OUT {n // 2} 0', f'station OUT2 0 {n - 1}', 'agent B', 'agent A']
    put(rows, points, ['submit c IN OUT', 'token 0', 'submit c IN2 OUT2', 'token 1'])


def late(n, legs, shut):
    m = n // 2
    rows = [['.'] * n + ['@'] * 3 for _ in range(n)]
    for x in range(n, n + 3):
        rows[m][x] = '.'
    points = ['parking P0 0 0', f'parking P1 {n - 5} {m}', f'parking P2 0 {n - 1}', f'station A 2 {n - 3}', f'station B {n - 3} 2',
              f'station H {n - 4} {m}', f'station D {n} {m}', f'station G {n + 1} {m}', f'station E {n + 2} {m}',
              'agent P0', 'agent P1', 'agent P2']
    walk = (['A', 'B'] * 4)[:legs]
    script = ['submit x ' + ' '.join(walk + ['E']), 'token 0']
    if shut:
        script += ['submit z ' + ' '.join(walk + ['D']), 'token 2']
    put(rows, points, script + ['submit y H G', 'token 1'])


def beside(n, legs):
    points = ['parking P0 0 0', f'parking P1 {n - 1} {n - 1}', f'station A 2 {n - 3}', f'station B {n - 3} 2', f'station E {n - 2} {n - 1}',
              f'station S {n - 1} {n - 4}', f'station T {n - 1} 4', 'agent P0', 'agent P1']
    walk = (['A', 'B'] * 4)[:legs]
    put(open_rows(n, n), points, ['submit x ' + ' '.join(walk + ['E']), 'token 0', 'submit y S T', 'token 1'])


def shut(n):
    rows, wall, middle = open_rows(n, n), n // 2, n // 2
    for y in range(n):
        if y != middle:
            rows[y][wall] = '@'
    points = ['parking FAR 0 0', f'parking DOOR {wall} {middle}', f'parking LOW 0 {n - 1}', f'parking NEAR {wall + 2} {middle}',
              f'station C {wall - 3} {middle}', f'station HERE {wall - 2} {middle}', f'station A 1 {n - 1}', f'station AWAY 2 {n - 1}',
              'agent FAR', 'agent DOOR', 'agent LOW']
    script = ['submit c A AWAY', 'token 2', 'submit c C HERE', 'token 0'] + ['tick'] * n
    put(rows, points, script + ['submit c AWAY C', 'submit c AWAY HERE', 'token 0'])


def sides(n, k):
    m = n // 2
    points = ['parking P0 1 0', f'station A {n - 1} {n - 1}', 'station B 0 0', f'station L {m} {m}', f'parking P1 {m + 1} {m}',
              f'parking P2 {m} {m + 1}', 'agent P0', 'agent P1', 'agent P2']
    put(open_rows(n, n), points, ['submit x ' + ' '.join([*(['B', 'A'] * 4)[9 - k:], 'L']), 'token 0'])


def soon(n, far):
    rows, wall, door = open_rows(n, n), n // 2, n - 3
    for y in range(1, n):
        if y != door:
            rows[y][wall] = '@'
    start = f'0 {n - 1}' if far else f'{wall - 2} {door}'
    points = [f'parking P0 {wall - 1} {n - 1}', f'parking P1 {start}', f'station A {wall - 1} {door + 1}', f'station D {wall} {door}',
              f'station S 1 {door}', f'station T {wall + 2} {door}', 'agent P0', 'agent P1']
    put(rows, points, ['submit x A D', 'token 0', 'submit y S T', 'token 1'])


def blocked(tasks, agents, asks=None):
    n = 2 * agents + 4
    points = [f'station H{i} {2 * i} 0' for i in range(agents)] + [f'station G {n - 1} 4', f'station F {n - 1} 6']
    points += [f'parking Q{i} {2 * i} 2' for i in range(agents)] + [f'agent Q{i}' for i in range(agents)]
    script = ['submit c H0 G', 'token 0']
    orders = [f'submit c H{1 + t % (agents - 1)} G F' for t in range(tasks)]
    tokens = [f'token {1 + t % (agents - 1)}' for t in range(tasks if asks is None else asks)]
    script += [line for both in zip(orders, tokens) for line in both] if asks is None else orders + tokens
    put(open_rows(n, 8), points, script)


def wide(n, agents):
    points = [f'parking P{i} 0 {2 * i}' for i in range(agents)]
    for i in range(agents):
        points += [f'station S{i} {n - 1} {n - 1 - 2 * i}', f'station T{i} {n // 2 + 2 * i} {n // 2}']
    put(open_rows(n, n), points + [f'agent P{i}' for i in range(agents)],
        [line for i in range(agents) for line in (f'submit c S{i} T{i}', f'token {i}')])


def maze(n, agents, tasks):
    chance = random.Random(7)
    rows, way = [['@'] * n for _ in range(n)], [(0, 0)]
    rows[0][0] = '.'
    while way:    # depth first over the cells of even numbers
        x, y = way[-1]
        nexts = [(a, b) for a, b in ((x - 2, y), (x + 2, y), (x, y - 2), (x, y + 2)) if 0 <= a < n and 0 <= b < n and rows[b][a] == '@']
        if not nexts:
            way.pop()
            continue
        a, b = chance.choice(nexts)
        rows[(y + b) // 2][(x + a) // 2] = rows[b][a] = '.'
        way.append((a, b))

    def doors(x, y):
        return sum(0 <= a < n and 0 <= b < n and rows[b][a] == '.' for a, b in ((x - 1, y), (x + 1, y), (x, y - 1), (x, y + 1)))

    ends = [(x, y) for y in range(0, n, 2) for x in range(0, n, 2) if doors(x, y) == 1]
    for y in range(0, n, 2):    # some more openings, so that agents can pass each other, but none at a dead end
        for x in range(1, n - 1, 2):
            if rows[y][x] == '@' and (x - 1, y) not in ends and (x + 1, y) not in ends and chance.random() < 0.1:
                rows[y][x] = '.'
    chance.shuffle(ends)
    stations = ends[agents:agents + 100]
    points = [f'parking P{i} {x} {y}' for i, (x, y) in enumerate(ends[:agents])]
    points += [f'station S{i} {x} {y}' for i, (x, y) in enumerate(stations)] + [f'agent P{i}' for i in range(agents)]
    script = []
    for tick in range(tasks + 8 * n):
        if tick < tasks:
            script.append('submit c ' + ' '.join(f'S{i}' for i in chance.sample(range(len(stations)), 2)))
        script += [f'token {i}' for i in range(agents)] + ['tick']
    put(rows, points, script)


def queue(n, agents, rule):
    options = argparse.Namespace(columns=n, rows=n, shelf=8, open=False, layout='kiva', stations=1, agents=agents)
    cells, chance = make_instance.floor(options), random.Random(7)
    places = make_instance.Places(options, cells, chance)
    points = ['rule nofollow'] * bool(rule) + places.lines() + [f'agent P{i}' for i in range(agents)]
    put(cells, points, ['submit c ' + ' '.join(places.stops(2, chance)) for _ in range(agents)] + [f'token {i}' for i in range(agents)])


FAMILIES = {'stops': (stops, 3), 'unreachable': (lambda n, k: stops(n, k, 0, True), 2), 'ring': (ring, 2), 'door': (door, 2),
            'hall': (hall, 2), 'late': (late, 3), 'beside': (beside, 2), 'shut': (shut, 1), 'sides': (sides, 2), 'soon': (soon, 2), 'blocked': (blocked, 2),
            'rests': (blocked, 3), 'wide': (wide, 2), 'maze': (maze, 3), 'queue': (queue, 3)}


def main(words):
    if words in (['--help'], ['-h']):
        print(__doc__.strip())
        return 0
    make, count = FAMILIES.get(words[0] if words else '', (None, 0))
    if make is None or len(words) != count + 1 or not all(word.isascii() and word.isdigit() for word in words[1:]):
        print('floods.py: a family and its numbers are wanted; --help names them', file=sys.stderr)
        return 2
    make(*map(int, words[1:]))
    return 0


if __name__ == '__main__':
    try:
        status = main(sys.argv[1:])
        sys.stdout.flush()
    except BrokenPipeError:    # whoever reads has enough
        os.dup2(os.open(os.devnull, os.O_WRONLY), sys.stdout.fileno())
        status = 1
    sys.exit(status)
