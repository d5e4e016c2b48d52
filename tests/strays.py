#!/usr/bin/env python3
"""Runs from states at which agents are not on their ways: stopped in an aisle, with goods on board, before another's station.

    tests/strays.py --rounds 30            for the gate; --no-program: the rows worked out by hand, judged here alone
    tests/strays.py --rounds 3000          by hand

Each round makes a small floor from its seed, with niches beside narrow aisles, with shelves, or with walls at random; half of them are under
`--ends homes`, some under `rule nofollow`. On it a state is made up: vehicles at random cells, some on a way to nowhere, orders that are done,
open, fetched and carried. `replay --log` goes on from it, by requests in turn and ticks, over two processes. Each reply must be a step by
tests/stray_judge.py, which is written from docs/FORMATS.md alone; `verify --wlog 3` must say `run` of what was written, and `state` must tell of it
the state that the judge has. Then entries are made wrong, each in one thing alone and with valid paths: the task of another, a rest off a
berth, a way to park where there is one to the stops, `E6` where there is a way, a stop left out, a pickup counted twice. Judge and `verify` must
say `bad` of just that line.

How many states come to one at which all are on their ways is counted, not judged: nothing promises it.
"""
import argparse
import collections
import copy
import os
import random
import re
import subprocess
import sys
import tempfile

import counting
import ends
from stray_judge import Judge, judged

ROOT = os.path.dirname(os.path.dirname(os.path.abspath(__file__)))
sys.path.insert(0, os.path.join(ROOT, 'python'))
sys.dont_write_bytecode = True

from warehouse.texts import read_instance, read_log    # noqa: E402

PROGRAM = os.environ.get('WAREHOUSE') or os.path.join(ROOT, 'crates/warehouse/out/warehouse')
SCRATCH = tempfile.TemporaryDirectory()
OPTIONS = argparse.Namespace(rounds=10, seed=1, no_program=False)
SUM = '4be1' * 16
COUNTS = collections.Counter()


# ---- floors

def niches(chance):
    """Aisles of one row, each with niches above and below, and few ways from one aisle to the next. Points in niches are well-formed."""
    width, aisles = chance.randint(4, 10), chance.randint(1, 3)
    rows = [['@'] * width for _ in range(3 * aisles)]
    for y in range(1, 3 * aisles, 3):
        rows[y] = ['.'] * width
    joints = [chance.sample(range(width), chance.choice([1, 2])) for _ in range(aisles - 1)]
    for aisle, xs in enumerate(joints):
        for x in xs:
            rows[3 * aisle + 2][x] = rows[3 * aisle + 3][x] = '.'
    places = [(x, y) for y in range(3 * aisles) if y % 3 != 1 for x in range(width) if rows[y][x] == '@']
    beside = [(x, y) for x, y in places if all(x not in xs for aisle, xs in enumerate(joints) if y in (3 * aisle + 2, 3 * aisle + 3))]
    points = chance.sample(beside, min(len(beside), chance.randint(3, 10)))
    for x, y in points:
        rows[y][x] = '.'
    return rows, points


def shelves(chance):
    """Shelves with narrow aisles between them, and points anywhere."""
    width, height = chance.randint(5, 11), chance.randint(4, 8)
    rows = [['@' if y % 2 and 0 < x < width - 1 and x % 4 else '.' for x in range(width)] for y in range(height)]
    return rows, anywhere(chance, rows)


def walls(chance):
    width, height = chance.randint(3, 9), chance.randint(2, 7)
    share = chance.choice([0, 0.1, 0.25, 0.4])
    rows = [['@' if chance.random() < share else '.' for _ in range(width)] for _ in range(height)]
    rows[0][:5] = '.' * len(rows[0][:5])
    return rows, anywhere(chance, rows)


def anywhere(chance, rows):
    cells = [(x, y) for y, row in enumerate(rows) for x, mark in enumerate(row) if mark == '.']
    return chance.sample(cells, min(len(cells), chance.randint(3, 10)))


def floor(chance, homes, nofollow):
    """Map and points."""
    rows, points = chance.choice([niches, niches, shelves, walls])(chance)
    parkings = chance.randint(1, max(1, min(5, len(points) - 1)))
    named = [(f'P{n}' if n < parkings else f'S{n - parkings}', cell) for n, cell in enumerate(points)]
    starts = [name for name, _ in named if name[0] == 'P' or not homes and chance.random() < 0.2]
    lines = ['type octile', f'height {len(rows)}', f'width {len(rows[0])}', 'map', *(''.join(row) for row in rows), '%%']
    lines += [f'{"parking" if name[0] == "P" else "station"} {name} {x} {y}' for name, (x, y) in named]
    lines += ['rule nofollow'] * nofollow + [f'agent {name}' for name in chance.sample(starts, chance.randint(1, min(5, len(starts))))]
    return '\n'.join(lines) + '\n%%\n'


def is_formed(site):
    """As `check` says: there are parkings enough, and any two points are joined by a walk that meets no third."""
    cells = [cell for _, cell in site.points.values()]
    parkings = sum(kind == 'parking' for kind, _ in site.points.values())
    return parkings >= len(site.starts) and all(other in site.reached(cell, set(cells) - {cell, other}) for cell in cells for other in cells)


# ---- valid paths

def way(judge, agent, stops, goals, legs):
    """A shortest valid path of the agent through the stops to one of the goals; None where there is none within the bound."""
    others, site = judge.others(agent), judge.floor
    horizon = max((len(path) - 1 for path in others), default=0)

    def taken(k):
        return {path[min(k, len(path) - 1)]: path[min(k + 1, len(path) - 1)] for path in others}

    def reached(cell, leg):
        while leg < len(stops) and stops[leg] == cell:
            leg += 1
        return cell, leg

    start = reached(judge.paths[agent][0], 0)
    layers, seen, now = [{start: None}], {start}, taken(0)
    for k in range(horizon + legs * len(site.cells) + 1):
        for one in layers[k]:
            if one[1] == len(stops) and one[0] in goals and not any(one[0] in taken(later) for later in range(k, horizon + 1)):
                return traced(layers, one)
        after, layer = taken(k + 1), {}
        for (x, y), leg in layers[k]:
            for cell in ((x, y), (x - 1, y), (x + 1, y), (x, y - 1), (x, y + 1)):
                if cell not in site.cells or cell in after or now.get(cell) == (x, y) or site.nofollow and (cell in now or (x, y) in after):
                    continue
                found = reached(cell, leg)
                if k < horizon or found not in seen:
                    layer.setdefault(found, ((x, y), leg))
        if k >= horizon:
            seen |= set(layer)
        layers.append(layer)
        now = after
    return None


def traced(layers, one):
    """The path to a cell of the last layer."""
    path = []
    for layer in reversed(layers):
        path.append(one[0])
        one = layer[one]
    return path[::-1]


def told(path):
    return ' '.join('%d,%d' % cell for cell in path)


# ---- states

def front(homes, clock, paths, tasks, closed=False):
    """The lines of a state; of each task who has it, and its stops."""
    lines = ['wlog 3', f'after 1 805 {SUM}', *['rules ends homes'] * homes, f'state {clock} {"closed" if closed else "open"} edited', 'entries 0:12 63:400']
    lines += [f'agents {len(paths)}', *(f'agent slots 4 path {path}' for path in paths), f'tasks {len(tasks)}', *(f'task {task}' for task in tasks), 'begin']
    return '\n'.join(lines) + '\n'


def made_up(chance, site, homes):
    """A sound state of the floor: vehicles anywhere, tasks of all kinds."""
    clock, cells = chance.choice([chance.randint(0, 40)] * 9 + [10 ** 9 - 6]), sorted(site.cells)
    points, stations = [[cell for kind, cell in site.points.values() if kind in kinds] for kinds in (('station', 'parking'), ('station',))]
    places = []
    for start in site.starts:
        wanted = chance.choice([cells, cells, points, [start]])
        places.append(chance.choice([cell for cell in wanted if cell not in places] or [cell for cell in cells if cell not in places]))
    state = standing(site, homes, places)
    for agent in range(len(places)):
        if chance.random() < 0.25:
            state.paths[agent] = way(state, agent, [], {chance.choice(cells)}, 1) or state.paths[agent]
    tasks, busy = [], set()
    for _ in range(chance.randint(0, 2 * len(places) + 2) if stations else 0):
        stops = [chance.choice(stations) for _ in range(chance.choice([2, 2, 2, 3, 4, 8]))]
        agent, kind = chance.randrange(len(places)), chance.choice(['open', 'own', 'own', 'done'])
        made = {'open': 0, 'own': chance.randrange(len(stops)), 'done': len(stops)}[kind]
        if kind == 'own' and (agent in busy or stops[made] == places[agent]):
            kind, made = 'open', 0
        busy |= {agent} if kind == 'own' else set()
        submitted, *visits = sorted(chance.randint(max(0, clock - 50), clock) for _ in range(made + 1))
        who = ['open'] if kind == 'open' else ['agent', str(agent)] + ['visits', *map(str, visits)] * bool(visits)
        tasks.append(' '.join(['0', chance.choice('xyz'), str(submitted), *who, 'stops', told(stops)]))
    return front(homes, clock, [told(path) for path in state.paths], tasks, chance.random() < 0.02)


def standing(site, homes, places):
    """All agents at rest at these cells, of the judges without a state."""
    state = ends.Judge(site, homes)
    state.paths = [[place] for place in places]
    return state


def script(chance, site, rounds, ordering):
    """Requests in turn and ticks; orders come in so many of the rounds."""
    stations, agents, lines = [name for name, (kind, _) in site.points.items() if kind == 'station'], len(site.starts), []
    eager, orders = chance.choice([1, 1, 0.7]), chance.choice([0, 0.2, 1])
    for number in range(rounds):
        asking = [agent for agent in chance.sample(range(agents), agents) if chance.random() < eager]
        lines += [f'token {agent}' for agent in asking + asking[:chance.choice([0, 0, 1])]]
        if stations and number < ordering and chance.random() < orders:
            lines.insert(chance.randint(max(0, len(lines) - agents), len(lines)), ' '.join(['submit', 'w', *(chance.choice(stations) for _ in range(chance.choice([2, 2, 3])))]))
        lines.append('tick')
    return lines


# ---- the program

def ran(words, text):
    done = subprocess.run([PROGRAM, *words], input=text.encode(), capture_output=True, check=False, timeout=120)
    return done.stdout.decode(), done.stderr.decode(), done.returncode


def verified(site, log, homes):
    return ran(['verify', '--wlog', '3'] + ['--ends', 'homes'] * homes, site + log)[0].strip()


def resumed(site, state, lines, homes, chance):
    """The log that `replay --log` makes of a state by these lines, half of them by a process of its own; its replies are those of the log."""
    file = os.path.join(SCRATCH.name, 'run.log')
    for name in (file, file + '.site'):
        if os.path.exists(name):
            os.remove(name)
    with open(file, 'w') as log:
        log.write(state)
    words = ['replay', '--replies', 'full', '--log', file] + ['--ends', 'homes'] * homes + chance.choice([[], [], ['--planner', 'patient'], ['--slack', '4']])
    cut = chance.randint(0, len(lines))
    number = first = sum(int(word.split(':')[1]) for word in state.split('\nentries')[1].split('\n')[0].split())
    for part in (lines[:cut], lines[cut:]):
        out, said, status = ran(words, site + ''.join(line + '\n' for line in part))
        replies = out.split('\n')[:-1]
        same('what the program says', (said, status, replies[:1]), ('', 0, [f'entries {number}']))
        with open(file) as log:
            text = re.sub(r'end \d+\n$', '', log.read())    # a log of a closed warehouse is ended
        assert text.startswith(state), 'the state was changed'
        same('entries', text[len(state):].split('\n')[number - first:-1], [f'62 {line} = {reply}' for line, reply in zip(part, replies[1:])])
        number += len(part)
    out, said, status = ran(['state', '--log', file] + ['--ends', 'homes'] * homes, site)
    same('the state behind it', (said, status), ('', 0))
    return text, out


def same(name, found, wanted):
    if found != wanted:
        raise AssertionError(f'{name}: {found!r}, and not {wanted!r}')


# ---- entries made wrong

def wrong(judge, agent, reply):
    """Replies to a due agent's request that are none, with a word for what is wrong; paths are valid ones."""
    number, here, words = judge.next_for(agent), judge.paths[agent][-1], reply.split(' ')
    own, rests = judge.loads[agent], judge.may_rest(agent, here)
    if own is not None:
        yield 'rests with a task', 'rested'
        for other, task in enumerate(judge.tasks):
            if task.agent is None:
                yield 'the task of another', took(judge, agent, other, task.stops)
        if len(own.left()) > 1:
            reply = took(judge, agent, number, own.left()[1:])
            yield 'a stop left out', reply if reply and ends.visits_in(own.left(), ends.cells_of(reply.split(' ')[3:])) is None else None
    elif number is None and not rests:
        yield 'rests in the way', 'rested'
    if number is not None and judge.has_way(agent, judge.tour(agent, judge.tasks[number].left())):
        yield 'no path though there is a way', 'refused E6'
        yield 'parks though there is a way', parked(judge, agent, judge.allowed(agent))
    elif words[0] == 'parked':
        there = {cell for _, cell in judge.floor.points.values()} - judge.other_ends(agent)
        yield 'parks where it may not', parked(judge, agent, there - judge.allowed(agent))
        reach = judge.floor.reached(here, judge.other_ends(agent))
        if any(cell in reach for cell in judge.allowed(agent)):
            yield 'no path though it may park', 'refused E6'
    if reply in ('rested', 'refused E6'):
        yield 'parks and need not', parked(judge, agent, judge.allowed(agent)) if rests else None
    if own is None and words[0] == 'took':
        others = [other for other, task in enumerate(judge.tasks) if task.agent is None and other != number]
        yield 'another than the nearest', took(judge, agent, others[0], judge.tasks[others[0]].stops) if others else None


def took(judge, agent, number, stops):
    tour = judge.tour(agent, stops)
    path = way(judge, agent, tour, {tour[-1]}, len(judge.tour(agent, judge.tasks[number].stops)))
    return path and f'took {number} path {told(path)}'


def parked(judge, agent, cells):
    path = way(judge, agent, [], cells, 2)
    return path and f'parked {next(name for name, (_, cell) in judge.floor.points.items() if cell == path[-1])} path {told(path)}'


def all_again(judge, agent):
    """Entries by which an agent goes through all stops of its task, and not only those that are left: they are a run. And the tick that is
    none, as it counts the first of them once more."""
    own = judge.loads[agent]
    number, tour = judge.tasks.index(own), judge.tour(agent, own.stops)
    path = way(judge, agent, tour, {tour[-1]}, len(tour)) if own.visited else None
    if not path or path.index(own.stops[0]) == 0:
        return [], ''
    judge, entries = copy.deepcopy(judge), [f'62 token {agent} = took {number} path {told(path)}']
    judge.hear(entries[0])
    for step in range(path.index(own.stops[0])):
        if judge.clock == ends.LAST_CLOCK:
            return [], ''
        first, last = counted(judge)
        entries.append(f'62 tick = clock {judge.clock + 1} picked {first} dropped {last}')
        judge.hear(entries[-1])
    return entries, f'62 tick = clock {judge.clock} picked {first + 1} dropped {last}'


def miscounted(reply):
    """A tick that counts a visit more; an agent that has steps left one step more."""
    words = reply.split(' ')
    place = {'clock': 3, 'refused': 2}.get(words[0], 0)
    if words[:2] == ['refused', 'E6'] or not place or words[1] in ('E1', 'E2', 'E8', 'E7'):
        return []
    words[place] = str(int(words[place]) + 1)
    return [('one more', ' '.join(words))]


def counted(judge):
    """The visits that the next tick brings."""
    judge = copy.deepcopy(judge)
    judge.clock += 1
    judge.paths = [path[1:] or path for path in judge.paths]
    return judge.arrive()


def judge_both(name, site, log, homes, wanted):
    """Judge and `verify` say the same of a log."""
    same(name, judged(site, log, homes)[0], wanted)
    if not OPTIONS.no_program:
        same(f'{name}, by verify', verified(site, log, homes), wanted)


def closed_by(state, entries):
    return state + ''.join(entry + '\n' for entry in entries) + f'end {len(entries)}\n'


def spoil(chance, site, state, entries, homes):
    """Makes some entries wrong, each in one thing."""
    judge, begin, left = Judge(site, state, homes), state.count('\n'), 20
    for number, entry in enumerate(entries):
        event, reply = entry[3:].split(' = ')
        agent = due_agent(judge, event)
        is_stray = agent is not None and judge.is_stray(agent)
        if left > 0 and chance.random() < (0.5 if is_stray else 0.05):
            found = miscounted(reply) if agent is None else [(name, other) for name, other in wrong(judge, agent, reply) if other]
            for name, other in chance.sample(found, min(len(found), 2)):
                COUNTS[name] += 1
                left -= 1
                judge_both(name, site, closed_by(state, [*entries[:number], f'62 {event} = {other}']), homes, f'bad {begin + number + 1}')
            if is_stray and judge.loads[agent] is not None and chance.random() < 0.3:
                go_again(judge, agent, site, state, entries[:number])
        judge.hear(entry)
    return judge


def due_agent(judge, event):
    """The agent that asks and is due; None where the event is another."""
    agent = int(event[6:]) if event.startswith('token ') and not judge.closed else None
    return None if agent is None or judge.ticks_until_idle(agent) else agent


def go_again(judge, agent, site, state, entries):
    again, last = all_again(judge, agent)
    if again:
        COUNTS['from its first stop'] += 1
        log = [*entries, *again]
        judge_both('from its first stop', site, closed_by(state, log), judge.homes, f'run {len(log)}')
        judge_both('counted twice', site, closed_by(state, [*log[:-1], last]), judge.homes, f'bad {state.count(chr(10)) + len(log)}')


# ---- rows worked out by hand: a state, entries, and whether the last of these is a step; those before it are

FREE = ['0,1', '2,1']                            # agent 0 at P0, agent 1 in the aisle
CARRIES = '0 x 3 agent 1 visits 8 stops 1,0 3,0'    # agent 1 from A to B, picked up
FETCHES = '0 x 3 agent 1 stops 1,0 3,0'
OPEN = '0 y 5 open stops 1,2 3,2'                # from C to D
TO_B, TO_P1 = '2,1 3,1 3,0', '2,1 3,1 4,1'
ROWS = [
    # off a berth with nothing to do: to any berth; with homes to its own alone, and due at once
    (False, FREE, [], ['token 1 = rested'], False), (False, FREE, [], ['token 1 = refused E6'], False), (False, FREE, [], ['token 1 = parked A path 2,1 1,1 1,0'], True),
    (False, FREE, [], [f'token 1 = parked P1 path {TO_P1}', 'token 1 = refused E5 2'], True), (True, FREE, [], [f'token 1 = parked P1 path {TO_P1}', 'token 1 = rested'], True),
    (True, FREE, [], [f'token 1 = parked P2 path {TO_P1} 5,1'], False), (True, FREE, [], ['token 1 = parked A path 2,1 1,1 1,0'], False),
    (False, FREE, [], ['token 1 = parked P1 path 2,1 2,1 1,1 1,0'], False), (False, ['0,1', '2,1 3,1'], [], ['token 1 = refused E5 1'], True),
    # with goods on board: through what is left of its task; it may pass by what is not, and no pickup comes of that
    (False, FREE, [CARRIES], [f'token 1 = took 0 path {TO_B}', 'tick = clock 10 picked 0 dropped 0', 'tick = clock 11 picked 0 dropped 1', 'token 1 = rested'], True),
    (False, FREE, [CARRIES], ['token 1 = took 0 path 2,1 1,1 1,0 1,1 2,1 3,1 3,0', 'tick = clock 10 picked 0 dropped 0', 'tick = clock 11 picked 0 dropped 0'], True),
    (False, FREE, [CARRIES], ['token 1 = took 0 path 2,1 1,1 1,0 1,1 2,1 3,1 3,0', 'tick = clock 10 picked 0 dropped 0', 'tick = clock 11 picked 1 dropped 0'], False),
    (False, FREE, [CARRIES], ['token 1 = rested'], False), (False, FREE, [CARRIES], ['token 1 = refused E6'], False), (False, FREE, [CARRIES], [f'token 1 = parked P1 path {TO_P1}'], False),
    (False, FREE, [CARRIES, OPEN], ['token 1 = took 1 path 2,1 1,1 1,2 1,1 2,1 3,1 3,2'], False), (True, FREE, [CARRIES], [f'token 1 = took 0 path {TO_B}'], False),
    (True, FREE, [CARRIES], [f'token 1 = took 0 path {TO_B} 3,1 4,1', 'token 1 = refused E5 2'], True), (False, FREE, [FETCHES], [f'token 1 = took 0 path {TO_B}'], False),
    # at most twenty steps: ten passable cells for each of its stops, those that are visited too
    (False, FREE, [CARRIES], ['token 1 = took 0 path ' + '2,1 ' * 18 + TO_B], True), (False, FREE, [CARRIES], ['token 1 = took 0 path ' + '2,1 ' * 19 + TO_B], False),
    # another one stands in the aisle before B: it leaves the aisle, and stays at a berth; the other makes way, but not to B, where it is to go
    (False, ['3,1', '2,1'], [CARRIES], ['token 1 = refused E6'], False), (False, ['3,1', '2,1'], [CARRIES], ['token 1 = rested'], False),
    (False, ['3,1', '2,1'], [CARRIES], ['token 1 = parked P0 path 2,1 1,1 0,1', 'token 0 = parked D path 3,1 3,2'], True),
    (False, ['3,1', '2,1'], [CARRIES], ['token 0 = parked B path 3,1 3,0'], False), (False, ['3,1', '2,1'], [CARRIES], ['token 0 = refused E6'], False),
    (False, ['2,1', '0,1'], [CARRIES], ['token 1 = refused E6'], True), (False, ['2,1', '0,1'], [CARRIES], ['token 1 = parked A path 0,1 1,1 1,0'], False),
    (False, ['2,1', '0,1'], [CARRIES], ['token 1 = rested'], False),
    (False, ['2,1', '0,1'], [CARRIES], ['token 0 = parked D path 2,1 3,1 3,2', 'token 1 = took 0 path 0,1 1,1 2,1 3,1 3,0'], True),
    # another one rests where it is to go, and makes way for it; with homes nobody's cell is wanted
    (False, ['3,0', '0,1'], [CARRIES], ['token 0 = rested'], False), (False, ['3,0', '0,1'], [CARRIES], ['token 1 = refused E6', 'token 0 = parked D path 3,0 3,1 3,2'], True),
    (False, ['3,0', '0,1'], [FETCHES], ['token 0 = rested'], False), (False, ['1,0', '0,1'], [CARRIES], ['token 0 = rested'], True),
    (True, ['0,1', '4,1'], [CARRIES], ['token 0 = rested', 'token 1 = took 0 path 4,1 3,1 3,0 3,1 4,1'], True),
    # it stands at a later stop of its own task, and has no way to the next: its cell is wanted by itself
    (False, ['1,1', '3,0'], [FETCHES], ['token 1 = refused E6'], False), (False, ['1,1', '3,0'], [FETCHES], ['token 1 = parked D path 3,0 3,1 3,2'], True),
    (False, ['1,1', '3,2'], [FETCHES], ['token 1 = refused E6'], True), (False, ['1,1', '3,2'], [FETCHES], ['token 1 = parked B path 3,2 3,1 3,0'], False),
    # off a berth without a task: it takes what it can; where it has no way it makes way, which one at a berth does not
    (False, FREE, [OPEN], ['token 1 = took 0 path 2,1 1,1 1,2 1,1 2,1 3,1 3,2'], True), (False, FREE, [OPEN], [f'token 1 = parked P1 path {TO_P1}'], False),
    (False, FREE, [OPEN], ['token 1 = refused E6'], False), (False, ['1,1', '2,1'], [OPEN], ['token 1 = refused E6'], False),
    (False, ['1,1', '2,1'], [OPEN], [f'token 1 = parked P1 path {TO_P1}'], True), (False, ['1,1', '2,1'], [OPEN], ['token 1 = parked D path 2,1 3,1 3,2'], False),
    (False, ['1,1', '4,1'], [OPEN], ['token 1 = refused E6'], True), (False, ['1,1', '4,1'], [OPEN], ['token 1 = parked P2 path 4,1 5,1'], False),
    # it delivers on a path that ends elsewhere, and is awaited until it has
    (False, ['0,1', '2,1 3,1 3,0 3,1'], [CARRIES], ['tick = clock 10 picked 0 dropped 0', 'tick = clock 11 picked 0 dropped 1', 'tick = clock 12 picked 0 dropped 0',
                                                   'token 1 = parked B path 3,1 3,0'], True),
    (False, ['0,1', '2,1 3,1 3,0 3,1'], [CARRIES], ['tick = clock 10 picked 0 dropped 0', 'tick = clock 11 picked 0 dropped 1', 'tick = clock 12 picked 0 dropped 0',
                                                   'token 1 = rested'], False),
    # on the way on which it makes way it comes to the stop that is next
    (False, ['1,1', '2,1'], ['0 x 3 agent 1 visits 8 stops 1,0 3,2 1,2'], ['token 1 = parked P1 path 2,1 3,1 3,2 3,1 4,1', 'tick = clock 10 picked 0 dropped 0',
                                                                          'tick = clock 11 picked 0 dropped 0'], True),
    # two without a task, each before the other's home
    (True, ['4,1', '0,1'], [], ['token 0 = refused E6', 'token 1 = refused E6'], True), (True, ['4,1', '0,1'], [], ['token 0 = rested'], False),
    (True, ['4,1', '0,1'], [], ['token 0 = parked P2 path 4,1 5,1'], False), (True, ['4,1', '1,0'], [], ['token 0 = parked P0 path 4,1 3,1 2,1 1,1 0,1'], True),
]


def test_rows_worked_out_by_hand():
    for homes, paths, tasks, entries, is_good in ROWS:
        state = front(homes, 9, paths, tasks)
        log = closed_by(state, [f'62 {entry}' for entry in entries])
        judge_both(f'{paths} {tasks} {entries}', ends.CROSSING, log, homes, f'run {len(entries)}' if is_good else f'bad {state.count(chr(10)) + len(entries)}')


# ---- runs

def has_program():
    if OPTIONS.no_program:
        raise counting.Skipped('no program was asked for')


def compare_states(text, judge, site):
    """What `state` tells of the run is what the judge has."""
    told_judge = Judge(site, text, judge.homes)
    for name in ('clock', 'closed', 'paths'):
        same(f'the {name} of the state', getattr(told_judge, name), getattr(judge, name))
    same('the tasks of the state', [(task.stops, task.agent, task.visited) for task in told_judge.tasks], [(task.stops, task.agent, task.visited) for task in judge.tasks])


def compare_reader(site, log, judge):
    """The package's reader has agents and tasks of the log where the judge has them, and counts the visits that each tick tells."""
    run = read_log(read_instance('site', site.encode()), 'log', log.encode())
    same('the clock that is read', (run.clock, run.closed, run.differences()), (judge.clock, judge.closed, []))
    ways = [paths[-1].cells[min(run.clock - paths[-1].clock, len(paths[-1].cells) - 1):] for paths in run.paths]
    same('the paths that are read', ways, judge.paths)
    same('the tasks that are read', [(task.agent, len(task.visits)) for task in run.tasks], [(task.agent, task.visited) for task in judge.tasks])
    same('the agents that are read', [paths[-1].free <= run.clock for paths in run.paths], [not judge.ticks_until_idle(agent) for agent in range(len(judge.paths))])


def run_from(seed, chance, site, state, homes, rounds, ordering):
    """Runs it, and judges all of it; the judge at its end, the entries, and the state behind them."""
    try:
        lines = script(chance, ends.Floor(site), rounds, ordering)
        log, after = resumed(site, state, lines, homes, chance)
        entries = log[len(state):].split('\n')[:-1]
        judge_both('the run', site, closed_by(state, entries), homes, f'run {len(entries)}')
        judge = spoil(chance, site, state, entries, homes)
        compare_states(after, judge, site)
        compare_reader(site, log, judge)
        return judge, entries, after
    except AssertionError as why:
        kept = os.path.join(tempfile.gettempdir(), f'stray-{seed}')
        with open(kept, 'w') as file:
            file.write(site + state)
        raise AssertionError(f'seed {seed}, {kept}: {why}') from None


def seeds():
    has_program()
    for seed in range(OPTIONS.seed, OPTIONS.seed + OPTIONS.rounds):
        chance, homes = random.Random(seed), seed % 2 == 0
        site = floor(chance, homes, chance.random() < 0.3)
        yield seed, chance, site, homes


def test_states_on_their_ways():
    """From where all agents stand at their starts, and on from the midst of such a run: as ever, nobody is astray."""
    for seed, chance, site, homes in seeds():
        starts = [told([cell]) for cell in ends.Floor(site).starts]
        state = front(homes, chance.randint(0, 99), starts, [])
        for rounds in (chance.randint(1, 9), 12):
            judge, _, state = run_from(seed, chance, site, state, homes, rounds, rounds)
            assert all(map(judge.is_on_its_way, range(len(starts)))), seed


def test_states_made_up():
    homes_of = collections.Counter()
    for seed, chance, site, homes in seeds():
        floor_of = ends.Floor(site)
        state = made_up(chance, floor_of, homes)
        judge, entries, _ = run_from(seed, chance, site, state, homes, 60, 20)
        agents = range(len(judge.paths))
        kind = ('formed' if is_formed(floor_of) else 'not formed') + ', homes' * homes
        was, now = [all(map(one.is_on_its_way, agents)) for one in (Judge(site, state, homes), judge)]
        homes_of[f'{kind}: on their ways at first' if was else f'{kind}: came home' if now else f'{kind}: did not'] += not judge.closed
        assert now or not was, f'seed {seed}: all were on their ways'
        COUNTS.update(entry.split(' = ')[1].split(' ')[0] for entry in entries)
    print(', '.join(f'{name} {count}' for name, count in sorted(homes_of.items())))


def is_over(judge):
    """Whether nobody would do anything, now or later: all stand, and whoever asks rests or has no way."""
    for agent in range(len(judge.paths)):
        number, here = judge.next_for(agent), judge.paths[agent][-1]
        reached = judge.floor.reached(here, judge.other_ends(agent))
        if len(judge.paths[agent]) > 1 or number is not None and judge.has_way(agent, judge.tour(agent, judge.tasks[number].left())):
            return False
        if not judge.may_rest(agent, here) and (number is None or judge.is_stray(agent)) and any(cell in reached for cell in judge.allowed(agent)):
            return False
    return True


def test_drive_goes_on_from_them():
    """`tools/drive.py` asks until nobody would do anything; it ends well where all is delivered and nobody is astray, and else says why."""
    for seed, chance, site, homes in list(seeds())[:max(3, OPTIONS.rounds // 4)]:
        state = made_up(chance, ends.Floor(site), homes)
        if ' closed edited\n' in state or f'state {ends.LAST_CLOCK - 6} ' in state:
            continue
        files = [os.path.join(SCRATCH.name, f'{seed}.{name}') for name in ('site', 'log')]
        for file, text in zip(files, (site, state)):
            with open(file, 'w') as made:
                made.write(text)
        words = [sys.executable, os.path.join(ROOT, 'tools/drive.py'), files[0], '--log', files[1], '--program', f'{PROGRAM} replay', '--ask', chance.choice(['nearest', 'number', 'hold'])]
        done = subprocess.run(words + ['--ends', 'homes'] * homes, capture_output=True, text=True, check=False, timeout=120)
        with open(files[1]) as log:
            text = log.read()
        entries = text[len(state):].split('\n')[:-1]
        same(f'seed {seed}: the run of drive', judged(site, closed_by(state, entries), homes)[0], f'run {len(entries)}')
        judge = Judge(site, text, homes)
        for entry in entries:
            judge.hear(entry)
        well = not any(task.left() for task in judge.tasks) and all(map(judge.is_on_its_way, range(len(judge.paths))))
        COUNTS['drive came to its end' if well else 'drive told why not'] += 1
        same(f'seed {seed}: {done.stderr}', (done.returncode, is_over(judge)), (0 if well else 1, True))


def test_each_kind_of_wrong_entry_came():
    """With rounds enough."""
    has_program()
    print(', '.join(f'{name} {count}' for name, count in sorted(COUNTS.items())))
    if OPTIONS.rounds >= 100:
        missing = {'rests with a task', 'the task of another', 'a stop left out', 'rests in the way', 'no path though there is a way', 'parks though there is a way',
                   'parks where it may not', 'no path though it may park', 'parks and need not', 'another than the nearest', 'from its first stop'} - set(COUNTS)
        assert not missing, missing


if __name__ == '__main__':
    parser = argparse.ArgumentParser(description=__doc__, formatter_class=argparse.RawDescriptionHelpFormatter)
    parser.add_argument('--rounds', type=int, default=10)
    parser.add_argument('--seed', type=int, default=1)
    parser.add_argument('--no-program', action='store_true')
    OPTIONS = parser.parse_args()
    result = counting.run(globals())
    SCRATCH.cleanup()
    sys.exit(result)
