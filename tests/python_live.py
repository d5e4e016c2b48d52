#!/usr/bin/env python3
"""Tests of the page of a running floor (`dashboard`), over files that grow as a service's do.

    tests/python_live.py [--no-program]

The program is that of WAREHOUSE, else the one that the gate built. The last line is `N passed, M failed`, and `, K skipped` where a test needs what is
not here; status 1 where one failed.
"""
from __future__ import annotations

import contextlib
import hashlib
import http.client
import itertools
import json
import os
import random
import re
import subprocess
import sys
import threading
import time
from collections import deque
from typing import Iterator

import counting
from tools_drive import ENVIRONMENT, PROGRAM, ROOT, SCRATCH, file, has, same, text_of

sys.path.insert(0, os.path.join(ROOT, 'python'))
sys.dont_write_bytecode = True

from warehouse.fleet import POLICIES, Fleet    # noqa: E402
from warehouse.replies import Go, Reply    # noqa: E402
from warehouse.session import Session, Vehicles    # noqa: E402
from warehouse.texts import read_arrivals, read_file, read_instance, read_log, read_orders    # noqa: E402
from warehouse.web.dashboard import Server, serve    # noqa: E402
from warehouse.web.data import data_of    # noqa: E402
from warehouse.web.follow import Follower    # noqa: E402
from warehouse.web.runs import continues    # noqa: E402
from warehouse.web.tail import Tail    # noqa: E402

DELIVERIES = os.path.join(ROOT, 'examples', 'deliveries')
SHELVES = os.path.join(ROOT, 'examples', 'shelves')
LINES = text_of('examples', 'deliveries.log').splitlines(keepends=True)
NAMES = itertools.count()
NEEDS_PROGRAM = ['test_a_state_of_the_program_is_continued', 'test_grants_are_those_of_the_program', 'test_a_page_begins_in_the_middle']


def new(text: str = '') -> str:
    """A log of its own, with nothing beside it."""
    new.count = getattr(new, 'count', 0) + 1
    return file(f'log-{new.count}', text)


new.name = lambda: os.path.join(SCRATCH.name, f'log-{next(NAMES)}-later')


def append(name: str, text: str) -> None:
    with open(name, 'a') as log:
        log.write(text)


@contextlib.contextmanager
def served(log: str, instance: str = DELIVERIES, **more) -> Iterator[Server]:
    server = serve(instance, log, '127.0.0.1', 0, **more)
    thread = threading.Thread(target=server.serve_forever, kwargs={'poll_interval': 0.02}, daemon=True)
    thread.start()
    try:
        yield server
    finally:
        server.shutdown()
        server.server_close()


def get(server: Server, path: str) -> tuple[int, str]:
    connection = http.client.HTTPConnection(*server.server_address[:2], timeout=10)
    connection.request('GET', path)
    reply = connection.getresponse()
    return reply.status, reply.read().decode()


def until(what, seconds: float = 8.0) -> None:
    end = time.monotonic() + seconds
    while not what():
        assert time.monotonic() < end, 'it did not come'
        time.sleep(0.02)


class Page:
    """What a browser hears: the events, and how many bytes they were."""

    def __init__(self, server: Server):
        self.connection = http.client.HTTPConnection(*server.server_address[:2], timeout=10)
        self.connection.request('GET', '/events')
        self.reply = self.connection.getresponse()

    def event(self) -> tuple[str, dict, int]:
        kind, size = '', 0
        while True:
            line = self.reply.readline()
            assert line, 'the server has ended it'
            size += len(line)
            if line.startswith(b'event: '):
                kind = line[7:].decode().strip()
            elif line.startswith(b'data: '):
                return kind, json.loads(line[6:]), size + len(self.reply.readline())

    def news(self) -> tuple[dict, int]:
        """The next event that tells of entries."""
        while True:
            kind, data, size = self.event()
            if kind == 'more' and 'clock' in data:
                return data, size

    def close(self) -> None:
        self.reply.close()
        self.connection.close()


def late() -> tuple[str, list[str], list[str]]:
    """Of a run of examples/shelves with late vehicles: the instance under `rule nofollow`, the log's lines, what was told."""
    if not hasattr(late, 'kept'):
        log, told = (os.path.join(SCRATCH.name, name) for name in ('late.log', 'late.told'))
        words = [sys.executable, os.path.join(ROOT, 'tools', 'drive.py'), SHELVES, '--late', '3', '--ahead', '3', '--spread', '0.6', '--save', log,
                 '--transcript', told]
        done = subprocess.run(words, capture_output=True, text=True, env=ENVIRONMENT, timeout=60)
        assert done.returncode == 0, done.stderr
        site = file('late.instance', read_instance(SHELVES, read_file(SHELVES)).with_nofollow().text.decode())
        with open(log) as lines, open(told) as said:
            late.kept = site, lines.read().splitlines(keepends=True), said.read().splitlines()
    return late.kept


def moved(log: str, orders: list, ticks: int, seed: int) -> list[str]:
    """Late vehicles over a log for so many ticks, each told step reported at chance moments, and the program killed then: what it told."""
    chance, told = random.Random(seed), []
    with Session(read_instance(SHELVES, read_file(SHELVES)).with_nofollow(), PROGRAM, log=log, vehicles=Vehicles(8, 3), replies='full') as core:
        due: list[deque[int]] = [deque() for _ in core.instance.starts]

        def hear(line: str, reply: Reply) -> None:
            new = core.take_told()
            told.extend(f'0 {one}' for one in (reply, *new))
            for one in new:
                if isinstance(one, Go):
                    due[one.agent].append(one.step)
        fleet = Fleet(core, orders, POLICIES['number'], listen=hear, state=core.state)
        fleet.policy(fleet)
        while fleet.clock < ticks:
            if fleet.held is None and fleet.tick():
                fleet.policy(fleet)
            for agent, steps in enumerate(due):
                if steps and chance.random() < .75:
                    step = steps.popleft()
                    hear(f'at {agent} {step}', core.at(agent, step))
                    fleet.held = None if fleet.held == agent else fleet.held
        core.kill()
    return told


def steps_of(lines: list[str], told: list[str], head: int = 2) -> Iterator[tuple[str, str, str]]:
    """What the files get with each line that the program wrote: entries of the log, reports, and the line."""
    entries = iter(lines[head:])
    for said in told:
        words = said.split(' ')[1:]
        entry = words[0] in ('accepted', 'took', 'parked', 'rested', 'clock') or words[:2] == ['refused', 'E6']
        yield next(entries) if entry else '', f'at {words[1]} {words[2]}\n' if words[0] == 'arrived' else '', ' '.join(words)


# ----------------------------------------------------------------------------------------------- files

def test_lines_come_whole_and_once() -> None:
    name = new('a\nb\nto')
    tail = Tail(name, end=True)
    same(tail.look(), [b'a', b'b'])
    append(name, 'rn\nend 3\n')
    same((tail.look(), tail.ended), ([b'torn'], True))
    with open(name, 'r+') as text:    # the run is resumed: its line `end` is cut off
        text.truncate(len('a\nb\ntorn\n'))
    append(name, 'c\n')
    same((tail.look(), tail.ended, tail.look()), ([b'c'], False, []))


def test_a_cut_or_replaced_file_is_noticed() -> None:
    for change in ('x\n', 'a\nx\nlonger than before\n', ''):
        name = new('a\nb\n')
        tail = Tail(name)
        tail.look()
        with open(name, 'w') as text:
            text.write(change)
        same(tail.look(), None)
    name = new('a\nb\n')
    tail = Tail(name)
    tail.look()
    os.replace(new('a\nb\n'), name)
    same(tail.look(), None)
    os.remove(name)
    same((Tail(name).look(), tail.look()), ([], None))


# ------------------------------------------------------------------------------------------- the model

def test_grants_are_those_of_the_program() -> None:
    """Line by line: from log and reports alone the cells that the program granted, the visits that it told, and no more."""
    site, lines, told = late()
    log = new()
    with open(log, 'a', buffering=1) as text, open(log + '.at', 'a', buffering=1) as reports:
        text.writelines(lines[:2])
        reports.write('at 0 0\n')
        floor = Follower(read_instance(site, read_file(site)), 'shelves', log, 3)
        floor.look()
        due: list[tuple[str, ...]] = []
        count, pending = {'go': 0, 'visited': 0}, False
        for entry, report, said in [*list(steps_of(lines, told))[:7000], ('end', '', '')]:
            if (kind := said.split(' ')[0]) in count:
                due.append((kind, *said.split(' ')[1:4]))
                count[kind] += 1
            elif entry or report:
                if pending:    # the lines that the one before brought have come
                    vehicles = (floor.look() or {})['vehicles']
                    found = [('visited', floor.run.tasks[task].agent, task, k) for task, _, k in vehicles['visits']]
                    found += [('go', agent, step, ','.join(map(str, floor.run.cell_at(agent, step)))) for agent, _, step in vehicles['go']]
                    same(sorted(tuple(map(str, one)) for one in found), sorted(due))
                    same(floor.vehicles.meetings(), [])
                text.write(entry)
                reports.write(report)
                pending, due = True, []
    same((count['go'] > 1000, count['visited'] > 50), (True, True))


def test_a_state_of_the_program_is_continued() -> None:
    """A run with late vehicles is killed at clock 120, and its state begins another log: line by line, what the program tells there, in a view that
    began with that log, and where one begins in the middle of it."""
    first, later = new.name(), new.name()
    moved(first, read_orders(SHELVES, read_file(SHELVES)), 120, 1)
    instance = read_instance(SHELVES, read_file(SHELVES)).with_nofollow()
    with open(later, 'wb') as log:
        log.write(subprocess.run([PROGRAM, 'state', '--log', first], input=instance.text, stdout=subprocess.PIPE, check=True).stdout)
    told = moved(later, [], 150, 2)
    with open(later) as log:
        lines = log.read().splitlines(keepends=True)
    head = lines.index('begin\n') + 1
    name = new(''.join(lines[:head]))
    file(os.path.basename(name) + '.at', f'front 1 {"a" * 64}\n')
    floor, due, count, began, seen = Follower(instance, 'shelves', name, 3), [], 0, 0, None
    floor.look()
    run = floor.run
    before = {number: task.before for number, task in enumerate(run.tasks)}
    same((run.start, continues(run.front, first), sum(before.values()) > 30, floor.vehicles.behind()), (120, True, True, [0] * len(run.paths)))
    for entry, report, said in steps_of(lines, told, head):
        kind, *words = said.split(' ')
        if kind == 'go':
            due.append((kind, words[0], str(int(words[1]) + 120), words[2]))
        elif kind == 'visited' and int(words[2]) >= before[int(words[1])]:    # visits of the state are told again
            due.append((kind, *words))
        elif entry or report:
            news = (seen or floor.look() or {}).get('vehicles') or {'visits': [], 'go': []}
            found = [('visited', run.tasks[task].agent, task, k) for task, _, k in news['visits']]
            found += [('go', agent, step, ','.join(map(str, run.cell_at(agent, step)))) for agent, _, step in news['go']]
            same(sorted(tuple(map(str, one)) for one in found), sorted(due))
            append(name, entry)
            append(name + '.at', report)
            count, due, seen = count + len(due), [], None
            if entry.startswith('62 tick = clock 1') and int(entry.split(' ')[4]) % 10 == 0:
                seen = floor.look()
                middle = Follower(instance, 'shelves', name, 3)
                middle.look()
                one, other = ((each.done, each.vehicles.behind(), [each.vehicles.cells(agent) for agent in range(len(run.paths))]) for each in (floor, middle))
                same(one, other)
                began += 1
    same((count > 200, began), (True, 3))


def test_news_add_up_to_the_run() -> None:
    """What a page has by the run that it began with and all that was new is what one has that begins at the end."""
    log = new(''.join(LINES[:5]))
    floor = Follower(read_instance(DELIVERIES, read_file(DELIVERIES)), 'deliveries', log)
    same(floor.look(), None)
    run = floor.begun()
    for line in LINES[5:]:
        append(log, line)
        news = floor.look()
        if line.startswith('end '):
            same((news, floor.log.ended), (None, True))
            break
        run |= {name: news[name] for name in ('clock', 'entries', 'answers')}
        run['tasks'] += news['tasks']
        run['events'] = run['events'] + news['events']
        rows = {row[6]: row for row in run['tasks']}
        for number, *rest in news['changed']:
            rows[number][3:6] = rest
        for agent, way in news['ways']:
            run['ways'][agent].append(way)
    last = Follower(floor.instance, 'deliveries', log)
    last.look()
    for ways in run['ways']:    # what a path at the first clock has taken the place of is left out
        ways[:] = [way for way, after in zip(ways, [*ways[1:], [1]]) if after[0] > run['start']]
    same(run, last.begun())
    # and of the finished log the same paths, tasks and visits
    whole = data_of(read_log(floor.instance, log, read_file(log)), 'deliveries', None, None)
    same(([ways[-1:] for ways in run['ways']], [row[:6] for row in run['tasks']]), ([ways[-1:] for ways in whole['ways']], whole['tasks']))
    same(sorted(map(str, run['events'])), sorted(map(str, whole['events'])))


def test_reports_are_read_as_before() -> None:
    same(read_arrivals('a', b'at 0 0\nat 1 0000000003\nat 0 7\nat 1 2', 2), [7, 3])


# ------------------------------------------------------------------------------------------ the server

def test_events_hold_only_what_is_new() -> None:
    log = new(''.join(LINES[:6]))
    with served(log) as server:
        listener = Page(server)
        kind, run, size = listener.event()
        same((kind, run['clock'], len(run['tasks']), [len(ways) for ways in run['ways']], size < 3000), ('run', 0, 2, [1, 1], True))
        append(log, LINES[6])
        news, size = listener.news()
        same((news['clock'], news['tasks'], news['changed'], news['ways'], news['events']), (1, [], [], [], []))
        assert size < 450, size
        append(log, LINES[7])
        same([event[2:] for event in listener.news()[0]['events']], [['visit', 0, 0], ['visit', 1, 0]])
        append(log, LINES[8][:9])    # a torn line is no entry yet
        append(log, LINES[8][9:])
        same(listener.news()[0]['clock'], 3)
        listener.close()


def test_a_page_begins_in_the_middle() -> None:
    site, lines, _ = late()
    cut = next(i for i, line in enumerate(lines) if ' = clock 400 ' in line) + 1
    log = new(''.join(lines[:cut]))
    with served(log, site) as server:
        Page(server).event()
        began = time.monotonic()
        listener = Page(server)
        kind, run, size = listener.event()
        took = time.monotonic() - began
        same((kind, run['clock'], took < 1), ('run', 400, True))
        append(log, ''.join(lines[cut:cut + 40]))
        news, more = listener.news()
        same((news['clock'] > 400, more * 10 < size), (True, True))
        listener.close()


def test_vehicles_come_with_their_reports() -> None:
    log = new(''.join(LINES[:6]))
    file(os.path.basename(log) + '.at', 'at 0 0\n')
    with served(log, ahead=2, behind=2, patience=0.0) as server:
        listener = Page(server)
        vehicles = listener.event()[1]['vehicles']
        same((vehicles['at'], vehicles['go'], vehicles['ticks']), ([[[0, 0]], [[0, 0]]], [[], []], []))
        append(log, LINES[6])
        append(log, LINES[7])
        same(sorted((agent, step) for agent, _, step in listener.news()[0]['vehicles']['go'])[:1], [(0, 1)])
        until(lambda: get(server, '/health')[0] == 503)
        has(get(server, '/health')[1], 'the clock waits for vehicle 0, 2 steps behind')
        append(log + '.at', 'at 0 2\nat 1 2\n')
        until(lambda: get(server, '/health')[0] == 200)
        has(get(server, '/metrics')[1], 'warehouse_most_steps_behind 0\n', 'warehouse_tasks{phase="carried"} 2\n')
        append(log + '.at', 'at 0 1\nat 1 1\n')    # repeated reports change nothing
        append(log, LINES[8])
        until(lambda: 'warehouse_most_steps_behind 1\n' in get(server, '/metrics')[1])
        listener.close()


def test_two_vehicles_in_one_cell_are_an_alarm() -> None:
    # by the log agent 1 is at 3,1 at clock 1 and 3, and agent 0 comes there at clock 5: now its report says so while 1 is in it
    log = new(''.join(LINES[:11]))
    file(os.path.basename(log) + '.at', 'at 0 0\nat 1 3\n')
    with served(log) as server:
        until(lambda: get(server, '/health')[0] == 200)
        append(log + '.at', 'at 0 5\n')
        until(lambda: 'vehicles 0 and 1 are both granted cell 3,1' in get(server, '/health')[1])
        same(get(server, '/health')[0], 503)


def test_metrics_and_health() -> None:
    log = os.path.join(SCRATCH.name, 'comes-later')
    with served(log) as server:
        until(lambda: get(server, '/health')[0] == 503)
        same(json.loads(get(server, '/health')[1]), {'alarms': [f'there is no log {log}']})
        append(log, ''.join(LINES[:-1]))
        until(lambda: get(server, '/health')[0] == 200)
        status, text = get(server, '/metrics')
        same((status, get(server, '/none')[0]), (200, 404))
        rows = dict(re.fullmatch(r'(warehouse_\w+(?:\{\w+="\w+"\})?) (\S+)', line).groups() for line in text.splitlines() if not line.startswith('#'))
        for name, wanted in (('entries_total', '16'), ('clock', '9'), ('tasks{phase="done"}', '2'), ('tasks{phase="open"}', '0'), ('agents', '2'),
                             ('requests_total{answer="took"}', '2'), ('alarms', '0'), ('pages', '0')):
            same((name, rows[f'warehouse_{name}']), (name, wanted))
        same(len(re.findall(r'^# TYPE warehouse_\w+ (?:gauge|counter)$', text, re.M)), len(re.findall(r'^# HELP ', text, re.M)))


def test_alarms_of_the_log() -> None:
    log = new(''.join(LINES[:6]))
    with served(log) as server:
        append(log, ''.join(LINES[6:-2]) + '0 submit x A B = accepted 2\n0 token 0 = rested\n')
        until(lambda: 'entries_total 17' in get(server, '/metrics')[1])
        same(get(server, '/health')[0], 200)
        append(log, '0 token 1 = rested\n')    # now all have been asked since the order came
        until(lambda: 'standstill' in get(server, '/health')[1])
        append(log, '0 submit x A B = accepted 3\n')
        until(lambda: get(server, '/health')[0] == 200)
        append(log, '0 token 0 = refused E6\n')
        until(lambda: '1 request without a path (E6)' in get(server, '/health')[1])


def test_a_log_that_is_cut_or_replaced() -> None:
    log = new(''.join(LINES[:10]))
    with served(log) as server:
        listener = Page(server)
        same(listener.event()[1]['entries'], 8)
        for text, entries in ((''.join(LINES[:7]), 5), ('wlog 2\nstart 0 slots 4 4\n', 0)):
            with open(log, 'w') as cut:
                cut.write(text)
            kind, data, _ = listener.event()
            while kind != 'run' or data['entries'] != entries:
                kind, data, _ = listener.event()
        os.replace(new(''.join(LINES[:9])), log)
        while kind != 'run' or data['entries'] != 7:
            kind, data, _ = listener.event()
        append(log, 'no entry\n')
        until(lambda: 'line 10: `no entry` is no entry of a log' in get(server, '/health')[1])
        listener.close()


def test_the_page_goes_on_with_the_next_run() -> None:
    """Agent 1 is lost at D: run 2 begins with agent 0 where it stands, at 1,1 between two points, and without B; then agent 1 is back."""
    log = new(''.join(LINES[:8]))
    base = os.path.basename(log)
    file(base + '.keys', '{"book":1,"name":"00000000"}\n{"key":"k","run":1,"task":0,"client":"x","stops":["A","B"],"first":0}\n')
    with served(log) as server:
        listener = Page(server)
        kind, run, _ = listener.event()
        same((kind, run['title'], run['clock'], get(server, '/health')[0]), ('run', 'deliveries', 2, 200))
        file(base + '.2', ''.join(LINES[:2]) + '0 submit x A C = accepted 0\n')
        append(log + '.keys', '{"run":2,"cells":[[1,1],[3,2]],"blocked":[[3,0]],"out":[1],"carried":{}}\n')
        kind, run, _ = listener.event()
        while kind != 'run' or run['entries'] != 1:
            kind, run, _ = listener.event()
        same((run['title'], [point[1:] for point in run['points']], [way[0][1:3] for way in run['ways']], [task[0] for task in run['tasks']]),
             ('deliveries, run 2', [['P0', 0, 1], ['P1', 4, 1], ['A', 1, 0], ['C', 1, 2], ['D', 3, 2], ['at-0', 1, 1]], [[1, 1], [3, 2]], ['x']))
        same(get(server, '/health'), (503, '{"alarms": ["vehicle 1 is out of use"]}\n'))
        append(log + '.2', '0 token 0 = took 0 path 1,1 1,0 1,1 1,2\n')    # what is new is of this run
        same(listener.news()[0]['ways'], [[0, [0, 1, 1, 0, -1, 'UDD']]])
        append(log + '.keys', '{"run":3,"cells":[[1,1],[3,2]],"blocked":[],"out":[],"carried":{}}\n')
        until(lambda: f'there is no log {log}.3' in get(server, '/health')[1])
        file(base + '.3', ''.join(LINES[:2]))
        until(lambda: get(server, '/health')[0] == 200)
        listener.close()
    with served(log) as server:    # one that begins now has the last of them
        kind, run, _ = Page(server).event()
        until(lambda: get(server, '/health')[0] == 200)
        same(run['title'], 'deliveries, run 3')


def front_of(text: str, clock: int = 2) -> str:
    """The state to which the first lines of examples/deliveries.log lead, at clock 2."""
    return f"""wlog 3
after 1 {len(text)} {hashlib.sha256(text.encode()).hexdigest()}
state {clock} open whole
entries 0:6
agents 2
agent slots 4 path 1,0 1,1 2,1 3,1 3,0
agent slots 4 path 3,2 3,1 3,1 3,2 3,1 2,1 1,1 1,2
tasks 2
task 0 x 0 agent 0 visits 2 stops 1,0 3,0
task 0 y 0 agent 1 visits 2 stops 3,2 1,2
begin
"""


def test_the_page_continues_with_the_next_log() -> None:
    """From the state that the log before had: agents, loads, orders, clock and counts are those of the state, and what is new comes behind it."""
    text = ''.join(LINES[:8])
    log, later, last = new(text), new.name(), new.name()
    with served(log, later=[later, last]) as server:
        listener = Page(server)
        same(listener.event()[1]['front'], None)
        append(later, front_of(text)[:-20])    # no page sees half of it
        append(log, '')
        append(later, front_of(text)[-20:])
        kind, run, _ = listener.event()
        while kind != 'run':
            kind, run, _ = listener.event()
        same((run['title'], run['front'], run['start'], run['clock'], run['left_out']),
             (f'deliveries, {os.path.basename(later)}', {'log': 2, 'clock': 2, 'kind': 'whole', 'entries': 6, 'done': []}, 2, 2, 0))
        same(run['ways'], [[[2, 1, 0, 0, -1, 'DRRU']], [[2, 3, 2, 1, -1, 'U.DULLD']]])
        same(([task[:6] for task in run['tasks']], run['events']),
             ([['x', [2, 3], 0, 0, 2, [2, 6]], ['y', [5, 4], 0, 1, 2, [2, 9]]], [[2, 0, 'began', 6], [2, 0, 'kept', 0, 1], [2, 0, 'kept', 1, 1]]))
        same(get(server, '/health'), (200, '{"alarms": []}\n'))
        has(get(server, '/metrics')[1], 'warehouse_entries_total 6\n', 'warehouse_log 2\n', 'warehouse_tasks{phase="carried"} 2\n')
        append(later, LINES[8])
        news = listener.news()[0]
        same((news['clock'], news['entries'], news['events']), (3, 1, []))
        append(last, ''.join(LINES[:3]))    # of a run of its own
        until(lambda: get(server, '/health') == (503, json.dumps({'alarms': [f'{last} begins with no state']}) + '\n'))
        os.remove(last)
        append(last, front_of(text, 3).replace('after 1', 'after 2'))    # of another log
        until(lambda: get(server, '/health') == (503, json.dumps({'alarms': [f'{last} does not continue {later}']}) + '\n'))
        listener.close()
    with served(log, later=[later, last]) as server:    # one that begins now has the last of them
        kind, run, _ = Page(server).event()
        while kind != 'run' or run['front'] is None:
            kind, run, _ = Page(server).event()
        same((run['front']['log'], run['front']['clock']), (3, 3))


def test_all_that_is_done_is_counted() -> None:
    """A page has the last minutes, and counts what was done before them; an agent's tasks are visited in their turn, whatever their numbers."""
    rest = ''.join(f'0 tick = clock {clock} picked 0 dropped 0\n' for clock in range(10, 1000))
    log = new(''.join(LINES[:-2]).replace('0 close = closed\n', '') + rest)
    floor = Follower(read_instance(DELIVERIES, read_file(DELIVERIES)), 'deliveries', log)
    floor.look()
    run = floor.begun()
    same((floor.done, run['tasks'], run['left_out']), (2, [], 2))
    # agent 0 takes task 1 first, and task 0 behind it
    log = new('''wlog 2
start 0 slots 4 4
0 submit x B A = accepted 0
0 submit x A B = accepted 1
0 token 0 = took 1 path 0,1 1,1 1,0 1,1 2,1 3,1 3,0
''' + ''.join(f'0 tick = clock {clock} picked {int(clock == 2)} dropped {int(clock == 6)}\n' for clock in range(1, 7)) + '''0 token 0 = took 0 path 3,0 3,1 2,1 1,1 1,0
0 tick = clock 7 picked 0 dropped 0
''')
    file(os.path.basename(log) + '.at', 'at 0 0\nat 0 6\n')
    floor = Follower(read_instance(DELIVERIES, read_file(DELIVERIES)), 'deliveries', log)
    floor.look()
    same((floor.done, floor.is_done(1), floor.is_done(0), len(floor.vehicles.visits[0])), (1, True, False, 1))


def test_a_page_that_goes_away() -> None:
    log = new(''.join(LINES[:6]))
    with served(log) as server:
        pages = [Page(server) for _ in range(3)]
        for one in pages:
            one.event()
        until(lambda: 'warehouse_pages 3\n' in get(server, '/metrics')[1])
        for one in pages[1:]:
            one.close()
        for line in LINES[6:14]:    # what is sent finds them gone
            append(log, line)
            pages[0].news()
        until(lambda: 'warehouse_pages 1\n' in get(server, '/metrics')[1])
        pages[0].close()


def test_what_is_old_is_dropped() -> None:
    """After a long rest: no old paths, reports or tasks, and a page that begins then draws vehicles where they are."""
    log = new(''.join(LINES[:-1]).replace('0 close = closed\n', ''))
    file(os.path.basename(log) + '.at', 'at 0 0\nat 0 6\nat 1 9\n')
    floor = Follower(read_instance(DELIVERIES, read_file(DELIVERIES)), 'deliveries', log)
    floor.look()
    floor.began -= 2000    # more than half an hour ago
    floor.look()
    append(log, ''.join(f'0 tick = clock {clock} picked 0 dropped 0\n' for clock in range(10, 3000)))
    floor.look()
    floor.began -= 2000
    append(log, ''.join(f'0 tick = clock {clock} picked 0 dropped 0\n' for clock in range(3000, 3100)))
    floor.look()
    run = floor.begun()
    same((run['tasks'], [len(ways) for ways in run['ways']], run['vehicles']['go']), ([], [1, 1], [[], []]))
    base = run['vehicles']['base']
    same((base >= 2999, [came[0][1] >= base for came in run['vehicles']['at']], floor.vehicles.cells(0), floor.vehicles.behind()), (True, [True, True], [(3, 0)], [0, 0]))
    same((floor.done, floor.events, floor.vehicles.visits), (2, [], {}))


def test_it_listens_at_home() -> None:
    same(run_here('--help').count('127.0.0.1') > 1, True)
    has(run_here('--help'), 'INSTANCE LOG [LOG ...]')
    for words, told in ((['/none', 'log'], '/none'), ([DELIVERIES, 'log', '--port', '70000'], '--port'), ([DELIVERIES, 'log', '--ahead', '0'], '--ahead')):
        has(run_here(*words), told)


def run_here(*words: str) -> str:
    done = subprocess.run([sys.executable, os.path.join(ROOT, 'tools', 'dashboard.py'), *words], capture_output=True, text=True, timeout=20)
    assert 'Traceback' not in done.stderr, done.stderr
    return done.stdout + done.stderr


if __name__ == '__main__':
    counting.main(globals(), NEEDS_PROGRAM, SCRATCH)
