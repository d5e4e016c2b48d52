#!/usr/bin/env python3
"""Stops late vehicles anywhere, and goes on from where they stand: `state --log FILE --stand`.

    tests/stand.py 3               so many runs, for the gate
    tests/stand.py 300 --seed 7    by hand

Each run is a shift of simulated late vehicles (tools/drive.py --late), half of them under `--ends homes`. Its log is cut behind any entry, and
its file of arrivals behind any line that the log allows there, or within the next. What `state --log FILE --stand` writes is what this file works
out from the two alone, and changes neither. `replay --log` goes on from there with vehicles, whose reports come in any order; that log is
stopped in the same way, and the next one ends with all delivered. Each of the three verifies. Of a file of arrivals that is missing, of another
front, with a bad line or a step too far the same is told as by `replay --vehicles`.
"""
import collections
import hashlib
import os
import random
import subprocess
import sys

import seeded
from ends import CROSSING
from lives import ROOT, demand, read_file, write_file

RULE = 'rule nofollow\n'


class Run:
    """What a log tells, at its opening or from its front, and behind each entry."""

    def __init__(self, site: str, log: str, homes: bool):
        points = [line.split() for line in site.split('%%\n')[1].split('\n')]
        self.cells = {words[1]: f'{words[2]},{words[3]}' for words in points if words and words[0] in ('station', 'parking')}
        lines = log.split('\n')[:-1]
        self.homes, self.callers, self.closed = homes, collections.Counter(), False
        self.slots, self.paths, self.tasks, self.number = [], [], [], 1
        if lines[0] == 'wlog 3':
            head = lines.index('begin') + 1
            for line in lines[1:head]:
                self.take(line.split(' '))
        else:
            head, words = 2, lines[1].split(' ')
            self.clock, self.slots = int(words[1]), words[3:]
            self.paths = [[self.cells[words[1]]] for words in points if words and words[0] == 'agent']
        self.first, self.rows = self.clock, [[path[0] for path in self.paths]]
        entries = [line for line in lines[head:] if not line.startswith('end ')]
        for line in entries:
            self.hear(*(side.split(' ') for side in line.split(' = ')))
        self.text = '\n'.join(lines[:head] + entries + [''])

    def take(self, words: list[str]) -> None:
        """A line of the front."""
        if words[0] == 'after':
            self.number = int(words[1]) + 1
        elif words[0] == 'state':
            self.clock, self.closed = int(words[1]), words[2] == 'closed'
        elif words[0] == 'entries':
            self.callers.update({int(caller): int(count) for caller, count in (word.split(':') for word in words[1:])})
        elif words[0] == 'agent':
            self.slots.append(words[2])
            self.paths.append(words[4:])
        elif words[0] == 'task':
            who, stops = words[4:words.index('stops')], words[words.index('stops') + 1:]
            self.tasks.append([words[1:4], None if who == ['open'] else int(who[1]), [int(word) for word in who[3:]], stops])

    def hear(self, event: list[str], reply: list[str]) -> None:
        """An entry."""
        self.callers[int(event[0])] += 1
        if reply[0] == 'accepted':
            self.tasks.append([[event[0], event[2], str(self.clock)], None, [], [self.cells[name] for name in event[3:]]])
        elif reply[0] in ('took', 'parked'):
            self.paths[int(event[2])] = reply[3:]
            if reply[0] == 'took':
                self.tasks[int(reply[1])][1] = int(event[2])
        elif reply[0] == 'clock':
            self.clock, self.paths = int(reply[1]), [path[1:] or path for path in self.paths]
            self.rows.append([path[0] for path in self.paths])
        elif reply[0] == 'replaced':
            self.slots[int(event[2])] = reply[1]
        self.closed = self.closed or reply[0] == 'closed'
        for _, agent, visits, stops in self.tasks:
            while agent is not None and len(visits) < len(stops) and stops[len(visits)] == self.paths[agent][0]:
                visits.append(self.clock)

    def steps(self, arrivals: str) -> list[int]:
        """The furthest step that each vehicle has reported; a torn line does not count."""
        steps = [0] * len(self.paths)
        for line in arrivals.split('\n')[:-1]:
            if line.startswith('at '):
                _, agent, step = line.split(' ')
                steps[int(agent)] = max(steps[int(agent)], int(step))
        return steps

    def state(self, steps: list[int] | None) -> bytes:
        """The front of the next log: of the exact state, or as the vehicles stand at these steps."""
        text = self.text.encode()
        lines = ['wlog 3', f'after {self.number} {len(text)} {hashlib.sha256(text).hexdigest()}', *['rules ends homes'] * self.homes,
                 f'state {self.clock} {"closed" if self.closed else "open"} {"whole" if steps is None else "stopped"}',
                 ' '.join(['entries', *(f'{caller}:{count}' for caller, count in sorted(self.callers.items()))]), f'agents {len(self.paths)}']
        for agent, (slots, path) in enumerate(zip(self.slots, self.paths)):
            there = path if steps is None else [self.rows[steps[agent]][agent]]
            lines.append(' '.join(['agent slots', slots, 'path', *there]))
        lines.append(f'tasks {len(self.tasks)}')
        for head, agent, visits, stops in self.tasks:
            if steps is not None and agent is not None:
                late = [place for place, clock in enumerate(visits) if clock - self.first > steps[agent]]
                visits = visits[:(late + [len(visits)])[0]]
                agent = agent if visits else None
            who = ['open'] if agent is None else ['agent', str(agent)] + ['visits', *map(str, visits)] * bool(visits)
            lines.append(' '.join(['task', *head, *who, 'stops', *stops]))
        return '\n'.join(lines + ['begin', '']).encode()


class Stage:
    """A site with the program's words for it."""

    def __init__(self, program: str, site: str, homes: bool):
        self.program, self.site, self.homes = program, site, homes
        self.ends = ('--ends', 'homes') if homes else ()

    def run(self, *words: str, text: str = '') -> tuple[bytes, str, int]:
        done = subprocess.run([self.program, *words, *self.ends], input=(self.site + text).encode(), capture_output=True, timeout=120)
        return done.stdout, done.stderr.decode().replace('warehouse: not proved\n', ''), done.returncode

    def read(self, file: str) -> Run:
        return Run(self.site, read_file(file).decode(), self.homes)

    def stand(self, file: str, *words: str) -> tuple[bytes, str, int]:
        """What `state --stand` comes to; it changes no file."""
        before = [read_file(file + end) for end in ('', '.at', '.site')]
        came = self.run('state', '--log', file, '--stand', *words)
        demand([read_file(file + end) for end in ('', '.at', '.site')] == before, 'state changed a file')
        return came

    def verify(self, log: bytes, *words: str) -> str:
        return self.run('verify', '--wlog', '3', *words, text=log.decode())[0].decode()


def some_stops(chance: random.Random, stations: list[str], homes: bool) -> list[str]:
    """Two stops or three. Where two agents may rest at the first two of three for ever, the third is the first again."""
    first, second, third = chance.sample(stations, 3)
    return [first, second] + [third if homes else first] * (chance.random() < 0.3)


def shift(chance: random.Random, stage: Stage, folder: str) -> tuple[str, str]:
    """The log of a shift of late vehicles, and its file of arrivals."""
    instance, file = os.path.join(folder, 'instance'), os.path.join(folder, 'shift')
    stations = [line.split()[1] for line in stage.site.split('\n') if line.startswith('station ')]
    orders = ''.join(' '.join(['submit', chance.choice('xyz'), *some_stops(chance, stations, stage.homes)]) + '\n' for _ in range(chance.randint(3, 12)))
    write_file(instance, (stage.site + orders).encode())
    done = subprocess.run(
        [sys.executable, os.path.join(ROOT, 'tools', 'drive.py'), instance, '--program', f'{stage.program} replay', '--late', str(chance.randrange(1000)),
         '--spread', '0.9', '--ahead', '2', '--behind', '6', '--ask', 'number', '--log', file, *stage.ends], capture_output=True, timeout=300)
    demand(done.returncode == 0, f'the shift: {done.stderr.decode()[-300:]}')
    return read_file(file).decode(), read_file(file + '.at').decode()


def cut(chance: random.Random, stage: Stage, log: str, arrivals: str, file: str) -> None:
    """The files as a shift leaves them that is cut at any moment."""
    lines = [line for line in log.split('\n')[:-1] if not line.startswith('end ')]
    log = '\n'.join(lines[:chance.randint(2, len(lines))] + [''])
    run = Run(stage.site, log, stage.homes)
    most, told = run.clock - run.first, arrivals.split('\n')[:-1]
    kept = next((number for number, line in enumerate(told) if int(line.split(' ')[2]) > most), len(told))
    kept = chance.choice((kept, chance.randint(1, kept)))
    write_file(file, (log + chance.choice(('', '62 ti'))).encode())
    write_file(file + '.at', ('\n'.join(told[:kept] + ['']) + chance.choice(('', 'at 0 '))).encode())


def stopped(stage: Stage, file: str, seen: collections.Counter) -> bytes:
    """The front of the next log, which is what the two files tell."""
    run, steps = stage.read(file), stage.read(file).steps((read_file(file + '.at') or b'').decode())
    demand(stage.run('state', '--log', file)[0] == run.state(None), 'this file reads the log otherwise')
    front, wanted = stage.stand(file), run.state(steps)
    demand(front == (wanted, '', 0), f'{front[1:]} {front[0].decode()}\nwanted\n{wanted.decode()}')
    demand(stage.verify(wanted + b'end 0\n') == 'run 0\n', 'verify does not take the state')
    last = run.clock - run.first
    seen['vehicles behind'] += sum(step < last for step in steps)
    seen['orders open again'] += wanted.count(b' open stops ') - run.state(None).count(b' open stops ')
    return wanted


def go_on(chance: random.Random, stage: Stage, front: bytes, file: str) -> None:
    """A run from this front with vehicles, whose reports come in any order, some for steps that were not granted."""
    write_file(file, front)
    agents, script = front.count(b'\nagent slots '), []
    for _ in range(chance.randint(5, 40)):
        script += [f'token {agent}' for agent in range(agents) if chance.random() < 0.7] + ['tick']
        script += [f'at {chance.randrange(agents)} {chance.randint(0, 30)}' for _ in range(chance.randint(0, 4))]
    done = stage.run('replay', '--vehicles', '--ahead', '5', '--behind', '6', '--log', file, text='%%\n'.join(['', ''])[3:] + '\n'.join(script) + '\n')
    demand(done[2] == 0, f'the run from the stand: {done[1]}')


def refused(stage: Stage, file: str) -> None:
    """Files of arrivals that are refused, as `replay --vehicles` refuses them."""
    run, at = stage.read(file), read_file(file + '.at')
    last = run.clock - run.first
    texts = [b'at 0 0\nat 999 0\n', b'at 0 0\ntick\n', b'front 3 ' + b'0' * 64 + b'\n', b'at 0 0\nat 0 %d\n' % (last + 1)] + [b''] * (last > 0)
    for text in texts:
        write_file(file + '.at', text)
        wanted = stage.run('replay', '--vehicles', '--log', file)
        demand(wanted[1].startswith('refused L1 at ') and wanted[2] == 1, f'replay takes {text!r}: {wanted}')
        demand(stage.stand(file) == (b'', *wanted[1:]), f'state --stand, of {text!r}: {stage.stand(file)}, wanted {wanted}')
    write_file(file + '.at', at)
    demand(stage.stand(file, '--after', '0')[::2] == (b'', 2), '--stand goes with --after')
    loose = Stage(stage.program, stage.site.replace(RULE, ''), stage.homes)
    demand(loose.stand(file) == (b'', 'refused V4\n', 1), 'without the rule')


def run(chance: random.Random, program: str, folder: str, seen: collections.Counter) -> None:
    homes = chance.random() < 0.5
    stage = Stage(program, CROSSING.removesuffix('%%\n') + RULE + '%%\n', homes)
    log, arrivals = shift(chance, stage, folder)
    first, second, third = (os.path.join(folder, name) for name in ('first', 'second', 'third'))
    for _ in range(5):
        cut(chance, stage, log, arrivals, first)
        front = stopped(stage, first, seen)
        seen['stands'] += 1
    refused(stage, first)
    go_on(chance, stage, front, second)
    write_file(third, stopped(stage, second, seen))
    seen['stands of later logs'] += 1
    done = stage.run('replay', '--deliver', '--log', third, text='close\n' if chance.random() < 0.1 else '')
    demand(done[2] == 0, f'the last run: {done[1]}')
    for file in (second, third):
        demand(stage.verify(read_file(file), '--unended').startswith('run '), f'{file} does not verify')
    seen['runs'] += 1


if __name__ == '__main__':
    seeded.main(__doc__, run)
