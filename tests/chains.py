#!/usr/bin/env python3
"""Chains of logs, each of which goes on from where the one before has come to: `verify --chain`.

    tests/chains.py 3               so many chains, for the gate
    tests/chains.py 300 --seed 7    by hand

A chain has two to four logs. The first is cut from a shift of late vehicles (tests/stand.py); the next ones begin with the front of the state after
it, of its vehicles as they stand, or with one that somebody has edited, and go on with requests at random. What `verify --chain` says is worked out
here: a line for each that begins with no exact state, and how many entries all have; without `--unended` the line where the end is missing. Then a
line of a later log's front is changed: the log before, a count, the state's kind, a client; it is told by number of its log and line, or not, where
it is edited. Of logs left out or in another order the first is told that does not go on.
"""
import collections
import os
import random

import seeded
from ends import CROSSING
from lives import demand, read_file, write_file
from stand import RULE, Stage, cut, shift


def whole_lines(text: str) -> str:
    """Without a torn last line: so a log stands before a line `%%`."""
    return text[:text.rfind('\n') + 1]


def front_of(chance: random.Random, stage: Stage, file: str, kind: str) -> bytes:
    """The front with which the next log begins."""
    run = stage.read(file)
    if kind == 'stopped':
        return run.state(run.steps((read_file(file + '.at') or b'').decode()))
    front = run.state(None)
    return front if kind == 'whole' else edited(chance, front.replace(b' whole\n', b' edited\n'))


def edited(chance: random.Random, front: bytes) -> bytes:
    """Somebody has put other clients' names to the orders, and taken visits back of those that are done."""
    lines = front.decode().split('\n')
    for place, line in enumerate(lines):
        if line.startswith('task ') and chance.random() < 0.5:
            words = line.split(' ')
            words[2] = 'edited'
            lines[place] = ' '.join(words)
    return '\n'.join(lines).encode()


def go_on(chance: random.Random, stage: Stage, front: bytes, file: str, closes: bool) -> None:
    """A run from this front."""
    write_file(file, front)
    agents, script = front.count(b'\nagent slots '), []
    for _ in range(chance.randint(0, 25)):
        script += [f'token {agent}' for agent in range(agents) if chance.random() < 0.7] + ['tick'] * chance.randint(0, 2)
    done = stage.run('replay', '--log', file, text='\n'.join(script + ['close'] * closes) + '\n')
    demand(done[2] == 0, f'the run from a front: {done[1]}')


def entries_of(log: str) -> int:
    """How many entries a log has."""
    return sum(' = ' in line for line in log.split('\n'))


def said(stage: Stage, logs: list[str], *words: str) -> str:
    return stage.run('verify', '--chain', *words, text='%%\n'.join(logs))[0].decode()


def changed(chance: random.Random, front: list[str]) -> tuple[int, str, bool] | None:
    """A line of a front and what it is changed to, and whether an edited state may be so."""
    place = chance.choice([1, 1, *range(2, len(front))])
    words = front[place].split(' ')
    if words[0] == 'after':
        at = chance.choice((1, 2, 3))
        words[at] = str(int(words[at]) + 1) if at < 3 else words[at][:-1] + ('0' if words[at][-1] != '0' else '1')
        return place, ' '.join(words), False
    if words[0] == 'entries':
        return place, ' '.join([*words, '63:7']), False
    if words[0] == 'task':
        words[2] = words[2] + 'z'
        return place, ' '.join(words), True
    if words[0] == 'agent':
        words[2] = str(int(words[2]) % 64 + 2)
        return place, ' '.join(words), True
    return None


def break_it(chance: random.Random, stage: Stage, logs: list[str], kinds: list[str], seen: collections.Counter) -> None:
    """Changes a line of a later front."""
    log = chance.randrange(1, len(logs))
    lines = logs[log].split('\n')
    change = changed(chance, lines[:lines.index('begin')])
    if change is None:
        return
    place, line, may_be_edited = change
    lines[place] = line
    new = logs[:log] + ['\n'.join(lines)] + logs[log + 1:]
    heard = said(stage, new, '--unended').split('\n')[-2]
    if not may_be_edited or kinds[log] != 'edited':
        demand(heard == f'bad {log + 1} {place + 1}', f'log {log + 1}, line {place + 1} is `{line}`: {heard}')
        seen['lines changed'] += 1
    elif log + 1 < len(logs):
        demand(heard.startswith(f'bad {log + 2} '), f'the log behind an edit of log {log + 1}: {heard}')
        seen['edits behind which another does not go on'] += 1


def run(chance: random.Random, program: str, folder: str, seen: collections.Counter) -> None:
    stage = Stage(program, CROSSING.removesuffix('%%\n') + RULE + '%%\n', chance.random() < 0.5)
    first = os.path.join(folder, '1')
    cut(chance, stage, *shift(chance, stage, folder), first)
    logs, kinds, closes, file = [whole_lines(read_file(first).decode())], ['first'], False, first
    write_file(first, logs[0].encode())
    for number in range(2, chance.randint(2, 4) + 1):
        kinds.append(chance.choice(('whole', 'whole', 'stopped', 'edited') if number == 2 else ('whole', 'edited')))
        front, file = front_of(chance, stage, file, kinds[-1]), os.path.join(folder, str(number))
        closes = closes or chance.random() < 0.2
        go_on(chance, stage, front, file, closes and kinds[-1] != '')
        logs.append(read_file(file).decode())
        seen[kinds[-1]] += 1
    ended = logs[-1].split('\n')[-2].startswith('end ')
    joins = ''.join(f'{kind} {number}\n' for number, kind in enumerate(kinds, 1) if kind in ('stopped', 'edited'))
    entries = sum(map(entries_of, logs))
    wanted = f'{joins}run {entries}{"" if ended else " unended"}\n'
    demand(said(stage, logs, '--unended') == wanted, f'{said(stage, logs, "--unended")} and not {wanted}')
    if not ended:
        joins = ''.join(f'{kind} {number}\n' for number, kind in enumerate(kinds[:-1], 1) if kind in ('stopped', 'edited'))
        wanted = f'{joins}bad {len(logs)} {logs[-1].count(chr(10)) + 1}\n'
    demand(said(stage, logs) == wanted, f'{said(stage, logs)} and not {wanted}')
    for _ in range(6):
        break_it(chance, stage, logs, kinds, seen)
    if len(logs) > 2:
        demand(said(stage, logs[:1] + logs[2:], '--unended').split('\n')[-2] == 'bad 2 2', 'a log is left out')
    demand(said(stage, logs[:1] + logs[:1], '--unended') == 'bad 2 1\n', 'the first log again')
    demand(said(stage, logs[1:], '--unended').split('\n')[-2].startswith('run '), 'a chain whose first logs are lost')
    seen['chains'] += 1


if __name__ == '__main__':
    seeded.main(__doc__, run)
