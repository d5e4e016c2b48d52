#!/usr/bin/env python3
"""Judges states, with which a log of version 3 may begin: by tests/state_judge.py, written from docs/FORMATS.md alone, and by the program.

    tests/states.py --rounds 3             few instances, for the gate; --no-program: those of the reference implementation, judged here alone
    tests/states.py --rounds 500           by hand, some 50,000 states

Each round makes an instance from its seed as tests/peer.py does, and a run on it; half of the runs are under `--ends homes`. The run is cut
behind an entry, and what it is then is written as a state by this file: as it is, or as if all had been stopped where they stood. The
state is sound; with the rest of the entries behind it, it is a run. Then lines of the state are edited: a word, a line left out, doubled
or moved, a number out of range, a path through a wall, two that meet late, clocks out of order, a second task of an agent, an agent at its
next stop. Of each text the judge says whether it is sound, or the first line that is not, and why, in the order of the tests S1 to S11.
`verify --wlog 3` must say the same, and `replay --log` with the reason. Where the program knows no `--wlog` this is skipped, and so are the
reasons where it tells none. The package's reader of logs takes every sound state, and
reads from a whole one and the rest of the entries the run that it reads from all entries.
"""
import argparse
import collections
import os
import random
import subprocess
import sys
import tempfile

import counting
import ends
import peer
from state_judge import judged, pairs

ROOT = os.path.dirname(os.path.dirname(os.path.abspath(__file__)))
sys.path.insert(0, os.path.join(ROOT, 'python'))
sys.dont_write_bytecode = True

from warehouse.texts import Fault, read_instance, read_log    # noqa: E402

PROGRAM = os.environ.get('WAREHOUSE') or os.path.join(ROOT, 'crates/warehouse/out/warehouse')
SCRATCH = tempfile.TemporaryDirectory()
OPTIONS = argparse.Namespace(rounds=3, seed=1, edits=20, no_program=False)
SUM = '4be1' * 16

# ---- states of a run

class Recorder(ends.Judge):
    """A run, with what a state tells beside where all are."""

    def __init__(self, floor, homes, log):
        super().__init__(floor, homes)
        self.lines = log.split('\n')[:-2]
        self.clock, self.slots = int(self.lines[1].split()[1]), self.lines[1].split()[3:]
        self.callers, self.orders, self.visits = collections.Counter(), [], []

    def hear(self, line):
        event, reply = (side.split(' ') for side in line.split(' = '))
        getattr(self, event[1])(event[2:], reply)
        self.callers[int(event[0])] += 1
        if reply[0] == 'accepted':
            self.orders.append((event[0], event[2], self.clock))
            self.visits.append([])
        if reply[0] == 'replaced':
            self.slots[int(event[2])] = reply[1]
        for task, visits in zip(self.tasks, self.visits):
            visits += [self.clock] * (task.visited - len(visits))

    def state(self, kind='whole', age=None):
        """The lines of the state; of `stopped` all stand where they are, and what nobody has picked up is open again."""
        paths = [path[:1] if kind == 'stopped' else path for path in self.paths]
        rules = ['ends homes'] * self.homes + [f'age {age}'] * (age is not None)
        lines = ['wlog 3', 'after 0', *[' '.join(['rules', *rules])] * bool(rules), f'state {self.clock} {"closed" if self.closed else "open"} {kind}',
                 ' '.join(['entries', *(f'{caller}:{count}' for caller, count in sorted(self.callers.items()))]), f'agents {len(paths)}']
        lines += [f'agent slots {slots} path {" ".join("%d,%d" % cell for cell in path)}' for slots, path in zip(self.slots, paths)]
        lines.append(f'tasks {len(self.tasks)}')
        for (caller, client, submitted), task, visits in zip(self.orders, self.tasks, self.visits):
            is_open = task.agent is None or (kind == 'stopped' and not visits)
            who = ['open'] if is_open else ['agent', str(task.agent)] + ['visits', *map(str, visits)] * bool(visits)
            lines.append(' '.join(['task', caller, client, str(submitted), *who, 'stops', *('%d,%d' % cell for cell in task.stops)]))
        return lines + ['begin']


def instance(seed):
    """Map and points made from a seed, all of it, and whether its paths go home."""
    homes = seed % 2 == 0
    text = peer.instance(random.Random(seed), seed % 5 == 0, homes)
    return '%%\n'.join(text.decode().split('%%\n')[:2]) + '%%\n', text, homes


def built_peer():
    path = os.path.join(SCRATCH.name, 'peer')
    if not os.path.exists(path):
        try:
            subprocess.run(['g++', '-O1', '-std=c++17', '-o', path, os.path.join(ROOT, 'dev/peer/main.cpp')], check=True)
        except FileNotFoundError:
            raise counting.Skipped('no g++') from None
    return path


def made_log(text, homes):
    """The log of the instance's run: by the program, or by the reference implementation."""
    words = [built_peer(), 'log'] + ['homes'] * homes if OPTIONS.no_program else [PROGRAM, 'replay', '--tail', 'log'] + ['--ends', 'homes'] * homes
    ran = subprocess.run(words, input=text, capture_output=True, check=True, timeout=600)
    return ran.stdout.decode().partition('\n%%\n')[2]


# ---- edits

def numbered(chance, word):
    """Another word in place of one."""
    odd = ['', 'x', '-1', '00', '1 ', '4294967296', '65536', '4096', '1000000001', '999999999', '18446744073709551616', '63', '64', '0', '1', '2', '9']
    if word.isdigit() and chance.random() < 0.7:
        return str(max(0, int(word) + chance.choice([-2, -1, 1, 2, 10])))
    if ',' in word and chance.random() < 0.8:
        x, y = (int(side) for side in word.split(','))
        return f'{max(0, x + chance.choice([-1, 0, 1]))},{max(0, y + chance.choice([-1, 0, 1]))}'
    return chance.choice(odd + ['open', 'closed', 'whole', 'agent', 'visits', 'stops', 'homes', 'age', 'x' * 17, '3,3', '0,0', '65535,0', SUM])


def edit_word(chance, lines, floor):
    number = chance.randrange(len(lines))
    words = lines[number].split(' ')
    place = chance.randrange(len(words))
    words[place] = numbered(chance, words[place])
    lines[number] = ' '.join(words)


def edit_words(chance, lines, floor):
    """A word is left out, doubled, or changes places with the next."""
    number = chance.randrange(len(lines))
    words = lines[number].split(' ')
    place, deed = chance.randrange(len(words)), chance.randrange(3)
    words[place:place + 2] = [words[place + 1:place + 2], words[place:place + 1] * 2 + words[place + 1:place + 2], words[place:place + 2][::-1]][deed]
    lines[number] = ' '.join(words)


def edit_lines(chance, lines, floor):
    """A line is left out, doubled or moved."""
    number, deed = chance.randrange(len(lines)), chance.randrange(3)
    line = lines[number] if deed == 1 else lines.pop(number)
    if deed:
        lines.insert(chance.randrange(len(lines) + 1) if deed == 2 else number, line)


def edit_bytes(chance, lines, floor):
    number = chance.randrange(len(lines))
    place = chance.randrange(len(lines[number]) + 1)
    lines[number] = lines[number][:place] + chance.choice([' ', '\t', '\r', '0', ',', 'é', '']) + lines[number][place + chance.randrange(2):]


def edit_path(chance, lines, floor):
    """A path is cut, waits, comes too early, or goes another way at random: so that two meet, now or late."""
    number = chance.choice([n for n, line in enumerate(lines) if line.startswith('agent ')])
    head, _, tail = lines[number].partition(' path ')
    path, deed = pairs(tail), chance.randrange(6)
    place = chance.randrange(len(path))
    if deed == 0:
        path = path[:place + 1]
    elif deed == 1:
        path[place:place] = [path[place]] * chance.randint(1, 3)
    elif deed == 2:
        path = path[place:]
    elif deed == 3:
        path = path[:place + 1] + walk(chance, floor, path[place], chance.randint(1, 12))
    elif deed == 4:
        del path[place:place + chance.choice([1, 1, 2])]
    else:
        other = pairs(chance.choice([line for line in lines if line.startswith('agent ')]).partition(' path ')[2])
        path = chance.choice([other[-1:], other[:1], path + other[::-1], path[::-1]])
    lines[number] = f'{head} path {" ".join("%d,%d" % cell for cell in path or [(0, 0)])}'


def walk(chance, floor, cell, steps):
    """A walk at random; one in eight goes through walls."""
    found, free = [], chance.random() < 0.875
    for _ in range(steps):
        x, y = found[-1] if found else cell
        beside = [(x + u, y + v) for u, v in ((0, 0), (1, 0), (-1, 0), (0, 1), (0, -1)) if x + u >= 0 and y + v >= 0]
        found.append(chance.choice([other for other in beside if not free or other in floor.cells] or [(x, y)]))
    return found


def edit_task(chance, lines, floor):
    """A task has another agent, is at another stop, has other clocks or other stops."""
    numbers = [n for n, line in enumerate(lines) if line.startswith('task ') and ' stops ' in line]
    if not numbers:
        return edit_path(chance, lines, floor)
    number = chance.choice(numbers)
    head, _, tail = lines[number].partition(' stops ')
    words, stops = head.split(' '), tail.split(' ')
    agents = [line.split(' ')[4] for line in lines if line.startswith('agent slots ')]
    clock, visits, deed = int(words[3]), words[7:] if words[4] == 'agent' else [], chance.randrange(6)
    agent = words[5] if words[4] == 'agent' else str(chance.randrange(len(agents)))
    if deed == 0:
        agent = str(chance.randrange(len(agents) + 2))
    elif deed == 1:
        visits = visits[:-1] if visits and chance.random() < 0.5 else visits + [visits[-1] if visits else str(clock)]
    elif deed == 2:
        visits = [str(max(0, int(visit) + chance.choice([0, -3, 3, -1, 1]))) for visit in visits] or [str(clock)]
    elif deed == 3 and len(visits) < len(stops):
        line = [n for n, line in enumerate(lines) if line.startswith('agent slots ')][int(agent) % len(agents)]
        if chance.random() < 0.7:
            lines[line] = f'{lines[line].partition(" path ")[0]} path {stops[len(visits)]}'    # its agent is there
        else:
            stops[len(visits)] = chance.choice(agents)
    elif deed == 4:
        stops[chance.randrange(len(stops))] = '%d,%d' % chance.choice([cell for _, cell in floor.points.values()] + sorted(floor.cells)[:3] + [(0, 0)])
    else:
        words[3] = str(max(0, clock + chance.choice([-1, 1, 100])))
    who = ['open'] if chance.random() < 0.1 else ['agent', agent] + ['visits', *visits] * bool(visits)
    lines[number] = ' '.join([*words[:4], *who, 'stops', *stops])


def edit_rules(chance, lines, floor):
    number = next((n for n, line in enumerate(lines) if line.startswith('rules')), None)
    if number is not None and chance.random() < 0.3:
        del lines[number]
    else:
        words = chance.choice(['rules ends homes', 'rules age 600', 'rules ends homes age 600', 'rules ends stops', 'rules', 'rules age 0', 'rules age 600 ends homes'])
        lines[2:2 + (number is not None)] = [words]


def edit_counts(chance, lines, floor):
    number = chance.choice([n for n, line in enumerate(lines) if line.split(' ')[0] in ('agents', 'tasks', 'entries')] or [0])
    words = lines[number].split(' ')
    words[1:] = [str(max(0, int(words[1]) + chance.choice([-1, 1])))] if words[-1].isdigit() and len(words) == 2 else chance.choice([['0:1', '0:2'], ['64:1'], ['5:0'], ['1:2', '63:4']])
    lines[number] = ' '.join(words)


def edit_after(chance, lines, floor):
    lines[1:2] = [chance.choice([f'after 1 805 {SUM}', f'after 0 805 {SUM}', f'after 7 18446744073709551615 {SUM}', f'after 1 18446744073709551616 {SUM}', 'after 1',
                                 f'after 1 805 {SUM[:-1]}', f'after 1 805 {SUM.upper()}', 'after 00'])]


EDITS = [edit_word] * 4 + [edit_words] * 2 + [edit_lines] * 3 + [edit_path] * 6 + [edit_task] * 6 + [edit_bytes, edit_rules, edit_counts, edit_after]


def edited(chance, lines, floor):
    """The text of a state with one edit, or two; now and then cut off."""
    lines = list(lines)
    for _ in range(chance.choice([1, 1, 1, 2])):
        try:
            chance.choice(EDITS)(chance, lines, floor)
        except (ValueError, IndexError):
            pass    # of lines that the first edit broke
    text = ''.join(line + '\n' for line in lines)
    return text[:chance.randrange(len(text))] if text and chance.random() < 0.03 else text


# ---- what the program says

def helped(*words):
    return subprocess.run([PROGRAM, *words, '--help'], capture_output=True, check=False).stdout.decode()


def verified(site, text, homes):
    """What `verify` says of a state with no entry behind it."""
    words = [PROGRAM, 'verify', '--wlog', '3'] + ['--ends', 'homes'] * homes
    ran = subprocess.run(words, input=(site + text + 'end 0\n' * text.endswith('\n')).encode('latin-1'), capture_output=True, check=False, timeout=60)
    return ran.stdout.decode('latin-1').strip(), ran.returncode


def reason(site, text, homes):
    """What `replay --log` says of it on standard error, and whether the file is as it was; `entries` and no more where it is taken."""
    file = os.path.join(SCRATCH.name, 'state.log')
    with open(file, 'wb') as made:
        made.write(text.encode('latin-1'))
    for name in (file + '.site', file + '.at'):
        if os.path.exists(name):
            os.remove(name)
    words = [PROGRAM, 'replay', '--log', file] + ['--ends', 'homes'] * homes
    ran = subprocess.run(words, input=site.encode(), capture_output=True, check=False, timeout=60)
    with open(file, 'rb') as made:
        kept = made.read().decode('latin-1') == text
    return ran.stderr.decode('latin-1'), ran.returncode, kept


def is_earlier(text):
    return text.split('\n')[0] in ('wlog 1', 'wlog 2') and '\n' in text


def expected(found, text):
    """What `verify` says by the judge: of a sound state that its entries, which are none, are a run; else the line. Line 2 of a state is no
    line of an earlier version."""
    number, why = found
    if is_earlier(text):
        return 'bad 2', 1
    if number:
        return f'bad {number}', 1
    behind = (text + 'end 0\n').split('\n')[why - 1:]
    return ('run 0', 0) if behind == ['end 0', ''] else (f'bad {why}', 1)


HAS = {}


def has_program():
    if OPTIONS.no_program:
        raise counting.Skipped('no program was asked for')
    if 'wlog' not in HAS:
        HAS['wlog'] = '--wlog' in helped('verify')
    if not HAS['wlog']:
        raise counting.Skipped('the program has no verify --wlog')


def tells_reasons():
    """Whether `replay --log` tells why a state is refused."""
    if 'reasons' not in HAS:
        said = reason(SITE, ROW.replace('agents 2', 'agents 1'), False)[0]
        HAS['reasons'] = said == 'refused S2\nrefused L1 line 5\n'
        if not HAS['reasons']:
            print(f'reasons are not compared: `replay --log` says {said!r} of a state with one agent')
    return HAS['reasons']


def compare(site, text, homes, found, seed):
    """The program says of the state what the judge says."""
    wanted = expected(found, text)
    same(seed, text, verified(site, text, homes), wanted)
    number, why = found
    is_known = text.startswith('wlog 3\n')    # else FILE may be one that a start makes anew, or of another version
    if number and is_known and tells_reasons():
        same(seed, text, reason(site, text, homes), (f'refused {why}\nrefused L1 line {number}\n', 1, True))


def same(seed, text, found, wanted):
    if found != wanted:
        kept = os.path.join(tempfile.gettempdir(), f'state-{seed}')
        with open(kept, 'w', encoding='latin-1', newline='') as file:
            file.write(text)
        raise AssertionError(f'seed {seed}, {kept}: {found!r}, and not {wanted!r}')


# ---- rows worked out by hand

SITE = ends.CROSSING
# Agent 0 carries task 1 from A to B; agent 1 rests at P1; task 0 is done, at stops of which one is a wall now; task 2 is open.
ROW = f'''wlog 3
after 1 805 {SUM}
state 9 open edited
entries 0:12 63:400
agents 2
agent slots 4 path 1,1 2,1 3,1 3,0
agent slots 64 path 4,1
tasks 3
task 63 w 0 agent 1 visits 2 9 stops 0,0 4,1
task 0 x 3 agent 0 visits 8 stops 1,0 3,0
task 0 y 9 open stops 3,2 1,2
begin
'''
ROWS = [
    # as it is; without tasks; at the last clock; with an agent that passes behind another, into a cell that it leaves
    ('', '', 0, ''), ('after 1 805 ' + SUM, 'after 0', 0, ''), ('entries 0:12 63:400', 'entries', 0, ''), ('open edited', 'closed whole', 0, ''),
    ('state 9', 'state 1000000000', 0, ''), ('path 4,1', 'path 0,1 1,1 2,1 2,1 2,1 2,1 3,1 4,1', 0, ''),
    # S1: form and range
    ('wlog 3', 'wlog 2', 1, 'S1'), ('wlog 3', 'wlog 3 ', 1, 'S1'), ('after 1', 'after 01', 2, 'S1'), ('after 1', 'after 0', 2, 'S1'), ('state 9', 'state 1000000001', 3, 'S1'),
    ('0:12 63:400', '63:400 0:12', 4, 'S1'), ('0:12', '0:0', 4, 'S1'), ('0:12 63', '0:12 64', 4, 'S1'), ('agents 2', 'agents 0', 5, 'S1'), ('agents 2', 'agents 257', 5, 'S1'),
    ('slots 4 path', 'slots 4 path ', 6, 'S1'), ('slots 4', 'slots 4294967296', 6, 'S1'), ('1,1 2,1', '1,1 65536,1', 6, 'S1'), ('tasks 3', 'tasks 1000001', 8, 'S1'),
    ('task 63', 'task 64', 9, 'S1'), ('visits 8', 'visits', 10, 'S1'), ('1,0 3,0', '1,0', 10, 'S1'), ('visits 8', 'visits 8 8 8', 10, 'S1'), ('y 9 open', 'y 9', 11, 'S1'),
    ('y 9 open', 'y 9 open visits 9', 11, 'S1'), ('y 9', 'abcdefghijklmnopq 9', 11, 'S1'), ('begin\n', 'begin', 12, 'S1'), ('begin\n', '', 12, 'S1'), ('state 9', '\nstate 9', 3, 'S1'),
    ('wlog 3\n', 'wlog 3\r\n', 1, 'S1'), ('entries', 'agents 2\nentries', 4, 'S1'),
    # S2: counts
    ('agents 2', 'agents 3', 5, 'S2'), ('agent slots 64 path 4,1\n', '', 7, 'S2'), ('tasks 3', 'agent slots 4 path 0,1\ntasks 3', 8, 'S2'), ('tasks 3', 'tasks 4', 12, 'S2'),
    ('tasks 3', 'tasks 2', 11, 'S2'), ('tasks 3', 'tasks 0', 9, 'S2'), ('tasks 3', 'agent slots x path 0,1\ntasks 3', 8, 'S1'),
    # S3 to S5: paths
    ('1,1 2,1 3,1 3,0', '1,1 2,1 2,0 3,0', 6, 'S3 2,0'), ('1,1 2,1 3,1 3,0', '1,1 9,1 0,0', 6, 'S3 9,1'), ('path 4,1', 'path 65535,65535', 7, 'S3 65535,65535'),
    ('1,1 2,1 3,1 3,0', '1,1 3,1 3,0', 6, 'S4'), ('1,1 2,1 3,1 3,0', '1,1 2,1 3,0', 6, 'S4'), ('path 4,1', 'path 1,1', 7, 'S5 0'), ('path 4,1', 'path 3,0', 7, 'S5 0'),
    ('path 4,1', 'path 4,1 3,1 2,1', 7, 'S5 0'), ('path 4,1', 'path 4,1 4,1 3,1 3,0', 7, 'S5 0'), ('path 4,1', 'path 4,1 4,1 4,1 4,1 4,1 3,1 3,0', 7, 'S5 0'),
    # S6 to S10: tasks
    ('3,2 1,2', '3,2 2,1', 11, 'S6 2,1'), ('3,2 1,2', '0,1 2,1', 11, 'S6 0,1'), ('1,0 3,0', '1,1 3,0', 10, 'S6 1,1'), ('y 9', 'y 10', 11, 'S7'), ('visits 8', 'visits 2', 10, 'S7'),
    ('visits 8', 'visits 10', 10, 'S7'), ('visits 2 9', 'visits 9 2', 9, 'S7'), ('agent 1 visits 2 9', 'agent 2 visits 2 9', 9, 'S8 2'), ('y 9 open', 'y 9 agent 2', 11, 'S8 2'),
    ('y 9 open', 'y 9 agent 0', 11, 'S9 1'), ('y 9 open', 'y 9 agent 0 visits 9', 11, 'S9 1'), ('1,1 2,1 3,1 3,0', '3,0', 10, 'S10 1'), ('path 4,1', 'path 3,2', 0, ''),
    # sound too: paths that end at no point or not at the last stop, a task whose agent stands elsewhere
    ('1,1 2,1 3,1 3,0', '1,1 2,1 3,1', 0, ''), ('1,1 2,1 3,1 3,0', '1,1 0,1', 0, ''), ('path 4,1', 'path 4,1 3,1 2,1', 7, 'S5 0'), ('path 4,1', 'path 4,1 4,1 4,1 3,1 2,1', 0, ''),
    ('y 9 open', 'y 9 agent 1', 0, ''),
    # slots, behind all of these
    ('slots 64', 'slots 65', 7, 'S1'), ('slots 4', 'slots 1', 6, 'S1'), ('slots 64 path 4,1', 'slots 1 path 2,1 1,1', 7, 'S5 0'), ('slots 64 path 4,1', 'slots 1 path 2,1', 7, 'S5 0'),
    ('slots 64 path 4,1', 'slots 1 path 4,1 4,1 4,1 3,1 2,1', 7, 'S1'),
]
AT_NEXT = ROW.replace('path 4,1', 'path 3,2').replace('y 9 open', 'y 9 agent 1')
HOMEWARD = ROW.replace('state 9', 'rules ends homes\nstate 9').replace('3,1 3,0', '3,1 3,0 3,1 2,1 1,1 0,1')


def says(site, text, wanted, homes=False):
    """What the judge says of a text, and the program, where it knows states."""
    found = judged(site, text, homes)
    same('of a row', text, found[:1] + ((found[1],) if found[0] else ('',)), wanted)
    if HAS.get('wlog'):
        compare(site, text, homes, found, 'of a row')


def test_rows_worked_out_by_hand():
    if not OPTIONS.no_program:
        HAS['wlog'] = '--wlog' in helped('verify')
    for old, new, line, why in ROWS:
        assert old in ROW, old
        says(SITE, ROW.replace(old, new, 1), (line if why else 0, why))
    says(SITE, AT_NEXT, (11, 'S10 2'))
    says(SITE, '', (1, 'S1'))
    # under `rule nofollow` nobody enters a cell that another leaves in that step
    follows = ROW.replace('path 4,1', 'path 0,1 1,1 2,1 2,1 2,1 2,1 3,1 4,1')
    says(SITE.replace('agent P1\n', 'agent P1\nrule nofollow\n'), follows, (7, 'S5 0'))
    says(SITE.replace('agent P1\n', 'agent P1\nrule nofollow\n'), ROW, (0, ''))


def test_rules_worked_out_by_hand():
    for text, wanted, homes in (
            (ROW, (3, 'S11'), True), (ROW.replace('state 9', 'rules ends homes\nstate 9'), (3, 'S11'), False), (ROW.replace('state 9', 'rules age 600\nstate 9'), (3, 'S11'), False),
            (ROW.replace('state 9', 'rules ends homes age 600\nstate 9'), (3, 'S11'), True), (ROW.replace('state 9', 'rules ends stops\nstate 9'), (3, 'S1'), False),
            (ROW.replace('state 9', 'rules\nstate 9'), (3, 'S1'), False), (ROW.replace('state 9', 'rules age 0\nstate 9'), (3, 'S1'), False), (HOMEWARD, (0, ''), True),
            (HOMEWARD, (3, 'S11'), False), (HOMEWARD.replace('state', 'rules ends homes\nstate'), (4, 'S1'), True), (HOMEWARD.replace(' 2,1 1,1 0,1', ' 2,1 1,1'), (0, ''), True),
            # it rests at another's home; and leaves out the last stop
            (HOMEWARD.replace('path 4,1', 'path 5,1'), (0, ''), True), (HOMEWARD.replace('3,1 3,0 3,1 2,1 1,1 0,1', '3,1 2,1 1,1 0,1'), (0, ''), True)):
        says(SITE, text, wanted, homes)
    for age, text, wanted in ((600, ROW.replace('state 9', 'rules age 600\nstate 9'), (0, 13)), (600, ROW, (3, 'S11')), (601, ROW.replace('state 9', 'rules age 600\nstate 9'), (3, 'S11'))):
        same('of ages', text, judged(SITE, text, age=age), wanted if wanted[0] else (0, 14))


# ---- states of runs

def states_of(seed):
    """Of an instance: map and points, its rule, and some states of its run with the entries that follow."""
    site, text, homes = instance(seed)
    log, floor, chance = made_log(text, homes), ends.Floor(site), random.Random(seed)
    run = Recorder(floor, homes, log)
    entries = run.lines[2:]
    cuts, found = sorted({chance.randint(0, len(entries)) for _ in range(3)}), []
    for number in range(len(entries) + 1):
        if number in cuts:
            found += [(run.state(kind), entries[number:]) for kind in ('whole', 'stopped')]
        if number < len(entries):
            run.hear(entries[number])
    return site, homes, floor, found


def test_states_of_runs_are_sound():
    """And so are those where all stand; the entries behind a whole one are a run from it."""
    kinds = collections.Counter()
    for seed in range(OPTIONS.seed, OPTIONS.seed + OPTIONS.rounds):
        site, homes, floor, found = states_of(seed)
        for lines, entries in found:
            text = ''.join(line + '\n' for line in lines)
            number, why = judged(site, text, homes)
            is_whole = ' whole' in text
            same(seed, text, number, 0)
            kinds['whole' if is_whole else 'stopped'] += 1
            if HAS.get('wlog') and is_whole:
                behind = ''.join(entry + '\n' for entry in entries) + f'end {len(entries)}\n'
                words = [PROGRAM, 'verify', '--wlog', '3'] + ['--ends', 'homes'] * homes
                ran = subprocess.run(words, input=(site + text + behind).encode(), capture_output=True, check=False, timeout=600)
                same(seed, text + behind, ran.stdout, b'run %d\n' % len(entries))
            if HAS.get('wlog'):
                compare(site, text, homes, (number, why), seed)
    print('states of runs:', ', '.join(f'{kind} {count}' for kind, count in sorted(kinds.items())))


def test_the_package_reads_them():
    for seed in range(OPTIONS.seed, OPTIONS.seed + OPTIONS.rounds):
        site, text, homes = instance(seed)
        floor, log = read_instance('i', site.encode()), made_log(text, homes)
        run = read_log(floor, 'l', log.encode())
        for lines, entries in states_of(seed)[-1]:
            state = ''.join(line + '\n' for line in lines)
            found = read_log(floor, 'l', (state + ''.join(entry + '\n' for entry in entries if ' whole' in state)).encode())
            if ' whole' in state:
                same(seed, state, (found.clock, found.closed, found.differences(), found.halted), (run.clock, run.closed, [], {}))
                same(seed, state, [(task.agent, task.visits, task.submitted, task.client) for task in found.tasks],
                     [(task.agent, task.visits, task.submitted, task.client) for task in run.tasks])
                same(seed, state, [[found.cell_at(agent, clock) for clock in range(found.start, found.clock + 1)] for agent in range(len(run.paths))],
                     [[run.cell_at(agent, clock) for clock in range(found.start, found.clock + 1)] for agent in range(len(run.paths))])


def is_read(floor, text):
    """Whether the package's reader takes a text; it raises nothing but a Fault."""
    try:
        read_log(floor, 'l', text.encode('latin-1'))
        return True
    except Fault:
        return False


def test_edited_states():
    kinds = collections.Counter()
    for seed in range(OPTIONS.seed, OPTIONS.seed + OPTIONS.rounds):
        site, homes, floor, found = states_of(seed)
        chance, package = random.Random(-seed), read_instance('i', site.encode())
        for lines, _ in found:
            for _ in range(OPTIONS.edits):
                text = edited(chance, lines, floor)
                number, why = judged(site, text, homes)
                kinds[why.split(' ')[0] if number else 'sound'] += 1
                is_sound = not number and text.endswith('\nbegin\n') and text.split('\n').count('begin') == 1
                same(seed, text, is_read(package, text) or not is_sound, True)
                if HAS.get('wlog'):
                    compare(site, text, homes, (number, why), seed)
    print('edited states:', ', '.join(f'{kind} {count}' for kind, count in sorted(kinds.items())))
    if OPTIONS.rounds >= 3:
        missing = {'sound', *(f'S{number}' for number in range(1, 12))} - set(kinds)
        assert not missing, missing


def test_the_program_knows_states():
    """Skipped where it does not: then nothing here was compared."""
    has_program()


if __name__ == '__main__':
    parser = argparse.ArgumentParser(description=__doc__, formatter_class=argparse.RawDescriptionHelpFormatter)
    parser.add_argument('--rounds', type=int, default=3)
    parser.add_argument('--seed', type=int, default=1)
    parser.add_argument('--edits', type=int, default=20, metavar='N', help='of each state (%(default)s)')
    parser.add_argument('--no-program', action='store_true')
    OPTIONS = parser.parse_args()
    result = counting.run(globals())
    SCRATCH.cleanup()
    sys.exit(result)
