#!/usr/bin/env python3
"""Tests of tools/next_shift.py, with expected values worked out by hand.

    tests/tools_next_shift.py            all; what runs the program takes it from WAREHOUSE, else the one that the gate built
    tests/tools_next_shift.py --no-program

The floor is that of examples/deliveries (tests/tools_drive.py); of examples/shelves, where nobody works out 200 paths, the
log's own words tell what is open and who rests where. The last line is `N passed, M failed`; status 1 where one failed.
"""
import os
import re
from collections import Counter

import counting
from tools_drive import A_TO_B, MAP, ONE, POINTS, ROOT, SCRATCH, drive, figures, file, has, log_of, same, text_of, ticks, tool, warehouse

# The agent starts at P2, 2,1: it goes 1 step to 1,1, up to A at 2, and by 1,1 2,1 3,1 to B at 6.
SHIFT = MAP + 'parking P2 2 1\nagent P2\n# floor\nrule nofollow\n' + POINTS + '%%\nsubmit never A B\n'
SERVED = ['submit x A B = accepted 0', 'token 0 = took 0 path 2,1 1,1 1,0 1,1 2,1 3,1 3,0', *ticks(1, 2, 2), 'submit y D C A = accepted 1',
          'submit z P2 A = refused E2 P2', *ticks(3, 6, 0, 6)]
# B is defined below the agent's line, so that moves behind it.
WANTED = (MAP + 'parking P2 2 1\n# floor\nrule nofollow\n' + POINTS.replace('B 3 0\n', 'B 3 0\nagent B\n') + '%%\n'
          '# task 1 of the shift before, handed in at its clock 2\nsubmit y D C A\n')

TWO = MAP + POINTS + '# first\n\tagent  P0 \n\n# second\nagent P1\n%%\n'
TOOK = ['submit x A B = accepted 0', f'token 0 = took 0 path {A_TO_B}', 'submit y D C = accepted 1', 'submit x B A = accepted 2']


def next_shift(log: str, instance: str = SHIFT) -> tuple[str, str, int]:
    return tool('next_shift.py', file('log', log), file('instance', instance))


def is_refused(log: str, instance: str, *parts: str) -> None:
    out, said, status = next_shift(log, instance)
    same((out, status, said.count('\n')), ('', 1, 1))
    has(said, *parts)


# ------------------------------------------------------------------------------------------------ what is written

def test_an_open_task_and_an_agent_that_has_moved() -> None:
    same(next_shift(log_of(*SERVED)), (WANTED, '', 0))
    # replies may stand before the log, and a log may stand alone
    same(next_shift('accepted 0\n' + log_of(*SERVED)), (WANTED, '', 0))
    same(next_shift(log_of(*SERVED)[3:]), (WANTED, '', 0))
    # a closed run goes on as well
    same(next_shift(log_of(*SERVED, 'close = closed')), (WANTED, '', 0))


def test_map_and_points_keep_their_bytes() -> None:
    cut = WANTED.index('%%\n# task')
    same(next_shift(log_of(*SERVED), SHIFT.replace('\n', '\r\n')), (WANTED[:cut].replace('\n', '\r\n') + WANTED[cut:], '', 0))
    # comments, blanks and empty lines stay, in the map too
    instance = TWO.replace('type t', 'type\tmine').replace('@.@.@\n%%', '@.@.@\n \n\n%%')
    wanted = instance.replace('\tagent  P0 \n', 'agent B\n')
    wanted += ('# task 1 of the shift before, handed in at its clock 0\nsubmit y D C\n'
               '# task 2 of the shift before, handed in at its clock 0\nsubmit x B A\n')
    same(next_shift(log_of(*TOOK, *ticks(1, 6, 2, 6), agents=2), instance), (wanted, '', 0))
    # without a script, and without the last LF
    same(next_shift(log_of(*TOOK, *ticks(1, 6, 2, 6), agents=2), instance.removesuffix('\n%%\n')), (wanted, '', 0))


def test_agents_stay_in_their_order() -> None:
    # agent 0 ends at B, which stands below both lines: its line goes there, and agent 1's, who is at P1 still, behind it
    rows = POINTS.splitlines()
    instance = MAP + '\n'.join([rows[0], 'agent P0', rows[1], 'agent P1', *rows[2:], '# end', ''])
    wanted = MAP + '\n'.join([*rows[:4], 'agent B', 'agent P1', *rows[4:], '# end', '%%', ''])
    same(next_shift(log_of(*TOOK[:2], *ticks(1, 6, 2, 6), agents=2), instance), (wanted, '', 0))


# ------------------------------------------------------------------------------------------------ what is refused

def test_a_task_that_is_under_way() -> None:
    is_refused(log_of(*SERVED[:3]), SHIFT, 'task 0 is assigned at clock 1: agent 0 has it, with 5 steps left; 5 more ticks, with no token')
    is_refused(log_of(*SERVED[:4]), SHIFT, 'task 0 is carried at clock 2: agent 0 has it, with 4 steps left; 4 more ticks, with no token')
    again = 'token 0 = took 1 path 3,0 3,1 3,2 3,1 2,1 1,1 1,2 1,1 1,0'
    is_refused(log_of(*SERVED, again), SHIFT, 'task 1 is assigned at clock 6: agent 0 has it, with 8 steps left')
    # the ticks that are told are those of the agent that has the farthest to go: agent 1 has 9 from clock 1 on
    longer = 'token 1 = took 1 path 4,1 3,1 3,2 3,1 3,1 3,2 3,1 2,1 1,1 1,2'
    is_refused(log_of(*TOOK[:3], 'tick = clock 1 picked 0 dropped 0', longer, agents=2), TWO, 'agent 0 has it, with 5 steps left; 9 more ticks')


def test_an_agent_that_has_steps_left() -> None:
    # to a parking by C: at no point at 1, at C at 2
    parks = ['token 0 = parked P0 path 2,1 1,1 1,2 1,1 0,1', *ticks(1, 2)]
    is_refused(log_of(*parks[:2]), SHIFT, 'agent 0 is at 1,1 at clock 1, with 3 steps left; 3 more ticks, with no token')
    is_refused(log_of(*parks), SHIFT, 'agent 0 is at 1,2 at clock 2, with 2 steps left')
    same(next_shift(log_of(*parks, *ticks(3, 4)))[0].split('agent ')[1].split('\n')[0], 'P0')
    # delivered at 6, at B, and to go by D and back yet
    by_d = [SERVED[0], SERVED[1] + ' 3,1 3,2 3,1 3,0', *ticks(1, 6, 2, 6)]
    is_refused(log_of(*by_d), SHIFT, 'agent 0 is at 3,0 at clock 6, with 4 steps left')


def test_an_agent_that_rests_at_no_point_and_two_at_one() -> None:
    on = [SERVED[0], SERVED[1] + ' 3,1', *ticks(1, 7, 2, 6)]
    is_refused(log_of(*on), SHIFT, 'agent 0 rests at 3,1, where no point is')
    # no run, but read as one: agent 0 parks where agent 1 rests
    is_refused(log_of('token 0 = parked P1 path 0,1 1,1 2,1 3,1 4,1', *ticks(1, 4), agents=2), TWO, 'agents 0 and 1 both rest at P1, 4,1')


def test_a_log_that_is_not_of_the_instance() -> None:
    log = log_of(*SERVED)
    for text, instance, part in (
            (log_of(*SERVED, agents=2), SHIFT, 'the log has 2 agents, the instance 1'),
            (log, SHIFT.replace('agent P2\n', '').replace('%%\nsubmit', 'agent P0\n%%\nsubmit'), 'begins at 2,1, and it stands at 0,1'),
            (log, SHIFT.replace('station A', 'station E'), 'the instance has no station A'),
            (log, SHIFT.replace('D 3 2', 'E 3 2'), 'the instance has no station D'),
            # A lies on the path there too, but where it is passed at 1
            (log, SHIFT.replace('A 1 0', 'A 1 1'), 'at clock 1 it counts 0 picked and 0 dropped, its paths give 1 and 0'),
            (log[:-9], SHIFT, 'the log is cut'), ('closed\n', SHIFT, 'no log is in it'), (log, 'type t\n', 'no line `%%`')):
        is_refused(text, instance, part)
    out, said, status = tool('next_shift.py', os.path.join(ROOT, 'examples', 'deliveries.log'), os.path.join(ROOT, 'examples', 'shelves'))
    same((out, status), ('', 1))
    has(said, 'the log has 2 agents, the instance 20; is this the log of another instance?')


# ------------------------------------------------------------------------------------------- the program goes on

def replayed(instance: str) -> tuple[str, str]:
    """Its replies, and its log, which must be one of a run on it."""
    replies, log = warehouse(instance, 'replay', '--tail', 'log').split('%%\n')
    is_run(instance, log)
    return replies, log


def is_run(instance: str, log: str) -> None:
    joined, said, status = tool('log_input.py', file('instance', instance), file('log', log))
    same((said, status), ('', 0))
    ended = log.splitlines()[-1].startswith('end ')
    same(warehouse(joined, 'verify', '--unended'), f'run {len(log.splitlines()) - 2 - ended}{"" if ended else " unended"}\n')


def told(first: int, last: int, picked: int, dropped: int) -> str:
    return ''.join(entry.removeprefix('tick = ') + '\n' for entry in ticks(first, last, picked, dropped))


def test_three_shifts_one_after_the_other() -> None:
    # as test_a_task_that_is_under_way: 4 ticks more, behind the script, bring the agent to rest
    first = ONE + 'submit x A B\nsubmit y D C\ntoken 0\ntick\ntick\n'
    replies, log = replayed(first)
    same(replies, 'accepted 0\naccepted 1\ntook 0 end 6\n' + told(1, 2, 2, 6))
    is_refused(log, first, 'task 0 is carried at clock 2', '4 more ticks')
    _, log = replayed(first + 'tick\n' * 4)
    second, said, status = next_shift(log, first)
    same((second, said, status), (ONE.replace('agent P0', 'agent B') + '# task 1 of the shift before, handed in at its clock 0\nsubmit y D C\n', '', 0))
    # from B by 3,1 to D at 2, by 3,1 2,1 1,1 to C at 6
    second += 'token 0\n' + 'tick\n' * 3 + 'submit z A D\n' + 'tick\n' * 3
    replies, log = replayed(second)
    same(replies, 'accepted 0\ntook 0 end 6\n' + told(1, 3, 2, 6) + 'accepted 1\n' + told(4, 6, 2, 6))
    third, said, status = next_shift(log, second)
    same((third, said, status), (ONE.replace('agent P0', 'agent C') + '# task 1 of the shift before, handed in at its clock 3\nsubmit z A D\n', '', 0))
    # from C by 1,1 to A at 2, by 1,1 2,1 3,1 to D at 6: then nothing is open
    same(drive(third, '--log', os.path.join(SCRATCH.name, 'third'))[::2], (figures(1, 6, '6.00', 6, '16.67', 6, 8, 1), 0))
    same(tool('next_shift.py', os.path.join(SCRATCH.name, 'third'), file('instance', third)), (ONE.replace('agent P0', 'agent D'), '', 0))


def rests_and_open(instance: str, log: str) -> tuple[list[str], list[str]]:
    """By the words of a log alone: the points at which the agents' last paths end, and the orders that nobody took."""
    names = {f'{x},{y}': name for name, x, y in re.findall(r'^(?:station|parking) (\S+) (\d+) (\d+)$', instance, re.MULTILINE)}
    rests = re.findall(r'^agent (\S+)$', instance, re.MULTILINE)
    for agent, last in re.findall(r'^\d+ token (\d+) = .* path (?:\S+ )*(\S+)$', log, re.MULTILINE):
        rests[int(agent)] = names[last]
    orders = re.findall(r'^\d+ (submit .*) = accepted \d+$', log, re.MULTILINE)
    taken = {int(task) for task in re.findall(r' = took (\d+) ', log)}
    return rests, [order for task, order in enumerate(orders) if task not in taken]


def test_three_shifts_on_the_shelves() -> None:
    instance = text_of('examples', 'shelves')
    floor, points, _ = instance.split('%%\n')
    handed_in = Counter()
    done = Counter()
    for shift in ('60', '30', '1000000'):
        path = os.path.join(SCRATCH.name, f'shelves-{shift}.log')
        found, said, status = drive(instance, '--shift', shift, '--batch', '1000', '--log', path)
        same((said, status), ('', 0))
        with open(path) as text:
            log = text.read()
        is_run(instance, log)
        rests, left = rests_and_open(instance, log)
        out, said, status = next_shift(log, instance)
        same((said, status), ('', 0))
        sections = out.split('%%\n')
        same(sections[:2], [floor, points.split('agent ')[0] + ''.join(f'agent {name}\n' for name in rests)])
        same([line for line in sections[2].splitlines() if not line.startswith('#')], left)
        same(warehouse('%%\n'.join(sections[:2]), 'check'), 'formed\n')
        orders = Counter(re.findall(r'^\d+ (submit .*) = accepted', log, re.MULTILINE))
        handed_in = handed_in or orders
        done += orders - Counter(left)
        assert bool(left) == (shift != '1000000'), left
        instance = out
    # the first shift's orders are delivered in the end, each once
    same(done, handed_in)


NEEDS_PROGRAM = {'test_three_shifts_one_after_the_other', 'test_three_shifts_on_the_shelves'}


if __name__ == '__main__':
    counting.main(globals(), NEEDS_PROGRAM, SCRATCH)
