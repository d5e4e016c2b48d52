#!/usr/bin/env python3
"""Tests of `drive`, its judge and its session against a stand-in for the program, with expected values worked out by hand.

The stand-in has a tape of commands and replies: it ends with status 9 at a command that is not the tape's, so a tape also
tells what drive.py sends, and when. The last line is `N passed, M failed`; status 1 where one failed.
"""
import os
import sys

import counting
from lives import over_file
from tools_drive import A_TO_B, ONE, ROOT, SCRATCH, TWO, drive, figures, file, has, log_of, same, short, ticks, tool

sys.path.insert(0, os.path.join(ROOT, 'python'))
from warehouse.simulate.judge import Whereabouts    # noqa: E402
from warehouse.texts import Fault, read_instance    # noqa: E402

LONG = ONE.replace('agent P0', '# floor\n' * 20000 + 'agent P0')

STAND_IN = '''
import sys, time
tape, log, status = sys.argv[1:4]
cut = 0
while cut < 2:
    line = sys.stdin.readline()
    if not line:
        sys.exit(8)
    cut += line == '%%\\n'
for row in open(tape):
    wanted, reply = row.rstrip('\\n').split(' = ')
    line = sys.stdin.readline().rstrip('\\n')
    if line != wanted:
        sys.stderr.write('stand-in: ' + repr(line) + ' came in place of ' + repr(wanted) + '\\n')
        sys.exit(9)
    if reply == 'GONE':
        sys.exit(3)
    if reply == 'SILENT':
        time.sleep(30)
    print(reply, flush=True)
more = sys.stdin.readline()
if more:
    sys.stderr.write('stand-in: ' + repr(more) + ' came behind the tape\\n')
    sys.exit(9)
sys.stdout.write(open(log).read())
sys.exit(int(status))
'''


def taped(tape: list[str], log: str = '', *words: str, instance: str = ONE + 'submit x A B\n', status: int = 0) -> tuple[str, str, int]:
    stand_in = [sys.executable, file('stand_in.py', STAND_IN), file('tape', '\n'.join(tape) + '\n'), file('tail', log), str(status)]
    return drive(instance, '--ask', 'number', '--program', ' '.join(stand_in), *words)


# As the stand-in above, over several lives: of each the tape has the first line, and then commands and replies. At KILLED it is
# ended by signal 9. The entries behind --told are those of the file that --log names.
LIVES = '''
import os, signal, sys
tape = sys.argv[1]
life = int(open(tape + '.life').read())
open(tape + '.life', 'w').write(str(life + 1))
first, *rows = open(tape).read().split('--\\n')[life].splitlines()
cut = 0
while cut < 2:
    cut += sys.stdin.readline() == '%%\\n'
print(first, flush=True)
if '--told' in sys.argv:
    told, log = (sys.argv[sys.argv.index(word) + 1] for word in ('--told', '--log'))
    for entry in open(log).read().splitlines()[int(told) + 2:int(first.split()[1]) + 2]:
        print(entry, flush=True)
for row in rows:
    wanted, reply = row.split(' = ')
    line = sys.stdin.readline().rstrip('\\n')
    if line != wanted:
        sys.stderr.write('stand-in: ' + repr(line) + ' came in place of ' + repr(wanted) + '\\n')
        sys.exit(9)
    if reply == 'KILLED':
        os.kill(os.getpid(), signal.SIGKILL)
    if reply == 'BROKEN':
        sys.exit(3)
    print(reply, flush=True)
sys.stdin.read()
'''


def lived(lives: list[list[str]], kept: str, *words: str) -> tuple[str, str, int]:
    """What comes of such lives, where the file has this text all the while."""
    tape = file('tape', '--\n'.join(''.join(line + '\n' for line in life) for life in lives))
    file('tape.life', '0')
    stand_in = [sys.executable, file('lives.py', LIVES), tape]
    return drive(ONE + 'submit x A B\n', '--program', ' '.join(stand_in), '--log', kept, *words)


def kept_of(*entries: str) -> str:
    """The file of `--log` with these entries."""
    return over_file(log_of(*entries)[3:].encode()).decode()


def told_both_ways(entries: list[str], log: str, **others) -> tuple[str, str, int]:
    """Entries of a log are commands with full replies; with short ones the outcome is the same."""
    found = taped(entries, log, **others)
    same(taped(short(entries), log, '--replies', 'short', **others), found)
    return found


GOES = ['submit x A B = accepted 0', f'token 0 = took 0 path {A_TO_B}', *ticks(1, 6, 2, 6)]


def test_the_stand_in_is_driven_to_the_end() -> None:
    wanted = figures(1, 6, '6.00', 6, '16.67', 6, 8, 1)
    same(told_both_ways(GOES, log_of(*GOES)), (wanted, '', 0))
    # a program that ends with another status has not ended well
    found, said, status = taped(GOES, log_of(*GOES), status=4)
    same((found, status), (wanted, 2))
    has(said, 'status 4')


def test_e6_is_asked_again_after_a_tick() -> None:
    entries = ['submit x A B = accepted 0', 'token 0 = refused E6', 'tick = clock 1 picked 0 dropped 0', f'token 0 = took 0 path {A_TO_B}',
               *ticks(2, 7, 3, 7)]
    same(told_both_ways(entries, log_of(*entries)), (figures(1, 7, '7.00', 7, '14.29', 7, 10, 2, 1), '', 0))


def test_e6_twice_is_not_asked_until_something_changes() -> None:
    orders = 'submit x A B\nsubmit y D C\n# @4\nsubmit z D C\n'
    entries = ['submit x A B = accepted 0', 'submit y D C = accepted 1', f'token 0 = took 0 path {A_TO_B}', 'token 1 = refused E6',
               *ticks(1, 1), 'token 1 = refused E6', *ticks(2, 4, 2), 'submit z D C = accepted 2', 'token 1 = refused E6',
               *ticks(5, 5), 'token 1 = refused E6', *ticks(6, 6, 0, 6), 'token 0 = rested']
    found, said, status = told_both_ways(entries, log_of(*entries, agents=2), instance=TWO + orders)
    # nothing is left that could change an answer, and two orders are open
    same((found, status), ('orders 3 accepted 3 done 1 makespan 6 service_mean 6.00 service_p95 6 per100 16.67 ticks 6 commands 15 '
                           'requests 6 refused 4', 1))
    has(said, 'at clock 6 all agents stand, 2 orders are open')


def test_a_rest_lasts_until_a_path_is_taken_up() -> None:
    # agent 0 rests; agent 1 parks, so agent 0 is asked once more; then nobody until agent 1 has made its two steps
    entries = ['submit x A B = accepted 0', 'token 0 = rested', 'token 1 = parked D path 4,1 3,1 3,2', 'token 0 = rested', *ticks(1, 2),
               'token 1 = rested']
    found, said, status = told_both_ways(entries, log_of(*entries, agents=2), instance=TWO + 'submit x A B\n')
    same((found, status), ('orders 1 accepted 1 done 0 ticks 2 commands 7 requests 4 refused 0', 1))
    has(said, 'at clock 2 all agents stand')


def test_a_path_of_no_steps_is_at_its_end_at_once() -> None:
    # the agent starts at A and has two orders there; no tick counts them, and no tick is sent
    instance = ONE.replace('agent P0', 'agent A') + 'submit x A A\nsubmit x A A\n'
    entries = ['submit x A A = accepted 0', 'submit x A A = accepted 1', 'token 0 = took 0 path 1,0', 'token 0 = took 1 path 1,0']
    wanted = 'orders 2 accepted 2 done 2 makespan 0 service_mean 0.00 service_p95 0 ticks 0 commands 4 requests 2 refused 0'
    same(told_both_ways(entries, log_of(*entries), instance=instance), (wanted, '', 0))


def test_a_delivery_before_the_path_ends() -> None:
    # The path is at B at 6, which is the last visit, makes way and comes back at 8: no short reply tells it, the log does.
    entries = [GOES[0], GOES[1] + ' 3,1 3,0', *ticks(1, 8, 2, 6)]
    same(told_both_ways(entries, log_of(*entries)), (figures(1, 6, '6.00', 6, '16.67', 8, 10, 1), '', 0))


def test_refusals_that_end_the_run() -> None:
    log = file('log', 'old')
    for reply in ('C1', 'C2', 'E90', 'E8', 'E7', 'E4 0', 'E5 3', 'E11', 'X1', 'E10'):
        entries = GOES[:2] + ticks(1, 1)
        found, said, status = taped(entries + [f'tick = refused {reply}'], log_of(*entries), '--save', log)
        # what was done until then is told, and its log kept
        same((found, status), ('orders 1 accepted 1 done 0 ticks 1 commands 4 requests 1 refused 1', 2))
        has(said, f'`refused {reply}` came to `tick`: ')
        same(said.count('\n'), 1)
        with open(log) as made:
            same(made.read(), log_of(*entries)[3:])


def test_a_closed_pipe() -> None:
    for tape, line in ((['submit x A B = GONE'], 'submit x A B'), (GOES[:1] + ['token 0 = GONE'], 'token 0'),
                       (GOES[:2] + ['tick = GONE'], 'tick')):
        _, said, status = taped(tape)
        same(status, 2)
        has(said, f'the program ended with status 3 and gave no reply to `{line}`', 'no log came')
    # it ends while the site is written still
    _, said, status = drive(LONG + 'submit x A B\n', '--program', 'sh -c "exit 5"')
    same(status, 2)
    has(said, 'the program ended with status 5 and gave no reply to `submit x A B`')


def test_a_program_that_says_more_than_it_was_asked() -> None:
    # the site is longer than a pipe, and the first two do not read it
    assert len(LONG) > 2 * 65536
    for words in ('yes y', 'cat /dev/zero', 'cat'):
        _, said, status = drive(LONG + 'submit x A B\n', '--program', f'sh -c "{words}"')
        same((status, said.count('\n')), (2, 2))
        has(said, 'the program says more than it was asked: ')


def test_silence() -> None:
    _, said, status = taped(GOES[:1] + ['token 0 = SILENT'], '', '--wait', '0.5')
    same(status, 2)
    has(said, 'nothing came from the program for 0.5 seconds')


def test_cells_are_written_before_the_tick() -> None:
    lines = file('cells', '')
    # the second tick has no reply any more
    same(taped(GOES[:3] + ['tick = GONE'], '', '--cells', lines)[2], 2)
    with open(lines) as text:
        same(text.read(), '0 0,1\n1 1,1\n2 1,0\n')


def test_wrong_replies() -> None:
    for before, line, reply in ((0, 'submit x A B', 'accepted 1'), (0, 'submit x A B', 'rested'), (1, 'token 0', 'clock 1 picked 0 dropped 0'),
                                (1, 'token 0', ''), (1, 'token 0', 'refused'), (1, 'token 0', 'refused Q1'),
                                (1, 'token 0', 'took 0 path'), (1, 'token 0', 'took 0 path x'), (1, 'token 0', 'took 0'),
                                (2, 'tick', 'clock 2 picked 0 dropped 0'), (2, 'tick', 'clock 1 picked 0'), (2, 'tick', 'accepted 1')):
        wrong(GOES[:before], line, reply, '')
    for reply in ('took 5 end 3', 'took 0 end x', 'took 0 end', 'parked Z end 3', 'took 0 path 0,1'):
        wrong(short(GOES[:1]), 'token 0', reply, '', '--replies', 'short')


def wrong(before: list[str], line: str, reply: str, part: str, *words: str) -> None:
    """The run ends at this reply, which is told with the line and what is wrong with it."""
    _, said, status = taped(before + [f'{line} = {reply}'], '', *words)
    same(status, 2)
    has(said, f'`{reply}`', f'to `{line}`', part, 'no log came')
    same(said.count('\n'), 2)


def test_replies_whose_cells_are_wrong() -> None:
    for reply, part in (('took 5 path 0,1', 'no task 5 is open'), ('took 0 end 6', 'tells no cells: see --replies short'),
                        ('took 0 path 0,1 1,1 1,0 2,1 3,1 3,0', 'jumps from 1,0 to 2,1'), ('parked Z path 0,1', 'has no point Z')):
        wrong(GOES[:1], 'token 0', reply, part)
    for reply, part in (('took 0 path 1,1 1,0 1,1 2,1 3,1 3,0', 'begins at 1,1, and it stands at 0,1'),
                        ('took 0 path 0,1 0,0', 'meets 0,0, no passable cell'), ('took 0 path 0,1 -1,1', 'meets -1,1, no passable cell'),
                        ('took 0 path 0,1 1,1 2,1 3,1 3,0', 'does not come to A at 1,0'),
                        ('parked C path 0,1 1,1', 'does not end at a point C')):
        told = Whereabouts(read_instance('i', ONE.encode()))
        told.hear('submit  x A B', 'accepted 0')
        try:
            told.hear('token 0', reply)
            raise AssertionError(f'{reply!r} is taken')
        except Fault as fault:
            has(str(fault), part)
    # the first visit is at 2
    wrong(GOES[:2], 'tick', 'clock 1 picked 1 dropped 0', 'the cells give 0 picked and 0 dropped')
    wrong(GOES[:3], 'tick', 'clock 2 picked 0 dropped 0', 'the cells give 1 picked and 0 dropped')


def test_no_tick_is_sent_where_two_would_meet() -> None:
    # agent 0 goes by 1,1 at 3, 2,1 at 4 and 3,1 at 5; no tick goes to the clock at which agent 1 is in its way
    follows = '4,1 4,1 4,1 3,1 3,1 3,2'
    for path, rule, clock, part in (('4,1 3,1 2,1 2,1 2,1 3,1 3,2', '', 4, 'agents 0 and 1 would both be at 2,1 at clock 4'),
                                    ('4,1 4,1 4,1 3,1 3,1 2,1 3,1 3,2', '', 5, 'agents 0 and 1 would exchange cells at clock 5'),
                                    (follows, 'rule nofollow\n', 5, 'agent 0 would follow agent 1 to 3,1 at clock 5')):
        instance = TWO.replace('parking P0', rule + 'parking P0') + 'submit x A B\n'
        _, said, status = taped(GOES[:2] + [f'token 1 = parked D path {path}', *ticks(1, clock - 1, 2)], instance=instance)
        same((status, said.count('\n')), (2, 2))
        has(said, f'no tick is sent: {part}', 'no log came')
    # without the rule an agent may follow another
    entries = GOES[:2] + [f'token 1 = parked D path {follows}', *ticks(1, 6, 2, 6)]
    same(taped(entries, log_of(*entries, agents=2), instance=TWO + 'submit x A B\n')[1:], ('', 0))


def test_a_log_that_is_not_of_the_run() -> None:
    for log, part in ((log_of(*GOES[:-1]), 'it is not of this run, with 1 tasks and clock 5'), (log_of(*GOES)[:-9], 'it is cut'),
                      (log_of(*GOES).replace('picked 1', 'picked 0'), 'at clock 2 it counts 0 picked and 0 dropped'),
                      (log_of(*GOES).replace(' 3,0', ' 3,2'), 'does not come to B')):
        _, said, status = taped(GOES, log)
        same(status, 2)
        has(said, part)
    # The replies told that the agent waits at B, and the log that it went out and came back: the same clocks and counts.
    waits, goes = ([GOES[0], GOES[1] + cells, *ticks(1, 8, 2, 6)] for cells in (' 3,0 3,0', ' 3,1 3,0'))
    _, said, status = taped(waits, log_of(*goes))
    same(status, 2)
    has(said, 'its paths are not those that the replies told')
    same(taped(short(waits), log_of(*goes), '--replies', 'short')[2], 0)


def test_a_run_that_is_gone_on_with() -> None:
    # killed with the second command served, and with the third not
    kept = file('kept', kept_of(*GOES))
    lives = [['entries 0', GOES[0], 'token 0 = KILLED'], ['entries 2', 'tick = KILLED'], ['entries 2', *GOES[2:]]]
    found, said, status = lived(lives, kept)
    same((found, status), (figures(1, 6, '6.00', 6, '16.67', 6, 8, 1), 0))
    same(said.splitlines(), [
        'drive.py: the program ended with status -9 and gave no reply to `token 0`; it was started again, with 2 entries, 1 of them without a reply',
        'drive.py: the program ended with status -9 and gave no reply to `tick`; it was started again, with 2 entries, 0 of them without a reply'])
    # with short replies the path is told by its end
    lives = [[line.replace(GOES[1], short(GOES)[1]) for line in life] for life in lives]
    same(lived(lives, kept, '--replies', 'short'), (found, said, status))


def test_a_run_that_is_not_gone_on_with() -> None:
    kept = file('kept', kept_of(*GOES))
    begun = ['entries 0', GOES[0], 'token 0 = KILLED']
    for lives, name, part in (
            ([['entries 0', 'submit x A B = KILLED']] * 6, kept, 'gave no reply to `submit x A B`'),
            ([['entries 0', 'submit x A B = BROKEN']] * 2, kept, 'ended with status 3 and gave no reply to `submit x A B`'),
            ([begun, ['entries 0']], kept, 'it goes on with 0 entries, and 1 commands were answered, 1 more were sent'),
            ([begun, ['entries 3']], kept, 'it goes on with 3 entries, and 1 commands were answered, 1 more were sent'),
            ([begun, ['entries 2']], file('other', kept_of(GOES[0], 'token 1 = rested')), 'entry 1, `62 token 1`, is none of what was sent'),
            ([begun, ['accepted 0']], kept, '`accepted 0` came in place of `entries N`'),
            ([['entries 8']], kept, 'kept holds an earlier run (8 entries)'),
            ([['']], kept, 'came in place of `entries N`')):
        found, said, status = lived(lives, name)
        same(status, 2)
        has(said, part)


def test_words_that_are_wrong() -> None:
    instance = file('i', ONE + 'submit x A B\n')
    for words, part in ((['--program', '/none/such'], '/none/such: No such file'), (['--program', ' '], 'no word'), (['--program', "'"], '--program'),
                        (['--batch', '0'], '1 to 1000'), (['--batch', '1001'], '1 to 1000'), (['--wait', '0'], 'above 0'),
                        (['--save', '/none/such'], '/none/such: No such file'), (['--cells', '/none/such'], '/none/such: No such file'),
                        (['--replies', 'short', '--cells', '-'], '--cells: short replies tell no cells'), (['/none/such'], '/none/such: No such file'),
                        (['--log', 'a', '--save', 'b'], '--save'), (['--program', 'none --log a'], 'name the file by --log FILE')):
        out, said, status = tool('drive.py', instance, *words)
        same((out, status, said.count('\n')), ('', 2, 1))
        has(said, part)
    out, said, status = tool('drive.py', file('j', ONE.removesuffix('%%\n')))
    same((out, status), ('', 2))
    has(said, 'no script')


if __name__ == '__main__':
    status = counting.run(globals())
    SCRATCH.cleanup()
    sys.exit(status)
