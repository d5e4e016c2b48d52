#!/usr/bin/env python3
"""Tests of `replay --vehicles`, with expected values worked out by hand, and of tools/drive.py --late.

    tests/vehicles.py           the program is that of WAREHOUSE, else the one that the gate built

The last line is `N passed, M failed`; status 1 where one failed.
"""
import os
import subprocess
import sys
import tempfile

import counting
from lives import over_file, read_file, write_file
from tools_drive import ENVIRONMENT, MAP, POINTS, PROGRAM, ROOT, has, same

RULE = 'rule nofollow\n'
TWO = MAP + POINTS + 'agent P0\nagent P1\n' + RULE + '%%\n'


def replay(text: str, *words: str) -> tuple[str, str, int]:
    done = subprocess.run([PROGRAM, 'replay', *words], input=text.encode(), capture_output=True)
    said = done.stderr.decode().replace('warehouse: not proved\n', '')
    return done.stdout.decode(), said, done.returncode


# Agent 0 goes P0 (0,1) to A (1,0) by 1,1 and on to B; agent 1 goes P1 (4,1) to D (3,2) by 3,1, and waits there for the corridor.
SCRIPT = 'submit x A B\ntoken 0\nsubmit y D C\ntoken 1\ntick\ntick\n'
BEGUN = ('accepted 0\ntook 0 end 6\naccepted 1\ntook 1 end 10\nclock 1 picked 0 dropped 0\ngo 0 1 1,1\ngo 1 1 3,1\n'
         'clock 2 picked 2 dropped 0\n')


def test_each_goes_at_its_own_pace() -> None:
    out, said, status = replay(TWO + SCRIPT + 'at 0 1\nat 0 2\nat 1 1\nat 1 2\n', '--vehicles')
    same(out, BEGUN + 'arrived 0 1\ngo 0 2 1,0\narrived 0 2\nvisited 0 0 0\narrived 1 1\ngo 1 2 3,2\narrived 1 2\nvisited 1 1 0\n')
    same((said, status), ('', 0))


def test_a_report_that_comes_again_changes_nothing() -> None:
    out, said, status = replay(TWO + SCRIPT + 'at 0 1\nat 0 1\nat 0 3\nat 2 1\nat 0 0\n', '--vehicles')
    same(out, BEGUN + 'arrived 0 1\ngo 0 2 1,0\narrived 0 1\nrefused V3 0 3\nrefused V2 2\narrived 0 0\n')
    same((said, status), ('vehicles on their way: 2\n', 0))


def test_cells_told_ahead() -> None:
    # both are told their second cell at once; a report of it says that the first was made too
    out, _, _ = replay(TWO + SCRIPT + 'at 1 2\n', '--vehicles', '--ahead', '2')
    same(out, BEGUN + 'go 0 2 1,0\ngo 1 2 3,2\narrived 1 2\nvisited 1 1 0\n')


def test_the_clock_waits() -> None:
    # with 1 for all; after the arrivals of both it goes on
    out, said, status = replay(TWO + 'submit x A B\ntoken 0\ntick\ntick\nat 0 1\ntick\n', '--vehicles', '--behind', '1')
    same(out, 'accepted 0\ntook 0 end 6\nclock 1 picked 0 dropped 0\ngo 0 1 1,1\nrefused V1 0 1\narrived 0 1\n'
         'clock 2 picked 1 dropped 0\ngo 0 2 1,0\n')
    same((said, status), ('vehicles on their way: 1\n', 0))
    # a clock that is refused for good is not refused for this
    out, _, _ = replay(TWO + 'submit x A B\ntoken 0\ntick\nclose\ntick\nat 0 1\n', '--vehicles', '--behind', '1')
    has(out, 'closed\nrefused E8\narrived 0 1\n')


def test_without_the_rule() -> None:
    same(replay(MAP + POINTS + 'agent P0\n%%\ntick\n', '--vehicles'), ('', 'refused V4\n', 1))
    same(replay(OCTILE + AGENTS + '%%\ntick\n', '--vehicles', '--ahead=2'), ('', 'refused V4\n', 1))


# The rule stands between the points and the agents. Agent 0 goes by 1,1 to A (1,0) and on to B; agent 1 rests.
OCTILE = MAP.replace('type t\n', 'type octile\n') + POINTS
AGENTS = 'agent P0\nagent P1\n'
ONE_UNDER_WAY = OCTILE + RULE + AGENTS + '%%\nsubmit x A B\ntoken 0\ntick\ntick\n'


def test_a_pickup_is_visited_once() -> None:
    out, said, status = replay(ONE_UNDER_WAY + 'at 0 1\nat 0 2\nat 0 2\nat 1 1\n', '--vehicles')
    same(out, 'accepted 0\ntook 0 end 6\nclock 1 picked 0 dropped 0\ngo 0 1 1,1\nclock 2 picked 1 dropped 0\narrived 0 1\ngo 0 2 1,0\n'
         'arrived 0 2\nvisited 0 0 0\narrived 0 2\narrived 1 1\n')
    same((said, status), ('', 0))


def test_a_step_that_was_not_told() -> None:
    # the clock waits behind the first step, so the second one was not told; and there is no agent 9
    out, said, status = replay(ONE_UNDER_WAY + 'at 0 2\nat 9 0\n', '--vehicles', '--behind', '1')
    same(out, 'accepted 0\ntook 0 end 6\nclock 1 picked 0 dropped 0\ngo 0 1 1,1\nrefused V1 0 1\nrefused V3 0 2\nrefused V2 9\n')
    same((said, status), ('vehicles on their way: 1\n', 0))


def test_mistaken_words() -> None:
    for words in (['--behind', '2'], ['--ahead', '2'], ['--vehicles', '--behind', '0'], ['--vehicles', '--ahead', '1001']):
        same(replay(TWO, *words)[::2], ('', 2))


def test_the_history_has_no_reports() -> None:
    out, _, _ = replay(TWO + SCRIPT + 'at 0 1\nat 9 9\n', '--vehicles', '--tail', 'log')
    log = out.split('%%\n')[1]
    same(log, replay(TWO + SCRIPT, '--tail', 'log')[0].split('%%\n')[1])


# ------------------------------------------------------------------------------------------------ arrivals in a file

SCRATCH = tempfile.TemporaryDirectory()
REPORTS = 'at 0 1\nat 0 1\nat 1 1\nat 2 5\n'    # the second changes nothing, and there is no agent 2
KEPT = b'at 0 0\nat 0 1\nat 1 1\n'


def files(log: bytes | None = None, arrivals: bytes | None = None) -> str:
    """A log file with these bytes, and the file of arrivals beside it; None: there is none."""
    file = os.path.join(SCRATCH.name, 'log')
    for name, text in ((file, log), (file + '.site', None), (file + '.at', arrivals)):
        if os.path.isdir(name):
            os.rmdir(name)
        elif os.path.lexists(name):
            os.remove(name)
        if text is not None:
            write_file(name, text)
    return file


def kept(text: str, file: str, *words: str) -> tuple[str, str, int]:
    return replay(text, '--vehicles', '--log', file, *words)


def begun() -> str:
    """The files of a run in which both vehicles have made their first step."""
    file = files()
    same(kept(TWO + SCRIPT + REPORTS, file), ('entries 0\n' + BEGUN + 'arrived 0 1\ngo 0 2 1,0\narrived 0 1\narrived 1 1\ngo 1 2 3,2\nrefused V2 2\n',
                                              'vehicles on their way: 2\n', 0))
    same(read_file(file + '.at'), KEPT)
    return file


def test_a_run_goes_on_with_its_vehicles() -> None:
    file = begun()
    # each step that was told and not reported is told again; a report that came before is answered again
    same(kept(TWO + 'at 0 1\nat 0 2\n', file), ('entries 6\ngo 0 2 1,0\ngo 1 2 3,2\narrived 0 1\narrived 0 2\nvisited 0 0 0\n', 'vehicles on their way: 1\n', 0))
    same(read_file(file + '.at'), KEPT + b'at 0 2\n')
    # visits that were made are told again
    same(kept(TWO + 'at 1 2\n', file), ('entries 6\nvisited 0 0 0\ngo 1 2 3,2\narrived 1 2\nvisited 1 1 0\n', '', 0))
    # the log has no report
    same(read_file(file).decode().split('\n')[2:-1], over_file(replay(TWO + SCRIPT, '--tail', 'log')[0].split('%%\n')[1].encode()).decode().split('\n')[2:-2])


def test_a_report_that_was_cut() -> None:
    file = begun()
    log = read_file(file)
    told = {1: 'go 0 1 1,1\ngo 1 1 3,1\n', 2: 'go 0 2 1,0\ngo 1 1 3,1\n', 3: 'go 0 2 1,0\ngo 1 2 3,2\n'}
    for length in range(len(KEPT) + 1):
        text = KEPT[:length]
        file, lines = files(log, text), text.count(b'\n')
        if lines:
            same(kept(TWO, file)[::2], ('entries 6\n' + told[lines], 0))
            same(read_file(file + '.at'), text[:text.rindex(b'\n') + 1])
        else:
            # the clock has gone on, so that one line at least was kept
            same(kept(TWO, file), ('', 'refused L1 at line 1\n', 1))
            same((read_file(file), read_file(file + '.at')), (log, text))


def test_arrivals_of_another_run() -> None:
    log = read_file(begun())
    for text, told in ((b'at 0 0\nat 2 1\n', 'line 2'), (b'at 0 0\nat 0 1\ntick\nat 0 2\n', 'line 3'), (b'\n', 'line 1'), (b'at 0 0\nat 1 3\n', 'agent 1')):
        file = files(log, text)
        same(kept(TWO, file), ('', f'refused L1 at {told}\n', 1))
        same((read_file(file), read_file(file + '.at'), read_file(file + '.site')), (log, text, None))
    # a run that begins has no arrivals
    file = files(None, b'at 0 0\nat 0 1\n')
    same(kept(TWO, file), ('', 'refused L1 at agent 0\n', 1))
    same(read_file(file), None)
    # agent 1 comes through the corridor behind agent 0, which has not left its start
    file = files()
    kept(TWO + SCRIPT + 'tick\n' * 8, file, '--behind', '1000')
    write_file(file + '.at', b'at 0 0\nat 1 10\n')
    same(kept(TWO, file), ('', 'refused L1 at agent 1\n', 1))


def test_arrivals_that_cannot_be_kept() -> None:
    file = files()
    os.mkdir(file + '.at')
    same(kept(TWO, file), ('', 'refused X5\n', 3))
    same((read_file(file), read_file(file + '.site')), (None, None))


def late(seed: int, *words: str, script: tuple[str, ...] = ()) -> dict[str, str]:
    done = subprocess.run([sys.executable, os.path.join(ROOT, 'tools', 'drive.py'), os.path.join(ROOT, 'examples', 'shelves'),
                           *script, '--late', str(seed), *words], capture_output=True, env=ENVIRONMENT, timeout=120)
    assert done.returncode == 0, done.stderr.decode()
    return dict(line.split(' ') for line in done.stdout.decode().splitlines())


def test_no_two_vehicles_meet_and_all_is_delivered() -> None:
    found = late(1, '--spread', '0.5', '--stop', '60', '--ahead', '3')
    same((found['orders'], found['done']), ('200', '200'))
    assert int(found['held']) > 0 and int(found['repeated']) > 0, found


def test_the_program_is_killed_and_goes_on() -> None:
    text = read_file(os.path.join(ROOT, 'examples', 'shelves')).split(b'%%\n')
    orders = [line for line in text[2].splitlines(True) if line.startswith(b'submit ')][:10]
    script = os.path.join(SCRATCH.name, 'script')
    write_file(script, b''.join(orders))
    for seed in (2, 3):
        file = files()
        found = late(seed, '--spread', '0.5', '--ahead', '3', '--log', file, '--kills', '6', '--ask', 'number', script=(script,))
        same((found['orders'], found['done'], found['killed']), ('10', '10', '6'))
        log = read_file(file)
        done = subprocess.run([PROGRAM, 'verify', '--unended'], input=text[0] + b'%%\n' + text[1] + RULE.encode() + b'%%\n' + log, capture_output=True)
        has(done.stdout.decode(), 'run ')


if __name__ == '__main__':
    sys.exit(counting.run(globals()))
