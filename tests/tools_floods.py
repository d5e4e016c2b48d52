#!/usr/bin/env python3
"""Tests that no request floods: instances of dev/floods.py, each with little time and memory.

    tests/tools_floods.py            the program is taken from WAREHOUSE, else the one that the gate built

When the last request of each ends was worked out by hand, or is told by a search of this script's own, one layer of
time after another, over the paths that the log has. And a log of many rests is judged as quickly as they were served, and
a queue at one station is served with few instructions, which valgrind counts, where there is one. The last line is
`N passed, M failed`, and the status is 1 where one failed.
"""
import os
import re
import resource
import shutil
import subprocess
import sys

import counting

ROOT = os.path.dirname(os.path.dirname(os.path.abspath(__file__)))
PROGRAM = os.environ.get('WAREHOUSE') or os.path.join(ROOT, 'crates/warehouse/out/warehouse')
MEMORY, SECONDS = 700 << 20, 10    # of address space, with the program's own
# Million instructions of `queue 31 40 1`. An unproved build takes 49.7; a proved one may differ by 2 percent, and 3 are the
# libc's copies and fills, so 5 percent more are let through. No contract says that a search does not step back to where it
# came from (`leads_from` of wh_intervals): one that does finds the same paths, and takes some 8 percent more.
QUEUE_MILLIONS = 52


def made(*words: object) -> str:
    return subprocess.run([sys.executable, os.path.join(ROOT, 'dev', 'floods.py'), *map(str, words)], capture_output=True,
                          text=True, check=True).stdout


def bounded() -> None:
    resource.setrlimit(resource.RLIMIT_AS, (MEMORY, MEMORY))
    resource.setrlimit(resource.RLIMIT_CPU, (SECONDS, SECONDS))


def replayed(text: str, *options: str) -> list[str]:
    done = subprocess.run([PROGRAM, 'replay', '--tail', 'log', *options], input=text, capture_output=True, text=True,
                          preexec_fn=bounded)
    assert done.returncode == 0, (done.returncode, done.stderr)
    return done.stdout.split('\n')


def parts(text: str) -> tuple[list[str], dict[str, tuple[int, int]], list[tuple[int, int]], list[str]]:
    """The rows of the map, the points by their names, where agents start, the script."""
    level, points, script = text.split('%%\n')
    named, starts = {}, []
    for line in points.splitlines():
        words = line.split()
        if words[0] == 'agent':
            starts.append(named[words[1]])
        else:
            named[words[1]] = (int(words[2]), int(words[3]))
    return level.splitlines()[4:], named, starts, script.splitlines()


def path_at(path: list[tuple[int, int]], time: int) -> tuple[int, int]:
    return path[min(time, len(path) - 1)]


def least_end(rows: list[str], others: list[list[tuple[int, int]]], start: tuple[int, int], stops: list[tuple[int, int]]) -> int | None:
    """When the least path ends that goes through the stops beside the others, by layers of time; None where there is none."""
    horizon = max(len(path) for path in others)
    rests = max((time + 1 for path in others for time, cell in enumerate(path) if cell == stops[-1]), default=0)
    ends = {path[-1] for path in others}
    if stops[-1] in ends:
        return None

    def arrived(cell: tuple[int, int], behind: int) -> int:
        while behind < len(stops) - 1 and stops[behind] == cell:
            behind += 1
        return behind

    layer, time, seen = {(start, arrived(start, 0))}, 0, set()
    while layer:
        if time >= rests and (stops[-1], len(stops) - 1) in layer:
            return time
        taken = {path_at(path, time + 1) for path in others}
        swaps = {(path_at(path, time + 1), path_at(path, time)) for path in others}
        following = set()
        for (x, y), behind in layer:
            for to in ((x, y), (x - 1, y), (x + 1, y), (x, y - 1), (x, y + 1)):
                if not (0 <= to[1] < len(rows) and 0 <= to[0] < len(rows[0])) or rows[to[1]][to[0]] != '.':
                    continue
                if to not in taken and (to == (x, y) or ((x, y), to) not in swaps):
                    following.add((to, arrived(to, behind)))
        time += 1
        if time > horizon:    # nothing moves any more: what was there before need not be there again
            following -= seen
            seen |= following
        layer = following
    return None


def log_paths(lines: list[str], starts: list[tuple[int, int]]) -> list[list[tuple[int, int]]]:
    """Where each agent goes from clock 0 on. All requests are made then, and each agent gets one path at most."""
    paths = [[start] for start in starts]
    for line in lines:
        words = line.split()
        if words[:1] == ['0'] and words[1] == 'token' and words[4] == 'took':
            paths[int(words[2])] = [tuple(map(int, cell.split(','))) for cell in words[7:]]
    return paths


def told(*words: object, slack: int = 0) -> None:
    """The last request ends when the plain search says, or later by the slack at most, or is refused where it finds no path."""
    text = made(*words)
    rows, named, starts, script = parts(text)
    lines = replayed(text, '--slack', str(slack))
    cut = lines.index('%%')
    asker = int(script[-1].split()[1])
    paths = log_paths(lines[cut + 1:], starts)
    stops = [named[name] for name in script[-2].split()[2:]]
    wanted = least_end(rows, [path for agent, path in enumerate(paths) if agent != asker], starts[asker], stops)
    answers = [['refused', 'E6']] if wanted is None else [['took', 'end', str(wanted + late)] for late in range(slack + 1)]
    given = lines[cut - 1].split()
    found = given[:1] + given[2:] if given[0] == 'took' else given    # without the task's number
    assert found in answers, f'{words}: {lines[cut - 1]!r}, wanted {answers}'


def bounded_too(*words: object) -> None:
    """The last request is answered within the bounds."""
    lines = replayed(made(*words))
    answer = lines[lines.index('%%') - 1].split()[0]
    assert answer in ('took', 'parked', 'refused'), answer


def test_the_last_stop_is_free_late() -> None:
    told('late', 16, 1, 0)
    told('late', 24, 3, 0)


def test_no_path_leads_to_the_last_stop() -> None:
    told('late', 16, 1, 1)
    told('late', 40, 2, 1)


def test_who_comes_out_is_waited_for() -> None:
    told('hall', 10, 6)
    told('hall', 60, 40)


def test_the_near_door_is_taken() -> None:
    told('door', 20, 2)


def test_the_long_way_round() -> None:
    told('ring', 41, 21)


def test_the_last_stop_is_shut_on_its_near_sides() -> None:
    told('sides', 16, 2)
    told('sides', 20, 5)
    # from (1, 0) seven times from corner to corner, then to the middle and two steps round who rests beside it
    lines = replayed(made('sides', 2048, 8))
    assert lines[lines.index('%%') - 1] == f'took 0 end {2046 + 2047 + 6 * 2 * 2047 + 2 * 1023 + 2}'


def test_the_door_is_taken_before_who_comes_is_there() -> None:
    told('soon', 16, 0)
    told('soon', 24, 1)


def test_many_stops() -> None:
    told('stops', 24, 5, 2)
    told('stops', 24, 8, 1)


def test_a_walled_stop_is_told() -> None:
    told('unreachable', 20, 5)


def test_a_path_is_late_by_the_slack_at_most() -> None:
    for words in (('late', 24, 3, 0), ('late', 16, 1, 1), ('hall', 10, 6), ('door', 20, 2), ('ring', 41, 21), ('sides', 20, 5), ('soon', 24, 1),
                  ('stops', 24, 8, 1), ('beside', 30, 3)):
        for slack in (1, 4, 40):
            told(*words, slack=slack)


def test_an_ample_effort_changes_nothing() -> None:
    for words in (('late', 24, 3, 0), ('late', 16, 1, 1), ('hall', 60, 40), ('sides', 20, 5), ('stops', 24, 8, 1), ('shut', 60)):
        text = made(*words)
        assert replayed(text, '--effort', '1000000000') == replayed(text), words


def test_beyond_its_effort_a_request_has_a_valid_answer() -> None:
    others = 0
    for words in (('late', 100, 7, 0), ('hall', 60, 40), ('ring', 401, 201), ('stops', 128, 8, 2), ('shut', 400)):
        text = made(*words)
        lines = replayed(text, '--effort', '1000')
        log = '\n'.join(lines[lines.index('%%') + 1:])
        done = subprocess.run([PROGRAM, 'verify'], input='%%\n'.join([*text.split('%%\n')[:2], log]), capture_output=True, text=True)
        assert done.stdout.startswith('run '), (words, done.stdout, done.stderr)
        others += lines != replayed(text)
    assert others, 'the effort was met nowhere'


def test_another_ends_beside_the_start() -> None:
    told('beside', 30, 3)


def test_the_near_parking_is_shut_off() -> None:
    # from (n / 2 - 2, n / 2) to A at (1, n - 1), which is nearer than the parkings that are left
    for n in (20, 60):
        lines = replayed(made('shut', n))
        assert lines[lines.index('%%') - 1] == f'parked A end {n // 2 - 3 + n - 1 - n // 2}', n


def test_none_floods() -> None:
    for words in (('door', 128, 4), ('hall', 200, 150), ('late', 100, 7, 1), ('ring', 401, 201), ('stops', 128, 8, 2),
                  ('unreachable', 64, 8), ('beside', 400, 7), ('shut', 400)):
        bounded_too(*words)


def spent(text: str, *words: str) -> tuple[float, str]:
    """The program's processor seconds, and what it told."""
    before = resource.getrusage(resource.RUSAGE_CHILDREN)
    done = subprocess.run([PROGRAM, *words], input=text, capture_output=True, text=True, preexec_fn=bounded)
    after = resource.getrusage(resource.RUSAGE_CHILDREN)
    assert done.returncode == 0, (done.returncode, done.stderr)
    return after.ru_utime + after.ru_stime - before.ru_utime - before.ru_stime, done.stdout


def test_rests_are_judged_as_soon_as_served() -> None:
    text = made('rests', 1000, 20, 10000)
    served, told = spent(text, 'replay', '--tail', 'log')
    replies, log = told.split('%%\n')
    assert replies.splitlines()[-10000:] == ['rested'] * 10000
    judged, verdict = spent('%%\n'.join([*text.split('%%\n')[:2], log]), 'verify')
    assert verdict == 'run 11002\n', verdict    # 1001 orders, 10001 requests
    assert judged < 2 * served + 0.2, (judged, served)


def instructions(text: str, *words: str) -> tuple[float, list[str]]:
    """Of the whole run, in millions, and what it told."""
    if shutil.which('valgrind') is None:
        raise counting.Skipped('no valgrind')
    done = subprocess.run(['valgrind', '--tool=callgrind', '--callgrind-out-file=/dev/null', PROGRAM, *words], input=text,
                          capture_output=True, text=True, timeout=300)
    total = re.search('Collected : ([0-9]+)', done.stderr)
    assert done.returncode == 0 and total, (done.returncode, done.stderr)
    return int(total[1]) / 1e6, done.stdout.splitlines()


def test_a_long_queue_is_soon_served() -> None:
    count, told = instructions(made('queue', 31, 40, 1), 'replay', '--planner', 'near', '--ends', 'homes')
    assert [reply.split()[0] for reply in told] == ['accepted'] * 40 + ['took'] * 40, told
    # all orders are taken; at most one agent in two ticks comes to the station under the rule, so no run of forty is shorter
    assert max(int(reply.split()[3]) for reply in told[40:]) >= 2 * 39, told
    assert count <= QUEUE_MILLIONS, f'{count:.1f} million instructions'


def test_a_queue_is_well_formed() -> None:
    for numbers in ((31, 40, 1), (81, 250, 0), (81, 250, 1)):
        done = subprocess.run([PROGRAM, 'check', '--ends', 'homes'], input=made('queue', *numbers), capture_output=True, text=True)
        assert (done.returncode, done.stdout) == (0, 'formed\n'), (numbers, done.stdout)


def test_a_maze_is_well_formed() -> None:
    # its points are dead ends, so no walk between two of them needs a third
    for numbers in ((21, 4, 20), (41, 10, 100)):
        done = subprocess.run([PROGRAM, 'check'], input=made('maze', *numbers), capture_output=True, text=True)
        assert (done.returncode, done.stdout) == (0, 'formed\n'), (numbers, done.stdout)


def test_families_and_numbers_are_wanted() -> None:
    for words in ((), ('flood', '1'), ('door', '64'), ('door', '64', 'x'), ('ring', '9', '9', '9'), ('queue', '31', '40')):
        done = subprocess.run([sys.executable, os.path.join(ROOT, 'dev', 'floods.py'), *words], capture_output=True)
        assert (done.returncode, done.stdout) == (2, b''), words


if __name__ == '__main__':
    sys.exit(counting.run(globals()))
