#!/usr/bin/env python3
"""What the built program answers to inputs that are made here: too long or too many to lie in files, where tests/run.sh
takes them from, or with threads, whose log is not the same in each run.

    tests/acceptance.py

The program is that of WAREHOUSE, else the one of crates/warehouse. What is expected is worked out by hand; status and errors
are those of docs/FORMATS.md. The last line is `N passed, M failed`.
"""
import os
import subprocess
import tempfile

import counting
from lives import PROGRAM, read_file
from tools_drive import same

SCRATCH = tempfile.TemporaryDirectory()

# A tree of nine cells: its least walks are unique. Two parkings at the ends of the middle row, where the agents stand, and four stations.
MAP = b'type octile\nheight 3\nwidth 5\nmap\n@.@.@\n.....\n@.@.@\n'
POINTS = b'parking P0 0 1\nparking P1 4 1\nstation A 1 0\nstation B 3 0\nstation C 1 2\nstation D 3 2\n'
SITE = MAP + b'%%\n' + POINTS + b'agent P0\nagent P1\n%%\n'
TICKED = b'clock 1 picked 0 dropped 0\n'


def call(text: bytes, *words: str) -> tuple[bytes, bytes, int]:
    """Standard output, standard error and status of the program, called with these words in the scratch folder."""
    done = subprocess.run([PROGRAM, *words], input=text, capture_output=True, cwd=SCRATCH.name, timeout=60)
    return done.stdout, done.stderr, done.returncode


# ----------------------------------------------------------------------------------------------------------- replay

# Each station with its distance from either agent and from A, B, C and D.
STATIONS = {'A': ((2, 4), (0, 4, 2, 4)), 'B': ((4, 2), (4, 0, 4, 2)), 'C': ((2, 4), (2, 4, 0, 4)), 'D': ((4, 2), (4, 2, 4, 0))}


def test_each_pair_of_stations_is_served() -> None:
    # on a well-formed instance each request is answered, and alone on the tree the answer is the least
    for planner in ('near', 'patient'):
        for pickup, (ways, distances) in STATIONS.items():
            for agent, way in enumerate(ways):
                for delivery, distance in zip(STATIONS, distances):
                    script = f'submit x {pickup} {delivery}\ntoken {agent}\n'
                    wanted = f'accepted 0\ntook 0 end {way + distance}\n'
                    same(call(SITE + script.encode(), 'replay', '--planner', planner), (wanted.encode(), b'', 0))


def test_a_line_of_ten_million_letters() -> None:
    same(call(SITE + b'a' * 10_000_000 + b'\ntick\n', 'replay', '--planner', 'near'), (b'refused C2\n' + TICKED, b'', 0))


def crowd(stations: int, agents: int) -> bytes:
    """Two rows of 2100 cells with so many stations, row by row, and as many agents on the first of them; one tick."""
    points = [f'station S{n} {n % 2100} {n // 2100}\n' for n in range(stations)] + [f'agent S{n}\n' for n in range(agents)]
    return b'type octile\nheight 2\nwidth 2100\nmap\n' + 2 * (b'.' * 2100 + b'\n') + b'%%\n' + ''.join(points).encode() + b'%%\ntick\n'


def test_the_most_points_and_agents() -> None:
    same(call(crowd(4096, 256), 'replay', '--planner', 'near'), (TICKED, b'', 0))
    same(call(crowd(4097, 256), 'replay', '--planner', 'near'), (b'', b'refused P6 line 4097\n', 1))
    same(call(crowd(4096, 257), 'replay', '--planner', 'near'), (b'', b'refused P6 line 4353\n', 1))


def test_a_map_section_of_one_byte_too_many() -> None:
    same(call(b'#' * 33_554_433, 'replay', '--planner', 'near'), (b'', b'refused X4\n', 1))


# ------------------------------------------------------------------------------------------------------------ homes

# Two orders to one station, and what each rule answers. Where paths end at stops, agent 1 rests, since B is where agent 0's path ends; where they
# go on home, it passes through C's arm until agent 0 has left B.
CROSSING = b'submit x A B\nsubmit y D B\ntoken 0\ntoken 1\ntoken 0\ntick\ntick\n'
AT_STOPS = (b'accepted 0\naccepted 1\ntook 0 path 0,1 1,1 1,0 1,1 2,1 3,1 3,0\nrested\nrefused E5 6\n'
            b'clock 1 picked 0 dropped 0\nclock 2 picked 1 dropped 0\n')
AT_HOMES = (b'accepted 0\naccepted 1\ntook 0 path 0,1 1,1 1,0 1,1 2,1 3,1 3,0 3,1 2,1 1,1 0,1\n'
            b'took 1 path 4,1 3,1 3,2 3,2 3,2 3,2 3,2 3,2 3,1 3,0 3,1 4,1\nrefused E5 6\n'
            b'clock 1 picked 0 dropped 0\nclock 2 picked 2 dropped 0\n')

# An order more, handed in once the first is delivered at clock 6: where paths go on home the agent takes it on its way, from 3,1.
NEXT = b'submit x A B\ntoken 0\n' + 6 * b'tick\n' + b'token 0\nsubmit y D C\ntick\ntoken 0\n'
NEXT_AT_STOPS = b'rested\naccepted 1\nclock 7 picked 0 dropped 0\ntook 1 path 3,0 3,1 3,2 3,1 2,1 1,1 1,2\n'
NEXT_AT_HOMES = b'rested\naccepted 1\nclock 7 picked 0 dropped 0\ntook 1 path 3,1 3,2 3,1 2,1 1,1 1,2 1,1 0,1\n'


def test_paths_go_on_home() -> None:
    for words, crossing, following in (((), AT_STOPS, NEXT_AT_STOPS), (('--ends', 'stops'), AT_STOPS, NEXT_AT_STOPS),
                                       (('--ends=homes',), AT_HOMES, NEXT_AT_HOMES)):
        same(call(SITE + CROSSING, 'replay', '--replies=full', *words), (crossing, b'', 0))
        output, errors, status = call(SITE + NEXT, 'replay', '--replies=full', *words)
        same((output[output.index(b'rested'):], errors, status), (following, b'', 0))


def test_a_log_is_judged_by_its_rule() -> None:
    # its first path is in the fifth line
    for words, others in (((), ('--ends', 'homes')), (('--ends', 'homes'), ())):
        output, errors, status = call(SITE + CROSSING, 'replay', '--tail=log', *words)
        log = output[output.index(b'%%\n') + 3:]
        same(call(SITE + log, 'verify', *words), (b'run 7\n', b'', 0))
        same(call(SITE + log, 'verify', *others), (b'bad 5\n', b'', 1))


def test_all_is_delivered_by_either_rule() -> None:
    # both orders end at B: at stops agent 0 stands there from clock 6 on, and takes the other itself
    for words in ((), ('--ends=homes',)):
        output, errors, status = call(SITE + CROSSING, 'replay', '--deliver', '--tail=ledger', *words)
        rows = output[output.index(b'%%\n') + 3:].splitlines()
        same([row.split(b' time')[0] for row in rows],
             [b'%s submitted 1 open 0 assigned 0 carried 0 done 1' % client for client in (b'x', b'y')])
        same((errors, status), (b'', 0))


def test_homes_are_parkings() -> None:
    # the lowest agent that starts at a station is told, by each subcommand, and nothing else
    for agents, agent in ((b'agent A\nagent P1\nagent B\n', 0), (b'agent P0\nagent B\nagent A\n', 1)):
        text = MAP + b'%%\n' + POINTS + agents + b'%%\n' + LOG
        for words in (('replay',), ('check',), ('verify',), ('live',), ('serve', '--log=none', '--client=0=none'), ('replay', '--bank=2')):
            same(call(text, words[0], '--ends=homes', *words[1:]), (b'', b'refused H1 %d\n' % agent, 1))
        same(call(text, 'check')[1:], (b'', 1))
    # behind the points' own faults
    same(call(MAP + b'%%\n' + POINTS + b'agent A\nagent A\n', 'check', '--ends=homes'), (b'', b'refused P9 line 8\n', 1))
    same(call(SITE, 'check', '--ends=homes'), (b'formed\n', b'', 0))


# ----------------------------------------------------------------------------------------------------------- verify

LOG = (b'wlog 2\nstart 0 slots 4 4\n0 submit x A B = accepted 0\n0 token 0 = took 0 path 0,1 1,1 1,0 1,1 2,1 3,1 3,0\n'
       b'0 tick = clock 1 picked 0 dropped 0\nend 3\n')


def test_no_front_of_a_log_is_one() -> None:
    for length in range(len(LOG)):
        output, errors, status = call(SITE + LOG[:length], 'verify')
        same((output[:4], errors, status, length), (b'bad ', b'', 1, length))
    same(call(SITE + LOG, 'verify'), (b'run 3\n', b'', 0))


# ------------------------------------------------------------------------------------------------------------- live

TWO_CLIENTS = SITE + b'submit x A B\nsubmit x B A\n%%\nsubmit y C D\n'


def test_a_bad_line_of_a_client() -> None:
    same(call(SITE + b'submit x A B\ngo\n', 'live'), (b'', b'refused C1 line 2\n', 1))


def test_62_clients_with_an_empty_section_each() -> None:
    same(call(SITE + 61 * b'%%\n', 'live'), (b'', b'refused E94\n', 1))


def live_log(*words: str) -> bytes:
    """What `verify` says of the log of two clients' run."""
    log, errors, status = call(TWO_CLIENTS, 'live', *words)
    same((errors, status), (b'', 0))
    told, errors, status = call(SITE + log, 'verify', *(('--ends', 'homes') if 'homes' in words else ()))
    same((errors, status), (b'', 0))
    return told


def test_a_live_log_is_verified() -> None:
    # 3 commands of clients, 8 requests of each of two agents, and 8 ticks; or as many entries as the journal takes
    same(live_log('--turns', '8', '--journal', '10000'), b'run 27\n')
    same(live_log('--turns', '8', '--journal', '10'), b'run 10\n')
    same(live_log('--turns', '8', '--ends', 'homes'), b'run 27\n')


# ------------------------------------------------------------------------------------------------------------ words

HELP = (f'Usage: {os.path.basename(PROGRAM)} replay [OPTIONS]\n', '--slots <N>', '--log <FILE>', '--vehicles  ',
        '[default: short] [possible values: short, full, placed]\n')


def test_help() -> None:
    output, errors, status = call(b'', 'replay', '--help')
    same((errors, status), (b'', 0))
    for part in HELP:
        assert part.encode() in output, part


def test_the_version() -> None:
    same(call(SITE, '--version'), (b'warehouse 0.1.0\n', b'', 0))
    output, errors, status = call(b'', 'live', '-V')
    same((errors, status), (b'', 0))
    assert output


def test_a_service_needs_a_log_and_a_client() -> None:
    for words, need in ((), '--log <FILE>'), (('--client', '0=x'), '--log <FILE>'), (('--log', 'x'), 'at least one \'--client <CLIENT>\''):
        output, errors, status = call(SITE, 'serve', *words)
        same((output, status), (b'', 2))
        assert need.encode() in errors, words


def test_mistaken_words() -> None:
    # they are told on standard error alone
    for word in ('fly', '--fast', 'live-two'):
        output, errors, status = call(b'', word)
        same((output, status), (b'', 2))
        assert errors, word


if __name__ == '__main__':
    counting.main(globals(), (), SCRATCH)
