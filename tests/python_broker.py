#!/usr/bin/env python3
"""The VDA 5050 adapter with real parts: mosquitto, the core with its log, a process for each vehicle; all of them are killed by signal 9 at
chance moments and started again. Then every order is delivered once, no two vehicles were in one cell, and the core's log is a run.

    tests/python_broker.py                                     30 orders, 10 kills
    tests/python_broker.py --orders 200 --kills 100            by hand, on examples/shelves with its 20 vehicles
    tests/python_broker.py --orders 60 --vehicles 60 --step 1  by hand, on a floor of 90 by 60
    tests/python_broker.py --orders 200 --kills 30 --lost 3    by hand: vehicle 3 stands still from second 40 to 100

The program is that of WAREHOUSE, else the one that the gate built. The last line is `N passed, M failed`, and `, K skipped` where there is no broker or no
paho-mqtt; status 1 where one failed.
"""
import argparse
import os
import signal
import subprocess
import sys
import tempfile

import counting
from fleet_cast import Cast, broker_program, keys_of, python_with_paho, run_fleet
from tools_drive import PROGRAM, ROOT, SCRATCH, file, has, same, text_of, tool

sys.path.insert(0, os.path.join(ROOT, 'python'))
sys.dont_write_bytecode = True

from warehouse import read_file, read_instance, read_orders    # noqa: E402


def needs_parts() -> None:
    if not broker_program():
        raise counting.Skipped('no mosquitto (apt-get install mosquitto)')
    if not python_with_paho():
        raise counting.Skipped('no Python here sees paho-mqtt (apt-get install python3-paho-mqtt)')


def cast_of(folder: str, text: str, orders: int, step: float, handling: float, leaves: float, words: tuple) -> Cast:
    """A fleet for an instance's text, and its first orders as the feed's table."""
    instance = read_instance('i', text.encode())
    with open(os.path.join(folder, 'site'), 'w', encoding='latin-1') as site:
        site.write(text)
    rows = [f'o{number},{order.client},{" ".join(order.stops)},{order.release * step}\n' for number, order in enumerate(read_orders('i', text.encode())[:orders])]
    with open(os.path.join(folder, 'orders.csv'), 'w') as table:
        table.write('key,client,stops,at\n' + ''.join(rows))
    return Cast(folder, os.path.join(folder, 'site'), PROGRAM, [instance.points[start].cell for start in instance.starts], instance.height, step, handling, leaves, words)


def judged(cast: Cast, found: dict) -> None:
    """What came of a fleet, judged by traces, answers, keys and log."""
    said = cast.said()
    try:
        same((found['wrong'], found['fell'], dict(found['told'])), ([], [], {'delivered': found['orders']}))
        same(found['dropped'], found['orders'])
        keys, runs = keys_of(cast)
        same((len(keys), [key for key, (made, due) in keys.items() if made != due]), (found['orders'], []))
        assert 'Traceback' not in said
        log = read_file(cast.log)
        same(log.count(b' = accepted '), found['orders'] if runs == 1 else log.count(b' = accepted '))
        site = read_instance('i', read_file(cast.instance)).with_nofollow().text
        has(subprocess.run([PROGRAM, 'verify', '--unended'], input=site + log, stdout=subprocess.PIPE).stdout.decode(), 'run ')
    except AssertionError:
        print(said[-3000:])
        raise


def run(text: str, orders: int, kills: int, step: float, handling: float = 1.0, leaves: float = 0.0, words: tuple = (), seed: int = 1, limit: float = 75,
        pauses: tuple = (1.0, 5.0), each=lambda now, cast: None) -> None:
    """One fleet, judged."""
    needs_parts()
    with tempfile.TemporaryDirectory() as folder:
        cast = cast_of(folder, text, orders, step, handling, leaves, words)
        found = run_fleet(cast, orders, kills, seed, limit, *pauses, each)
        print({**found, 'told': dict(found['told'])})
        judged(cast, found)
        assert sum(found['killed'].values()) == kills, found['killed']


def test_thirty_orders_and_ten_kills() -> None:
    text, _, _ = tool('make_instance.py', '--columns', '30', '--rows', '20', '--shelf', '6', '--agents', '8', '--tasks', '30', '--every', '2', '--seed', '3')
    run(text, 30, 10, 0.15, leaves=0.2, pauses=(0.5, 2.0))


def test_no_broker_is_a_line() -> None:
    needs_parts()
    with tempfile.TemporaryDirectory() as folder:
        cast = cast_of(folder, text_of('examples', 'deliveries'), 1, 0.2, 1, 0, ())
        cast.start('adapter')
        try:
            cast.running['adapter'].wait(2)
        except subprocess.TimeoutExpired:
            pass
        cast.running['adapter'].send_signal(signal.SIGTERM)
        same(cast.running['adapter'].wait(10), 0)
        cast.end()
        has(cast.said(), f'no broker at 127.0.0.1 port {cast.port} (Connection refused): it is tried again\n')
        assert 'Traceback' not in cast.said(), cast.said()


def test_the_launcher_finds_paho_or_says_so() -> None:
    needs_parts()
    words = [os.path.join(ROOT, 'tools', 'py'), 'vda5050', '/none/such', '--log', '/none/such']
    done = subprocess.run(words, capture_output=True, text=True)
    same((done.stderr, done.returncode), ('warehouse vda5050: /none/such: No such file or directory\n', 2))
    blind = file('blind', f'#!/bin/sh\nPYTHONPATH= exec {sys.executable} -S "$@"\n')
    os.chmod(blind, 0o700)
    launcher = file('launcher', text_of('tools', 'py').replace('/usr/bin/python3', blind).replace('python3.{14,13,12,11,10}', blind)
                    .replace(' python3 ', f' {blind} '))
    done = subprocess.run(['bash', launcher, 'vda5050'], capture_output=True, text=True)
    has(done.stderr, 'tools/py: vda5050 needs paho-mqtt, and no Python 3.10 or later here sees it: apt-get install python3-paho-mqtt')
    same(done.returncode, 125)


def by_hand() -> None:
    parser = argparse.ArgumentParser(description=__doc__, formatter_class=argparse.RawDescriptionHelpFormatter)
    for name, kind, value in (('orders', int, 30), ('kills', int, 0), ('vehicles', int, 20), ('step', float, 0.25), ('handling', float, 2.0), ('leaves', float, 0.3),
                              ('seed', int, 1), ('limit', float, 1800.0), ('lost', int, None)):
        parser.add_argument(f'--{name}', type=kind, default=value)
    options = parser.parse_args()
    text = text_of('examples', 'shelves') if options.vehicles == 20 else tool('make_instance.py', '--columns', '90', '--rows', '60', '--agents', str(options.vehicles),
                                                                              '--tasks', str(options.orders), '--seed', '9')[0]
    stands = [(40.0, signal.SIGSTOP), (100.0, signal.SIGCONT)] if options.lost is not None else []

    def each(now: float, cast: Cast) -> None:
        if stands and now > stands[0][0]:
            cast.running[f'v{options.lost}'].send_signal(stands.pop(0)[1])

    def test() -> None:
        run(text, options.orders, options.kills, options.step, options.handling, options.leaves, ('--out-after', '2') if options.lost is not None else (),
            options.seed, options.limit, (0.5, 3.0), each)
    sys.exit(counting.run({'test_by_hand': test}))


if __name__ == '__main__':
    if any(word.startswith('--') and word != '--no-program' for word in sys.argv[1:]):
        by_hand()
    counting.main(globals(), ['test_thirty_orders_and_ten_kills', 'test_no_broker_is_a_line'], SCRATCH)
