#!/usr/bin/env python3
"""How many commands a second running clients are answered.

    bench_clients.py [--warehouse PROGRAM] [--lines N] [--clients 1,8,62] [--folder FOLDER]

For each number of clients a service is begun over a log in FOLDER, and each client sends N times `submit` and reads the reply
to each before it sends the next; then each sends all its lines at once and reads while it does. What is printed is how many
lines all of them were answered in a second, from the first client's first line to the last one's last reply. A log on a disk
is synced; one in /dev/shm costs no sync. The client is a process of Python, so that the figures are no more than it can do.
"""
import argparse
import multiprocessing
import os
import shutil
import subprocess
import sys
import tempfile
import threading
import time

import package    # noqa: F401

from warehouse.folder import Connection

SITE = b"""type octile
height 3
width 5
map
@.@.@
.....
@.@.@
%%
parking P0 0 1
parking P1 4 1
station A 1 0
station B 3 0
agent P0
agent P1
"""
LINE = b'submit x A B'


def one_by_one(connection: Connection, lines: int) -> None:
    for _ in range(lines):
        connection.ask(LINE)


def all_at_once(connection: Connection, lines: int) -> None:
    sender = threading.Thread(target=lambda: connection.send((LINE + b'\n') * lines))
    sender.start()
    for _ in range(lines):
        connection.read()
    sender.join()


def client(folder: str, lines: int, way, gate, spans) -> None:
    connection = Connection(folder)
    gate.wait()
    begun = time.monotonic()
    way(connection, lines)
    spans.put((begun, time.monotonic()))
    connection.close()


def measure(warehouse: str, room: str, clients: int, lines: int, way) -> float:
    words = []
    for number in range(clients):
        folder = os.path.join(room, f'c{number}')
        os.mkdir(folder, 0o700)
        for pipe in ('in', 'out'):
            os.mkfifo(os.path.join(folder, pipe), 0o600)
        words += ['--client', f'{number}={folder}:all']
    log = os.path.join(room, 'log')
    service = subprocess.Popen([warehouse, 'serve', '--log', log, '--journal', str(clients * (lines + 1)), *words],
                               stdin=subprocess.PIPE, stdout=subprocess.DEVNULL)
    service.stdin.write(SITE)
    service.stdin.close()
    gate, spans = multiprocessing.Barrier(clients), multiprocessing.Queue()
    peers = [multiprocessing.Process(target=client, args=(os.path.join(room, f'c{n}'), lines, way, gate, spans)) for n in range(clients)]
    for peer in peers:
        peer.start()
    found = [spans.get(timeout=600) for _ in peers]
    for peer in peers:
        peer.join()
    connection = Connection(os.path.join(room, 'c0'))
    connection.ask(b'close')
    connection.close()
    if service.wait(timeout=60) != 0:
        sys.exit(f'the service ended with {service.returncode}')
    return clients * lines / (max(end for _, end in found) - min(begun for begun, _ in found))


def main() -> None:
    parser = argparse.ArgumentParser(description=__doc__, formatter_class=argparse.RawDescriptionHelpFormatter)
    here = os.path.dirname(os.path.abspath(__file__))
    parser.add_argument('--warehouse', default=os.environ.get('WAREHOUSE', os.path.join(here, '..', 'warehouse')))
    parser.add_argument('--lines', type=int, default=1000)
    parser.add_argument('--clients', default='1,8,62')
    parser.add_argument('--folder', default=None)
    options = parser.parse_args()
    print('clients  one by one  all at once   (lines a second)')
    for clients in map(int, options.clients.split(',')):
        rates = []
        for way in (one_by_one, all_at_once):
            room = tempfile.mkdtemp(dir=options.folder)
            try:
                rates.append(measure(options.warehouse, room, clients, options.lines, way))
            finally:
                shutil.rmtree(room)
        print(f'{clients:7}  {rates[0]:10.0f}  {rates[1]:11.0f}', flush=True)


if __name__ == '__main__':
    main()
