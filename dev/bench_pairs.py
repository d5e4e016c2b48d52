#!/usr/bin/env python3
"""Times the program and the peer by turns on the same instances, and writes docs/performance-pairs.csv.

    dev/bench_pairs.py [--warehouse PROGRAM] [--runs 10] [--only WORD] [--csv FILE]

Each row is one instance: by turns the program and the peer (dev/peer, built by g++) run it, --runs times each, and of each the least
user seconds count; their ratio; the most MB that were resident; and the worst request: each request sent alone through a pipe,
the least of three runs, and of these the most, in milliseconds by the clock. Where the program's least is below 0.05 seconds, the row
is made anew with ten times the orders and as many more ticks, and says so. That both print the same is checked in each run.

--csv - prints the rows, and writes nothing. Run it on a machine that does nothing else. `tools/figures_pages.py` makes the table
where a page has these lines:

    <!-- rows: performance-pairs instance seconds peer_seconds ratio mb peer_mb worst_ms peer_worst_ms -->

    <!-- end -->
"""
from __future__ import annotations

import argparse
import csv
import dataclasses
import os
import resource
import subprocess
import sys
import tempfile
import time

ROOT = os.path.dirname(os.path.dirname(os.path.realpath(__file__)))
COLUMNS = ['instance', 'seconds', 'peer_seconds', 'ratio', 'mb', 'peer_mb', 'worst_ms', 'peer_worst_ms']
ASKED_RUNS = 3
LEAST_SECONDS = 0.05
MORE = 10


@dataclasses.dataclass(frozen=True)
class Row:
    """An instance of tools/make_instance.py, or of the family `maze` of dev/floods.py where `maze` has its first two numbers."""
    name: str
    orders: int
    ticks: int = 0
    words: str = ''
    maze: str = ''

    def made(self, times: int, path: str) -> None:
        """Writes the instance with so many times the orders."""
        if self.maze:
            words = ['dev/floods.py', 'maze', *self.maze.split(), str(self.orders * times)]
        else:
            counts = ['--tasks', str(self.orders * times), '--ticks', str(self.ticks * times)]
            words = ['tools/make_instance.py', '--seed', '7', '--every', '1', *counts, *self.words.split()]
        with open(path, 'wb') as out:
            subprocess.run([sys.executable, os.path.join(ROOT, words[0]), *words[1:]], stdout=out, check=True)


SMALL, LARGE = '--columns 35 --rows 21 --agents 50', '--columns 81 --rows 81 --agents 250'
ROWS = [
    Row('small warehouse', 500, 1500, SMALL),
    Row('small, 2 to 8 stops', 500, 1500, f'{SMALL} --stops 8'),
    Row('small, the rule', 500, 1500, f'{SMALL} --nofollow'),
    Row('large warehouse', 1000, 1500, LARGE),
    Row('large, the rule', 1000, 1500, f'{LARGE} --nofollow'),
    Row('open map, 512 x 512', 200, 2500, '--columns 512 --rows 512 --open --agents 100'),
    Row('open map, 2048 x 2048', 32, 100, '--columns 2048 --rows 2048 --open --agents 16'),
    Row('maze', 300, maze='81 40'),
]


@dataclasses.dataclass
class Figures:
    """The least user seconds and the most MB of several runs."""
    seconds: float = float('inf')
    mb: int = 0


def ran(command: list[str], path: str, output: str, figures: Figures) -> None:
    """Runs a command once on an instance."""
    with open(path, 'rb') as given, open(output, 'wb') as told:
        run = subprocess.Popen(command, stdin=given, stdout=told)
        _, status, usage = os.wait4(run.pid, 0)
        run.returncode = os.waitstatus_to_exitcode(status)
    if run.returncode != 0:
        sys.exit(f'bench_pairs.py: {" ".join(command)}: status {run.returncode}')
    figures.seconds = min(figures.seconds, usage.ru_utime)
    figures.mb = max(figures.mb, usage.ru_maxrss // 1024)


def same(first: str, second: str) -> bool:
    with open(first, 'rb') as a, open(second, 'rb') as b:
        while True:
            part, other = a.read(1 << 20), b.read(1 << 20)
            if part != other:
                return False
            if not part:
                return True


def by_turns(commands: list[list[str]], path: str, runs: int, folder: str) -> list[Figures]:
    """The figures of each command, which run by turns and print the same."""
    figures = [Figures() for _ in commands]
    outputs = [os.path.join(folder, f'output{number}') for number in range(len(commands))]
    for _ in range(runs):
        for command, output, each in zip(commands, outputs, figures):
            ran(command, path, output, each)
        if not same(*outputs):
            sys.exit(f'bench_pairs.py: the programs print different things on {path}')
    return figures


def script(path: str) -> list[bytes]:
    """The lines of an instance."""
    with open(path, 'rb') as text:
        return text.readlines()


def asked(command: list[str], lines: list[bytes]) -> list[float]:
    """The milliseconds of each request, each sent alone once the line before it is answered."""
    start = [number for number, line in enumerate(lines) if line.rstrip(b'\r\n') == b'%%'][1] + 1
    with subprocess.Popen(command, stdin=subprocess.PIPE, stdout=subprocess.PIPE) as run:
        run.stdin.write(b''.join(lines[:start]))
        times = []
        for line in lines[start:]:
            begun = time.perf_counter()
            run.stdin.write(line)
            run.stdin.flush()
            run.stdout.readline()
            if line.startswith(b'token '):
                times.append(1000 * (time.perf_counter() - begun))
        run.stdin.close()
        run.stdout.read()
    return times


def worst(command: list[str], lines: list[bytes]) -> float:
    """The most of all requests' times, each the least of several runs: a run does the same each time."""
    runs = [asked(command, lines) for _ in range(ASKED_RUNS)]
    return max(min(each) for each in zip(*runs))


def figures_of(row: Row, commands: list[list[str]], runs: int, folder: str) -> dict[str, str]:
    """The line of a row."""
    path, name = os.path.join(folder, 'instance'), row.name
    row.made(1, path)
    probe = Figures()
    ran(commands[0], path, os.path.join(folder, 'output0'), probe)
    if probe.seconds < LEAST_SECONDS:
        row.made(MORE, path)
        name += f', {MORE} times the orders'
    ours, peers = by_turns(commands, path, runs, folder)
    lines = script(path)
    times = [worst(command, lines) for command in commands]
    ratio = ours.seconds / max(peers.seconds, 0.001)
    return dict(zip(COLUMNS, [name, f'{ours.seconds:.3f}', f'{peers.seconds:.3f}', f'{ratio:.2f}', str(ours.mb), str(peers.mb),
                              *(f'{most:.2f}' for most in times)]))


def peer_in(folder: str) -> str:
    """The peer, built."""
    peer = os.path.join(folder, 'peer')
    subprocess.run(['g++', '-O2', '-march=x86-64-v2', '-std=c++17', '-o', peer, os.path.join(ROOT, 'dev/peer/main.cpp')], check=True)
    return peer


def main() -> None:
    parser = argparse.ArgumentParser(description=__doc__, formatter_class=argparse.RawDescriptionHelpFormatter)
    parser.add_argument('--warehouse', default=os.path.join(ROOT, 'crates/warehouse/out/warehouse'))
    parser.add_argument('--runs', type=int, default=10)
    parser.add_argument('--only', default='', help='the rows whose names have this word')
    parser.add_argument('--csv', default=os.path.join(ROOT, 'docs/performance-pairs.csv'))
    given = parser.parse_args()
    resource.setrlimit(resource.RLIMIT_CORE, (0, 0))
    with tempfile.TemporaryDirectory() as folder:
        commands = [[given.warehouse, 'replay', '--planner', 'near'], [peer_in(folder), 'replay']]
        lines = []
        for row in ROWS:
            if given.only in row.name:
                lines.append(figures_of(row, commands, given.runs, folder))
                print('|'.join(lines[-1].values()), file=sys.stderr, flush=True)
    with sys.stdout if given.csv == '-' else open(given.csv, 'w', encoding='utf-8', newline='') as out:
        writer = csv.DictWriter(out, COLUMNS, lineterminator='\n')
        writer.writeheader()
        writer.writerows(lines)


if __name__ == '__main__':
    main()
