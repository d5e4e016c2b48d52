#!/usr/bin/env python3
"""Kills the built program again and again while it keeps a run in a file, and goes on with the run.

    tests/kills.py 50                  so many kills
    tests/kills.py 1000 --seed 7

Each run has a script from the seed (tools/make_instance.py, or examples/shelves), and each line of it an entry. A life of
the program, `replay --log FILE --replies full` behind two pipes, is sent the script from the line on that its `entries N`
names: line by line, each behind the reply to the one before, in batches, all at once, or in pieces that end anywhere. It is
killed by signal 9 at a moment from the seed: a time from its start, a time after so many replies, or when the file has
grown for so many times, so that it is being written or synced. Some lives are hung up on in place of it: the pipe ends
within a line.

After each life: what it told first is how many entries the file had; each reply is that of the script at one go; every
reply that any life told stands in the file at its place, and the file is a front of the log of the script at one go (with
its end line where the script's `close` was served). At the end of a run the file is that log, byte for byte, and
`verify` says how many entries it has. The program is that of WAREHOUSE, else the one of crates/warehouse. A signal leaves
what was written, synced or not: whether it was synced is for tests/order.py.
"""
import collections
import os
import random
import signal
import subprocess
import sys
import tempfile
import time

import seeded
from lives import ROOT, Life, Whole, demand, go_on, judge, read_file

WAYS = ['one', 'batch', 'all', 'pieces']


def make(chance: random.Random, program: str, made_alone: bool) -> Whole:
    """A script, with the words of its run."""
    words = ('--planner', 'patient') if chance.random() < 0.2 else ()
    if not words and chance.random() < 0.2 and not made_alone:
        with open(os.path.join(ROOT, 'examples/shelves'), 'rb') as shelves:
            return Whole(shelves.read(), words, program)
    if chance.random() < 0.3:
        words += ('--ends', 'homes')
    sizes = {'columns': chance.randint(20, 36), 'rows': chance.randint(9, 18), 'agents': chance.randint(1, 8), 'every': 1,
             'tasks': chance.randint(5, 60), 'ticks': chance.randint(20, 90), 'seed': chance.randrange(10 ** 6)}
    made = subprocess.run([sys.executable, os.path.join(ROOT, 'tools/make_instance.py'), '--stops', chance.choice('238'),
                           *(word for name, size in sizes.items() for word in (f'--{name}', str(size)))],
                          stdout=subprocess.PIPE, check=True).stdout
    return Whole(made, words, program)


class Sender:
    """Sends the script from a line on, in one of the ways."""

    def __init__(self, chance: random.Random, whole: Whole, life: Life, first: int):
        self.chance, self.life, self.way = chance, life, chance.choice(WAYS)
        self.lines = [line + b'\n' for line in whole.commands[first:]]
        self.sent = 0
        self.most = chance.randint(1, 200) if self.way == 'pieces' else 65536
        life.send(whole.site)

    def feed(self) -> None:
        """Hands over the next lines, where the way allows."""
        if self.way in ('one', 'batch') and (self.life.lines == 0 or self.life.lines - 1 < self.sent):
            return
        count = {'one': 1, 'batch': self.chance.randint(1, 60)}.get(self.way, len(self.lines))
        self.life.send(b''.join(self.lines[self.sent:self.sent + count]))
        self.sent = min(self.sent + count, len(self.lines))

    def is_done(self) -> bool:
        return self.life.lines > len(self.lines)


class Moment:
    """When a life is to end."""

    def __init__(self, chance: random.Random, whole: Whole, file: str, start: float):
        self.file, self.until = file, None
        self.kind = chance.choice(['start', 'replies', 'replies', 'growth', 'growth'])
        self.count = chance.randint(1, 1 + min(120 if self.kind == 'replies' else 25, len(whole.commands)))
        self.delay = chance.random() * (1.2 * start if self.kind == 'start' else 0.004)
        self.size = self.length()
        if self.kind == 'start':
            self.until = time.monotonic() + self.delay

    def length(self) -> int:
        try:
            return os.stat(self.file).st_size
        except FileNotFoundError:
            return 0

    def has_come(self, life: Life) -> bool:
        if self.kind == 'growth':
            size = self.length()
            self.count -= size > self.size
            self.size = size
            return self.count <= 0
        if self.until is None and life.lines >= self.count:
            self.until = time.monotonic() + self.delay
        return self.until is not None and time.monotonic() >= self.until

    def left(self) -> float:
        """How long to wait for anything else."""
        if self.kind == 'growth':
            return 0
        return 60 if self.until is None else self.until - time.monotonic()


def live(chance: random.Random, whole: Whole, life: Life, before: int, moment: Moment) -> str:
    """A life up to its end: 'killed', 'hung up', or 'done' where the script came to its end before."""
    sender = Sender(chance, whole, life, before)
    hangs_up = chance.random() < 0.1
    while not sender.is_done() and not life.ended:
        sender.feed()
        if moment.has_come(life):
            if hangs_up and life.lines:
                return hang_up(chance, life)
            life.kill()
            return 'killed'
        came = life.turn(moment.left(), sender.most)
        demand(came or moment.kind != 'replies' or moment.until, 'nothing came for 60 s')
    if chance.random() < 0.3:
        life.process.stdin.close()
        while moment.kind == 'growth' and not moment.has_come(life) and life.process.poll() is None:
            pass
        return 'killed' if life.kill() == -signal.SIGKILL else 'done'    # while it may be writing its last line
    return 'done'


def hang_up(chance: random.Random, life: Life) -> str:
    """Ends its input, mostly within a line: of what waits to be sent a front, or a part of a line."""
    keep = chance.randint(0, len(life.left))
    del life.left[keep:]
    if not life.left:
        life.send(b'token 0'[:chance.randint(0, 7)])
    while life.left and not life.deaf and not life.ended:
        demand(life.turn(60), 'nothing came for 60 s')
    status = life.end()
    demand((status, life.errors) == (0, b''), f'hung up on: status {status}, {life.errors!r}')
    return 'hung up'


def run(chance: random.Random, whole: Whole, file: str, kills: int, seen: collections.Counter) -> None:
    """One run, with so many kills at most."""
    remove(file)
    killed = before = told = 0
    start = starting(whole, file)
    while killed < kills:
        moment = Moment(chance, whole, file, start)
        life = Life(whole, file)
        try:
            end = live(chance, whole, life, before, moment)
            if end == 'done':
                demand((life.end(), life.errors) == (0, b''), f'status {life.status}, {life.errors!r}')
        finally:
            if life.process.poll() is None:
                life.process.kill()
        seen[end] += 1
        killed += end == 'killed'
        _, now = judge(whole, life, before)
        told = max(told, now)
        text = read_file(file) or b''
        kept = whole.kept(text, told)
        note(seen, end, life, text, kept, told)
        if end == 'hung up':
            demand(text == whole.left(kept), 'hung up on, it is not as the end of its input leaves it')
        before = kept
        if end == 'done':
            break
        # a run whose script is over, and whose last life was killed, is gone on from too
    go_on(whole, file, before)
    demand(whole.verify(whole.log) == b'run %d\n' % len(whole.commands), 'verify does not call it a run')
    seen['runs'] += 1
    seen['entries'] += len(whole.commands)


def starting(whole: Whole, file: str) -> float:
    """How long the program takes to its first line; there is no file then, as before."""
    began = time.monotonic()
    life = Life(whole, file)
    life.send(whole.site)
    life.await_lines(1)
    took = time.monotonic() - began
    life.end()
    remove(file)
    return took


def remove(file: str) -> None:
    """Away with the file, and the one beside it."""
    for name in (file, file + '.site'):
        if os.path.exists(name):
            os.remove(name)


def note(seen: collections.Counter, end: str, life: Life, text: bytes, kept: int, told: int) -> None:
    """Where the kills fell."""
    if end == 'killed':
        seen['before a line was told'] += life.lines == 0
        seen['with a part of a line in the file'] += not text.endswith(b'\n') and text != b''
        seen['with an entry in the file that was not told'] += kept > told
        seen['within a reply'] += not life.said.endswith(b'\n') and life.lines > 0
        seen['with the end line in the file'] += text.split(b'\n')[-2:][0].startswith(b'end ')


def main() -> None:
    parser = seeded.parser_of(__doc__, 'kills', 50)
    parser.add_argument('--made', action='store_true', help='made instances alone, since examples/shelves takes an unproved program long')
    options = parser.parse_args()
    runs = seeded.Runs(options.seed)
    with tempfile.TemporaryDirectory() as scratch:
        file = os.path.join(scratch, 'log')

        def one(chance: random.Random) -> None:
            whole = make(chance, options.program, options.made)
            run(chance, whole, file, min(options.kills - runs.seen['killed'], chance.randint(3, 25)), runs.seen)

        number = 0
        while runs.seen['killed'] < options.kills and runs.failed < 10:
            number += 1
            runs.attempt(number, one)
    runs.end()


if __name__ == '__main__':
    main()
