#!/usr/bin/env python3
"""Changes shifts in mid-run: a run is cut behind any entry, and what it is then is written by `state --log FILE`; the next log begins with that.

    tests/shift_mid_run.py 3               so many runs, for the gate
    tests/shift_mid_run.py 300 --seed 7    by hand

Each run has a script as tests/kills.py makes them, and goes on over up to four logs. On each the program has a few lives, most of them killed
by signal 9 or hung up on at a moment from the seed, as there. Then `state --log FILE` writes the front of the next log: for all entries that
stand in FILE, or with `--after N` for the first ones of them. FILE stays as it is. The front names the log before by its number, bytes and
sum, which are those of its text up to that entry; told again it is the same, and a run of no entries by `verify --wlog 3`. On the last log the
script comes to its end. Then the replies were those of the uncut run, each log has its entries, the last ledger is its ledger, and the last
state is its state, but for the log before: byte for byte. Where the program's help has no `state` all is skipped.
"""
import collections
import hashlib
import os
import random

import seeded
from kills import Moment, live, make, starting
from lives import Life, Whole, demand, go_on, judge, read_file, write_file


class Later(Whole):
    """What is left of a run behind so many entries, over a log that begins with the state that it had then."""

    def __init__(self, whole: Whole, front: bytes, first: int):
        self.__dict__.update(whole.__dict__)
        self.head, self.first = front, first
        self.log = self.text(len(self.entries), True)

    def text(self, count: int, ended: bool = False) -> bytes:
        entries = self.entries[self.first:count]
        return self.head + b''.join(entry + b'\n' for entry in entries) + (b'end %d\n' % len(entries) if ended else b'')

    def kept(self, text: bytes | None, told: int) -> int:
        """How many entries of the run stand whole in this log, and in those before."""
        lines = (text or b'').removeprefix(self.head).split(b'\n')[:-1]
        count = self.first + len([line for line in lines if not line.startswith(b'end ')])
        demand(text is not None and (self.log.startswith(text) or self.text(count, True).startswith(text)), f'the file is no log of this run: {(text or b"")[-200:]!r}')
        demand(count >= told, f'{told} replies were told, and the logs have {count} entries')
        return count


def state_of(whole: Whole, file: str, *words: str) -> bytes:
    """What `state` writes of a log; the files stay as they are."""
    before = [read_file(name) for name in (file, file + '.site')]
    done = whole.run('state', '--log', file, *whole.ends, *words, text=whole.site)
    demand((done.returncode, done.stderr) == (0, b''), f'state: status {done.returncode}, {done.stderr!r}')
    demand([read_file(name) for name in (file, file + '.site')] == before, 'state changed a file')
    return done.stdout


def front_of(chance: random.Random, whole: Whole, file: str, first: int, number: int, seen: collections.Counter) -> tuple[bytes, int]:
    """The front of the next log, and how many entries the run has at it: log `number` began with `first`."""
    kept = whole.kept(read_file(file), 0)
    count = chance.randint(first, kept) if chance.random() < 0.75 else kept
    words = () if count == kept and chance.random() < 0.5 else ('--after', str(count))
    front = state_of(whole, file, *words)
    text = whole.text(count)
    lines = front.split(b'\n')
    wanted = [b'wlog 3', b'after %d %d %s' % (number, len(text), hashlib.sha256(text).hexdigest().encode())]
    demand(lines[:2] == wanted, f'the state begins with {lines[:2]}, wanted {wanted}')
    demand(lines[-2:] == [b'begin', b''], f'it ends with {lines[-2:]}')
    demand(whole.verify(front + b'end 0\n', '--wlog', '3') == b'run 0\n', 'verify does not take the state')
    demand(state_of(whole, file, '--after', str(count)) == front, 'the state is another one when it is told again')
    for outside in (first - 1, kept + 1):
        done = whole.run('state', '--log', file, *whole.ends, '--after', str(max(0, outside)), text=whole.site)
        demand(outside < 0 or (done.stdout, done.stderr, done.returncode) == (b'', b'refused L1 line 0\n', 1), f'--after {outside}: {done}')
    seen['of earlier entries'] += count < kept
    seen['of a log with a torn line'] += not (read_file(file) or b'\n').endswith(b'\n')
    return front, count


def lives_of(chance: random.Random, whole: Whole, file: str, before: int, start: float, seen: collections.Counter) -> int:
    """A few lives on one log: how many entries the run has then."""
    told = before
    for _ in range(chance.randint(1, 3)):
        moment = Moment(chance, whole, file, start)
        life = Life(whole, file)
        try:
            end = live(chance, whole, life, before, moment)
            if end == 'done':
                demand((life.end(), life.errors) == (0, b''), f'status {life.status}, {life.errors!r}')
        finally:
            if life.process.poll() is None:
                life.process.kill()
        seen[end] += 1
        _, now = judge(whole, life, before)
        told = max(told, now)
        text = read_file(file)
        before = whole.kept(text, told) if text else before
        if end == 'done':
            break
    return before


def ledger_of(whole: Whole, file: str) -> bytes:
    done = whole.run('replay', '--log', file, '--tail', 'ledger', *whole.words, text=whole.site)
    demand((done.returncode, done.stderr) == (0, b''), f'the ledger: status {done.returncode}, {done.stderr!r}')
    return done.stdout


def run(chance: random.Random, whole: Whole, folder: str, seen: collections.Counter) -> None:
    """A run over several logs, and the same uncut."""
    uncut, count = os.path.join(folder, 'uncut'), len(whole.commands)
    start = starting(whole, uncut)
    go_on(whole, uncut, 0)
    part, first, before, number = whole, 0, 0, 1    # of the log with that number in its chain
    file = os.path.join(folder, 'log-1')
    for _ in range(chance.randint(1, 3)):
        before = lives_of(chance, part, file, before, start, seen)
        if not (read_file(file) or b'').startswith(part.head):
            continue    # it was killed before it had made the log
        front, first = front_of(chance, part, file, first, number, seen)
        part, before, number = Later(whole, front, first), first, number + 1
        file = os.path.join(folder, f'log-{number}')
        write_file(file, front)
        seen['shifts'] += 1
    go_on(part, file, before)
    demand(part.verify(part.log, '--wlog', '3') == b'run %d\n' % (count - first), 'verify does not call the last log a run')
    one, other = (state_of(whole, name).split(b'\n') for name in (uncut, file))
    demand(one[:1] + one[2:] == other[:1] + other[2:], 'the last state is not that of the uncut run')
    demand(ledger_of(whole, uncut) == ledger_of(whole, file), 'the last ledger is not that of the uncut run')
    seen['runs'] += 1
    seen['entries'] += count


def shift(chance: random.Random, program: str, folder: str, seen: collections.Counter) -> None:
    run(chance, make(chance, program, True), folder, seen)


if __name__ == '__main__':
    seeded.main(__doc__, shift)
