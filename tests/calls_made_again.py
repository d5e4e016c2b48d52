#!/usr/bin/env python3
"""Refuses each request for memory of crates/wh_refusals in turn: a call that was refused is made again.

    tests/calls_made_again.py                       every row
    tests/calls_made_again.py --row one_delivery

The program is built by `rt run` in crates/wh_refusals; its file `stdout` has the text of each row. For a row that asks
for memory n times it runs 2 n times: with the k-th request refused alone, and with all from the k-th on refused.

- The first requests are for the process's words, before the row's name is printed and any call is made. A run with a
  name of the same length that no row has makes these requests and no others, so it tells how many they are. With one of
  them refused, alone or with all later ones, the program must end with status 4 and print nothing. With a later one
  refused it may not: the row's name stands there.
- With a later one refused alone, it must end with status 0 and the row's text, with one line `refused E90` before the
  answer of a call that asks for memory (`ROWS`): the same call made again gives the row's answer. At the desk an entry
  may be `not shown` instead: it was committed, and its publication was refused. A line of the replay is not made again,
  so its place is taken, and the log has one entry less.
- With all later ones refused too, it must end with status 4, and what it printed is the same up to that line and then as
  many lines `refused E90` as the row's code allows: a call is made 3 times, and then the row ends. A warehouse or a desk
  that could not be opened was dropped with its parts. So it is not opened again at once: the first call for new parts is
  made 3 times. A line of the replay is made once, the next ones too, and then the log is asked for 3 times.
- Each request that was refused is told by one line of its own: a call that was refused asks for nothing more. But the
  check of a site that has parkings enough makes one request first that it can do without: refused alone, the row's text
  is as with ample memory, and where all later ones are refused each try of that call has it refused untold.
- From one request to the next, the place in the row stays or moves on.

The line `changed`, which tells that a value was not as before a refused call, stands in no text.
"""
import argparse
import itertools
import os
import subprocess
import sys
import tempfile

from hostile import ROOT
from want_of_memory import REFUSED, run

CRATE = os.path.join(ROOT, 'crates/wh_refusals')
HIDDEN = 'not shown\n'
TRIES = 3

# The calls that ask for memory before a line of a row is told, in order: where all later requests are refused too, how
# often one is told to be refused, and how many refused requests are not told.
NONE = []
CALLS = [(TRIES, 0)]
OPENING = [(TRIES, 0), (1 + TRIES, 0)]  # the parts of a warehouse or of a desk, and its opening
CHECK = [(TRIES, 0), (TRIES, TRIES), (TRIES, TRIES - 1)]    # a site, the request that its check can do without, and the others
ROWS = {
    'line_ends': [CALLS, CALLS, CHECK, CHECK],
    'checks': [CHECK, CHECK, CALLS],
    'one_delivery': [OPENING + CALLS] + [CALLS] * 9,
    'two_agents_cross': [OPENING + CALLS] + [CALLS] * 3,
    # free slots are told without memory
    'replace_and_spares': [OPENING + CALLS] + [CALLS] * 7 + [NONE] * 2,
    # so are what a viewer sees, that the journal is full, and the history
    'desk_receipts': [OPENING + OPENING + CALLS, NONE, CALLS, CALLS, NONE, NONE, CALLS, NONE, NONE, NONE],
    # three lines of the replay (`replay_place`), the line `%%`, the log's six lines, and what four texts are
    'log_and_verify': [OPENING, NONE, NONE, NONE, CALLS] + [NONE] * 5 + [CALLS] * 4,
}


def stored():
    """The text of each row, behind its name."""
    rows, name = {}, None
    for line in open(os.path.join(CRATE, 'stdout')):
        if line.strip() in ROWS:
            name = line.strip()
            rows[name] = []
        else:
            rows[name].append(line)
    return rows


def desk_place(lines, at):
    """An entry is committed and not shown: viewers see it with the next one that is shown. The next call is refused."""
    first, look, second, third, full, last, *entries, end = lines
    unseen, behind = 'entries 0 open 0\n', 'entries 2 open 0\n'
    hidden, ended = {
        0: ([first, HIDDEN, unseen, second, third, full, last, *entries, end], 3),
        2: ([first, look, second, HIDDEN, third, full, last, *entries, end], 4),
        3: ([first, look, second, third, HIDDEN, full, behind, *entries, behind], 7),
    }[at]
    return hidden, [hidden[:ended] + [REFUSED] * TRIES], 0


def replay_text(done, end):
    """The text of the replay with its log, where not all of its three lines were done, and how many lines are replies."""
    took = '0 token 0 = took 0 path 0,1 1,1 1,0 1,1 2,1 3,1 3,0\n'
    lines = [
        ('accepted 0\n', '0 submit x A B = accepted 0\n'),
        ('took 0 end 6\n', took) if done[0] else ('rested\n', '0 token 0 = rested\n'),
        ('clock 1 picked 0 dropped 0\n', '0 tick = clock 1 picked 0 dropped 0\n'),
    ]
    replies = [reply if is_done else REFUSED for (reply, _), is_done in zip(lines, done)]
    entries = [entry for (_, entry), is_done in zip(lines, done) if is_done]
    log = ['wlog 2\n', 'start 0 slots 4 4\n', *entries, f'end {len(entries)}\n']
    return [*replies, '%%\n', *log, f'run {len(entries)}\n', *end]


def replay_place(lines, at):
    """A line of the replay is refused. A later one that asks for memory is too, and then the log is."""
    end = lines[-3:]
    assert replay_text([True] * 3, end) == lines
    alone = replay_text([other != at for other in range(3)], end)
    later = itertools.product([True, False], repeat=2 - at)
    return alone, [replay_text([True] * at + [False, *done], end)[:4] + [REFUSED] * TRIES for done in later], 0


def places(row, lines):
    """In order, where a request of the row may be refused: the text if it is refused alone, those if all later ones are too,
    and how many refused requests these do not tell."""
    found = []
    for at, calls in enumerate(ROWS[row]):
        for times, untold in calls:
            told = [] if untold == times else [REFUSED]
            found.append((lines[:at] + told + lines[at:], [lines[:at] + [REFUSED] * times], untold))
        if row == 'desk_receipts' and at in (0, 2, 3):
            found.append(desk_place(lines, at))
        if row == 'log_and_verify' and at < 3:
            found.append(replay_place(lines, at))
    return found


class Program:
    """The program under the shim that refuses."""

    def __init__(self, program, scratch):
        self.program, self.shim, self.count = program, os.path.join(scratch, 'refuse.so'), os.path.join(scratch, 'count')
        subprocess.run(['cc', '-O1', '-shared', '-fPIC', '-o', self.shim, os.path.join(ROOT, 'tests/refuse.c')], check=True)

    def run(self, word, number=0, on=False):
        """The outcome, and how often memory was asked for."""
        open(self.count, 'wb').write(bytes(8))
        outcome = run(self.program, [word], b'', self.shim, number, on, self.count)
        return outcome, int.from_bytes(open(self.count, 'rb').read(), sys.byteorder)


def place_of(row, left, alone, on, refused):
    """Which of the places that are left it is at which both outcomes may come, the second with so many requests refused (None:
    none of them)."""
    told = on[1].count(REFUSED) + on[1].count(HIDDEN)
    for at, (text, texts, untold) in enumerate(left):
        ends = [(4, row + '\n' + ''.join(each), REFUSED) for each in texts]
        if alone == (0, row + '\n' + ''.join(text), '') and on in ends and refused == told + untold:
            return at
    return None


def go_through(program, row, lines):
    """Refuses each request of a row: the faults, how many requests it has, and how many are before the row, of
    calls, of publications, and done without."""
    (plain, requests), (nobody, start) = program.run(row), program.run('-' * len(row))
    faults, left, again, hidden, spared = [], places(row, lines), 0, 0, 0
    if plain != (0, row + '\n' + ''.join(lines), '') or nobody != (1, '', ''):
        faults.append(f'{row}, with ample memory: {plain}, {nobody}')
    for number in range(1, requests + 1):
        (alone, _), (on, asked) = program.run(row, number), program.run(row, number, True)
        if number <= start:
            good = alone == on == (4, '', REFUSED)
        else:
            at = place_of(row, left, alone, on, asked - (number - 1))
            good = at is not None
            left = left[at or 0:]
            spared += alone == plain
        if not good:
            faults.append(f'{row}, request {number} of {requests}: alone {alone}; all later ones too {on}, which asked {asked} times')
        again += REFUSED in alone[1]
        hidden += HIDDEN in alone[1]
    if not again:
        faults.append(f'{row}: no call was refused and made again')
    return faults, requests, start, again, hidden, spared


def main():
    parser = argparse.ArgumentParser(description=__doc__, formatter_class=argparse.RawDescriptionHelpFormatter)
    parser.add_argument('--program', default=os.path.join(CRATE, 'out/wh_refusals'))
    parser.add_argument('--row', action='append', choices=list(ROWS))
    options = parser.parse_args()
    texts, failed, sums = stored(), 0, [0] * 5
    with tempfile.TemporaryDirectory() as scratch:
        program = Program(options.program, scratch)
        for row in options.row or ROWS:
            faults, *counts = go_through(program, row, texts[row])
            for fault in faults:
                print(fault)
            failed += len(faults)
            sums = [one + other for one, other in zip(sums, counts)]
            print(f'{row}: of {counts[0]} requests {counts[1]} before the row, {counts[2]} of calls, {counts[3]} of publications, '
                  f'{counts[4]} done without')
    print(f'{2 * sums[0]} runs: {sums[1]} requests before a row, {sums[2]} of calls that were refused and made again, '
          f'{sums[3]} of publications: not shown, {sums[4]} that were done without; {failed} faults')
    sys.exit(failed != 0)


if __name__ == '__main__':
    main()
