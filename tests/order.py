#!/usr/bin/env python3
"""Looks at the order of the calls by which the built program keeps a run in a file, has each of them fail in turn, and cuts
the power before each.

    tests/order.py                     all
    tests/order.py --only power        or: order, fails, short

tests/order.c, built by cc, notes each call on the file, on the one beside it (FILE.site) and on their folder, and each write
to the standard output. A small run is taken line by line, each behind the reply to the one before: begun with no file, and
gone on with from one that a life before has left, with its end line or a torn one, and a whole or a torn file beside it; and
from a log of version 1.

- order: each file is locked before a byte of it is read, and never emptied as it is opened; both and their folder are synced
  before a line is told; the two first lines of a file that is begun are synced before the one beside it is made or
  changed, and a file with more is not changed before that one is synced; nothing is told while anything in a file is not synced; nor is anything at the end. There is no more than one sync for each read of the standard
  input, and three at the start and the end (four where it is begun, or of version 1), and two of the file beside it. What is told stands in the file.
- fails: each call in turn fails, alone and with all later ones, with EIO, and with ENOSPC where a write has put half of its
  bytes there. The program ends with `refused X5` and status 3; all that it told stands in the file, which is a front of the
  log and, where no later call fails, no longer than what was synced; and the run is gone on with, to the log of the script at
  one go.
- short: each write in turn takes half of its bytes. Nothing is told otherwise.
- power: the program is ended before each call. What was not synced is dropped: a file is cut to what it was at its last
  sync, and is gone where its name was not synced; then the run is gone on with, and every reply that was told is there. The
  same with all that was written left there, and with zeros in place of what was not synced, as file systems leave them, in
  the file itself: beside it they are refused.
"""
import argparse
import collections
import errno
import itertools
import os
import re
import shutil
import subprocess
import sys
import tempfile
from typing import Callable, NamedTuple

from lives import PROGRAM, ROOT, Life, Whole, Wrong, demand, go_on, judge, read_file, write_file

LINES = 7    # of the script of examples/deliveries, that a life before has served where a run is gone on with


class Call(NamedTuple):
    """A line that tests/order.c has noted."""
    number: int    # 0: not counted
    what: str
    result: int
    length: int    # of the file then; -1: there was none


class Case(NamedTuple):
    """What stands in the file and beside it before the life that is looked at; None: there is none."""
    name: str
    text: bytes | None
    before: int
    site: bytes | None


class Seen(NamedTuple):
    """A life, with its calls, its status, and up to which entry all is told."""
    life: Life
    calls: list[Call]
    status: int
    told: int


class Stand:
    """Where lives are lived under the library."""

    def __init__(self, folder: str, program: str):
        self.library, self.trace = os.path.join(folder, 'order.so'), os.path.join(folder, 'trace')
        self.kept = os.path.join(folder, 'kept')
        self.file = os.path.join(self.kept, 'log')
        subprocess.run(['cc', '-O1', '-shared', '-fPIC', '-o', self.library, os.path.join(ROOT, 'tests/order.c')], check=True)
        with open(os.path.join(ROOT, 'examples/deliveries'), 'rb') as instance:
            self.whole = Whole(instance.read(), (), program)
        self.site = self.whole.beside()

    def cases(self) -> list[Case]:
        half = self.whole.text(LINES)
        return [Case('begun', None, 0, None), Case('begun with an empty file', b'', 0, None),
                Case('begun with a torn site', None, 0, self.site[:25]),
                Case('gone on with', half, LINES, self.site), Case('gone on with and no site', half, LINES, None),
                Case('gone on with behind an end line', self.whole.text(LINES, True), LINES, self.site),
                Case('gone on with behind a torn line', half + self.whole.entries[LINES][:5], LINES, self.site),
                Case('begun with a torn head', self.whole.head[:20], 0, self.site[:25]),
                Case('gone on with from version 1', b'wlog 1' + half[6:] + self.whole.entries[LINES][:5], LINES, self.site)]

    def put(self, text: bytes | None, site: bytes | None) -> None:
        shutil.rmtree(self.kept, ignore_errors=True)
        os.mkdir(self.kept)
        for name, held in ((self.file, text), (self.file + '.site', site)):
            if held is not None:
                write_file(name, held)

    def live(self, case: Case, **settings: int) -> Seen:
        """A life under the library."""
        self.put(case.text, case.site)
        if os.path.exists(self.trace):
            os.remove(self.trace)
        names = {'LD_PRELOAD': self.library, 'ORDER_FILE': self.file, 'ORDER_TRACE': self.trace}
        life = Life(self.whole, self.file, (), names | {f'ORDER_{name}': str(value) for name, value in settings.items()})
        life.send(self.whole.site)
        lines, place = 1, case.before
        while life.await_lines(lines) and place < len(self.whole.commands):
            life.send(self.whole.commands[place] + b'\n')
            lines, place = lines + 1, place + 1
        status = life.end()
        found = re.findall(r'^(\d+|-) (.*) = (-?\d+) (-?\d+)$', (read_file(self.trace) or b'').decode(), re.MULTILINE)
        calls = [Call(0 if number == '-' else int(number), what, int(result), int(length)) for number, what, result, length in found]
        return Seen(life, calls, status, judge(self.whole, life, case.before)[1])

    def goes_on(self, text: bytes | None, told: int, site: bytes | None) -> None:
        """From such files the run is gone on with, and all that was told stands there."""
        self.put(text, site)
        go_on(self.whole, self.file, self.whole.kept(text and text.rstrip(b'\0'), told))
        self.is_beside()

    def is_beside(self) -> None:
        demand(read_file(self.file + '.site') == self.site, 'beside the file does not stand the site')


def in_order(stand: Stand, case: Case) -> None:
    """The order of the calls of a whole life."""
    seen = stand.live(case)
    demand((seen.status, seen.life.errors) == (0, b''), f'status {seen.status}, {seen.life.errors!r}')
    demand(read_file(stand.file) == stand.whole.log, 'the file is not the log of the script at one go')
    stand.is_beside()
    locked, told = set(), 0
    begins = len(case.text or b'') < len(stand.whole.head)
    wet = {'file': ['the file at the start'], 'site': ['the site at the start'], 'folder': ['the folder at the start']}    # what may not outlive a cut of the power
    syncs = collections.Counter()
    for call in seen.calls:
        which, word, what = parted(call)
        demand('empty' not in what and what != 'put elsewhere', f'{call} in {case.name}')
        demand(call.result >= 0 or what == 'open there', f'{call} failed')
        if word == 'lock':
            locked.add(which)
        demand(which in locked or word not in ('get', 'put', 'cut', 'sync') or which == 'folder', f'{call} before it is locked')
        if which == ('site' if begins else 'file') and (word in ('put', 'cut') or what.startswith('open create')):
            other = wet['file'] + wet['folder'] if begins and what.startswith('open create') else wet['file' if begins else 'site']
            demand(not other, f'{call} while this is not synced: {other}')
        if what.startswith('open create'):
            wet['folder'].append(str(call))
        if word in ('put', 'cut'):
            wet[which].append(str(call))
        elif word == 'sync':
            wet[which] = []
        elif word == 'tell':
            demand(not any(wet.values()), f'{call} while this is not synced: {wet}')
            told += call.result
            # the line `entries N` before the replies
            lines = bytes(seen.life.said)[:told].count(b'\n') - 1
            demand(call.length >= len(stand.whole.text(case.before + lines)), f'{call} tells {lines} replies')
        syncs[which] += word == 'sync'
    reads = sum(call.what == 'ask' for call in seen.calls)
    demand(told and not any(wet.values()), f'at the end this is not synced: {wet}')
    at_ends = 4 if begins or case.text.startswith(b'wlog 1') else 3
    demand(syncs['file'] <= reads + at_ends and syncs['site'] <= 2, f'{syncs} syncs for {reads} reads')


def parted(call: Call) -> tuple[str, str, str]:
    """Of what it is a call (the file, the one beside it, their folder), its word, and its words."""
    words = call.what.split(' ')
    which = words.pop(0) if words[0] == 'site' or call.what == 'folder sync' else 'file'
    return which, words[0], ' '.join(words)


def counted(calls: list[Call]) -> list[Call]:
    return [call for call in calls if call.number]


def safe_length(calls: list[Call], text: bytes | None, which: str = 'file') -> int:
    """How long a file was at its last sync; what stood there before is taken to be synced."""
    lengths = [call.length for call in calls if parted(call)[:2] == (which, 'sync') and call.result >= 0]
    return lengths[-1] if lengths else len(text or b'')


def fails(stand: Stand, case: Case, number: int, error: int, on: bool) -> None:
    """One call fails, or it and all later ones."""
    seen = stand.live(case, FAIL=number, ERROR=error, ON=int(on))
    demand((seen.status, seen.life.errors) == (3, b'refused X5\n'), f'status {seen.status}, {seen.life.errors!r}')
    demand(not seen.life.replies()[2], 'a reply was told in part')
    text = read_file(stand.file)
    kept = stand.whole.kept(text, seen.told)
    if not on:
        # a cut that failed at the start leaves what was there
        safe = safe_length(seen.calls, case.text)
        demand(len(text or b'') <= safe, f'{safe} bytes were synced, and the file has {len(text or b"")}')
        demand(seen.told in (0, kept), f'{kept} entries stand there, and {seen.told} replies were told')
    site = read_file(stand.file + '.site')
    demand(stand.site.startswith(site or b''), f'beside the file stands {site!r}')
    # an opening comes before the site, and all else behind it
    begun = stand.whole.head.startswith(case.text or b'') and stand.whole.head.startswith(text or b'')
    demand(site == stand.site or text == case.text or begun, 'the file was touched before the site stood beside it')
    demand(site != stand.site or (text or b'').startswith(stand.whole.head) or case.text is not None, 'the site stands without a log')
    stand.goes_on(text, seen.told, site)


def is_short(stand: Stand, case: Case, number: int) -> None:
    """One write takes half of its bytes."""
    seen = stand.live(case, SHORT=number)
    demand((seen.status, seen.life.errors) == (0, b''), f'status {seen.status}, {seen.life.errors!r}')
    demand(read_file(stand.file) == stand.whole.log, 'the file is not the log of the script at one go')
    stand.is_beside()


def left_by_a_cut(stand: Stand, case: Case, seen: Seen, which: str) -> list[bytes | None]:
    """What a cut of the power may leave of a file, all that was written first."""
    before, name = (case.text, stand.file) if which == 'file' else (case.site, stand.file + '.site')
    text = read_file(name)
    whole = [text]
    if text is not None:
        safe = min(safe_length(seen.calls, before, which), len(text))
        if len(text) > safe:
            whole += [text[:safe], text[:safe] + bytes(len(text) - safe), text[:safe] + bytes(4096)]
        # where it was cut, or its version put there, and that was not synced, it is as it was
        cuts, puts, syncs = ([place for place, call in enumerate(seen.calls) if parted(call)[:2] == (which, word)] for word in ('cut', 'put', 'sync'))
        if cuts + puts and before and (not syncs or max(syncs) < min(cuts + puts)):
            whole.append(before)
        # or of version 2, and not cut
        if cuts and puts and syncs and before and puts[0] < syncs[-1] < cuts[0]:
            whole.append(b'wlog 2' + before[6:])
    made = [place for place, call in enumerate(seen.calls) if parted(call)[0] == which and 'open create' in call.what]
    named = [place for place, call in enumerate(seen.calls) if call.what == 'folder sync']
    if before is None and (not made or not named or max(named) < min(made)):
        whole.append(None)    # its name was not synced
    return whole


def is_cut(stand: Stand, case: Case, number: int) -> None:
    """The power is cut before a call."""
    seen = stand.live(case, STOP=number)
    demand(seen.status == -9, f'status {seen.status}')
    files, sites = left_by_a_cut(stand, case, seen, 'file'), left_by_a_cut(stand, case, seen, 'site')
    for left, site in itertools.product(files, sites):
        # zeros in place of the two first lines are no beginning of a run, nor of a site: they are refused
        if (left is None or b'\0' not in left or left.startswith(stand.whole.head)) and b'\0' not in (site or b''):
            stand.goes_on(left, seen.told, site)


def attempt(name: str, test: Callable[..., None], *words: object) -> bool:
    try:
        test(*words)
        return True
    except (Wrong, OSError, ValueError, subprocess.SubprocessError) as wrong:
        print(f'{name}: {str(wrong)[:300]}')
        return False


def turns(stand: Stand, case: Case, only: str | None) -> list[bool]:
    """All that is done to one case."""
    calls = counted(stand.live(case).calls)
    good = [attempt(f'{case.name}: order', in_order, stand, case)] if only in (None, 'order') else []
    for call in calls:
        name = f'{case.name}: call {call.number}, {call.what}'
        if only in (None, 'fails'):
            for error, on in ((errno.EIO, False), (errno.EIO, True), (errno.ENOSPC, False), (errno.ENOSPC, True)):
                words = f'{name}: {errno.errorcode[error]}{", and all later ones" if on else ""}'
                good.append(attempt(words, fails, stand, case, call.number, error, on))
        if only in (None, 'short') and parted(call)[1] == 'put':
            good.append(attempt(f'{name}: half of it', is_short, stand, case, call.number))
        if only in (None, 'power'):
            good.append(attempt(f'{name}: the power is cut before', is_cut, stand, case, call.number))
    print(f'{case.name}: {len(calls)} calls')
    return good


def main() -> None:
    parser = argparse.ArgumentParser(description=__doc__, formatter_class=argparse.RawDescriptionHelpFormatter)
    parser.add_argument('--program', default=PROGRAM)
    parser.add_argument('--only', choices=('order', 'fails', 'short', 'power'))
    parser.add_argument('--case', type=int, action='append', help='the case of this number, from 0')
    options = parser.parse_args()
    with tempfile.TemporaryDirectory() as folder:
        stand = Stand(folder, options.program)
        cases = stand.cases()
        good = [told for number, case in enumerate(cases) if options.case is None or number in options.case
                for told in turns(stand, case, options.only)]
    print(f'{sum(good)} passed, {len(good) - sum(good)} failed')
    sys.exit(not all(good))


if __name__ == '__main__':
    main()
