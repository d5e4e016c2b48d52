#!/usr/bin/env python3
"""The files, pipes and standard streams of a run, against other programs and people: FILE renamed, removed, cut or replaced while
the run goes on, standard streams that are closed or are files of the run, links and foreign files at the names of a board, clients' folders that two
services name or all may write to.

    tests/files.py

The program is that of WAREHOUSE, else the one of crates/warehouse. What is expected is worked out by hand; refusals are those of
docs/FORMATS.md. The last line is `N passed, M failed`.
"""
from __future__ import annotations

import os
import resource
import select
import shutil
import stat
import subprocess
import sys
import tempfile
import threading
import time
from contextlib import contextmanager
from typing import BinaryIO, Callable, Iterator

sys.path.insert(0, os.path.join(os.path.dirname(os.path.dirname(os.path.abspath(__file__))), 'python'))

import counting
from lives import PROGRAM, ROOT, Life, Whole, Wrong, demand, read_file, write_file
from warehouse.folder import Broken, Connection, Greeting

SCRATCH = tempfile.TemporaryDirectory()
CROSS = Whole(read_file(os.path.join(ROOT, 'examples/deliveries')), (), PROGRAM)
SITE = CROSS.site                                     # ends with its separator
ALONE = SITE.removesuffix(b'%%\n')                    # a site with which the input ends
NOFOLLOW = SITE.replace(b'%%\n', b'%%\nrule nofollow\n', 1)
CLIENT = os.path.join(ROOT, 'tools/client.py')
TICKED = b'clock %d picked 0 dropped 0\n'
WAIT = 20    # seconds within which a service must be there, or end
LONG = 1 << 30    # bytes of a file that is far too long


def same(found: object, wanted: object) -> None:
    demand(found == wanted, f'found {found!r}, wanted {wanted!r}')


def afresh(*clients: str) -> str:
    """An empty folder, with a folder of two pipes in it for each client; its name, behind which a name can be put."""
    room = os.path.join(SCRATCH.name, 'room')
    shutil.rmtree(room, ignore_errors=True)
    os.mkdir(room)
    for client in clients:
        os.mkdir(os.path.join(room, client), 0o700)
        for end in ('in', 'out'):
            os.mkfifo(os.path.join(room, client, end), 0o600)
    return room + '/'


def replay(text: bytes, *words: str, shell: str = '', **how: object) -> tuple[bytes, bytes, int]:
    """Standard output, standard error and status of `replay`; `shell` changes what the program is given, as `>&-` does."""
    done = subprocess.run(['bash', '-c', f'exec "$@" {shell}', 'bash', PROGRAM, 'replay', *words], input=text, capture_output=True, timeout=60, **how)
    return done.stdout, done.stderr, done.returncode


def mode(path: str) -> int:
    return stat.S_IMODE(os.stat(path).st_mode)


# ------------------------------------------------------------------------------- FILE, changed by others during a run

def rename(file: str) -> None:
    os.rename(file, file + '.1')


def cut_to_nothing(file: str) -> None:
    shutil.copy(file, file + '.1')
    write_file(file, b'')


def replace_by_a_copy(file: str) -> None:
    shutil.copy(file, file + '.1')
    os.rename(file + '.1', file)


def write_behind(file: str) -> None:
    with open(file, 'ab') as log:
        log.write(b'x' * 500)


CHANGES: dict[str, Callable[[str], None]] = {
    'mv': rename, 'rm': os.remove, 'copytruncate': cut_to_nothing, 'a copy': replace_by_a_copy, 'bytes behind': write_behind}


def standing(folder: str, *but: str) -> dict[str, bytes | None]:
    """The files of a folder, but for these, with their bytes."""
    return {name: read_file(folder + name) for name in sorted(os.listdir(folder)) if name not in but and os.path.isfile(folder + name)}


def test_a_log_that_others_change_is_told_no_more() -> None:
    for name, change in CHANGES.items():
        file = afresh() + 'run.log'
        life = Life(CROSS, file)
        life.send(SITE + b'tick\ntick\ntick\n')
        demand(life.await_lines(4), name)
        change(file)
        left = standing(os.path.dirname(file) + '/')
        life.send(b'tick\ntick\n')
        while not life.ended:
            demand(life.turn(WAIT), f'{name}: it says nothing')
        same((name, life.end(), life.errors), (name, 3, b'refused X5\n'))
        same((name, bytes(life.said)), (name, b'entries 0\n' + b''.join(TICKED % clock for clock in (1, 2, 3))))
        # and what others made of it is left so
        same((name, standing(os.path.dirname(file) + '/')), (name, left))


def test_a_file_of_arrivals_that_others_change() -> None:
    for name, change in CHANGES.items():
        file = afresh() + 'run.log'
        life = Life(CROSS, file, ('--vehicles', '--behind', '1000'))
        life.send(NOFOLLOW + b'submit x A B\ntoken 0\ntick\ntick\n')
        demand(life.await_lines(5), name)
        change(file + '.at')
        life.send(b'at 0 1\n')
        while not life.ended:
            demand(life.turn(WAIT), f'{name}: it says nothing')
        same((name, life.end(), life.errors), (name, 3, b'refused X5\n'))
        demand(b'arrived' not in life.said, f'{name}: {bytes(life.said)!r}')


def afresh_beside(file: str) -> str:
    """The folder of a file, with a folder of two pipes in it."""
    room = os.path.dirname(file) + '/'
    os.mkdir(room + 'c0', 0o700)
    for end in ('in', 'out'):
        os.mkfifo(room + 'c0/' + end, 0o600)
    return room


@contextmanager
def service(room: str, *words: str, site: bytes = ALONE, log: str = '', **how: object) -> Iterator[subprocess.Popen]:
    """`serve` over room/log, or another log, which is killed behind the test where it has not ended."""
    write_file(room + 'site', site)
    with open(room + 'site', 'rb') as given, open(room + 'errors', 'wb') as errors:
        running = subprocess.Popen([PROGRAM, 'serve', '--log', log or room + 'log', *words], stdin=given, stdout=subprocess.PIPE, stderr=errors, **how)
    try:
        yield running
    finally:
        running.kill()
        running.stdout.close()
        running.wait(WAIT)


def ended(running: subprocess.Popen, room: str) -> tuple[bytes, int]:
    """Standard error and status of a service that ends."""
    status = running.wait(WAIT)
    return read_file(room + 'errors') or b'', status


def ask(folder: str, *lines: str) -> bytes:
    """What a client is told that sends these lines, each behind the reply to the one before."""
    connection = Connection(folder, WAIT)
    try:
        return b'entries %d\n' % connection.entries + b''.join(connection.ask(line.encode()) for line in lines)
    finally:
        connection.close()


def test_a_log_that_others_change_under_a_service() -> None:
    for name, change in CHANGES.items():
        room = afresh('c0')
        with service(room, '--client', f'0={room}c0:all') as running:
            same((name, ask(room + 'c0', 'tick', 'tick')), (name, b'entries 0\n' + TICKED % 1 + TICKED % 2))
            change(room + 'log')
            # the connection ends without a reply, and the service with it
            connection = Connection(room + 'c0', WAIT)
            try:
                said = connection.ask(b'tick')
            except Broken:
                said = b''
            finally:
                connection.close()
            same((name, connection.entries, said), (name, 2, b''))
            same((name, ended(running, room)[1]), (name, 3))
            demand(b'refused X5' in read_file(room + 'errors'), name)


# ------------------------------------------------------------------------------------------ standard streams

STREAMS = {'<&-': 1, '>&-': 2, '2>&-': 4}


def test_each_of_the_streams_may_be_closed() -> None:
    script = SITE + b'tick\ntick\n'
    log = CROSS.head + b'62 tick = clock 1 picked 0 dropped 0\n62 tick = clock 2 picked 0 dropped 0\n'
    for closed in range(8):
        shell = ' '.join(word for word, bit in STREAMS.items() if closed & bit)
        file = afresh() + 'run.log'
        said, errors, status = replay(script, '--log', file, shell=shell)
        whole = (b'entries 0\n' + TICKED % 1 + TICKED % 2, b'', 0)
        if closed & 1:      # nothing can be read, and no run begins
            same((shell, said, errors, status), (shell, b'', b'' if closed & 4 else b'refused X1\n', 3))
            same((shell, standing(os.path.dirname(file) + '/')), (shell, {}))
            continue
        if closed & 2:      # the run begins, and nothing can be told
            same((shell, said, errors, status), (shell, b'', b'' if closed & 4 else b'refused X3\n', 3))
            same((shell, read_file(file)), (shell, CROSS.head))
        else:
            same((shell, said, errors, status), (shell, *whole))
            same((shell, read_file(file)), (shell, log))
        # what belongs to a stream stands in no file, and the run can be gone on with
        same((shell, read_file(file + '.site')), (shell, CROSS.beside()))
        entries = 0 if closed & 2 else 2
        same((shell, *replay(script, '--log', file)), (shell, b'entries %d\n' % entries + TICKED % (entries + 1) + TICKED % (entries + 2), b'', 0))


def test_closed_streams_without_files() -> None:
    for closed in range(8):
        shell = ' '.join(word for word, bit in STREAMS.items() if closed & bit)
        said, errors, status = replay(SITE + b'tick\n', shell=shell)
        wanted = 'refused X1\n' if closed & 1 else 'refused X3\n' if closed & 2 else ''
        same((shell, errors, status), (shell, b'' if closed & 4 else wanted.encode(), 3 if wanted else 0))
        same((shell, said), (shell, b'' if wanted else TICKED % 1))


def greeted(folder: str, entries: int) -> tuple[BinaryIO, bytes]:
    """The pipe of replies, once a connection has greeted with so many entries, and its tag. Where the one before still had it open, it ends without a byte, and is opened again."""
    until, size = time.monotonic() + WAIT, len(f'entries {entries} {16 * "0"}\n')
    while time.monotonic() < until:
        replies = open(folder + '/out', 'rb', 0)
        found = b''
        while len(found) < size and (piece := replies.read(size - len(found))):
            found += piece
        if found:
            greeting = Greeting.of(found)
            demand(greeting and greeting.entries == entries, repr(found))
            return replies, greeting.tag
        replies.close()
    raise Wrong('no greeting')


def test_a_service_with_its_standard_error_closed() -> None:
    room = afresh('c0')
    write_file(room + 'site', ALONE)
    how = ['bash', '-c', 'exec "$@" 2>&-', 'bash', PROGRAM, 'serve', '--log', room + 'log', '--client', f'0={room}c0:all']
    with open(room + 'site', 'rb') as given:
        running = subprocess.Popen(how, stdin=given, stdout=subprocess.PIPE)
    try:
        # a line that is cut off, of which standard error would tell
        same(ask(room + 'c0', 'tick'), b'entries 0\n' + TICKED % 1)
        replies, tag = greeted(room + 'c0', 1)
        with replies, open(room + 'c0/in', 'wb', 0) as commands:
            commands.write(b'begin ' + tag + b'\ntic')
        same(ask(room + 'c0', 'tick', 'close'), b'entries 1\n' + TICKED % 2 + b'closed\n')
        same(running.wait(WAIT), 0)
    finally:
        running.kill()
        running.stdout.close()
        running.wait(WAIT)
    same(read_file(room + 'log.site'), CROSS.beside())
    same(replay(SITE, '--log', room + 'log'), (b'entries 3\n', b'', 0))


def test_a_service_with_its_streams_closed() -> None:
    for closed in range(8):
        shell = ' '.join(word for word, bit in STREAMS.items() if closed & bit)
        room = afresh('c0')
        write_file(room + 'site', ALONE)
        words = ['bash', '-c', f'exec "$@" {shell}', 'bash', PROGRAM, 'serve', '--log', room + 'log', '--client', f'0={room}c0:all', '--board', room + 'board']
        with open(room + 'site', 'rb') as given:
            running = subprocess.Popen(words, stdin=given, stdout=subprocess.PIPE, stderr=subprocess.PIPE)
        try:
            if not closed & 1:
                same((shell, ask(room + 'c0', 'tick', 'close')), (shell, b'entries 0\n' + TICKED % 1 + b'closed\n'))
            said, errors = running.communicate(timeout=WAIT)
        finally:
            running.kill()
            running.communicate()
        log = CROSS.head + b'0 tick = clock 1 picked 0 dropped 0\n0 close = closed\nend 2\n'
        told = b'refused X1\n' if closed & 1 else b''
        same((shell, said, errors, running.returncode), (shell, b'', b'' if closed & 4 else told, 3 if told else 0))
        # without input no run begins; else its files are whole, whatever was to be told
        kept = standing(room, 'site')
        board = kept.pop('board', None)
        same((shell, kept), (shell, {} if closed & 1 else {'log': log, 'log.site': CROSS.beside()}))
        demand(closed & 1 or board.startswith(b'wboard 1\nentries 2\n'), f'{shell}: {board!r}')


def test_a_stream_that_is_a_file_of_the_run() -> None:
    for end in ('', '.site', '.at'):
        for stream in ('>>', '2>>', '>', '2>', '1<>', '2<>'):
            file = afresh() + 'run.log'
            replay(NOFOLLOW + b'tick\n', '--log', file, '--vehicles')
            left = standing(os.path.dirname(file) + '/') | ({os.path.basename(file + end): b''} if stream in ('>', '2>') else {})
            said, errors, status = replay(NOFOLLOW + b'tick\n', '--log', file, '--vehicles', shell=f"{stream} '{file + end}'")
            # into a file of the run not even that is told
            same((end, stream, said, errors, status), (end, stream, b'', b'' if stream[0] == '2' else b'refused X9\n', 3))
            same((end, stream, standing(os.path.dirname(file) + '/')), (end, stream, left))
    # through a link too, and under a service, whose board is a file of the run, and so is the one that is to replace it
    for own in ('log', 'board', 'shown.new'):
        room = afresh('c0')
        write_file(room + own, b'')
        os.symlink(room + own, room + 'link')
        write_file(room + 'site', ALONE)
        named = {'--log': room + 'new', '--board': room + 'shown'} | ({} if own == 'shown.new' else {'--' + own: room + 'link'})
        left = standing(room)
        with open(room + own, 'ab') as out, open(room + 'site', 'rb') as given:
            done = subprocess.run([PROGRAM, 'serve', '--client', f'0={room}c0', *(word for pair in named.items() for word in pair)],
                                  stdin=given, stdout=out, stderr=subprocess.PIPE, timeout=WAIT)
        same((own, done.stderr, done.returncode, standing(room)), (own, b'refused X9\n', 3, left))
    # it is told before anything that the input or FILE.at holds
    file = afresh() + 'run.log'
    write_file(file + '.at', b'at 0 0\nat 0 3\n')
    same(replay(b'no map', '--log', file, shell=f">> '{file}.at'"), (b'', b'refused X9\n', 3))
    # other files are no matter
    file = afresh() + 'run.log'
    same(replay(SITE, '--log', file, shell=f"> '{file}.1' 2>&1"), (b'', b'', 0))
    same(read_file(file + '.1'), b'entries 0\n')


# ------------------------------------------------------------------------------------------------- a lost log

def test_a_lost_log_is_no_new_run() -> None:
    begun = CROSS.head + b'62 tick = clock 1 picked 0 dropped 0\n'
    for text in (None, *(CROSS.head[:length] for length in (0, 1, 6, 7, 8, len(CROSS.head) - 1))):
        file = afresh() + 'run.log'
        same(replay(SITE + b'tick\n', '--log', file), (b'entries 0\n' + TICKED % 1, b'', 0))
        same(read_file(file), begun)
        if text is None:
            os.remove(file)
        else:
            write_file(file, text)
        left = standing(os.path.dirname(file) + '/')
        same((text, *replay(SITE + b'tick\n', '--log', file)), (text, b'', b'refused X8\n', 1))
        with service(afresh_beside(file), '--client', f'0={os.path.dirname(file)}/c0', log=file) as running:
            same((text, *ended(running, os.path.dirname(file) + '/')), (text, b'refused X8\n', 1))
        same((text, standing(os.path.dirname(file) + '/', 'site', 'errors')), (text, left))
        # another site is told first, and so are other slots than FILE's, where it has any
        same(replay(SITE.replace(b'station D 3 2', b'station E 3 2'), '--log', file, '--new'), (b'', b'refused L1 line 0\n', 1))
        # asked for, or without the text of the site, a new run begins
        if text == CROSS.head[:7]:
            same(replay(SITE + b'tick\n', '--log', file, '--new'), (b'entries 0\n' + TICKED % 1, b'', 0))
        else:
            os.remove(file + '.site')
            same(replay(SITE + b'tick\n', '--log', file), (b'entries 0\n' + TICKED % 1, b'', 0))
        # and one that is there goes on
        same(replay(SITE + b'tick\n', '--log', file, '--new'), (b'entries 1\n' + TICKED % 2, b'', 0))


def test_a_service_begins_anew_where_that_is_asked_for() -> None:
    room = afresh('c0')
    write_file(room + 'log.site', CROSS.beside())
    with service(room, '--client', f'0={room}c0:all') as running:
        same(ended(running, room), (b'refused X8\n', 1))
    with service(room, '--client', f'0={room}c0:all', '--new'):
        same(ask(room + 'c0', 'tick'), b'entries 0\n' + TICKED % 1)


def test_a_new_run_is_asked_for_of_a_log_alone() -> None:
    said, errors, status = replay(SITE, '--new')
    same((said, status, b"'--new' needs '--log <FILE>'" in errors), (b'', 2, True))


def test_no_kill_looks_like_a_lost_log() -> None:
    for number in range(60):
        file = afresh() + 'run.log'
        running = subprocess.Popen([PROGRAM, 'replay', '--log', file], stdin=subprocess.PIPE, stdout=subprocess.DEVNULL)
        running.stdin.write(SITE)
        running.stdin.flush()
        time.sleep(number * 0.0002)
        running.kill()
        running.stdin.close()
        running.wait(WAIT)
        same(replay(SITE + b'tick\n', '--log', file), (b'entries 0\n' + TICKED % 1, b'', 0))


# -------------------------------------------------------------------------------------------------- FILE.site

def test_a_site_that_is_far_too_long_is_not_read_whole() -> None:
    file = afresh() + 'run.log'
    same(replay(SITE + b'tick\n', '--log', file), (b'entries 0\n' + TICKED % 1, b'', 0))
    os.truncate(file + '.site', LONG)    # zeros behind it, which take no room on the disk
    kept = read_file(file)
    limit = lambda: resource.setrlimit(resource.RLIMIT_AS, (LONG // 2, LONG // 2))
    same(replay(SITE + b'tick\n', '--log', file, preexec_fn=limit), (b'', b'refused L1 line 0\n', 1))
    same((os.stat(file + '.site').st_size, read_file(file)), (LONG, kept))


def test_a_site_of_some_pieces() -> None:
    side = 400
    site = f'type octile\nheight {side}\nwidth {side}\nmap\n'.encode() + (b'.' * side + b'\n') * side + b'%%\nstation A 0 0\nagent A\n%%\n'
    file = afresh() + 'run.log'
    same(replay(site + b'tick\n', '--log', file), (b'entries 0\n' + TICKED % 1, b'', 0))
    text = read_file(file + '.site')
    for clock, length in enumerate((0, 1, 65535, 65536, 65537, 2 * 65536, len(text) - 1, len(text)), 2):
        write_file(file + '.site', text[:length])
        same((length, *replay(site + b'tick\n', '--log', file)), (length, b'entries %d\n' % (clock - 1) + TICKED % clock, b'', 0))
        same((length, read_file(file + '.site') == text), (length, True))
    for place in (0, 65535, 65536, len(text) - 1, len(text)):
        other = text[:place] + b'x' + text[place + 1:]
        write_file(file + '.site', other)
        same((place, *replay(site + b'tick\n', '--log', file)), (place, b'', b'refused L1 line 0\n', 1))
        same((place, read_file(file + '.site') == other), (place, True))


# ---------------------------------------------------------------------------------------------------- FILE.at

def test_a_foreign_file_is_no_file_of_arrivals() -> None:
    for text in (b'my only password', b'at 0 0x', b'at 1', b'\0', b' ', b'at 0 0\r'):
        for linked in (False, True):
            file = afresh() + 'run.log'
            held = file + ('.secret' if linked else '.at')
            write_file(held, text)
            if linked:
                os.symlink(held, file + '.at')
            same((text, *replay(NOFOLLOW, '--log', file, '--vehicles')), (text, b'', b'refused L1 at line 1\n', 1))
            same((text, read_file(held), read_file(file), read_file(file + '.site')), (text, text, None, None))
    for length in range(len(b'at 0 0\n') + 1):
        file = afresh() + 'run.log'
        write_file(file + '.at', b'at 0 0\n'[:length])
        same(replay(NOFOLLOW, '--log', file, '--vehicles'), (b'entries 0\n', b'', 0))
        same(read_file(file + '.at'), b'at 0 0\n')


def test_a_run_with_vehicles_is_gone_on_with_by_vehicles_alone() -> None:
    room = afresh('c0')
    file = room + 'log'
    same(replay(NOFOLLOW + b'tick\n', '--log', file, '--vehicles'), (b'entries 0\n' + TICKED % 1, b'', 0))
    # nobody has moved: it may go on without
    same(replay(NOFOLLOW + b'tick\n', '--log', file), (b'entries 1\n' + TICKED % 2, b'', 0))
    told = b'entries 2\naccepted 0\ntook 0 end 6\n' + TICKED % 3 + b'go 0 3 1,1\narrived 0 3\n'
    same(replay(NOFOLLOW + b'submit x A B\ntoken 0\ntick\nat 0 3\n', '--log', file, '--vehicles', '--behind', '1000'), (told, b'', 0))
    same(read_file(file + '.at'), b'at 0 0\nat 0 3\n')
    left = standing(room)
    same(replay(NOFOLLOW + b'tick\n', '--log', file), (b'', b'refused V5\n', 1))
    with service(room, '--client', f'0={room}c0', site=NOFOLLOW.removesuffix(b'%%\n')) as running:
        same(ended(running, room), (b'refused V5\n', 1))
    same(standing(room, 'site', 'errors'), left)
    same(replay(NOFOLLOW, '--log', file, '--vehicles')[0].splitlines()[0], b'entries 5')


# ------------------------------------------------------------------------------------------------ clients' folders

def test_a_second_service_over_a_folder() -> None:
    room = afresh('c0', 'c1')
    with service(room, '--client', f'1={room}c1:all'):
        same(ask(room + 'c1', 'tick'), b'entries 0\n' + TICKED % 1)
        # under another log, another number and another name of the folder
        os.symlink(room + 'c1', room + 'other')
        done = subprocess.run([PROGRAM, 'serve', '--log', room + 'second', '--client', f'0={room}c0', '--client', f'3={room}other'],
                              input=ALONE, capture_output=True, timeout=WAIT)
        same((done.stdout, done.stderr, done.returncode), (b'', b'refused X5 3\n', 3))
        same([name for name in os.listdir(room) if name.startswith('second')], [])
        same(ask(room + 'c1', 'tick'), b'entries 1\n' + TICKED % 2)
    # and it is free again once that one has ended
    with service(room, '--client', f'3={room}other:all'):
        same(ask(room + 'c1', 'tick'), b'entries 0\n' + TICKED % 3)


def test_a_folder_or_pipe_that_all_may_write_to() -> None:
    for name in ('c0', 'c0/in', 'c0/out'):
        room = afresh('c0')
        os.chmod(room + name, 0o777)
        with service(room, '--client', f'0={room}c0:all') as running:
            same((name, *ended(running, room)), (name, b'refused X5 0\n', 3))
        os.chmod(room + name, 0o770)
        with service(room, '--client', f'0={room}c0:all'):
            same((name, ask(room + 'c0', 'tick')), (name, b'entries 0\n' + TICKED % 1))


def test_what_is_no_folder() -> None:
    for make in (lambda name: write_file(name, b''), os.mkfifo, lambda name: None):
        room = afresh()
        make(room + 'c0')
        with service(room, '--client', f'0={room}c0') as running:
            same(ended(running, room), (b'refused X5 0\n', 3))


def test_lines_before_a_connection_begins() -> None:
    room, tags = afresh('c0'), set()
    told = b'client 0: 6 lines before begin dropped\n'
    with service(room, '--client', f'0={room}c0:all') as running:
        for clock in (1, 2):
            replies, tag = greeted(room + 'c0', clock - 1)
            tags.add(tag)
            with replies, open(room + 'c0/in', 'wb', 0) as commands:
                for line in (b'tick', b'begin ' + 16 * b'0', b'begin ' + tag[:-1], b'begin ' + tag + b' ', b'#begin ' + tag, 300 * b'x', b'', b'begin ' + tag):
                    commands.write(line + b'\n')
                # behind it lines are served as ever, and a connection begins once
                commands.write(b'tick\nbegin ' + tag + (b'\nclose\n' if clock == 2 else b'\n'))
                wanted = TICKED % clock + b'refused C1\n' + b'closed\n' * (clock == 2)
                found = b''
                while len(found) < len(wanted) and (piece := replies.read(len(wanted) - len(found))):
                    found += piece
                same((clock, found), (clock, wanted))
        same(ended(running, room), (told, 0))
    same(len(tags), 2)


def test_a_connection_that_does_not_begin() -> None:
    room = afresh('c0')
    with service(room, '--client', f'0={room}c0:all'):
        replies, tag = greeted(room + 'c0', 0)
        with replies, open(room + 'c0/in', 'wb', 0) as commands:
            commands.write(b'tick\n')
            time.sleep(4)
            same(read_file(room + 'errors'), b'')
            time.sleep(8)
            same(read_file(room + 'errors'), b'client 0: waits for begin\n')
            commands.write(b'begin ' + tag + b'\ntick\n')
            same(replies.read(len(TICKED % 1)), TICKED % 1)
        same(ask(room + 'c0', 'tick'), b'entries 1\n' + TICKED % 2)
        same(read_file(room + 'errors'), b'client 0: waits for begin\nclient 0: 1 lines before begin dropped\n')


def test_a_number_of_a_client_has_one_spelling() -> None:
    for number in ('00', '01', '+1', '061', '-0', '62', ' 1', '1 ', '0x1', ''):
        room = afresh('c0')
        with service(room, f'--client={number}={room}c0') as running:
            errors, status = ended(running, room)
            same((number, status, b'with a number from 0 to 61' in errors), (number, 2, True))
        same((number, os.path.lexists(room + 'log')), (number, False))
    for number in ('0', '9', '10', '61'):
        room = afresh('c0')
        with service(room, f'--client={number}={room}c0:all'):
            same((number, ask(room + 'c0', 'tick')), (number, b'entries 0\n' + TICKED % 1))


def test_a_reply_that_ends_with_closed_is_not_the_end() -> None:
    room = afresh('c0')
    with service(room, '--client', f'0={room}c0:all'):
        said = subprocess.run([CLIENT, room + 'c0', '--wait', str(WAIT)], input=b'submit x A closed\nsubmit y A B\ntick\n',
                              capture_output=True, timeout=WAIT + 10)
        same((said.stdout, said.returncode), (b'entries 0\nrefused E1 closed\naccepted 0\n' + TICKED % 1, 0))


# ---------------------------------------------------------------------------------------------------------- boards

BOARD = b'wboard 1\nentries 0\n'


def shown(room: str, **how: object) -> tuple[bytes, int]:
    """`serve` with a board, over a client that ticks and closes: what it says on standard error, and its status."""
    with service(room, '--client', f'0={room}c0:all', '--board', room + 'board', **how) as running:
        replies = os.open(room + 'c0/out', os.O_RDONLY | os.O_NONBLOCK)
        try:
            greeting = b''
            while not greeting and running.poll() is None:    # it neither serves nor has ended
                if select.select([replies], [], [], 0.01)[0]:
                    greeting = os.read(replies, 99)
            if greeting:
                with open(room + 'c0/in', 'wb') as commands:
                    commands.write(b'begin ' + Greeting.of(greeting).tag + b'\ntick\nclose\n')
            return ended(running, room)
        finally:
            os.close(replies)


def test_a_board_follows_no_link() -> None:
    for place in ('board', 'board.new'):
        for victim in (b'', BOARD, b'my only copy\n', None):
            room = afresh('c0')
            if victim is not None:
                write_file(room + 'victim', victim)
            os.symlink(room + 'victim', room + place)
            same((place, victim, *shown(room)), (place, victim, b'refused X6\n', 3))
            same((place, read_file(room + 'victim')), (place, victim))
            demand(os.path.islink(room + place), f'{place} is no link any more')


def test_a_board_replaces_nothing_but_a_board() -> None:
    for place in ('board', 'board.new'):
        for text in (b'wlog 2\n', b'wboar ', b'x', b'\0' * 20 + b'x', b'\0' * 70000 + b'x', b'wbo\0\0\0\0'):
            room = afresh('c0')
            write_file(room + place, text)
            same((place, text[:20], *shown(room)), (place, text[:20], b'refused X6\n', 3))
            same(read_file(room + place), text)
        for text in (b'', BOARD, b'wboard 2\n', b'wb', b'\0', b'\0' * 7, b'\0' * 450, b'\0' * 70000):
            room = afresh('c0')
            write_file(room + place, text)
            same((place, text[:20], *shown(room)), (place, text[:20], b'', 0))
            demand(read_file(room + 'board').startswith(b'wboard 1\n'), f'no board over {text[:20]!r}')
            demand(not os.path.lexists(room + 'board.new'), 'board.new is left')
        room = afresh('c0')
        os.mkfifo(room + place)
        same((place, *shown(room)), (place, b'refused X6\n', 3))
        demand(stat.S_ISFIFO(os.lstat(room + place).st_mode), f'{place} is no pipe any more')


def test_a_second_service_over_a_board() -> None:
    room = afresh('c0', 'c1')
    board = ('--board', room + 'board', '--board-every', '1')
    with service(room, '--client', f'0={room}c0:all', *board) as first:
        same(ask(room + 'c0', 'tick'), b'entries 0\n' + TICKED % 1)
        with service(room, '--client', f'0={room}c1:all', *board, log=room + 'second') as second:
            same(ended(second, room), (b'refused X6\n', 3))
        # that of the first is shown on
        same(ask(room + 'c0', 'tick', 'close'), b'entries 1\n' + TICKED % 2 + b'closed\n')
        same(first.wait(WAIT), 0)
    demand(read_file(room + 'board').startswith(b'wboard 1\nentries 3\nclock 2\n'), read_file(room + 'board'))
    # it is free once that one has ended, and once this one was killed
    for clock in (1, 2):
        with service(room, '--client', f'0={room}c1:all', *board, log=room + 'second'):
            same(ask(room + 'c1', 'tick'), b'entries %d\n' % (clock - 1) + TICKED % clock)


def test_links_that_come_and_go_beside_a_board() -> None:
    room = afresh('c0')
    write_file(room + 'victim', b'my only copy\n')
    over = threading.Event()

    def swap() -> None:
        while not over.is_set():
            try:
                os.symlink(room + 'victim', room + 'board.new')
                os.remove(room + 'board.new')
            except OSError:
                pass

    with service(room, '--client', f'0={room}c0:all', '--board', room + 'board', '--board-every', '1'):
        connection = Connection(room + 'c0', WAIT)    # the first board is there
        swapping = threading.Thread(target=swap)
        swapping.start()
        try:
            until = time.monotonic() + 3
            while time.monotonic() < until:
                connection.ask(b'tick')    # and so another board
        finally:
            over.set()
            swapping.join()
            connection.close()
    same(read_file(room + 'victim'), b'my only copy\n')


MASKS = ((0o022, 0o600, 0o644), (0o077, 0o600, 0o600), (0, 0o600, 0o644))    # umask, mode of a kept file, of a board


def test_mode_of_a_board() -> None:
    for mask, _, board in MASKS:
        room = afresh('c0')
        same(shown(room, umask=mask), (b'', 0))
        same(mode(room + 'board'), board)


def test_modes_of_the_files_of_a_run() -> None:
    for mask, kept, _ in MASKS:
        file = afresh() + 'run.log'
        same(replay(NOFOLLOW, '--log', file, '--vehicles', umask=mask)[1:], (b'', 0))
        same([mode(file + end) for end in ('', '.site', '.at')], [kept] * 3)


if __name__ == '__main__':
    counting.main(globals(), (), SCRATCH)
