#!/usr/bin/env python3
"""What the built program makes of the file of `replay --log FILE`, whatever stands there, and of a file that takes no more.

    tests/log_file.py

The program is that of WAREHOUSE, else the one of crates/warehouse. What is expected is worked out by hand, or is the log of
the same script at one go, `replay --tail log`. A full disk is a small one of its own, mounted where a user may (`unshare`);
where none may be, that is said, and tests/order.py has the same by a library. The last line is `N passed, M failed`.
"""
import fcntl
import hashlib
import os
import resource
import shutil
import signal
import socket
import subprocess
import sys
import tempfile

import counting
from lives import PROGRAM, ROOT, Life, Whole, demand, go_on, read_file, write_file

SCRATCH = tempfile.TemporaryDirectory()
CROSS = Whole(read_file(os.path.join(ROOT, 'examples/deliveries')), (), PROGRAM)
REFUSED = b''    # what stands on the standard output where a run does not begin


def path(name: str = 'log', text: bytes | None = None) -> str:
    """A file with this text, or none of that name; and no file beside it."""
    found = os.path.join(SCRATCH.name, name)
    for old in (found, found + '.site'):
        if os.path.lexists(old):
            os.remove(old)
    if text is not None:
        write_file(found, text)
    return found


def same(found: object, wanted: object) -> None:
    demand(found == wanted, f'found {found!r}, wanted {wanted!r}')


def replay(text: bytes, file: str, *words: str, **how: object) -> tuple[bytes, bytes, int]:
    done = subprocess.run([PROGRAM, 'replay', '--log', file, *words], input=text, capture_output=True, timeout=60, **how)
    return done.stdout, done.stderr, done.returncode


def is_left(file: str, outcome: tuple[bytes, bytes, int], errors: bytes, status: int, text: bytes | None) -> None:
    """The run does not begin, and no byte of the file is changed; nor is one beside it made that was not whole before."""
    same(outcome, (REFUSED, errors, status))
    same(read_file(file), text)
    demand(read_file(file + '.site') in (None, CROSS.beside()), f'beside it stands {read_file(file + ".site")!r}')


def in_version_1(text: bytes) -> bytes:
    """The same lines as a log of version 1."""
    return b'wlog 1' + text.removeprefix(b'wlog 2').removeprefix(b'wlog 1')


def script(*lines: str, site: bytes = CROSS.site) -> bytes:
    return site + ''.join(line + '\n' for line in lines).encode()


# ------------------------------------------------------------------------------------ what is gone on from

def test_cut_at_each_byte() -> None:
    for length in range(len(CROSS.log) + 1):
        text = CROSS.log[:length]
        go_on(CROSS, path('log', text), CROSS.kept(text, 0))
    go_on(CROSS, path(), 0)


def test_zeros_behind_the_last_line() -> None:
    # what a file system may leave of lines that were not synced
    for count in (1, 511, 70000):
        go_on(CROSS, path('log', CROSS.text(5) + bytes(count)), 5)


def test_a_page_that_is_wanting() -> None:
    # what was not synced came only in part: the lines before it are the way on
    whole = CROSS.text(9)
    for hole in (b'\0' * 20, b'\0' * 19 + b'\n'):
        text = CROSS.text(5) + hole + whole[len(CROSS.text(5)) + 20:]
        file = path('log', text)
        is_left(file, replay(script('tick'), file), b'refused L1 line 8\n', 1, text)
        go_on(CROSS, path('log', b''.join(text.splitlines(True)[:7])), 5)


def test_with_short_replies() -> None:
    file = path()
    text = CROSS.site + b'\n'.join(CROSS.commands[:6]) + b'\n'
    plain = CROSS.run('replay', text=text).stdout
    same(replay(text, file), (b'entries 0\n' + plain, b'', 0))
    same(read_file(file), CROSS.left(6))
    same(replay(CROSS.site, file, '--tail', 'log'), (b'entries 6\n%%\n' + CROSS.text(6, True), b'', 0))
    same(read_file(file), CROSS.left(6))


def test_a_run_that_was_closed() -> None:
    file = path('log', CROSS.log)
    count = len(CROSS.commands)
    same(replay(script('tick', 'submit x A B', 'close'), file), (b'entries %d\n' % count + b'refused E8\n' * 3, b'', 0))
    wanted = CROSS.text(count) + b'62 tick = refused E8\n62 submit x A B = refused E8\n62 close = refused E8\nend %d\n' % (count + 3)
    same(read_file(file), wanted)
    same(CROSS.verify(wanted), b'run %d\n' % (count + 3))


def test_entries_of_caller_0_stand() -> None:
    # what an older program kept, and what `--tail log` writes, is gone on with
    kept = CROSS.text(5).replace(b'\n62 ', b'\n0 ')
    file = path('log', kept)
    same(replay(script('tick'), file), (b'entries 5\nclock 2 picked 2 dropped 0\n', b'', 0))
    same(read_file(file), kept + b'62 tick = clock 2 picked 2 dropped 0\n')


def test_a_log_of_threads() -> None:
    # entries of other callers
    log = CROSS.run('live', '--turns', '8', text=CROSS.site + b'submit x A B\n%%\nsubmit y D C\n').stdout
    same(CROSS.verify(log), b'run 26\n')
    file = path('log', log)
    same(replay(script('close'), file), (b'entries 26\nclosed\n', b'', 0))
    same(read_file(file), log.replace(b'end 26\n', b'62 close = closed\nend 27\n'))


def test_planners_have_the_slots_of_the_state() -> None:
    file = path()
    same(replay(script('tick', 'replace 0'), file, '--spares', '1', '--slots', '8'), (b'entries 0\nclock 1 picked 0 dropped 0\nreplaced 8\n', b'', 0))
    # --slots is for spare planners alone from here on, and each life has spares of its own
    same(replay(script('replace 1', 'replace 0'), file, '--spares', '1', '--slots', '2')[0], b'entries 2\nreplaced 2\nrefused E10\n')
    lines = [b'62 tick = clock 1 picked 0 dropped 0', b'62 replace 0 fits 8 = replaced 8', b'62 replace 1 fits 2 = replaced 2',
             b'62 replace 0 none = refused E10']
    text = b'wlog 2\nstart 0 slots 8 8\n' + b'\n'.join(lines) + b'\n'
    same(read_file(file), text)
    same(CROSS.verify(text, '--unended'), b'run 4 unended\n')
    # they want 8 and 2, and a spare one 4
    is_left(file, replay(CROSS.site, file, '--bank', '9'), b'refused B1 free 1\n', 1, text)
    same(replay(CROSS.site, file, '--bank', '10')[::2], (b'entries 4\n', 0))
    is_left(file, replay(CROSS.site, file, '--bank', '13', '--spares', '1'), b'refused B1 free 3\n', 1, text)
    same(replay(CROSS.site, file, '--bank', '14', '--spares', '1')[::2], (b'entries 4\n', 0))


# ----------------------------------------------------------------------------------------- what is told again

def test_told_again() -> None:
    lines = CROSS.text(5).splitlines(True)[2:]
    for first in range(6):
        for text in (CROSS.text(5), CROSS.text(5, True), CROSS.text(5) + b'0 tok'):
            file = path('log', text)
            told = b'entries 5\n' + b''.join(lines[first:])
            same(replay(CROSS.site, file, '--told', str(first)), (told, b'', 0))
            same(read_file(file), CROSS.left(5))
    # the replies follow, in their own form
    file = path('log', CROSS.text(5))
    same(replay(script('close'), file, '--told', '4', '--tail', 'log')[0],
         b'entries 5\n' + lines[4] + b'closed\n%%\n' + CROSS.text(5) + b'62 close = closed\nend 6\n')
    file = path()
    same(replay(script('tick'), file, '--told', '0'), (b'entries 0\nclock 1 picked 0 dropped 0\n', b'', 0))


def test_told_again_from_an_entry_that_is_not_there() -> None:
    # the first line that is wanting: two lines stand before the entries
    for text, first, line in ((CROSS.text(5), 6, 8), (CROSS.text(5, True), 999999999, 8), (CROSS.text(5) + b'0 to', 6, 8), (CROSS.head, 1, 3),
                              (b'', 1, 3), (None, 1, 3)):
        file = path('log', text)
        is_left(file, replay(script('tick'), file, '--told', str(first)), b'refused L1 line %d\n' % line, 1, text)
    # before the bank, and behind the file
    file = path('log', CROSS.text(5))
    is_left(file, replay(CROSS.site, file, '--told', '6', '--bank', '7'), b'refused L1 line 8\n', 1, CROSS.text(5))
    file = path('log', b'notes\n')
    is_left(file, replay(CROSS.site, file, '--told', '6'), b'refused L1 line 1\n', 1, b'notes\n')


def test_told_again_of_no_file() -> None:
    done = subprocess.run([PROGRAM, 'replay', '--told', '0'], input=script('tick'), capture_output=True, timeout=60)
    same((done.stdout, done.returncode), (REFUSED, 2))
    demand(done.stderr.startswith(b"error: the argument '--told <N>' needs '--log <FILE>'"), done.stderr)
    for words in (('--told',), ('--told', 'x'), ('--told', '-1'), ('--told', '1000000000'), ('--told', '0', '--told', '0')):
        file = path('log', CROSS.text(5))
        same(replay(CROSS.site, file, *words)[::2], (REFUSED, 2))
        same(read_file(file), CROSS.text(5))


# ------------------------------------------------------------------------------------ what is delivered behind

CALLER = b'62'
# one order from P0 by A to B: six steps, A at 2, B at 6; nobody asks who is on its way, or would be told to rest
DELIVERED = [(b'token 0', b'took 0 path 0,1 1,1 1,0 1,1 2,1 3,1 3,0')]
DELIVERED += [(b'tick', b'clock %d picked %d dropped %d' % (clock, clock == 2, clock == 6)) for clock in range(1, 7)]


def log_text(entries: list[tuple[bytes, bytes]], first: bytes = CROSS.head) -> bytes:
    return first + b''.join(CALLER + b' %s = %s\n' % entry for entry in entries)


def test_delivered_behind_the_script() -> None:
    entries = [(b'submit x A B', b'accepted 0'), *DELIVERED]
    file = path()
    told = b'entries 0\n' + b''.join(reply + b'\n' for _, reply in entries)
    same(replay(script('submit x A B'), file, '--deliver', '--replies', 'full'), (told, b'', 0))
    same(read_file(file), log_text(entries))
    same(CROSS.verify(read_file(file), '--unended'), b'run %d unended\n' % len(entries))
    # without the option nothing is done, and with it the run goes on from there
    file = path()
    same(replay(script('submit x A B'), file), (b'entries 0\naccepted 0\n', b'', 0))
    told = b'entries 1\n' + b''.join(reply + b'\n' for _, reply in DELIVERED)
    same(replay(CROSS.site, file, '--deliver', '--replies', 'full'), (told, b'', 0))
    same(read_file(file), log_text(entries))


def test_killed_while_it_delivers() -> None:
    # a kill leaves a front of the file; whatever stands there, the next life delivers the rest
    entries = [(b'submit x A B', b'accepted 0'), *DELIVERED]
    whole = log_text(entries)
    for length in (*range(len(log_text(entries[:1])), len(whole), 5), len(whole)):
        front = whole[:length]
        file = path('log', front)
        told, errors, status = replay(CROSS.site, file, '--deliver', '--tail', 'ledger')
        same((errors, status, told.split(b'%%\n')[1]), (b'', 0, b'x submitted 1 open 0 assigned 0 carried 0 done 1 time 6\n'))
        made = read_file(file)
        demand(made.startswith(front[:front.rindex(b'\n') + 1]), 'an entry is lost')
        same(CROSS.verify(made, '--unended'), b'run %d unended\n' % (made.count(b'\n') - 2))


def test_delivered_up_to_the_last_clock() -> None:
    for clock, ticks in ((1000000000, []), (999999999, [*DELIVERED[:1], (b'tick', b'clock 1000000000 picked 0 dropped 0')])):
        first = b'wlog 2\nstart %d slots 4 4\n' % clock
        file = path('log', first)
        entries = [(b'submit x A B', b'accepted 0'), *ticks]
        told = b'entries 0\n' + b''.join(reply + b'\n' for _, reply in entries)
        same(replay(script('submit x A B'), file, '--deliver', '--replies', 'full'), (told, b'orders open: 1\n', 0))
        same(read_file(file), log_text(entries, first))


# --------------------------------------------------------------------------------- what stands beside the file

OTHER_SITES = [CROSS.site.replace(b'agent P0\nagent P1', b'agent P1\nagent P0'),
               CROSS.site.replace(b'station A', b'station E'),
               CROSS.site.replace(b'type octile\n', b'type octile\r\n'),    # the same site in other bytes
               CROSS.site.replace(b'agent P1\n', b'agent P1\n\n')]


def test_the_site_is_kept() -> None:
    for text, first in ((None, 0), (b'', 0), (CROSS.head[:9], 0), (CROSS.text(5), 5), (CROSS.log, len(CROSS.entries))):
        file = path('log', text)
        same(replay(CROSS.site, file), (b'entries %d\n' % first, b'', 0))
        same(read_file(file + '.site'), CROSS.beside())
    whole = CROSS.beside()
    for length in (*range(0, len(whole), 9), len(whole) - 1, len(whole)):
        file = path('log', CROSS.text(5))
        write_file(file + '.site', whole[:length])
        same(replay(CROSS.site, file), (b'entries 5\n', b'', 0))
        same((read_file(file), read_file(file + '.site')), (CROSS.left(5), whole))
    # behind the log, which cannot be made here
    file = path()
    os.symlink('none/there', file)
    same(replay(CROSS.site, file), (REFUSED, b'refused X5\n', 3))
    same(read_file(file + '.site'), None)


def test_the_site_of_another() -> None:
    for site in OTHER_SITES:
        for text in (None, b'', CROSS.text(5), CROSS.log, b'notes\n'):
            file = path('log', text)
            write_file(file + '.site', CROSS.beside())
            is_left(file, replay(site, file), b'refused L1 line 0\n', 1, text)
            # before the bank
            is_left(file, replay(site, file, '--bank', '7'), b'refused L1 line 0\n', 1, text)
            same(read_file(file + '.site'), CROSS.beside())


def test_a_run_goes_on_by_its_rule() -> None:
    homes = Whole(read_file(os.path.join(ROOT, 'examples/deliveries')), ('--ends', 'homes'), PROGRAM)
    for run, other in ((homes, CROSS), (CROSS, homes)):
        for count in (0, 5, len(run.entries)):
            file = path('log', run.text(count))
            write_file(file + '.site', run.beside())
            same(replay(run.site, file, *other.words), (REFUSED, b'refused L1 line 0\n', 1))
            same((read_file(file), read_file(file + '.site')), (run.text(count), run.beside()))
            same(replay(run.site, file, *run.words), (b'entries %d\n' % count, b'', 0))
        # the site alone: whoever begins keeps its own rule beside it
        file = path()
        same(replay(run.site, file, *run.words), (b'entries 0\n', b'', 0))
        same(read_file(file + '.site'), run.beside())
        # where nothing stands beside it the first path tells, in the fourth line
        file = path('log', run.text(5))
        same(replay(run.site, file, *other.words), (REFUSED, b'refused L1 line 4\n', 1))


def test_another_text_beside() -> None:
    whole = CROSS.beside()
    for held in (whole + b'x', whole + b'\0', b'x' + whole, b'notes\n', b'\n', b'\0', bytes(len(whole)), whole[:30] + b'\0', whole[:-1] + b'\0',
                 b'wsite 0 0\n', whole.replace(b'wsite ', b'wsite 0', 1)):
        file = path()
        write_file(file + '.site', held)
        same(replay(CROSS.site, file), (REFUSED, b'refused L1 line 0\n', 1))
        same((read_file(file), read_file(file + '.site')), (None, held))


def test_no_file_beside() -> None:
    # a short bank, a bad log and a log that is not there to tell again make none
    for words, text, errors in ((('--bank', '7'), None, b'refused B1 free 3\n'), ((), b'notes\n', b'refused L1 line 1\n'),
                                (('--told', '1'), None, b'refused L1 line 3\n')):
        file = path('log', text)
        is_left(file, replay(CROSS.site, file, *words), errors, 1, text)
        demand(not os.path.lexists(file + '.site'), 'a file was made beside the log')
    # a folder and a pipe are no such files, nor is one that another has
    for make in (os.mkdir, os.mkfifo):
        file = path()
        make(file + '.site')
        same(replay(CROSS.site, file), (REFUSED, b'refused X5\n', 3))
        demand(not os.path.lexists(file), 'the log was made')
        (os.rmdir if make is os.mkdir else os.remove)(file + '.site')
    file = path('log', CROSS.text(5))
    write_file(file + '.site', CROSS.beside())
    with open(file + '.site', 'rb') as held:
        fcntl.flock(held, fcntl.LOCK_EX)
        is_left(file, replay(CROSS.site, file), b'refused X5\n', 3, CROSS.text(5))


# -------------------------------------------------------------------------------------------- where a run stands

def state(file: str, *words: str) -> tuple[bytes, bytes, int]:
    """What `state` says of a file, which stays as it is, with nothing made beside it."""
    before, beside = read_file(file), sorted(os.listdir(os.path.dirname(file)))
    done = subprocess.run([PROGRAM, 'state', '--log', file, *words], input=CROSS.site, capture_output=True, timeout=60)
    same((read_file(file), sorted(os.listdir(os.path.dirname(file)))), (before, beside))
    return done.stdout, done.stderr, done.returncode


def test_the_state_after_each_entry() -> None:
    # of a log that ends there, also in a torn line, and of the whole one, as far as there
    entries = CROSS.text(99).count(b' = ')
    demand(entries > 3, 'there are few entries')
    for count in range(entries + 1):
        text = CROSS.text(count)
        front, errors, status = state(path('log', text))
        same((errors, status), (b'', 0))
        same(front.split(b'\n')[1], b'after 1 %d %s' % (len(text), hashlib.sha256(text).hexdigest().encode()))
        same(state(path('log', text + b'62 tic')), (front, b'', 0))
        same(state(path('log', CROSS.text(entries)), '--after', str(count)), (front, b'', 0))
    same(state(path('log', CROSS.text(entries)), '--after', str(entries + 1)), (b'', b'refused L1 line 0\n', 1))


def test_no_state_of_a_file_that_another_has() -> None:
    file = path('log', CROSS.text(5))
    with open(file, 'rb') as held:
        fcntl.flock(held, fcntl.LOCK_EX)
        same(state(file), (b'', b'refused X5\n', 3))
    same(state(path()), (b'', b'refused X5\n', 3))


# -------------------------------------------------------------------------------------- what is a line, and when

def test_a_line_that_was_cut() -> None:
    file = path()
    told = b'entries 0\naccepted 0\n'
    same(replay(script('submit x A B') + b'token 0', file), (told, b'', 0))
    same(read_file(file), CROSS.left(1))
    same(replay(CROSS.site + b'submit x A', file)[0], b'entries 1\n')
    same(read_file(file), CROSS.left(1))


def test_lines_without_an_entry() -> None:
    file = path()
    lines = ['# note', 'go', '', 'submit x A B', 'x' * 257, '  ', 'tick 1']
    same(replay(script(*lines), file), (b'entries 0\nrefused C1\naccepted 0\nrefused C2\nrefused C1\n', b'', 0))
    same(read_file(file), CROSS.left(1))


def test_the_first_line_comes_before_the_script() -> None:
    for text, count in ((None, 0), (CROSS.text(3), 3)):
        file = path('log', text)
        life = Life(CROSS, file)
        life.send(CROSS.site)
        demand(life.await_lines(1), 'it ended')
        same((bytes(life.said), read_file(file)), (b'entries %d\n' % count, CROSS.text(count)))
        same((life.end(), read_file(file)), (0, CROSS.left(count)))


# ------------------------------------------------------------------------------------------- what is refused

def test_two_programs() -> None:
    file = path()
    life = Life(CROSS, file)
    life.send(CROSS.site)
    life.await_lines(1)
    for number, line in enumerate(CROSS.commands):
        is_left(file, replay(CROSS.site + b'tick\n', file), b'refused X5\n', 3, CROSS.text(number))
        life.send(line + b'\n')
        life.await_lines(2 + number)
    same((life.end(), life.errors, read_file(file)), (0, b'', CROSS.log))


def test_two_programs_that_begin() -> None:
    for _ in range(5):
        file = path()
        lives = [Life(CROSS, file), Life(CROSS, file)]
        for life in lives:
            life.send(CROSS.site)
        for life in lives:
            life.await_lines(1)
        first, second = lives if lives[0].lines else lives[::-1]
        same((second.end(), second.errors, bytes(second.said)), (3, b'refused X5\n', b''))
        same((bytes(first.said), read_file(file)), (b'entries 0\n', CROSS.head))
        same((first.end(), first.errors, read_file(file)), (0, b'', CROSS.left(0)))


def test_no_regular_file() -> None:
    folder = os.path.join(SCRATCH.name, 'folder')
    os.makedirs(folder, exist_ok=True)
    pipe, spoken = path('pipe'), path('socket')
    os.mkfifo(pipe)
    ear = socket.socket(socket.AF_UNIX)
    ear.bind(spoken)
    for file in (folder, folder + '/', pipe, spoken, '/dev/null', '/dev/full', '/dev/zero', os.path.join(SCRATCH.name, 'none/log')):
        same(replay(script('tick'), file), (REFUSED, b'refused X5\n', 3))
    ear.close()
    same(os.listdir(folder), [])


def test_another_text() -> None:
    head = CROSS.head
    for text, line in ((b'my notes', 1), (b'my notes\n', 1), (b'\n', 1), (b'\0', 1), (b'\0' * 5000, 1), (b'wlog 3\n', 2),
                       (b'wlog 2', 0), (b'w', 0), (b'wlog 2 \n', 1), (b'wlog 2\r\n', 1), (b'wlog 2\n', 0), (b'wlog 2\nstart 0 slots 4 4', 0),
                       (b'wlog 2\nnotes', 2), (b'wlog 2\nstart 0 slots 4\n', 2), (b'wlog 2\nstart 0 slots 4 4 4\n', 2),
                       (b'wlog 2\nstart 0 slots 1 4\n', 2), (b'wlog 2\nstart 0 slots 65 4\n', 2), (b'wlog 2\nstart 0 slots 4 4 \n', 2),
                       (head + b'\n', 3), (head + b'0 tick\n', 3), (head + b'0 tick = clock 2 picked 0 dropped 0\n', 3),
                       (head + b'64 tick = clock 1 picked 0 dropped 0\n', 3), (head + b'end 1\n', 3), (head + b'end 0\n\n', 4),
                       (head + b'end 0\nend 0\n', 4), (head + b'end 0\n\0', 4),
                       (CROSS.log + b'0 tick = refused E8\n', 20), (CROSS.text(4) + b'0 close = closed\r\n', 7),
                       (CROSS.text(4) + CROSS.entries[5] + b'\n', 7), (CROSS.text(16)[:-1] + b' \n', 18)):
        file = path('log', text)
        outcome = replay(script(), file)
        if line:
            reason = b'refused S1\n' if text.startswith(b'wlog 3\n') else b''
            is_left(file, outcome, reason + b'refused L1 line %d\n' % line, 1, text)
        else:
            same((outcome, read_file(file)), ((b'entries 0\n', b'', 0), head))


def test_other_slots_than_were_begun() -> None:
    # a file that was killed within its two first lines, and is begun with other slots, is another text
    text = b'wlog 2\nstart 0 slots 4'
    file = path('log', text)
    is_left(file, replay(CROSS.site, file, '--slots', '8'), b'refused L1 line 2\n', 1, text)
    # the same lines whole are the beginning of a run, with the slots that they tell
    file = path('log', CROSS.head)
    same(replay(CROSS.site, file, '--slots', '8')[::2], (b'entries 0\n', 0))
    same(read_file(file), CROSS.left(0))


def test_version_1() -> None:
    # whole, without its end line, and cut in a line: it is gone on from, and is the log of the whole run in version 2
    for count, ended, torn in ((len(CROSS.commands), True, b''), (5, False, b''), (5, True, b''), (3, False, b'0 tok'), (0, False, b'')):
        text = in_version_1(CROSS.text(count, ended) + torn)
        file = path('log', text)
        go_on(CROSS, file, count)
        same(CROSS.verify(read_file(file)), b'run %d\n' % len(CROSS.commands))
        # what is told again are lines of it
        file = path('log', text)
        same(replay(CROSS.site, file, '--told', '0'), (b'entries %d\n' % count + b''.join(CROSS.text(count).splitlines(True)[2:]), b'', 0))
        same(read_file(file), CROSS.left(count))
    # a line that is added may have more stops than version 1 has
    file = path('log', in_version_1(CROSS.text(0)))
    same(replay(script('submit x A B C'), file), (b'entries 0\naccepted 0\n', b'', 0))
    same(read_file(file), CROSS.head + b'62 submit x A B C = accepted 0\n')


def test_version_1_that_is_refused() -> None:
    # no byte is changed: of these the second line is wanting, three stops are none of version 1, a line is no step, the site is
    # another, entries are wanting, no planner has so many slots, the bank is short, the site is no more the file's
    three = b'0 submit x A B C = accepted 0\n'
    for text, words, site, errors in ((b'wlog 1\n', (), CROSS.site, b'refused L1 line 2\n'), (CROSS.head + three, (), CROSS.site, b'refused L1 line 3\n'),
                                      (CROSS.text(5) + b'0 tick = rested\n', (), CROSS.site, b'refused L1 line 8\n'),
                                      (CROSS.text(5), ('--told', '6'), CROSS.site, b'refused L1 line 8\n'),
                                      (CROSS.head + b'0 replace 1 fits 65 = replaced 65\n', (), CROSS.site, b'refused L1 line 3\n'),
                                      (CROSS.text(5), ('--bank', '7'), CROSS.site, b'refused B1 free 3\n'),
                                      (CROSS.text(5), (), CROSS.site.replace(b'station A', b'station E'), b'refused L1 line 3\n')):
        text = in_version_1(text)
        file = path('log', text)
        is_left(file, replay(script('tick', site=site), file, *words), errors, 1, text)


def test_a_planner_that_no_planner_can_take_the_place_of() -> None:
    for slots, good in ((0, False), (1, False), (2, True), (64, True), (65, False), (999999999, False)):
        text = CROSS.head + b'0 tick = clock 1 picked 0 dropped 0\n0 replace 1 fits %d = replaced %d\nend 2\n' % (slots, slots)
        same(CROSS.verify(text), b'run 2\n')
        file = path('log', text)
        outcome = replay(CROSS.site, file)
        if good:
            same((outcome, read_file(file)), ((b'entries 2\n', b'', 0), text[:-len('end 2\n')]))
        else:
            is_left(file, outcome, b'refused L1 line 4\n', 1, text)


def test_another_site() -> None:
    # agent 0 starts at the other end of the corridor, so the first path begins elsewhere
    site = CROSS.site.replace(b'agent P0\nagent P1', b'agent P1\nagent P0')
    file = path('log', CROSS.log)
    is_left(file, replay(site, file), b'refused L1 line 4\n', 1, CROSS.log)
    # one agent, where the file has two
    is_left(file, replay(site.replace(b'agent P1\n', b''), file), b'refused L1 line 2\n', 1, CROSS.log)
    # a point of another name
    is_left(file, replay(CROSS.site.replace(b'station A', b'station E'), file), b'refused L1 line 3\n', 1, CROSS.log)


def test_what_goes_wrong_before_the_file() -> None:
    # of the order: command line, map, points, file, bank
    for text, words, errors in ((b'', (), b'refused M1 line 1\n'), (CROSS.site.replace(b'agent', b'agnt'), (), b'refused P1 line 7\n'),
                                (CROSS.site, ('--bank', '7'), b'refused B1 free 3\n')):
        for kept in (None, b'', CROSS.text(4), CROSS.log, CROSS.text(4) + b'0 to'):
            file = path('log', kept)
            is_left(file, replay(text, file, *words), errors, 1, kept)
    file = path('log', b'notes\n')
    is_left(file, replay(CROSS.site, file, '--bank', '7'), b'refused L1 line 1\n', 1, b'notes\n')
    is_left(file, replay(b'', file), b'refused M1 line 1\n', 1, b'notes\n')
    for words in (('--log', file), ('--slots', '1')):
        same(replay(CROSS.site, file, *words)[::2], (REFUSED, 2))
    same(read_file(file), b'notes\n')


def test_names() -> None:
    here = os.path.join(SCRATCH.name, 'here')
    os.makedirs(os.path.join(here, 'in'), exist_ok=True)
    for name in ('log', './log2', 'in/log', '-', 'a log=1', 'h\N{LATIN SMALL LETTER E WITH ACUTE}', 'x' * 250):
        for number in (0, 1):
            same(replay(script('tick'), name, cwd=here)[::2], (b'entries %d\nclock %d picked 0 dropped 0\n' % (number, number + 1), 0))
        same(read_file(os.path.join(here, name)).count(b'tick'), 2)
    # the name of the file beside it is longer
    same(replay(script('tick'), 'x' * 251, cwd=here), (REFUSED, b'refused X5\n', 3))
    demand(not os.path.exists(os.path.join(here, 'x' * 251)), 'the log was made')
    # a link leads to its file
    os.symlink('log', os.path.join(here, 'link'))
    same(replay(script('tick'), 'link', cwd=here)[0], b'entries 2\nclock 3 picked 0 dropped 0\n')
    demand(os.path.islink(os.path.join(here, 'link')), 'the link is gone')


# ---------------------------------------------------------------------------------------- what takes no more

def long_run() -> Whole:
    """A log of some 12,000 bytes."""
    words = '--columns 24 --rows 12 --agents 4 --tasks 30 --ticks 70 --every 1'.split()
    made = subprocess.run([sys.executable, os.path.join(ROOT, 'tools/make_instance.py'), *words], stdout=subprocess.PIPE, check=True).stdout
    whole = Whole(made, (), PROGRAM)
    demand(10000 < len(whole.log) < 65536, f'{len(whole.log)} bytes')
    return whole


def is_full(whole: Whole, said: bytes, errors: bytes, status: int, text: bytes) -> None:
    """The file took no more: all that was told stands there, and it is gone on from elsewhere."""
    same((errors, status), (b'refused X5\n', 3))
    first, *replies = said.split(b'\n')[:-1]
    same((first, replies), (b'entries 0', whole.replies[:len(replies)]))
    demand(replies and said.endswith(b'\n'), 'nothing was told')
    kept = whole.kept(text, len(replies))
    demand(kept == len(replies) and text == whole.text(kept), f'{kept} entries stand there, {len(replies)} replies were told')
    go_on(whole, path('log', text), kept)


def limited(file: str, bytes_at_most: int, ignored: bool) -> subprocess.Popen:
    """The program with a limit on the size of files, and with the signal for it ignored or not."""
    def before() -> None:
        resource.setrlimit(resource.RLIMIT_FSIZE, (bytes_at_most, bytes_at_most))
        signal.signal(signal.SIGXFSZ, signal.SIG_IGN if ignored else signal.SIG_DFL)
    return begun(PROGRAM, 'replay', '--replies', 'full', '--log', file, restore_signals=False, preexec_fn=before)


def begun(*words: str, **how: object) -> subprocess.Popen:
    return subprocess.Popen(words, bufsize=0, stdin=subprocess.PIPE, stdout=subprocess.PIPE, stderr=subprocess.PIPE, **how)


def test_a_limit_on_the_size_of_files() -> None:
    whole = long_run()
    for size in (4096, 5000, 8191, 10001):
        file = path()
        process = limited(file, size, True)
        said = one_by_one(process, whole)
        errors = process.stderr.read()
        is_full(whole, said, errors, process.wait(60), read_file(file))


def test_a_limit_that_ends_the_program() -> None:
    # the signal is not ignored: status 153 in a shell
    whole = long_run()
    file = path()
    process = limited(file, 6000, False)
    told = len(one_by_one(process, whole).splitlines()) - 1
    same((process.stderr.read(), process.wait(60)), (b'', -signal.SIGXFSZ))
    go_on(whole, file, whole.kept(read_file(file), told))


def one_by_one(process: subprocess.Popen, whole: Whole) -> bytes:
    """Line by line, each behind the reply to the one before; all that came."""
    process.stdin.write(whole.site)
    said = process.stdout.readline()
    for line in whole.commands:
        try:
            process.stdin.write(line + b'\n')
        except BrokenPipeError:
            break
        reply = process.stdout.readline()
        said += reply
        if not reply:
            break
    process.stdin.close()
    return said + process.stdout.read()


MOUNT = 'mount -t tmpfs -o size=8k none "$1" && { "$2" replay --replies full --log "$1/log"; status=$?; cp "$1/log" "$3"; exit "$status"; }'


def test_a_full_disk() -> None:
    folder = os.path.join(SCRATCH.name, 'disk')
    os.makedirs(folder, exist_ok=True)
    new = ['unshare', '--mount'] + ([] if os.geteuid() == 0 else ['--map-root-user'])
    if not shutil.which('unshare') or subprocess.run([*new, 'mount', '-t', 'tmpfs', 'none', folder], capture_output=True).returncode:
        print('a full disk NOT RUN: none can be mounted here')
        return
    whole, copy = long_run(), path('copy')
    process = begun(*new, 'sh', '-c', MOUNT, 'sh', folder, PROGRAM, copy)
    said = one_by_one(process, whole)
    errors = process.stderr.read()
    is_full(whole, said, errors, process.wait(60), read_file(copy))


def test_a_closed_pipe() -> None:
    # nobody reads the replies, whether the signal for it is ignored or not: what was synced stands
    for restored in (False, True):
        file = path()
        back, to = os.pipe()
        os.close(back)
        done = subprocess.run([PROGRAM, 'replay', '--log', file], input=script('tick'), stdout=to, stderr=subprocess.PIPE, timeout=60,
                              restore_signals=restored)
        os.close(to)
        same((done.stderr, done.returncode, read_file(file)), (b'refused X3\n', 3, CROSS.head))
        go_on(CROSS, file, 0)


def test_a_full_output() -> None:
    file = path()
    with open('/dev/full', 'wb') as full:
        done = subprocess.run([PROGRAM, 'replay', '--log', file], input=script('tick'), stdout=full, stderr=subprocess.PIPE, timeout=60)
    same((done.stderr, done.returncode), (b'refused X3\n', 3))
    go_on(CROSS, file, 0)


def test_an_input_that_fails() -> None:
    # a folder as standard input
    file = path()
    folder = os.open(SCRATCH.name, os.O_RDONLY)
    done = subprocess.run([PROGRAM, 'replay', '--log', file], stdin=folder, capture_output=True, timeout=60)
    os.close(folder)
    same((done.stdout, done.stderr, done.returncode, os.path.exists(file)), (b'', b'refused X1\n', 3, False))


if __name__ == '__main__':
    counting.main(globals(), (), SCRATCH)
