#!/usr/bin/env python3
"""Tests of the package's sessions, with expected values worked out by hand. The program is that of WAREHOUSE, else the one that the gate built.

The last line is `N passed, M failed`; status 1 where one failed.
"""
import faulthandler
import os
import random
import subprocess
import sys
import threading
import time

import counting
from tools_drive import A_TO_B, ONE, PROGRAM, ROOT, SCRATCH, TWO, file, has, same, warehouse

sys.path.insert(0, os.path.join(ROOT, 'python'))
sys.dont_write_bytecode = True

from warehouse import (Accepted, Arrived, Clock, Closed, CoreDied, Fault, Go, Lost, Parked, Refused, Rested, Session, SessionError,    # noqa: E402
                       Stopped, Took, Vehicles, Visited, WrongReply, read_instance)
from warehouse.folder import Broken, Connection    # noqa: E402
from warehouse.process import Process    # noqa: E402

RULED = TWO.replace('%%\nparking', '%%\nrule nofollow\nparking')


def cells(text: str) -> tuple[tuple[int, int], ...]:
    return tuple((int(word.split(',')[0]), int(word.split(',')[1])) for word in text.split())


def stops(error: type[Exception], call, *given, **named) -> str:
    """What a call says that must not come to its end."""
    try:
        found = call(*given, **named)
    except error as stop:
        return str(stop)
    raise AssertionError(f'{found!r}')


def session(text: str, **named) -> Session:
    return Session(read_instance('i', text.encode()), PROGRAM, **named)


def kept(name: str) -> str:
    """The name of a log that is not there."""
    path = os.path.join(SCRATCH.name, name)
    for beside in ('', '.site', '.at'):
        if os.path.exists(path + beside):
            os.remove(path + beside)
    return path


def entries(log: str) -> list[str]:
    with open(log) as text:
        return [line for line in text.read().splitlines()[2:] if not line.startswith('end ')]


# ---------------------------------------------------------------------------------------------- replies

def test_typed_replies() -> None:
    for form in ('placed', 'full', 'short'):
        with session(TWO, replies=form) as core:
            path = cells(A_TO_B) if form != 'short' else ()
            same(core.submit('x', 'A', 'B'), Accepted(0))
            same((core.token(0), core.token(1), core.token(0)), (Took(0, path, 6), Rested(), Refused('E5', (6,))))
            same(core.ask_all(['tick', 'tick', 'submit y A Z', 'submit y P1 A', 'token 7']),
                 [Clock(1, 0, 0), Clock(2, 1, 0), Refused('E1', ('Z',)), Refused('E2', ('P1',)), Refused('E4', (7,))])
            same((core.place, core.clock), (9, 2))
            same((core.ask('go on'), core.ask('submit x A'), core.replace(0), core.place), (Refused('C1'), Refused('C1'), Refused('E10'), 10))
            same((core.close(), core.tick(), core.end()), (Closed(), Refused('E8'), 0))
    with session(TWO.replace('agent P0\nagent P1', 'agent A\nagent C')) as core:
        # agent 0 stands at the delivery, and goes to the nearest parking
        core.submit('x', 'C', 'A')
        same(core.token(0), Parked('P0', ((1, 0), (1, 1), (0, 1)), 2))


def test_refusals_have_a_sentence() -> None:
    has(Refused('E5', (3,)).sentence, 'on its way')
    has(Refused('Z9').sentence, 'no message of the program')


def test_lines_that_have_no_reply_are_not_sent() -> None:
    with session(ONE) as core:
        for line in ('', ' ', '# why', 'tick\ntick'):
            has(stops(SessionError, core.ask, line), 'no line that has a reply')
        same(core.tick(), Clock(1, 0, 0))


def test_what_does_not_begin() -> None:
    has(stops(SessionError, session, ONE, process=Process(['/none/such'])), '/none/such: No such file')
    has(stops(Fault, Session, '/none/such', PROGRAM), '/none/such: No such file')
    has(stops(Fault, Session, file('bad', ONE.replace('A 1 0', 'A 0 0')), PROGRAM), 'bad line 11: A stands on no passable cell')
    has(stops(SessionError, session, ONE, vehicles=Vehicles()), 'rule nofollow')
    # the end of a path that goes on home is not where its agent has delivered
    has(stops(SessionError, session, ONE, replies='short', ends='homes'), 'when an agent is due')
    # the program judges what the reader takes: two points at one cell
    with session(ONE.replace('%%\nparking', '%%\nparking P9 1 0\nparking')) as core:
        has(stops(CoreDied, core.tick), 'ended with status 1')
    log = kept('site.log')
    with session(ONE, log=log) as core:
        core.tick()
    has(stops(CoreDied, session, TWO, log=log), 'ended with status 1 and began no run')
    has(stops(CoreDied, session, ONE, log=log, told=5), 'ended with status 1 and began no run')
    same(entries(log), ['62 tick = clock 1 picked 0 dropped 0'])


def test_a_program_that_is_silent_or_odd() -> None:
    instance = read_instance('i', ONE.encode())
    with Session(instance, process=Process(['sleep', '20'], 0.2)) as core:
        has(stops(SessionError, core.tick), 'nothing came from the program for 0.2 seconds')
        core.kill()
    echo = [sys.executable, '-c', 'import sys\nfor _ in range(16): sys.stdin.readline()\nfor line in sys.stdin: print("yes", line, end="", flush=True)']
    with Session(instance, process=Process(echo)) as core:
        same(stops(WrongReply, core.tick), '`yes tick` is no reply to `tick`')


def test_a_core_that_died_without_a_log() -> None:
    with session(ONE) as core:
        core.tick()
        core.carrier.process.child.kill()
        has(stops(CoreDied, core.tick), 'gave no reply to `tick`')


# -------------------------------------------------------------------------------------------- going on

SCRIPT = ['submit x A B', 'token 0', 'submit y D C', 'token 1', 'submit z Q A', *['tick'] * 9, 'token 0', 'submit w C A', 'token 1', 'token 0',
          *['tick'] * 12, 'close']


def run_whole() -> list[str]:
    log = kept('whole.log')
    with session(TWO, log=log) as core:
        core.ask_all(SCRIPT)
    return entries(log)


def test_a_core_that_is_killed_goes_on_with_nothing_sent_twice() -> None:
    wanted = run_whole()
    same(len(wanted), len(SCRIPT))
    chance = random.Random(5)
    log, kills = kept('killed.log'), 0
    for form in ('placed', 'full', 'short'):
        log = kept('killed.log')
        with session(TWO, log=log, replies=form) as core:
            replies, left = [], list(SCRIPT)
            while left:
                batch = left[:chance.choice((1, 1, 3, 7))]
                del left[:len(batch)]
                child = core.carrier.process.child
                timer = threading.Timer(chance.choice((0, 0.001, 0.004)), child.kill)
                timer.start()
                replies += core.ask_all(batch)
                timer.join()
            kills += len(core.restarts)
            same((core.place, core.end()), (len(SCRIPT), 0))
        same(entries(log), wanted)
        same([str(reply) for reply in replies], [told_as(form, entry.split(' = ')[1]) for entry in wanted])
        same(warehouse(TWO + text_file(log), 'verify'), f'run {len(SCRIPT)}\n')
    assert kills >= 10, kills


def text_file(path: str) -> str:
    with open(path) as text:
        return text.read()


def told_as(form: str, reply: str) -> str:
    """A log's reply, with its path's last index where replies are short."""
    head, path, told = reply.partition(' path ')
    return reply if form != 'short' or not path else f'{head} end {told.count(" ")}'


def test_a_session_over_a_run_that_began_before() -> None:
    log = kept('before.log')
    with session(TWO, log=log) as core:
        core.ask_all(SCRIPT[:8])
    with session(TWO, log=log) as core:
        # three ticks
        same((core.place, core.clock, [entry.command for entry in core.begun]), (8, 3, SCRIPT[:8]))
        same((core.begun[1].reply, core.begun[4].reply), (Took(0, cells(A_TO_B), 6), Refused('E1', ('Q',))))
        same(core.ask_all(SCRIPT[8:])[0], Clock(4, 0, 0))
    same(entries(log), run_whole())
    with session(TWO, log=log, told=24) as core:
        same([(entry.place, entry.caller, entry.command) for entry in core.begun][:2], [(24, 62, SCRIPT[24]), (25, 62, SCRIPT[25])])
    with session(TWO, log=log, told=None) as core:
        same((core.begun, core.place), ([], len(SCRIPT)))


# -------------------------------------------------------------------------------------------- vehicles

def test_vehicles_are_told_each_step_once() -> None:
    with session(RULED, vehicles=Vehicles(behind=2, ahead=2)) as core:
        core.ask_all(['submit x A B', 'token 0'])
        same((core.tick(), core.take_told()), (Clock(1, 0, 0), [Go(0, 1, (1, 1))]))
        same((core.tick(), core.take_told(), core.tick(), core.take_told()), (Clock(2, 1, 0), [Go(0, 2, (1, 0))], Refused('V1', (0, 2)), []))
        same((core.at(0, 2), core.take_told(), core.take_told()), (Arrived(0, 2), [Visited(0, 0, 0)], []))
        same((core.at(0, 2), core.at(0, 9), core.at(5, 1)), (Arrived(0, 2), Refused('V3', (0, 9)), Refused('V2', (5,))))
        same((core.place, core.tick(), core.take_told()), (4, Clock(3, 0, 0), [Go(0, 3, (1, 1))]))


def test_vehicles_over_kills() -> None:
    """Every report and tick is made while the core is killed again and again: what is told is each step of the path, once."""
    chance = random.Random(2)
    log = kept('vehicles.log')
    with session(RULED, log=log, vehicles=Vehicles(behind=3, ahead=2)) as core:
        core.ask_all(['submit x A B', 'token 0'])
        told, arrived = [], 0
        for _ in range(60):
            timer = threading.Timer(chance.choice((0, 0.002, 0.01)), core.carrier.process.child.kill)
            timer.start()
            steps = [one.step for one in told if isinstance(one, Go) and one.step > arrived]
            lines = ['tick'] + [f'at 0 {step}' for step in steps[:1]]
            if len(lines) == 2:
                arrived = steps[0]
            replies = core.ask_all(lines)
            timer.join()
            assert isinstance(replies[0], (Clock, Refused)) and replies[1:] in ([], [Arrived(0, arrived)]), replies
            told += core.take_told()
            if arrived == 6:
                break
        # the path's cells behind the first, one by one, and both stops
        same([one for one in told if isinstance(one, Go)], [Go(0, k, cell) for k, cell in enumerate(cells(A_TO_B)) if k])
        same([one for one in told if isinstance(one, Visited)], [Visited(0, 0, 0), Visited(0, 0, 1)])
        assert len(core.restarts) >= 3, core.restarts
    same(text_file(log + '.at').splitlines()[-1], 'at 0 6')
    # who comes anew over these files is told all visits, and nothing else, since nobody is under way
    with session(RULED, log=log, vehicles=Vehicles(behind=3, ahead=2)) as core:
        same(core.take_told(), [Visited(0, 0, 0), Visited(0, 0, 1)])


# ------------------------------------------------------------------------------------------ a client's folder

class Service:
    """`serve` over a log, with one client's folder."""

    def __init__(self, log: str, replies: str = 'full', rights: str = 'all'):
        self.folder = os.path.join(SCRATCH.name, 'desk')
        if not os.path.exists(self.folder):
            os.mkdir(self.folder, 0o700)
            for pipe in ('in', 'out'):
                os.mkfifo(os.path.join(self.folder, pipe), 0o600)
        self.words = [PROGRAM, 'serve', '--log', log, '--replies', replies, '--client', f'3={self.folder}:{rights}']
        self.start()

    def start(self) -> None:
        self.process = subprocess.Popen(self.words, stdin=subprocess.PIPE, stdout=subprocess.DEVNULL)
        self.process.stdin.write(TWO.removesuffix('%%\n').encode())
        self.process.stdin.close()

    def kill(self) -> None:
        self.process.kill()
        self.process.wait()


def test_a_session_over_a_folder() -> None:
    for form in ('placed', 'short'):
        log = kept('service.log')
        service = Service(log, form)
        try:
            with session(TWO, folder=service.folder, replies=form, wait=10) as core:
                same(core.ask_all(['submit x A B', 'token 0', 'tick', 'submit y P0 A']),
                     [Accepted(0), Took(0, cells(A_TO_B) if form == 'placed' else (), 6), Clock(1, 0, 0), Refused('E2', ('P0',))])
                same((core.place, core.clock, core.carrier.entries), (4, 1, 4))
            with session(TWO, folder=service.folder, replies=form, wait=10) as core:
                same((core.place, core.tick(), core.close()), (4, Clock(2, 1, 0), Closed()))
            same(service.process.wait(10), 0)
        finally:
            service.kill()
        same([entry.split(' ')[0] for entry in entries(log)], ['3'] * 6)


def test_a_service_that_is_stopped() -> None:
    for form in ('placed', 'short'):
        log = kept('service.log')
        service = Service(log, form, 'submit,tick,stop')
        try:
            with session(TWO, folder=service.folder, replies=form, wait=10) as core:
                same((core.submit('x', 'A', 'B'), core.close(), core.stop(), core.place), (Accepted(0), Refused('C3'), Stopped(), 1))
            same(service.process.wait(10), 0)
            service.start()
            with session(TWO, folder=service.folder, replies=form, wait=10) as core:
                same((core.place, core.tick(), core.stop()), (1, Clock(1, 0, 0), Stopped()))
            same(service.process.wait(10), 0)
        finally:
            service.kill()
        same(text_file(log).splitlines()[2:], ['3 submit x A B = accepted 0', '3 tick = clock 1 picked 0 dropped 0'])


def test_a_service_that_is_killed_and_comes_again() -> None:
    log = kept('service.log')
    service = Service(log)
    try:
        with session(TWO, folder=service.folder, replies='full', wait=20) as core:
            replies = []
            for number in range(40):
                if number % 10 == 5:
                    threading.Thread(target=lambda: (service.kill(), time.sleep(0.05), service.start())).start()
                replies.append(core.tick())
            core.close()
    finally:
        service.kill()
    # each tick stands once; a reply that was lost is told as that
    same([entry.split(' = ')[1].split(' ')[1] for entry in entries(log)[:-1]], [str(clock) for clock in range(1, 41)])
    same([reply for reply in replies if not isinstance(reply, Lost)],
         [Clock(clock, 0, 0) for clock, reply in enumerate(replies, 1) if not isinstance(reply, Lost)])


ROUNDS = int(os.environ.get('ROUNDS', '3'))    # of kills under batches
BEGUN = len(b'\nbegin 0123456789abcdef\n')    # what a connection sends first
PIECE, ORDERS = 4096, 1000


def batch(first: int) -> bytes:
    """The orders from this number on, a line each. A comment lies across each 4096th byte of the connection, and who begins to read there would
    take what is left of it for `tick`."""
    text = b''
    for number in range(first, ORDERS):
        left = -(BEGUN + len(text)) % PIECE
        if 1 < left < 40:
            text += b'#' + b'.' * (left - 1) + b'tick\n'
        text += b'submit c%04d A B\n' % number
    return text


def send_all(folder: str) -> None:
    """Sends all orders in batches: where the connection breaks, those from the entry on that the next one tells."""
    connection = Connection(folder, 20)
    while connection.entries < ORDERS:
        try:
            text = batch(connection.entries)
            for begin in range(0, len(text), PIECE):
                connection.send(text[begin:begin + PIECE])
                time.sleep(0.002)
            for _ in range(connection.entries, ORDERS):
                connection.read()
            break
        except Broken:
            connection.open(20)
    connection.close()


def test_batches_over_a_service_that_is_killed() -> None:
    for number in range(ROUNDS):
        log = kept('batches.log')
        service = Service(log)
        try:
            client = threading.Thread(target=send_all, args=(service.folder,))
            client.start()
            for _ in range(3):
                time.sleep(random.uniform(0.005, 0.08))
                service.kill()
                service.start()
            client.join(60)
            same((number, client.is_alive()), (number, False))
        finally:
            service.kill()
        # each order stands once, in order, and nothing else does
        same([entry.split(' = ')[0] for entry in entries(log)], [f'3 submit c{order:04} A B' for order in range(ORDERS)])


def test_nobody_serves() -> None:
    service = Service(kept('none.log'))
    service.kill()
    same(stops(SessionError, session, TWO, folder=service.folder, wait=0.3), 'nobody serves')
    has(stops(SessionError, session, TWO, folder='/none/such', wait=0.3), '/none/such/out: No such file')



if __name__ == '__main__':
    faulthandler.dump_traceback_later(85, exit=True)    # a test that waits for ever says where
    counting.main(globals(), [name for name in globals() if name.startswith('test_') and name != 'test_refusals_have_a_sentence'], SCRATCH)
