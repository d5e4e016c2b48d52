"""Drives an instance to its end through a pipe, as a fleet manager would: sends a command, reads its reply, and so on.

    drive INSTANCE                            the orders are those of INSTANCE's third section
    drive INSTANCE SCRIPT --log run.log       the orders are those of SCRIPT; the program keeps the run in run.log
    drive INSTANCE --cells cells              where each agent is at each clock
    drive INSTANCE --ends homes               paths lead home from the last stop
    drive INSTANCE --program 'ssh host warehouse/warehouse replay'

At each clock it submits the orders that are due, asks the token for the agents that are due, and ticks: a
tick says that every agent has made its step. It ends when each accepted order is delivered and nobody moves, or where
no later reply can differ from those before it, or at --ticks. With --shift N it gives nobody anything to do from clock
N on, and ends when nobody moves: `next-shift` takes such a log with the orders that are open then.

An order is a line `submit ..`, released at clock T where a line `# @T` stands before it, else at the clock at which it
stands (the number of `tick` lines before it). The other lines of the script are left out.

Who is asked first is --ask's: `nearest`, the one that is nearest to the first stop of the order that it would take, until
nobody is left who would not rest; `number`, all who may ask in the order of their numbers; `hold`, as nearest, but an order
waits while an agent that is busy could be at its first stop sooner.

Where no later reply can differ, as where two agents at rest block an order for each other, it ends; with --helpers it sends
`submit helper S S` instead, which sends one of them to another station, once for each order and agent.

`took N path X,Y X,Y ..` and `parked P path X,Y ..` have the agent's cell at each clock from now on: cell k of the path at
clock T + k. With the last index K it has no steps left when the clock is K higher; with K = 0 at once. Then it is due; and
with --ends homes, where paths lead on to where the agent started, at its last stop: what it takes up there replaces the
rest. So it asks when it is due, and only where an order is open. After `rested` it asks again when an order has come in or
another agent has taken up a path; before, the answer would be the same. `refused E6` (no path now) is asked again after
the next tick, and then likewise. After `refused E1`, `E2` or `E3` the order is left out, and reported. Any other refusal, a
wrong reply and a program that ends end the run, with the line that was sent.

What the replies say is judged as they come, with no log: a path begins where the agent stands, each next cell is a
neighbour or the same, all are passable; a task's stops are visited in turn, a parking is where its path ends; each tick
counts the visits that the cells give; and before a tick is sent, no two agents come to one cell, none exchange cells, and
under `rule nofollow` none follows another. Where one of these is not so the run ends, and says which.

With --cells FILE a line `CLOCK X,Y X,Y ..` is written for each clock, agent by agent: the line of clock 0 at once, each
other one before the tick to its clock is sent. So it says where the vehicles must be before that tick; a controller that
moves vehicles would wait there until they are.

With --log FILE the program keeps the run in FILE, each entry before its reply is written (`replay --log`). Where the program
ends while commands wait for their replies, it is started again, and resumes: it prints again the entries that it had served
without a reply (`--told`), each for one of these commands; the others are sent again. A program that ends again
by itself before it has served anything more is not started a third time; one that is killed is, up to five times. A FILE with an earlier run is left as it is: what this
script knew of that run, it knows no more, so it says so and ends, and FILE and FILE.site are to be removed first. But a FILE that has a state
and no entry behind it (`warehouse state` writes one) says all: the run begins with that state. Then an agent that was stopped, with its task or
off the points, asks at each tick at which it has no path, as long as others walk, and `done` and what follows it are of orders that were delivered
behind the state. --save FILE is for a program that knows no --log: it writes there, at the end, the log that follows the replies.

With --replies short `took N end K` and `parked P end K` have K and no cell: for a program that knows no `--replies`.

To --program's words are added `--log FILE`, or without it `--tail log`, with --ends homes that option, and, but with --replies
short, `--replies full`, unless they name these options. The figures of deliveries are worked out at the end, from the log, as `stats` does; its paths
must be those of the replies.

It prints a name and a number a line:

    orders          how many there are; `accepted`, how many the program took in; `done`, how many are delivered
    makespan        the clock of the last delivery
    ticks           how far the clock went
    service_mean    ticks from an order's release to its delivery; the mean over the orders delivered,
    service_p95     and the least time within which 95 of 100 of them were served
    per100          orders delivered in 100 ticks of the makespan
    commands        lines that were sent and answered
    requests        those of them that ask for the token; `refused`, how many of all were refused
    wall_us         microseconds of wall time a request, from sending to having the reply, measured in this script:
                    the pipe and the cells of a full reply are in it, and with --batch above 1 a batch shares its time evenly

Figures of an order's delivery stand only where a log came. Status 0: all delivered, or the shift ended; 1: the run ended
before that, or an order was refused, which is reported; 2: it could not be driven to an end.
"""
from __future__ import annotations

import argparse
import os
import shlex
import statistics
import sys
from typing import TextIO

from ..fleet import POLICIES, Fleet, Stop, stop_at
from ..process import ENDING, NoProgram, Process, SessionError
from ..replies import Closed
from ..session import ENDS, Session, program
from ..texts import Fault, Instance, Order, Run, read_file, read_instance, read_log, read_orders
from .judge import Whereabouts
from .late import Plan, add_late_options, drive_late, late_figures

# A short reply fits 64 bytes, so those to a batch fit a pipe of 65,536 even while nobody reads. A full one is as long as
# its path: here replies are read while commands are written.
MOST_IN_BATCH = 1000


def add_options(parser: argparse.ArgumentParser) -> None:
    add = parser.add_argument
    add('instance', metavar='INSTANCE', help='a file with the sections map and points, and a script')
    add('script', metavar='SCRIPT', nargs='?', help="orders, in place of INSTANCE's third section")
    add('--program', metavar="'WORDS'", default=shlex.join([program(), 'replay']), help='the program and its words (%(default)s)')
    add('--ask', choices=sorted(POLICIES), default='nearest', help='who is asked first (%(default)s)')
    add('--replies', choices=('full', 'short'), default='full', help='whether replies have cells (%(default)s)')
    add('--ends', choices=ENDS, default='stops', help='where paths end: at the last stop, or where the agent started (%(default)s)')
    add('--cells', metavar='FILE', help="write each agent's cell at each clock there; - is the standard output")
    add('--batch', type=int, default=1, metavar='N', help=f'commands sent at once, 1 to {MOST_IN_BATCH} (1)')
    add('--ticks', type=int, default=1_000_000, metavar='N', help='end at this clock (%(default)s)')
    add('--shift', type=int, metavar='N', help='from clock N on ask no more, and end when nobody moves')
    add('--helpers', action='store_true', help='at a standstill, hand in orders of the client `helper` that send agents out of the way')
    add('--close', action='store_true', help='send `close` at the end')
    add('--log', metavar='FILE', help='the program keeps the run there, and resumes it where it ends')
    add('--save', metavar='FILE', help='write the log there at the end, for a program that knows no --log')
    add('--wait', type=float, metavar='SECONDS', help='stop where nothing comes for so long (never)')
    add_late_options(parser)


def judge_options(options: argparse.Namespace) -> None:
    """Refuses what does not go together."""
    wrong = [
        (not 1 <= options.batch <= MOST_IN_BATCH, f'--batch {options.batch}: 1 to {MOST_IN_BATCH} commands can be sent at once'),
        (options.cells is not None and options.replies == 'short', '--cells: short replies tell no cells'),
        (options.ends == 'homes' and options.replies == 'short', '--ends homes: short replies do not tell when an agent is due'),
        (any(word.split('=')[0] == '--ends' for word in options.program.split()), '--program: --ends stands there; say it by --ends here'),
        (options.log is not None and options.save is not None, '--save: with --log the log stands there'),
        (options.helpers and options.late is not None, '--helpers: not with --late'),
        (options.transcript is not None and options.late is None, '--transcript: it is for --late'),
        (options.late is not None and not 0 <= options.spread <= 0.9, f'--spread {options.spread:g}: 0 to 0.9 is wanted'),
        (options.kills and (options.late is None or options.log is None), '--kills: goes with --late and --log'),
        (options.wait is not None and not 0 < options.wait < 1e6, f'--wait {options.wait or 0:g}: a time above 0 is wanted'),
    ]
    for is_wrong, words in wrong:
        if is_wrong:
            raise Fault(words)


def program_words(options: argparse.Namespace) -> list[str]:
    """The program's words, but for those of the log."""
    try:
        words = shlex.split(options.program)
    except ValueError as error:
        raise Fault(f'--program: {error}') from None
    if not words:
        raise Fault('--program: no word stands there')
    named = {word.split('=')[0] for word in words}
    if '--log' in named:
        raise Fault('--program: --log stands there; name the file by --log FILE')
    added = [('--tail', 'log')] if options.log is None else []
    added += [('--ends', options.ends)] if options.ends != 'stops' else []
    added += [('--replies', 'full')] if options.replies == 'full' else []
    return words + [word for pair in added if pair[0] not in named for word in pair]


def log_of(tail: bytes) -> bytes:
    """The log in what follows the replies; nothing where there is none."""
    return tail.removeprefix(b'%%\n') if tail.startswith(b'%%\nwlog ') else b''


def told_log(core: Session, kept: str | None) -> bytes:
    """The log behind the replies, or in the file, once the input has ended and the program has."""
    core.end()
    log = log_of(core.tail)
    if not log and kept is not None:
        try:
            with open(kept, 'rb') as file:
                return file.read()
        except OSError:
            pass    # it stands where the program is
    return log


def figures(fleet: Fleet | None, orders: int, read: Run | None) -> list[tuple[str, object]]:
    """The rows that are printed; without a fleet those of a run that did not begin."""
    rows: list[tuple[str, object]] = [('orders', orders), ('accepted', fleet.accepted if fleet else 0)]
    if read and fleet:
        ends = [task.done for task in read.tasks if task.done is not None and not task.done_before]
        rows.append(('done', len(ends)))
        rows += [('makespan', max(ends))] if ends else []
        # an order that was released before the state is waited for since the state
        since = [order.release if task.submitted < read.start else max(order.release, read.start) for task, order in zip(read.tasks, fleet.tasks)]
        served = sorted(task.done - release for task, release in zip(read.tasks, since) if task.done is not None and not task.done_before)
        if served:
            # the nearest rank: 95 of 100 are no later than the one at 0.95 n, rounded up
            rows += [('service_mean', f'{statistics.mean(served):.2f}'), ('service_p95', served[-(-95 * len(served) // 100) - 1])]
        last = max(ends, default=read.start) - read.start
        rows += [('per100', f'{100 * len(ends) / last:.2f}')] if last else []
    for name in ('clock', 'commands', 'requests', 'refused'):
        rows.append(('ticks' if name == 'clock' else name, getattr(fleet, name) if fleet else 0))
    return rows + ([('wall_us', f'{1e6 * fleet.seconds / fleet.requests:.1f}')] if fleet and fleet.requests else [])


def judged_log(fleet: Fleet, log: bytes, name: str, whole: bool) -> Run | None:
    """What the log tells, None where there is none; a whole one must be of the run that the replies told."""
    if not log:
        return None
    read = read_log(fleet.instance, name, log)
    for clock, told, found in read.differences()[:1]:
        raise Fault(f'at clock {clock} it counts {told[0]} picked and {told[1]} dropped, its paths give {found[0]} and {found[1]}', name)
    if whole and (read.cut or (len(read.tasks), read.clock) != (len(fleet.tasks), fleet.clock)):
        raise Fault(f'{"it is cut" if read.cut else "it is not of this run"}, with {len(read.tasks)} '
                    f'tasks and clock {read.clock}; the replies told {len(fleet.tasks)} and {fleet.clock}', name)
    if whole and isinstance(fleet.judge, Whereabouts) and read.paths != fleet.judge.run.paths:
        raise Fault('it is not of this run, since its paths are not those that the replies told', name)
    return read


def finish(fleet: Fleet, kept: str | None, why: str, close: bool) -> tuple[bytes, str]:
    """The log that follows the replies, and why all of it is not as it should be, or nothing."""
    if close and not why:
        (line, reply), = fleet.ask(['close'])
        if not isinstance(reply, Closed):
            stop_at(line, reply)
    log = told_log(fleet.core, kept)
    status = fleet.core.end()
    return log, why or ('' if status == 0 else f'the program ended with status {status} after its replies')


def run_fleet(fleet: Fleet, process: Process, kept: str | None = None, most: int | None = None, shift: int | None = None,
              close: bool = False) -> tuple[bytes, str, int]:
    """Drives a fleet to its end: the log, why the run ended before its end, and the status."""
    try:
        if fleet.core.place and not fleet.has_state:
            fleet.core.end()    # the program ends the log again
            raise Stop(f'{kept} holds an earlier run ({fleet.core.place} entries), which this script cannot go on with: '
                       f'remove {kept} and {kept}.site, or name another file, or use --save')
        early = fleet.run(most, shift)
        log, why = finish(fleet, kept, early, close)
        return log, why, (1 if early else 2 if why else 0)
    except (Stop, SessionError) as stop:
        log = b''
        if isinstance(stop, Stop) and stop.sound:
            process.wait = ENDING if process.wait is None else process.wait
            try:
                log = told_log(fleet.core, kept)
            except SessionError:
                pass    # what is told is why the run ended, and not this
        return log, str(stop), 2
    finally:
        fleet.core.kill()


def tell(options: argparse.Namespace, lines: list[str], rows: list[tuple[str, object]]) -> None:
    for line in lines:
        print(f'{options.prog}: {line}', file=sys.stderr)
    for name, value in rows:
        print(name, value)


def drive(options: argparse.Namespace, instance: Instance, orders: list[Order], lines: TextIO | None) -> tuple[bytes, int]:
    """Drives the instance, and tells how it went; the log and the status."""
    process = Process(program_words(options), options.wait)
    no_log = 'no log came, so no delivery is told'
    try:
        core = Session(instance, log=options.log, told=None, replies=options.replies, process=process)
    except NoProgram:
        raise
    except SessionError as error:
        tell(options, [str(error), no_log], figures(None, len(orders), None))
        return b'', 2
    state = core.state if core.state is not None and core.place == core.state.earlier else None    # with entries behind it, it does not say all
    whereabouts = Whereabouts(instance, lines, state) if options.replies == 'full' else None
    fleet = Fleet(core, orders, POLICIES[options.ask], options.batch, whereabouts, helpers=options.helpers, state=state)
    log, why, status = run_fleet(fleet, process, options.log, options.ticks, options.shift, options.close)
    said = [*map(str, core.restarts), *fleet.left_out, *([why] if why else []), *([] if log else [no_log])]
    for line in said:
        print(f'{options.prog}: {line}', file=sys.stderr)
    tell(options, [], figures(fleet, len(orders), judged_log(fleet, log, options.log or options.save or 'the log', status < 2)))
    return log, status or (1 if fleet.left_out else 0)


def run(options: argparse.Namespace) -> int:
    judge_options(options)
    data = read_file(options.instance)
    instance = read_instance(options.instance, data)
    orders = read_orders(options.instance, data, options.script)
    if options.late is not None:
        return run_late(options, instance, orders)
    file = open(options.save, 'wb') if options.save else None    # a run is not lost to a path that cannot be written
    lines = sys.stdout if options.cells == '-' else open(options.cells, 'w') if options.cells else None
    log, status = drive(options, instance, orders, lines)
    if file:
        file.write(log)
        file.close()
    return status


def run_late(options: argparse.Namespace, instance: Instance, orders: list[Order]) -> int:
    """Vehicles that are late, in a simulation."""
    plan = Plan(seed=options.late, spread=options.spread, stop=options.stop, behind=options.behind, ahead=options.ahead,
                kills=options.kills, ask=options.ask, ends=options.ends)
    words = shlex.split(options.program) + (['--tail', 'log'] if options.save else [])
    try:
        with open(options.transcript or os.devnull, 'w') as transcript:
            late = drive_late(words, instance, orders, plan, transcript if options.transcript else None, options.log)
    except Stop as stop:
        raise Fault(str(stop)) from None
    if options.save:
        with open(options.save, 'wb') as file:
            file.write(log_of(late.core.tail))
    tell(options, [], late_figures(late))
    return 0
