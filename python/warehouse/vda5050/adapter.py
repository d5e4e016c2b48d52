"""Drives VDA 5050 vehicles by the core: an MQTT broker on one side, `replay --vehicles --log` on the other.

    vda5050 INSTANCE --log run.log                                the broker of this machine, a cell of 1 m
    vda5050 INSTANCE --log run.log --broker mq --cell 1.2 --step 2 --fleet vehicles

Each path that the core adopts is one order: what the core has granted by `go` is its base, the rest of the path its horizon,
`orderUpdateId` the last released node. `lastNodeSequenceId` of a state becomes `at`. Stops are blocking node actions: `pick` at the
first, `drop` at the last, `visit` between. Topics are `uagv/v2/MAKER/SERIAL/..`; MAKER and SERIAL are those of --fleet's lines
`MAKER SERIAL`, agent by agent, else `torchdaisy` and `v0`, `v1`, ..

Orders of transport come by MQTT at `warehouse/order`: {"id": "o17", "stops": ["S3", "S9"], "client": "wms"}. The id is a key: the same
order again, with the same key, is not submitted again, so send it until `warehouse/order/o17` answers: state accepted, assigned,
picked, delivered, each retained, or refused, with why. `warehouse/status`, retained, has clock, counts and alarms, which also stand
on standard error. `warehouse/command` takes {"command": "pause"}, or resume, with "vehicle": a serial number, or for all; and with
--out-after {"command": "out", "vehicle": ..}, or back.

It keeps FILE (the core's log) and FILE.keys (keys, and how far each order is), and resumes from these and the vehicles' next states
after any kill of itself, of the core, of the broker and of vehicles.

A vehicle that is lost stops those behind it, in the end all. With --out-after SECONDS all halt instead (`cancelOrder`), the run ends,
and the next one (FILE.2, ..) begins where they stand, without the lost vehicle and the cells that it was granted; again when it is back.

Needs paho-mqtt. Status 0: interrupted; 2: a file or an option is wrong; 3: the core does not begin. Written from knowledge of VDA
5050 2.x, not checked against its text.
"""
from __future__ import annotations

import argparse
import os
import signal
import sys
import time

from ..fleet import Stop
from ..process import CoreDied, SessionError, was_killed
from ..session import ENDS, Vehicles
from ..texts import Fault, Instance, read_file, read_instance
from .book import Book
from .broker import Link, add_broker_options
from .layout import Layout
from .loop import Adapter, Settings
from .vehicle import SILENT, Vehicle
from .wire import reach

MAKER = 'torchdaisy'
NO_CORE = 3


def add_options(parser: argparse.ArgumentParser) -> None:
    add = parser.add_argument
    add('instance', metavar='INSTANCE', help='a file with map and points; `rule nofollow` is added where it is missing')
    add('--log', metavar='FILE', required=True, help='where the core keeps the run')
    add('--program', metavar='PROGRAM', help='the core (WAREHOUSE of the environment, else the repository\'s)')
    add_broker_options(parser)
    add('--prefix', default='warehouse', metavar='TOPIC', help='of orders, answers, status, commands (%(default)s)')
    add('--fleet', metavar='FILE', help='a line `MAKER SERIAL` for each agent')
    add('--cell', type=float, default=1.0, metavar='METRES', help='the side of a cell (%(default)s)')
    add('--deviation', type=float, metavar='METRES', help='how far a vehicle may be off a node (a twentieth of a cell)')
    add('--step', type=float, default=1.0, metavar='SECONDS', help='between two ticks (%(default)s); 0: as far ahead as --behind lets it')
    add('--behind', type=int, default=8, metavar='STEPS', help='how far a vehicle may be behind before the clock waits (%(default)s)')
    add('--ahead', type=int, default=4, metavar='STEPS', help='how many steps a vehicle is granted in advance (%(default)s)')
    add('--horizon', type=int, default=12, metavar='NODES', help='nodes beyond the base that an order has (%(default)s)')
    add('--silent', type=float, default=SILENT, metavar='SECONDS', help='a vehicle of which no state comes for so long is lost (%(default)s)')
    add('--out-after', type=float, default=0.0, metavar='SECONDS', help='plan around a vehicle that is lost for so long (never)')
    add('--ends', choices=ENDS, default='stops', help='where paths end: at the last stop, or on where the vehicle started (%(default)s)')
    add('--helpers', action='store_true', help='at a standstill, send vehicles out of the way by orders of the client `helper`')


def judge_options(options: argparse.Namespace) -> None:
    """Refuses what is out of range."""
    for name, low, high in (('cell', 0.01, 100), ('step', 0, 3600), ('behind', 1, 10 ** 9), ('ahead', 1, 10 ** 9), ('horizon', 0, 4096),
                            ('silent', 1, 86400), ('out_after', 0, 86400)):
        if not low <= getattr(options, name) <= high:
            raise Fault(f'--{name.replace("_", "-")} {getattr(options, name):g}: {low:g} to {high:g} can be had')
    if options.ends == 'homes' and options.out_after:
        raise Fault('--out-after: with --ends homes no run can begin where vehicles stand')
    if options.deviation is not None and not 0 <= options.deviation < options.cell / 2:
        raise Fault(f'--deviation {options.deviation:g}: 0 to less than half a cell can be had')


def read_fleet(name: str | None, agents: int) -> list[Vehicle]:
    """The vehicle of each agent. Raises Fault."""
    if name is None:
        return [Vehicle(agent, MAKER, f'v{agent}') for agent in range(agents)]
    found: list[Vehicle] = []
    for number, line in enumerate(read_file(name).decode('utf-8', 'replace').splitlines(), 1):
        words = line.split()
        if not words or words[0].startswith('#'):
            continue
        if len(words) != 2 or any(letter in word for word in words for letter in '/+#$'):
            raise Fault(f'`{line[:40]}` is no line `MAKER SERIAL`, without / + # $', name, number)
        if any((one.maker, one.serial) == tuple(words) for one in found):
            raise Fault(f'the vehicle {words[1]} stands earlier', name, number)
        found.append(Vehicle(len(found), words[0], words[1]))
    if len(found) != agents:
        raise Fault(f'{len(found)} vehicles, and the instance has {agents} agents', name)
    return found


def settings_of(options: argparse.Namespace, instance: Instance) -> Settings:
    deviation = options.cell / 20 if options.deviation is None else options.deviation
    return Settings(options.log, options.program, Vehicles(options.behind, options.ahead), Layout(instance.height, options.cell, deviation),
                    options.prefix, options.step, options.horizon, options.silent, options.out_after, options.helpers, options.prog, options.ends)


def connect(options: argparse.Namespace) -> Link:
    """The broker, which need not be there yet."""
    return reach(options, f'{options.prefix}-adapter-{os.path.basename(options.log)}', options.prog)


def may_begin_later(error: Exception) -> bool:
    """Whether the core may begin at another try: the one of an adapter that was killed has the log still, or the disk is full."""
    return isinstance(error, CoreDied) and (error.status == NO_CORE or was_killed(error.status))


def interrupted(number: int, frame: object) -> None:
    raise KeyboardInterrupt


def run(options: argparse.Namespace) -> int:
    judge_options(options)
    instance = read_instance(options.instance, read_file(options.instance)).with_nofollow()
    vehicles = read_fleet(options.fleet, len(instance.starts))
    broker = connect(options)
    book = Book(options.log + '.keys')
    adapter = Adapter(instance, settings_of(options, instance), broker, book, vehicles)
    signal.signal(signal.SIGTERM, interrupted)
    try:
        try:
            adapter.open()
        except (SessionError, Stop) as error:
            if not may_begin_later(error):
                print(f'{options.prog}: the core does not begin: {error}', file=sys.stderr)
                return NO_CORE
            adapter.fail(str(error), time.monotonic())
        while not adapter.is_open:    # another adapter may have the log still, and the broker
            adapter.go_on(time.monotonic())
            time.sleep(0.1)
        broker.start()
        while True:
            adapter.go_on(time.monotonic())
    except KeyboardInterrupt:
        return 0
    finally:
        adapter.end()
        broker.end()
