"""Shows a floor at work on this machine: simulated vehicles that are late, the core, and the live page in a browser.

    demo                                     20 vehicles, 40 orders, some two minutes
    demo --agents 8 --orders 10 --lost 0     no vehicle is lost
    demo --keep FOLDER                       what it made stays there, to be played by `play FOLDER/floor FOLDER/run.log`

The floor is a packing floor of `make-instance --layout kiva`, and paths end at homes (`--ends homes`). Each vehicle is a process of its own,
`vda5050-vehicle`, whose speed differs; the adapter `vda5050` drives them by the core, and `vda5050-orders` sends the orders. Where
mosquitto and paho-mqtt are installed they talk over a broker of their own, at a free port of 127.0.0.1; else over pipes, which it says.

From second --lost on the first vehicle with a load is lost: its process is killed, and after --gone seconds it is started again. Its cell
and its load stay as they are. Nobody plans around it, which `--ends homes` cannot: vehicles that are to pass its cells after it
wait, and once it is 24 steps behind so does the clock. With --around paths end at stops; after 3 seconds all halt, and another run begins
where they stand, without its cells (`vda5050 --out-after 3`); so again when it is back.

It ends when all orders are delivered, after --seconds, by Ctrl-C or by signal 15 or 1, and leaves no process, no folder and no pipe.
Before that it judges the vehicles' traces, which know no plan, and has the program judge the log (`verify`).

Status 0: all is as it should be; 1: two vehicles were in one cell, a load was handled twice, the log is no run, or a part ended by itself;
2: an option is wrong.
"""
from __future__ import annotations

import argparse
import json
import os
import shutil
import signal
import subprocess
import sys
import tempfile
import threading
import time
import webbrowser

from ..session import program
from ..texts import Fault, Instance, read_file, read_instance, read_orders
from ..vda5050.cast import Cast, broker_program, python_with_paho
from ..vda5050.traces import Judge
from ..vda5050.wire import Hub
from ..web.dashboard import Server, serve
from ..web.runs import Runs
from ..web.tail import Tail
from . import make_instance

FLOOR = ('--layout', 'kiva', '--columns', '42', '--rows', '30', '--every', '2', '--nofollow')
FEW, MANY = 3, 12       # packing stations: where paths end at stops, each serves one order at a time
BEHIND, AHEAD = 24, 4   # of the adapter, and of the page
TOLD = 10.0             # seconds between two lines of figures
BEGINNING = 60.0        # and until all parts are there
LOOK = 0.1
SIGNALS = (signal.SIGINT, signal.SIGTERM, signal.SIGHUP)
DELIVERED = 'delivered'
ADAPTER = 'warehouse vda5050: '    # begins what the adapter says; the core says the rest


def add_options(parser: argparse.ArgumentParser) -> None:
    add = parser.add_argument
    add('--agents', type=int, default=20, metavar='N', help='vehicles (%(default)s)')
    add('--orders', type=int, default=40, metavar='N', help='orders, one in two ticks (%(default)s)')
    add('--seconds', type=float, default=300.0, metavar='S', help='it ends after so long, whatever is open (%(default)s)')
    add('--step', type=float, default=0.5, metavar='S', help='between two ticks; what a vehicle takes for a cell differs (%(default)s)')
    add('--lost', type=float, default=30.0, metavar='S', help='from when on a vehicle with a load is killed; 0: never (%(default)s)')
    add('--gone', type=float, default=20.0, metavar='S', help='how long it is gone (%(default)s)')
    add('--seed', type=int, default=7, help='of the floor and its orders (%(default)s)')
    add('--port', type=int, default=0, metavar='N', help='of the page at 127.0.0.1; 0: any that is free')
    add('--around', action='store_true', help='paths end at stops, and the others plan around the vehicle that is gone')
    add('--pipes', action='store_true', help='messages go over pipes also where a broker is installed')
    add('--no-browser', action='store_true', help='open none')
    add('--keep', metavar='FOLDER', help='a new folder in which all files stay')
    add('--program', default=program(), metavar='PROGRAM', help='the core (%(default)s)')


def judge_options(options: argparse.Namespace) -> None:
    for name, low, high in (('agents', 1, 50), ('orders', 1, 1000), ('seconds', 1, 3600), ('step', 0.02, 10), ('lost', 0, 3600), ('gone', 0, 3600),
                            ('port', 0, 65535)):
        if not low <= getattr(options, name) <= high:
            raise Fault(f'--{name} {getattr(options, name):g}: {low:g} to {high:g} can be had')
    if not shutil.which(options.program):
        raise Fault(f'there is no program {options.program}: see README.md, or name one by --program')


def write_floor(options: argparse.Namespace, folder: str) -> Instance:
    """The instance `floor`, and its orders as the feed's table `orders.csv`."""
    parser = argparse.ArgumentParser()
    make_instance.add_options(parser)
    words = [*FLOOR, '--stations', str(MANY if options.around else FEW), '--agents', str(options.agents), '--tasks', str(options.orders),
             '--ticks', str(2 * options.orders), '--seed', str(options.seed)]
    path = os.path.join(folder, 'floor')
    with open(path, 'w') as file:
        file.writelines(f'{line}\n' for line in make_instance.lines(parser.parse_args(words)))
    data = read_file(path)
    with open(os.path.join(folder, 'orders.csv'), 'w') as table:
        table.write('key,client,stops,at\n')
        table.writelines(f'o{number},{order.client},{" ".join(order.stops)},{order.release * options.step:g}\n'
                         for number, order in enumerate(read_orders(path, data)))
    return read_instance(path, data)


def missing() -> str:
    """What a broker needs and is not here, '' where all is."""
    if not broker_program():
        return 'there is no mosquitto (apt-get install mosquitto python3-paho-mqtt)'
    return '' if python_with_paho() else 'no Python here sees paho-mqtt (apt-get install python3-paho-mqtt)'


def open_page(url: str) -> bool:
    """Opens it in a browser with windows; one of text would take the terminal."""
    if sys.platform == 'linux' and not (os.environ.get('DISPLAY') or os.environ.get('WAYLAND_DISPLAY')):
        return False
    try:
        browser = webbrowser.get()
    except webbrowser.Error:
        return False
    if type(browser) is webbrowser.GenericBrowser and not os.environ.get('BROWSER'):
        return False
    return browser.open(url)


class Demo:
    """The fleet, its page, and what is told of them. Seconds are from the start of the orders."""

    def __init__(self, options: argparse.Namespace, cast: Cast, server: Server):
        self.options, self.cast, self.server = options, cast, server
        self.began = time.monotonic()
        self.said = {name: Tail(cast.said_by(name)) for name in ('adapter', 'feed')}
        self.delivered = 0
        self.lost = ''                     # the vehicle that is gone, or was
        self.is_gone = False
        self.at_loss = ('', 0, 0.0)        # clock, deliveries and second as it was killed
        self.took = 0.0                    # seconds to the end

    @property
    def second(self) -> float:
        return time.monotonic() - self.began

    @property
    def clock(self) -> str:
        """Of the plan; a run that goes on elsewhere begins at 0."""
        feed = self.server.feed
        number = feed.runs.opening.number
        return (f'run {number}, ' if number > 1 else '') + f'clock {feed.floor.run.clock}'

    def tell(self, words: str) -> None:
        print(f'second {self.second:3.0f}: {words}', flush=True)

    def listen(self) -> None:
        """What the adapter says is told; what the feed says is counted."""
        for line in self.said['adapter'].look() or []:
            words = line.decode('utf-8', 'replace')
            self.tell(f'the adapter: {words.removeprefix(ADAPTER)}' if words.startswith(ADAPTER) else f'the core: {words}')
        for line in self.said['feed'].look() or []:
            self.delivered += line.split()[1:2] == [DELIVERED.encode()]

    def tell_figures(self) -> None:
        feed = self.server.feed
        with feed.lock:
            late, most = feed.status.most_behind()
            alarms = feed.status.alarms()
        behind = f'{late} vehicle{"s" * (late > 1)} behind plan, at most {most} step{"s" * (most > 1)}' if late else 'no vehicle behind plan'
        self.tell(f'{self.clock}, {self.delivered} of {self.options.orders} orders delivered, {behind}'
                  + ''.join(f'; alarm: {words}' for words in alarms))

    # ---- the vehicle that is lost

    def world(self, name: str) -> tuple[str, str, list[str]]:
        """The cell of a vehicle, the one that it is on its way to, and its loads; it keeps them in a file."""
        try:
            with open(os.path.join(self.cast.folder, name + '.json')) as file:
                cell, toward, loads = json.load(file)
        except OSError:    # it has not begun
            return '', '', []
        return cell, toward, loads

    def lose(self) -> None:
        """The first vehicle with a load, where there is one."""
        self.lost = next((name for name in self.cast.vehicles if self.world(name)[2]), '')
        if not self.lost:
            return
        self.cast.kill(self.lost)
        self.is_gone = True
        self.at_loss = self.clock, self.delivered, self.second
        cell, toward, loads = self.world(self.lost)
        where = f'at {cell.replace("_", ",")}' + (f' on its way to {toward.replace("_", ",")}' if toward else '')
        self.tell(f'{self.lost} is killed, {where}, {"with the load " + " ".join(loads) if loads else "without a load"}')

    def bring_back(self) -> None:
        clock, delivered, second = self.at_loss
        self.is_gone = False
        self.cast.start(self.lost)
        self.tell(f'{self.lost} is started again; it was gone {self.second - second:.0f} s, from {clock} to {self.clock}, and orders delivered '
                  f'meanwhile: {self.delivered - delivered}')

    # ---- the run

    def fallen(self) -> str:
        """What ended by itself that should not have, or ''."""
        for name in self.cast.ended():
            status = self.cast.running[name].returncode
            if not (name == 'feed' and status == 0) and not (name == self.lost and self.is_gone):
                return f'{name} ended by itself, with status {status}'
        return ''

    def begin(self) -> str:
        """Starts the orders once all vehicles are there, and the log is; why it cannot, or ''."""
        files = [self.cast.log, *(os.path.join(self.cast.folder, name + '.json') for name in self.cast.vehicles)]
        while not all(map(os.path.exists, files)):
            if why := self.fallen() or ('' if self.second < BEGINNING else f'it did not begin within {BEGINNING:.0f} s'):
                return why
            time.sleep(LOOK)
        self.cast.start('feed')
        self.began = time.monotonic()
        return ''

    def run(self) -> str:
        """To the end of the orders or of the time; why it ended before, or ''."""
        options, figures = self.options, TOLD
        while self.second < options.seconds:
            self.listen()
            if why := self.fallen():
                return why
            if self.cast.running['feed'].poll() is not None and not self.is_gone:
                return ''
            if options.lost and not self.lost and self.second >= options.lost:
                self.lose()
            if self.is_gone and self.second >= self.at_loss[2] + options.gone:
                self.bring_back()
            if self.second >= figures:
                figures += TOLD
                self.tell_figures()
            time.sleep(LOOK)
        return ''


def judge(demo: Demo, instance: Instance) -> bool:
    """Tells what came of it, by the feed's answers, the traces and the log; whether all is right."""
    demo.listen()
    traces = Judge(demo.cast.folder)
    dropped = len(traces.dropped())
    print(f'{demo.delivered} of {demo.options.orders} orders were delivered in {demo.took:.0f} s, with {traces.stays} moves from cell to cell')
    for wrong in traces.wrong:
        print(f'WRONG by the traces: {wrong}')
    if not traces.wrong:
        print('by their traces no two vehicles were ever in one cell, and no load was handled twice: '
              f'{len(traces.loads) - dropped} were picked up, {dropped} put down')
    verdicts = verify(demo.options, instance, demo.cast.log)
    are_runs = all(verdict.startswith('run ') for verdict in verdicts)
    print(f'verify: {", ".join(verdicts)} (the program judges the log{": a run by the rules" if are_runs else ""})', flush=True)
    return not traces.wrong and are_runs


def watch(demo: Demo) -> str:
    """To its end, or until it is interrupted."""
    try:
        return demo.run()
    except KeyboardInterrupt:
        demo.tell('it is interrupted')
        return ''
    finally:
        demo.took = demo.second


def answer(options: argparse.Namespace, text: bytes, *subcommand: str) -> str:
    """What the program says of a text."""
    words = [options.program, *subcommand, *([] if options.around else ['--ends', 'homes'])]
    return subprocess.run(words, input=text, stdout=subprocess.PIPE).stdout.decode('latin-1').strip()


def verify(options: argparse.Namespace, instance: Instance, log: str) -> list[str]:
    """What the program says of the log of each run."""
    runs, found = Runs(instance, '', log, AHEAD), []
    for floor in [runs.follower(), *runs.each()]:
        found.append(answer(options, floor.instance.text + read_file(floor.name), 'verify', '--unended'))
    return found


def play(options: argparse.Namespace, folder: str) -> int:
    """The demo in that folder."""
    instance = write_floor(options, folder)
    if (verdict := answer(options, instance.text, 'check')) != 'formed':    # where the program is to be built first, it is now
        raise Fault(f'the program says of the floor: {verdict or "nothing"}')
    why = '--pipes' if options.pipes else missing()
    starts = [instance.points[start].cell for start in instance.starts]
    more = ['--behind', str(BEHIND), '--ahead', str(AHEAD), *(['--out-after', '3', '--helpers'] if options.around else ['--ends', 'homes'])]
    cast = Cast(folder, os.path.join(folder, 'floor'), options.program, starts, instance.height, options.step, more=more, hub=Hub() if why else None,
                apart=True)
    server = None
    try:
        server = serve(os.path.join(folder, 'floor'), cast.log, '127.0.0.1', options.port, AHEAD, BEHIND)
        threading.Thread(target=server.serve_forever, daemon=True).start()
        print(f'{options.agents} vehicles, {options.orders} orders; {"messages go over pipes: " + why if why else "messages go over mosquitto"}')
        url = f'http://127.0.0.1:{server.server_address[1]}/'
        print(f'the live page is {url}', flush=True)
        cast.start_all()
        if not options.no_browser:
            print('it is opened in a browser' if open_page(url) else 'no browser with windows is here: open it yourself', flush=True)
        demo = Demo(options, cast, server)
        if why := demo.begin() or watch(demo):
            print(f'{why}; the parts said:\n{cast.said()}', flush=True)
            return 1
        cast.end()
        return 0 if judge(demo, instance) else 1
    finally:
        go_deaf()
        cast.end()
        if server:
            server.shutdown()
            server.server_close()


def go_deaf() -> None:
    """What is ended from here on is ended whole."""
    for one in SIGNALS:
        signal.signal(one, signal.SIG_IGN)


def interrupted(number: int, frame: object) -> None:
    go_deaf()
    raise KeyboardInterrupt


def run(options: argparse.Namespace) -> int:
    judge_options(options)
    for one in SIGNALS:
        signal.signal(one, interrupted)
    if options.keep is None:
        with tempfile.TemporaryDirectory(prefix='warehouse-demo-') as folder:
            return play(options, folder)
    os.makedirs(options.keep)
    return play(options, os.path.abspath(options.keep))
