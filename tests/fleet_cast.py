"""A whole fleet on this machine, for tests/python_broker.py: the package's `Cast`, whose parts are killed at chance moments."""
import collections
import json
import os
import random
import sys
import time

ROOT = os.path.dirname(os.path.dirname(os.path.abspath(__file__)))
sys.path.insert(0, os.path.join(ROOT, 'python'))

from warehouse.vda5050 import cast    # noqa: E402
from warehouse.vda5050.cast import broker_program, free_port, python_with_paho    # noqa: E402
from warehouse.vda5050.traces import Judge    # noqa: E402

__all__ = ['Cast', 'Judge', 'broker_program', 'free_port', 'keys_of', 'python_with_paho', 'run_fleet']


class Cast(cast.Cast):
    """One whose core can be killed too."""

    def __init__(self, folder: str, instance: str, program: str, starts: list, rows: int, step: float, handling: float = 1.0, leaves: float = 0.0,
                 words: tuple = ()):
        super().__init__(folder, instance, program, starts, rows, step, handling, leaves, ['--silent', '6', *words])

    def kill_core(self) -> bool:
        """The core is the adapter's one child."""
        adapter = self.running['adapter'].pid
        try:
            with open(f'/proc/{adapter}/task/{adapter}/children') as file:
                core = int(file.read().split()[0])
            with open(f'/proc/{core}/cmdline', 'rb') as file:
                if b'replay' not in file.read():
                    return False
            os.kill(core, 9)
        except (OSError, IndexError):
            return False
        return True

    def processor_seconds(self, name: str) -> float:
        """What the process has used since its last start."""
        try:
            with open(f'/proc/{self.running[name].pid}/stat') as file:
                words = file.read().rpartition(')')[2].split()
        except OSError:
            return 0.0
        return (int(words[11]) + int(words[12])) / os.sysconf('SC_CLK_TCK')


class Chaos:
    """Kills by signal 9 at chance moments; what was killed starts again."""
    KINDS = ('core', 'core', 'adapter', 'broker', 'vehicle', 'vehicle')

    def __init__(self, cast: Cast, kills: int, seed: int, low: float, high: float):
        self.cast, self.kills, self.low, self.high = cast, kills, low, high
        self.random = random.Random(seed)
        self.kinds: list[str] = []    # that come next, so that each has its turn
        self.killed: collections.Counter = collections.Counter()
        self.next = time.monotonic() + 3
        self.to_start: list[tuple[float, str]] = []

    def turn(self, now: float) -> None:
        for when, name in list(self.to_start):
            if now >= when:
                self.to_start.remove((when, name))
                self.cast.start(name)
        if now < self.next or sum(self.killed.values()) >= self.kills:
            return
        if not self.kinds:
            self.kinds = self.random.sample(self.KINDS, len(self.KINDS))
        kind = self.kinds[-1]
        name = f'v{self.random.randrange(len(self.cast.starts))}' if kind == 'vehicle' else kind
        if any(name == other or (kind == 'core' and other == 'adapter') for _, other in self.to_start):
            return
        if kind == 'core':
            if not self.cast.kill_core():
                return
        else:
            self.cast.kill(name)
            self.to_start.append((now + self.random.uniform(0, 1.5), name))
        self.killed[self.kinds.pop()] += 1
        self.next = now + self.random.uniform(self.low, self.high)


def run_fleet(cast: Cast, orders: int, kills: int, seed: int, limit: float, low: float = 1.0, high: float = 5.0, each=lambda now, states: None) -> dict:
    """Runs until the feed ends, or the limit; what came of it."""
    began = time.monotonic()
    chaos = Chaos(cast, kills, seed, low, high)
    cast.start_all()
    cast.start('feed')
    feed = cast.running.pop('feed')    # its end is no fall
    fell: list[str] = []
    try:
        while feed.poll() is None and time.monotonic() - began < limit:
            now = time.monotonic()
            chaos.turn(now)
            each(now - began, cast)
            down = {name for _, name in chaos.to_start}
            for name, process in cast.running.items():
                if name not in down and process.poll() is not None:
                    fell.append(f'{name} ended with status {process.returncode}')
                    cast.start(name)
            time.sleep(0.05)
    finally:
        used = {name: cast.processor_seconds(name) for name in ('adapter', 'broker')}
        seconds = round(time.monotonic() - began, 1)
        feed.kill()
        feed.wait()
        for _, name in chaos.to_start:
            if name in ('adapter', 'broker'):
                cast.start(name)
        cast.end()
    with open(cast.said_by('feed'), encoding='utf-8') as told:    # and what it says of the broker
        last = dict(line.split()[:2] for line in told.read().splitlines() if not line.startswith('warehouse '))
    judge = Judge(cast.folder)
    return {'seconds': seconds, 'processor seconds': used, 'told': collections.Counter(last.values()), 'killed': dict(chaos.killed), 'fell': fell,
            'stays': judge.stays, 'wrong': judge.wrong, 'dropped': len(judge.dropped()), 'orders': orders}


def keys_of(cast: Cast) -> tuple[dict, int]:
    """Of each key in the adapter's list how many visits are made and are due, and the number of runs."""
    made, due, runs = {}, {}, 1
    with open(cast.log + '.keys', encoding='utf-8') as book:
        for line in book:
            row = json.loads(line)
            if 'stops' in row:
                due[row['key']] = len(row['stops'])
            elif 'made' in row:
                made[row['key']] = row['made']
            runs = row.get('run', runs)
    return {key: (made.get(key, 0), count) for key, count in due.items()}, runs
