"""A whole fleet on this machine: a broker, or pipes in place of one, the adapter over the core, a process for each vehicle, the feed.

Each part can be killed and started again. All that they keep is in one folder, and what a part says is in FOLDER/KIND.said there.
"""
from __future__ import annotations

import contextlib
import getpass
import os
import shutil
import socket
import subprocess
import sys
import time
from typing import Sequence

from ..texts import Cell
from .wire import PIPES, Hub

ENDING = 5.0      # seconds that adapter and broker have to end
STARTING = 10.0   # and the broker to listen
PYTHON = os.path.dirname(os.path.dirname(os.path.dirname(os.path.abspath(__file__))))


def broker_program() -> str:
    """Where mosquitto is, '' where it is not."""
    return shutil.which('mosquitto') or shutil.which('/usr/sbin/mosquitto') or ''


def python_with_paho() -> str:
    """A Python that sees paho-mqtt, '' where there is none."""
    for python in (sys.executable, '/usr/bin/python3'):
        if os.access(python, os.X_OK) and subprocess.run([python, '-c', 'import paho.mqtt.client'], capture_output=True).returncode == 0:
            return python
    return ''


def free_port() -> int:
    with socket.socket() as one:
        one.bind(('127.0.0.1', 0))
        return int(one.getsockname()[1])


class Cast:
    """The processes. `more` are options of the adapter; `handling` is in steps; with a hub there is no broker; those that are apart hear none of
    the terminal's signals."""

    def __init__(self, folder: str, instance: str, program: str, starts: Sequence[Cell], rows: int, step: float, handling: float = 1.0,
                 leaves: float = 0.0, more: Sequence[str] = (), hub: Hub | None = None, apart: bool = False):
        self.folder, self.instance, self.program, self.starts, self.rows = folder, instance, program, starts, rows
        self.step, self.handling, self.leaves, self.more, self.hub, self.apart = step, handling, leaves, list(more), hub, apart
        self.port, self.python = (0, sys.executable) if hub else (free_port(), python_with_paho())
        self.running: dict[str, subprocess.Popen[bytes]] = {}
        self.path = os.path.join(folder, 'mosquitto.conf')
        if not hub:
            with open(self.path, 'w') as file:
                file.write(f'user {getpass.getuser()}\nlistener {self.port} 127.0.0.1\nallow_anonymous true\npersistence true\n'
                           f'persistence_location {folder}/\nautosave_interval 2\nmax_queued_messages 10000\nlog_type error\n')

    @property
    def log(self) -> str:
        return os.path.join(self.folder, 'run.log')

    @property
    def vehicles(self) -> list[str]:
        return [f'v{agent}' for agent in range(len(self.starts))]

    def words(self, name: str) -> list[str]:
        """The command of a part."""
        tool, to = [self.python, '-m', 'warehouse'], ['--broker', PIPES] if self.hub else ['--port', str(self.port)]
        if name == 'broker':
            return [broker_program(), '-c', self.path]
        if name == 'adapter':
            return [*tool, 'vda5050', self.instance, '--log', self.log, '--program', self.program, '--step', str(self.step), *to, *self.more]
        if name == 'feed':
            return [*tool, 'vda5050-orders', os.path.join(self.folder, 'orders.csv'), *to]
        x, y = self.starts[int(name[1:])]
        return [*tool, 'vda5050-vehicle', name, '--start', f'{x},{y}', '--world', self.folder, '--rows', str(self.rows), '--pace', str(self.step),
                '--handling', str(self.handling * self.step), '--leaves', str(self.leaves), '--seed', name[1:], *to]

    def said_by(self, name: str) -> str:
        """The file of what a part says."""
        return os.path.join(self.folder, f'{name if name in ("broker", "adapter", "feed") else "vehicles"}.said')

    def start(self, name: str) -> None:
        """Starts a part, which `end` ends."""
        pipe = subprocess.PIPE if self.hub else None
        environment = {**os.environ, 'PYTHONPATH': os.pathsep.join(filter(None, (PYTHON, os.environ.get('PYTHONPATH'))))}
        with open(self.said_by(name), 'ab') as said:
            process = subprocess.Popen(self.words(name), stdin=pipe or subprocess.DEVNULL, stdout=pipe or said, stderr=said, bufsize=0,
                                       env=environment, start_new_session=self.apart)
        self.running[name] = process
        if self.hub:
            self.hub.join(process)

    def start_all(self) -> None:
        """The broker, then vehicles and the adapter."""
        if not self.hub:
            self.start('broker')
            self.wait_for_broker()
        for name in [*self.vehicles, 'adapter']:
            self.start(name)

    def wait_for_broker(self) -> None:
        """Clients try again by themselves, but say so."""
        until = time.monotonic() + STARTING
        while time.monotonic() < until and self.running['broker'].poll() is None:
            try:
                return socket.create_connection(('127.0.0.1', self.port), 1).close()
            except OSError:
                time.sleep(0.02)

    def kill(self, name: str) -> None:
        """By signal 9."""
        self.running[name].kill()
        self.running[name].wait()

    def ended(self) -> list[str]:
        """Parts that run no more."""
        return [name for name, process in self.running.items() if process.poll() is not None]

    def end(self) -> None:
        """The adapter first, which ends the core and its log and would take vehicles that go for lost."""
        for name in ('adapter', *(name for name in self.running if name not in ('adapter', 'broker')), 'broker'):
            if name not in self.running:
                continue
            if name in ('adapter', 'broker'):
                self.running[name].terminate()
                with contextlib.suppress(subprocess.TimeoutExpired):
                    self.running[name].wait(ENDING)
            self.kill(name)
        if self.hub:
            self.hub.end()

    def said(self) -> str:
        """All that the parts said."""
        found = []
        for name in ('broker', 'adapter', 'feed', 'v0'):
            if os.path.exists(self.said_by(name)):
                with open(self.said_by(name), encoding='utf-8', errors='replace') as file:
                    found.append(file.read())
        return ''.join(found)
