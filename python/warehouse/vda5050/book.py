"""The adapter's list of keys: which order is which task, how far it is, and where each run began. A file that only grows.

A key is written, and synced, before its order is handed in, with the number that the task will have: one that the core's log does not
have is not handed in. So no kill loses an order that was answered, and none is handed in twice. Lines are JSON:

    {"book": 1, "name": "3fa9c2d1"}                                  once; the name begins each `orderId`
    {"key": "o17", "run": 1, "task": 4, "client": "wms", "stops": ["S3", "S9"], "first": 0}
    {"key": "o18", "run": 0, "task": 0, ..}                          it waits for a run in which its stops are stations
    {"key": "o17", "made": 2}                                        visits that are made; all of them: it is delivered
    {"run": 2, "cells": [..], "blocked": [..], "out": [3], "carried": {"o17": 3}}    another run begins where vehicles stand

A last line without its end does not count, and is cut off.
"""
from __future__ import annotations

import json
import os
import secrets
from dataclasses import dataclass, field

from ..texts import Cell, Fault
from .schema import Json, fault_in

CELLS: Json = {'type': 'array', 'items': {'type': 'array', 'minItems': 2, 'items': {'type': 'integer', 'minimum': 0}}}
LINES: Json = {
    'name': {'required': ['book', 'name'], 'properties': {'book': {'enum': [1]}, 'name': {'type': 'string'}}},
    'order': {'required': ['key', 'run', 'task', 'client', 'stops', 'first'],
              'properties': {'key': {'type': 'string'}, 'run': {'type': 'integer', 'minimum': 0}, 'task': {'type': 'integer', 'minimum': 0},
                             'client': {'type': 'string'}, 'stops': {'type': 'array', 'items': {'type': 'string'}, 'minItems': 2},
                             'first': {'type': 'integer', 'minimum': 0}}},
    'made': {'required': ['key', 'made'], 'properties': {'key': {'type': 'string'}, 'made': {'type': 'integer', 'minimum': 0}}},
    'run': {'required': ['run', 'cells', 'blocked', 'out', 'carried'],
            'properties': {'run': {'type': 'integer', 'minimum': 2}, 'cells': CELLS, 'blocked': CELLS,
                           'out': {'type': 'array', 'items': {'type': 'integer', 'minimum': 0}}, 'carried': {'type': 'object'}}},
}


@dataclass
class Transport:
    """An order of transport. `stops` are those that were asked for, `made` how many are visited."""
    key: str
    client: str
    stops: list[str]
    run: int = 0               # in which it was handed in last
    task: int = -1             # the task that it is there
    first: int = 0             # which of its stops is the first that is left in that run
    made: int = 0

    @property
    def is_delivered(self) -> bool:
        return self.made >= len(self.stops)


@dataclass
class Opening:
    """How a run begins: where each agent stands, which cells are blocked, which agents are out of use, and who carries what. What an
    agent that is out of use carries may also be with it no more, or not yet."""
    number: int = 1
    cells: list[Cell] = field(default_factory=list)
    blocked: list[Cell] = field(default_factory=list)
    out: list[int] = field(default_factory=list)
    carried: dict[str, int] = field(default_factory=dict)


def opening_of(row: Json) -> Opening:
    """How a run begins, by its line."""
    cells, blocked = ([(cell[0], cell[1]) for cell in row[name]] for name in ('cells', 'blocked'))
    return Opening(row['run'], cells, blocked, row['out'], row['carried'])


class Book:
    """The list, in memory and in its file. Raises Fault where the file cannot be read, is none, or belongs to another list."""

    def __init__(self, path: str):
        self.path, self.name = path, ''
        self.transports: dict[str, Transport] = {}
        self.by_task: dict[tuple[int, int], str] = {}
        self.aside: set[str] = set()    # keys that were taken while they could not be handed in
        self.opening = Opening()
        try:
            self.file = os.open(path, os.O_RDWR | os.O_CREAT | os.O_APPEND, 0o600)
            with open(path, 'rb') as whole:
                data = whole.read()
        except OSError as error:
            raise Fault(error.strerror or str(error), path) from None
        self.size = data.rfind(b'\n') + 1
        for number, line in enumerate(data[:self.size].split(b'\n')[:-1], 1):
            self.read(number, line)
        if not self.name:
            self.name = secrets.token_hex(4)
            self.write([{'book': 1, 'name': self.name}])

    # ---- the file

    def read(self, number: int, line: bytes) -> None:
        try:
            row = json.loads(line)
        except ValueError:
            row = None
        kind = next((kind for kind, rule in LINES.items() if isinstance(row, dict) and not fault_in(rule, row)), '')
        if not kind or (kind == 'name') != (number == 1) or (kind == 'made' and row['key'] not in self.transports):
            raise Fault(f'`{line[:60].decode("latin-1")}` is no line of a list of keys here', self.path, number)
        match kind:
            case 'name':
                self.name = row['name']
            case 'order':
                self.enter(row)
            case 'made':
                self.transports[row['key']].made = row['made']
            case 'run':
                self.opening = opening_of(row)

    def write(self, rows: list[Json]) -> None:
        """Appends lines, and syncs them. Raises Fault where that fails; then none of them stands."""
        data = ''.join(json.dumps(row, separators=(',', ':')) + '\n' for row in rows).encode()
        try:
            os.ftruncate(self.file, self.size)    # what a write before left behind
            if os.write(self.file, data) != len(data):
                raise OSError(0, 'it was not written whole')
            os.fsync(self.file)
        except OSError as error:
            raise Fault(error.strerror or str(error), self.path) from None
        self.size += len(data)

    def close(self) -> None:
        os.close(self.file)

    # ---- orders

    def enter(self, row: Json) -> Transport:
        """An order that is handed in, or is about to be: of the same run and task the last one counts."""
        if row['run'] == 0:
            self.aside.add(row['key'])
            return self.transports.setdefault(row['key'], Transport(row['key'], row['client'], row['stops']))
        if self.by_task.get((row['run'], row['task']), row['key']) != row['key']:
            self.free(row['run'], row['task'])
        known = self.transports.setdefault(row['key'], Transport(row['key'], row['client'], row['stops']))
        known.run, known.task, known.first = row['run'], row['task'], row['first']
        self.by_task[row['run'], row['task']] = row['key']
        return known

    def put(self, key: str, client: str, stops: list[str], task: int, first: int = 0) -> Transport:
        """Writes that this order is about to be handed in as that task of this run."""
        row: Json = {'key': key, 'run': self.opening.number, 'task': task, 'client': client, 'stops': stops, 'first': first}
        self.write([row])
        return self.enter(row)

    def put_aside(self, key: str, client: str, stops: list[str]) -> Transport:
        """Writes that this order waits for another run."""
        row: Json = {'key': key, 'run': 0, 'task': 0, 'client': client, 'stops': stops, 'first': 0}
        self.write([row])
        return self.enter(row)

    def free(self, run: int, task: int) -> None:
        """That task was not made: the order waits again where it stood in a run before, else its key is free."""
        key = self.by_task.pop((run, task))
        if key in self.by_task.values() or key in self.aside:
            self.transports[key].run, self.transports[key].task = 0, -1
        else:
            del self.transports[key]

    def settle(self, tasks: int) -> None:
        """The core's log of this run has so many tasks: what was written for a later one was not handed in."""
        for run, task in [(run, task) for run, task in self.by_task if run == self.opening.number and task >= tasks]:
            self.free(run, task)

    def of_task(self, task: int) -> Transport | None:
        """The order that is that task of this run."""
        key = self.by_task.get((self.opening.number, task))
        return None if key is None else self.transports[key]

    def make(self, counts: dict[str, int]) -> None:
        """Writes how many visits are made of these orders."""
        self.write([{'key': key, 'made': made} for key, made in counts.items()])
        for key, made in counts.items():
            self.transports[key].made = made

    def begin_run(self, opening: Opening) -> None:
        """Writes that the next run begins so: from then on it is the run."""
        self.write([{'run': opening.number, 'cells': opening.cells, 'blocked': opening.blocked, 'out': opening.out,
                     'carried': opening.carried}])
        self.opening = opening

    def left(self) -> list[Transport]:
        """The orders that are to be handed in in this run, and are not: those that are carried first. What is with an agent that is
        out of use waits for it."""
        opening = self.opening
        waiting = [one for one in self.transports.values() if one.run != opening.number and not one.is_delivered
                   and opening.carried.get(one.key, -1) not in opening.out]
        return sorted(waiting, key=lambda one: one.key not in opening.carried)
