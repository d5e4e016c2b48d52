"""Sends transport orders of a table to the adapter, each again until it is answered.

    vda5050-orders FILE --broker mq            prints each answer as `KEY STATE`, and ends when all are delivered or refused

FILE is CSV with the columns `key` and `stops` (names with blanks between), and where wanted `client`, and `at`, the second from the
beginning at which it is sent; `-` is the standard input. It is an example of a feed: another system does the same by MQTT. One that was
stopped is begun again with the same FILE: what was taken before is not taken again. With --broker - answers are written to standard error.

Status 0: all are delivered; 1: some were refused; 2: FILE or an option is wrong.
"""
from __future__ import annotations

import argparse
import csv
import io
import json
import math
import sys
import time
from dataclasses import dataclass

from ..texts import Fault, read_file
from .broker import Broker, add_broker_options
from .schema import Json, fault_in, schema
from .wire import PIPES, reach

AGAIN = 3.0     # seconds without an answer
LATER = 15.0    # seconds without another answer, where that may be lost with its broker
ENDS = ('delivered', 'refused')


@dataclass
class Row:
    """An order of the table, and what was answered to it."""
    order: Json
    at: float
    sent: float = -math.inf
    state: str = ''


def read_table(name: str, data: bytes) -> list[Row]:
    """The orders of a table. Raises Fault, with the line."""
    reader = csv.DictReader(io.StringIO(data.decode('utf-8', 'replace'), newline=''), strict=True)
    rows: dict[str, Row] = {}
    try:
        missing = [column for column in ('key', 'stops') if column not in (reader.fieldnames or [])]
        if missing:
            raise Fault(f'the first line names no column `{missing[0]}`', name, 1)
        for cells in reader:
            order: Json = {'id': cells['key'], 'stops': (cells['stops'] or '').split()}
            if cells.get('client'):
                order['client'] = cells['client']
            if fault := fault_in(schema('transport'), order):
                raise Fault(fault, name, reader.line_num)
            if order['id'] in rows:
                raise Fault(f'the key {order["id"]} stands earlier', name, reader.line_num)
            rows[order['id']] = Row(order, second_of(name, reader.line_num, cells.get('at') or '0'))
    except csv.Error as error:
        raise Fault(f'it is no CSV: {error}', name, reader.line_num) from None
    return sorted(rows.values(), key=lambda row: row.at)


def second_of(name: str, line: int, word: str) -> float:
    try:
        second = float(word)
    except ValueError:
        second = -1.0
    if not 0 <= second < 1e9:
        raise Fault(f'`{word[:20]}` is no second', name, line)
    return second


class Feed:
    """The rows, and a broker."""

    def __init__(self, rows: list[Row], broker: Broker, prefix: str):
        self.rows, self.broker, self.prefix = {str(row.order['id']): row for row in rows}, broker, prefix
        self.began = time.monotonic()
        broker.subscribe([(f'{prefix}/order/+', 1)])

    def turn(self, wait: float = 0.1) -> list[str]:
        """Takes answers, and sends what is due; the answers as lines."""
        said = []
        for message in self.broker.take(wait):
            key = message.topic.rpartition('/')[2]
            row = self.rows.get(key)
            try:
                answer = json.loads(message.payload) if row and message.payload else None
            except ValueError:
                answer = None
            if row and isinstance(answer, dict) and answer.get('state') not in (None, row.state):
                row.state, row.sent = str(answer['state']), time.monotonic()
                said.append(' '.join([key, row.state, *([str(answer['why'])] if 'why' in answer else [])]))
        now = time.monotonic()
        for row in self.rows.values():
            if row.state not in ENDS and now - self.began >= row.at and now - row.sent > (LATER if row.state else AGAIN):
                row.sent = now
                self.broker.publish(f'{self.prefix}/order', json.dumps(row.order), 1)
        return said

    def is_done(self) -> bool:
        return all(row.state in ENDS for row in self.rows.values())


def add_options(parser: argparse.ArgumentParser) -> None:
    parser.add_argument('file', metavar='FILE')
    add_broker_options(parser)
    parser.add_argument('--prefix', default='warehouse', metavar='TOPIC', help='%(default)s')


def run(options: argparse.Namespace) -> int:
    rows = read_table(options.file, read_file(options.file))
    broker = reach(options, '', options.prog)
    out = sys.stderr if options.broker == PIPES else sys.stdout
    feed = Feed(rows, broker, options.prefix)
    broker.start()
    try:
        while not feed.is_done():
            for line in feed.turn():
                print(line, file=out, flush=True)
    finally:
        broker.end()
    return int(any(row.state == 'refused' for row in feed.rows.values()))
