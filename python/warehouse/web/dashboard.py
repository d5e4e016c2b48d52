"""Serves a page of a running floor: it follows the log as it grows, and the core is not asked.

    ./warehouse replay --vehicles --ahead 3 --log run.log ..
    dashboard INSTANCE run.log --ahead 3              http://127.0.0.1:8080/
    dashboard INSTANCE run.log next.log --ahead 3     and then the log that continues it

INSTANCE has the sections map and points, as for `play`; LOG is the file of `--log`, which may come later. With LOG.at beside it
(`--vehicles`) the page shows vehicles: which cells each occupies, where its plan is, how far it is behind. --ahead and --behind are
those of the service. Times are those at which this server saw the files grow. Where `vda5050` has ended a run for a lost vehicle (LOG.keys
says so), the page continues with the next one, LOG.2. Each further LOG begins with the state that the one before it had (`warehouse state`):
the page continues with it once that is there, from where agents, loads and orders are in it.

    /           the player, at the last moment; scroll back with the slider or the arrows, the key end follows again
    /events     Server-Sent Events: `run`, the last ten minutes, then `more`, what is new of it
    /metrics    Prometheus text
    /health     {"alarms": [..]}: status 200 without an alarm, else 503

An alarm is: a vehicle for which the clock has waited for --patience seconds, or that is out of use; two vehicles granted one cell; a
request without a path (E6) in the last minute; a standstill; a log that is not there, cannot be read, or does not continue the one before.
A log that is cut or replaced is read anew.

It listens on 127.0.0.1 alone unless --host says otherwise: it has no passwords, so put a proxy with TLS and passwords before it. It
needs no network, and ends by Ctrl-C or signal 15.
"""
from __future__ import annotations

import argparse
import json
import os
import signal
import threading
import time
import traceback
from collections import deque
from http.server import BaseHTTPRequestHandler, ThreadingHTTPServer
from typing import Any, Sequence

from ..texts import Fault, read_file, read_instance
from . import asset, page
from .runs import Runs
from .status import Status

FAULT = 1
LOOK = 0.1            # seconds between two looks at the files
SAY = 5.0             # seconds after which figures go out anew
MOST_EVENTS = 256     # that a slow page may be behind, before it begins anew
MOST_PAGES = 64
BEAT = 10.0           # seconds after which a page that hears nothing is sent a line, so that one that has gone is noticed
SCRIPTS = '<script src="player.js"></script>\n<script src="live.js"></script>'
SIDE = ('<section><h2>Alarms</h2><div class="alarms" role="status"></div></section><section><h2>Last minutes</h2><div class="figures"></div></section>'
        '<section class="queue"></section>')
POLICY = "default-src 'none'; script-src 'self'; style-src 'unsafe-inline'; connect-src 'self'; base-uri 'none'; form-action 'none'; frame-ancestors 'none'"


def event(kind: str, data: dict[str, Any]) -> bytes:
    return f'event: {kind}\ndata: {json.dumps(data, separators=(",", ":"))}\n\n'.encode()


class Feed:
    """What pages are sent, and the one thread that looks at the files."""

    def __init__(self, runs: Runs, status: Status):
        self.runs, self.floor, self.status = runs, status.floor, status
        self.lock = threading.Condition()
        self.events: deque[bytes] = deque(maxlen=MOST_EVENTS)
        self.sent = self.pages = 0      # events since the server began, and pages that listen
        self.number = -1                # of the run that they continue
        self.said: dict[str, Any] = {}
        self.said_at = 0.0

    def follow(self) -> None:
        while True:
            with self.lock:
                try:
                    self.look()
                except Exception as error:    # /health says so, and the page stays
                    self.floor.fault = f'{type(error).__name__}: {error}'
                    traceback.print_exc()
            time.sleep(LOOK)

    def look(self) -> None:
        """Takes in what is new, and sends it."""
        if other := self.runs.look():
            self.floor = self.status.floor = other
            self.number = -1    # all begin anew
        news, page = self.floor.look(), self.status.page()
        if self.floor.number != self.number:
            self.number = self.floor.number
            self.events.clear()
            self.sent += MOST_EVENTS + 1    # all begin anew
            self.say(page)
        elif news or page['alarms'] != self.said['alarms'] or (page != self.said and time.monotonic() > self.said_at + SAY):
            self.events.append(event('more', (news or {}) | {'live': page}))
            self.sent += 1
            self.say(page)

    def join(self, more: int) -> bool:
        """A page comes, or goes; whether there is room."""
        with self.lock:
            if self.pages + more > MOST_PAGES:
                return False
            self.pages += more
            return True

    def say(self, page: dict[str, Any]) -> None:
        self.said, self.said_at = page, time.monotonic()
        self.lock.notify_all()

    def after(self, seen: int) -> tuple[bytes, int]:
        """What a page is to be sent that has had so many events, -1 at first: those since, or the run."""
        with self.lock:
            self.lock.wait_for(lambda: self.sent != seen, BEAT)
            new = self.sent - seen
            if new == 0:
                return b': \n\n', seen
            if 0 <= seen and new <= len(self.events):
                return b''.join(list(self.events)[-new:]), self.sent
            return event('run', self.floor.begun() | {'status': self.status.page()}), self.sent


class Handler(BaseHTTPRequestHandler):
    feed: Feed
    protocol_version = 'HTTP/1.1'
    server_version = 'warehouse'
    timeout = 60

    def do_GET(self) -> None:
        path = self.path.partition('?')[0]
        if path == '/':
            self.answer('text/html; charset=utf-8', page(SCRIPTS, SIDE))
        elif path in ('/player.js', '/live.js'):
            self.answer('text/javascript; charset=utf-8', asset(path[1:]))
        elif path == '/metrics':
            with self.feed.lock:
                text = self.feed.status.metrics(self.feed.pages)
            self.answer('text/plain; version=0.0.4; charset=utf-8', text)
        elif path == '/health':
            with self.feed.lock:
                alarms = self.feed.status.alarms()
            self.answer('application/json', json.dumps({'alarms': alarms}) + '\n', 503 if alarms else 200)
        elif path == '/events':
            self.events()
        else:
            self.answer('text/plain; charset=utf-8', 'nothing is here\n', 404)

    def head(self, status: int, kind: str) -> None:
        self.send_response(status)
        for name, value in (('Content-Type', kind), ('Cache-Control', 'no-store'), ('Content-Security-Policy', POLICY),
                            ('X-Content-Type-Options', 'nosniff'), ('Referrer-Policy', 'no-referrer')):
            self.send_header(name, value)

    def answer(self, kind: str, text: str, status: int = 200) -> None:
        data = text.encode()
        self.head(status, kind)
        self.send_header('Content-Length', str(len(data)))
        self.end_headers()
        self.wfile.write(data)

    def events(self) -> None:
        """Sends what is new until the page has gone."""
        feed, self.close_connection = self.feed, True
        if not feed.join(1):
            return self.answer('text/plain; charset=utf-8', f'{MOST_PAGES} pages are open\n', 503)
        seen = -1
        try:
            self.head(200, 'text/event-stream')
            self.send_header('Connection', 'close')
            self.end_headers()
            while True:
                data, seen = feed.after(seen)
                self.wfile.write(data)
        except OSError:
            pass    # it has gone
        finally:
            feed.join(-1)

    def log_message(self, *_: Any) -> None:
        pass


class Server(ThreadingHTTPServer):
    daemon_threads = True
    feed: Feed

    def handle_error(self, request: Any, client_address: Any) -> None:
        """A page that goes away within an answer is no error."""


def serve(instance: str, log: str, host: str, port: int, ahead: int = 1, behind: int = 8, minutes: int = 5,
          patience: float = 3.0, later: Sequence[str] = ()) -> Server:
    """A server that listens, and follows the files from now on. Raises Fault where the instance cannot be used, OSError."""
    runs = Runs(read_instance(instance, read_file(instance)), os.path.basename(instance), log, ahead, later)
    feed = Feed(runs, Status(runs.follower(), behind, minutes, patience))
    server = Server((host, port), type('FloorHandler', (Handler,), {'feed': feed}))
    server.feed = feed
    threading.Thread(target=feed.follow, daemon=True).start()
    return server


def add_options(parser: argparse.ArgumentParser) -> None:
    add = parser.add_argument
    add('instance', metavar='INSTANCE')
    add('log', metavar='LOG')
    add('later', metavar='LOG', nargs='*', help='logs that continue it, one after the other; they may come later')
    add('--host', default='127.0.0.1', metavar='ADDRESS', help='where it listens (%(default)s)')
    add('--port', type=int, default=8080, metavar='N', help='0: any that is free (%(default)s)')
    add('--ahead', type=int, default=1, metavar='N', help='steps ahead that the service grants (%(default)s)')
    add('--behind', type=int, default=8, metavar='N', help='steps behind at which its clock waits (%(default)s)')
    add('--patience', type=float, default=3.0, metavar='S', help='seconds after which a clock that waits is an alarm (%(default)s)')
    add('--minutes', type=int, default=5, metavar='N', help='what figures are of (%(default)s)')


def run(options: argparse.Namespace) -> int:
    if min(options.ahead, options.behind, options.minutes) < 1 or not 0 <= options.port <= 65535:
        raise Fault('--ahead, --behind and --minutes are 1 or more, --port is at most 65535')
    server = serve(options.instance, options.log, options.host, options.port, options.ahead, options.behind, options.minutes, options.patience,
                   options.later)
    host, port = server.server_address[:2]
    print(f'http://{host!s}:{port}/', flush=True)
    signal.signal(signal.SIGTERM, lambda *_: threading.Thread(target=server.shutdown).start())
    try:
        server.serve_forever()
    except KeyboardInterrupt:
        pass
    return 0
