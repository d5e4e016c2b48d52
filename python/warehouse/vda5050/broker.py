"""A client of an MQTT broker by paho-mqtt, 1.6 or 2.x: what comes is put into one queue, and a broker that goes is tried again.

`Broker` is what the adapter, the simulated vehicle and the feed use of it; pipes (`wire`) and tests put another in its place.
"""
from __future__ import annotations

import argparse
import contextlib
import importlib
import queue
import socket
import sys
import time
from dataclasses import dataclass
from typing import Any, Protocol, Sequence

from ..texts import Fault, read_file

CONNECTED = ''    # the topic under which a new connection is told
KEEP_ALIVE = 5    # seconds
MISSING = ('there is no paho-mqtt for this Python: apt-get install python3-paho-mqtt and run it by /usr/bin/python3 '
           '(tools/py finds it), or pip install "warehouse[mqtt]"')


@dataclass(frozen=True)
class Message:
    """What came, and when by the monotonic clock."""
    topic: str
    payload: bytes
    came: float


class Broker(Protocol):
    """A connection that comes again by itself."""

    def subscribe(self, topics: Sequence[tuple[str, int]]) -> None: ...
    def publish(self, topic: str, text: str, quality: int = 0, retain: bool = False) -> None: ...
    def take(self, wait: float, most: int = 200) -> list[Message]: ...
    def end(self) -> None: ...


class Link(Broker, Protocol):
    """A connection that is begun once what it is to hear is known."""

    def start(self) -> object: ...


class Inbox:
    """What has come, and was not taken."""

    def __init__(self) -> None:
        self.inbox: queue.Queue[Message] = queue.Queue()

    def take(self, wait: float, most: int = 200) -> list[Message]:
        """What has come, once something has or the time is over."""
        batch: list[Message] = []
        with contextlib.suppress(queue.Empty):
            batch.append(self.inbox.get(timeout=wait))
            while len(batch) < most:
                batch.append(self.inbox.get_nowait())
        return batch


@dataclass(frozen=True)
class Address:
    """Where the broker is, and as whom to come."""
    host: str = '127.0.0.1'
    port: int = 1883
    user: str = ''
    password: str = ''
    authority: str = ''    # the file of certificates that TLS trusts


def add_broker_options(parser: argparse.ArgumentParser) -> None:
    parser.add_argument('--broker', default='127.0.0.1', metavar='HOST', help='%(default)s; -: none, its messages go over the standard input and output')
    parser.add_argument('--port', type=int, default=1883, help='%(default)s')
    parser.add_argument('--user', default='', metavar='NAME', help='as whom to come to the broker')
    parser.add_argument('--password-file', default='', metavar='FILE', help='whose first line is the password')
    parser.add_argument('--ca', default='', metavar='FILE', help='certificates that are trusted: the broker is reached by TLS')


def address_of(options: argparse.Namespace) -> Address:
    """The address that the options name. Raises Fault."""
    if not 1 <= options.port <= 65535:
        raise Fault(f'--port {options.port}: 1 to 65535 are ports')
    password = read_file(options.password_file).decode('utf-8', 'replace').partition('\n')[0] if options.password_file else ''
    return Address(options.broker, options.port, options.user, password, options.ca)


def paho() -> Any:
    """The library. Raises Fault where it is not there."""
    try:
        return importlib.import_module('paho.mqtt.client')
    except ImportError:
        raise Fault(MISSING) from None


def client_of(library: Any, name: str, clean: bool = True) -> Any:
    """A client by either version of the library: 2.x wants to be told the form of the calls back, of which these look at no word."""
    versions = getattr(library, 'CallbackAPIVersion', None)
    form = () if versions is None else (versions.VERSION2,)
    return library.Client(*form, client_id=name, clean_session=clean)


class Mqtt(Inbox):
    """A Link over the network. `will` is published for this client, retained, where its connection breaks."""

    def __init__(self, name: str, address: Address, said: str, will: tuple[str, str] | None = None, clean: bool = True):
        super().__init__()
        self.topics: list[tuple[str, int]] = []
        self.said, self.address = said, address
        self.up: bool | None = None
        self.client = client_of(paho(), name, clean)
        if will:
            self.client.will_set(*will, 1, True)
        if address.user:
            self.client.username_pw_set(address.user, address.password)
        if address.authority:
            try:
                self.client.tls_set(address.authority)
            except (OSError, ValueError) as error:
                raise Fault(str(error), address.authority) from None
        self.client.on_connect = self.on_connect
        self.client.on_disconnect = self.on_disconnect
        self.client.on_message = lambda client, user, message: self.inbox.put(Message(message.topic, message.payload, time.monotonic()))
        self.client.reconnect_delay_set(1, 2)

    def start(self) -> Mqtt:
        """Begins to connect, and to try again where that fails."""
        try:
            socket.create_connection((self.address.host, self.address.port), 2).close()
        except OSError as error:
            self.tell(f'no broker at {self.address.host} port {self.address.port} ({error.strerror or error}): it is tried again')
        self.client.connect_async(self.address.host, self.address.port, keepalive=KEEP_ALIVE)
        self.client.loop_start()
        return self

    def tell(self, line: str) -> None:
        print(f'{self.said}: {line}', file=sys.stderr, flush=True)

    def on_connect(self, client: Any, user: Any, flags: Any, code: Any, *more: Any) -> None:
        # a number in 1.6, an object in 2.x
        failed = code.is_failure if hasattr(code, 'is_failure') else code != 0
        if failed:
            self.tell(f'the broker refuses the connection: {code}')
            return
        if self.up is False:
            self.tell('the broker is back')
        self.up = True
        if self.topics:
            client.subscribe(self.topics)
        self.inbox.put(Message(CONNECTED, b'', time.monotonic()))

    def on_disconnect(self, client: Any, user: Any, *more: Any) -> None:
        if self.up:
            self.tell('the broker is gone: it is tried again')
        self.up = False

    def subscribe(self, topics: Sequence[tuple[str, int]]) -> None:
        """Also at each connection that comes later."""
        self.topics += topics
        self.client.subscribe(list(topics))

    def publish(self, topic: str, text: str, quality: int = 0, retain: bool = False) -> None:
        self.client.publish(topic, text, quality, retain)

    def end(self) -> None:
        self.up = None    # its end is no news
        self.client.disconnect()
        self.client.loop_stop()
