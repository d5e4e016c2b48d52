"""Messages over pipes where no broker is: `--broker -` of the adapter, of simulated vehicles and of the feed.

`Hub` stands in for the broker, in the program that has started them. Each line is a JSON object. A process writes {"hear": [TOPIC, ..]},
{"will": [TOPIC, TEXT]}, {"topic": .., "text": .., "retain": ..} and, before it ends on purpose, {"end": true}; it reads {"topic": ..,
"text": ..}. It is for one machine: no quality of service, and nothing outlives the hub.
"""
from __future__ import annotations

import argparse
import contextlib
import json
import os
import selectors
import subprocess
import threading
import time
from collections import deque
from typing import Any, Sequence

from .broker import CONNECTED, Inbox, Link, Message, Mqtt, address_of

PIPES = '-'      # the --broker that is none
PIECE = 65536
LOOK = 0.02      # seconds between two looks at what could not be written


def packed(row: dict[str, Any]) -> bytes:
    return json.dumps(row, separators=(',', ':')).encode() + b'\n'


def reach(options: argparse.Namespace, name: str, said: str, will: tuple[str, str] | None = None) -> Link:
    """The broker that the options name, which need not be there yet, or the pipes in place of one."""
    if options.broker == PIPES:
        return Wire(will)
    return Mqtt(name, address_of(options), said, will)


class Wire(Inbox):
    """A Link over this process's standard input and output. Where they end, what asks for messages is interrupted."""

    def __init__(self, will: tuple[str, str] | None = None):
        super().__init__()
        self.is_over = self.is_unheard = False    # nothing comes any more; nobody reads what is written
        if will:
            self.write({'will': will})

    def write(self, row: dict[str, Any]) -> None:
        left = packed(row)
        try:
            while left and not self.is_unheard:
                left = left[os.write(1, left):]
        except BrokenPipeError:
            self.is_unheard = True

    def start(self) -> Wire:
        threading.Thread(target=self.read, daemon=True).start()
        self.inbox.put(Message(CONNECTED, b'', time.monotonic()))
        return self

    def read(self) -> None:
        rest = b''
        while piece := os.read(0, PIECE):
            *whole, rest = (rest + piece).split(b'\n')
            for line in whole:
                row = json.loads(line)
                self.inbox.put(Message(row['topic'], row['text'].encode(), time.monotonic()))
        self.is_over = True

    def subscribe(self, topics: Sequence[tuple[str, int]]) -> None:
        self.write({'hear': [topic for topic, _ in topics]})

    def publish(self, topic: str, text: str, quality: int = 0, retain: bool = False) -> None:
        self.write({'topic': topic, 'text': text, 'retain': retain})

    def take(self, wait: float, most: int = 200) -> list[Message]:
        batch = super().take(wait, most)
        if (self.is_over or self.is_unheard) and not batch:
            raise KeyboardInterrupt
        return batch

    def end(self) -> None:
        self.write({'end': True})


class Line:
    """One process's two pipes, as the hub has them."""

    def __init__(self, process: subprocess.Popen[bytes]):
        assert process.stdin and process.stdout
        self.pipes = process.stdin, process.stdout
        self.to, self.back = process.stdin.fileno(), process.stdout.fileno()
        os.set_blocking(self.to, False)
        self.topics: set[str] = set()
        self.will: list[str] | None = None
        self.rest = b''
        self.out = bytearray()    # what it did not take yet

    def hears(self, topic: str) -> bool:
        return topic in self.topics or topic.rpartition('/')[0] + '/+' in self.topics

    def send(self, topic: str, text: str) -> None:
        self.out += packed({'topic': topic, 'text': text})
        self.flush()

    def flush(self) -> None:
        try:
            while self.out:
                del self.out[:os.write(self.to, self.out[:PIECE])]
        except BlockingIOError:
            pass
        except BrokenPipeError:
            self.out.clear()    # its end is read soon

    def close(self) -> None:
        for pipe in self.pipes:
            with contextlib.suppress(OSError):
                pipe.close()


class Hub:
    """Passes messages on between processes, keeps what is retained, and publishes the will of one that ends without a word."""

    def __init__(self) -> None:
        self.selector = selectors.DefaultSelector()
        self.new: deque[subprocess.Popen[bytes]] = deque()
        self.lines: list[Line] = []
        self.retained: dict[str, str] = {}
        self.is_over = False
        self.thread = threading.Thread(target=self.run, daemon=True)
        self.thread.start()

    def join(self, process: subprocess.Popen[bytes]) -> None:
        """A process that was started, with pipes for its standard input and output."""
        self.new.append(process)

    def run(self) -> None:
        while not self.is_over:
            while self.new:
                line = Line(self.new.popleft())
                self.lines.append(line)
                self.selector.register(line.back, selectors.EVENT_READ, line)
            for key, _ in self.selector.select(LOOK):
                self.read(key.data)
            for line in self.lines:
                line.flush()
        for line in self.lines:
            line.close()
        self.selector.close()

    def read(self, line: Line) -> None:
        piece = os.read(line.back, PIECE)
        if not piece:
            return self.leave(line)
        *whole, line.rest = (line.rest + piece).split(b'\n')
        for text in whole:
            with contextlib.suppress(ValueError, KeyError, TypeError):    # what is no message is passed over
                self.take(line, json.loads(text))

    def take(self, line: Line, row: dict[str, Any]) -> None:
        if 'hear' in row:
            line.topics.update(row['hear'])
            for topic, text in self.retained.items():
                if line.hears(topic):
                    line.send(topic, text)
        elif 'will' in row:
            line.will = row['will']
        elif 'end' in row:
            line.will = None
        else:
            self.publish(row['topic'], row['text'], row['retain'])

    def leave(self, line: Line) -> None:
        self.selector.unregister(line.back)
        self.lines.remove(line)
        line.close()
        if line.will:
            self.publish(line.will[0], line.will[1], True)

    def publish(self, topic: str, text: str, retain: bool) -> None:
        if retain:
            self.retained[topic] = text
        for line in self.lines:
            if line.hears(topic):
                line.send(topic, text)

    def end(self) -> None:
        """All pipes are closed, which ends who still reads from one."""
        self.is_over = True
        self.thread.join()
