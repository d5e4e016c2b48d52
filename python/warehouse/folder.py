"""The carrier of a session over the two named pipes of a client's folder, where a service runs (`serve --client N=FOLDER`)."""
from __future__ import annotations

import errno
import os
import re
import select
import time
from typing import Callable, NamedTuple, Sequence

from .process import PIECE, SessionError
from .replies import Told, is_entry, unplaced

# a reply that was cut may stand before it, where nobody read the connection before to its end
GREETING = re.compile(rb'entries (\d+) ([0-9a-f]{16})\n\Z')
PAUSE = 0.02    # seconds between two tries to open a pipe


class Broken(Exception):
    """The connection is over."""


class Greeting(NamedTuple):
    """What a service says first: how many entries the client has, and the tag at which the connection begins."""
    entries: int
    tag: bytes

    @staticmethod
    def of(line: bytes) -> Greeting | None:
        found = GREETING.search(line)
        return Greeting(int(found[1]), found[2]) if found else None


class Connection:
    """One connection over the pipes of a folder: `entries`, how many entries the client has.

    The pipe of replies is opened first and read to its greeting; only then the other one, as the service wants it, and
    `begin TAG` is sent: what a connection before left in the pipe stands in front of that, and is not served.
    Raises SessionError where nobody serves within `wait` seconds (0: ever).
    """

    def __init__(self, folder: str, wait: float = 0):
        self.folder = folder
        self.commands = self.replies = -1
        self.greeting: Greeting | None = None    # of the next connection, where it came behind this one's end
        self.open(wait)

    def open(self, wait: float) -> None:
        """Opens both pipes; where the next greeting has come already, over the pipe of replies that is open."""
        self.until = time.monotonic() + wait if wait else None
        while True:
            try:
                return self.begin()
            except Broken:
                pass    # the service was gone before it could be told

    def begin(self) -> None:
        self.close(self.greeting is None)
        if self.greeting is None:
            self.came = b''
            self.replies, self.greeting = self.greeted(os.path.join(self.folder, 'out'))
        (self.entries, tag), self.greeting = self.greeting, None
        try:
            self.commands = self.opened(os.path.join(self.folder, 'in'), os.O_WRONLY)
            os.set_blocking(self.commands, True)
            # the line feed ends what stands in the pipe of a line that was torn
            self.send(b'\nbegin ' + tag + b'\n')
        except BaseException:
            self.close()
            raise

    def left(self) -> float | None:
        """Seconds that may be waited still."""
        if self.until is None:
            return None
        left = self.until - time.monotonic()
        if left <= 0:
            raise SessionError('nobody serves')
        return left

    def opened(self, path: str, how: int) -> int:
        """The pipe, opened without waiting for its other end; for writing that must be there."""
        while True:
            try:
                return os.open(path, how | os.O_NONBLOCK)
            except OSError as error:
                if error.errno != errno.ENXIO:
                    raise SessionError(f'{path}: {error.strerror}') from None
            self.left()
            time.sleep(PAUSE)

    def greeted(self, path: str) -> tuple[int, Greeting]:
        """The pipe of replies behind its greeting, and that. What comes before it was meant for the connection
        before; where the pipe ends without it, it is opened again."""
        while True:
            pipe = self.opened(path, os.O_RDONLY)
            try:
                while True:
                    if found := Greeting.of(self.line_of(pipe, self.left)):
                        return pipe, found
            except Broken:
                os.close(pipe)
                self.came = b''
            except BaseException:
                os.close(pipe)
                raise

    def line_of(self, pipe: int, left: Callable[[], float | None]) -> bytes:
        """The next whole line of the pipe, with its line feed. Raises Broken where it ends."""
        while b'\n' not in self.came:
            select.select([pipe], [], [], left())
            try:
                piece = os.read(pipe, PIECE)
            except BlockingIOError:
                left()
                continue
            if not piece:
                raise Broken
            self.came += piece
        line, _, self.came = self.came.partition(b'\n')
        return line + b'\n'

    def send(self, data: bytes) -> None:
        while data:
            try:
                data = data[os.write(self.commands, data):]
            except BrokenPipeError:
                raise Broken from None

    def read(self) -> bytes:
        """The next line. A greeting begins another connection, which `open` goes on with."""
        line = self.line_of(self.replies, lambda: None)
        if found := Greeting.of(line):
            self.greeting = found
            raise Broken
        return line

    def ask(self, line: bytes) -> bytes:
        """The reply to a line."""
        self.send(line + b'\n')
        return self.read()

    def close(self, both: bool = True) -> None:
        """Closes the pipe of commands, and that of replies."""
        if self.commands >= 0:
            os.close(self.commands)
            self.commands = -1
        if both and self.replies >= 0:
            os.close(self.replies)
            self.replies = -1


class Folder:
    """Lines to a service and its answers, as texts; where the connection breaks, it comes again when the service does.

    Each line is sent behind the answer to the one before, since a command waits for a sync of its own in any case. The new
    connection tells how many entries the client has: whether the line without an answer stands, then its answer is
    `lost: LINE`, or is sent again. `greeted` is called with the number of entries at each connection.
    """

    def __init__(self, path: str, wait: float = 0, greeted: Callable[[int], None] = lambda entries: None):
        self.path, self.wait, self.greeted = path, wait, greeted
        self.entries = 0
        self.begun: list[str] = []
        self.connection: Connection | None = None

    def begin(self, told: int | None = None) -> None:
        self.connection = Connection(self.path, self.wait)
        self.entries = self.connection.entries
        self.greeted(self.entries)

    def answers(self, lines: Sequence[str]) -> list[str]:
        return [self.answer(line) for line in lines]

    def answer(self, line: str) -> str:
        while True:
            assert self.connection
            try:
                text = self.connection.ask(line.encode('latin-1'))[:-1].decode('latin-1')
                self.entries += is_entry(unplaced(text)[2])
                return text
            except Broken:
                if self.come_again():
                    return f'lost: {line}'

    def come_again(self) -> bool:
        """Whether the line that was sent last stands."""
        assert self.connection
        self.connection.open(self.wait)
        self.greeted(self.connection.entries)
        more = self.connection.entries - self.entries
        if more not in (0, 1):
            raise SessionError(f'{self.connection.entries} entries, where {self.entries} or one more were due')
        self.entries += more
        return more == 1

    def take_told(self) -> list[Told]:
        return []

    def end(self) -> bytes:
        self.drop()
        return b''

    def status(self) -> int:
        return 0

    def drop(self) -> None:
        if self.connection:
            self.connection.close()
            self.connection = None
