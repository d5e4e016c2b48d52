"""A program behind two pipes: what it writes is read while it is written to, so that neither side waits for the other."""
from __future__ import annotations

import os
import select
import subprocess
from typing import Sequence

PIECE = 65536
MOST_IN_REPLY = 1 << 26    # bytes, some six million cells
ENDING = 10                # seconds that a program has to end once its input is closed


class SessionError(Exception):
    """The run cannot go on; the sentence says why."""


class NoProgram(SessionError):
    """There is no such program, or it cannot be run."""


class CoreDied(SessionError):
    """The program ended before each line had its answer, with this exit status."""

    def __init__(self, message: str, status: int):
        super().__init__(message)
        self.status = status


def was_killed(status: int) -> bool:
    """Whether somebody ended a program by signal 9 or 15, or the program behind a shell: a fault of its own ends otherwise."""
    return status in (-9, -15, 128 + 9, 128 + 15)


class Process:
    """A program's life, or several: `start` begins the next one. `wait` is how many seconds may pass without a byte (None: any)."""

    def __init__(self, words: Sequence[str], wait: float | None = None):
        self.words, self.wait = list(words), wait
        self.child: subprocess.Popen[bytes] | None = None

    def start(self, more: Sequence[str] = ()) -> None:
        """Starts the program with its words and these. Raises NoProgram where there is none."""
        try:
            self.child = subprocess.Popen([*self.words, *more], stdin=subprocess.PIPE, stdout=subprocess.PIPE, bufsize=0)
        except OSError as error:
            raise NoProgram(f'{self.words[0]}: {error.strerror}') from None
        assert self.child.stdin and self.child.stdout
        self.to, self.back = self.child.stdin.fileno(), self.child.stdout.fileno()
        os.set_blocking(self.to, False)
        os.set_blocking(self.back, False)
        self.lines: list[str] = []    # read, and not taken yet
        self.rest = bytearray()       # the beginning of the next one
        self.ended = False            # its output has ended
        self.deaf = False             # it takes no more

    @property
    def number(self) -> int:
        """The operating system's number of the process."""
        return self.child.pid if self.child else 0

    def turn(self, left: memoryview) -> memoryview:
        """Reads or writes a piece, whichever can be first; what is left to write then."""
        wait = self.wait if not self.deaf else ENDING if self.wait is None else min(self.wait, ENDING)
        readable, writable, _ = select.select([self.back], [self.to] if left else [], [], wait)
        if not readable and not writable:
            raise SessionError(f'nothing came from the program for {wait:g} seconds')
        if readable:
            piece = os.read(self.back, PIECE)
            self.ended = not piece
            *whole, last = piece.split(b'\n')
            if whole:
                self.rest += whole[0]
                self.lines += [bytes(self.rest).decode('latin-1'), *(line.decode('latin-1') for line in whole[1:])]
                self.rest.clear()
            self.rest += last
        if writable:
            try:
                return left[os.write(self.to, left[:PIECE]):]
            except BrokenPipeError:
                # what it still had to say can be read; it says no more than that
                self.deaf = True
                return left[:0]
        return left

    def exchange(self, data: bytes, count: int = 0, last: str | None = None, more: bool = False) -> list[str]:
        """Writes all, and reads so many lines, or up to the line `last`; fewer where its output ends before. `more` says that
        further lines may come by themselves, which are left for the next call."""
        left = memoryview(data)
        while (left or not self.has(count, last)) and not self.ended:
            left = self.turn(left)
            most = 2 * PIECE if self.has(count, last) else MOST_IN_REPLY
            if (last is None and not more and len(self.lines) > count) or len(self.rest) > most:
                raise SessionError(f'the program says more than it was asked: {self.first()[:40]!r}')
        taken = count if more else len(self.lines)
        lines, self.lines = self.lines[:taken], self.lines[taken:]
        if not more:
            self.rest.clear()
        return lines

    def has(self, count: int, last: str | None) -> bool:
        """Whether all that is waited for has come."""
        return len(self.lines) >= count if last is None else self.lines[-1:] == [last]

    def first(self) -> bytes:
        """The beginning of what came and was not taken."""
        return '\n'.join([*self.lines[:41], bytes(self.rest[:41]).decode('latin-1')]).encode('latin-1')

    def end(self) -> bytes:
        """Closes its input; what it writes then, up to its own end."""
        assert self.child and self.child.stdin
        self.child.stdin.close()
        while not self.ended:
            self.turn(memoryview(b''))
        return ''.join(line + '\n' for line in self.lines).encode('latin-1') + bytes(self.rest)

    def status(self) -> int:
        """Its exit status, once its output has ended. Raises SessionError where it does not end."""
        assert self.child
        try:
            return self.child.wait(ENDING)
        except subprocess.TimeoutExpired:
            raise SessionError('the program closed its output and did not end') from None

    def drop(self) -> None:
        """Ends it where it has not ended by itself."""
        if self.child is None:
            return
        if self.child.poll() is None:
            self.child.kill()
        self.child.wait()
        for pipe in (self.child.stdin, self.child.stdout):
            if pipe:
                pipe.close()
