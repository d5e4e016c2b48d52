"""A file that another program appends to."""
from __future__ import annotations

import os

MARK = 64    # bytes before the place up to which it was read, which must still be there


class Tail:
    """The whole lines that a file has got since the last look.

    A line without its LF waits for it, and with `end` so does a last line `end ..`: a run that is resumed cuts both off.
    """

    def __init__(self, path: str, end: bool = False):
        self.path, self.end = path, end
        self.at, self.mark, self.file = 0, b'', (0, 0)
        self.ended = False    # a line `end ..` stands last
        self.is_there = False

    def look(self) -> list[bytes] | None:
        """New lines; None where the file is another one than it was, or was cut before what was read of it."""
        try:
            with open(self.path, 'rb') as file:
                found = os.fstat(file.fileno())
                same = (found.st_dev, found.st_ino)
                file.seek(self.at - len(self.mark))
                if self.is_there and (same != self.file or file.read(len(self.mark)) != self.mark):
                    return None
                self.file, self.is_there = same, True
                return self.lines(file.read())
        except FileNotFoundError:
            return None if self.is_there else []

    def lines(self, data: bytes) -> list[bytes]:
        *whole, _ = data.split(b'\n')
        self.ended = self.end and bool(whole) and whole[-1].startswith(b'end ')
        if self.ended:
            whole.pop()
        size = sum(map(len, whole)) + len(whole)
        self.at += size
        self.mark = (self.mark + data[:size])[-MARK:]
        return whole
