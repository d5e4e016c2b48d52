"""Which run goes on. Where a vehicle is lost, the VDA 5050 adapter ends one run (LOG) and begins the next where vehicles stand (LOG.2, LOG.3, ..);
and a log may be continued by another one, which begins with the state that the run had then."""
from __future__ import annotations

import hashlib
import json
import os
from typing import Iterator, Sequence

from ..texts import Fault, Front, Instance, read_front
from ..vda5050.book import Opening, opening_of
from ..vda5050.opening import instance_of
from .follow import Follower
from .tail import Tail


def continues(front: Front, log: str) -> bool:
    """Whether a state is one that this log had: its bytes up to there have that sum."""
    try:
        with open(log, 'rb') as file:
            text = file.read(front.size)
    except OSError:
        return False
    return len(text) == front.size and hashlib.sha256(text).hexdigest() == front.sum


class Runs:
    """The runs of an instance. The adapter's list LOG.keys says which goes on; without one it is the first, up to the last of its logs that is there."""

    def __init__(self, instance: Instance, title: str, log: str, ahead: int, later: Sequence[str] = ()):
        self.base, self.title, self.log, self.ahead = instance, title, log, ahead
        self.keys, self.opening = Tail(log + '.keys'), Opening()
        self.later = list(later)    # logs that continue it one after the other, and have not begun yet
        self.number, self.wrong = 1, ''
        self.floor: Follower | None = None    # that follows the last of them that has begun

    def follower(self) -> Follower:
        """Of the run that goes on."""
        number = self.opening.number
        if number == 1:
            floor = Follower(self.base, self.title if self.number == 1 else f'{self.title}, {os.path.basename(self.log)}', self.log, self.ahead)
            floor.wrong, self.floor = self.wrong, floor
            return floor
        floor = Follower(instance_of(self.base, self.opening), f'{self.title}, run {number}', f'{self.log}.{number}', self.ahead)
        floor.out = self.opening.out
        return floor

    def look(self) -> Follower | None:
        """The run that goes on, where it is another one than at the last look."""
        before = self.opening.number, self.number
        for _ in self.each():
            pass
        while self.later and self.has_begun(self.later[0]):
            self.log, self.number = self.later.pop(0), self.number + 1
        return self.follower() if (self.opening.number, self.number) != before else None

    def has_begun(self, name: str) -> bool:
        """Whether this log, which is to continue the one that goes on, has its state."""
        if self.floor:
            self.floor.wrong = self.wrong
        try:
            with open(name, 'rb') as file:
                run = read_front(self.base, name, file)
                file.seek(0)
                head = [file.readline() for _ in range(2)]
        except OSError:    # it comes later
            return False
        except Fault:      # the page says so once it follows it
            self.wrong = ''
            return True
        if run is None or run.front is None:
            if self.floor and head[1].endswith(b'\n') and not head[1].startswith(b'after '):
                self.floor.wrong = f'{name} begins with no state'
            return False
        self.wrong = '' if continues(run.front, self.log) else f'{name} does not continue {self.log}'
        return True

    def each(self) -> Iterator[Follower]:
        """The runs that the list has got since the last look, one after the other."""
        try:
            lines = self.keys.look()
        except OSError:    # it may be another user's
            return
        if lines is None:    # another list
            self.keys, self.opening, lines = Tail(self.keys.path), Opening(), []
        for line in lines:
            if line.startswith(b'{"run":'):
                self.opening = opening_of(json.loads(line))
                yield self.follower()
