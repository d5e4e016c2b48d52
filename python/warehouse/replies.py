"""What the program answers and tells, as values: `reply_of` reads a reply, `str` of a value is its text again.

    match core.token(0):
        case Took(task, cells): ..         # the agent is at cells[k] at clock + k, and stays at the last one
        case Parked(point, cells): ..      # it makes way
        case Rested(): ..                  # nothing to do for it until an order or another agent's path comes
        case Refused('E5', (steps,)): ..   # asked too early
"""
from __future__ import annotations

import re
from dataclasses import dataclass
from typing import Callable, ClassVar, Union

from .refusals import SENTENCES
from .texts import Cell, number_of

FORMS = ('short', 'full', 'placed')    # of --replies
WITHOUT_ENTRY = ('C1', 'C2', 'C3', 'E11', 'E90', 'E91', 'E95', 'V1', 'V2', 'V3')    # refused, and no entry of the history
PLACED = re.compile(r'([0-9]{1,9}) ([0-9]{1,10}) (.*)')
NUMBERED = ('E4', 'E5', 'V1', 'V2', 'V3')    # whose words are numbers; those of others are names


class NotAReply(Exception):
    """What came is none of the program's replies."""


def ending(cells: tuple[Cell, ...], steps: int) -> str:
    """The last words of a path."""
    return 'path ' + ' '.join(f'{x},{y}' for x, y in cells) if cells else f'end {steps}'


class Text:
    """A value whose text is its FORM, with its fields in it."""
    FORM: ClassVar[str]

    def __str__(self) -> str:
        return self.FORM.format(**vars(self))


@dataclass(frozen=True)
class Accepted(Text):
    """To submit: the order is task `task`; tasks are numbered from 0."""
    FORM = 'accepted {task}'
    task: int


@dataclass(frozen=True)
class Took:
    """To token: the agent serves the task along these cells, one a tick from now on, the first where it stands.

    Where replies are short the cells are not told, and `cells` is (); `steps` is always the path's last index.
    """
    task: int
    cells: tuple[Cell, ...]
    steps: int

    def __str__(self) -> str:
        return f'took {self.task} {ending(self.cells, self.steps)}'


@dataclass(frozen=True)
class Parked:
    """To token: the agent has no task, and makes way along these cells to the point of that name; else as `Took`."""
    point: str
    cells: tuple[Cell, ...]
    steps: int

    def __str__(self) -> str:
        return f'parked {self.point} {ending(self.cells, self.steps)}'


@dataclass(frozen=True)
class Rested(Text):
    """To token: the same answer comes until an order is accepted or another agent gets a path."""
    FORM = 'rested'


@dataclass(frozen=True)
class Clock(Text):
    """To tick: the clock is `now`; so many tasks had their first, and so many their last visit by this step."""
    FORM = 'clock {now} picked {picked} dropped {dropped}'
    now: int
    picked: int
    dropped: int


@dataclass(frozen=True)
class Arrived(Text):
    """To at: the report stands, also where it was known before."""
    FORM = 'arrived {agent} {step}'
    agent: int
    step: int


@dataclass(frozen=True)
class Replaced(Text):
    """To replace: the agent has another planner, of so many slots."""
    FORM = 'replaced {slots}'
    slots: int


@dataclass(frozen=True)
class Closed(Text):
    """To close: nothing changes any more."""
    FORM = 'closed'


@dataclass(frozen=True)
class Stopped(Text):
    """To stop: the service takes no command any more, what it took is kept, and a next start goes on from it."""
    FORM = 'stopped'


@dataclass(frozen=True)
class Refused:
    """Nothing has changed. `words` are what the refusal names: numbers of E4, E5 and V1 to V3, a name of E1 and E2."""
    code: str
    words: tuple[Union[str, int], ...] = ()

    @property
    def sentence(self) -> str:
        """What the code means, in a sentence."""
        return SENTENCES.get(self.code, 'no message of the program is known to me in this')

    def __str__(self) -> str:
        return ' '.join(['refused', self.code, *map(str, self.words)])


@dataclass(frozen=True)
class Lost(Text):
    """The command was served, and the connection broke before its reply: that stands in the service's log."""
    FORM = 'lost: {line}'
    line: str


@dataclass(frozen=True)
class Go:
    """Told, behind any reply: the vehicle may set out for that cell, which is its step `step`."""
    agent: int
    step: int
    cell: Cell

    def __str__(self) -> str:
        return f'go {self.agent} {self.step} {self.cell[0]},{self.cell[1]}'


@dataclass(frozen=True)
class Visited(Text):
    """Told, behind any reply: the vehicle has come to stop `visit` of the task, from 0."""
    FORM = 'visited {agent} {task} {visit}'
    agent: int
    task: int
    visit: int


Reply = Union[Accepted, Took, Parked, Rested, Clock, Arrived, Replaced, Closed, Stopped, Refused, Lost]
Told = Union[Go, Visited]


@dataclass(frozen=True)
class Entry:
    """An entry of the history: its place from 0, the client that caused it, its command and its reply."""
    place: int
    caller: int
    command: str
    reply: Reply


def is_entry(text: str) -> bool:
    """Whether a reply, without place and clock, is that of an entry of the history."""
    words = text.split(' ', 2)
    return words[0] not in ('arrived', 'stopped') and not (words[0] == 'refused' and words[1:2] and words[1] in WITHOUT_ENTRY)


def unplaced(text: str) -> tuple[int | None, int | None, str]:
    """Place, clock and the rest of a reply under `placed`; a reply with no entry has neither."""
    found = PLACED.fullmatch(text)
    return (int(found[1]), int(found[2]), found[3]) if found else (None, None, text)


def number(word: str) -> int:
    value = number_of(word)
    if value is None:
        raise ValueError
    return value


def cell(word: str) -> Cell:
    x, y = word.split(',')
    return number(x), number(y)


def path(words: list[str]) -> tuple[tuple[Cell, ...], int]:
    """The cells, or none, and the last index."""
    match words:
        case ['end', steps]:
            return (), number(steps)
        case ['path', _, *_]:
            cells = tuple(cell(word) for word in words[1:])
            return cells, len(cells) - 1
    raise ValueError


def refusal(words: list[str]) -> Refused:
    code, *rest = words
    return Refused(code, tuple(int(word) if code in NUMBERED else word for word in rest))


READERS: dict[str, Callable[[list[str]], Reply]] = {
    'accepted': lambda words: Accepted(*map(number, words)),
    'took': lambda words: Took(number(words[0]), *path(words[1:])),
    'parked': lambda words: Parked(words[0], *path(words[1:])),
    'rested': lambda words: Rested(*words),
    'clock': lambda words: Clock(number(words[0]), number(words[2]), number(words[4])),
    'arrived': lambda words: Arrived(*map(number, words)),
    'replaced': lambda words: Replaced(*map(number, words)),
    'closed': lambda words: Closed(*words),
    'stopped': lambda words: Stopped(*words),
    'refused': refusal,
}


def reply_of(text: str) -> Reply:
    """The reply of that text, without place and clock. Raises NotAReply."""
    word, *words = text.split(' ')
    try:
        reply = READERS[word](words)
    except (KeyError, ValueError, TypeError, IndexError):
        raise NotAReply(text) from None
    if str(reply) != text:    # one text for each reply
        raise NotAReply(text)
    return reply


def told_of(text: str) -> Told | None:
    """What a line `go ..` or `visited ..` tells, None for any other line. Raises NotAReply."""
    word, *words = text.split(' ')
    try:
        match word, words:
            case 'go', [agent, step, at]:
                return Go(number(agent), number(step), cell(at))
            case 'visited', [agent, task, visit]:
                return Visited(number(agent), number(task), number(visit))
    except ValueError:
        pass
    if word in ('go', 'visited'):
        raise NotAReply(text)
    return None


def without_cells(reply: Reply) -> Reply:
    """The reply as `--replies short` tells it."""
    match reply:
        case Took(task, _, steps):
            return Took(task, (), steps)
        case Parked(point, _, steps):
            return Parked(point, (), steps)
    return reply
