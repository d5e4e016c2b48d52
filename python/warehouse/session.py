"""A session with the program: commands in, typed replies out.

    with Session('floor', log='run.log', vehicles=Vehicles(behind=8, ahead=4)) as core:
        core.submit('anna', 'A', 'C')       # Accepted(task=0)
        core.token(0)                       # Took(task=0, cells=((0, 1), ..), steps=6)
        core.tick()                         # Clock(now=1, picked=0, dropped=0)
        core.at(0, 3)                       # Arrived(agent=0, step=3)
        core.take_told()                    # [Go(..), Visited(..), ..], each once

With `log` the program keeps the run in that file. If it dies it is started again, and the session goes on with nothing
sent twice; `restarts` has what happened. A session over a log that has a run goes on with that run, and `begun` has its
entries. Without `log` a program that died is `CoreDied`.
"""
from __future__ import annotations

import os
from dataclasses import dataclass
from types import TracebackType
from typing import Iterable, Protocol, Sequence, Union

from .folder import Folder
from .pipe import Pipe, Restart, shortened
from .process import CoreDied, Process, SessionError
from .replies import FORMS, Clock, Entry, Go, Lost, NotAReply, Parked, Reply, Told, Took, Visited, is_entry, reply_of, unplaced
from .texts import Fault, Instance, Run, read_file, read_front, read_instance

ENDS = ('stops', 'homes')
ROOT = os.path.dirname(os.path.dirname(os.path.dirname(os.path.abspath(__file__))))


class WrongReply(SessionError):
    """What came is no reply to the line."""

    def __init__(self, line: str, text: str):
        super().__init__(f'`{shortened(text)}` is no reply to `{line}`')
        self.line, self.text = line, text


@dataclass(frozen=True)
class Vehicles:
    """That vehicles are late: how many steps behind before the clock waits, and how many steps ahead each is told."""
    behind: int = 8
    ahead: int = 1

    @property
    def words(self) -> list[str]:
        return ['--vehicles', '--behind', str(self.behind), '--ahead', str(self.ahead)]


class Carrier(Protocol):
    """What carries lines to the program, and their answers back."""
    begun: list[str]

    @property
    def entries(self) -> int: ...
    def begin(self, told: int | None) -> None: ...
    def answers(self, lines: Sequence[str]) -> list[str]: ...
    def take_told(self) -> list[Told]: ...
    def end(self) -> bytes: ...
    def status(self) -> int: ...
    def drop(self) -> None: ...


def program() -> str:
    """The program that is run: of the environment's WAREHOUSE, or the launcher at the repository's top, or on the PATH."""
    if named := os.environ.get('WAREHOUSE'):
        return named
    launcher = os.path.join(ROOT, 'warehouse')
    return launcher if os.path.isfile(launcher) else 'warehouse'


class Session:
    """The program behind a carrier. `with` ends it: its input is closed, or it is killed where an exception leaves.

    instance  an instance, or the file of one; what stands behind its points is not looked at
    program   the program, or its words before `replay`; the environment's WAREHOUSE names another than the repository's
    log       the file in which the program keeps the run
    vehicles  that vehicles are late; then the points need `rule nofollow`, and `at` may be sent
    told      with a log: from which entry on `begun` has the run's entries (0: all that the log has; None: none)
    replies   how the program writes its replies, of FORMS
    ends      where paths end: `stops`, or `homes`, which short replies do not go with (SessionError): cells tell when an agent is due
    options   more words for `replay`
    wait      seconds that may pass without a byte of an answer; with a folder, seconds to a connection (None: any)
    folder    a client's folder in place of a program: the service's `--replies` is `replies` here
    process   a program whose words are complete, but for those of the log

    Raises Fault for an instance that cannot be read, SessionError where the session does not begin.
    """

    def __init__(self, instance: Union[Instance, str], program: Union[str, Sequence[str], None] = None, *, log: str | None = None,
                 vehicles: Vehicles | None = None, told: int | None = 0, replies: str = 'placed', ends: str = 'stops',
                 options: Iterable[str] = (), wait: float | None = None, folder: str | None = None, process: Process | None = None):
        assert replies in FORMS and ends in ENDS, (replies, ends)
        self.instance = instance if isinstance(instance, Instance) else read_instance(instance, read_file(instance))
        if vehicles and not self.instance.nofollow:
            raise SessionError('the points have no line `rule nofollow`, which late vehicles need')
        if ends == 'homes' and replies == 'short':
            raise SessionError('short replies do not tell when an agent is due, which is needed where paths go on to `homes`')
        self.form = replies
        self.place = self.clock = 0       # how many entries, and which clock, by the replies that came
        self.restarts: list[Restart] = []
        self.tail = b''                   # what the program wrote behind its replies, once it was ended
        self.went: dict[int, int] = {}    # of each agent the last step that it was told
        self.made: dict[int, int] = {}    # of each task how many visits were told
        self.ended = False
        if folder is not None:
            self.carrier: Carrier = Folder(folder, wait or 0)
        else:
            words = [*words_of(program), 'replay', '--replies', replies, *ends_words(ends), *options, *(vehicles.words if vehicles else [])]
            pipe = Pipe(process or Process(words, wait), self.instance.text, replies, log, vehicles is not None)
            self.carrier, self.restarts = pipe, pipe.restarts
        # the state with which the run of a log begins that is at hand, None where it is an opening: its entries come after it
        self.state = None if log is None else state_in(self.instance, log)
        if self.state is not None:
            self.clock, told = self.state.clock, None if told is None else max(told, self.state.earlier)
        self.begun = self.begin(told or 0, told)

    def begin(self, first: int, told: int | None) -> list[Entry]:
        """Begins; the entries that are told again, the first of them at that place."""
        try:
            self.carrier.begin(told)
            begun = [self.entry_of(place, text) for place, text in enumerate(self.carrier.begun, first)]
        except BaseException:
            self.carrier.drop()
            raise
        self.place = self.carrier.entries
        return begun

    # ---- the commands

    def submit(self, client: str, *stops: str) -> Reply:
        """An order of 2 to 8 stations. Answered Accepted or Refused."""
        return self.ask(f'submit {client} {" ".join(stops)}')

    def token(self, agent: int) -> Reply:
        """The agent, which is due, asks for something to do. Answered Took, Parked, Rested or Refused."""
        return self.ask(f'token {agent}')

    def tick(self) -> Reply:
        """The clock goes on by 1. Answered Clock, or Refused: V1 where a vehicle is too far behind."""
        return self.ask('tick')

    def at(self, agent: int, step: int) -> Reply:
        """With vehicles: this one is wholly in the cell of that step. Answered Arrived, or Refused V2, V3."""
        return self.ask(f'at {agent} {step}')

    def replace(self, agent: int) -> Reply:
        """The agent gets a spare planner. Answered Replaced or Refused."""
        return self.ask(f'replace {agent}')

    def close(self) -> Reply:
        """Nothing changes any more. Answered Closed or Refused. It ends no program: `end` does."""
        return self.ask('close')

    def stop(self) -> Reply:
        """Over a folder, by the right `stop`: the service ends, and a next start goes on. Answered Stopped, or Refused C3."""
        return self.ask('stop')

    def ask(self, line: str) -> Reply:
        """The reply to one line."""
        return self.ask_all([line])[0]

    def ask_all(self, lines: Sequence[str]) -> list[Reply]:
        """The replies to lines that are written at once: with a log they share a sync. Each is one command or report.

        Raises CoreDied where the program died and cannot be gone on with, WrongReply, SessionError.
        """
        for line in lines:
            if not line.strip() or line.lstrip().startswith('#') or '\n' in line:
                raise SessionError(f'`{shortened(line)}` is no line that has a reply')
        return [self.reply_to(line, text) for line, text in zip(lines, self.carrier.answers(lines))]

    def reply_to(self, line: str, text: str) -> Reply:
        """The reply of that text, which is taken in."""
        place, clock, rest = unplaced(text)
        try:
            reply: Reply = Lost(line) if text == f'lost: {line}' else reply_of(rest)
        except NotAReply:
            raise WrongReply(line, text) from None
        if isinstance(reply, (Took, Parked)) and bool(reply.cells) == (self.form == 'short'):
            if reply.cells:
                raise WrongReply(line, text)
            raise SessionError(f'`{shortened(text)}` came to `{line}`, and tells no cells: see --replies short')
        self.place = place + 1 if place is not None else self.place + is_entry(rest)
        self.clock = reply.now if isinstance(reply, Clock) else self.clock if clock is None else clock
        return reply

    def entry_of(self, place: int, text: str) -> Entry:
        """An entry that was told again."""
        event, _, reply = text.partition(' = ')
        caller, _, command = event.partition(' ')
        try:
            entry = Entry(place, int(caller), command, reply_of(reply))
        except (ValueError, NotAReply):
            raise WrongReply('--told', text) from None
        if isinstance(entry.reply, Clock):
            self.clock = entry.reply.now
        return entry

    # ---- vehicles

    def take_told(self) -> list[Told]:
        """What vehicles were told since the last call, each step and each visit once, in order."""
        return [one for one in self.carrier.take_told() if self.is_new(one)]

    def is_new(self, one: Told) -> bool:
        """Whether it was not told before; it is now."""
        match one:
            case Go(agent, step, _):
                new, self.went[agent] = step > self.went.get(agent, 0), max(step, self.went.get(agent, 0))
            case Visited(_, task, visit):
                new, self.made[task] = visit >= self.made.get(task, 0), max(visit + 1, self.made.get(task, 0))
        return new

    # ---- its end

    def end(self) -> int:
        """Ends the input, and waits for the program; its exit status. What it wrote then is in `tail`."""
        if not self.ended:
            self.ended, self.tail = True, self.carrier.end()
        return self.carrier.status()

    def kill(self) -> None:
        """Ends the program where it runs still; the session is over."""
        self.ended = True
        self.carrier.drop()

    def __enter__(self) -> Session:
        return self

    def __exit__(self, kind: type[BaseException] | None, error: BaseException | None, trace: TracebackType | None) -> None:
        try:
            if kind is None:
                self.end()
        finally:
            self.kill()


def state_in(instance: Instance, log: str) -> Run | None:
    """The state with which a log begins that is at hand. Of one that cannot be read, or is another instance's, the program has the word."""
    try:
        with open(log, 'rb') as file:
            return read_front(instance, log, file)
    except (OSError, Fault):
        return None


def ends_words(ends: str) -> list[str]:
    """The program's words for where paths end."""
    return [] if ends == 'stops' else ['--ends', ends]


def words_of(named: Union[str, Sequence[str], None]) -> list[str]:
    """The words of a program."""
    return [program()] if named is None else [named] if isinstance(named, str) else list(named)


__all__ = ['CoreDied', 'Restart', 'Session', 'SessionError', 'Vehicles', 'WrongReply', 'program']
