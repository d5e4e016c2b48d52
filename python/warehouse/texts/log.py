"""Logs: what a run was, by its log alone. One reader, which also takes entries as they are told.

A log tells the path that each agent takes, and not when a stop is visited: arrivals are redone here from paths and
stops. An agent takes another path when it has gone to the end of its own; or, in a run with `--ends homes`, on its way
home, where the new path takes the place of the rest. The paths themselves tell which of the two a run is, or the front of its log.
A log of version 3 may begin with a front, the state with which its run begins (`front`): then tasks may have an agent and visits, and an
agent that stands with its task takes it again by a path through the stops that are left.
Whatever cannot be read, or does not fit the instance, is a `Fault` with the file and its line.
"""
from __future__ import annotations

import bisect
import re
from typing import Any, Iterable

from .front import FrontReader
from .instance import Cell, Instance
from .lines import Fault, number_of
from .run import OTHER_PAIR, Path, Run, Task, along

MOST_CALLER = 63
KINDS = ('submit', 'token', 'tick', 'close', 'replace')


def log_text(name: str, data: bytes) -> tuple[int, bytes]:
    """The log in what was given, where replies or an instance and a line `%%` may stand before it; and the lines before."""
    begin = re.search(rb'(?:\A|(?:\A|\n)%%\r?\n)(?=wlog )', data)
    if begin is None:
        raise Fault('no log is in it: a line `wlog 1`, `wlog 2` or `wlog 3` comes first, or behind a line `%%`', name)
    return data.count(b'\n', 0, begin.end()), data[begin.end():]


def read_log(instance: Instance, name: str, data: bytes) -> Run:
    """The run of a log, or of what `replay --tail log` printed. Raises Fault."""
    before, text = log_text(name, data)
    lines = text.decode('latin-1').split('\n')
    torn = lines.pop() != ''    # a last line without its end is dropped: the log was cut in it
    reader = Reader(Run(instance), name, before)
    for line in lines:
        reader.line += 1
        reader.read(line)
    if not reader.has_begun:
        raise Fault('the log is cut before its entries begin', name, reader.line + 1)
    return reader.finish(torn)


def read_front(instance: Instance, name: str, lines: Iterable[bytes]) -> Run | None:
    """The state with which a log of these lines begins, with the visits to which its paths lead; None where it begins with none. Raises Fault."""
    reader = Reader(Run(instance), name, 0)
    for number, line in enumerate(lines, 1):
        if not line.endswith(b'\n') or number == 1 and line != b'wlog 3\n' or number == 2 and not line.startswith(b'after '):
            return None
        reader.line = number
        reader.read(line.decode('latin-1')[:-1])
        if reader.has_begun:
            return reader.run
    return None


class Reader:
    """Reads a log line by line, from the line behind `line` of its file."""

    def __init__(self, run: Run, name: str, line: int):
        self.run, self.name, self.line = run, name, line
        self.first = line + 1
        self.front: FrontReader | None = None
        self.has_begun = self.ended = False        # behind the lines before the entries; behind the last line
        self.grown: list[int] = []                 # tasks with more visits to come than before, in order
        self.events: list[tuple[Any, ...]] = []    # with keys in front that sort them
        self.known: dict[str, Cell] = {}           # passable cells by their words

    def fault(self, words: str) -> Fault:
        return Fault(words, self.name, self.line)

    def read(self, line: str) -> None:
        if self.line == self.first:
            if line not in ('wlog 1', 'wlog 2', 'wlog 3'):
                raise self.fault('a log begins with `wlog 1`, `wlog 2` or `wlog 3`')
            self.run.version = int(line[-1])
        elif not self.has_begun:
            self.open(line)
        elif self.ended:
            raise self.fault('the log has ended before')
        elif line.startswith('end '):
            if line != f'end {self.run.entries}':
                raise self.fault(f'`{line[:40]}` stands behind {self.run.entries} entries')
            self.ended = True
        else:
            self.entry(line)

    def open(self, line: str) -> None:
        """Takes a line before the entries: the second one, or one of a front."""
        words = line.split(' ')
        if self.front is None and not (self.run.version == 3 and words[0] == 'after'):
            return self.start(words)
        if self.front is None:
            self.front = FrontReader(self.run, self.fault, self.new_cells)
        self.front.read(line)
        if self.front.is_done:
            self.has_begun = True
            self.grown += [number for number, task in enumerate(self.run.tasks) if len(task.visits) > task.before]
            self.note(0, 'began', self.run.earlier)
            for number, task in enumerate(self.run.tasks):
                if task.held and not task.done_before:
                    self.note(0, 'kept', number, task.before)

    def start(self, words: list[str]) -> None:
        run = self.run
        start = number_of(words[1]) if words[0] == 'start' and words[2:3] == ['slots'] else None
        if start is None:
            raise self.fault('`start CLOCK slots N0 N1 ..` is due here')
        agents = len(run.instance.starts)
        if len(words) - 3 != agents:
            raise self.fault(f'the log has {len(words) - 3} agents, the instance {agents}; {OTHER_PAIR}')
        run.start = run.clock = start
        run.paths = [[Path(start, [run.instance.points[point].cell], point=point)] for point in run.instance.starts]
        self.has_begun = True

    def entry(self, line: str) -> None:
        """Takes `CALLER COMMAND = REPLY`, a path told by all its cells."""
        left, equals, right = line.partition(' = ')
        event, reply = left.split(' '), right.split(' ')
        caller = number_of(event[0], MOST_CALLER)
        if caller is None or not equals or len(event) < 2:
            raise self.fault(f'`{line[:60]}` is no entry of a log')
        self.run.entries += 1
        take = getattr(self, 'on_' + event[1]) if event[1] in KINDS else None
        if take is None or not take(caller, event[2:], reply):
            raise self.fault(f'`{line[:60]}` is no entry of a log')

    def note(self, caller: int, *event: Any) -> None:
        clock = self.run.clock
        self.events.append((clock, 1, len(self.events), clock, caller) + event)

    # Each of these takes an event's words and its reply's, and says whether they are of the format.

    def on_submit(self, caller: int, words: list[str], reply: list[str]) -> bool:
        run, (client, *names) = self.run, words or ['']
        if not 2 <= len(names) <= 8:
            return False
        if reply[0] == 'refused':
            self.note(caller, 'refused', f'{client} hands in {" ".join(names)}', ' '.join(reply[1:]))
            return True
        if reply != ['accepted', str(len(run.tasks))]:
            return False
        for name in names:
            if not run.instance.is_station(name):
                raise self.fault(f'the instance has no station {name}; {OTHER_PAIR}')
        run.tasks.append(Task(client, [run.instance.by_name[name] for name in names], run.clock))
        self.note(caller, 'submit', len(run.tasks) - 1)
        return True

    def on_token(self, caller: int, words: list[str], reply: list[str]) -> bool:
        run, agent = self.run, number_of(words[0]) if len(words) == 1 else None
        if agent is None:
            return False
        if reply[0] == 'refused':
            run.answers[reply[1] if len(reply) > 1 else ''] += 1
            if reply[1:2] != ['E5']:
                self.note(caller, 'refused', f'agent {agent} asks for the token', ' '.join(reply[1:]))
            return True
        if reply[0] not in ('rested', 'took', 'parked'):
            return False
        run.answers[reply[0]] += 1
        if agent >= len(run.paths):
            raise self.fault(f'there is no agent {agent}; {OTHER_PAIR}')
        path = run.paths[agent][-1]
        if path.free > run.clock:
            raise self.fault(f'agent {agent} is answered {reply[0]}, and due in {path.free - run.clock} ticks')
        if reply[0] == 'rested':
            if agent in run.halted:
                raise self.fault(f'agent {agent} is answered rested, and has task {run.halted[agent]}')
            return len(reply) == 1
        if len(reply) < 4 or reply[2] != 'path':
            return False
        self.adopt(caller, agent, reply, self.cells(agent, reply[3:], path.at(run.clock)))
        return True

    def cells(self, agent: int, words: list[str], stands: Cell) -> list[Cell]:
        """The cells of a path that begins where the agent stands."""
        known = self.known
        cells = [cell for word in words if (cell := known.get(word))]
        if len(cells) < len(words) or any(abs(x - u) + abs(y - v) > 1 for (x, y), (u, v) in zip(cells, cells[1:])):
            cells = self.new_cells(agent, words)
        if cells[0] != stands:
            raise self.fault(f'the path of agent {agent} begins at {words[0]}, and it stands at {stands[0]},{stands[1]}; '
                             + OTHER_PAIR)
        return cells

    def new_cells(self, agent: int, words: list[str]) -> list[Cell]:
        """A path's cells, each looked at; those that are right are known from then on."""
        cells: list[Cell] = []
        for word in words:
            x, _, y = word.partition(',')
            try:
                cell = int(x), int(y)
            except ValueError:
                raise self.fault(f'`{word[:20]}` is no cell') from None
            if cells and abs(cell[0] - cells[-1][0]) + abs(cell[1] - cells[-1][1]) > 1:
                raise self.fault(f'the path of agent {agent} jumps from {cells[-1][0]},{cells[-1][1]} to {word}')
            if not self.run.instance.is_passable(cell):
                raise self.fault(f'the path of agent {agent} meets {word}, no passable cell of the map; {OTHER_PAIR}')
            cells.append(cell)
            self.known[word] = cell
        return cells

    def adopt(self, caller: int, agent: int, reply: list[str], cells: list[Cell]) -> None:
        """Takes up a path, of `took TASK` or of `parked POINT`."""
        run, clock = self.run, self.run.clock
        if reply[0] == 'parked':
            point = run.instance.by_name.get(reply[1])
            if point is None or run.instance.points[point].cell != cells[-1]:
                raise self.fault(f'the path of agent {agent} does not end at a point {reply[1]}; {OTHER_PAIR}')
            own = run.halted.get(agent)
            if own is not None:
                self.visit(agent, own, cells)
            served = 0 if own is None else None if agent in run.halted else run.tasks[own].visits[-1] - clock
            run.paths[agent].append(Path(clock, cells, own, point, served if run.homes else None))
            self.note(caller, 'parked', agent, point, len(cells) - 1)
            return
        number = self.taken_by(agent, reply[1])
        task = run.tasks[number]
        had = len(task.visits)
        self.visit(agent, number, cells)
        if len(task.visits) < len(task.stops):
            missed = run.instance.points[task.stops[len(task.visits)]]
            raise self.fault(f'the path of agent {agent} does not come to {missed.name} at {missed.cell[0]},{missed.cell[1]}, '
                             f'a stop of its task {number}; {OTHER_PAIR}')
        if task.agent is None:
            task.agent, task.taken = agent, clock
        served = task.visits[-1] - clock if self.goes_home(agent, number, cells) else None
        run.paths[agent].append(Path(clock, cells, task=number, served=served))
        self.note(caller, 'took', agent, number, len(cells) - 1)
        # visits made at once stand right behind; the others are noted when the log's last clock is known
        self.events += [self.events[-1][:2] + (len(self.events) + i, clock, caller, 'visit', number, i)
                        for i, visit in enumerate(task.visits[had:], had) if visit == clock]

    def taken_by(self, agent: int, word: str) -> int:
        """The number of the task that the agent takes: one that is open, or its own, where it has one."""
        number, own, tasks = number_of(word), self.run.halted.get(agent), self.run.tasks
        if own is not None and own != number:
            raise self.fault(f'agent {agent} takes task {word}, and has task {own}')
        if number is None or number >= len(tasks) or own is None and tasks[number].agent is not None:
            raise self.fault(f'no task {word} is open')
        return number

    def goes_home(self, agent: int, number: int, cells: list[Cell]) -> bool:
        """Whether the path of a task goes on to where the agent started, and does not end at the last stop: as all others of the run."""
        run, end, points = self.run, cells[-1], self.run.instance.points
        homes = end == points[run.instance.starts[agent]].cell != points[run.tasks[number].stops[-1]].cell
        if run.homes not in (None, homes):
            raise self.fault(f'the path of agent {agent} {"goes on home" if homes else "ends at the last stop"}, and those before do not')
        run.homes = homes
        return homes

    def visit(self, agent: int, number: int, cells: list[Cell]) -> None:
        """When the path comes to each stop that is left of the agent's task, in turn, as far as it does."""
        run = self.run
        task = run.tasks[number]
        task.visits += [run.clock + step for step in along([run.instance.points[stop].cell for stop in task.stops[len(task.visits):]], cells)]
        self.grown.append(number)
        if len(task.visits) == len(task.stops):
            run.halted.pop(agent, None)

    def on_tick(self, caller: int, words: list[str], reply: list[str]) -> bool:
        run = self.run
        if words or reply[0] == 'refused':
            self.note(caller, 'refused', 'the clock ticks', ' '.join(reply[1:]))
            return not words
        counts = [number_of(word) for word in reply[1::2]]
        if reply[0::2] != ['clock', 'picked', 'dropped'] or len(reply) != 6:
            return False
        now, picked, dropped = counts
        if now is None or picked is None or dropped is None:
            return False
        if now != run.clock + 1:
            raise self.fault(f'the clock goes from {run.clock} to {now}')
        run.clock += 1
        run.counts.append((picked, dropped))
        return True

    def on_replace(self, caller: int, words: list[str], reply: list[str]) -> bool:
        if len(words) < 2 or number_of(words[0]) is None or reply[0] not in ('replaced', 'refused'):
            return False
        if reply[0] == 'refused':
            self.note(caller, 'refused', f'another planner for agent {words[0]}', ' '.join(reply[1:]))
        else:
            self.note(caller, 'replaced', int(words[0]), ' '.join(reply[1:]))
        return True

    def on_close(self, caller: int, words: list[str], reply: list[str]) -> bool:
        if words or reply[0] not in ('closed', 'refused'):
            return False
        if reply[0] == 'refused':
            self.note(caller, 'refused', 'close', ' '.join(reply[1:]))
        else:
            self.run.closed = True
            self.note(caller, 'closed')
        return True

    def finish(self, torn: bool) -> Run:
        """The run, once its last line was read; torn where a piece of a line follows."""
        run = self.run
        run.cut = torn or run.closed and not self.ended    # a run that is not closed has no last line yet
        for i, task in enumerate(run.tasks):
            del task.visits[bisect.bisect_right(task.visits, run.clock):]
            # at a clock the tick's visits come first
            self.events += [(visit, 0, i, visit, 0, 'visit', i, k) for k, visit in enumerate(task.visits)
                            if task.taken is not None and visit > task.taken]
        self.events.sort(key=lambda event: event[:3])
        run.events = [event[3:] for event in self.events]
        return run
