"""Runs: what a log tells, tasks, and the path that each agent has at each clock."""
from __future__ import annotations

import bisect
import collections
from dataclasses import dataclass, field
from typing import Any, Iterator, Sequence

from .instance import Cell, Instance

OTHER_PAIR = 'is this the log of another instance?'


@dataclass
class Task:
    """An order that was accepted. Its clocks are the log's. A log that begins with a state has tasks that were submitted before."""
    client: str
    stops: list[int]     # numbers of points
    submitted: int
    agent: int | None = None
    taken: int | None = None
    visits: list[int] = field(default_factory=list)    # the clocks of the visits made by the log's last clock
    held: bool = False   # an agent had it when the log began: it was taken before, and `taken` is the log's first clock
    before: int = 0      # how many visits were made before the log began

    @property
    def done(self) -> int | None:
        """The clock of its last visit; None where it is not done."""
        return self.visits[-1] if len(self.visits) == len(self.stops) else None

    @property
    def service_time(self) -> int | None:
        """Ticks from its submission to its last visit; None where it is not done."""
        return None if self.done is None else self.done - self.submitted

    @property
    def done_before(self) -> bool:
        """Whether it was done when the log began."""
        return self.before == len(self.stops)

    def phase(self, clock: int) -> str:
        """open, assigned, carried or done: after all entries of that clock; '' before it was handed in."""
        if self.submitted > clock:
            return ''
        if self.taken is None or self.taken > clock:
            return 'open'
        made = bisect.bisect_right(self.visits, clock)
        return 'assigned' if made == 0 else 'carried' if made < len(self.stops) else 'done'


@dataclass
class Path:
    """A path that an agent took up at a clock, to serve a task or to park at a point: it is at cell k at clock + k, until it takes up
    another. With `served` it goes on home behind that step, in which its task is delivered. One with which a log begins may do neither."""
    clock: int
    cells: list[Cell]
    task: int | None = None
    point: int | None = None
    served: int | None = None

    @property
    def end(self) -> int:
        """The clock from which the agent has no steps left."""
        return self.clock + len(self.cells) - 1

    @property
    def free(self) -> int:
        """The clock from which the agent may take up another."""
        return self.end if self.served is None else self.clock + self.served

    def at(self, clock: int) -> Cell:
        """The cell at a clock of the path or behind it."""
        return self.cells[min(clock - self.clock, len(self.cells) - 1)]


@dataclass
class Front:
    """The state with which a log begins, as its first lines name it."""
    after: int = 0          # the number of the log before in its chain; 0: there is none
    size: int = 0           # how many bytes of that log count,
    sum: str = ''           # and their SHA-256
    kind: str = 'whole'     # or stopped, edited


@dataclass
class Run:
    """What a log tells, with the arrivals redone; clocks are those of the log."""
    instance: Instance
    start: int = 0
    clock: int = 0
    paths: list[list[Path]] = field(default_factory=list)    # of each agent, by clock; the first is its start alone
    tasks: list[Task] = field(default_factory=list)
    counts: list[tuple[int, int]] = field(default_factory=list)    # each tick's first and last visits, as the log says
    events: list[tuple[Any, ...]] = field(default_factory=list)    # (clock, caller, kind, ..), without what is only counted
    answers: collections.Counter[str] = field(default_factory=collections.Counter)    # requests for the token by answer
    entries: int = 0
    version: int = 2
    age: int | None = None    # the rule of age, where the log tells one
    earlier: int = 0          # entries of the logs before this one, from which its places count on
    front: Front | None = None
    closed: bool = False
    cut: bool = False    # a piece of a line follows, or behind `close` the last line lacks
    homes: bool | None = None    # whether paths go on home; None where no path of a task tells
    halted: dict[int, int] = field(default_factory=dict)    # of agents whose paths do not lead through all stops left of their task, that

    def path_at(self, agent: int, clock: int) -> Path:
        paths = self.paths[agent]
        return paths[bisect.bisect_right(paths, clock, key=lambda path: path.clock) - 1]

    def cell_at(self, agent: int, clock: int) -> Cell:
        return self.path_at(agent, clock).at(clock)

    def differences(self) -> list[tuple[int, tuple[int, int], tuple[int, int]]]:
        """The ticks whose counts are not those of the paths: clock, as the log says, as the paths give."""
        found = [[0, 0] for _ in self.counts]
        for task in self.tasks:
            for k, visits in enumerate((task.visits[:1], task.visits[len(task.stops) - 1:])):
                for visit in visits:
                    # a visit made as the path is taken stands in no tick's counts
                    if task.taken is not None and visit > task.taken:
                        found[visit - self.start - 1][k] += 1
        return [(self.start + 1 + i, told, (have[0], have[1])) for i, (told, have) in enumerate(zip(self.counts, found))
                if told != tuple(have)]


def standing(instance: Instance) -> Run:
    """The run of no entries: each agent stands at its start."""
    return Run(instance, paths=[[Path(0, [instance.points[point].cell], point=point)] for point in instance.starts])


def along(stops: Sequence[Cell], cells: Sequence[Cell]) -> list[int]:
    """The steps of a path at which it is at these stops, one after another, as far as it comes to them."""
    found: list[int] = []
    step = 0
    for stop in stops:
        try:
            step = cells.index(stop, step)
        except ValueError:
            break
        found.append(step)
    return found


def steps_made(run: Run) -> Iterator[tuple[Cell, Cell]]:
    """Each step that the paths tell and the log's clock has reached, as the cells before and after."""
    for paths in run.paths:
        for path, until in zip(paths, [*(path.clock for path in paths[1:]), run.clock]):
            made = path.cells[:until - path.clock + 1]
            yield from zip(made, made[1:])
