"""Runs as SVG: a still of one clock, or a picture that moves."""
from __future__ import annotations

from typing import Sequence

from ..texts import BLOCKED, GONE, Cell, Execution, Fault, Instance, Run

CELL = 32
BAND = 30    # below the floor: clock and legend
MOST_MOVES = 200_000
PHASES = ('open', 'assigned', 'carried', 'done')
STYLE = '''<style>
.b{fill:#fff}.f{fill:#eef1f4}.w{fill:#59636e}.p{fill:none;stroke:#8c959f}.t{font:12px sans-serif;fill:#1f2328}
.n{font:bold 11px sans-serif;fill:#fff;text-anchor:middle}.s{font:9px sans-serif;fill:#57606a}
.open{fill:none;stroke:#b35900;stroke-width:2.5}.assigned{fill:#0072b2;stroke:none}
.carried{fill:none;stroke:#00795a;stroke-width:2.5}.done{fill:none;stroke:#57606a;stroke-width:2.5}.y{fill:none;stroke-width:2;opacity:.6}
@media(prefers-color-scheme:dark){.b{fill:#0d1117}.f{fill:#21262d}.w{fill:#6e7681}.p{stroke:#8b949e}.t{fill:#e6edf3}.s{fill:#9198a1}
.open{stroke:#f0a640}.assigned{fill:#58b4f0}.carried{stroke:#2bc596}.done{stroke:#9198a1}}
</style>'''


def colour(agent: int) -> str:
    return f'hsl({agent * 137.508 % 360:.0f},60%,38%)'


def middle(cell: Cell) -> tuple[float, float]:
    return (cell[0] + .5) * CELL, (cell[1] + .5) * CELL


def mark(phase: str, x: float, y: float, inner: str = '') -> str:
    """The shape of a phase: a ring, a triangle, a frame, a tick."""
    r = CELL * (.4 if phase != 'done' or (x, y) == (0, 0) else .22)
    if phase == 'done' and (x, y) != (0, 0):    # beside the agent that may stand there
        x, y = x + CELL * .32, y + CELL * .32
    shape = {'open': f'M{x - r},{y}a{r},{r} 0 1 0 {2 * r},0a{r},{r} 0 1 0 {-2 * r},0',
             'assigned': f'M{x},{y - r}l{r},{2 * r}h{-2 * r}z',
             'carried': f'M{x - r},{y - r}h{2 * r}v{2 * r}h{-2 * r}z',
             'done': f'M{x - r * .7},{y}l{r * .5},{r * .6}l{r * .9},{-r * 1.2}'}[phase]
    return f'<path class="{phase}" d="{shape}"{">" + inner + "</path>" if inner else "/>"}'


def frame(instance: Instance, body: list[str], below: list[str], phases: Sequence[str] = PHASES) -> str:
    width, height = max(instance.width * CELL, 330), instance.height * CELL + BAND
    shown = 2 if width < 400 else 1    # a small floor is shown larger
    aside = (width - instance.width * CELL) / 2
    blocked = []
    for y, row in enumerate(instance.rows):
        x = 0
        while x < len(row):
            end = x
            while end < len(row) and row[end] in BLOCKED:
                end += 1
            if end > x:
                blocked.append(f'M{x * CELL},{y * CELL}h{(end - x) * CELL}v{CELL}h{(x - end) * CELL}z')
            x = max(end, x + 1)
    points = []
    for point in instance.points:
        if point.kind == GONE:
            continue
        x, y = point.cell[0] * CELL, point.cell[1] * CELL
        dash = '' if point.kind == 'station' else ' stroke-dasharray="3 3"'
        points.append(f'<rect class="p" x="{x + 2}" y="{y + 2}" width="{CELL - 4}" height="{CELL - 4}"{dash}/>'
                      f'<text class="s" x="{x + 4}" y="{y + 11}">{point.name}</text>')
    legend = []
    for i, phase in enumerate(phases):
        x = 88 + 62 * i
        legend.append(f'<g transform="translate({x},{instance.height * CELL + 17}) scale(.4)">{mark(phase, 0, 0)}</g>'
                      f'<text class="t" x="{x + 9}" y="{instance.height * CELL + 21}" style="font-size:10px">{phase}</text>')
    return '\n'.join([f'<svg xmlns="http://www.w3.org/2000/svg" viewBox="0 0 {width} {height}" '
                      f'width="{shown * width}" height="{shown * height}">', STYLE, f'<rect class="b" width="{width}" height="{height}"/>',
                      f'<g transform="translate({aside:g})">', f'<rect class="f" width="{instance.width * CELL}" height="{instance.height * CELL}"/>',
                      f'<path class="w" d="{"".join(blocked)}"/>', *points, *body, '</g>',
                      *legend, *below, '</svg>'])


def body_of(agent: int, extra: str = '') -> str:
    r = CELL * .34
    return (f'<circle r="{r}" fill="{colour(agent)}"/><text class="n" y="4">{agent}</text>' + extra)


def load(inner: str = '', opacity: int = 1) -> str:
    return (f'<rect x="4" y="-14" width="9" height="9" fill="#ffd33d" stroke="#000" opacity="{opacity}">{inner}</rect>')


def late(vehicles: Execution, agent: int, clock: int) -> list[str]:
    """The cells that a vehicle occupies; where it is behind, the steps it was not told, and a ring at its plan's place."""
    state, marks = vehicles.state(agent, clock), []
    for x, y in map(middle, state.cells):
        marks.append(f'<rect x="{x - CELL * .46:g}" y="{y - CELL * .46:g}" width="{CELL * .92:g}" height="{CELL * .92:g}" '
                     f'fill="{colour(agent)}" fill-opacity=".3" stroke="{colour(agent)}"/>')
    if state.behind:
        steps = [middle(vehicles.run.cell_at(agent, step)) for step in range(state.last, clock + 1)]
        x, y = steps[-1]
        marks.append(f'<path class="y" stroke-dasharray="5 4" stroke="{colour(agent)}" d="M{"L".join("%g,%g" % step for step in steps)}"/>'
                     f'<circle cx="{x:g}" cy="{y:g}" r="{CELL * .3:g}" fill="none" stroke="{colour(agent)}" stroke-width="2.5"/>'
                     f'<text class="t" x="{x:g}" y="{y + 4:g}" text-anchor="middle" style="font-weight:bold">{state.behind}</text>')
    return marks


def still(run: Run, clock: int, vehicles: Execution | None = None) -> str:
    last = vehicles.clock if vehicles else run.clock
    if not run.start <= clock <= last:
        raise Fault(f'clock {clock} is none of {run.start} to {last}')
    body, carrying = [], set()
    if vehicles:
        for agent in range(len(run.paths)):
            body += late(vehicles, agent, clock)
    for task in vehicles.tasks() if vehicles else run.tasks:
        phase = task.phase(clock)
        if phase in ('open', 'assigned', 'carried'):
            made = sum(visit <= clock for visit in task.visits) if phase == 'carried' else 0
            body.append(mark(phase, *middle(run.instance.points[task.stops[made]].cell)))
            if phase == 'carried':
                carrying.add(task.agent)
        elif phase == 'done' and clock - task.visits[-1] < 3:
            body.append(mark(phase, *middle(run.instance.points[task.stops[-1]].cell)))
    for agent in range(len(run.paths)):
        path = run.path_at(agent, clock)
        ahead = path.cells[clock - path.clock:]
        if len(ahead) > 1:
            line = 'L'.join('%g,%g' % middle(cell) for cell in ahead)
            body.append(f'<path class="y" stroke="{colour(agent)}" d="M{line}"/>')
    for agent in range(len(run.paths)):
        x, y = middle(vehicles.state(agent, clock).cells[0] if vehicles else run.cell_at(agent, clock))
        body.append(f'<g transform="translate({x:g},{y:g})">{body_of(agent, load() if agent in carrying else "")}</g>')
    return frame(run.instance, body, [f'<text class="t" x="6" y="{run.instance.height * CELL + 21}">clock {clock}</text>'])


class Film:
    """A run's clocks as the times of one animation, which holds a while at its end and then begins again."""

    def __init__(self, run: Run, second: float = .8, hold: float = 2.4):
        self.run, self.second = run, second
        self.length = max(1, run.clock - run.start) * second + hold

    def at(self, clock: int) -> str:
        return f'{(clock - self.run.start) * self.second / self.length:.5f}'.rstrip('0').rstrip('.')

    def shown(self, begin: int | None, end: int | None) -> str:
        """Seen from one clock (none: never) up to before the other (none: for ever); of a state with which the run begins both may be
        before it."""
        if begin is None or begin == end or (end is not None and end <= self.run.start):
            return ''
        keys = [(self.at(self.run.start), 1)] if begin <= self.run.start else [('0', 0), (self.at(begin), 1)]
        if end is not None:
            keys.append((self.at(end), 0))
        return self.animate('<animate attributeName="opacity" calcMode="discrete"', [str(value) for _, value in keys],
                            [key for key, _ in keys])

    def animate(self, head: str, values: list[str], keys: list[str]) -> str:
        return (f'{head} values="{";".join(values)}" keyTimes="{";".join(keys)}" dur="{self.length:.1f}s" '
                'repeatCount="indefinite"/>')


def moves(film: Film, agent: int) -> tuple[str, str]:
    """Where the agent begins, and its way through the film; clocks between which it only stands are left out."""
    run = film.run
    places = [run.cell_at(agent, clock) for clock in range(run.start, run.clock + 1)]
    kept = [i for i, place in enumerate(places)
            if i in (0, len(places) - 1) or places[i - 1] != place or places[i + 1] != place]
    values = ['%g,%g' % middle(places[i]) for i in kept] + ['%g,%g' % middle(places[-1])]
    keys = [film.at(run.start + i) for i in kept] + ['1']
    return values[0], film.animate('<animateTransform attributeName="transform" type="translate"', values, keys)


def animated(run: Run) -> str:
    if (run.clock - run.start + 1) * len(run.paths) > MOST_MOVES:
        raise Fault('the run is too long for an SVG that moves; a page plays it')
    film, body = Film(run), []
    for task in run.tasks:
        cells = [middle(run.instance.points[stop].cell) for stop in task.stops]
        visits = task.visits + [None] * (len(cells) - len(task.visits))
        spans = [('open', task.submitted, task.taken, cells[0]), ('assigned', task.taken, visits[0], cells[0])]
        spans += [('carried', begin, end, cell) for begin, end, cell in zip(visits, visits[1:], cells[1:])]
        spans.append(('done', visits[-1], None, cells[-1]))
        for phase, begin, end, cell in spans:
            inner = film.shown(begin, end)
            if inner:
                visible = begin is not None and begin <= run.start
                body.append(f'<g opacity="{int(visible)}">{mark(phase, *cell)}{inner}</g>')
    for agent in range(len(run.paths)):
        place, motion = moves(film, agent)
        loads = [load(inner, 0) for task in run.tasks if task.agent == agent and task.visits
                 if (inner := film.shown(task.visits[0], task.done))]
        body.append(f'<g transform="translate({place})">{motion}{body_of(agent, "".join(loads))}</g>')
    y, below = run.instance.height * CELL + 21, []
    if run.clock - run.start <= 200:
        for clock in range(run.start, run.clock + 1):
            inner = film.shown(clock, clock + 1 if clock < run.clock else None)
            below.append(f'<text class="t" x="6" y="{y}" opacity="{int(clock == run.start)}">clock {clock}{inner}</text>')
    return frame(run.instance, body, below)
